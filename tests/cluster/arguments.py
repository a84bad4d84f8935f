"""What the package says of arguments that are none."""
import random

import stir
from stir import logs

CALL = stir.Call(1, b"")
BY = stir.World({}, b"", b"")
QUESTION = stir.Question(b"\4" + bytes(64), bytes(32), bytes(64))

# What is tried, the exception, and a word of its sentence.
REFUSED = [
    (lambda: stir.Call("1", b""), TypeError, "moment must be int, and is str"),
    (lambda: stir.Call(True, b""), TypeError, "moment must be int, and is bool"),
    (lambda: stir.Call(-1, b""), ValueError, "moment must be 0 to"),
    (lambda: stir.Call(2**64, b""), ValueError, "moment must be 0 to"),
    (lambda: stir.Call(1, "INVITE"), TypeError, "message must be bytes, and is str"),
    (lambda: stir.Call(1, None), TypeError, "message must be bytes, and is NoneType"),
    (lambda: stir.Settings(past=86_401), ValueError, "past must be 0 to 86,400"),
    (lambda: stir.Settings(future=1.5), TypeError, "future must be int"),
    (lambda: stir.Settings(country="12345"), ValueError, "country must be 1 to 3 digits"),
    (lambda: stir.Settings(country="\u0661"), ValueError, "country must be 1 to 3 digits"),
    (lambda: stir.Settings(country=1), TypeError, "country must be str"),
    (lambda: stir.Settings(national=0), ValueError, "national must be 1 to 14"),
    (lambda: stir.Settings(country="44", national=14), ValueError, "national must be 1 to 13"),
    (lambda: stir.World([], b"", b""), TypeError, "chains must be a mapping"),
    (lambda: stir.World({"a b": b""}, b"", b""), ValueError, "an x5u must be visible ASCII"),
    (lambda: stir.World({"a 1\nb": b""}, b"", b""), ValueError, "an x5u must be visible ASCII"),
    (lambda: stir.World({";a": b""}, b"", b""), ValueError, "an x5u must be visible ASCII"),
    (lambda: stir.World({b"a": b""}, b"", b""), TypeError, "an x5u must be str"),
    (lambda: stir.World({"a": "x"}, b"", b""), TypeError, "a chain must be bytes"),
    (lambda: stir.World({}, None, b""), TypeError, "anchors must be bytes"),
    (lambda: stir.World({}, b"", "x"), TypeError, "table must be bytes"),
    (lambda: stir.World({}, b"", b"", 60), TypeError, "settings must be Settings"),
    (lambda: stir.Question(bytes(64), bytes(32), bytes(64)), ValueError, "key must have 65 bytes, and has 64"),
    (lambda: stir.Question(bytes(65), bytes(32), bytes(64)), ValueError, "key must begin with the byte 4"),
    (lambda: stir.Question.of(b"confirm 04 00 00"), ValueError, "no line"),
    (lambda: stir.ask(b"", BY), TypeError, "call must be Call"),
    (lambda: stir.ask(CALL, {}), TypeError, "by must be World"),
    (lambda: stir.claims(CALL, 60), TypeError, "settings must be Settings"),
    (lambda: stir.judge(CALL, BY, [b"confirm"]), TypeError, "a question must be Question"),
    (lambda: logs.cut("day.log", 10), TypeError, "names must be a list of names"),
    (lambda: logs.cut(["day.log"], 0), ValueError, "calls must be 1 to"),
    (lambda: stir.confirm(b""), TypeError, "question must be Question"),
    (lambda: stir.World({}, b"", b"709J x 2\n"), stir.BadInput, "code table"),
    (lambda: stir.Answers.of(b"sign k %s %s\n" % (b"0" * 64, b"1" * 128) * 2), stir.BadInput, "answers file"),
    (lambda: stir.Answers.of(b"sign a,b %s %s\n" % (b"0" * 64, b"1" * 128)), stir.BadInput, "answers file"),
    (lambda: stir.Answers.of(QUESTION.line()[:-1] + b"\r"), stir.BadInput, "answers file"),
    (lambda: stir.Answers.of(b"confirm 04\n"), stir.BadInput, "answers file"),
    (lambda: stir.show("x"), TypeError, "chain must be bytes"),
    (lambda: stir.show(b"x"), stir.BadInput, "no chain"),
    (lambda: stir.World({}, b"x", b""), stir.BadInput, "trust anchors"),
]


def refused():
    for number, (attempt, kind, words) in enumerate(REFUSED):
        try:
            attempt()
        except (TypeError, ValueError, stir.StirError) as error:
            assert isinstance(error, kind) and words in str(error), f"attempt {number}: {type(error).__name__}: {error}"
        else:
            raise AssertionError(f"attempt {number} was taken, which should say: {words}")
    assert stir.judge(CALL, BY, [QUESTION]) == stir.Refused(1, 400, 0, 0), "an empty message isn't refused by rule 1"
    return f"{len(REFUSED)} attempts"


def anything():
    """Arguments at random. Each is taken, or refused by an exception; the process goes on."""
    draw = random.Random(3)
    values = [None, True, 0, -1, 5, 2**63, 2**64, 2**200, 1.5, "", "1", "\0", "\ud800", b"", b"\0", bytes(70_000), bytearray(3), memoryview(b"xy"), [], {}, CALL, BY]
    values += [{"a": b"\0" * 5}, {"a": None}, stir.Settings(), QUESTION, (QUESTION,), object(), stir.Call]
    makers = [stir.Call, stir.Settings, stir.Question, stir.Question.of, stir.Answers.of, stir.World, stir.Order]
    makers += [stir.ask, stir.judge, stir.verify, stir.explain, stir.x5us, stir.claims, stir.show, stir.to_sign, stir.signed, stir.sign, stir.confirm]
    taken = 0
    for _ in range(4000):
        maker = draw.choice(makers)
        try:
            maker(*(draw.choice(values) for _ in range(draw.randrange(5))))
            taken += 1
        except (TypeError, ValueError, AttributeError, stir.StirError):
            pass
    return f"4,000 attempts, of which {taken} were taken"
