#!/usr/bin/env python3
"""Counts by valgrind how the instructions of a run grow with its input, over the forms that are worst for the loops of the readers.

    tests/performance/growth.py PROGRAM [--vectors VECTORS] [FORM ..]

Each form is run at two sizes, of which the second is twice the first, or the most that its limit allows. Prints a row of a table for each: the sizes, the
instructions, and by how much these grew for one by which the input grew: 1 is even growth, 2 is growth by the square. More than MOST is named in the
end, with status 1. What the run takes on an input of nothing is taken off. FORM is how a name of theirs begins. Needs the built program and `valgrind`.
VECTORS is the built program of crates/vectors, by which JSON is read that is longer than that of a token may be.
"""

import os
import re
import subprocess
import sys
import tempfile
from pathlib import Path

sys.path.append(str(Path(__file__).resolve().parents[2] / "crates/vectors/generators"))
import calls
from certificates import ALGORITHM, EXTENSIONS, KEY, certificate, element, name, number, time
from logs import PLAIN

# Instructions may grow by so much more than the input, for what sorts and for what is taken in larger steps.
MOST = 1.25

START = 1443208345
VERIFY = ["verify", "--chains=c", "--anchors=a", "--table=t", "--answers=w"]
LINE = b"INVITE sip:+12125551213@example.net SIP/2.0\r\n"
PEOPLE = b"From: <sip:+12155551212@example.org>;tag=1\r\nTo: <sip:+12125551213@example.net>\r\n"
END = b"Content-Length: 0\r\n\r\n"


def world(**others):
    """The files by which a call is valid, with others in their places."""
    chains = "".join(f"{calls.X5U % x5u} {file}\n" for x5u, file in (("passport", "leaf"), ("div", "div")))
    files = {"c": chains.encode(), "a": calls.WORLD["ROOT"], "t": b"709J 12155551000 1000\n", "w": calls.answers().encode()}
    files |= {"leaf": calls.WORLD["LEAF"] + calls.WORLD["INT"], "div": calls.WORLD["DIV"] + calls.WORLD["INT"]}
    return files | others


def log(*messages, moment=START):
    return b"".join(b"@%d %d\n" % (moment, len(message)) + message for message in messages)


def identity(claims, index=0, x5u="passport", extra=""):
    """An Identity line, and the answer that confirms it."""
    text = calls.base64url(calls.header("shaken", x5u)) + "." + calls.base64url(claims)
    signature = index.to_bytes(8, "big") + bytes(56)
    line = f'Identity: {text}.{calls.base64url(signature)};info=<{calls.X5U % x5u}>;ppt="shaken"{extra}\r\n'
    return line.encode(), calls.answer(3, text.encode(), signature.hex())


def shaken(index=0, **others):
    return calls.sorted_json({"attest": "A", "dest": {"tn": ["12125551213"]}, "iat": START, "orig": {"tn": "12155551212"}, "origid": f"00000000-0000-4000-8000-{index:012x}", **others})


def call(field):
    return LINE + PEOPLE + field + END


def message(size, part, first=b"", last=END):
    """A message of about so many bytes that is made of one part again and again."""
    start = LINE + PEOPLE + first
    return start + part * ((size - len(start) - len(last)) // len(part)) + last


def one_message(part, first=b"", last=END):
    return lambda size: (VERIFY, world(), log(message(size, part, first, last)))


def fields(count, letters):
    """Identity fields of which each has a token of so many letters, all but the last of another type."""
    return b"".join(b"y: " + b"a" * letters + b';info=<u>;ppt="x"\r\n' for _ in range(count))


def many_calls(size, kind):
    """So many calls of a second, each with its own PASSporT: `own` with a chain of its own too, `one` all with one."""
    made = [identity(shaken(index), index, f"own{index}" if kind == "own" else "passport") for index in range(size)]
    given = log(*(call(field) for field, _ in made))
    confirmed = calls.answers(("INT", "LEAF")) + "".join(answer for _, answer in made)
    return given, confirmed.encode()


def valid_calls(words):
    def make(size):
        given, answers = many_calls(size, "one")
        return words, world(w=answers), given
    return make


def chains_of_their_own(size):
    given, answers = many_calls(size, "own")
    chains = "".join(f"{calls.X5U % f'own{index}'} leaf\n" for index in range(size)).encode()
    return VERIFY, world(c=chains, w=answers), given


def replays(size):
    field, answer = identity(shaken())
    return VERIFY, world(w=(calls.answers(("INT", "LEAF")) + answer).encode()), log(call(field)) * size


def json_call(text):
    return VERIFY, world(), log(call(b"Identity: " + calls.base64url(calls.header("shaken", "passport")).encode() + b"." + calls.base64url(text).encode() +
                                     b"." + b"A" * 86 + f';info=<{calls.X5U % "passport"}>;ppt=shaken\r\n'.encode()))


def listed(words):
    return ["show"], {}, certificate("L", "I", 3, "", words)


def large(subject, issuer, digit, size, letters="c"):
    """A certificate of about so many bytes: an extension that isn't critical is as long as it takes."""
    extensions = b"".join(bytes.fromhex(EXTENSIONS[letter]) for letter in letters)
    own = number(digit)
    room = max(0, size - 260)
    extensions += element(0x30, bytes.fromhex("0603551d20") + element(0x04, bytes(room)))
    content = element(0xA0, number(2)) + own + ALGORITHM + name(issuer) + element(0x30, time("150101000000Z") + time("250101000000Z")) + name(subject)
    content += element(0x30, KEY + element(0x03, b"\0\4" + bytes([digit]) * 64)) + element(0xA3, element(0x30, extensions))
    return element(0x30, element(0x30, content) + ALGORITHM + element(0x03, b"\0" + element(0x30, own + own)))


def chain_of_six(size):
    pairs = [("L", "A", ""), ("A", "B", "c"), ("B", "C", "c"), ("C", "D", "c"), ("D", "E", "c"), ("E", "R", "c")]
    chain = b"".join(large(subject, issuer, index + 2, size, letters) for index, (subject, issuer, letters) in enumerate(pairs))
    field, answer = identity(shaken())
    return VERIFY, world(leaf=chain, w=answer.encode()), log(call(field))


def lists_of_six(size):
    """A chain of six, each with an authority list of so many ranges, which don't touch."""
    words = " ".join(f"{12155550000 + 4 * at}+2" for at in range(size))
    pairs = [("L", "A", ""), ("A", "B", "c"), ("B", "C", "c"), ("C", "D", "c"), ("D", "E", "c"), ("E", "R", "c")]
    chain = b"".join(certificate(subject, issuer, index + 2, letters, words) for index, (subject, issuer, letters) in enumerate(pairs))
    field, answer = identity(shaken())
    return VERIFY, world(leaf=chain, w=answer.encode()), log(call(field))


def anchors(size):
    """So many trust anchors of one name, of which only the last has the key identifier that the chain names."""
    many = b"".join(certificate("R", "R", 1 + at % 200, "ct") for at in range(size))
    field, answer = identity(shaken())
    return VERIFY, world(a=many, leaf=calls.WORLD["LEAF"] + certificate("I", "R", 2, "ca"), w=answer.encode()), log(call(field))


def table(line):
    return lambda size: (VERIFY, world(t="".join(line(at, size) for at in range(size)).encode()), b"")


def chain_map(line):
    return lambda size: (VERIFY, world(c="".join(line(at) for at in range(size)).encode()), b"")


def answers_file(size):
    return VERIFY, world(w="".join(calls.answer(1 + at % 9, b"%d" % at, f"{at:0128x}") for at in range(size)).encode()), b""


VECTORS = ["vectors"]


def json_read(text):
    """The payload of a token in a line of the table of crates/vectors."""
    return lambda size: (VECTORS, {}, b"tokens.signed - - - u - e30." + calls.base64url(text(size)).encode() + b"." + b"A" * 86 + b"\n")


def json_written(text):
    return lambda size: (VECTORS, {}, b"tokens.deterministic x:" + text(size).hex().encode() + b"\n")


def members(size):
    return b"{" + b",".join(b'"%05d":1' % (at * 7919 % 100_003) for at in range(size // 10)) + b"}"


EXPLAIN = ["explain", *VERIFY[1:]]
ASK = ["ask", *VERIFY[1:4]]
NUMBER = 12150000000

# Name, what its size counts, two sizes, and what makes the words, the files and the input of a size.
FORMS = (
    ("log of empty messages", "entries", (20_000, 40_000), lambda size: (VERIFY, world(), b"@1 0\n" * size)),
    ("log, valid calls of one second", "calls", (2_048, 4_096), valid_calls(VERIFY)),
    ("log, replays of one call", "calls", (2_048, 4_096), replays),
    ("log, each call with a chain of its own", "calls", (512, 1_024), chains_of_their_own),
    ("log for explain", "calls", (1_024, 2_048), valid_calls(EXPLAIN)),
    ("log for ask, each question new", "calls", (1_024, 2_048), valid_calls(ASK)),
    ("message of short lines", "bytes", (32_000, 65_500), one_message(b"a:\n")),
    ("message of one long line", "bytes", (32_000, 65_500), one_message(b"x", b"Subject: ", b"\r\n" + END)),
    ("message of continuation lines", "bytes", (32_000, 65_500), one_message(b"\n ", b"Subject: a", b"\r\n" + END)),
    ("message, an Identity field of continuation lines", "bytes", (32_000, 65_500), one_message(b"\n a", b"Identity: a", b"\r\n" + END)),
    ("message, a From field of quotes", "bytes", (32_000, 65_500), lambda size: (VERIFY, world(), log(LINE + b'To: <sip:1@a>\r\nFrom: ' + b'"<" ' * ((size - 120) // 4) + b"\r\ny:a;info=<u>\r\n\r\n"))),
    ("message, asserted identities without a number", "bytes", (32_000, 65_500), one_message(b"P-Asserted-Identity:<a>\n", identity(shaken())[0])),
    ("message, Date fields that are none", "bytes", (32_000, 65_500), one_message(b"Date:\n", b"y:.." + b"A" * 86 + b";info=<u>\r\n")),
    ("message, parameters of an Identity field", "bytes", (32_000, 65_500), one_message(b";x=y", b"Identity: a;info=<u>", b"\r\n" + END)),
    ("message, 16 Identity fields", "letters each", (2_000, 4_000), lambda size: (VERIFY, world(), log(call(fields(15, size) + identity(shaken())[0])))),
    ("claims, nested arrays", "bytes", (2_500, 5_000), lambda size: json_call(b"[" * (size // 2) + b"]" * (size // 2))),
    ("claims, members of one name", "bytes", (2_500, 5_000), lambda size: json_call(b"{" + b'"a":1,' * (size // 6) + b'"a":1}')),
    ("claims, members of many names", "bytes", (2_500, 5_000), lambda size: json_call(b"{" + b",".join(b'"%04d":1' % at for at in range(size // 9)) + b"}")),
    ("claims, a text of escapes", "bytes", (2_500, 5_000), lambda size: json_call(b'{"a":"' + b"\\u0041" * (size // 6) + b'"}')),
    ("claims, a long number", "bytes", (2_500, 5_000), lambda size: json_call(b'{"a":' + b"9" * size + b"}")),
    ("claims, called numbers", "numbers", (16, 32), lambda size: json_call(shaken(dest={"tn": [f"1212555{at:04d}" for at in range(size)]}))),
    ("JSON of many names, read", "bytes", (30_000, 60_000), json_read(members)),
    ("JSON of many names, in its deterministic form", "bytes", (30_000, 60_000), json_written(members)),
    ("JSON of one name", "bytes", (30_000, 60_000), json_read(lambda size: b"{" + b'"a":1,' * (size // 6) + b'"a":1}')),
    ("JSON of arrays side by side", "bytes", (30_000, 60_000), json_read(lambda size: b'{"a":[' + b"[]," * (size // 3) + b"[]]}")),
    ("JSON, a text of escapes", "bytes", (30_000, 60_000), json_read(lambda size: b'{"a":"' + b"\\u0041" * (size // 6) + b'"}')),
    ("JSON, a long number", "bytes", (30_000, 60_000), json_read(lambda size: b'{"a":0.' + b"9" * size + b"}")),
    ("chain of six certificates", "bytes each", (4_000, 8_000), chain_of_six),
    ("chain of six with authority lists", "ranges each", (170, 340), lists_of_six),
    ("authority list of numbers, shown", "entries", (500, 1_000), lambda size: listed(" ".join(f"={at}" for at in range(size, 0, -1)))),
    ("trust anchors of one name", "anchors", (128, 256), anchors),
    ("code table, one code, numbers that rise", "lines", (20_000, 40_000), table(lambda at, size: f"709J {NUMBER + 2 * at}\n")),
    ("code table, one code, numbers that fall", "lines", (20_000, 40_000), table(lambda at, size: f"709J {NUMBER - 2 * at}\n")),
    ("code table, one number again and again", "lines", (20_000, 40_000), table(lambda at, size: "709J 12155551212\n")),
    ("code table, ranges that overlap", "lines", (20_000, 40_000), table(lambda at, size: f"709J {NUMBER + at} {size}\n")),
    ("code table, many codes", "lines", (10_000, 20_000), table(lambda at, size: f"{at:x} {NUMBER + at}\n")),
    ("code table of comments", "lines", (20_000, 40_000), table(lambda at, size: ";\n")),
    ("chain map, long texts that end alike", "lines", (5_000, 10_000), chain_map(lambda at: f"{at:05d}{'x' * 200} f\n")),
    ("chain map, long texts that begin alike", "lines", (5_000, 10_000), chain_map(lambda at: f"{'x' * 200}{at:05d} f\n")),
    ("answers file", "lines", (5_000, 10_000), answers_file),
)


def instructions(program, words, files, given):
    with tempfile.TemporaryDirectory() as folder:
        for file, data in files.items():
            Path(folder, file).write_bytes(data)
        run = subprocess.run(["valgrind", "--tool=callgrind", "--callgrind-out-file=/dev/null", program, *words], cwd=folder, input=given, capture_output=True, env=PLAIN)
    if run.returncode not in (0, 1):
        sys.exit(f"status {run.returncode}: {run.stdout[:300]!r} {run.stderr.decode()[-300:]}")
    return int(re.search(r"Collected : (\d+)", run.stderr.decode()).group(1))


def main():
    program, chosen = os.path.abspath(sys.argv[1]), sys.argv[2:]
    programs = {"vectors": None}
    if chosen[:1] == ["--vectors"]:
        programs["vectors"], chosen = os.path.abspath(chosen[1]), chosen[2:]
    print("| Input | Size | Instructions | Size | Instructions | Growth |\n|---|---|---|---|---|---|")
    none = {words[0]: instructions(program, words, world(), b"") for words in (VERIFY, EXPLAIN, ASK, ["show"])}
    if programs["vectors"]:
        none["vectors"] = instructions(programs["vectors"], [], {}, b"")
    steep = []
    for form, unit, sizes, make in FORMS:
        if chosen and not any(form.startswith(word) for word in chosen):
            continue
        runs = [make(size) for size in sizes]
        if runs[0][0] == VECTORS and not programs["vectors"]:
            continue
        taken = [instructions(programs["vectors"], [], *rest) if words == VECTORS else instructions(program, words, *rest) for words, *rest in runs]
        taken = [count - none[run[0][0]] for count, run in zip(taken, runs)]
        growth = taken[1] / max(taken[0], 1) / (sizes[1] / sizes[0])
        print(f"| {form} | {sizes[0]:,} {unit} | {taken[0]:,} | {sizes[1]:,} | {taken[1]:,} | {growth:.2f} |", flush=True)
        if growth > MOST:
            steep.append(form)
    print("growth: " + (", ".join(f"{form} grows faster than its input" for form in steep) or "nothing grows faster than its input"))
    return 1 if steep else 0


if __name__ == "__main__":
    sys.exit(main())
