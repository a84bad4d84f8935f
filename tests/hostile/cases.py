"""The runs of which memory and devices are refused call by call, and what each writes if nothing is refused.

The messages, PASSporTs, certificates and answers are those of crates/vectors, put together by RFC 8224, 8225, 8588, 8946 and 5280, so what a run writes
doesn't come from this program. `refuse.c` stands before the C library's calls and refuses one of them.
"""

import collections
import os
import struct
import subprocess
import sys
import tempfile
from pathlib import Path

HERE = Path(__file__).resolve().parent
sys.path.insert(0, str(HERE.parents[1] / "crates/vectors/generators"))
sys.path.insert(0, str(HERE.parent / "performance"))
import calls  # noqa: E402
import logs  # noqa: E402
import runs as vectors  # noqa: E402
import signing  # noqa: E402
import states  # noqa: E402

# The call that an earlier run let pass as its seventh, and the diverted one as it passes here: each a ticket, a number and the last second.
PASSED = signing.digest(signing.SHAKEN), 7, calls.IAT + 60
LINKED = signing.digest(signing.DIV), 8, calls.IAT + 60

# The diversion of the diverted call.
AGAIN = calls.signing_input("OWN_SECOND")


def signatures(*texts):
    return "".join(f"sign k1 {signing.digest(text)} {128 * '0'}\n" for text in texts)


def state(call, *kept):
    """The state after a call of this number."""
    return states.state_text(60, call, calls.IAT, sorted(kept))


WORLD = {
    "c": "".join(f"{calls.X5U % name} {name}.cer\n" for name in ("passport", "div")).encode(),
    "passport.cer": calls.WORLD["LEAF"] + calls.WORLD["INT"],
    "div.cer": calls.WORLD["DIV"] + calls.WORLD["INT"],
    "a": calls.WORLD["ROOT"],
    "t": b"709J 12155551000 1000\n",
    "w": calls.answers().encode(),
    "s": signatures(signing.SHAKEN, signing.DIV).encode(),
    "b": (calls.answers() + signatures(signing.DIV, AGAIN)).encode(),
    "l": calls.WORLD["LEAF"],
    "d": calls.WORLD["DIV"],
    "v": calls.CERTIFICATES["SECOND_DIV"],
    "p": state(7, PASSED).encode(),
}

CALL = signing.START % 3 + signing.FIELDS + signing.QUOTED + signing.LENGTH + b"\r\n"
DIVERTED = signing.START % 4 + signing.FIELDS + signing.QUOTED + signing.line_of(signing.DIV, "div", "div", signing.ZEROS) + signing.LENGTH + b"\r\n"
TO_DIVERT = signing.HOP + b"\r\n"

# A run: its words, its input, its whole output and status, the named files in the order in which they are read, what comes of a chain's file that can't be
# read (by the PASSporT, in the order of the call), after how many bytes of the input its lines are written, however the run ends, and what is written
# of a state before the line of the fault if none of the input can be read.
Run = collections.namedtuple("Run", "name words given said status named unread at handed", defaults=[""])

# How many calls are judged before their lines are written.
ROUND = 256

VERIFY = "verify --chains=c --anchors=a --table=t --answers=w"
EXPLAIN = VERIFY.replace("verify", "explain")
ASK = "ask --chains=c --anchors=a --table=t"
SIGN = vectors.SIGN.replace("--answers=w", "--answers=s")
DIVERT = vectors.DIVERT.replace("--answers=w", "--answers=s").replace("--leaf=l", "--leaf=d")
RETARGET = f"retarget --chains=c --anchors=a --table=t --answers=b --key=k1 --iat={calls.IAT} --moment={calls.IAT}"


def entry(message):
    return b"@%d %d\n" % (calls.IAT, len(message)) + message


def runs():
    """Each run."""
    valid = "1 valid - - -\n"
    leaf, link = calls.answers(("LEAF", "INT")), calls.answers(("DIV",))
    for name, message, asked, broken, after, status in (
        ("call", CALL, leaf + calls.answers(("CALL",)), [""], "8 replay 438 18 7\n" + state(8, PASSED), 1),
        ("diverted call", DIVERTED, leaf + link + calls.answers(("CALL", "FIRST")), ["", leaf], "8 valid - - -\n" + state(8, PASSED, LINKED), 0),
    ):
        given = entry(message)
        fields = range(1, len(broken) + 1)
        for words in (VERIFY, f"{VERIFY} --workers=2"):
            unread = [(1, f"1 unread - 10 {field}.0\n") for field in fields]
            yield Run(f"{words.split()[0]}{words[len(VERIFY):]}, {name}", words, given, valid, 0, "catw", unread, len(given))
        unread = [(1, f"8 unread - 10 {field}.0\n" + state(8, PASSED)) for field in fields]
        for words in (f"{VERIFY} --state=p", f"{VERIFY} --state=p --workers=2"):
            yield Run(f"verify{words[len(VERIFY):]}, {name}", words, given, after, status, "catwp", unread, len(given), state(7, PASSED))
        unread = [(1, vectors.holding(9) + f"1 10 unread {field}.0\n") for field in fields]
        yield Run(f"explain, {name}", EXPLAIN, given, vectors.holding(19), 0, "catw", unread, len(given))
        files = ("passport.cer", "div.cer")
        unread = [(3, lines + f"read fault {file}\n") for lines, file in zip(broken, files)]
        yield Run(f"ask, {name}", ASK, given, asked, 0, "cat", unread, len(given))
    signed = signing.PLAIN + signing.line_of(signing.SHAKEN, "passport", "shaken", signing.ZEROS) + b"\r\n"
    yield Run("sign", SIGN, signing.PLAIN + b"\r\n", signed.decode(), 0, "slt", [], None)
    yield Run("divert", DIVERT, TO_DIVERT, (signing.ONCE + b"\r\n").decode(), 0, "sdt", [], None)
    shown = vectors.shown(1, 3, ("authority list", "code 709J"), True) + vectors.shown(2, 2, ("authority all",), False)
    yield Run("show", "show", WORLD["passport.cer"], shown, 0, "", [], None)
    yield from retargeted()
    for words, digits, said, status in (
        ("once --size=1", "00f", "1 won\n2 lost\n3 full 1\n", 1),
        ("once --size=3 --workers=2", "0f8", "1 won\n2 won\n3 won\n", 0),
    ):
        yield Run(words, words, "".join(digit * 64 + "\n" for digit in digits).encode(), said, status, "", [], None)
    yield from longer()


def retargeted():
    """The call and the diverted call, each sent on to the next number."""
    for name, message, number, text, by, leaf in (("call", CALL, 4, signing.DIV, "div", "d"), ("diverted call", DIVERTED, 5, AGAIN, "second", "v")):
        words = f"{RETARGET} --x5u={calls.X5U % by} --leaf={leaf} --target=sip:+1212555121{number}@example.net"
        start = signing.START % number
        said = start + message[len(start):-2] + signing.line_of(text, by, "div", signing.ZEROS) + b"\r\n"
        unread = [(1, f"unread - 10 {field}.0\n") for field in range(1, number - 2)]
        yield Run(f"retarget, {name}", words, message, said.decode(), 0, f"catb{leaf}", unread, None)


def longer():
    """A log of two calls, one of a round that is written before the last call is judged, and the drill."""
    rules, again = vectors.holding(19), vectors.holding(19, 2)
    given = entry(CALL) + entry(DIVERTED)
    unread = [(1, vectors.holding(9) + "1 10 unread 1.0\n" + again)]
    unread += [(1, rules + vectors.holding(9, 2) + f"2 10 unread {field}.0\n") for field in (1, 2)]
    yield Run("explain, two calls", EXPLAIN, given, rules + again, 0, "catw", unread, len(given))
    given = b"@1 0\n" * ROUND + entry(CALL)
    refused = "".join(f"{number} refused 400 1 0.0\n" for number in range(1, ROUND + 1))
    for words in (VERIFY, f"{VERIFY} --workers=2"):
        said, unread = refused + f"{ROUND + 1} valid - - -\n", [(1, refused + f"{ROUND + 1} unread - 10 1.0\n")]
        yield Run(f"{words.split()[0]}{words[len(VERIFY):]}, two rounds", words, given, said, 1, "catw", unread, len(given))
    for words in ("drill --seed 0 --count 40", "drill --seed 0 --count 40 --workers 2"):
        yield Run(words, words, b"", drilled(40), 0, "", [], None)


def drilled(count):
    """The summary of the drill's calls, by what the log of tests/performance expects of the same calls."""
    ends = [line.split()[1:3] for _, _, line in logs.drill(count)]
    said = [f"calls {count}", *(f"{word} {sum(end[0] == word for end in ends)}" for word in ("valid", "replay"))]
    said += [f"refused {code} {sum(end == ['refused', code] for end in ends)}" for code in ("403", "428", "437", "438")]
    return "\n".join(said) + "\n"


def selected(names):
    """The runs whose names begin so, or all."""
    return [run for run in runs() if not names or any(run.name.startswith(name) for name in names)]


KINDS = {name: number for number, name in enumerate(("memory", "input", "files", "open", "write", "short", "thread"))}

# What came of a run: its status, output and errors, how many calls of the kind it made, whether one was refused, and what had been opened and taken before.
Done = collections.namedtuple("Done", "status said errors calls refused opened taken")


class Refusing:
    """Runs a program in a folder of the files above, with one call refused."""

    def __init__(self, program, folder):
        self.program, self.folder = os.path.abspath(program), Path(folder)
        self.library, self.numbers = self.folder / "refuse.so", self.folder / "numbers"
        subprocess.run(["cc", "-O2", "-fPIC", "-shared", "-o", self.library, HERE / "refuse.c", "-ldl"], check=True)
        self.place = self.folder / "run"
        self.place.mkdir()
        for name, data in WORLD.items():
            (self.place / name).write_bytes(data)

    def done(self, run, kind, number):
        self.numbers.write_bytes(struct.pack("=6Q", KINDS[kind], number, 0, 0, 0, 0))
        set_up = {**os.environ, "LD_PRELOAD": str(self.library), "REFUSE_FILE": str(self.numbers)}
        done = subprocess.run([self.program, *run.words.split()], cwd=self.place, input=run.given, capture_output=True, env=set_up, timeout=60)
        counted = struct.unpack("=6Q", self.numbers.read_bytes())
        return Done(done.returncode, done.stdout.decode(), done.stderr, counted[2], counted[3] == 1, counted[4], counted[5])

    def each(self, run, kind):
        """What came of the run with the first call of a kind refused, the second, and so on, up to the one in which none is."""
        number = 0
        while True:
            number += 1
            done = self.done(run, kind, number)
            yield number, done
            if not done.refused:
                return


def refusing(program):
    """A folder that is gone in the end, and the runs in it."""
    folder = tempfile.TemporaryDirectory()
    return folder, Refusing(program, folder.name)
