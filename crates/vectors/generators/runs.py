"""Prints the lines of crates/vectors on runs in which reads and writes fail, and what they must answer.

    runs.py          prints the lines of `stdin`
    runs.py answers  prints the lines of `stdout`

What is answered is worked out here from what docs/FORMATS.md says of a report and of the lines that end a run, and from where the entries of a
log end. The log is read and the output is written a byte a call, so that the call that fails says how many bytes went before it. The rule, whatever the
command:

- A write that fails: the status is 4, and what was written is the first bytes of the whole output, one byte more at each next write. Of an output of more
  than 200 bytes those writes fail that are first, last or around the end of a line.
- A read of the input that fails: the status is 3, and the line `read fault input` comes after the lines of the calls whose entries were whole before.
  `sign`, `divert` and `show` write that line alone.
- A read of a named file that fails: the status is 3, and `read fault NAME` is all that is written.
- A read of a chain's file that fails: the call is `unread` at that PASSporT, for `explain` after the lines of the rules of the call, and the status is 1. `ask`
  writes `read fault NAME` after the lines of the chains before, with status 3.
"""

import itertools

import calls
import columns
from signing import DIV, ONCE, PLAIN, SHAKEN, ZEROS, answers_of, escaped, line_of

VERIFY = "verify --chains=c --anchors=a --table=t --answers=w"

# The files that `verify` reads first, in this order, where there is nothing in them.
EMPTY = "c x: a x: t x: w x:"

# A log of a call of one byte and of one of none, where each entry ends, and its line.
LOG = "@1\\s1\\nx@2\\s0\\n"
CALLS = ((6, "1 refused 400 1 0.1\n"), (11, "2 refused 400 1 0.0\n"))

# A call from 1 to 2 with a PASSporT in its compact form, of which the chain map lists the file `f`.
COMPACT = "@1443208345\\s179\\nINVITE\\ssip:a\\sSIP/2.0\\nf:<tel:+1>\\nt:<tel:+2>\\nDate:Fri,\\s25\\sSep\\s2015\\s19:12:25\\sGMT\\ny:.. 86*A ;info=<u>\\n\\n"

# The files by which the calls above are valid, with those of the chains, and the calls: how long each entry is stands in its head.
WORLD = "c $MAPPED a $ROOT t $CODES w $ALL leaf.cer $OF_CALL div.cer $OF_LINK"
VALID = "1 valid - - -\n"
ENTRIES = (("$ENTRY", len("@1443208345 779\n") + 779, 1), ("$DIVERTED_ENTRY", len("@1443208345 1191\n") + 1191, 2))

# The other commands, with the files that they read first, in their order.
EXPLAIN = VERIFY.replace("verify", "explain")
ASK = "ask --chains=c --anchors=a --table=t"
ORDER = f"--key=k1 --iat={calls.IAT} --answers=w --leaf=l --table=t"
SIGN = f"sign {ORDER} --x5u={calls.X5U % 'passport'} --form=shaken --attest=A --origid={calls.ORIGID % 0}"
DIVERT = f"divert {ORDER} --x5u={calls.X5U % 'div'} --earlier={calls.CALLED}"

READ_FAULT = "read fault input\n"
NAMED = [(3, f"read fault {name}\n") for name in "catw"]


def text(said):
    """A text as it is answered."""
    return escaped(said.encode()) if said else "x:"


def runs(failed, last):
    """What runs come to of which one call more fails, each a status and an output, and the one in which none does; how many came to the same."""
    words = []
    for (status, said), same in itertools.groupby(failed):
        words += [str(len(list(same))), str(status), text(said)]
    return " ".join([*words, "-", str(last[0]), text(last[1])])


def each_read(calls, status):
    """Each read of a log of these calls fails: those that were whole before are reported. Behind the last byte a read finds the end."""
    failed = [(3, "".join(line for end, line in calls if end <= taken) + READ_FAULT) for taken in range(calls[-1][0] + 1)]
    return runs(failed, (status, "".join(line for _, line in calls)))


# The output up to which each write fails in turn; of a longer one the first writes, the last one, and those around the end of each line.
EACH = 200


def some_writes(said):
    """The numbers of writes of an output that are tried alone."""
    ends = [at + 1 for at, letter in enumerate(said) if letter == "\n"]
    return sorted({1, 2, len(said)} | {write for end in ends for write in (end, end + 1) if write <= len(said)})


def each_file(names, others, last):
    """Each read of a named file fails, and then each of another one."""
    return runs([(3, f"read fault {name}\n") for name in names] + others, last)


def holding(last, call=1):
    """What `explain` says of a call that breaks no rule up to this one; of rule 18 it says nothing."""
    return "".join(f"{call} {rule} ok\n" for rule in range(1, last + 1) if rule != 18)


def shown(number, digit, authority, leaf):
    """What `show` says of a certificate of the world that a letter's key signed."""
    said = [f"certificate {number}", "not-before 1420070400", "not-after 1735689600", f"ca {'no' if leaf else 'yes'}", "path-length none", "usage none"]
    return "\n".join([*said, f"key 04{64 * f'{digit:02x}'}", *authority]) + "\n"


def each_write(said, status):
    """Each write of this output fails: what stands there is the bytes before."""
    return runs([(4, said[:written]) for written in range(len(said))], (status, said))


def one(status, said, left, *faults):
    """One run: its status and output, how many bytes of the log are left, and how many reads of files, reads of the log and writes failed."""
    return " ".join([str(status), text(said), str(left), *map(str, faults or (0, 0, 0))])


def command(words):
    return words.replace(" ", "\\s") or "x:"


def rows():
    """Each line with what it answers."""
    def comment(said):
        return f"# {said}", f"# {said}"

    def case(call, words, rest, answer):
        return f"runs.{call} {command(words)} {rest}", answer

    def run(failing, words, rest, answer):
        return f"runs.run {failing} {command(words)} {rest}", answer

    report = "".join(line for _, line in CALLS)
    yield comment("`crates/vectors/generators/runs.py` prints the lines from here up to the end. Which reads of files, reads of the log and writes fail, the words, the")
    yield comment("log, and the files, each a name and its content. The answer is the status, the output, how many bytes of the log are left, and how many")
    yield comment("reads of files, reads of the log and writes failed. `each_read`, `each_write` and `each_file` let the first call of that kind fail, the second,")
    yield comment("and so on, and answer how many runs came to the same status and output; behind `-` stands the run in which none fails.")
    yield comment("Where the words are refused nothing is read.")
    for words in ("", "Verify", "verify --chains=c --anchors=a --table=t", "show --help"):
        yield run("1 1 x:", words, f"{LOG} {EMPTY}", one(2, "words refused\n", 11))
    yield comment("The calls that are whole before a read fails are reported, and no byte is taken behind that.")
    yield case("each_read", VERIFY, f"{LOG} {EMPTY}", each_read(CALLS, 1))
    for read in range(1, 13):
        said = "".join(line for end, line in CALLS if end < read)
        yield run(f"x: {read} x:", VERIFY, f"{LOG} {EMPTY}", one(3, said + READ_FAULT, 12 - read, 0, 1, 0))
    yield comment("Where a write fails a front of the report stands.")
    yield case("each_write", VERIFY, f"{LOG} {EMPTY}", each_write(report, 1))
    yield run(f"5 13 {len(report) + 1}", VERIFY, f"{LOG} {EMPTY}", one(1, report, 0))
    yield comment("Where a named file can't be read nothing is taken of the log.")
    yield case("each_file", VERIFY, f"{LOG} {EMPTY}", runs(NAMED, (1, report)))
    for read, (status, said) in enumerate(NAMED, 1):
        yield run(f"{read} 1 x:", VERIFY, f"{LOG} {EMPTY}", one(status, said, 11, 1, 0, 0))
    yield comment("A call is set aside where the file of its chain can't be read; where it isn't there, rule 10 is broken.")
    files = "c u\\sf\\n a x: t x: w x:"
    yield f"COMPACT_ENTRY = {COMPACT}", "COMPACT_ENTRY ="
    yield case("each_file", VERIFY, f"$COMPACT_ENTRY {files}", runs([*NAMED, (1, "1 unread - 10 1.0\n")], (1, "1 refused 436 10 1.0\n")))
    yield comment("A log of three rounds.")
    many = "".join(f"{number} refused 400 1 0.0\n" for number in range(1, 514))
    yield run("x: x: x:", VERIFY, f"513*@1\\s0\\n {EMPTY}", one(1, many, 0))
    yield comment("The calls before a fault of the log are reported; it is known at its first byte, and no further one is taken.")
    yield run("x: x: x:", VERIFY, f"@1\\s0\\n@1\\s3\\nab {EMPTY}", one(5, "1 refused 400 1 0.0\nrefused input 5\n", 0))
    yield run("x: x: x:", VERIFY, f"@1\\s0\\nxyz {EMPTY}", one(5, "1 refused 400 1 0.0\nrefused input 5\n", 2))
    yield comment("Of a chain file that is too long one byte more is taken than it may have.")
    yield run("x: x: x:", "show", "49152*x:00", one(5, "refused input 0\n", 0))
    yield run("x: x: x:", "show", "49154*x:00", one(5, "long input\n", 1))
    yield comment("Tickets are claimed once the input was read to its end: a read that fails leaves none of their lines, and a write a prefix of them.")
    yield "TICKETS = 64*0 \\n 64*f \\n", "TICKETS ="
    yield case("each_read", "once --size=1", "$TICKETS", runs([(3, READ_FAULT)] * 131, (1, "1 won\n2 full 1\n")))
    yield case("each_write", "once --size=1", "$TICKETS", each_write("1 won\n2 full 1\n", 1))
    yield case("each_write", "once --size=2", "$TICKETS", each_write("1 won\n2 won\n", 0))
    yield run("1 131 x:", "once --size=1", "$TICKETS", one(3, READ_FAULT, 0, 0, 1, 0))
    yield run("x: x: x:", "once --size=2", "63*0", one(5, "refused input 1\n", 0))
    yield comment("A valid call, and one that was diverted once: each read of the log, each write, and each read of a file. The chain of each PASSporT is read.")
    for log, length, passports in ENTRIES:
        yield case("each_read", VERIFY, f"{log} {WORLD}", each_read([(length, VALID)], 0))
        yield case("each_write", VERIFY, f"{log} {WORLD}", each_write(VALID, 0))
        unread = [(1, f"1 unread - 10 {field}.0\n") for field in range(1, passports + 1)]
        yield case("each_file", VERIFY, f"{log} {WORLD}", runs([*NAMED, *unread], (0, VALID)))
    yield from other_commands(comment, case, run)
    yield from malicious(comment, run)


def other_commands(comment, case, run):
    """Each call fails of the other commands, and of `verify` on several workers."""

    def each(words, log, files, read, whole, file):
        yield case("each_read", words, f"{log} {files}".rstrip(), read)
        status, said = whole
        if len(said) <= EACH:
            yield case("each_write", words, f"{log} {files}".rstrip(), each_write(said, status))
        else:
            for write in some_writes(said):
                yield run(f"x: x: {write}", words, f"{log} {files}".rstrip(), one(4, said[: write - 1], 0, 0, 0, 1))
        yield case("each_file", words, f"{log} {files}".rstrip(), file)

    yield comment("The same on several workers.")
    for (log, length, passports), workers in zip(ENTRIES, (2, 8)):
        unread = [(1, f"1 unread - 10 {field}.0\n") for field in range(1, passports + 1)]
        answers = each_read([(length, VALID)], 0), (0, VALID), each_file("catw", unread, (0, VALID))
        yield from each(f"{VERIFY} --workers={workers}", log, WORLD, *answers)
    yield comment("`explain` on both.")
    for log, length, passports in ENTRIES:
        unread = [(1, holding(9) + f"1 10 unread {field}.0\n") for field in range(1, passports + 1)]
        answers = each_read([(length, holding(19))], 0), (0, holding(19)), each_file("catw", unread, (0, holding(19)))
        yield from each(EXPLAIN, log, WORLD, *answers)
    yield comment("`ask` on both: the lines of a chain are written before the next chain's file is read.")
    leaf, link = calls.answers(("LEAF", "INT")), calls.answers(("DIV",))
    whole = leaf + calls.answers(("CALL",)), leaf + link + calls.answers(("CALL", "FIRST"))
    broken = [(3, "read fault leaf.cer\n")], [(3, "read fault leaf.cer\n"), (3, leaf + "read fault div.cer\n")]
    for (log, length, _), said, faults in zip(ENTRIES, whole, broken):
        yield from each(ASK, log, WORLD, each_read([(length, said)], 0), (0, said), each_file("cat", faults, (0, said)))
    yield comment("`sign` and `divert`: nothing is written before the input was read to its end.")
    signed = PLAIN + line_of(SHAKEN, "passport", "shaken", ZEROS) + b"\r\n"
    for name, words, message, length, key, leaf, written in (
        ("CALLED", SIGN, "$TO_1213 $HEAD $END", len(PLAIN) + 2, SHAKEN, "$LEAF", signed),
        ("MOVED", DIVERT, "$TO_1214 $HEAD $SHAKEN $END", 779, DIV, "$DIV", ONCE + b"\r\n"),
    ):
        said = written.decode()
        yield define(name, message)
        yield define(f"{name}_ANSWERS", answers_of((key, ZEROS)))
        read = runs([(3, READ_FAULT)] * (length + 1), (0, said))
        yield from each(words, f"${name}", f"w ${name}_ANSWERS l {leaf} t $CODES", read, (0, said), each_file("wlt", [], (0, said)))
    yield comment("`show` on a chain of two; it reads no file.")
    said = shown(1, 3, ("authority list", "code 709J"), True) + shown(2, 2, ("authority all",), False)
    length = len(calls.WORLD["LEAF"] + calls.WORLD["INT"])
    yield from each("show", "$OF_CALL", "", runs([(3, READ_FAULT)] * (length + 1), (0, said)), (0, said), each_file("", [], (0, said)))


# The Identity line of the call, with its token in parts, and what comes after the token.
PARAMETERS = f';info=<{calls.X5U % "passport"}>;alg=ES256;ppt="shaken"\\r\\n'
HEADER = calls.base64url(calls.header("shaken", "passport"))


def with_claims(claims):
    """The Identity line of a token with this payload."""
    return f"Identity:\\s {HEADER}.{calls.base64url(claims)}. 86*A {PARAMETERS}", len(HEADER) + len(calls.base64url(claims)) + 88


def malicious(comment, run):
    """Input that is made to break a reader: the log, the chain's file and the PASSporT of a call."""

    def judged(log, line, left=0, chain="$OF_CALL", status=1):
        return run("x: x: x:", VERIFY, f"{log} {WORLD.replace('$OF_CALL', chain)}", one(status, line, left))

    yield comment("Input that is made to break a reader. A header of a log that no entry has is known at its first byte with which none goes on.")
    yield judged("@01\\s0\\n", "refused input 0\n", 3, status=5)
    yield judged("@1\\s131073\\n", "refused input 0\n", 1, status=5)
    yield comment("A chain's file that is a front of a certificate, each in turn; an empty one; and one of seven certificates.")
    for size in range(1, len(calls.WORLD["LEAF"])):
        yield judged("$ENTRY", "1 refused 437 11 1.1\n", chain=f"$LEAF[..{size}]")
    yield judged("$ENTRY", "1 refused 437 12 1.0\n", chain="x:")
    yield define("SEVEN", "$LEAF 6*$INT")
    yield judged("$ENTRY", "1 refused 437 11 1.7\n", chain="$SEVEN")
    yield comment("The longest message, without a line; a digest text that is too long; nested arrays for a payload; a second past the last; a number that is too long.")
    yield define("LETTERS", f"@1443208345\\s65535\\n {65535}*A")
    yield judged("$LETTERS", "1 refused 400 1 0.65535\n")
    around = len(PLAIN) + 2 + len("Identity: ") + len(PARAMETERS) - 2
    long_number = calls.payload("1234567890123456", attest="A", origid=calls.ORIGID % 0)
    for name, (line, size), place in (
        ("LONG_DIGEST", (f"Identity:\\s 8193*A {PARAMETERS}", 8193), "3 1.8192"),
        ("NESTED", with_claims(b"[" * 200 + b"]" * 200), "6 1.3"),
        ("LATE", with_claims(calls.payload(calls.CALLED, 253402300800, attest="A", origid=calls.ORIGID % 0)), "6 1.15"),
        ("LONG_NUMBER", with_claims(long_number), "6 1.17"),
    ):
        yield define(name, f"@1443208345\\s{around + size}\\n $TO_1213 $HEAD {line} $END")
        yield judged(f"${name}", f"1 refused 438 {place}\n")


def define(name, words):
    return f"{name} = {words}", f"{name} ="


if __name__ == "__main__":
    columns.write(rows())
