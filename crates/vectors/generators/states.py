"""Prints the lines of crates/vectors on states that one run hands on to the next, and what they must answer.

    states.py          prints the lines of `stdin`
    states.py answers  prints the lines of `stdout`

The state that a file holds, or the line that can't be read, is worked out here, by regular expressions over whole lines.
"""

import re

import columns

LOW, MIDDLE, HIGH = "00" * 32, "2e941a7f7005ac2ae53538e322c27091d440f7691611118827cdc5dbd29b29b0", "ff" * 32
LAST_MOMENT, LAST_SECOND, LAST_CALL, DAY = 253402300799, 253402387199, 4000000000, 86400

NUMBER = b"(0|[1-9][0-9]*)"
HEAD = ((b"window", DAY), (b"call", LAST_CALL), (b"moment", LAST_MOMENT))
KEPT = re.compile(b"kept ([0-9a-f]{64}) " + NUMBER + b" " + NUMBER + b"\n")


def number(name, line, most):
    """The number that a line gives after its name; None if the line is none of these."""
    found = re.fullmatch(name + b" " + NUMBER + b"\n", line)
    return int(found[1]) if found and int(found[1]) <= most else None


def entry(line, call, before):
    """The entry that a line gives after those before it; None if it gives none."""
    found = KEPT.fullmatch(line)
    if not found or not 1 <= int(found[2]) <= call or int(found[3]) > LAST_SECOND:
        return None
    if before and found[1].decode() <= before[-1][0]:
        return None
    return found[1].decode(), int(found[2]), int(found[3])


def state(file, past):
    """The window, the call, the moment and the entries of a file, or the number of its bad line."""
    if not file:
        return past, 0, 0, []
    lines = re.findall(b"[^\n]*\n|[^\n]+", file)
    place = next((at for at, line in enumerate(lines) if line.rstrip(b"\n") == b"past 1"), len(lines))
    if lines[place:place + 1] != [b"past 1\n"]:
        return place + 1
    numbers, kept = [], []
    for place, line in enumerate(lines[place + 1:] + [b""], place + 2):
        if len(numbers) < len(HEAD):
            name, most = HEAD[len(numbers)]
            found = number(name, line, most)
            if found is None:
                return place
            numbers.append(found)
        elif line == b"end %d\n" % len(kept):
            return (*numbers, kept)
        else:
            found = entry(line, numbers[1], kept)
            if found is None:
                return place
            kept.append(found)
    raise AssertionError("the line after the last is no line of a state")


def escaped(text):
    """A text as a word of a line."""
    plain = {0x20: "\\s", 0x0a: "\\n", 0x0d: "\\r", 0x09: "\\t", 0x5c: "\\\\"}
    return "".join(plain.get(byte) or (chr(byte) if 0x21 <= byte <= 0x7e else f"\\x{byte:02x}") for byte in text) or "x:"


def words(kept):
    """Entries as words of a line."""
    return "".join(f" x:{ticket} {call} {last}" for ticket, call, last in kept)


def answer(file, past):
    found = state(file, past)
    return f"line {found} isn't one of a state" if isinstance(found, int) else "{} {} {}{}".format(*found[:3], words(found[3]))


def text(*lines):
    return "".join(line + "\n" for line in lines)


GOOD = ["past 1", "window 60", "call 9", "moment 1443208345", f"kept {LOW} 1 0", f"kept {MIDDLE} 9 {LAST_SECOND}", f"kept {HIGH} 2 1443208405", "end 3"]


def changed(line, new):
    """The good state with these lines in the place of one, which counts from 1; one that begins with `=` has its own end, or none."""
    lines = [one + "\n" for one in GOOD]
    lines[line - 1:line] = [one[1:] if one.startswith("=") else one + "\n" for one in new]
    return "".join(lines)


def faults_of_numbers():
    """Each of the lines that give a number, in each way in which it can't be read."""
    for line, name, most in ((2, "window", DAY), (3, "call", LAST_CALL), (4, "moment", LAST_MOMENT)):
        for value in ("", "00", "01", "+1", "-1", " 1", "1 ", "1\r", "1 2", "0x1", "1.0", str(most + 1), str(1 << 64), "1" * 30):
            yield changed(line, [f"{name} {value}"])
        for other in (name, name.upper() + " 1", f"{name}\t1", f" {name} 1", "", "; a comment", "\r"):
            yield changed(line, [other])
        yield changed(line, [])
        yield changed(line, [GOOD[line - 1]] * 2)
        yield changed(line, ["=" + GOOD[line - 1]])
        yield "".join(one + "\n" for one in GOOD[:line - 1]) + GOOD[line - 1]
        yield "".join(one + "\n" for one in GOOD[:line - 1])


def faults_of_entries():
    """The line of an entry, in each way in which it can't be read."""
    for ticket in ("", MIDDLE[:63], MIDDLE + "0", MIDDLE.upper(), MIDDLE[:63] + "B", MIDDLE[:63] + "g", MIDDLE[:62] + " 0", LOW, HIGH, "0" * 63 + "0"):
        yield changed(6, [f"kept {ticket} 9 1"])
    for call in ("", "0", "00", "01", "10", "+1", "4294967296", "1" * 30, "x"):
        yield changed(6, [f"kept {MIDDLE} {call} 1"])
    for last in ("", "01", "-1", str(LAST_SECOND + 1), str(1 << 64), "1 ", "1\r", "1 1"):
        yield changed(6, [f"kept {MIDDLE} 9 {last}"])
    for line in (f"kept {MIDDLE} 9", f"kept {MIDDLE}", "kept", "kept ", f"kept  {MIDDLE} 9 1", f"kept {MIDDLE}  9 1", f"kept\t{MIDDLE} 9 1", f"Kept {MIDDLE} 9 1",
                 f" kept {MIDDLE} 9 1", "", "; a comment", "past 1", f"={GOOD[5]}"):
        yield changed(6, [line])
    yield changed(6, [])
    yield changed(6, [GOOD[4], GOOD[5]])
    yield changed(7, [GOOD[6], GOOD[5]])
    yield "".join(one + "\n" for one in GOOD[:6])
    yield "".join(one + "\n" for one in GOOD[:5]) + GOOD[5]


def faults_of_ends():
    """The last line, in each way in which it can't be read."""
    for count in ("", "2", "4", "0", "03", "+3", "3 ", "3\r", str(1 << 32), str((1 << 32) + 3), str((1 << 64) + 3)):
        yield changed(8, [f"end {count}"])
    for line in ("end", "End 3", "end\t3", " end 3", "", f"={GOOD[7]}"):
        yield changed(8, [line])
    yield changed(8, [])


def faults_of_heads():
    """The first line, and what stands before it."""
    for line in ("past 1\r", "past 1 ", " past 1", "past 01", "past 2", "Past 1", "past  1", "past\t1", "past 1 1", "", "=past 1", "=abc", "=past 1\r"):
        yield changed(1, [line])
        yield "abc\n" + changed(1, [line])
    for file in ("abc", "abc\n", "\n", "past 1", "past 1\n", "past 1\r", "past 1\r\n", "a\npast 1", "a\npast 1\r", "a\n\n"):
        yield file
    yield "past 1\n" + text(*GOOD)
    yield text(*GOOD[:4]) + text(*GOOD)
    yield changed(8, ["end 2"]) + text(*GOOD)


def good_ones():
    """Files that hold a state."""
    yield text(*GOOD)
    yield ""
    for line, name, most in ((2, "window", DAY), (4, "moment", LAST_MOMENT)):
        for value in (0, 1, most):
            yield changed(line, [f"{name} {value}"])
    yield changed(3, [f"call {LAST_CALL}"])
    yield text("past 1", "window 0", "call 0", "moment 0", "end 0")
    yield text("past 1", f"window {DAY}", f"call {LAST_CALL}", f"moment {LAST_MOMENT}", f"kept {LOW[:-1]}1 {LAST_CALL} {LAST_SECOND}", "end 1")
    for before in ("\n", "1 valid - - -\n", "past 1\r\n", "past 2\n\r\n past 1\npast 1 \n", "window 60\nend 0\n", "\\\xff\x00\n"):
        yield before + text(*GOOD)
    for behind in ("refused input 5\n", "abc", "\n", text(*GOOD), "past 1\n", "past 1", "\r\n\xff"):
        yield text(*GOOD) + behind


# What is written, or that a rule is broken: the window, the call, the moment and the entries.
WRITTEN = (
    (60, 9, 1443208345, [(LOW, 1, 0), (MIDDLE, 9, LAST_SECOND), (HIGH, 2, 1443208405)]),
    (0, 0, 0, []),
    (DAY, LAST_CALL + 1000000, LAST_MOMENT, []),
    (DAY, (1 << 32) - 1, LAST_MOMENT, [(MIDDLE, (1 << 32) - 1, LAST_SECOND)]),
    (DAY + 1, 9, 0, []),
    (60, 9, LAST_MOMENT + 1, []),
    (60, 9, 0, [(LOW, 0, 0)]),
    (60, 9, 0, [(LOW, 10, 0)]),
    (60, 9, 0, [(LOW, 9, LAST_SECOND + 1)]),
    (60, 9, 0, [(LOW, 1, 0), (LOW, 2, 0)]),
    (60, 9, 0, [(LOW, 1, 0), (HIGH, 2, 0), (MIDDLE, 3, 0)]),
    (60, 9, 0, [(MIDDLE, 1, 0), (HIGH, 2, 0), (LOW, 3, 0)]),
)


def state_text(window, call, moment, kept):
    """The text of a state; None if it breaks a rule."""
    tickets = [ticket for ticket, _, _ in kept]
    if window > DAY or moment > LAST_MOMENT or sorted(set(tickets)) != tickets:
        return None
    if any(not 1 <= one <= call or last > LAST_SECOND for _, one, last in kept):
        return None
    lines = [f"kept {ticket} {one} {last}" for ticket, one, last in kept]
    return text("past 1", f"window {window}", f"call {call}", f"moment {moment}", *lines, f"end {len(kept)}")


def written(*parts):
    """The text of a state as it is answered, if it breaks no rule."""
    found = state_text(*parts)
    return "none" if found is None else escaped(found.encode())


# What is added to a past, one after another.
ADDED = (
    [],
    [(MIDDLE, 1, 5)],
    [(HIGH, 1, 5), (MIDDLE, 2, 6), (LOW, 3, 7)],
    [(MIDDLE, 1, 5), (MIDDLE[:-1] + "1", 2, 6), (MIDDLE, 3, 7), ("0" + MIDDLE[1:], 4, 8)],
    [(f"{place * 7919 % 256:02x}" + LOW[2:], place + 1, place) for place in range(20)],
)


def listed(added):
    """What a past lists to which these were added; of those with one ticket the first stays."""
    first = {}
    for ticket, call, last in added:
        first.setdefault(ticket, (call, last))
    return words((ticket, *first[ticket]) for ticket in sorted(first)).lstrip()


def comment(line):
    return f"# {line}", f"# {line}"


def reads(title, files):
    """The calls that read files, and what they answer."""
    yield comment(title)
    seen = set()
    for file in files:
        file = file.encode("latin-1")
        if file not in seen:
            seen.add(file)
            yield f"state.read 61 {escaped(file)}", answer(file, 61)


def rows():
    """Each line with what it answers."""
    yield comment("`crates/vectors/generators/states.py` prints the lines from here up to the next subject. The window, the call, the moment and the entries of a file,")
    yield comment("each entry as its ticket, its call and its last second; or the line that can't be read. An empty file has the window 61.")
    yield from reads("Files that hold a state: lines before it, and anything after it.", good_ones())
    yield from reads("The first line, and the lines before it.", faults_of_heads())
    yield from reads("The window, the call and the moment.", faults_of_numbers())
    yield from reads("An entry.", faults_of_entries())
    yield from reads("The last line.", faults_of_ends())
    yield comment("The text of a state that is made, or that a rule is broken; a call above 4,000,000,000 is written, and isn't read.")
    for window, call, moment, kept in WRITTEN:
        yield f"state.write {window} {call} {moment}{words(kept)}", written(window, call, moment, kept)
        if call > LAST_CALL:
            again = written(window, call, moment, kept)
            yield f"state.read 61 {again}", "line 3 isn't one of a state"
    yield comment("The entries of a past, in rising order of tickets, in whatever order they were added.")
    for added in ADDED:
        yield f"state.list{words(added)}", listed(added)


if __name__ == "__main__":
    columns.write(rows())
