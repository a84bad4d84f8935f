"""Prints the lines on constraints on claims, and what they must answer.

    constraints.py          prints the lines of the `stdin` of crates/vectors
    constraints.py answers  prints the lines of its `stdout`

It puts the texts together by X.690, sections 8.1 and 10.1, and reads each again by offsets to find its first fault. What a payload is by
them goes by Python's own reading of JSON.
"""

import json

import columns

ESCAPES = {32: "\\s", 10: "\\n", 13: "\\r", 9: "\\t", 92: "\\\\"}


class Fault(Exception):
    """A kind and a place."""


def escaped(text):
    """A text as a line has it."""
    return "".join(ESCAPES.get(b) or (chr(b) if 33 <= b <= 126 else f"\\x{b:02x}") for b in text) or "x:"


# ---- texts put together


def element(tag, *parts):
    content = b"".join(parts)
    size = len(content)
    if size < 0x80:
        length = bytes([size])
    elif size < 0x100:
        length = bytes([0x81, size])
    else:
        length = bytes([0x82, size >> 8, size & 0xFF])
    return bytes([tag]) + length + content


def sequence(*parts):
    return element(0x30, *parts)


def name(text):
    return element(0x16, text)


def value(text):
    return element(0x0C, text)


def entry(claim, *values):
    return sequence(name(claim), sequence(*map(value, values)))


def must(*names):
    return element(0xA0, sequence(*map(name, names)))


def permits(*entries):
    return element(0xA1, sequence(*(entry(*one) for one in entries)))


# ---- texts read by offsets


def cut(text, at, end):
    """The element from here on: its tag, where its content begins, and where it ends."""
    if at == end:
        raise Fault(1, at)
    if text[at] & 0x1F == 0x1F:
        raise Fault(1, at)
    if at + 1 == end:
        raise Fault(1, at + 1)
    size, inside = text[at + 1], at + 2
    if size == 0x80 or size > 0x82:
        raise Fault(1, at + 1)
    if size > 0x80:
        more = size - 0x80
        if inside + more > end:
            raise Fault(1, end)
        size = int.from_bytes(text[inside:inside + more], "big")
        if size < (0x80 if more == 1 else 0x100):
            raise Fault(1, at + 1)
        inside += more
    if inside + size > end:
        raise Fault(1, end)
    return text[at], inside, inside + size


def tagged(text, tag, at, end):
    found, inside, behind = cut(text, at, end)
    if found != tag:
        raise Fault(1, at)
    return inside, behind


def some(text, at, end, each):
    """What stands in the SEQUENCE from here on, which isn't empty, and where it ends."""
    inside, behind = tagged(text, 0x30, at, end)
    if inside == behind:
        raise Fault(2, at)
    found = []
    while inside < behind:
        one, inside = each(text, inside, behind)
        found.append(one)
    return found, behind


def name_at(text, at, end):
    inside, behind = tagged(text, 0x16, at, end)
    claim = text[inside:behind]
    if not 1 <= len(claim) <= 64 or not all(0x21 <= b <= 0x7E for b in claim):
        raise Fault(3, at)
    return claim, behind


def value_at(text, at, end):
    inside, behind = tagged(text, 0x0C, at, end)
    try:
        text[inside:behind].decode("utf-8", "strict")
    except UnicodeDecodeError:
        raise Fault(4, at) from None
    return text[inside:behind], behind


def entry_at(text, at, end):
    inside, behind = tagged(text, 0x30, at, end)
    if inside == behind:
        raise Fault(2, at)
    claim, inside = name_at(text, inside, behind)
    values, inside = some(text, inside, behind, value_at)
    if inside < behind:
        raise Fault(1, inside)
    return (claim, values), behind


def part_at(text, tag, at, end, each):
    """The part of this tag, if it begins here, and where it ends."""
    if at == end or text[at] != tag:
        return [], at
    inside, behind = tagged(text, tag, at, end)
    found, inside = some(text, inside, behind, each)
    if inside < behind:
        raise Fault(1, inside)
    return found, behind


def read(text):
    """The names that must be there, and the claims with their values."""
    inside, behind = tagged(text, 0x30, 0, len(text))
    if inside == behind:
        raise Fault(2, 0)
    names, inside = part_at(text, 0xA0, inside, behind, name_at)
    entries, inside = part_at(text, 0xA1, inside, behind, entry_at)
    if inside < behind:
        raise Fault(1, inside)
    if behind < len(text):
        raise Fault(1, behind)
    return names, entries


def is_met(names, entries, payload):
    members = json.loads(payload)
    if not isinstance(members, dict):
        members = {}

    def permitted(claim, values):
        found = members.get(claim.decode())
        return isinstance(found, str) and found.encode() in values

    return all(claim.decode() in members for claim in names) and all(
        permitted(claim, values) for claim, values in entries if claim.decode() in members)


# ---- rows


def comment(text):
    return (f"# {text}", f"# {text}")


def words_of(names, entries):
    """The claims as the words of a call and of an answer have them."""
    words = [str(len(names)), *map(escaped, names), str(len(entries))]
    for claim, values in entries:
        words += [escaped(claim), str(len(values)), *map(escaped, values)]
    return " ".join(words)


def reads(text):
    try:
        answer = "ok " + words_of(*read(text))
    except Fault as fault:
        answer = "fault %d %d" % fault.args
    return (f"constraints.read x:{text.hex()}", answer)


def writes(text):
    read(text)
    return (f"constraints.write x:{text.hex()}", f"x:{text.hex()}")


def builds(names, entries):
    good = names or entries
    good = good and all(1 <= len(n) <= 64 and all(0x21 <= b <= 0x7E for b in n) for n in [*names, *(c for c, _ in entries)])
    good = good and all(values for _, values in entries)
    for _, values in entries:
        for text in values:
            good = good and text.decode("utf-8", "replace").encode() == text
    words = words_of(names, entries)
    return (f"constraints.build {words}", f"ok {words}" if good else "none")


def meets(text, payload):
    return (f"constraints.meets x:{text.hex()} {escaped(payload.encode())}", "true" if is_met(*read(text), payload) else "false")


MUST = bytes.fromhex("300ca00a30081606617474657374")
PERMITS = bytes.fromhex("3013a111300f300d160661747465737430030c0141")
BOTH = sequence(must(b"iat", b"attest"), permits((b"attest", b"A", b"B"), (b"ppt", "é".encode(), b"")))
LONG = b"a" * 64
ODD = ["é", "€", "𐍈", "\u0000", "\ud7ff", "\ue000", "\U0010ffff"]
BAD = ["80", "c0af", "c1bf", "e08080", "eda080", "edbfbf", "f0808080", "f4908080", "f5808080", "c3", "e282", "f09f98", "c328", "41ff", "feff"]


def good_texts():
    yield MUST
    yield PERMITS
    yield BOTH
    yield sequence(must(b"!", b"~", LONG))
    yield sequence(must(b"iat", b"iat"), permits((b"iat", b"1"), (b"iat", b"1", b"1")))
    yield sequence(permits(*((claim, b"") for claim in (b"a", b"b"))))
    yield sequence(permits((b"a", *(text.encode("utf-8", "surrogatepass") for text in ODD))))
    yield sequence(must(*(b"%03d" % n for n in range(30))))
    yield sequence(must(*(b"%03d" % n for n in range(60))), permits((b"a", b"v" * 127), (b"b", b"v" * 128), (b"c", b"v" * 255), (b"d", b"v" * 256)))


def broken_texts():
    names, entries = must(b"iat"), permits((b"iat", b"1"))
    # The outer SEQUENCE: none, cut short, of another tag, empty, with a byte behind it.
    yield from map(bytes.fromhex, ["", "30", "31", "3100", "3f00", "3080", "308100", "30817f", "308200", "3082", "30820080", "308300", "3001", "3000", "300000", "3000a000"])
    yield MUST + b"\0"
    yield BOTH + BOTH
    # The parts: out of order, twice, a third, another tag in place of one, bytes that begin no element.
    yield sequence(entries, names)
    yield sequence(names, names)
    yield sequence(entries, entries)
    yield sequence(names, entries, names)
    yield sequence(names, entries, b"\xa2\0")
    yield from (sequence(names, bytes.fromhex(more)) for more in ("05", "0500", "a0", "a2", "1f", "30", "a1", "a101", "a180", "bf00"))
    yield from (sequence(bytes.fromhex(more)) for more in ("05", "0500", "a2023000", "16016a", "3000", "a0", "a1", "1f", "80", "a001", "a101"))
    # No SEQUENCE in a part, an empty one, one of another tag, one cut short, and bytes behind it.
    for tag in (0xA0, 0xA1):
        yield from (sequence(element(tag, bytes.fromhex(inner))) for inner in ("", "3000", "3100", "30", "3001", "0500", "300005"))
    yield sequence(element(0xA0, sequence(name(b"iat")), b"\x05\0"))
    yield sequence(element(0xA1, sequence(entry(b"iat", b"1")), sequence()))
    yield sequence(element(0xA0, sequence(name(b"iat")), b"\x05\0"), element(0xA1))
    # Names: of another tag, empty, too long, of other bytes, cut short.
    for text in (b"", LONG + b"a", b" ", b"a b", b"\x7f", b"\x80", b"iat\0", "é".encode()):
        yield sequence(must(text))
        yield sequence(must(b"iat", text, b" "))
        yield sequence(permits((text, b"1")))
    yield from (sequence(element(0xA0, sequence(bytes.fromhex(inner)))) for inner in ("0c0161", "16", "1602", "160261", "3000", "1601611e", "1f", "168161"))
    # Entries: of another tag, empty, without values, without a name, with more behind the values.
    for inner in ("3000", "3003160161", "30051601613000", "30053003" "0c0131", "3007160161" "0c0131", "300816016130030c0131", "300a160161" "30030c0131" "0500",
                  "0500", "16016130030c0131", "3008" "0c0161" "30030c0131", "3008160161" "30030c0231", "3008160161" "3003160131", "3008160161" "a0030c0131"):
        yield sequence(element(0xA1, sequence(bytes.fromhex(inner))))
        yield sequence(names, element(0xA1, sequence(entry(b"a", b"1"), bytes.fromhex(inner), entry(b" ", b"1"))))
    # Values that are no UTF-8.
    for text in map(bytes.fromhex, BAD):
        yield sequence(permits((b"a", text)))
    yield sequence(names, permits((b"a", b"1", b"\xff", b"\xfe"), (b" ", b"1")))
    # A text cut short at each byte.
    for size in range(1, len(BOTH)):
        yield BOTH[:size]
    # A text with one byte more, less or another at each place.
    for at in range(len(BOTH)):
        yield BOTH[:at] + bytes([BOTH[at] ^ 0x01]) + BOTH[at + 1:]
        yield BOTH[:at] + bytes([BOTH[at] ^ 0x80]) + BOTH[at + 1:]
        yield BOTH[:at] + BOTH[at + 1:]


def payload_rows():
    one = sequence(permits((b"attest", b"A")))
    yield comment("Each claim that must be there is a member, whatever its value.")
    for payload in ('{"attest":"A"}', '{"attest":null}', '{"attest":{}}', '{"Attest":"A"}', '{}', '{"attes":1,"attestt":1}', '[]', '"attest"', '["attest"]', '{"a":{"attest":1}}'):
        yield meets(MUST, payload)
    both = sequence(must(b"a", b"b"))
    for payload in ('{"a":1,"b":2}', '{"a":1}', '{"b":2}'):
        yield meets(both, payload)
    yield comment("A claim with permitted values may be absent; where it is a member, it is a text and one of them, byte for byte.")
    for payload in ('{}', '{"attest":"A"}', '{"attest":"B"}', '{"attest":"a"}', '{"attest":""}', '{"attest":"A "}', '{"attest":"AA"}', '{"attest":65}', '{"attest":true}',
                    '{"attest":null}', '{"attest":["A"]}', '{"attest":{"A":"A"}}', '{"attest":"\\u0041"}', '{"attest":"B","attest":"A"}', '{"attest":"A","attest":"B"}', '[]'):
        yield meets(one, payload)
    numbers = sequence(permits((b"iat", b"1", b"true", b"null", b"[]", b"{}")))
    for payload in ('{"iat":"1"}', '{"iat":1}', '{"iat":true}', '{"iat":"true"}', '{"iat":null}', '{"iat":[]}', '{"iat":{}}', '{"iat":"2"}'):
        yield meets(numbers, payload)
    yield comment("Several values, the empty one, and others than ASCII.")
    several = sequence(permits((b"attest", b"A", b"", "é".encode(), b"C")))
    for payload in ('{"attest":"A"}', '{"attest":""}', '{"attest":"é"}', '{"attest":"\\u00e9"}', '{"attest":"C"}', '{"attest":"B"}', '{"attest":"e\\u0301"}'):
        yield meets(several, payload)
    yield comment("Each entry of a name counts, and each claim.")
    twice = sequence(permits((b"attest", b"A", b"B"), (b"attest", b"B", b"C")))
    for payload in ('{"attest":"A"}', '{"attest":"B"}', '{"attest":"C"}', '{}'):
        yield meets(twice, payload)
    for payload in ('{"iat":"x","attest":"A","ppt":""}', '{"iat":1,"attest":"B"}', '{"attest":"A"}', '{"iat":1}', '{"iat":1,"attest":"C"}', '{"iat":1,"attest":"A","ppt":"x"}',
                    '{"iat":1,"attest":"A","ppt":"é"}', '{"iat":1,"attest":"A","ppt":1}'):
        yield meets(BOTH, payload)


def built_rows():
    yield builds([], [])
    yield builds([b"attest"], [])
    yield builds([], [(b"attest", [b"A"])])
    yield builds([b"iat", b"attest"], [(b"attest", [b"A", b"B"]), (b"attest", [b""])])
    yield builds([], [(b"attest", [])])
    yield builds([b"iat"], [(b"attest", [b"A"]), (b"ppt", [])])
    for text in (b"", LONG, LONG + b"a", b"a b", b"\x7f", "é".encode(), b"!", b"~"):
        yield builds([b"iat", text], [])
        yield builds([], [(b"iat", [b"1"]), (text, [b"1"])])
    for text in map(bytes.fromhex, BAD):
        yield builds([], [(b"a", [b"1", text])])
    yield builds([], [(b"a", [text.encode() for text in ODD])])


def rows():
    yield comment("constraints: constraints on claims (after RFC 8226, section 8; form and meaning are this project's own)")
    yield ("", "")
    yield comment("`crates/vectors/generators/constraints.py` prints the lines from here up to `certificates`. How many claims must be there and which, and how many have")
    yield comment("permitted values, each with how many and which; or the kind of the first fault and its place. What is read is written so again.")
    for text in good_texts():
        yield reads(text)
        yield writes(text)
    yield comment("The first fault.")
    broken = dict.fromkeys(map(reads, broken_texts()))
    assert sum(answer.startswith("fault") for _, answer in broken) >= 100
    yield from broken
    yield comment("What a fault says.")
    for kind, text in enumerate(("the bytes aren't in the constraints' DER form", "a SEQUENCE of the constraints is empty", "the text is no name of a claim", "the text isn't UTF-8"), 1):
        yield (f"constraints.fault {kind} {kind + 4}", f"{text}, at byte {kind + 4}")
    yield comment("Constraints are built of one claim or more, by names of 1 to 64 visible bytes, each with one value or more in UTF-8.")
    yield from built_rows()
    yield from payload_rows()
    yield ("", "")


if __name__ == "__main__":
    columns.write(rows())
