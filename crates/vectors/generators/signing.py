"""Prints the lines on messages that are signed, and what they must answer.

    signing.py parts|messages          prints the lines of the `stdin` of crates/vectors on what a signer puts together, or on messages that it signs
    signing.py parts|messages answers  prints the lines of its `stdout`

The messages are put together by RFC 3261, section 7, the PASSporTs by RFC 8225, RFC 8588 and RFC 8946, the digests by FIPS 180-4. The
lines name what `stdin` defines in front of them: START, FIELDS, INFO and INVITE.
"""

import hashlib
import sys

import columns
from calls import IAT, ORIGID, base64url, header, link, payload, shaken, sorted_json

FIELDS = (
    b"Via: SIP/2.0/UDP host.example.org;branch=z9hG4bK1\r\n"
    b"Max-Forwards: 70\r\n"
    b'From: "Alice" <sip:+12155559999@example.org>;tag=1\r\n'
    b"To: <sip:+12125551213@example.net>\r\n"
    b"P-Asserted-Identity: <tel:+12155551212>\r\n"
    b"Call-ID: 1@example.org\r\n"
    b"CSeq: 1 INVITE\r\n"
)
START = b"INVITE sip:+1212555121%d@example.net SIP/2.0\r\n"
LENGTH = b"Content-Length: 0\r\n"
DATE = b"Date: Fri, 25 Sep 2015 19:12:25 GMT\r\n"
INFO = "https://cert.example.org/%s.cer"

# Signatures by what they are of: 64 equal bytes.
ZEROS, ONES = bytes(64), bytes([1]) * 64

PLAIN = START % 3 + FIELDS + LENGTH
DATED = PLAIN + DATE


def escaped(text):
    """A text as an answer has it."""
    letters = {32: "\\s", 10: "\\n", 13: "\\r", 9: "\\t", 92: "\\\\"}
    return "".join(letters.get(b) or (chr(b) if 33 <= b <= 126 else f"\\x{b:02x}") for b in text)


def signing(head, claims):
    """What is signed (RFC 7515, section 2)."""
    return base64url(head) + "." + base64url(claims)


def digest(text):
    return hashlib.sha256(text.encode()).hexdigest()


def identity(token, x5u, ppt):
    """The line of an Identity header field (RFC 8224, section 4)."""
    return f"Identity: {token};info=<{INFO % x5u}>;alg=ES256{f';ppt={ppt}' if ppt else ''}\r\n".encode()


def line_of(text, x5u, ppt, signature):
    return identity(text + "." + base64url(signature), x5u, ppt)


SHAKEN = signing(header("shaken", "passport"), shaken("A", ORIGID % 0))
GATEWAY = signing(header("shaken", "passport"), shaken("C", ORIGID % 0))
BASE = signing(header(None, "passport"), payload("12125551213"))
DIV = signing(header("div", "div"), link("12125551213", "12125551214"))
SECOND = signing(header("div", "div"), link("12125551214", "12125551215"))
FROM = signing(header(None, "passport"), sorted_json({"dest": {"tn": ["12125551213"]}, "iat": IAT, "orig": {"tn": "12155559999"}}))

# A call with its Identity line, and the same diverted once.
QUOTED = b"Identity: " + (SHAKEN + "." + base64url(ZEROS) + f';info=<{INFO % "passport"}>;alg=ES256;ppt="shaken"\r\n').encode()
HOP = START % 4 + FIELDS + QUOTED + LENGTH
ONCE = HOP + line_of(DIV, "div", "div", ZEROS)


def comment(text):
    return (f"# {text}", f"# {text}")


def define(name, words):
    return (f"{name} = {words}", f"{name} =")


def answers_of(*signed):
    return " \\n ".join(f"sign\\sk1\\s{digest(text)}\\s {'128*0' if signature == ZEROS else '64*01'}" for text, signature in signed)


# Two messages that come out: the text that was signed, the type of the PASSporT and the signature.
COME_OUT = ((SHAKEN, "shaken", ZEROS), (BASE, None, ONES))


def rows_of_parts():
    """Each line on what a signer puts together with what it answers; comments and definitions answer themselves."""
    yield ("", "")
    yield comment("signing: messages with one more header field, and what is signed of a PASSporT (RFC 8224, section 4.1; RFC 8225, section 8)")
    yield ("", "")
    yield comment("A header field put into a message: its name, its value, and the words of the message. It stands in the last line of the head. `name` and")
    yield comment("`value` answer what can't be added; a message's own fault comes before the size of what would come out.")
    small, out = r"INVITE\ssip:a\sSIP/2.0\nf:1\nt:1\n", "INVITE\\ssip:a\\sSIP/2.0\\nf:1\\nt:1\\n"
    for name, value in (("X", "1"), ("Identity", "a\\s\\tb"), ("x-Y.9!%*_+`'~", ";"), ("Call-ID", "\\xff")):
        yield (f"signing.with_field {name} {value} {small} \\nbody\\n\\n", f"ok {out}{name}:\\s{value}\\r\\n\\nbody\\n\\n")
    yield (f"signing.with_field X 1 {small.replace(chr(92) + 'n', chr(92) + 'r' + chr(92) + 'n')} \\r\\n", "ok " + out.replace("\\n", "\\r\\n") + "X:\\s1\\r\\n\\r\\n")
    for name in ("From", "fROM", "F", "To", "t", "x:", "a:b", "a\\sb", "\\xe4", "a\\n"):
        yield (f"signing.with_field {name} 1 {small} \\n", "name")
    for value in ("x:", "\\s", "\\s1", "1\\s", "\\t1", "1\\t", "1\\r", "1\\n", "1\\r\\n\\s2", "\\n1"):
        yield (f"signing.with_field X {value} {small} \\n", "value")
    yield ("signing.with_field X 1 hello", "fault 4 5")
    yield ("signing.with_field X 1 hello\\n\\n", "fault 2 0")
    yield (f"signing.with_field X 1 {small} X\\n\\n", f"fault 3 {len('INVITE sip:a SIP/2.0nf:1nt:1n')}")
    yield ("signing.with_field X 1 INVITE\\ssip:a\\sSIP/2.0\\nt:1\\n\\n", f"fault 5 {len('INVITE sip:a SIP/2.0nt:1n')}")
    size = len("INVITE sip:a SIP/2.0nf:1nt:1nn")
    yield (f"signing.with_field X 1 {small} \\n {65536 - 6 - size}*x", "fault 1 65535")
    yield (f"signing.with_field X 1 {small} \\n {65536 - size}*x", "fault 1 65535")
    yield ("", "")

    yield comment("What is signed of a PASSporT, by its parts as for `claims.new`.")
    origid = ORIGID % 0
    yield (f"signing.text shaken A {origid} $INFO {IAT} 12155551212 12125551213", SHAKEN)
    yield (f"signing.text base $INFO {IAT} 12155551212 12125551213", BASE)
    yield (f"signing.text div 12125551213 {INFO % 'div'} {IAT} 12155551212 12125551214", DIV)
    yield ("", "")
    yield comment("What comes out where such a message is signed: its fields are read again.")
    for text, ppt, signature in COME_OUT:
        value = (line_of(text, "passport", ppt, signature))[len("Identity: ") : -2].decode()
        yield (f"identity.read {value}", f"ok {text}.{base64url(signature)} {INFO % 'passport'} alg=ES256" + (f" ppt={ppt}" if ppt else ""))


def rows_of_messages():
    """Each line on messages that are signed with what it answers."""
    yield ("", "")
    yield comment("signing: messages that are signed (RFC 8224, section 4.1; RFC 8946, section 4.1)")
    yield ("", "")
    origid = ORIGID % 0
    yield comment("A message that is signed: its form (`base`, `compact`, or the attestation and the identifier of the call), the key, the URI, the second, the local")
    yield comment("numbering, the holder's entries (`-` for no holder), the code table, the answers, which calls of the provider fail, and the message. The answer tells")
    yield comment("how often the provider was asked, and the message that comes out, or the fault with the digest that it carries.")
    yield define("CALLED_LINES", "$START $FIELDS Content-Length:\\s0\\r\\n")
    yield define("CALLED_ANSWERS", answers_of((SHAKEN, ZEROS), (GATEWAY, ONES), (BASE, ONES), (FROM, ZEROS)))
    order = f"k1 $INFO {IAT} 1 10"
    full = f"A:{origid}"
    tail = "$CALLED_LINES \\r\\n"

    def sign(form, message, answer, order=order, holder="- x:", given="$CALLED_ANSWERS", failing="x:"):
        return (f"signing.sign {form} {order} {holder} {given} {failing} {message}", answer)

    def written(lines, text, ppt, signature, asks=1, x5u="passport"):
        return f"{asks} ok " + escaped(lines + line_of(text, x5u, ppt, signature) + b"\r\n")

    yield sign(full, tail, written(PLAIN, SHAKEN, "shaken", ZEROS))
    yield sign(f"C:{origid}", tail, written(PLAIN, GATEWAY, "shaken", ONES))
    yield sign("base", tail, written(PLAIN, BASE, None, ONES))
    dated = "$CALLED_LINES Date:\\sFri,\\s25\\sSep\\s2015\\s19:12:25\\sGMT\\r\\n\\r\\n"
    compact = identity(".." + base64url(ONES), "passport", None)
    yield sign("compact", dated, "1 ok " + escaped(DATED + compact + b"\r\n"))
    yield sign(full, "$CALLED_LINES \\r\\nbody\\r\\n\\r\\n", written(PLAIN, SHAKEN, "shaken", ZEROS) + "body\\r\\n\\r\\n")
    yield comment("Without an asserted identity the number of From calls.")
    bare = "$START From:\\s<sip:+12155559999@example.org>\\r\\nTo:\\s<sip:+12125551213@example.net>\\r\\n\\r\\n"
    bare_lines = START % 3 + b"From: <sip:+12155559999@example.org>\r\nTo: <sip:+12125551213@example.net>\r\n"
    yield sign("base", bare, written(bare_lines, FROM, None, ZEROS))
    yield comment("To decides, and not the request URI.")
    moved = "INVITE\\ssip:+12125551219@example.net\\sSIP/2.0\\r\\n $FIELDS \\r\\n"
    yield sign("base", moved, written(START % 9 + FIELDS, BASE, None, ONES))
    yield comment("What comes out is judged.")
    for text, ppt, signature in COME_OUT:
        message = escaped(PLAIN + line_of(text, "passport", ppt, signature) + b"\r\n")
        yield (f"rules.screen 1 10 60 5 {IAT} {message}", f"screened 1 {IAT + 60} x:{digest(text)}")
        yield (f"rules.screen 1 10 60 5 {IAT + 61} {message}", "refused 403 9 1 0")
    yield (f"rules.screen 1 10 60 5 {IAT} {escaped(DATED + compact + crlf())}", f"screened 1 {IAT + 60} x:{digest(BASE)}")
    yield ("", "")

    yield comment("1: no message, another method, another Date or none in the compact form, also where a number is missing; and a message that gets too long,")
    yield comment("where both numbers are there, before the holder is looked at.")
    yield sign(full, "hello", "0 fault 1")
    yield sign(full, "OPTIONS\\ssip:+12125551213@example.net\\sSIP/2.0\\r\\n $FIELDS \\r\\n", "0 fault 1")
    yield sign("compact", dated, "0 fault 1", order=f"k1 $INFO {IAT + 1} 1 10")
    yield sign("compact", tail, "0 fault 1")
    nobody = "$START From:\\s<sip:alice@example.org>\\r\\nTo:\\s<sip:+12125551213@example.net>\\r\\n"
    yield sign("compact", nobody + " \\r\\n", "0 fault 1")
    room = 65535 - len(PLAIN) - 2 - len(line_of(SHAKEN, "passport", "shaken", ZEROS))
    yield sign(full, f"{tail} {room + 1}*x", "0 fault 1")
    yield sign(full, f"{tail} {room + 1}*x", "0 fault 1", holder="=1 x:")
    yield comment("With one byte less there is room: the holder is looked at, and the key is asked.")
    yield sign(full, f"{tail} {room}*x", "0 fault 3", holder="=1 x:")
    yield sign(full, f"{tail} {room}*x", f"1 fault 4 x:{digest(SHAKEN)}", given="x:")
    room = 65535 - len(PLAIN) - 2 - len(line_of(BASE, "passport", None, ZEROS))
    yield sign("base", f"{tail} {room + 1}*x", "0 fault 1")
    yield sign("base", f"{tail} {room}*x", f"1 fault 4 x:{digest(BASE)}", given="x:")
    room = 65535 - len(DATED) - 2 - len(compact)
    yield sign("compact", f"{dated} {room + 1}*x", "0 fault 1")
    yield sign("compact", f"{dated} {room}*x", f"1 fault 4 x:{digest(BASE)}", given="x:")
    yield comment("2: no calling number, or none of To; of a message however long.")
    yield sign(full, nobody + " \\r\\n", "0 fault 2")
    yield sign(full, nobody + f" \\r\\n {65000}*x", "0 fault 2")
    yield sign(full, "$START From:\\s<sip:+12155559999@example.org>\\r\\nTo:\\s<sip:bob@example.net>\\r\\n\\r\\n", "0 fault 2", holder="=1 x:")
    yield comment("3: a holder who may speak for the called number alone, or for one that isn't his; a code is enough for a gateway.")
    yield sign(full, tail, "0 fault 3", holder="=12125551213 x:")
    yield sign(full, tail, "0 fault 3", holder="709J x:", given="x:")
    yield sign(full, tail, written(PLAIN, SHAKEN, "shaken", ZEROS), holder="709J 709J\\s12155551000\\s1000\\n")
    yield sign(full, tail, written(PLAIN, SHAKEN, "shaken", ZEROS), holder="=12155551212 x:")
    yield sign("base", tail, "0 fault 3", holder="709J x:")
    yield sign(f"C:{origid}", tail, written(PLAIN, GATEWAY, "shaken", ONES), holder="709J x:")
    yield comment("4: the key signs nothing for what was to be signed, as of another name; 5: the provider failed.")
    yield sign(full, tail, f"1 fault 4 x:{digest(SHAKEN)}", given="x:")
    yield sign(full, tail, f"1 fault 4 x:{digest(SHAKEN)}", order=f"k2 $INFO {IAT} 1 10")
    yield sign(full, tail, "1 fault 5", failing="1")
    yield sign(full, tail, written(PLAIN, SHAKEN, "shaken", ZEROS), failing="2")
    yield comment("An order is one whose URI, second and identifier are of their forms.")
    yield sign(full, tail, "order", order=f"k1 x: {IAT} 1 10")
    yield sign(full, tail, "order", order=f"k1 a<b {IAT} 1 10")
    yield sign(full, tail, "order", order=f"k1 2049*a {IAT} 1 10")
    yield sign(full, tail, "order", order="k1 $INFO 253402300800 1 10")
    yield sign("A:123e4567-e89b-12d3-a456-42665544000g", tail, "order")
    yield ("", "")

    yield comment("A message that goes to another number than before: the earlier number, and the other words as for a message that is signed.")
    yield define("MOVED_LINES", "INVITE\\ssip:+12125551214@example.net\\sSIP/2.0\\r\\n $FIELDS Identity:\\s $IDENTITY \\r\\nContent-Length:\\s0\\r\\n")
    yield define("MOVED_ANSWERS", answers_of((DIV, ZEROS), (SECOND, ONES)))
    order = f"k1 {INFO % 'div'} {IAT} 1 10"

    def divert(earlier, message, answer, holder="- x:", given="$MOVED_ANSWERS", failing="x:"):
        return (f"signing.divert {earlier} {order} {holder} {given} {failing} {message}", answer)

    tail = "$MOVED_LINES \\r\\n"
    once = "1 ok " + escaped(ONCE + b"\r\n")
    yield divert("12125551213", tail, once)
    yield divert("12125551213", tail, once, holder="=12125551213 x:")
    yield divert("12125551213", tail, "0 fault 3", holder="=12155551212 x:")
    yield divert("12125551213", tail, f"1 fault 4 x:{digest(DIV)}", given="x:")
    yield divert("12125551213", tail, "1 fault 5", failing="1")
    yield divert("12125551213", "INVITE\\ssip:bob@example.net\\sSIP/2.0\\r\\n $FIELDS \\r\\n", "0 fault 2")
    yield divert("12125551213", "INVITE\\ssip:+12125551214@example.net\\sSIP/2.0\\r\\nf:1\\r\\nTo:\\s<sip:+12125551213@example.net>\\r\\n\\r\\n", "0 fault 2")
    yield divert("12125551213", "BYE\\ssip:+12125551214@example.net\\sSIP/2.0\\r\\n $FIELDS \\r\\n", "0 fault 1")
    room = 65535 - len(ONCE) - 2
    yield divert("12125551213", f"{tail} {room + 1}*x", "0 fault 1")
    yield divert("12125551213", f"{tail} {room}*x", f"1 fault 4 x:{digest(DIV)}", given="x:")
    yield comment("Diverted once and again it breaks none of rules 1 to 8.")
    twice = START % 5 + FIELDS + QUOTED + LENGTH + line_of(DIV, "div", "div", ZEROS)
    yield divert("12125551214", escaped(twice + b"\r\n"), "1 ok " + escaped(twice + line_of(SECOND, "div", "div", ONES) + b"\r\n"))
    yield (f"rules.screen 1 10 60 5 {IAT} {escaped(ONCE + crlf())}", f"screened 1 2 {IAT + 60} x:{digest(DIV)}")
    yield (f"rules.screen 1 10 60 5 {IAT} {escaped(twice + line_of(SECOND, 'div', 'div', ONES) + crlf())}", f"screened 1 2 3 {IAT + 60} x:{digest(SECOND)}")


def crlf():
    return b"\r\n"


if __name__ == "__main__":
    columns.write({"parts": rows_of_parts, "messages": rows_of_messages}[sys.argv[1]]())
