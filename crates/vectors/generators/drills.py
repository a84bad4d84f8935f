"""What `drill` writes and what its files are, by a model of a drill, of which docs/FORMATS.md ("The drill") tells the draws.

    drills.py SEED COUNT      prints the seven lines
    drills.py answers         prints what the lines of crates/vectors on the drill's files must answer: the bytes of each file, and their SHA-256

The texts are put together here: an INVITE by RFC 3261, section 7, a PASSporT by RFC 8225, section 9, and certificates by X.690 and RFC 5280.
"""

import base64
import hashlib
import json
import sys

FACTOR, SUMMAND, MODULUS = 6364136223846793005, 1442695040888963407, 2**64

# What comes of a call by its first draw modulo 8; of 0 what came of the call before, and of the others it is valid.
REFUSED = {1: 428, 2: 403, 3: 438, 4: 437}

X5U = "https://cert.example.org/drill.cer"


def draws(seed, count):
    """The number of each call, its first draw modulo 8, and its second modulo 10,000."""
    state = seed
    for number in range(1, count + 1):
        drawn = []
        for _ in range(2):
            state = (state * FACTOR + SUMMAND) % MODULUS
            drawn.append(state >> 33)
        yield number, drawn[0] % 8, drawn[1] % 10000


def outcomes(seed, count):
    """What comes of each call: `valid`, `replay`, or the code of the refusal."""
    found = None
    for number, kind, _ in draws(seed, count):
        if kind == 0 and number > 1:
            found = "replay" if found == "valid" else found
        else:
            found = REFUSED.get(kind, "valid")
        yield found


def summary(seed, count):
    """The seven lines, in bytes."""
    found = list(outcomes(seed, count))
    lines = [("calls", count), ("valid", found.count("valid")), ("replay", found.count("replay")),
             *((f"refused {code}", found.count(code)) for code in (403, 428, 437, 438))]
    return "".join(f"{word} {number}\n" for word, number in lines).encode()


# ---- the calls


def base64url(data):
    return base64.urlsafe_b64encode(data).rstrip(b"=").decode()


def signing_input(number, kind, line):
    """The text of a call's PASSporT that is signed."""
    calling = f"{'1216555' if kind == 4 else '1215555'}{line:04}"
    header = {"alg": "ES256", "ppt": "shaken", "typ": "passport", "x5u": X5U}
    payload = {"attest": "A", "dest": {"tn": ["12125551213"]}, "iat": moment(number) - (61 if kind == 2 else 0), "orig": {"tn": calling},
               "origid": f"00000000-0000-4000-8000-{number:012x}"}
    return calling, ".".join(base64url(json.dumps(part, sort_keys=True, separators=(",", ":")).encode()) for part in (header, payload))


def moment(number):
    return 1443208345 + number // 16


def signature_of(number):
    return number.to_bytes(8, "big") + bytes(56)


def message(number, kind, line):
    """The message of a call that repeats none."""
    calling, signed = signing_input(number, kind, line)
    identity = f'{signed}.{base64url(signature_of(number))};info=<{X5U}>;alg=ES256;ppt="shaken"'
    fields = [("Via", "SIP/2.0/UDP host.example.org;branch=z9hG4bK1"), ("Max-Forwards", "70"), ("From", f"<sip:+{calling}@example.org>;tag=1"),
              ("To", "<sip:+12125551213@example.net>"), ("Call-ID", "1@example.org"), ("CSeq", "1 INVITE"),
              *([] if kind == 1 else [("Identity", identity)]), ("Content-Length", "0")]
    head = "".join(f"{name}: {value}\r\n" for name, value in fields)
    return f"INVITE sip:+12125551213@example.net SIP/2.0\r\n{head}\r\n".encode()


def log(seed, count):
    entries, sent = [], b""
    for number, kind, line in draws(seed, count):
        if kind != 0 or number == 1:
            sent = message(number, kind, line)
        entries.append(b"@%d %d\n" % (moment(number), len(sent)) + sent)
    return b"".join(entries)


# ---- the certificates


def element(tag, *parts):
    content = b"".join(parts)
    size = len(content)
    length = bytes([size]) if size < 0x80 else bytes([0x81, size]) if size < 0x100 else bytes([0x82, size >> 8, size & 0xFF])
    return bytes([tag]) + length + content


def identifier(text):
    return element(6, bytes.fromhex(text))


def extension(oid, value, critical):
    return element(0x30, identifier(oid), element(1, b"\xff") if critical else b"", element(4, value))


ALGORITHM = element(0x30, identifier("2A8648CE3D040302"))
AUTHORITY = extension("551D13", element(0x30, element(1, b"\xff")), True)
NUMBERS = extension("2B0601050507011A", element(0x30, element(0xA1, element(0x30, element(0x16, b"12155550000"), element(2, b"\x27\x10")))), False)


def point(byte):
    return b"\x04" + bytes([byte]) * 64


def certificate(subject, issuer, byte, extensions):
    """A certificate, and the part of it that is signed."""
    def name(letter):
        return element(0x30, element(0x31, element(0x30, identifier("550403"), element(0x0C, letter))))
    validity = element(0x30, element(0x17, b"150101000000Z"), element(0x17, b"250101000000Z"))
    key = element(0x30, element(0x30, identifier("2A8648CE3D0201"), identifier("2A8648CE3D030107")), element(3, b"\x00", point(byte)))
    signed = element(0x30, element(0xA0, element(2, b"\x02")), element(2, bytes([byte])), ALGORITHM, name(issuer), validity, name(subject), key,
                     element(0xA3, element(0x30, extensions)))
    numbers = element(2, bytes([byte]))
    return element(0x30, signed, ALGORITHM, element(3, b"\x00", element(0x30, numbers, numbers))), signed


ROOT = certificate(b"R", b"R", 1, AUTHORITY)
INTERMEDIATE = certificate(b"I", b"R", 2, AUTHORITY)
LEAF = certificate(b"D", b"I", 4, NUMBERS)


def answers(seed, count):
    lines = [(point(2), LEAF[1], bytes(31) + b"\x04" + bytes(31) + b"\x04"), (point(1), INTERMEDIATE[1], bytes(31) + b"\x02" + bytes(31) + b"\x02")]
    for number, kind, line in draws(seed, count):
        if kind in (2, 4, 5, 6, 7) or (kind == 0 and number == 1):
            lines.append((point(4), signing_input(number, kind, line)[1].encode(), signature_of(number)))
    return b"".join(b"confirm %s %s %s\n" % (key.hex().encode(), hashlib.sha256(signed).hexdigest().encode(), signature.hex().encode())
                    for key, signed, signature in lines)


# The file of each word of the calls.
FILES = {
    "log": log,
    "answers": answers,
    "anchors": lambda seed, count: ROOT[0],
    "table": lambda seed, count: b"",
    "chains": lambda seed, count: f"{X5U} drill.der\n".encode(),
    "chain": lambda seed, count: LEAF[0] + INTERMEDIATE[0],
}

# The calls of the section `drill`.
CALLS = [*((word, 0, 1) for word in FILES), *((word, seed, count) for seed, count in ((0, 0), (7, 3), (5, 16), (1, 40), (2**64 - 1, 100), (0, 2000))
                                              for word in ("log", "answers"))]


if __name__ == "__main__":
    if sys.argv[1:] == ["answers"]:
        for word, seed, count in CALLS:
            data = FILES[word](seed, count)
            print(len(data), "x:" + hashlib.sha256(data).hexdigest())
    else:
        sys.stdout.buffer.write(summary(int(sys.argv[1]), int(sys.argv[2])))
