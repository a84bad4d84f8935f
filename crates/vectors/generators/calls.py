"""Prints what tests/cli/verify.rows names: certificates, tokens, and the answers that confirm their signatures.

    calls.py                prints the lines `NAME = ..`
    calls.py FOLDER         writes into the folder the files by which `verify` judges the calls of the examples, as examples/files has them

The tokens are put together by RFC 8225 and RFC 8946, the digests by FIPS 180-4. Nobody signed anything: a token's signature is 64 zero
bytes, a certificate's is its own digit twice, and the answers say which of them are good.
"""

import base64
import hashlib
import json
import pathlib
import sys

from certificates import WORLD, certificate, element

X5U = "https://cert.example.org/%s.cer"

# The certificates, with the digit of the issuer's key.
ISSUED = {
    "INT": 1,
    "LEAF": 2,
    "DIV": 2,
    "SECOND_DIV": 2,
    "SHORT_LEAF": 2,
    "A1": 1,
    "A2": 6,
    "A_LEAF": 7,
    "FULL_LEAF": 2,
    "FULL_INT": 1,
    "FULL_DIV": 2,
    "PPT_LEAF": 2,
    "MUST_DIV": 2,
    "DIV_INT": 1,
}


def constrained(content):
    """The extension whose content is these constraints on claims."""
    kind = bytes.fromhex("06082b0601050507011b")
    return element(0x30, kind + element(0x04, bytes.fromhex(content)))


# `attest` must be `A`, if it is there; `attest` must be there; and `div` must be.
FULL_ATTEST = constrained("3013a111300f300d160661747465737430030c0141")
SOME_ATTEST = constrained("300ca00a30081606617474657374")
SOME_DIV = constrained("3009a00730051603646976")

CERTIFICATES = {name: WORLD[name] for name in ("ROOT", *ISSUED) if name in WORLD}
CERTIFICATES["SECOND_DIV"] = certificate("W", "I", 9, "", "=12125551214")
CERTIFICATES["FULL_LEAF"] = certificate("L", "I", 3, "", "709J", more=FULL_ATTEST)
CERTIFICATES["FULL_INT"] = certificate("I", "R", 2, "c", more=FULL_ATTEST)
CERTIFICATES["FULL_DIV"] = certificate("V", "I", 5, "", "=12125551213", more=FULL_ATTEST)
CERTIFICATES["PPT_LEAF"] = certificate("L", "I", 3, "", "709J", more=constrained("3009a00730051603707074"))
CERTIFICATES["MUST_DIV"] = certificate("V", "I", 5, "", "=12125551213", more=SOME_ATTEST)
CERTIFICATES["DIV_INT"] = certificate("I", "R", 2, "c", more=SOME_DIV)

# When the calls were signed.
IAT = 1443208345

CALLER, CALLED = "12155551212", "12125551213"


def base64url(data):
    """Base64url without padding (RFC 4648, section 5)."""
    return base64.urlsafe_b64encode(data).rstrip(b"=").decode()


def sorted_json(value):
    """JSON in its deterministic form (RFC 8225, section 9)."""
    return json.dumps(value, sort_keys=True, separators=(",", ":")).encode()


def header(ppt, x5u):
    """The header of a PASSporT of this type, or of none."""
    members = {"alg": "ES256", "typ": "passport", "x5u": X5U % x5u}
    return sorted_json(members | {"ppt": ppt} if ppt else members)


def payload(dest, iat=IAT, **others):
    """The claims of a PASSporT of the caller."""
    return sorted_json({"dest": {"tn": [dest]}, "iat": iat, "orig": {"tn": CALLER}, **others})


def shaken(attest, origid):
    """The claims of a call to the called number (RFC 8588)."""
    return payload(CALLED, attest=attest, origid=origid)


def link(div, dest, iat=IAT):
    """The claims of a diversion (RFC 8946)."""
    return payload(dest, iat, div={"tn": div})


ORIGID = "123e4567-e89b-12d3-a456-42665544000%d"
FULL = shaken("A", ORIGID % 0)
REORDERED = (
    b'{ "x5u" : "%s", "typ":"passport", "ppt":"shaken", "alg":"ES256" }' % (X5U % "passport").encode(),
    b'{ "origid":"%s", "orig":{"tn":"12155551212"}, "iat":1443208345, "dest":{"tn":["12125551213"]}, "attest":"A" }' % (ORIGID % 0).encode(),
)

# The header and the payload of each token, and the digit of the key that signed it.
TOKENS = {
    "CALL": (header("shaken", "passport"), FULL, 3),
    "OTHER_CALL": (header("shaken", "passport"), shaken("A", ORIGID % 1), 3),
    "PARTIAL": (header("shaken", "passport"), shaken("B", ORIGID % 0), 3),
    "GATEWAY": (header("shaken", "passport"), shaken("C", ORIGID % 0), 3),
    "REORDERED": (*REORDERED, 3),
    "DATED": (header(None, "passport"), payload(CALLED), 3),
    "DATED_LATER": (header(None, "passport"), payload(CALLED, IAT + 60), 3),
    "FIRST": (header("div", "div"), link(CALLED, "12125551214"), 5),
    "OLDER": (header("div", "div"), link(CALLED, "12125551214", IAT - 60), 5),
    "BY_LEAF": (header("div", "passport"), link(CALLED, "12125551214"), 3),
    "SECOND": (header("div", "div"), link("12125551214", "12125551215"), 5),
    "OWN_SECOND": (header("div", "second"), link("12125551214", "12125551215"), 9),
}


def signing_input(name):
    """What was signed (RFC 8225, section 4)."""
    head, claims, _ = TOKENS[name]
    return base64url(head) + "." + base64url(claims)


def signed_part(der):
    """The signed part of a certificate: the first element inside (RFC 5280, section 4.1)."""
    start = 2 if der[1] < 0x80 else 2 + (der[1] & 0x7F)
    if der[start + 1] < 0x80:
        return der[start : start + 2 + der[start + 1]]
    more = der[start + 1] & 0x7F
    size = int.from_bytes(der[start + 2 : start + 2 + more], "big")
    return der[start : start + 2 + more + size]


def answer(key, signed, signature):
    """The line that confirms the signature over what was signed under the key of this digit."""
    return f"confirm 04{64 * f'{key:02d}'} {hashlib.sha256(signed).hexdigest()} {signature}\n"


def scalar(digit):
    """A small number in 32 bytes, as hex digits."""
    return f"{digit:064x}"


def certificate_answer(name):
    der = CERTIFICATES[name]
    return answer(ISSUED[name], signed_part(der), 2 * scalar(der[-1]))


def token_answer(name):
    return answer(TOKENS[name][2], signing_input(name).encode(), 128 * "0")


def answers(names=(*ISSUED, *TOKENS)):
    return "".join(certificate_answer(name) if name in ISSUED else token_answer(name) for name in names)


def definitions():
    for name, der in CERTIFICATES.items():
        yield f"{name} = x:{der.hex()}"
    for name in TOKENS:
        yield f"{name}_TOKEN = {signing_input(name)}."
    for name in (*ISSUED, *TOKENS):
        word, key, digest, signature = answers((name,)).split()
        numbers = f"62*0 {signature[62:64]} 62*0 {signature[126:]}" if name in ISSUED else "128*0"
        yield f"{name}_ANSWER = {word}\\s04 64*{key[-2:]} \\s{digest}\\s {numbers} \\n"


def files(folder):
    """The files by which `verify` judges the calls of the examples, where they lie in this folder."""
    yield "chains.txt", "".join(f"{X5U % name} {folder}/{name}.der\n" for name in ("passport", "div")).encode()
    yield "passport.der", WORLD["LEAF"] + WORLD["INT"]
    yield "div.der", WORLD["DIV"] + WORLD["INT"]
    yield "anchors.der", WORLD["ROOT"]
    yield "table.txt", b"709J 12155551000 1000\n"
    yield "answers.txt", answers(("INT", "LEAF", "DIV", "CALL", "DATED", "FIRST")).encode()


def main():
    if not sys.argv[1:]:
        print("\n".join(definitions()))
    for folder in sys.argv[1:]:
        for name, data in files(folder):
            (pathlib.Path(folder) / name).write_bytes(data)


if __name__ == "__main__":
    main()
