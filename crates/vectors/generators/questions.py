"""Prints the lines of crates/vectors on the questions for the signatures of a chain's certificates, and what they must answer.

    questions.py          prints the lines of `stdin`
    questions.py answers  prints the lines of `stdout`

The lines name the certificates that `stdin` defines in front of them, built by certificates.py. Of a chain that openssl made,
tests/ctl/files/shuffled.der below root.der, it is openssl that says keys, digests and signatures; it has to be on the path.
"""

import pathlib
import re
import subprocess
import tempfile

import columns
from calls import answer, scalar, signed_part
from certificates import WORLD

FILES = pathlib.Path(__file__).resolve().parents[3] / "tests/ctl/files"

# What is tried, the certificates of a chain, the trust anchors, and the issuer under whose key each certificate is asked for, `-` for none.
CASES = (
    ("`crates/vectors/generators/questions.py` prints the lines from here up to `messages`. How many certificates a chain has, and for each the key, the digest\n"
     "and the signature of the question for it. A whole chain; and with its anchor in it, which nothing is asked for.", "LEAF INT", "ROOT", "INT ROOT"),
    ("", "LEAF INT ROOT", "ROOT", "INT ROOT -"),
    ("With one that is an anchor itself, alone and below another.", "LEAF INT", "INT", "INT -"),
    ("", "LEAF INT ROOT", "INT ROOT", "INT - -"),
    ("Where a certificate has more authority than its issuer they are known all the same, and where it is only named as the anchor.",
     "A_LEAF A2 A1", "ROOT", "A2 A1 ROOT"),
    ("", "CODE_ROOT", "ROOT", "ROOT"),
    ("Where the certificates are no path nothing is asked for: below no anchor, and with the name of another issuer.", "LEAF", "ROOT", "-"),
    ("", "LEAF INT", "A1", "- -"),
    ("", "LOST_LEAF INT ROOT", "ROOT", "- - -"),
    ("Where they are none of the profile, or too many, there are none.", "LEAF INT INT INT INT INT INT", "ROOT", ""),
)


def question(name, issuer):
    """What is asked for a certificate under the key of its issuer."""
    _, key, digest, signature = answer(WORLD[issuer][-1], signed_part(WORLD[name]), 2 * scalar(WORLD[name][-1])).split()
    return f"x:{key} x:{digest} x:{signature}"


def openssl(*words, given):
    """What openssl writes."""
    return subprocess.run(["openssl", *words], input=given, stdout=subprocess.PIPE, check=True).stdout


def asked_by_openssl(certificate, issuer):
    """The same of certificates of more than 255 bytes."""
    public = openssl("x509", "-inform", "DER", "-pubkey", "-noout", given=issuer)
    key = openssl("pkey", "-pubin", "-outform", "DER", given=public)[-65:]
    with tempfile.NamedTemporaryFile() as file:
        openssl("asn1parse", "-inform", "DER", "-strparse", "4", "-noout", "-out", file.name, given=certificate)
        digest = openssl("dgst", "-sha256", "-r", given=pathlib.Path(file.name).read_bytes()).split()[0].decode()
    parts = openssl("asn1parse", "-inform", "DER", given=certificate).decode().splitlines()
    numbers = openssl("asn1parse", "-inform", "DER", "-strparse", parts[-1].split(":")[0].strip(), given=certificate).decode()
    signature = "".join(number.lower().zfill(64) for number in re.findall(r"INTEGER *:(\w+)", numbers))
    return f"x:{key.hex()} x:{digest} x:{signature}"


def cut(chain):
    """The certificates of a chain, of which each has more than 255 bytes."""
    while chain:
        size = 4 + int.from_bytes(chain[2:4], "big")
        yield chain[:size]
        chain = chain[size:]


def lines(anchors, length, questions):
    """The calls on FILE below these anchors, and what they answer."""
    tail = f"$FILE {anchors} $TABLE $LEAF_ANSWER"
    yield f"chains.length {tail}", str(length)
    for number, asked in enumerate(questions, 1):
        yield f"chains.question {tail} {number}", asked


def rows():
    """Each line with what it answers."""
    for comment, chain, anchors, issuers in CASES:
        for line in comment.splitlines():
            yield f"# {line}", f"# {line}"
        names = chain.split()
        yield "FILE = " + " ".join(f"${name}" for name in names), "FILE ="
        if " " in anchors:
            yield "TRUSTED = " + " ".join(f"${name}" for name in anchors.split()), "TRUSTED ="
        asked = ["none" if issuer == "-" else question(name, issuer) for name, issuer in zip(names, issuers.split())]
        yield from lines("$TRUSTED" if " " in anchors else f"${anchors}", len(issuers.split()), asked)
    yield "chains.length x: $ROOT $TABLE $LEAF_ANSWER", "0"
    yield "chains.length $LEAF[..224] $ROOT $TABLE $LEAF_ANSWER", "0"
    comment = "A chain that openssl made, with its root; and the authority below it as the anchor."
    yield f"# {comment}", f"# {comment}"
    whole, root = (FILES / "shuffled.der").read_bytes(), (FILES / "root.der").read_bytes()
    leaf, authority, last = cut(whole)
    assert last == root
    yield f"FILE = x:{whole.hex()}", "FILE ="
    by_leaf, by_authority = asked_by_openssl(leaf, authority), asked_by_openssl(authority, root)
    for anchor, asked in ((root, (by_leaf, by_authority, "none")), (authority, (by_leaf, "none", "none"))):
        yield f"TRUSTED = x:{(anchor if anchor == root else anchor + root).hex()}", "TRUSTED ="
        yield from lines("$TRUSTED", 3, asked)


if __name__ == "__main__":
    columns.write(rows())
