"""Prints the lines of crates/vectors on certificates that demand something of claims, and what they must answer.

    constrained.py          prints the lines of `stdin`
    constrained.py answers  prints the lines of `stdout`

The certificates are built by certificates.py, and the constraints are put together and read by constraints.py, which finds their first fault. Where
an extension and its content are goes by the lengths of the texts before them.
"""

import columns
from certificates import certificate, element
from constraints import BOTH, MUST, PERMITS, Fault, must, permits, read, sequence

CONSTRAINTS, ENHANCED, UNKNOWN = 27, 33, 28

# Whether an extension is critical: it says nothing of it, or that it isn't, or that it is.
SAYS = {None: b"", False: b"\1\1\0", True: b"\1\1\xff"}


def octets(content):
    """The OCTET STRING of an extension's content."""
    return element(0x04, content)


def extension(number, critical, content):
    """The extension 1.3.6.1.5.5.7.1.NUMBER."""
    return element(0x30, element(0x06, bytes.fromhex("2b060105050701") + bytes([number])) + SAYS[critical] + octets(content))


def leaf(*extensions):
    """LEAF with these extensions after its list."""
    return certificate("L", "I", 3, "", "709J", more=b"".join(extension(*one) for one in extensions))


def authority(*extensions):
    """INT with these extensions after its basic constraints."""
    return certificate("I", "R", 2, "c", more=b"".join(extension(*one) for one in extensions))


def root(*extensions):
    """ROOT with these."""
    return certificate("R", "R", 1, "c", more=b"".join(extension(*one) for one in extensions))


def said(build, extensions):
    """What a certificate demands by these extensions, or the kind of its fault and the place."""
    written = [extension(*one) for one in extensions]
    place = build(*extensions).index(b"".join(written))
    found = None
    for (number, critical, content), text in zip(extensions, written):
        if number == CONSTRAINTS:
            if found is not None:
                return f"fault 1 {place}"
            try:
                read(content)
            except Fault:
                return f"fault 7 {place + len(text) - len(octets(content))}"
            found = content
        elif number == ENHANCED:
            return f"fault 7 {place}"
        elif critical:
            return f"fault 6 {place}"
        place += len(text)
    return "none" if found is None else f"x:{found.hex()}"


def demands(build, *extensions):
    """The row of a certificate."""
    return f"certificates.constraints x:{build(*extensions).hex()}", said(build, extensions)


def in_chain(anchor, *certificates):
    """The rows of a chain under this trust anchor, of which each certificate may have constraints."""
    written = [build(*extensions) for build, extensions in certificates]
    yield "FILE = " + " ".join(f"x:{text.hex()}" for text in written), "FILE ="
    yield f"TRUSTED = x:{anchor.hex()}", "TRUSTED ="
    for number, (build, extensions) in enumerate(certificates, 1):
        yield f"chains.constraints $FILE $TRUSTED $TABLE $LEAF_ANSWER {number}", said(build, extensions) if extensions else "none"


def comment(text):
    return f"# {text}", f"# {text}"


# Contents that are no constraints: none, an empty SEQUENCE, another form, a name and a value outside theirs, cut short, with more after them.
BROKEN = (b"", b"\x30\0", b"\x05\0", sequence(must(b"")), sequence(permits((b"attest", b"\xff"))), PERMITS[:-1], PERMITS + b"\0", BOTH + BOTH)
LONG = sequence(must(*(b"%03d" % number for number in range(300))))


def rows():
    yield comment("`crates/vectors/generators/constrained.py` prints the lines from here up to those of `questions.py`. What a certificate demands of claims, if it has such an")
    yield comment("extension: critical or not, of a leaf and of an authority.")
    yield "certificates.constraints $LEAF", "none"
    yield "certificates.constraints $INT", "none"
    for content in (MUST, PERMITS, BOTH, LONG):
        for build in (leaf, authority):
            for critical in SAYS:
                yield demands(build, (CONSTRAINTS, critical, content))
    yield comment("Constraints that can't be read: the fault is at the OCTET STRING.")
    for content in BROKEN:
        for critical in (None, True):
            yield demands(leaf, (CONSTRAINTS, critical, content))
    yield demands(authority, (CONSTRAINTS, False, BROKEN[1]))
    yield comment("Twice; the second is refused as such, also if it can't be read.")
    yield demands(leaf, (CONSTRAINTS, None, PERMITS), (CONSTRAINTS, None, PERMITS))
    yield demands(leaf, (CONSTRAINTS, True, PERMITS), (CONSTRAINTS, None, MUST))
    yield demands(authority, (CONSTRAINTS, None, PERMITS), (CONSTRAINTS, True, BROKEN[0]))
    yield demands(leaf, (CONSTRAINTS, None, BROKEN[1]), (CONSTRAINTS, None, PERMITS))
    yield comment("Enhanced ones are refused, whatever they hold, and others are passed over if they aren't critical.")
    for critical in SAYS:
        yield demands(leaf, (ENHANCED, critical, PERMITS))
        yield demands(leaf, (UNKNOWN, critical, PERMITS))
    yield demands(leaf, (ENHANCED, None, b""))
    yield demands(leaf, (CONSTRAINTS, None, PERMITS), (ENHANCED, None, PERMITS))
    yield demands(leaf, (UNKNOWN, None, MUST), (CONSTRAINTS, None, PERMITS), (UNKNOWN, False, b""))
    yield demands(authority, (ENHANCED, True, MUST), (CONSTRAINTS, True, BROKEN[1]))
    yield comment("In a chain each certificate has its own. Those of the trust anchor count if it is in the chain, and also if the certificates are no path.")
    one, other = (CONSTRAINTS, None, PERMITS), (CONSTRAINTS, True, MUST)
    yield from in_chain(root(), (leaf, (one,)), (authority, ()))
    yield from in_chain(root(), (leaf, ()), (authority, (other,)))
    yield from in_chain(root(), (leaf, (one,)), (authority, (other,)), (root, ()))
    yield from in_chain(root(one), (leaf, ()), (authority, ()))
    yield from in_chain(root(one), (leaf, (other,)), (authority, ()), (root, (one,)))
    yield from in_chain(root(), (leaf, (other,)), (root, (one,)))


if __name__ == "__main__":
    columns.write(rows())
