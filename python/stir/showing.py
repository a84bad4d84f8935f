"""What certificates say. Nothing of it is judged."""
from dataclasses import dataclass, field
from typing import Any, Dict, List, Optional, Tuple

from . import checks, library


@dataclass(frozen=True)
class Authority:
    """The entries of an authority list (RFC 8226, section 9): service provider codes, ranges by their first number and their size, and single numbers."""

    codes: Tuple[str, ...] = ()
    ranges: Tuple[Tuple[str, int], ...] = ()
    numbers: Tuple[str, ...] = ()


@dataclass(frozen=True)
class Certificate:
    """What a certificate says: the first and the last second at which it is valid, in Unix time; whether it is an authority's, and how many authorities may
    be below it; the flags of its key usage, with bit i of the BIT STRING as bit i; its key, an uncompressed point of P-256; and its authority list. None
    stands for what it doesn't have; without an authority list everything lies within it."""

    not_before: int
    not_after: int
    ca: bool
    path_length: Optional[int]
    usage: Optional[int]
    key: bytes = field(repr=False)
    authority: Optional[Authority]


def show(chain: bytes) -> Tuple[Certificate, ...]:
    """What the certificates of a chain say: at most six, one after another, in DER.

    Raises BadInput if the bytes are no chain, and OutOfMemory.
    """
    lines = library.show(checks.octets("chain", chain))
    certificates: List[List[List[str]]] = []
    for words in (line.split(" ") for line in lines.decode("ascii").splitlines()):
        if words[0] == "certificate":
            certificates.append([])
        else:
            certificates[-1].append(words)
    return tuple(map(certificate, certificates))


def certificate(lines: List[List[str]]) -> Certificate:
    """The certificate of these lines, as words (docs/FORMATS.md, "Chain of certificates, and what `show` writes of it")."""
    said: Dict[str, Any] = {words[0]: words[1] for words in lines}
    return Certificate(
        int(said["not-before"]),
        int(said["not-after"]),
        said["ca"] == "yes",
        None if said["path-length"] == "none" else int(said["path-length"]),
        None if said["usage"] == "none" else int(said["usage"], 16),
        bytes.fromhex(said["key"]),
        authority(lines) if said["authority"] == "list" else None,
    )


def authority(lines: List[List[str]]) -> Authority:
    return Authority(
        tuple(words[1] for words in lines if words[0] == "code"),
        tuple((words[1], int(words[2])) for words in lines if words[0] == "range"),
        tuple(words[1] for words in lines if words[0] == "number"),
    )
