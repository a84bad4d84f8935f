"""Signatures: what a call stands on, and ES256 (RFC 7518, section 3.4) by the package cryptography."""
import functools
import re
from dataclasses import dataclass
from typing import Iterator, Optional

from cryptography.exceptions import InvalidSignature
from cryptography.hazmat.primitives import hashes
from cryptography.hazmat.primitives.asymmetric import ec, utils

from . import checks

LINE = re.compile(rb"confirm ([0-9A-Fa-f]{130}) ([0-9A-Fa-f]{64}) ([0-9A-Fa-f]{128})")

# The bytes of a question.
SIZE = 161

# The first byte of an uncompressed point (SEC 1, section 2.3.3).
UNCOMPRESSED = b"\4"

# The questions of certificates come again with each call; so many answers and keys are remembered.
MOST_ANSWERS = 16_384
MOST_KEYS = 4_096


@dataclass(frozen=True)
class Question:
    """Whether a signature is good: `key` is an uncompressed point of P-256 (65 bytes; SEC 1, section 2.3.3), `digest` the SHA-256 of what was
    signed (32 bytes), and `signature` r and s (64 bytes)."""

    key: bytes
    digest: bytes
    signature: bytes

    def __post_init__(self) -> None:
        for name, size in (("key", 65), ("digest", 32), ("signature", 64)):
            object.__setattr__(self, name, checks.octets(name, getattr(self, name), size))
        if self.key[:1] != UNCOMPRESSED:
            raise ValueError(f"key must begin with the byte 4, as an uncompressed point does, and begins with {self.key[0]}")

    @classmethod
    def each(cls, octets: bytes) -> Iterator["Question"]:
        """The questions of these bytes, one after another: each has a key, a digest and a signature."""
        for at in range(0, len(octets), SIZE):
            yield cls(octets[at : at + 65], octets[at + 65 : at + 97], octets[at + 97 : at + SIZE])

    @classmethod
    def of(cls, line: bytes) -> "Question":
        """The question of a line `confirm KEY DIGEST SIGNATURE`, without its LF. Any other line is a ValueError."""
        found = LINE.fullmatch(line)
        if not found:
            raise ValueError(f"no line `confirm KEY DIGEST SIGNATURE`: {line!r}")
        return cls(*(bytes.fromhex(word.decode()) for word in found.groups()))

    def octets(self) -> bytes:
        """All of it: 161 bytes."""
        return self.key + self.digest + self.signature

    def line(self) -> bytes:
        """The line of it in an answers file, with its LF."""
        return f"confirm {self.key.hex()} {self.digest.hex()} {self.signature.hex()}\n".encode()


@functools.lru_cache(maxsize=MOST_ANSWERS)
def confirm(question: Question) -> bool:
    """Whether the signature is good. Under a key whose point isn't on the curve none is."""
    key = public_key(checks.instance("question", question, Question).key)
    if key is None:
        return False
    r, s = (int.from_bytes(half, "big") for half in (question.signature[:32], question.signature[32:]))
    try:
        key.verify(utils.encode_dss_signature(r, s), question.digest, ec.ECDSA(utils.Prehashed(hashes.SHA256())))
    except InvalidSignature:
        return False
    return True


@functools.lru_cache(maxsize=MOST_KEYS)
def public_key(point: bytes) -> Optional[ec.EllipticCurvePublicKey]:
    """The key of an uncompressed point of P-256, or None if the point isn't on the curve."""
    try:
        return ec.EllipticCurvePublicKey.from_encoded_point(ec.SECP256R1(), point)
    except ValueError:
        return None
