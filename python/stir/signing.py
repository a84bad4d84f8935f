"""A message signed: what is to be signed, and the message with its Identity field. The private key stays with the caller."""
import enum
import functools
from dataclasses import dataclass
from typing import Callable, Tuple

from cryptography.hazmat.primitives import hashes
from cryptography.hazmat.primitives.asymmetric import ec, utils

from . import checks, library
from .calls import LAST_MOMENT
from .errors import BadInput, Input, StirError
from .settings import Settings


class Form(enum.IntEnum):
    """How a PASSporT is written: without a type (RFC 8225), the same in its compact form, or `shaken` (RFC 8588) with attestation A, B or C."""

    BASE = 0
    COMPACT = 1
    SHAKEN_A = ord("A")
    SHAKEN_B = ord("B")
    SHAKEN_C = ord("C")


class Why(enum.IntEnum):
    """Why nothing may be signed."""

    FORM = 1
    NO_NUMBER = 2
    AUTHORITY = 3


SENTENCES = {
    Why.FORM: "the message is no INVITE, has another Date than a compact PASSporT, or would have more than 65,535 bytes",
    Why.NO_NUMBER: "the message has no calling number, or To has none",
    Why.AUTHORITY: "the certificate doesn't cover the calling number",
}


class Withheld(StirError):
    """The message may not be signed; `why` says why."""

    def __init__(self, why: Why) -> None:
        super().__init__(why)
        self.why = why

    def __str__(self) -> str:
        return SENTENCES[self.why]


@dataclass(frozen=True)
class Order:
    """What is to be signed. `message` is an INVITE, `iat` the second of signing in Unix time, `x5u` the URI of the certificates of the key, and
    `certificate` that of the key, in DER. `table` has lines of a code table; those on the codes in the certificate are enough. `origid` is the
    identifier of the call, a UUID in 36 characters, for the forms of `shaken`."""

    message: bytes
    form: Form
    iat: int
    x5u: str
    certificate: bytes
    table: bytes = b""
    origid: str = ""

    def __post_init__(self) -> None:
        for name in ("message", "certificate", "table"):
            object.__setattr__(self, name, checks.octets(name, getattr(self, name)))
        checks.instance("form", self.form, Form)
        checks.number("iat", self.iat, 0, LAST_MOMENT)
        for name in ("x5u", "origid"):
            if not checks.instance(name, getattr(self, name), str).isascii():
                raise ValueError(f"{name} must be ASCII, and is {getattr(self, name)!r}")


# So many certificates of keys are held open.
MOST_KEYS = 64

LONGEST_ID = 36


@functools.lru_cache(maxsize=MOST_KEYS)
def key_of(certificate: bytes, table: bytes, settings: Settings) -> library.Chain:
    """The certificate of a key under a world of its own. It isn't judged, so no trust anchor is needed."""
    return library.Chain.of(library.World(settings.setting(), b"", table), certificate)


def given(order: Order, settings: Settings) -> Tuple[library.Chain, library.Order, bytes, bytes]:
    """The key of an order, and the order as the library takes it."""
    checks.instance("order", order, Order)
    key = key_of(order.certificate, order.table, checks.instance("settings", settings, Settings))
    if len(order.origid) > LONGEST_ID:
        raise BadInput(Input.ORDER)
    return key, library.Order(order.iat, order.form, order.origid.encode()), order.x5u.encode(), order.message


def allowed(said: library.Said) -> library.Said:
    """What is said, if the message may be signed."""
    if said.kind == library.Kind.REFUSED:
        raise Withheld(Why(said.rule))
    return said


def to_sign(order: Order, settings: Settings = Settings()) -> bytes:
    """The SHA-256 that is to be signed by ES256 (RFC 7518, section 3.4): 32 bytes.

    Raises Withheld if the message may not be signed, BadInput if the certificate, the table or the order is none, and OutOfMemory.
    """
    key, *words = given(order, settings)
    return bytes(allowed(key.to_sign(*words)).ticket)


def signed(order: Order, signature: bytes, settings: Settings = Settings()) -> bytes:
    """The message with its Identity field (RFC 8224, section 4.1), by a signature of what `to_sign` gave: r and s, 64 bytes. That it is good isn't
    looked at. Raises as `to_sign` does."""
    key, *words = given(order, settings)
    said, message = key.signed(*words, checks.octets("signature", signature, 64))
    allowed(said)
    return message


def sign(order: Order, signer: Callable[[bytes], bytes], settings: Settings = Settings()) -> bytes:
    """The message with its Identity field. The signer makes of a digest of 32 bytes its signature, r and s in 64 bytes. Raises as `to_sign` does."""
    return signed(order, signer(to_sign(order, settings)), settings)


def signer_by(key: ec.EllipticCurvePrivateKey) -> Callable[[bytes], bytes]:
    """A signer by a private key on P-256, as ES256 wants it."""
    if not isinstance(key, ec.EllipticCurvePrivateKey):
        raise TypeError(f"key must be a private key of an elliptic curve, and is {type(key).__name__}")
    if not isinstance(key.curve, ec.SECP256R1):
        raise ValueError(f"key must be on P-256, and is on {key.curve.name}")

    def signature(digest: bytes) -> bytes:
        r, s = utils.decode_dss_signature(key.sign(digest, ec.ECDSA(utils.Prehashed(hashes.SHA256()))))
        return r.to_bytes(32, "big") + s.to_bytes(32, "big")

    return signature
