"""ES256 by Python's cryptography (RFC 7518, section 3.4): what says, beside OpenSSL's own library, whether signatures are genuine."""
from cryptography.exceptions import InvalidSignature
from cryptography.hazmat.primitives import hashes
from cryptography.hazmat.primitives.asymmetric import ec, utils


def genuine(point, digest, signature):
    """Whether r and s, 32 bytes each, are a signature of this SHA-256 digest under the key of this point."""
    r, s = (int.from_bytes(half, "big") for half in (signature[:32], signature[32:]))
    try:
        key = ec.EllipticCurvePublicKey.from_encoded_point(ec.SECP256R1(), point)
        key.verify(utils.encode_dss_signature(r, s), digest, ec.ECDSA(utils.Prehashed(hashes.SHA256())))
    except (ValueError, InvalidSignature):
        return False
    return True


def is_genuine(line):
    """The same of a line `confirm KEY DIGEST SIGNATURE`."""
    return genuine(*(bytes.fromhex(word) for word in line.split()[1:]))


def confirmed(questions):
    """The lines whose signatures are genuine: an answers file."""
    return b"".join(line for line in questions.splitlines(True) if is_genuine(line.decode()))
