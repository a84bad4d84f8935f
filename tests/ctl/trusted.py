"""Authorities, carriers, a signer of revocation lists and a signer of the list of authorities, with real keys; and calls that the carriers sign.

Certificates, revocation lists and signatures are made by Python's cryptography, which is OpenSSL's. Keys are the same for one name.
"""
import datetime
import hashlib
import json
import pathlib
import sys
import time

from cryptography import x509
from cryptography.hazmat.primitives import hashes, serialization
from cryptography.hazmat.primitives.asymmetric import ec, rsa
from cryptography.x509.name import _ASN1Type as Kind

sys.path.insert(0, str(pathlib.Path(__file__).resolve().parent.parent / 'service'))
import world  # noqa: E402

START = world.START
NOW = int(time.time())
SHA384 = hashes.SHA384()
CODES = {'one': '709J', 'two': '042B', 'three': '555C', 'four': '777D'}
CALLED = '13105550100'


def day(text):
    return datetime.datetime.fromisoformat(text)


def second(text):
    return int(day(text).replace(tzinfo=datetime.timezone.utc).timestamp())


def name(text, kind=Kind.UTF8String):
    """A name with an organization and a common name, in strings of this kind."""
    return x509.Name([x509.NameAttribute(x509.NameOID.ORGANIZATION_NAME, 'STI', _type=kind),
                      x509.NameAttribute(x509.NameOID.COMMON_NAME, text, _type=kind)])


def curve384(who):
    order = 0xffffffffffffffffffffffffffffffffffffffffffffffffc7634d81f4372ddf581a0db248b0a77aecec196accc52973
    return ec.derive_private_key(int.from_bytes(hashlib.sha384(who.encode()).digest(), 'big') % (order - 1) + 1, ec.SECP384R1())


def pem(certificate):
    return certificate.public_bytes(serialization.Encoding.PEM)


def der(certificate):
    return certificate.public_bytes(serialization.Encoding.DER)


def certificate(who, by, own, signer, serial, *, issues=True, code=None, begins='2025-01-01', ends='2035-01-01', digest=None, length=None, more=()):
    """A certificate for the key of a subject, by the key of its issuer."""
    others = dict.fromkeys(('content_commitment', 'key_encipherment', 'data_encipherment', 'key_agreement', 'encipher_only', 'decipher_only'), False)
    builder = (x509.CertificateBuilder().subject_name(name(who) if isinstance(who, str) else who).issuer_name(name(by) if isinstance(by, str) else by)
               .public_key(own.public_key()).serial_number(serial).not_valid_before(day(begins)).not_valid_after(day(ends))
               .add_extension(x509.BasicConstraints(issues, length), True)
               .add_extension(x509.KeyUsage(digital_signature=not issues, key_cert_sign=issues, crl_sign=issues, **others), True)
               .add_extension(x509.SubjectKeyIdentifier.from_public_key(own.public_key()), False)
               .add_extension(x509.AuthorityKeyIdentifier.from_issuer_public_key(signer.public_key()), False))
    if code:
        builder = builder.add_extension(x509.UnrecognizedExtension(x509.ObjectIdentifier('1.3.6.1.5.5.7.1.26'), world.code_list(code)), False)
    for extension, critical in more:
        builder = builder.add_extension(extension, critical)
    return builder.sign(signer, digest or hashes.SHA256())


def entry(serial, since='2026-01-01', authority=None, reason=None):
    builder = x509.RevokedCertificateBuilder().serial_number(serial).revocation_date(day(since))
    if authority:
        builder = builder.add_extension(x509.CertificateIssuer([x509.DirectoryName(authority)]), True)
    if reason:
        builder = builder.add_extension(x509.CRLReason(reason), False)
    return builder.build()


def crl(entries, *, by='Agency', key=None, number=7, begins='2026-01-01', ends='2036-01-01', indirect=True):
    """A revocation list in DER; one for several authorities, if it isn't direct."""
    # One after another they would be copied each time.
    builder = x509.CertificateRevocationListBuilder(revoked_certificates=list(entries)).issuer_name(name(by))
    builder = builder.last_update(day(begins)).next_update(day(ends))
    builder = builder.add_extension(x509.CRLNumber(number), False)
    if indirect:
        builder = builder.add_extension(x509.IssuingDistributionPoint(
            full_name=None, relative_name=None, only_contains_user_certs=False, only_contains_ca_certs=False, only_some_reasons=None,
            indirect_crl=True, only_contains_attribute_certs=False), True)
    return der(builder.sign(key or world.key(by), hashes.SHA256()))


class Trusted:
    """Two authorities A and B, each below its root, with the carriers one and two, and three and four. The serial number of two is that of three."""

    def __init__(self, folder):
        self.folder, self.keys = folder, {who: world.key(who) for who in ('Root A', 'Root B', 'A', 'B', 'Agency', *CODES)}
        keys = self.keys
        self.roots = {who: certificate(who, who, keys[who], keys[who], 1) for who in ('Root A', 'Root B')}
        self.authorities = {who: certificate(who, f'Root {who}', keys[who], keys[f'Root {who}'], 2, length=0) for who in 'AB'}
        self.agency = certificate('Agency', 'Agency', keys['Agency'], keys['Agency'], 9)
        self.leaves = {who: certificate(who, by, keys[who], keys[by], serial, issues=False, code=CODES[who])
                       for who, by, serial in (('one', 'A', 1001), ('two', 'A', 1002), ('three', 'B', 1002), ('four', 'B', 1004))}
        for who, leaf in self.leaves.items():
            self.write(f'{who}.der', der(leaf) + der(self.authorities['A' if who in ('one', 'two') else 'B']))
        self.write('chains.txt', ''.join(f'{self.x5u(who)} {folder}/{who}.der\n' for who in CODES).encode())
        self.write('anchors.der', b''.join(map(der, self.roots.values())))
        self.write('roots.pem', b''.join(map(pem, self.roots.values())))
        self.write('table.txt', ''.join(f'{code} *\n' for code in CODES.values()).encode())
        self.write('agency.pem', pem(self.agency))
        self.write('a.pem', pem(self.authorities['A']))

    def write(self, file, data):
        (self.folder / file).write_bytes(data)
        return self.folder / file

    @staticmethod
    def x5u(who):
        return f'https://certificates.example.org/{who}.pem'

    def by(self, anchors='anchors.der'):
        return [f'--{word}={self.folder}/{file}' for word, file in (('chains', 'chains.txt'), ('anchors', anchors), ('table', 'table.txt'))]

    def call(self, who, moment=START, number=1, x5u=None):
        caller = f'1213555{number:04d}'
        claims = {'attest': 'A', 'dest': {'tn': [CALLED]}, 'iat': moment, 'orig': {'tn': caller}, 'origid': f'00000000-0000-4000-8000-{number:012x}'}
        field = world.World.field('shaken', world.compact(claims), x5u or self.x5u(who), self.keys[who])
        return moment, world.World.invite(None, caller, CALLED, number, field)

    def log(self, *calls):
        return self.write('calls.log', world.World.log(None, calls))


def base64url(data):
    return world.base64url(data)


def jws(body, key, header=None):
    """A list of authorities, signed: a JWS in its compact form (RFC 7515, section 7.1)."""
    header = {'alg': 'ES256', 'typ': 'JWT', 'x5u': 'https://authority.example/signer.pem'} if header is None else header
    text = f'{base64url(json.dumps(header).encode())}.{base64url(body if isinstance(body, bytes) else json.dumps(body).encode())}'
    signature = key.sign(text.encode(), ec.ECDSA(hashes.SHA256()))
    return f'{text}.{base64url(world.raw(signature))}'.encode()


class Abroad(Trusted):
    """Besides: the roots C on P-384 and R by RSA, each with an authority on P-256 and a carrier below it; and the signer of the list."""

    def __init__(self, folder):
        super().__init__(folder)
        key = world.key
        self.c, self.r, self.list = curve384('Root C'), rsa.generate_private_key(65537, 2048), key('List')
        self.roots |= {'Root C': certificate('Root C', 'Root C', self.c, self.c, 1, digest=SHA384),
                       'Root R': certificate('Root R', 'Root R', self.r, self.r, 1)}
        self.authorities |= {'C': certificate('C', 'Root C', key('C'), self.c, 2, digest=SHA384, length=0),
                             'R': certificate('R', 'Root R', key('R'), self.r, 2, length=0)}
        for number, who in enumerate('CR', 5):
            self.keys[who] = key(f'carrier {who}')
            leaf = certificate(f'Carrier {who}', who, self.keys[who], key(who), 1000 + number, issues=False, code=f'55{number}X')
            self.write(f'{who}.der', der(leaf))
            self.write(f'{who}-whole.der', der(leaf) + der(self.authorities[who]))
            self.write(f'{who}.pem', pem(leaf) + pem(self.authorities[who]) + pem(self.roots[f'Root {who}']))
        self.write('chains.txt', ''.join(
            f'{self.x5u(who)} {folder}/{who}.der\n{self.x5u(who)}?whole {folder}/{who}-whole.der\n' for who in 'CR').encode())
        self.write('table.txt', b'555X *\n556X *\n')
        self.write('signer.pem', pem(certificate('List', 'List', self.list, self.list, 9)))
        self.log(self.call('C', number=1), self.call('R', number=2), self.call('C', number=3, x5u=f'{self.x5u("C")}?whole'))

    def body(self, *roots, **others):
        body = {'version': '1.0', 'sequence': 7, 'exp': NOW + 86400,
                'trustList': [pem(self.roots[who]).decode() for who in roots or ('Root A', 'Root B')]}
        return {name: value for name, value in (body | others).items() if value is not None}

    def anchors(self, *roots):
        return b''.join(der(self.roots[who]) for who in roots)
