"""`stirctl request`, with openssl as the authority: what it asks for, and what it says of what comes back. Keys are in files, or in an HSM
(SoftHSM)."""
import base64
import dataclasses
import hashlib
import json
import pathlib
import shutil
import stat
import subprocess

import pytest

SUBJECT = ('--subject', 'C=US', '--subject', 'O=Carrier "One", Inc.', '--subject', 'CN=SHAKEN 709J')
LIST = ('--code', '709J', '--range', '12155550000,1000', '--number', '12125551213')
# The same in DER, written down by hand (RFC 8226, section 9): A0 is a code, A1 a range and A2 a number, each a text of ASCII.
DER = bytes.fromhex('302d' 'a0061604' + b'709J'.hex() + 'a1133011160b' + b'12155550000'.hex() + '020203e8' 'a20d160b' + b'12125551213'.hex())
DER = bytes([0x30, len(DER) - 2]) + DER[2:]
MODULE = pathlib.Path('/usr/lib/softhsm/libsofthsm2.so')
HAS_HSM = bool(shutil.which('softhsm2-util') and shutil.which('pkcs11-tool')) and MODULE.exists()
HSM = pytest.mark.skipif(not HAS_HSM, reason='softhsm2 or opensc is missing')


MIDDLE = ('-CA', 'middle.pem', '-CAkey', 'middle.key', '-CAcreateserial')


def openssl(folder, *words):
    return subprocess.run(['openssl', *words], cwd=folder, check=True, capture_output=True, text=True).stdout


@dataclasses.dataclass(frozen=True)
class Authority:
    """A root and an issuing authority of openssl."""
    folder: pathlib.Path

    def __post_init__(self):
        (self.folder / 'ca.cnf').write_text('[ca]\nbasicConstraints=critical,CA:TRUE\nkeyUsage=critical,keyCertSign,cRLSign\n'
                                            'subjectKeyIdentifier=hash\n[leaf]\nkeyUsage=critical,digitalSignature\n'
                                            '[other]\nkeyUsage=critical,digitalSignature\n1.3.6.1.5.5.7.1.26=DER:3008a0061604373039' '4b\n')
        for name in ('root', 'middle', 'stranger'):
            openssl(self.folder, 'ecparam', '-name', 'prime256v1', '-genkey', '-noout', '-out', f'{name}.key')
            openssl(self.folder, 'req', '-new', '-key', f'{name}.key', '-subj', f'/CN={name}', '-out', f'{name}.csr')
        for name in ('root', 'stranger'):
            self.sign(f'{name}.csr', f'{name}.pem', '-signkey', f'{name}.key', section='ca')
        self.sign('middle.csr', 'middle.pem', '-CA', 'root.pem', '-CAkey', 'root.key', section='ca')

    def sign(self, request, to, *by, section='leaf', days=30):
        openssl(self.folder, 'x509', '-req', '-sha256', '-in', request, '-out', to, '-days', str(days), '-extfile', 'ca.cnf', '-extensions', section,
                '-copy_extensions', 'none' if section == 'other' else 'copy', *(by or MIDDLE))

    def chain(self, to, *names):
        (self.folder / to).write_bytes(b''.join((self.folder / name).read_bytes() for name in names))


@pytest.fixture
def authority(tmp_path):
    return Authority(tmp_path)


def asked_for(folder, name='request.pem'):
    """The list of a request, as openssl shows it."""
    text = openssl(folder, 'asn1parse', '-in', name)
    after = text.split('1.3.6.1.5.5.7.1.26')[1]
    return bytes.fromhex(after.split('[HEX DUMP]:')[1].split()[0])


def test_openssl_finds_the_name_the_list_and_a_good_signature_in_a_request_and_the_key_is_the_owners(run, tmp_path):
    status, out, error = run('request', '--key', 'key.pem', *LIST, *SUBJECT, '--to', 'request.pem', folder=tmp_path)
    assert (status, out) == (0, b''), error
    assert b'key.pem: a new private key' in error
    assert stat.S_IMODE((tmp_path / 'key.pem').stat().st_mode) == 0o600
    words = ['openssl', 'req', '-in', 'request.pem', '-verify', '-noout', '-subject', '-nameopt', 'RFC2253']
    said = subprocess.run(words, cwd=tmp_path, capture_output=True, text=True)
    assert said.returncode == 0 and 'self-signature verify OK' in said.stderr.replace('Certificate request self-signature', 'self-signature'), said
    assert said.stdout.strip() == r'subject=CN=SHAKEN 709J,O=Carrier \"One\"\, Inc.,C=US'
    assert asked_for(tmp_path) == DER
    of_key, of_request = (openssl(tmp_path, *words, '-pubout') if words[0] == 'pkey' else openssl(tmp_path, *words)
                          for words in (('pkey', '-in', 'key.pem'), ('req', '-in', 'request.pem', '-noout', '-pubkey')))
    assert of_key == of_request


def test_a_key_that_is_there_is_taken_and_stays_and_one_with_a_password_is_made_by_it(run, tmp_path):
    (tmp_path / 'word').write_text('a secret\nand more\n')
    words = ('request', '--key', 'key.pem', '--password-file', 'word', '--code', '709J')
    first = run(*words, folder=tmp_path)
    key = (tmp_path / 'key.pem').read_bytes()
    assert first[0] == 0 and b'BEGIN ENCRYPTED PRIVATE KEY' in key, first
    assert openssl(tmp_path, 'pkey', '-in', 'key.pem', '-passin', 'pass:a secret', '-noout') == ''
    status, out, error = run(*words, folder=tmp_path)
    assert (status, (tmp_path / 'key.pem').read_bytes(), error) == (0, key, b'')
    assert out.startswith(b'-----BEGIN CERTIFICATE REQUEST-----')
    status, _, error = run('request', '--key', 'key.pem', '--code', '709J', folder=tmp_path)
    assert status == 5 and b'the key is encrypted' in error, error


def test_the_identifier_and_the_claim_of_acme_are_the_list_and_the_account(run, tmp_path):
    openssl(tmp_path, 'ecparam', '-name', 'prime256v1', '-genkey', '-noout', '-out', 'account.pem')
    openssl(tmp_path, 'pkey', '-in', 'account.pem', '-pubout', '-out', 'public.pem')
    value = base64.urlsafe_b64encode(DER).rstrip(b'=').decode()
    der = base64.b64decode(''.join((tmp_path / 'public.pem').read_text().splitlines()[1:-1]))
    x, y = (base64.urlsafe_b64encode(half).rstrip(b'=').decode() for half in (der[-64:-32], der[-32:]))
    thumb = hashlib.sha256(json.dumps({'crv': 'P-256', 'kty': 'EC', 'x': x, 'y': y}, separators=(',', ':')).encode()).digest()
    wanted = {'atc': {'tktype': 'TNAuthList', 'tkvalue': value, 'ca': False, 'fingerprint': 'SHA256 ' + ':'.join(f'{byte:02X}' for byte in thumb)}}
    for account in ('account.pem', 'public.pem'):
        words = ('--identifier', 'id.json', '--token', 'atc.json', '--account', account)
        status, _, error = run('request', '--key', 'key.pem', *LIST, *words, folder=tmp_path)
        assert status == 0, error
        assert json.loads((tmp_path / 'id.json').read_text()) == {'type': 'TNAuthList', 'value': value}
        assert json.loads((tmp_path / 'atc.json').read_text()) == wanted, account


@pytest.mark.parametrize(('words', 'status', 'said'), [
    (('--code', ''), 2, b'no code and no number'),
    (('--code', '7Ä'), 2, b'no code and no number'),
    (('--number', '+12155551212'), 2, b'no code and no number'),
    (('--number', '1234567890123456'), 2, b'no code and no number'),
    (('--number', '1215A'), 2, b'no code and no number'),
    (('--range', '12155550000,1'), 2, b'from 2 to'),
    (('--range', '12155550000'), 2, b'a comma and a count'),
    (('--code', '709J', '--subject', 'NONE=x'), 2, b'no part of a name'),
    (('--code', '709J', '--subject', 'CN'), 2, b'no part of a name'),
    (('--code', '709J', '--key', 'pkcs11:token=a'), 2, b'neither object nor id'),
    (('--code', '709J', '--token', 'x'), 2, b'--account'),
    ((), 2, b'required'),
])
def test_what_is_no_request_is_refused_and_nothing_is_written(words, status, said, run, tmp_path):
    key = () if '--key' in words else ('--key', 'key.pem')
    came = run('request', *key, *words, '--to', 'request.pem', folder=tmp_path)
    assert (came[0], said in came[2], (tmp_path / 'request.pem').exists()) == (status, True, False), came


def forged(pem):
    """The same certificate with another signature: its last bit is changed."""
    head, *lines, foot = pem.strip().splitlines()
    der = bytearray(base64.b64decode(''.join(lines)))
    der[-1] ^= 1
    return f'{head}\n{base64.encodebytes(bytes(der)).decode()}{foot}\n'


def found(out):
    """The first words of the lines."""
    return [line.split(b': ')[0].split() for line in out.splitlines()]


def test_what_came_back_is_held_against_key_request_and_roots(run, authority, tmp_path):
    for name in ('one', 'two'):
        assert run('request', '--key', f'{name}.pem', *LIST, *SUBJECT, '--to', f'{name}.csr', folder=tmp_path)[0] == 0
    authority.sign('one.csr', 'leaf.pem')
    authority.sign('one.csr', 'short.pem', days=0)
    authority.sign('one.csr', 'other.pem', section='other')
    (tmp_path / 'forged.pem').write_text(forged((tmp_path / 'leaf.pem').read_text()))
    openssl(tmp_path, 'x509', '-req', '-sha384', '-in', 'one.csr', '-out', 'strange.pem', *MIDDLE, '-copy_extensions', 'copy')
    good = {'key', 'profile', 'dates', 'list', 'path'}
    for leaf, key, roots, rest, wrong in (
        ('leaf.pem', 'one.pem', 'root.pem', ('middle.pem',), set()),
        ('leaf.pem', 'one.pem', 'root.pem', ('middle.pem', 'root.pem'), set()),
        ('leaf.pem', 'two.pem', 'root.pem', ('middle.pem',), {'key'}),
        ('leaf.pem', 'one.pem', 'stranger.pem', ('middle.pem',), {'path'}),
        ('leaf.pem', 'one.pem', 'root.pem', (), {'path'}),
        ('short.pem', 'one.pem', 'root.pem', ('middle.pem',), {'dates'}),
        ('other.pem', 'one.pem', 'root.pem', ('middle.pem',), {'list'}),
        ('forged.pem', 'one.pem', 'root.pem', ('middle.pem',), {'path'}),
        ('strange.pem', 'one.pem', 'root.pem', ('middle.pem',), {'profile', 'dates', 'path'}),
    ):
        authority.chain('chain.pem', leaf, *rest)
        status, out, error = run('request', '--check', 'chain.pem', '--key', key, '--request', 'one.csr', '--roots', roots, folder=tmp_path)
        case = (leaf, key, roots, rest, out, error)
        assert status == (1 if wrong else 0), case
        assert {line[1].decode() for line in found(out) if line[0] == b'wrong'} == wrong, case
        assert {line[1].decode() for line in found(out)} == good, case


@HSM
def test_a_key_of_an_hsm_asks_and_signs_and_openssl_finds_both_good(run, authority, tmp_path, monkeypatch):
    (tmp_path / 'tokens').mkdir()
    (tmp_path / 'softhsm2.conf').write_text(f'directories.tokendir = {tmp_path}/tokens\nobjectstore.backend = file\n')
    (tmp_path / 'pin').write_text('4321\n')
    monkeypatch.setenv('SOFTHSM2_CONF', str(tmp_path / 'softhsm2.conf'))
    for words in (['softhsm2-util', '--init-token', '--free', '--label', 'stir', '--so-pin', '12345678', '--pin', '4321'],
                  ['pkcs11-tool', '--module', MODULE, '--token-label', 'stir', '--login', '--pin', '4321', '--label', 'k1', '--id', '01',
                   '--keypairgen', '--key-type', 'EC:prime256v1']):
        subprocess.run(words, check=True, capture_output=True)
    uri = f'pkcs11:token=stir;object=k1?pin-source=file:{tmp_path}/pin&module-path={MODULE}'
    status, _, error = run('request', '--key', uri, *LIST, *SUBJECT, '--to', 'request.pem', folder=tmp_path)
    assert status == 0, error
    assert openssl(tmp_path, 'req', '-in', 'request.pem', '-verify', '-noout') == ''
    authority.sign('request.pem', 'leaf.pem')
    authority.chain('chain.pem', 'leaf.pem', 'middle.pem')
    status, out, error = run('request', '--check', 'chain.pem', '--key', uri, '--request', 'request.pem', '--roots', 'root.pem', folder=tmp_path)
    assert status == 0, (out, error)
    digest = hashlib.sha256(b'header.payload').digest()
    status, out, error = run('sign', '--leaf', 'leaf.pem', uri, 'k1', given=b'no signature k1 ' + digest.hex().encode() + b'\n', folder=tmp_path)
    assert status == 0, error
    r, s = (int.from_bytes(half, 'big') for half in (lambda raw: (raw[:32], raw[32:]))(bytes.fromhex(out.split()[3].decode())))
    utils = pytest.importorskip('cryptography.hazmat.primitives.asymmetric.utils')
    (tmp_path / 'signature').write_bytes(utils.encode_dss_signature(r, s))
    (tmp_path / 'digest').write_bytes(digest)
    (tmp_path / 'public.pem').write_text(openssl(tmp_path, 'x509', '-in', 'leaf.pem', '-pubkey', '-noout'))
    said = openssl(tmp_path, 'pkeyutl', '-verify', '-pubin', '-inkey', 'public.pem', '-in', 'digest', '-sigfile', 'signature')
    assert 'Signature Verified Successfully' in said
    (tmp_path / 'pin').write_text('1234\n')
    status, _, error = run('sign', uri, 'k1', given=b'', folder=tmp_path)
    assert status == 5 and b'the token refuses the PIN: CKR_PIN_INCORRECT' in error, error
