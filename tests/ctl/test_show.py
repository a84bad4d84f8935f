"""What `stirctl show` says of certificates, held against Python's cryptography, which made them, and against openssl."""
import datetime
import json
import subprocess

import ctl_cases
import pytest

x509 = pytest.importorskip('cryptography.x509')
from cryptography.hazmat.primitives import hashes, serialization  # noqa: E402
from cryptography.hazmat.primitives.asymmetric import ec  # noqa: E402

UTC = datetime.timezone.utc
AUTHORITY, CLAIMS = (x509.ObjectIdentifier(f'1.3.6.1.5.5.7.1.{number}') for number in (26, 27))
SHAKEN = '2.16.840.1.114569.1.1.3'
USAGES = {'digital_signature': 'digitalSignature', 'content_commitment': 'contentCommitment', 'key_encipherment': 'keyEncipherment',
          'data_encipherment': 'dataEncipherment', 'key_agreement': 'keyAgreement', 'key_cert_sign': 'keyCertSign', 'crl_sign': 'cRLSign'}


def element(tag, *parts):
    """A short element in DER (X.690, sections 8.1 and 10.1)."""
    content = b''.join(parts)
    assert len(content) < 0x80
    return bytes([tag, len(content)]) + content


def text(value):
    return element(0x16, value.encode())


# A code, ten numbers from one on, and one number (RFC 8226, section 9).
LIST = element(0x30, element(0xA0, text('709J')), element(0xA0, text('42AB')), element(0xA1, element(0x30, text('12155551000'), element(0x02, b'\x0a'))),
               element(0xA2, text('12125551213')))
# `attest` has to be there, and may be A or B (docs/FORMATS.md).
CONSTRAINTS = element(0x30, element(0xA0, element(0x30, text('attest'))),
                      element(0xA1, element(0x30, element(0x30, text('attest'), element(0x30, element(0x0C, b'A'), element(0x0C, b'"B'))))))


def policies(*names):
    return x509.CertificatePolicies([x509.PolicyInformation(x509.ObjectIdentifier(name), qualifiers) for name, qualifiers in names])


def points(*places):
    return x509.CRLDistributionPoints([x509.DistributionPoint([x509.UniformResourceIdentifier(place)], None, None, None) for place in places])


def usage(*names):
    others = dict.fromkeys((*USAGES, 'encipher_only', 'decipher_only'), False)
    return x509.KeyUsage(**others | dict.fromkeys(names, True))


def name(*parts):
    return x509.Name([x509.NameAttribute(getattr(x509.NameOID, kind), value) for kind, value in parts])


OWN = name(('COUNTRY_NAME', 'US'), ('ORGANIZATION_NAME', 'Example, "Inc." <x>; a+b\\'), ('COMMON_NAME', '#SHAKEN 709J Žižkov '))
ISSUER = name(('DOMAIN_COMPONENT', 'net'), ('ORGANIZATIONAL_UNIT_NAME', 'Calls'), ('COMMON_NAME', 'SHAKEN CA'))
BASIC = x509.BasicConstraints

# Serial number, first and last second, and extensions with whether they are critical. The last certificate is outside the profile.
MADE = {
    'leaf': (0xDEADBEEF0001, (2024, 2, 29), (2027, 3, 1), [
        (BASIC(False, None), True), (usage('digital_signature'), True), (x509.UnrecognizedExtension(AUTHORITY, LIST), False),
        (policies((SHAKEN, None), ('1.2.3.4', ['https://example.org/cps'])), False), (points('https://authenticate-api.iconectiv.com/download/v1/crl',
                                                                                         'http://b.example/crl'), False)]),
    'issuer': (1, (1969, 12, 31), (2051, 1, 1), [(BASIC(True, 0), True), (usage('key_cert_sign', 'crl_sign'), True), (policies((SHAKEN, None)), False)]),
    'root': ((1 << 159) - 1, (2020, 1, 1), (2040, 1, 1), [(BASIC(True, None), True)]),
    'constrained': (128, (2024, 1, 1), (2025, 1, 1), [(x509.UnrecognizedExtension(AUTHORITY, LIST), False),
                                                      (x509.UnrecognizedExtension(CLAIMS, CONSTRAINTS), False)]),
    'bare': (7, (2024, 1, 1), (2025, 1, 1), []),
    'outside': (77, (2024, 1, 1), (2025, 1, 1), [(policies((SHAKEN, None)), False), (x509.UnrecognizedExtension(x509.ObjectIdentifier('1.2.3'), b'\5\0'), True)]),
}


@pytest.fixture(scope='module')
def made(tmp_path_factory):
    """The certificates by their names, each with its file in PEM."""
    room, found = tmp_path_factory.mktemp('made'), {}
    for kind, (serial, begins, ends, extensions) in MADE.items():
        key = ec.generate_private_key(ec.SECP256R1())
        builder = (x509.CertificateBuilder().subject_name(OWN).issuer_name(ISSUER).public_key(key.public_key()).serial_number(serial)
                   .not_valid_before(datetime.datetime(*begins)).not_valid_after(datetime.datetime(*ends)))
        for extension, is_critical in extensions:
            builder = builder.add_extension(extension, is_critical)
        certificate = builder.sign(key, hashes.SHA256())
        file = room / f'{kind}.pem'
        file.write_bytes(certificate.public_bytes(serialization.Encoding.PEM))
        found[kind] = certificate, file
    return found


def value_of(certificate, kind):
    """An extension's value, or nothing."""
    try:
        return certificate.extensions.get_extension_for_class(kind).value
    except x509.ExtensionNotFound:
        return None


def by_cryptography(certificate):
    """What cryptography says of a certificate, as `show` has it in JSON."""
    seconds = [int(moment.replace(tzinfo=UTC).timestamp()) for moment in (certificate.not_valid_before, certificate.not_valid_after)]
    constraints, usages = value_of(certificate, BASIC), value_of(certificate, x509.KeyUsage)
    named, lists = value_of(certificate, x509.CertificatePolicies), value_of(certificate, x509.CRLDistributionPoints)
    point = certificate.public_key().public_bytes(serialization.Encoding.X962, serialization.PublicFormat.UncompressedPoint)
    return {
        'not_before': seconds[0], 'not_after': seconds[1], 'policies': [it.policy_identifier.dotted_string for it in named or ()],
        'ca': bool(constraints and constraints.ca), 'path_length': constraints and constraints.path_length,
        'usage': usages and [said for own, said in USAGES.items() if getattr(usages, own)], 'key': point.hex(),
        'revocation': [name.value for point in lists or () for name in point.full_name]}


@pytest.mark.parametrize('kind', [kind for kind in MADE if kind != 'outside'])
def test_each_value_is_that_of_cryptography(kind, made, run):
    certificate, file = made[kind]
    status, output, said = run('show', '--json', file)
    told = json.loads(output)
    wanted = by_cryptography(certificate)
    assert (status, said, {name: told[name] for name in wanted}) == (0, b'', wanted)
    assert int(told['serial'], 16) == certificate.serial_number
    has_list = kind in ('leaf', 'constrained')
    assert (told['has_list'], told['codes'], told['ranges'], told['numbers']) == (
        has_list, ['709J', '42AB'] * has_list, [{'start': '12155551000', 'count': '10'}] * has_list, ['12125551213'] * has_list)
    assert told['claims'] == ({'wanted': ['attest'], 'permitted': [{'claim': 'attest', 'values': ['A', '"B']}]} if kind == 'constrained' else None)
    assert (told['file'], told['certificate'], told['outside']) == (str(file), 1, None)


@pytest.mark.parametrize('kind', MADE)
def test_names_serials_dates_and_policies_are_those_of_openssl(kind, made, run):
    _, file = made[kind]
    told = json.loads(run('show', '--json', file)[1])

    def openssl(*words):
        return subprocess.run(['openssl', 'x509', '-in', file, '-noout', *words], stdout=subprocess.PIPE, check=True).stdout.decode()

    names = dict(line.split('=', 1) for line in openssl('-subject', '-issuer', '-nameopt', 'RFC2253,-esc_msb,utf8').splitlines())
    assert names == {name: told[name] for name in ('subject', 'issuer')}
    assert int(openssl('-serial').strip().removeprefix('serial='), 16) == int(told['serial'], 16)
    dates = dict(line.split('=') for line in openssl('-dates', '-dateopt', 'iso_8601').splitlines())
    for name, said in (('not_before', dates['notBefore']), ('not_after', dates['notAfter'])):
        assert int(datetime.datetime.fromisoformat(said.replace('Z', '+00:00')).timestamp()) == told[name]
    printed = openssl('-text')
    assert [line.split()[-1] for line in printed.splitlines() if line.strip().startswith('Policy: ')] == told['policies']
    assert all(f'URI:{place}\n' in printed for place in told.get('revocation', ()))


def test_what_is_outside_the_profile_is_named_and_the_rest_is_told(made, run):
    certificate, file = made['outside']
    status, output, said = run('show', '--json', file)
    told = json.loads(output)
    data = certificate.public_bytes(serialization.Encoding.DER)
    place = data.index(bytes.fromhex('300b06022a030101ff'))  # SEQUENCE, the identifier, TRUE
    assert (status, said, told['outside']) == (1, b'', {'part': 'extension 1.2.3', 'place': place})
    assert (told['policies'], int(told['serial'], 16)) == ([SHAKEN], 77)
    assert 'ca' not in told and 'codes' not in told
    status, output, _ = run('show', file)
    assert status == 1 and output.decode().endswith(f'\n    policy      {SHAKEN}\n    outside     extension 1.2.3, at byte {place}\n')


def test_a_certificate_may_have_8192_bytes(run, tmp_path):
    def sized(count):
        """A certificate with so many bytes in an extension that the profile passes over."""
        key = ec.generate_private_key(ec.SECP256R1())
        builder = (x509.CertificateBuilder().subject_name(OWN).issuer_name(ISSUER).public_key(key.public_key()).serial_number(7)
                   .not_valid_before(datetime.datetime(2024, 1, 1)).not_valid_after(datetime.datetime(2025, 1, 1))
                   .add_extension(x509.UnrecognizedExtension(x509.ObjectIdentifier('1.2.3'), bytes(count)), False))
        return builder.sign(key, hashes.SHA256()).public_bytes(serialization.Encoding.DER)

    # A signature's two numbers have a byte more or less from time to time.
    found, count = {}, 8192 - len(sized(7000)) + 7000
    while not {8192, 8193} <= set(found):
        for more in (-1, 0, 1, 2):
            data = sized(count + more)
            found[len(data)] = data
    assert run('show', '--json', given=found[8192])[0] == 0
    status, output, _ = run('show', '--json', given=found[8193])
    assert (status, json.loads(output)['outside']) == (1, {'part': 'more than 8192 bytes', 'place': None})


def test_words_say_the_same_a_line_each(made, run):
    status, output, _ = run('show', made['constrained'][1])
    lines = [line.strip() for line in output.decode().splitlines()]
    assert status == 0 and lines[0] == f'{made["constrained"][1]}: certificate 1'
    for line in ('serial      0080', 'valid       2024-01-01 00:00:00 UTC to 2025-01-01 00:00:00 UTC', 'authority   no', 'code        709J',
                 'range       10 numbers from 12155551000 on', 'number      12125551213', 'claim       attest has to be there',
                 'claim       attest may be "A", "\\"B"'):
        assert line in lines, line
    output = run('show', made['issuer'][1])[1].decode()
    assert '    valid       86400 seconds before 1970 to 2051-01-01 00:00:00 UTC\n    authority   yes, path length 0\n' in output
    assert '    usage       keyCertSign, cRLSign\n' in output and '    list        none\n' in output


def test_a_chain_is_shown_from_its_leaf_on_whatever_its_form(run, tmp_path):
    ctl_cases.put_files(tmp_path)
    shown = [[json.loads(line)['subject'] for line in run('show', '--json', name, folder=tmp_path)[1].splitlines()]
             for name in ('shuffled.pem', 'shuffled.der')]
    assert shown[0] == shown[1] and len(shown[0]) > 1
    assert run('show', given=(tmp_path / 'shuffled.der').read_bytes())[1].startswith(b'input: certificate 1\n')


def test_what_is_no_certificate_is_a_fault(run, tmp_path):
    for given, said in ((b'', 'it has no certificates in PEM, DER or PKCS #7'), (b'0\x03\x02\x01\x01', 'certificate 1 can\'t be read')):
        assert run('show', given=given) == (5, b'', f'stirctl: input: {said}\n'.encode())
    assert run('show', tmp_path / 'none')[0] == 5
