"""Certificates made by openssl, for the cases of `stirctl fetch`: a root, an intermediate below it, and a carrier's below that,
whose authority list has one code; and files of them in each form."""
import functools
import pathlib
import subprocess
import tempfile

# TNAuthList with the code 42AB (RFC 8226, section 9).
AUTHORITY = '1.3.6.1.5.5.7.1.26=DER:30:08:A0:06:16:04:34:32:41:42'
ISSUER = 'basicConstraints=critical,CA:TRUE\nkeyUsage=critical,keyCertSign'
HOLDER = f'keyUsage=critical,digitalSignature\n{AUTHORITY}'
SERVER = 'subjectAltName=DNS:localhost,IP:127.0.0.1'


def openssl(*words, given=b''):
    return subprocess.run(['openssl', *words], input=given, stdout=subprocess.PIPE, stderr=subprocess.PIPE, check=True).stdout


def key(room, name):
    """The key's file, made where it isn't there."""
    file = room / f'{name}.key'
    if not file.exists():
        openssl('ecparam', '-name', 'prime256v1', '-genkey', '-noout', '-out', str(file))
    return str(file)


def issue(room, name, issuer, extensions, days=400):
    """A certificate for the key of this name, by the issuer's."""
    request = openssl('req', '-new', '-key', key(room, name), '-subj', f'/O=Example/CN={name}')
    (room / 'extensions').write_text(extensions)
    by = ['-signkey', key(room, name)] if issuer == name else ['-CA', str(room / f'{issuer}.pem'), '-CAkey', key(room, issuer)]
    openssl('x509', '-req', *by, '-set_serial', '7', '-days', str(days), '-sha256', '-extfile', str(room / 'extensions'), '-out',
            str(room / f'{name}.pem'), given=request)


@functools.cache
def files():
    """The files by their names."""
    with tempfile.TemporaryDirectory() as folder:
        room = pathlib.Path(folder)
        issue(room, 'root', 'root', ISSUER)
        issue(room, 'middle', 'root', ISSUER)
        issue(room, 'carrier', 'middle', HOLDER)
        issue(room, 'soon', 'middle', HOLDER, 3)
        issue(room, 'localhost', 'localhost', SERVER)
        made = {name: (room / f'{name}.pem').read_bytes() for name in ('root', 'middle', 'carrier', 'soon', 'localhost')}
        made |= {f'{name}.der': openssl('x509', '-outform', 'DER', given=data) for name, data in made.items()}
        made['carrier.key'], made['localhost.key'] = (pathlib.Path(key(room, name)).read_bytes() for name in ('carrier', 'localhost'))
        (room / 'both').write_bytes(made['middle'] + made['carrier'])
        for form in ('PEM', 'DER'):
            made[f'message.{form}'] = openssl('crl2pkcs7', '-nocrl', '-certfile', str(room / 'both'), '-outform', form)
        made['ends'] = openssl('x509', '-noout', '-enddate', '-dateopt', 'iso_8601', given=made['carrier']).decode().split('=')[1][:10]
        return made
