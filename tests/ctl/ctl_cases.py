"""The lines of `cases`, with the files that they name; and what openssl says of the signatures of `confirm` and `sign`. test_ctl.py runs them."""
import os
import pathlib
import shutil
import subprocess
import tempfile

HERE = pathlib.Path(__file__).resolve().parent

# The order of P-256's group (SEC 2, section 2.4.2).
ORDER = 0xFFFFFFFF00000000FFFFFFFFFFFFFFFFBCE6FAADA7179E84F3B9CAC2FC632551

# The signature of RFC 7515, appendix A.3.
KEY = '047fcdce2770f6c45d4183cbee6fdb4b7b580733357be9ef13bacf6e3c7bd15445c7f144cd1bbd9b7e872cdfedb9eeb9f4b3695d6ea90b24ad8a4623288588e5ad'
DIGEST = '21c67368f436577f447f805162ca13b80d046a3fe467247e65ea477aa750fa2e'
R = '0ed1215379636c483c2f7f155807d402a3b228033af97c7e17819ac3169ea665'
S = 'c50a07d38c3c70e5d8f12daf084a5480a66590c5f293509a8f3f7f8a83a354d5'
OTHER_S = f'{ORDER - int(S, 16):064x}'
GENUINE = [f'confirm {KEY} {DIGEST} {R}{S}', f'confirm {KEY.upper()} {DIGEST} {R}{OTHER_S}']
# Another digest; r and s in each other's place; 0 for r and for s; n for r; a point that doesn't lie on the curve, as with another y; and one whose
# numbers are too big.
FALSE = [f'confirm {KEY} {DIGEST[:-1]}f {R}{S}', f'confirm {KEY} {DIGEST} {S}{R}', f'confirm {KEY} {DIGEST} {"0" * 64}{S}',
         f'confirm {KEY} {DIGEST} {R}{"0" * 64}', f'confirm {KEY} {DIGEST} {ORDER:064x}{S}',
         f'confirm {KEY[:-1]}e {DIGEST} {R}{S}', f'confirm 04{"f" * 128} {DIGEST} {R}{S}', f'confirm 04{"0" * 128} {DIGEST} {R}{S}']


def text(lines):
    return ''.join(f'{line}\n' for line in lines).encode()


# The files of a case beside those of the folder `files`.
FILES = {
    '-': b'', 'none': b'',
    'questions': text(GENUINE),
    'mixed': text(['; questions', FALSE[0], GENUINE[0] + '\r', '', *FALSE[1:], GENUINE[1]]),
    'genuine': text(GENUINE * 2),
    'no-questions': text([GENUINE[0], GENUINE[0][:-1]]),
    'fault': b'missing chains.txt\n',
    'compressed': text([f'confirm 02{KEY[2:66]} {DIGEST} {R}{S}']),
    'others': text([f'no signature k2 {DIGEST}', f'no signature k11 {DIGEST}']),
    'sign-fault': b'sign fault 2\n',
    'chain-list': b'; in PEM\nhttps://cert.example.org/a.pem shuffled.pem\n',
    'chain-map': b'https://cert.example.org/a.pem made/shuffled.der\n',
    'odd-list': b'u odd.pem\n', 'odd-map': b'u odd.der\n', 'rsa-list': b'u rsa-leaf.pem\n', 'rsa-map': b'u rsa-leaf.der\n',
    'twice': b'u shuffled.pem\nu shuffled.pem\n', 'both-list': b'u shuffled.pem\nv shuffled.p7b\n', 'long-list': b'u %s.pem\n' % (b'n' * 251),
    'message-list': b'u message.p7b\n', 'message-map': b'u message.der\n', 'carrier-list': b'u carrier.pem\n', 'carrier-map': b'u carrier.der\n',
    'gap-list': b'u gap.pem\n', 'gap-map': b'u gap.der\n',
    'fetched-map': b'; as it was fetched\nu carrier-chain.der\nv carrier-chain.der\nw own.pem\n',
    'own-numbers': b'709J 12155550000 10000\n709J *67\n', 'table': b'709J 12155550000 10000\n709J *67\n42AB *\n', 'table-of-all': b'42AB *\n709J *\n',
    'cut-list': b'u chain-cut-short.pem\n', 'key-list': b'u key.pem\n',
}


def put_files(room):
    """Puts the files of a case into a folder."""
    shutil.copytree(HERE / 'files', room, dirs_exist_ok=True)
    for name, data in FILES.items():
        (room / name).write_bytes(data)


def case(line, run, room):
    """What a line wants, and what came."""
    given, wanted = line.split(' => ')
    words, data = given.split(' < ')
    status, output, *error = wanted.split(' ', 2)
    put_files(room)
    got = run(*words.split(), given=(room / data).read_bytes(), folder=room)
    want = int(status), (room / output).read_bytes(), ''.join(f'{said}\n' for said in error[0].split(' // ')).encode() if error else b''
    if '--to made' in words and status == '0':
        made = room / 'made/shuffled.der'
        got, want = (*got, made.exists() and made.read_bytes()), (*want, (room / 'shuffled.der').read_bytes())
    return want, got


def lines():
    """Each line of `cases`, with its number."""
    for number, line in enumerate((HERE / 'cases').read_text().splitlines(), 1):
        if line and not line.startswith(';'):
            yield number, line


def openssl(*words, given=b''):
    return subprocess.run(['openssl', *words], input=given, stdout=subprocess.PIPE, stderr=subprocess.DEVNULL)


def integer(number):
    """An INTEGER in DER (X.690, section 8.3)."""
    content = number.to_bytes(number.bit_length() // 8 + 1, 'big')
    return bytes([2, len(content)]) + content


def in_der(signature):
    """r and s as openssl has them: a SEQUENCE of two INTEGERs (RFC 3279, section 2.2.3)."""
    content = integer(int(signature[:64], 16)) + integer(int(signature[64:], 16))
    return bytes([0x30, len(content)]) + content


def from_der(data):
    first = data[4:4 + data[3]]
    return ''.join(f'{int.from_bytes(part, "big"):064x}' for part in (first, data[6 + len(first):]))


def agreement(run, folder):
    """Whether openssl and stirctl agree on one new key and message: what openssl signs is genuine, also as r and n - s, and not over
    another message; and openssl verifies what `sign` signs."""
    key, public, message, signature = (str(folder / name) for name in ('k.pem', 'k.pub', 'message', 'signature'))
    openssl('ecparam', '-name', 'prime256v1', '-genkey', '-noout', '-out', key)
    openssl('ec', '-in', key, '-pubout', '-out', public)
    point = openssl('ec', '-in', key, '-pubout', '-outform', 'DER').stdout[-65:].hex()
    pathlib.Path(message).write_bytes(os.urandom(1 + os.urandom(1)[0]))
    digest = openssl('dgst', '-sha256', '-r', message).stdout.split()[0].decode()
    made = from_der(openssl('dgst', '-sha256', '-sign', key, message).stdout)
    other = f'{made[:64]}{ORDER - int(made[64:], 16):064x}'
    lines = [f'confirm {point} {digest} {given}' for given in (made, other)]
    false = f'confirm {point} {DIGEST} {made}'
    if run('confirm', '--jobs', '1', given=text([lines[0], false, lines[1]])) != (0, text(lines), b''):
        return False
    status, output, _ = run('sign', key, 'k', given=text([f'no signature k {digest}'] * 2))
    words = output.decode().split()
    if status or len(words) != 4 or words[:3] != ['sign', 'k', digest]:
        return False
    pathlib.Path(signature).write_bytes(in_der(words[3]))
    return openssl('dgst', '-sha256', '-verify', public, '-signature', signature, message).returncode == 0


def agreements(run, keys):
    """Whether openssl and stirctl agree on so many new keys and messages: the name, what is wanted, and what came."""
    with tempfile.TemporaryDirectory() as folder:
        for number in range(keys):
            yield f'openssl, key {number + 1}', True, agreement(run, pathlib.Path(folder))
