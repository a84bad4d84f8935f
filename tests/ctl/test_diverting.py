"""What `sign --message`, `divert` and `retarget` of `stirctl` write in one run: what the proved program writes with the signature that they made."""
import base64
import json
import os
import pathlib
import re
import time

import ctl_cases
import pytest
import rows

cli = rows.cli
COMMANDS = [b'sign', b'divert', b'retarget']

# The certificates of the cases have a key whose numbers are one byte again and again; here they get one that signs.
POINT = re.compile(rb'\x04(.)\1{63}', re.S)

# Files that are no certificate, which stirctl refuses in other words, and tables that it reads before the certificate.
OTHERS = {b'--leaf=two.der', b'--leaf=nothing.txt', b'--leaf=zeros.der', b'--leaf=long.der', b'--table=none.txt', b'--answers=none', b'--answers=faulty.txt',
          b'--answers=.'}


def with_leaf(words):
    """The same words, with the certificate of a holder if they name none: stirctl wants one."""
    if any(word.startswith(b'--leaf=') for word in words):
        return words
    return [*words, b'--leaf=' + (b'div.der' if words[0] == b'divert' else b'holder.der'), b'--table=nothing.txt']


def cases():
    for name in 'sign.rows', 'retarget.rows':
        for place, case in cli.rows(cli.HERE / name):
            words, given, files, streams, _, outputs = case.args
            if words[0] in COMMANDS and not streams and outputs != [rows.REFUSED] and not OTHERS & set(words):
                yield pytest.param(with_leaf(words), given, files, id=place)


@pytest.fixture(scope='module')
def key(tmp_path_factory):
    """The file of a new key, and its point."""
    path = tmp_path_factory.mktemp('key') / 'key.pem'
    ctl_cases.openssl('ecparam', '-name', 'prime256v1', '-genkey', '-noout', '-out', str(path))
    return path, ctl_cases.openssl('ec', '-in', str(path), '-pubout', '-outform', 'DER').stdout[-65:]


def value_of(words, name):
    return next(word.split(b'=', 1)[1] for word in words if word.startswith(b'--%s=' % name))


def of_ctl(words):
    """The words of stirctl: the key is a file, and no answers file has its signatures; a message is named where lines may be."""
    left_out = [b'--key='] if words[0] == b'retarget' else [b'--key=', b'--answers=']
    kept = [word for word in words if not any(word.startswith(name) for name in left_out)]
    return [*kept, *([b'--message=-'] if words[0] == b'sign' else []), b'key.pem']


def signature_in(message):
    """The signature of the last Identity field."""
    found = re.findall(rb'\r\nIdentity: [^;\r]*\.([A-Za-z0-9_-]{86});', message.split(b'\r\n\r\n')[0] + b'\r\n')[-1]
    return base64.urlsafe_b64decode(found + b'==').hex()


def is_good(key, digest, signature, folder):
    """Whether openssl finds the signature good."""
    (folder / 'digest').write_bytes(bytes.fromhex(digest))
    (folder / 'signature').write_bytes(ctl_cases.in_der(signature))
    done = ctl_cases.openssl('pkeyutl', '-verify', '-inkey', str(key), '-in', str(folder / 'digest'), '-sigfile', str(folder / 'signature'))
    return done.returncode == 0


@pytest.mark.parametrize('words, given, files', cases())
def test_it_writes_what_the_proved_program_writes_with_its_signature(words, given, files, ctl, program, key, equal, tmp_path):
    path, point = key
    leaf, answers = (value_of(words, name).decode() for name in (b'leaf', b'answers'))
    unsigned = b''.join(line for line in files[answers].splitlines(True) if not line.startswith(b'sign '))
    files = {**files, 'key.pem': path.read_bytes(), 'made.txt': unsigned}
    words = [b'--answers=made.txt' if word.startswith(b'--answers=') else word for word in words]
    if leaf in files:
        files[leaf] = POINT.sub(lambda _: point, files[leaf])
    wanted = cli.run(os.fspath(program), words, given, files)
    got = cli.run(os.fspath(ctl), of_ctl(words), given, files)
    missing = re.fullmatch(rb'no signature (\S+) ([0-9a-f]{64})\n', wanted[1])
    if missing:
        name, digest = (word.decode() for word in missing.groups())
        assert got[0] == 0, got
        signature = signature_in(got[1])
        assert is_good(path, digest, signature, tmp_path), (words, digest, signature)
        files['made.txt'] = unsigned + f'sign {name} {digest} {signature}\n'.encode()
        wanted = cli.run(os.fspath(program), words, given, files)
        assert wanted[0] == 0, wanted
    equal(wanted, got, given=(words, given))


HERE = pathlib.Path(__file__).resolve().parent
INVITE = (HERE.parent.parent / 'examples/sign/invite.sip').read_bytes()
X5U = '--x5u=https://cert.example.org/a.pem'
MESSAGE = ['sign', '--message=-', X5U, '--form=base', '--table=table', '--leaf=carrier.pem']


@pytest.fixture
def room(tmp_path):
    ctl_cases.put_files(tmp_path)
    (tmp_path / 'table').write_bytes(b'709J 12155550000 10000\n42AB 12155550000 10000\n')
    (tmp_path / 'invite.sip').write_bytes(INVITE)
    return tmp_path


def claims(message):
    token = re.findall(rb'\r\nIdentity: ([^;]*);', message)[-1]
    return json.loads(base64.urlsafe_b64decode(token.split(b'.')[1] + b'=='))


def test_a_second_that_is_not_said_is_the_clocks(run, room):
    before = time.time()
    status, message, said = run(*MESSAGE, 'key.pem', given=INVITE, folder=room)
    assert (status, said) == (0, b'')
    assert int(before) <= claims(message)['iat'] <= time.time()
    status, message, _ = run(*MESSAGE, '--message=invite.sip', '--iat=7', 'key.pem', folder=room)
    assert status == 2, 'a message is named twice'
    status, message, _ = run('divert', X5U, '--table=table', '--leaf=carrier.pem', '--earlier=12155551212', 'key.pem', 'invite.sip', folder=room)
    assert status == 0 and before - 1 <= claims(message)['iat'] <= time.time(), claims(message)


@pytest.mark.parametrize('words, wanted', [
    ((*MESSAGE, '--leaf=middle.pem', 'key.pem'), 2),
    (('sign', '--message=-', X5U, '--form=base', '--leaf=middle.pem', 'key.pem'), 5),
    (('sign', '--message=-', X5U, '--form=base', 'key.pem'), 2),
    (('sign', '--message=-', X5U, '--leaf=carrier.pem', 'key.pem'), 2),
    (('sign', X5U, 'key.pem', 'k1'), 2),
    (('sign', 'key.pem'), 2),
    ((*MESSAGE, 'key.pem', 'k1'), 2),
    ((*MESSAGE, '--attest=A', 'key.pem'), 2),
    ((*MESSAGE[:3], *MESSAGE[4:], '--form=shaken', '--attest=A', 'key.pem'), 2),
    ((*MESSAGE[:3], *MESSAGE[4:], '--form=shaken', '--attest=A', '--origid=no', 'key.pem'), 2),
    ((*MESSAGE, '--iat=253402300800', 'key.pem'), 2),
    ((*MESSAGE, 'missing.pem'), 5),
    ((*MESSAGE, 'locked-key.pem'), 5),
    ((*MESSAGE, '--password-file=password', 'locked-key.pem'), 0),
    (('divert', X5U, '--leaf=carrier.pem', 'key.pem'), 2),
    (('divert', X5U, '--leaf=carrier.pem', '--table=table', '--earlier=1x', 'key.pem'), 2),
    (('divert', X5U, '--leaf=carrier.pem', '--earlier=12155551212', 'key.pem'), 1),
    (('retarget', X5U, '--leaf=carrier.pem', '--target=tel:+1', 'key.pem'), 2),
])
def test_status_of_words(words, wanted, run, room):
    status, output, said = run(*words, given=INVITE, folder=room)
    assert status == wanted, (output, said)


def test_an_output_without_room_is_said(run, room):
    with open('/dev/full', 'wb') as full:
        assert run(*MESSAGE, 'key.pem', given=INVITE, folder=room, stdout=full)[0] == 4
