"""How the packages do in a bare Debian 12, as a user installs them there."""
import json
import pathlib
import re
import subprocess
import sys
import time

import pytest
from conftest import TOP

HERE = pathlib.Path(__file__).resolve().parent
CALL = 1


@pytest.fixture(scope='session')
def world(tmp_path_factory):
    """Certificates that are valid by the clock."""
    module = pytest.importorskip('world')
    return module.World(tmp_path_factory.mktemp('world') / 'world', 1, int(time.time()))


@pytest.fixture(scope='module')
def service(roots, packages, world):
    """A bare Debian with the two packages of which the service consists."""
    debian = roots(packages['stird'], packages['libstir1'])
    bring(debian, world)
    return debian


@pytest.fixture(scope='module')
def whole(roots, packages, world):
    """A bare Debian with all packages."""
    debian = roots(*packages.values())
    bring(debian, world)
    return debian


def bring(debian, world):
    """Whom to trust, as files of /etc/stird."""
    from cryptography import x509
    from cryptography.hazmat.primitives.serialization import Encoding
    root = (world.folder / 'anchors.der').read_bytes()
    debian.put('/etc/stird/anchors.der', root)
    debian.put('/etc/stird/roots.pem', x509.load_der_x509_certificate(root).public_bytes(Encoding.PEM))
    debian.put('/etc/stird/chain.der', (world.folder / 'chain-0.der').read_bytes())
    debian.put('/etc/stird/chains.txt', f'{world.x5u(0)} /etc/stird/chain.der\n'.encode())
    debian.put('/etc/stird/table.txt', (world.folder / 'table.txt').read_bytes())


def judged(debian, world, user, read_only, *words):
    """What stird answers of a signed call, and the status with which it ends."""
    words = ['unshare', '--net', '--mount', sys.executable, HERE / 'inside.py', debian.folder, user, read_only, *words]
    done = subprocess.run(words, input=world.call(0, int(time.time()), CALL), stdout=subprocess.PIPE, stderr=subprocess.PIPE)
    if b'unshare failed' in done.stderr:
        pytest.skip('no network of its own can be made here')
    assert done.stdout, done.stderr.decode()
    return json.loads(done.stdout)['outcome'], done.returncode


def edited(debian):
    """The settings with one line changed: where the trust anchors are."""
    file = debian.folder / 'etc/stird/stird.toml'
    text, count = re.subn(r'^#? *roots = .*$', 'roots = "/etc/stird/roots.pem"', file.read_text(), count=1, flags=re.M)
    assert count == 1, text
    file.write_text(text)


def test_a_signed_call_is_judged_after_one_line_of_the_settings_is_edited(service, world):
    edited(service)
    # No systemd runs there, so it gets no sockets.
    words = '--config', '/etc/stird/stird.toml', '--listen', '127.0.0.1:8080'
    assert judged(service, world, '65534:65534', 'no', *words) == ('valid', 0)


def test_nobody_serves_from_a_root_that_cant_be_written(service, world):
    words = '--roots', '/etc/stird/roots.pem', '--chains', '/etc/stird/chains.txt', '--listen', '127.0.0.1:8080'
    assert judged(service, world, '65534:65534', 'yes', *words) == ('valid', 0)


def test_python_judges_a_signed_call_without_pip(whole, world):
    now = int(time.time())
    whole.put('/root/call', world.call(0, now, CALL))
    script = ('import stir; world = stir.World.read(*("/etc/stird/" + name for name in ("chains.txt", "anchors.der", "table.txt")));'
              f'print(type(stir.verify(stir.Call({now}, open("/root/call", "rb").read()), world, stir.confirm)).__name__)')
    assert whole.run('python3', '-c', script) == (0, 'Passes\n', '')


def test_the_operators_program_shows_a_chain(whole):
    whole.put('/root/chain.der', (TOP / 'examples/chain/chain.der').read_bytes())
    status, output, error = whole.run('stirctl', 'show', '/root/chain.der')
    assert (status, error) == (0, '') and output


@pytest.mark.parametrize('words', [[], [''], ['--help'], ['-h'], ['help'], ['--version'], ['verify'], ['verify', '--chain=a'], ['verify', '--help'], ['shows'],
                                   ['--help', 'verify'], ['drill', '--seed', '7']], ids=' '.join)
def test_the_program_answers_its_words_as_in_the_repository(whole, words):
    number = whole.run('dpkg-query', '--show', '--showformat', '${Version}', 'stir')[1]
    done = subprocess.run([TOP / 'stir', *words], stdin=subprocess.DEVNULL, stdout=subprocess.PIPE, stderr=subprocess.PIPE, text=True)
    assert whole.run('stir', *words) == (done.returncode, alike(done.stdout, number), alike(done.stderr, number))


def test_the_program_shows_a_chain_and_judges_the_example(whole):
    shared = '/usr/share/stir/examples'
    assert whole.run('sh', '-c', f'stir show <{shared}/chain/chain.der') == (0, (TOP / 'examples/chain/output').read_text(), '')
    words = ' '.join(f'--{name} examples/files/{name}.{"der" if name == "anchors" else "txt"}' for name in ('chains', 'anchors', 'table', 'answers'))
    wanted = 1, (TOP / 'examples/first-call/output').read_text(), ''
    assert whole.run('sh', '-c', f'cd /usr/share/stir && ./stir verify {words} <examples/first-call/calls.log') == wanted


def test_proof_is_checked_by_sha256sum(whole):
    for name in ('stir', 'libstir1', 'libstir-dev', 'python3-stir', 'stird', 'stirctl'):
        status, output, _ = whole.run('sha256sum', '--check', '--ignore-missing', f'/usr/share/doc/{name}/PROOF')
        assert (status, output.count(': OK\n'), output.count('\n')) == (0, 5, 5), output


def alike(text, number):
    """What the repository's script writes, as it is in the package: without what needs the toolchain, and with the package's names."""
    text = re.sub(r'^\./stir --prove\n', '', text, flags=re.M)
    text = re.sub(r'man -l \S+ shows the commands, and \S+ what', 'man stir shows the commands, and /usr/share/doc/stir/README.md what', text)
    return re.sub(r'^stir [0-9.]+$', f'stir {number}', text.replace('./stir', 'stir'), flags=re.M)


def test_nothing_is_left_after_a_purge(whole, packages):
    """The last one: it takes the packages away."""
    whole.put('/var/lib/stird/tickets', b'')
    whole.put('/etc/stird/keys/one.pem', b'')
    assert whole.run('stir', '--version')[0] == 0
    whole.apt('purge', '--autoremove', *packages)
    found = whole.run('find', '/', '-xdev', '-name', '*stir*', '-not', '-path', '/root/*', '-not', '-path', '/proc/*')
    assert found == (0, '', '')
    assert 'stir' not in (whole.folder / 'etc/passwd').read_text() + (whole.folder / 'etc/group').read_text()
