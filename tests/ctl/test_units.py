"""The units of packaging/systemd: systemd reads them, and their commands do what they say with the variables of docs/TRUST.md."""
import pathlib
import re
import shlex
import shutil
import subprocess

import pytest

pytest.importorskip('cryptography')
import trusted  # noqa: E402

TOP = pathlib.Path(__file__).resolve().parent.parent.parent
UNITS = TOP / 'packaging/systemd'
STATE = '/var/lib/stir-trust'


@pytest.fixture
def ctl(request):
    return request.config.getoption('ctl').resolve()


def command(unit, variables):
    """The words of a unit's command as systemd.service(5) makes them: `${NAME}` is one word, and `$NAME` as many as it has."""
    line, = re.findall(r'^ExecStart=(.*)$', (UNITS / unit).read_text(), re.M)
    words = []
    for word in line.split():
        whole = re.fullmatch(r'\$(\w+)', word)
        words += shlex.split(variables.get(whole[1], '')) if whole else [re.sub(r'\$\{(\w+)\}', lambda found: variables[found[1]], word)]
    return words


def test_systemd_reads_the_units(ctl, tmp_path):
    if not shutil.which('systemd-analyze'):
        pytest.skip('missing: systemd-analyze')
    names = sorted(path.name for path in UNITS.glob('stir-*'))
    assert names == ['stir-crl.service', 'stir-crl.timer', 'stir-roots.service', 'stir-roots.timer']
    for name in names:
        (tmp_path / name).write_text((UNITS / name).read_text().replace('/usr/bin/stirctl', str(ctl)))
    words = ['systemd-analyze', 'verify', '--man=no', *names]
    done = subprocess.run(words, cwd=tmp_path, stdout=subprocess.PIPE, stderr=subprocess.STDOUT, text=True)
    assert (done.returncode, [line for line in done.stdout.splitlines() if 'stir-' in line]) == (0, []), done.stdout


def test_their_commands_keep_the_list_and_the_anchors(ctl, tmp_path):
    world = trusted.Abroad(tmp_path)
    page = (TOP / 'docs/TRUST.md').read_text()
    names = set(re.findall(r'^([A-Z_]+)=', page, re.M))
    variables = {'CRL_URL': 'new.crl', 'CRL_SIGNER': 'agency.pem', 'ROOTS_URL': 'list.jws', 'ROOTS_SIGNER': 'signer.pem',
                 'BRIDGES': '--bridge=C.pem --bridge=R.pem'}
    assert names == set(variables)

    def run(unit):
        words = [word.replace(STATE, str(tmp_path)) for word in command(unit, variables)]
        assert words[0] == '/usr/bin/stirctl'
        done = subprocess.run([ctl, *words[1:]], cwd=tmp_path, stdout=subprocess.PIPE, stderr=subprocess.PIPE)
        assert done.stdout == b'', done
        return done.returncode

    world.write('new.crl', trusted.crl([]))
    world.write('list.jws', trusted.jws(world.body('Root A', 'Root B', 'Root C', 'Root R'), world.list))
    assert (run('stir-crl.service'), run('stir-roots.service')) == (0, 0)
    whole = (tmp_path / 'anchors.der').read_bytes()
    assert whole.startswith(world.anchors('Root A', 'Root B')) and (tmp_path / 'list.crl').read_bytes() == (tmp_path / 'new.crl').read_bytes()
    world.write('new.crl', trusted.crl([trusted.entry(1, authority=trusted.name('Root A'))], number=8))
    assert (run('stir-crl.service'), run('stir-roots.service')) == (0, 1)
    assert (tmp_path / 'anchors.der').read_bytes() == whole[len(world.anchors('Root A')):]
    del variables['BRIDGES']
    assert run('stir-roots.service') == 1 and (tmp_path / 'anchors.der').read_bytes() == world.anchors('Root B')
