"""What the tests of the packages share: the packages, what they install, and a bare Debian."""
import pathlib
import subprocess
import sys

import bare
import pytest

TOP = pathlib.Path(__file__).resolve().parents[2]

# The worlds of real keys are those of the tests of the service.
sys.path.insert(0, str(TOP / 'tests/service'))


def pytest_addoption(parser):
    parser.getgroup('stir').addoption('--release', type=pathlib.Path, help='the folder of a release that was made before')


def made_by(tool, folder):
    """What this tool makes of what was built, in this folder."""
    subprocess.run([sys.executable, TOP / 'dev' / tool, '--trial', '--to', folder], stdout=subprocess.DEVNULL, check=True)
    return folder


@pytest.fixture(scope='session')
def release(request, tmp_path_factory):
    """The folder of a release."""
    return request.config.getoption('release') or made_by('release', tmp_path_factory.mktemp('release'))


@pytest.fixture(scope='session')
def packages(release):
    """The packages' files by their names."""
    found = {file.name.partition('_')[0]: file.resolve() for file in sorted(release.glob('*.deb'))}
    assert sorted(found) == ['libstir-dev', 'libstir1', 'python3-stir', 'stir', 'stirctl', 'stird']
    return found


@pytest.fixture(scope='session')
def unpacked(packages, tmp_path_factory):
    """A folder into which each package was unpacked, and nothing was run."""
    root = tmp_path_factory.mktemp('unpacked')
    for file in packages.values():
        subprocess.run(['dpkg-deb', '--extract', file, root], check=True)
    return root


@pytest.fixture(scope='session')
def base():
    """The tarball of a bare Debian, made once a month; what keeps it from being made is why tests are skipped."""
    try:
        return bare.base()
    except bare.Missing as why:
        pytest.skip(str(why))


@pytest.fixture(scope='module')
def roots(base, tmp_path_factory):
    """Makes bare Debians, each of its own."""
    made = []

    def another(*files):
        made.append(bare.Root(base, tmp_path_factory.mktemp('bare') / 'root'))
        made[-1].install(*files)
        return made[-1]
    yield another
    for root in made:
        root.end()
