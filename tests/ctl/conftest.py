"""What the tests of `stirctl` share: how it is run."""
import pathlib
import subprocess

import pytest

TOP = pathlib.Path(__file__).resolve().parent.parent.parent


@pytest.fixture(scope='session')
def ctl(request):
    return request.config.getoption('ctl').resolve()


@pytest.fixture
def run(ctl):
    """Runs `stirctl` where the files of the examples lie, and returns its status, its output and what it says."""
    def go(*words, given=b'', folder=TOP, stdout=subprocess.PIPE):
        done = subprocess.run([ctl, *words], input=given, stdout=stdout, stderr=subprocess.PIPE, cwd=folder, timeout=120)
        return done.returncode, done.stdout, done.stderr
    return go


@pytest.fixture
def there(ctl, world):
    """Runs `stirctl`, or another program, where the files of the module's world lie."""
    def go(*words, given=b'', program=None):
        done = subprocess.run([program or ctl, *words], input=given, stdout=subprocess.PIPE, stderr=subprocess.PIPE, cwd=world.folder, timeout=120)
        return done.returncode, done.stdout, done.stderr.decode()
    return go


@pytest.fixture
def stir(request):
    """The proved program, if it is there."""
    program = request.config.getoption('program').resolve()
    if not program.exists():
        pytest.skip('missing: the proved program')
    return program
