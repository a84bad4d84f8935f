"""What `.ci/run` and tests/parts.py do with parts that pass, fail and lack a package: in a tree of its own, with scripts for the toolchain, the parts and apt."""
import os
import pathlib
import shutil
import subprocess
import sys
import tempfile

TOP = pathlib.Path(__file__).resolve().parent.parent.parent

NEEDS = """# what is needed
alpha: day             # by a part
beta: (examples)       # by some cases of one
gamma unless sh: service
"""

PARTS = {'examples': 'tests/examples', 'day': 'examples/carrier/day', 'service': 'tests/service/try', 'cluster': 'tests/cluster/try'}
PART = '#!/bin/sh\necho "$(pwd) $0"\nread -r line && exit 9\nexit %d\n'

RT = '#!/bin/sh\necho "rt $* in $(pwd)"\nexit ${RT_STATUS-0}\n'
# dpkg-query -W -f FORMAT PACKAGE
DPKG_QUERY = '#!/bin/sh\ngrep -qx "$4" "$INSTALLED" || exit 1\nprintf installed\n'
APT_GET = r'''#!/bin/sh
case " $* " in
    *" update "*) exit ${APT_STATUS-0} ;;
    *" alpha beta"*) exit 100 ;;
esac
for word in "$@"; do name=$word; done
[ "$name" != beta ] || exit 100
echo "$name" >>"$INSTALLED"
'''


class Tree:
    """A tree with parts that end with these statuses."""

    def __init__(self, room, **statuses):
        self.room, self.bin = room, room / 'bin'
        self.installed = room / 'installed'
        self.installed.write_text('')
        for name in ('.ci/run', 'tests/parts.py'):
            (room / name).parent.mkdir(exist_ok=True)
            shutil.copy(TOP / name, room / name)
        (room / 'packaging').mkdir()
        (room / 'packaging/needs').write_text(NEEDS)
        for part, file in PARTS.items():
            self.executable(room / file, PART % statuses.get(part, 0))
        for name, text in (('rt', RT), ('dpkg-query', DPKG_QUERY), ('apt-get', APT_GET)):
            self.executable(self.bin / name, text)

    @staticmethod
    def executable(file, text):
        file.parent.mkdir(parents=True, exist_ok=True)
        file.write_text(text)
        file.chmod(0o755)

    def run(self, *words, **more):
        """Status and output of a run, without the seconds of the table."""
        variables = {name: value for name, value in os.environ.items() if name != 'CI'} | {
            'PATH': f'{self.bin}:{os.environ["PATH"]}', 'INSTALLED': str(self.installed)} | more
        done = subprocess.run(words, cwd='/', stdin=subprocess.DEVNULL, stdout=subprocess.PIPE, stderr=subprocess.STDOUT, env=variables, text=True)
        return done.returncode, [' '.join(word for word in line.split() if not word.isdigit() or 'passed,' in line) for line in done.stdout.splitlines()]

    def parts(self, *words, **more):
        return self.run(sys.executable, self.room / 'tests/parts.py', *words, *PARTS, **more)

    def gate(self, **more):
        return self.run('bash', self.room / '.ci/run', *PARTS, **more)


def ran(tree, *parts):
    return [line for part in parts for line in (f'== {part}', f'{tree.room} {PARTS[part]}')]


def tree(**statuses):
    """A folder that is removed at the end, and a tree in it."""
    room = tempfile.TemporaryDirectory()
    return room, Tree(pathlib.Path(room.name).resolve(), **statuses)


HEAD = 'part result seconds why'


def results():
    """Each case: its name, what is wanted, and what came."""
    room, at = tree()
    with room:
        missing = 'parts: missing: apt install alpha beta'
        table = ['', HEAD, 'examples passed without beta', 'day passed over missing: alpha', 'service passed', 'cluster passed']
        wanted = [missing, *ran(at, 'examples', 'service', 'cluster'), *table, '3 passed, 0 failed, 1 skipped']
        yield 'gate: missing packages are named', (0, wanted), at.parts()
        wanted = [f'rt ci in {at.room}', missing, *ran(at, 'examples', 'service', 'cluster'), '', HEAD, 'proofs passed', *table[2:], '4 passed, 0 failed, 1 skipped']
        yield 'gate: the proofs come first', (0, wanted), at.gate()
        yield 'gate: it ends if the proofs fail', (7, [f'rt ci in {at.room}']), at.gate(RT_STATUS='7')
        if os.geteuid() == 0:
            yield 'gate: apt does not answer', (0, 'parts: apt does not answer'), (at.parts('--install', APT_STATUS='1')[0], at.parts('--install', APT_STATUS='1')[1][1])
            said = ['parts: installs alpha beta', 'parts: missing: apt install beta', *ran(at, *PARTS), '', HEAD, 'examples passed without beta', 'day passed',
                    *table[4:], '4 passed, 0 failed']
            yield 'gate: a package is installed, and one can\'t be had', (0, said), at.parts(CI='true')
    room, at = tree(examples=3, service=77)
    with room:
        at.installed.write_text('alpha\nbeta\n')
        wanted = [*ran(at, *PARTS), '', HEAD, 'examples FAILED', 'day passed', 'service passed over see above', 'cluster passed', '2 passed, 1 failed, 1 skipped']
        yield 'gate: the parts after a failed one are run', (1, wanted), at.parts()
