"""Whether dev/gate records just what has passed, and dev/package makes packages of that alone: in a tree of its own, with a script for the program,
one for the gate and one for the toolchain. tests/packages has what is in the packages."""
import os
import pathlib
import shutil
import subprocess
import sys
import tempfile

TOP = pathlib.Path(__file__).resolve().parent.parent.parent
COPIED = ('tools', 'dev', 'examples', 'docs', 'packaging', 'man', 'README.md', 'CONTRIBUTING.md', 'VERSION', 'CHANGELOG.md', '.gitignore')

# The interpreter without what is installed beside it, which none of this needs: it starts sooner.
PYTHON = sys.executable, '-S'

TOOLCHAIN = 'toolchain 1 logic 0123456789abcdef'
LOGIC = 'logic=0123456789abcdef01234567'
PROGRAM = f'#!/bin/sh\n# \0libc.so.6\0GLIBC_2.4\0GLIBC_2.34\0rattle {LOGIC}\0\necho words refused\nexit 2\n'

# What host/build makes, and the archive that it makes it of.
BUILT = ('lib/libstir.so.1', 'lib/libstir.a', 'release/stird', 'release/stirctl')
ARCHIVE = 'crates/stir_c/out/libstir_c.a'

LAST = ('rt: ok; every proof was done in this run', '7 passed, 0 failed', 'part  result  seconds', 'cli  passed  8', '2 passed, 0 failed')

# What the gate does is in the file `gate-does`, which git ignores.
GATE = """#!/bin/sh
cd "$(dirname "$0")/.." || exit 1
mkdir -p crates/stir/out
cp program crates/stir/out/stir
read -r does <gate-does
case $does in
    fails) echo '6 passed, 1 failed'; exit 1 ;;
    'says nothing') exit 0 ;;
    'changes the tree') echo >>README.md ;;
esac
echo '%s' >&2
echo '%s'
echo '== cli'
echo '8 passed, 0 failed'
echo
echo '%s'
echo '%s'
echo '%s'
""" % LAST

DIRTY = 'the tree has changes that are not committed: '


class Tree:
    """A repository with the tools as they are, and stand-ins for what they package."""

    def __init__(self, room):
        self.top = room / 'tree'
        self.top.mkdir()
        self.environment = {name: value for name, value in os.environ.items() if not name.startswith('GIT_')}
        self.environment |= {'PATH': f'{room}:{os.environ["PATH"]}', 'HOME': str(room), 'PYTHONDONTWRITEBYTECODE': '1'}
        for name in COPIED:
            if (TOP / name).is_dir():
                shutil.copytree(TOP / name, self.top / name, ignore=shutil.ignore_patterns('__pycache__'))
            elif (TOP / name).exists():
                shutil.copy(TOP / name, self.top / name)
        self.write('crates.txt', 'stir:\n')
        self.write('crates/stir/src/main.rt', '// a source\n')
        self.write('.ci/run', GATE, 0o755)
        self.write('program', PROGRAM, 0o755)
        self.write('host/src/main.rs', '// a source\n')
        for name in BUILT:
            self.write(f'host/out/{name}', 'built', 0o755)
        self.write(ARCHIVE, 'an archive')
        self.write('.gitignore', (self.top / '.gitignore').read_text() + 'gate-does\n')
        (room / 'rt').write_text(f'#!/bin/sh\necho {TOOLCHAIN}\n')
        (room / 'rt').chmod(0o755)
        self.git('init', '-q')
        self.commit()

    def write(self, name, text, mode=0o644):
        file = self.top / name
        file.parent.mkdir(parents=True, exist_ok=True)
        file.write_text(text)
        file.chmod(mode)

    def git(self, *words):
        done = subprocess.run(['git', '-c', 'user.name=a', '-c', 'user.email=a@example.org', *words], cwd=self.top, env=self.environment,
                              stdout=subprocess.PIPE, text=True, check=True)
        return done.stdout.strip()

    def commit(self):
        self.git('add', '--all')
        self.git('commit', '-q', '-m', 'a change')

    def run(self, tool):
        """The status of a tool, and what it says."""
        done = subprocess.run([*PYTHON, self.top / 'dev' / tool], stdin=subprocess.DEVNULL, stdout=subprocess.PIPE, stderr=subprocess.PIPE,
                              text=True, env=self.environment)
        return done.returncode, done.stderr.removeprefix(f'{tool}: ').removesuffix('\n')

    def gate(self, does):
        self.write('gate-does', f'{does}\n')
        return self.run('gate')

    def hash(self):
        return self.git('rev-parse', 'HEAD^{tree}')[:12]


def recorded(tree):
    """What dev/gate records, and what not: each with the status and the sentence."""
    yield 'package: no program', (2, 'crates/stir/out/stir is missing: dev/gate makes it'), tree.run('package')
    yield 'gate: fails', (1, 'the gate ended with 1: nothing is recorded'), tree.gate('fails')
    none = 2, 'dev/gate has not passed on this tree'
    yield 'package: the gate failed', none, tree.run('package')
    said = 'the gate ended well, and no line says `N passed, 0 failed`: nothing is recorded'
    yield 'gate: no verdict', (2, said), tree.gate('says nothing')
    yield 'gate: another tree at its end', (2, f'{DIRTY}README.md'), tree.gate('changes the tree')
    yield 'gate: a tree with a change', (2, f'{DIRTY}README.md'), tree.gate('passes')
    tree.git('checkout', '-q', 'README.md')
    yield 'package: the gate recorded nothing', none, tree.run('package')
    said = f'the gate has passed on the tree {tree.hash()}; dev/package makes a package of it'
    yield 'gate', (0, said), tree.gate('passes')


def aged(file, than=None):
    """Sets a file's time to its own, or to just after that of another file; returns what sets it back."""
    was = file.stat().st_mtime_ns
    os.utime(file, ns=(was, than.stat().st_mtime_ns + 1 if than else was))
    return lambda: os.utime(file, ns=(was, was))


def refused(tree):
    """What isn't packaged, though the gate has passed: each with the status and the sentence."""
    program, source = tree.top / 'crates/stir/out/stir', tree.top / 'crates/stir/src/main.rt'
    tree.write('new', '')
    yield 'package: a new file', (2, f'{DIRTY}new'), tree.run('package')
    (tree.top / 'new').unlink()
    back = aged(source, program)
    yield 'package: a newer source', (2, 'the program is older than crates/stir/src/main.rt: dev/gate makes it anew'), tree.run('package')
    back()
    back = aged(program)
    program.write_text(PROGRAM + '\n')
    back()
    said = 'crates/stir/out/stir is not the program with which the gate has passed: run dev/gate'
    yield 'package: another program', (2, said), tree.run('package')
    whole = (tree.top / 'out/gate.json').read_text()
    tree.write('out/gate.json', whole[:-9])
    yield 'package: a record cut short', (2, 'out/gate.json is no record of the gate: run dev/gate'), tree.run('package')
    tree.write('out/gate.json', whole)
    was = tree.hash()
    tree.write('VERSION', '9.9\n')
    tree.commit()
    said = f'the gate has passed on the tree {was}, and this is the tree {tree.hash()}: run dev/gate'
    yield 'package: a later tree', (2, said), tree.run('package')
    tree.gate('passes')
    release = (TOP / 'VERSION').read_text().strip()
    yield 'package: no such release', (2, f'VERSION is 9.9, and CHANGELOG.md begins with {release}'), tree.run('package')
    tree.git('reset', '-q', '--hard', 'HEAD~1')
    tree.write('program', PROGRAM + '\0libssl.so.3\0', 0o755)
    tree.commit()
    tree.gate('passes')
    yield 'package: another library', (2, 'the program needs libssl, and nothing but the C library is told of it'), tree.run('package')
    tree.write('program', PROGRAM.replace('logic=0', 'logic=1'), 0o755)
    tree.commit()
    tree.gate('passes')
    yield 'package: another toolchain', (2, f'the program is not one of the toolchain that says {TOOLCHAIN!r} of itself'), tree.run('package')
    tree.git('reset', '-q', '--hard', 'HEAD~2')
    tree.gate('passes')
    yield from refused_by_parts(tree)


def refused_by_parts(tree):
    """What isn't packaged because of what rests on the archive: each with the status and the sentence."""
    for name in BUILT:
        file = tree.top / 'host/out' / name
        file.rename(file.with_name('other'))
        yield f'package: no {name}', (2, f'host/out/{name} is missing: host/build makes it'), tree.run('package')
        file.with_name('other').rename(file)
    source = tree.top / 'host/src/main.rs'
    for name in ('stird', 'stirctl'):
        back = aged(source, tree.top / 'host/out/release' / name)
        others = [aged(tree.top / 'host/out/release' / other, source) for other in ('stird', 'stirctl') if other != name]
        said = f'{name} is older than host/src/main.rs: host/build makes it anew'
        yield f'package: a newer source of {name}', (2, said), tree.run('package')
        for undo in (back, *others):
            undo()
    for name in (ARCHIVE, *(f'host/out/{name}' for name in BUILT)):
        was = (tree.top / name).read_text()
        (tree.top / name).write_text('another')
        yield f'package: another {name}', (2, f'{name} is not the one with which the gate has passed: run dev/gate'), tree.run('package')
        (tree.top / name).write_text(was)


def results():
    """Each case: its name, what is wanted, and what came."""
    with tempfile.TemporaryDirectory() as folder:
        tree = Tree(pathlib.Path(folder).resolve())
        yield from recorded(tree)
        yield from refused(tree)
