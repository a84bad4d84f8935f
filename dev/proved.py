"""Whether what was built in this tree is proved or rests on what is, and of which sources: the tree that git knows, the program, the archive of the
library, what is made of that, and the record that `dev/gate` leaves.

The record guards against mistakes, such as a file that was changed after the gate. It is no seal: who can write in this folder can write it.
"""
import hashlib
import json
import os
import pathlib
import subprocess

from outside import Fault

TOP = pathlib.Path(__file__).resolve().parent.parent
PROGRAM = TOP / 'crates' / 'stir' / 'out' / 'stir'

# The archive of the proved library, and what `host/build` makes over it: the libraries that it is linked into, and the programs that call the shared one.
ARCHIVE = TOP / 'crates' / 'stir_c' / 'out' / 'libstir_c.a'
HOST = TOP / 'host'
BUILT = {'shared': HOST / 'out/lib/libstir.so.1', 'static': HOST / 'out/lib/libstir.a', 'stird': HOST / 'out/release/stird',
         'stirctl': HOST / 'out/release/stirctl'}

# The kit's own library, of which the archive needs parts.
KIT = pathlib.Path(os.environ.get('RATTLE_C', pathlib.Path(os.environ.get('RATTLE', '/opt/rattle')) / 'c')) / 'liblibc_c.a'

# Where what is made of the tree stands, which git ignores.
OUT = TOP / 'out'
RECORD = OUT / 'gate.json'

# So many changed files are named.
SHOWN = 3


def git(*words):
    """What git says of this tree, without the last line's end."""
    return git_bytes(*words).decode(errors='surrogateescape').removesuffix('\n')


def git_bytes(*words):
    """What git writes of this tree."""
    try:
        done = subprocess.run(['git', '-C', TOP, *words], stdin=subprocess.DEVNULL, stdout=subprocess.PIPE, stderr=subprocess.PIPE)
    except FileNotFoundError:
        raise Fault('git is missing, which knows what tree this is: apt install git')
    if done.returncode != 0:
        raise Fault(f'git {words[0]} fails in {TOP}: {done.stderr.decode(errors="replace").strip()}')
    return done.stdout


def tree():
    """The hash of the tree, which names each byte and each name in it; a fault if a file isn't as it was committed, or isn't committed."""
    if os.path.realpath(git('rev-parse', '--show-toplevel')) != str(TOP):
        raise Fault(f'{TOP} is not the top of a repository of git')
    changed = [line[3:] for line in git('status', '--porcelain').splitlines()]
    if changed:
        more = f' and {len(changed) - SHOWN} more' if len(changed) > SHOWN else ''
        raise Fault(f'the tree has changes that are not committed: {", ".join(changed[:SHOWN])}{more}')
    return git('write-tree')


def checksum(path):
    return hashlib.sha256(path.read_bytes()).hexdigest()


def files_below(folder):
    """The files of a folder, but for what is made of them in a folder `out`."""
    for room, names, files in os.walk(folder):
        names[:] = sorted(name for name in names if name != 'out')
        yield from (pathlib.Path(room, name) for name in sorted(files))


def sources():
    """Each file that the program is proved and built from, and what else stands beside it: as the script `stir` looks at them."""
    yield TOP / 'crates.txt'
    yield from files_below(TOP / 'crates')


def look_at_built():
    """A fault if what `host/build` makes isn't there, or a program is older than a source of the host."""
    for file in BUILT.values():
        if not file.exists():
            raise Fault(f'{file.relative_to(TOP)} is missing: host/build makes it')
    for name in ('stird', 'stirctl'):
        newer = next((file for file in files_below(HOST) if file.stat().st_mtime_ns > BUILT[name].stat().st_mtime_ns), None)
        if newer:
            raise Fault(f'{name} is older than {newer.relative_to(TOP)}: host/build makes it anew')


def sums():
    """The checksums of what there is of the archive, the kit's library and what `host/build` makes over them."""
    return {name: checksum(file) for name, file in {'archive': ARCHIVE, 'kit': KIT, **BUILT}.items() if file.exists()}


def look_at_program():
    """A fault if the program isn't there, or is older than a source."""
    if not os.access(PROGRAM, os.X_OK):
        raise Fault(f'{PROGRAM.relative_to(TOP)} is missing: dev/gate makes it')
    made = PROGRAM.stat().st_mtime_ns
    for file in sources():
        if file.lstat().st_mtime_ns > made:
            raise Fault(f'the program is older than {file.relative_to(TOP)}: dev/gate makes it anew')


def write_record(record):
    OUT.mkdir(exist_ok=True)
    RECORD.write_text(json.dumps(record, indent=1) + '\n')


def record():
    """What `dev/gate` wrote of exactly this tree and program; a fault if the gate hasn't passed on them."""
    look_at_program()
    now = tree()
    if not RECORD.exists():
        raise Fault('dev/gate has not passed on this tree')
    try:
        known = json.loads(RECORD.read_text())
        was, program, parts = known['tree'], known['program'], known['parts']
    except (ValueError, LookupError, TypeError):
        raise Fault(f'{RECORD.relative_to(TOP)} is no record of the gate: run dev/gate')
    if was != now:
        raise Fault(f'the gate has passed on the tree {was[:12]}, and this is the tree {now[:12]}: run dev/gate')
    if program != checksum(PROGRAM):
        raise Fault(f'{PROGRAM.relative_to(TOP)} is not the program with which the gate has passed: run dev/gate')
    look_at_built()
    other = next((name for name, found in sums().items() if parts.get(name) != found), None)
    if other:
        file = {'archive': ARCHIVE, 'kit': KIT, **BUILT}[other]
        raise Fault(f'{os.path.relpath(file, TOP)} is not the one with which the gate has passed: run dev/gate')
    return known
