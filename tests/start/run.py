#!/usr/bin/env python3
"""The first start of `./stir` in a copy of the tree without a proved program, by the real kit: it takes a minute or two.

    run.py

tests/tools/starts.py has what goes wrong on the way, by a kit of scripts.
"""
import os
import pathlib
import shutil
import subprocess
import sys
import tempfile
import time

TOP = pathlib.Path(__file__).resolve().parent.parent.parent
UNPROVED = 'crates/stir/out/unproved'
EXAMPLE = TOP / 'examples/first-call'

# A fast program is there after so many seconds at the latest.
LONGEST = 900


def tree(room):
    """The parts of the tree that a start needs, without what was made there."""
    for name in ('crates', 'tools', 'dev', 'examples'):
        shutil.copytree(TOP / name, room / name, ignore=shutil.ignore_patterns('out', '__pycache__'))
    for name in ('stir', 'crates.txt'):
        shutil.copy2(TOP / name, room / name)


def verify(room, folder, names, log):
    """Status, standard output and standard error of a start over these files, in this folder."""
    words = ['verify', *(f'--{name.partition(".")[0]}={path}' for name, path in names.items())]
    done = subprocess.run([room / 'stir', *words], stdin=log, stdout=subprocess.PIPE, stderr=subprocess.PIPE, cwd=folder)
    return done.returncode, done.stdout, done.stderr.decode()


def has_settled(room):
    """Whether the fast program has taken the quick one's place."""
    end = time.monotonic() + LONGEST
    while (room / UNPROVED / 'module.bc').exists() and time.monotonic() < end:
        time.sleep(0.5)
    return not (room / UNPROVED / 'module.bc').exists()


def results():
    """Each case: its name, what is wanted, and what came."""
    wanted = 1, (EXAMPLE / 'output').read_bytes()
    names = {name: f'examples/files/{name}' for name in ('chains.txt', 'anchors.der', 'table.txt', 'answers.txt')}
    with tempfile.TemporaryDirectory(ignore_cleanup_errors=True) as folder:
        room = pathlib.Path(folder)
        tree(room)
        with open(EXAMPLE / 'calls.log', 'rb') as log:
            status, out, said = verify(room, room, names, log)
        yield 'first start', (wanted, 1), ((status, out), len(said.splitlines()))
        quick = (room / UNPROVED / 'stir').read_bytes()
        yield 'a fast program takes its place', (True, True), (has_settled(room), (room / UNPROVED / 'stir').read_bytes() != quick)
        user = room / 'user'
        user.mkdir()
        (user / 'map').write_text((room / names['chains.txt']).read_text().replace(' examples/', ' ../examples/'))
        os.mkfifo(user / 'pipe')
        below = {'chains.txt': 'map', 'anchors.der': '../examples/files/anchors.der', 'table.txt': room / names['table.txt'], 'answers.txt': './pipe'}
        with subprocess.Popen(['cp', room / names['answers.txt'], user / 'pipe']), open(EXAMPLE / 'calls.log', 'rb') as log:
            got = verify(room, user, below, log)
        yield 'later start, in another folder, with a pipe', (*wanted, 'stir: this start is unproved (./stir --prove makes the proved program)\n'), got


def main():
    count = failed = 0
    for name, wanted, got in results():
        count += 1
        if wanted != got:
            failed += 1
            print(f'{name}: wanted {wanted}, got {got}')
    print(f'start: {count - failed} passed, {failed} failed')
    return 0 if count and not failed else 1


if __name__ == '__main__':
    sys.exit(main())
