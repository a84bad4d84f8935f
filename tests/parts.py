#!/usr/bin/env python3
"""Runs all tests but the proofs, part by part, and ends with a table of what ran, what was passed over and why. `.ci/run` does so after `rt ci`.

    tests/parts.py [--install] [--proofs SECONDS] [PART ..]

Without a PART these are all. packaging/needs has the Debian packages that a part needs. Missing ones are installed by apt with `--install`, or if CI is
`true`, if this user may and apt answers; else they are named. A part is passed over if its packages can't be had. The others go on after one that failed.
SECONDS is what `rt ci` took before. The last line counts the parts, and the status is 1 if one failed.
"""
import argparse
import dataclasses
import os
import pathlib
import re
import shutil
import subprocess
import sys
import tempfile
import time

TOP = pathlib.Path(__file__).resolve().parent.parent
PROGRAM = 'crates/stir/out/stir'
STIRD = 'host/out/release/stird'
SIDE_BY_SIDE = ('python3', '-m', 'pytest', '-q', '-n', 'auto', '--dist', 'loadgroup', '--durations', '5', '--durations-min', '5')

# Each part, and what runs it, at the top of the tree.
PARTS = {
    'sources': ('python3', 'tests/sources.py'),
    'examples': ('tests/examples',),
    'start': ('python3', 'tests/start/run.py'),
    'cli': (*SIDE_BY_SIDE, 'tests/cli'),
    'fuzz': ('python3', 'tests/fuzz/run.py', '1', '300', PROGRAM),
    'ctl': ('tests/ctl/try',),
    'tools': (*SIDE_BY_SIDE, 'tests/tools', 'tests/simulation'),
    'day': ('examples/carrier/day',),
    'service': ('tests/service/try',),
    'proxy': ('tests/service/proxies', STIRD),
    'cluster': ('tests/cluster/try',),
    'packages': ('tests/packages/try',),
}

# Debian's own interpreter, which has Debian's packages; one from elsewhere on the path hasn't.
DEBIANS = '/usr/bin/python3'

# How long apt may take to answer, and to install, in seconds.
ANSWER = 120
INSTALL = 1800

# The status of a part that says that it can't run here.
PASSED_OVER = 77


@dataclasses.dataclass(frozen=True)
class Need:
    """A line of packaging/needs."""
    package: str
    command: str | None
    parts: frozenset[str]
    optional: frozenset[str]

    def is_met(self):
        if self.command and shutil.which(self.command):
            return True
        asked = subprocess.run(['dpkg-query', '-W', '-f', '${db:Status-Status}', self.package], stdin=subprocess.DEVNULL, stdout=subprocess.PIPE,
                               stderr=subprocess.DEVNULL)
        return asked.stdout == b'installed'


@dataclasses.dataclass(frozen=True)
class Result:
    part: str
    result: str
    seconds: float
    why: str = ''


def needs():
    for line in (TOP / 'packaging/needs').read_text().splitlines():
        found = re.fullmatch(r'(\S+)(?: unless (\S+))?: ([a-z() ]+)', line.partition('#')[0].rstrip())
        if found:
            words = found[3].split()
            yield Need(found[1], found[2], frozenset(word for word in words if word[0] != '('), frozenset(word[1:-1] for word in words if word[0] == '('))
        elif line.partition('#')[0].strip():
            sys.exit(f'packaging/needs: no line of a package: {line}')


def missing(parts):
    """What these parts need and isn't there."""
    if not shutil.which('dpkg-query'):
        return []
    return [need for need in needs() if (need.parts | need.optional) & set(parts) and not need.is_met()]


def apt(*words, seconds):
    """Whether apt did this in that time."""
    command = ['apt-get', '-qq', '-o', 'Acquire::Retries=0', '-o', f'DPkg::Lock::Timeout={ANSWER}', *words]
    try:
        return subprocess.run(command, stdin=subprocess.DEVNULL, stdout=subprocess.DEVNULL, timeout=seconds,
                              env=os.environ | {'DEBIAN_FRONTEND': 'noninteractive'}).returncode == 0
    except (OSError, subprocess.TimeoutExpired):
        return False


def install(packages):
    """Installs these packages, together or, if one of them can't be had, each by itself."""
    if os.geteuid() != 0:
        print('parts: only root may install packages')
        return
    print(f'parts: installs {" ".join(packages)}', flush=True)
    if not apt('update', seconds=ANSWER):
        print('parts: apt does not answer')
    elif not apt('install', '--yes', '--no-install-recommends', *packages, seconds=INSTALL):
        for package in packages:
            apt('install', '--yes', '--no-install-recommends', package, seconds=INSTALL)


def set_up(parts, is_wanted):
    """Installs what these parts need and isn't there, if that is wanted, and returns what is missing then."""
    lacking = missing(parts)
    if lacking and is_wanted:
        install([need.package for need in lacking])
        lacking = missing(parts)
    if lacking:
        print(f'parts: missing: apt install {" ".join(need.package for need in lacking)}')
    return lacking


def environment(room):
    """The environment of the parts: a python3 that has what Debian's packages bring is the first on the path."""
    if os.access(DEBIANS, os.X_OK):
        (room / 'python3').symlink_to(DEBIANS)
    return os.environ | {'PATH': f'{room}:{os.environ["PATH"]}'}


def named(needs):
    return ', '.join(need.package for need in needs)


def run(part, lacking, variables):
    """Runs a part, unless what it needs is missing."""
    needed = [need for need in lacking if part in need.parts]
    if needed:
        return Result(part, 'passed over', 0, f'missing: {named(needed)}')
    without = [need for need in lacking if part in need.optional]
    print(f'== {part}', flush=True)
    begun = time.monotonic()
    status = subprocess.run(PARTS[part], cwd=TOP, stdin=subprocess.DEVNULL, env=variables).returncode
    seconds = time.monotonic() - begun
    if status == PASSED_OVER:
        return Result(part, 'passed over', seconds, 'see above')
    return Result(part, 'FAILED' if status else 'passed', seconds, f'without {named(without)}' if without else '')


def tell(results):
    """Writes the table and the last line, and returns the status."""
    print()
    print(f'{"part":10} {"result":12} {"seconds":>7}  why')
    for it in results:
        print(f'{it.part:10} {it.result:12} {it.seconds:7.0f}  {it.why}'.rstrip())
    passed, failed, skipped = (sum(it.result == result for it in results) for result in ('passed', 'FAILED', 'passed over'))
    print(f'{passed} passed, {failed} failed' + (f', {skipped} skipped' if skipped else ''))
    return 1 if failed or not passed else 0


def main():
    words = argparse.ArgumentParser(description=__doc__, formatter_class=argparse.RawDescriptionHelpFormatter)
    words.add_argument('parts', metavar='PART', nargs='*', help=', '.join(PARTS))
    words.add_argument('--install', action='store_true', help='install missing packages by apt')
    words.add_argument('--proofs', metavar='SECONDS', type=float, help='what `rt ci` took')
    given = words.parse_args()
    unknown = [part for part in given.parts if part not in PARTS]
    if unknown:
        words.error(f'no part: {unknown[0]}')
    parts = given.parts or list(PARTS)
    results = [] if given.proofs is None else [Result('proofs', 'passed', given.proofs)]
    lacking = set_up(parts, given.install or os.environ.get('CI') == 'true')
    with tempfile.TemporaryDirectory() as room:
        variables = environment(pathlib.Path(room))
        results += [run(part, lacking, variables) for part in parts]
    return tell(results)


if __name__ == '__main__':
    sys.exit(main())
