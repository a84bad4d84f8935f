#!/usr/bin/env python3
"""Runs the built program on inputs that are spoilt at random, and looks only at what holds of any input.

    run.py SEED COUNT PROGRAM [--jobs N] [--only NUMBER FOLDER]

Inputs are those of examples/ and of the rows of tests/cli, with their files. Case NUMBER of a seed is always the same. Each spoils the input or one of the
files, once to four times: cuts it, doubles or exchanges parts, flips bits, puts numbers and lengths at their limits, and nests JSON and DER. A message
of a log is put back with its length, so that the readers below the log are reached.

Of each run it must hold that the status is 0 to 6, that nothing is on standard error, that it ended within 20 seconds and with 1.5 GB of memory, and that
the output is in the grammar of docs/FORMATS.md: a line or more for each call whose entry is whole, as the log is read here by itself, and then the line of
the fault, if there is one. A state that is handed on keeps what it must of the state before, and what `once` says of tickets is what its generator allows.
`--only` writes the files of one case into a folder and runs nothing. `spoil` spoils, and `holds` looks at what came out. Needs the standard library alone.
"""
import argparse
import collections
import json
import multiprocessing
import os
import pathlib
import random
import resource
import subprocess
import sys
import tempfile

HERE = pathlib.Path(__file__).resolve().parent
TOP = HERE.parent.parent
sys.path[:0] = [str(HERE.parent / 'cli'), str(HERE.parents[1] / 'crates/vectors/generators')]
import command_cases as cli  # noqa: E402
import states  # noqa: E402
import tickets  # noqa: E402
from given import named_files, option  # noqa: E402
from holds import wrong  # noqa: E402
from spoil import lines, spoilt, spoilt_log  # noqa: E402

SECONDS = 20
MEMORY = 1_500_000_000

LONGEST = 70_000

# The commands of which it is said here what their output must be.
COMMANDS = (b'verify', b'explain', b'ask', b'sign', b'divert', b'retarget', b'show', b'drill', b'once')

# ---- what is spoilt ----


def examples():
    """Words, input and files of the runs of examples/, which start at the top of the repository, and of lists of tickets that crates/vectors draws."""
    files = {f'examples/files/{path.name}': path.read_bytes() for path in (TOP / 'examples/files').iterdir()}
    files['state'] = states.text(*states.GOOD).encode()
    world = [b'--chains=examples/files/chains.txt', b'--anchors=examples/files/anchors.der', b'--table=examples/files/table.txt']
    answers = [b'--answers=examples/files/answers.txt']
    for log in sorted(TOP.glob('examples/*/*.log')):
        verify = [b'verify', *world, *answers]
        for words in (verify, [*verify, b'--workers=3'], [*verify, b'--state=state'], [b'explain', *world, *answers], [b'ask', *world]):
            yield words, log.read_bytes(), files
    for number in range(8):
        size, drawn = tickets.drawn(number)
        yield [b'once', b'--size=%d' % size, b'--workers=%d' % (1 + number)], ''.join(f'{ticket}\n' for ticket in drawn).encode(), {}
    yield [b'show'], (TOP / 'examples/chain/chain.der').read_bytes(), {}
    for path in sorted(TOP.glob('examples/files/*.der')):
        yield [b'show'], path.read_bytes(), {}


def rows():
    """Words, input and files of the rows of tests/cli, but those of which a stream is closed or full."""
    for path in sorted((HERE.parent / 'cli').glob('*.rows')):
        file, found = cli.Rows(), []
        for line in path.read_text().splitlines():
            if line and not line.startswith('#') and not file.named(line) and not line.startswith('('):
                given = line.rpartition(' => ')[0]
                words, data = f' {given} '.split(' < ')
                found.append((file.line_of_words(words.split()), file.log(data.split())))
        for words, data in found:
            yield words, data, file.files


def seeds():
    return [(words, data, files) for words, data, files in [*examples(), *rows()] if words and words[0] in COMMANDS and len(data) <= LONGEST]


# ---- the runs ----

SEEDS = None


def case(seed, number):
    """Words, input and files of one case: which of them are spoilt too."""
    rng = random.Random(f'{seed}:{number}')
    words, given, files = rng.choice(SEEDS)
    files = named_files(words, files)
    pool = [given, *files.values()]
    if files and rng.random() < 0.35:
        # The state at least as often as all others, if there is one.
        state = option(words, b'--state')
        name = state if state in files and rng.random() < 0.5 else rng.choice(sorted(files))
        files = {**files, name: spoilt(rng, files[name], pool)}
    elif words[0] in (b'verify', b'explain', b'ask'):
        given = spoilt_log(rng, given, pool)
    elif words[0] == b'once' and rng.random() < 0.5:
        given = lines(rng, given)
    else:
        given = spoilt(rng, given, pool)
    if rng.random() < 0.03:
        at = rng.randrange(len(words))
        words = [*words[:at], spoilt(rng, words[at], pool)[:100].replace(b'\0', b'') or b'x', *words[at + 1:]]
    return words, given, files


def write_files(folder, files):
    for name, data in files.items():
        path = pathlib.Path(folder, name)
        path.parent.mkdir(parents=True, exist_ok=True)
        path.write_bytes(data)


def tried(job):
    """What came of some cases: how many ended with each status, and what doesn't hold."""
    seed, numbers, program = job
    counts, faults = collections.Counter(), []
    for number in numbers:
        words, given, files = case(seed, number)
        with tempfile.TemporaryDirectory(dir=ROOM) as folder:
            write_files(folder, files)
            try:
                done = subprocess.run([program, *words], cwd=folder, input=given, capture_output=True, timeout=SECONDS)
            except subprocess.TimeoutExpired:
                faults.append((number, words, f'no end within {SECONDS} seconds'))
                continue
        counts[done.returncode] += 1
        fault = wrong(words, given, files, done.returncode, done.stdout, done.stderr)
        if fault:
            faults.append((number, words, fault))
    return counts, faults


# A folder in memory, where there is one: each case writes its files anew.
ROOM = '/dev/shm' if os.access('/dev/shm', os.W_OK) else None


def main():
    global SEEDS
    parser = argparse.ArgumentParser(description=__doc__, formatter_class=argparse.RawDescriptionHelpFormatter)
    parser.add_argument('seed', type=int)
    parser.add_argument('count', type=int)
    parser.add_argument('program')
    parser.add_argument('--jobs', type=int, default=os.cpu_count())
    parser.add_argument('--only', nargs=2, metavar=('NUMBER', 'FOLDER'))
    args = parser.parse_args()
    SEEDS = seeds()
    program = os.fsencode(os.path.abspath(args.program))
    if args.only:
        words, given, files = case(args.seed, int(args.only[0]))
        write_files(args.only[1], {**files, 'input': given})
        print(json.dumps([os.fsdecode(word) for word in words]))
        return 0
    # A run inherits the limit.
    resource.setrlimit(resource.RLIMIT_AS, (MEMORY, MEMORY))
    step = max(1, min(500, args.count // args.jobs))
    jobs = [(args.seed, range(start, min(start + step, args.count + 1)), program) for start in range(1, args.count + 1, step)]
    counts, failed = collections.Counter(), 0
    with multiprocessing.Pool(args.jobs) as pool:
        for some, faults in pool.imap_unordered(tried, jobs):
            counts += some
            failed += len(faults)
            for number, words, fault in faults[:20]:
                print(f'case {number} of seed {args.seed}: {os.fsdecode(words[0])}: {fault}', flush=True)
    ended = ', '.join(f'{status}: {count}' for status, count in sorted(counts.items()))
    print(f'fuzz: {args.count - failed} passed, {failed} failed; by status {ended}')
    return 1 if failed else 0


if __name__ == '__main__':
    sys.exit(main())
