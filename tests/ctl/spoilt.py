#!/usr/bin/env python3
"""Runs `stirctl` on inputs that are spoilt at random, beside the proved program.

    spoilt.py SEED COUNT STIRCTL PROGRAM [--jobs N]

Each case spoils a log, a capture, certificates or a file that a log is judged by (tests/fuzz). On a log `stirctl` has to end with the status and the bytes of
the program. On captures and certificates it has to end with a status of its own: 0, 1 or 5. A case of a seed is always the same.
"""
import argparse
import concurrent.futures
import pathlib
import random
import subprocess
import sys
import tempfile

HERE = pathlib.Path(__file__).resolve().parent
TESTS = HERE.parent
sys.path[:0] = [str(TESTS.parent / name) for name in ('tests/tools', 'tests/fuzz', 'crates/vectors/generators', 'tests/cli')]
import captures  # noqa: E402
import spoil  # noqa: E402
import states  # noqa: E402
import streams  # noqa: E402

FILES = {path.name: path.read_bytes() for path in (TESTS.parent / 'examples/files').iterdir()} | {'state': states.text(*states.GOOD).encode()}
BY = [b'--chains=chains.txt', b'--anchors=anchors.der', b'--table=table.txt', b'--answers=answers.txt']
LOGS = [path.read_bytes() for path in sorted((TESTS.parent / 'examples').glob('*/*.log'))]
CAPTURES = [data for name, data in sorted({**captures.FILES, **streams.FILES}.items()) if name.endswith(('.pcap', '.pcapng')) and len(data) < 50_000]
CERTIFICATES = [path.read_bytes() for path in sorted(HERE.glob('files/*.*')) if path.suffix in ('.pem', '.der', '.p7b', '.p7c')]
SPOILT = 'chains.txt', 'anchors.der', 'table.txt', 'answers.txt', 'passport.der', 'div.der', 'state'


def run(program, words, given, files):
    with tempfile.TemporaryDirectory() as folder:
        for name, data in files.items():
            pathlib.Path(folder, name).write_bytes(data)
        done = subprocess.run([program, *words], input=given, stdout=subprocess.PIPE, stderr=subprocess.PIPE, cwd=folder, timeout=60)
    return done.returncode, done.stdout, done.stderr


def on_capture(rng, ctl):
    data = rng.choice(CAPTURES)
    for _ in range(rng.randint(1, 4)):
        data = rng.choice([spoil.flip, spoil.flip, spoil.cut, spoil.double, spoil.exchange, spoil.put])(rng, data)[:200_000]
    status, _, said = run(ctl, [b'judge', *BY, b'--json=-', b'-'], data, FILES)
    return None if status in (0, 1, 5) and b'panicked' not in said else f'ended with {status}: {said[-300:]!r}'


def on_certificates(rng, ctl):
    data = rng.choice(CERTIFICATES)
    for _ in range(rng.randint(1, 3)):
        data = rng.choice([spoil.flip, spoil.flip, spoil.cut, spoil.double, spoil.exchange, spoil.put, spoil.element])(rng, data)[:200_000]
    words = rng.choice([[b'show'], [b'show', b'--json'], [b'chain', b'--anchors', b'--all'], [b'chain', b'--leaf']])
    status, _, said = run(ctl, words, data, FILES)
    return None if status in (0, 1, 5) and b'panicked' not in said else f'{words} ended with {status}: {said[-300:]!r}'


def on_log(rng, ctl, program):
    log, files, options = rng.choice(LOGS), dict(FILES), rng.choice([[], [], [b'--state=state'], [b'--past=0'], [b'--country=44', b'--national=9']])
    for _ in range(rng.randint(1, 3)):
        if rng.random() < 0.5:
            log = spoil.spoilt_log(rng, log, LOGS)[:100_000]
        else:
            name = rng.choice(SPOILT)
            how = [spoil.flip, spoil.cut, spoil.double, spoil.put, spoil.limit, spoil.lines if not name.endswith('.der') else spoil.element]
            files[name] = rng.choice(how)(rng, files[name])[:100_000]
    command, own = rng.choice([(b'verify', [b'judge', b'--report=-']), (b'explain', [b'explain'])])
    if command == b'explain':
        options = [option for option in options if not option.startswith(b'--state')]
    wanted = run(program, [command, *BY, *options], log, files)
    got = run(ctl, [*own, *BY, *options, b'-'], log, files)
    return None if got == wanted else f'{command.decode()} {options}: wanted {wanted}, got {got}'


def case(seed, number, ctl, program):
    rng = random.Random(f'{seed} {number}')
    try:
        return rng.choices([on_capture, on_certificates], [3, 1])[0](rng, ctl) if rng.random() < 0.4 else on_log(rng, ctl, program)
    except subprocess.TimeoutExpired:
        return 'went on for a minute'


def main():
    words = argparse.ArgumentParser(description=__doc__, formatter_class=argparse.RawDescriptionHelpFormatter)
    words.add_argument('seed', type=int)
    words.add_argument('count', type=int)
    words.add_argument('ctl', type=pathlib.Path)
    words.add_argument('program', type=pathlib.Path)
    words.add_argument('--jobs', type=int, default=2)
    words = words.parse_args()
    print(f'seed {words.seed}')
    differ, ctl, program = 0, words.ctl.resolve(), words.program.resolve()
    with concurrent.futures.ThreadPoolExecutor(words.jobs) as pool:
        found = pool.map(lambda number: (number, case(words.seed, number, ctl, program)), range(words.count))
        for number, wrong in found:
            if wrong:
                differ += 1
                print(f'case {number} of seed {words.seed}: {wrong[:3000]}')
    print(f'{words.count - differ} ended as they have to, {differ} did not')
    return int(differ > 0)


if __name__ == '__main__':
    sys.exit(main())
