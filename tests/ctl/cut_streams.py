#!/usr/bin/env python3
"""Calls through `stirctl judge --stream` and `stirctl settle`, cut into partitions as an engine cuts them, beside `stir verify` on one worker.

    tests/ctl/cut_streams.py STIR STIRCTL [--calls COUNT] [--parts COUNT ..]

The calls (100,000) are signed by real keys: some are refused, some are replays, near and far, and some come again after their PASSporT is no longer
fresh. Each judge has every nth call, and each settle the calls of some tickets, in their order. Every outcome has to be that of the report. Prints what
it took.
"""
import argparse
import collections
import dataclasses
import json
import os
import pathlib
import re
import subprocess
import sys
import tempfile
import time

TOP = pathlib.Path(__file__).resolve().parents[2]
sys.path.append(str(TOP / 'tests/service'))
import judging  # noqa: E402
from world import World  # noqa: E402

CHAINS = 20
RATE = 20
# A call comes again so many calls later: while its PASSporT is fresh, and after that.
FRESH = 35 * RATE
STALE = 75 * RATE


@dataclasses.dataclass(frozen=True)
class Load:
    """The calls as lines, what they are judged by, and the report of `stir verify` on one worker."""
    words: list
    lines: list
    report: list


def made(stir, folder, count):
    """So many calls, and the report of this program."""
    world = World(folder / 'world', CHAINS)
    calls = list(world.calls(count, rate=RATE))
    for later in range(STALE, count, 250):
        calls[later] = calls[later][0], calls[later - STALE][1]
        calls[later - 125] = calls[later - 125][0], calls[later - 125 - FRESH][1]
    report = judging.report(stir, TOP, world, calls, folder).splitlines()
    lines = [{'id': number, 'moment': moment, 'message': message.decode()} for number, (moment, message) in enumerate(calls, 1)]
    return Load(world.words(), [json.dumps(line).encode() + b'\n' for line in lines], report)


@dataclasses.dataclass
class Used:
    """Seconds by the clock and of processors, and the most bytes of memory of a process."""
    clock: float = 0
    processor: float = 0
    memory: int = 0


def side_by_side(words, parts):
    """What the command answers to each of these lists of lines, by a process of its own for each, and what these used."""
    used, begun, running = Used(), time.monotonic(), []
    for lines in parts:
        given, out = tempfile.TemporaryFile(), tempfile.TemporaryFile()
        given.writelines(lines)
        given.seek(0)
        running.append((subprocess.Popen(words, stdin=given, stdout=out), given, out))
    answers = []
    for (process, given, out), lines in zip(running, parts):
        ended(process, used)
        assert process.returncode == 0, words
        out.seek(0)
        answers.append(out.readlines())
        assert len(answers[-1]) == len(lines), words
        given.close()
        out.close()
    used.clock = time.monotonic() - begun
    return answers, used


def ended(process, used):
    """Waits for the process, and adds what it uses. Of its memory the most is looked for now and again."""
    while True:
        pid, status, usage = os.wait4(process.pid, os.WNOHANG)
        if pid:
            break
        peak = re.search(r'VmHWM:\s+(\d+) kB', pathlib.Path(f'/proc/{process.pid}/status').read_text())
        used.memory = max(used.memory, int(peak[1]) << 10 if peak else 0)
        time.sleep(0.01)
    process.returncode = os.waitstatus_to_exitcode(status)
    used.processor += usage.ru_utime + usage.ru_stime


def judged(ctl, load, parts):
    """The answers of the judges in the order of the calls, each with what it says; and what they used."""
    words = [ctl, 'judge', '--stream', *load.words, '--codes', 'listed', '--jobs', '1', '-']
    answers, used = side_by_side(words, [load.lines[part::parts] for part in range(parts)])
    told = [(json.loads(line), line) for part in answers for line in part]
    return sorted(told, key=lambda one: one[0]['id']), used


def by_ticket(answer):
    return int(answer['stir'].get('ticket', '0')[:8], 16)


def by_call(answer):
    return answer['id']


def settled(ctl, answers, parts, key):
    """The lines of a report, settled by so many processes that have the calls by this key, each in their order; and what these used."""
    cut = [[] for _ in range(parts)]
    for answer, line in answers:
        cut[key(answer) % parts].append(line)
    outcomes, used = side_by_side([ctl, 'settle'], cut)
    return [line_of(answer) for answer in sorted((json.loads(line) for part in outcomes for line in part), key=by_call)], used


def line_of(answer):
    """The line of a report that an answer is (docs/FORMATS.md, "Report")."""
    told = answer['stir']
    words = [told['answer'], *(told.get(name, '-') for name in ('response', 'rule')), told.get('of', told.get('place', '-'))]
    return f'{answer["id"]} {" ".join(map(str, words))}'


def differences(wanted, got):
    """Each call with another line than wanted."""
    assert len(wanted) == len(got)
    return [(one, other) for one, other in zip(wanted, got) if one != other]


def main():
    words = argparse.ArgumentParser(description=__doc__, formatter_class=argparse.RawDescriptionHelpFormatter)
    words.add_argument('stir', type=pathlib.Path)
    words.add_argument('stirctl', type=pathlib.Path)
    words.add_argument('--calls', type=int, default=100_000)
    words.add_argument('--parts', type=int, nargs='+', default=[1, 4, 16])
    given = words.parse_args()
    with tempfile.TemporaryDirectory() as folder:
        load = made(given.stir.resolve(), pathlib.Path(folder), given.calls)
        print(f'{given.calls} calls:', *(f'{count} {words}' for words, count in kinds(load.report).most_common()), sep='\n  ', flush=True)
        for parts in given.parts:
            answers, judges = judged(given.stirctl.resolve(), load, parts)
            lines, settlers = settled(given.stirctl.resolve(), answers, parts, by_ticket)
            print(f'{parts} partitions: {len(differences(load.report, lines))} other outcomes;', *(
                f'{name} {used.clock:.1f} s, {used.processor / given.calls * 1e6:.1f} us of a processor a call, {used.memory >> 20} MB at most;'
                for name, used in (('judge', judges), ('settle', settlers))), f'load {os.getloadavg()[0]:.0f}', flush=True)
        lines, _ = settled(given.stirctl.resolve(), answers, 4, by_call)
        print(f'settled in 4 partitions by call, not by ticket: {len(differences(load.report, lines))} other outcomes')


def kinds(report):
    """How many calls have which outcome, without their numbers and places."""
    return collections.Counter(' '.join(line.split()[1:4]) for line in report)


if __name__ == '__main__':
    main()
