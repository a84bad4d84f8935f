"""A stream that is cut into partitions, killed workers among them, beside `stir verify` on one worker (cut_streams.py)."""
import json
import os
import shutil
import subprocess

import pytest

import cut_streams
from cut_streams import by_call, by_ticket, differences, judged, settled

CALLS = 6_000


@pytest.fixture(scope='module')
def load(program, tmp_path_factory):
    load = cut_streams.made(program, tmp_path_factory.mktemp('cut'), CALLS)
    kinds = cut_streams.kinds(load.report)
    assert kinds['replay 438 18'] > 200 and kinds['refused 403 9'] > 100 and len(kinds) == 7, kinds
    return load


def test_a_stream_in_1_4_and_16_partitions_has_the_outcomes_of_verify(ctl, load):
    for parts in (1, 4, 16):
        lines, _ = settled(ctl, judged(ctl, load, parts)[0], parts, by_ticket)
        assert differences(load.report, lines) == [], parts


def test_a_stream_that_is_settled_by_another_key_than_the_ticket_loses_replays(ctl, load):
    lines, _ = settled(ctl, judged(ctl, load, 4)[0], 4, by_call)
    lost = [(wanted, got) for wanted, got in differences(load.report, lines) if ' valid ' in got]
    assert len(lost) > 100
    assert all(' replay ' in wanted for wanted, _ in lost)


def in_parallel(load, folder, ctl, *words, dies=''):
    """The report by GNU parallel, which hands the lines, or files of them, to judges and puts the answers in their order."""
    (folder / 'judge').write_text(f'#!/bin/sh\n{dies}exec {ctl} judge --stream {" ".join(load.words)} --codes listed --jobs 1 "${{1:--}}"\n')
    (folder / 'judge').chmod(0o755)
    words = ['parallel', '--will-cite', '--keep-order', '--jobs', '4', *words]
    with open(folder / 'calls', 'rb') as calls:
        done = subprocess.run(words, cwd=folder, stdin=calls, stdout=subprocess.PIPE, timeout=120, check=True, env={**os.environ, 'HOME': str(folder)})
    outcomes, _ = cut_streams.side_by_side([ctl, 'settle'], [done.stdout.splitlines(True)])
    return [cut_streams.line_of(json.loads(line)) for line in outcomes[0]]


@pytest.mark.skipif(not shutil.which('parallel'), reason='parallel is missing')
def test_gnu_parallel_gives_the_outcomes_of_verify(ctl, load, tmp_path):
    (tmp_path / 'calls').write_bytes(b''.join(load.lines))
    assert differences(load.report, in_parallel(load, tmp_path, ctl, '--pipe', '-N', '500', './judge')) == []


@pytest.mark.skipif(not shutil.which('parallel'), reason='parallel is missing')
def test_gnu_parallel_starts_a_killed_judge_anew_and_loses_nothing(ctl, load, tmp_path):
    (tmp_path / 'calls').write_bytes(b''.join(load.lines))
    subprocess.run(['split', '-n', 'l/8', 'calls', 'part.'], cwd=tmp_path, check=True)
    # The first judge that comes to it is killed, after it wrote what it is to judge.
    dies = 'if mkdir killed 2>/dev/null; then head -n 50 "$1"; kill -9 $$; fi\n'
    files = sorted(file.name for file in tmp_path.glob('part.*'))
    assert differences(load.report, in_parallel(load, tmp_path, ctl, '--retries', '3', './judge', ':::', *files, dies=dies)) == []
    assert (tmp_path / 'killed').exists()
