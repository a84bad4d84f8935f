"""examples/kafka on brokers, its programs killed in the middle: `judge` and `settle`, by kcat. The brokers are librdkafka's own mock (brokers.py)."""
import collections
import json
import os
import pathlib
import shutil
import signal
import subprocess
import sys
import time

import pytest

TESTS = pathlib.Path(__file__).resolve().parent.parent
sys.path.append(str(TESTS / 'performance'))
import logs  # noqa: E402
from brokers import Brokers  # noqa: E402

EXAMPLE = TESTS.parent / 'examples/kafka'
CALLS = 1_200
BATCH = 100
BY = ['--chains=chains', '--anchors=anchors', '--table=table', '--answers=answers', '--codes=listed']

pytestmark = pytest.mark.skipif(not shutil.which('kcat'), reason='kcat is missing')


class Example:
    """The example in a folder with what calls are judged by, the calls as messages, and their report, which comes from who made them."""

    def __init__(self, ctl, folder):
        self.folder = folder
        entries, answers, report = zip(*logs.drill(CALLS))
        logs.write_files(folder, answers)
        (folder / 'bin').mkdir()
        (folder / 'bin/stirctl').symlink_to(ctl)
        self.messages, self.report = [], [line.split(' ', 1)[1] for line in ''.join(report).splitlines()]
        for number, entry in enumerate(entries, 1):
            head, message = entry.split(b'\n', 1)
            self.messages.append(json.dumps({'call': number, 'moment': int(head.split()[0][1:]), 'message': message.decode()}).encode())

    def start(self, *words, **variables):
        """A program of the example, in a group of processes of its own."""
        variables = {**os.environ, 'PATH': f'{self.folder}/bin:{os.environ["PATH"]}', 'BATCH': str(BATCH), **variables}
        return subprocess.Popen([EXAMPLE / words[0], *words[1:]], cwd=self.folder, env=variables, start_new_session=True)

    def run(self, *words):
        """A program of the example up to the end of its partition."""
        assert self.start(*words, ONCE='yes').wait(120) == 0, words

    def judge(self, brokers, partition):
        return 'judge', brokers.at, str(partition), '.', *BY

    def judged(self, partition):
        """The offset of the next call."""
        file = self.folder / f'judged.{partition}'
        return int(file.read_text()) if file.exists() else 0


@pytest.fixture
def example(ctl, tmp_path):
    return Example(ctl, tmp_path)


def settle(brokers, partition, *words):
    return 'settle', brokers.at, str(partition), 'beginning', *words


def kill(processes):
    for process in processes:
        os.killpg(process.pid, signal.SIGKILL)
        process.wait()


def wait_until(holds):
    end = time.monotonic() + 60
    while not holds():
        assert time.monotonic() < end, 'what is waited for does not come'
        time.sleep(0.05)


def outcome(answer):
    """A line of the report (docs/FORMATS.md, "Report") without its number; calls are named by their offsets in the one partition."""
    told = answer['stir']
    where = str(int(told['of'].split('.')[1]) + 1) if 'of' in told else told.get('place', '-')
    return ' '.join(map(str, (told['answer'], told.get('response', '-'), told.get('rule', '-'), where)))


def outcomes(brokers, parts):
    """The outcomes of all partitions, each of which has one for each verdict, in their order."""
    found = []
    for partition in range(parts):
        answers = [json.loads(line) for line in brokers.held('outcomes', partition)]
        assert [answer['verdict'] for answer in answers] == list(range(len(brokers.held('verdicts', partition))))
        found += answers
    return found


def test_though_all_programs_are_killed_no_call_is_lost_and_each_has_the_outcome_of_one_log(example):
    with Brokers(calls=1, verdicts=4, outcomes=4) as brokers:
        brokers.produce('calls', 0, example.messages)
        judge = example.start(*example.judge(brokers, 0))
        settling = [example.start(*settle(brokers, partition, '--late=60')) for partition in range(4)]
        wait_until(lambda: example.judged(0) >= CALLS // 3)
        kill([judge])
        at = example.judged(0)
        assert at < CALLS
        wait_until(lambda: all(brokers.held('outcomes', partition) for partition in range(4)))
        kill(settling)
        # As though it had been killed just before it wrote the offset.
        (example.folder / 'judged.0').write_text(str(at - BATCH))
        example.run(*example.judge(brokers, 0))
        for partition in range(4):
            example.run(*settle(brokers, partition, '--late=60'))
        by_call = collections.defaultdict(list)
        for answer in outcomes(brokers, 4):
            by_call[answer['call']].append(outcome(answer))
    assert sorted(by_call) == list(range(1, CALLS + 1))
    assert sum(len(told) > 1 for told in by_call.values()) >= BATCH
    for number, wanted in enumerate(example.report, 1):
        assert set(by_call[number]) == {wanted}, f'call {number}'


def test_of_calls_in_several_partitions_one_of_each_ticket_is_valid(example):
    with Brokers(calls=3, verdicts=2, outcomes=2) as brokers:
        for partition in range(3):
            brokers.produce('calls', partition, example.messages[partition::3])
        for partition in (2, 0, 1):
            example.run(*example.judge(brokers, partition))
        for partition in range(2):
            example.run(*settle(brokers, partition, '--late=3600'))
        found = outcomes(brokers, 2)
    assert sorted(answer['call'] for answer in found) == list(range(1, CALLS + 1))
    by_ticket = collections.defaultdict(list)
    for answer in found:
        ticket, wanted = answer['stir'].get('ticket'), example.report[answer['call'] - 1]
        if ticket:
            by_ticket[ticket].append(answer)
        assert wanted.split()[0] in ('valid', 'replay') if ticket else outcome(answer) == wanted, answer
    assert len(by_ticket) == sum(line.startswith('valid') for line in example.report)
    for answers in by_ticket.values():
        [valid] = [answer for answer in answers if answer['stir']['answer'] == 'valid']
        assert all(answer['stir']['answer'] == 'replay' and answer['stir']['of'] == valid['id'] for answer in answers if answer is not valid)


def test_a_message_that_is_no_call_is_answered_and_holds_up_none(example):
    spoilt = [b'7', b'{}', b'{"call":\n0}', b'\xff', b'0.99999 x']
    with Brokers(calls=1, verdicts=1, outcomes=1) as brokers:
        brokers.produce('calls', 0, [*spoilt, example.messages[0]])
        example.run(*example.judge(brokers, 0))
        example.run(*settle(brokers, 0))
        found = outcomes(brokers, 1)
    assert [answer['stir']['answer'] for answer in found[:-1]] == ['fault'] * len(spoilt)
    assert [answer.get('line') for answer in found[:-1]] == ['0.0 7', '{"id":"0.1",}', None, '0.3 \ufffd', '0.4 0.99999 x']
    assert (found[2]['id'], found[2]['call'], found[-1]['id']) == ('0.2', 0, '0.5')
    assert outcome(found[-1]) == example.report[0]
