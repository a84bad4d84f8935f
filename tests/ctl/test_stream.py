"""`stirctl judge --stream` and `stirctl settle`: lines of calls in, lines with verdicts out, cut into parts as an engine of streams cuts them."""
import base64
import json
import pathlib
import subprocess
import sys

import pytest

TESTS = pathlib.Path(__file__).resolve().parent.parent
sys.path.append(str(TESTS / 'performance'))
import logs  # noqa: E402
from cut_streams import line_of  # noqa: E402

CALLS = 3_000
BY = ['--chains=chains', '--anchors=anchors', '--table=table', '--answers=answers', '--codes=listed']


@pytest.fixture(scope='module')
def world(tmp_path_factory):
    """A folder with what the calls are judged by, the calls as lines, and their report, which comes from who made them."""
    folder = tmp_path_factory.mktemp('stream')
    entries, answers, report = zip(*logs.drill(CALLS))
    logs.write_files(folder, answers)
    lines = []
    for number, entry in enumerate(entries, 1):
        head, message = entry.split(b'\n', 1)
        line = {'id': number, 'moment': int(head.split()[0][1:])}
        line |= {'message': message.decode()} if number % 2 else {'message_base64': base64.b64encode(message).decode()}
        lines.append(json.dumps(line).encode())
    return folder, lines, ''.join(report)


def piped(ctl, folder, words, lines):
    """What the command answers to these lines, each as an object."""
    done = subprocess.run([ctl, *words], input=b''.join(line + b'\n' for line in lines), stdout=subprocess.PIPE, stderr=subprocess.PIPE, cwd=folder, timeout=120)
    assert (done.returncode, done.stderr) == (0, b'')
    answers = done.stdout.splitlines()
    assert len(answers) == len(lines)
    return answers


def judged(ctl, folder, lines):
    return piped(ctl, folder, ['judge', '--stream', *BY, '-'], lines)


@pytest.mark.parametrize('parts', [1, 4, 16])
def test_a_stream_in_parts_by_tickets_has_the_outcomes_of_one_log(ctl, world, parts):
    folder, lines, report = world
    answers = [answer for part in range(parts) for answer in judged(ctl, folder, lines[part::parts])]
    answers.sort(key=lambda answer: json.loads(answer)['id'])
    by_ticket = [[] for _ in range(parts)]
    for answer in answers:
        by_ticket[int(json.loads(answer)['stir'].get('ticket', '0')[:8], 16) % parts].append(answer)
    settled = [json.loads(answer) for part in by_ticket for answer in piped(ctl, folder, ['settle'], part)]
    settled.sort(key=lambda answer: answer['id'])
    assert ''.join(line_of(answer) + '\n' for answer in settled) == report
    assert not any('message' in name for answer in settled for name in answer)


def test_what_else_a_line_has_is_handed_on_as_it_stands(ctl, world):
    folder, lines, _ = world
    call = json.loads(lines[0])
    given = b'{"b":1e400,"id":%d,"moment":%d,"a":[1, {"x":null}],"\\u00e9":12345678901234567890123,"message":%s,"stir":"old"}' % (
        call['id'], call['moment'], json.dumps(call['message']).encode())
    [answer] = judged(ctl, folder, [given])
    begins = b'{"b":1e400,"id":%d,"moment":%d,"a":[1, {"x":null}],"\xc3\xa9":12345678901234567890123,"stir":{' % (call['id'], call['moment'])
    assert answer.startswith(begins), answer


def test_who_called_and_who_signed_is_told(ctl, world):
    folder, lines, report = world
    valid = report.split('\n').index(next(line for line in report.splitlines() if ' valid ' in line))
    [answer] = judged(ctl, folder, [lines[valid]])
    told = json.loads(answer)['stir']
    assert (told['answer'], told['attestation'], told['called'], told['call_id']) == ('passes', 'A', '12125551213', '1@example.org')
    assert told['caller'].startswith('1215555') and len(told['ticket']) == 64 and 'verstat' not in told
    [settled] = piped(ctl, folder, ['settle'], [answer])
    assert json.loads(settled)['stir'] == told | {'answer': 'valid', 'verstat': 'TN-Validation-Passed'}


FAULTS = [
    (b'', 'it is no JSON object'), (b'[1]', 'it is no JSON object'), (b'{"a":1', 'it is no JSON object'), (b'\xff', 'it is no JSON object'),
    (b'{"message":"x"}', 'moment has to be a whole second from 1970 to 9999'),
    (b'{"moment":1.5,"message":"x"}', 'moment has to be a whole second from 1970 to 9999'),
    (b'{"moment":-1,"message":"x"}', 'moment has to be a whole second from 1970 to 9999'),
    (b'{"moment":253402300800,"message":"x"}', 'moment has to be a whole second from 1970 to 9999'),
    (b'{"moment":1,"moment":1,"message":"x"}', 'moment stands there twice'),
    (b'{"moment":1}', 'one of message and message_base64 has to be there, a text'),
    (b'{"moment":1,"message":7}', 'one of message and message_base64 has to be there, a text'),
    (b'{"moment":1,"message":"x","message_base64":"eA=="}', 'one of message and message_base64 has to be there, a text'),
    (b'{"moment":1,"message_base64":"%"}', 'message_base64 is not base64 (RFC 4648, section 4)'),
    (b'{"moment":1,"message":"%s"}' % (b'x' * 131_073), 'the message has more than 131072 bytes'),
    (b'{"moment":1,"message":"%s"}' % (b'x' * (1 << 20)), 'it has more than 1048576 bytes'),
]


@pytest.mark.parametrize('line, why', FAULTS, ids=range(len(FAULTS)))
def test_a_spoilt_line_is_answered_and_those_around_it_too(ctl, world, line, why):
    folder, lines, _ = world
    answers = [json.loads(answer) for answer in judged(ctl, folder, [lines[0], line, lines[1]])]
    assert [answer.get('id') for answer in answers] == [1, None, 2]
    assert answers[1]['stir'] == {'answer': 'fault', 'fault': why}
    kept = json.loads(line) if line.startswith(b'{') and why not in ('it is no JSON object', 'it has more than 1048576 bytes') else None
    assert {name: value for name, value in answers[1].items() if name != 'stir'} == (
        kept if kept is not None else {'line': line[:1 << 20].decode(errors='replace')})
    settled = [json.loads(answer)['stir'] for answer in piped(ctl, folder, ['settle'], [json.dumps(answers[1]).encode()])]
    assert settled == [answers[1]['stir']]


def test_a_line_is_answered_while_the_next_one_is_awaited(ctl, world):
    folder, lines, report = world
    with subprocess.Popen([ctl, 'judge', '--stream', *BY, '-'], stdin=subprocess.PIPE, stdout=subprocess.PIPE, cwd=folder) as process:
        for line, wanted in zip(lines[:20], report.splitlines()):
            process.stdin.write(line + b'\n')
            process.stdin.flush()
            answer = json.loads(process.stdout.readline())
            assert wanted.split()[0] == str(answer['id'])
        process.stdout.close()
        process.stdin.write(lines[20] + b'\n')
        process.stdin.flush()
        # Nobody reads the answer: it ends, though its input goes on.
        assert process.wait(30) == 4


PASSES = '{"id":"%s","moment":%d,"stir":{"answer":"passes","last":%d,"ticket":"%s"}}'
# The words, the calls (name, moment, last second, ticket), and of each the answer and what it names.
SETTLED = [
    ([], [('a', 100, 160, 1), ('b', 160, 160, 1), ('c', 160, 170, 2)], [('valid', None), ('replay', 'a'), ('valid', None)]),
    ([], [('a', 100, 160, 1), ('b', 161, 200, 2), ('c', 150, 160, 1)], [('valid', None), ('valid', None), ('fault', None)]),
    (['--late=1'], [('a', 100, 160, 1), ('b', 161, 200, 2), ('c', 150, 160, 1)], [('valid', None), ('valid', None), ('replay', 'a')]),
    (['--id=moment'], [('a', 100, 160, 1), ('b', 110, 160, 1)], [('valid', None), ('replay', 100)]),
    (['--id=other'], [('a', 100, 160, 1), ('b', 110, 160, 1)], [('valid', None), ('replay', 1)]),
    # A call that comes twice, between them a replay of it.
    ([], [('a', 100, 160, 1), ('b', 110, 160, 1), ('a', 100, 160, 1)], [('valid', None), ('replay', 'a'), ('replay', 'a')]),
    (['--again'], [('a', 100, 160, 1), ('b', 110, 160, 1), ('a', 100, 160, 1), ('b', 110, 160, 1)],
     [('valid', None), ('replay', 'a'), ('valid', None), ('replay', 'a')]),
    (['--again', '--id=other'], [('a', 100, 160, 1), ('a', 100, 160, 1)], [('valid', None), ('replay', 1)]),
    (['--again'], [('a', 100, 160, 1), ('b', 161, 200, 2), ('a', 100, 160, 1)], [('valid', None), ('valid', None), ('fault', None)]),
]


@pytest.mark.parametrize('words, calls, wanted', SETTLED)
def test_the_first_call_of_a_ticket_is_valid(ctl, tmp_path, words, calls, wanted):
    lines = [(PASSES % (name, moment, last, f'{ticket:064x}')).encode() for name, moment, last, ticket in calls]
    answers = [json.loads(answer)['stir'] for answer in piped(ctl, tmp_path, ['settle', *words], lines)]
    assert [(answer['answer'], answer.get('of')) for answer in answers] == wanted


def test_a_stream_goes_with_no_option_of_whole_logs_and_wants_its_codes(ctl, world):
    folder, _, _ = world
    for words in (['--report=r'], ['--json=-'], ['--state=s'], ['--initial'], ['--chains-out=c', '--fetch=f']):
        done = subprocess.run([ctl, 'judge', '--stream', *BY, *words, '-'], input=b'', capture_output=True, cwd=folder, timeout=60)
        assert done.returncode == 2 and b'cannot be used with' in done.stderr, words
    done = subprocess.run([ctl, 'judge', '--stream', *BY[:2], BY[3], '-'], input=b'', capture_output=True, cwd=folder, timeout=60)
    assert (done.returncode, done.stderr) == (2, b"stirctl: a stream isn't read twice: say --codes listed, or name the --table of a run\n")
