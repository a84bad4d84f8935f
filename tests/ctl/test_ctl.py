"""Runs `stirctl`: on the cases of tests/cli, on captures, on a day with real signatures, and on outputs that fail."""
import csv
import io
import json
import os
import subprocess
import sys

import ctl_cases
import days
import pytest
import reports
import rows

TOP = rows.TESTS.parent
sys.path.insert(0, str(TOP / 'tests/tools'))
import captures  # noqa: E402
import streams  # noqa: E402

EXAMPLES = TOP / 'examples'
FILES = [f'--{name}={EXAMPLES}/files/{file}' for name, file in (('chains', 'chains.txt'), ('anchors', 'anchors.der'), ('table', 'table.txt'),
                                                               ('answers', 'answers.txt'))]
FIRST = EXAMPLES / 'first-call/calls.log'
FIRST_REPORT = (EXAMPLES / 'first-call/output').read_bytes()


@pytest.mark.parametrize('case', [pytest.param(case[1:], id=case[0]) for case in rows.cases()])
def test_it_writes_what_the_proved_program_writes(case, ctl, equal):
    equal(*rows.result(ctl, *case), given=case[0])


@pytest.mark.parametrize('line', [pytest.param(line, id=f'cases:{number}') for number, line in ctl_cases.lines()])
def test_line(line, run, tmp_path, equal):
    equal(*ctl_cases.case(line, run, tmp_path), given=line)


def test_openssl_agrees_on_signatures(run, each, request):
    each(ctl_cases.agreements(run, request.config.getoption('keys')))


def test_what_is_made_of_certificates_has_its_bounds(run, tmp_path):
    ctl_cases.put_files(tmp_path)

    def put(name, data):
        (tmp_path / name).write_bytes(data)
        return name

    root, leaf = ((tmp_path / f'{name}.pem').read_bytes() for name in ('root', 'carrier'))
    whole = (tmp_path / 'root.der').read_bytes()
    assert run('chain', '--anchors', put('most.pem', root * 256), folder=tmp_path) == (0, whole * 256, b'')
    assert run('chain', '--anchors', put('more.pem', root * 257), folder=tmp_path) == (2, b'', b'stirctl: 257 trust anchors, and a file has at most 256\n')
    put('six.pem', leaf * 6), put('seven.pem', leaf * 7)
    assert run('chain', given=b'u six.pem\n', folder=tmp_path)[0::2] == (1, b''.join(
        b"stirctl: six.pem: the certificate of CN=middle,O=Example, which issued certificate %d, isn't in this file\n" % number for number in range(1, 7)))
    status, output, said = run('chain', given=b'u seven.pem\n', folder=tmp_path)
    assert (status, output, said.splitlines()[0]) == (1, b'u seven.der\n', b'stirctl: seven.pem: 7 certificates, and a chain has at most 6')
    for count, wanted in ((19_998, (0, b'')), (19_999, (2, b'stirctl: 20001 codes, and a table has at most 20000\n'))):
        put('own', b''.join(b'C%d 1 2\n' % number for number in range(count)))
        status, output, said = run('chain', '--table', 'own', 'fetched-map', folder=tmp_path)
        assert ((status, said), output.endswith(b'\n42AB *\n709J *\n')) == (wanted, status == 0)


def test_bash_completes_commands_and_their_options(run, tmp_path):
    script = tmp_path / 'completion'
    script.write_bytes(run('completion')[1])

    def completed(*words):
        how = 'source "$0"; COMP_WORDS=("$@"); COMP_CWORD=$(($# - 1)); _stirctl stirctl; printf "%s\\n" "${COMPREPLY[@]}"'
        done = subprocess.run(['bash', '-c', how, script, *words], stdout=subprocess.PIPE, stderr=subprocess.PIPE, check=True)
        return done.stdout.decode().split(), done.stderr
    assert completed('stirctl', 'sho') == (['show'], b'')
    assert completed('stirctl', 'chain', '--an') == (['--anchors'], b'')
    assert completed('stirctl', 'judge', '--che') == (['--checked-by'], b'')


def test_completions_are_for_the_shell_that_is_named(run):
    for words, wanted in ((('bash',), b'_stirctl() {\n'), (('zsh',), b'#compdef stirctl\n'), (('fish',), b'complete -c stirctl '), ((), b'_stirctl() {\n')):
        status, output, said = run('completion', *words)
        assert (status, wanted in output[:400], said) == (0, True, b''), words
    assert run('completion', 'csh')[:2] == (2, b'')


def test_reports(run, each):
    each(reports.results(run))


def test_days(ctl, each, request):
    each(days.results(ctl, request.config.getoption('program').resolve()))


def test_all_outputs_are_written_at_once_and_say_the_same(run, tmp_path):
    names = {name: tmp_path / name for name in ('report', 'json', 'csv', 'words', 'summary', 'svg')}
    status, output, said = run('judge', *FILES, *(f'--{name}={path}' for name, path in names.items()), FIRST)
    assert (status, output, said) == (1, b'', b'')
    assert names['report'].read_bytes() == FIRST_REPORT
    told = [json.loads(line) for line in names['json'].read_text().splitlines()]
    assert [f'{it["call"]} {it["answer"]}' for it in told] == [' '.join(line.split()[:2]) for line in FIRST_REPORT.decode().splitlines()]
    assert told[0] | {'x5u': '', 'origid': ''} == {
        'call': 1, 'moment': 1443208345, 'call_id': told[0]['call_id'], 'from': '', 'to': '', 'caller': '12155551212', 'called': '12125551213', 'attestation': told[0]['attestation'], 'origid': '', 'x5u': '',
        'signer': '709J', 'named': '', 'answer': 'valid', 'response': None, 'phrase': '', 'rule': None, 'place': None, 'verstat': 'TN-Validation-Passed',
        'reason': ''}
    # Of a call without a PASSporT its header fields are told.
    assert b'\r\nCall-ID: ' + told[4]['call_id'].encode() + b'\r\n' in FIRST.read_bytes() and told[4]['call_id']
    assert told[4]['from'].endswith('>;tag=1') and told[4]['to'].startswith('<sip:+12125551213@') and not told[4]['caller']
    table = list(csv.DictReader(io.StringIO(names['csv'].read_text())))
    assert [{name: '' if value is None else str(value) for name, value in it.items()} for it in told] == table
    assert names['words'].read_bytes().startswith(b'1 valid - - -\n    2015-09-25 19:12:25 UTC, Call-ID ')
    assert '2015-09-25\n\ncalls 6' in names['summary'].read_text()
    assert names['svg'].read_text().startswith('<svg ') and '6 calls: 2 valid, 3 refused, 1 replay, 0 unread' in names['svg'].read_text()
    assert sorted(path.name for path in tmp_path.iterdir()) == sorted(names)


def test_a_report_is_told_and_made_again(run, tmp_path):
    judged = run('judge', *FILES, '--json=-', FIRST)[1]
    (tmp_path / 'report').write_bytes(FIRST_REPORT)
    assert run('report', FILES[0], '--json=-', FIRST, tmp_path / 'report') == (0, judged, b'')
    (tmp_path / 'json').write_bytes(judged)
    assert run('report', '--back', tmp_path / 'json') == (0, FIRST_REPORT, b'')
    # One call less, and one more.
    lines = FIRST_REPORT.splitlines(keepends=True)
    assert run('report', '--json=-', FIRST, given=b''.join(lines[:-1]))[0] == 1
    assert run('report', '--json=-', FIRST, given=FIRST_REPORT + b'7 valid - - -\n')[0] == 5
    assert run('report', '--json', tmp_path / 'none', FIRST, given=FIRST_REPORT + b'missing chains.txt\n')[0] == 5
    assert not (tmp_path / 'none').exists()


def test_a_state_goes_on_from_log_to_log_and_from_run_to_run(run, tmp_path):
    log = FIRST.read_bytes()
    first = tmp_path / 'first'
    first.write_bytes(b'')
    whole = run('judge', *FILES, '--state', first, '--report=-', FIRST, FIRST)[1]
    one = run('judge', *FILES, '--state', first, '--report=-', FIRST)[1]
    (tmp_path / 'one').write_bytes(one)
    # The log's moments don't fall, so it goes on after itself only if its last moment is taken for all.
    status, two, _ = run('judge', *FILES, '--state', tmp_path / 'one', '--report=-', given=log)
    assert status == 2 and two == b'', 'an input has to be named'
    status, two, _ = run('judge', *FILES, '--state', tmp_path / 'one', '--report=-', '-', given=log)
    assert (status, two.splitlines()[-1]) == (5, b'refused input 0')
    assert whole.splitlines()[:6] == one.splitlines()[:6] and whole.endswith(b'refused %s %d\n' % (os.fsencode(FIRST), 0))


@pytest.mark.parametrize('name', [name for name in sorted(captures.FILES) if name.endswith('.pcap') and name.replace('.pcap', '.log') in captures.FILES
                                  and name not in ('dialogs.pcap', 'asserted.pcap')])
def test_a_capture_becomes_the_log_that_it_has_to(name, run, tmp_path):
    (tmp_path / name).write_bytes(captures.FILES[name])
    status, log, said = run('log', name, folder=tmp_path)
    assert (status, log) == (0, captures.FILES[name.replace('.pcap', '.log')]), said


@pytest.mark.parametrize('name', ['run-udp.pcap', 'run-any.pcap', 'run-any-2.pcap', 'run-udp.pcapng', 'run-any-2.pcapng', 'run-two.pcapng'])
def test_each_form_of_a_capture_gives_one_log(name, run, tmp_path):
    (tmp_path / name).write_bytes(streams.FILES[name])
    status, log, said = run('log', name, folder=tmp_path)
    assert (status, log) == (0, streams.LOG), said


def test_a_list_of_asserted_identities_becomes_one_field_a_value(run, tmp_path):
    (tmp_path / 'asserted.pcap').write_bytes(captures.FILES['asserted.pcap'])
    status, log, _ = run('log', 'asserted.pcap', folder=tmp_path)
    assert status == 0 and log.count(b'\r\nP-Asserted-Identity: <tel:+12155551001>\r\n') >= 3
    assert run('log', '--as-is', 'asserted.pcap', folder=tmp_path)[:2] == (0, captures.FILES['asserted-as-is.log'])


@pytest.mark.parametrize('name', ['cut-short.pcap', 'cut-in-header.pcap', 'cut-between.pcap', 'run-cut.pcapng', 'run-tcp.pcap', 'run-loopback.pcap'])
def test_a_capture_that_is_not_read_whole_makes_no_report(name, run, tmp_path):
    (tmp_path / name).write_bytes({**captures.FILES, **streams.FILES}[name])
    status, output, said = run('judge', *FILES, '--report', tmp_path / 'report', tmp_path / name)
    assert (status, output) == (5, b'') and name.encode() in said
    assert not (tmp_path / 'report').exists()


def test_invites_inside_a_dialog_can_be_left_out(run, tmp_path):
    calls = [(1, captures.message(1)), (2, captures.message(2, to=';tag=9')), (3, captures.NO_TAG)]
    (tmp_path / 'calls.pcap').write_bytes(captures.pcap([(time, captures.ipv4(captures.udp(message))) for time, message in calls], captures.RAW))
    assert run('log', 'calls.pcap', folder=tmp_path)[1] == captures.log(calls)
    status, log, said = run('log', '--initial', 'calls.pcap', folder=tmp_path)
    assert (status, log, said) == (0, captures.log([calls[0], calls[2]]), b'stirctl: calls 2; left out: re-INVITEs 1\n')


def test_captures_are_put_in_the_order_of_time(run, tmp_path):
    for name, number, moment in (('late', 2, 300), ('early', 1, 200)):
        (tmp_path / name).write_bytes(captures.pcap([(moment, captures.ipv4(captures.udp(captures.message(number))))], captures.RAW))
    log = captures.log([(200, captures.message(1)), (300, captures.message(2))])
    assert run('log', 'late', 'early', folder=tmp_path)[:2] == (0, log)


def test_a_fault_leaves_the_file_of_a_report_as_it_was(run, tmp_path):
    report, cut = tmp_path / 'report', tmp_path / 'cut.log'
    report.write_bytes(b'before\n')
    cut.write_bytes(FIRST.read_bytes()[:-1])
    for words, status in ((['cut.log'], 5), (['missing.log'], 5), (['--state=missing', 'cut.log'], 5)):
        done = run('judge', *FILES, '--report=report', '--json=json', *words, folder=tmp_path)
        assert done[:2] == (status, b'') and done[2].startswith(b'stirctl: ')
        assert report.read_bytes() == b'before\n'
    assert sorted(path.name for path in tmp_path.iterdir()) == ['cut.log', 'report']


def test_an_output_without_room_is_said(run, tmp_path):
    with open('/dev/full', 'wb') as full:
        assert run('judge', *FILES, '--report=-', FIRST, stdout=full)[0] == 4
    assert run('judge', *FILES, '--report=/nowhere/report', FIRST)[0] == 4
    assert run('judge', *FILES, '--report=-', '--json=-', FIRST)[0] == 2


def test_a_day_with_real_signatures_is_judged_by_one_command(run, request, tmp_path):
    """The day of docs/OPERATING.md: the capture by one command says what five commands say of it."""
    pytest.importorskip('cryptography')
    program = request.config.getoption('program').resolve()
    if not program.exists():
        pytest.skip('missing: the proved program')
    made = subprocess.run([EXAMPLES / 'carrier/day', '--in', tmp_path], stdout=subprocess.PIPE, stderr=subprocess.PIPE)
    assert made.returncode == 0, made.stderr
    report = (EXAMPLES / 'carrier/report').read_bytes()
    by = ['--roots=root.pem', '--chains=chains.txt', '--table=table.txt']
    status, output, said = run('judge', *by, '--report=-', 'day.pcap', folder=tmp_path)
    assert (status, output) == (1, report) and b'calls 11; left out: retransmissions 1, other messages 1' in said
    assert run('judge', *by, '--report=-', 'day.log', folder=tmp_path) == (1, report, b'')
    asked = subprocess.run([program, 'ask', '--chains=chains.txt', '--anchors=anchors.der', '--table=table.txt'], cwd=tmp_path, stdout=subprocess.PIPE,
                           input=(tmp_path / 'day.log').read_bytes(), check=True)
    (tmp_path / 'questions.txt').write_bytes(asked.stdout)
    assert run('confirm', 'questions.txt', folder=tmp_path) == (0, (tmp_path / 'answers.txt').read_bytes(), b'')
    checked = run('judge', *by, '--checked-by', program, '--report=checked', 'day.log', folder=tmp_path)
    assert checked == (1, b'', b'') and (tmp_path / 'checked').read_bytes() == report
    explained = run('explain', *by, '--call=6', 'day.log', folder=tmp_path)
    assert explained[:2] == (1, b''.join(b'6 %d ok\n' % rule for rule in range(1, 9)) + b'6 9 403 1.0\n')


def test_a_run_is_checked_by_the_proved_program(run, request, tmp_path):
    program = request.config.getoption('program').resolve()
    if not program.exists():
        pytest.skip('missing: the proved program')
    (tmp_path / 'state').write_bytes(b'')
    status, output, said = run('judge', *FILES, '--checked-by', program, '--state', tmp_path / 'state', FIRST)
    assert (status, output[:len(FIRST_REPORT)], said) == (1, FIRST_REPORT, b'')


def test_another_report_than_that_of_the_program_is_a_fault(run, tmp_path):
    other = tmp_path / 'other'
    other.write_text('#!/bin/sh\ncat > /dev/null\necho 1 valid - - -\nexit 0\n')
    other.chmod(0o755)
    status, output, said = run('judge', *FILES, '--checked-by', other, '--report', tmp_path / 'report', FIRST)
    assert (status, output) == (7, b'') and b'another one; it ends with 1 valid' in said
    assert sorted(path.name for path in tmp_path.iterdir()) == ['other']
