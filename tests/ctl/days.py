"""`stirctl day`: a log that is cut into twenty is judged as one, and a run that is killed at any moment goes on as if it had not been."""
import fcntl
import os
import pathlib
import signal
import subprocess
import sys
import tempfile
import time

HERE = pathlib.Path(__file__).resolve().parent
sys.path.append(str(HERE.parents[1] / 'crates/vectors/generators'))
import calls  # noqa: E402
from certificates import WORLD  # noqa: E402

START, CALLS, LOGS, KILLS = 1443208345, 100, 20, 20
LINE = b'INVITE sip:+12125551213@example.net SIP/2.0\r\n'
PEOPLE = b'From: <sip:+12155551212@example.org>;tag=1\r\nTo: <sip:+12125551213@example.net>\r\n'
WORDS = ['--chains=c', '--anchors=a', '--table=t', '--answers=w']
TO = ['--jobs', '1', '--to']


def claims(index):
    return calls.sorted_json({'attest': 'A', 'dest': {'tn': ['12125551213']}, 'iat': START + index // 4, 'orig': {'tn': '12155551212'},
                              'origid': f'00000000-0000-4000-8000-{index:012x}'})


def entries():
    """The entries of a log and its answers file. Each fifth call has the PASSporT of one that came some calls before, each seventh nobody signed."""
    log, answers = [], calls.answers(('INT', 'LEAF'))
    for index in range(CALLS):
        own = index - 7 if index % 5 == 4 and index > 7 else index
        signed = calls.base64url(calls.header('shaken', 'passport')) + '.' + calls.base64url(claims(own))
        signature = own.to_bytes(8, 'big') + bytes(56)
        if index % 7 != 6:
            answers += calls.answer(3, signed.encode(), signature.hex())
        field = f'Identity: {signed}.{calls.base64url(signature)};info=<{calls.X5U % "passport"}>;ppt="shaken"\r\n'.encode()
        message = LINE + PEOPLE + field + b'Content-Length: 0\r\n\r\n'
        log.append(b'@%d %d\n' % (START + index // 4, len(message)) + message)
    return log, answers.encode()


def put_files(room):
    log, answers = entries()
    (room / 'logs').mkdir()
    for number in range(LOGS):
        part = log[number * CALLS // LOGS:(number + 1) * CALLS // LOGS]
        (room / 'logs' / f'{number:02}.log').write_bytes(b''.join(part))
    (room / 'logs' / 'list.txt').write_bytes(b'no log\n')
    (room / 'c').write_bytes((calls.X5U % 'passport').encode() + b' leaf\n')
    for name, data in (('leaf', WORLD['LEAF'] + WORLD['INT']), ('a', WORLD['ROOT']), ('t', b'709J 12155551000 1000\n'), ('w', answers)):
        (room / name).write_bytes(data)
    return b''.join(log)


def start(room, ctl, to, *words):
    return subprocess.Popen([ctl, 'day', *TO, to, *(words or WORDS), 'logs'], cwd=room, start_new_session=True, stdout=subprocess.PIPE, stderr=subprocess.PIPE)


def ended(process):
    output, error = process.communicate(timeout=600)
    return process.returncode, output, error.decode()


def reports(room, to):
    return {path.name: path.read_bytes() for path in sorted((room / to).glob('*.report'))}


def lines_of(report):
    return report[:report.index(b'past 1\n')]


def told(room, ctl, number):
    """What `report` makes of a log and its report: its status, how many calls it tells, and what it says on standard error."""
    words = ['report', '--json=-', f'logs/{number:02}.log', f'reports/{number:02}.report']
    done = subprocess.run([ctl, *words], cwd=room, stdout=subprocess.PIPE, stderr=subprocess.PIPE, check=False)
    return done.returncode, done.stdout.count(b'"call":'), done.stderr.decode()


def in_words(room, ctl, program, made):
    """The words of the command: files that are named by the logs, a check by the proved program, and a run beside another one."""
    for number in range(LOGS):
        (room / f'w{number:02}').write_bytes((room / 'w').read_bytes())
    yield 'days: files by the names of the logs', (1, made), (ended(start(room, ctl, 'named', *WORDS[:3], '--answers=w{}'))[0], reports(room, 'named'))
    if program.exists():
        status = ended(start(room, ctl, 'checked', *WORDS, '--checked-by', program))[0]
        yield 'days: checked by the proved program', (1, made), (status, reports(room, 'checked'))
    (room / 'other').write_text('#!/bin/sh\ncat > /dev/null\necho 1 valid - - -\n')
    (room / 'other').chmod(0o755)
    status, output, error = ended(start(room, ctl, 'differs', *WORDS, '--checked-by', './other'))
    yield 'days: another program says something else', (7, b'', {}), (status, output, reports(room, 'differs'))
    (room / 'held').mkdir()
    with open(room / 'held' / '.lock', 'wb') as held:
        fcntl.flock(held, fcntl.LOCK_EX)
        yield 'days: two runs over one folder', (2, b'', 'stirctl: held: another run writes its reports there\n'), ended(start(room, ctl, 'held'))
    yield 'days: no words', 2, ended(subprocess.Popen([ctl, 'day', 'logs'], cwd=room, stdout=subprocess.PIPE, stderr=subprocess.PIPE))[0]


def gone_on(room, ctl, program):
    """The files of a run that goes on after two logs of which the proved program has written the reports, as `stir-day` did, and a part of the third."""
    to, state = room / 'gone-on', room / 'no-state'
    to.mkdir()
    state.write_bytes(b'')
    for number in range(2):
        report = to / f'{number:02}.report'
        with open(room / 'logs' / f'{number:02}.log', 'rb') as log, open(report, 'wb') as sink:
            subprocess.run([program, 'verify', *WORDS, f'--state={state}'], cwd=room, stdin=log, stdout=sink, check=False)
        state = report
    (to / '02.report.new').write_bytes(b'11 valid')
    status = ended(start(room, ctl, 'gone-on'))[0]
    return status, reports(room, 'gone-on'), sorted(path.name for path in to.iterdir() if path.suffix != '.report')


def killed(room, ctl, moment):
    """The files of a run that was killed after so many seconds, and gone on with."""
    to = f'killed-{moment:.4f}'
    process = start(room, ctl, to)
    time.sleep(moment)
    os.killpg(process.pid, signal.SIGKILL)
    process.communicate()
    status = ended(start(room, ctl, to))[0]
    return status, reports(room, to), sorted(path.name for path in (room / to).iterdir() if path.suffix != '.report')


def results(ctl, program):
    with tempfile.TemporaryDirectory() as folder:
        room = pathlib.Path(folder)
        log = put_files(room)
        whole = subprocess.run([ctl, 'judge', *WORDS, '--report=-', '-'], cwd=room, input=log, stdout=subprocess.PIPE, check=False)
        yield 'days: the log has valid calls, replays and refused ones', True, all(word in whole.stdout for word in (b' valid ', b' replay ', b' refused '))
        if program.exists():
            proved = subprocess.run([program, 'verify', *WORDS], cwd=room, input=log, stdout=subprocess.PIPE, check=False)
            yield 'days: it is the report of the proved program', proved.stdout, whole.stdout
        begun = time.monotonic()
        said = ended(start(room, ctl, 'reports'))
        took = time.monotonic() - begun
        made = reports(room, 'reports')
        yield 'days: twenty logs', (1, b'', ''.join(f'stirctl: {number:02}.log: judged\n' for number in range(LOGS))), said
        yield 'days: together they are the report of one', whole.stdout, b''.join(lines_of(report) for report in made.values())
        yield 'days: each report is read', [(0, CALLS // LOGS, '')] * LOGS, [told(room, ctl, number) for number in range(LOGS)]
        yield from in_words(room, ctl, program, made)
        if program.exists():
            yield 'days: goes on from reports of the proved program', (1, made, ['.first', '.lock']), gone_on(room, ctl, program)
        yield 'days: again, nothing is left to do', (1, b'', ''), ended(start(room, ctl, 'reports'))
        for number in range(KILLS):
            moment = took * (number + 0.5) / KILLS
            yield f'days: killed after {moment:.2f} of {took:.2f} seconds', (1, made, ['.first', '.lock']), killed(room, ctl, moment)
        yield from faults(room, ctl, made)
        yield from of_valid(room, ctl)


def faults(room, ctl, made):
    (room / 'logs' / '05.log').write_bytes(b'@1443208346 5\nab')
    said = ended(start(room, ctl, 'short'))
    yield 'days: a log at fault ends the run', (5, 'stirctl: refused logs/05.log 0'), (said[0], said[2].splitlines()[-1])
    yield 'days: and the reports before it stay', dict(list(made.items())[:5]), reports(room, 'short')
    (room / 'short' / '07.report').write_bytes(made['07.report'])
    said = ended(start(room, ctl, 'short'))
    yield 'days: a report with none before it', (2, 'stirctl: short/07.report: there is no report of the log before, 05.log\n'), (said[0], said[2])
    said = ended(start(room, ctl, 'reports', *WORDS, '--past=61'))
    (room / 'reports' / '19.report').unlink()
    said = ended(start(room, ctl, 'reports', *WORDS, '--past=61'))
    place = made['18.report'].count(b'\n', 0, made['18.report'].index(b'window ')) + 1
    yield 'days: a state of another window', (5, f'stirctl: refused reports/18.report {place}\n'), (said[0], said[2])
    said = ended(start(room, ctl, 'elsewhere', '--chains=none', *WORDS[1:]))
    yield 'days: a file that is missing', (5, 'stirctl: missing none\n'), (said[0], said[2])
    (room / 'empty').mkdir()
    process = subprocess.Popen([ctl, 'day', '--to', 'none', *WORDS, 'empty'], cwd=room, stdout=subprocess.PIPE, stderr=subprocess.PIPE)
    yield 'days: a folder without a log', (2, b'', 'stirctl: empty: no file ends with .log\n'), ended(process)
    process = subprocess.Popen([ctl, 'day', '--to', 'none', *WORDS, 'nowhere'], cwd=room, stdout=subprocess.PIPE, stderr=subprocess.PIPE)
    yield 'days: no folder', (5, b'', 'stirctl: missing nowhere\n'), ended(process)


def of_valid(room, ctl):
    """A folder all of whose calls are valid: the first call alone."""
    (room / 'valid').mkdir()
    (room / 'valid' / 'one.log').write_bytes(entries()[0][0])
    done = subprocess.run([ctl, 'day', '--to', 'of-valid', *WORDS, 'valid'], cwd=room, stdout=subprocess.PIPE, stderr=subprocess.PIPE, check=False)
    yield 'days: all calls are valid', (0, b'stirctl: one.log: judged\n'), (done.returncode, done.stderr)
