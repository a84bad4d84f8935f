"""`stirctl report` on a log and a report written by hand, and whether a report read back from its JSON is the report."""
import base64
import csv
import io
import json
import pathlib
import tempfile
import xml.etree.ElementTree

HERE = pathlib.Path(__file__).resolve().parent

ORIGID = '123e4567-e89b-12d3-a456-426655440000'
X5U, OTHER = 'https://cert.example.org/a.pem', 'https://cert.example.org/b.pem'
SVG = '{http://www.w3.org/2000/svg}'


def encoded(members):
    """The deterministic form of a JSON object (RFC 8225, section 9), in base64url."""
    return base64.urlsafe_b64encode(json.dumps(members, sort_keys=True, separators=(',', ':')).encode()).decode().rstrip('=')


def field(moment, x5u, ppt=None, name='Identity', **claims):
    """An Identity field of this second. Nobody signed it."""
    header = {'alg': 'ES256', 'typ': 'passport', 'x5u': x5u} | ({'ppt': ppt} if ppt else {})
    claims = {'dest': {'tn': ['12125551213']}, 'iat': moment, 'orig': {'tn': '12155551212'}} | claims
    return f'{name}: {encoded(header)}.{encoded(claims)}.{"A" * 86};info=<{x5u}>;alg=ES256' + (f';ppt="{ppt}"' if ppt else '')


def shaken(moment, **others):
    return field(moment, X5U, 'shaken', **{'attest': 'B', 'origid': ORIGID, **others})


def message(*lines):
    return '\r\n'.join(['INVITE sip:+12125551213@example.net SIP/2.0', *lines, '', '']).encode()


FROM, TO = 'From: "Bond; <x>" <sip:2155551212@example.org>;tag=1', 'To: <tel:+1-212-555-1213>'
ABROAD, EMERGENCY = {'tn': '442071838750'}, {'tn': ['911']}
MOMENTS = 1443208345, 1443208346, 1443211945, 1443211946, 1443211947, 1443211948, 1443211949, 1443211950
MESSAGES = [
    (MOMENTS[0], message(FROM, TO, 'Call-ID: one', shaken(MOMENTS[0]))),
    # In the short form of names; From has no number, and the call was diverted.
    (MOMENTS[1], message('f: sip:x@example.org', 't: sip:911@example.net;user=phone', 'i: two', 'P-Asserted-Identity: <tel:+442071838750>',
                         field(MOMENTS[1], OTHER, 'div', orig=ABROAD, div={'tn': '911'}), shaken(MOMENTS[1], name='y', orig=ABROAD, dest=EMERGENCY))),
    (MOMENTS[2], message(FROM, TO, 'Call-ID: =three\x1b[2J', field(MOMENTS[2], X5U))),
    (MOMENTS[3], b'OPTIONS'),
    (MOMENTS[4], message(FROM, TO, 'Call-ID: five', f'Identity: {encoded([])}.{encoded([])}.;info=<a b>;ppt=shaken')),
    *((moment, message(FROM, TO, f'Call-ID: {name}', shaken(moment))) for moment, name in zip(MOMENTS[5:], ('six', 'seven', 'eight'))),
]
VERDICTS = ['valid - - -', 'refused 437 12 1.2', 'replay 438 18 {}', 'refused 400 1 0.7', 'refused 438 6 1.2', 'unread - 10 1.0', 'refused 438 16 1.0',
            'refused 437 17 1.0']


def report(first):
    """The report of these messages, whose first call has this number."""
    return ''.join(f'{number} {verdict}\n'.format(first) for number, verdict in enumerate(VERDICTS, first))


REPORT = report(1)
STATE = f'past 1\nwindow 60\ncall 48\nmoment 1443211950\nkept {"0a" * 32} 41 1443212005\nkept {"0b" * 32} 1 1443212005\nend 2\n'

COLUMNS = ('call moment call_id from to caller called attestation origid x5u signer named answer response phrase rule place verstat reason').split()
PEOPLE = '"Bond; <x>" <sip:2155551212@example.org>;tag=1', '<tel:+1-212-555-1213>'
ROWS = [
    (1, 1443208345, 'one', '', '', '12155551212', '12125551213', 'B', ORIGID, X5U, '42AB', '', 'valid', None, '', None, None, 'TN-Validation-Passed', ''),
    (2, 1443208346, 'two', '', '', '442071838750', '911', 'B', ORIGID, OTHER, '', '', 'refused', 437, 'Unsupported Credential', 12, '1.2', 'TN-Validation-Failed',
     'STIR;cause=437;text="Unsupported Credential"'),
    (3, 1443211945, '=three\x1b[2J', '', '', '12155551212', '12125551213', '', '', X5U, '42AB', '', 'replay', 438, 'Invalid Identity Header', 18, '1',
     'TN-Validation-Failed', 'STIR;cause=438;text="Invalid Identity Header"'),
    (4, 1443211946, '', '', '', '', '', '', '', '', '', '', 'refused', 400, 'Bad Request', 1, '0.7', 'No-TN-Validation', ''),
    (5, 1443211947, 'five', *PEOPLE, '', '', '', '', '', '', '', 'refused', 438, 'Invalid Identity Header', 6, '1.2', 'TN-Validation-Failed',
     'STIR;cause=438;text="Invalid Identity Header"'),
    # Neither of the next two calls shows that 42AB signed it: the certificates weren't read, and the signature is another's.
    (6, 1443211948, 'six', '', '', '12155551212', '12125551213', 'B', ORIGID, X5U, '', '42AB', 'unread', None, '', 10, '1.0', 'No-TN-Validation', ''),
    (7, 1443211949, 'seven', '', '', '12155551212', '12125551213', 'B', ORIGID, X5U, '', '42AB', 'refused', 438, 'Invalid Identity Header', 16, '1.0',
     'TN-Validation-Failed', 'STIR;cause=438;text="Invalid Identity Header"'),
    (8, 1443211950, 'eight', '', '', '12155551212', '12125551213', 'B', ORIGID, X5U, '42AB', '', 'refused', 437, 'Unsupported Credential', 17, '1.0',
     'TN-Validation-Failed', 'STIR;cause=437;text="Unsupported Credential"'),
]
TEXT = f'''1 valid - - -
    2015-09-25 19:12:25 UTC, Call-ID one
    12155551212 calls 12125551213, attestation B, origid {ORIGID}
    signed by 42AB, {X5U}
    verstat=TN-Validation-Passed
2 refused 437 12 1.2
    2015-09-25 19:12:26 UTC, Call-ID two
    442071838750 calls 911, attestation B, origid {ORIGID}
    names the certificate at {OTHER}
    Unsupported Credential: the certificates lead to no trust anchor
    verstat=TN-Validation-Failed, Reason: STIR;cause=437;text="Unsupported Credential"
3 replay 438 18 1
    2015-09-25 20:12:25 UTC, Call-ID =three?[2J
    12155551212 calls 12125551213
    signed by 42AB, {X5U}
    Invalid Identity Header: the PASSporT passed before, with call 1
    verstat=TN-Validation-Failed, Reason: STIR;cause=438;text="Invalid Identity Header"
4 refused 400 1 0.7
    2015-09-25 20:12:26 UTC, Call-ID none
    somebody calls somebody
    names no certificate
    Bad Request: the message can't be read, or is no INVITE
    verstat=No-TN-Validation
5 refused 438 6 1.2
    2015-09-25 20:12:27 UTC, Call-ID five
    {PEOPLE[0]} calls {PEOPLE[1]}
    names no certificate
    Invalid Identity Header: the PASSporT can't be read
    verstat=TN-Validation-Failed, Reason: STIR;cause=438;text="Invalid Identity Header"
6 unread - 10 1.0
    2015-09-25 20:12:28 UTC, Call-ID six
    12155551212 calls 12125551213, attestation B, origid {ORIGID}
    names the certificate of 42AB, {X5U}
    the file of the certificates couldn't be read
    verstat=No-TN-Validation
7 refused 438 16 1.0
    2015-09-25 20:12:29 UTC, Call-ID seven
    12155551212 calls 12125551213, attestation B, origid {ORIGID}
    names the certificate of 42AB, {X5U}
    Invalid Identity Header: the PASSporT's signature isn't good
    verstat=TN-Validation-Failed, Reason: STIR;cause=438;text="Invalid Identity Header"
8 refused 437 17 1.0
    2015-09-25 20:12:30 UTC, Call-ID eight
    12155551212 calls 12125551213, attestation B, origid {ORIGID}
    signed by 42AB, {X5U}
    Unsupported Credential: the certificate doesn't cover the number
    verstat=TN-Validation-Failed, Reason: STIR;cause=437;text="Unsupported Credential"
'''
SUMMARY = f'''Calls of log, 2015-09-25

calls 8                                                             valid  refused   replay   unread
all                                                                     1        5        1        1

by rule
  1 the message can't be read                                           0        1        0        0
  6 the PASSporT can't be read                                          0        1        0        0
  10 the file of the certificates couldn't be read                      0        0        0        1
  12 the certificates lead to no trust anchor                           0        1        0        0
  16 the PASSporT's signature isn't good                                0        1        0        0
  17 the certificate doesn't cover the number                           0        1        0        0
  18 the PASSporT passed before                                         0        0        1        0

by signer
  42AB                                                                  1        1        1        0

by named certificate, not shown to have signed
  42AB                                                                  0        1        0        1
  none                                                                  0        2        0        0
  {OTHER}                                        0        1        0        0

by hour (UTC)
  2015-09-25 19:00                                                      1        1        0        0
  2015-09-25 20:00                                                      0        4        1        1
'''

# Reports of the same log, or of a part of it, that are whole: with the status.
WHOLE = {'': 0, REPORT: 0, REPORT + STATE: 0, '1 valid - - -\n': 1, report(41) + STATE: 0, '8 refused 438 6 1.20\n': 1}

# Reports that aren't whole, and what is said of them.
NOT_WHOLE = {
    'missing nosuch.der\n': 'input:1: no line of a report: missing nosuch.der',
    'refused anchors.der 454\n': 'input:1: no line of a report: refused anchors.der 454',
    'words refused\n': 'input:1: no line of a report: words refused',
    REPORT + 'refused input 5\n': 'input:9: no line of a report: refused input 5',
    '1 valid - - -\nread fault input\n': 'input:2: no line of a report: read fault input',
    '1 valid - - -\nwant of memory\n2 valid - - -\n': 'input:2: no line of a report: want of memory',
    REPORT[:20]: 'input:2: no line of a report: 2 refu',
    '\x1b[2J\n': 'input:1: no line of a report: ?[2J',
    '1 refused 438 6 1.20\r\n': 'input:1: no line of a report: 1 refused 438 6 1.20?',
    '1 valid - - -': 'input:1: no line of a report: 1 valid - - -',
    '01 valid - - -\n': 'input:1: no line of a report: 01 valid - - -',
    '; no call\n': 'input:1: no line of a report: ; no call',
    REPORT + STATE + 'refused input 5\n': 'input:16: no line of a report: refused input 5',
    REPORT + STATE + '9 valid - - -\n': 'input:16: no line of a report: 9 valid - - -',
    REPORT + STATE + STATE: 'input:16: no line of a report: past 1',
    REPORT + STATE.replace('kept', 'keep'): 'input:13: no line of a report: keep ' + '0a' * 32 + ' 41 1443212005',
    REPORT + STATE[:-6]: 'input: the state after the report is cut short',
}


class Run:
    def __init__(self, run, room):
        self.run, self.room = run, room
        log = b''.join(b'@%d %d\n%s' % (moment, len(data), data) for moment, data in MESSAGES)
        for name, data in {'log': log, 'none': b'', 'report': REPORT.encode(), 'chains': f'{X5U} chain.der\n{OTHER} missing.der\n'.encode(),
                           'chain.der': (HERE / 'files/carrier-chain.der').read_bytes()}.items():
            (room / name).write_bytes(data)

    def __call__(self, *words, given=b''):
        status, output, said = self.run('report', *words, given=given, folder=self.room)
        return status, output, said.decode()


def rows_of(output):
    return [json.loads(line) for line in output.splitlines()]


def forms(run):
    """The report in each form, and in all at once."""
    status, output, said = run('--chains', 'chains', '--json=-', 'log', 'report')
    yield 'report --json', (0, [dict(zip(COLUMNS, row)) for row in ROWS], ''), (status, rows_of(output), said)
    status, output, said = run('--chains', 'chains', '--csv=-', 'log', given=REPORT.encode())
    rows = [dict(zip(COLUMNS, ('' if it is None else str(it) for it in row))) for row in ROWS]
    yield 'report --csv', (0, rows, ''), (status, list(csv.DictReader(io.StringIO(output.decode(), newline=''))), said)
    yield 'report', (0, TEXT.encode(), ''), run('--chains', 'chains', 'log', 'report')
    yield 'report --summary', (0, SUMMARY.encode(), ''), run('--chains', 'chains', '--summary=-', '--svg', 'day.svg', 'log', 'report')
    picture = xml.etree.ElementTree.parse(run.room / 'day.svg').getroot()
    texts = [''.join(text.itertext()).strip() for text in picture.iter(f'{SVG}text')]
    yield 'report --svg', (f'{SVG}svg', True), (picture.tag, any('8 calls: 1 valid, 5 refused, 1 replay, 1 unread' in text for text in texts))


def back(run):
    """Each report, read back from its JSON."""
    for report, status in WHOLE.items():
        got, output, _ = run('--json=-', 'log' if report else 'none', given=report.encode())
        (run.room / 'json').write_bytes(output)
        wanted = report.encode().replace(STATE.encode(), b'')
        yield f'report --back {report[:40]!r}', (status, (0, wanted, '')), (got, run('--back', 'json'))


def later(run):
    """A report of the same log that goes on from a run before: its calls are numbered from 41 on, and its state stands after it."""
    whole = report(41) + STATE
    status, output, said = run('--chains', 'chains', '--json=-', 'log', given=whole.encode())
    rows = [dict(zip(COLUMNS, row)) for row in ROWS]
    wanted = [row | {'call': row['call'] + 40, 'place': '41' if row['rule'] == 18 else row['place']} for row in rows]
    yield 'report --json, a later report', (0, wanted, ''), (status, rows_of(output), said)
    status, output, said = run('--csv=-', 'log', given=whole.encode())
    yield 'report --csv, a later report', (0, 1 + len(ROWS), ''), (status, len(output.splitlines()), said)
    yield 'report --summary, a later report', (0, SUMMARY.encode(), ''), run('--chains', 'chains', '--summary=-', 'log', given=whole.encode())
    yield 'report, a state alone', (0, b'', ''), run('none', given=STATE.encode())
    yield 'report, a short later report', (1, 'stirctl: the report ends with call 41, and the log has more\n'), run(
        'log', given=b'41 valid - - -\n' + STATE.encode())[::2]


def not_whole(run):
    """Reports that aren't whole, in each form: the status is 5, standard error has the one line, and no file is made."""
    for given, said in NOT_WHOLE.items():
        for form in ([], ['--json=-'], ['--csv=-'], ['--summary=-'], ['--json=made', '--svg=made.svg']):
            status, _, error = run(*form, 'log', given=given.encode())
            yield f'report {form}, {said}', (5, f'stirctl: {said}\n', False), (status, error, (run.room / 'made').exists())
    yield 'report --summary, nothing to count', b'', run('--summary=-', 'log', given=b'missing x\n')[1]


def faults(run):
    others = {('log', 'long'): '', ('--json=-', 'log'): '1 valid - - -\n3 valid - - -\n', ('--csv=-', 'log'): '2 valid - - -\n2 valid - - -\n'}
    (run.room / 'long').write_text(REPORT + '9 valid - - -\n')
    for words, given in others.items():
        status, _, said = run(*words, given=given.encode())
        yield f'report {words}', (5, True), (status, 'it isn\'t the report of this log' in said)
    yield 'report, one whose first calls are missing', (1, 'stirctl: the report ends with call 2, and the log has more\n'), run(
        'log', given=b'2 valid - - -\n')[::2]
    yield 'report, a short one', (1, 'stirctl: the report ends with call 1, and the log has more\n'), run('log', given=b'1 valid - - -\n')[::2]
    (run.room / 'text').write_text('1 valid - - -\n')
    yield 'report --back, no JSON', (5, b'', 'stirctl: refused text 1\n'), run('--back', 'text')


def results(run):
    """Each case: its name, what is wanted, and what came."""
    with tempfile.TemporaryDirectory() as folder:
        run = Run(run, pathlib.Path(folder))
        for cases in (forms, back, later, not_whole, faults):
            yield from cases(run)
