"""Runs `stirctl fetch` against a hostile https server: what it takes, what it refuses, what it keeps and when it asks again; and `stirctl judge` and
`explain` where they fetch what their calls need."""
import fcntl
import json
import os
import re
import subprocess
import sys
import time

import fetching
import issued
import pytest
from fetching import SECONDS, TESTS, TRUSTED
from terminals import on_terminal

sys.path.append(str(TESTS / 'service'))

# What the server sends; and the certificates that the file of its chain must have.
TAKEN = {'file.carrier': ['carrier'], 'file.carrier.der': ['carrier'], 'both': ['carrier', 'middle'], 'file.message.PEM': ['carrier', 'middle'],
         'file.message.DER': ['carrier', 'middle'], 'fits': ['carrier'], 'same': ['carrier']}

# What the server sends that isn't taken, and why.
LATE, CUT, NONE = 'there was no whole answer in time', 'it gives no whole answer of HTTP', 'it has no certificates in PEM, DER or PKCS #7'
REFUSED = {'long': 'its answer is too long', 'endless': 'its answer is too long', 'cut': CUT, 'packed': CUT, 'html': NONE, 'empty': NONE,
           'file.carrier.key': NONE, 'gone': 'the server\'s answer is 404', 'garbage': 'certificate 1 can\'t be read',
           'loop': 'it redirects more than 3 times', 'other': 'it redirects to another host', 'plain': 'it redirects to another host'}
NEVER_ENDING = 'drip', 'fields', 'silent'

# Where nothing is asked, or another server answers.
NO_URI, UNLISTED = 'it is no https URI that may be fetched', 'its host isn\'t listed'
ELSEWHERE = {'http://localhost:$PORT/file.carrier': NO_URI, 'https://a@localhost:$PORT/x': NO_URI, 'https://localhost:0x/x': NO_URI, 'u': NO_URI,
             'https://localhost/x': UNLISTED, 'https://cert.example.org/x': UNLISTED, 'https://evil.example:$PORT/x': UNLISTED,
             'https://x.invalid/x': 'its host isn\'t found'}

# Addresses that aren't of the public internet (RFC 6890 and its registries), as a URI has them.
PRIVATE = ('10.0.0.1 127.0.0.1 169.254.169.254 172.16.0.1 192.168.1.1 100.64.0.1 0.0.0.0 255.255.255.255 224.0.0.1 192.0.2.1 [::1] [::] [fe80::1] '
           '[fc00::1] [ff02::1] [2001:db8::1] [::ffff:10.0.0.1] [2002:a00:1::1] [64:ff9b::a00:1]').split()

DAY = '%Y-%m-%d'


def today(after=0):
    return time.strftime(DAY, time.gmtime(time.time() + after))


@pytest.fixture(scope='module')
def ctl(request):
    return request.config.getoption('ctl').resolve()


@pytest.fixture
def fetch(ctl, tmp_path):
    with fetching.served(tmp_path) as server:
        yield fetching.Fetches(ctl, tmp_path, server)


def test_what_is_fetched_is_written_leaf_first_and_told(fetch):
    status, chain_map, said = fetch([fetch.at(path) for path in TAKEN], *TRUSTED)
    assert (status, list(chain_map)) == (0, [fetch.at(path) for path in TAKEN])
    wanted = {path: b''.join(issued.files()[f'{name}.der'] for name in names) for path, names in TAKEN.items()}
    assert {path: (fetch.room / chain_map[fetch.at(path)]).read_bytes() for path in TAKEN} == wanted
    ends = issued.files()['ends']
    assert said == sorted(f'stirctl: {fetch.at(path)}: fetched; the first certificate to end does so on {ends}' for path in TAKEN)


def test_what_is_hostile_is_refused(fetch):
    wanted = {fetch.at(path): why for path, why in REFUSED.items()} | ELSEWHERE
    wanted = {x5u.replace('$PORT', str(fetch.server.server_port)): why for x5u, why in wanted.items()}
    status, chain_map, said = fetch(wanted, *TRUSTED, '--jobs=30', '--seconds=60')
    assert (status, chain_map) == (1, {})
    assert said == sorted(f'stirctl: {x5u}: {why}; there is no file of it' for x5u, why in wanted.items())


def test_a_fetch_ends_in_its_time_whatever_the_server_does(fetch):
    began = time.monotonic()
    status, chain_map, said = fetch(map(fetch.at, NEVER_ENDING), *TRUSTED, f'--seconds={SECONDS}')
    assert (status, chain_map, said) == (1, {}, sorted(f'stirctl: {fetch.at(path)}: {LATE}; there is no file of it' for path in NEVER_ENDING))
    assert time.monotonic() - began < 30


def test_a_chain_that_no_judge_takes_is_fetched_as_any_other(fetch):
    x5u = fetch.at('seven')
    status, chain_map, said = fetch([x5u], *TRUSTED)
    assert (status, (fetch.room / chain_map[x5u]).read_bytes()) == (1, issued.files()['carrier.der'] * 7)
    assert len(said) == 8, said


def test_no_private_address_is_asked_without_the_word(fetch):
    x5us = [f'https://{host}/x' for host in PRIVATE]
    (fetch.room / 'hosts').write_text('\n'.join(['localhost:%d' % fetch.server.server_port, *PRIVATE]))
    status, chain_map, said = fetch([fetch.at('kept'), *x5us], '--authorities=authorities', '--to=unsafe')
    assert (status, chain_map) == (1, {})
    told = sorted(re.fullmatch(r'stirctl: (.*): its host has the private address (\S+); there is no file of it', line).groups() for line in said)
    assert [x5u for x5u, _ in told] == sorted([fetch.at('kept'), *x5us])
    assert fetch.server.asked == {}


@pytest.mark.parametrize('x5u, words, why', [
    ('https://localhost:$PORT/kept', ['--private'], 'self-signed certificate'),
    ('https://127.0.0.2:$PORT/kept', TRUSTED, 'IP address mismatch')])
def test_a_server_whose_certificate_is_not_good_is_told_nothing(x5u, words, why, fetch):
    x5u = x5u.replace('$PORT', str(fetch.server.server_port))
    status, chain_map, said = fetch([x5u], *words)
    assert (status, chain_map, len(said)) == (1, {}, 1)
    assert said[0].startswith(f'stirctl: {x5u}: no TLS: ') and why in said[0].replace('self signed', 'self-signed')
    assert fetch.server.asked == {}


def test_what_is_due_is_asked_again_and_what_fails_stays(fetch):
    kept, flaky, plain = fetch.at('kept'), fetch.at('flaky'), fetch.at('file.carrier')
    first = fetch([kept, flaky, plain], *TRUSTED, '--to=again')
    asked = dict(fetch.server.asked)
    assert (first[0], asked) == (0, {'/kept': 1, '/flaky': 1, '/file.carrier': 1})
    state = fetch.room / 'again/fetched.json'
    known = json.loads(state.read_text())
    # By the server's word, from five minutes to a day (RFC 9111, section 5.2.2).
    assert [known[x5u]['due'] - known[x5u]['fetched'] for x5u in (kept, flaky, plain)] == [3600, 300, 86_400]
    # Nothing is due; of what ends within two weeks it is told.
    second = fetch([kept, flaky], *TRUSTED, '--to=again')
    assert second == (0, {x5u: first[1][x5u] for x5u in (kept, flaky)}, [f'stirctl: {flaky}: a certificate ends on {today(3 * 86_400)}'])
    assert dict(fetch.server.asked) == asked
    for x5u in (kept, flaky):
        known[x5u]['due'] = int(time.time()) - 1
    state.write_text(json.dumps(known))
    third = fetch([kept, flaky], *TRUSTED, '--to=again')
    ends = issued.files()['ends']
    assert third == (1, second[1], sorted([f'stirctl: {kept}: fetched; the first certificate to end does so on {ends}',
                                           f'stirctl: {flaky}: the server\'s answer is 503; the file of {today()} stays']))
    assert (fetch.room / first[1][flaky]).read_bytes() == issued.files()['soon.der']
    assert dict(fetch.server.asked) == {'/kept': 2, '/flaky': 2, '/file.carrier': 1}
    assert fetch([kept], *TRUSTED, '--to=again', '--all')[0] == 0 and fetch.server.asked['/kept'] == 3


def test_the_issuer_that_is_missing_is_named(fetch):
    x5us = [fetch.at('file.carrier'), fetch.at('both')]
    for form in ('root', 'root.der'):
        (fetch.room / 'root').write_bytes(issued.files()[form])
        status, chain_map, said = fetch(x5us, *TRUSTED, '--under=root', '--all')
        why = 'the certificate of CN=middle,O=Example, which issued certificate 1, isn\'t in this file or among the anchors'
        assert (status, list(chain_map), [line for line in said if 'issued' in line]) == (1, x5us, [f'stirctl: {x5us[0]}: {why}'])
    assert fetch(x5us[1:], *TRUSTED, '--under=root', '--all')[0] == 0


def test_what_a_killed_run_left_is_taken_away_and_nothing_else(fetch):
    kept = fetch.at('kept')
    fetch([kept], *TRUSTED)
    folder = fetch.room / 'chains'
    before = sorted(path.name for path in folder.iterdir())
    for name in ('a.example-0123456789abcdef.der.new', 'fetched.json.new'):
        (folder / name).write_bytes(b'0\x82')
    (folder / 'notes.new').write_bytes(b'')
    status, _, said = fetch([kept], *TRUSTED)
    assert (status, said, sorted(path.name for path in folder.iterdir())) == (0, [], sorted([*before, 'notes.new']))


def test_a_run_that_is_killed_loses_nothing_that_it_had_told(fetch):
    kept, silent = fetch.at('kept'), fetch.at('silent')
    words = [fetch.ctl, 'fetch', '--hosts=hosts', '--seconds=60', *TRUSTED, '--jobs=1']
    running = subprocess.Popen(words, cwd=fetch.room, stdin=subprocess.PIPE, stdout=subprocess.PIPE, stderr=subprocess.PIPE)
    running.stdin.write(f'{kept}\n{silent}\n'.encode())
    running.stdin.close()
    line = running.stderr.readline().decode()
    running.kill()
    running.wait()
    assert line.startswith(f'stirctl: {kept}: fetched'), line
    fetch.server.asked.clear()
    status, chain_map, said = fetch([kept], *TRUSTED)
    assert (status, said, fetch.server.asked) == (0, [], {}) and (fetch.room / chain_map[kept]).read_bytes() == issued.files()['carrier.der']


@pytest.mark.parametrize('seconds, status', [(1, 0), (30, 4)])
def test_another_program_that_writes_is_waited_for_and_not_for_ever(seconds, status, fetch):
    kept = fetch.at('kept')
    wanted = fetch([kept], *TRUSTED)
    with open(fetch.room / 'chains/.lock', 'wb') as held:
        fcntl.flock(held, fcntl.LOCK_EX)
        running = subprocess.Popen(fetch.words(*TRUSTED, '--all'), cwd=fetch.room, stdin=subprocess.PIPE, stdout=subprocess.PIPE,
                                   stderr=subprocess.PIPE)
        running.stdin.write(f'{kept}\n'.encode())
        running.stdin.close()
        with_lock = time.monotonic()
        while running.poll() is None and time.monotonic() - with_lock < seconds:
            time.sleep(0.05)
        fcntl.flock(held, fcntl.LOCK_UN)
        output, said = running.stdout.read().decode(), running.stderr.read().decode()
        assert running.wait(60) == status, said
    if status:
        assert (output, said) == ('', 'stirctl: chains: another program writes there\n')
    else:
        assert output == f'{kept} {wanted[1][kept]}\n' and said.count('fetched') == 1


def test_words_and_lines_that_are_not_taken_are_told(fetch):
    def run(*words, given=b''):
        done = subprocess.run([fetch.ctl, 'fetch', *words], input=given, stdout=subprocess.PIPE, stderr=subprocess.PIPE, cwd=fetch.room, timeout=120)
        return done.returncode, done.stdout, done.stderr.decode()
    (fetch.room / 'bad').write_text('; ours\ncert.example.org\nhttps://cert.example.org\n')
    (fetch.room / 'text').write_text('<a>\n')
    many = ''.join(f'https://unlisted.example/{number}\n' for number in range(50_001)).encode()
    for words, given, wanted in ((['--hosts=bad'], b'', (5, b'', 'stirctl: refused bad 3\n')),
                                 (['--hosts=none'], b'', (5, b'', 'stirctl: missing none\n')),
                                 (['--hosts=hosts'], b'; ours\n\nhttps://a b\n', (5, b'', 'stirctl: refused input 3\n')),
                                 (['--hosts=hosts', 'text'], b'', (5, b'', 'stirctl: refused text 1\n')),
                                 (['--hosts=hosts', '--authorities=text'], b'',
                                  (5, b'', 'stirctl: text: the authorities are no certificates in PEM\n')),
                                 (['--hosts=hosts', '--under=text'], b'', (5, b'', f'stirctl: text: {NONE}\n')),
                                 (['--hosts=hosts', '--to=a b'], b'', (2, b'', 'stirctl: a b: a chain map takes no such name of a folder\n')),
                                 (['--hosts=hosts', '--to=' + 'n' * 121], b'',
                                  (2, b'', f'stirctl: {"n" * 121}: a chain map takes no such name of a folder\n')),
                                 (['--hosts=hosts', '--to=hosts'], b'', (4, b'', 'stirctl: hosts: File exists (os error 17)\n')),
                                 (['--hosts=hosts'], many, (2, b'', 'stirctl: 50001 x5us, and a chain map has at most 50000\n')),
                                 (['--hosts=hosts'], b'', (0, b'', ''))):
        assert run(*words, given=given) == wanted, words
    assert run()[:2] == (2, b'')
    for word in ('--seconds=0', '--seconds=3601', '--jobs=0', '--jobs=257'):
        assert run('--hosts=hosts', word)[:2] == (2, b''), word


def test_a_terminal_sees_how_far_it_is_and_whole_lines(fetch):
    status, said = on_terminal(fetch.words(), b'u\n', fetch.room, os.environ | {'TERM': 'xterm'})
    assert status == 1
    lines = re.sub(r'\x1b\[[0-9;?]*[A-Za-z]', '\r', said).replace('\n', '\r').split('\r')
    assert f'stirctl: u: {NO_URI}; there is no file of it' in lines, said
    assert any(re.match(r'\[.{30}\] \d+%', line) for line in lines), said


# What `judge` and `explain` are told of the server.
BY_FETCH = ['--fetch-hosts=hosts', '--fetch-authorities=authorities', '--fetch-private=yes']
UNLISTED_SAID = 'stirctl: https://certificates.example.org/none.pem: its host isn\'t listed; its calls break rule 10\n'


class Judged:
    """A world whose certificates the server has, and runs of `stirctl` that judge its calls."""

    def __init__(self, ctl, room, server, chains=6):
        world = pytest.importorskip('world', reason='missing: the Python package cryptography')
        self.ctl, self.room, self.server = ctl, room, server

        class Served(world.World):
            def x5u(self, n):
                return f'https://localhost:{server.server_port}/chain.{n}'
        self.world, self.start = Served(server.chains, chains), world.START

    def at(self, path):
        return f'https://localhost:{self.server.server_port}/{path}'

    def call(self, number, x5u, kind='good'):
        """A call whose PASSporT names this x5u."""
        moment = self.start + number
        orig = self.world.number(0, number % 10000)
        field = self.world.identity(0, orig, '13105550100', moment - 61 * (kind == 'old'), number, x5u=x5u)
        return moment, self.world.invite(orig, '13105550100', number, field)

    def run(self, command, calls, *words, chains=False, **settings):
        """The status, the output, and what is said."""
        by = ['--anchors=world/anchors.der', '--table=world/table.txt', *(['--chains=world/chains.txt'] if chains else BY_FETCH)]
        done = subprocess.run([self.ctl, command, *by, *words, '-'], input=self.world.log(calls), stdout=subprocess.PIPE, stderr=subprocess.PIPE,
                              cwd=self.room, timeout=300, env=os.environ | settings)
        return done.returncode, done.stdout, done.stderr.decode()


@pytest.fixture
def judged(ctl, tmp_path):
    with fetching.served(tmp_path) as server:
        yield Judged(ctl, tmp_path, server)


def test_a_log_is_judged_by_what_is_fetched_as_by_a_chain_map(judged, program):
    calls = list(judged.world.calls(2400))
    last = calls[-1][0]
    caller, *hops = (judged.world.number(n, 1) for n in range(3))
    calls += [(last, judged.world.diverted(caller, [*hops, '13105550100'], last, 1)[0])]
    by_map = judged.run('judge', calls, chains=True)
    assert by_map[0] == 1 and by_map[2] == '' and by_map[1].count(b' valid ') > 1500
    checked = ['--checked-by', str(program)] if program.exists() else []
    fetched = judged.run('judge', calls, '--fetch=kept', '--chains-out=map.txt', '--report=-', '--jobs=3', *checked)
    assert fetched == (*by_map[:2], UNLISTED_SAID)
    once = {f'/chain.{n}': 1 for n in range(6)}
    assert judged.server.asked == once, 'each is asked for once'
    # What was fetched is named, and serves years later.
    lines = [line.split() for line in (judged.room / 'map.txt').read_text().splitlines()]
    assert [x5u for x5u, _ in lines] == sorted(judged.world.x5u(n) for n in range(6))
    named = ['--anchors=world/anchors.der', '--table=world/table.txt', '--chains=map.txt']
    for program_and_words in ([judged.ctl, 'judge', *named, '-'], [judged.ctl, 'judge', *named, '--fetch-hosts=hosts', '-']):
        done = subprocess.run(program_and_words, input=judged.world.log(calls), stdout=subprocess.PIPE, stderr=subprocess.PIPE, cwd=judged.room)
        assert done.stdout == by_map[1]
    assert judged.run('judge', calls, '--fetch=kept')[:2] == by_map[:2]
    assert judged.server.asked == once, 'what is in the folder and not due is not asked for'


def test_calls_are_explained_by_what_is_fetched(judged):
    calls = list(judged.world.calls(40))
    status, lines, said = judged.run('explain', calls, '--call=3')
    assert len(judged.server.asked) == 1 and said == ''
    assert [line.split()[0] for line in lines.splitlines()] == [b'3'] * len(lines.splitlines())
    judged.server.asked.clear()
    by_map = judged.run('explain', calls, chains=True)
    assert judged.run('explain', calls, '--fetch=kept')[:2] == by_map[:2] and status in (0, 1)
    assert set(judged.server.asked.values()) == {1}


def test_a_call_that_breaks_one_of_the_first_nine_rules_has_nothing_fetched(judged):
    calls = [judged.call(1, judged.at('chain.0'), 'old'), (judged.start + 1, judged.world.call(0, judged.start + 1, 2, 'unsigned')),
             (judged.start + 2, b'no INVITE')]
    status, report, said = judged.run('judge', calls, '--fetch=kept')
    assert (status, report, said) == (1, b'1 refused 403 9 1.0\n2 refused 428 2 0.0\n3 refused 400 1 0.9\n', '')
    assert judged.server.asked == {}


def test_the_chain_map_wins_and_is_not_asked_for(judged):
    (judged.room / 'own.txt').write_text(f'{judged.at("chain.0")} world/chain-1.der\n{judged.at("chain.1")} world/none.der\n')
    calls = [judged.call(number, judged.at(f'chain.{number - 1}')) for number in (1, 2, 3)]
    status, report, said = judged.run('judge', calls, '--chains=own.txt', '--fetch=kept', '--chains-out=map.txt')
    assert (status, said) == (1, '')
    assert [line.split()[:4] for line in report.splitlines()] == [[b'1', b'refused', b'438', b'16'], [b'2', b'refused', b'436', b'10'],
                                                                  [b'3', b'refused', b'438', b'16']]
    assert judged.server.asked == {'/chain.2': 1}
    assert [line.split()[0] for line in (judged.room / 'map.txt').read_text().splitlines()] == [judged.at(f'chain.{n}') for n in range(3)]


def test_what_fails_is_asked_for_and_named_once(judged):
    gone, late = (judged.call(1, judged.at(path)) for path in ('gone', 'html'))
    calls = [gone] * 2100 + [late] * 10 + [gone]
    status, report, said = judged.run('judge', calls, '--fetch=kept')
    assert (status, report.count(b'refused 436 10 1.0'), len(calls)) == (1, 2111, 2111)
    assert sorted(said.splitlines()) == [f'stirctl: {judged.at("gone")}: the server\'s answer is 404; its calls break rule 10',
                                         f'stirctl: {judged.at("html")}: {NONE}; its calls break rule 10']
    assert judged.server.asked == {'/gone': 1, '/html': 1}


def test_what_fails_later_is_judged_by_the_file_that_stays(judged):
    """The first answer is good, and later ones aren't."""
    calls = [judged.call(1, judged.at('flaky'))]
    first = judged.run('judge', calls, '--fetch=kept')
    state = judged.room / 'kept/fetched.json'
    known = json.loads(state.read_text())
    known[judged.at('flaky')]['due'] = 1
    state.write_text(json.dumps(known))
    again = judged.run('judge', calls, '--fetch=kept')
    assert again[:2] == first[:2] and b' 436 ' not in first[1]
    assert again[2] == f'stirctl: {judged.at("flaky")}: the server\'s answer is 503; the file of {today()} stays\n'


def test_without_a_folder_what_was_fetched_goes_with_the_run(judged):
    (judged.room / 'temporary').mkdir()
    calls = [judged.call(1, judged.at('chain.0'))]
    assert judged.run('judge', calls, TMPDIR=str(judged.room / 'temporary')) == (0, b'1 valid - - -\n', '')
    assert list((judged.room / 'temporary').iterdir()) == []


def test_no_more_is_fetched_than_a_chain_map_has_lines(judged):
    (judged.room / 'full.txt').write_text(''.join(f'https://other.example/{n} none\n' for n in range(49_999)))
    calls = [judged.call(number, judged.at(f'chain.{n}')) for number, n in ((1, 0), (2, 1), (3, 2), (4, 0))]
    status, report, said = judged.run('judge', calls, '--chains=full.txt', '--fetch=kept', '--chains-out=map.txt')
    assert (status, [line.split()[1:4] for line in report.splitlines()]) == (1, [[b'valid', b'-', b'-'], [b'refused', b'436', b'10'],
                                                                               [b'refused', b'436', b'10'], [b'valid', b'-', b'-']])
    assert said == 'stirctl: a chain map has no room for more x5us; those after them break rule 10\n'
    assert judged.server.asked == {'/chain.0': 1} and len((judged.room / 'map.txt').read_text().splitlines()) == 50_000


def test_a_thousand_x5us_of_other_hosts_are_named_and_no_more(judged):
    calls = [judged.call(number, f'https://other.example/{number}') for number in range(1, 1004)]
    status, report, said = judged.run('judge', calls, '--fetch=kept')
    assert (status, report.count(b' 436 10 ')) == (1, 1003)
    named = [f'stirctl: https://other.example/{number}: {UNLISTED}; its calls break rule 10' for number in range(1, 1001)]
    assert said.splitlines() == [*named, 'stirctl: more x5us can\'t be fetched, and aren\'t named; their calls break rule 10']


def test_words_that_do_not_go_together_are_refused(judged):
    (judged.room / 'bad').write_text('https://cert.example.org\n')
    calls = [judged.call(1, judged.at('chain.0'))]

    def run(*words):
        by = ['--anchors=world/anchors.der', '--table=world/table.txt']
        done = subprocess.run([judged.ctl, 'judge', *by, *words, '-'], input=judged.world.log(calls), stdout=subprocess.PIPE, stderr=subprocess.PIPE,
                              cwd=judged.room, timeout=120)
        return done.returncode, done.stdout.decode(), done.stderr.decode()
    for words in ([], ['--chains=world/chains.txt', '--fetch=kept'], ['--chains=world/chains.txt', '--fetch-private=yes'],
                  ['--chains=world/chains.txt', '--fetch-authorities=authorities'], ['--fetch-hosts=hosts', '--fetch-private=perhaps'],
                  ['--fetch-hosts=hosts', '--chains-out=map.txt'], ['--fetch-hosts=hosts', '--fetch=a b'],
                  ['--fetch-hosts=hosts', '--fetch=kept', '--report=map', '--chains-out=map']):
        assert run(*words)[:2] == (2, ''), words
    assert run('--fetch-hosts=bad') == (5, 'refused bad 1\n', '')
    assert run('--fetch-hosts=hosts', '--fetch=hosts') == (4, '', 'stirctl: hosts: File exists (os error 17)\n')
    assert judged.server.asked == {}


def star(codes):
    return ''.join(f'{code} *\n' for code in codes)


@pytest.fixture
def trusted(judged):
    """A world without a table, beside one chain under no anchor and one that is forged, each with a code of its own; and calls by all of them."""
    import world
    made, folder = judged.world, judged.server.chains
    made.keys += [world.key('leaf 6'), world.key('leaf 7')]
    stranger = made.certificate('leaf 6', 'stranger', world.code_list('0006')) + made.certificate('stranger', 'stranger', None, True)
    middle = made.certificate('middle', 'root', None, True)
    forged = bytearray(made.certificate('leaf 7', 'middle', world.code_list('0007')))
    forged[-1] ^= 1
    (folder / 'chain-6.der').write_bytes(stranger)
    (folder / 'chain-7.der').write_bytes(bytes(forged) + middle)
    calls = list(made.calls(300))
    last = calls[-1][0]
    judged.calls = [*calls, *((last, made.call(n, last, 400 + n)) for n in (6, 7))]
    return judged


def run_by(judged, command, *words):
    """The same without a word on the table or the chains; the log is a file, since it is read twice."""
    (judged.room / 'calls.log').write_bytes(judged.world.log(judged.calls))
    done = subprocess.run([judged.ctl, command, '--anchors=world/anchors.der', *words, 'calls.log'], stdout=subprocess.PIPE, stderr=subprocess.PIPE,
                          cwd=judged.room, timeout=300)
    return done.returncode, done.stdout, done.stderr.decode()


def test_with_anchors_and_hosts_alone_the_codes_of_chains_that_lead_to_an_anchor_are_trusted(trusted, program):
    checked = ['--checked-by', str(program)] if program.exists() else []
    written = ['--chains-out=map.txt', '--table-out=table.txt', '--report=-']
    status, report, said = run_by(trusted, 'judge', *BY_FETCH, '--fetch=kept', *written, *checked)
    assert (status, said) == (1, UNLISTED_SAID)
    # The codes of the six chains under the root, and of no other one.
    assert (trusted.room / 'table.txt').read_text() == star(f'{n:04d}' for n in range(6))
    named = ['--chains=map.txt', '--table=table.txt']
    assert run_by(trusted, 'judge', *named) == (1, report, '')
    assert report.count(b' valid ') > 200 and b' 437 17 ' not in report
    assert [line.split()[1:4] for line in report.splitlines()[-2:]] == [[b'refused', b'437', b'12'], [b'refused', b'437', b'15']]
    explained = run_by(trusted, 'explain', '--chains=map.txt', '--codes=trusted')
    assert explained == run_by(trusted, 'explain', *named)
    assert set(trusted.server.asked.values()) == {1}
    # By an empty table nobody's code stands for a number.
    refused = run_by(trusted, 'judge', '--chains=map.txt', '--codes=listed')[1]
    assert refused.count(b' 437 17 ') > 200 and b' valid ' not in refused


def test_codes_of_the_table_keep_their_numbers(trusted):
    (trusted.room / 'own.txt').write_text('; ours\n0000 12000000000 10000')
    words = ['--chains=map.txt', '--table=own.txt']
    run_by(trusted, 'judge', *BY_FETCH, '--fetch=kept', '--chains-out=map.txt', '--report=-')
    status, report, said = run_by(trusted, 'judge', *words, '--codes=trusted', '--table-out=table.txt', '--report=-')
    table = '; ours\n0000 12000000000 10000\n' + star(f'{n:04d}' for n in range(1, 6))
    assert (status, said, (trusted.room / 'table.txt').read_text()) == (1, '', table)
    assert run_by(trusted, 'judge', '--chains=map.txt', '--table=table.txt') == (1, report, '')
    assert b' 437 17 ' in report and report.count(b' valid ') > 200
    # With a table nothing is trusted without the word.
    assert run_by(trusted, 'judge', *words, '--table-out=table.txt', '--report=-')[1] != report
    assert (trusted.room / 'table.txt').read_text() == '; ours\n0000 12000000000 10000'


def test_a_table_has_room_for_so_many_codes(trusted):
    (trusted.room / 'full.txt').write_text(star(f'f{n}' for n in range(19_999)))
    words = ['--table=full.txt', '--codes=trusted', '--table-out=table.txt', '--report=-']
    status, report, said = run_by(trusted, 'judge', '--chains=world/chains.txt', *words)
    assert (status, said) == (1, 'stirctl: the code table has no room for more codes, so calls by them break rule 17\n')
    assert (trusted.room / 'table.txt').read_text().splitlines()[19_998:] == ['f19998 *', '0000 *']


def test_what_cannot_be_read_twice_is_refused_where_codes_are_trusted(trusted):
    for command in ('judge', 'explain'):
        done = subprocess.run([trusted.ctl, command, '--anchors=world/anchors.der', *BY_FETCH, '-'], input=b'', stdout=subprocess.PIPE,
                              stderr=subprocess.PIPE, cwd=trusted.room)
        said = b'stirctl: -: what can\'t be read twice needs the word --codes listed\n'
        assert (done.returncode, done.stdout, done.stderr) == (2, b'', said)
    assert trusted.server.asked == {}
