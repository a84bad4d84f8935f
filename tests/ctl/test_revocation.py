"""Revocation lists: what `judge`, `explain` and `confirm` say by them, held against the proved program, and how `crl` takes them."""
import functools
import http.server
import subprocess
import threading

import pytest

pytest.importorskip('cryptography')
import trusted  # noqa: E402
from cryptography import x509  # noqa: E402

WHO = tuple(trusted.CODES)


@pytest.fixture(scope='module')
def world(tmp_path_factory):
    made = trusted.Trusted(tmp_path_factory.mktemp('trusted'))
    made.log(*(made.call(who, number=number) for number, who in enumerate(WHO, 1)))
    return made


@pytest.fixture
def run(there):
    return there


A, B, PRINTABLE = trusted.name('A'), trusted.name('B'), trusted.Kind.PrintableString
ENTRY = trusted.entry

# Each list, its signer, and at which certificate of its chain each call breaks rule 15.
LISTS = {
    'two authorities with one serial number': (trusted.crl([ENTRY(1002, authority=A), ENTRY(1004, authority=B)]), 'agency', {'two': 1, 'four': 1}),
    'an inherited issuer': (trusted.crl([ENTRY(555, authority=A), ENTRY(1001), ENTRY(1004)]), 'agency', {'one': 1}),
    'another string type of the name': (trusted.crl([ENTRY(1002, authority=trusted.name('A', PRINTABLE))]), 'agency', {'two': 1}),
    'a revoked authority': (trusted.crl([ENTRY(2, authority=trusted.name('Root A'))]), 'agency', {'one': 2, 'two': 2}),
    'a direct list': (trusted.crl([ENTRY(1001), ENTRY(1004)], by='A', indirect=False), 'a', {'one': 1}),
    'a list in PEM': (None, 'agency', {'three': 1}),
    'nothing': (trusted.crl([]), 'agency', {}),
    'another authority of that serial number': (trusted.crl([ENTRY(1002, authority=trusted.name('C'))]), 'agency', {}),
    'the signer\'s own': (trusted.crl([ENTRY(1001), ENTRY(1002)]), 'agency', {}),
    'taken out again': (trusted.crl([ENTRY(1001, authority=A, reason=x509.ReasonFlags.remove_from_crl)]), 'agency', {}),
    'a list that has ended': (trusted.crl([ENTRY(1001, authority=A)], ends='2026-01-02'), 'agency', {'one': 1}),
    'a later day': (trusted.crl([ENTRY(1001, '2026-01-02', A)]), 'agency', {}),
}


def in_pem():
    made = trusted.crl([ENTRY(1002, authority=B)])
    return subprocess.run(['openssl', 'crl', '-inform', 'DER'], input=made, stdout=subprocess.PIPE, check=True).stdout


def report(broken):
    lines = [f'{number} refused 437 15 1.{broken[who]}' if who in broken else f'{number} valid - - -' for number, who in enumerate(WHO, 1)]
    return ''.join(f'{line}\n' for line in lines).encode()


@pytest.mark.parametrize('case', LISTS)
def test_a_call_breaks_rule_15_at_a_revoked_certificate(case, run, world, stir):
    data, signer, broken = LISTS[case]
    world.write('list.crl', data or in_pem())
    by = [*world.by(), '--crl=list.crl', f'--crl-signer={signer}.pem']
    wanted = int(bool(broken)), report(broken)
    judged = run('judge', *by, '--report=-', '--checked-by', stir, 'calls.log')
    assert judged[:2] == wanted, judged
    for who, certificate in broken.items():
        assert f'{who}.der: certificate {certificate} is revoked since 2026-01-01T00:00:00Z' in judged[2]
    # Without a moment a later day is as good as an earlier one.
    if case == 'a later day':
        broken = {'one': 1}
    asked = run('ask', *world.by(), given=(world.folder / 'calls.log').read_bytes(), program=stir)
    assert asked[0] == 0 and asked[1].count(b'\n') == 4 + 4 + 2, 'the leaves, the calls, and the authorities'
    confirmed = run('confirm', '--chains=chains.txt', '--crl=list.crl', f'--crl-signer={signer}.pem', given=asked[1])
    answers = world.write('answers.txt', confirmed[1])
    verified = run('verify', *world.by(), f'--answers={answers}', given=(world.folder / 'calls.log').read_bytes(), program=stir)
    assert (confirmed[0], verified[:2]) == (0, (int(bool(broken)), report(broken)))


def test_explain_says_the_rule_and_the_certificate(run, world):
    world.write('list.crl', LISTS['two authorities with one serial number'][0])
    by = [*world.by(), '--crl=list.crl', '--crl-signer=agency.pem']
    status, lines, said = run('explain', *by, '--call=2', 'calls.log')
    assert (status, lines.splitlines()[-2:]) == (1, [b'2 14 ok', b'2 15 437 1.1']) and 'two.der: certificate 1 is revoked since' in said
    status, lines, said = run('explain', *by, '--call=3', 'calls.log')
    assert (status, said) == (0, '') and b'3 15 ok' in lines.splitlines()


def test_a_revoked_certificate_is_named_once_where_codes_are_trusted(run, world, stir):
    data, signer, broken = LISTS['two authorities with one serial number']
    world.write('list.crl', data)
    by = [*(word for word in world.by() if not word.startswith('--table=')), '--crl=list.crl', f'--crl-signer={signer}.pem']
    status, output, said = run('judge', *by, '--report=-', '--checked-by', stir, 'calls.log')
    assert (status, output) == (1, report(broken)), said
    named = [f'stirctl: {world.folder}/{who}.der: certificate {at} is revoked since 2026-01-01T00:00:00Z' for who, at in broken.items()]
    assert sorted(said.splitlines()) == sorted(named)


def test_a_certificate_is_revoked_from_its_second_on(run, world, stir):
    since = trusted.second('2026-01-01T00:00:30')
    data = trusted.crl([ENTRY(1001, '2026-01-01T00:00:30', A)])
    world.write('list.crl', data)
    log = world.write('spans.log', b'')
    log.write_bytes(b''.join(b'@%d %d\n' % (moment, len(message)) + message for moment, message in
                             (world.call('one', since + after, number) for number, after in ((1, -1), (2, 0), (3, 1)))))
    by = [*world.by(), '--crl=list.crl', '--crl-signer=agency.pem']
    wanted = b'1 valid - - -\n2 refused 437 15 1.1\n3 refused 437 15 1.1\n'
    assert run('judge', *by, '--report=-', 'spans.log')[:2] == (1, wanted)
    assert run('judge', *by, '--report=-', '--jobs=1', 'spans.log')[:2] == (1, wanted)
    # An answers file holds for the whole log.
    status, output, said = run('judge', *by, '--report=checked', '--checked-by', stir, 'spans.log')
    assert (status, output) == (7, b'') and 'cut the log there' in said and not (world.folder / 'checked').exists()


def test_lists_and_answers_go_together(run, world, stir):
    world.write('one.crl', trusted.crl([ENTRY(1001, authority=A)]))
    world.write('four.crl', trusted.crl([ENTRY(1004)], by='B', indirect=False))
    world.write('b.pem', trusted.pem(world.authorities['B']))
    asked = run('ask', *world.by(), given=(world.folder / 'calls.log').read_bytes(), program=stir)[1]
    world.write('answers.txt', run('confirm', given=asked)[1])
    by = [*world.by(), '--crl=one.crl', '--crl=four.crl', '--crl-signer=agency.pem', '--crl-signer=b.pem']
    wanted = 1, report({'one': 1, 'four': 1})
    assert run('judge', *by, '--report=-', '--checked-by', stir, 'calls.log')[:2] == wanted
    assert run('judge', *by, '--answers=answers.txt', '--report=-', '--checked-by', stir, 'calls.log')[:2] == wanted


@pytest.mark.parametrize('case, words, said', [
    ('forged', trusted.crl([ENTRY(1001, authority=A)], key=trusted.world.key('one')), "it wasn't signed by CN=Agency,O=STI"),
    ('of a stranger', trusted.crl([], by='Stranger'), "it was issued by CN=Stranger,O=STI, which is none of its signers"),
    ('of nobody', b'<html>', 'it is no revocation list in PEM or DER'),
    ('none', None, 'missing list.crl'),
], ids=['forged', 'of a stranger', 'of nobody', 'none'])
def test_a_list_that_is_not_good_judges_nothing(case, words, said, run, world):
    (world.folder / 'list.crl').unlink(missing_ok=True)
    if words is not None:
        world.write('list.crl', words)
    for command in (['judge', *world.by(), '--report=report', 'calls.log'], ['explain', *world.by(), 'calls.log'],
                    ['confirm', '--chains=chains.txt']):
        status, output, told = run(*command, '--crl=list.crl', '--crl-signer=agency.pem')
        # The lines of faults that `stir explain` has too stand in its report.
        told += output.decode() if command[0] == 'explain' and words is None else ''
        assert (status, output) == (5, b'' if said not in output.decode() else output) and said in told, (command, told)
        assert not (world.folder / 'report').exists()


def test_words_that_do_not_go_together_are_refused(run, world):
    for words in (['judge', *world.by(), '--crl=list.crl', 'calls.log'], ['judge', *world.by(), '--crl-signer=agency.pem', 'calls.log'],
                  ['confirm', '--crl=list.crl', '--crl-signer=agency.pem'], ['confirm', '--chains=chains.txt'],
                  ['crl', '--to=a', 'b'], ['crl', '--signer=a', 'b']):
        assert run(*words)[:2] == (2, b''), words


@pytest.fixture
def server(world):
    """Serves the folder by http on 127.0.0.1, and answers /long with more bytes than a list has, /moved with a redirect."""
    class Answers(http.server.SimpleHTTPRequestHandler):
        def do_GET(self):
            if self.path == '/long':
                self.send_response(200)
                self.end_headers()
                try:
                    for _ in range(300):
                        self.wfile.write(bytes(1 << 16))
                except OSError:
                    pass
            elif self.path.startswith('/moved'):
                self.send_response(302)
                self.send_header('Location', self.path.removeprefix('/moved'))
                self.end_headers()
            else:
                super().do_GET()

        def log_message(self, *_):
            pass
    served = http.server.ThreadingHTTPServer(('127.0.0.1', 0), functools.partial(Answers, directory=world.folder))
    threading.Thread(target=served.serve_forever, daemon=True).start()
    yield f'http://127.0.0.1:{served.server_port}'
    served.shutdown()


@pytest.fixture
def kept(world):
    for file in world.folder.glob('kept*'):
        file.unlink()
    return world.folder / 'kept.crl'


def test_a_list_is_fetched_and_takes_the_place_of_the_one_before(run, world, server, kept):
    crl = ['crl', '--signer=agency.pem', '--to=kept.crl', '--private']
    first, second = trusted.crl([], number=255), trusted.crl([ENTRY(1, authority=A)], number=256)
    world.write('new.crl', first)
    assert run(*crl, f'{server}/new.crl') == (0, b'', 'stirctl: kept.crl: number 255, certificates 0\n')
    assert kept.read_bytes() == first
    inode = kept.stat().st_ino
    assert run(*crl, f'{server}/new.crl') == (0, b'', '') and kept.stat().st_ino == inode, 'the same is left as it is'
    world.write('new.crl', second)
    assert run(*crl, f'{server}/moved/new.crl') == (0, b'', 'stirctl: kept.crl: number 256, certificates 1\n')
    assert kept.read_bytes() == second
    # Back to an earlier number, also of the same day, and a file in the place of a URL.
    world.write('new.crl', first)
    for source in (f'{server}/new.crl', 'new.crl'):
        status, output, said = run(*crl, source)
        assert (status, output) == (5, b'') and 'its number is 255, and 256 was there before' in said
    assert kept.read_bytes() == second and sorted(path.name for path in world.folder.glob('*kept*')) == ['kept.crl']


def test_what_is_not_a_list_of_its_signer_replaces_nothing(run, world, server, kept):
    crl = ['crl', '--signer=agency.pem', '--to=kept.crl']
    kept.write_bytes(trusted.crl([]))
    before = kept.read_bytes()
    world.write('new.crl', trusted.crl([], number=8, key=trusted.world.key('one')))
    world.write('page.html', b'<html>')
    for words, said in ((['--private', f'{server}/new.crl'], "it wasn't signed by"),
                        (['--private', f'{server}/page.html'], 'it is no revocation list'),
                        (['--private', f'{server}/none'], "the server's answer is 404"), (['--private', f'{server}/long'], 'its answer is too long'),
                        (['--private', f'{server}/moved{server}/new.crl'], "it wasn't signed by"),
                        (['--private', f'{server}/moved//127.0.0.2/new.crl'], 'redirects to another host'),
                        ([f'{server}/new.crl'], 'private address 127.0.0.1'), (['--private', 'http://127.0.0.1:1/'], 'no connection'),
                        (['missing.crl'], 'missing missing.crl')):
        status, output, told = run(*crl, *words)
        assert (status, output) == (5, b'') and said in told, (words, told)
        assert kept.read_bytes() == before


def test_a_list_that_has_ended_is_taken_and_named(run, world, kept):
    world.write('new.crl', trusted.crl([], ends='2026-01-02'))
    for _ in range(2):
        status, _, said = run('crl', '--signer=agency.pem', '--to=kept.crl', 'new.crl')
        assert status == 1 and 'new.crl: the next list should be there already' in said
    assert kept.read_bytes() == (world.folder / 'new.crl').read_bytes()


def test_an_old_file_that_is_no_list_is_replaced(run, world, kept):
    kept.write_bytes(b'spoilt')
    world.write('new.crl', trusted.crl([]))
    status, _, said = run('crl', '--signer=agency.pem', '--to=kept.crl', 'new.crl')
    assert status == 0 and 'kept.crl: it is no revocation list in PEM or DER' in said and 'it is replaced' in said
    assert kept.read_bytes() == (world.folder / 'new.crl').read_bytes()


def test_a_run_that_can_not_write_says_so(run, world, kept):
    world.write('new.crl', trusted.crl([]))
    assert run('crl', '--signer=agency.pem', '--to=/nowhere/kept.crl', 'new.crl')[0] == 4
