"""The signed list of authorities, and bridges to roots outside the profile: what `roots` writes of them, held against the proved program."""
import json
import os
import signal
import subprocess
import time

import pytest

pytest.importorskip('cryptography')
import trusted  # noqa: E402
from cryptography import x509  # noqa: E402
from cryptography.hazmat.primitives import hashes, serialization  # noqa: E402
from cryptography.hazmat.primitives.asymmetric import ec, rsa  # noqa: E402
from trusted import NOW, SHA384, certificate, der, pem  # noqa: E402

@pytest.fixture(scope='module')
def world(tmp_path_factory):
    return trusted.Abroad(tmp_path_factory.mktemp('roots'))


@pytest.fixture
def run(there):
    return there


@pytest.fixture
def roots(run, world):
    """Runs `roots` on a list, after a list with this sequence or after none."""
    def go(data, *words, before=None):
        world.write('list.jws', data)
        state = world.folder / 'state.json'
        state.unlink(missing_ok=True)
        if before is not None:
            state.write_text(json.dumps({'sequence': before}))
        done = run('roots', '--list=list.jws', '--signer=signer.pem', '--state=state.json', *words)
        return *done, json.loads(state.read_text())['sequence'] if state.exists() else None
    return go


def test_a_good_list_becomes_the_anchors(roots, world):
    data = trusted.jws(world.body(), world.list)
    wanted = 0, world.anchors('Root A', 'Root B'), '', 7
    assert roots(data) == wanted
    assert roots(data, before=7) == wanted, 'the same again'
    assert roots(data, before=6) == wanted
    assert roots(data + b'\r\n') == wanted
    # A root that stands twice is written once.
    assert roots(trusted.jws(world.body('Root A', 'Root A'), world.list))[:2] == (0, world.anchors('Root A'))


def spoilt(world):
    """Each list that isn't taken, and what is said of it."""
    good, body, key = trusted.jws(world.body(), world.list), world.body, world.list
    head, payload, signature = good.split(b'.')
    other = trusted.base64url(json.dumps(body('Root C')).encode()).encode()
    two = pem(world.roots['Root A']) + pem(world.roots['Root B'])
    last = b'ABCDEFGHIJKLMNOPQRSTUVWXYZabcdefghijklmnopqrstuvwxyz0123456789-_'
    strange = signature[:-1] + last[last.index(signature[-1:]) ^ 1:][:1]
    mixed = pem(certificate('Root A', 'Root A', world.keys['Root A'], world.keys['Root B'], 1)).decode()
    return {
        'ended': (trusted.jws(body(exp=NOW - 1), key), f'it ended at second {NOW - 1}'),
        'no exp': (trusted.jws(body(exp=None), key), 'its payload has no'),
        'an exp in text': (trusted.jws(body(exp=str(NOW + 86400)), key), 'its payload has no'),
        'no sequence': (trusted.jws(body(sequence=None), key), 'its payload has no'),
        'a sequence below zero': (trusted.jws(body(sequence=-1), key), 'its payload has no'),
        'an array': (trusted.jws([7, NOW + 86400, body()['trustList']], key), 'its payload has no'),
        'a header in an array': (trusted.jws(body(), key, ['ES256']), "its header isn't that of an ES256 signature"),
        'no list': (trusted.jws(body(trustList=None), key), 'its payload has no'),
        'a name twice': (trusted.jws(json.dumps(body()).encode()[:-1] + b',"sequence":9}', key), 'its payload has no'),
        'another key': (trusted.jws(body(), trusted.world.key('other')), "it wasn't signed by its signer"),
        'no algorithm': (trusted.jws(body(), key, {'alg': 'none'}), "its header isn't that of an ES256 signature"),
        'none, and no signature': (b'eyJhbGciOiJub25lIn0.' + payload + b'.', "its header isn't that of an ES256 signature"),
        'ES384': (trusted.jws(body(), key, {'alg': 'ES384'}), "its header isn't that of an ES256 signature"),
        'HS256': (trusted.jws(body(), key, {'alg': 'HS256'}), "its header isn't that of an ES256 signature"),
        'crit': (trusted.jws(body(), key, {'alg': 'ES256', 'crit': ['x'], 'x': 1}), "its header isn't that of an ES256 signature"),
        'b64': (trusted.jws(body(), key, {'alg': 'ES256', 'b64': False}), "its header isn't that of an ES256 signature"),
        'a changed payload': (head + b'.' + other + b'.' + signature, "it wasn't signed by its signer"),
        'a signature that is cut': (good[:-2], "it wasn't signed by its signer"),
        'bits after the signature': (b'.'.join((head, payload, strange)), 'it is no JWS in its compact form'),
        'padding': (good + b'==', 'it is no JWS in its compact form'),
        'four parts': (good + b'.', 'it is no JWS in its compact form'),
        'two parts': (head + b'.' + payload, 'it is no JWS in its compact form'),
        'JSON': (json.dumps(body()).encode(), 'it is no JWS in its compact form'),
        'a root that isn\'t one': (trusted.jws(body(trustList=[pem(world.authorities['A']).decode()]), key), "authority 1 hasn't signed itself"),
        'a root with another\'s signature': (trusted.jws(body(trustList=[mixed]), key), "authority 1 hasn't signed itself"),
        'no PEM': (trusted.jws(body(trustList=[pem(world.roots['Root A']).decode(), 'x']), key), "authority 2 isn't one certificate in PEM"),
        'two in one': (trusted.jws(body(trustList=[two.decode()]), key), "authority 1 isn't one certificate in PEM"),
        'nobody': (trusted.jws(body(trustList=[]), key), 'there would be no anchor'),
    }


def test_a_list_that_is_not_good_changes_nothing(roots, world):
    kept = world.write('kept.der', b'kept')
    for case, (data, told) in spoilt(world).items():
        status, output, said, sequence = roots(data, '--to=kept.der', before=7)
        assert (status, output, sequence) == (5, b'', 7) and told in said, (case, status, said)
        assert kept.read_bytes() == b'kept' and roots(data)[3] is None, case
    status, output, said, sequence = roots(trusted.jws(world.body(sequence=6), world.list), '--to=kept.der', before=7)
    assert (status, output, sequence) == (5, b'', 7) and 'its sequence is 6, and 7 was there before' in said and kept.read_bytes() == b'kept'


def test_a_spoilt_state_is_not_taken_for_none(run, world):
    world.write('list.jws', trusted.jws(world.body(), world.list))
    for text in (b'', b'{}', b'{"sequence":"7"}', b'{"sequence":7', b'[7]'):
        state = world.write('state.json', text)
        status, output, said = run('roots', '--list=list.jws', '--signer=signer.pem', '--state=state.json')
        assert (status, output, state.read_bytes()) == (5, b'', text) and 'no state of a list of authorities' in said


def test_signers_and_words_that_do_not_serve_are_refused(run, world):
    world.write('list.jws', trusted.jws(world.body(), world.list))
    world.write('c.pem', pem(world.roots['Root C']))
    for signer in ('c.pem', 'list.jws', 'roots.pem'):
        status, output, said = run('roots', '--list=list.jws', f'--signer={signer}', '--state=none.json')
        assert (status, output) == (5, b'') and "it isn't one certificate in PEM whose key is one of P-256" in said
    for words in (['--list=list.jws', '--signer=signer.pem'], ['--list=list.jws', '--state=state.json'], [], ['--roots=roots.pem', '--list=list.jws'],
                  ['--roots=roots.pem', '--signer=signer.pem']):
        assert run('roots', *words)[:2] == (2, b''), words


def test_a_root_outside_the_profile_is_named_and_left_out(roots, world, run):
    status, output, said, sequence = roots(trusted.jws(world.body('Root A', 'Root C', 'Root B', 'Root R'), world.list))
    assert (status, output, sequence) == (1, world.anchors('Root A', 'Root B'), 7)
    named = [line.split(',')[:2] for line in said.splitlines()]
    assert named == [['stirctl: list.jws: root 2', ' CN=Root C'], ['stirctl: list.jws: root 4', ' CN=Root R']]
    assert said.count('is outside the profile: ') == said.count('; it is left out') == 2
    world.write('all.pem', b''.join(pem(world.roots[who]) for who in ('Root A', 'Root C')))
    assert run('roots', '--roots=all.pem')[:2] == (1, world.anchors('Root A'))


def verified(run, world, stir, anchors):
    """What the proved program says of the calls under these anchors, with signatures by `confirm`; and what `judge` says."""
    world.write('made.der', anchors)
    log = (world.folder / 'calls.log').read_bytes()
    asked = run('ask', *world.by('made.der'), given=log, program=stir)
    world.write('answers.txt', run('confirm', given=asked[1])[1])
    said = run('verify', *world.by('made.der'), '--answers=answers.txt', given=log, program=stir)[1]
    assert run('judge', *world.by('made.der'), '--report=-', 'calls.log')[1] == said
    return said


def test_a_call_under_a_root_on_p384_or_by_rsa_is_valid_by_a_bridge(roots, world, run, stir):
    data = trusted.jws(world.body('Root A', 'Root C', 'Root R'), world.list)
    without = roots(data)[1]
    assert verified(run, world, stir, without) == b'1 refused 437 12 1.1\n2 refused 437 12 1.1\n3 refused 437 11 1.2\n'
    status, one, said, _ = roots(data, '--bridge=C.pem')
    assert status == 1 and one.startswith(without) and said.count('\n') == 2, said
    assert verified(run, world, stir, one) == b'1 valid - - -\n2 refused 437 12 1.1\n3 refused 437 11 1.2\n'
    status, both, said, _ = roots(data, '--bridge=C.pem', '--bridge=R.pem')
    assert status == 0 and both.startswith(one)
    assert verified(run, world, stir, both) == b'1 valid - - -\n2 valid - - -\n3 refused 437 11 1.2\n'
    assert roots(data, '--bridge=C.pem', '--bridge=R.pem')[1] == both, 'each run writes the same bytes'
    # What OpenSSL reads of the anchor: the name, the key, the limits of the authority, and a signature that is none.
    made, authority = x509.load_der_x509_certificate(one[len(without):]), world.authorities['C']
    assert made.subject == made.issuer == authority.subject and made.public_key().public_numbers() == authority.public_key().public_numbers()
    assert [extension.value for extension in made.extensions] == [extension.value for extension in authority.extensions]
    for part in ('serial_number', 'not_valid_before', 'not_valid_after'):
        assert getattr(made, part) == getattr(authority, part)
    with pytest.raises(Exception, match=''):
        made.public_key().verify(made.signature, made.tbs_certificate_bytes, ec.ECDSA(hashes.SHA256()))
    assert made.signature == bytes.fromhex('3006020101020101')


def test_files_of_a_bridge_may_have_any_form(roots, world):
    data = trusted.jws(world.body('Root A', 'Root C'), world.list)
    wanted = roots(data, '--bridge=C.pem')[1]
    leaf, authority = (world.folder / 'C.der').read_bytes(), world.authorities['C']
    pkcs7 = serialization.pkcs7.serialize_certificates([authority, x509.load_der_x509_certificate(leaf)], serialization.Encoding.DER)
    for form in (leaf + der(authority), der(authority), pem(authority), pkcs7, pem(world.roots['Root C']) + pem(authority)):
        world.write('form', form)
        assert roots(data, '--bridge=form')[:2] == (0, wanted)


def test_a_bridge_that_leads_nowhere_is_named_and_left_out(roots, world):
    """By OpenSSL: another root, one that isn't in the list, an authority that has ended, weak signatures and keys, no authority, a key on P-384."""
    key, c = trusted.world.key, world.c
    weak = rsa.generate_private_key(65537, 1024)
    middle = certificate('Middle', 'Root C', trusted.curve384('Middle'), c, 3, digest=SHA384, length=0)
    world.roots |= {'Weak': certificate('Weak', 'Weak', weak, weak, 1), 'Old': certificate('Old', 'Old', world.r, world.r, 1)}
    cases = {
        'another authority\'s': (pem(world.authorities['A']), 'leads to none of the roots that were left out'),
        'a root that isn\'t listed': (pem(world.authorities['R']), 'leads to none of the roots that were left out'),
        'ended': (pem(certificate('C', 'Root C', key('C'), c, 2, digest=SHA384, ends='2026-01-01')), 'certificate has expired'),
        'not begun': (pem(certificate('C', 'Root C', key('C'), c, 2, digest=SHA384, begins='2034-01-01')), 'certificate is not yet valid'),
        'forged': (pem(certificate('C', 'Root C', key('C'), trusted.curve384('other'), 2, digest=SHA384)),
                   'leads to none of the roots that were left out'),
        'by SHA-1': (pem(certificate('C', 'Root C', key('C'), c, 2, digest=hashes.SHA1())), 'has a signature or a key of less than 112 bits'),
        'a weak root': (pem(certificate('C', 'Weak', key('C'), weak, 2)), 'has a signature or a key of less than 112 bits'),
        'a key on P-384': (pem(middle), "none of its certificates is an authority's"),
        'a leaf': ((world.folder / 'C.der').read_bytes(), "none of its certificates is an authority's"),
        'a path that is too long': (pem(certificate('Lowest', 'Middle', key('C'), trusted.curve384('Middle'), 2, digest=SHA384)) + pem(middle)
                                    + pem(certificate('Root C', 'Root C', c, c, 1, digest=SHA384)), None),
        'no certificates': (b'<html>', 'it has no certificates in PEM, DER or PKCS #7'),
    }
    data = trusted.jws(world.body('Root A', 'Root C', 'Weak'), world.list)
    for case, (chain, told) in cases.items():
        world.write('chain', chain)
        status, output, said, sequence = roots(data, '--bridge=chain')
        if told is None:
            # An authority above it on P-384 is no matter.
            assert status == 1 and output.startswith(world.anchors('Root A')) and 'no bridge' not in said, said
            assert len(output) > len(world.anchors('Root A'))
            continue
        assert (status, output, sequence) == (1, world.anchors('Root A'), 7), (case, said)
        assert 'chain: no bridge: ' in said and told in said, (case, said)
    status, output, said, sequence = roots(data, '--bridge=none')
    assert (status, output, said.splitlines()[-1], sequence) == (5, b'', 'stirctl: missing none', None)


def test_what_is_revoked_is_no_anchor(roots, world, run, stir):
    entry, names = trusted.entry, {who: trusted.name(who) for who in ('Root A', 'Root B', 'Root C')}
    data = trusted.jws(world.body('Root A', 'Root B', 'Root C'), world.list)
    by = ['--bridge=C.pem', '--crl=list.crl', '--crl-signer=agency.pem']
    whole = roots(data, '--bridge=C.pem')[1]
    bridge = whole[len(world.anchors('Root A', 'Root B')):]
    for case, entries, wanted, told in (
            ('nothing', [], whole, ''),
            ('a root', [entry(1, authority=names['Root B'])], world.anchors('Root A') + bridge,
             'root 2, CN=Root B,O=STI, is revoked since 2026-01-01T00:00:00Z; it is left out'),
            ('the authority of a bridge', [entry(2, authority=names['Root C'])], world.anchors('Root A', 'Root B'),
             'C.pem: no bridge: CN=C,O=STI is revoked since'),
            ('the root of a bridge', [entry(1, authority=names['Root C'])], world.anchors('Root A', 'Root B'),
             'root 3, CN=Root C,O=STI, is revoked since'),
            ('another certificate', [entry(3, authority=names['Root C'])], whole, '')):
        world.write('list.crl', trusted.crl(entries))
        status, output, said, _ = roots(data, *by)
        assert (status, output) == (int(wanted != whole), wanted) and told in said, (case, said)
    # The anchors of files, too.
    world.write('list.crl', trusted.crl([entry(1, authority=names['Root A'])]))
    for words in (['roots', '--roots=roots.pem'], ['chain', '--anchors', 'roots.pem'], ['chain', '--anchors', '--all', 'roots.pem']):
        status, output, said = run(*words, *by[1:])
        assert (status, output) == (1, world.anchors('Root B')), words
        assert 'CN=Root A,O=STI, is revoked since 2026-01-01T00:00:00Z; it is left out' in said, words
    world.write('list.crl', trusted.crl([entry(1, authority=names['Root A'])], key=trusted.world.key('one')))
    for words in (['roots', '--roots=roots.pem'], ['chain', '--anchors', 'roots.pem']):
        assert run(*words, *by[1:])[:2] == (5, b'')


def test_anchors_and_state_are_written_whole(run, ctl, world):
    """Runs that are killed at any moment: there is the old file or the new one, and the sequence never falls."""
    state, anchors = world.write('killed.json', b'{"sequence":1}'), world.write('killed.der', b'old')
    words, seen = ['roots', '--list=killed.jws', '--signer=signer.pem', '--state=killed.json', '--to=killed.der'], set()
    for sequence in range(2, 42):
        world.write('killed.jws', trusted.jws(world.body(sequence=sequence), world.list))
        started = subprocess.Popen([ctl, *words], cwd=world.folder)
        time.sleep(0.001 * (sequence % 20))
        started.send_signal(signal.SIGKILL)
        seen.add(started.wait())
        assert anchors.read_bytes() in (b'old', world.anchors('Root A', 'Root B'))
        assert json.loads(state.read_text())['sequence'] <= sequence
    assert run(*words) == (0, b'', '') and json.loads(state.read_text()) == {'sequence': 41} and -signal.SIGKILL in seen
    inode = anchors.stat().st_ino
    assert run(*words)[0] == 0 and anchors.stat().st_ino == inode, 'the same bytes are left as they are'
    assert run(*words[:-1], '--to=/nowhere/anchors.der')[0] == 4
    for left in world.folder.glob('.killed*'):
        os.unlink(left)
