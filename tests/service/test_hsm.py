"""Calls signed by keys that stay in an HSM (SoftHSM): it may be the wrong one, go away, come again, drop its sessions, and keep one waiting."""
import itertools
import os
import re
import shutil
import signal
import subprocess
import threading
import time

import pytest
import signing
from softhsm import CLIENT, MODULE, Server, Token
from stird import wait_until
from world import START

pytestmark = pytest.mark.skipif(not (shutil.which("softhsm2-util") and MODULE.exists()), reason="softhsm2 is missing")
REMOTE = pytest.mark.skipif(not (shutil.which("p11-kit") and CLIENT.exists()), reason="p11-kit or p11-kit-modules is missing")

# How many signatures are under way or wait at most, and how many seconds go by before a module is started anew once more, by docs/SERVICE.md.
MOST_WAITING = 64
AT_WORK = 4
PAUSE = 0.6


@pytest.fixture
def token(world, tmp_path):
    token = Token(tmp_path / "token")
    token.add("k0", 1, world.keys[0])
    token.add("k1", 2, world.keys[1])
    return token


@pytest.fixture
def server(token):
    server = Server(token)
    yield server
    server.kill()


def table(world, path, key, n=0):
    path.write_text(f"{world.number(n, 0)} 100 A {key} {world.folder}/chain-{n}.der {world.x5u(n)}\n")
    return path


def asked(service, world, place=1):
    return service.json("/stir/v1/signing", signing.request(world.number(0, place)))


def failures(service):
    return service.metrics("stir_key_failures_total")


def late(service):
    return service.metric('stir_key_failures_total{why="late"}')


def dropped(service):
    return service.metric("stir_key_sessions_opened_anew_total")


def signs(service, world, place=1):
    """Whether a call is signed. The HSM has two seconds for it, which aren't enough on a machine that is busy: a call for which it was late is sent once more,
    and one that failed isn't."""
    for _ in range(20):
        before = late(service)
        status, _ = asked(service, world, place)
        if status == 200 or late(service) == before:
            return status == 200
    return False


def test_what_a_key_of_the_hsm_signed_is_valid_once(token, started, world, tmp_path):
    service = started("--signing-local", "yes", "--signing", table(world, tmp_path / "blocks.txt", token.uri("k0")), variables=token.variables)
    for place in range(20):
        status, told = asked(service, world, place)
        assert status == 200, told
        message = world.invite(world.number(0, place), signing.CALLED, place, told["signingResponse"]["identity"])
        assert [service.outcome(message, START) for _ in range(2)] == ["valid", "replay"]
    assert (failures(service), service.metric("stir_signed_total")) == (0, 20)


def test_two_keys_of_one_token_sign_for_a_block_each(token, started, world, tmp_path):
    lines = [table(world, tmp_path / f"{n}", token.uri(f"k{n}"), n).read_text() for n in (0, 1)]
    (tmp_path / "blocks.txt").write_text("".join(lines))
    service = started("--signing-local", "yes", "--signing", tmp_path / "blocks.txt", variables=token.variables)
    for n in (0, 1):
        caller = world.number(n, 3)
        status, told = service.json("/stir/v1/signing", signing.request(caller))
        assert status == 200, told
        message = world.invite(caller, signing.CALLED, n, told["signingResponse"]["identity"])
        assert service.outcome(message, START) == "valid", n


@pytest.mark.parametrize(("change", "wanted"), [
    (lambda uri, _: uri.replace("object=k0", "object=k1"), "isn't the key of the first of"),
    (lambda uri, _: uri.replace("object=k0", "object=k2"), "no private key that the URI names"),
    (lambda uri, _: uri.replace("object=k0", "id=%07"), "no private key that the URI names"),
    (lambda uri, _: uri.replace("token=stir", "token=other"), "no token is there"),
    (lambda uri, _: uri.replace("token=stir;", "serial=1;"), "no token is there"),
    (lambda uri, pin: uri.replace(str(pin), str(pin) + ".none"), r"pin\.none: there is no such file"),
    (lambda uri, _: uri.split("?")[0] + f"?module-path={MODULE}", "no private key that the URI names"),
    (lambda uri, _: uri.replace("pin-source=file:", "pin-value="), "a PIN isn't taken from a URI"),
    (lambda uri, _: uri.replace(str(MODULE), "/no/module.so"), "the PKCS #11 module can't be loaded"),
    (lambda uri, _: uri.replace(str(MODULE), "/usr/lib/x86_64-linux-gnu/libc.so.6"), "the PKCS #11 module can't be loaded"),
    (lambda uri, _: uri.replace("type=private", "type=cert"), "the type of its object isn't private"),
    (lambda uri, _: uri.replace("object=k0;", ""), "neither object nor id"),
])
def test_a_key_that_the_hsm_hasnt_or_wont_give_stops_the_start(change, wanted, token, started, world, tmp_path):
    uri = change(token.uri("k0"), token.pin)
    with pytest.raises(RuntimeError, match=rf"blocks\.txt: line 1: .*{wanted}"):
        started("--signing-local", "yes", "--signing", table(world, tmp_path / "blocks.txt", uri), variables=token.variables)


def test_a_pin_that_is_refused_stops_the_start_and_nobody_is_asked_for_another(token, started, world, tmp_path):
    (tmp_path / "other").write_text("1234\n")
    uri = token.uri("k0", pin=tmp_path / "other")
    with pytest.raises(RuntimeError, match="the token refuses the PIN: CKR_PIN_INCORRECT"):
        started("--signing-local", "yes", "--signing", table(world, tmp_path / "blocks.txt", uri), variables=token.variables)


def test_a_pin_that_others_may_read_is_told(token, started, world, tmp_path):
    token.pin.chmod(0o644)
    service = started("--signing-local", "yes", "--signing", table(world, tmp_path / "blocks.txt", token.uri("k0")), variables=token.variables)
    assert wait_until(lambda: service.told(rf"{token.pin}: OTHERS MAY READ OR CHANGE THIS PASSWORD")), service.text()


@REMOTE
def test_a_session_that_the_hsm_dropped_is_opened_anew_for_the_call(server, token, started, world, tmp_path):
    path = table(world, tmp_path / "blocks.txt", token.uri("k0", CLIENT))
    service = started("--signing-local", "yes", "--signing", path, variables=server.variables)
    turn = 0
    # Which of the sessions a call takes isn't said: one that wasn't open yet wasn't dropped.
    while turn < 3 or turn < 20 and dropped(service) < 3:
        assert signs(service, world, turn), turn
        server.kill()
        server.start()
        time.sleep(PAUSE)
        assert signs(service, world, turn + 20), turn
        turn += 1
    assert (failures(service) - late(service), dropped(service) >= 3) == (0, True)


@REMOTE
def test_while_the_hsm_is_away_calls_get_500_and_once_it_is_back_they_are_signed(server, token, started, world, tmp_path):
    path = table(world, tmp_path / "blocks.txt", token.uri("k0", CLIENT))
    service = started("--signing-local", "yes", "--signing", path, variables=server.variables)
    assert signs(service, world)
    assert "it didn't sign" not in service.ready()[1]
    server.kill()
    before = failures(service)
    for count in (1, 2, 3):
        status, told = asked(service, world)
        assert (status, next(iter(told["requestError"].values()))["messageId"]) == (500, "SVC5000"), told
        assert failures(service) - before == count
    assert service.metric('stir_key_failures_total{why="failed"}') > 0
    is_ready, told = service.ready()
    assert is_ready and f"signing: {token.uri('k0', CLIENT)}: it didn't sign the last time" in told, told
    assert service.outcome(world.call(0, START, 1), START) == "valid", "calls are judged as before"
    server.start()
    time.sleep(PAUSE)
    assert signs(service, world), service.text()
    assert "it didn't sign" not in service.ready()[1]
    assert wait_until(lambda: service.told("it signs again")), service.text()


@REMOTE
def test_a_table_that_is_read_while_the_hsm_is_away_is_taken_once_it_is_back(server, token, started, world, tmp_path):
    path = table(world, tmp_path / "blocks.txt", token.uri("k1", CLIENT), 1)
    service = started("--signing-local", "yes", "--signing", path, "--reload", "1", variables=server.variables)
    server.kill()
    table(world, path, token.uri("k0", CLIENT))
    assert wait_until(lambda: service.told("blocks.txt: line 1: .*what was read before stays"))
    assert asked(service, world)[0] == 403
    server.start()
    assert wait_until(lambda: asked(service, world)[0] == 200), service.text()


def waiting_and_full(service):
    """How many signatures are waited for, and how many weren't asked for since too many are; of one moment."""
    text = service.ask("GET", "/metrics")[1].decode()
    return tuple(int(re.search(rf"^{re.escape(name)} (\d+)$", text, re.M)[1]) for name in ("stir_key_waiting", 'stir_key_failures_total{why="full"}'))


def timed(does):
    """What comes of something, and how many seconds it takes."""
    begin = time.monotonic()
    return does(), time.monotonic() - begin


def while_it_hangs(service, server, world, numbers):
    """The HSM doesn't answer, and more signatures are wanted than may wait, which get 500: how many were seen waiting, how long the slowest of them took, and the
    slowest of the calls that were judged meanwhile."""
    messages = [world.call(0, START, next(numbers)) for _ in range(50)]
    before, full_before = failures(service), waiting_and_full(service)[1]
    server.all(signal.SIGSTOP)
    came, seen, sent = [], [], MOST_WAITING + AT_WORK + 30

    def is_full():
        seen.append(waiting_and_full(service))
        return seen[-1][1] > full_before

    threads = [threading.Thread(target=lambda: came.append(timed(lambda: one_more(service.port, world)))) for _ in range(sent)]
    for thread in threads:
        thread.start()
    assert wait_until(is_full, 30), seen
    judged = [timed(lambda message=message: service.outcome(message, START)) for message in messages]
    for thread in threads:
        thread.join(60)
    assert {outcome for outcome, _ in judged} == {"valid"}, judged
    assert [status for status, _ in came] == [500] * sent, came
    assert failures(service) - before == sent
    most = max(waiting for waiting, _ in seen)
    assert most <= MOST_WAITING + AT_WORK, seen
    server.all(signal.SIGCONT)
    assert wait_until(lambda: asked(service, world)[0] == 200, 30), service.text()
    assert service.metric("stir_key_waiting") == 0
    return most, max(took for _, took in came), max(took for _, took in judged)


@REMOTE
def test_an_hsm_that_doesnt_answer_holds_up_no_other_call_and_its_own_not_for_long(server, token, started, world, tmp_path):
    """A machine that is busy may hold up a call as long by itself, or say too late how many wait, but not each time."""
    path = table(world, tmp_path / "blocks.txt", token.uri("k0", CLIENT))
    service = started("--signing-local", "yes", "--signing", path, "--reload", "1", variables=server.variables)
    assert signs(service, world)
    numbers, found = itertools.count(1), []
    while not found or len(found) < 8 and not is_prompt(*found[-1]):
        found.append(while_it_hangs(service, server, world, numbers))
    assert is_prompt(*found[-1]), found


def is_prompt(waiting, signed, judged):
    """Whether some were seen waiting for an HSM that doesn't answer, and nobody did longer than he has to; a signature is waited for two seconds."""
    return waiting > 0 and 2 <= signed < 10 and judged < 1.5


def one_more(port, world):
    """The status of a request on a connection of its own."""
    import http.client
    import json
    connection = http.client.HTTPConnection("127.0.0.1", port, timeout=60)
    connection.request("POST", "/stir/v1/signing", json.dumps(signing.request(world.number(0, 5))))
    return connection.getresponse().status


@pytest.mark.parametrize("form", ["ec", "pkcs8"])
def test_an_encrypted_key_is_opened_by_the_password_beside_it(form, started, world, tmp_path):
    path = tmp_path / "blocks.txt"
    path.write_text(signing.table(world, tmp_path, [(0, 0, 100, "A")]))
    key, locked, password = (tmp_path / name for name in ("key-0.pem", "locked.pem", "key-0.pem.password"))
    how = ["ec", "-aes256"] if form == "ec" else ["pkcs8", "-topk8"]
    subprocess.run(["openssl", *how, "-passout", "pass:a secret", "-in", key, "-out", locked], check=True, capture_output=True)
    key.write_bytes(locked.read_bytes())
    key.chmod(0o600)
    with pytest.raises(RuntimeError, match=r"key-0\.pem: its private key is encrypted"):
        started("--signing-local", "yes", "--signing", path)
    password.write_text("another\n")
    password.chmod(0o600)
    with pytest.raises(RuntimeError, match=r"key-0\.pem: it has no private key in PEM that this passphrase opens"):
        started("--signing-local", "yes", "--signing", path)
    password.write_text("a secret\nmore\n")
    service = started("--signing-local", "yes", "--signing", path, "--reload", "1")
    status, told = asked(service, world)
    assert status == 200, told
    assert not service.told("OTHERS")
    password.chmod(0o644)
    os.utime(path)
    assert wait_until(lambda: service.told(rf"{password}: OTHERS MAY READ OR CHANGE THIS PASSWORD")), service.text()
