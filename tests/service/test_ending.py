"""The end of the service under load: what was taken is answered, and with sockets of systemd's the next service takes all else."""
import os
import shutil
import signal
import socket
import subprocess

import pytest
import redises
from drained import Callers, goes_on
from stird import Stird, free_port, status_of, wait_until
from world import START

STORES = ["memory", "journal", "redis"]


@pytest.fixture
def store(request, tmp_path):
    """The words for where tickets are kept."""
    if request.param == "memory":
        yield []
    elif request.param == "journal":
        yield ["--journal", str(tmp_path / "journal")]
    elif not redises.PROGRAM:
        pytest.skip(redises.MISSING)
    else:
        with redises.Redis(tmp_path) as redis:
            yield ["--redis", redis.address()]


@pytest.fixture
def sockets(tmp_path):
    """A TCP socket and a Unix socket at which somebody listens who takes nothing, as systemd does."""
    with socket.create_server(("127.0.0.1", 0), backlog=4096) as tcp, socket.socket(socket.AF_UNIX) as unix:
        unix.bind(str(tmp_path / "socket"))
        unix.listen(4096)
        yield tcp, unix


def words_of(world, store):
    return [*world.words(), "--moments", "asked", *store]


@pytest.mark.parametrize("store", STORES, indirect=True)
def test_a_call_that_was_taken_has_its_answer_though_the_service_is_told_to_end(store, stird, world):
    """Over connections that stay no call is lost; over new ones none that was judged."""
    with Stird(stird, words_of(world, store)) as service:
        callers = Callers(service.port, world)
        assert goes_on(callers, 200), callers.said
        service.process.send_signal(signal.SIGTERM)
        assert service.process.wait(20) == 0
        said = callers.stop()
    assert set(said.outcomes.values()) == {"valid"}, said.outcomes
    assert not [why for why in said.lost.values() if "stays" in why], said.lost
    if store:
        with Stird(stird, words_of(world, store)) as again:
            assert {again.outcome(world.call(number % world.count, START, number), START) for number in said.valid()[-50:]} == {"replay"}
            judged = {again.outcome(world.call(number % world.count, START, number), START) for number in said.lost}
            assert judged <= {"valid"}, f"{judged}: {said.lost}"


@pytest.mark.parametrize("store", STORES, indirect=True)
@pytest.mark.parametrize("way", ["tcp", "unix"])
def test_no_call_is_lost_between_a_service_and_the_next_one_at_sockets_of_systemds(way, store, stird, world, sockets, tmp_path):
    """Three services one after another, each of which is told to end under load. A ticket passes once over all three, but for memory."""
    path = tmp_path / "socket" if way == "unix" else None
    callers = Callers(sockets[0].getsockname()[1], world, path=path)
    for _ in range(3):
        with Stird(stird, words_of(world, store), listen="systemd", handed=sockets) as service:
            assert goes_on(callers, 100), callers.said
            service.process.send_signal(signal.SIGTERM)
            assert service.process.wait(20) == 0
    with Stird(stird, words_of(world, store), listen="systemd", handed=sockets) as service:
        assert goes_on(callers, 100), callers.said
        said = callers.stop()
        assert (said.lost, set(said.outcomes.values())) == ({}, {"valid"}), said.lost
        if store:
            assert {service.outcome(world.call(number % world.count, START, number), START) for number in said.valid()[::10]} == {"replay"}
    assert sockets[0].getsockname() and (tmp_path / "socket").exists(), "the socket is gone with the service"


def test_a_connection_without_a_request_ends_soon_and_one_with_half_a_request_is_waited_for(stird, world):
    message = world.call(0, START, 1)
    with Stird(stird, words_of(world, [])) as service, service.connect() as idle, service.connect() as slow:
        slow.sendall(b"POST /verify HTTP/1.1\r\nHost: x\r\nX-Moment: %d\r\nContent-Length: %d\r\n\r\n" % (START, len(message)))
        assert wait_until(lambda: service.metric("stir_connections") == 3)
        service.connection.close()
        service.connection = None
        service.process.send_signal(signal.SIGTERM)
        assert idle.recv(1) == b"" and service.lives(), "it ended before it answered"
        slow.sendall(message)
        text = service.rest(slow)
        assert status_of(text) == 200 and b"connection: close" in text.lower(), text
        assert service.process.wait(5) == 0


def test_who_waits_at_a_socket_of_its_own_is_still_taken(stird, world):
    """The service is stopped while connections come, so that they wait in the system; told to end, it answers them once it goes on."""
    with Stird(stird, words_of(world, [])) as service:
        service.process.send_signal(signal.SIGSTOP)
        waiting = [service.connect() for _ in range(20)]
        for number, connection in enumerate(waiting, 1):
            message = world.call(0, START, number)
            connection.sendall(b"POST /verify HTTP/1.1\r\nHost: x\r\nX-Moment: %d\r\nContent-Length: %d\r\n\r\n" % (START, len(message)) + message)
        service.process.send_signal(signal.SIGTERM)
        service.process.send_signal(signal.SIGCONT)
        assert [status_of(service.rest(connection)) for connection in waiting] == [200] * 20
        assert service.process.wait(10) == 0
        for connection in waiting:
            connection.close()


def test_systemd_is_told_how_long_the_end_may_take(stird, world, tmp_path):
    with socket.socket(socket.AF_UNIX, socket.SOCK_DGRAM) as listener:
        listener.bind(str(tmp_path / "notify"))
        listener.settimeout(20)
        words = [*words_of(world, []), "--request", "7", "--fetch-hosts", "/dev/null", "--fetch-wait", "2000"]
        (tmp_path / "hosts").write_text("example.org\n")
        words[words.index("/dev/null")] = str(tmp_path / "hosts")
        with Stird(stird, words, variables={"NOTIFY_SOCKET": str(tmp_path / "notify")}) as service:
            service.process.send_signal(signal.SIGTERM)
            said = b""
            while b"STOPPING=1" not in said:
                said = listener.recv(4096)
    # Twice seven seconds for a request and its answer, two for certificates, four for tickets, and ten for files.
    assert b"EXTEND_TIMEOUT_USEC=30000000\n" in said, said


@pytest.mark.parametrize("tls", [False, True])
def test_it_takes_sockets_that_systemd_listens_at(tls, stird, world, tmp_path):
    """systemd's own program listens, and starts the service when the first call comes."""
    if not shutil.which("systemd-socket-activate"):
        pytest.skip("systemd-socket-activate is missing")
    port, path = free_port(), tmp_path / "socket"
    words = ["systemd-socket-activate", "-l", f"127.0.0.1:{port}", "-l", str(path), stird, *words_of(world, []), "--listen", "systemd"]
    if tls:
        subprocess.run(["openssl", "req", "-x509", "-newkey", "ec", "-pkeyopt", "ec_paramgen_curve:P-256", "-nodes", "-keyout", tmp_path / "key.pem", "-out",
                        tmp_path / "leaf.pem", "-subj", "/CN=localhost", "-addext", "subjectAltName=IP:127.0.0.1"], check=True, stderr=subprocess.DEVNULL)
        words += ["--tls-certificate", tmp_path / "leaf.pem", "--tls-key", tmp_path / "key.pem"]
    process = subprocess.Popen(words, stderr=subprocess.PIPE)
    try:
        assert wait_until(path.exists), "nobody listens"
        (tmp_path / "call").write_bytes(world.call(0, START, 1))
        ask = ["curl", "-sS", "-m", "20", "-H", f"X-Moment: {START}", "--data-binary", f"@{tmp_path / 'call'}"]
        over_tcp = [f"https://127.0.0.1:{port}/verify", "--cacert", tmp_path / "leaf.pem"] if tls else [f"http://127.0.0.1:{port}/verify"]
        first = subprocess.run([*ask, *over_tcp], stdout=subprocess.PIPE, check=True).stdout
        second = subprocess.run([*ask, "--unix-socket", path, "http://x/verify"], stdout=subprocess.PIPE, check=True).stdout
        assert b'"outcome":"valid"' in first and b'"outcome":"replay"' in second, (first, second)
        process.terminate()
        assert process.wait(20) == 0
        assert path.exists(), "the socket isn't systemd's any more"
        assert f"listens at 127.0.0.1:{port}, unix:{path}" in process.stderr.read().decode()
    finally:
        process.kill()
        process.wait()


@pytest.mark.parametrize("handed, told", [("none", "systemd handed over no socket"), ("udp", "number 2"), ("file", "number 1")])
def test_without_a_socket_for_streams_it_says_so_and_doesnt_start(handed, told, stird, world, sockets, tmp_path):
    with socket.socket(socket.AF_INET, socket.SOCK_DGRAM) as udp, open(tmp_path / "file", "wb") as file:
        udp.bind(("127.0.0.1", 0))
        given = {"none": [], "udp": [sockets[0], udp], "file": [file]}[handed]
        with pytest.raises(RuntimeError, match=told):
            Stird(stird, words_of(world, []), listen="systemd", handed=given)


def test_a_socket_for_another_process_isnt_taken(stird, world, sockets):
    """LISTEN_PID names who is meant (sd_listen_fds(3))."""
    os.set_inheritable(sockets[0].fileno(), True)
    with pytest.raises(RuntimeError, match="systemd handed over no socket"):
        Stird(stird, words_of(world, []), listen="systemd", variables={"LISTEN_FDS": "1", "LISTEN_PID": str(os.getpid())})
