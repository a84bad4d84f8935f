"""Many connections: silent ones, slow ones, more than there are descriptors for. Whoever asks is answered, and what is held is bounded."""
import os
import resource
import socket
import threading
import time

import pytest
from stird import status_of, wait_until
from world import START

HEALTH = b"GET /healthz HTTP/1.1\r\nHost: x\r\nConnection: close\r\n\r\n"


def asks(service, of="127.0.0.1", wait=3):
    """The status of an answer to a connection of its own, from this address; None if there is none in time."""
    try:
        with socket.create_connection(("127.0.0.1", service.port), timeout=wait, source_address=(of, 0)) as connection:
            connection.sendall(HEALTH)
            return status_of(connection.recv(4096))
    except OSError:
        return None


class Crowd:
    """Connections that are held."""

    def __init__(self, service, count, first=b"", of="127.0.0.1"):
        self.held = []
        for _ in range(count):
            connection = socket.create_connection(("127.0.0.1", service.port), timeout=5, source_address=(of, 0))
            connection.sendall(first)
            self.held.append(connection)

    def __enter__(self):
        return self

    def __exit__(self, *_):
        for connection in self.held:
            connection.close()

    def open(self):
        """How many of them are open still."""
        count = 0
        for connection in self.held:
            connection.setblocking(False)
            try:
                while connection.recv(4096):
                    pass
            except BlockingIOError:
                count += 1
            except OSError:
                pass
        return count


def test_a_silent_crowd_shuts_nobody_out(started, world):
    service = started("--connections", 16, "--idle", 30)
    with Crowd(service, 16) as crowd:
        time.sleep(0.3)
        assert [asks(service) for _ in range(20)] == [200] * 20
        assert crowd.open() < 16, "none was closed"
    assert service.outcome(world.call(0, START, 1), START) == "valid"


def read(connection, wait=2):
    """All that comes until the end of a connection."""
    connection.settimeout(wait)
    text = b""
    while piece := connection.recv(4096):
        text += piece
    return text


def test_whoever_loses_its_place_before_an_answer_is_told_so(started):
    """Silent ones and slow ones get 503. One that had its answers and is idle is closed without a word, as any idle connection is."""
    service = started("--connections", 4, "--idle", 30, "--request", 30)
    with Crowd(service, 1, HEALTH.replace(b"Connection: close\r\n", b"")) as idle, Crowd(service, 1) as silent, Crowd(service, 2, HEALTH[:20]) as slow:
        assert status_of(idle.held[0].recv(4096)) == 200
        time.sleep(1.2)
        with Crowd(service, 4) as others:
            for connection in (*silent.held, *slow.held):
                text = read(connection)
                assert status_of(text) == 503 and b"Connection: close\r\n" in text and text.endswith(b"\r\n\r\ntoo many connections\n"), text
            assert read(idle.held[0]) == b""
            assert others.open() == 4, "one that is new was closed"


@pytest.mark.parametrize("has_body", [False, True])
def test_whoever_has_a_place_and_asked_at_once_is_answered(started, world, has_body):
    """Forty requests are there as a whole before the service looks, at four places. Those that find no place are told so. Of the others none is lost."""
    service = started("--connections", 4, "--idle", 30)
    call = world.call(0, START, 1)
    post = b"POST /verify HTTP/1.1\r\nHost: x\r\nConnection: close\r\nX-Moment: %d\r\nContent-Length: %d\r\n\r\n%s" % (START, len(call), call)
    with service.stopped():
        crowd = Crowd(service, 40, post if has_body else HEALTH)
    with crowd:
        answers = [status_of(read(connection, 10)) for connection in crowd.held]
    assert answers.count(200) + answers.count(503) == 40, answers
    # Whoever asks for this may be turned away too.
    assert answers.count(503) <= service.metric("stir_turned_away_total"), "one that had a place lost it"


def is_turned_away(service):
    """Whether one more connection is turned away while there are sixteen on which a request comes."""
    with Crowd(service, 16, b"POST /verify HTTP/1.1\r\n"):
        time.sleep(0.1)
        return asks(service) == 503


def test_if_all_are_busy_one_more_is_turned_away(started):
    """A request that comes for a second counts as slow, and its connection may go: on a busy machine that may be over before one more asks."""
    service = started("--connections", 16)
    assert any(is_turned_away(service) for _ in range(10)), "one more is served, though all are busy"


def test_a_crowd_that_sends_a_byte_now_and_then_shuts_nobody_out(started):
    service = started("--connections", 16, "--request", 30, "--idle", 30)
    stop, text = threading.Event(), b"POST /verify HTTP/1.1\r\nHost: x\r\nX: " + b"y" * 1000

    def drips():
        """Sends a byte each half second, and comes again as soon as it is cut off."""
        while not stop.is_set():
            try:
                with service.connect() as connection:
                    for byte in text:
                        connection.sendall(bytes([byte]))
                        if stop.wait(0.5):
                            return
            except OSError:
                stop.wait(0.05)

    workers = [threading.Thread(target=drips) for _ in range(16)]
    for worker in workers:
        worker.start()
    try:
        # Before its first second is over none of them is slow.
        time.sleep(1)
        assert wait_until(lambda: asks(service) == 200), "the crowd shuts all others out"
        answers = [asks(service) for _ in range(30)]
    finally:
        stop.set()
        for worker in workers:
            worker.join()
    assert answers == [200] * 30


def test_more_connections_than_there_may_be_arent_held(started, world):
    service = started("--connections", 16, "--idle", 30)
    with Crowd(service, 60) as crowd:
        assert wait_until(lambda: crowd.open() <= 16), f"{crowd.open()} are open"
        assert wait_until(lambda: service.metric("stir_connections") <= 17)
        assert service.metrics("stir_turned_away_total ") + service.metrics("stir_closed_for_others_total ") >= 40
    assert wait_until(lambda: service.metric("stir_connections") <= 1), "connections stay open"


def test_one_address_leaves_room_for_others(started):
    """Of one address no more than its share are held, also if all of them are in the middle of a request."""
    service = started("--connections", 16, "--connections-each", 4, "--request", 20)
    with Crowd(service, 12, b"POST /verify HTTP/1.1\r\nHost: x\r\nContent-Length: 9\r\n\r\n", "127.0.0.2") as crowd:
        assert wait_until(lambda: crowd.open() <= 4), f"{crowd.open()} of one address are open"
        assert [asks(service, "127.0.0.3") for _ in range(10)] == [200] * 10
        assert [asks(service) for _ in range(10)] == [200] * 10


def test_without_a_free_descriptor_it_waits_and_goes_on_after_that(started, world, tmp_path):
    service = started("--connections", 256, "--journal", tmp_path / "journal")
    assert service.outcome(world.call(0, START, 1), START) == "valid"
    resource.prlimit(service.process.pid, resource.RLIMIT_NOFILE, (len(os.listdir(f"/proc/{service.process.pid}/fd")) + 20, 4096))
    with Crowd(service, 80):
        time.sleep(0.5)
        share = service.share(2)
        assert share < 0.3, f"it uses {share:.0%} of a processor while it has no descriptor"
        assert service.lives()
    assert wait_until(lambda: asks(service) == 200), "it doesn't answer again"
    service.connection = None
    assert service.outcome(world.call(0, START, 2), START) == "valid"
    assert service.outcome(world.call(0, START, 1), START) == "replay"


def test_what_a_thousand_large_bodies_hold_is_bounded_and_given_back(started, world):
    """Bodies of the largest size on every connection there may be, none of which is whole."""
    service = started("--connections", 200, "--request", 3)

    def memory():
        with open(f"/proc/{service.process.pid}/statm", encoding="ascii") as file:
            return int(file.read().split()[1]) * 4096

    before = memory()
    with Crowd(service, 200, b"POST /verify HTTP/1.1\r\nHost: x\r\nContent-Length: 131072\r\n\r\n" + b"x" * 131000):
        time.sleep(0.5)
        assert memory() - before < 100 << 20
    assert wait_until(lambda: memory() - before < 40 << 20), f"{memory() - before} bytes are held"
    assert service.outcome(world.call(0, START, 1), START) == "valid"


def test_more_connections_than_the_system_allows_stop_the_start(started):
    """By a limit that the service may not raise."""
    with pytest.raises(RuntimeError) as fault:
        started("--connections", 65536, before=lambda: resource.setrlimit(resource.RLIMIT_NOFILE, (4096, 4096)))
    assert "descriptors" in str(fault.value) and "panicked" not in str(fault.value), fault.value


def test_the_limit_that_may_be_raised_is_raised(started, world):
    service = started("--connections", 1000, before=lambda: resource.setrlimit(resource.RLIMIT_NOFILE, (256, 4096)))
    with Crowd(service, 600) as crowd:
        assert service.outcome(world.call(0, START, 1), START) == "valid"
        assert crowd.open() == 600
