"""Where tickets are kept, while it fails: no call is valid that couldn't be kept, none is valid twice, the service says that it isn't ready, and goes on by
itself when there is room again."""
import collections
import concurrent.futures
import contextlib
import http.client
import json
import os
import resource
import signal
import socket
import subprocess
import time

import pytest
import redises
from redises import Peer, Redis, between
from stird import free_port, wait_until
from world import START

needs_redis = pytest.mark.skipif(not redises.PROGRAM, reason=redises.MISSING)


@pytest.fixture
def calls(world):
    """Good calls that were never sent."""
    return (world.call(number % world.count, START, number) for number in range(1, 10_000))


def outcomes(service, messages):
    return collections.Counter(service.outcome(message, START) for message in messages)


def some(calls, count):
    return [next(calls) for _ in range(count)]


def is_ready(service):
    return service.ready()[0]


def says_why(service, pattern=""):
    """Whether it says that it isn't ready, and something of why."""
    well, text = service.ready()
    return not well and pattern in text.lower()


@contextlib.contextmanager
def small_disk(folder, size):
    """A file system of so many bytes; a test that may make none is left out."""
    folder.mkdir()
    done = subprocess.run(["mount", "-t", "tmpfs", "-o", f"size={size}", "tmpfs", folder], stderr=subprocess.PIPE, check=False)
    if done.returncode:
        pytest.skip(f"no file system can be mounted: {done.stderr.decode().strip()}")
    try:
        yield folder
    finally:
        subprocess.run(["umount", "-l", folder], check=False)


def test_a_full_disk_makes_calls_unjudged_until_there_is_room(started, calls, tmp_path):
    with small_disk(tmp_path / "disk", 1 << 20) as disk:
        service = started("--journal", disk / "journal")
        passed = some(calls, 5)
        assert outcomes(service, passed) == {"valid": 5}
        (disk / "filler").write_bytes(b"")
        with (disk / "filler").open("wb", buffering=0) as filler, contextlib.suppress(OSError):
            while filler.write(bytes(4096)):
                pass
        refused = []
        for message in some(calls, 2000):
            if (outcome := service.outcome(message, START)) == "valid":
                passed.append(message)
            else:
                assert outcome == "unjudged", outcome
                refused.append(message)
                if len(refused) == 3:
                    break
        assert len(refused) == 3, "it never ran out of room"
        assert outcomes(service, passed[:20]) == {"replay": len(passed[:20])}
        assert service.ask("GET", "/healthz")[0] == 503
        assert says_why(service), service.ready()
        (disk / "filler").unlink()
        assert wait_until(lambda: is_ready(service)), "it isn't ready, though there is room again"
        assert service.ask("GET", "/healthz")[0] == 200
        assert outcomes(service, refused) == {"valid": 3}, "a call that wasn't judged can't pass now"
        assert outcomes(service, some(calls, 20)) == {"valid": 20}
        service.process.kill()
        service.process.wait()
        again = started("--journal", disk / "journal")
        assert outcomes(again, passed + refused) == {"replay": len(passed) + 3}
        again.stop()


def test_a_start_on_a_disk_that_may_only_be_read_names_the_file(started, tmp_path):
    with small_disk(tmp_path / "disk", 1 << 20) as disk:
        subprocess.run(["mount", "-o", "remount,ro", disk], check=True)
        with pytest.raises(RuntimeError) as fault:
            started("--journal", disk / "journal")
        assert "journal" in str(fault.value)


def test_without_a_free_descriptor_it_goes_on_when_there_are_some(started, calls, tmp_path):
    service = started("--journal", tmp_path / "journal")
    assert outcomes(service, some(calls, 3)) == {"valid": 3}
    open_ones = len(os.listdir(f"/proc/{service.process.pid}/fd"))
    resource.prlimit(service.process.pid, resource.RLIMIT_NOFILE, (open_ones, 4096))
    held = outcomes(service, some(calls, 10))
    assert set(held) <= {"valid", "unjudged"}, held
    time.sleep(1.5)
    resource.prlimit(service.process.pid, resource.RLIMIT_NOFILE, (4096, 4096))
    assert wait_until(lambda: is_ready(service))
    assert outcomes(service, some(calls, 10)) == {"valid": 10}


@pytest.mark.parametrize(("one", "other"), [("a.one", "a.two"), ("x", "x.new"), ("x", "x.lock"), ("x.new", "x.lock")])
def test_files_of_tickets_with_like_names_are_two(one, other, started, calls, tmp_path):
    services = [started("--journal", tmp_path / name) for name in (one, other)]
    messages = some(calls, 3)
    for service in services:
        assert outcomes(service, messages) == {"valid": 3}
    for service in services:
        service.stop()
    for name in (one, other):
        assert outcomes(started("--journal", tmp_path / name), messages) == {"replay": 3}, f"{name} lost its tickets"


def test_a_second_service_on_the_same_file_is_refused(started, calls, tmp_path):
    (tmp_path / "link").symlink_to(tmp_path / "journal")
    service = started("--journal", tmp_path / "journal")
    assert outcomes(service, some(calls, 1)) == {"valid": 1}
    for name in ("journal", "link"):
        with pytest.raises(RuntimeError) as fault:
            started("--journal", tmp_path / name)
        assert name in str(fault.value)
    assert outcomes(service, some(calls, 1)) == {"valid": 1}


def test_a_symbolic_link_stays_one(started, calls, tmp_path):
    (tmp_path / "real").mkdir()
    (tmp_path / "link").symlink_to(tmp_path / "real" / "journal")
    messages = some(calls, 2)
    service = started("--journal", tmp_path / "link")
    assert outcomes(service, messages) == {"valid": 2}
    service.stop()
    assert (tmp_path / "link").is_symlink()
    assert outcomes(started("--journal", tmp_path / "real" / "journal"), messages) == {"replay": 2}


def test_a_file_that_is_removed_under_it_is_told_and_lets_nothing_pass_twice(started, calls, tmp_path):
    """What is written into a file that has no name any more is lost by a restart."""
    service, before, after = started("--journal", tmp_path / "journal"), some(calls, 2), some(calls, 2)
    assert outcomes(service, before) == {"valid": 2}
    for path in tmp_path.glob("journal*"):
        path.unlink()
    wait_until(lambda: not is_ready(service), 2)
    later = [message for message in after if service.outcome(message, START) == "valid"]
    service.stop()
    again = started("--journal", tmp_path / "journal")
    assert outcomes(again, later) in ({}, {"replay": len(later)}), "a ticket that was kept nowhere passed, and passes again"


def test_a_damaged_file_stops_the_start_and_is_named(started, calls, tmp_path):
    path = tmp_path / "journal"
    service = started("--journal", path)
    assert outcomes(service, some(calls, 50)) == {"valid": 50}
    service.stop()
    content = bytearray(path.read_bytes())
    content[:100] = b"\xff" * 100
    path.write_bytes(content)
    with pytest.raises(RuntimeError) as fault:
        started("--journal", path)
    assert str(path) in str(fault.value) and "panicked" not in str(fault.value)


def test_a_journal_of_an_earlier_version_is_taken_over(started, calls, tmp_path):
    """Lines of a ticket, its last second and the number of its call."""
    path, ticket = tmp_path / "journal", bytes(range(32)).hex()
    path.write_text(f"forgotten {START - 100}\n{ticket} {START + 60} 41\n")
    service, message = started("--journal", path), next(calls)
    told = service.verify(message, START)
    assert (told["outcome"], told["call"]) == ("valid", 42), told
    assert service.metric("stir_tickets") == 2
    service.stop()
    again = started("--journal", path)
    assert again.verify(message, START)["winner"] == 42
    assert again.metric("stir_tickets") == 2


def test_past_the_most_tickets_calls_are_unjudged_and_that_is_told(started, calls):
    service = started("--tickets", 10)
    passed = some(calls, 10)
    assert outcomes(service, passed) == {"valid": 10}
    assert outcomes(service, some(calls, 5)) == {"unjudged": 5}
    assert outcomes(service, passed) == {"replay": 10}
    assert says_why(service, "ticket"), service.ready()


@pytest.fixture
def redis(tmp_path):
    with Redis(tmp_path) as one:
        yield one


def at_once(service, messages, count):
    """Outcomes of calls that come on so many connections, and the longest time that one took."""
    def send(part):
        connection, told = http.client.HTTPConnection("127.0.0.1", service.port, timeout=60), []
        for message in part:
            begun = time.monotonic()
            connection.request("POST", "/verify", message, {"X-Moment": str(START)})
            told.append((json.loads(connection.getresponse().read())["outcome"], time.monotonic() - begun))
        connection.close()
        return told

    with concurrent.futures.ThreadPoolExecutor(count) as workers:
        told = [one for part in workers.map(send, [messages[first::count] for first in range(count)]) for one in part]
    return collections.Counter(outcome for outcome, _ in told), max(took for _, took in told)


@needs_redis
def test_after_a_redis_was_started_again_each_call_is_judged(started, calls, redis):
    """Connections that were made before are dead, and are dropped together."""
    service = started("--redis", redis.address())
    assert at_once(service, some(calls, 200), 32)[0] == {"valid": 200}
    redis.stop()
    redis.start()
    told = outcomes(service, some(calls, 60))
    assert told["valid"] >= 59, told
    assert is_ready(service)


@needs_redis
def test_a_redis_that_closes_idle_connections_costs_no_call(started, calls, redis):
    service = started("--redis", redis.address())
    redis.says("CONFIG SET timeout 1")
    assert at_once(service, some(calls, 100), 16)[0] == {"valid": 100}
    time.sleep(3)
    assert outcomes(service, some(calls, 20)) == {"valid": 20}


@needs_redis
def test_a_redis_that_takes_no_writes_is_told_also_without_calls(started, calls, redis):
    """It answers a PING, but sets nothing: it wants a replica that isn't there."""
    service = started("--redis", redis.address())
    assert is_ready(service)
    redis.says("CONFIG SET min-replicas-to-write 1")
    assert wait_until(lambda: not is_ready(service)), "it says that it is ready"
    assert service.ask("GET", "/healthz")[0] == 503
    assert outcomes(service, some(calls, 3)) == {"unjudged": 3}
    late = started("--redis", redis.address())
    assert not is_ready(late), "a service that starts now says that it is ready"
    redis.says("CONFIG SET min-replicas-to-write 0")
    assert wait_until(lambda: is_ready(service) and is_ready(late))
    assert outcomes(service, some(calls, 3)) == {"valid": 3}


@needs_redis
def test_a_replica_that_may_only_be_read_is_told(started, calls, redis, tmp_path):
    (tmp_path / "replica").mkdir()
    with Redis(tmp_path / "replica", "--replicaof", f"127.0.0.1 {redis.port}") as replica:
        service = started("--redis", replica.address())
        assert wait_until(lambda: says_why(service)), service.ready()
        assert outcomes(service, some(calls, 3)) == {"unjudged": 3}
        replica.says("REPLICAOF NO ONE")
        assert wait_until(lambda: is_ready(service))
        assert outcomes(service, some(calls, 3)) == {"valid": 3}


@needs_redis
def test_while_a_redis_hangs_calls_are_unjudged_at_once(started, calls, redis):
    service = started("--redis", redis.address())
    redis.process.send_signal(signal.SIGSTOP)
    try:
        begun = time.monotonic()
        told, longest = at_once(service, some(calls, 400), 64)
        took = time.monotonic() - begun
        assert told == {"unjudged": 400}
        assert took < 8 and longest < 4, f"400 calls took {took:.1f} s, and one {longest:.1f} s"
        assert says_why(service)
    finally:
        redis.process.send_signal(signal.SIGCONT)
    assert wait_until(lambda: is_ready(service))
    assert outcomes(service, some(calls, 5)) == {"valid": 5}


@needs_redis
def test_a_redis_that_answers_byte_by_byte_keeps_no_call(started, calls, redis):
    slow = False
    with between(redis, lambda: 0.3 if slow else 0) as peer:
        service = started("--redis", peer.address())
        assert outcomes(service, some(calls, 2)) == {"valid": 2}
        slow = True
        begun = time.monotonic()
        assert outcomes(service, some(calls, 1)) == {"unjudged": 1}
        assert time.monotonic() - begun < 3, f"a call took {time.monotonic() - begun:.1f} s"
        slow = False
        assert wait_until(lambda: is_ready(service), 15)
        assert wait_until(lambda: outcomes(service, some(calls, 1)) == {"valid": 1})


@needs_redis
def test_an_answer_that_was_lost_on_its_way_is_no_replay(started, calls, redis):
    """The Redis has set the ticket, and the connection is closed before it says so."""
    cut = False

    def does(connection):
        with socket.create_connection(("127.0.0.1", redis.port)) as other:
            while piece := connection.recv(4096):
                other.sendall(piece)
                answer = other.recv(4096)
                if cut and b"SET" in piece:
                    return
                connection.sendall(answer)

    with Peer(does) as peer:
        service = started("--redis", peer.address())
        assert outcomes(service, some(calls, 2)) == {"valid": 2}
        cut = True
        message = next(calls)
        assert service.outcome(message, START) in ("unjudged", "valid")
        cut = False
        assert wait_until(lambda: is_ready(service))
        assert wait_until(lambda: outcomes(service, some(calls, 1)) == {"valid": 1})


@needs_redis
@pytest.mark.parametrize("policy", ["allkeys-lru", "volatile-ttl", "allkeys-random"])
def test_a_redis_that_may_drop_tickets_is_refused_or_told(policy, started, redis):
    redis.says("CONFIG SET maxmemory 4mb")
    redis.says(f"CONFIG SET maxmemory-policy {policy}")
    try:
        service = started("--redis", redis.address(), patience=10)
    except RuntimeError as fault:
        assert "evict" in str(fault) or policy in str(fault)
        return
    assert wait_until(lambda: says_why(service)), service.ready()


@needs_redis
def test_a_policy_that_drops_tickets_is_told_if_it_is_set_later(started, calls, redis):
    service = started("--redis", redis.address())
    assert is_ready(service)
    redis.says("CONFIG SET maxmemory 4mb")
    redis.says("CONFIG SET maxmemory-policy allkeys-lru")
    assert wait_until(lambda: says_why(service), 15), service.ready()
    redis.says("CONFIG SET maxmemory-policy noeviction")
    assert wait_until(lambda: is_ready(service), 15)
    assert outcomes(service, some(calls, 3)) == {"valid": 3}


@needs_redis
def test_a_full_redis_makes_calls_unjudged(started, calls, redis):
    service = started("--redis", redis.address())
    redis.says("CONFIG SET maxmemory 1")
    told = outcomes(service, some(calls, 3))
    assert told == {"unjudged": 3}, told
    assert wait_until(lambda: says_why(service))
    redis.says("CONFIG SET maxmemory 0")
    assert wait_until(lambda: is_ready(service))
    assert outcomes(service, some(calls, 3)) == {"valid": 3}


GARBAGE = {
    "nothing": b"", "an empty line": b"\r\n", "an error": b"-ERR\r\n", "letters past ASCII": "\u00e9\r\n".encode(), "a byte that is none": b"\xff\r\n",
    "a size past all": b"$99999999999999999999\r\n", "less than was said": b"$5\r\n", "a long line": b"x" * 5000, "a list that never ends": b"*1\r\n" * 500,
    "another protocol": b"HTTP/1.1 400 Bad Request\r\n\r\n", "a negative size": b"$-2\r\n", "zeros": bytes(100),
}


@pytest.mark.parametrize("what", GARBAGE)
def test_what_no_redis_would_say_makes_calls_unjudged_and_ends_nothing(what, started, calls):
    def does(connection):
        while text := connection.recv(4096):
            connection.sendall(b"+PONG\r\n" if b"PING" in text.upper() else GARBAGE[what])

    with Peer(does) as peer:
        try:
            service = started("--redis", peer.address(), patience=15)
        except RuntimeError as fault:
            assert "panicked" not in str(fault)
            return
        begun = time.monotonic()
        assert outcomes(service, some(calls, 3)) == {"unjudged": 3}
        assert time.monotonic() - begun < 8
        assert service.lives()
        assert wait_until(lambda: says_why(service)), service.ready()


@needs_redis
def test_a_redis_with_a_password_is_asked_with_it(started, calls, tmp_path):
    with Redis(tmp_path, "--requirepass", "secret") as redis:
        service = started("--redis", f"redis://:secret@127.0.0.1:{redis.port}")
        assert outcomes(service, some(calls, 3)) == {"valid": 3}
        for address in (f"redis://:wrong@127.0.0.1:{redis.port}", redis.address()):
            try:
                late = started("--redis", address, patience=10)
            except RuntimeError as fault:
                assert "wrong" not in str(fault), "a password is told"
                continue
            assert wait_until(lambda late=late: says_why(late)), late.ready()
            assert outcomes(late, some(calls, 1)) == {"unjudged": 1}
            assert "wrong" not in late.text(), "a password is told"


@needs_redis
def test_a_redis_is_spoken_to_over_tls(started, calls, tmp_path):
    words = ["-subj", "/CN=localhost", "-addext", "subjectAltName=DNS:localhost,IP:127.0.0.1"]
    subprocess.run(["openssl", "req", "-x509", "-newkey", "ec", "-pkeyopt", "ec_paramgen_curve:P-256", "-nodes", *words, "-days", "3", "-keyout", "key.pem",
                    "-out", "cert.pem"], cwd=tmp_path, check=True, stderr=subprocess.DEVNULL)
    port = free_port()
    with Redis(tmp_path, "--tls-port", str(port), "--tls-cert-file", "cert.pem", "--tls-key-file", "key.pem", "--tls-auth-clients", "no"):
        trusted = {"SSL_CERT_FILE": str(tmp_path / "cert.pem")}
        service = started("--redis", f"rediss://localhost:{port}", variables=trusted)
        assert outcomes(service, some(calls, 3)) == {"valid": 3}
        try:
            late = started("--redis", f"rediss://localhost:{port}", patience=10)
        except RuntimeError:
            return
        assert outcomes(late, some(calls, 1)) == {"unjudged": 1}, "a certificate that nobody vouches for is taken"


@needs_redis
def test_a_redis_that_isnt_there_at_the_start_is_taken_when_it_comes(started, calls, tmp_path):
    redis = Redis(tmp_path)
    redis.stop()
    try:
        service = started("--redis", redis.address(), patience=10)
    except RuntimeError:
        # systemd starts it again.
        return
    assert not is_ready(service)
    redis.start()
    try:
        assert wait_until(lambda: is_ready(service))
        assert outcomes(service, some(calls, 3)) == {"valid": 3}
    finally:
        redis.stop()
