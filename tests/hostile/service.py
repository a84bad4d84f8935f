#!/usr/bin/env python3
"""Tries the service under what is hostile or breaks: nothing ends it, nothing is valid twice, and afterwards it judges as before.

    tests/hostile/service.py STIRD [--seed NUMBER] [--requests COUNT] [--files COUNT] [--connections COUNT] [PART ..]

Each PART by its name, or all:

    kills        ten times killed under load, with its tickets on a disk and in a Redis
    forget       20,000 tickets that are no longer fresh go, while calls come
    late         a request comes again for 32 seconds
    crowd        COUNT idle connections beside one that asks
    requests     COUNT mutated messages and JSON bodies, four at once
    heads        a fifth as many mutated HTTP connections
    starts       COUNT mutated files, each at a start
    reloads      COUNT mutated files, each put in place while it runs
    fetch        a tenth as many x5us that nobody asked for before, and ten times killed while what was fetched is written

What was drawn can be drawn again by the seed, which is printed. What was sent last when the service ended is written to a file that is named.
"""
import argparse
import base64
import collections
import concurrent.futures
import http.client
import json
import pathlib
import random
import re
import resource
import socket
import sys
import tempfile
import threading
import time

sys.path.insert(0, str(pathlib.Path(__file__).resolve().parents[1] / "service"))
import load  # noqa: E402
import redises  # noqa: E402
import signing  # noqa: E402
import strangers  # noqa: E402
import web  # noqa: E402
from stird import Stird, wait_until  # noqa: E402
from world import START, World, base64url  # noqa: E402

# A token without its signature (RFC 7515, section 7.1): by it a call is known again.
SIGNED = re.compile(rb"([\w-]+\.[\w-]+)\.[\w-]{86}")

# Pieces that matter to a reader of SIP, JSON, HTTP or DER.
PIECES = [
    b"\r\n", b"\n", b"\r", b"\0", b"\xff", b"Identity: ", b";info=<", b">", b"<", b'"', b";ppt=shaken", b";ppt=div", b";alg=ES256", b".", b"..", b"=",
    b"-", b"_", b"A" * 8193, b"9" * 20, b"+", b"%23", b"@", b"tel:", b"sip:", b"sips:", b"P-Asserted-Identity: <tel:+12000000007>, <sip:a@b>\r\n",
    b"Date: Sat, 13 Nov 2010 23:29:00 GMT\r\n", b" ", b"\t", b"\r\n ", b"INVITE", b"SIP/2.0", b'{"', b"[[[[[[", b"\\u0000", b"1e999", b"-0",
    b"18446744073709551616", b"Content-Length: 99999999999\r\n", b"Max-Forwards: 256\r\n", b"From: ", b"To: ", b"y: ", b"f: ", b"t: ", b",", b"\\",
]
LINES = [
    b"\r\n", b"\n", b"\r", b"\0", b":", b" ", b"\t", b"Content-Length: 5\r\n", b"Content-Length: 99999999999999999999\r\n",
    b"Transfer-Encoding: chunked\r\n", b"HTTP/1.1", b"\xff", b"\xc3\xa9", b"X-Moment: 18446744073709551615\r\n", b"Expect: 100-continue\r\n", b"a" * 17000,
    b"\r\n\r\n", b"Idempotency-Key: a\r\n", b"X-RequestID: a\r\n", b"Connection: close\r\n", b"Upgrade: h2c\r\n", b"0\r\n\r\n",
]
DER = [b"\xff\xff\xff\xff", b"\x30\x80", b"\x30\x83\xff\xff\xff", b" ", b"\n", b"99999999999999999999", b"*", b"\0", b"; "]


class Draw(random.Random):
    """Draws, and mutates bytes by what it draws."""

    def mutated(self, data, pieces, others=()):
        """The same but for one place."""
        if not data:
            return self.randbytes(5)
        at = self.randrange(len(data))
        end, how = min(len(data), at + self.choice((1, 1, 2, 4, 16, 64, 400))), self.random()
        if how < 0.25:
            return data[:at] + bytes([self.randrange(256)]) + data[at + 1 :]
        if how < 0.4:
            return data[:at] + data[end:]
        if how < 0.6:
            return data[:at] + self.choice(pieces) + data[at:]
        if how < 0.7:
            return data[:at] + data[at:end] * self.choice((2, 3, 50)) + data[end:]
        if how < 0.8:
            return data[:at] + self.choice(pieces) + data[end:]
        if how < 0.85:
            return data[:at]
        if how < 0.93 and others:
            other = self.choice(others)
            place = self.randrange(len(other))
            return data[:at] + other[place : place + self.choice((10, 100, 1000))] + data[at:]
        lines = data.split(b"\r\n")
        self.shuffle(lines)
        return b"\r\n".join(lines)

    def often(self, data, pieces, others=()):
        for _ in range(self.choice((1, 1, 2, 3, 8))):
            data = self.mutated(data, pieces, others)
        return data

    def token(self, message):
        """A message of which a part of a token is mutated below its base64."""
        found = SIGNED.search(message)
        if not found:
            return message
        parts, which = found[0].split(b"."), self.randrange(3)
        inner = base64.urlsafe_b64decode(parts[which] + b"==")
        parts[which] = base64url(self.often(inner, PIECES)).encode()
        return message[: found.start()] + b".".join(parts) + message[found.end() :]


class Tally:
    """What came of calls, and which were valid."""

    def __init__(self):
        self.outcomes, self.valid, self.lock = collections.Counter(), collections.Counter(), threading.Lock()

    def take(self, message, outcome):
        with self.lock:
            self.outcomes[outcome] += 1
            if outcome == "valid":
                self.valid[tuple(SIGNED.findall(message))] += 1

    def twice(self):
        return [tokens for tokens, count in self.valid.items() if count > 1]

    def check(self):
        assert self.valid, f"no call was valid: {dict(self.outcomes)}"
        assert not self.twice(), f"valid twice: {self.twice()[:3]}"


def works(service, world, numbers):
    """It runs, and judges as before."""
    assert service.lives(), f"it ended with {service.process.returncode}: {service.text()[-2000:]}"
    service.connection = None
    message = world.call(0, START, next(numbers))
    told = [service.outcome(message, START) for _ in range(2)]
    assert told == ["valid", "replay"], told


def request(message, path="/verify", fields=b""):
    return b"POST %s HTTP/1.1\r\nHost: x\r\nX-Moment: %d\r\n%sContent-Length: %d\r\n\r\n" % (path.encode(), START, fields, len(message)) + message


# ---- killed under load

def kills(at):
    told = [killed(at, "a disk", ["--journal", str(at.folder / "journal")])]
    if not redises.PROGRAM:
        return f"{told[0]}; {redises.MISSING}"
    with redises.Redis(at.folder) as redis:
        return f"{told[0]}; {killed(at, 'a Redis', ['--redis', redis.address()])}"


def killed(at, where, words):
    tally, lost, twice = Tally(), 0, 0
    for _ in range(10):
        messages = [at.world.call(number % at.world.count, START, number) for number in (next(at.numbers) for _ in range(1500))]
        service, stop, unanswered = Stird(at.stird, [*at.world.words(), "--moments", "asked", *words]), threading.Event(), []
        workers = [threading.Thread(target=sends, args=(service, messages[first::8], tally, stop, unanswered)) for first in range(8)]
        for worker in workers:
            worker.start()
        stop.wait(at.draw.uniform(0.05, 0.5))
        service.process.kill()
        service.process.wait()
        stop.set()
        for worker in workers:
            worker.join()
        passed = [message for message in messages if tally.valid[tuple(SIGNED.findall(message))]]
        with Stird(at.stird, [*at.world.words(), "--moments", "asked", *words]) as again:
            for message in at.draw.sample(passed, min(60, len(passed))):
                assert again.outcome(message, START) == "replay", "a ticket that passed before a kill passes after it"
            for message in unanswered:
                lost += 1
                tally.take(message, again.outcome(message, START))
        twice += len(tally.twice())
    tally.check()
    return f"{where}: {sum(tally.valid.values())} valid, each once; {lost} answers were lost"


def sends(service, messages, tally, stop, unanswered):
    connection = http.client.HTTPConnection("127.0.0.1", service.port, timeout=10)
    for message in messages:
        if stop.is_set():
            return
        try:
            connection.request("POST", "/verify", message, {"X-Moment": str(START)})
            tally.take(message, json.loads(connection.getresponse().read())["outcome"])
        except (OSError, http.client.HTTPException, ValueError):
            unanswered.append(message)
            return


# ---- tickets that go

def forget(at):
    """Tickets that are no longer fresh after a second are forgotten, while calls come."""
    words = ["--past", "1", "--moments", "asked", "--journal", str(at.folder / "journal")]
    calls = [(START, at.world.call(number % at.world.count, START, number)) for number in range(20_000)]
    given, client = load.written(at.folder / "requests", calls), load.light_client(at.folder)
    with Stird(at.stird, [*at.world.words(), *words]) as service:
        answers, *_ = load.send_light(service.port, given, 0, 64, client)
        assert sum(b'"outcome":"valid"' in answer for answer in answers) == service.metric("stir_tickets") == 20_000
        number, times, until = 0, [], time.monotonic() + 60
        while service.metric("stir_tickets") > 2000 and time.monotonic() < until:
            moment = START + 30 + number // 50
            message, begun = at.world.call(number % at.world.count, moment, number), time.monotonic()
            assert service.outcome(message, moment) == "valid"
            times.append(time.monotonic() - begun)
            number += 1
            time.sleep(0.01)
        held = service.metric("stir_tickets")
        assert held <= 2000, f"{held:.0f} are held"
        assert service.outcome(calls[-1][1], START) in ("replay", "unjudged"), "what was forgotten passes again"
    return f"20000 tickets; {len(times)} calls meanwhile took {max(times) * 1000:.0f} ms at most"


# ---- requests that come again

def late(at):
    """The answer to a request is kept for its key for 32 seconds, and no longer."""
    with Stird(at.stird, [*at.world.words(), "--moments", "asked"]) as service:
        begun, message = time.monotonic(), at.world.call(0, START, next(at.numbers))
        assert service.outcome(message, START, {"Idempotency-Key": "one"}) == "valid"
        while service.outcome(message, START, {"Idempotency-Key": "one"}) == "valid":
            assert time.monotonic() - begun < 40, "it is kept for more than 40 seconds"
            time.sleep(0.2)
        took = time.monotonic() - begun
        assert took >= 31, f"it was kept for {took:.1f} seconds alone"
        assert service.outcome(message, START, {"Idempotency-Key": "one"}) == "replay"
    return f"an answer was kept for {took:.1f} seconds"


# ---- a crowd

def crowd(at):
    most = resource.getrlimit(resource.RLIMIT_NOFILE)[1]
    resource.setrlimit(resource.RLIMIT_NOFILE, (most, most))
    count = min(at.connections, most - 100)
    with Stird(at.stird, [*at.world.words(), "--moments", "asked", "--idle", "60"]) as service:
        held, times = [], []

        def asked():
            begun = time.monotonic()
            message = at.world.call(0, START, next(at.numbers))
            assert service.outcome(message, START) == "valid"
            times.append(time.monotonic() - begun)

        asked()
        for number in range(count):
            one = socket.socket()
            one.setblocking(False)
            try:
                one.connect(("127.0.0.1", service.port))
            except BlockingIOError:
                pass
            held.append(one)
            if number % 100 == 99:
                asked()
        for _ in range(50):
            asked()
        memory = int(pathlib.Path(f"/proc/{service.process.pid}/statm").read_text().split()[1]) * 4096 >> 20
        open_now = service.metric("stir_connections")
        for one in held:
            one.close()
        assert wait_until(lambda: service.metric("stir_connections") <= 2), "connections stay"
        works(service, at.world, at.numbers)
        times.sort()
        middle, longest = times[len(times) // 2] * 1000, times[-1] * 1000
        return f"{count} idle connections: {len(times)} calls, the median {middle:.1f} ms, at most {longest:.0f} ms; {open_now:.0f} open, {memory} MB"


# ---- mutated requests

def requests(at):
    tally, statuses = Tally(), collections.Counter()
    with Stird(at.stird, [*at.world.words(), "--moments", "asked", "--signing", str(at.blocks)]) as service:
        with concurrent.futures.ThreadPoolExecutor(4) as workers:
            parts = [workers.submit(mutated, at, service, Draw(f"{at.seed} {part}"), at.requests // 4, tally, statuses) for part in range(4)]
            for part in parts:
                part.result()
        works(service, at.world, at.numbers)
    tally.check()
    return f"{at.requests} requests: {dict(sorted(tally.outcomes.items()))}, JSON {dict(sorted(statuses.items()))}"


def mutated(at, service, draw, count, tally, statuses):
    seeds = at.messages
    connection, held, sent = None, b"", 0
    while sent < count:
        batch = [("/verify", one_message(draw, seeds)) if draw.random() < 0.8 else one_json(at, draw) for _ in range(32)]
        if connection is None:
            connection, held = socket.create_connection(("127.0.0.1", service.port), timeout=60), b""
        try:
            connection.sendall(b"".join(request(message, path) for path, message in batch))
            for path, message in batch:
                status, body, held = answer(connection, held)
                if path == "/verify":
                    assert status == 200, f"{status} for what is in {at.keep(message)}"
                    tally.take(message, json.loads(body)["outcome"])
                else:
                    with tally.lock:
                        statuses[status] += 1
        except OSError as fault:
            kept = at.keep(b"\n----\n".join(path.encode() + b" " + message for path, message in batch))
            raise AssertionError(f"no answer ({fault}); it {'runs' if service.lives() else 'ended'}; what was sent is in {kept}") from fault
        sent += len(batch)
    connection.close()


def answer(connection, held):
    """The status and the body of the next answer, and what came behind it."""
    while b"\r\n\r\n" not in held:
        piece = connection.recv(262144)
        if not piece:
            raise ConnectionError("the connection was closed")
        held += piece
    head, _, rest = held.partition(b"\r\n\r\n")
    size = int(re.search(rb"(?i)content-length: *(\d+)", head)[1])
    while len(rest) < size:
        piece = connection.recv(262144)
        if not piece:
            raise ConnectionError("the connection was closed")
        rest += piece
    return int(head.split(b" ")[1]), rest[:size], rest[size:]


def one_message(draw, seeds):
    message = draw.choice(seeds)
    return (draw.token(message) if draw.random() < 0.4 else draw.often(message, PIECES, seeds))[:130_000]


def one_json(at, draw):
    value = SIGNED.search(draw.choice(at.messages))
    identity = (value[0] if value else b"x").decode() + ";info=<https://certificates.example.org/0.pem>;alg=ES256;ppt=shaken"
    numbers = [at.world.number(0, 3), "00" + at.world.number(0, 3), "+1", "*#", "", None, 12, ["1"], "1" * 16]
    called = [["13105550100"], "13105550100", [], [1], {}, "#" * 15]
    if draw.random() < 0.5:
        path, said = "/stir/v1/verification", {"verificationRequest": {
            "from": {"tn": draw.choice(numbers)}, "to": {"tn": draw.choice(called)}, "time": draw.choice([START, 0, -1, 2**64, 1.5, "x", None, 2**64 - 1]),
            draw.choice(["identity", "identities"]): draw.choice([identity, [identity] * draw.choice((1, 2, 40)), [], None, "\u0000", 5])}}
    else:
        path, said = "/stir/v1/signing", {"signingRequest": {
            "orig": {"tn": draw.choice(numbers)}, "dest": {"tn": draw.choice(called)}, "attest": draw.choice(["A", "B", "C", "D", None, 1]),
            "iat": draw.choice([START, 0, 2**64 - 1, 253402300799, 253402300800, -1]),
            "origid": draw.choice(["123e4567-e89b-12d3-a456-426655440000", "x", None, "\u00e9" * 36, ""])}}
    text = json.dumps(said).encode()
    return path, (draw.often(text, PIECES) if draw.random() < 0.5 else text)[:130_000]


# ---- mutated connections

def heads(at):
    statuses, lock, count = collections.Counter(), threading.Lock(), at.requests // 5
    body = b"no INVITE"
    seeds = [request(body), b"GET /metrics HTTP/1.1\r\nHost: x\r\nConnection: keep-alive\r\n\r\n", b"HEAD http://x/readyz?a HTTP/1.1\r\nHost: x\r\n\r\n",
             b"POST /stir/v1/verification HTTP/1.0\r\nExpect: 100-continue\r\nContent-Length: 2\r\n\r\n{}", request(body, fields=b"Idempotency-Key: one\r\n")]

    def send(draw, times):
        for _ in range(times):
            data = draw.often(b"".join(draw.choice(seeds) for _ in range(draw.choice((1, 1, 2, 3)))), LINES, seeds)
            try:
                with socket.create_connection(("127.0.0.1", service.port), timeout=5) as connection:
                    connection.sendall(data)
                    connection.shutdown(socket.SHUT_WR)
                    text = Stird.rest(connection)
                said = re.findall(rb"HTTP/1\.1 (\d{3})", text) or [b"none"]
            except OSError as fault:
                said = [type(fault).__name__.encode()]
            with lock:
                statuses.update(one.decode() for one in said)
            assert service.lives(), f"it ended with {service.process.returncode}; what was sent is in {at.keep(data)}"

    with Stird(at.stird, [*at.world.words(), "--moments", "asked", "--request", "1", "--idle", "2"]) as service:
        with concurrent.futures.ThreadPoolExecutor(8) as workers:
            parts = [workers.submit(send, Draw(f"{at.seed} heads {part}"), count // 8) for part in range(8)]
            for part in parts:
                part.result()
        assert wait_until(lambda: service.metric("stir_connections") <= 2), "connections stay"
        works(service, at.world, at.numbers)
    return f"{count} connections: {dict(sorted(statuses.items()))}"


# ---- mutated files

PASSES = "valid", 0


class Files:
    """The files of a service, each of which may be mutated. The second chain signs nothing, so a start takes it whatever it has."""
    NAMES = ("chain-0.der", "chain-1.der", "chain-1.der", "anchors.der", "table.txt", "chains.txt", "blocks.txt", "key-0.pem")

    def __init__(self, folder):
        self.world = World(folder, 2)
        self.folder = folder
        (folder / "blocks.txt").write_text(signing.table(self.world, folder, [(0, 0, 100, "A")]))
        self.contents = {name: (folder / name).read_bytes() for name in self.NAMES}

    def words(self):
        return [*self.world.words(), "--moments", "asked", "--signing", str(self.folder / "blocks.txt")]

    def put(self, name, content):
        new = self.folder / "new"
        new.write_bytes(content)
        new.chmod(0o600)
        new.rename(self.folder / name)


def asks(service, files, number):
    """What it says of a call by each chain, and of one to be signed."""
    told = [service.verify(files.world.call(n, START, number), START) for n in (0, 1)]
    status, _ = service.json("/stir/v1/signing", signing.request(files.world.number(0, 5)))
    return *((one["outcome"], one["rule"]) for one in told), status


def starts(at):
    files, came = Files(at.folder / "starts"), collections.Counter()
    journal = files.folder / "journal"
    lines = b"forgotten 0\n" + b"".join(b"%064x %d %d\n" % (number, START + 50, number) for number in range(5))
    for count in range(at.files):
        name = at.draw.choice((*Files.NAMES, "journal"))
        content = at.draw.often(lines if name == "journal" else files.contents[name], DER)
        for path in files.folder.glob("journal*"):
            path.unlink()
        if name == "journal":
            journal.write_bytes(content)
        else:
            files.put(name, content)
        try:
            with Stird(at.stird, [*files.words(), "--journal", str(journal)], patience=20) as service:
                came["runs", *asks(service, files, count + 1)] += 1
        except RuntimeError as fault:
            status = int(re.search(r"ended with (-?\d+)", str(fault))[1])
            assert status == 1 and "panicked" not in str(fault), f"{name}: {fault}; the file is in {at.keep(content)}"
            came["refused"] += 1
        except (OSError, http.client.HTTPException) as fault:
            raise AssertionError(f"{name}: {fault}; the file is in {at.keep(content)}") from fault
        if name != "journal":
            files.put(name, files.contents[name])
    return f"{at.files} files: {told(came)}"


def reloads(at):
    files, came = Files(at.folder / "reloads"), collections.Counter()
    with Stird(at.stird, [*files.words(), "--journal", str(files.folder / "journal")]) as service:
        for count in range(at.files):
            name = at.draw.choice(Files.NAMES)
            content = at.draw.often(files.contents[name], DER)
            files.put(name, content)
            if count % 20 == 19:
                time.sleep(1.2)
            try:
                came[asks(service, files, count + 1)] += 1
            except (OSError, http.client.HTTPException) as fault:
                raise AssertionError(f"{name}: {fault}; it {'runs' if service.lives() else 'ended'}; the file is in {at.keep(content)}") from fault
            if at.draw.random() < 0.5:
                for name, content in files.contents.items():
                    files.put(name, content)
        for name, content in files.contents.items():
            files.put(name, content)
        assert wait_until(lambda: asks(service, files, next(at.numbers) % 9000) == (PASSES, PASSES, 200)), "it doesn't judge as before"
    return f"{at.files} files: {told(came)}"


def told(came):
    """What came how often: of what runs, the rules that the two calls break and the status of signing."""
    def words(what):
        return what if isinstance(what, str) else " ".join(str(part[1] if isinstance(part, tuple) else part) for part in what)

    return ", ".join(f"{words(what)}: {count}" for what, count in came.most_common())


# ---- certificates that are fetched

def fetch(at):
    server = web.Web(at.folder / "web")
    world = web.Fetched(at.folder / "fetched", 4, server)
    try:
        with web.Fetching(at.stird, [*world.anchors(), *server.words(), "--connections", 64]) as service:
            told = strangers.beside(service, world, at.folder, at.requests // 10, at.numbers)
        return f"{told}; {killed_while_written(at, world, server)}"
    finally:
        server.stop()


def killed_while_written(at, world, server):
    """What is new is written five seconds after the start, and then it is killed."""
    folder, written = at.folder / "chains", 0
    words = [*world.anchors(), *server.words("--fetch-wait", 9000, "--fetch", folder)]
    whole = (world.folder / "chain-0.der").read_bytes()
    for turn in range(10):
        with web.Fetching(at.stird, words) as service:
            begun, number = time.monotonic(), 0
            while time.monotonic() - begun < 4.8:
                service.outcome(world.to(f"chain/0?{turn}-{number}", next(at.numbers), host=f"127.0.0.{number % web.HOSTS + 1}"))
                number += 1
                time.sleep(0.02)
            time.sleep(at.draw.uniform(0, 0.3))
            service.connection = None
            service.process.kill()
            service.process.wait()
        state = json.loads((folder / "fetched.json").read_text()) if (folder / "fetched.json").exists() else {}
        assert all((folder / line["file"]).read_bytes() == whole for line in state.values()), "a file isn't whole"
        assert len(state) >= written, "what was there is gone"
        written = len(state)
    with web.Fetching(at.stird, words) as service:
        assert service.metric("stir_cache_entries") == written
        asked = server.count()
        told = service.told_of(world.to(next(iter(state)), next(at.numbers)))
        assert told == ("valid", 0, "held") and server.count() == asked, told
    return f"{written} chains were written over ten kills"


PARTS = {part.__name__: part for part in (kills, forget, late, crowd, requests, heads, starts, reloads, fetch)}


class At:
    """What the parts share."""

    def __init__(self, given, folder):
        self.stird, self.seed, self.requests, self.files, self.connections = given.stird.resolve(), given.seed, given.requests, given.files, given.connections
        self.folder, self.draw, self.world = folder, Draw(given.seed), World(folder / "world", 20)
        self.numbers = iter(range(100_000, 10**9))
        self.blocks = folder / "blocks.txt"
        self.blocks.write_text(signing.table(self.world, folder, [(0, 0, 100, "A")]))
        kinds = ("forged", "outside", "unsigned", "unlisted", "old")
        self.messages = [self.world.call(n % 20, START, n) for n in range(40)] + [self.world.call(n, START, 100 + n, kind) for n in range(5) for kind in kinds]
        self.messages += [self.world.diverted(self.world.number(0, 7), ["13105550100", "13105550101", "13105550102"], START, n)[0] for n in range(10)]

    @staticmethod
    def keep(data):
        """Writes what was sent to a file that stays."""
        with tempfile.NamedTemporaryFile(prefix="stird-hostile-", delete=False) as file:
            file.write(data)
            return file.name


def main():
    words = argparse.ArgumentParser(description=__doc__, formatter_class=argparse.RawDescriptionHelpFormatter)
    words.add_argument("stird", type=pathlib.Path)
    words.add_argument("parts", metavar="PART", nargs="*", help=", ".join(PARTS))
    words.add_argument("--seed", type=int, default=random.SystemRandom().randrange(10**6))
    words.add_argument("--requests", type=int, default=100_000)
    words.add_argument("--files", type=int, default=500)
    words.add_argument("--connections", type=int, default=10_000)
    given = words.parse_intermixed_args()
    print(f"seed {given.seed}", flush=True)
    failed = 0
    for name in given.parts or PARTS:
        begun = time.monotonic()
        with tempfile.TemporaryDirectory() as folder:
            try:
                said = PARTS[name](At(given, pathlib.Path(folder)))
            except (AssertionError, RuntimeError) as fault:
                failed, said = 1, f"FAILED: {fault}"
        print(f"{name} ({time.monotonic() - begun:.0f} s): {said}", flush=True)
    return failed


if __name__ == "__main__":
    sys.exit(main())
