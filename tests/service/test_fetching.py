"""Certificates that are fetched when a call asks for them, from a real https server: what a call gets, what a server can't do, and what is kept.

Names with a public and a private address, and such as change between look-up and connection, are tried with a resolver of their own: in
`a_host_with_a_private_address_isnt_asked` and `what_was_looked_up_is_what_is_asked` (host/stir-trust/tests/fetch.rs).
"""
import calendar
import concurrent.futures
import contextlib
import json
import random
import re
import shutil
import signal
import socket
import time
import urllib.parse

import pytest
import signing
import strangers
from cryptography import x509
from cryptography.hazmat.primitives import serialization
from stird import Numbers, Stird, status_of, wait_until
from test_doors import outer
from web import Fetched, Fetching, Web, tls_certificate
from world import START, World, code_list, range_list

VALID = ("valid", 0)


@pytest.fixture
def web(tmp_path):
    server = Web(tmp_path / "web")
    yield server
    server.stop()


@pytest.fixture
def world(web, tmp_path):
    return Fetched(tmp_path / "world", 4, web)


@pytest.fixture
def started(stird):
    """Starts a service with these words, and ends it after the test."""
    services = []

    def start(*words, **others):
        services.append(Fetching(stird, words, **others))
        return services[-1]

    yield start
    for service in services:
        service.stop()


def good(world, n=0):
    return world.call(n, int(time.time()), Numbers.next())


def taken(seconds, begun):
    took = time.monotonic() - begun
    assert took < seconds, f"it took {took:.1f} seconds"
    return took


def seconds_of(certificate):
    """The first and the last second of a certificate."""
    return [calendar.timegm(moment.utctimetuple()) for moment in (certificate.not_valid_before, certificate.not_valid_after)]


# ---- what a call gets

def test_roots_and_hosts_alone_judge_the_first_call_of_an_unknown_carrier(started, web, world):
    service = started(*world.roots(), *web.words("--fetch-wait", 9000))
    assert service.told_of(good(world)) == (*VALID, "fetched")
    assert web.asked == {"/chain/0": 1}
    assert service.told_of(good(world)) == (*VALID, "held")
    assert web.count() == 1 and service.metric('stir_fetches_total{result="ok"}') == 1
    assert service.metric("stir_cache_entries") == 1 and service.metric("stir_fetch_seconds_count") == 1
    assert service.metric("stir_certificate_next_end_timestamp_seconds") == seconds_of(world.leaf(0))[1]


def test_a_thousand_calls_at_once_for_one_new_url_make_one_get(started, web, world):
    web.delay = 2.5
    requests = [b"POST /verify HTTP/1.1\r\nHost: x\r\nConnection: close\r\nContent-Length: %d\r\n\r\n" % len(one) + one
                for one in (world.to("slow/0", Numbers.next()) for _ in range(1000))]
    service = started(*world.anchors(), *web.words("--fetch-wait", 10_000), "--connections", 4000)
    with contextlib.ExitStack() as stack:
        connections = [stack.enter_context(service.connect(30)) for _ in requests]
        for connection, request in zip(connections, requests):
            connection.sendall(request)
        told = [json.loads(service.rest(connection).partition(b"\r\n\r\n")[2]) for connection in connections]
    assert {(one["outcome"], one["certificates"]) for one in told} <= {("valid", "fetched"), ("valid", "held")}
    waited = sum(one["certificates"] == "fetched" for one in told)
    assert web.asked == {"/slow/0": 1}
    # All of them, but for those that a slow machine reads after the fetch.
    assert waited > 100 and service.metric('stir_fetch_waits_total{end="in_time"}') == waited, waited


def test_answers_are_those_of_a_service_with_the_same_chains_in_its_map(stird, web, tmp_path):
    """Over calls of all kinds, at the moments at which they came; but for the field that says how certificates came."""
    world = Fetched(tmp_path / "world", 4, web, START)
    calls = list(world.calls(250))
    calls += [(START + 13, world.diverted(world.number(0, n), ["13105550100", *(world.number(k, 9) for k in (1, 2, 3))], START + 13, 20_000 + n)[0])
              for n in range(10)]
    asked = "--moments", "asked"
    with Stird(stird, [*world.words(), *asked]) as plain, Stird(stird, [*world.anchors(), *web.words("--fetch-wait", 9000), *asked]) as fetching:
        came = set()
        for moment, message in calls:
            wanted, got = (one.ask("POST", "/verify", message, {"X-Moment": str(moment)})[1] for one in (plain, fetching))
            came.add(re.search(rb'"certificates":"([^"]*)",|$', got)[1])
            assert re.sub(rb'"certificates":"[^"]*",', b"", got) == wanted, (wanted, got, message)
            assert b'"certificates":' not in wanted
        lines = [one.ask("POST", "/verify/line", calls[0][1], {"X-Moment": str(START)}) for one in (plain, fetching)]
        assert lines[0] == lines[1]
    assert came == {b"held", b"fetched", b"failed listed", None}, came
    assert set(web.asked.values()) == {1} and len(web.asked) == 4, web.asked


def test_a_call_that_breaks_rule_9_fetches_nothing(started, web, world):
    service = started(*world.anchors(), *web.words())
    old = world.call(0, int(time.time()) - 3700, Numbers.next())
    assert service.told_of(old) == ("refused", 9, None)
    assert service.told_of(world.call(1, int(time.time()), Numbers.next(), "unsigned"))[1:] == (2, None)
    assert web.count() == 0 and service.metrics(r"stir_cache_lookups_total") == 0


def test_the_operators_map_wins(started, web, world):
    (world.folder / "chains.txt").write_text(f"{world.x5u(0)} {world.folder}/chain-1.der\n{world.x5u(1)} {world.folder}/none.der\n")
    service = started(*world.words(), *web.words())
    assert service.told_of(good(world, 0)) == ("refused", 16, "held")
    assert service.told_of(good(world, 1)) == ("refused", 10, None)
    assert service.told_of(good(world, 2)) == (*VALID, "fetched")
    assert web.asked == {"/chain/2": 1}


def test_the_chains_of_one_call_are_waited_for_at_the_same_time(started, web, world):
    web.delay = 1.5
    world.x5u = lambda n: web.at(f"slow/{n}", f"127.0.0.{n + 1}")
    service = started(*world.anchors(), *web.words("--fetch-wait", 9000))
    hops = ["13105550100", world.number(1, 9), world.number(2, 9), world.number(3, 9)]
    message, _ = world.diverted(world.number(0, 1), hops, int(time.time()), Numbers.next())
    begun = time.monotonic()
    one = service.verify(message)
    took = taken(4, begun)
    assert one["certificates"] == "fetched" and web.count() == 4, (one, web.asked)
    assert took >= 1.5


def test_a_wait_has_a_limit_and_the_fetch_goes_on(started, web, world):
    web.delay = 2
    service = started(*world.anchors(), *web.words("--fetch-wait", 300))
    begun = time.monotonic()
    assert service.told_of(world.to("slow/0", Numbers.next())) == ("refused", 10, "late")
    assert 0.3 <= taken(1.8, begun)
    assert service.metric('stir_fetch_waits_total{end="late"}') == 1 and service.metric("stir_fetching") == 1
    assert wait_until(lambda: service.metric("stir_cache_entries") == 1)
    assert service.told_of(world.to("slow/0", Numbers.next())) == (*VALID, "held")
    assert web.asked == {"/slow/0": 1}


def test_with_no_wait_a_fetch_is_for_the_next_call(started, web, world):
    service = started(*world.anchors(), *web.words("--fetch-wait", 0))
    assert service.told_of(good(world)) == ("refused", 10, "late")
    assert wait_until(lambda: service.metric("stir_cache_entries") == 1)
    assert service.told_of(good(world)) == (*VALID, "held")


def test_a_quarter_of_the_connections_wait_and_the_next_call_doesnt(started, web, world):
    web.delay = 1.5
    service = started(*world.anchors(), *web.words("--fetch-wait", 9000), "--connections", 8)
    messages = [world.to(f"slow/{n}", Numbers.next(), n) for n in (0, 1)]
    third = world.to("slow/2", Numbers.next(), 2)
    with concurrent.futures.ThreadPoolExecutor(2) as workers:
        waiting = [workers.submit(told_apart, service, message) for message in messages]
        assert wait_until(lambda: web.count() == 2)
        begun = time.monotonic()
        assert told_apart(service, third) == ("refused", 10, "late")
        taken(1, begun)
        assert [one.result() for one in waiting] == [(*VALID, "fetched")] * 2
    assert service.metric('stir_fetch_waits_total{end="full"}') == 1


def told_apart(service, message):
    """The same over a connection of its own."""
    text = service.raw(b"POST /verify HTTP/1.1\r\nHost: x\r\nConnection: close\r\nContent-Length: %d\r\n\r\n" % len(message) + message, 20)
    one = json.loads(text.partition(b"\r\n\r\n")[2])
    return one["outcome"], one["rule"], one.get("certificates")


def test_atis_says_why_certificates_arent_there(started, web, world):
    service = started(*world.anchors(), *web.words("--fetch-wait", 9000))
    orig, now = world.number(0, 1), int(time.time())
    identity = world.identity(0, orig, "13105550100", now, 1, x5u=web.at("gone/1"))
    body = {"verificationRequest": {"from": {"tn": orig}, "to": {"tn": "13105550100"}, "time": now, "identity": identity}}
    status, told = service.json("/stir/v1/verification", body)
    assert status == 200 and told["verificationResponse"]["reasondesc"].startswith("rule 10 at 1.0, certificates failed status: the certificates "), told


# ---- what a server can't do

HOSTILE = {"gone/1": "status", "html/1": "form", "cut/1": "answer", "drip/1": "time", "endless/1": "size", "lines/1": "size", "away/0": "redirect"}


def test_hostile_servers_fail_in_time_and_are_told_once(started, web, world):
    service = started(*world.anchors(), *web.words("--fetch-wait", 9000))
    begun = time.monotonic()
    hosts = {path: f"127.0.0.{number + 2}" for number, path in enumerate(HOSTILE)}
    messages = {path: [world.to(path, Numbers.next(), host=host) for _ in range(3)] for path, host in hosts.items()}
    with concurrent.futures.ThreadPoolExecutor(21) as workers:
        waiting = {path: [workers.submit(told_apart, service, one) for one in some] for path, some in messages.items()}
        got = {path: {one.result() for one in some} for path, some in waiting.items()}
    assert got == {path: {("refused", 10, f"failed {word}")} for path, word in HOSTILE.items()}
    taken(8, begun)
    assert service.told_of(world.to("here/0", Numbers.next())) == (*VALID, "fetched"), "a redirect to the same host is followed"
    for path, host in hosts.items():
        line = re.escape(f'"{web.at(path, host)}" can\'t be fetched')
        assert wait_until(lambda line=line: service.told(line)) and len(service.told(line)) == 1, (path, service.text())
        assert web.asked[f"/{path}"] == 1
    for word in set(HOSTILE.values()):
        assert service.metric(f'stir_fetches_total{{result="{word}"}}') == list(HOSTILE.values()).count(word), word


@pytest.mark.parametrize("what", ["ended", "another name", "another authority"])
def test_a_tls_certificate_that_isnt_good_is_refused(what, started, tmp_path):
    names = [x509.DNSName("other.example")] if what == "another name" else [x509.DNSName("localhost")]
    server = Web(tmp_path / "web", names, -1 if what == "ended" else 30)
    try:
        if what == "another authority":
            server.authorities.write_bytes(tls_certificate("another", []))
        world = Fetched(tmp_path / "world", 1, server)
        service = started(*world.anchors(), *server.words("--fetch-wait", 9000))
        assert service.told_of(good(world)) == ("refused", 10, "failed tls")
        assert server.count() == 0
    finally:
        server.stop()


PRIVATE = ["169.254.169.254", "[::ffff:10.0.0.1]", "0.0.0.0", "127.0.0.1", "localhost"]


def test_private_addresses_arent_asked_though_they_are_listed(started, web, world):
    web.hosts.write_text("".join(f"{host}\n{host}:{web.port}\n" for host in PRIVATE))
    words = [word for word in web.words("--fetch-wait", 9000) if word not in ("--fetch-private", "yes")]
    service = started(*world.anchors(), *words)
    begun = time.monotonic()
    for host in PRIVATE:
        for port in ("", f":{web.port}"):
            assert service.told_of(world.to(f"https://{host}{port}/chain/0", Numbers.next())) == ("refused", 10, "failed private"), host
    for strange in ("http://localhost/a", "https://a@localhost/a", f"https://unlisted.example:{web.port}/a"):
        word = "listed" if "unlisted" in strange else "uri"
        assert service.told_of(world.to(strange, Numbers.next())) == ("refused", 10, f"failed {word}"), strange
    assert web.count() == 0
    taken(5, begun)


def test_a_failure_is_remembered_for_ten_seconds(started, web, world):
    service = started(*world.anchors(), *web.words("--fetch-wait", 9000))
    failed = ("refused", 10, "failed status")
    assert service.told_of(world.to("gone/1", Numbers.next())) == failed
    begun = time.monotonic()
    while time.monotonic() - begun < 9:
        assert service.told_of(world.to("gone/1", Numbers.next())) == failed
        time.sleep(0.5)
    assert web.asked == {"/gone/1": 1}
    assert wait_until(lambda: service.told_of(world.to("gone/1", Numbers.next())) == failed and web.asked["/gone/1"] == 2, 20)
    assert time.monotonic() - begun >= 9.9


def test_of_new_urls_twenty_a_second_are_asked_and_held_chains_dont_wait(started, web, world, tmp_path):
    service = started(*world.anchors(), *web.words(), "--connections", 64)
    print(strangers.beside(service, world, tmp_path, 1500, iter(Numbers.next, None)))


# ---- what is kept

def test_a_start_without_a_network_serves_from_a_warm_folder(started, web, world, tmp_path):
    folder = tmp_path / "folder"
    words = [*world.roots(), *web.words("--fetch-wait", 9000, "--fetch", folder)]
    service = started(*words)
    assert [service.told_of(good(world, n))[2] for n in range(3)] == ["fetched"] * 3
    assert service.stop() == 0
    state = json.loads((folder / "fetched.json").read_text())
    assert sorted(state) == sorted(world.x5u(n) for n in range(3))
    for n in range(3):
        assert (folder / state[world.x5u(n)]["file"]).read_bytes() == (world.folder / f"chain-{n}.der").read_bytes()
    web.stop()
    service = started(*words)
    assert [service.told_of(good(world, n)) for n in range(3)] == [(*VALID, "held")] * 3
    assert service.told_of(good(world, 3)) == ("refused", 10, "failed connect")


def test_a_folder_that_is_killed_while_it_is_written_is_read(started, web, world, tmp_path):
    """Ten times: the end of a service writes what is new, and is cut short."""
    folder, draw = tmp_path / "folder", random.Random(7)
    words = [*world.anchors(), *web.words("--fetch-wait", 9000, "--fetch", folder)]
    whole = (world.folder / "chain-0.der").read_bytes()
    fetched = 0
    for turn in range(10):
        service = started(*words)
        for number in range(8):
            path = f"chain/0?{turn}-{number}"
            assert service.told_of(world.to(path, Numbers.next(), host=f"127.0.0.{number + 1}"))[::2] == ("valid", "fetched")
        service.connection.close()
        service.connection = None
        service.process.send_signal(signal.SIGTERM)
        time.sleep(draw.uniform(0, 0.03))
        service.stop(signal.SIGKILL)
        if (folder / "fetched.json").exists():
            state = json.loads((folder / "fetched.json").read_text())
            assert all((folder / line["file"]).read_bytes() == whole for line in state.values()), "a file isn't whole"
            assert len(state) >= fetched, "what was there is gone"
            fetched = len(state)
    web.stop()
    service = started(*words)
    assert service.metric("stir_cache_entries") == fetched
    print(f"{fetched} of 80 chains were written")


def test_a_folder_that_cant_be_written_is_noted(started, web, world, tmp_path):
    folder = tmp_path / "folder"
    service = started(*world.anchors(), *web.words("--fetch-wait", 9000, "--fetch", folder))
    assert folder.is_dir() and service.ready()[0]
    shutil.rmtree(folder)
    folder.write_text("no folder")
    assert service.outcome(good(world)) == "valid"
    assert wait_until(lambda: str(folder) in service.ready()[1], 15), service.ready()
    assert service.ready()[0], "calls are judged all the same"
    assert wait_until(lambda: service.told("stay in memory alone")) and len(service.told("stay in memory alone")) == 1, service.text()


def test_that_all_fetches_fail_is_noted(started, web, world):
    service = started(*world.anchors(), *web.words("--fetch-wait", 9000))
    for number in range(5):
        assert "fetches failed" not in service.ready()[1]
        assert service.told_of(world.to(f"gone/{number}", Numbers.next()))[2] == "failed status"
    assert "the last 5 fetches failed" in service.ready()[1]
    assert service.outcome(good(world)) == "valid"
    assert "fetches failed" not in service.ready()[1]


# ---- files that change

def test_hosts_that_change_are_taken_and_what_is_refused_stays(started, web, world):
    listed = web.hosts.read_text()
    put(web.hosts, "")
    service = started(*world.anchors(), *web.words("--fetch-wait", 9000))
    assert service.told_of(good(world)) == ("refused", 10, "failed listed")
    put(web.hosts, listed)
    assert wait_until(lambda: service.told_of(good(world))[0] == "valid")
    put(web.hosts, listed + "https://no.host\n")
    assert wait_until(lambda: service.told(r"hosts\.txt: line \d+ is no `HOST`")), service.text()
    assert service.told_of(good(world)) == (*VALID, "held")
    put(web.hosts, f"!localhost\n{listed}")
    assert wait_until(lambda: service.told_of(good(world)) == ("refused", 10, "failed listed")), "what is kept of it stays"
    assert service.metric("stir_cache_entries") == 0
    put(web.authorities, "none")
    assert wait_until(lambda: service.told(r"authorities\.pem: the authorities are no certificates")), service.text()


def test_roots_that_change_are_taken_and_what_is_left_out_is_named(started, web, world, tmp_path):
    roots, leaf, other = world.folder / "roots.pem", world.leaf(0), World(tmp_path / "other", 1)
    text = roots.read_bytes()
    strange = x509.load_der_x509_certificate(other.certificate("stranger", "stranger", None, True)).public_bytes(serialization.Encoding.PEM)
    put(roots, strange)
    service = started("--roots", roots, *web.words("--fetch-wait", 9000))
    assert service.told_of(good(world)) == ("refused", 12, "fetched")
    put(roots, text + leaf.public_bytes(serialization.Encoding.PEM))
    assert wait_until(lambda: service.told_of(good(world)) == (*VALID, "held")), "the entry is opened anew under the new world"
    left_out = r"roots\.pem: certificate 2, .*, is no trust anchor of the profile, and is left out"
    assert wait_until(lambda: service.told(left_out)), service.text()
    put(roots, b"no root")
    assert wait_until(lambda: service.told(r"roots\.pem: no certificates in PEM")), service.text()
    assert service.told_of(good(world)) == (*VALID, "held")


def put(path, text):
    """Puts a file in place by a rename."""
    new = path.with_suffix(".new")
    new.write_bytes(text if isinstance(text, bytes) else text.encode())
    new.rename(path)


# ---- codes

def test_a_code_of_the_table_isnt_adopted_and_others_are_if_their_chain_is_proved(started, web, world):
    table = world.folder / "table.txt"
    table.write_text(f"; ours\n{world.code(0)} 19995550000 10\n")
    service = started(*world.anchors(), "--codes", "trusted", *web.words("--fetch-wait", 9000))
    assert service.told_of(good(world, 0)) == ("refused", 17, "fetched"), "one's own code keeps its numbers"
    assert service.metric("stir_adopted_codes") == 0
    assert service.told_of(good(world, 1)) == (*VALID, "fetched")
    assert service.metric("stir_adopted_codes") == 1
    assert service.told_of(good(world, 2)) == (*VALID, "fetched")
    assert service.metric("stir_adopted_codes") == 2
    assert service.told_of(good(world, 1)) == (*VALID, "held")
    assert service.told_of(good(world, 0)) == ("refused", 17, "held")
    put(table, f"; ours\n{world.code(0)} *\n{world.code(1)} 19995550000 10\n")
    assert wait_until(lambda: service.told_of(good(world, 0)) == (*VALID, "held"))
    assert service.told_of(good(world, 1)) == ("refused", 17, "held"), "a code that the table names now"
    assert service.told_of(good(world, 2)) == (*VALID, "held")


def test_by_the_table_alone_no_code_is_adopted(started, web, world):
    (world.folder / "table.txt").write_text("")
    service = started(*world.anchors(), *web.words("--fetch-wait", 9000))
    assert service.told_of(good(world, 0)) == ("refused", 17, "fetched")


def test_the_code_of_an_issuer_is_adopted(started, web, tmp_path):
    """Without it no number lies within it, which rule 14 asks."""
    world = Fetched(tmp_path / "ranged", 2, web)
    leaf = world.certificate("leaf 0", "middle", range_list(world.number(0, 0), 10000))
    middle = world.certificate("middle", "root", code_list("42AB"), True)
    web.chains["0"] = leaf + middle
    web.chains["1"] = spoilt(world.certificate("leaf 1", "middle", range_list(world.number(1, 0), 10000))) + middle
    listed = started(*world.roots(), "--codes", "listed", *web.words("--fetch-wait", 9000))
    assert listed.told_of(good(world, 0)) == ("refused", 14, "fetched")
    service = started(*world.roots(), *web.words("--fetch-wait", 9000))
    for _ in range(2):
        assert service.told_of(good(world, 1))[:2] == ("refused", 14), "its leaf is forged"
        assert service.metric("stir_adopted_codes") == 0
    assert service.told_of(good(world, 0)) == (*VALID, "fetched")
    assert service.metric("stir_adopted_codes") == 1
    assert service.told_of(good(world, 1)) == ("refused", 15, "held"), "with the code of another chain the forged leaf is seen"


def spoilt(der):
    """A certificate of which the signature isn't good: its last byte is another one."""
    return der[:-1] + bytes([der[-1] ^ 1])


def test_a_chain_under_no_anchor_adopts_nothing(started, web, world, tmp_path):
    stranger = World(tmp_path / "stranger", 1, int(time.time()))
    web.chains["strange"] = (stranger.certificate("leaf 0", "middle 2", code_list("EVIL")) + stranger.certificate("middle 2", "root 2", None, True))
    web.chains["forged"] = spoilt((world.folder / "leaf-1.der").read_bytes()) + web.chains["1"][len((world.folder / "leaf-1.der").read_bytes()):]
    service = started(*world.roots(), *web.words("--fetch-wait", 9000))
    assert service.told_of(world.to("chain/strange", Numbers.next())) == ("refused", 12, "fetched")
    assert service.told_of(world.to("chain/forged", Numbers.next(), 1)) == ("refused", 15, "fetched")
    assert service.metric("stir_adopted_codes") == 0
    assert service.told_of(good(world, 0)) == (*VALID, "fetched")
    assert service.metric("stir_adopted_codes") == 1


def test_a_code_is_forgotten_when_no_chain_of_it_is_kept(started, web, world):
    listed = web.hosts.read_text()
    service = started(*world.roots(), *web.words("--fetch-wait", 9000))
    assert service.told_of(good(world, 0)) == (*VALID, "fetched")
    assert service.metric("stir_adopted_codes") == 1
    put(web.hosts, "")
    assert wait_until(lambda: service.metric("stir_cache_entries") == 0)
    assert wait_until(lambda: service.metric("stir_adopted_codes") == 0, 15)
    put(web.hosts, listed)
    assert wait_until(lambda: service.told_of(good(world, 0))[0] == "valid")


def test_codes_of_the_operators_map_are_trusted_too(started, world):
    service = started("--chains", world.folder / "chains.txt", *world.roots())
    one = service.verify(good(world, 0))
    assert one["outcome"] == "valid" and "certificates" not in one
    assert service.metric("stir_adopted_codes") == 1


# ---- the list

def test_what_is_held_is_listed_by_pages(started, web, world):
    service = started(*world.roots(), *web.words("--fetch-wait", 9000))
    begun = int(time.time())
    for n in (2, 0, 1):
        assert service.outcome(good(world, n)) == "valid"
    status, text = service.ask("GET", "/certificates")
    whole = json.loads(text)
    assert status == 200 and [one["x5u"] for one in whole["certificates"]] == [world.x5u(n) for n in range(3)] and "next" not in whole
    first, last = seconds_of(world.leaf(0))
    one = whole["certificates"][0]
    fetched, due = one.pop("fetched"), one.pop("due")
    assert begun <= fetched <= time.time() and due == fetched + 86400
    assert one == {"x5u": world.x5u(0), "subject": "CN=leaf 0", "codes": [world.code(0)], "first": first, "last": last}
    seen, path = [], "/certificates?count=1"
    while path:
        page = json.loads(service.ask("GET", path)[1])
        seen += page["certificates"]
        path = page.get("next") and "/certificates?count=1&after=" + urllib.parse.quote(page["next"], safe="")
    assert seen == json.loads(text)["certificates"]
    for query in ("count=0", "count=1001", "count=x", "other=1", "after=%ff"):
        assert service.ask("GET", f"/certificates?{query}")[0] == 400, query
    assert service.ask("POST", "/certificates", b"")[0] == 405


def test_the_list_isnt_for_everybody(started, web, world, tmp_path):
    request = b"GET /certificates HTTP/1.1\r\nHost: x\r\n%sConnection: close\r\n\r\n"
    service = started(*world.roots(), *web.words(), listen="0.0.0.0:0")
    assert status_of(service.raw(request % b"")) == 200
    if address := outer():
        with socket.create_connection((address, service.port), timeout=5) as connection:
            connection.sendall(request % b"")
            assert status_of(service.rest(connection)) == 403
    blocks, tokens = tmp_path / "blocks.txt", tmp_path / "tokens.txt"
    blocks.write_text(signing.table(world, world.folder, [(0, 0, 100, "A")]))
    tokens.write_text("0123456789abcdef\n")
    service = started(*world.roots(), *web.words(), "--table", world.folder / "table.txt", "--signing", blocks, "--signing-tokens", tokens)
    assert status_of(service.raw(request % b"")) == 401
    assert status_of(service.raw(request % b"Authorization: Bearer 0123456789abcdef\r\n")) == 200
    plain = started(*world.roots())
    assert plain.ask("GET", "/certificates")[0] == 404


# ---- words

def test_a_file_that_cant_be_taken_at_the_start_is_named(stird, web, world, tmp_path):
    bad = tmp_path / "bad.txt"
    bad.write_text("localhost\nhttps://x\n")
    for words, told in (
        ([*world.anchors(), "--fetch-hosts", bad], "bad.txt: line 2 is no `HOST`"),
        ([*world.anchors(), "--fetch-hosts", tmp_path / "none"], "none: there is no such file"),
        ([*world.anchors(), "--fetch-hosts", web.hosts, "--fetch-authorities", bad], "bad.txt: the authorities are no certificates in PEM"),
        (["--roots", bad], "bad.txt: no certificates in PEM"),
        ([*world.anchors(), "--fetch-hosts", web.hosts, "--fetch", bad], "bad.txt"),
    ):
        with pytest.raises(RuntimeError, match=re.escape(told)):
            Fetching(stird, words)
