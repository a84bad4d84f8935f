"""Tickets that are shared out among several Redis servers by their first bytes: each has its own, a second service with the same list finds them,
and while one is down only the calls of its tickets are unjudged."""
import collections
import contextlib

import pytest
import redises
from redises import Redis
from stird import wait_until
from world import START

pytestmark = pytest.mark.skipif(not redises.PROGRAM, reason=redises.MISSING)

COUNT = 3


@pytest.fixture
def servers(tmp_path):
    with contextlib.ExitStack() as held:
        yield [held.enter_context(Redis(tmp_path)) for _ in range(COUNT)]


def listed(servers):
    return [word for one in servers for word in ("--redis", one.address())]


def told(service, messages):
    """What is said of each call, and which server has its ticket."""
    answers = [service.verify(message, START) for message in messages]
    return [(answer["outcome"], int(answer["ticket"][:16], 16) % COUNT, answer["ticket"]) for answer in answers]


@pytest.fixture
def messages(world):
    return [world.call(number % world.count, START, number) for number in range(1, 41)]


def test_each_server_has_its_own_tickets_and_all_services_find_them(started, servers, messages):
    one, other = started(*listed(servers)), started(*listed(servers))
    answers = told(one, messages)
    assert {outcome for outcome, _, _ in answers} == {"valid"}
    assert len({place for _, place, _ in answers}) == COUNT
    for _, place, ticket in answers:
        has = [server.says("EXISTS", f"stir:{ticket}") == b":1\r\n" for server in servers]
        assert has == [at == place for at in range(COUNT)], ticket
    assert {outcome for outcome, _, _ in told(other, messages)} == {"replay"}


def test_while_a_server_is_down_calls_of_its_tickets_alone_are_unjudged(started, servers, messages):
    service = started(*listed(servers))
    assert wait_until(lambda: service.ready()[0])
    servers[1].stop()
    outcomes = collections.defaultdict(set)
    for outcome, place, _ in told(service, messages):
        outcomes[place].add(outcome)
    assert outcomes == {0: {"valid"}, 1: {"unjudged"}, 2: {"valid"}}
    assert wait_until(lambda: not service.ready()[0])
    assert service.ask("GET", "/healthz")[0] == 503
    servers[1].start()
    assert wait_until(lambda: service.ready()[0])
    outcomes = collections.defaultdict(set)
    for outcome, place, _ in told(service, messages):
        outcomes[place].add(outcome)
    assert outcomes == {0: {"replay"}, 1: {"valid"}, 2: {"replay"}}


def test_a_service_with_the_servers_in_another_order_lets_tickets_pass_twice(started, servers, messages):
    """So the list has to be the same everywhere: this is what is lost else."""
    one, other = started(*listed(servers)), started(*listed(servers[1:] + servers[:1]))
    assert {outcome for outcome, _, _ in told(one, messages)} == {"valid"}
    assert {outcome for outcome, _, _ in told(other, messages)} == {"valid"}


def test_one_of_several_that_drops_tickets_is_told(started, servers):
    service = started(*listed(servers))
    assert wait_until(lambda: service.ready()[0])
    servers[2].says("CONFIG SET maxmemory 4mb")
    servers[2].says("CONFIG SET maxmemory-policy allkeys-lru")
    assert wait_until(lambda: not service.ready()[0])
    assert f"{servers[2].port}" in service.ready()[1]
