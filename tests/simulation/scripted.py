"""Steps that the simulation goes, and a real service over a real Redis too (tests/service/test_country.py): two services, a Redis and a replica.

A step is `call NUMBER SERVICE`, which has an outcome, or something that happens: HAPPENS says what. After it the services have time to see it.
"""
from __future__ import annotations

import random
from collections.abc import Callable

from clock import Clock
from events import SECOND, Loop, given
from faults import Faults
from network import Network
from service import Call, Service, World, second_of
from settings import Settings
from store import Node, Shard
from tally import Tally

HAPPENS = {
    "cut 1": "the answer to the next claim is lost, and the connection with it",
    "cut 2": "so are the next two",
    "apart": "the replica gets nothing more",
    "failover": "the Redis dies, and the replica takes over what it has",
    "planned": "the replica takes over once it has all",
    "disk": "the Redis dies and comes back with all that it answered",
    "empty": "the Redis dies and comes back with nothing",
    "full": "the Redis has no room",
    "room": "it has room again",
    "hang": "the Redis stops",
    "goes on": "it goes on, with all that it was asked meanwhile",
    "restart A": "the first service ends and starts anew",
    "leap": "the clock of the Redis leaps two minutes ahead",
}

# What happens, step by step, and the outcomes of its calls.
SCRIPTS = {
    "no fault": (["call 1 A", "call 1 B", "call 1 A"], ["valid", "replay", "replay"]),
    "an answer is lost": (["cut 1", "call 1 A", "call 1 B"], ["valid", "replay"]),
    "both answers are lost": (["cut 2", "call 1 A", "call 1 B"], ["unjudged", "replay"]),
    "a failover loses the last writes": (
        ["call 1 A", "apart", "call 2 A", "failover", "call 1 B", "call 2 B"], ["valid", "valid", "replay", "valid"]),
    "a planned failover loses nothing": (["call 1 A", "planned", "call 1 B", "call 2 B", "call 2 A"], ["valid", "replay", "valid", "replay"]),
    "a disk loses nothing": (["call 1 A", "disk", "call 1 B"], ["valid", "replay"]),
    "memory loses all": (["call 1 A", "empty", "call 1 B"], ["valid", "valid"]),
    "a full store": (
        ["call 1 A", "full", "call 2 A", "call 1 B", "room", "call 2 A", "call 1 B"], ["valid", "unjudged", "unjudged", "valid", "replay"]),
    "a store that hangs": (["call 2 A", "hang", "call 1 A", "goes on", "call 1 B"], ["valid", "unjudged", "valid"]),
    "a service starts anew": (["call 1 A", "restart A", "call 1 A", "call 1 B"], ["valid", "replay", "replay"]),
    "the clock of a store leaps": (["call 1 A", "leap", "call 1 B", "call 1 A"], ["valid", "valid", "unjudged"]),
}


class Simulated:
    """Goes such steps."""

    def __init__(self) -> None:
        settings = Settings(services=2, shards=1, faults=frozenset())
        self.loop, draw = Loop(), random.Random(1)
        nodes = [Node(self.loop, Clock(self.loop), draw) for _ in range(2)]
        self.shard = Shard(nodes, draw)
        self.network = Network(self.loop, settings, draw)
        world = World(self.loop, self.network, [self.shard], settings, draw, Tally())
        self.services = [Service(world, index, Clock(self.loop)) for index in range(2)]
        self.faults = Faults(world, self.services, draw)
        self.waits(5)
        self.signed = second_of(self.loop.now)

    def waits(self, seconds: int) -> None:
        self.loop.run(self.loop.now + seconds * SECOND)

    def outcomes(self, steps: list[str]) -> list[str]:
        return [outcome for step in steps for outcome in self.goes(step)]

    def goes(self, step: str) -> list[str]:
        if not step.startswith("call"):
            self.happens(step)
            self.waits(4)
            return []
        _, number, service = step.split()
        call = Call(int(number), 0, self.signed)
        answer = given(self.services["AB".index(service)].judged(call), self.loop)
        self.waits(2)
        return [answer.value]

    def happens(self, step: str) -> None:
        old, new = self.shard.nodes
        acts: dict[str, Callable[[], None]] = {
            "cut 1": lambda: setattr(self.network, "cut", 1), "cut 2": lambda: setattr(self.network, "cut", 2), "apart": old.replicas.clear,
            "failover": lambda: (old.dies(), self.faults.leads(self.shard, new)), "planned": lambda: self.planned(old, new),
            "disk": lambda: (old.dies(), old.comes_back()), "empty": lambda: (old.dies(), old.comes_back(is_empty=True)),
            "full": lambda: setattr(old, "is_full", True), "room": lambda: setattr(old, "is_full", False),
            "hang": lambda: setattr(old, "hangs_until", 10**15), "goes on": lambda: setattr(old, "hangs_until", 0),
            "restart A": lambda: (self.services[0].dies(), self.services[0].starts()),
            "leap": lambda: setattr(old.clock, "ahead", 120 * SECOND),
        }
        acts[step]()

    def planned(self, old: Node, new: Node) -> None:
        new.keys = dict(old.keys)
        self.faults.leads(self.shard, new)
