"""The store of tickets: shards, each a Redis with replicas.

A node knows the three commands that the service sends: `SET KEY VALUE NX EX SECONDS`, `GET KEY`, and a look (`INFO memory` and `TIME`, as one here).
A key ends by the node's clock; its end is handed to a replica as a moment, as Redis 7 does. A write is answered before a replica has it.
"""
from __future__ import annotations

import random
from collections.abc import Callable
from dataclasses import dataclass

from clock import Clock
from events import MS, SECOND, Loop

# What a claim writes: the number of the call, the service in its present life, and a count of its own.
Value = tuple[int, int, int]


@dataclass(frozen=True)
class Set:
    key: int
    value: Value
    seconds: int


@dataclass(frozen=True)
class Get:
    key: int


@dataclass(frozen=True)
class Look:
    """What a connection asks first, and a service each second."""


Command = Set | Get | Look


@dataclass(frozen=True)
class Answer:
    """What a node answers: `OK`, nothing, a value, the second of its clock, or an error."""

    what: str
    value: Value | None = None
    second: int = 0


OK, NOTHING, ERROR = Answer("OK"), Answer("nothing"), Answer("error")


class Node:
    """A Redis."""

    def __init__(self, loop: Loop, clock: Clock, draw: random.Random) -> None:
        self.loop, self.clock, self.draw = loop, clock, draw
        self.keys: dict[int, tuple[Value, int]] = {}
        self.replicas: list[Node] = []
        self.is_up, self.takes_writes, self.is_full, self.evicts = True, False, False, False
        # Connections and what is on its way to replicas belong to one life of it.
        self.life = 0
        self.hangs_until = 0
        self.lag: Callable[[], int] = lambda: 0
        self.handed_on = 0

    def get(self, key: int) -> Value | None:
        held = self.keys.get(key)
        return held[0] if held and self.clock.micros() < held[1] else None

    def does(self, command: Command) -> Answer:
        if isinstance(command, Look):
            return Answer("second", second=self.clock.seconds())
        if isinstance(command, Get):
            value = self.get(command.key)
            return NOTHING if value is None else Answer("value", value)
        if not self.takes_writes or self.is_full:
            return ERROR
        if self.get(command.key) is not None:
            return NOTHING
        if self.evicts and self.keys:
            del self.keys[self.draw.choice(sorted(self.keys))]
        self.write(command.key, command.value, self.clock.micros() + command.seconds * SECOND)
        return OK

    def write(self, key: int, value: Value, end: int) -> None:
        self.keys[key] = (value, end)
        life = self.life
        for replica in self.replicas:
            self.handed_on = max(self.handed_on, self.loop.now + self.lag())
            self.loop.at(self.handed_on, lambda replica=replica: self.hand_on(life, replica, key, value, end))

    def hand_on(self, life: int, replica: Node, key: int, value: Value, end: int) -> None:
        if self.life == life and replica.is_up and replica in self.replicas:
            replica.keys[key] = (value, end)

    def dies(self) -> None:
        self.is_up, self.life = False, self.life + 1

    def comes_back(self, *, is_empty: bool = False) -> None:
        self.is_up = True
        if is_empty:
            self.keys.clear()


class Shard:
    """A Redis, its replicas, and the address by which services find the one that counts."""

    def __init__(self, nodes: list[Node], draw: random.Random) -> None:
        self.nodes, self.primary = nodes, nodes[0]
        self.elsewhere: dict[int, Node] = {}
        for node in nodes:
            node.lag = lambda: draw.choice([1, 20, 200, 1500]) * MS
        self.lead(nodes[0])

    def lead(self, node: Node) -> None:
        """Has a node take writes, and the others follow it."""
        for other in self.nodes:
            other.takes_writes, other.replicas = other is node, []
        node.replicas = [other for other in self.nodes if other is not node]
        self.primary = node

    def copies(self, node: Node) -> None:
        """Brings the replicas up to date with a node that leads anew (a full resynchronization)."""
        for replica in node.replicas:
            replica.keys = dict(node.keys)

    def at_address(self, service: int) -> Node:
        return self.elsewhere.get(service, self.primary)
