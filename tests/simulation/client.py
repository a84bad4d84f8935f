"""How a service claims a ticket of a Redis: what `host/stird/src/tickets/redis` does, step by step, with its own times.

What isn't here: that 64 connections are open at most, and that a connection is made by three questions and not by one.
"""
from __future__ import annotations

import heapq
from collections.abc import Callable, Generator
from dataclasses import dataclass
from enum import Enum
from typing import Any

from clock import Clock
from events import MS, SECOND, Late, Loop, Wait
from network import Network
from store import Answer, Command, Get, Look, Node, Set, Shard, Value

PATIENCE = 500 * MS
FIRST = 250 * MS
FAILURES = 3
PAUSE = 250 * MS
SLACK = 10
WAITED = 12
NEAR = SLACK
LONG = 3_600
DAY = 86_400
LEAP = 2


class Claim(Enum):
    """What came of a claim."""

    WON = "won"
    LOST = "lost"
    FORGOTTEN = "forgotten"
    UNABLE = "unable"


class Fault(Exception):
    """The Redis can't be used."""


@dataclass(frozen=True)
class Asked:
    """What a claim asks for."""

    ticket: int
    value: Value
    last: int
    moment: int


@dataclass(frozen=True)
class Connection:
    node: Node
    life: int


Act = Callable[[Connection, int], Generator[Wait, Any, Any]]


def life_of(asked: Asked, now: int, theirs: int) -> int:
    """How many seconds a key stays."""
    life = max(0, asked.last - asked.moment) + min(max(0, asked.moment - theirs), DAY) + SLACK + 1 + WAITED
    return max(life, LONG) if abs(asked.moment - now) > NEAR else life


class Breaker:
    """After three failures in a row one claim in a pause is let through."""

    def __init__(self) -> None:
        self.failures, self.until = 0, 0

    def lets_through(self, now: int) -> bool:
        if self.failures < FAILURES:
            return True
        tries = now >= self.until
        if tries:
            self.until = now + PAUSE
        return tries

    def failed(self, now: int, *, is_look: bool = False) -> None:
        self.failures = max(self.failures + 1, FAILURES if is_look else 0)
        self.until = now + PAUSE


class Expiry:
    """Of which last seconds keys of this service may be gone."""

    def __init__(self) -> None:
        self.due: list[tuple[int, int]] = []
        self.gone: set[int] = set()

    def add(self, last: int, life: int, monotonic: int) -> None:
        heapq.heappush(self.due, (monotonic + life, last))

    def has(self, last: int, monotonic: int) -> bool:
        while self.due and self.due[0][0] <= monotonic:
            self.gone.add(heapq.heappop(self.due)[1])
        return last in self.gone


class Redis:
    """A service's way to one shard."""

    def __init__(self, loop: Loop, network: Network, shard: Shard, ends: tuple[int, int], clock: Clock, own: int) -> None:
        self.loop, self.network, self.shard, self.ends, self.clock, self.own = loop, network, shard, ends, clock, own
        self.count, self.age = 0, 0
        self.pool: list[Connection] = []
        self.breaker, self.expiry = Breaker(), Expiry()
        self.theirs: tuple[int, int] | None = None

    def claim(self, ticket: int, last: int, number: int, moment: int) -> Generator[Wait, Any, Claim]:
        """Claims a ticket for a call of this moment, within half a second."""
        monotonic = self.loop.now // SECOND
        if self.expiry.has(last, monotonic):
            return Claim.FORGOTTEN
        if not self.breaker.lets_through(self.loop.now):
            return Claim.UNABLE
        asked = Asked(ticket, (number, self.own, self.count), last, moment)
        self.count += 1
        try:
            claim, life = yield from self.with_connection(lambda one, until: self.set(one, asked, until), self.loop.now + PATIENCE)
        except (Fault, Late):
            self.empty()
            self.breaker.failed(self.loop.now)
            return Claim.UNABLE
        if claim is Claim.WON:
            self.expiry.add(last, life, monotonic)
        return claim

    def look(self) -> Generator[Wait, Any, None]:
        """Looks each second whether the Redis takes writes, and what its clock shows."""
        probe = Set(-1 - self.own, (0, self.own, self.loop.now), 1)

        def act(one: Connection, until: int) -> Generator[Wait, Any, None]:
            yield from self.ask(one, probe, until)
            self.learn((yield from self.ask(one, Look(), until)))

        try:
            yield from self.with_connection(act, self.loop.now + PATIENCE)
        except (Fault, Late):
            self.empty()
            self.breaker.failed(self.loop.now, is_look=True)

    def with_connection(self, act: Act, until: int) -> Generator[Wait, Any, Any]:
        age = self.age
        try:
            if self.pool:
                one = self.pool.pop()
                done = yield from act(one, min(until, self.loop.now + FIRST))
            else:
                one, done = yield from self.with_new(act, until)
        except (Fault, Late):
            if self.loop.now >= until:
                raise
            age = self.empty()
            one, done = yield from self.with_new(act, until)
        if age == self.age:
            self.pool.append(one)
            self.breaker.failures = 0
        return done

    def with_new(self, act: Act, until: int) -> Generator[Wait, Any, tuple[Connection, Any]]:
        node = self.shard.at_address(self.ends[0])
        one = Connection(node, node.life)
        self.learn((yield from self.ask(one, Look(), until)))
        return one, (yield from act(one, until))

    def set(self, one: Connection, asked: Asked, until: int) -> Generator[Wait, Any, tuple[Claim, int]]:
        life = life_of(asked, self.clock.seconds(), self.known(asked.moment))
        answer = yield from self.ask(one, Set(asked.ticket, asked.value, life), until)
        if answer.what == "OK":
            return Claim.WON, life
        stands = yield from self.ask(one, Get(asked.ticket), until)
        return (Claim.WON if stands.value == asked.value else Claim.LOST), life

    def ask(self, one: Connection, command: Command, until: int) -> Generator[Wait, Any, Answer]:
        answer = yield self.network.ask(self.ends, one.node, one.life, command), until
        if answer.what in ("ended", "error"):
            raise Fault
        return answer

    def known(self, otherwise: int) -> int:
        """What the clock of the Redis shows, as far as is known."""
        return self.theirs[0] + (self.loop.now - self.theirs[1]) // SECOND if self.theirs else otherwise

    def learn(self, answer: Answer) -> None:
        leap = answer.second - self.known(answer.second)
        if leap > LEAP:
            self.expiry.has(0, self.loop.now // SECOND + leap)
        self.theirs = (answer.second, self.loop.now)

    def empty(self) -> int:
        self.pool.clear()
        self.age += 1
        return self.age
