"""A service: it judges a call by its window, and claims its ticket of the shard that has it. And who asks it."""
from __future__ import annotations

import random
from collections.abc import Generator
from dataclasses import dataclass, field
from typing import Any

from client import Claim, Redis
from clock import EPOCH, Clock
from events import MS, SECOND, Loop, Promise, Wait, given
from network import Network
from settings import Settings
from store import Shard
from tally import Tally

# For how long an answer is kept for a request that comes again.
KEPT = 32 * SECOND

OUTCOMES = {Claim.WON: "valid", Claim.LOST: "replay", Claim.FORGOTTEN: "unjudged", Claim.UNABLE: "unjudged"}


@dataclass(frozen=True)
class Call:
    """A call as it is sent once: 0 is the first sending, and others are copies. Its ticket follows from its PASSporT, and so does its `iat`."""

    ticket: int
    copy: int
    iat: int
    # The moment by which it is to be judged, if the caller tells one.
    told: int | None = None


@dataclass
class World:
    """What services share."""

    loop: Loop
    network: Network
    shards: list[Shard]
    settings: Settings
    draw: random.Random
    tally: Tally
    lives: int = field(default=0)


class Service:
    """A `stird` on a host of its own."""

    def __init__(self, world: World, index: int, clock: Clock) -> None:
        self.world, self.index, self.clock = world, index, clock
        self.life, self.is_up = 0, False
        self.starts()

    def starts(self) -> None:
        """It begins anew, and knows nothing of before."""
        world, self.is_up, self.number = self.world, True, 0
        world.lives += 1
        order = list(range(len(world.shards)))
        if world.settings.broken == "lists" and self.index == 0:
            order = order[1:] + order[:1]
        self.redises = [Redis(world.loop, world.network, world.shards[at], (self.index, at), self.clock, world.lives) for at in order]
        self.own: set[int] = set()
        self.answers: dict[tuple[int, int], tuple[int, int, Promise]] = {}
        for redis in self.redises:
            world.loop.start(self.looks(redis), self.alive())

    def alive(self) -> Any:
        life = self.life
        return lambda: self.life == life

    def dies(self) -> None:
        self.is_up, self.life = False, self.life + 1

    def looks(self, redis: Redis) -> Generator[Wait, Any, None]:
        yield from self.world.loop.pause(self.world.draw.randrange(SECOND))
        while True:
            yield from redis.look()
            yield from self.world.loop.pause(SECOND)

    def asked(self, call: Call, key: int) -> Promise:
        """A request with a key. The same key and body within the time get the same answer."""
        now = self.world.loop.now
        name = (key, call.ticket)
        held = self.answers.get(name)
        if held and now - held[0] <= KEPT:
            _, copy, answer = held
            if copy != call.copy:
                answer.then(lambda outcome: self.world.tally.passed(call.ticket) if outcome == "valid" else None)
            return answer
        answer = given(self.judged(call), self.world.loop, self.alive())
        self.answers[name] = (now, call.copy, answer)
        return answer

    def judged(self, call: Call) -> Generator[Wait, Any, str]:
        world, settings = self.world, self.world.settings
        moment = self.clock.seconds() if call.told is None else call.told
        last = call.iat + settings.past
        if moment > last or call.iat > moment + settings.future:
            return "stale"
        yield from world.loop.pause(world.draw.randrange(1 * MS))
        if settings.has("waits") and world.draw.random() < 0.1:
            yield from world.loop.pause(world.draw.randrange(int(settings.wait * SECOND)))
        self.number += 1
        claim = yield from self.claims(call, last, self.number, moment)
        if claim is Claim.WON:
            world.tally.passed(call.ticket, call.copy)
        return OUTCOMES[claim]

    def claims(self, call: Call, last: int, number: int, moment: int) -> Generator[Wait, Any, Claim]:
        if self.world.settings.broken == "unasked" and self.index == 0:
            claim = Claim.LOST if call.ticket in self.own else Claim.WON
            self.own.add(call.ticket)
            return claim
        redis = self.redises[call.ticket % len(self.redises)]
        return (yield from redis.claim(call.ticket, last, number, moment))


def second_of(moment: int) -> int:
    """The Unix second by a right clock."""
    return EPOCH + moment // SECOND
