"""Who sends calls: each first by one service, and copies of some by others."""
from __future__ import annotations

import random
from collections.abc import Generator
from typing import Any

from clock import Clock
from events import MS, SECOND, Late, Promise, Wait
from service import Call, Service, World, second_of

# A caller waits so long for an answer, and asks so often.
ANSWER = 13 * SECOND
TRIES = 2
UNHEARD = 0.03


class Caller:
    """Sends calls, and hears what comes of them."""

    def __init__(self, world: World, services: list[Service], draw: random.Random) -> None:
        self.world, self.services, self.draw, self.keys = world, services, draw, 0

    def key(self, call: Call) -> int:
        """A key of its own for each call that comes in; or one that a copy of the call has too."""
        self.keys += 1
        return -call.ticket if self.world.settings.broken == "keys" else self.keys

    def sends(self, call: Call, service: Service) -> Generator[Wait, Any, None]:
        """Asks a service. If no answer is heard it asks it again with its key, or another one if it is down."""
        key, outcome = self.key(call), "unheard"
        for _ in range(TRIES):
            if not service.is_up:
                service = self.draw.choice([one for one in self.services if one.is_up] or self.services)
            try:
                outcome = yield self.heard(call, key, service), self.world.loop.now + ANSWER
                break
            except Late:
                pass
        self.world.tally.came_of(call.ticket, call.copy, outcome)

    def heard(self, call: Call, key: int, service: Service) -> Promise:
        if not service.is_up:
            return Promise()
        answer = service.asked(call, key)
        is_lost = self.world.settings.has("callers") and self.draw.random() < UNHEARD
        return Promise() if is_lost else answer

    def moments(self, iat: int, first: int, service: Service) -> int:
        """When a copy comes: at once, soon, within the window, or in its last second by the clock of who gets it."""
        end = service.clock.when((iat + self.world.settings.past + 1) * SECOND)
        return self.draw.choice([
            first + self.draw.randrange(2 * MS), first + self.draw.randrange(2 * SECOND), first + self.draw.randrange(60 * SECOND),
            end - 1 - self.draw.randrange(SECOND), end - 1 - self.draw.randrange(50 * MS),
        ])

    def comes(self, ticket: int, moment: int) -> None:
        """A call that is sent at this moment, and perhaps a copy of it."""
        world, draw = self.world, self.draw
        signer = Clock(world.loop, draw.randrange(-1 * SECOND, 1 * SECOND) if world.settings.has("clocks") else 0)
        # A call may have been signed some time before it comes.
        signed = moment - draw.choice([0, 0, 0, draw.randrange(50 * SECOND)])
        iat = second_of(signed + signer.ahead)
        told = second_of(moment) if world.settings.broken == "moments" else None
        first = draw.choice(self.services)
        self.sent(Call(ticket, 0, iat, told), first, moment)
        if draw.random() >= world.settings.copied:
            return
        other = draw.choice([one for one in self.services if one is not first] or self.services)
        when = self.moments(iat, moment, other)
        if world.settings.broken == "moments":
            when = moment + draw.randrange(80 * SECOND, 200 * SECOND)
        if world.settings.broken == "keys":
            other = first
        self.sent(Call(ticket, 1, iat, told), other, when)

    def sent(self, call: Call, service: Service, moment: int) -> None:
        self.world.loop.at(moment, lambda: self.world.loop.start(self.sends(call, service)))


def come(world: World, services: list[Service], draw: random.Random) -> None:
    """Has all calls of a run come."""
    caller = Caller(world, services, draw)
    for ticket in range(1, world.settings.calls + 1):
        caller.comes(ticket, draw.randrange(world.settings.seconds * SECOND))
