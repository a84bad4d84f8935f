"""Clocks that are off, that drift and that leap."""
from __future__ import annotations

import random

from events import SECOND, Loop
from settings import Settings

# The Unix second at which a run begins.
EPOCH = 1_800_000_000


class Clock:
    """A clock of a host. It is ahead by so many microseconds at the start, and gains so many in a million."""

    def __init__(self, loop: Loop, ahead: int = 0, drift: float = 0.0) -> None:
        self.loop, self.ahead, self.drift = loop, ahead, drift

    def micros(self) -> int:
        return EPOCH * SECOND + self.loop.now + self.ahead + int(self.loop.now * self.drift / 1e6)

    def seconds(self) -> int:
        return self.micros() // SECOND

    def when(self, micros: int) -> int:
        """At which moment of the run it shows this, about."""
        return int((micros - EPOCH * SECOND - self.ahead) / (1 + self.drift / 1e6))


def drawn(loop: Loop, draw: random.Random, settings: Settings) -> Clock:
    """A right one; or with the fault `clocks` one that is never off by more than half the margin, and often by nearly as much."""
    drift = draw.uniform(-50, 50)
    reach = settings.margin / 2 * SECOND - abs(drift) * settings.end()
    ahead = int(draw.choice([-reach, reach, draw.uniform(-reach, reach)]))
    return Clock(loop, ahead, drift) if settings.has("clocks") else Clock(loop)
