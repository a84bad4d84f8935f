"""What lies between services and stores: it is slow, loses, comes late, and is parted."""
from __future__ import annotations

import random
from collections.abc import Callable

from events import MS, Loop, Promise
from settings import Settings
from store import Answer, Command, Node, Set

# Part of what is sent that is lost, or comes late.
LOST = 0.02
LATE = 0.03

# The connection has ended: nothing comes on it any more.
ENDED = Answer("ended")


class Network:
    """Carries commands to a node, and its answers back."""

    def __init__(self, loop: Loop, settings: Settings, draw: random.Random) -> None:
        self.loop, self.settings, self.draw = loop, settings, draw
        # Up to when a service and a shard don't reach each other.
        self.parted: dict[tuple[int, int], int] = {}
        # So many answers to the next claims are lost, and their connections with them.
        self.cut = 0

    def part(self, service: int, shard: int, length: int) -> None:
        self.parted[service, shard] = max(self.loop.now + length, self.parted.get((service, shard), 0))

    def way(self, ends: tuple[int, int], arrives: Callable[[], None], lost: Callable[[], None]) -> None:
        """One way. What is sent into a partition comes after it, as TCP sends it again, or never. What is lost is told to the sender, or isn't."""
        delay = self.draw.randrange(1 * MS // 5, 2 * MS)
        until = self.parted.get(ends, 0)
        if until > self.loop.now:
            if self.draw.random() < 0.5:
                self.loop.at(until + delay, arrives)
            return
        if self.settings.has("lost") and self.draw.random() < LOST:
            if self.draw.random() < 0.5:
                self.loop.after(delay, lost)
            return
        if self.settings.has("late") and self.draw.random() < LATE:
            delay += self.draw.randrange(50 * MS, 1_500 * MS)
        self.loop.after(delay, arrives)

    def ask(self, ends: tuple[int, int], node: Node, life: int, command: Command) -> Promise:
        """Sends a command over a connection that was made in this life of the node, and promises an answer, or that the connection ended."""
        promise = Promise()

        def arrived() -> None:
            if node.hangs_until > self.loop.now:
                # Its hang may be ended before that.
                self.loop.at(min(node.hangs_until + 1, self.loop.now + 100 * MS), arrived)
                return
            is_dead = not node.is_up or node.life != life
            answer = ENDED if is_dead else node.does(command)
            if self.cut and isinstance(command, Set) and command.key > 0:
                self.cut, answer = self.cut - 1, ENDED
            self.way(ends, lambda: promise.give(answer), lambda: promise.give(ENDED))

        self.way(ends, arrived, lambda: promise.give(ENDED))
        return promise

