"""What goes wrong in a run, and when: by the seed."""
from __future__ import annotations

import random
from collections.abc import Callable

from client import SLACK, WAITED
from events import MS, SECOND
from service import Service, World
from store import Node, Shard

# So long more than the window a shard is closed after a node without the last writes leads it: the longest life of a ticket, and a second.
MORE = SLACK + 1 + WAITED + 1


class Faults:
    """Has things go wrong, a kind about once in so many seconds; closing a shard more seldom."""

    EACH = 25
    SELDOM = 150

    def __init__(self, world: World, services: list[Service], draw: random.Random) -> None:
        self.world, self.services, self.draw = world, services, draw
        kinds: dict[str, Callable[[int], None]] = {
            "partitions": self.partition, "hangs": self.hang, "restarts": self.restart, "disk": self.disk, "planned": self.planned,
            "closed": self.closed, "full": self.full,
        }
        chosen = [kinds[name] for name in sorted(kinds) if world.settings.has(name)]
        breaks: dict[str, Callable[[int], None]] = {"failover": self.failover, "empty": self.empty, "split": self.split, "leap": self.leap}
        if world.settings.broken in breaks:
            chosen.append(breaks[world.settings.broken])
        for act in chosen:
            each = self.SELDOM if act == self.closed else self.EACH
            for start in range(0, world.settings.seconds, each):
                world.loop.at(int((start + draw.uniform(0, each)) * SECOND), lambda act=act: self.strike(act))
        # A shard that something happens to is let alone until that is over.
        self.busy: dict[int, int] = {}

    def strike(self, act: Callable[[int], None]) -> None:
        free = [at for at in range(len(self.world.shards)) if self.busy.get(at, 0) <= self.world.loop.now]
        if free:
            act(self.draw.choice(free))

    def after(self, seconds: float, action: Callable[[], None]) -> None:
        self.world.loop.after(int(seconds * SECOND), action)

    def holds(self, at: int, seconds: float) -> Shard:
        self.busy[at] = self.world.loop.now + int((seconds + 1) * SECOND)
        return self.world.shards[at]

    def partition(self, at: int) -> None:
        parted = self.draw.sample(range(len(self.services)), self.draw.randint(1, len(self.services)))
        for service in parted:
            self.world.network.part(service, at, int(self.draw.uniform(0.1, 6) * SECOND))

    def hang(self, at: int) -> None:
        seconds = self.draw.uniform(0.1, 3)
        self.holds(at, seconds).primary.hangs_until = self.world.loop.now + int(seconds * SECOND)

    def restart(self, _: int) -> None:
        service = self.draw.choice(self.services)
        if service.is_up:
            service.dies()
            self.after(self.draw.uniform(0.2, 3), service.starts)

    def disk(self, at: int) -> None:
        seconds = self.draw.uniform(0.3, 5)
        node = self.holds(at, seconds).primary
        node.dies()
        self.after(seconds, node.comes_back)

    def empty(self, at: int) -> None:
        seconds = self.draw.uniform(0.3, 2)
        node = self.holds(at, seconds).primary
        node.dies()
        self.after(seconds, lambda: node.comes_back(is_empty=True))

    def planned(self, at: int) -> None:
        seconds = self.draw.uniform(0.05, 1)
        shard = self.holds(at, seconds)
        old, new = shard.primary, shard.nodes[1]
        old.hangs_until = self.world.loop.now + int(seconds * SECOND)

        def switch() -> None:
            new.keys = dict(old.keys)
            self.leads(shard, new)

        self.after(seconds, switch)

    def failover(self, at: int, closed: float = 0.0) -> None:
        """The node that leads dies, and a replica takes over what it has, after it was closed for so long."""
        seconds = self.draw.uniform(0.5, 4)
        shard = self.holds(at, seconds + closed)
        old, new = shard.primary, shard.nodes[1]
        old.dies()
        self.after(seconds, old.comes_back)
        self.after(seconds, lambda: self.leads(shard, new, is_closed=closed > 0))
        if closed:
            self.after(seconds + closed, lambda: self.opens(new))

    def closed(self, at: int) -> None:
        settings = self.world.settings
        self.failover(at, settings.past + settings.future + MORE)

    def leads(self, shard: Shard, new: Node, *, is_closed: bool = False) -> None:
        shard.nodes.remove(new)
        shard.nodes.insert(0, new)
        shard.lead(new)
        shard.copies(new)
        new.takes_writes = not is_closed

    @staticmethod
    def opens(node: Node) -> None:
        node.takes_writes = True

    def full(self, at: int) -> None:
        seconds = self.draw.uniform(0.5, 4)
        node = self.holds(at, seconds).primary
        node.is_full = True
        self.after(seconds, lambda: setattr(node, "is_full", False))

    def split(self, at: int) -> None:
        """The old node goes on to serve some services, and a replica the others."""
        seconds = self.draw.uniform(3, 15)
        shard = self.holds(at, seconds)
        old, new = shard.primary, shard.nodes[1]
        some = self.draw.sample(range(len(self.services)), len(self.services) // 2)
        shard.elsewhere = dict.fromkeys(some, old)
        self.leads(shard, new)
        old.takes_writes, new.replicas = True, []

        def heals() -> None:
            old.life += 1
            shard.elsewhere = {}
            shard.lead(new)
            shard.copies(new)

        self.after(seconds, heals)

    def leap(self, at: int) -> None:
        """Its clock leaps ahead, and is set right later."""
        node = self.holds(at, 20).primary
        node.clock.ahead += 60 * SECOND
        self.after(20 + self.draw.randrange(MS) / MS, lambda: setattr(node.clock, "ahead", node.clock.ahead - 60 * SECOND))
