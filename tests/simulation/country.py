#!/usr/bin/env python3
"""A seeded simulation of many services over a sharded store of tickets, and of what goes wrong between them.

    tests/simulation/country.py [--seed NUMBER] [--seeds COUNT] [--services COUNT] [--shards COUNT] [--replicas COUNT]
                                  [--calls COUNT] [--seconds COUNT] [--faults NAME,.. | none] [--break NAME] [--table]

Services claim the tickets of calls as stird does of a Redis. Calls come by all of them, and copies of calls come by others, at the same moment or as
late as they can. Written is a line for each seed, and their sum: calls by what came of them, copies, and the tickets that passed twice. Under the
premises that docs/SERVICE.md names none does; `--break` breaks one of them. `--table` runs each fault by itself, then all together, then each broken
premise. The status is 1 if a ticket passed twice and nothing is broken, or if a broken premise shows no loss.
"""
from __future__ import annotations

import argparse
import dataclasses
import random
import sys
from collections import Counter
from collections.abc import Iterator

from callers import come
from clock import Clock, drawn
from events import SECOND, Loop
from faults import Faults
from network import Network
from service import Service, World
from settings import BROKEN, FAULTS, Settings
from store import Node, Shard
from tally import Tally


def shards_of(loop: Loop, settings: Settings, draw: random.Random, clock: random.Random) -> list[Shard]:
    def node() -> Node:
        return Node(loop, drawn(loop, clock, settings), random.Random(draw.random()))

    shards = [Shard([node() for _ in range(1 + settings.replicas)], draw) for _ in range(settings.shards)]
    if settings.broken == "evicts":
        shards[0].primary.evicts = True
    return shards


def run(settings: Settings) -> Tally:
    """One run."""
    # Each part has its own draw, so that a fault more doesn't turn all else round.
    draws = {name: random.Random(f"{settings.seed} {name}") for name in ("clocks", "stores", "network", "services", "callers", "faults")}
    loop, tally = Loop(), Tally()
    network = Network(loop, settings, draws["network"])
    shards = shards_of(loop, settings, draws["stores"], draws["clocks"])
    world = World(loop, network, shards, settings, draws["services"], tally)
    clocks = [drawn(loop, draws["clocks"], settings) for _ in range(settings.services)]
    if settings.broken == "slow":
        clocks[0] = Clock(loop, -30 * SECOND)
    services = [Service(world, index, clock) for index, clock in enumerate(clocks)]
    Faults(world, services, draws["faults"])
    come(world, services, draws["callers"])
    loop.run(settings.end() * SECOND)
    return tally


def summed(settings: Settings, seeds: int) -> Iterator[tuple[str, Counter[str]]]:
    """The counts of each seed, and of all."""
    total: Counter[str] = Counter()
    for seed in range(settings.seed, settings.seed + seeds):
        counts = Counter(run(dataclasses.replace(settings, seed=seed)).counts())
        total.update(counts)
        yield f"seed {seed}", counts
    yield "all", total


def line(name: str, counts: Counter[str]) -> str:
    return f"{name}: " + ", ".join(f"{key} {counts[key]}" for key in Tally().counts())


def table(settings: Settings, seeds: int) -> Iterator[tuple[str, bool, Counter[str]]]:
    """Each fault by itself, all together, and each broken premise."""
    cases = [("no fault", frozenset[str](), None), *((name, frozenset([name]), None) for name in FAULTS), ("all of these", frozenset(FAULTS), None)]
    # The clocks agree where a premise is broken, and nothing else goes wrong, so that what is lost is its own.
    cases += [(f"break {name}", frozenset[str](), name) for name in BROKEN]
    for name, faults, broken in cases:
        *_, (_, total) = summed(dataclasses.replace(settings, faults=faults, broken=broken), seeds)
        yield name, broken is not None, total


def read(words: list[str] | None = None) -> tuple[Settings, argparse.Namespace]:
    plain = Settings()
    parser = argparse.ArgumentParser(description=__doc__, formatter_class=argparse.RawDescriptionHelpFormatter)
    for name in ("seed", "services", "shards", "replicas", "calls", "seconds"):
        parser.add_argument(f"--{name}", type=int, default=getattr(plain, name), metavar="COUNT")
    parser.add_argument("--seeds", type=int, default=1, metavar="COUNT", help="so many runs, each with the next seed")
    parser.add_argument("--faults", default=",".join(FAULTS), metavar="NAME,..", help="; ".join(f"{name}: {what}" for name, what in FAULTS.items()))
    parser.add_argument("--break", dest="broken", choices=BROKEN, help="; ".join(f"{name}: {what}" for name, what in BROKEN.items()))
    parser.add_argument("--table", action="store_true", help="each fault by itself, all together, and each broken premise")
    given = parser.parse_args(words)
    faults = frozenset() if given.faults == "none" else frozenset(given.faults.split(","))
    if faults - set(FAULTS):
        parser.error(f"no fault: {', '.join(sorted(faults - set(FAULTS)))}")
    numbers = {name: getattr(given, name) for name in ("seed", "services", "shards", "replicas", "calls", "seconds")}
    if min(numbers["services"], numbers["shards"], numbers["replicas"], numbers["calls"], given.seeds) < 1 or numbers["seconds"] < 60:
        parser.error("there is one of each at least, and there are 60 seconds")
    return Settings(**numbers, faults=faults, broken=given.broken), given


def main() -> int:
    settings, given = read()
    if given.table:
        is_good = True
        for name, is_broken, total in table(settings, given.seeds):
            print(line(name, total), flush=True)
            is_good &= is_broken == (total["twice"] > 0)
        return 0 if is_good else 1
    for name, counts in summed(settings, given.seeds):
        print(line(name, counts), flush=True)
    return 0 if bool(settings.broken) == (counts["twice"] > 0) else 1


if __name__ == "__main__":
    sys.exit(main())
