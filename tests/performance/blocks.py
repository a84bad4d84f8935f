#!/usr/bin/env python3
"""What a call to sign takes of a processor, with few and many blocks in the signing table and of the client that asks.

    tests/performance/blocks.py STIRD [--calls COUNT] [--rounds COUNT]

The numbers of all blocks together are the same. The microseconds are of the process, and each count of blocks is read several times, by turns.
"""
import argparse
import pathlib
import sys
import tempfile
import time

HERE = pathlib.Path(__file__).resolve().parent
sys.path.insert(0, str(HERE.parent / "service"))
import signing  # noqa: E402
from stird import Stird  # noqa: E402
from world import World  # noqa: E402

COUNTS = (10, 100, 1000, 10000)
NUMBERS = 10000
TOKEN = "0123456789abcdef"


def files(folder: pathlib.Path, world: World, count: int) -> list[str]:
    """A table of so many blocks, and a client that has each of them; the words that name both."""
    width = NUMBERS // count
    rest = signing.table(world, folder, [(0, 0, 1, "A")]).split(" ", 2)[2]
    blocks = [f"{world.number(0, place)}-{world.number(0, place + width - 1)}" for place in range(0, NUMBERS, width)]
    table, clients = folder / f"blocks-{count}.txt", folder / f"clients-{count}.toml"
    table.write_text("".join(f"{block} {rest}" for block in blocks))
    clients.write_text(f'[client]\ntokens = ["{TOKEN}"]\nattest = "A"\nblocks = {blocks}\n')
    return ["--signing", str(table), "--signing-clients", str(clients)]


def read(stird: pathlib.Path, words: list[str], world: World, calls: int) -> tuple[float, float]:
    """The seconds of a start, and the microseconds of a call."""
    begin = time.monotonic()
    with Stird(stird, [*world.words(), "--moments", "asked", *words], patience=300) as service:
        start = time.monotonic() - begin
        used = 0.0
        for call in range(-200, calls):
            if call == 0:
                used = service.used()
            number = world.number(0, call * 7919 % NUMBERS)
            status, told = service.json("/stir/v1/signing", signing.request(number), {"Authorization": f"Bearer {TOKEN}"})
            if status != 200:
                raise RuntimeError(f"{number}: {told}")
        return start, (service.used() - used) / calls * 1e6


def main() -> None:
    words = argparse.ArgumentParser(description=__doc__, formatter_class=argparse.RawDescriptionHelpFormatter)
    words.add_argument("stird", type=pathlib.Path)
    words.add_argument("--calls", type=int, default=3000)
    words.add_argument("--rounds", type=int, default=3)
    given = words.parse_args()
    with tempfile.TemporaryDirectory() as name:
        folder = pathlib.Path(name)
        world = World(folder / "world", 1)
        orders = {count: files(folder, world, count) for count in COUNTS}
        found = [{count: read(given.stird.resolve(), orders[count], world, given.calls) for count in COUNTS} for _ in range(given.rounds)]
    for count in COUNTS:
        start, call = zip(*(one[count] for one in found), strict=True)
        print(f"{count} blocks: {', '.join(f'{us:.0f}' for us in call)} microseconds a call; {', '.join(f'{s:.2f}' for s in start)} seconds to start")


if __name__ == "__main__":
    main()
