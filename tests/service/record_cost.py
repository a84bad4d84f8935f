#!/usr/bin/env python3
"""Measures what the record costs of a call.

    tests/service/record_cost.py STIRD [--calls COUNT] [--rounds COUNT] [--chains COUNT] [WORD ..]

One service records its calls and one doesn't, and both get the same calls by turns, so that what else runs on the machine troubles both alike: in each round
COUNT new calls, whose signatures are checked, over 8 connections by the client in C (load.c). Written are the microseconds of processor time that a call takes of each (user and system, with the
thread that writes), in all and as the median of the rounds. WORDs are options more of the one that records, as `--record-numbers=hashed`.
"""
import argparse
import collections
import json
import pathlib
import statistics
import tempfile

import load
from stird import Stird, wait_until
from world import START, World

CONNECTIONS = 8


class Lines:
    """How many lines a file has. The service that writes it isn't asked, which would cost it."""

    def __init__(self, path):
        self.path, self.read, self.count = path, 0, 0

    def now(self):
        with self.path.open("rb") as file:
            file.seek(self.read)
            new = file.read()
        self.read, self.count = self.read + len(new), self.count + new.count(b"\n")
        return self.count


def main():
    words = argparse.ArgumentParser(description=__doc__, formatter_class=argparse.RawDescriptionHelpFormatter)
    words.add_argument("stird", type=pathlib.Path)
    words.add_argument("--calls", type=int, default=5000)
    words.add_argument("--rounds", type=int, default=20)
    words.add_argument("--chains", type=int, default=50)
    given, more = words.parse_known_args()
    with tempfile.TemporaryDirectory() as name:
        folder = pathlib.Path(name)
        world = World(folder / "world", given.chains)
        client, requests = load.light_client(folder), folder / "requests"
        by = [*world.words(), "--moments", "asked"]
        record = ["--record", str(folder / "record"), *more]
        with Stird(given.stird.resolve(), by) as plain, Stird(given.stird.resolve(), [*by, *record]) as recording:
            costs, lines = collections.defaultdict(list), Lines(folder / "record")
            for number in range(given.rounds + 1):
                first = number * given.calls
                load.written(requests, ((START, world.call(call % world.count, START, call)) for call in range(first + 1, first + given.calls + 1)))
                for service in (plain, recording) if number % 2 else (recording, plain):
                    before = service.used()
                    answers, _, _ = load.send_light(service.port, requests, 0, CONNECTIONS, client)
                    if service is recording:
                        done = first + given.calls
                        assert wait_until(lambda: lines.now() == done, 30), "lines are lost"
                    assert {json.loads(answer)["outcome"] for answer in answers} == {"valid"}
                    costs[service].append((service.used() - before) / given.calls * 1e6)
            size = (folder / "record").stat().st_size / done
    # The first round opens what is kept.
    plainly, recorded = costs[plain][1:], costs[recording][1:]
    one, other = statistics.mean(plainly), statistics.mean(recorded)
    ratios = [mine / yours for mine, yours in zip(recorded, plainly)]
    print(f"{given.rounds * given.calls} calls each: {one:.1f} us a call, and {other:.1f} with the record: {(other / one - 1) * 100:.1f} % more; "
          f"the median of the rounds is {(statistics.median(ratios) - 1) * 100:.1f} %; {size:.0f} bytes a line")


if __name__ == "__main__":
    main()
