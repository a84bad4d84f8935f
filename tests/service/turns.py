#!/usr/bin/env python3
"""Measures two services by turns, so that what else runs on the machine troubles both alike.

    tests/service/turns.py ONE OTHER [--calls COUNT] [--chains COUNT] [--rounds COUNT] [CASE ..]

In each round each service is started anew for each CASE, and the same calls are sent to it by the client in C (load.c). Written are the medians of the rounds
for each case and service: microseconds of processor time a call, calls a second, and the median and the 99th part of the times of answers in milliseconds; and
before each round what one verification of ES256 takes of this machine at that moment (`openssl speed`), and its load. Each answer has to be `valid`.
"""
import argparse
import collections
import json
import pathlib
import statistics
import subprocess
import tempfile

import load
import redises
from stird import Stird
from world import START, World

# Connections and calls a second (as fast as can be if 0) of each case, and how tickets are kept.
CASES = {
    "1 connection": (1, 0, "memory"),
    "8 connections": (8, 0, "memory"),
    "64 connections": (64, 0, "memory"),
    "250 connections": (250, 0, "memory"),
    "8 at 500 a second": (8, 500, "memory"),
    "8, on the disk": (8, 0, "disk"),
    "64, on the disk": (64, 0, "disk"),
    "8 at 500 a second, on the disk": (8, 500, "disk"),
    "8, in a file": (8, 0, "file"),
    "8, in a Redis": (8, 0, "redis"),
}


def speed():
    """Microseconds of a verification of ES256 by openssl: the last word of its line is how many it does a second."""
    told = subprocess.run(["openssl", "speed", "-seconds", "1", "ecdsap256"], stdout=subprocess.PIPE, stderr=subprocess.DEVNULL, check=True).stdout.decode()
    line = next(line for line in told.splitlines() if "nistp256" in line)
    return 1e6 / float(line.split()[-1])


def measured(program, world, case, requests, client, folder):
    """Microseconds of a processor a call, calls a second, and the median and the 99th part of the times in milliseconds."""
    connections, rate, kept = CASES[case]
    words = [*world.words(), "--moments", "asked"]
    for path in folder.glob("journal*"):
        path.unlink()
    redis = redises.Redis(folder) if kept == "redis" else None
    words += {"memory": [], "disk": ["--journal", str(folder / "journal")], "file": ["--journal", str(folder / "journal"), "--sync", "no"],
              "redis": ["--redis", redis and redis.address()]}[kept]
    try:
        with Stird(program, words) as service:
            before = service.used()
            answers, times, seconds = load.send_light(service.port, requests, rate, connections, client)
            used = service.used() - before
    finally:
        if redis:
            redis.stop()
    outcomes = collections.Counter(json.loads(answer)["outcome"] for answer in answers)
    assert set(outcomes) == {"valid"}, f"{case}: {dict(outcomes)}"
    times.sort()
    return used / len(times) * 1e6, len(times) / seconds, times[len(times) // 2] * 1000, times[len(times) * 99 // 100] * 1000


def main():
    words = argparse.ArgumentParser(description=__doc__, formatter_class=argparse.RawDescriptionHelpFormatter)
    words.add_argument("one", type=pathlib.Path)
    words.add_argument("other", type=pathlib.Path)
    words.add_argument("cases", metavar="CASE", nargs="*", help="; ".join(CASES))
    words.add_argument("--calls", type=int, default=8000)
    words.add_argument("--chains", type=int, default=50)
    words.add_argument("--rounds", type=int, default=5)
    given = words.parse_intermixed_args()
    with tempfile.TemporaryDirectory() as name:
        folder = pathlib.Path(name)
        world = World(folder / "world", given.chains)
        calls = [(START, world.call(number % world.count, START, number)) for number in range(1, given.calls + 1)]
        client, requests = load.light_client(folder), load.written(folder / "requests", calls)
        few = load.written(folder / "few", calls[:3000])
        programs = {"one": given.one.resolve(), "other": given.other.resolve()}
        seen = collections.defaultdict(list)
        for number in range(given.rounds):
            print(f"round {number + 1}: a verification takes {speed():.0f} us, load {pathlib.Path('/proc/loadavg').read_text().split()[0]}", flush=True)
            for case in given.cases or CASES:
                for which in ("one", "other") if number % 2 == 0 else ("other", "one"):
                    seen[case, which].append(measured(programs[which], world, case, few if CASES[case][1] else requests, client, folder))
        print(f"\n{'case':32} {'service':8} {'us a call':>9} {'calls/s':>9} {'p50 ms':>8} {'p99 ms':>8}")
        for (case, which), rows in seen.items():
            cost, rate, middle, last = (statistics.median(row[place] for row in rows) for place in range(4))
            print(f"{case:32} {which:8} {cost:9.0f} {rate:9.0f} {middle:8.2f} {last:8.2f}")


if __name__ == "__main__":
    main()
