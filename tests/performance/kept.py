#!/usr/bin/env python3
"""What a call takes of a processor beside ES256, by the library for C, with few and many trust anchors and lines of the code table.

    tests/performance/kept.py LIBRARY [--calls COUNT] [--rounds COUNT]

LIBRARY is the folder of libstir_c.a. The microseconds are of the process, so they scatter less than the clock on a busy machine; each line is read three
times, by turns. ES256 isn't in them: each signature is taken for good.
"""
import argparse
import os
import pathlib
import subprocess
import sys
import tempfile

HERE = pathlib.Path(__file__).resolve().parent
TOP = HERE.parents[1]
sys.path.insert(0, str(TOP / "tests" / "service"))
from world import START, World  # noqa: E402

CHAINS = 50

# How many trust anchors there are, and how many lines of the table.
KINDS = ((1, CHAINS), (1, 1000), (100, CHAINS), (100, 1000))


def files(folder, calls):
    """A world with its log, and files with many anchors and lines more."""
    world = World(folder, CHAINS)
    own, lines, others = (folder / "anchors.der").read_bytes(), (folder / "table.txt").read_text(), world.others(99)
    (folder / "log").write_bytes(world.log((START, world.call(number % CHAINS, START, number)) for number in range(1, calls + 1)))
    for anchors, table in KINDS:
        (folder / f"anchors-{anchors}").write_bytes(own if anchors == 1 else b"".join([*others[:50], own, *others[50:]]))
        more = "".join(f"X{number} {19_000_000_000 + number * 10_000} 10000\n" for number in range(table - CHAINS))
        (folder / f"table-{table}").write_text(lines + more)


def main():
    words = argparse.ArgumentParser(description=__doc__, formatter_class=argparse.RawDescriptionHelpFormatter)
    words.add_argument("library", type=pathlib.Path)
    words.add_argument("--calls", type=int, default=1000)
    words.add_argument("--rounds", type=int, default=10)
    given = words.parse_args()
    kit = pathlib.Path(os.environ.get("RATTLE_C", "/opt/rattle/c"))
    with tempfile.TemporaryDirectory() as name:
        folder, program = pathlib.Path(name), pathlib.Path(name) / "kept"
        libraries = [given.library.resolve() / "libstir_c.a", kit / "liblibc_c.a"]
        subprocess.run(["cc", "-std=gnu11", "-O2", f"-I{TOP / 'include'}", "-o", program, HERE / "kept.c", *libraries], check=True)
        files(folder, given.calls)
        for _ in range(3):
            for anchors, table in KINDS:
                done = [program, "log", f"anchors-{anchors}", f"table-{table}", str(CHAINS), str(given.rounds)]
                said = subprocess.run(done, cwd=folder, stdout=subprocess.PIPE, check=True, text=True).stdout
                print(f"{anchors} anchors, {table} lines: microseconds {said}", end="", flush=True)


if __name__ == "__main__":
    main()
