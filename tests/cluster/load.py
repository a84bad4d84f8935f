#!/usr/bin/env python3
"""Measures a day on a cluster of this machine.

    tests/cluster/load.py FOLDER [--report FILE] [--workers COUNT ..] [--kill SECONDS] [-- WORDS of examples/cluster/day.py ..]

FOLDER has `log`, `chains.txt`, `anchors.der` and `table.txt`. Says for each count of workers how many calls a second were judged, start and end of the
cluster among it, and how much processor time all processes took. The report is compared where one is named. `--kill` kills a worker after so many seconds. The
package `stir` is installed, or python/ is built in place and on PYTHONPATH.
"""
import argparse
import os
import pathlib
import resource
import signal
import subprocess
import sys
import threading
import time

DAY = pathlib.Path(__file__).resolve().parents[2] / "examples" / "cluster" / "day.py"


def below(process):
    """The processes that this one started, and those that they did."""
    for thread in pathlib.Path(f"/proc/{process}/task").iterdir():
        for child in (thread / "children").read_text().split():
            yield int(child)
            yield from below(child)


def kill_worker(process):
    """Kills a worker of this day."""
    workers = [child for child in below(process) if b"spawn_main" in pathlib.Path(f"/proc/{child}/cmdline").read_bytes()]
    os.kill(workers[0], signal.SIGKILL)
    print(f"process {workers[0]} of {len(workers)} workers is killed", flush=True)


def processor():
    """Seconds of processor time of all processes that have ended."""
    used = resource.getrusage(resource.RUSAGE_CHILDREN)
    return used.ru_utime + used.ru_stime


def run(folder, workers, kill, words):
    """The report, how long the day took by the clock, and how much processor time."""
    names = ("chains.txt", "anchors.der", "table.txt")
    files = [word for name in names for word in (f"--{name.split('.')[0]}", str(folder / name))]
    before, start = processor(), time.perf_counter()
    day = subprocess.Popen([sys.executable, DAY, *files, "--workers", str(workers), *words, folder / "log"], stdout=subprocess.PIPE)
    if kill:
        threading.Timer(kill, kill_worker, [day.pid]).start()
    report = day.communicate()[0]
    if day.returncode not in (0, 1):
        sys.exit(f"the status is {day.returncode}")
    return report, time.perf_counter() - start, processor() - before


def main():
    words = argparse.ArgumentParser(description=__doc__, formatter_class=argparse.RawDescriptionHelpFormatter)
    words.add_argument("folder", type=pathlib.Path)
    words.add_argument("--report", type=pathlib.Path)
    words.add_argument("--workers", type=int, nargs="+", default=[1, 2, 4])
    words.add_argument("--kill", type=float)
    words.add_argument("words", nargs="*")
    given = words.parse_args()
    for workers in given.workers:
        report, seconds, used = run(given.folder, workers, given.kill, given.words)
        calls = report.count(b"\n")
        if given.report and report != given.report.read_bytes():
            sys.exit(f"{workers} workers give another report")
        same = ", the report is the one named" if given.report else ""
        print(f"workers {workers}: {calls} calls in {seconds:.1f} s, {calls / seconds:.0f} a second; processor {used:.1f} s, {used / calls * 1e6:.0f} us a call; "
              f"load {os.getloadavg()[0]:.0f}{same}", flush=True)


if __name__ == "__main__":
    main()
