#!/usr/bin/env python3
"""Judges logs on a cluster of Dask, and writes the report of `stir verify`.

    day.py --chains FILE --anchors FILE --table FILE [--answers FILE] [--keep FOLDER] [--workers COUNT | --scheduler ADDRESS] LOG .. > report.txt

Several logs, each of which goes on after the one before, are judged as one. Logs and files lie where each worker reads them under the same names, and
each worker has the package `stir`. Signatures are confirmed by the workers, or looked for in an answers file. Without --scheduler the workers are
processes of this machine, and listen on the loopback alone. Each part of a log is one task.

The status is 0 if each call is valid, 1 if some call isn't, 5 if a log is outside its grammar (the last line of the report says where, and a line on
standard error in which log), and 2, with a line on standard error, if there is no whole report: also if the scheduler dies, or after Ctrl-C. With
--keep each part that was judged is kept, and the same command goes on from there.
"""
import argparse
import concurrent.futures
import contextlib
import logging
import os
import pathlib
import signal
import sys
from multiprocessing import resource_tracker
from typing import BinaryIO, Dict, Iterator, Optional, Sequence

# Its workers are processes of their own, which read this: else they tell how they clear away what a killed worker of another run left.
os.environ.setdefault("DASK_LOGGING__DISTRIBUTED", "critical")

import stir
from distributed import Client, KilledWorker, LocalCluster, as_completed
from stir import days, jobs, logs

# So many parts at most are with the cluster, or wait for one before them.
AHEAD = 256

BAR_WIDTH = 30


def count(text: str) -> int:
    """A number of at least 1."""
    if not text.isdecimal() or int(text) == 0:
        raise argparse.ArgumentTypeError(f"{text!r} is no number of at least 1")
    return int(text)


def read_words() -> argparse.Namespace:
    words = argparse.ArgumentParser(description=__doc__, formatter_class=argparse.RawDescriptionHelpFormatter, allow_abbrev=False)
    words.add_argument("logs", nargs="+", metavar="LOG")
    for name in ("chains", "anchors", "table"):
        words.add_argument(f"--{name}", required=True, metavar="FILE")
    words.add_argument("--answers", metavar="FILE", help="the answers file of stir verify; without it the workers confirm signatures")
    words.add_argument("--past", type=int, default=60, metavar="SECONDS")
    words.add_argument("--future", type=int, default=5, metavar="SECONDS")
    words.add_argument("--country", default="1", metavar="DIGITS")
    words.add_argument("--national", type=int, default=10, metavar="COUNT")
    words.add_argument("--calls", type=count, default=2000, metavar="COUNT", help="how many calls a part has")
    words.add_argument("--keep", metavar="FOLDER", help="keeps there what is judged, and takes what was kept")
    where = words.add_mutually_exclusive_group()
    where.add_argument("--workers", type=count, default=os.cpu_count(), metavar="COUNT", help="how many processes of this machine")
    where.add_argument("--scheduler", metavar="ADDRESS", help="a scheduler that is running, as tcp://HOST:8786")
    return words.parse_args()


@contextlib.contextmanager
def connect(workers: int, scheduler: Optional[str]) -> Iterator[Client]:
    """A client of this scheduler, or of so many processes of this machine."""
    if scheduler:
        with Client(scheduler) as client:
            yield client
    else:
        with interrupts_held():
            cluster = LocalCluster(n_workers=workers, threads_per_worker=1, host="127.0.0.1", dashboard_address=None)
        with cluster, Client(cluster) as client:
            yield client


@contextlib.contextmanager
def interrupts_held() -> Iterator[None]:
    """Holds Ctrl-C back. The threads and workers that are started meanwhile keep it held: it ends this process, which ends them."""
    # Python starts this helper with the first process, and lets signals in again after that.
    resource_tracker.ensure_running()
    before = signal.pthread_sigmask(signal.SIG_BLOCK, {signal.SIGINT})
    try:
        yield
    finally:
        signal.pthread_sigmask(signal.SIG_SETMASK, before)


class Lost(Exception):
    """The scheduler is lost."""


class Judging:
    """The parts of a day on the cluster, one task each. What a worker held and lost with its end is worked out anew."""

    def __init__(self, client: Client, job: jobs.Job, parts: Sequence[logs.Part], kept: Optional[jobs.Kept] = None) -> None:
        self.client, self.job, self.parts, self.kept = client, job, parts, kept
        self.under_way = as_completed()
        self.places: Dict[str, int] = {}
        self.ready: Dict[int, days.Judged] = {}
        self.judged = self.taken_over = 0

    def in_order(self) -> Iterator[days.Judged]:
        """The parts in their order. Raises what a part raised, and Lost."""
        started = 0
        for place in range(len(self.parts)):
            with interrupts_held():
                while started < min(place + AHEAD, len(self.parts)):
                    self.start(started)
                    started += 1
            while place not in self.ready:
                self.take_next()
            yield self.ready.pop(place)

    def start(self, place: int) -> None:
        """Hands a part to the cluster, unless it is kept."""
        part = self.parts[place]
        kept = self.kept and self.kept.get(part)
        if kept:
            self.ready[place] = kept
            self.taken_over += 1
            return
        # Each run judges anew (pure=False): a result of an earlier one may be of other bytes under the same names.
        future = self.client.submit(jobs.judge, self.job, part, pure=False)
        self.places[future.key] = place
        self.under_way.add(future)

    def take_next(self) -> None:
        """Takes the next part that is judged."""
        future = next(self.under_way)
        if future.status == "error":
            future.result()
        try:
            judged = future.result()
        except (concurrent.futures.CancelledError, OSError) as error:
            raise Lost(f"the scheduler is lost: {self.told()}") from error
        place = self.places.pop(future.key)
        if self.kept:
            self.kept.put(self.parts[place], judged)
        self.ready[place] = judged
        self.judged += 1

    def told(self) -> str:
        """What was done, if it ends here."""
        done = f"{self.judged + self.taken_over} of {len(self.parts)} parts"
        if self.kept:
            return f"{done} are judged and kept, and the same command goes on from there"
        return f"{done} were judged, and without --keep none is kept"


def show_bar(done: int, total: int) -> None:
    """A bar on a terminal."""
    if sys.stderr.isatty():
        bar = "#" * (BAR_WIDTH * done // total)
        print(f"\r[{bar:<{BAR_WIDTH}}] {done} of {total} calls", end="\n" if done == total else "", file=sys.stderr, flush=True)


def write_report(judging: Judging, cut: logs.Cut, output: BinaryIO) -> int:
    """Writes the report as parts are judged, and gives the status."""
    day, all_valid = days.Day(), True
    for judged in judging.in_order():
        report = day.report(judged)
        output.write(report.lines)
        all_valid = all_valid and report.all_valid
        show_bar(day.next - 1, cut.calls)
    if judging.taken_over:
        complain(f"{judging.taken_over} of {len(cut.parts)} parts were kept from before")
    if cut.fault:
        output.write(f"refused input {cut.fault.place}\n".encode())
        complain(f"{cut.fault.log}: no entry of a log at byte {cut.fault.place}")
        return 5
    return 0 if all_valid else 1


def complain(text: str) -> None:
    print(f"{pathlib.Path(sys.argv[0]).name}: {text}", file=sys.stderr)


def main() -> int:
    given = read_words()
    settings = stir.Settings(given.past, given.future, given.country, given.national)
    job = jobs.Job.of(given.chains, given.anchors, given.table, given.answers, settings)
    cut = logs.cut(given.logs, given.calls)
    kept = jobs.Kept(given.keep, job) if given.keep else None
    with connect(given.workers, given.scheduler) as client:
        status = write_report(Judging(client, job, cut.parts, kept), cut, sys.stdout.buffer)
        sys.stdout.buffer.flush()
        return status


if __name__ == "__main__":
    # Dask logs a lost scheduler over many lines, by several names. A line of this program says it.
    logging.disable(logging.CRITICAL)
    try:
        sys.exit(main())
    except (Lost, OSError, ValueError, stir.StirError, KilledWorker) as error:
        complain(str(error))
    except concurrent.futures.CancelledError:
        complain("the scheduler is lost")
    except KeyboardInterrupt:
        complain("stopped")
    sys.exit(2)
