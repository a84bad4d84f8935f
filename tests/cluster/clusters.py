"""A day on a cluster, beside the report of the proved program."""
import contextlib
import logging
import os
import pathlib
import signal
import subprocess
import sys
import time

import cuts
import day as example
import stir
from distributed import Client, LocalCluster
from load import below
from stir import days, jobs, logs

# Dask says much of workers that are killed, which is what a test does.
logging.getLogger("distributed.client").setLevel(logging.CRITICAL)

PROGRAM = pathlib.Path(example.__file__)


def take_interrupts():
    """Has a process that is started here heed SIGINT, also if these tests run in the background, where a shell has it ignored."""
    signal.signal(signal.SIGINT, signal.SIG_DFL)


class Day:
    """The log of a day, its files, and its report."""

    def __init__(self, world, folder, calls, report):
        self.names, self.folder, self.calls, self.report = world.words()[1::2], folder, calls, report
        self.log = folder / "day.log"
        self.log.write_bytes(world.log(calls))

    def job(self, chains=None):
        return jobs.Job.of(chains or self.names[0], *self.names[1:])

    def judged(self, workers, calls):
        """The report of so many workers on parts of so many calls."""
        output = self.folder / "report.txt"
        cut = logs.cut([self.log], calls)
        with example.connect(workers, None) as client, open(output, "wb") as file:
            judging = example.Judging(client, self.job(), cut.parts)
            status = example.write_report(judging, cut, file)
        assert (status, judging.judged) == (1, len(cut.parts)), f"status {status}, and {judging.judged} tasks for {len(cut.parts)} parts"
        return output.read_text()

    def workers(self):
        for workers, calls in ((1, 2000), (2, 130), (4, 37)):
            assert self.judged(workers, calls) == self.report, f"{workers} workers give another report"

    def program(self):
        """The program, over three logs of which the last isn't whole, and over the answers file that the report was made with."""
        files = cuts.pieces(self.folder, self.log.read_bytes(), self.calls, (0, len(self.calls) // 3, len(self.calls) // 2))
        whole = files[-1].stat().st_size
        with open(files[-1], "ab") as last:
            last.write(b"@1 0\n")
        words = [word for pair in zip(("--chains", "--anchors", "--table"), self.names) for word in pair]
        words += ["--answers", self.folder / "answers.txt", "--workers", "2", "--calls", "100"]
        done = subprocess.run([sys.executable, PROGRAM, *words, *files], stdout=subprocess.PIPE, stderr=subprocess.PIPE, check=False, text=True)
        assert done.stdout == self.report + f"refused input {whole}\n", f"the program gives another report: {done.stderr}"
        assert f"{files[-1]}: no entry of a log at byte {whole}" in done.stderr, done.stderr
        assert done.returncode == 5, f"the status is {done.returncode}"

    def scheduler(self):
        """The program, by the scheduler of a cluster that it didn't start."""
        words = [word for pair in zip(("--chains", "--anchors", "--table"), self.names) for word in pair]
        with LocalCluster(n_workers=1, threads_per_worker=2, host="127.0.0.1", dashboard_address=None) as cluster:
            words += ["--scheduler", cluster.scheduler_address, "--calls", "300"]
            done = subprocess.run([sys.executable, PROGRAM, *words, self.log], stdout=subprocess.PIPE, check=False, text=True)
        assert done.stdout == self.report and done.returncode == 1, f"another report, with status {done.returncode}"

    def start(self, *words):
        """The program with these words on the day's log, in a group of processes of its own, with what Dask says by itself."""
        files = [word for pair in zip(("--chains", "--anchors", "--table"), self.names) for word in pair]
        environment = {name: value for name, value in os.environ.items() if not name.startswith("DASK_LOGGING")}
        return subprocess.Popen([sys.executable, PROGRAM, *files, *words, self.log], env=environment, start_new_session=True, stdout=subprocess.PIPE,
                                stderr=subprocess.PIPE, text=True, preexec_fn=take_interrupts)

    def refused(self):
        """No workers, fewer than none, and parts of no call: at once, before anything is started."""
        for words in (["--workers", "0"], ["--workers", "-1"], ["--workers", "two"], ["--calls", "0"]):
            output, error = ended(self.start(*words))[1:]
            said = error.splitlines()[-1] if error else ""
            assert output == "" and said == f"day.py: error: argument {words[0]}: {words[1]!r} is no number of at least 1", f"{words}: {error}"

    def lost(self):
        """The scheduler is killed while the day waits for a worker."""
        with scheduler() as address:
            day = self.start("--scheduler", address)
            with Client(address) as watcher:
                wait_until(lambda: watcher.run_on_scheduler(lambda dask_scheduler: len(dask_scheduler.tasks)) > 0)
        said = ended(day)
        wanted = (2, "", "day.py: the scheduler is lost: 0 of 1 parts were judged, and without --keep none is kept\n")
        assert said == wanted, f"status, report and standard error are {said}"

    def gone_on(self):
        """The scheduler is killed in the middle; what was judged is kept, and another scheduler has the rest."""
        kept = self.folder / "kept"
        words = ("--keep", kept, "--calls", "2", "--scheduler")
        with scheduler() as address, worker(address):
            day = self.start(*words, address)
            wait_until(lambda: kept.exists() and len(list(kept.iterdir())) > 5)
        status, lines, error = ended(day)
        parts, files = (len(self.calls) + 1) // 2, {file: file.stat().st_mtime_ns for file in kept.iterdir() if file.suffix != ".new"}
        assert 5 < len(files) < parts, f"{len(files)} of {parts} parts are kept"
        said = f"day.py: the scheduler is lost: {len(files)} of {parts} parts are judged and kept, and the same command goes on from there\n"
        assert (status, error) == (2, said), f"status {status}, standard error {error}"
        assert self.report.startswith(lines), "what was written isn't the begin of the report"
        with scheduler() as address, worker(address):
            status, lines, error = ended(self.start(*words, address))
        assert (status, lines) == (1, self.report), f"status {status}, and another report"
        assert error == f"day.py: {len(files)} of {parts} parts were kept from before\n", error
        again = [file.name for file, when in files.items() if file.stat().st_mtime_ns != when]
        assert len(list(kept.iterdir())) == parts and not again, f"parts that were kept were judged again: {again}"

    def kept(self):
        """What is kept counts whole, for the same files and the same log."""
        cut, folder = logs.cut([self.log], 300), self.folder / "kept-parts"
        kept, part = jobs.Kept(folder, self.job()), cut.parts[1]
        judged = jobs.judge(self.job(), part)
        assert kept.get(part) is None, "a part is kept that wasn't judged"
        kept.put(part, judged)
        assert kept.get(part) == judged and kept.get(cut.parts[0]) is None, "what is kept isn't what was judged"
        [file] = folder.iterdir()
        text = file.read_text()
        for spoilt in (text[:-1], text[: len(text) // 2], "", text + "\n", text.replace("passes", "", 1), "\0" * len(text)):
            file.write_text(spoilt)
            assert kept.get(part) is None, "a part that isn't whole is taken"
        file.write_text(text)
        other = self.folder / "other-chains.txt"
        other.write_bytes(pathlib.Path(self.names[0]).read_bytes() + b"; another file\n")
        assert jobs.Kept(folder, self.job(other)).get(part) is None, "a part is taken that was judged by another file"
        os.utime(self.log, ns=(1, 1))
        assert kept.get(part) is None, "a part of a log is taken that has changed"

    def interrupted(self):
        """Ctrl-C, which the terminal sends to the program and to its workers alike."""
        day = self.start("--workers", "2")
        wait_until(lambda: len(list(below(day.pid))) > 2)
        os.killpg(day.pid, signal.SIGINT)
        said = ended(day)
        assert said == (2, "", "day.py: stopped\n"), f"status, report and standard error are {said}"

    def killed(self):
        """A worker is killed when the first part is judged, and the next one when half are: of two workers, and of one."""
        for workers in (2, 1):
            cut = logs.cut([self.log], 20)
            with example.connect(workers, None) as client:
                day, lines, lost = days.Day(), b"", 0
                for done, judged in enumerate(example.Judging(client, self.job(), cut.parts).in_order(), 1):
                    lines += day.report(judged).lines
                    if done in (1, len(cut.parts) // 2):
                        os.kill(next(iter(client.run(os.getpid).values())), signal.SIGKILL)
                        lost += 1
            assert lost == 2, f"{lost} workers were killed"
            assert lines.decode() == self.report, f"{workers} workers give another report if some are killed"

    def changed(self):
        """A worker goes by the files with which the job began, or not at all."""
        chains = self.folder / "changing.txt"
        chains.write_bytes(pathlib.Path(self.names[0]).read_bytes())
        job, part = self.job(chains), logs.cut([self.log], 5).parts[0]
        assert isinstance(jobs.judge(job, part), days.Judged), "the first part isn't judged"
        jobs.held.cache_clear()
        chains.write_bytes(b"")
        try:
            jobs.judge(job, part)
        except stir.BadFile as error:
            assert "any more" in str(error), error
        else:
            raise AssertionError("a worker went by files that had changed")


@contextlib.contextmanager
def scheduler():
    """A scheduler, which is killed in the end: its address."""
    process = subprocess.Popen([sys.executable, "-m", "distributed.cli.dask_scheduler", "--host", "127.0.0.1", "--port", "0", "--no-dashboard"],
                               stderr=subprocess.PIPE, text=True, env={**os.environ, "DASK_LOGGING__DISTRIBUTED": "info"})
    try:
        yield next(line.split()[-1] for line in process.stderr if "Scheduler at:" in line)
    finally:
        process.kill()
        process.wait()


@contextlib.contextmanager
def worker(address):
    """A worker of this scheduler, which outlives it."""
    process = subprocess.Popen([sys.executable, "-m", "distributed.cli.dask_worker", address, "--nthreads", "1", "--no-nanny", "--no-dashboard"],
                               stderr=subprocess.DEVNULL)
    try:
        yield
    finally:
        process.kill()
        process.wait()


def ended(process):
    """The status of a process that ends within five minutes, its output and what it says on standard error."""
    try:
        output, error = process.communicate(timeout=300)
    except subprocess.TimeoutExpired:
        os.killpg(process.pid, signal.SIGKILL)
        process.communicate()
        raise AssertionError("it doesn't end") from None
    return process.returncode, output, error


def wait_until(holds):
    """Waits until this holds, at most five minutes."""
    end = time.monotonic() + 300
    while not holds():
        assert time.monotonic() < end, "what is waited for doesn't come"
        time.sleep(0.05)
