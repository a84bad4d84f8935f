"""Tries the Python package and a day on a cluster, on a world of real keys.

The report of the program (`--program`) has to come out byte for byte. The package `stir` is installed (tests/cluster/try does so). `--calls` and `--chains`
say how large the world is. Workers are killed at moments here, so it runs without `-n`.
"""
import dataclasses
import os
import pathlib
import sys

import pytest

TOP = pathlib.Path(__file__).resolve().parents[2]
CALLS = 1200
# So that Dask is quiet about workers that are killed, in this process and in those that it starts.
os.environ["DASK_LOGGING__DISTRIBUTED"] = "critical"
sys.path += [str(TOP / "tests" / "service"), str(TOP / "examples" / "cluster")]

import arguments  # noqa: E402
import clusters  # noqa: E402
import cuts  # noqa: E402
import judging  # noqa: E402
import orders  # noqa: E402
import verdicts  # noqa: E402
from world import World  # noqa: E402


@dataclasses.dataclass(frozen=True)
class Place:
    """What the tests share: the program, and a world with its calls, the program's report of them and a day of them."""
    program: pathlib.Path
    folder: pathlib.Path
    world: World
    calls: list
    report: str
    day: clusters.Day


@pytest.fixture(scope="session")
def at(request, program, tmp_path_factory):
    given = request.config.getoption
    folder = tmp_path_factory.mktemp("cluster")
    world = World(folder / "world", given("chains"))
    calls = list(world.calls(given("calls") or CALLS))
    report = judging.report(program, TOP, world, calls, folder)
    return Place(program, folder, world, calls, report, clusters.Day(world, folder, calls, report))


TESTS = {
    "a wrong argument is an exception with a sentence": lambda at: arguments.refused(),
    "no argument brings the process down": lambda at: arguments.anything(),
    "a log is cut at its entries, whatever the size of a part": lambda at: cuts.everywhere(at.folder),
    "a log that isn't whole has the place of verify": lambda at: cuts.faults(at.program, at.world, at.folder),
    "each call by itself has the verdict of the report": lambda at: verdicts.each(at.world, at.calls, at.report),
    "a ticket is remembered while it may come": lambda at: verdicts.settled(),
    "the rules that hold are those of explain": lambda at: verdicts.explained(at.program, at.world, at.calls, at.folder),
    "a call that names many x5us is judged by its own": lambda at: verdicts.named(at.world),
    "a call is judged by its own among many anchors": lambda at: verdicts.trusted(at.world, at.calls, at.folder),
    "claims are those that were signed": lambda at: verdicts.claimed(at.world),
    "certificates say what they were made with": lambda at: verdicts.shown(at.world),
    "eight threads at once say the same": lambda at: verdicts.at_once(at.world, at.calls),
    "files outside their grammars are named": lambda at: verdicts.bad_files(at.world, at.folder),
    "what is signed is what the program writes, and passes": lambda at: orders.signed(at.program, at.world, at.folder),
    "what may not be signed isn't": lambda at: orders.withheld(at.program, at.world, at.folder),
    "one, two and four workers give the report of verify": lambda at: at.day.workers(),
    "so does the program on two workers, over an answers file and a log in three files": lambda at: at.day.program(),
    "so does a scheduler that was running": lambda at: at.day.scheduler(),
    "a worker killed in the middle changes nothing": lambda at: at.day.killed(),
    "files that change in the middle stop the run": lambda at: at.day.changed(),
    "a day for no worker is refused": lambda at: at.day.refused(),
    "a scheduler that dies ends the day with 2 and one line": lambda at: at.day.lost(),
    "what was judged is kept, and another scheduler has the rest": lambda at: at.day.gone_on(),
    "what is kept counts whole, for the same files": lambda at: at.day.kept(),
    "so does Ctrl-C": lambda at: at.day.interrupted(),
}


@pytest.mark.parametrize("what", TESTS)
def test_cluster(what, at, says):
    says(TESTS[what](at))
