"""Clients that ran against the service as it was before it was built anew, and run against this one unchanged but for their start.

These files are as they were then, beside `judging.py` and `world.py` of tests/service, which are too: change nothing in them but how they start the service. Three
lines do that: a line of the signing table says which attestation a request gets that names none, the service signs for this host over TCP, and the two
services over one Redis have calls in the order of their moments. `kamailio.cfg` is tried by tests/service/proxy.py. What the service does besides is tried in
tests/service.
"""
import dataclasses
import json
import pathlib
import subprocess
import sys

import pytest

HERE = pathlib.Path(__file__).resolve().parent
TOP = HERE.parents[1]
# Behind this folder, whose modules are those of that time.
sys.path.append(str(TOP / "tests" / "service"))

import holding  # noqa: E402
import judging  # noqa: E402
import lasting  # noqa: E402
import load  # noqa: E402
import refusing  # noqa: E402
import signing  # noqa: E402
from judged import Judged  # noqa: E402
from stird import Stird, line_of  # noqa: E402


@dataclasses.dataclass(frozen=True)
class Place(Judged):
    """What the tests share: a judged world, and the service."""
    stird: pathlib.Path


@pytest.fixture(scope="session")
def at(request, program, tmp_path_factory):
    return Place.of(request, program, tmp_path_factory.mktemp("before"), stird=request.config.getoption("stird").resolve())


def light(at):
    """The client in C that sent calls for readings: it knows the names of header fields in the case alone in which they were written."""
    client = at.folder / "light"
    subprocess.run(["cc", "-O2", "-o", client, HERE / "load.c"], check=True)
    requests = b"".join(b"%010d" % len(one) + one for one in (load.request(*call) for call in at.calls))
    with Stird(at.stird, [*at.world.words(), "--moments", "asked"]) as service:
        done = subprocess.run([client, str(service.port)], input=requests, stdout=subprocess.PIPE, check=True, timeout=120)
    told = [json.loads(line.split(b" ", 1)[1]) for line in done.stdout.splitlines()]
    lines = "".join(line_of(number, one) for number, one in enumerate(told, 1))
    assert lines == at.report, judging.first_difference(lines, at.report)


TESTS = {
    "the service gives the report of verify": lambda at: judging.whole_log(at.stird, at.world, at.calls, at.report),
    "the same to a client in C": light,
    "Identity fields may be spelled in any way": lambda at: judging.spelled(at.stird, at.stir, TOP, at.world, at.folder),
    "the codes of trust anchors count": lambda at: judging.anchored(at.stird, at.stir, TOP, at.folder),
    "of many trust anchors the first that fits counts": lambda at: judging.many_anchors(at.stird, at.stir, TOP, at.folder),
    "four connections at once let each ticket pass once": lambda at: judging.at_once(at.stird, at.world, at.calls, at.report),
    "the requests of ATIS-1000082 and the line for proxies": lambda at: judging.other_doors(at.stird, at.world),
    "changed files are taken without a restart": lambda at: judging.reload(at.stird, at.world, at.folder),
    "certificates are confirmed when the files are read": lambda at: judging.confirmed(at.stird, at.world, at.folder),
    "killed at twenty moments no ticket passes twice": lambda at: holding.kills(at.stird, at.world, at.folder),
    "several services over one Redis let a ticket pass once": lambda at: holding.shared(at.stird, at.world, at.folder),
    "calls are signed for the numbers of a table alone": lambda at: signing.all(at.stird, at.world, at.folder),
    "garbage, slow and huge requests are refused and hold nothing": lambda at: refusing.all(at.stird, at.world),
    "what goes wrong around the service doesn't end it": lambda at: lasting.all(at.stird, at.world, at.folder),
}


@pytest.mark.parametrize("what", TESTS)
def test_before(what, at, says):
    says(TESTS[what](at))
