"""No ticket passes twice under the premises that docs/SERVICE.md names, whatever fails; each premise that is broken shows its loss; and a run is the
same for one seed. A failure says by which command it comes again."""
import dataclasses
import pathlib
import re
from collections import Counter

import client
import country
import pytest
import service
from events import MS, SECOND
from scripted import SCRIPTS, Simulated
from settings import BROKEN, FAULTS, Settings

STIRD = pathlib.Path(__file__).resolve().parents[2] / "host/stird/src"

SMALL = Settings(services=6, shards=2, calls=500, seconds=90)


def summed(settings, seeds):
    *_, (_, total) = country.summed(settings, seeds)
    return total


def command(settings, seeds):
    words = f"--services {settings.services} --shards {settings.shards} --calls {settings.calls} --seconds {settings.seconds} --seeds {seeds}"
    broken = f" --break {settings.broken}" if settings.broken else ""
    return f"tests/simulation/country.py {words} --faults {','.join(sorted(settings.faults)) or 'none'}{broken}"


@pytest.mark.parametrize("fault", FAULTS)
def test_no_ticket_passes_twice_by_one_fault(fault):
    settings = dataclasses.replace(SMALL, faults=frozenset([fault]))
    total = summed(settings, 1)
    assert total["twice"] == 0, command(settings, 1)
    assert total["calls"] == SMALL.calls
    # What a store or a network does wrong costs calls; what it costs is a call unjudged, or one that is asked for again.
    if fault in ("disk", "closed", "full", "partitions", "hangs", "lost", "late"):
        assert total["unjudged"] > 0, command(settings, 1)
    assert total["valid"] > total["calls"] / 2, command(settings, 1)


def test_without_a_fault_each_call_is_valid_or_its_copy_was_first():
    total = summed(dataclasses.replace(SMALL, faults=frozenset()), 1)
    assert total["valid"] + total["after_copy"] == total["calls"] == SMALL.calls
    assert total["copies"] == total["copies_refused"] + total["after_copy"], "of a call and its copy one passed"
    assert total["copies"] > SMALL.calls / 3


def test_no_ticket_passes_twice_by_all_faults_together():
    total = summed(SMALL, 3)
    assert total["twice"] == 0, command(SMALL, 3)
    assert min(total[name] for name in ("valid", "unjudged", "itself", "copies_refused", "copies_unjudged")) > 0, total


@pytest.mark.parametrize("broken", BROKEN)
def test_a_broken_premise_lets_tickets_pass_twice(broken):
    settings = dataclasses.replace(SMALL, faults=frozenset(), broken=broken)
    assert summed(settings, 1)["twice"] > 0, command(settings, 1)


def test_keys_that_outlive_no_wait_let_tickets_pass_twice(monkeypatch):
    """Keys live so much longer since a call may wait for certificates, and its ticket is claimed after that."""
    settings = dataclasses.replace(SMALL, calls=1000, faults=frozenset(["clocks", "waits"]))
    assert summed(settings, 1)["twice"] == 0, command(settings, 1)
    monkeypatch.setattr(client, "WAITED", 0)
    assert summed(settings, 1)["twice"] > 0


@pytest.mark.parametrize("name", SCRIPTS)
def test_steps_have_these_outcomes(name):
    steps, outcomes = SCRIPTS[name]
    assert Simulated().outcomes(steps) == outcomes


def test_a_run_is_the_same_for_one_seed():
    one, again, other = (Counter(country.run(dataclasses.replace(SMALL, seed=seed)).counts()) for seed in (5, 5, 6))
    assert one == again != other


def seconds(text):
    """A number or a duration of Rust, in microseconds if it is one."""
    found = re.fullmatch(r"Duration::from_millis\((\d+)\)", text)
    return int(found[1]) * MS if found else SLACKS.get(text) or int(text.replace("_", ""))


SLACKS = {"SLACK": client.SLACK}


@pytest.mark.parametrize(("file", "names"), [
    ("tickets/mod.rs", {"SLACK": client.SLACK}),
    ("tickets/redis/mod.rs", {"PATIENCE": client.PATIENCE, "FIRST": client.FIRST, "LEAP": client.LEAP}),
    ("tickets/redis/breaker.rs", {"FAILURES": client.FAILURES, "PAUSE": client.PAUSE}),
    ("tickets/redis/expiry.rs", {"NEAR": client.NEAR, "LONG": client.LONG, "DAY": client.DAY, "WAITED": client.WAITED}),
    ("answers.rs", {"KEPT": service.KEPT // SECOND}),
])
def test_its_times_are_those_of_the_service(file, names):
    found = dict(re.findall(r"^(?:pub )?const ([A-Z]+): \w+ = (.+);$", (STIRD / file).read_text(), re.M))
    assert {name: seconds(found[name]) for name in names} == names
