"""A clock that is wrong for a while, and one that goes back: no ticket passes twice, and what was wrong isn't held against later calls."""
import contextlib
import http.client
import time

import pytest
from clocks import MISSING, PRELOAD, Clock
from world import START

pytestmark = pytest.mark.skipif(PRELOAD is None, reason=MISSING)


@pytest.fixture
def clock(tmp_path):
    return Clock(tmp_path)


def called(world, number, ahead=0):
    """A call of now, by a clock that is ahead."""
    return world.call(number % world.count, int(time.time()) + ahead, number)


@pytest.mark.parametrize("kept", ["memory", "journal"])
def test_a_fast_clock_that_is_set_right_harms_no_later_call(kept, by_clock, today, clock, tmp_path):
    words = ["--journal", tmp_path / "journal"] if kept == "journal" else []
    service = by_clock(*words, variables=clock.variables())
    early = called(today, 1)
    assert service.outcome(early) == "valid"
    clock.set(3600)
    assert service.outcome(called(today, 2, 3600)) == "valid"
    clock.set(0)
    assert [service.outcome(called(today, number)) for number in (3, 4, 5)] == ["valid"] * 3
    assert service.outcome(early) == "replay"
    assert service.ask("GET", "/healthz")[0] == 200


def test_a_start_after_a_fast_clock_forgets_how_late_it_was(by_clock, today, clock, tmp_path):
    words, early = ["--journal", tmp_path / "journal"], called(today, 1)
    service = by_clock(*words, variables=clock.variables())
    assert service.outcome(early) == "valid"
    clock.set(3600)
    assert service.outcome(called(today, 2, 3600)) == "valid"
    clock.set(0)
    service.stop()
    service = by_clock(*words, variables=clock.variables())
    assert service.outcome(called(today, 3)) == "valid"
    assert service.outcome(early) == "replay", "a ticket that passed before the clock was wrong passes again"


def test_no_ticket_passes_twice_while_the_clock_jumps(by_clock, today, clock):
    """Ahead by an hour and back, behind by an hour and back: what passed once by a moment isn't valid again by the same moment."""
    service = by_clock(variables=clock.variables())
    calls, passed = {ahead: [called(today, 100 + number, ahead) for number in range(5)] for ahead in (0, 3600, -3600)}, set()
    for ahead in (0, 3600, 0, -3600, 0, 3600, -3600, 0):
        clock.set(ahead)
        for message in calls[ahead]:
            outcome = service.outcome(message)
            assert not (outcome == "valid" and message in passed), f"a ticket passed twice, at {ahead:+d} s"
            if outcome == "valid":
                passed.add(message)
    assert set(calls[0]) <= passed, "a call of the right time never passed"


def test_callers_whose_clocks_differ_by_more_than_the_tolerance_harm_each_other_no_longer_than_that(started, world):
    """With `--moments asked` one caller is 75 seconds ahead of another."""
    service = started()
    outcomes = []
    for number in range(3):
        ahead = START + 75 + number
        assert service.outcome(world.call(0, ahead, number), ahead) == "valid"
        outcomes.append(service.outcome(world.call(1, START + number, 10 + number), START + number))
    assert outcomes == ["valid"] * 3


@pytest.mark.parametrize("when", [-86400, 0, 2**31, 2**33, 253402300800])
def test_a_clock_that_is_off_by_decades_ends_nothing(when, by_clock, today, clock):
    """Before 1970 no answer has a date, and none may come."""
    service = by_clock(variables=clock.variables())
    clock.set(when - int(time.time()))
    with contextlib.suppress(ConnectionError, http.client.HTTPException):
        assert service.outcome(called(today, 1)) in ("refused", "unjudged")
    clock.set(0)
    service.connection = None
    assert service.lives()
    message = called(today, 2)
    assert [service.outcome(message) for _ in range(2)] == ["valid", "replay"]
