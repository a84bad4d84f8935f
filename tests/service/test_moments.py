"""Moments that callers say: in any order (`--moments asked`), or in the order of one clock (`--moments ordered`)."""
import contextlib

import pytest
import redises
from stird import Stird
from world import START

KEPT = pytest.mark.parametrize("kept", ["memory", "journal", "redis"])


@pytest.fixture
def stores(stird, world, tmp_path):
    """Two services over one Redis; or one, twice, that keeps its tickets itself."""
    with contextlib.ExitStack() as held:
        def start(kept, moments):
            words = [*world.words(), "--moments", moments]
            if kept != "redis":
                words += ["--journal", str(tmp_path / "journal")] if kept == "journal" else []
                return (held.enter_context(Stird(stird, words)),) * 2
            if not redises.PROGRAM:
                pytest.skip(redises.MISSING)
            words += ["--redis", held.enter_context(redises.Redis(tmp_path)).address()]
            return [held.enter_context(Stird(stird, words)) for _ in range(2)]

        yield start


@KEPT
def test_a_moment_that_goes_ahead_and_back_again_forgets_nothing_and_harms_no_call(kept, stores, world):
    one, other = stores(kept, "asked")
    early, late = world.call(0, START, 1), START + 71
    assert [service.outcome(early, START) for service in (one, other)] == ["valid", "replay"]
    assert other.outcome(world.call(1, late, 2), late) == "valid"
    back = world.call(1, START, 3)
    assert [other.outcome(message, START) for message in (back, back, early)] == ["valid", "replay", "replay"]


@KEPT
def test_if_moments_are_in_order_a_call_that_is_too_far_behind_is_unjudged(kept, stores, world):
    """It is so wherever tickets are kept, since they may be forgotten there. A second earlier it isn't, and a call that is refused moves nothing."""
    one, other = stores(kept, "ordered")
    assert [service.outcome(world.call(0, START, 1), START) for service in (one, other)] == ["valid", "replay"]
    far = START + 1000
    assert other.outcome(world.call(0, far, 2, "forged"), far) == "refused"
    assert other.outcome(world.call(1, START + 70, 3), START + 70) == "valid"
    assert [other.outcome(world.call(1, START, 4), START) for _ in range(2)] == ["valid", "replay"]
    assert other.outcome(world.call(1, START + 71, 5), START + 71) == "valid"
    assert [other.outcome(world.call(1, START, number), START) for number in (4, 6)] == ["unjudged"] * 2
    assert other.outcome(world.call(1, START + 1, 7), START + 1) == "valid"
