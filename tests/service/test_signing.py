"""Which attestation a call is signed with: nobody attests who forgot the word, unless whoever runs the service said what is given then."""
import base64
import json

import pytest
import signing
from world import START

# Blocks of numbers: the certificate, the first number, how many, the attestation, and what a request gets that names none.
BLOCKS = [(0, 0, 100, "A"), (1, 0, 100, "A", "A"), (1, 100, 100, "A", "C"), (2, 0, 100, "B", "B")]


@pytest.fixture
def service(started, world, tmp_path):
    path = tmp_path / "blocks.txt"
    path.write_text(signing.table(world, tmp_path, BLOCKS))
    return started("--signing", path, "--signing-local", "yes")


def said(service, given):
    """The status, and the attestation or the identifier of the fault."""
    status, told = service.json("/stir/v1/signing", given)
    if status != 200:
        return status, next(iter(told["requestError"].values()))["messageId"]
    payload = told["signingResponse"]["identity"].split(".")[1]
    return status, json.loads(base64.urlsafe_b64decode(payload + "=="))["attest"]


@pytest.mark.parametrize(("n", "place", "wanted"), [(0, 7, (400, "SVC4001")), (1, 7, (200, "A")), (1, 107, (200, "C")), (2, 7, (200, "B"))])
def test_a_request_without_attest_gets_what_the_block_says_for_it_or_nothing(n, place, wanted, service, world):
    given = signing.silent(world.number(n, place))
    assert said(service, given) == wanted, given


@pytest.mark.parametrize(("n", "place", "asked", "wanted"), [
    (0, 7, "A", (200, "A")), (0, 7, "C", (200, "C")), (1, 107, "A", (200, "A")), (1, 7, "B", (200, "B")), (2, 7, "A", (200, "B")), (2, 7, "C", (200, "C")),
])
def test_one_with_attest_gets_it_but_nothing_better_than_the_block_has(n, place, asked, wanted, service, world):
    assert said(service, signing.request(world.number(n, place), attest=asked)) == wanted


@pytest.mark.parametrize(("attest", "wanted"), [(None, (400, "SVC4001")), (1, (400, "SVC4001")), ("", (400, "SVC4005")), ("D", (400, "SVC4005"))])
def test_a_wrong_word_is_no_missing_one(attest, wanted, service, world):
    """A block that says what is given without the word gives nothing for a wrong one."""
    assert said(service, signing.request(world.number(1, 7), attest=attest)) == wanted


def test_a_number_that_no_block_has_is_told_as_one_also_without_attest(service, world):
    before = service.metric("stir_unsigned_total")
    assert said(service, signing.silent(world.number(0, 100))) == (403, "POL4030")
    assert said(service, signing.silent(world.number(0, 7))) == (400, "SVC4001")
    assert service.metric("stir_unsigned_total") == before + 2


@pytest.mark.parametrize("word", ["D", "a", "A", "AB", "-"])
def test_a_word_that_is_none_or_better_than_the_block_stops_the_start(word, started, world, tmp_path):
    path = tmp_path / "blocks.txt"
    path.write_text("; blocks\n" + signing.table(world, tmp_path, [(0, 0, 100, "B", word)]))
    with pytest.raises(RuntimeError, match=r"blocks\.txt.*line 2.*the last word is A, B or C, and no better"):
        started("--signing", path)


def test_what_was_signed_without_attest_is_valid_once(service, world):
    caller = world.number(1, 107)
    identity = service.json("/stir/v1/signing", signing.silent(caller))[1]["signingResponse"]["identity"]
    message = world.invite(caller, signing.CALLED, 1, identity)
    assert [service.outcome(message, START) for _ in range(2)] == ["valid", "replay"]
