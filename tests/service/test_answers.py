"""What the answers say of a call: what was claimed and in which fields, who signed if that is shown, and each rule in words."""
import base64
import hashlib
import json
import subprocess

import es256
import pytest
from stird import Stird
from world import START

CALLED = "13105550100"
# How a call of each kind ends, and what its answer has: `claims` if it keeps the rules of the call, `signer` if its signatures are good.
KINDS = {
    "good": ("valid", 0, {"claims", "signer", "ticket"}),
    "outside": ("refused", 17, {"claims", "signer"}),
    "forged": ("refused", 16, {"claims"}),
    "unlisted": ("refused", 10, {"claims"}),
    "old": ("refused", 9, set()),
    "unsigned": ("refused", 2, set()),
}
SENTENCES = {16: ("the PASSporT's signature isn't good", "RFC 8224, section 6.2; RFC 7515, section 5.2")}


def signed_text(message):
    """What was signed as the last PASSporT of a message, and its claims."""
    token = message.decode().split("Identity: ")[1].split(";")[0]
    text, payload = token.rpartition(".")[0], token.split(".")[1]
    return text, json.loads(base64.urlsafe_b64decode(payload + "=="))


def holder(n):
    return {"codes": [f"{n:04d}"], "subject": f"CN=leaf {n}"}


@pytest.fixture(scope="module")
def service(stird, world):
    with Stird(stird, [*world.words(), "--moments", "asked"]) as one:
        yield one


@pytest.mark.parametrize("kind", KINDS)
def test_a_call_says_what_was_claimed_and_who_signed_if_that_is_shown(kind, service, world):
    message, (outcome, rule, has) = world.call(1, START, 10 + len(kind), kind), KINDS[kind]
    told = service.verify(message, START)
    assert (told["outcome"], told["rule"]) == (outcome, rule), told
    assert "certificates" not in told, told
    claimed = {name: told.get(name) for name in ("attest", "dest", "fields", "iat", "orig", "origid", "ppt", "x5u")}
    if "claims" in has:
        text, claims = signed_text(message)
        x5u = "https://certificates.example.org/none.pem" if kind == "unlisted" else world.x5u(1)
        assert claimed == {"attest": "A", "dest": [CALLED], "fields": [1], "iat": START, "orig": claims["orig"]["tn"], "origid": claims["origid"],
                           "ppt": "shaken", "x5u": x5u}, told
        assert told.get("ticket") == (hashlib.sha256(text.encode()).hexdigest() if "ticket" in has else None), told
    else:
        assert set(claimed.values()) == {None} and "ticket" not in told, told
    assert told.get("signer") == (holder(1) if "signer" in has else None), told
    if rule in SENTENCES:
        assert (told["meaning"], told["section"]) == SENTENCES[rule], told
    assert ("meaning" in told, "section" in told) == (rule > 0, rule > 0), told
    assert list(told) == sorted(told), "the members aren't in the order of their names"


def test_a_replay_says_who_signed_and_its_ticket(service, world):
    message = world.call(0, START, 30)
    first, again = service.verify(message, START), service.verify(message, START)
    assert (again["outcome"], again["winner"]) == ("replay", first["call"])
    assert (again["signer"], again["ticket"]) == (first["signer"], first["ticket"]) == (holder(0), first["ticket"])
    assert again["meaning"] == "the PASSporT passed before", again


def test_a_diverted_call_says_each_step_and_who_signed_it(service, world):
    orig, hops = world.number(0, 7), [world.number(1, 8), world.number(2, 9), CALLED]
    message, said = world.diverted(orig, hops, START, 40)
    told = service.verify(message, START)
    assert (told["outcome"], told["attest"], told["dest"], told["signer"]) == ("valid", "A", [hops[0]], holder(0)), told
    assert told["fields"] == [3, 2, 1], told
    steps = [{"dest": one["dest"]["tn"], "div": one["div"]["tn"], "field": 3 - n, "iat": START, "signer": holder(n), "x5u": world.x5u(n)}
             for n, one in enumerate(said) if n]
    assert told["diversions"] == steps, told


@pytest.mark.parametrize(("kind", "wanted"), [
    ("good", b"0 TN-Validation-Passed A "), ("outside", b"437 TN-Validation-Failed A Unsupported Credential"),
    ("forged", b"438 TN-Validation-Failed - Invalid Identity Header"), ("unsigned", b"428 No-TN-Validation - Use Identity Header")])
def test_a_line_has_the_attestation_before_its_phrase_if_that_is_asked_for(kind, wanted, service, world):
    moment = {"X-Moment": str(START), "Idempotency-Key": f"a key of {kind}"}
    message = world.call(2, START, 50 + len(kind), kind)
    assert service.ask("POST", "/verify/line?attest=yes", message, moment) == (200, wanted)
    assert service.ask("POST", "/verify/line?attest=yes", message, moment) == (200, wanted), "it isn't the answer of before"
    code, verstat, _, phrase = wanted.split(b" ", 3)
    # Without the word it is another answer, though the key is the same: of a good call, that of a replay.
    plain = b"438 TN-Validation-Failed Invalid Identity Header" if kind == "good" else b" ".join([code, verstat, phrase])
    assert service.ask("POST", "/verify/line", message, moment) == (200, plain)


def test_verstat_has_the_letter_of_a_valid_call_if_that_is_set(started, world):
    service = started("--verstat", "letter")
    message = world.call(0, START, 60)
    assert service.verify(message, START)["verstat"] == "TN-Validation-Passed-A"
    assert service.verify(message, START)["verstat"] == "TN-Validation-Failed"
    assert service.verify(world.call(0, START, 61, "outside"), START)["verstat"] == "TN-Validation-Failed"
    line = service.ask("POST", "/verify/line", world.call(0, START, 62), {"X-Moment": str(START)})
    assert line == (200, b"0 TN-Validation-Passed-A ")
    orig = world.number(0, 63)
    request = {"from": {"tn": orig}, "to": {"tn": CALLED}, "time": START, "identity": world.identity(0, orig, CALLED, START, 63)}
    answer = service.json("/stir/v1/verification", {"verificationRequest": request})
    assert answer == (200, {"verificationResponse": {"verstat": "TN-Validation-Passed-A"}})


def test_atis_says_the_rule_in_words_with_its_section(service, world):
    orig = world.number(0, 70)
    request = {"from": {"tn": orig}, "to": {"tn": CALLED}, "time": START, "identity": world.identity(0, orig, CALLED, START, 70, forged=True)}
    status, told = service.json("/stir/v1/verification", {"verificationRequest": request})
    assert (status, told["verificationResponse"]) == (200, {
        "reasoncode": "438", "reasontext": "Invalid Identity Header", "verstat": "TN-Validation-Failed",
        "reasondesc": "rule 16 at 1.0: the PASSporT's signature isn't good (RFC 8224, section 6.2; RFC 7515, section 5.2)"}), told


@pytest.fixture(scope="module")
def explained(program, world, tmp_path_factory):
    """What the program explains of a call: each rule as `RULE ok` or `RULE CODE PLACE`."""
    def lines(message):
        log = world.log([(START, message)])
        asked = subprocess.run([program, "ask", *world.words()], input=log, stdout=subprocess.PIPE, check=True).stdout
        answers = tmp_path_factory.mktemp("explained") / "answers.txt"
        answers.write_bytes(es256.confirmed(asked))
        done = subprocess.run([program, "explain", *world.words(), "--answers", answers], input=log, stdout=subprocess.PIPE, check=False)
        return [line.split(" ", 1)[1] for line in done.stdout.decode().splitlines()]

    return lines


@pytest.mark.parametrize("kind", [*KINDS, "no INVITE", "split"])
def test_a_call_is_explained_as_by_the_program_and_its_ticket_isnt_claimed(kind, service, explained, world):
    message = b"no INVITE" if kind == "no INVITE" else world.call(0, START, 80 + len(kind), "good" if kind == "split" else kind)
    if kind == "split":
        values = [b"<sip:a@example.org>", b"<tel:+19995550000>"]
        # The program isn't shown the list, but what the service makes of it.
        wanted = explained(message.replace(b"Call-ID", b"".join(b"P-Asserted-Identity: %s\r\n" % one for one in values) + b"Call-ID"))
        message = message.replace(b"Call-ID", b"P-Asserted-Identity: %s\r\nCall-ID" % b", ".join(values))
    else:
        wanted = explained(message)
    before, verified = service.metrics("stir_calls_total"), wanted[-1].endswith(" ok")
    for _ in range(2):
        status, text = service.ask("POST", "/explain", message, {"X-Moment": str(START)})
        told = json.loads(text)
        rules = [f"{one['rule']} ok" if one["holds"] else f"{one['rule']} {one['code']} {one['place']}" for one in told["rules"]]
        assert (status, rules) == (200, wanted), told
        assert all(one["meaning"] and one["section"] for one in told["rules"]), told
        assert told["outcome"] == ("passes" if verified else "refused") and "call" not in told and "ticket" not in told, told
    assert ("signer" in told) == (kind in ("good", "outside")), told
    assert service.metrics("stir_calls_total") == before, "a call that is explained was counted"
    if verified:
        assert service.outcome(message, START) == "valid", "its ticket was claimed"


def test_what_is_explained_needs_a_post(service):
    assert service.ask("GET", "/explain")[0] == 405
