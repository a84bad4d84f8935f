"""Revocation lists of the service: which calls they refuse, how they change, and what becomes of calls if one has ended.

Besides, a bridge to a root on P-384.
"""
import pathlib
import subprocess
import sys
import time

import pytest
from stird import Numbers, Stird, wait_until
from web import Fetched, Fetching, Web
from world import code_list, range_list

sys.path.append(str(pathlib.Path(__file__).resolve().parent.parent / "ctl"))
import trusted  # noqa: E402
from trusted import START, crl, entry  # noqa: E402

A, B = trusted.name("A"), trusted.name("B")
SINCE = "is revoked since 2026-01-01T00:00:00Z"


@pytest.fixture
def world(tmp_path):
    return trusted.Trusted(tmp_path)


@pytest.fixture
def start(stird, world):
    """Starts a service over this world with the lists of these files, and ends it after the test."""
    services = []

    def go(*lists, signers=("agency.pem",), by=None, words=()):
        lists = [f"--crl={world.folder / name}" for name in lists] + [f"--crl-signer={world.folder / name}" for name in signers if lists]
        services.append(Stird(stird, [*(by or world.by()), "--moments", "asked", *lists, *words]))
        return services[-1]

    yield go
    for service in services:
        service.stop()


def put(world, data, name="list.crl"):
    """Puts a file in place by a rename."""
    world.write(f"{name}.new", data).rename(world.folder / name)


def taken(service, what):
    """Does something to the files, and waits until the service has looked at them."""
    count = service.metrics(r"stir_(failed_)?reloads_total ")
    what()
    assert wait_until(lambda: service.metrics(r"stir_(failed_)?reloads_total ") > count, 20), service.text()


def isnt_noted(service, name):
    """Whether nothing is said of this file, once the look is over in which it was taken."""
    return wait_until(lambda: name not in service.ready()[1])


def told(service, world, who, moment=START):
    """What comes of a new call: the rule and the place, and what is said of revocation."""
    said = service.verify(world.call(who, moment, Numbers.next())[1], moment)
    return said["outcome"], said["rule"], said.get("place"), said.get("revocation")


VALID = "valid", 0, None, None


def revoked(certificate, since=SINCE):
    return "refused", 15, f"1.{certificate}", f"certificate {certificate} {since}"


def test_a_certificate_that_was_good_is_refused_once_a_list_revokes_it(start, world):
    """Each list takes the place of the one before, and calls that passed by a confirmed chain are refused."""
    put(world, crl([]))
    service = start("list.crl")
    assert [told(service, world, who) for who in trusted.CODES] == [VALID] * 4
    for entries, broken in (
            # Two authorities with one serial number, and an inherited issuer.
            ([entry(1002, authority=A), entry(1004, authority=B)], {"two": 1, "four": 1}),
            ([entry(555, authority=A), entry(1001), entry(1004)], {"one": 1}),
            # Another string type of the name; an authority; another authority of that serial number; nothing any more.
            ([entry(1002, authority=trusted.name("B", trusted.Kind.PrintableString))], {"three": 1}),
            ([entry(2, authority=trusted.name("Root A"))], {"one": 2, "two": 2}),
            ([entry(1002, authority=trusted.name("C"))], {}),
            ([], {})):
        taken(service, lambda: put(world, crl(entries)))
        wanted = {who: revoked(broken[who]) if who in broken else VALID for who in trusted.CODES}
        assert {who: told(service, world, who) for who in trusted.CODES} == wanted, entries
    assert service.metric("stir_revoked_calls_total") == 6 and service.metric("stir_revoked_certificates") == 0
    assert service.metric('stir_calls_total{outcome="refused",rule="15"}') == 6


def test_each_answer_says_since_when(start, world):
    put(world, crl([entry(1001, authority=A)]))
    service = start("list.crl")
    moment, message = world.call("one", START, 1)
    told = service.verify(message, moment)
    assert told | {
        "call": 1, "code": 437, "outcome": "refused", "place": "1.1", "reason": "Unsupported Credential",
        "revocation": f"certificate 1 {SINCE}", "rule": 15,
        "verstat": "TN-Validation-Failed"} == told, told
    assert "signer" not in told, "a revoked certificate shows who signed"
    status, line = service.ask("POST", "/verify/line", message, {"X-Moment": str(moment)})
    assert (status, line) == (200, b"437 TN-Validation-Failed Unsupported Credential")
    identity = message.decode().partition("Identity: ")[2].partition("\r\n")[0]
    status, said = service.json("/stir/v1/verification", {"verificationRequest": {
        "from": {"tn": "12135550001"}, "to": {"tn": trusted.CALLED}, "time": moment, "identity": identity}})
    in_words = "a certificate's signature isn't good (RFC 5280, section 6.1.3)"
    assert (status, said["verificationResponse"]["reasondesc"]) == (200, f"rule 15 at 1.1, certificate 1 {SINCE}: {in_words}")
    # A call that breaks an earlier rule says nothing of it.
    assert "revocation" not in service.verify(message, moment + 61)


def test_a_certificate_is_revoked_from_its_second_on(start, world):
    put(world, crl([entry(1001, "2026-01-01T00:00:30", A)]))
    service = start("list.crl")
    since = trusted.second("2026-01-01T00:00:30")
    assert told(service, world, "one", since - 1) == VALID
    assert told(service, world, "one", since) == revoked(1, "is revoked since 2026-01-01T00:00:30Z")
    assert told(service, world, "one", since - 1) == VALID


def test_several_lists_count_together(start, world):
    put(world, crl([entry(1001, authority=A)]))
    put(world, crl([entry(1004)], by="B", indirect=False), "direct.crl")
    world.write("b.pem", trusted.pem(world.authorities["B"]))
    service = start("list.crl", "direct.crl", signers=("agency.pem", "b.pem"))
    assert [told(service, world, who) for who in trusted.CODES] == [revoked(1), VALID, VALID, revoked(1)]
    assert service.metric("stir_revoked_certificates") == 2


def test_a_list_that_is_refused_stays_what_it_was(start, world):
    put(world, crl([entry(1001, authority=A)]))
    service = start("list.crl")
    for data, said in ((crl([], key=trusted.world.key("one"), number=8), "it wasn't signed by CN=Agency,O=STI"),
                       (crl([], number=6), "its number is 6, and 7 was there before"),
                       (crl([], by="Stranger"), "which is none of its signers"), (b"<html>", "it is no revocation list"),
                       (None, "there is no such file")):
        taken(service, lambda: put(world, data) if data else (world.folder / "list.crl").unlink())
        assert told(service, world, "one") == revoked(1), said
        assert wait_until(lambda said=said: said in service.ready()[1]) and service.ready()[0], service.ready()
        line = f"list.crl: .*{said}.*; it stays what it was"
        assert wait_until(lambda line=line: service.told(line)) and len(service.told(line)) == 1, service.text()
    assert service.metric("stir_failed_reloads_total") >= 5
    taken(service, lambda: put(world, crl([], number=8)))
    assert told(service, world, "one") == VALID and isnt_noted(service, "list.crl")


def test_signers_change_with_their_lists(start, world):
    """The key of the signer changes: first the new certificate beside the old one, and then the list; or the list first."""
    put(world, crl([entry(1001, authority=A)]))
    service = start("list.crl")
    other = trusted.world.key("new agency")
    certificate = trusted.pem(trusted.certificate("Agency", "Agency", other, other, 10))
    taken(service, lambda: put(world, crl([entry(1004, authority=B)], key=other, number=8)))
    assert (told(service, world, "one"), told(service, world, "four")) == (revoked(1), VALID)
    taken(service, lambda: put(world, trusted.pem(world.agency) + certificate, "agency.pem"))
    assert (told(service, world, "one"), told(service, world, "four")) == (VALID, revoked(1)) and isnt_noted(service, "list.crl")
    # A file of signers that has none stays what it was.
    taken(service, lambda: put(world, b"", "agency.pem"))
    assert told(service, world, "four") == revoked(1)
    assert wait_until(lambda: "agency.pem: it has no certificates in PEM" in service.ready()[1]), service.ready()


def test_calls_go_on_by_a_list_that_has_ended_or_are_refused_if_that_is_ordered(start, world):
    put(world, crl([entry(1001, authority=A)], ends="2026-01-02"))
    service = start("list.crl")
    after = trusted.second("2026-01-03")
    assert [told(service, world, who, after) for who in ("one", "two")] == [revoked(1), VALID]
    ready, text = service.ready()
    assert ready and "list.crl: the next list should be there since 2026-01-02T00:00:00Z" in text
    assert service.metric("stir_ended_revocation_lists") == 1
    assert service.metric("stir_revocation_list_next_end_timestamp_seconds") == trusted.second("2026-01-02")
    taken(service, lambda: put(world, crl([entry(1001, authority=A)], number=8)))
    assert service.metric("stir_ended_revocation_lists") == 0 and "next list" not in service.ready()[1]

    put(world, crl([entry(1001, authority=A)], ends="2026-01-02"))
    service = start("list.crl", words=["--crl-ended=refuse"])
    last = trusted.second("2026-01-02")
    ended = "refused", 15, "1.1", "a revocation list ended at 2026-01-02T00:00:00Z"
    assert [told(service, world, "two", moment) for moment in (last, last + 1, last)] == [VALID, ended, VALID]
    ready, text = service.ready()
    assert not ready and "the next list should be there since" in text
    taken(service, lambda: put(world, crl([entry(1001, authority=A)], number=8)))
    assert told(service, world, "two", last + 1) == VALID and service.ready()[0]


def test_it_does_not_start_with_a_list_that_is_not_good(start, world):
    for data, said in ((None, "list.crl: there is no such file"), (b"<html>", "it is no revocation list"),
                       (crl([], key=trusted.world.key("one")), "it wasn't signed by")):
        if data:
            put(world, data)
        with pytest.raises(RuntimeError, match=said):
            start("list.crl")
    put(world, crl([]))
    with pytest.raises(RuntimeError, match="it has no certificates in PEM"):
        start("list.crl", signers=("list.crl",))
    with pytest.raises(RuntimeError, match="--crl-signer"):
        start(words=[f"--crl={world.folder}/list.crl"])


def test_a_list_of_many_certificates_is_taken_and_calls_are_judged(start, world):
    """A list of 20,000 certificates of 20 authorities."""
    entries = []
    for number in range(20_000):
        # The first of each thousand names the authority, and the others inherit it.
        entries.append(entry(10_000_000 + number, authority=trusted.name(f"Other {number // 1000}") if number % 1000 == 0 else None))
    put(world, crl([*entries, entry(1001, authority=A)]))
    begun = time.monotonic()
    service = start("list.crl")
    took = time.monotonic() - begun
    assert service.metric("stir_revoked_certificates") == 20_001 and took < 30, took
    assert [told(service, world, who) for who in ("one", "two")] == [revoked(1), VALID]


def test_a_call_under_a_root_on_p384_is_valid_by_a_bridge(stird, start, request, tmp_path):
    ctl = request.config.getoption("ctl").resolve()
    if not ctl.exists():
        pytest.skip("missing: stirctl")
    abroad = trusted.Abroad(tmp_path)
    abroad.write("list.jws", trusted.jws(abroad.body("Root A", "Root C", "Root R"), abroad.list))
    words = [ctl, "roots", "--list=list.jws", "--signer=signer.pem", "--state=state.json", "--to=made.der"]
    assert subprocess.run(words, cwd=tmp_path, stderr=subprocess.DEVNULL).returncode == 1
    service = start(by=abroad.by("made.der"))
    without = [told(service, abroad, who)[:3] for who in "CR"]
    assert without == [("refused", 12, "1.1")] * 2
    taken(service, lambda: subprocess.run([*words, "--bridge=C.pem", "--bridge=R.pem"], cwd=tmp_path, check=True, stderr=subprocess.DEVNULL))
    assert [told(service, abroad, who) for who in "CR"] == [VALID] * 2
    # The authority is revoked: the next run of the timer takes its anchor away.
    abroad.write("list.crl", crl([entry(2, authority=trusted.name("Root C"))]))
    words += ["--bridge=C.pem", "--bridge=R.pem", "--crl=list.crl", "--crl-signer=agency.pem"]
    taken(service, lambda: subprocess.run(words, cwd=tmp_path, stderr=subprocess.DEVNULL))
    assert [told(service, abroad, who)[:3] for who in "CR"] == [("refused", 12, "1.1"), VALID[:3]]


def test_a_fetched_certificate_is_refused_once_a_list_revokes_it(stird, tmp_path):
    """By the real https server of the tests of fetching: the call waits for its certificates, passes, and the next one is refused."""
    web = Web(tmp_path / "web")
    try:
        fetched = Fetched(tmp_path / "world", 2, web)
        leaf = fetched.leaf(0)
        agency = trusted.world.key("Agency")
        (tmp_path / "agency.pem").write_bytes(trusted.pem(trusted.certificate("Agency", "Agency", agency, agency, 9)))
        lists, moment = tmp_path / "list.crl", int(time.time())
        lists.write_bytes(crl([]))
        words = [*fetched.anchors(), *web.words("--fetch-wait", 9000), "--crl", lists, "--crl-signer", tmp_path / "agency.pem"]
        with Fetching(stird, words) as service:
            assert [service.outcome(fetched.call(n, moment, Numbers.next())) for n in (0, 1)] == ["valid"] * 2
            new = tmp_path / "new"
            new.write_bytes(crl([entry(leaf.serial_number, authority=leaf.issuer)]))
            # The files are as new as the service, which reads them once more: so the list itself is waited for.
            new.rename(lists)
            assert wait_until(lambda: service.metrics(r"stir_revoked_certificates ") == 1, 20), service.text()
            said = service.verify(fetched.call(0, moment, Numbers.next()))
            assert (said["rule"], said["place"], said["revocation"], said["certificates"]) == (15, "1.1", f"certificate 1 {SINCE}", "held")
            assert service.outcome(fetched.call(1, moment, Numbers.next())) == "valid"
    finally:
        web.stop()


def test_a_revoked_chain_adopts_no_code(stird, tmp_path):
    """Its numbers lie within a code of its issuer that no table names: as long as that doesn't count, rule 14 refuses its calls before rule 15."""
    web = Web(tmp_path / "web")
    try:
        fetched = Fetched(tmp_path / "world", 2, web)
        middle = fetched.certificate("middle", "root", code_list("42AB"), True)
        for n in (0, 1):
            web.chains[str(n)] = fetched.certificate(f"leaf {n}", "middle", range_list(fetched.number(n, 0), 10000)) + middle
        agency, leaf, lists = trusted.world.key("Agency"), fetched.leaf(0), tmp_path / "list.crl"
        (tmp_path / "agency.pem").write_bytes(trusted.pem(trusted.certificate("Agency", "Agency", agency, agency, 9)))
        lists.write_bytes(crl([entry(leaf.serial_number, authority=leaf.issuer)]))
        words = [*fetched.roots(), *web.words("--fetch-wait", 9000), "--crl", lists, "--crl-signer", tmp_path / "agency.pem"]
        with Fetching(stird, words) as service:
            assert service.told_of(fetched.call(0, int(time.time()), Numbers.next())) == ("refused", 14, "fetched")
            assert service.metric("stir_adopted_codes") == 0
            assert service.told_of(fetched.call(1, int(time.time()), Numbers.next())) == ("valid", 0, "fetched")
            assert service.metric("stir_adopted_codes") == 1
            assert service.told_of(fetched.call(0, int(time.time()), Numbers.next())) == ("refused", 15, "held")
    finally:
        web.stop()
