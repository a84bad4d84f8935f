"""Calls that go on to another number: what is signed of it, for whom, and that what goes on passes once at the next service."""
import base64
import concurrent.futures
import http.client
import json
import re
import time
import urllib.parse

import pytest
import signing
from cryptography.hazmat.primitives import hashes
from cryptography.hazmat.primitives.asymmetric import ec, utils
from stird import Stird
from web import Fetched, Fetching, Web
from world import START, compact

# The certificate, the first number, how many, the attestation: each certificate covers ten thousand numbers, and of these a hundred are signed for.
BLOCKS = [(0, 0, 100, "A"), (1, 0, 100, "A"), (2, 0, 100, "A")]


@pytest.fixture
def service(started, world, tmp_path):
    path = tmp_path / "blocks.txt"
    path.write_text(signing.table(world, tmp_path, BLOCKS))
    return started("--signing", path, "--signing-local", "yes")


def posted(service, path, message, fields=()):
    """Status, media type and body of an answer."""
    connection = http.client.HTTPConnection("127.0.0.1", service.port, timeout=30)
    connection.request("POST", path, message, {"X-Moment": str(START), **dict(fields)})
    answer = connection.getresponse()
    text = answer.read()
    connection.close()
    return answer.status, answer.headers["Content-Type"], text


def to(target):
    return "/retarget?to=" + urllib.parse.quote(target, safe="")


def retargeted(service, message, number, fields=()):
    """What comes of a call that is to go on to a number."""
    return posted(service, to(f"sip:+{number}@example.com"), message, fields)


def goes_on(answer):
    """The message of an answer that is one."""
    status, kind, message = answer
    assert (status, kind) == (200, "message/sip"), answer
    return message


def judged(answer):
    """What an answer tells of a call that doesn't go on."""
    status, kind, text = answer
    assert (status, kind, text[-1:]) == (200, "application/json", b"\n"), answer
    return json.loads(text)


def refused(answer):
    """The status of an answer and the identifier of its fault."""
    status, kind, text = answer
    assert kind == "application/json", answer
    return status, next(iter(json.loads(text)["requestError"].values()))["messageId"]


def passports(world, message):
    """Type and claims of the PASSporTs of a message in message order, each signature found good under the key of its x5u."""
    told = []
    for token in re.findall(rb"\r\nIdentity: ([^;]*);", message):
        head, claims, signature = token.split(b".")
        head, body, raw = (base64.urlsafe_b64decode(part + b"==") for part in (head, claims, signature))
        n = int(json.loads(head)["x5u"].rsplit("/", 1)[1].removesuffix(".pem"))
        der = utils.encode_dss_signature(int.from_bytes(raw[:32], "big"), int.from_bytes(raw[32:], "big"))
        world.keys[n].public_key().verify(der, token.rsplit(b".", 1)[0], ec.ECDSA(hashes.SHA256()))
        told.append((json.loads(head)["ppt"], json.loads(body)))
    return told


def link(caller, before, after):
    return "div", {"dest": {"tn": [after]}, "div": {"tn": before}, "iat": START, "orig": {"tn": caller}}


def call(world, number, dest, orig=0):
    """A signed call."""
    caller = world.number(orig, 7)
    return world.invite(caller, dest, number, world.identity(orig, caller, dest, START, number))


def test_a_call_signed_diverted_twice_and_retargeted_by_http_alone_is_valid_once_at_a_second_service(service, started, world):
    caller, (first, second, third, fourth) = world.number(0, 7), (world.number(n, place) for n, place in ((1, 1), (1, 2), (2, 3), (2, 4)))
    asked = signing.request(caller, dest={"tn": [first]})
    identity = service.json("/stir/v1/signing", asked)[1]["signingResponse"]["identity"]
    asked = {"signingRequest": {"orig": {"tn": caller}, "dest": {"tn": [second]}, "div": {"tn": first}, "iat": START}}
    status, told = service.json("/stir/v1/signing", asked)
    assert status == 200, told
    once = world.invite(caller, first, 1, f"{told['signingResponse']['identity']}\r\nIdentity: {identity}", second)
    again = once.replace(f"INVITE sip:+{second}@".encode(), f"INVITE sip:+{third}@".encode(), 1)
    twice = goes_on(posted(service, f"/divert?div={second}", again))
    onward = goes_on(retargeted(service, twice, fourth))
    lines = twice.split(b"\r\n")
    assert onward.split(b"\r\n")[0] == f"INVITE sip:+{fourth}@example.com SIP/2.0".encode()
    assert [line for line in onward.split(b"\r\n")[1:] if line in lines] == lines[1:], "what came isn't what goes on"
    origin = "shaken", {"attest": "A", "dest": {"tn": [first]}, "iat": START, "orig": {"tn": caller}, "origid": signing.ORIGID}
    assert passports(world, onward) == [link(caller, first, second), origin, link(caller, second, third), link(caller, third, fourth)]
    other = started()
    assert [other.outcome(onward, START) for _ in range(2)] == ["valid", "replay"]
    assert judged(retargeted(service, twice, fourth))["outcome"] == "replay"
    assert service.metric("stir_signed_total") == 4


def test_a_call_passes_once_by_whichever_way(service, world):
    """Of a call that was judged by `/verify`, and of one that went on, the other comes too late."""
    first, second = (call(world, number, world.number(1, 1)) for number in (21, 22))
    assert service.outcome(first, START) == "valid"
    told = judged(retargeted(service, first, world.number(2, 1)))
    assert (told["outcome"], told["winner"], told["rule"]) == ("replay", 1, 18), told
    onward = goes_on(retargeted(service, second, world.number(2, 1)))
    assert service.outcome(second, START) == "replay"
    assert service.outcome(onward, START) == "valid", "what went on has a ticket of its own"


def test_of_many_at_once_one_goes_on(service, world):
    message = call(world, 23, world.number(1, 1))
    with concurrent.futures.ThreadPoolExecutor(16) as pool:
        answers = list(pool.map(lambda place: retargeted(service, message, world.number(2, place)), range(16)))
    assert sorted(kind for _, kind, _ in answers) == ["application/json"] * 15 + ["message/sip"], answers


@pytest.mark.parametrize("kind", ["forged", "old", "outside", "unlisted", "unsigned"])
def test_a_call_that_breaks_a_rule_is_told_as_by_verify_and_does_not_go_on(kind, service, world):
    message = world.call(0, START, 31, kind)
    told, wanted = judged(retargeted(service, message, world.number(2, 1))), service.verify(message, START)
    assert told | {"call": 0} == wanted | {"call": 0}
    assert told["outcome"] == "refused" and service.metric("stir_signed_total") == 0


def test_what_is_no_message_is_told_as_by_verify(service):
    for message in (b"", b"hello", b"INVITE sip:a SIP/2.0\r\n\r\n"):
        told = judged(posted(service, to("tel:+12125551214"), message))
        assert (told["outcome"], told["rule"]) in (("refused", 1), ("refused", 2)), (message, told)


def diverted(world, number, times):
    """A call that was diverted so often, each time by whoever has the number before."""
    caller, hops = world.number(0, 7), [world.number(1 + hop % 2, hop) for hop in range(times + 1)]
    fields = [world.identity(0, caller, hops[0], START, number)]
    fields += [world.diversion(1 + hop % 2, caller, *hops[hop : hop + 2], START) for hop in range(times)]
    return world.invite(caller, hops[0], number, "\r\nIdentity: ".join(fields), hops[-1])


def too_many_fields(world):
    caller, dest = world.number(0, 7), world.number(1, 1)
    field = world.identity(0, caller, dest, START, 42)
    return world.invite(caller, dest, 42, "\r\nIdentity: ".join([field] * 16))


def long(world):
    message = call(world, 43, world.number(1, 1))
    return message + b"x" * (65535 - len(message))


@pytest.mark.parametrize("made, target, rule", [
    (lambda world: call(world, 44, world.number(1, 1)), "sip:alice@example.com", 21),
    (lambda world: call(world, 45, world.number(1, 1)), "sip:+12125551214 @example.com", 21),
    (lambda world: call(world, 46, world.number(1, 1)), "sip:+12125551214@example.com\r\nX: y", 21),
    (lambda world: call(world, 47, world.number(1, 1)), "tel:+{}", 22),
    (lambda world: world.diverted(world.number(0, 7), [world.number(1, 1), world.number(1, 2)], START, 48)[0], "tel:+{}", 22),
    (lambda world: diverted(world, 41, 8), "tel:+12125551214", 23),
    (too_many_fields, "tel:+12125551214", 23),
    (long, "tel:+12125551214", 24),
])
def test_a_call_that_cannot_go_on_keeps_its_ticket(made, target, rule, service, world):
    message = made(world)
    told = judged(posted(service, to(target.format(world.number(1, 1))), message))
    assert told.pop("reason"), told
    assert told == {"code": 0, "outcome": "held", "rule": rule, "verstat": "No-TN-Validation"}
    assert (service.metric("stir_held_total"), service.metric("stir_signed_total")) == (1, 0)
    assert service.outcome(message, START) == "valid"


def test_a_call_with_room_for_one_link_goes_on(service, started, world):
    message = diverted(world, 49, 7)
    onward = goes_on(retargeted(service, message, world.number(2, 50)))
    assert onward.count(b";ppt=div") == 8 and started().outcome(onward, START) == "valid"


def test_a_call_to_a_number_that_is_not_signed_for_keeps_its_ticket(service, world):
    """Its certificate would cover the number; the table hasn't got it."""
    message = call(world, 51, world.number(1, 100))
    assert refused(retargeted(service, message, world.number(2, 1))) == (403, "POL4030")
    assert service.metric("stir_unsigned_total") == 1
    assert service.outcome(message, START) == "valid"


@pytest.mark.parametrize("numbers, called, wanted", [
    (["{other}", "{own}"], "{own}", True), (["{own}", "{other}"], "{own}", True), (["{own}", "{other}"], "{other}", False),
    (["12125551214", "{own}"], "12125551214", False), (["{own}"] + ["{other}"] * 31, "{own}", True),
])
def test_of_several_called_numbers_the_one_of_the_call_is_signed_for(numbers, called, wanted, service, world):
    """A certificate covers a number that its block hasn't got: that one isn't signed for, whatever else the PASSporT calls."""
    names = {"own": world.number(1, 1), "other": world.number(1, 100)}
    caller, called = world.number(0, 7), called.format(**names)
    claims = {"attest": "A", "dest": {"tn": [number.format(**names) for number in numbers]}, "iat": START, "orig": {"tn": caller}, "origid": signing.ORIGID}
    message = world.invite(caller, called, 52, world.field("shaken", compact(claims), world.x5u(0), world.keys[0]))
    answer = retargeted(service, message, world.number(2, 1))
    if wanted:
        assert passports(world, goes_on(answer))[-1] == link(caller, called, world.number(2, 1))
    else:
        assert refused(answer) == (403, "POL4030")
        assert service.outcome(message, START) == "valid"


def test_a_call_whose_ticket_cannot_be_kept_does_not_go_on(started, world, tmp_path):
    path = tmp_path / "blocks.txt"
    path.write_text(signing.table(world, tmp_path, BLOCKS))
    service = started("--signing", path, "--signing-local", "yes", "--tickets", 1)
    goes_on(retargeted(service, call(world, 53, world.number(1, 1)), world.number(2, 1)))
    assert judged(retargeted(service, call(world, 54, world.number(1, 1)), world.number(2, 1)))["outcome"] == "unjudged"


def test_a_request_that_comes_again_gets_its_own_message(service, world):
    """The key of a request is one for its target: with another one it is another request."""
    message, key = call(world, 55, world.number(1, 1)), {"Idempotency-Key": "k"}
    onward = goes_on(retargeted(service, message, world.number(2, 1), key))
    assert goes_on(retargeted(service, message, world.number(2, 1), key)) == onward
    assert judged(retargeted(service, message, world.number(2, 2), key))["outcome"] == "replay"
    before, after = (posted(service, f"/divert?div={world.number(1, place)}", message, key) for place in (1, 2))
    assert goes_on(before) != goes_on(after)


@pytest.mark.parametrize("div, message, wanted", [
    ("", None, (400, "SVC4001")), ("?", None, (400, "SVC4001")), ("?div=", None, (400, "SVC4005")), ("?div=1x", None, (400, "SVC4005")),
    ("?to={0}", None, (400, "SVC4005")), ("?div={0}&div={0}", None, (400, "SVC4005")), ("?div={0}&to=1", None, (400, "SVC4005")),
    ("?div=%ff", None, (400, "SVC4005")), ("?div=1234567890123456", None, (400, "SVC4005")),
    ("?div={1}", None, (403, "POL4030")), ("?div=0{0}", None, (403, "POL4030")), ("?div=12*", None, (403, "POL4030")),
    ("?div={0}", b"hello", (400, "SVC4005")), ("?div={0}", b"", (400, "SVC4005")),
    ("?div={0}", b"OPTIONS sip:+12125551214@a SIP/2.0\r\nFrom: <sip:+12155551212@a>\r\n\r\n", (400, "SVC4005")),
    ("?div={0}", b"INVITE sip:bob@a SIP/2.0\r\nFrom: <sip:+12155551212@a>\r\n\r\n", (400, "SVC4005")),
])
def test_a_message_whose_diversion_is_not_signed(div, message, wanted, service, world):
    message = call(world, 61, world.number(1, 1)) if message is None else message
    answer = posted(service, "/divert" + div.format(world.number(1, 1), world.number(1, 100)), message)
    assert refused(answer) == wanted, (div, message)
    assert service.metric("stir_bad_requests_total") == 1


@pytest.mark.parametrize("query", ["", "?", "?div=1", "?to=tel:%2B1&to=tel:%2B1", "?to=%ff"])
def test_a_target_that_is_not_said_is_no_request(query, service, world):
    assert refused(posted(service, "/retarget" + query, call(world, 62, world.number(1, 1))))[0] == 400


@pytest.mark.parametrize("members, wanted", [
    ({}, (200, None)), ({"div": {"tn": ["{own}"]}}, (200, None)), ({"div": {"tn": "+{own}"}}, (200, None)),
    ({"div": {"tn": "{other}"}}, (403, "POL4030")), ({"div": {"tn": "0{own}"}}, (403, "POL4030")), ({"div": "{own}"}, (400, "SVC4001")),
    ({"div": None}, (400, "SVC4001")), ({"div": {"tn": []}}, (400, "SVC4001")), ({"div": {"tn": "x"}}, (400, "SVC4005")),
    ({"dest": None}, (400, "SVC4001")), ({"iat": "1"}, (400, "SVC4001")), ({"attest": "A"}, (400, "SVC4005")),
    ({"origid": signing.ORIGID}, (400, "SVC4005")), ({"iat": START + 301 * 86400}, (500, "SVC5001")),
])
def test_a_request_to_sign_a_diversion(members, wanted, service, world):
    names = {"own": world.number(1, 1), "other": world.number(1, 100)}
    given = {"orig": {"tn": "12155551212"}, "dest": {"tn": ["12125551214"]}, "div": {"tn": "{own}"}, "iat": START, **members}
    body = json.dumps({"signingRequest": given}).replace("{own}", names["own"]).replace("{other}", names["other"])
    answer = posted(service, "/stir/v1/signing", body.encode())
    if wanted[0] != 200:
        assert refused(answer) == wanted, body
        return
    identity = json.loads(answer[2])["signingResponse"]["identity"]
    assert passports(world, f"\r\nIdentity: {identity}".encode()) == [link("12155551212", names["own"], "12125551214")], body


def test_who_may_not_sign_diverts_nothing(started, world, tmp_path):
    path, tokens = tmp_path / "blocks.txt", tmp_path / "tokens.txt"
    path.write_text(signing.table(world, tmp_path, BLOCKS))
    tokens.write_text("0123456789abcdef\n")
    service = started("--signing", path, "--signing-tokens", tokens)
    message, way = call(world, 71, world.number(1, 1)), f"/divert?div={world.number(1, 1)}"
    for path in (way, to("tel:+12125551214")):
        assert refused(posted(service, path, message)) == (401, "POL4010")
        assert refused(posted(service, path, message, {"Authorization": "Bearer 0123456789abcdeF"})) == (401, "POL4010")
        goes_on(posted(service, path, message, {"Authorization": "Bearer 0123456789abcdef"}))


def test_a_client_diverts_its_own_numbers_alone(started, world, tmp_path):
    """Counted by client; a call to a number of another one keeps its ticket."""
    path, clients = tmp_path / "blocks.txt", tmp_path / "clients.toml"
    path.write_text(signing.table(world, tmp_path, BLOCKS))
    own, other = world.number(1, 1), world.number(2, 1)
    clients.write_text(f'[pbx]\ntokens = ["0123456789abcdef"]\nblocks = ["{own}"]\nattest = "C"\n')
    clients.chmod(0o600)
    service, by = started("--signing", path, "--signing-clients", clients), {"Authorization": "Bearer 0123456789abcdef"}
    foreign, message = call(world, 72, other), call(world, 73, own)
    asked = {"signingRequest": {"orig": {"tn": "12155551212"}, "dest": {"tn": ["12125551214"]}, "div": {"tn": other}}}
    assert refused(retargeted(service, foreign, "12125551214", by)) == (403, "POL4030")
    assert refused(posted(service, f"/divert?div={other}", foreign, by)) == (403, "POL4030")
    assert refused(posted(service, "/stir/v1/signing", json.dumps(asked).encode(), by)) == (403, "POL4030")
    assert service.metric('stir_client_signed_total{client="pbx",outcome="beyond"}') == 3
    goes_on(posted(service, f"/divert?div={own}", message, by))
    goes_on(retargeted(service, message, "12125551214", by))
    assert service.metric('stir_client_signed_total{client="pbx",outcome="signed"}') == 2
    assert service.outcome(foreign, START) == "valid"


def test_without_a_table_there_is_no_such_path(stird, world):
    with Stird(stird, world.words()) as service:
        for path in ("/divert", "/retarget"):
            assert service.ask("POST", path, b"")[0] == 404


def test_only_a_message_is_posted_there(service):
    for path in ("/divert", "/retarget"):
        assert service.ask("GET", path)[0] == 405, path


def test_a_list_of_identities_is_split_before_the_call_goes_on(service, started, world):
    caller, dest = world.number(0, 7), world.number(1, 1)
    message = world.invite(caller, dest, 81, world.identity(0, caller, dest, START, 81))
    listed = message.replace(b"To:", f"P-Asserted-Identity: <sip:pbx@example.org>, <tel:+{caller}>\r\nTo:".encode(), 1)
    onward = goes_on(retargeted(service, listed, world.number(2, 1)))
    assert onward.count(b"P-Asserted-Identity:") == 2 and started().outcome(onward, START) == "valid"


def test_a_call_goes_on_by_certificates_that_are_fetched_and_codes_that_are_trusted(stird, tmp_path):
    web = Web(tmp_path / "web")
    try:
        world, path = Fetched(tmp_path / "world", 2, web), tmp_path / "blocks.txt"
        (world.folder / "table.txt").write_text(f"{world.code(1)} {world.number(1, 0)} 10000\n")
        path.write_text(signing.table(world, tmp_path, [(1, 0, 100, "A")]))
        caller, dest = world.number(0, 7), world.number(1, 1)
        message = world.invite(caller, dest, 91, world.identity(0, caller, dest, int(time.time()), 91))
        words = [*world.anchors(), "--codes", "trusted", *web.words("--fetch-wait", 9000)]
        with Fetching(stird, [*words, "--signing", path, "--signing-local", "yes"]) as service, Fetching(stird, words) as other:
            onward = goes_on(retargeted(service, message, "12125551214"))
            assert other.told_of(onward) == ("valid", 0, "fetched")
            assert service.told_of(message)[0] == "replay"
    finally:
        web.stop()
