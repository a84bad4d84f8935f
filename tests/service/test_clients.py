"""Who may have calls signed, and which: eight clients over TLS with tokens and certificates, each with its own numbers and its own highest attestation."""
import base64
import hashlib
import json
import os
import re
import uuid

import certified
import pytest
import signing
from stird import wait_until
from world import START

PATH = "/stir/v1/signing"
OWN = "7d0a8d9e-2f0c-4e5b-9a51-3b1c64c1f0aa"


def token(name: str) -> str:
    return f"the-token-of-{name}-for-trials"


@pytest.fixture(scope="module")
def keys(tmp_path_factory):
    """Certificates of a root for clients, `gateway` among them, which is a client of no file."""
    folder = tmp_path_factory.mktemp("clients")
    certified.authority(folder, "root", ("server", "gateway", "pbx-3", "pbx-4", "pbx-7"))
    return folder


def clients(world, keys) -> str:
    """The file of eight clients: by tokens, by sums of tokens, by names and sums of certificates."""
    first, second = world.number(0, 0)[:-4], world.number(1, 0)[:-4]
    return f"""# The switches of both sites.
[switch-1]
tokens = ["{token('old')}", "{token('switch-1')}"]
blocks = ["{first}00xx", "!{first}0013"]
attest = "A"

[switch-2]
tokens = ["sha256:{hashlib.sha256(token('switch-2').encode()).hexdigest()}"]
blocks = ["{second}xxxx", "!{second}00xx", "{second}0042"]
attest = "B"

[pbx-3]
certificates = ["cn:pbx-3"]
blocks = ["{first}0050-{first}0059"]
attest = "A"

[pbx-4]
certificates = ["sha256:{certified.fingerprint(keys, 'pbx-4')}"]
blocks = ["{first}0060"]
attest = "C"

[silent-5]
tokens = ["{token('silent-5')}"]
blocks = ["{second}xxxx"]
attest = "B"
unasked = "C"
origid = "{OWN}"

[all-6]
tokens = ["{token('all-6')}"]
blocks = ["*"]
attest = "A"

[pbx-7]
certificates = ["cn:pbx-7"]
tokens = ["{token('pbx-7')}"]
blocks = ["!{first}0000", "{first}xxxx", "{second}0000"]
attest = "B"

[switch-8]
tokens = ["{token('switch-8')}"]
blocks = ["19995550000"]
attest = "A"
"""


@pytest.fixture(scope="module")
def files(world, keys, tmp_path_factory):
    """The signing table, of two blocks by their texts and one within the second that isn't signed for, and the file of clients."""
    folder = tmp_path_factory.mktemp("blocks")
    (folder / "blocks.txt").write_text(table(world, folder))
    (folder / "clients.toml").write_text(clients(world, keys))
    (folder / "clients.toml").chmod(0o600)
    return folder


def table(world, folder) -> str:
    lines = signing.table(world, folder, [(0, 0, 1, "A"), (1, 0, 1, "A")]).splitlines()
    first, second = (line.split(" ", 2) for line in lines)
    return f"{first[0][:-4]}0xxx {first[2]}\n!{second[0][:-4]}9xxx\n{second[0][:-4]}xxxx {second[2]}\n"


def words(files):
    return ["--signing", files / "blocks.txt", "--signing-clients", files / "clients.toml"]


@pytest.fixture
def service(started, files, keys):
    return started(*words(files), *certified.words(keys))


def of(status: int, text: str):
    """The attestation of what was signed, or the status with the identifier of the fault."""
    told = json.loads(text)
    return said(told)["attest"] if status == 200 else (status, next(iter(told["requestError"].values()))["messageId"])


def said(told) -> dict:
    """The claims of what was signed."""
    payload = told["signingResponse"]["identity"].split(".")[1]
    return json.loads(base64.urlsafe_b64decode(payload + "=="))


def asked(service, keys, certificate, bearer, number, attest="A", fields=None, **others):
    """What a request over TLS by this certificate, and with this token if there is one, is answered."""
    body = signing.request(number, attest=attest, **others)
    if attest is None:
        del body["signingRequest"]["attest"]
    return certified.ask(service.port, keys, certificate, PATH, body, ({"Authorization": f"Bearer {bearer}"} if bearer else {}) | (fields or {}))


BEYOND, UNKNOWN, NO_TOKEN = (403, "POL4030"), (403, "POL4031"), (401, "POL4010")

# What each client shows, as (certificate, name of its token); the number, by the certificate that signs and its place; what it asks for, and what it gets.
CASES = [
    ("a client by a token has its numbers signed", "gateway", "switch-1", (0, 7), "A", "A"),
    ("an older token of it counts too", "gateway", "old", (0, 7), "B", "B"),
    ("a number beside its blocks isn't signed for it", "gateway", "switch-1", (0, 100), "A", BEYOND),
    ("nor is an exception within them", "gateway", "switch-1", (0, 13), "A", BEYOND),
    ("nor one with zeros before it", "gateway", "switch-1", "0", "A", BEYOND),
    ("a client by the sum of a token is known by the token", "gateway", "switch-2", (1, 142), "C", "C"),
    ("one that asks for more than it may have gets what it may have", "gateway", "switch-2", (1, 142), "A", "B"),
    ("an exception isn't signed for it", "gateway", "switch-2", (1, 41), "A", BEYOND),
    ("but what is more special within it is", "gateway", "switch-2", (1, 42), "A", "B"),
    ("what the table excepts isn't signed, whoever has the block", "gateway", "switch-2", (1, 9000), "A", BEYOND),
    ("the sum of a token is no token", "gateway", "SUM", (1, 142), "A", NO_TOKEN),
    ("a client by its certificate's name needs no token", "pbx-3", None, (0, 50), "A", "A"),
    ("and has its range alone", "pbx-3", None, (0, 60), "A", BEYOND),
    ("a token goes before a certificate", "pbx-3", "switch-1", (0, 60), "A", "A"),
    ("so an unknown one isn't let in by a certificate", "pbx-3", "nobody", (0, 50), "A", NO_TOKEN),
    ("a client by its certificate's sum is one too", "pbx-4", None, (0, 60), "A", "C"),
    ("one that may leave out the word gets what its file says", "gateway", "silent-5", (1, 1), None, "C"),
    ("another one may not", "gateway", "switch-1", (0, 7), None, (400, "SVC4001")),
    ("a client of all numbers has those of the table", "gateway", "all-6", (1, 8999), "A", "A"),
    ("and no others", "gateway", "all-6", (2, 7), "A", BEYOND),
    ("nor those that the table excepts", "gateway", "all-6", (1, 9999), "A", BEYOND),
    ("one with a token and a certificate is known by each: the certificate", "pbx-7", None, (0, 1), "A", "B"),
    ("and the token", "gateway", "pbx-7", (0, 1), "C", "C"),
    ("a block that the table hasn't is of no use", "gateway", "switch-8", "9", "A", BEYOND),
    ("who isn't known by a token is refused", "gateway", "nobody", (0, 7), "A", NO_TOKEN),
    ("who isn't known by a certificate is refused", "gateway", None, (0, 7), "A", UNKNOWN),
    ("a wrong attestation is none that is too high", "gateway", "switch-1", (0, 7), "D", (400, "SVC4005")),
]


def number_of(world, place) -> str:
    """A number by its certificate and place; "0" is one with zeros before it, and "9" one of no table."""
    if isinstance(place, tuple):
        return world.number(*place)
    return {"0": "00" + world.number(0, 7), "9": "19995550000"}[place]


def test_each_client_gets_what_it_may_have_and_no_more(service, keys, world):
    for what, certificate, name, place, attest, wanted in CASES:
        bearer = hashlib.sha256(token("switch-2").encode()).hexdigest() if name == "SUM" else name and token(name)
        came = of(*asked(service, keys, certificate, bearer, number_of(world, place), attest))
        assert came == wanted, (what, came, wanted)


def counts(service, keys) -> dict[tuple[str, str], int]:
    """What was counted of each client, without what is 0."""
    _, text = certified.ask(service.port, keys, "gateway", "/metrics")
    found = re.findall(r'^stir_client_signed_total\{client="([^"]+)",outcome="([^"]+)"\} (\d+)$', text, re.M)
    return {(client, outcome): int(count) for client, outcome, count in found if count != "0"}


def test_requests_are_counted_by_client_and_outcome(service, keys, world):
    for bearer, certificate, place, attest in [
        ("switch-1", "gateway", (0, 7), "A"), ("old", "gateway", (0, 8), "A"), ("switch-1", "gateway", (0, 200), "A"), ("switch-1", "gateway", (0, 7), None),
        ("switch-2", "gateway", (1, 142), "A"), ("switch-2", "gateway", (1, 142), "B"), (None, "pbx-4", (0, 60), "A"), ("nobody", "gateway", (0, 7), "A"),
    ]:
        asked(service, keys, certificate, bearer and token(bearer), world.number(*place), attest)
    asked(service, keys, "gateway", token("switch-1"), world.number(0, 7), iat=START + 301 * 86400)
    certified.ask(service.port, keys, "pbx-3", PATH, [])
    assert counts(service, keys) == {
        ("switch-1", "signed"): 2, ("switch-1", "beyond"): 1, ("switch-1", "refused"): 1, ("switch-1", "failed"): 1,
        ("switch-2", "lowered"): 1, ("switch-2", "signed"): 1, ("pbx-4", "lowered"): 1, ("pbx-3", "refused"): 1,
    }


def test_what_a_client_had_signed_is_valid_once_at_a_service(service, keys, world):
    status, text = asked(service, keys, "pbx-3", None, world.number(0, 55))
    assert status == 200, text
    message = world.invite(world.number(0, 55), signing.CALLED, 1, json.loads(text)["signingResponse"]["identity"])
    told = [certified.ask(service.port, keys, "gateway", "/verify", message, {"X-Moment": str(START)})[1] for _ in range(2)]
    assert [json.loads(one)["outcome"] for one in told] == ["valid", "replay"]


def test_an_identifier_is_made_if_none_is_given_or_is_the_clients(service, keys, world):
    """One that is given stays, also of a client that has its own. A made one is a random UUID, and another one for each call."""
    def identifier(name, number, **others):
        body = signing.request(number, **others)
        if "origid" not in others:
            del body["signingRequest"]["origid"]
        status, text = certified.ask(service.port, keys, "gateway", PATH, body, {"Authorization": f"Bearer {token(name)}"})
        return said(json.loads(text))["origid"] if status == 200 else of(status, text)

    made = [identifier("switch-1", world.number(0, 7)) for _ in range(3)]
    assert len(set(made)) == 3 and all(uuid.UUID(one).version == 4 and str(uuid.UUID(one)) == one for one in made), made
    assert identifier("silent-5", world.number(1, 1)) == OWN
    assert identifier("silent-5", world.number(1, 1), origid=signing.ORIGID) == signing.ORIGID
    for wrong, told in ((None, "SVC4001"), (7, "SVC4001"), ("", "SVC4005"), ("no", "SVC4005"), (OWN.replace("-", ""), "SVC4005")):
        assert identifier("silent-5", world.number(1, 1), origid=wrong) == (400, told), wrong


def test_no_client_gets_the_answer_of_another_ones_request_with_the_same_key(service, keys, world):
    fields = {"Idempotency-Key": "a-key-of-one-call"}
    first = asked(service, keys, "gateway", token("switch-1"), world.number(0, 55), fields=fields)
    assert first[0] == 200 and asked(service, keys, "gateway", token("switch-1"), world.number(0, 55), fields=fields) == first, "it isn't kept"
    assert of(*asked(service, keys, "gateway", token("switch-2"), world.number(0, 55), fields=fields)) == BEYOND
    other = asked(service, keys, "pbx-7", None, world.number(0, 55), fields=fields)
    assert of(*other) == "B" and other != first


def test_clients_are_taken_when_their_file_changes_and_one_that_is_none_is_named(started, files, keys, world, tmp_path):
    path = tmp_path / "clients.toml"

    def put(text: str):
        (tmp_path / "new").write_text(text)
        (tmp_path / "new").chmod(0o600)
        os.replace(tmp_path / "new", path)

    def signs(name: str):
        return service.json(PATH, signing.request(world.number(0, 7)), {"Authorization": f"Bearer {token(name)}"})[0]

    one = f'tokens = ["{token("one")}"]\nblocks = ["{world.number(0, 7)}"]\nattest = "A"\n'
    put(f"[one]\n{one}[two]\n{one.replace(token('one'), token('two'))}")
    service = started("--signing", files / "blocks.txt", "--signing-clients", path)
    assert (signs("one"), signs("two"), signs("three")) == (200, 200, 401)
    put(f"[one]\n{one.replace(world.number(0, 7), world.number(0, 8))}[three]\n{one.replace(token('one'), token('three'))}")
    assert wait_until(lambda: signs("three") == 200), service.text()
    assert (signs("one"), signs("two")) == (403, 401)
    counted = set(re.findall(r'client="(\w+)"', service.ask("GET", "/metrics")[1].decode()))
    assert counted == {"one", "three"}, "those of the file are counted, and no others"
    before = service.metric("stir_failed_reloads_total")
    put(f"[four]\n{one.replace('A', 'D')}")
    assert wait_until(lambda: service.metric("stir_failed_reloads_total") > before)
    assert wait_until(lambda: service.told(r"clients\.toml: four: attest is A, B or C: what was read before stays")), service.text()
    assert signs("three") == 200, "what was read before doesn't stay"
    assert wait_until(lambda: "clients.toml: four" in service.ready()[1]), service.ready()
    put(f"[three]\n{one.replace(token('one'), token('three'))}")
    assert wait_until(lambda: "clients.toml" not in service.ready()[1]), service.ready()


@pytest.mark.parametrize(("text", "told"), [
    ("", "one client is wanted"),
    ("[a]\nblocks = ['*']\nattest = 'A'\n", "a: it has neither a token nor a certificate"),
    ("[a]\ntokens = ['short']\nblocks = ['*']\nattest = 'A'\n", "a: token 1 isn't 16 to 512"),
    ("[a]\ntokens = ['0123456789abcdef']\nblocks = ['0x']\nattest = 'A'\n", "a: 0x: a block is 1 to 15 digits"),
    ("[a]\ntokens = ['0123456789abcdef']\nblocks = ['*']\nattest = 'B'\nunasked = 'A'\n", "a: unasked is A, B or C, and no better"),
    ("[a]\ncertificates = ['cn:a']\nblocks = ['*']\nattest = 'A'\n", "a: it has a certificate, and nobody is asked for one without --tls-clients"),
    ("[a]\ntokens = 1\n", "tokens"),
])
def test_a_file_that_isnt_one_stops_the_start_and_says_which_client(text, told, started, files, tmp_path):
    (tmp_path / "clients.toml").write_text(text)
    with pytest.raises(RuntimeError, match=r"clients\.toml.*" + re.escape(told)):
        started("--signing", files / "blocks.txt", "--signing-clients", tmp_path / "clients.toml")


def test_a_token_of_both_files_signs_and_a_file_that_others_may_read_is_told(started, files, keys, world, tmp_path):
    """A client of the file has its own numbers, and who has a token of --signing-tokens all of the table."""
    (tmp_path / "tokens").write_text(token("the-proxy") + "\n")
    (tmp_path / "tokens").chmod(0o600)
    path = tmp_path / "clients.toml"
    path.write_text(f'[one]\ntokens = ["{token("one")}"]\nblocks = ["{world.number(0, 7)}"]\nattest = "C"\n')
    path.chmod(0o644)
    service = started("--signing", files / "blocks.txt", "--signing-clients", path, "--signing-tokens", tmp_path / "tokens")
    assert wait_until(lambda: service.told(r"clients\.toml: others than its owner may read or write the clients")), service.text()
    for name, place, wanted in (
        ("the-proxy", (1, 7), "A"), ("the-proxy", (0, 7), "A"), ("one", (0, 7), "C"), ("one", (1, 7), BEYOND), ("two", (0, 7), NO_TOKEN),
    ):
        status, told = service.json(PATH, signing.request(world.number(*place)), {"Authorization": f"Bearer {token(name)}"})
        assert of(status, json.dumps(told)) == wanted, (name, place)


def test_any_client_of_tls_has_calls_signed_if_there_is_no_file_of_clients_or_tokens(started, files, keys, world):
    service = started("--signing", files / "blocks.txt", *certified.words(keys))
    assert of(*asked(service, keys, "gateway", None, world.number(1, 7))) == "A"
