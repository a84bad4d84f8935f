"""What the service signs, and for whom."""
import base64
import json
import threading

from cryptography.hazmat.primitives import hashes, serialization
from cryptography.hazmat.primitives.asymmetric import ec, utils

from stird import Stird, wait_until
from world import START

ORIGID = "123e4567-e89b-12d3-a456-426655440000"
CALLED = "13105550100"


def table(world, folder, lines):
    """A table of number blocks: the n-th certificate signs for `count` numbers from `place` on."""
    text = ""
    for n, place, count, attest in lines:
        pem = folder / f"key-{n}.pem"
        pem.write_bytes(world.keys[n].private_bytes(serialization.Encoding.PEM, serialization.PrivateFormat.PKCS8, serialization.NoEncryption()))
        text += f"{world.number(n, place)} {count} {attest} {pem} {world.folder}/chain-{n}.der {world.x5u(n)} {attest}\n"
    return text


def request(caller, **others):
    return {"signingRequest": {"orig": {"tn": caller}, "dest": {"tn": [CALLED]}, "iat": START, "origid": ORIGID, **others}}


def words_of(part):
    return json.loads(base64.urlsafe_b64decode(part + "=" * (-len(part) % 4)))


def claims(world, n, identity):
    """The claims of a PASSporT of which the signature is good."""
    token = identity.split(";")[0]
    head, body, signature = token.split(".")
    raw = base64.urlsafe_b64decode(signature + "==")
    der = utils.encode_dss_signature(int.from_bytes(raw[:32], "big"), int.from_bytes(raw[32:], "big"))
    world.keys[n].public_key().verify(der, f"{head}.{body}".encode(), ec.ECDSA(hashes.SHA256()))
    assert words_of(head) == {"alg": "ES256", "ppt": "shaken", "typ": "passport", "x5u": world.x5u(n)}, head
    return words_of(body)


def all(stird, world, folder):
    path = folder / "blocks.txt"
    path.write_text("; first count attestation key certificates x5u\n" + table(world, folder, [(0, 0, 100, "A"), (1, 50, 10, "B")]))
    words = [*world.words(), "--moments", "asked", "--signing", str(path), "--signing-local", "yes"]
    with Stird(stird, words) as service:
        named(service, world)
        signs(service, world)
        refuses(service, world)
        one_text(service, world)
        dated(service, world)
        path.write_text(table(world, folder, [(1, 0, 10000, "A")]))
        assert wait_until(lambda: service.json("/stir/v1/signing", request(world.number(1, 1)))[0] == 200), "the changed table wasn't taken"
        assert service.json("/stir/v1/signing", request(world.number(0, 1)))[0] == 403
    with Stird(stird, world.words()) as service:
        assert service.ask("POST", "/stir/v1/signing", b"{}")[0] == 404
    starts(stird, world, folder, path)


def signs(service, world):
    """A signed call is as the table says, and passes once."""
    caller = world.number(0, 99)
    status, told = service.json("/stir/v1/signing", request(caller))
    assert status == 200, told
    identity = told["signingResponse"]["identity"]
    said = {"attest": "A", "dest": {"tn": [CALLED]}, "iat": START, "orig": {"tn": caller}, "origid": ORIGID}
    assert claims(world, 0, identity) == said, identity
    message = world.invite(caller, CALLED, 1, identity)
    assert [service.verify(message, START)["outcome"] for _ in range(2)] == ["valid", "replay"]
    for asked, n, place, given in (("C", 0, 1, "C"), ("A", 1, 50, "B"), ("B", 1, 59, "B")):
        told = service.json("/stir/v1/signing", request(world.number(n, place), attest=asked))[1]
        assert claims(world, n, told["signingResponse"]["identity"])["attest"] == given, (asked, given)
    assert service.metric("stir_signed_total") == 4


def refuses(service, world):
    """Other numbers aren't signed for, and what isn't a request is refused."""
    for n, place in ((0, 100), (1, 49), (1, 60), (2, 1)):
        status, told = service.json("/stir/v1/signing", request(world.number(n, place)))
        assert (status, told["requestError"]["policyException"]["messageId"]) == (403, "POL4030"), told
    for wrong in ({"origid": "no"}, {"attest": "D"}, {"orig": {"tn": "1x"}}):
        status, told = service.json("/stir/v1/signing", {"signingRequest": {**request(world.number(0, 1))["signingRequest"], **wrong}})
        assert (status, told["requestError"]["serviceException"]["messageId"]) == (400, "SVC4005"), told
    assert service.json("/stir/v1/signing", {"signingRequest": {}})[0] == 400
    assert service.ask("GET", "/stir/v1/signing")[0] == 405


def one_text(service, world):
    """A number with zeros before it is another one, which no block has."""
    for n, attest in ((0, "A"), (0, "C"), (1, "B"), (1, "C")):
        for zeros in ("0", "00", "+00"):
            status, told = service.json("/stir/v1/signing", request(zeros + world.number(n, 55), attest=attest))
            assert (status, told["requestError"]["policyException"]["messageId"]) == (403, "POL4030"), (zeros, attest, told)


def named(service, world):
    """The certificates of this world aren't valid any more by the clock, so each that signs is named after the start."""
    lines = []
    reader = threading.Thread(target=lambda: lines.extend(service.process.stderr.readline() for _ in range(2)), daemon=True)
    reader.start()
    reader.join(10)
    wanted = [f"stird: {world.x5u(n)}: not valid now, so nothing is signed with its key\n" for n in (0, 1)]
    assert lines == wanted, lines


def dated(service, world):
    """Nothing is signed before the first second of the certificate and after its last: it is valid for 330 days from 30 days before START on."""
    first, last = START - 30 * 86400, START + 300 * 86400
    for iat, wanted in ((first - 1, 500), (first, 200), (last, 200), (last + 1, 500)):
        status, told = service.json("/stir/v1/signing", request(world.number(0, 1), iat=iat))
        assert status == wanted, (iat, told)
        assert status == 200 or told["requestError"]["serviceException"]["messageId"] == "SVC5001", told


def starts(stird, world, folder, path):
    """A block that a certificate doesn't cover, or a key of another one, stops the start."""
    good = table(world, folder, [(0, 0, 100, "A")])
    for wrong in (
        table(world, folder, [(0, 9999, 2, "A")]),
        good.replace("key-0.pem", "key-1.pem"),
        good.replace(" A ", " D "),
        good.replace(" 100 ", " 0 "),
        good.replace("chain-0.der", "none.der"),
    ):
        table(world, folder, [(1, 0, 1, "A")])
        path.write_text(wrong)
        try:
            Stird(stird, [*world.words(), "--signing", str(path)]).stop()
        except RuntimeError:
            continue
        raise AssertionError(f"started with {wrong}")
