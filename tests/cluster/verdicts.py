"""Verdicts of the package beside the report of the proved program."""
import datetime
import json
import subprocess
import threading

import stir
from cryptography.hazmat.primitives import serialization
from stir import days
from world import START


def world_of(world):
    return stir.World.read(*world.words()[1::2])


def verdicts(world, calls):
    """The verdict of each call by itself."""
    by = world_of(world)
    return [stir.verify(stir.Call(*call), by, stir.confirm) for call in calls]


def each(world, calls, report):
    """The lines of all calls, with tickets settled over the whole log, are the report; `ask` promises what `judge` says by all questions."""
    said = verdicts(world, calls)
    for size in (7, 100, len(calls)):
        day, lines = days.Day(), b""
        for first in range(0, len(calls), size):
            part = days.Judged(first + 1, calls[: first + size][-1][0], tuple(said[first : first + size]))
            lines += day.report(days.read(days.written(part))).lines
        assert lines.decode() == report, f"in parts of {size} the lines aren't those of the report"
    by = world_of(world)
    for call in (stir.Call(*call) for call in calls[:200]):
        asked = stir.ask(call, by)
        assert stir.judge(call, by, asked.questions) == asked.verdict, "ask and judge differ"
    kinds = {" ".join(line.split()[1:4]) for line in report.splitlines()}
    assert len(kinds) > 6, f"the log has only {sorted(kinds)}"
    return f"{len(calls)} calls, {len(kinds)} outcomes"


def settled():
    """A ticket is remembered up to its last second, and the parts come in their order."""
    day, passes = days.Day(), [stir.Passes(bytes([n]) * 32, last) for n, last in ((1, 160), (2, 161))]
    assert day.report(days.Judged(1, 160, (passes[0], passes[1], passes[0]))).lines == b"1 valid - - -\n2 valid - - -\n3 replay 438 18 1\n"
    report = day.report(days.Judged(4, 161, (passes[1], stir.Refused(9, 403, 1, 0))))
    assert report == days.Report(b"4 replay 438 18 2\n5 refused 403 9 1.0\n", False), report
    assert list(day.firsts) == [passes[1].ticket], "a ticket is remembered that can't come again, or one is forgotten that can"
    for first in (5, 7):
        try:
            day.report(days.Judged(first, 161, ()))
        except ValueError as error:
            assert "begins with call 6" in str(error), error
        else:
            raise AssertionError(f"a part was taken that begins with call {first}")
    assert day.report(days.Judged(6, 162, (stir.Passes(bytes(32), 170),))) == days.Report(b"6 valid - - -\n", True)


def explained(program, world, calls, folder):
    """The rules that hold are those of `stir explain`, by the same answers; and without a certificate's none after the fourteenth hold."""
    by, calls = world_of(world), calls[:300]
    words = [program, "explain", *world.words(), "--answers", folder / "answers.txt"]
    lines = subprocess.run(words, input=world.log(calls), stdout=subprocess.PIPE, check=False).stdout.decode().splitlines()
    wanted = [tuple(int(line.split()[1]) for line in lines if line.startswith(f"{number} ") and line.endswith(" ok")) for number in range(1, len(calls) + 1)]
    for number, (call, holds) in enumerate(zip((stir.Call(*call) for call in calls), wanted), 1):
        asked = stir.ask(call, by)
        said = stir.explain(call, by, list(filter(stir.confirm, asked.questions)))
        assert said.holds == holds, f"call {number}: rules {said.holds} hold, and not {holds}"
        assert said.verdict == stir.verify(call, by, stir.confirm), f"call {number} has another verdict"
        if asked.questions:
            assert stir.explain(call, by, []).holds == tuple(range(1, 15)), f"call {number}: a rule after the fourteenth holds without answers"


def named(world):
    """The x5us of a call, and the verdict on one that names many others besides."""
    message = world.call(0, START, 1)
    assert stir.x5us(stir.Call(START, message)) == (world.x5u(0),), "the x5us of a call aren't its own"
    assert stir.x5us(stir.Call(START, world.call(0, START, 1, "unsigned"))) == (), "a call without a PASSporT has an x5u"
    others = b"".join(b"X-Other: info=<%s>\r\n" % world.x5u(n).encode() for n in range(1, 13))
    call = stir.Call(START, message.replace(b"\r\n", b"\r\n" + others, 1))
    verdict = stir.verify(call, world_of(world), stir.confirm)
    assert isinstance(verdict, stir.Passes), f"a call that names twelve other x5us: {verdict}"


def trusted(world, calls, folder):
    """A call is judged by two hundred trust anchors as by its own; and by rule 12 if its own isn't there."""
    names, own = dict(zip(("chains", "anchors", "table"), world.words()[1::2])), (world.folder / "anchors.der").read_bytes()
    others = world.others(200)
    anchors = folder / "many-anchors.der"
    anchors.write_bytes(b"".join([*others[:100], own, *others[100:]]))
    few, many = world_of(world), stir.World.read(**{**names, "anchors": anchors})
    for call in (stir.Call(*call) for call in calls[:200]):
        assert stir.verify(call, many, stir.confirm) == stir.verify(call, few, stir.confirm), "many anchors make another verdict"
    anchors.write_bytes(b"".join(others))
    call = stir.Call(START, world.call(0, START, 1))
    verdict = stir.verify(call, stir.World.read(**{**names, "anchors": anchors}), stir.confirm)
    assert verdict == stir.Refused(12, 437, 1, 2), f"without its anchor the verdict is {verdict}"


def claimed(world):
    """What the PASSporTs of a call say is what was signed, in the order in which it went, whatever the text that was signed looks like."""
    message, said = world.diverted(world.number(0, 5), ["13105550100", "13105550101", "13105550102"], START, 1)
    went = [{"field": number, "payload": one} for number, one in zip((3, 2, 1), said)]
    assert stir.claims(stir.Call(START, message)) == went, "the claims of a diverted call aren't those that were signed, in its order"
    caller, called = world.number(1, 5), "13105550100"
    own = {"rcd": {"nam": "A\n\u2028 \"name\"", "list": [True, None, -7, 2**64 - 1, {"b": 1, "a": 2}]}}
    claims = {"origid": "123e4567-e89b-12d3-a456-426655440000", "orig": {"tn": caller}, **own, "iat": START, "dest": {"tn": [called]}, "attest": "B"}
    for more, wanted in ({}, claims), ({"score": 0.5}, None), ({"size": 2**64}, None):
        text = json.dumps({**claims, **more}, indent=2).encode()
        message = world.invite(caller, called, 1, world.field("shaken", text, world.x5u(1), world.keys[1]))
        assert stir.claims(stir.Call(START, message)) == [{"field": 1, "payload": wanted}], f"the claims with {more} aren't those that were signed"
    for call in stir.Call(START + 61, message), stir.Call(START, world.call(0, START, 1, "unsigned")):
        assert stir.claims(call) == [], "a call that breaks one of the rules of the call says something"


def shown(world):
    """What certificates say is what they were made with."""
    leaf, middle = stir.show((world.folder / "chain-3.der").read_bytes())
    made = int(world.now.replace(tzinfo=datetime.timezone.utc).timestamp())
    dates = (made - 30 * 86_400, made + 300 * 86_400)
    point = world.keys[3].public_key().public_bytes(serialization.Encoding.X962, serialization.PublicFormat.UncompressedPoint)
    assert leaf == stir.Certificate(*dates, False, None, 1, point, stir.Authority(codes=(world.code(3),))), leaf
    assert (middle.ca, middle.usage, middle.authority) == (True, 0x60, None), middle
    assert stir.show(b"") == (), "no certificate says something"


def at_once(world, calls):
    wanted, said = verdicts(world, calls[:300]), {}
    workers = [threading.Thread(target=lambda n=n: said.update({n: verdicts(world, calls[:300])})) for n in range(8)]
    for worker in workers:
        worker.start()
    for worker in workers:
        worker.join()
    assert len(said) == 8 and all(some == wanted for some in said.values()), "threads say different things"


def bad_files(world, folder):
    """A file outside its grammar is named, and one that is missing."""
    good = dict(zip(("chains", "anchors", "table"), world.words()[1::2]))
    bad = folder / "bad"
    bad.write_bytes(b"a  b\n")
    for name in good:
        try:
            stir.World.read(**{**good, name: bad})
        except stir.BadFile as error:
            assert str(bad) in str(error), error
        else:
            raise AssertionError(f"{name} was taken")
    try:
        stir.World.read(**{**good, "table": folder / "missing"})
    except FileNotFoundError:
        pass
    else:
        raise AssertionError("a missing table was taken")
