"""The record of calls: a line for each, whatever comes of it; and no call waits for it or is lost by it."""
import contextlib
import hashlib
import hmac
import json
import os
import resource
import shutil
import signal
import subprocess
import threading
import time

import pytest
from stird import Stird, free_port, wait_until
from test_stores import small_disk
from world import START

WRITTEN, LOST = "stir_recorded_calls_total", "stir_lost_records_total"


def lines(path):
    """The lines of a record, each of which is whole."""
    text = path.read_bytes()
    assert not text or text.endswith(b"\n"), text[-200:]
    return [json.loads(line) for line in text.splitlines()]


def recorded(service, path, count):
    """The lines, once there are so many."""
    assert wait_until(lambda: service.metric(WRITTEN) >= count), service.metric(WRITTEN)
    return lines(path)


def test_a_call_has_a_line_with_all_that_its_answer_says(started, world, tmp_path):
    service = started("--record", tmp_path / "calls")
    kinds = ["good", "outside", "forged", "unlisted", "old", "unsigned"]
    messages = [world.call(0, START, number, kind) for number, kind in enumerate(kinds, 1)] + [b"no INVITE", world.call(0, START, 1)]
    told = [service.verify(message, START) for message in messages]
    for one, line, number in zip(told, recorded(service, tmp_path / "calls", len(told)), [*range(1, 7), None, 1]):
        assert list(line)[:-2][: len(one)] == sorted(one) and list(line)[-2:] == ["microseconds", "moment"], line
        more = {name: line.pop(name) for name in ("moment", "microseconds")}
        assert more["moment"] == START and set(more["microseconds"]) == {"ask", "claim", "confirm", "judge", "wait"}, more
        assert line.pop("call_id", None) == (number and f"{number}@192.0.2.10"), line
        assert line == one, (line, one)
        # A signature takes OpenSSL longer than this.
        assert one["rule"] not in (0, 16, 17) or more["microseconds"]["confirm"] > 10, (one, more)


def test_a_call_of_each_door_is_recorded_and_a_request_that_comes_again_isnt(started, world, tmp_path):
    service = started("--record", tmp_path / "calls")
    key, orig = {"X-Moment": str(START), "Idempotency-Key": "one"}, world.number(0, 3)
    message = world.call(0, START, 1)
    for _ in range(2):
        service.ask("POST", "/verify/line", message, key)
    service.ask("POST", "/explain", world.call(0, START, 2), {"X-Moment": str(START)})
    request = {"from": {"tn": orig}, "to": {"tn": "13105550100"}, "time": START, "identity": world.identity(0, orig, "13105550100", START, 3)}
    service.json("/stir/v1/verification", {"verificationRequest": request})
    assert [(one["call"], one["outcome"], one["call_id"]) for one in recorded(service, tmp_path / "calls", 2)] == [
        (1, "valid", "1@192.0.2.10"), (2, "valid", "stird")]


def hashed(key, number):
    return hmac.new(key, number.encode(), hashlib.sha256).hexdigest()


@pytest.mark.parametrize("form", ["whole", "short", "hashed"])
def test_numbers_stand_in_their_form(form, started, world, tmp_path):
    key = tmp_path / "key"
    key.write_bytes(b"0123456789abcdef\n")
    service = started("--record", tmp_path / "calls", "--record-numbers", form, *(["--record-key", key] if form == "hashed" else []))
    orig, hops = world.number(0, 7), [world.number(1, 8), "13105550100"]
    told = service.verify(world.diverted(orig, hops, START, 1)[0], START)
    forms = {"whole": str, "short": lambda number: number[:-4] + "xxxx", "hashed": lambda number: hashed(b"0123456789abcdef", number)}
    as_is = forms[form]
    (line,) = recorded(service, tmp_path / "calls", 1)
    assert (line["orig"], line["dest"]) == (as_is(orig), [as_is(hops[0])]), line
    assert [(one["div"], one["dest"]) for one in line["diversions"]] == [(as_is(hops[0]), [as_is(hops[1])])], line
    assert (told["orig"], told["dest"]) == (orig, [hops[0]]), "the answer has other numbers than the call"
    if form != "whole":
        text = (tmp_path / "calls").read_text()
        assert not any(number in text for number in [orig, *hops]), text


@pytest.mark.parametrize(("key", "told"), [(b"fifteen bytes..\n", "16 bytes at least"), (None, "key: ")])
def test_a_key_that_is_none_keeps_it_from_starting(key, told, started, tmp_path):
    if key is not None:
        (tmp_path / "key").write_bytes(key)
    with pytest.raises(RuntimeError, match=told):
        started("--record", tmp_path / "calls", "--record-numbers", "hashed", "--record-key", tmp_path / "key")


def test_a_record_that_was_moved_is_opened_anew_by_a_signal(started, world, tmp_path):
    path, old = tmp_path / "calls", tmp_path / "calls.1"
    service = started("--record", path)
    service.verify(world.call(0, START, 1), START)
    recorded(service, path, 1)
    path.rename(old)
    service.verify(world.call(0, START, 2), START)
    assert [one["call"] for one in recorded(service, old, 2)] == [1, 2]
    service.process.send_signal(signal.SIGHUP)
    assert wait_until(path.exists), "it wasn't opened anew"
    service.verify(world.call(0, START, 3), START)
    assert [one["call"] for one in recorded(service, path, 3)] == [3]


def test_the_last_lines_are_there_after_the_end(started, world, tmp_path):
    service = started("--record", tmp_path / "calls")
    for number in range(1, 51):
        service.verify(world.call(0, START, number), START)
    assert service.stop() == 0
    assert [one["call"] for one in lines(tmp_path / "calls")] == list(range(1, 51))


def flood(service, message, count, of=4):
    """So many calls over several connections: the outcomes of all."""
    request = b"POST /verify HTTP/1.1\r\nHost: x\r\nX-Moment: %d\r\nContent-Length: %d\r\n\r\n" % (START, len(message)) + message
    outcomes = []

    def send():
        with service.connect(60) as connection, connection.makefile("rb") as answers:
            for _ in range(count // of):
                connection.sendall(request)
                size = next(int(line.split(b":")[1]) for line in iter(answers.readline, b"") if line.lower().startswith(b"content-length"))
                while answers.readline().strip():
                    pass
                outcomes.append(json.loads(answers.read(size))["outcome"])

    senders = [threading.Thread(target=send) for _ in range(of)]
    for one in senders:
        one.start()
    for one in senders:
        one.join()
    return outcomes


def test_a_full_disk_loses_lines_and_no_call_and_no_line_is_torn(started, world, tmp_path):
    with small_disk(tmp_path / "disk", 64 << 10) as disk:
        path = disk / "calls"
        service = started("--record", path)
        outcomes = flood(service, world.call(0, START, 1, "outside"), 400)
        assert outcomes == ["refused"] * 400
        assert wait_until(lambda: service.metric(WRITTEN) + service.metric(LOST) == 400), (service.metric(WRITTEN), service.metric(LOST))
        assert service.metric(LOST) > 100 and len(lines(path)) == service.metric(WRITTEN) > 50
        assert wait_until(lambda: service.told("record can't be written")) and len(service.told("record can't be written")) == 1, service.text()
        # Moved away to where there is room, it goes on.
        shutil.copy(path, tmp_path / "away")
        path.write_bytes(b"")
        assert service.outcome(world.call(0, START, 2), START) == "valid"
        assert wait_until(lambda: lines(path)), "it doesn't go on"
        assert [one["outcome"] for one in lines(path)] == ["valid"]
        assert wait_until(lambda: service.told("record is written again")), service.text()


def test_a_limit_within_a_line_leaves_no_half_of_it(stird, world, tmp_path):
    """A file may have so many bytes: what is beyond them of a line goes again."""
    def limit():
        signal.signal(signal.SIGXFSZ, signal.SIG_IGN)
        resource.setrlimit(resource.RLIMIT_FSIZE, (2000, 2000))

    path = tmp_path / "calls"
    with Stird(stird, [*world.words(), "--moments", "asked", "--record", str(path)], before=limit) as service:
        for number in range(1, 8):
            assert service.outcome(world.call(0, START, number), START) == "valid"
        assert wait_until(lambda: service.metric(WRITTEN) + service.metric(LOST) == 7)
        assert [one["call"] for one in lines(path)] == list(range(1, int(service.metric(WRITTEN)) + 1))
        assert 0 < service.metric(WRITTEN) < 7


def test_a_reader_that_takes_nothing_holds_no_call_up(stird, world, tmp_path):
    """The record goes into a pipe that nobody empties: more than the queue has room for is lost, and all calls are answered."""
    os.mkfifo(tmp_path / "pipe")
    reader = os.open(tmp_path / "pipe", os.O_RDONLY | os.O_NONBLOCK)
    try:
        with Stird(stird, [*world.words(), "--moments", "asked", "--record", str(tmp_path / "pipe")]) as service:
            # A line has the Call-ID, so that few calls fill 16 MB.
            message = world.call(0, START, 1, "outside").replace(b"Call-ID: 1@", b"Call-ID: " + b"1" * 40000 + b"@")
            outcomes = flood(service, message, 600)
            assert outcomes == ["refused"] * 600
            assert service.metric(LOST) > 0 and service.metric(WRITTEN) < 100
            begun = time.monotonic()
            assert service.outcome(world.call(0, START, 2), START) == "valid"
            assert time.monotonic() - begun < 2
            service.process.send_signal(signal.SIGTERM)
            assert wait_until(lambda: not service.lives(), 5), "it waits for a reader at its end"
    finally:
        os.close(reader)


def test_the_standard_output_takes_the_record(stird, world, tmp_path):
    port = free_port()
    with (tmp_path / "out").open("wb") as out:
        process = subprocess.Popen([stird, *world.words(), "--moments", "asked", "--listen", f"127.0.0.1:{port}", "--record", "-"], stdout=out)
    service = Stird.__new__(Stird)
    service.port, service.connection = port, None
    try:
        assert wait_until(lambda: contextlib.suppress(OSError) and answers(service), 30)
        assert service.outcome(world.call(0, START, 1), START) == "valid"
        assert [one["call"] for one in recorded(service, tmp_path / "out", 1)] == [1]
    finally:
        process.terminate()
        process.wait(30)


def answers(service):
    try:
        return service.ask("GET", "/livez")[0] == 200
    except OSError:
        service.connection = None
        return False
