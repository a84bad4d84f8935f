"""A request that is sent once more because its answer was lost: by its key it gets the answer of before, and without one it is a replay."""
import threading

import pytest
from world import START


@pytest.fixture(params=["Idempotency-Key", "X-RequestID", "x-requestid"])
def name(request):
    return request.param


def test_the_same_key_and_body_get_the_same_answer(name, started, world):
    service, message = started(), world.call(0, START, 1)
    first = service.verify(message, START, {name: "one"})
    assert first["outcome"] == "valid"
    assert [service.verify(message, START, {name: "one"}) for _ in range(3)] == [first] * 3
    assert service.metric('stir_calls_total{outcome="valid",rule=""}') == 1, "it was judged more than once"


def test_another_key_or_none_is_a_replay(name, started, world):
    service, message = started(), world.call(0, START, 1)
    assert service.outcome(message, START, {name: "one"}) == "valid"
    assert service.outcome(message, START, {name: "other"}) == "replay"
    assert service.outcome(message, START) == "replay"
    assert service.outcome(message, START, {name: "one"}) == "valid", "another key's answer took the place of the first"


def test_the_same_key_with_another_body_isnt_the_same_request(name, started, world):
    """A key that is used again by mistake gives no call the answer of another one."""
    service = started()
    assert service.outcome(world.call(0, START, 1), START, {name: "one"}) == "valid"
    status, text = service.ask("POST", "/verify", world.call(1, START, 2, "unsigned") + b"x", {"X-Moment": str(START), name: "one"})
    assert status in (200, 409, 422), text
    assert b'"valid"' not in text or b'"call":1,' not in text, text


def test_the_same_key_and_body_at_another_door_or_moment_isnt_the_same_request(name, started, world):
    service, message = started(), world.call(0, START, 1)
    assert service.outcome(message, START, {name: "one"}) == "valid"
    status, text = service.ask("POST", "/verify/line", message, {"X-Moment": str(START), name: "one"})
    assert (status, text.split(b" ")[:2]) in ((200, [b"438", b"TN-Validation-Failed"]), (200, [b"0", b"TN-Validation-Passed"])), text
    assert service.outcome(message, START + 10, {name: "one"}) in ("replay", "valid")


def test_what_is_sent_twice_at_once_is_judged_once(name, started, world):
    """A client that tries again before the first answer came."""
    service, lock = started(), threading.Lock()
    for number in range(1, 21):
        message, told = world.call(number % world.count, START, number), []

        def send(message=message, number=number, told=told):
            with service.connect() as connection:
                head = b"POST /verify HTTP/1.1\r\nHost: x\r\nX-Moment: %d\r\n%s: key-%d\r\nConnection: close\r\nContent-Length: %d\r\n\r\n"
                connection.sendall(head % (START, name.encode(), number, len(message)) + message)
                text = service.rest(connection).partition(b"\r\n\r\n")[2]
            with lock:
                told.append(text)

        workers = [threading.Thread(target=send) for _ in range(8)]
        for worker in workers:
            worker.start()
        for worker in workers:
            worker.join()
        assert len(told) == 8 and len(set(told)) == 1 and b'"outcome":"valid"' in told[0], told
    assert service.metric('stir_calls_total{outcome="valid",rule=""}') == 20


def test_the_call_of_a_caller_who_names_a_key_himself_passes_once(started, world):
    """What stands in the message is the caller's word: an Idempotency-Key there is none of the request."""
    service = started()
    message = world.call(0, START, 1).replace(b"Contact:", b"Idempotency-Key: one\r\nX-RequestID: one\r\nContact:", 1)
    assert [service.outcome(message, START) for _ in range(2)] == ["valid", "replay"]


def test_a_key_of_any_size_ends_nothing_and_what_is_kept_is_bounded(name, started, world):
    service = started()
    for key in ("", " ", "x" * 8000, "\u00e9".encode().decode("latin-1"), '"quoted"'):
        status, text = service.ask("POST", "/verify", world.call(0, START, 1), {"X-Moment": str(START), name: key})
        assert status in (200, 400), (key, text)
    assert service.lives()


def test_the_other_doors_take_a_key_too(name, started, world):
    service = started()
    orig, dest = world.number(1, 5), "13105550100"
    body = {"verificationRequest": {"from": {"tn": orig}, "to": {"tn": [dest]}, "time": START, "identity": world.identity(1, orig, dest, START, 1)}}
    passed = 200, {"verificationResponse": {"verstat": "TN-Validation-Passed"}}
    assert [service.json("/stir/v1/verification", body, {name: "one"}) for _ in range(2)] == [passed] * 2
    assert service.json("/stir/v1/verification", body)[1]["verificationResponse"]["verstat"] == "TN-Validation-Failed"
    message = world.call(2, START, 9)
    lines = [service.ask("POST", "/verify/line", message, {"X-Moment": str(START), name: "two"}) for _ in range(2)]
    assert lines == [(200, b"0 TN-Validation-Passed ")] * 2


def test_so_many_answers_are_kept_and_the_oldest_go_first(started, world):
    service, messages = started("--answers", 3), [world.call(number % world.count, START, number) for number in range(1, 6)]
    assert [service.outcome(message, START, {"Idempotency-Key": f"key-{at}"}) for at, message in enumerate(messages)] == ["valid"] * 5
    assert service.metric("stir_answers") <= 3
    assert service.metric("stir_dropped_answers_total") >= 2
    assert service.outcome(messages[-1], START, {"Idempotency-Key": "key-4"}) == "valid"
    assert service.outcome(messages[0], START, {"Idempotency-Key": "key-0"}) == "replay"


def test_no_answer_is_kept_if_none_is_to_be(started, world):
    service, message = started("--answers", 0), world.call(0, START, 1)
    assert [service.outcome(message, START, {"Idempotency-Key": "one"}) for _ in range(2)] == ["valid", "replay"]
