"""Requests in every form that HTTP has, and in forms that it hasn't (RFC 9110, RFC 9112): what is asked for is answered, and nothing is read as more than it
is."""
import contextlib
import re
import socket
import time

import pytest
from stird import Stird, status_of
from world import START

HOST = b"Host: x\r\n"
POST = b"POST /verify HTTP/1.1\r\n" + HOST
GET = b"GET /healthz HTTP/1.1\r\n" + HOST + b"\r\n"
MOMENT = b"X-Moment: %d\r\n" % START


@pytest.fixture(scope="module")
def service(stird, world):
    with Stird(stird, [*world.words(), "--moments", "asked", "--request", "2", "--idle", "4"]) as one:
        yield one
        assert one.lives(), f"it ended with {one.process.returncode}"


def statuses(text):
    return [int(status) for status in re.findall(rb"HTTP/1\.[01] (\d{3})", text)]


def answered(service, data, count, wait=6):
    """What is answered: at most until so many answers came, and then nothing more for a while."""
    text, until = b"", time.monotonic() + wait
    with service.connect() as connection:
        connection.sendall(data)
        while time.monotonic() < until:
            connection.settimeout(0.2 if len(statuses(text)) >= count > 0 else max(0.01, until - time.monotonic()))
            try:
                piece = connection.recv(65536)
            except (socket.timeout, ConnectionResetError):
                break
            if not piece:
                break
            text += piece
    return text


def body(name):
    return b"no INVITE: " + name


def length(text):
    return b"Content-Length: %d\r\n" % len(text)


# What comes, and the statuses of the answers to it; where the standard leaves a choice, each of them.
CALL = body(b"a call")
WHOLE = POST + MOMENT + length(CALL) + b"\r\n" + CALL
FORMS = {
    "a request": (WHOLE, [200]),
    "three requests behind one another": (WHOLE * 3, [200] * 3),
    "a good one, a bad one and a good one": (WHOLE + b"BAD\r\n\r\n" + WHOLE, [200, 400]),
    "an empty line before a request": (b"\r\n" + WHOLE, [200]),
    "an empty line behind a body": (WHOLE + b"\r\n" + WHOLE, [200, 200]),
    "a length twice": (POST + length(CALL) * 2 + b"\r\n" + CALL, [200], [400]),
    "two lengths": (POST + length(CALL) + b"Content-Length: 1\r\n\r\n" + CALL, [400]),
    "a length with a sign": (POST + b"Content-Length: +5\r\n\r\nINVIT", [400]),
    "a length in hex digits": (POST + b"Content-Length: 0x5\r\n\r\nINVIT", [400]),
    "no digits for a length": (POST + b"Content-Length:\r\n\r\n", [400]),
    "a length past 64 bits": (POST + b"Content-Length: 18446744073709551621\r\n\r\nINVIT", [400], [413]),
    "a length with zeros before it": (POST + b"Content-Length: 000005\r\n\r\nINVIT", [200], [400]),
    "a call without a length": (POST + b"\r\n", [411]),
    "a body in pieces": (POST + b"Transfer-Encoding: chunked\r\n\r\n0\r\n\r\n", [411]),
    "a body in pieces, and a length": (POST + length(CALL) + b"Transfer-Encoding: chunked\r\n\r\n0\r\n\r\n", [400], [411]),
    "another transfer coding": (POST + length(CALL) + b"Transfer-Encoding: identity\r\n\r\n" + CALL, [400], [411], [501]),
    "a CR in a line": (POST + b"X: a\rb\r\n" + length(CALL) + b"\r\n" + CALL, [400]),
    "a NUL in a name": (POST + b"Content-Length\0: 5\r\n\r\n", [400]),
    "a NUL in a value": (POST + b"X: a\0b\r\n" + length(CALL) + b"\r\n" + CALL, [400]),
    "a VT in a name": (POST + b"Transfer-Encoding\x0b: chunked\r\n" + length(CALL) + b"\r\n" + CALL, [400]),
    "a VT in a value": (POST + b"Transfer-Encoding:\x0bchunked\r\n" + length(CALL) + b"\r\n" + CALL, [400], [411]),
    "a blank before the colon": (POST + b"Transfer-Encoding : chunked\r\n\r\n0\r\n\r\n", [400]),
    "a name that is none": (POST + b"a(b): x\r\n" + length(CALL) + b"\r\n" + CALL, [400]),
    "no name": (POST + b": x\r\n" + length(CALL) + b"\r\n" + CALL, [400]),
    "no colon": (POST + b"no colon\r\n\r\n", [400]),
    "a folded line": (POST + b"X: a\r\n b\r\n" + length(CALL) + b"\r\n" + CALL, [400]),
    "a line that is folded before a length": (POST + b"Content-Length:\r\n %d\r\n\r\n" % len(CALL) + CALL, [400]),
    "a moment that is none": (POST + b"X-Moment: abc\r\n" + length(CALL) + b"\r\n" + CALL, [400]),
    "a query": (b"GET /healthz?x=1 HTTP/1.1\r\n" + HOST + b"\r\n", [200]),
    "an absolute form": (b"GET http://127.0.0.1/healthz HTTP/1.1\r\n" + HOST + b"\r\n", [200]),
    "no such path": (b"GET /nothing HTTP/1.1\r\n" + HOST + b"\r\n", [404]),
    "a path that another one begins with": (b"GET /healthzz HTTP/1.1\r\n" + HOST + b"\r\n", [404]),
    "HTTP/1.0": (b"GET /healthz HTTP/1.0\r\n\r\n", [200]),
    "HTTP/1.1 without a host": (b"GET /healthz HTTP/1.1\r\n\r\n", [400]),
    "two hosts": (b"GET /healthz HTTP/1.1\r\nHost: a\r\nHost: b\r\n\r\n", [400]),
    "another version": (b"GET /healthz HTTP/3\r\n" + HOST + b"\r\n", [505]),
    "no version": (b"GET /healthz\r\n\r\n", [400], []),
    "HTTP/2": (b"PRI * HTTP/2.0\r\n\r\nSM\r\n\r\n", [505], [400], []),
    "TLS where none is spoken": (bytes.fromhex("160301020001000001fc0303") + bytes(100), [400], []),
    "two blanks in the first line": (b"POST  /verify HTTP/1.1\r\n" + HOST + length(CALL) + b"\r\n" + CALL, [400]),
    "a thousand fields": (POST + b"A: b\r\n" * 1000 + length(CALL) + b"\r\n" + CALL, [200], [431]),
    "another wish than to go on": (POST + length(CALL) + b"Expect: banana\r\n\r\n" + CALL, [200], [417]),
}


@pytest.mark.parametrize("form", FORMS)
def test_a_request_of_each_form_has_its_answer(form, service):
    given, *wanted = FORMS[form]
    got = statuses(answered(service, given, max(map(len, wanted))))
    assert got in wanted, f"{given!r} was answered {got} and not {wanted}"


@pytest.mark.parametrize("line", [b"X: a\nContent-Length: 40\r\n", b"X: a\rContent-Length: 40\r\n", b"X: a\r\n\nContent-Length: 40\r\n"])
def test_no_request_hides_in_another(line, service):
    """Whoever stands before the service may end lines otherwise: what it took for a body must not be a request here."""
    hidden = b"GET /metrics HTTP/1.1\r\nHost: h\r\nA: b\r\n\r\n"
    got = statuses(answered(service, POST + line + b"\r\n" + hidden, 1))
    assert len(got) == 1, f"{line!r}: {got}"
    got = statuses(answered(service, GET + POST + b"Content-Length: 0\r\n\r\n" + POST + line + b"\r\n" + hidden, 3))
    assert got in ([200, 200, 400], [200, 200, 411]), f"{line!r} behind others: {got}"


@pytest.mark.parametrize("sizes", [(0, 3000, 3000, 3000), (0, 0, 1, 0), (16384, 0, 16383, 16385), (131072, 0, 131072), (5,) * 500, (40000, 1, 0, 700) * 8])
def test_requests_behind_one_another_are_told_apart_whatever_their_size(sizes, service):
    each = [POST + MOMENT + b"Content-Length: %d\r\n\r\n" % size + b"y" * size for size in sizes]
    assert statuses(answered(service, b"".join(each), len(each))) == [200] * len(each)
    assert statuses(answered(service, b"".join(one + GET for one in each), 2 * len(each))) == [200] * 2 * len(each)


@pytest.mark.parametrize("value", [b"close", b"Close", b"close, TE", b"TE, close"])
def test_a_connection_is_closed_if_that_is_wished(value, service):
    text = service.raw(b"GET /healthz HTTP/1.1\r\n" + HOST + b"Connection: " + value + b"\r\n\r\n" + WHOLE, 3)
    assert statuses(text) == [200], text


def test_a_client_that_waits_for_leave_is_given_it(service):
    with service.connect(5) as connection:
        connection.sendall(POST + length(CALL) + b"Expect: 100-continue\r\n\r\n")
        text = connection.recv(100)
        assert statuses(text) == [100], text
        connection.sendall(CALL)
        assert status_of(connection.recv(4096)) == 200


@pytest.mark.parametrize(("wish", "told"), [
    (b"", b"close"), (b"Connection: close\r\n", b"close"), (b"Connection: keep-alive\r\n", b"keep-alive"), (b"Connection: TE, Keep-Alive\r\n", b"keep-alive"),
])
def test_a_request_by_http_1_0_is_answered_by_the_version_that_is_spoken_here(wish, told, service):
    """And it is told whether the connection stays (RFC 9110, section 6.2; RFC 9112, section 9.3)."""
    one = b"POST /verify HTTP/1.0\r\n" + wish + MOMENT + length(CALL) + b"\r\n" + CALL
    count = 3 if told == b"keep-alive" else 1
    text = answered(service, one * 3, count)
    heads = re.findall(rb"HTTP/1\.[^{]*", text)
    assert len(heads) == count and all(head.startswith(b"HTTP/1.1 200 OK\r\n") for head in heads), text
    assert all(b"\r\nConnection: " + told + b"\r\n" in head for head in heads), text


def test_names_of_header_fields_are_written_as_the_standard_writes_them(service):
    """Case doesn't matter in them (RFC 9110, section 5.1), but there are clients to which it does."""
    head, _, _ = service.raw(GET.replace(b"\r\n\r\n", b"\r\nConnection: close\r\n\r\n"), 3).partition(b"\r\n\r\n")
    names = {line.partition(b":")[0] for line in head.split(b"\r\n")[1:]}
    assert names == {b"Content-Type", b"Content-Length", b"Connection", b"Date"}, head


def test_a_request_that_doesnt_come_whole_is_late_whatever_its_head_has_not(service):
    """One without Host is refused once it came."""
    head = b"POST /verify HTTP/1.1\r\n" + length(CALL) + b"\r\n"
    assert (statuses(answered(service, head + CALL[:-1], 1)), statuses(answered(service, head + CALL, 1))) == ([408], [400])


@pytest.mark.parametrize("path", ["/healthz", "/livez", "/readyz", "/metrics"])
def test_head_is_get_without_a_body(path, service):
    text = service.raw(f"HEAD {path} HTTP/1.1\r\nHost: x\r\nConnection: close\r\n\r\n".encode(), 3)
    head, end, rest = text.partition(b"\r\n\r\n")
    assert (status_of(text), end, rest) == (200, b"\r\n\r\n", b""), text
    assert int(re.search(rb"(?i)content-length: (\d+)", head)[1]) > 0, text


@pytest.mark.parametrize(("method", "path", "allowed"), [
    ("GET", "/verify", {"POST"}), ("GET", "/verify/line", {"POST"}), ("PUT", "/stir/v1/verification", {"POST"}), ("DELETE", "/metrics", {"GET", "HEAD"}),
    ("POST", "/healthz", {"GET", "HEAD"}), ("POST", "/livez", {"GET", "HEAD"}), ("POST", "/readyz", {"GET", "HEAD"}),
])
def test_a_refused_method_is_told_which_are_allowed(method, path, allowed, service):
    text = service.raw(f"{method} {path} HTTP/1.1\r\nHost: x\r\nContent-Length: 0\r\nConnection: close\r\n\r\n".encode(), 3)
    assert status_of(text) == 405, text
    found = re.search(rb"(?i)^allow: *(.*?)\r$", text, re.M)
    assert found and {word.strip().decode() for word in found[1].split(b",")} - {"OPTIONS"} == allowed, text


REFUSED = [
    ("a body past the most", POST + b"Content-Length: 131073\r\n\r\n", b"x" * 131073, 413),
    ("a body of 5 MB", POST + b"Content-Length: 5000000\r\n\r\n", b"x" * 5000000, 413),
    ("a body in pieces, of 200 kB", POST + b"Transfer-Encoding: chunked\r\n\r\n", b"x" * 200000, 411),
    ("a head of 100 kB", POST + b"X: ", b"y" * 100000 + b"\r\n\r\n", 431),
    ("a body for a path that isn't there", b"POST /nothing HTTP/1.1\r\n" + HOST + b"Content-Length: 100000\r\n\r\n", b"x" * 100000, 404),
]


@pytest.mark.parametrize(("what", "head", "rest", "status"), REFUSED, ids=[one[0] for one in REFUSED])
def test_a_client_sees_why_its_request_is_refused_though_it_sends_on(what, head, rest, status, service):
    """The answer isn't lost by a reset because there are bytes that nobody read."""
    for _ in range(5):
        with service.connect(5) as connection:
            with contextlib.suppress(ConnectionResetError, BrokenPipeError):
                connection.sendall(head + rest)
            text = connection.recv(65536)
        assert statuses(text) == [status], f"{what}: {text[:200]}"


def test_the_largest_body_and_the_largest_head_are_taken(service):
    text = b"INVITE" + b"x" * (131072 - 6)
    assert service.verify(text, START)["outcome"] == "refused"
    head = POST + length(CALL) + MOMENT + b"X: "
    assert status_of(answered(service, head + b"y" * (16384 - len(head) - 4) + b"\r\n\r\n" + CALL, 1)) == 200


def test_each_answer_has_a_length_and_its_kind(service):
    for path, kind in (("/healthz", b"text/plain"), ("/livez", b""), ("/readyz", b"application/json"), ("/metrics", b"text/plain; version=0.0.4")):
        text = service.raw(f"GET {path} HTTP/1.1\r\nHost: x\r\nConnection: close\r\n\r\n".encode(), 3)
        assert status_of(text) == 200 and re.search(rb"(?i)content-type: *" + re.escape(kind), text) and re.search(rb"(?i)content-length: \d", text), text


def test_what_is_asked_about_the_service_isnt_counted_among_its_requests(service):
    """Times of requests are those of calls."""
    def count():
        return service.metrics(r"stir_request_seconds_count")

    before = count()
    for path in ("/metrics", "/healthz", "/livez", "/readyz", "/nothing"):
        service.ask("GET", path)
    assert count() == before
    service.verify(CALL, START)
    assert count() == before + 1
