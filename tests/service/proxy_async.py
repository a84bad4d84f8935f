#!/usr/bin/env python3
"""Tries host/stird/kamailio/kamailio-async.cfg, in which no process of Kamailio waits for stird: calls from outside are judged, and those from inside signed.

    tests/service/proxy_async.py STIRD [COUNT]

Of COUNT (300) calls from outside each comes to the listener with what fits, as in proxy.py, or is refused with `-A REJECT`. While stird hangs, or answers
with faults, each call goes on within 400 ms, and after three faults in a row stird is asked once a second; once it is there again calls are judged again. An
INVITE from inside whose number is in the signing table gets an Identity field that stird finds good; any other one goes on as it is. Where Kamailio has the
module http_async_client the same is tried with it. KAMAILIO_MODULES may name a folder with modules more. Needs kamailio with http_client and jansson; if one is
missing that is said, and the status is 77.
"""
import dataclasses
import pathlib
import re
import shutil
import socket
import statistics
import sys
import tempfile
import threading
import time

import proxy
import signing
from proxy import Phones, Proxy, number_of
from stird import Stird, wait_until
from world import World

CONFIG = proxy.CONFIG.with_name("kamailio-async.cfg")

# How long stird is waited for, and what a busy machine may take besides, in seconds.
LIMIT = 0.4
BESIDES = 0.25

# After so many faults in a row stird is tried once a second.
FAULTS = 3

INSIDE = "127.0.0.2"
DEFINES = (f'INSIDE="{INSIDE}/32"', 'ORIGID="123e4567-e89b-12d3-a456-426655440000"')
TOKEN = "a-token-of-the-proxy-at-the-edge"


class Timed(Phones):
    """Phones that know how long a call took to the listener."""

    def __init__(self, address="127.0.0.1"):
        self.sent, self.reached = {}, {}
        super().__init__(address)

    def called(self, text, proxy):  # noqa: A002
        if text.startswith("INVITE "):
            self.reached.setdefault(number_of(text), time.monotonic())
        super().called(text, proxy)

    def send(self, world, call, kind, now):
        self.sent.setdefault(call, time.monotonic())
        super().send(world, call, kind, now)

    def took(self, call):
        return self.reached[call] - self.sent[call]





@dataclasses.dataclass(frozen=True)
class Peer:
    """A port as that of a service."""
    port: int


class Faulty:
    """Listens in stird's place, counts what it is asked, and answers nothing, or a fault."""

    def __init__(self, answer=None):
        self.answer, self.asked, self.held = answer, 0, []
        self.listener = socket.create_server(("127.0.0.1", 0), backlog=100)
        self.peer = Peer(self.listener.getsockname()[1])
        threading.Thread(target=self.listen, daemon=True).start()

    def __enter__(self):
        return self

    def __exit__(self, *_):
        self.listener.close()
        for one in self.held:
            one.close()

    def listen(self):
        while True:
            try:
                connection, _ = self.listener.accept()
            except OSError:
                return
            self.held.append(connection)
            self.asked += 1
            if self.answer:
                connection.recv(65536)
                connection.sendall(self.answer)
                connection.close()


def cancelled(phones, world, service, call):
    """A caller who hangs up while stird hangs is told so at once, and his call goes nowhere."""
    with service.stopped():
        phones.send(world, call, "good", int(time.time()))
        time.sleep(0.1)
        fields = [f"Via: SIP/2.0/UDP {phones.address}:{phones.caller.getsockname()[1]};branch=z9hG4bK{call}", "Max-Forwards: 70",
                  f"From: <sip:+{world.number(call % 3, call)}@example.org>;tag={call}", "To: <sip:+13105550100@example.net>",
                  f"Call-ID: {call}@192.0.2.10", "CSeq: 1 CANCEL"]
        phones.caller.sendto(proxy.message("CANCEL sip:+13105550100@example.net SIP/2.0", fields), phones.proxy)
        assert wait_until(lambda: any(said.startswith("487") for said in phones.said[call]), 5), f"a cancelled call was answered {phones.said[call]}"
        time.sleep(1)
    time.sleep(0.5)
    assert not phones.came[call], f"a cancelled call came: {phones.came[call]}"


def proxied(folder, service, phones, *more):
    """A Kamailio with this configuration."""
    return Proxy(folder, service, phones, *more, config=CONFIG, path="")


def within(phones, calls):
    """Each of the calls came once, unjudged, within the limit."""
    assert wait_until(lambda: phones.ended(calls), 10), f"{sum(not phones.said[call] for call in calls)} of {len(calls)} calls don't come through"
    for call in calls:
        assert len(phones.came[call]) == 1 and "X-Verstat: No-TN-Validation" in phones.came[call][0], (call, phones.came[call])
        assert phones.took(call) < LIMIT + BESIDES, f"call {call} took {phones.took(call):.3f} s"


def sent(phones, world, calls, pause):
    for call in calls:
        phones.send(world, call, "good", int(time.time()))
        time.sleep(pause)


def hanging(phones, world, service, first):
    """stird hangs: calls go on within the limit, those after the first few at once, and when it is there again they are judged."""
    calls = range(first, first + 60)
    with service.stopped():
        sent(phones, world, calls, 0.05)
        phones.other(first + 60)
        within(phones, calls)
        took = sorted(map(phones.took, calls))
        assert statistics.median(took) < 0.1, f"the breaker doesn't open: {took}"
        assert wait_until(lambda: phones.others, 2), "an OPTIONS behind them waits"
    time.sleep(2.5)
    again = range(first + 61, first + 64)
    sent(phones, world, again, 1.1)
    wait_until(lambda: phones.ended(again))
    proxy.comes(phones, again[-1], "TN-Validation-Passed")
    return took[-1]


def broken(folder, world, first, answer, *more):
    """What stands in stird's place fails: it is asked by the first few calls, and then once a second."""
    calls, pause = range(first, first + 100), 0.04
    with Faulty(answer) as faulty, Timed() as phones, proxied(folder, faulty.peer, phones, *more):
        begun = time.monotonic()
        sent(phones, world, calls, pause)
        within(phones, calls)
        seconds = time.monotonic() - begun
        # Those that came before the third fault was known have asked too.
        most = FAULTS + (LIMIT + BESIDES) / pause + seconds + 2
        assert FAULTS < faulty.asked <= most, f"it was asked {faulty.asked} times in {seconds:.1f} s"
    return faulty.asked


def unsigned(phones, world, first):
    """Without a token nothing is signed, and the call goes on."""
    phones.send(world, first, "unsigned", int(time.time()))
    wait_until(lambda: phones.ended([first]))
    assert len(phones.came[first]) == 1 and "\r\nIdentity: " not in phones.came[first][0], phones.came[first]


def signed(phones, world, service, first):
    """A call from inside is signed by the table, and stird finds its Identity good; the others go on as they are."""
    # The table has the numbers of two callers of three.
    ours, other = (next(call for call in range(first, first + 3) if call % 3 == n) for n in (0, 2))
    own = first + 3
    for call, kind in ((ours, "unsigned"), (other, "unsigned"), (own, "good")):
        phones.send(world, call, kind, int(time.time()))
    wait_until(lambda: phones.ended((ours, other, own)))
    fields = {call: re.findall(r"^Identity: .*?\r$", phones.came[call][0], re.M) for call in (ours, other, own)}
    assert list(map(len, fields.values())) == [1, 0, 1], f"one of ours, another one, and one with a signature have {fields}"
    assert service.metric('stir_signed_total') == 1
    for call in (ours, own):
        assert service.outcome(phones.came[call][0].encode()) == "valid", f"the Identity of call {call} isn't good"
    with service.stopped():
        calls = range(first + 10, first + 20)
        for call in calls:
            phones.send(world, call, "unsigned", int(time.time()))
        assert wait_until(lambda: phones.ended(calls), 10), "calls wait for a signature"
        for call in calls:
            assert "\r\nIdentity: " not in phones.came[call][0] and phones.took(call) < LIMIT + BESIDES, (call, phones.took(call))


def tried(stird, folder, count, *more):
    """All of it, and the longest time that a call was held up."""
    world = World(folder / "world", 3, int(time.time()))
    (folder / "signing.txt").write_text(signing.table(world, folder, [(n, 0, 10000, "A") for n in range(2)]))
    (folder / "tokens.txt").write_text(f"{TOKEN}\n")
    with Stird(stird, [*world.words(), "--signing", str(folder / "signing.txt"), "--signing-tokens", str(folder / "tokens.txt")]) as service:
        with Timed() as phones, proxied(folder, service, phones, *more):
            proxy.told(phones, world, range(1, count + 1))
            assert service.metric("stir_answers") > 0, "what is asked has no key"
        first = count + 1
        with Timed() as phones, proxied(folder, service, phones, "REJECT", *more):
            proxy.rejected(phones, world, range(first, first + 100))
        with Timed() as phones, proxied(folder, service, phones, *more):
            longest = hanging(phones, world, service, first + 200)
            cancelled(phones, world, service, first + 300)
        with Timed(INSIDE) as phones, proxied(folder, service, phones, *DEFINES, f'TOKEN="{TOKEN}"', *more):
            signed(phones, world, service, first + 400)
        with Timed(INSIDE) as phones, proxied(folder, service, phones, *DEFINES, *more):
            unsigned(phones, world, first + 500)
    asked = [broken(folder, world, first + 600, None, *more), broken(folder, world, first + 800, b"HTTP/1.1 503 X\r\nContent-Length: 0\r\n\r\n", *more)]
    return f"{count} calls came through, the same with REJECT; while stird hung a call took {longest * 1000:.0f} ms at most; 100 calls asked a service that hung " \
        f"{asked[0]} times and one that failed {asked[1]} times; calls from inside were signed"


def main():
    has = {path.stem for folder in proxy.MODULES for path in folder.glob("*.so")}
    if not shutil.which("kamailio") or not {"http_client", "jansson"} <= has:
        print("tests/service/proxy_async.py: kamailio, kamailio-utils-modules or kamailio-extra-modules is missing, so the configuration isn't tried")
        sys.exit(77)
    stird, count = pathlib.Path(sys.argv[1]).resolve(), int(sys.argv[2]) if len(sys.argv) > 2 else 300
    for name, more in (("its workers", ()), ("http_async_client", ("HTTP_ASYNC",))):
        if more and "http_async_client" not in has:
            print(f"host/stird/kamailio/kamailio-async.cfg by {name}: left out, since Kamailio has no such module here")
            continue
        with tempfile.TemporaryDirectory() as folder:
            try:
                print(f"host/stird/kamailio/kamailio-async.cfg by {name}: {tried(stird, pathlib.Path(folder), count, *more)}")
            except (AssertionError, RuntimeError) as fault:
                sys.exit(f"tests/service/proxy_async.py, by {name}: {fault}")


if __name__ == "__main__":
    main()
