"""Two services over a Redis and its replica, step by step: what is lost when an answer is lost, when a replica takes over, or a Redis or a service
starts anew. The simulation of tests/simulation goes the same steps, and says the same outcomes."""
import contextlib
import pathlib
import signal
import socket
import sys
import time

import pytest
import redises
from redises import Peer, Redis
from stird import wait_until

sys.path.insert(0, str(pathlib.Path(__file__).resolve().parents[1] / "simulation"))

from scripted import HAPPENS, SCRIPTS, Simulated

pytestmark = pytest.mark.skipif(not redises.PROGRAM, reason=redises.MISSING)

# Stands before the C library in a Redis, and adds the seconds of a file to its clock. libfaketime doesn't run with it.
CLOCK = """
#include <fcntl.h>
#include <stdlib.h>
#include <sys/syscall.h>
#include <sys/time.h>
#include <unistd.h>
int gettimeofday(struct timeval *restrict told, void *restrict zone) {
    static int file = -1;
    char text[16] = "";
    long done = syscall(SYS_gettimeofday, told, zone);
    if (file < 0)
        file = open(getenv("AHEAD"), O_RDONLY);
    if (pread(file, text, sizeof text - 1, 0) > 0)
        told->tv_sec += atoi(text);
    return (int)done;
}
"""


class Address:
    """An address that leads to one Redis, and may be moved to another. `cut` answers to claims are lost, and the connection with each."""

    def __init__(self, redis):
        self.redis, self.cut, self.held = redis, 0, set()
        self.peer = Peer(self.leads)

    def leads(self, connection):
        with socket.create_connection(("127.0.0.1", self.redis.port)) as other:
            self.held |= {connection, other}
            while piece := connection.recv(4096):
                other.sendall(piece)
                answer = other.recv(4096)
                if self.cut and b"SET" in piece and b"stir:probe" not in piece:
                    self.cut -= 1
                    return
                connection.sendall(answer)

    def moves(self, redis):
        """Connections to the other one end."""
        self.redis = redis
        for one in self.held:
            with contextlib.suppress(OSError):
                one.shutdown(socket.SHUT_RDWR)
        self.held.clear()


class Real:
    """Goes the steps of the simulation with real ones."""

    def __init__(self, started, world, folder, held, clock):
        self.started, self.ahead = started, folder / "ahead"
        self.ahead.write_text("0  ")
        for name in ("one", "other"):
            (folder / name).mkdir()
        words = ["--appendonly", "yes", "--appendfsync", "always", "--repl-diskless-sync-delay", "0"]
        variables = {"LD_PRELOAD": str(clock), "AHEAD": str(self.ahead)}
        self.one = held.enter_context(Redis(folder / "one", *words, variables=variables))
        self.other = held.enter_context(Redis(folder / "other", "--replicaof", f"127.0.0.1 {self.one.port}"))
        self.address = Address(self.one)
        held.enter_context(self.address.peer)
        self.services = {name: self.serves() for name in "AB"}
        assert wait_until(lambda: b"master_link_status:up" in self.other.says("INFO", "replication")), "the replica has nothing"
        self.settles()
        signed = int(time.time())
        self.calls = {number: world.call(0, signed, number) for number in (1, 2)}

    def serves(self):
        return self.started("--redis", self.address.peer.address())

    def settles(self, is_ready=True):
        assert wait_until(lambda: all(service.ready()[0] == is_ready for service in self.services.values())), f"all are to say {is_ready}"

    def outcomes(self, steps):
        return [outcome for step in steps for outcome in self.goes(step)]

    def goes(self, step):
        if step.startswith("call"):
            _, number, service = step.split()
            return [self.services[service].outcome(self.calls[int(number)])]
        getattr(self, step.split()[0].replace("goes", "goes_on"))(*step.split()[1:2])
        self.settles(step not in ("full", "hang"))
        return []

    def cut(self, count):
        self.address.cut = int(count)

    def apart(self):
        """What came before is there. From then on it looks for its Redis where there is none."""
        assert wait_until(lambda: self.one.says("DBSIZE") == self.other.says("DBSIZE")), "the replica hasn't all"
        assert self.other.says("REPLICAOF", "127.0.0.1", "1") == b"+OK\r\n"

    def failover(self):
        self.one.stop()
        assert self.other.says("REPLICAOF", "NO", "ONE") == b"+OK\r\n"
        self.address.moves(self.other)

    def planned(self):
        assert self.one.says("FAILOVER", "TIMEOUT", "5000") == b"+OK\r\n"
        assert wait_until(lambda: b"role:master" in self.other.says("INFO", "replication")), "the replica doesn't take over"
        self.address.moves(self.other)

    def disk(self):
        self.one.stop()
        self.one.start()

    def empty(self):
        self.one.stop()
        for path in (self.one.folder / "appendonlydir").iterdir():
            path.unlink()
        self.one.start()

    def full(self):
        self.one.says("CONFIG", "SET", "maxmemory", "1")

    def room(self):
        self.one.says("CONFIG", "SET", "maxmemory", "0")

    def hang(self):
        self.one.process.send_signal(signal.SIGSTOP)

    def goes_on(self, *_):
        self.one.process.send_signal(signal.SIGCONT)

    def restart(self, name):
        self.services[name].stop(signal.SIGKILL)
        self.services[name] = self.serves()

    def leap(self):
        """The services see it by their next look."""
        self.ahead.write_text("120")
        time.sleep(2.5)


@pytest.fixture(scope="module")
def clock(library):
    return library(CLOCK)


def test_each_thing_that_happens_can_be_made_to_happen():
    happens = {step for steps, _ in SCRIPTS.values() for step in steps if not step.startswith("call")}
    assert happens == set(HAPPENS)


@pytest.mark.parametrize("name", SCRIPTS)
def test_a_real_store_loses_what_the_simulated_one_loses_and_no_more(name, by_clock, today, tmp_path, clock):
    steps, outcomes = SCRIPTS[name]
    with contextlib.ExitStack() as held:
        assert Real(by_clock, today, tmp_path, held, clock).outcomes(steps) == outcomes == Simulated().outcomes(steps)
