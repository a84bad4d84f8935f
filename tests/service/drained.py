"""Callers that ask a service without a pause, while it ends and another one takes its place: over connections that stay, and over new ones."""
import dataclasses
import http.client
import json
import socket
import threading
import time

from world import START


@dataclasses.dataclass
class Said:
    """What callers heard, by the numbers of their calls."""
    outcomes: dict[int, str] = dataclasses.field(default_factory=dict)
    # Calls that were sent and had no answer, or half of one, over which kind of connection and why.
    lost: dict[int, str] = dataclasses.field(default_factory=dict)

    def valid(self):
        return [number for number, outcome in self.outcomes.items() if outcome == "valid"]


class Callers:
    """So many callers of each kind. They go on until they are told to stop, or as long as somebody listens."""

    def __init__(self, port, world, staying=4, new=4, first=1, path=None):
        self.port, self.world, self.path, self.said, self.going, self.next = port, world, path, Said(), True, first
        self.lock = threading.Lock()
        kinds = [self.stay] * staying + [self.come] * new
        self.threads = [threading.Thread(target=kind, daemon=True) for kind in kinds]
        for thread in self.threads:
            thread.start()

    def stop(self):
        self.going = False
        for thread in self.threads:
            thread.join(60)
        return self.said

    def open(self):
        """A connection that is there, or none if nobody listens."""
        connection = http.client.HTTPConnection("127.0.0.1", self.port, timeout=30)
        if self.path:
            connection.sock = socket.socket(socket.AF_UNIX)
            connection.sock.settimeout(30)
        try:
            if self.path:
                connection.sock.connect(str(self.path))
            else:
                connection.connect()
        except (ConnectionError, FileNotFoundError):
            connection.close()
            return None
        return connection

    def call(self, connection, kind):
        """Asks for one more call, and whether the connection stays."""
        with self.lock:
            number = self.next
            self.next += 1
        message = self.world.call(number % self.world.count, START, number)
        try:
            connection.request("POST", "/verify", message, {"X-Moment": str(START)})
            answer = connection.getresponse()
            self.said.outcomes[number] = json.loads(answer.read())["outcome"] if answer.status == 200 else str(answer.status)
            return not answer.will_close
        except (OSError, http.client.HTTPException) as fault:
            self.said.lost[number] = f"{kind}: {fault!r}"
            return False

    def stay(self):
        while self.going and (connection := self.open()):
            while self.going and self.call(connection, "a connection that stays"):
                pass
            connection.close()

    def come(self):
        while self.going and (connection := self.open()):
            self.call(connection, "a new connection")
            connection.close()


def goes_on(callers, more, seconds=30):
    """Whether so many calls more are answered."""
    wanted, until = len(callers.said.outcomes) + more, time.monotonic() + seconds
    while len(callers.said.outcomes) < wanted and time.monotonic() < until:
        time.sleep(0.01)
    return len(callers.said.outcomes) >= wanted
