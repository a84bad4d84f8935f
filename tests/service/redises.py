"""A Redis that a test starts, stops and breaks, and peers that answer as none would."""
import contextlib
import os
import shutil
import socket
import subprocess
import threading
import time

from stird import free_port, wait_until

PROGRAM = shutil.which("redis-server")
MISSING = "redis-server is missing"


class Redis:
    """A Redis server on a port of the loopback. `variables` are those of its environment beside ours."""

    def __init__(self, folder, *words, variables=None):
        self.folder, self.words, self.port, self.variables = folder, words, free_port(), variables or {}
        self.start()

    def start(self):
        self.process = subprocess.Popen(
            [PROGRAM, "--port", str(self.port), "--save", "", "--appendonly", "no", "--dir", str(self.folder), *self.words],
            stdout=subprocess.DEVNULL, env=os.environ | self.variables)
        assert wait_until(lambda: socket.socket().connect_ex(("127.0.0.1", self.port)) == 0), "the Redis doesn't listen"

    def stop(self):
        self.process.kill()
        self.process.wait()

    def __enter__(self):
        return self

    def __exit__(self, *_):
        self.stop()

    def address(self):
        return f"127.0.0.1:{self.port}"

    def says(self, *words):
        """What it answers to a command."""
        with socket.create_connection(("127.0.0.1", self.port), timeout=5) as connection:
            connection.sendall((" ".join(words) + "\r\n").encode())
            return connection.recv(65536)


class Peer:
    """Listens, and does with each connection what it is told to."""

    def __init__(self, does):
        self.does, self.listener = does, socket.create_server(("127.0.0.1", 0))
        self.port = self.listener.getsockname()[1]
        threading.Thread(target=self.listen, daemon=True).start()

    def listen(self):
        with contextlib.suppress(OSError):
            while True:
                connection = self.listener.accept()[0]
                threading.Thread(target=self.serve, args=(connection,), daemon=True).start()

    def serve(self, connection):
        with connection, contextlib.suppress(OSError):
            self.does(connection)

    def __enter__(self):
        return self

    def __exit__(self, *_):
        self.listener.close()

    def address(self):
        return f"127.0.0.1:{self.port}"


def between(redis, pause):
    """Hands on bytes to a Redis and back, those of its answers one by one with a pause before each."""
    def does(connection):
        with socket.create_connection(("127.0.0.1", redis.port)) as other:
            def back():
                with contextlib.suppress(OSError):
                    while piece := other.recv(4096):
                        if not pause():
                            connection.sendall(piece)
                            continue
                        for byte in piece:
                            time.sleep(pause())
                            connection.sendall(bytes([byte]))

            threading.Thread(target=back, daemon=True).start()
            while piece := connection.recv(4096):
                other.sendall(piece)

    return Peer(does)
