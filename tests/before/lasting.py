"""What goes wrong around the service doesn't end it."""
import contextlib
import shutil
import socket
import subprocess
import threading

from stird import Stird, wait_until
from world import START

# The greatest number that a call can have.
LAST = 2**64 - 1


def all(stird, world, folder):  # noqa: A001
    unread(stird, world, folder)
    full(stird, world)
    numbered(stird, world, folder)
    strange_peer(stird, world)
    strange_word(stird)


def lives(service, world, number, outcome="valid"):
    """The service is there, and this comes of a new call."""
    assert service.process.poll() is None, f"it ended with {service.process.returncode}"
    told = service.verify(world.call(0, START, number), START)
    assert told["outcome"] == outcome, told
    return told


def unread(stird, world, folder):
    """Whoever read its standard error is gone, and a file can't be read any more."""
    table, words = folder / "table-that-goes.txt", world.words()
    shutil.copy(world.folder / "table.txt", table)
    words[words.index("--table") + 1] = str(table)
    with Stird(stird, [*words, "--moments", "asked"]) as service:
        service.process.stderr.close()
        table.rename(folder / "table-that-went.txt")
        assert wait_until(lambda: service.metric("stir_failed_reloads_total") >= 2), "a missing table isn't told"
        lives(service, world, 1)


def full(stird, world):
    """There is no room for a line on standard error from the start on."""
    with socket.socket() as free:
        free.bind(("127.0.0.1", 0))
        port = free.getsockname()[1]
    with open("/dev/full", "w", encoding="ascii") as log:
        process = subprocess.Popen([stird, *world.words(), "--listen", f"127.0.0.1:{port}"], stderr=log)
    try:
        assert wait_until(lambda: process.poll() is not None or answers(port)), "it doesn't listen"
        assert process.poll() is None, f"it ended with {process.returncode}"
    finally:
        process.kill()
        process.wait()


def answers(port):
    with contextlib.suppress(OSError), socket.create_connection(("127.0.0.1", port), timeout=5) as connection:
        connection.sendall(b"GET /healthz HTTP/1.0\r\n\r\n")
        return connection.recv(100).startswith(b"HTTP/1.1 200 ")
    return False


def numbered(stird, world, folder):
    """The journal has the greatest number of a call that there is."""
    journal = folder / "journal-at-its-end"
    journal.write_text(f"{'ab' * 32} {START + 60} {LAST}\n")
    with Stird(stird, [*world.words(), "--moments", "asked", "--journal", str(journal)]) as service:
        for number in (1, 2):
            assert lives(service, world, number)["call"] == LAST


def strange_peer(stird, world):
    """What was taken for a Redis answers with a letter past ASCII."""
    with socket.create_server(("127.0.0.1", 0)) as listener:
        threading.Thread(target=strangely, args=(listener,), daemon=True).start()
        words = ["--moments", "asked", "--redis", f"127.0.0.1:{listener.getsockname()[1]}"]
        with Stird(stird, [*world.words(), *words]) as service:
            for number in (1, 2):
                lives(service, world, number, "unjudged")


def strangely(listener):
    """Answers a greeting as a Redis would, and a claim as none would."""
    with contextlib.suppress(OSError):
        while True:
            connection = listener.accept()[0]
            threading.Thread(target=talk, args=(connection,), daemon=True).start()


def talk(connection):
    with connection, contextlib.suppress(OSError):
        while text := connection.recv(4096):
            connection.sendall(b"+PONG\r\n" if b"PING" in text else "\u00e9\r\n".encode())


def strange_word(stird):
    """A word of the command line that isn't UTF-8 is a fault of the command line."""
    done = subprocess.run([stird, b"--chains", b"\xff\xfe"], stderr=subprocess.PIPE, check=False)
    assert done.returncode == 2 and b"isn't UTF-8" in done.stderr, done
