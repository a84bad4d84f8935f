"""Signals: one ends the service after what is under way is answered, another has it read its files again."""
import json
import os
import signal
import socket
import subprocess
import threading
import time

import pytest
from stird import Stird, free_port, status_of, wait_until
from world import START


def begun(service, message):
    """A connection on which the head of a call came, and half of its body."""
    connection = service.connect()
    connection.sendall(b"POST /verify HTTP/1.1\r\nHost: x\r\nX-Moment: %d\r\nContent-Length: %d\r\n\r\n" % (START, len(message)) + message[: len(message) // 2])
    time.sleep(0.3)
    return connection


@pytest.mark.parametrize("how", [signal.SIGTERM, signal.SIGINT])
def test_an_ended_service_answers_what_is_under_way_and_ends_well(how, started, world):
    service, message = started(), world.call(0, START, 1)
    with begun(service, message) as connection:
        idle = service.connect()
        service.process.send_signal(how)
        assert wait_until(lambda: socket.socket().connect_ex(("127.0.0.1", service.port)) != 0), "it still takes connections"
        assert service.lives(), "it ended before it answered"
        connection.sendall(message[len(message) // 2 :])
        text = service.rest(connection)
        assert status_of(text) == 200 and b'"outcome":"valid"' in text, text
    assert wait_until(lambda: not service.lives(), 5), "it doesn't end, though nothing is under way"
    assert service.process.returncode == 0
    idle.close()


def test_a_request_that_never_ends_doesnt_keep_an_ended_service(started, world):
    service = started("--request", 2)
    with begun(service, world.call(0, START, 1)):
        service.process.send_signal(signal.SIGTERM)
        assert wait_until(lambda: not service.lives(), 8), "it doesn't end"
        assert service.process.returncode == 0


def test_calls_that_come_while_it_ends_are_answered_or_not_taken(started, world, tmp_path):
    """Four connections ask without a pause: each call that was sent has its answer, and what was valid is a replay after the next start."""
    words = ["--journal", tmp_path / "journal"]
    service, said, lock = started(*words), {}, threading.Lock()

    def send(first):
        connection = service.connect()
        for number in range(first, 4000, 4):
            message = world.call(number % world.count, START, number)
            try:
                connection.sendall(b"POST /verify HTTP/1.1\r\nHost: x\r\nX-Moment: %d\r\nContent-Length: %d\r\n\r\n" % (START, len(message)) + message)
                text = connection.recv(65536)
            except OSError:
                text = b""
            with lock:
                said[number] = text
            if not text or b"lose" in text.split(b"\r\n\r\n")[0].lower():
                return

    workers = [threading.Thread(target=send, args=(first,)) for first in range(4)]
    for worker in workers:
        worker.start()
    wait_until(lambda: len(said) > 40)
    service.process.send_signal(signal.SIGTERM)
    for worker in workers:
        worker.join()
    assert service.process.wait(10) == 0
    valid = [number for number, text in said.items() if b'"outcome":"valid"' in text]
    lost = [number for number, text in said.items() if not text]
    assert len(valid) + len(lost) == len(said) and len(valid) > 20
    again = started(*words)
    assert {again.outcome(world.call(number % world.count, START, number), START) for number in valid} == {"replay"}
    # A request that came to a connection which was just closed wasn't judged, so it may be sent again.
    assert {again.outcome(world.call(number % world.count, START, number), START) for number in lost} <= {"valid"}, "a call that wasn't answered was judged"


def test_it_reads_its_files_again_if_it_is_told_to(started, world, tmp_path):
    table, words = tmp_path / "table.txt", world.words()
    table.write_bytes((world.folder / "table.txt").read_bytes())
    words[words.index("--table") + 1] = str(table)

    class Changed:
        @staticmethod
        def words():
            return words

    service = started("--reload", 3600, by=Changed)
    assert service.outcome(world.call(0, START, 1), START) == "valid"
    before = service.metric("stir_reloads_total")
    table.write_text("9999 12345 2\n")
    for _ in range(3):
        service.process.send_signal(signal.SIGHUP)
    assert wait_until(lambda: service.metric("stir_reloads_total") > before), "it read nothing"
    assert service.lives()
    assert service.verify(world.call(0, START, 2), START)["rule"] in (17, 0)


def test_it_says_that_it_is_ready_after_the_first_reading(stird, world, tmp_path):
    """By the socket that systemd names (sd_notify)."""
    with socket.socket(socket.AF_UNIX, socket.SOCK_DGRAM) as listener:
        listener.bind(str(tmp_path / "notify"))
        listener.settimeout(20)
        with Stird(stird, world.words(), variables={"NOTIFY_SOCKET": str(tmp_path / "notify")}) as service:
            said = listener.recv(4096)
            while b"READY=1" not in said:
                said = listener.recv(4096)
            assert service.ask("GET", "/readyz")[0] == 200
            service.process.send_signal(signal.SIGTERM)
            while b"STOPPING=1" not in said:
                said = listener.recv(4096)


def test_other_signals_end_nothing(started, world):
    service = started()
    for how in (signal.SIGPIPE, signal.SIGHUP):
        os.kill(service.process.pid, how)
    time.sleep(0.5)
    assert service.lives()
    assert service.outcome(world.call(0, START, 1), START) == "valid"


@pytest.mark.parametrize("form", ["text", "json"])
def test_what_it_tells_goes_on_in_a_new_file_after_the_old_one_was_moved(form, stird, world, tmp_path):
    log, old = tmp_path / "log", tmp_path / "old"
    port = free_port()
    words = [stird, *world.words(), "--listen", f"127.0.0.1:{port}", "--log", form, "--log-file", log, "--reload", "1"]
    process = subprocess.Popen(words, stderr=subprocess.PIPE)
    try:
        assert wait_until(lambda: log.exists() and f"listens at 127.0.0.1:{port}" in log.read_text()), "it doesn't say that it listens"
        log.rename(old)
        process.send_signal(signal.SIGHUP)
        assert wait_until(log.exists), "it has no new file"
        process.terminate()
        assert process.wait(10) == 0
        assert log.read_text(), "its end isn't told"
        lines = old.read_text().splitlines() + log.read_text().splitlines()
        assert all(isinstance(json.loads(line), dict) for line in lines) if form == "json" else all(line.startswith("stird: ") for line in lines), lines
        assert process.stderr.read() == b""
    finally:
        process.kill()
        process.wait()
