"""Drives the service under a systemd of its own, within the container of test_systemd.py, and writes what came of it as JSON."""
import http.client
import json
import pathlib
import subprocess
import threading
import time

PORT = 8080
GIVEN = json.loads(pathlib.Path("/opt/trial/calls.json").read_text())
NEXT = iter(enumerate(GIVEN["calls"]))
LOCK = threading.Lock()


def systemctl(*words):
    return subprocess.run(["systemctl", *words], stdout=subprocess.PIPE, stderr=subprocess.STDOUT, text=True, check=False).stdout.strip()


def state():
    return systemctl("show", "stird.service", "-P", "ActiveState")


def process():
    return systemctl("show", "stird.service", "-P", "MainPID")


def ask(method, path, body=None, connection=None, fields=()):
    connection = connection or http.client.HTTPConnection("127.0.0.1", PORT, timeout=30)
    connection.request(method, path, body, dict(fields))
    answer = connection.getresponse()
    return answer.status, answer.read(), answer.will_close


def outcome(message):
    return json.loads(ask("POST", "/verify", message.encode())[1])["outcome"]


def waits(test, seconds=20):
    until = time.monotonic() + seconds
    while time.monotonic() < until:
        if test():
            return True
        time.sleep(0.1)
    return False


class Caller(threading.Thread):
    """Asks without a pause, over a connection that stays or over new ones."""

    going, outcomes, lost = True, {}, {}

    def __init__(self, stays):
        super().__init__(daemon=True)
        self.stays = stays

    def run(self):
        connection = None
        while Caller.going:
            with LOCK:
                number, message = next(NEXT, (None, None))
            if message is None:
                return
            connection = connection or http.client.HTTPConnection("127.0.0.1", PORT, timeout=30)
            try:
                _, text, closes = ask("POST", "/verify", message.encode(), connection)
                Caller.outcomes[number] = json.loads(text)["outcome"]
            except (OSError, http.client.HTTPException, KeyError, ValueError) as fault:
                Caller.lost[number], closes = repr(fault), True
            if closes or not self.stays:
                connection.close()
                connection = None


def restarted_under_load():
    """The service is started anew twice, and reads its files anew, while callers ask."""
    callers = [Caller(stays) for stays in (True, True, False, False)]
    for caller in callers:
        caller.start()
    for word in ("restart", "reload", "restart"):
        count = len(Caller.outcomes)
        waits(lambda: len(Caller.outcomes) > count + 50)
        systemctl(word, "stird.service")
    count = len(Caller.outcomes)
    waits(lambda: len(Caller.outcomes) > count + 50)
    Caller.going = False
    for caller in callers:
        caller.join(40)


def ended_by_watchdog():
    """It hangs, and systemd starts it anew."""
    before = process()
    subprocess.run(["kill", "-STOP", before], check=True)
    return waits(lambda: process() not in (before, "0") and state() == "active", 40)


def main():
    said = {"states": {}}
    systemctl("start", "stird.socket")
    said["states"]["before"] = state()
    _, first = next(NEXT)
    said["first"] = outcome(first)
    said["states"]["after a call"] = state()
    status = pathlib.Path(f"/proc/{process()}/status").read_text()
    fields = dict(line.split(":\t", 1) for line in status.splitlines() if ":\t" in line)
    said["user"], said["privileges"] = fields["Uid"].split()[1], fields["CapEff"]
    key = pathlib.Path(f"/proc/{process()}/root/run/credentials/stird.service/key_key.pem")
    said["key"] = [oct(key.stat().st_mode & 0o777)[2:], str(key.stat().st_uid)]
    body = {"signingRequest": {"orig": {"tn": GIVEN["number"]}, "dest": {"tn": ["13105550100"]}, "attest": "A",
                               "origid": "123e4567-e89b-12d3-a456-426655440000"}}
    tokens = ({"Authorization": f"Bearer {GIVEN['token']}"}, {})
    said["signed"] = [ask("POST", "/stir/v1/signing", json.dumps(body).encode(), fields=fields)[0] for fields in tokens]
    said["journal"] = pathlib.Path("/var/lib/private/stird/tickets").exists()
    restarted_under_load()
    said["states"]["after its end"] = state()
    said |= {"calls": len(Caller.outcomes), "lost": Caller.lost, "outcomes": sorted(set(Caller.outcomes.values()))}
    said["again"] = sorted({outcome(GIVEN["calls"][number]) for number in list(Caller.outcomes)[::20]} | {outcome(first)})
    before = process()
    said["reloaded"] = subprocess.run(["systemctl", "reload", "stird.service"], check=False).returncode == 0 and process() == before
    said["watchdog"] = ended_by_watchdog()
    said["states"]["after a hang"] = state()
    print(json.dumps(said))


main()
