"""The record taken by rsyslog, by the configuration that docs/RECORD.md shows: it has each line once, over a move of the file too."""
import json
import re
import shutil
import signal
import subprocess
from pathlib import Path

import pytest
from stird import wait_until
from world import START

PROGRAM = shutil.which("rsyslogd", path="/usr/sbin:/usr/bin")
PAGE = Path(__file__).resolve().parents[2] / "docs" / "RECORD.md"


def configuration(folder):
    """That of the page, with files in this folder."""
    (text,) = re.findall(r"```rsyslog\n(.*?)```", PAGE.read_text(), re.S)
    for name in ("/var/spool/rsyslog", "/var/lib/stird", "/var/log"):
        text = text.replace(name, str(folder))
    path = folder / "rsyslog.conf"
    path.write_text(text)
    return path


def lines(path):
    return path.read_bytes().splitlines() if path.exists() else []


@pytest.mark.skipif(not PROGRAM, reason="rsyslog is missing")
def test_rsyslog_has_each_line_once_and_parts_the_refused_calls(started, world, tmp_path):
    path, old = tmp_path / "calls.json", tmp_path / "calls.json.1"
    service = started("--record", path)
    words = [PROGRAM, "-n", "-f", configuration(tmp_path), "-i", tmp_path / "pid"]
    with (tmp_path / "said").open("wb") as said, subprocess.Popen(words, stdout=said, stderr=said) as rsyslog:
        try:
            service.verify(world.call(0, START, 1), START)
            service.verify(world.call(0, START, 2, "forged"), START)
            assert wait_until(lambda: len(lines(tmp_path / "all.json")) == 2, 30), (tmp_path / "said").read_text()
            path.rename(old)
            service.process.send_signal(signal.SIGHUP)
            assert wait_until(path.exists)
            for number in range(3, 40):
                service.verify(world.call(0, START, number, "outside" if number % 2 else "good"), START)
            wanted = lambda: lines(old) + lines(path)
            assert wait_until(lambda: len(lines(tmp_path / "all.json")) == 39, 30), (len(wanted()), len(lines(tmp_path / "all.json")))
            assert [json.loads(line)["call"] for line in wanted()] == list(range(1, 40))
            assert lines(tmp_path / "all.json") == wanted()
            refused = [line for line in wanted() if json.loads(line)["outcome"] == "refused"]
            assert wait_until(lambda: lines(tmp_path / "refused.json") == refused), (tmp_path / "refused.json").read_text()
        finally:
            rsyslog.terminate()
