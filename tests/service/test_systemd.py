"""The unit, the sockets and the file of settings that go with the service: what systemd says of them, and what it does with them."""
import json
import os
import pathlib
import re
import shutil
import subprocess
import time

import pytest
import toml_lines
from cryptography.hazmat.primitives import serialization
from stird import Stird
from world import World

TOP = pathlib.Path(__file__).resolve().parents[2]
UNITS = TOP / "packaging" / "systemd"
SETTINGS = TOP / "packaging" / "stird.toml"

TOKEN = "a-token-that-only-the-service-reads"

# Options whose default isn't set beside the others: the file sets one of them, and the other is nothing without a signing table.
ALONE = {"listen", "signing-local"}

# What is told of a unit at most: 0 is best, 10 worst (systemd-analyze(1)).
EXPOSURE = 1.5


def needed(program):
    if not shutil.which(program):
        pytest.skip(f"{program} is missing")


def test_systemd_reads_the_unit_and_the_sockets(stird, tmp_path):
    needed("systemd-analyze")
    for name in ("stird.service", "stird.socket"):
        (tmp_path / name).write_text((UNITS / name).read_text().replace("/usr/bin/stird", str(stird)))
    done = subprocess.run(["systemd-analyze", "verify", "--man=no", "stird.service", "stird.socket"], cwd=tmp_path, stdout=subprocess.PIPE,
                          stderr=subprocess.STDOUT, text=True, check=False)
    assert (done.returncode, [line for line in done.stdout.splitlines() if "stird" in line]) == (0, []), done.stdout


def test_the_unit_is_hardened(tmp_path):
    needed("systemd-analyze")
    done = subprocess.run(["systemd-analyze", "security", "--no-pager", "--offline=true", UNITS / "stird.service"], stdout=subprocess.PIPE,
                          stderr=subprocess.STDOUT, text=True, check=False)
    found = re.search(r"Overall exposure level for stird.service: ([0-9.]+)", done.stdout)
    assert found and float(found[1]) <= EXPOSURE, done.stdout


def test_each_option_stands_in_the_file_of_settings_with_its_default(stird):
    told = subprocess.run([stird, "--help"], stdout=subprocess.PIPE, text=True, check=True).stdout
    options = toml_lines.options(told)
    settings = toml_lines.settings(SETTINGS.read_text())
    assert set(settings) == set(options), "packaging/stird.toml and `stird --help` name other options"
    for name, default in options.items():
        values = [toml_lines.word(value) for value in settings[name]]
        assert default is None or default in values, f"the default of {name} is {default}, and packaging/stird.toml says {values}"


def test_the_file_of_settings_is_taken_as_it_stands_and_with_each_default_set(stird, world, tmp_path):
    told = subprocess.run([stird, "--help"], stdout=subprocess.PIPE, text=True, check=True).stdout
    options, text = toml_lines.options(told), SETTINGS.read_text()
    defaults = {f"#{name} = " for name, default in options.items() if default is not None and name not in ALONE}
    lines = [line[1:] if any(map(line.startswith, defaults)) else line for line in text.splitlines()]
    whole = "\n".join(lines) + "\n"
    assert whole.count("\n#") == text.count("\n#") - len(defaults), "a default doesn't stand there once"
    for number, settings in enumerate((text, whole)):
        path = tmp_path / f"{number}.toml"
        path.write_text(settings)
        with Stird(stird, ["--config", path, *world.words()]) as service:
            assert service.ask("GET", "/healthz")[0] == 200


@pytest.fixture
def room(stird, tmp_path):
    """What the container of the trial sees: the service, its unit, its settings, keys, and calls."""
    needed("systemd-nspawn")
    if os.geteuid() != 0 or not pathlib.Path("/sys/fs/cgroup").is_mount():
        pytest.skip("a container can't be started here")
    world = World(tmp_path / "stird" / "world", 3, int(time.time()))
    etc = tmp_path / "stird"
    (etc / "world" / "chains.txt").write_text((etc / "world" / "chains.txt").read_text().replace(str(etc), "/etc/stird"))
    (etc / "keys").mkdir()
    pem = world.keys[0].private_bytes(serialization.Encoding.PEM, serialization.PrivateFormat.PKCS8, serialization.NoEncryption())
    (etc / "keys" / "key.pem").write_bytes(pem)
    (etc / "keys" / "tokens.txt").write_text(f"{TOKEN}\n")
    (etc / "keys").chmod(0o700)
    (etc / "signing.txt").write_text(f"{world.number(0, 0)} 10000 A $CREDENTIALS_DIRECTORY/key_key.pem /etc/stird/world/chain-0.der {world.x5u(0)}\n")
    names = {"chains": "world/chains.txt", "anchors": "world/anchors.der", "table": "world/table.txt", "signing": "signing.txt"}
    more = "".join(f'{name} = "/etc/stird/{file}"\n' for name, file in names.items())
    text = SETTINGS.read_text().replace("\nchains = ", "\n#chains = ")
    (etc / "stird.toml").write_text(text + more + 'journal = "/var/lib/stird/tickets"\npast = 600\nsigning-tokens = "$CREDENTIALS_DIRECTORY/key_tokens.txt"\n')
    (tmp_path / "bin").mkdir()
    shutil.copy(stird, tmp_path / "bin" / "stird")
    library = stird.parent.parent / "lib/libstir.so.1"
    if library.exists():
        (tmp_path / "lib").mkdir()
        shutil.copy(library, tmp_path / "lib")
    shutil.copy(TOP / "tests" / "service" / "booted.py", tmp_path / "bin")
    for name in ("stird.service", "stird.socket"):
        text = (UNITS / name).read_text().replace("/usr/bin/stird", "/opt/trial/bin/stird").replace("WatchdogSec=30s", "WatchdogSec=3s")
        (tmp_path / name).write_text(text)
    (tmp_path / "trial.service").write_text(
        "[Unit]\nSuccessAction=exit-force\nFailureAction=exit-force\n[Service]\nType=oneshot\nTimeoutStartSec=100\n"
        "ExecStart=/usr/bin/python3 /opt/trial/bin/booted.py\nStandardOutput=file:/opt/trial/said\nStandardError=file:/opt/trial/fault\n")
    now = int(time.time())
    calls = [world.call(number % 3, now, number).decode() for number in range(1, 1500)]
    (tmp_path / "calls.json").write_text(json.dumps({"calls": calls, "number": world.number(0, 5), "token": TOKEN}))
    tmp_path.chmod(0o755)
    return tmp_path


def test_systemd_runs_the_service_as_the_unit_says(room):
    """A systemd of its own, in a container over this machine's /usr, starts the service by its socket and drives it (booted.py)."""
    binds = [f"--bind={room}:/opt/trial", f"--bind-ro={room / 'stird'}:/etc/stird"]
    binds += [f"--bind-ro={room / name}:/etc/systemd/system/{name}" for name in ("stird.service", "stird.socket", "trial.service")]
    off = [f"systemd.mask={name}" for name in ("systemd-firstboot.service", "systemd-networkd.service", "systemd-resolved.service")]
    words = ["systemd-nspawn", "--quiet", "--directory=/", "--volatile=yes", "--register=no", "--keep-unit", "--private-network", "--boot",
             "--console=read-only", *binds, "systemd.unit=trial.service", "systemd.log_target=console", *off]
    done = subprocess.run(words, stdin=subprocess.DEVNULL, stdout=subprocess.PIPE, stderr=subprocess.STDOUT, timeout=200, check=False)
    console = done.stdout.decode(errors="replace")[-4000:]
    if not (room / "said").exists():
        pytest.skip(f"systemd doesn't come up in a container here: {console[-500:]}")
    said = json.loads((room / "said").read_text() or "{}")
    assert said, (room / "fault").read_text() + console
    assert said["first"] == "valid", said
    assert said["states"] == {"before": "inactive", "after a call": "active", "after its end": "active", "after a hang": "active"}, said
    assert said["user"] not in ("0", None) and said["privileges"] == "0000000000000000", said
    assert said["key"] == ["400", said["user"]], "the key isn't the service's alone"
    assert said["signed"] == [200, 401] and said["journal"] is True, said
    assert said["calls"] > 200 and said["lost"] == {} and set(said["outcomes"]) == {"valid"}, said
    assert said["again"] == ["replay"], said
    assert said["reloaded"] is True and said["watchdog"] is True, said
