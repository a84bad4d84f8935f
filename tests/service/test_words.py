"""What the service is told by words and by a file of settings."""
import re
import socket
import subprocess

import pytest
from stird import Stird, free_port, wait_until
from world import START

# Each option, and a value that it takes; that of a file of settings where it is written otherwise there.
OPTIONS = {
    "past": "30", "future": "7", "country": '"44"', "national": "9", "moments": '"asked"', "tickets": "1000", "connections": "100", "connections-each": "50",
    "request": "4", "idle": "9", "reload": "3", "split": '"no"', "sync": '"no"', "codes": '"trusted"', "fetch-wait": "100", "fetch-private": '"yes"',
    "verstat": '"letter"', "record-numbers": '"short"', "page": '"yes"',
}


def told(stird, *words):
    return subprocess.run([stird, *map(str, words)], stdout=subprocess.PIPE, stderr=subprocess.PIPE, stdin=subprocess.DEVNULL, timeout=30, check=False)


def file_of(folder, world, more):
    """A file of settings with the names of the small world's files, and these lines."""
    names = dict(zip(world.words()[::2], world.words()[1::2]))
    path = folder / "stird.toml"
    path.write_text("".join(f'{name[2:]} = "{value}"\n' for name, value in names.items()) + more)
    return path


def test_help_names_every_option_and_ends_well(stird):
    done = told(stird, "--help")
    assert done.returncode == 0 and not done.stderr, done
    for name in [*OPTIONS, "listen", "chains", "anchors", "roots", "table", "fetch", "fetch-hosts", "fetch-authorities", "journal", "redis", "signing", "signing-tokens",
                 "signing-clients", "signing-local", "config", "socket-mode", "tls-certificate", "tls-key", "tls-clients", "record",
                 "record-key"]:
        assert f"--{name}".encode() in done.stdout, f"--{name} isn't named"
    assert told(stird, "-h").returncode == 0


def test_version_is_that_of_the_tree(stird, pytestconfig):
    done = told(stird, "--version")
    version = (pytestconfig.rootpath.parent / "VERSION" if pytestconfig.rootpath.name == "tests" else pytestconfig.rootpath / "VERSION").read_text().strip()
    assert (done.returncode, done.stdout.decode().strip()) == (0, f"stird {version}"), done


@pytest.mark.parametrize("name", OPTIONS)
def test_a_setting_says_the_same_in_a_file_as_by_a_word(name, stird, world, tmp_path):
    """It is shown by what both of them say of a value that isn't one, and by a start with one that is."""
    value = OPTIONS[name]
    with Stird(stird, ["--config", file_of(tmp_path, world, f"{name} = {value}\n")]) as service:
        assert service.ask("GET", "/healthz")[0] == 200
    with Stird(stird, [*world.words(), f"--{name}", value.strip('"')]) as service:
        assert service.ask("GET", "/healthz")[0] == 200
    for wrong in ('"banana"', "-1"):
        by_word = told(stird, *world.words(), f"--{name}={wrong.strip(chr(34))}")
        by_file = told(stird, "--config", file_of(tmp_path, world, f"{name} = {wrong}\n"))
        assert by_word.returncode == by_file.returncode and by_word.returncode in (1, 2), (by_word, by_file)
        assert (name.encode() in by_word.stderr and name.encode() in by_file.stderr) or by_word.stderr == by_file.stderr, (by_word, by_file)


def test_a_setting_of_a_file_counts(stird, world, tmp_path):
    """The age of a PASSporT is shown by a call that is 31 seconds old."""
    for past, outcome in ((30, "refused"), (31, "valid")):
        with Stird(stird, ["--config", file_of(tmp_path, world, f'moments = "asked"\npast = {past}\n')]) as service:
            assert service.outcome(world.call(0, START, 1), START + 31) == outcome


def test_a_word_counts_before_the_file(stird, world, tmp_path):
    with Stird(stird, ["--config", file_of(tmp_path, world, 'moments = "asked"\npast = 30\n'), "--past", "31"]) as service:
        assert service.outcome(world.call(0, START, 1), START + 31) == "valid"


def test_several_places_to_listen_stand_in_a_file(stird, world, tmp_path):
    port = free_port()
    path = file_of(tmp_path, world, f'listen = ["127.0.0.1:{port}", "unix:{tmp_path}/socket"]\n')
    process = subprocess.Popen([stird, "--config", path], stderr=subprocess.DEVNULL)
    try:
        assert wait_until(lambda: (tmp_path / "socket").exists() and b" 200 " in heard(port))
    finally:
        process.terminate()
        assert process.wait(10) == 0


def heard(port):
    try:
        with socket.create_connection(("127.0.0.1", port), timeout=3) as connection:
            connection.sendall(b"GET /healthz HTTP/1.0\r\n\r\n")
            return connection.recv(4096)
    except OSError:
        return b""


@pytest.mark.parametrize(("text", "named"), [
    ("past = 86401\n", "past"), ("past = 60\npast = 61\n", "past"), ("pasta = 1\n", "pasta"), ("past = \n", "line"), ("past = 1.5\n", "past"),
    ("[past]\n", "past"), ('journal = "j"\nredis = "r"\n', "redis"), ("\udcff", "UTF-8"),
])
def test_a_file_that_cant_be_taken_is_told_with_its_name_and_why(text, named, stird, world, tmp_path):
    path = file_of(tmp_path, world, "")
    path.write_bytes(path.read_bytes() + text.encode(errors="surrogateescape"))
    done = told(stird, "--config", path)
    assert done.returncode == 2, done
    assert named.lower() in done.stderr.decode().lower(), done.stderr


def test_a_file_that_isnt_there_is_told(stird, tmp_path):
    done = told(stird, "--config", tmp_path / "none.toml")
    assert done.returncode == 2 and b"none.toml" in done.stderr, done


@pytest.mark.parametrize("words", [
    [], ["--chains", "a"], ["--roots", "r"], ["--fetch", "f"], ["--fetch-authorities", "a"], ["--fetch-wait", "10001"], ["--codes", "all"], ["--banana"], ["banana"], ["--past"], ["--past", "1", "--past", "2"], ["--past", "86401"], ["--past", "-1"], ["--past", " 1"],
    ["--sync", "maybe"], ["--country", "12345"], ["--country", ""], ["--listen", "8080"], ["--journal", "j", "--redis", "r"], ["--connections", "0"],
    ["--socket-mode", "999"], ["--tls-key", "k"], ["--tls-certificate", "c"],
])
def test_words_that_cant_be_taken_end_the_start_with_status_2_or_1_and_say_why(words, stird, world):
    done = told(stird, *(world.words() if words and words[0] != "--chains" else []), *words)
    assert done.returncode in (1, 2) and done.stderr.strip(), done
    assert b"panicked" not in done.stderr, done


def test_it_starts_itself_anew_once_at_most(started, world, library):
    """Whatever drops GLIBC_TUNABLES from its environment, as some C libraries do for programs with rights of their own."""
    drops = library("#include <stdlib.h>\n__attribute__((constructor)) static void drop(void) { unsetenv(\"GLIBC_TUNABLES\"); }\n")
    service = started(variables={"LD_PRELOAD": str(drops)}, patience=10)
    assert service.outcome(world.call(0, START, 1), START) == "valid"


def test_what_it_is_and_what_it_holds_is_among_the_metrics(started, world):
    service = started()
    _, text = service.ask("GET", "/metrics")
    build, reload = r"stir_build_info\{.*version=\"[0-9.]+\".*\} 1", r"stir_last_reload_\w+ [0-9.e+]+"
    for line in (build, reload, r"stir_chains 3", r"stir_tickets 0", r"stir_connections 1"):
        assert re.search(rf"^{line}$", text.decode(), re.M), f"{line}: {text.decode()}"
