"""Files that change, that can't be read, and that aren't files: what can be taken is taken at once, all else is told once, and nothing waits for it."""
import os
import re
import shutil
import socket
import time

import pytest
from stird import Numbers, Stird, wait_until
from world import START

# A user who may read what everybody may.
NOBODY = 65534


class Changing:
    """Copies of a world's files which a test changes."""

    def __init__(self, world, folder):
        self.world, self.folder, self.count = world, folder, world.count
        for path in world.folder.iterdir():
            shutil.copy(path, folder / path.name)
        self.map(self.lines())

    def lines(self):
        return [f"{self.world.x5u(n)} {self.folder}/chain-{n}.der" for n in range(self.count)]

    def map(self, lines):
        self.put("chains.txt", "".join(f"{line}\n" for line in lines).encode())

    def put(self, name, content):
        """Puts a file in place by a rename."""
        new = self.folder / f".{name}"
        new.write_bytes(content)
        new.rename(self.folder / name)

    def read(self, name):
        return (self.folder / name).read_bytes()

    def words(self):
        return ["--chains", str(self.folder / "chains.txt"), "--anchors", str(self.folder / "anchors.der"), "--table", str(self.folder / "table.txt")]


@pytest.fixture
def files(world, tmp_path):
    folder = tmp_path / "files"
    folder.mkdir()
    return Changing(world, folder)


def told(service, world, n):
    """What comes of a good call by the n-th chain."""
    one = service.verify(world.call(n, START, Numbers.next()), START)
    return one["outcome"], one["rule"]


PASSES, UNKNOWN = ("valid", 0), ("refused", 10)


def is_taken(service, world, n, wanted=PASSES):
    return wait_until(lambda: told(service, world, n) == wanted)


def unreadable(kind, path):
    """Puts something in the place of a file that can't be read as one."""
    path.unlink(missing_ok=True)
    if kind == "a folder":
        path.mkdir()
    elif kind == "a FIFO":
        os.mkfifo(path)
    elif kind == "a socket":
        with socket.socket(socket.AF_UNIX) as one:
            one.bind(str(path))
    elif kind == "a device that never ends":
        path.symlink_to("/dev/zero")
    elif kind == "a link to itself":
        path.symlink_to(path)
    else:
        raise ValueError(kind)


KINDS = ["a folder", "a FIFO", "a socket", "a device that never ends", "a link to itself"]


@pytest.mark.parametrize("kind", KINDS)
def test_a_chain_that_is_no_file_holds_up_neither_a_start_nor_a_reload(kind, started, world, files):
    unreadable(kind, files.folder / "chain-1.der")
    service = started(by=files, patience=10)
    assert told(service, world, 0) == PASSES
    assert told(service, world, 1)[0] == "refused"
    files.map(files.lines()[:1] + files.lines()[1:2] + [f"{world.x5u(2)} {files.folder}/none.der"])
    assert is_taken(service, world, 2, UNKNOWN), "a change isn't taken while another file can't be read"
    files.map(files.lines())
    assert is_taken(service, world, 2)


@pytest.mark.parametrize("kind", ["a folder", "a FIFO", "a device that never ends"])
def test_a_chain_that_cant_be_read_any_more_is_told_once_and_costs_nothing(kind, started, world, files):
    service = started(by=files)
    assert told(service, world, 1) == PASSES
    unreadable(kind, files.folder / "chain-1.der")
    assert wait_until(lambda: service.told(r"chain-1\.der")), service.text()
    time.sleep(0.5)
    lines = len(service.lines)
    share = service.share(2)
    assert share < 0.1, f"it uses {share:.0%} of a processor"
    assert len(service.lines) - lines <= 1, service.text()
    assert told(service, world, 0) == PASSES
    table = files.read("table.txt")
    files.put("table.txt", b"".join(line for line in table.splitlines(True) if not line.startswith(b"0000 ")))
    assert is_taken(service, world, 0, ("refused", 17)), "another file's change isn't taken"
    path = files.folder / "chain-1.der"
    path.rmdir() if path.is_dir() and not path.is_symlink() else path.unlink()
    files.put("chain-1.der", (world.folder / "chain-1.der").read_bytes())
    assert is_taken(service, world, 1)


@pytest.mark.parametrize("name", ["chains.txt", "anchors.der", "table.txt"])
@pytest.mark.parametrize("kind", ["a folder", "a FIFO"])
def test_a_file_of_the_command_line_that_is_none_stops_the_start_and_is_named(kind, name, started, files):
    unreadable(kind, files.folder / name)
    with pytest.raises(RuntimeError) as fault:
        started(by=files, patience=10)
    assert name in str(fault.value) and "panicked" not in str(fault.value), fault.value


@pytest.mark.parametrize("name", ["chains.txt", "anchors.der", "table.txt"])
@pytest.mark.parametrize("kind", ["a folder", "a FIFO", "nothing"])
def test_a_file_of_the_command_line_that_goes_leaves_what_was_read(kind, name, started, world, files):
    service, content = started(by=files), files.read(name)
    if kind == "nothing":
        (files.folder / name).unlink()
    else:
        unreadable(kind, files.folder / name)
    assert wait_until(lambda: service.told(re.escape(name))), service.text()
    assert told(service, world, 0) == PASSES
    path = files.folder / name
    if path.exists():
        path.rmdir() if path.is_dir() else path.unlink()
    if name == "table.txt":
        content = b"".join(line for line in content.splitlines(True) if not line.startswith(b"0001 "))
    files.put(name, content)
    assert wait_until(lambda: name != "table.txt" or told(service, world, 1) == ("refused", 17))
    assert told(service, world, 0) == PASSES


def test_a_file_of_the_same_size_and_time_is_noticed(started, world, files):
    """As rsync -t, tar and cp -p leave it."""
    service = started(by=files)
    assert told(service, world, 0) == PASSES
    path, table = files.folder / "table.txt", files.read("table.txt")
    when = path.stat().st_mtime_ns
    new = files.folder / "new"
    new.write_bytes(table.replace(b"0000 ", b"7777 ", 1))
    os.utime(new, ns=(when, when))
    new.rename(path)
    assert is_taken(service, world, 0, ("refused", 17))
    with path.open("r+b") as file:
        file.write(table)
    os.utime(path, ns=(when, when))
    assert is_taken(service, world, 0), "one that was written in place isn't noticed"


def test_a_file_that_is_written_in_two_halves_isnt_taken_by_half(started, world, files):
    service, table = started(by=files), files.read("table.txt")
    first = table.index(b"\n") + 1
    refused = 0
    for _ in range(40):
        with (files.folder / "table.txt").open("wb") as file:
            file.write(table[:first])
            file.flush()
            time.sleep(0.005)
            file.write(table[first:])
        refused += told(service, world, 2) != PASSES
        time.sleep(0.05)
    assert wait_until(lambda: told(service, world, 2) == PASSES)
    assert refused <= 2, f"{refused} of 40 calls were judged by half a table"


def test_all_chains_missing_is_told(started, world, files):
    """As if what they lie on weren't mounted any more."""
    service = started(by=files)
    assert service.ready()[0]
    (files.folder / "away").mkdir()
    for n in range(world.count):
        (files.folder / f"chain-{n}.der").rename(files.folder / "away" / f"chain-{n}.der")
    assert wait_until(lambda: not service.ready()[0]), "it says that it is ready without a chain"
    assert "chain" in service.ready()[1].lower()
    for n in range(world.count):
        (files.folder / "away" / f"chain-{n}.der").rename(files.folder / f"chain-{n}.der")
    assert wait_until(lambda: service.ready()[0])
    assert is_taken(service, world, 0)


@pytest.mark.parametrize(("name", "text", "line"), [
    ("chains.txt", b"https://a a.der\nnonsense\n", r"line 2"), ("chains.txt", b"https://a a.der\nhttps://a b.der\n", r"line 2"),
    ("table.txt", b"bad line here x\n", ""), ("anchors.der", b"xx", ""),
])
def test_what_is_refused_is_named_with_its_file_and_line(name, text, line, started, world, files):
    content = files.read(name)
    files.put(name, text)
    with pytest.raises(RuntimeError) as fault:
        started(by=files)
    assert name in str(fault.value) and re.search(line, str(fault.value)), fault.value
    files.put(name, content)
    service = started(by=files)
    files.put(name, text)
    assert wait_until(lambda: service.told(rf"{re.escape(name)}.*{line}")), service.text()
    assert service.metric("stir_failed_reloads_total") >= 1
    assert told(service, world, 0) == PASSES


def test_a_file_that_its_user_may_not_read_is_named(stird, world, files, tmp_path):
    """Root may read all, so the service runs as somebody else."""
    if os.geteuid() != 0 or not shutil.which("setpriv"):
        pytest.skip("only root may start a program as another user")
    for folder in [files.folder, *files.folder.parents]:
        if folder.stat().st_uid == os.geteuid() and str(folder).startswith("/tmp/"):
            folder.chmod(0o755)
    (tmp_path / "bin").mkdir()
    program = shutil.copy(stird, tmp_path / "bin/stird")
    library = stird.parent.parent / "lib/libstir.so.1"
    if library.exists():
        (tmp_path / "lib").mkdir()
        shutil.copy(library, tmp_path / "lib")
    os.chmod(program, 0o755)
    (files.folder / "chain-1.der").chmod(0o600)
    words = ["setpriv", f"--reuid={NOBODY}", f"--regid={NOBODY}", "--clear-groups", program]
    service = Stird(words[0], [*words[1:], *files.words(), "--moments", "asked"], patience=10)
    try:
        assert service.told(r"chain-1\.der") or wait_until(lambda: service.told(r"chain-1\.der")), service.text()
        assert told(service, world, 0) == PASSES and told(service, world, 1)[0] == "refused"
        files.put("new.der", (world.folder / "chain-1.der").read_bytes())
        (files.folder / "new.der").rename(files.folder / "chain-1.der")
        assert is_taken(service, world, 1)
        (files.folder / "table.txt").chmod(0o600)
        os.utime(files.folder / "table.txt")
        assert wait_until(lambda: service.told(r"table\.txt")), service.text()
        assert told(service, world, 0) == PASSES
    finally:
        service.stop()


def many(world, folder, count):
    """So many lines of a chain map, each of a file of its own with the first chain."""
    content, lines = (world.folder / "chain-0.der").read_bytes(), []
    for number in range(count):
        (folder / f"many-{number}.der").write_bytes(content)
        lines.append(f"https://many.example.org/{number}.pem {folder}/many-{number}.der")
    return lines


def test_one_changed_chain_of_thousands_costs_little(started, world, files):
    """What didn't change isn't read again."""
    files.map(files.lines() + many(world, files.folder, 2000))
    service = started(by=files, patience=30)
    wait_until(lambda: service.share(0.3) < 0.1, 30)
    idle = service.share(2)
    before, reloads = service.used(), service.metric("stir_reloads_total")
    for number in range(3):
        os.utime(files.folder / f"many-{number}.der")
        assert wait_until(lambda: service.metric("stir_reloads_total") > reloads), "the change isn't taken"
        reloads = service.metric("stir_reloads_total")
    cost = (service.used() - before) / 3
    assert cost < 0.1, f"a changed chain costs {cost * 1000:.0f} ms of a processor"
    assert idle < 0.1, f"without a change it uses {idle:.0%} of a processor"


def test_renames_without_a_pause_cost_no_call(started, world, files):
    """All files are put in place a hundred times a second, as they were."""
    service, content = started(by=files), {name: files.read(name) for name in ("table.txt", "chains.txt", "anchors.der", "chain-0.der")}
    until, count = time.monotonic() + 3, 0
    while time.monotonic() < until:
        for name in content:
            files.put(name, content[name])
        assert told(service, world, count % world.count) == PASSES
        count += 1
        time.sleep(0.005)
    assert count > 20
    assert wait_until(lambda: service.metric("stir_reloads_total") >= 1)
    assert service.metric("stir_failed_reloads_total") == 0


def test_a_table_of_blocks_names_the_line_that_is_refused(started, world, files):
    blocks = files.folder / "blocks.txt"
    blocks.write_text("; a table\n12000000000 1 A key.pem\n")
    with pytest.raises(RuntimeError) as fault:
        started("--signing", blocks, by=files)
    assert "blocks.txt" in str(fault.value) and "line 2" in str(fault.value), fault.value
