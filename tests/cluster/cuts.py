"""Where logs are cut."""
import random
import subprocess

from stir import logs


def entries(count, seed):
    """A log of messages of random lengths, also empty ones and ones with bytes that look like a header, and its calls."""
    draw, moment, calls = random.Random(seed), 1, []
    for _ in range(count):
        moment += draw.choice((0, 0, 1))
        calls.append((moment, draw.choice((b"", b"@1 0\n", b"\n" * draw.randrange(40), draw.randbytes(draw.randrange(3000))))))
    return b"".join(b"@%d %d\n" % (moment, len(message)) + message for moment, message in calls), calls


def everywhere(folder):
    """The parts of a log, put together, are its calls, with their numbers; and so are those of several logs."""
    file = folder / "cut.log"
    for count in (0, 1, 2, 7, 300):
        text, calls = entries(count, count)
        file.write_bytes(text)
        for size in (1, 2, 3, 7, 299, 300, 1000):
            cut = logs.cut([file], size)
            assert (cut.calls, cut.fault) == (count, None), f"{count} calls in parts of {size}: {cut.calls} calls, fault {cut.fault}"
            assert [part.first for part in cut.parts] == list(range(1, count + 1, size)), f"parts of {size} begin at {[part.first for part in cut.parts]}"
            assert all(part.count == size for part in cut.parts[:-1]), f"a part hasn't {size} calls"
            assert calls_in(cut) == calls, f"{count} calls in parts of {size} aren't those of the log"
    files = pieces(folder, text, calls, (0, 100, 100, 230))
    cut = logs.cut(files, 60)
    assert calls_in(cut) == calls and cut.calls == 300, "the calls of several logs aren't those of the whole"
    assert [part.first for part in cut.parts] == [1, 61, 101, 161, 221, 231, 291], f"parts begin at {[part.first for part in cut.parts]}"
    files[1].write_bytes(b"@0 0\n")
    cut = logs.cut(files, 60)
    assert (cut.calls, cut.fault) == (100, logs.Fault(str(files[1]), 0)), "a log that begins before the one before it ends isn't refused"


def calls_in(cut):
    return [(call.moment, call.message) for part in cut.parts for call in logs.calls_of(part)]


def pieces(folder, text, calls, begins):
    """The log in several files, which begin with the calls after so many."""
    places = [0]
    for moment, message in calls:
        places.append(places[-1] + len(b"@%d %d\n" % (moment, len(message))) + len(message))
    files = []
    for begin, end in zip(begins, (*begins[1:], len(calls))):
        files.append(folder / f"piece-{len(files)}.log")
        files[-1].write_bytes(text[places[begin] : places[end]])
    return files


# What comes after three whole entries.
FAULTS = [b"@01 0\n", b"@9  0\n", b"@9 0", b"@9 3\nab", b"@0 0\n", b"@9 131073\n", b"@253402300800 0\n", b"x", b"\n", b"@", b"@9 00\n", b"@9 0\r\n"]


def faults(stir, world, folder):
    """The fault of a log is at the place that verify names, also where the log is cut off in the middle of an entry."""
    file = folder / "cut.log"
    text, _ = entries(3, 5)
    (folder / "none.txt").write_bytes(b"")
    words = [stir, "verify", *world.words(), "--answers", folder / "none.txt"]
    attempts = [text + fault for fault in FAULTS] + [text[:size] for size in range(0, len(text), 97)]
    for number, log in enumerate(attempts):
        file.write_bytes(log)
        last = (subprocess.run(words, input=log, stdout=subprocess.PIPE, check=False).stdout.splitlines() or [b""])[-1]
        wanted = int(last.split()[2]) if last.startswith(b"refused input ") else None
        fault = logs.cut([file], 2).fault
        assert (fault and fault.place) == wanted, f"log {number}: {fault} and not {wanted}"
    return f"{len(attempts)} logs"
