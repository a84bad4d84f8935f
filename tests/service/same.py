"""The library for C beside the proved program, by the example `judge` of host/stir: the calls that `verify` and `explain` judge in tests/cli, and a log."""
import itertools
import pathlib
import re
import subprocess
import sys

CLI = pathlib.Path(__file__).resolve().parents[1] / "cli"

# A line of a report on a call, and of one whose x5u leads to a file that can't be read.
LINE = re.compile(rb"\d+ (valid - - -|replay 438 18 \d+|refused \d+ \d+ \d+\.\d+|\d+ ok|\d+ \d+ \d+\.\d+)")
UNREAD = re.compile(rb"\d+ (unread - 10 \d+\.\d+|10 unread \d+\.\d+)")

# Options whose effect the example hasn't.
OTHER = (b"--state", b"--workers")


def is_whole(words, streams, status, outputs):
    """Whether a case is a log that is judged to its end, without a state."""
    return (
        not streams
        and status in (0, 1)
        and not any(word.startswith(OTHER) for word in words)
        and all(LINE.fullmatch(line) for output in outputs for line in output.splitlines())
    )


def told(report):
    """What a report tells of calls before all else: without their numbers, and without which call of a ticket was the first, since a state and workers have
    a say in these. A chain that can't be read is to the library one that is missing."""
    lines = itertools.takewhile(lambda line: LINE.fullmatch(line) or UNREAD.fullmatch(line), report.splitlines())
    said = [line.partition(b" ")[2].replace(b"unread - ", b"refused 436 ").replace(b"unread", b"436") for line in lines]
    return [b"passes" if line.startswith((b"valid", b"replay")) else line for line in said]


def cases():
    """The cases of tests/cli on `verify` and `explain`, with their names."""
    sys.path.append(str(CLI))
    import command_cases

    for name, case in itertools.chain(command_cases.folders(), *map(command_cases.rows, sorted(CLI.glob("*.rows")))):
        if case.args[0][:1] in ([b"verify"], [b"explain"]):
            yield name, case


def judged(judge):
    """Each case in which a call is judged, as the library judges it: a whole log byte for byte, and others in what they tell of calls, up to a fault of the
    log. And how many these are."""
    whole = others = lines = 0
    for name, case in cases():
        words, _, _, streams, status, outputs = case.args
        calls = [told(output) for output in outputs]
        if is_whole(words, streams, status, outputs):
            wanted, got = case(judge)
            assert wanted == got, f"{name}: wanted {wanted}, got {got}"
            whole += 1
        elif any(calls):
            said = told(case(judge)[1][1])
            assert any(said[: len(one)] == one for one in calls), f"{name}: wanted {calls}, got {said}"
            others += 1
        lines += len(calls[0])
    assert whole > 100 and others > 20, f"only {whole} cases are whole logs, and {others} others judge a call"
    return f"{whole} cases byte for byte and {others} others, {lines} lines"


def rows(judge):
    """The same in a process of its own, since what the cases import has modules of the same names as here."""
    done = subprocess.run([sys.executable, __file__, judge], stdout=subprocess.PIPE, stderr=subprocess.STDOUT, check=False, text=True)
    assert done.returncode == 0, done.stdout
    return done.stdout.strip()


def log(judge, program, world, calls, folder):
    """The log of the tests' world, judged and explained by both, with the answers that its report was made with."""
    words, given = [*world.words(), "--answers", folder / "answers.txt"], world.log(calls)
    for command in ("verify", "explain"):
        wanted, got = (subprocess.run([one, command, *words], input=given, stdout=subprocess.PIPE, check=False) for one in (program, judge))
        assert wanted.stdout and (wanted.stdout, wanted.returncode) == (got.stdout, got.returncode), f"{command}: the library says otherwise"


if __name__ == "__main__":
    print(judged(pathlib.Path(sys.argv[1]).resolve()))
