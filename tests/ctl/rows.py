"""The cases of tests/cli on `verify` and `explain`, given to `stirctl`: what the proved program writes of them, `stirctl` writes byte for byte."""
import os
import pathlib
import sys

TESTS = pathlib.Path(__file__).resolve().parent.parent
sys.path.insert(0, str(TESTS / 'cli'))
import command_cases as cli  # noqa: E402

FILES = 'verify.rows', 'state.rows', 'explain.rows', 'files.rows'

# What a case can't be given: several workers, and words that are refused in other words.
WORKERS = b'--workers'
REFUSED = b'words refused\n'


def of_ctl(words):
    """The words of `stirctl` for those of `verify` or `explain`, whose log is on the standard input."""
    command = {b'verify': [b'judge', b'--report', b'-'], b'explain': [b'explain']}[words[0]]
    return [*command, *words[1:], b'-']


def serves(words, streams, outputs):
    """Whether a case can be given to `stirctl`."""
    return words[:1] in ([b'verify'], [b'explain']) and not any(word.startswith(WORKERS) for word in words) and not streams and outputs != [REFUSED]


def cases():
    """Each case, its name and a function of the program to what is wanted and what came."""
    for name in FILES:
        for place, case in cli.rows(cli.HERE / name):
            words, given, files, streams, status, outputs = case.args
            if serves(words, streams, outputs):
                yield place, of_ctl(words), given, files, status, outputs


def result(program, words, given, files, status, outputs):
    got = cli.run(os.fspath(program), words, given, files)
    return (status, got[1] if got[1] in outputs else outputs[0], b''), got
