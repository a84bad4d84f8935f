"""How many threads the built program starts: `--workers` says how many workers there are, and each but the first has a thread of its own.

No line of the output tells of them. ../hostile/refuse.c stands before the C library's calls, and counts the threads that the program itself starts.
"""
import pathlib
import sys
import tempfile

sys.path.insert(0, str(pathlib.Path(__file__).resolve().parent.parent / 'hostile'))
import cases  # noqa: E402

# So many tickets, of which each is another one, and so many calls.
COUNT = 64

# No call of a kind is refused: they are only counted.
NONE = 0

# More than the program starts in a run.
MANY = 1000


def runs(workers):
    """A run of each command that has workers, and how many threads it may start."""
    tickets = ''.join(f'{number:064x}\n' for number in range(1, COUNT + 1)).encode()
    won = ''.join(f'{number} won\n' for number in range(1, COUNT + 1))
    refused = ''.join(f'{number} refused 400 1 0.0\n' for number in range(1, COUNT + 1))
    others = workers - 1
    # These judge a round in parts, which may be more than there are workers.
    in_parts = range(others, MANY if others else 1)
    for words, given, said, status, allowed in (
        (f'once --size={COUNT}', tickets, won, 0, range(others, workers)),
        (cases.VERIFY, b'@1 0\n' * COUNT, refused, 1, in_parts),
        (f'drill --seed=0 --count={COUNT}', b'', cases.drilled(COUNT), 0, in_parts),
    ):
        words = f'{words} --workers={workers}'
        yield cases.Run(words, words, given, said, status, '', [], None), allowed


def results(program):
    """A case for each command and number of workers: whether it wrote what it must, and its threads."""
    with tempfile.TemporaryDirectory() as folder:
        refusing = cases.Refusing(program, folder)
        for workers in range(1, 9):
            for run, allowed in runs(workers):
                done = refusing.done(run, 'thread', NONE)
                is_right = (done.status, done.said, done.errors) == (run.status, run.said, b'')
                threads = done.calls if done.calls in allowed else allowed.start if len(allowed) == 1 else f'at least {allowed.start}'
                yield run.name, (True, threads), (is_right, done.calls)
