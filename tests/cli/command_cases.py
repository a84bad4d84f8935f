"""The cases of the built program: what it writes, and its status. test_cli.py runs them.

Each folder beside this file is a case, with these files:

    args      the words, one a line, as bytes; absent: none
    stdin     what stands on the standard input; absent: nothing
    files     a folder with the files that lie where the program runs; absent: none
    stdout    what the program must write to the standard output, byte for byte; absent: nothing
    status    its exit status, in digits
    streams   words of `no-stdin`, `no-stdout`, `full-stdout` and `unread-stdout`: the standard input or
              output is closed, or is a device without room, or a pipe that nobody reads; absent: none of these

Each file NAME.rows has a case a line, beside empty lines and comments, which begin with `#`:

    NAME = PIECE ..                       lets $NAME stand for the bytes of the pieces put together
    +NAME = PIECE ..                      lets +NAME stand for these words of a command line, one a piece
    FILE NAME = PIECE ..                  a file that lies where the program runs, in each case of the file of rows
    NAMED IN NAME                         takes what the file of rows of this name has named, without its cases
    PIECE .. < INPUT .. => STATUS PIECE ..  the program's words, its input, its status and its output; behind ` | ` stands another output that will do
    (STREAM ..) PIECE .. < ..             the same with such streams

A piece is `[COUNT*]TEXT`, and a text is `$NAME`, `x:HEX`, or plain text in which `\\xHH`, `\\s` (a space), `\\n`, `\\r`,
`\\t` and `\\\\` are escapes. An input is pieces; the pieces behind a piece `@MOMENT`, up to the next such or the end, are
one entry of a call log with that message. A line that can't be read fails the run.

The program runs in a folder of its own and must write nothing to standard error. More cases stand elsewhere: the words of
crates/vectors/generators/words.py, logs that are made here, one of 100,000 calls, one that comes slowly, and one of replays on each number of workers, state
files of as many bytes as may be and of one more, and lists of tickets that crates/vectors/generators/tickets.py draws, on each number of workers.
"""
import contextlib
import functools
import os
import pathlib
import re
import select
import subprocess
import sys
import tempfile

HERE = pathlib.Path(__file__).resolve().parent
sys.path.insert(0, str(HERE.parents[1] / 'crates/vectors/generators'))
import tickets  # noqa: E402
from words import program_cases  # noqa: E402


def content(path):
    return path.read_bytes() if path.exists() else b''


def closing(streams):
    """What the child does to its standard streams before it becomes the program."""
    def close():
        if 'no-stdin' in streams:
            os.close(0)
        if 'no-stdout' in streams:
            os.close(1)
    return close


def output(streams):
    """The file that the program's standard output is, or None."""
    if 'full-stdout' in streams:
        return open('/dev/full', 'wb')
    if 'unread-stdout' in streams:
        reader, writer = os.pipe()
        os.close(reader)
        return open(writer, 'wb')
    return contextlib.nullcontext()


def run(program, words, given, files, streams=(), sizes=()):
    """Status, standard output and standard error of one run in a folder of its own with these files, some of which are brought to a size by zeros."""
    with tempfile.TemporaryDirectory() as folder, output(streams) as out:
        for name, data in files.items():
            pathlib.Path(folder, name).write_bytes(data)
        for name, size in sizes:
            os.truncate(pathlib.Path(folder, name), size)
        done = subprocess.run([os.fsencode(program)] + words, input=given, stdout=out or subprocess.PIPE, stderr=subprocess.PIPE,
                              cwd=folder, timeout=60, preexec_fn=closing(streams))
    return done.returncode, done.stdout or b'', done.stderr


def folder_case(case):
    """The case of a folder."""
    words = [word for word in content(case / 'args').split(b'\n') if word]
    files = {path.name: path.read_bytes() for path in case.glob('files/*')}
    streams, status = content(case / 'streams').decode().split(), int(content(case / 'status'))
    return functools.partial(row_case, words, content(case / 'stdin'), files, streams, status, [content(case / 'stdout')])


def folders():
    """Each case that is a folder, with its name."""
    for case in sorted(path for path in HERE.iterdir() if (path / 'status').exists()):
        yield case.name, folder_case(case)


ESCAPES = {'s': b' ', 'n': b'\n', 'r': b'\r', 't': b'\t', '\\': b'\\'}


def text_bytes(text):
    """The bytes of a plain text with its escapes; an error where a backslash begins none."""
    out = b''
    for plain, number, letter in re.findall(r'([^\\]+)|\\x([0-9A-Fa-f]{2})|\\(.?)', text):
        out += plain.encode() if plain else bytes.fromhex(number) if number else ESCAPES[letter]
    return out


class Rows:
    """What a file of rows has named so far."""

    def __init__(self):
        self.texts, self.words, self.files = {}, {}, {}

    def piece(self, piece):
        count, text = re.fullmatch(r'(?:(\d+)\*)?(.*)', piece).groups()
        if text.startswith('$'):
            found = self.texts[text[1:]]
        else:
            found = bytes.fromhex(text[2:]) if text.startswith('x:') else text_bytes(text)
        return found * int(count or 1)

    def text(self, pieces):
        return b''.join(self.piece(piece) for piece in pieces)

    def line_of_words(self, pieces):
        return [word for piece in pieces for word in (self.words[piece[1:]] if piece.startswith('+') else [self.piece(piece)])]

    def log(self, pieces):
        """The input: entries of a log where moments stand, and other pieces as they are."""
        moments = [at for at, piece in enumerate(pieces) if re.fullmatch(r'@\d+', piece)]
        out = self.text(pieces[:moments[0]] if moments else pieces)
        for start, end in zip(moments, moments[1:] + [len(pieces)]):
            message = self.text(pieces[start + 1:end])
            out += b'%s %d\n%s' % (pieces[start].encode(), len(message), message)
        return out

    def named(self, line):
        """Whether the line names something, which it then does."""
        if line.startswith('NAMED IN '):
            for other in (HERE / line[9:]).read_text().splitlines():
                self.named(other)
            return True
        found = re.fullmatch(r'(FILE |\+|)([\w.]+) = (.*)', line)
        if found:
            pieces = found[3].split()
            if found[1] == '+':
                self.words[found[2]] = self.line_of_words(pieces)
            else:
                (self.files if found[1] else self.texts)[found[2]] = self.text(pieces)
        return found is not None

    def case(self, line):
        """The case of a line, over what has been named until there."""
        streams, given, wanted = re.fullmatch(r'(?:\(([a-z -]+)\) )?(.*) => (.*)', line).groups(default='')
        words, data = f' {given} '.split(' < ')
        status, *said = wanted.split(' ')
        outputs = [self.text(pieces.split()) for pieces in ' '.join(said).split(' | ')]
        return functools.partial(row_case, self.line_of_words(words.split()), self.log(data.split()), dict(self.files), streams.split(), int(status), outputs)


def row_case(words, given, files, streams, status, outputs, program):
    got = run(program, words, given, files, streams)
    return (status, got[1] if got[1] in outputs else outputs[0], b''), got


def rows(path):
    """Each case of a file of rows, with its name."""
    file = Rows()
    for number, line in enumerate(path.read_text().splitlines(), 1):
        if line and not line.startswith('#') and not file.named(line):
            yield f'{path.name}:{number}', file.case(line)


def word_case(words, status, output, program):
    """What the program does with words of crates/vectors/generators/words.py, where no file is."""
    return (status, output, b''), run(program, words, b'', {})


LONG_LOG = 100_000


def long_log_case(program):
    """A log of many calls, each of an empty message: a line for each, in its order."""
    words = [b'verify', b'--chains=c', b'--anchors=a', b'--table=t', b'--answers=w']
    got = run(program, words, b'@1 0\n' * LONG_LOG, dict.fromkeys('catw', b''))
    wanted = b''.join(b'%d refused 400 1 0.0\n' % number for number in range(1, LONG_LOG + 1))
    return (1, wanted, b''), got


def read_until(stream, size):
    """So many bytes of a stream, or those that came before twenty seconds passed without one."""
    said = b''
    while len(said) < size and select.select([stream], [], [], 20)[0]:
        piece = os.read(stream.fileno(), size - len(said))
        if not piece:
            break
        said += piece
    return said


def slow_log_case(program):
    """A log that comes a round at a time: one worker writes the lines of each round before it waits for the next."""
    words = [b'verify', b'--chains=c', b'--anchors=a', b'--table=t', b'--answers=w']
    rounds = [b''.join(b'%d refused 400 1 0.0\n' % number for number in range(first, first + ROUND)) for first in range(1, 3 * ROUND, ROUND)]
    with tempfile.TemporaryDirectory() as folder:
        for name in 'catw':
            pathlib.Path(folder, name).write_bytes(b'')
        with subprocess.Popen([program, *words], stdin=subprocess.PIPE, stdout=subprocess.PIPE, stderr=subprocess.PIPE, cwd=folder) as started:
            said = []
            for lines in rounds:
                started.stdin.write(b'@1 0\n' * ROUND)
                started.stdin.flush()
                said.append(read_until(started.stdout, len(lines)))
            rest, errors = started.communicate(timeout=60)
    return (1, rounds, b'', b''), (started.returncode, said, rest, errors)


def winners_told(report, tickets):
    """A report of calls that break no rule, in which no winner is named: how often each ticket is valid, whether that is in the first round, and
    how many calls are replays of the valid one. Which call of a ticket wins is nobody's promise with several workers."""
    lines = [line.split() for line in report.decode().splitlines()]
    said = [len(lines) == len(tickets) and all(words[0] == str(number) for number, words in enumerate(lines, 1))]
    for ticket in sorted(set(tickets)):
        own = [words for words, one in zip(lines, tickets) if one == ticket]
        valid = [words[0] for words in own if words[1:] == ['valid', '-', '-', '-']]
        said.append((len(valid), [int(number) <= ROUND for number in valid], sum(words[1:] == ['replay', '438', '18', *valid] for words in own)))
    return said


ROUND = 256


def worker_case(workers, program):
    """Calls of two tickets by turns, over six rounds, judged by this number of workers: one of each ticket is valid, in the first round."""
    file = Rows()
    file.named('NAMED IN verify.rows')
    tickets = [number % 2 for number in range(5 * ROUND + 10)]
    log = file.log([piece for ticket in tickets for piece in ('@1443208345', '$OTHER_CALL' if ticket else '$CALL')])
    half = len(tickets) // 2 - 1
    words = file.line_of_words(['verify', '+FILES', f'--workers={workers}'])
    status, report, errors = run(program, words, log, file.files)
    return (1, [True, (1, [True], half), (1, [True], half)], b''), (status, winners_told(report, tickets), errors)


MOST_BYTES_OF_A_STATE = 536_870_912


def large_state_case(more, status, said, program):
    """A file that begins with a state, of as many bytes as a state file may have and of so many more. What comes after the state isn't read."""
    file = Rows()
    file.named('NAMED IN state.rows')
    words = file.line_of_words(['verify', '+FILES', '--state=first'])
    got = run(program, words, file.log(['@1443208346', '$CALL']), file.files, sizes=[('first', MOST_BYTES_OF_A_STATE + more)])
    return (status, file.text(said), b''), got


TICKET_LISTS = 60


def ticket_case(number, program):
    """A list of tickets: with one worker exactly what the model says, and with several whatever a rule allows."""
    size, drawn = tickets.drawn(number)
    workers = 1 + number % 8
    words = [b'once', b'--size=%d' % size, b'--workers=%d' % workers]
    status, report, errors = run(program, words, ''.join(f'{ticket}\n' for ticket in drawn).encode(), {})
    wanted = tickets.claims(size, drawn)
    said = [line.partition(' ')[2] for line in report.decode().splitlines()]
    if workers > 1 and report == tickets.report(said) and tickets.may_say(size, drawn, said):
        wanted = said
    return (int(any(text != 'won' for text in wanted)), tickets.report(wanted), b''), (status, report, errors)


def cases():
    """Each case: its name, and a function of the program to what is wanted and what came."""
    yield from folders()
    for path in sorted(HERE.glob('*.rows')):
        yield from rows(path)
    for number, (words, status, output) in enumerate(program_cases(), 1):
        yield f'words.py:{number} {words}', functools.partial(word_case, words, status, output)
    yield 'long log', long_log_case
    yield 'slow log', slow_log_case
    for workers in range(1, 9):
        yield f'{workers} workers', functools.partial(worker_case, workers)
    yield 'state of the most bytes', functools.partial(large_state_case, 0, 1, ['$REPLAY', '$SECOND_STATE'])
    yield 'state of a byte more', functools.partial(large_state_case, 1, 5, [r'long\sfirst\n'])
    for number in range(TICKET_LISTS):
        yield f'tickets {number}', functools.partial(ticket_case, number)
