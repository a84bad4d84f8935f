"""What the tools around the program share: their words, files and errors."""
import argparse
import os
import pathlib
import shutil
import sys
import tempfile

TOP = pathlib.Path(__file__).resolve().parent.parent


class Fault(Exception):
    """What is wrong with the words or the input, in one line."""


class Words(argparse.ArgumentParser):
    """The words of a tool, described by its own text; bad ones are a fault of one line."""

    def __init__(self, text):
        if not (TOP / 'crates.txt').exists():
            # Where the tools are installed they and the program are called by their names.
            text = text.replace('tools/stir-', 'stir-').replace('./stir ', 'stir ')
        super().__init__(description=text, formatter_class=argparse.RawDescriptionHelpFormatter, allow_abbrev=False)

    def error(self, message):
        raise Fault(f'{message}; --help tells the words')


def run(main):
    """Runs a tool and ends with its status: with 2, and one line on standard error, for bad words and bad input."""
    try:
        status = main() or 0
        sys.stdout.flush()
    except Fault as fault:
        status = complain(fault)
    except BrokenPipeError:
        # Who reads the output has read enough. The interpreter flushes it once more at its end, which must not fail.
        os.dup2(os.open(os.devnull, os.O_WRONLY), 1)
        status = 2
    except OSError as error:
        status = complain(f'{error.filename}: {error.strerror}' if error.filename else error.strerror)
    sys.exit(status)


def tool():
    """The name of the tool that runs."""
    return pathlib.Path(sys.argv[0]).name


bar_is_drawn = False


def draw_bar(bar):
    """Writes a bar over the one that stands on the terminal's last line."""
    global bar_is_drawn
    bar_is_drawn = True
    print(f'\r{tool()}: {bar}\x1b[K', end='', file=sys.stderr, flush=True)


def take_bar_away():
    """Takes the bar away, so that what is said next begins its line."""
    global bar_is_drawn
    if bar_is_drawn:
        print('\r\x1b[K', end='', file=sys.stderr, flush=True)
    bar_is_drawn = False


def say(text):
    take_bar_away()
    print(f'{tool()}: {text}', file=sys.stderr, flush=True)


def complain(text):
    say(text)
    return 2


def files(names):
    """Each named file, or the standard input where none is named, with its name and a path by which it can be opened more than once. What
    comes by a pipe is kept in a temporary file while it is read."""
    for name in names:
        if os.path.isfile(name) or not os.path.exists(name):
            yield name, name
        else:
            with open(name, 'rb') as stream:
                yield from kept(name, stream)
    if not names:
        yield from kept('input', sys.stdin.buffer)


def kept(name, stream):
    with tempfile.NamedTemporaryFile() as copy:
        shutil.copyfileobj(stream, copy, 1 << 20)
        copy.flush()
        yield name, copy.name
