"""The lines of `cases`, with the files that they name. test_tools.py runs them.

`cases` tells its lines. The files of a case are those that captures.py and streams.py make.
"""
import os
import pathlib
import subprocess
import sys
import tempfile

import captures
import streams

HERE = pathlib.Path(__file__).resolve().parent
TOOLS = HERE.parent.parent / 'tools'

FILES = captures.FILES | streams.FILES | {'-': b''}
MARKS = ('-tshark', '+tshark')


def in_folder():
    """A folder of its own with the files of a case."""
    room = tempfile.TemporaryDirectory()
    for name, data in FILES.items():
        file = pathlib.Path(room.name, name)
        file.parent.mkdir(exist_ok=True)
        file.write_bytes(data)
    return room


def tool(words, given, folder, environment=None):
    done = subprocess.run([sys.executable, TOOLS / words[0], *words[1:]], input=given, stdout=subprocess.PIPE, stderr=subprocess.PIPE,
                          cwd=folder, timeout=600, env=environment)
    return done.returncode, done.stdout, done.stderr.decode()


def case(line):
    given, wanted = line.split(' => ')
    words, data = given.split(' < ')
    status, output, *error = wanted.split(' ', 2)
    words = words.split()
    without, words = words[0] == '-tshark', words[words[0] in MARKS:]
    with in_folder() as folder:
        room = pathlib.Path(folder)
        got = tool(words, (room / data).read_bytes(), room, os.environ | {'PATH': '/nowhere'} if without else None)
        return (int(status), (room / output).read_bytes(), ''.join(f'{said}\n' for said in error[0].split(' // ')) if error else ''), got


def lines():
    """Each line of `cases`, with its number."""
    for number, line in enumerate((HERE / 'cases').read_text().splitlines(), 1):
        if line and not line.startswith(';'):
            yield number, line
