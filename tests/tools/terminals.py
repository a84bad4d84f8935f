"""Whether long work shows how far it is on a terminal, and nothing of that where standard error is no terminal."""
import os
import pty
import re
import select
import subprocess
import sys
import tempfile

# How a bar looks; and how it is taken away.
BAR = r'\rstir-%s: \[[# ]{30}\] \d+%%\x1b\[K'
GONE = '\r\x1b[K'


def on_terminal(words, given, folder, env=None):
    """The status of a program, and what it writes to a terminal that is its standard error."""
    ours, theirs = pty.openpty()
    running = subprocess.Popen(words, stdin=subprocess.PIPE, stdout=subprocess.DEVNULL, stderr=theirs, cwd=folder, env=env)
    os.close(theirs)
    running.stdin.write(given)
    running.stdin.close()
    said = b''
    while select.select([ours], [], [], 60)[0]:
        try:
            said += os.read(ours, 65536)
        except OSError:
            break
    status = running.wait()
    os.close(ours)
    return status, said.decode()


def results(tools, files):
    """Each case: its name, what is wanted, and what came. That nothing is written to a pipe is shown by the cases of `cases`."""
    with tempfile.TemporaryDirectory() as folder:
        for name in ('run-udp.pcap', 'run.log'):
            with open(os.path.join(folder, name), 'wb') as file:
                file.write(files[name])
        for words, given, said in ((['stir-log', 'run-udp.pcap'], b'', 'stir-log: calls 5\n'), (['stir-log', '--x5u', 'run.log'], b'', '')):
            got = on_terminal([sys.executable, str(tools / words[0]), *words[1:]], given, folder)[1].replace('\r\n', '\n')
            bars = BAR % words[0].removeprefix('stir-')
            yield f'{" ".join(words)} on a terminal', (True, said), (bool(re.match(bars, got)) and GONE in got, re.sub(bars, '', got).replace(GONE, ''))
