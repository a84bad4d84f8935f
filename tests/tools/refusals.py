"""Whether tools/stir-words finds a reason for just those words that the program refuses, by the words of crates/vectors; and what the script
`./stir` says of them, from the folder of the tree and from another; and what it answers itself."""
import importlib.util
import os
import pathlib
import shutil
import subprocess
import sys
import tempfile

TOP = pathlib.Path(__file__).resolve().parent.parent.parent
sys.path.append(str(TOP / 'crates/vectors/generators'))
import words  # noqa: E402

# Words, and what is said of them; None where they aren't refused.
SAID = {
    'Verify': '\'Verify\' is no command: the first word is verify, explain, ask, sign, divert, retarget, show, drill, once',
    'show x': '\'x\' is no option: an option is --NAME=VALUE, or --NAME and a value',
    'show': None,
    'ask --chains=c --anchors=a': '--table is missing: it is the name of a file',
    'ask --chain=c --anchors=a --table=t': '--chain is no option of ask; --chains is one',
    'ask --chains=c --anchors=a --table=t --answers=w': '--answers is no option of ask; it is one of verify, explain, sign, divert, retarget',
    'ask --chains=c --chains d': '--chains stands twice',
    'ask --chains -c --anchors=a --table=t': '--chains has no value: -c begins with -; --chains=-c hands it on',
    'ask --chains=c --anchors=a --table=': '--table has no value: it is the name of a file',
    'verify --chains=c --anchors=a --table=t --answers=w --past=060':
        '--past is \'060\', and must be how many seconds old a PASSporT may be, at most 86400',
    'verify --chains=c --anchors=a --table=t --answers=w --window=60': '--window is no option of verify; --past and --future are in its place',
    'verify --chains=c --anchors=a --table=t --answers=w --country=44 --national=14':
        '--country and --national have more than 15 digits together; --national is 10 where it isn\'t given',
    'sign --key=k --x5u=u --iat=0 --form=base --answers=w --leaf=l': '--leaf and --table stand both or neither',
    'sign --key=k --x5u=u --iat=0 --form=shaken --answers=w --attest=A': '--origid stands with --form shaken, and with it alone',
    'drill --seed=0': '--count is missing: it is how many calls are made, at most 100000',
    'drill --seed=0 --count=100001': '--count is \'100001\', and must be how many calls are made, at most 100000',
    'divert --key=k --x5u=u --iat=x --earlier=1 --answers=w': '--iat is \'x\', and must be a second of Unix time, at most 253402300799',
}


# What is said after that, from the folder of the tree.
PAGES = 'stir: man -l man/stir.1 shows the commands, and README.md what they are for\n'


def table():
    """The table of words, which is loaded by its file: the names of the folders' modules clash."""
    spec = importlib.util.spec_from_file_location('command_words', TOP / 'tools' / 'command_words.py')
    module = importlib.util.module_from_spec(spec)
    spec.loader.exec_module(module)
    return module


def started(program, room):
    """The script in a tree of its own, with this program as the proved one."""
    (room / 'tools').mkdir()
    (room / 'crates/stir/out').mkdir(parents=True)
    (room / 'docs').mkdir()
    (room / 'crates.txt').write_text('')
    for name in ('stir', 'VERSION', 'docs/COMMANDS.md', 'tools/stir-words', 'tools/command_words.py'):
        shutil.copy(TOP / name, room / name)
    file = room / 'crates/stir/out/stir'
    file.write_text(f'#!/bin/sh\nexec "{program}" "$@"\n')
    file.chmod(0o755)
    for name in ('crates.txt', 'crates', 'crates/stir'):
        os.utime(room / name, (0, 0))
    return room / 'stir'


def answer(script, given, folder):
    """Status, standard output and standard error of the script with these words, started in this folder."""
    done = subprocess.run([script, *given], stdin=subprocess.DEVNULL, stdout=subprocess.PIPE, stderr=subprocess.PIPE, cwd=folder, text=True)
    return done.returncode, done.stdout, done.stderr


def by_itself(script, folder):
    """The words that the script answers itself: how the program is called, and its version. In the last case its program would end with 70."""
    synopsis = (TOP / 'docs/COMMANDS.md').read_text().split('## Synopsis\n\n```\n')[1].split('```\n')[0]
    pages = PAGES.removeprefix('stir: ')
    for given in ('--help', '-h', 'help'):
        yield f'stir {given}', (0, synopsis + pages, ''), answer(script, [given], folder)
    yield 'stir', (2, 'words refused\n', synopsis + pages), answer(script, [], folder)
    yield 'stir --version', (0, f'stir {(TOP / "VERSION").read_text()}', ''), answer(script, ['--version'], folder)
    from_root = pages.replace('man/', f'{folder}/man/').replace('README', f'{folder}/README')
    yield 'stir --help, from another folder', (0, synopsis + from_root, ''), answer(script, ['--help'], os.path.join(folder, 'crates'))
    (pathlib.Path(folder) / 'crates.txt').touch()
    yield 'stir --help without a program', (0, synopsis + pages, ''), answer(script, ['--help'], folder)


def results(program):
    """Each case: its name, what is wanted, and what came."""
    why = table().why_refused
    wrong = [given for given, status, _ in words.program_cases() if (status == 2) != (why(given) is not None)]
    yield 'stir-words and the words of crates/vectors', [], wrong
    with tempfile.TemporaryDirectory() as folder:
        script = started(program, pathlib.Path(folder))
        for given, said in SAID.items():
            wanted = (0, '', '') if said is None else (2, 'words refused\n', f'stir: {said}\n{PAGES}')
            yield f'stir {given}', wanted, answer(script, given.split(), folder)
        inner = os.path.join(folder, 'crates')
        elsewhere = PAGES.replace('man/', '../man/').replace('README', '../README')
        yield 'stir, from another folder', (2, 'words refused\n', f'stir: {SAID["Verify"]}\n{elsewhere}'), answer(script, ['Verify'], inner)
        yield from by_itself(script, folder)
