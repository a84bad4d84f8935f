"""The Python package without the library that is built into it: what `import stir` says."""
import pathlib
import shutil
import subprocess
import sys
import tempfile

PACKAGE = pathlib.Path(__file__).resolve().parent.parent.parent / 'python' / 'stir'


def results():
    """Each case: its name, what is wanted, and what came."""
    yield from without_library()


def without_library():
    """One error, whose sentence says what is missing and how it is built."""
    with tempfile.TemporaryDirectory() as folder:
        room = pathlib.Path(folder)
        shutil.copytree(PACKAGE, room / 'stir', ignore=shutil.ignore_patterns('*.so', '__pycache__'))
        library = room / 'stir' / 'libstir.so'
        missing = f'{library} is missing: `pip install ./python` builds it, after `rt lib` in crates/stir_c (python/README.md, Install)'
        yield 'import stir, no library', (1, 1, f'stir.errors.LibraryError: {missing}'), imported(room)
        library.write_bytes(b'nothing')
        status, tracebacks, last = imported(room)
        yield 'import stir, another file', (1, 1, True), (status, tracebacks, f'LibraryError: {library} isn\'t the library of this package: ' in last)


def imported(room):
    """The status of an import, how many tracebacks it writes, and the last line."""
    done = subprocess.run([sys.executable, '-c', 'import stir'], cwd=room, stdout=subprocess.PIPE, stderr=subprocess.PIPE, check=False, text=True)
    return done.returncode, done.stderr.count('Traceback'), done.stderr.splitlines()[-1]
