#!/usr/bin/env python3
"""Checks the Python of the tree: each file compiles without a warning, and pyflakes3 says nothing of it.

    tests/sources.py [FOLDER..]

Without a folder these are tools, dev, tests, python and examples. A file is Python if its name ends with .py, or if its first line starts a Python. If
pyflakes3 is missing that is said, and the files are compiled alone.
"""
import pathlib
import shutil
import subprocess
import sys
import warnings

TOP = pathlib.Path(__file__).resolve().parents[1]
FOLDERS = ("tools", "dev", "tests", "python", "examples")


def is_python(path):
    if path.suffix == ".py":
        return True
    if path.suffix or not path.is_file():
        return False
    with path.open("rb") as file:
        first = file.readline(100)
    return first.startswith(b"#!") and b"python" in first


def sources(folders):
    """The files of Python in these folders, but for what was built."""
    for folder in folders:
        for path in sorted(folder.rglob("*")):
            parts = path.relative_to(folder).parts
            if not {"__pycache__", "build"} & set(parts) and is_python(path):
                yield path


def faults_of(path):
    """What the compiler says of a file."""
    with warnings.catch_warnings():
        warnings.simplefilter("error")
        try:
            compile(path.read_bytes(), str(path), "exec", dont_inherit=True)
        except (SyntaxError, SyntaxWarning, DeprecationWarning, ValueError) as fault:
            return [f"{path}: {fault}"]
    return []


def main():
    folders = [pathlib.Path(word) for word in sys.argv[1:]] or [TOP / folder for folder in FOLDERS]
    files = list(sources(folders))
    faults = [fault for path in files for fault in faults_of(path)]
    looked = "compiled"
    if shutil.which("pyflakes3"):
        done = subprocess.run(["pyflakes3", *files], capture_output=True, text=True, check=False)
        faults += (done.stdout + done.stderr).splitlines()
        looked = "compiled and looked at by pyflakes3"
    else:
        print("tests/sources.py: pyflakes3 is missing, so the Python is only compiled")
    if faults or not files:
        sys.exit("\n".join([*faults, f"tests/sources.py: {len(faults)} faults in {len(files)} files"]))
    print(f"tests/sources.py: {len(files)} files of Python, {looked}")


if __name__ == "__main__":
    main()
