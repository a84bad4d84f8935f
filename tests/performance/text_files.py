#!/usr/bin/env python3
"""Counts what reading large text files takes: instructions, by valgrind, and memory.

For each kind of file a small program over the crate that reads it is built beside copies of the crates below it, in a folder
of its own, and reads files of up to as many lines as the program takes; a state is written back besides, and has to come out the same. Doubling the
lines must not take more than 2.5 times the instructions.

    tests/performance/text_files.py         all kinds
    tests/performance/text_files.py state   one of them, by its first word

It needs `rt` and `valgrind`, and takes some minutes where the crates aren't proved yet.
"""

import hashlib
import re
import shutil
import subprocess
import sys
import tempfile
from pathlib import Path

TOP = Path(__file__).resolve().parents[2]
MOST = 2.5
CODES = 20_000

PROGRAM = """\
//! Reads the file `lines`.
#![tactic(auto)]

use CRATE::READER;
use std::{fs, io};

fn main(rt: HostRuntime) -> io::Result<()> {
    let text = fs::read(&rt, "lines")?;
    if text.len() >= 4_000_000_000 {
        return println!(rt; "too long");
    }
    match READER::read(rt.alloc(), text.as_slice()) {
        Ok(_) => println!(rt; "ok"),
        Err(fault) => println!(rt; "{fault:?}"),
    }
}
"""


STATE = """\
//! Reads the state `lines`, and writes it back.
#![tactic(auto)]

use state_text::State;
use std::{fs, io};

fn main(rt: HostRuntime) -> io::Result<()> {
    let text = fs::read(&rt, "lines")?;
    if text.len() >= 4_000_000_000 {
        return println!(rt; "too long");
    }
    match State::read(rt.alloc(), text.as_slice(), 60) {
        Ok(state) => write_back(&rt, &state, text.as_slice()),
        Err(fault) => println!(rt; "{fault}"),
    }
}

/// Says `ok` if the state is written as it was read.
fn write_back(rt: &HostRuntime, state: &State, text: &[u8]) -> io::Result<()> {
    match state.write(rt.alloc()) {
        Ok(again) if again.as_slice() == text => println!(rt; "ok"),
        Ok(_) => println!(rt; "another text"),
        Err(_) => println!(rt; "memory ran out"),
    }
}
"""


def state(lines):
    """A state with an entry a line."""
    tickets = sorted(hashlib.sha256(str(line).encode()).hexdigest() for line in range(lines))
    entries = "".join(f"kept {ticket} {line + 1} {1443208405 + line % 60}\n" for line, ticket in enumerate(tickets))
    return f"past 1\nwindow 60\ncall {lines}\nmoment 1443208345\n{entries}end {lines}\n"


def code_table(lines):
    """A code table whose codes come round again and again, each time with another range."""
    return "".join(f"{line * 7919 % CODES}X {12_000_000_000 + 100 * line} 100\n" for line in range(lines))


def answers(lines):
    """An answers file of confirmed triples, no two of them alike."""
    return "".join(f"confirm 04{line:0128x} {line * 7919:064x} {line * 104729:0128x}\n" for line in range(lines))


def chain_map(lines):
    """A chain map that lists each x5u once."""
    return "".join(f"https://cert.example.org/{line * 7919:012}.cer {line}.der\n" for line in range(lines))


def program(reader, crates):
    """The program that reads a file by this reader."""
    return PROGRAM.replace("CRATE", crates[0]).replace("READER", reader)


TEXTS = ["text_grammar", "lists"]
ANSWERS = ["stir_outside", "short_text"] + TEXTS
TABLE = ["tn_auth_list", "tn_values", "der_reader", "short_text"] + TEXTS
CHAINS = ["cert_store", "stir_outside", "delegation", "x509_profile"] + TABLE

# the kind of file, the program that reads it, the crate that this calls and those below it, what makes such a file, and of how many lines
SUBJECTS = [
    ("code table", program("CodeTable", TABLE), TABLE, code_table, [50_000, 100_000, 200_000]),
    ("answers file", program("Answers", ANSWERS), ANSWERS, answers, [50_000, 100_000, 200_000]),
    ("chain map", program("ChainMap", CHAINS), CHAINS, chain_map, [12_500, 25_000, 50_000]),
    ("state", STATE, ["state_text", "text_grammar", "lists"], state, [250_000, 500_000, 1_000_000]),
]


def build(folder, source, crates):
    """This program, built in this folder."""
    (folder / "crates").mkdir()
    for crate in crates:
        shutil.copytree(TOP / "crates" / crate, folder / "crates" / crate)
    listed = [line for line in (TOP / "crates.txt").read_text().splitlines() if line.split(":")[0] in crates]
    (folder / "crates.txt").write_text("\n".join(listed + [f"read_file: {crates[0]}"]) + "\n")
    shutil.copy(TOP / "HANDLES", folder)
    crate = folder / "crates" / "read_file"
    (crate / "src").mkdir(parents=True)
    (crate / "data").mkdir()
    (crate / "src" / "main.rt").write_text(source)
    (crate / "data" / "lines").write_text("")
    run = subprocess.run(["rt", "run"], cwd=crate, capture_output=True, text=True)
    program = crate / "out" / "read_file"
    if not program.exists():
        sys.exit(run.stdout[-2000:] + run.stderr[-2000:])
    return program


def ran(words, folder):
    """What running these words in the folder gives; the program in them must have read its file."""
    run = subprocess.run(words, cwd=folder, capture_output=True, text=True)
    if run.stdout != "ok\n":
        sys.exit(f"{run.stdout}{run.stderr[-2000:]}")
    return run


def instructions(program, folder):
    words = ["valgrind", "--tool=callgrind", "--callgrind-out-file=/dev/null", str(program)]
    return int(re.search(r"Collected : (\d+)", ran(words, folder).stderr).group(1))


# says what a program says, and the most kilobytes that it held; that count begins with what the process held that starts it, so this is a small one
HELD = "import os, sys; child = os.posix_spawn(sys.argv[1], sys.argv[1:], {}); print(os.wait4(child, 0)[2].ru_maxrss)"


def memory(program, folder):
    """The most bytes of memory that the program held while it ran."""
    run = subprocess.run([sys.executable, "-c", HELD, str(program)], cwd=folder, capture_output=True, text=True)
    said, held = run.stdout.split()
    if said != "ok":
        sys.exit(f"{run.stdout}{run.stderr[-2000:]}")
    return int(held) * 1024


def measure(kind, source, crates, make, sizes):
    with tempfile.TemporaryDirectory() as name:
        folder = Path(name)
        program = build(folder, source, crates)
        counts = []
        for lines in sizes:
            text = make(lines)
            (folder / "lines").write_text(text)
            counts.append(instructions(program, folder))
            held = memory(program, folder)
            print(
                f"{kind}, {lines} lines of {len(text) // lines} bytes: {counts[-1]} instructions, {counts[-1] // lines} a line; "
                f"{held} bytes of memory, {held // lines} a line"
            )
    if any(after > MOST * before for before, after in zip(counts, counts[1:])):
        sys.exit("twice the lines took more than 2.5 times the instructions")


def main():
    for subject in SUBJECTS:
        if sys.argv[1:] in ([], [subject[0].split()[0]]):
            measure(*subject)


if __name__ == "__main__":
    main()
