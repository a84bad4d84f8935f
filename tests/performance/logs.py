#!/usr/bin/env python3
"""Counts what judging a log takes: instructions a call, by valgrind, and memory.

    tests/performance/logs.py PROGRAM [COUNT]

The log has COUNT calls (20,000), sixteen a second, of one chain: of eight calls three are valid, and one each is the call before once more,
has no Identity field, is stale, has a signature that isn't confirmed, or a caller outside the leaf's numbers. The report must be the expected
one. Instructions are counted on a tenth of the log, those for the files alone taken off. Needs the built program, `valgrind` and `time`.
"""

import os
import re
import subprocess
import sys
import tempfile
from pathlib import Path

sys.path.append(str(Path(__file__).resolve().parents[2] / "crates/vectors/generators"))
import calls
from certificates import certificate

START = 1443208345
LEAF = certificate("D", "I", 4, "", "12155550000+10000")
FILES = ("chains", "anchors", "table", "answers")


def draws(state=0):
    """Numbers of 31 bits, by a linear congruence modulo 2^64."""
    while True:
        state = (state * 6364136223846793005 + 1442695040888963407) % 2**64
        yield state >> 33


def message(number, field):
    """An INVITE from this number with this Identity field, or with none."""
    return (
        "INVITE sip:+12125551213@example.net SIP/2.0\r\nVia: SIP/2.0/UDP host.example.org;branch=z9hG4bK1\r\nMax-Forwards: 70\r\n"
        f"From: <sip:+{number}@example.org>;tag=1\r\nTo: <sip:+12125551213@example.net>\r\nCall-ID: 1@example.org\r\nCSeq: 1 INVITE\r\n"
        f"{field}Content-Length: 0\r\n\r\n"
    ).encode()


def signing_input(number, iat, index):
    claims = {"attest": "A", "dest": {"tn": ["12125551213"]}, "iat": iat, "orig": {"tn": number}, "origid": f"00000000-0000-4000-8000-{index:012x}"}
    return calls.base64url(calls.header("shaken", "drill")) + "." + calls.base64url(calls.sorted_json(claims))


def drill(count):
    """Each call: its entry, its answer or none, and its line."""
    numbers = draws()
    text = said = first = None
    for index in range(1, count + 1):
        kind, caller = next(numbers) % 8, next(numbers) % 10_000
        moment, answer = START + index // 16, ""
        if kind == 0 and index > 1:
            said = f"replay 438 18 {first}" if said == "valid - - -" else said
        else:
            number = f"{1216555 if kind == 4 else 1215555}{caller:04d}"
            signed = signing_input(number, moment - 61 if kind == 2 else moment, index)
            signature = index.to_bytes(8, "big") + bytes(56)
            field = f'Identity: {signed}.{calls.base64url(signature)};info=<{calls.X5U % "drill"}>;alg=ES256;ppt="shaken"\r\n'
            text = message(number, "" if kind == 1 else field)
            answer = "" if kind in (1, 3) else calls.answer(4, signed.encode(), signature.hex())
            said = {1: "refused 428 2 0.0", 2: "refused 403 9 1.0", 3: "refused 438 16 1.0", 4: "refused 437 17 1.0"}.get(kind, "valid - - -")
            first = index
        yield b"@%d %d\n" % (moment, len(text)) + text, answer, f"{index} {said}\n"


def write_files(folder, answers):
    inner = calls.WORLD["INT"]
    (folder / "chains").write_text(f"{calls.X5U % 'drill'} drill.der\n")
    (folder / "drill.der").write_bytes(LEAF + inner)
    (folder / "anchors").write_bytes(calls.WORLD["ROOT"])
    (folder / "table").write_bytes(b"")
    leaf = calls.answer(2, calls.signed_part(LEAF), 2 * calls.scalar(4))
    (folder / "answers").write_text(leaf + calls.certificate_answer("INT") + "".join(answers))


# Has the C library clear buffers without the instruction of which callgrind counts each byte.
PLAIN = {**os.environ, "GLIBC_TUNABLES": "glibc.cpu.x86_rep_stosb_threshold=1000000000"}


def ran(words, folder, log, report):
    """What was said on standard error by a run over the log, which must write the report."""
    run = subprocess.run(words, cwd=folder, input=log, capture_output=True, env=PLAIN)
    if run.returncode not in (0, 1) or run.stdout.decode() != report:
        sys.exit("the report isn't the expected one")
    return run.stderr.decode()


def instructions(words, folder, log, report):
    said = ran(["valgrind", "--tool=callgrind", "--callgrind-out-file=/dev/null", *words], folder, log, report)
    return int(re.search(r"Collected : (\d+)", said).group(1))


def memory(words, folder, log, report):
    """The most kilobytes of memory that the program held."""
    return int(ran(["/usr/bin/time", "-f", "%M", *words], folder, log, report).split()[-1])


def main():
    program, count = os.path.abspath(sys.argv[1]), int((sys.argv[2:] or [20_000])[0])
    entries, answers, lines = zip(*drill(count))
    words = [program, "verify", *(f"--{name}={name}" for name in FILES)]
    with tempfile.TemporaryDirectory() as name:
        folder = Path(name)
        write_files(folder, answers)
        whole, files = memory(words, folder, b"".join(entries), "".join(lines)), memory(words, folder, b"", "")
        tenth = count // 10
        taken = instructions(words, folder, b"".join(entries[:tenth]), "".join(lines[:tenth])) - instructions(words, folder, b"", "")
    print(f"{count} calls: {taken // tenth} instructions a call, {whole} kB; {files} kB for the files alone")


if __name__ == "__main__":
    main()
