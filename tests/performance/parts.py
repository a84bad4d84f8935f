#!/usr/bin/env python3
"""Where the instructions of a call go, by subject.

    tests/performance/parts.py PROGRAM FOLDER [COUNT [names]]

FOLDER has a log with its files, as tests/performance/logs.py makes them: log, chains.txt, anchors.der, table.txt, answers.txt. valgrind's callgrind counts the
first COUNT calls (2,000) on one worker, and takes off what an empty log takes. Each function's own cost is added to the first subject that its name fits. The
sum is all of them; with `names` the 60 dearest functions follow. Needs valgrind and a PROGRAM with the names of its functions, as the gate leaves it.
"""
import collections
import os
import re
import subprocess
import sys
import tempfile
from pathlib import Path

SUBJECTS = (
    ("SHA-256", r"sha2"),
    ("a token's parts out of base64url", r"base64"),
    ("header and payload as JSON", r"json::|serde_json|checked_json|btree|lodged"),
    ("memory taken and given back", r"malloc|free|realloc|rattle_(alloc|dealloc)|unlink_chunk|brk|grow_amortized"),
    ("bytes copied, cleared and compared", r"__mem|bcmp|groups_equal"),
    ("a byte found", r"split::cut|contains"),
    ("the log read, the report", r"call_log|log_run|log_rounds|report|fmt"),
    ("the message and its numbers", r"sip_message|numbers::Number|identity_header|short_text|text_grammar|address"),
    ("tokens, claims, the rules of the call", r"early|passports|readings|passport_json|passport_claims|uuid"),
    ("the rules of the chains", r"verify_rules|delegation::coverage|tn_values|claim_constraints|table::CodeTable"),
    ("certificates read, chains judged and held", r"x509_profile|der_reader|tn_auth_list|delegation|cert_store|lru"),
    ("rounds, the desk, the past, answers", r"verify_service|replay_desk|stir_outside|thread"),
)


def counts(program, folder, log):
    """The own instructions of each function of a run."""
    with tempfile.TemporaryDirectory() as room:
        out = Path(room) / "callgrind"
        # The C library clears a large buffer by one instruction, of which callgrind would count each byte.
        environment = dict(os.environ, GLIBC_TUNABLES="glibc.cpu.x86_rep_stosb_threshold=1000000000")
        words = [program, "verify", "--chains", "chains.txt", "--anchors", "anchors.der", "--table", "table.txt", "--answers", "answers.txt"]
        subprocess.run(["valgrind", "--tool=callgrind", f"--callgrind-out-file={out}", *words], cwd=folder, input=log, env=environment,
                       stdout=subprocess.DEVNULL, stderr=subprocess.DEVNULL, check=False)
        return own(out.read_text())


def own(text):
    """The own cost of each function in what callgrind writes: the lines of a function but those of its calls."""
    found, names, function, called = collections.Counter(), {}, None, False
    for line in text.splitlines():
        if line.startswith("fn="):
            number, _, name = line[3:].partition(" ")
            names.setdefault(number, name or number)
            function = names[number]
        elif line.startswith("cfn="):
            number, _, name = line[4:].partition(" ")
            names.setdefault(number, name or number)
        elif line.startswith("calls="):
            called = True
        elif line and (line[0].isdigit() or line[0] in "+-*"):
            if not called:
                found[function] += int(line.split()[1])
            called = False
    return found


def first_calls(log, count):
    at = 0
    for _ in range(count):
        end = log.index(b"\n", at)
        at = end + 1 + int(log[at:end].split()[1])
    return log[:at]


def main():
    program, folder = Path(sys.argv[1]).resolve(), Path(sys.argv[2])
    count = int(sys.argv[3]) if len(sys.argv) > 3 else 2000
    costs = counts(program, folder, first_calls((folder / "log").read_bytes(), count))
    costs.subtract(counts(program, folder, b""))
    parts = collections.Counter()
    for function, cost in costs.items():
        parts[next((subject for subject, names in SUBJECTS if re.search(names, function)), "all else")] += cost
    for subject in [*(subject for subject, _ in SUBJECTS), "all else"]:
        print(f"{parts[subject] / count:10.0f}  {subject}")
    print(f"{sum(costs.values()) / count:10.0f}  all")
    if len(sys.argv) > 4:
        for function, cost in costs.most_common(60):
            print(f"{cost / count:10.0f}  {function}")


if __name__ == "__main__":
    main()
