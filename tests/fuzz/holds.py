"""What must hold of what a run wrote, whatever it was given: docs/FORMATS.md."""
import os
import pathlib
import re
import sys

from given import entries, option

TESTS = pathlib.Path(__file__).resolve().parent.parent
sys.path[:0] = [str(TESTS.parent / 'crates/vectors/generators'), str(TESTS)]
import states  # noqa: E402
import tickets  # noqa: E402
from rule_table import CODES  # noqa: E402

LAST = [*CODES][-1]
# The rule that is tried after each, and after the last of a call the first of the next one.
NEXT = dict(zip([LAST, *CODES], CODES))
PLACE = r'(?:0|[1-9]\d*)\.(?:0|[1-9]\d*)'
NAME = r'(?:.|\n)*'
FAULTS = {
    2: re.compile(r'words refused\n'),
    3: re.compile(rf'read fault {NAME}\n'),
    5: re.compile(rf'(?:missing {NAME}|long {NAME}|refused {NAME} \d+|no list {NAME})\n'),
    6: re.compile(r'want of memory\n'),
}
REPORT = re.compile(rf'(\d+) (?:(valid) - - -|refused (\d+) (\d+) {PLACE}|replay 438 18 (\d+)|unread - 10 {PLACE})\n')
EXPLAIN = re.compile(rf'(\d+) (\d+) (?:(ok)|(\d+) {PLACE}|unread {PLACE})\n')
ASK = re.compile(r'confirm 04[0-9a-f]{128} [0-9a-f]{64} [0-9a-f]{128}\n')
CERTIFICATE = re.compile(
    r'certificate (\d)\nnot-before -?\d+\nnot-after -?\d+\nca (?:yes|no)\npath-length (?:\d+|none)\nusage (?:[0-9a-f]{4}|none)\nkey 04[0-9a-f]{128}\n'
    r'authority (?:all\n|list\n(?:(?:code [!-~]{1,32}|range [0-9]{1,15} \d+|number [0-9*#]{1,15})\n){1,1000})(?:(?:required|permitted|constraints) [^\n]*\n)*')
DRILLED = re.compile(r'calls (\d+)\nvalid (\d+)\nreplay (\d+)\nrefused 403 (\d+)\nrefused 428 (\d+)\nrefused 437 (\d+)\nrefused 438 (\d+)\n')
SIGNED = re.compile(rb'Identity: [^\r\n]*\r\n')
STOPPED = re.compile(rf'refused (\d+) (\d+) {PLACE}\n|unread - 10 {PLACE}\n|hop fault 2[1-5]\n|no signature [^\n]* [0-9a-f]{{64}}\n')
STATE = re.compile(r'past 1\nwindow \d+\ncall \d+\nmoment \d+\n((?:kept [0-9a-f]{64} \d+ \d+\n)*)end \d+\n')
TICKET = re.compile(rb'[0-9A-Fa-f]{64}')
LONGEST_MESSAGE = 65_535


def whole_lines(text, form):
    """The matches of a form that follow one another from the start, and what is left."""
    found, at = [], 0
    while one := form.match(text, at):
        found.append(one)
        at = one.end()
    return found, text[at:]


def begun(words, files):
    """Where a log begins: the window, the last call, its moment and what was kept; or the line that is written of a state file that says nothing of this."""
    name, window = option(words, b'--state'), int(option(words, b'--past', '60'))
    if not name:
        return window, 0, 0, []
    if name not in files:
        return f'missing {name}\n'
    found = states.state(files[name], window)
    if isinstance(found, tuple) and found[0] == window:
        return found
    line = found if isinstance(found, int) else files[name].split(b'\n').index(b'past 1') + 2
    return f'refused {name} {line}\n'


def reported(text, begin):
    """How many calls have their line, which are valid, and what is left; or why they can't be a report."""
    found, rest = whole_lines(text, REPORT)
    valid = set()
    for number, one in enumerate(found, begin[1] + 1):
        if int(one[1]) != number:
            raise ValueError(f'line {number} has another number')
        if one[3] and CODES.get(int(one[4])) != int(one[3]):
            raise ValueError(f'line {number}: rule {one[4]} has another code')
        if one[2]:
            valid.add(number)
    passed = valid | {call for _, call, _ in begin[3]}
    for one in found:
        if one[5] and int(one[5]) not in passed:
            raise ValueError(f'call {one[1]} is a replay of a call that isn\'t valid')
    return len(found), valid, rest


def explained(text):
    """The same of what `explain` writes."""
    found, rest = whole_lines(text, EXPLAIN)
    call, rule, valid = 0, LAST, set()
    for one in found:
        if rule == LAST:
            call += 1
            valid.add(call)
        rule = NEXT[rule]
        if (int(one[1]), int(one[2])) != (call, rule):
            raise ValueError(f'{one[0]!r} isn\'t the line of call {call} and rule {rule}')
        if not one[3]:
            if one[4] and CODES[rule] != int(one[4]) or not one[4] and rule != 10:
                raise ValueError(f'{one[0]!r} has another code')
            rule = LAST
            valid.remove(call)
    if rule != LAST:
        raise ValueError(f'call {call} ends at rule {rule}')
    return call, valid, rest


def handed_on(text, begin, moments, valid):
    """What is left behind the state that is handed on after calls of these moments; or why it can't be their state."""
    found = STATE.match(text)
    if not found:
        raise ValueError(f'{text[:80]!r} in the place of a state')
    window, last, before, kept = begin
    now = moments[-1] if moments else before
    here = [(ticket, int(call), int(until)) for _, ticket, call, until in map(str.split, found[1].splitlines())]
    if found[0] != states.state_text(window, last + len(moments), now, here) or any(until < now for _, _, until in here):
        raise ValueError(f'{found[0][:200]!r} isn\'t the state after call {last + len(moments)}')
    if [one for one in here if one[1] <= last] != [one for one in kept if one[2] >= now]:
        raise ValueError('another past is handed on than was there')
    passed = [call for _, call, _ in here if call > last]
    fresh = {call for call, moment in enumerate(moments, last + 1) if moment == now and call in valid}
    if len(passed) > len(set(passed)) or not fresh <= set(passed) <= valid:
        raise ValueError(f'calls {passed} are handed on of the valid ones {sorted(valid)}')
    return text[found.end():]


def judged(status, text, words, log, files):
    """What is wrong with a run over a log, or None. A named file that is refused ends it before the log is read, and the state is the last of them."""
    begin, name = begun(words, files), option(words, b'--state')
    if status in (3, 5) and FAULTS[status].fullmatch(text) and not text.startswith('refused input '):
        return f'{text!r} of a state that begins at {begin!r}' if text.startswith(f'refused {name} ') and text != begin else None
    if isinstance(begin, str):
        return f'status {status} and {text[:80]!r} in the place of {begin!r}'
    calls, valid, rest = explained(text) if words[0] == b'explain' else reported(text, begin)
    found, fault = entries(log, begin[2])
    if name and calls == len(found):
        rest = handed_on(rest, begin, [moment for moment, _ in found], valid)
    ended = (int(len(valid) < calls), '') if fault is None else (5, f'refused input {fault}\n')
    if calls != len(found) or (status, rest) != ended:
        return f'status {status}, {calls} calls, then {rest[:80]!r}, of a log of {len(found)} that ends at {fault}'
    return None


def asked(status, text, log):
    found, rest = whole_lines(text, ASK)
    if len({one[0] for one in found}) < len(found):
        return 'a question twice'
    _, fault = entries(log)
    if status == 0:
        return f'{rest[:80]!r} of a log that ends at {fault}' if rest or fault is not None else None
    if status in FAULTS and FAULTS[status].fullmatch(rest):
        return f'{rest!r} of a log that ends at {fault}' if rest.startswith('refused input ') and rest != f'refused input {fault}\n' else None
    return f'status {status} and {rest[:80]!r}'


def unlike(said, message):
    """What is wrong with a message that is to have one more Identity field than this one, or None."""
    grown = any(said[:one.start()] + said[one.end():] == message for one in SIGNED.finditer(said))
    return None if grown and len(said) <= LONGEST_MESSAGE else 'the output isn\'t the message with one more Identity field'


def signed(status, said, message):
    if status == 0:
        return unlike(said, message)
    if status == 1:
        return None if re.fullmatch(rb'sign fault [123]\n|no signature [^\n]* [0-9a-f]{64}\n', said) else f'{said[:80]!r}'
    return None if status in FAULTS and FAULTS[status].fullmatch(said.decode()) else f'status {status} and {said[:80]!r}'


def sent_on(status, said, message, target):
    """The same of `retarget`: the message has another request URI too."""
    if status == 0:
        return unlike(said, re.sub(rb'^([^ ]* )[^ ]*', lambda found: found[1] + os.fsencode(target), message, count=1))
    if status == 1:
        found = STOPPED.fullmatch(said.decode())
        long = len(message) > LONGEST_MESSAGE and said != b'refused 400 1 0.65535\n'
        return f'{said[:80]!r}' if long or not found or found[1] and CODES.get(int(found[2])) != int(found[1]) else None
    return None if status in FAULTS and FAULTS[status].fullmatch(said.decode()) else f'status {status} and {said[:80]!r}'


def shown(status, text):
    found, rest = whole_lines(text, CERTIFICATE)
    if [int(one[1]) for one in found] != list(range(1, len(found) + 1)) or len(found) > 6:
        return 'certificates out of order'
    if status == 0:
        return f'{rest[:80]!r}' if rest else None
    return None if not found and status in FAULTS and FAULTS[status].fullmatch(rest) else f'status {status} and {rest[:80]!r}'


def drilled(status, text):
    """The drill reads no input: its seven lines, of which the first is the sum of the others."""
    found = DRILLED.fullmatch(text)
    counts = [int(count) for count in found.groups()] if found else []
    return None if status == 0 and found and counts[0] == sum(counts[1:]) else f'status {status} and {text[:80]!r}'


def listed(text):
    """The tickets of a text, or the number of its first bad line (docs/FORMATS.md)."""
    found = []
    for number, line in enumerate(re.findall(rb'[^\n]*\n|[^\n]+', text), 1):
        line = re.sub(rb'\r?\n\Z', b'', line)
        if TICKET.fullmatch(line):
            found.append(line.decode())
        elif line and not line.startswith(b';'):
            return number
    return found


def claimed(status, text, words, given):
    """What is wrong with what is said of tickets, or None."""
    found, said = listed(given), [line.partition(' ')[2] for line in text.splitlines()]
    if isinstance(found, int):
        holds = (status, text) == (5, f'refused input {found}\n')
    else:
        right = tickets.is_right(int(option(words, b'--size')), int(option(words, b'--workers', '1')), found, said)
        holds = right and text.encode() == tickets.report(said) and status == int(any(one != 'won' for one in said))
    return None if holds else f'status {status} and {text[:80]!r}'


def wrong(words, given, files, status, said, errors):
    """What doesn't hold of a run, or None."""
    if not 0 <= status <= 6:
        return f'status {status}'
    if errors:
        return f'standard error has {errors[:200]!r}'
    if status == 2 or status == 6:
        # A little input wants no more memory than there is.
        return None if status == 2 and said == b'words refused\n' else f'status {status} and {said[:80]!r}'
    try:
        if words[0] in (b'sign', b'divert'):
            return signed(status, said, given)
        if words[0] == b'retarget':
            return sent_on(status, said, given, option(words, b'--target'))
        text = said.decode()
        if words[0] == b'show':
            return shown(status, text)
        if words[0] == b'drill':
            return drilled(status, text)
        if words[0] == b'once':
            return claimed(status, text, words, given)
        return asked(status, text, given) if words[0] == b'ask' else judged(status, text, words, given, files)
    except ValueError as fault:
        return str(fault)
