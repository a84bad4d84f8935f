"""The words that `stir` takes (docs/FORMATS.md, "Words"), and which of them is why a command line is refused. The program says no more than
`words refused`."""
import difflib
import os
import re


class Value:
    """What an option's value may be: a pattern of its bytes and the most that a number is, and both in words."""

    def __init__(self, what, pattern, most=None):
        self.what, self.pattern, self.most = what, re.compile(pattern, re.S), most

    def takes(self, value):
        return self.pattern.fullmatch(value) and (self.most is None or int(value) <= self.most)


NUMBER = r'0|[1-9][0-9]{0,18}'
FILE = Value('the name of a file', r'.+')

# The options, one a line: what each value is.
VALUES = {
    'chains': FILE, 'anchors': FILE, 'table': FILE, 'answers': FILE, 'leaf': FILE, 'state': FILE,
    'workers': Value('how many workers there are, 1 to 8', r'[1-8]'),
    'seed': Value('a number below 2^64', r'0|[1-9][0-9]{0,19}', 2**64 - 1),
    'count': Value('how many calls are made, at most 100000', NUMBER, 100_000),
    'size': Value('how many slots a level has, 1 to 1048576', r'[1-9][0-9]{0,6}', 1_048_576),
    'past': Value('how many seconds old a PASSporT may be, at most 86400', NUMBER, 86_400),
    'future': Value('how many seconds a PASSporT may be ahead, at most 86400', NUMBER, 86_400),
    'country': Value('1 to 3 digits', r'[0-9]{1,3}'),
    'national': Value('how many digits a national number has, 1 to 14', r'[1-9][0-9]?', 14),
    'key': Value('the name of a key, 1 to 64 visible characters without ; , " < > \\', r'[!#-+\--:=?-\[\]-~]{1,64}'),
    'x5u': Value('a URI, 1 to 2048 visible characters without " < > \\', r'[!#-;=?-\[\]-~]{1,2048}'),
    'iat': Value('a second of Unix time, at most 253402300799', NUMBER, 253_402_300_799),
    'moment': Value('a second of Unix time, at most 253402300799', NUMBER, 253_402_300_799),
    'target': Value('the request URI of the message that goes on', r'.+'),
    'form': Value('base, compact or shaken', r'base|compact|shaken'),
    'attest': Value('A, B or C', r'[ABC]'),
    'origid': Value('a UUID in 36 characters', r'[0-9A-Fa-f]{8}(-[0-9A-Fa-f]{4}){3}-[0-9A-Fa-f]{12}'),
    'earlier': Value('a telephone number, 1 to 15 of 0-9 * #', r'[0-9*#]{1,15}'),
}

FRESH = ('past', 'future')
NUMBERING = ('country', 'national')
JUDGED = ('chains', 'anchors', 'table')
SIGNED = ('key', 'x5u', 'iat', 'answers')
HOLDER = ('leaf', 'table', *NUMBERING)

# The commands, one a line: the options that have to stand, and those that may.
COMMANDS = {
    'verify': ((*JUDGED, 'answers'), ('state', 'workers', *FRESH, *NUMBERING)),
    'explain': ((*JUDGED, 'answers'), (*FRESH, *NUMBERING)),
    'ask': (JUDGED, (*FRESH, *NUMBERING)),
    'sign': ((*SIGNED, 'form'), ('attest', 'origid', *HOLDER)),
    'divert': ((*SIGNED, 'earlier'), HOLDER),
    'retarget': ((*JUDGED, *SIGNED, 'target', 'leaf', 'moment'), (*FRESH, *NUMBERING)),
    'show': ((), ()),
    'drill': (('seed', 'count'), ('workers',)),
    'once': (('size',), ('workers',)),
}

# Options that were taken once, and what is in their place.
GONE = {'window': '--past and --future are in its place'}

# The most digits of a country and a national number together.
MOST_DIGITS = 15


class Refused(Exception):
    """Which word is refused, and why."""


def shown(word):
    return word if word.isprintable() and len(word) <= 60 else ascii(word[:60])


def like(name, names):
    """A name that this one may stand for, in words."""
    found = difflib.get_close_matches(name.lower(), names, 1)
    return f'; --{found[0]} is one' if found else ''


def options(command, words):
    """The options of a command with their values, as the words have them."""
    names, found, rest = [*COMMANDS[command][0], *COMMANDS[command][1]], {}, iter(words)
    for word in rest:
        name, is_joined, value = word.removeprefix('--').partition('=')
        if not word.startswith('--') or not name:
            raise Refused(f'{shown(word)!r} is no option: an option is --NAME=VALUE, or --NAME and a value')
        if name not in names:
            others = [other for other, (must, may) in COMMANDS.items() if name in must + may]
            of = f'; it is one of {", ".join(others)}' if others else f'; {GONE[name]}' if name in GONE else like(name, names)
            raise Refused(f'--{shown(name)} is no option of {command}{of}')
        if not is_joined:
            value = next(rest, '')
            if value.startswith('-'):
                raise Refused(f'--{name} has no value: {shown(value)} begins with -; --{name}={shown(value)} hands it on')
        if not value:
            raise Refused(f'--{name} has no value: it is {VALUES[name].what}')
        if name in found:
            raise Refused(f'--{name} stands twice')
        found[name] = value
    return found


def look_at(command, found):
    """Refuses options that don't go together, and values that are none."""
    for name in COMMANDS[command][0]:
        if name not in found:
            raise Refused(f'--{name} is missing: it is {VALUES[name].what}')
    for name, value in found.items():
        if not VALUES[name].takes(value):
            raise Refused(f'--{name} is {shown(value)!r}, and must be {VALUES[name].what}')
    if len(found.get('country', '1')) + int(found.get('national', 10)) > MOST_DIGITS:
        raise Refused(f'--country and --national have more than {MOST_DIGITS} digits together; --national is 10 where it isn\'t given')
    if command in ('sign', 'divert') and ('leaf' in found) != ('table' in found):
        raise Refused('--leaf and --table stand both or neither')
    for name in ('attest', 'origid'):
        if command == 'sign' and (name in found) != (found['form'] == 'shaken'):
            raise Refused(f'--{name} stands with --form shaken, and with it alone')


def why_refused(words):
    """Why these words, as bytes, are refused; None where they aren't."""
    try:
        for number, word in enumerate(words, 1):
            try:
                word.decode()
            except UnicodeDecodeError:
                raise Refused(f'word {number}, {ascii(os.fsdecode(word))}, isn\'t UTF-8')
        texts = [word.decode() for word in words]
        if not texts or texts[0] not in COMMANDS:
            first = f'{shown(texts[0])!r} is no command' if texts else 'no command'
            raise Refused(f'{first}: the first word is {", ".join(COMMANDS)}')
        look_at(texts[0], options(texts[0], texts[1:]))
    except Refused as refused:
        return str(refused)
    return None
