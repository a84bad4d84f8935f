"""Prints the lines of crates/vectors on the words of a command line that aren't written by hand, and what they must answer.

    words.py          prints the lines of `stdin`
    words.py answers  prints the lines of `stdout`

What is answered is worked out here, by a model of what docs/FORMATS.md says of words ("Words, and the named files that they name"). The
lines are always the same: first those that try each option of each command in each way, then such as are drawn by a fixed seed.
tests/cli gives all of them to the program, and words that are no UTF-8 besides.
"""

import random
import re

import columns
import drills
from signing import escaped

NUMBER = rb"0|[1-9][0-9]*"
URI_BYTES = rb'[!#-;=?-\[\]-~]'
BARE_BYTES = rb'[!#-+\--:=?-\[\]-~]'
HEX = rb"[0-9A-Fa-f]"

LAST_SECOND = 253402300799
LAST_SEED = 2**64 - 1
MOST_CALLS = 100000
MOST_SLOTS = 1048576


def number_up_to(most):
    """Whether a value is a number, without sign and leading zero, up to this one."""
    return lambda value: re.fullmatch(NUMBER, value) and int(value) <= most


def matches(pattern):
    """Whether a value is of this form."""
    return lambda value: re.fullmatch(pattern, value)


# Which values each option takes. A number that makes a local numbering is looked at together with the country.
TAKES = {
    **dict.fromkeys(("chains", "anchors", "table", "answers", "leaf", "state"), lambda value: True),
    "workers": matches(rb"[1-8]"),
    "seed": number_up_to(LAST_SEED),
    "count": number_up_to(MOST_CALLS),
    "size": lambda value: re.fullmatch(NUMBER, value) and 1 <= int(value) <= MOST_SLOTS,
    **dict.fromkeys(("past", "future"), number_up_to(86400)),
    "country": matches(rb"[0-9]{1,3}"),
    "national": matches(NUMBER),
    "key": matches(BARE_BYTES + rb"{1,64}"),
    "x5u": matches(URI_BYTES + rb"{1,2048}"),
    "iat": number_up_to(LAST_SECOND),
    "moment": number_up_to(LAST_SECOND),
    "target": lambda value: True,
    "form": matches(rb"base|compact|shaken"),
    "attest": matches(rb"[ABC]"),
    # A UUID in its 36 characters (RFC 9562, section 4).
    "origid": matches(rb"H{8}-H{4}-H{4}-H{4}-H{12}".replace(b"H", HEX)),
    "earlier": matches(rb"[0-9*#]{1,15}"),
}

# The options of each command: those that must stand, and those that may.
JUDGING = ("chains", "anchors", "table", "answers")
SETTINGS = ("past", "future", "country", "national")
SIGNING = ("key", "x5u", "iat", "answers")
HOLDER = ("leaf", "table", "country", "national")
COMMANDS = {
    "verify": (JUDGING, ("state", "workers", *SETTINGS)),
    "explain": (JUDGING, SETTINGS),
    "ask": (JUDGING[:3], SETTINGS),
    "sign": ((*SIGNING, "form"), ("attest", "origid", *HOLDER)),
    "divert": ((*SIGNING, "earlier"), HOLDER),
    "retarget": ((*JUDGING, "key", "x5u", "iat", "target", "leaf", "moment"), SETTINGS),
    "show": ((), ()),
    "drill": (("seed", "count"), ("workers",)),
    "once": (("size",), ("workers",)),
}


def options_in(words):
    """The options that words fall into, as pairs of name and value; None where they don't."""
    found = []
    while words:
        first, *words = words
        if not first.startswith(b"--"):
            return None
        name, sign, value = first[2:].partition(b"=")
        if not sign:
            if not words or words[0].startswith(b"-"):
                return None
            value, *words = words
        if not value:
            return None
        found.append((name.decode(), value))
    return found


def order(words):
    """What words order: the command and the value of each of its options; None where they are refused."""
    try:
        command = words[0].decode() if words else ""
        pairs = options_in(words[1:])
        for word in words:
            word.decode()
    except UnicodeDecodeError:
        return None
    if command not in COMMANDS or pairs is None:
        return None
    must, may = COMMANDS[command]
    values = dict(pairs)
    if len(values) < len(pairs) or not set(must) <= set(values) <= {*must, *may}:
        return None
    if not all(TAKES[name](value) for name, value in pairs):
        return None
    country, national = values.get("country", b"1"), int(values.get("national", b"10"))
    if not 1 <= national <= 14 or len(country) + national > 15:
        return None
    given = [name in values for name in ("attest", "origid")]
    if command == "sign" and given != [values["form"] == b"shaken"] * 2:
        return None
    if command in ("sign", "divert") and ("leaf" in values) != ("table" in values):
        return None
    return command, values


def answer(words):
    """What a line of `stdout` says of the words."""
    found = order(words)
    if found is None:
        return "refused"
    command, values = found
    local = [values.get("country", b"1"), values.get("national", b"10")]
    judging = [*(values.get(name) for name in JUDGING), values.get("past", b"60"), values.get("future", b"5"), *local]
    signing = [*(values.get(name) for name in ("key", "x5u", "iat")), *local, values.get("answers"), values.get("leaf", b"-"), values.get("table", b"-")]
    said = {
        "verify": [*judging, values.get("state", b"-"), values.get("workers", b"1")],
        "sign": [values.get("form"), values.get("attest"), values.get("origid"), *signing],
        "divert": [values.get("earlier"), *signing],
        "retarget": [*judging, *(values.get(name) for name in ("key", "x5u", "iat", "target", "leaf", "moment"))],
        "show": [],
        "drill": [values.get("seed"), values.get("count"), values.get("workers", b"1")],
        "once": [values.get("size"), values.get("workers", b"1")],
    }.get(command, judging)
    return " ".join([command, *(escaped(value) for value in said if value is not None)])


# Values that an option takes, and such as it doesn't take: each limit, and what lies beside it.
FILES = (b"c", b"day/a.der", b"=", b"-", b"--anchors=x", b"a=b", b"a b\n", "\u20ac".encode(), b"0", b"\\")
UUID = b"123e4567-e89b-12d3-a456-426655440000"
OUTSIDE_URI = (b'"', b"<", b">", b"\\", b" ", b"\x7f", b"\x1f", "\u00e9".encode())
NO_NUMBERS = (b"00", b"01", b"+1", b"-1", b"1 ", b" 1", b"1\n", b"0x1", b"1e1", b"1_0", b"1.0", b"1,0", "\u0661".encode(), "\uff11".encode(), b"x")
GOOD = {
    **dict.fromkeys(("chains", "anchors", "table", "answers", "leaf", "state"), FILES),
    "workers": (b"1", b"2", b"7", b"8"),
    "seed": (b"0", b"7", b"9223372036854775808", b"18446744073709551614", b"18446744073709551615"),
    "count": (b"0", b"1", b"16", b"255", b"256", b"257"),
    "size": (b"1", b"2", b"4", b"1048575", b"1048576"),
    "past": (b"0", b"1", b"60", b"86399", b"86400"),
    "future": (b"0", b"5", b"6", b"86399", b"86400"),
    "country": (b"0", b"9", b"01", b"44", b"000", b"999"),
    "national": (b"1", b"2", b"9", b"11", b"12"),
    "key": (b"k", b"-", b"k1", 63 * b"k", 64 * b"k", b"!#$%&'()*+-./", b":=?@[]^_`{|}~", b"0*#"),
    "x5u": (b"u", b"-u", b"https://cert.example.org/a.pem", 2047 * b"u", 2048 * b"u", b"!#$%&'()*+,-./:;", b"=?@[]^_`{|}~", b"U:"),
    "iat": (b"0", b"1", b"1443208345", b"253402300798", b"253402300799"),
    "moment": (b"0", b"1", b"1443208345", b"253402300798", b"253402300799"),
    "target": (b"sip:+12125551214@example.net", b"x", b"-", b"=", b"sip:a b", "\u20ac".encode()),
    "form": (b"base", b"compact"),
    "attest": (b"A", b"B", b"C"),
    "origid": (UUID, UUID.upper(), 8 * b"f" + 3 * b"-0000" + b"-" + 12 * b"A", b"00000000-0000-0000-0000-000000000000"),
    "earlier": (b"1", b"*", b"#", b"*67", b"911", 14 * b"9", 15 * b"9", b"0#12"),
}
BAD = {
    "seed": (b"18446744073709551616", b"18446744073709551617", b"36893488147419103232", 40 * b"9", b"", *NO_NUMBERS),
    "count": (b"100001", b"1000000", b"4294967296", b"4294967297", b"18446744073709551616", b"", *NO_NUMBERS),
    "size": (b"0", b"1048577", b"10485760", b"4294967297", b"18446744073709551617", b"", *NO_NUMBERS),
    "workers": (b"0", b"9", b"10", b"08", b"256", b"257", b"18446744073709551617", b"", *NO_NUMBERS),
    **dict.fromkeys(("past", "future"), (b"86401", b"100000", b"18446744073709551616", 40 * b"9", *NO_NUMBERS)),
    "country": (b"1000", b"0001", b"+1", b"-1", b"1 ", b"4*", b"#", b"", b"x", "\u0661".encode()),
    "national": (b"0", b"15", b"16", b"255", b"256", b"266", b"9=x", b"4294967306", b"18446744073709551626", *NO_NUMBERS),
    "key": (65 * b"k", 66 * b"k", b"k;", b"k,", *(b"k" + byte for byte in OUTSIDE_URI)),
    "x5u": (2049 * b"u", 2050 * b"u", *(byte + b"u" for byte in OUTSIDE_URI)),
    "iat": (b"253402300800", b"18446744073709551615", b"18446744073709551616", b"1696652042368409561", *NO_NUMBERS),
    "moment": (b"253402300800", b"18446744073709551615", b"18446744073709551616", *NO_NUMBERS),
    "form": (b"Base", b"BASE", b"compac", b"compact2", b"full", b"div", b"shaken", b"base,compact"),
    "attest": (b"a", b"D", b"AB", b"A ", b" A", b"\n", b"@", "\u0410".encode()),
    "origid": (UUID[:-1], UUID + b"0", UUID.replace(b"-", b""), b"{" + UUID + b"}", b"urn:uuid:" + UUID, UUID[:-1] + b"g", UUID.replace(b"-", b"_"),
               UUID[:7] + b"-5" + UUID[8:], UUID[1:] + b" ", UUID[:-2] + "\u00e9".encode(), b"(" + UUID[1:], UUID[:35] + b"-"),
    "earlier": (16 * b"9", 17 * b"9", b"+1", b"1-2", b"(1)", b"1 2", b"1.2", b"A", b"1\n", "\u0661".encode()),
}


def plain(command):
    """Values for the options that the command requires."""
    first = {"chains": b"c", "anchors": b"a", "table": b"t", "answers": b"w", "key": b"k1", "x5u": b"u", "iat": b"1443208345", "form": b"base",
             "earlier": b"911", "target": b"sip:+12125551214@example.net", "leaf": b"l", "moment": b"1443208345", "seed": b"5", "count": b"3", "size": b"6"}
    return {name: first[name] for name in COMMANDS[command][0]}


def whole(command):
    """Values for all options of the command."""
    more = {"state": b"s", "workers": b"3", "past": b"30", "future": b"7", "country": b"44", "national": b"11", "leaf": b"l", "table": b"t", "attest": b"A", "origid": UUID}
    values = plain(command) | {name: more[name] for name in COMMANDS[command][1]}
    return values | {"form": b"shaken"} if command == "sign" else values


def one(name, value):
    """An option in one word."""
    return [b"--%s=%s" % (name.encode(), value)]


def two(name, value):
    """An option in two words."""
    return [b"--%s" % name.encode(), value]


def command_line(command, values, way=one):
    """The command with these options."""
    return [command.encode(), *(word for pair in values.items() for word in way(*pair))]


def with_value(command, name, value):
    """Words in which this option has this value, with those that must stand beside it."""
    values = plain(command)
    if name in ("attest", "origid"):
        values |= {"form": b"shaken", "attest": b"A", "origid": UUID}
    if name in ("leaf", "table"):
        values |= {name: whole(command)[name] for name in ("leaf", "table") if name in whole(command)}
    return command_line(command, values | {name: value}, two if len(value) > 100 else one)


def holders(name):
    """The commands that take this option."""
    return [command for command, (must, may) in COMMANDS.items() if name in (*must, *may)]


def commands():
    """What a command is, and what isn't one; and words that are nobody's option."""
    yield []
    for first in ("", "Verify", "VERIFY", "verif", "verify ", "verify=", "drills", "sign,divert", "help", "--help", "--version", "-h", "-", "--",
                  "--verify"):
        yield [first.encode(), *command_line("verify", plain("verify"))[1:]]
    strays = ("--ch\u00e4ins=c", "--", "--help", "--version", "-h", "-V", "-", "c", "", "--=c", "--help=1", "---", "--workers=1", "--window=60")
    for command in COMMANDS:
        words = command_line(command, plain(command))
        yield words
        yield command_line(command, whole(command))
        yield command_line(command, dict(reversed(whole(command).items())), two)
        yield [words[0], words[0], *words[1:]]
        yield [*words[1:], words[0]]
        for place, stray in enumerate(strays):
            at = 1 if place % 2 else len(words)
            yield [*words[:at], stray.encode(), *words[at:]]


def ways(command, number, name, value):
    """The words of the whole command, with this option in a way that is refused, or that only looks so."""
    others = {other: given for other, given in whole(command).items() if other != name}
    words = command_line(command, others)
    long = name.encode()
    yield words
    yield [*words, *one(name, value), *two(name, value)]
    yield [*words, *(one(name, b"") if number % 2 else two(name, b""))]
    chosen = (
        [[*words, b"--" + long], [words[0], b"--" + long, *words[1:]]],
        [[*words, *two(name, b"-" + value)], [words[0], *two(name, b"--"), *words[1:]]],
        [[*words, *one(name[:-1], value)], [*words, *two(name[:2], value)]],
        [[*words, *one(name.upper(), value)], [*words, *two(name.title(), value)]],
        [[*words, b"-" + long + b"=" + value], [*words, long + b"=" + value]],
        [[*words, b"---" + long, value], [*words, b"--" + long + b" =" + value]],
        [[*words, *one(name + "s", value)], [*words, *two(name, value), value]],
    )
    yield from chosen[number % len(chosen)]


def options():
    """Each option of each command: absent, twice, empty, and in ways by turns."""
    number = 0
    for command in COMMANDS:
        for name, value in whole(command).items():
            yield from ways(command, number, name, value)
            number += 1
        foreign = [name for name in TAKES if name not in whole(command)]
        for name in foreign[number % 2 :: 2]:
            yield [*command_line(command, plain(command)), *one(name, GOOD[name][0])]


def values():
    """Each option at its limits and beside them, in each command by turns."""
    for table in (GOOD, BAD):
        for name, tried in table.items():
            takers = holders(name)
            for place, value in enumerate(tried):
                yield with_value(takers[place % len(takers)], name, value)


def pairings():
    """Which options stand together, and what the country leaves to the national number."""
    for form in (b"base", b"compact", b"shaken"):
        for more in ({}, {"attest": b"B"}, {"origid": UUID}, {"attest": b"B", "origid": UUID}):
            yield command_line("sign", plain("sign") | {"form": form} | more)
    for command in ("sign", "divert"):
        for more in ({}, {"leaf": b"l"}, {"table": b"t"}, {"table": b"t", "leaf": b"l"}):
            yield command_line(command, plain(command) | more)
    takers = holders("country")
    for place, country in enumerate((b"1", b"01", b"999")):
        for most in (13, 14, 15):
            command = takers[(place + most) % len(takers)]
            yield command_line(command, plain(command) | {"country": country, "national": b"%d" % (most - place)}, two)
    yield command_line("ask", plain("ask") | {"country": b"999"})
    yield command_line("explain", plain("explain") | {"national": b"14"})
    yield command_line("drill", plain("drill") | {"count": b"%d" % MOST_CALLS})


class Drawn:
    """Words drawn by a seed: options in any order, each in one word or two, each with a value that it takes, save where a fault is drawn."""

    def __init__(self, seed):
        self.random = random.Random(seed).random

    def of(self, things):
        """One of these."""
        return things[int(self.random() * len(things))]

    def some(self, command):
        """Values of the options that a command requires and of some others, with those that must stand beside them."""
        must, may = COMMANDS[command]
        values = {name: self.of(GOOD[name]) for name in (*must, *(name for name in may if self.random() < 0.5))}
        if command == "sign" and ("attest" in values or "origid" in values or self.random() < 0.3):
            values |= {"form": b"shaken", "attest": self.of(GOOD["attest"]), "origid": self.of(GOOD["origid"])}
        if command in ("sign", "divert") and ("leaf" in values or "table" in values):
            values |= {"leaf": self.of(FILES), "table": self.of(FILES)}
        return values

    def words(self, command, values):
        """The command with these options in some order, each in one word or two."""
        pairs = sorted(values.items(), key=lambda pair: self.random())
        out = [command.encode()]
        for name, value in pairs:
            out += one(name, value) if len(value) < 100 and (value.startswith(b"-") or self.random() < 0.5) else two(name, value)
        return out

    def taken(self):
        """Words that are taken."""
        command = self.of([command for command in COMMANDS if command != "show"])
        return self.words(command, self.some(command))

    def faulty(self):
        """One value that its option doesn't take, a word too many or too few, or two words in each other's place."""
        command = self.of([command for command in COMMANDS if command != "show"])
        values = self.some(command)
        kind = int(self.random() * 4)
        if kind == 0:
            name = self.of([name for name in values if name in BAD] or ["past"])
            values[name] = self.of(BAD[name])
        words = self.words(command, values)
        place = 1 + int(self.random() * (len(words) - 1))
        if kind == 1:
            del words[place]
        if kind == 2:
            words.insert(place, self.of(words))
        if kind == 3 and place + 1 < len(words):
            words[place], words[place + 1] = words[place + 1], words[place]
        return words


def drawn(seed, count):
    """So many lists of words, by turns without a fault and mostly with one."""
    source = Drawn(seed)
    for number in range(count):
        yield source.faulty() if number % 2 else source.taken()


SECTIONS = (
    (commands, "`crates/vectors/generators/words.py` prints the lines from here up to `files`. `verify` answers its four files, how many seconds old and ahead a",
     "PASSporT may be, the country, the length of a national number, the state or `-`, and the workers; `explain` the same without these two, and `ask` without the",
     "answers besides. `sign` answers the form, with the attestation and the identifier after `shaken`, `divert` the earlier number, and both then",
     "the name of the key, the URI, the second, the country and the length of a national number, the file of the answers, and the holder's two",
     "files or `- -`. `drill` answers the seed, the count and the workers, `once` the slots of a level and the workers.",
     "What a command is; words that are nobody's option; and each command with the options that it requires, and with all."),
    (options, "Each option of each command: absent, twice, empty; by turns without a value, with one that begins with `-`, shortened, in capitals, with",
     "other dashes, with a letter more; and options of other commands."),
    (values, "Each option at its limits and beside them."),
    (pairings, "Which options stand together, and how long the country and a national number are."),
    (lambda: drawn(20150925, 160), "Options in any order, each in one word or two, drawn by a seed: by turns without a fault, and mostly with one."),
)

# Words that are no UTF-8 (RFC 3629, section 3), which can't stand in the table: a lone byte, one too few, one too many; the same letter in more
# bytes than it has; half of a pair; behind the last character. And a file's name that is.
NO_TEXTS = (b"\xff", b"\xe2\x82", b"\xe2\x82\xac\x80", b"\xc0\xaf", b"\xed\xa0\x80", b"\xf4\x90\x80\x80")


def no_texts():
    """Lists of words with one that is no UTF-8, in every place; and one with a name beyond ASCII."""
    for text in NO_TEXTS:
        yield [text]
        yield [b"verify" + text]
        for command in COMMANDS:
            yield [*command_line(command, plain(command)), text]
        yield with_value("verify", "chains", text)
        yield [*command_line("explain", whole("explain"))[:-1], b"--national", text]
        yield with_value("sign", "key", b"k" + text)
        yield [*command_line("divert", plain("divert")), b"--leaf" + text, b"l"]
    yield with_value("verify", "chains", "c\u20ac\U0010ffff".encode())


def program_cases():
    """Words, and the program's status and output where no file is: the first file that it reads is missing, `show` and `once` read an empty input, and `drill` reads
    nothing."""
    for words in (*(row for row in lists() if not isinstance(row, str)), *no_texts()):
        found = order(words)
        if found is None:
            yield words, 2, b"words refused\n"
        elif found[0] in ("show", "once"):
            yield words, 0, b""
        elif found[0] == "drill":
            yield words, 0, drills.summary(int(found[1]["seed"]), int(found[1]["count"]))
        else:
            yield words, 5, b"missing %s\n" % found[1]["answers" if found[0] in ("sign", "divert") else "chains"]


def word_in_table(word):
    """A word as the head of `stdin` tells it."""
    if not word:
        return "x:"
    if len(word) > 40 and word == len(word) * word[:1]:
        return f"{len(word)}*{word_in_table(word[:1])}"
    text = escaped(word)
    if text.startswith("$") or re.match(r"x:|\d+\*", text):
        return "".join(f"\\x{byte:02x}" for byte in word)
    return text


def lists():
    """Lists of words, each once, behind the comments of what they try."""
    seen = set()
    for section, *comment in SECTIONS:
        yield from comment
        for words in section():
            if tuple(words) not in seen:
                seen.add(tuple(words))
                yield words


def rows():
    """Each line with what it answers."""
    for words in lists():
        if isinstance(words, str):
            yield f"# {words}", f"# {words}"
        else:
            yield " ".join(["words.order", *map(word_in_table, words)]), answer(words)


if __name__ == "__main__":
    columns.write(rows())
