"""Call logs (docs/FORMATS.md, "Call log"): their entries, and where they can be cut. No log is held in memory whole."""
import os
import re
import stat
from dataclasses import dataclass
from typing import BinaryIO, Iterator, List, NamedTuple, Optional, Sequence, Tuple, Union

from . import checks
from .calls import LAST_MOMENT, Call
from .errors import BadFile

MOST_CALLS = 1_000_000
LONGEST_MESSAGE = 131_072

HEADER = re.compile(rb"@(0|[1-9][0-9]{0,11}) (0|[1-9][0-9]{0,5})\n")
LONGEST_HEADER = 21

# So much of a file is read at once.
BUFFER = 1 << 18

Name = Union[str, "os.PathLike[str]"]


@dataclass(frozen=True)
class Part:
    """Some entries of a log, one after another: `place` is the offset of the first in the file, `first` its number, and `count` how many there are."""

    log: str
    place: int
    first: int
    count: int


@dataclass(frozen=True)
class Fault:
    """Where a log is outside its grammar: the offset of the first byte after its entries."""

    log: str
    place: int


@dataclass(frozen=True)
class Cut:
    """Logs cut into parts, which have each whole entry up to the first fault once, and how many entries these are."""

    parts: Tuple[Part, ...]
    calls: int
    fault: Optional[Fault]


class Header(NamedTuple):
    """The header line of an entry: its own bytes, the moment, and the bytes of the message."""

    size: int
    moment: int
    length: int


def header(file: BinaryIO) -> Optional[Header]:
    """The next header line, or None if there is none, as at the end of the file."""
    line = file.readline(LONGEST_HEADER)
    found = HEADER.fullmatch(line)
    if not found or int(found[1]) > LAST_MOMENT or int(found[2]) > LONGEST_MESSAGE:
        return None
    return Header(len(line), int(found[1]), int(found[2]))


def entries(file: BinaryIO, size: int, moment: int) -> Iterator[Tuple[int, Header]]:
    """The places and headers of the entries of a log of so many bytes, whose moments never fall below this one."""
    place = 0
    for _ in range(MOST_CALLS):
        found = header(file)
        if not found or found.moment < moment or place + found.size + found.length > size:
            return
        yield place, found
        file.seek(found.length, os.SEEK_CUR)
        place, moment = place + found.size + found.length, found.moment


def cut(names: Sequence[Name], calls: int) -> Cut:
    """Cuts logs, of which each goes on after the one before, into parts of so many calls; the last of a log may have fewer. Calls are numbered from 1
    through all logs, and their moments never fall. Raises OSError, and BadFile if a log is a pipe."""
    if isinstance(names, (str, bytes, os.PathLike)):
        raise TypeError(f"names must be a list of names, and is {type(names).__name__}")
    checks.number("calls", calls, 1, MOST_CALLS)
    parts: List[Part] = []
    number, moment = 0, 0
    for name in (os.path.abspath(os.fspath(name)) for name in names):
        with open(name, "rb", buffering=BUFFER) as file:
            state = os.fstat(file.fileno())
            if not stat.S_ISREG(state.st_mode):
                raise BadFile(f"{name}: a log that is cut must be a file, and no pipe or device")
            end, begun = 0, []
            for count, (place, found) in enumerate(entries(file, state.st_size, moment)):
                if count % calls == 0:
                    begun.append((place, number + 1))
                number, moment, end = number + 1, found.moment, place + found.size + found.length
        ends = [first for _, first in begun[1:]] + [number + 1]
        parts += [Part(name, place, first, after - first) for (place, first), after in zip(begun, ends)]
        if end < state.st_size:
            return Cut(tuple(parts), number, Fault(name, end))
    return Cut(tuple(parts), number, None)


def calls_of(part: Part) -> Iterator[Call]:
    """The calls of a part. Raises OSError, and BadFile if the file isn't any more what it was when it was cut."""
    with open(part.log, "rb", buffering=BUFFER) as file:
        file.seek(part.place)
        for number in range(part.first, part.first + part.count):
            found = header(file)
            message = file.read(found.length) if found else b""
            if not found or len(message) < found.length:
                raise BadFile(f"{part.log}: there is no call {number} any more, where it was when the log was cut")
            yield Call(found.moment, message)
