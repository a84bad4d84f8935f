"""A day of calls on many machines: a map over the parts of a log, and the tickets settled in the order of the calls.

`judge_part` judges each call of a part by itself, so parts can be judged anywhere, in any order and more than once. What it gives depends on its
arguments alone. Two calls with one ticket may be in different parts: a `Day` takes the parts in their order, and says which calls are replays.
"""
from dataclasses import dataclass
from typing import Callable, Dict, Tuple

from .calls import Passes, Refused, Verdict, verify
from .es256 import Question
from .logs import Part, calls_of
from .world import World


@dataclass(frozen=True)
class Judged:
    """The verdict of each call of a part by itself, in their order. `first` is the number of the first one, and `moment` the second at which the last
    one came."""

    first: int
    moment: int
    verdicts: Tuple[Verdict, ...]


@dataclass(frozen=True)
class Report:
    """The lines of `stir verify` for the calls of a part, and whether all of these are valid."""

    lines: bytes
    all_valid: bool


@dataclass(frozen=True)
class First:
    """The first call that passed with a ticket: its number, and the last second at which one may pass with this ticket."""

    number: int
    last: int


def judge_part(part: Part, world: World, confirm: Callable[[Question], bool]) -> Judged:
    """Judges each call of a part by itself. Raises OSError, BadFile and OutOfMemory."""
    moment, verdicts = 0, []
    for call in calls_of(part):
        moment = call.moment
        verdicts.append(verify(call, world, confirm))
    return Judged(part.first, moment, tuple(verdicts))


class Day:
    """Settles a day part by part: of the calls that pass with one ticket the first is valid, and each other one is a replay of it. It holds the
    tickets that may still pass, and no call."""

    def __init__(self) -> None:
        self.next = 1
        self.firsts: Dict[bytes, First] = {}

    def report(self, judged: Judged) -> Report:
        """The lines of the next part. Raises ValueError for another one."""
        if judged.first != self.next:
            raise ValueError(f"the next part begins with call {self.next}, and this one with call {judged.first}")
        lines = [self.line(number, verdict) for number, verdict in enumerate(judged.verdicts, judged.first)]
        self.next += len(lines)
        # Moments never fall, and no call passes after the last second of its ticket.
        self.firsts = {ticket: first for ticket, first in self.firsts.items() if first.last >= judged.moment}
        return Report("".join(lines).encode(), all(one.endswith(" valid - - -\n") for one in lines))

    def line(self, number: int, verdict: Verdict) -> str:
        """The line of the next call (docs/FORMATS.md, "Report")."""
        if isinstance(verdict, Refused):
            return f"{number} refused {verdict.code} {verdict.rule} {verdict.field}.{verdict.part}\n"
        first = self.firsts.setdefault(verdict.ticket, First(number, verdict.last))
        return f"{number} valid - - -\n" if first.number == number else f"{number} replay 438 18 {first.number}\n"


def written(judged: Judged) -> str:
    """The verdicts of a part as lines, of which `read` makes them again."""
    lines = (
        f"passes {verdict.ticket.hex()} {verdict.last}\n" if isinstance(verdict, Passes) else
        f"refused {verdict.rule} {verdict.code} {verdict.field} {verdict.part}\n"
        for verdict in judged.verdicts
    )
    return f"{judged.first} {judged.moment} {len(judged.verdicts)}\n" + "".join(lines)


def read(text: str) -> Judged:
    """The verdicts of these lines. Raises ValueError if they aren't what was written, as after a kill."""
    lines = text.split("\n")
    first, moment, count = map(int, lines[0].split())
    if len(lines) != count + 2 or lines[-1]:
        raise ValueError(f"{len(lines) - 2} verdicts, and not {count}")
    return Judged(first, moment, tuple(map(verdict_of, lines[1:-1])))


def verdict_of(line: str) -> Verdict:
    kind, *words = line.split()
    if kind == "passes":
        ticket, last = words
        return Passes(bytes.fromhex(ticket), int(last))
    rule, code, field, part = map(int, words)
    return Refused(rule, code, field, part)
