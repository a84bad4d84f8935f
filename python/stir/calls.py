"""One call: what is asked of a verifier of signatures for it, and what the rules say of it by itself.

Replay isn't looked at here: of the calls that pass with one ticket only one may be let through, and that is the caller's part (`stir.days`).
"""
from dataclasses import dataclass
from typing import Callable, Iterable, Tuple, Union

from . import checks, library
from .es256 import Question
from .world import World

# The last second of the year 9999, in Unix time.
LAST_MOMENT = 253_402_300_799


@dataclass(frozen=True)
class Call:
    """An INVITE, and when it came: `moment` in Unix seconds, at most the last second of the year 9999."""

    moment: int
    message: bytes

    def __post_init__(self) -> None:
        checks.number("moment", self.moment, 0, LAST_MOMENT)
        object.__setattr__(self, "message", checks.octets("message", self.message))


@dataclass(frozen=True)
class Passes:
    """The call breaks no rule. `ticket` is by what it is known again: the SHA-256 of what was signed as its last PASSporT (32 bytes). `last` is the
    last second at which that PASSporT is fresh, in Unix time: until then the ticket has to be remembered."""

    ticket: bytes
    last: int


@dataclass(frozen=True)
class Refused:
    """The call breaks `rule` first (docs/RULES.md). `code` is its response code (RFC 8224, section 6.2.2), `field` the Identity header field in which
    it is broken, counted from 1, or 0, and `part` the part of it."""

    rule: int
    code: int
    field: int
    part: int


Verdict = Union[Passes, Refused]


@dataclass(frozen=True)
class Asked:
    """What a verifier of signatures is to confirm for a call, and the verdict if he confirms all of it."""

    questions: Tuple[Question, ...]
    verdict: Verdict


def verdict_of(said: library.Said) -> Verdict:
    if said.kind == library.Kind.PASSES:
        return Passes(bytes(said.ticket), said.last)
    return Refused(said.rule, said.code, said.field, said.part)


def opened(call: Call, by: World, confirm: Callable[[Question], bool]) -> library.Call:
    """A call with the chains of its x5us, as far as they are listed, confirmed by this verifier."""
    checks.instance("call", call, Call)
    found = library.Call(checks.instance("by", by, World).opened, call.moment, call.message)
    for index, x5u in enumerate(found.x5us()):
        listed = by.listed(x5u)
        if listed:
            found.bring(index, listed.confirmed(confirm))
    return found


def chosen(confirmed: Iterable[Question]) -> Callable[[Question], bool]:
    """A verifier that confirms these questions and no others."""
    good = frozenset(checks.instance("a question", question, Question) for question in confirmed)
    return lambda question: question in good


def ask(call: Call, by: World) -> Asked:
    """Asks for a call. If a verifier confirms every question, the verdict holds; if he doesn't, `judge` tells by those that he does confirm.

    Raises OutOfMemory.
    """
    found = opened(call, by, lambda _: True)
    said, own = found.questions()
    listed = map(by.listed, found.x5us())
    questions = [question for chain in listed if chain for question in chain.questions]
    return Asked((*questions, *Question.each(own)), verdict_of(said))


def judge(call: Call, by: World, confirmed: Iterable[Question]) -> Verdict:
    """What the rules say of a call by itself, if these of its questions were confirmed and no others.

    Raises OutOfMemory.
    """
    return verify(call, by, chosen(confirmed))


def verify(call: Call, by: World, confirm: Callable[[Question], bool]) -> Verdict:
    """What the rules say of a call by itself, by a verifier of signatures, as `stir.confirm` or an answers file (`stir.Answers`). Raises OutOfMemory."""
    found = opened(call, by, confirm)
    said, own = found.questions()
    good = [bool(confirm(question)) for question in Question.each(own)]
    return verdict_of(said if all(good) else found.judge(bytes(good)))
