"""Which rules a call meets, of which certificates it asks, and what its PASSporTs say."""
import functools
import json
from dataclasses import dataclass
from typing import Any, Dict, Iterable, List, Optional, Tuple

from . import checks, library
from .calls import Call, Verdict, chosen, opened, verdict_of
from .es256 import Question
from .settings import Settings
from .world import World


@dataclass(frozen=True)
class Explained:
    """The numbers of the rules that the call meets, up to the first that it breaks, and the verdict."""

    holds: Tuple[int, ...]
    verdict: Verdict


def explain(call: Call, by: World, confirmed: Iterable[Question]) -> Explained:
    """Which rules a call meets by itself, if these of its questions were confirmed and no others. Replay isn't among them. Raises OutOfMemory."""
    confirm = chosen(confirmed)
    found = opened(call, by, confirm)
    said, lines = found.explain(1, bytes(map(confirm, Question.each(found.questions()[1]))))
    words = [line.split() for line in lines.decode().splitlines()]
    return Explained(tuple(int(rule) for _, rule, *rest in words if rest == ["ok"]), verdict_of(said))


@functools.lru_cache(maxsize=16)
def world_of(settings: Settings) -> library.World:
    """A world for what no chain, anchor or table is asked for."""
    return library.World(settings.setting(), b"", b"")


def given(call: Call, settings: Settings) -> library.Call:
    """A call as it is read by the rules of the call."""
    checks.instance("call", call, Call)
    return library.Call(world_of(checks.instance("settings", settings, Settings)), call.moment, call.message)


def x5us(call: Call, settings: Settings = Settings()) -> Tuple[str, ...]:
    """The x5us of the PASSporTs that are judged, at most nine, in the order in which the call went; one may come twice. None if the call breaks one of
    the rules of the call: then no certificates are looked at. Raises OutOfMemory."""
    return tuple(x5u.decode("ascii") for x5u in given(call, settings).x5us())


def claims(call: Call, settings: Settings = Settings()) -> List[Dict[str, Any]]:
    """What the PASSporTs of a call say: a dict for each that is judged, at most nine, in the order in which the call went. `field` is the number of its
    Identity header field, counted from 1, and `payload` the claims that were signed (RFC 8225, section 5), or None if a number in them is no integer of
    64 bits. Empty if the call breaks one of the rules of the call. No certificate and no signature is looked at: what is said is worth what `verify` says of the
    call. Raises OutOfMemory."""
    return [said_by(line) for line in given(call, settings).claims().decode().split("\n")[:-1]]


def said_by(line: str) -> Dict[str, Any]:
    number, payload = line.split(" ", 1)
    said: Optional[Dict[str, Any]] = None if payload == "-" else json.loads(payload)
    return {"field": int(number), "payload": said}
