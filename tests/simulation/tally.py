"""What is counted."""
from __future__ import annotations

from collections import Counter
from dataclasses import dataclass, field


@dataclass
class Tally:
    """What came of calls, and how often each ticket passed."""

    passes: Counter[int] = field(default_factory=Counter)
    by_copies: set[int] = field(default_factory=set)
    calls: Counter[str] = field(default_factory=Counter)
    copies: Counter[str] = field(default_factory=Counter)

    def passed(self, ticket: int, copy: int | None = None) -> None:
        """A call passed with this ticket."""
        self.passes[ticket] += 1
        if copy:
            self.by_copies.add(ticket)

    def came_of(self, ticket: int, copy: int, outcome: str) -> None:
        """What a caller heard last of a call that was sent."""
        if copy:
            self.copies[outcome] += 1
        elif outcome == "replay":
            self.calls["after a copy" if ticket in self.by_copies else "replay of itself"] += 1
        else:
            self.calls[outcome] += 1

    def twice(self) -> list[int]:
        """The tickets that passed more than once."""
        return sorted(ticket for ticket, count in self.passes.items() if count > 1)

    def counts(self) -> dict[str, int]:
        """Of the calls that were sent first, and of copies, by a name each."""
        calls, copies = self.calls, self.copies
        return {
            "calls": sum(calls.values()), "valid": calls["valid"], "unjudged": calls["unjudged"], "itself": calls["replay of itself"],
            "after_copy": calls["after a copy"], "stale": calls["stale"], "unheard": calls["unheard"], "copies": sum(copies.values()),
            "copies_refused": copies["replay"] + copies["stale"], "copies_unjudged": copies["unjudged"] + copies["unheard"],
            "twice": len(self.twice()),
        }
