"""Time, and what happens in it: a queue of actions, and processes that wait.

Time is counted in microseconds. What happens at one microsecond happens in the order in which it was asked for, so a run is the same for one seed.
"""
from __future__ import annotations

import heapq
from collections.abc import Callable, Generator
from typing import Any

SECOND = 1_000_000
MS = 1_000


class Late(Exception):
    """What was waited for didn't come in time."""


class Promise:
    """A value that will be there, or never."""

    def __init__(self) -> None:
        self.is_given = False
        self.value: Any = None
        self.waiting: list[Callable[[Any], None]] = []

    def give(self, value: Any = None) -> None:
        """Gives the value; a second one is passed over."""
        if self.is_given:
            return
        self.is_given, self.value = True, value
        for action in self.waiting:
            action(value)

    def then(self, action: Callable[[Any], None]) -> None:
        if self.is_given:
            action(self.value)
        else:
            self.waiting.append(action)


# A process waits for a promise, up to a moment if it says one. It is sent the value, or `Late` is thrown into it.
Wait = tuple[Promise, int | None]
Process = Generator[Wait, Any, Any]


class Loop:
    """What is to happen, in its order."""

    def __init__(self) -> None:
        self.now = 0
        self.count = 0
        self.queue: list[tuple[int, int, Callable[[], None]]] = []

    def at(self, moment: int, action: Callable[[], None]) -> None:
        self.count += 1
        heapq.heappush(self.queue, (max(moment, self.now), self.count, action))

    def after(self, pause: int, action: Callable[[], None]) -> None:
        self.at(self.now + pause, action)

    def run(self, until: int) -> None:
        """Lets happen all that is to happen up to this moment."""
        while self.queue and self.queue[0][0] <= until:
            self.now, _, action = heapq.heappop(self.queue)
            action()

    def start(self, process: Process, lives: Callable[[], bool] = lambda: True) -> None:
        """Starts a process. If `lives` says no it goes no further."""
        self._go_on(process, lives, lambda: process.send(None))

    def pause(self, length: int) -> Process:
        promise = Promise()
        self.after(length, promise.give)
        yield promise, None

    def _go_on(self, process: Process, lives: Callable[[], bool], resume: Callable[[], Wait]) -> None:
        if not lives():
            process.close()
            return
        try:
            promise, until = resume()
        except StopIteration:
            return
        is_awake = False

        def once(how: Callable[[], Wait]) -> None:
            nonlocal is_awake
            if not is_awake:
                is_awake = True
                self._go_on(process, lives, how)

        promise.then(lambda value: once(lambda: process.send(value)))
        if until is not None and not is_awake:
            self.at(until, lambda: once(lambda: process.throw(Late())))


def given(process: Generator[Wait, Any, Any], loop: Loop, lives: Callable[[], bool] = lambda: True) -> Promise:
    """Starts a process, and promises what it returns."""
    promise = Promise()

    def whole() -> Process:
        promise.give((yield from process))

    loop.start(whole(), lives)
    return promise
