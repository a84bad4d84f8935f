"""How far long work is, on a terminal alone."""
import sys
import time

import outside

WIDTH = 30


class Progress:
    """A bar on standard error, drawn twice a second at most, where that is a terminal; elsewhere nothing is written."""

    def __init__(self, total):
        """The total of the work; None where nobody knows it."""
        self.total, self.next = total, 0
        self.shown = sys.stderr is not None and sys.stderr.isatty()

    def __enter__(self):
        return self

    def __exit__(self, *_):
        outside.take_bar_away()

    def at(self, done):
        """Says that so much is done."""
        if not self.shown or time.monotonic() < self.next:
            return
        self.next = time.monotonic() + 0.5
        outside.draw_bar(self.bar(done))

    def bar(self, done):
        if not self.total:
            return f'{done} so far'
        part = min(done / self.total, 1)
        return f'[{"#" * int(part * WIDTH):<{WIDTH}}] {part:.0%}'
