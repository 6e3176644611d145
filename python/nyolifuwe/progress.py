"""How far a night is: one line on a terminal, with a rate and the time left."""

from __future__ import annotations

import sys
import time
from collections import deque
from types import TracebackType
from typing import Deque, Optional, Tuple, Type

from .show import counted, number

EVERY, LOOK_BACK = 0.2, 10.0  # seconds between two lines, and over which the rate is taken
CLEAR = "\r\x1b[K"


def duration(seconds: float) -> str:
    """A time for people."""
    minutes, seconds = divmod(int(seconds + 0.5), 60)
    hours, minutes = divmod(minutes, 60)
    return f"{hours} h {minutes:02} min" if hours else f"{minutes} min {seconds:02} s" if minutes else f"{seconds} s"


def line(done: int, total: int, refused: int, rate: float) -> str:
    """The line that is shown."""
    left = duration((total - done) / rate) if rate else "?"
    return f"{number(done)} of {counted(total, 'trace')}, {rate:,.0f} a second, {left} left, {number(refused)} refused"


class Progress:
    """Counts what is done, and shows it on standard error where that is a terminal."""

    def __init__(self, total: int) -> None:
        self.total = total
        self.done = self.refused = 0
        self.seen: Deque[Tuple[float, int]] = deque([(time.monotonic(), 0)])
        self.shown = sys.stderr is not None and sys.stderr.isatty()

    def step(self, refused: bool) -> None:
        """One more is done."""
        self.done += 1
        self.refused += refused
        now = time.monotonic()
        if now - self.seen[-1][0] >= EVERY:
            self.seen.append((now, self.done))
            self._show(now)

    def _show(self, now: float) -> None:
        """Shows the line, with the rate of the last seconds."""
        while len(self.seen) > 2 and now - self.seen[0][0] > LOOK_BACK:
            self.seen.popleft()
        began, before = self.seen[0]
        rate = (self.done - before) / (now - began)
        self._write(CLEAR + line(self.done, self.total, self.refused, rate))

    def _write(self, text: str) -> None:
        """Writes to the terminal; where it fails, nothing more is shown."""
        try:
            if self.shown:
                print(text, end="", file=sys.stderr, flush=True)
        except OSError:
            self.shown = False

    def __enter__(self) -> Progress:
        return self

    def __exit__(
        self, kind: Optional[Type[BaseException]], error: Optional[BaseException], trace: Optional[TracebackType]
    ) -> None:
        """Takes the line away."""
        self._write(CLEAR)
