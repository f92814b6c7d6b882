"""A bar that shows how far a stream is, where standard error is a terminal."""

from __future__ import annotations

import sys
import time
from typing import Optional

_WIDTH = 30
_SECONDS = 0.1


class Progress:
    """Counts what is done; ``whole`` is how much there is, where it is known."""

    def __init__(self, whole: Optional[int], wanted: bool = True) -> None:
        self.whole, self.count, self.done = whole, 0, 0
        self.begun = self.shown = time.monotonic()
        self.wanted = wanted and sys.stderr is not None and sys.stderr.isatty()

    def add(self, size: int, count: int = 1) -> None:
        """So many more are done, of this size together, and nothing is shown."""
        self.count += count
        self.done += size

    def step(self, size: int, count: int = 1) -> None:
        """So many more are done, of this size together."""
        self.add(size, count)
        now = time.monotonic()
        if self.wanted and now - self.shown >= _SECONDS:
            self.shown = now
            self._show(now)

    def _show(self, now: float) -> None:
        rate = self.count / max(now - self.begun, 1e-9)
        text = f"{self.count} done, {rate:.0f} a second"
        if self.whole:
            part = min(self.done / self.whole, 1.0)
            full = int(part * _WIDTH)
            text = f"[{'#' * full}{'.' * (_WIDTH - full)}] {100 * part:3.0f} %, {text}"
        self.say(text)

    def say(self, text: str) -> None:
        """Shows a text in place of the bar."""
        if self.wanted:
            sys.stderr.write(f"\r{text}\x1b[K")
            sys.stderr.flush()

    def end(self) -> None:
        """Takes the bar away."""
        if self.wanted:
            sys.stderr.write("\r\x1b[K")
            sys.stderr.flush()
