"""progress.py: how far a run is: the step, the calls of it that ended, and about how long the rest takes.

A terminal has one line, which is written again. Otherwise each call that ends is a line.
"""
from __future__ import annotations
import sys
import time
from typing import Callable, TextIO

# the steps in their order: what the calls of each are on, and the seconds that it took when docs/developers/costs.md
# was measured
STEPS = {"read": ("blocks", 84), "ties": ("groups", 3), "cut": ("blocks", 17),
         "gather": ("parts", 6), "answer": ("parts", 157),
         "check": ("parts", 25), "merge": ("texts", 83)}
CLEAR = "\r\033[K"  # from here on the line is empty


def clock(seconds: float) -> str:
    """Seconds as minutes and seconds, and from an hour on with hours."""
    minutes, rest = divmod(round(seconds), 60)
    return f"{minutes // 60}:{minutes % 60:02}:{rest:02}" if minutes >= 60 else f"{minutes}:{rest:02}"


class Progress:
    """Says how far a run is, on standard error. `steps` are those that the run has, in their order."""

    def __init__(self, steps: list[str], is_asked: bool, stream: TextIO = sys.stderr,
                 now: Callable[[], float] = time.monotonic) -> None:
        self.steps, self.stream, self.now = list(steps), stream, now
        self.is_terminal = stream.isatty()
        self.is_shown = is_asked or self.is_terminal
        self.began = now()

    def left(self, step: str, done: int, many: int) -> float | None:
        """About how many seconds the rest takes, by the time that what is done took. None if nothing is done yet."""
        shares = [STEPS[name][1] for name in self.steps]
        place = self.steps.index(step)
        part = (sum(shares[:place]) + shares[place] * done / many) / sum(shares)
        return (self.now() - self.began) * (1 - part) / part if part else None

    def text(self, step: str, done: int, many: int) -> str:
        left = self.left(step, done, many)
        about = "" if left is None else f", about {clock(left)} left"
        return (f"parts: step {self.steps.index(step) + 1} of {len(self.steps)}, {step}: {done} of {many} "
                f"{STEPS[step][0]}{about}")

    def say(self, step: str, done: int, many: int) -> None:
        """Says that so many calls of a step have ended."""
        if self.is_terminal:
            self._write(CLEAR + self.text(step, done, many))
        elif self.is_shown and done:
            self._write(self.text(step, done, many) + "\n")

    def end(self) -> None:
        """Removes the line of a terminal."""
        if self.is_terminal:
            self._write(CLEAR)

    def _write(self, text: str) -> None:
        self.stream.write(text)
        self.stream.flush()
