"""clock.py: time that passes, whatever the clock of the machine says: how far that clock jumped, and when what waits
has waited long enough.

What a site saw waits by the monotonic clock. What waited before a start has the time that is left by the clock of the
machine, and at least some minutes: the clock may be wrong at a start, and is set right soon after.
"""
from __future__ import annotations
import calendar
import logging
import time
from typing import Callable, Iterable
from . import limits

log = logging.getLogger("hub")


def seconds_of(text: str) -> float:
    """The seconds of a time of the record, such as 2026-11-29T18:00:00.123Z."""
    full, _, thousandths = text.rstrip("Z").partition(".")
    return calendar.timegm(time.strptime(full, "%Y-%m-%dT%H:%M:%S")) + int(thousandths or 0) / 1000


class Jumps:
    """How far the clock of the machine jumped against the monotonic one."""

    def __init__(self, wall: Callable[[], float] = time.time, steady: Callable[[], float] = time.monotonic) -> None:
        self.wall, self.steady, self.sum = wall, steady, 0.0
        self.before = wall() - steady()

    def look(self) -> bool:
        """Whether it jumped since the last look."""
        now = self.wall() - self.steady()
        jump, self.before = now - self.before, now
        if abs(jump) < limits.JUMP_LEAST_SECONDS:
            return False
        self.sum += abs(jump)
        log.error("the clock of this machine jumped by %+.0f seconds: what waits goes on by the time that passes", jump)
        return True


class Ends:
    """When each line that waits has waited long enough. `most` is how long one waits."""
    ends: dict[int, float]  # by number, in seconds of the monotonic clock
    untils: dict[int, float]  # of those that waited before a start, by the clock of the machine

    def __init__(self, most: float, wall: Callable[[], float] = time.time,
                 steady: Callable[[], float] = time.monotonic) -> None:
        self.most, self.ends, self.untils, self.jumps = most, {}, {}, Jumps(wall, steady)

    def begin(self, number: int) -> None:
        """A line waits from now on, unless it did before."""
        self.ends.setdefault(number, self.jumps.steady() + self.most)

    def are(self, waiting: Iterable[tuple[int, str]]) -> None:
        """These lines wait, each until a time by the clock of the machine. Those that are not known yet waited before
        the site began."""
        for number, until in waiting:
            if number not in self.ends:
                self.untils[number] = seconds_of(until)
                self.ends[number] = self._by_wall(self.untils[number])

    def _by_wall(self, until: float) -> float:
        left = until - self.jumps.wall()
        return self.jumps.steady() + max(min(left, self.most), min(self.most, limits.LEFT_LEAST_SECONDS))

    def end(self, number: int) -> None:
        """A line does not wait any more."""
        self.ends.pop(number, None)
        self.untils.pop(number, None)

    def late(self) -> list[int]:
        """The lines that have waited long enough. After a jump those from before a start are looked at again: none
        waits for less then."""
        if self.jumps.look():
            self.ends.update({number: max(self.ends[number], self._by_wall(until))
                              for number, until in self.untils.items()})
        now = self.jumps.steady()
        return sorted(number for number, end in self.ends.items() if end <= now)
