"""notes.py: what may come as often as somebody likes, and is noted together: who was denied something, and who was
answered what is about payments. So nobody fills the disk with it."""
from __future__ import annotations
import asyncio
import collections
from typing import Any, TYPE_CHECKING
from . import limits
from .chain import plain
if TYPE_CHECKING:
    from .record import Record


def without_port(address: str) -> str:
    """The host of an address such as 10.0.0.1:4711 or [fd00::1]:4711."""
    host, _, port = address.rpartition(":")
    return host if port.isdigit() and (host.endswith("]") or host and ":" not in host) else address


class Denials:
    """Who was denied something. Not each time is a row, so that nobody fills the disk by being denied."""
    # the request of the first of each kind in this minute, and how many more came
    kinds: dict[tuple[str, ...], list[Any]]
    timer: asyncio.TimerHandle | None
    of: collections.Counter[tuple[str, ...]]  # how many rows of their own each has in this minute, at each address

    def __init__(self, record: Record) -> None:
        self.record, self.kinds, self.others, self.timer = record, {}, 0, None
        self.of = collections.Counter()

    def add(self, who: str, address: str, request: str, what: str, why: str) -> None:
        """Notes a denial if it is the first of its kind in a minute, and else counts it. While the disk fails each is
        only counted."""
        key = tuple(map(plain, (who, without_port(address), what, why)))
        if key in self.kinds:
            self.kinds[key][1] += 1
        elif (len(self.kinds) < limits.DENIED_MOST and self.of[key[:2]] < limits.DENIED_MOST_OF_ONE
              and not self.record.fault):
            self.kinds[key] = [request, 0]
            self.of[key[:2]] += 1
            self.record.note("denied", who, address, request, {"asked": key[2], "why": key[3]})
        else:
            self.others += 1
        if self.timer is None:
            self.timer = asyncio.get_running_loop().call_later(limits.DENIED_SECONDS, self.end_minute)

    def end_minute(self) -> None:
        """Notes what was counted."""
        if self.timer:
            self.timer.cancel()
        self.timer = None
        for (who, address, what, why), (request, more) in self.kinds.items():
            if more:
                self.record.note("denied", who, address, request, {"asked": what, "why": why, "more": more})
        if self.others:
            self.record.note("denied", "", "", "", {"more": self.others})
        self.kinds, self.others = {}, 0
        self.of.clear()


class Reads:
    """Who was answered what is about payments, such as GET /archive. What is read in a second is noted together."""
    all: list[tuple[str, ...]]
    timer: asyncio.TimerHandle | None

    def __init__(self, record: Record) -> None:
        self.record, self.all, self.timer = record, [], None

    def add(self, who: str, address: str, request: str, what: str) -> None:
        """Notes what somebody was answered."""
        self.all.append(tuple(map(plain, (who, without_port(address), request, what))))
        if len(self.all) >= limits.READS_MOST:
            self.note()
        elif self.timer is None:
            self.timer = asyncio.get_running_loop().call_later(limits.READS_SECONDS, self.note)

    def note(self) -> None:
        """Has a row for each who, with what was read from which address."""
        if self.timer:
            self.timer.cancel()
        reads, self.all, self.timer = self.all, [], None
        by: dict[tuple[str, str], list[list[str]]] = {}
        for who, address, request, what in reads:
            by.setdefault((who, address), []).append([request, what])
        for (who, address), its in by.items():
            self.record.note("read", who, address, "", {"reads": its})
