"""costs.py: what a client may use of a site, and who is served next: rooms, accounts and turns.

What costs is charged to who asks. A room has a floor for each client that nobody else can take. Slots are taken in
turn: who asks much waits behind itself, and not before the others. Where one client is all that there is, as without
roles, it has everything.
"""
from __future__ import annotations
import asyncio
import collections
import contextlib
import math
import time
from typing import AsyncIterator, Callable, Deque, Dict, Hashable, Iterable, Iterator, Mapping
from . import limits
from .faults import Busy, TooMany

DAY = 86400  # seconds

Clients = Callable[[], int]  # how many clients there are


def price(size: int, lines: Iterable[int]) -> int:
    """What a post of so many bytes costs, by the bytes of its lines that are not blank: a long line costs more than
    one."""
    return max(size // limits.LINE_COST_BYTES, sum(max(1, line // limits.LINE_COST_BYTES) for line in lines))


class Room:
    """What clients share, such as bytes of memory. Half of it are floors, one for each client. Of the other half a
    client may have what is left, up to a quarter of the room in all."""

    def __init__(self, most: int, clients: Clients) -> None:
        self.most, self.clients = most, clients
        self.used: collections.Counter[str] = collections.Counter()

    def total(self) -> int:
        return sum(self.used.values())

    def take(self, name: str, size: int) -> None:
        """Takes some of the room. Busy if it is not there."""
        clients, after = self.clients(), self.used[name] + size
        floor = self.most // 2 // clients
        beyond = sum(max(0, used - floor) for other, used in self.used.items() if other != name) + max(0, after - floor)
        share = self.most if clients == 1 else max(self.most // limits.ROOM_PARTS, floor)
        if after > share or after > floor and beyond > self.most - clients * floor:
            raise Busy()
        self.used[name] = after

    def give(self, name: str, size: int) -> None:
        """Gives some of it back."""
        self.used[name] -= size
        if not self.used[name]:
            del self.used[name]

    @contextlib.contextmanager
    def held(self, name: str) -> Iterator[Callable[[int], None]]:
        """What takes some of the room, as often as it is called. All is given back at the end."""
        sizes: list[int] = []

        def more(size: int) -> None:
            self.take(name, size)
            sizes.append(size)
        try:
            yield more
        finally:
            if sizes:
                self.give(name, sum(sizes))


class Accounts:
    """What clients may spend: each so much a second, and so much at once. What a request costs may be known afterwards:
    then it is owed."""

    def __init__(self, rate: int, most: int) -> None:
        self.rate, self.most = rate, most
        self.kept: Dict[str, tuple[float, float]] = {}  # what was left of each, and when

    def left(self, name: str) -> float:
        left, at = self.kept.get(name, (self.most, 0.0))
        return min(self.most, left + (time.monotonic() - at) * self.rate)

    def take(self, name: str, many: float) -> None:
        """Spends something. TooMany if it is not there."""
        left = self.left(name)
        if many > left:
            raise TooMany(math.ceil((many - left) / self.rate))
        self.owe(name, many)

    def late(self, name: str) -> float:
        """The seconds after which what is owed is made good."""
        return max(0.0, -self.left(name) / self.rate)

    def owe(self, name: str, many: float) -> None:
        """Spends something that was done already: nothing more is there before it is made good."""
        left = self.left(name) - many
        if len(self.kept) >= limits.ACCOUNTS_MOST and name not in self.kept:
            self.kept = {other: it for other, it in self.kept.items() if self.left(other) < self.most}
        self.kept[name] = left, time.monotonic()


class Days:
    """What clients have used of what each may use in a day of UTC, since the site began."""

    def __init__(self) -> None:
        self.day, self.used = 0, collections.Counter[tuple[str, str]]()

    def take(self, name: str, quota: Mapping[str, int], amounts: Mapping[str, int]) -> None:
        """Uses some amounts, such as lines. TooMany if one of them is more than is left of the day."""
        day, seconds = divmod(int(time.time()), DAY)
        if day != self.day:
            self.day, self.used = day, collections.Counter()
        for of, most in quota.items():
            if self.used[name, of] + amounts[of] > most:
                raise TooMany(DAY - seconds, f"a day has {most} {of} of this client")
        for of in quota:
            self.used[name, of] += amounts[of]

    def ratios(self, quotas: Mapping[str, Mapping[str, int]]) -> Iterator[tuple[str, str, float]]:
        """How much of each quota is used: of whom, of what, and the part."""
        is_today = self.day == int(time.time()) // DAY
        for name, quota in quotas.items():
            for of, most in quota.items():
                yield name, of, self.used[name, of] / most if is_today else 0.0


class Often:
    """Counts what comes often, in the memory of some counters. A count is too small by at most the number of all that
    came, divided by the number of counters."""

    def __init__(self, most: int = limits.ACCOUNTS_MOST) -> None:
        self.most = most
        self.counts: Dict[Hashable, int] = {}

    def count(self, what: Hashable) -> int:
        return self.counts.get(what, 0)

    def add(self, what: Hashable) -> None:
        if what in self.counts or len(self.counts) < self.most:
            self.counts[what] = self.count(what) + 1
        else:
            self.counts = {other: many - 1 for other, many in self.counts.items() if many > 1}


class Turns:
    """Slots that clients take in turn. Each has some at a time, and those who wait are served round, one of each client
    after the other."""

    def __init__(self, most: int, clients: Clients, each: int = 1) -> None:
        self.most, self.clients, self.each = most, clients, each
        self.busy: collections.Counter[str] = collections.Counter()
        self.waiting: Dict[str, Deque[asyncio.Future[None]]] = {}
        self.served: Dict[str, int] = {}  # the number of the last slot that each had
        self.rested_at: Dict[str, float] = {}

    @contextlib.asynccontextmanager
    async def turn(self, name: str, rest: bool = False) -> AsyncIterator[None]:
        """A slot, when the client has its turn. Busy if too many of it wait already. If it rests, it has no more slots
        for as long as this one took: so it has half of the time at most."""
        await self._wait(name)
        began = time.monotonic()
        try:
            yield
        finally:
            self._leave(name, time.monotonic() - began if rest else 0.0)

    async def _wait(self, name: str) -> None:
        waiter = asyncio.get_running_loop().create_future()
        queue = self.waiting.setdefault(name, collections.deque())
        if len(queue) >= limits.TURN_MOST_WAITING:
            raise Busy()
        queue.append(waiter)
        self._serve()
        try:
            await waiter
        except asyncio.CancelledError:
            if not waiter.cancelled():
                self._leave(name, 0.0)
            elif waiter in queue:
                queue.remove(waiter)
            raise

    def _leave(self, name: str, pause: float) -> None:
        self.busy[name] -= 1
        if not self.busy[name]:
            del self.busy[name]
        if pause and self.clients() > 1:
            self.rested_at[name] = time.monotonic() + pause
            asyncio.get_running_loop().call_later(pause, self._serve)
        self._serve()

    def _may(self, name: str) -> bool:
        """Whether a client may have one more slot now."""
        if self.clients() == 1:
            return True
        return self.busy[name] < self.each and self.rested_at.get(name, 0.0) <= time.monotonic()

    def _serve(self) -> None:
        """Gives slots that are free to those who wait."""
        self.rested_at = {name: at for name, at in self.rested_at.items() if at > time.monotonic()}
        while self.busy.total() < self.most:
            self.waiting = {name: queue for name, queue in self.waiting.items() if queue}
            name = min(filter(self._may, self.waiting), key=lambda one: self.served.get(one, 0), default=None)
            if name is None:
                return
            waiter = self.waiting[name].popleft()
            if not waiter.done():  # else who waited has gone
                waiter.set_result(None)
                self.busy[name] += 1
                self.served[name] = max(self.served.values(), default=0) + 1
