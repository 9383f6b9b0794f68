"""acknowledge.py: a post is answered after so many peers hold what it brought, if the configuration says so.

A peer asks for what it lacks with the vector of what it holds, and holds that on its disk. So a site that is lost with
its disk has not acknowledged what nobody else has.
"""
from __future__ import annotations
import asyncio
import time
from typing import Iterable
from . import limits
from .config import Settings
from .faults import Unable
from .keeper import Keeper
from .work import Outcome


class Copies:
    """What peers hold, by the vectors with which they ask."""
    held: dict[int, dict[int, int]]
    asked_at: dict[int, float]
    peers: frozenset[int]

    def __init__(self, keeper: Keeper) -> None:
        self.keeper, self.held, self.asked_at, self.peers, self.news = keeper, {}, {}, frozenset(), asyncio.Event()
        self.many, self.seconds, self.refuses, self.lacked = 0, 0.0, True, 0

    def be(self, settings: Settings) -> None:
        """Waits for as many peers, and as long, as the settings say."""
        self.many, self.seconds, self.peers = (settings.acknowledge, settings.acknowledge_seconds,
                                               frozenset(settings.peers))
        self.refuses = settings.unacknowledged == "refuse"

    def asks(self, number: int, counts: dict[int, int]) -> None:
        """A peer asks, and holds what a vector counts. Who is no peer counts for nothing."""
        if number not in self.peers:
            return
        self.held[number], self.asked_at[number] = counts, time.monotonic()
        self.news.set()
        self.news = asyncio.Event()

    def present(self) -> int:
        """How many peers asked lately."""
        now = time.monotonic()
        return sum(now - at <= limits.ACKNOWLEDGE_LATELY_SECONDS
                   for number, at in self.asked_at.items() if number in self.peers)

    def fault(self) -> str | None:
        """Why posts are refused before anything is taken, or None."""
        if not self.refuses or self.present() >= self.many:
            return None
        return f"{self.present()} peers ask this site now, and a post is answered after {self.many} hold it"

    def must_be_there(self) -> None:
        """Unable if fewer peers ask than a post needs, and posts are refused then."""
        why = self.fault()
        if why:
            raise Unable(why)

    def _holders(self, origin: int, count: int) -> int:
        """How many other sites hold so many messages of a site, which holds its own."""
        others = sum(self.held.get(number, {}).get(origin, 0) >= count for number in self.peers if number != origin)
        return others + (origin in self.peers)

    def _are_held(self, counts: dict[int, int]) -> bool:
        return all(self._holders(origin, count) >= self.many for origin, count in counts.items())

    def _of(self, outcomes: Iterable[Outcome]) -> dict[int, int]:
        """What must be held before some outcomes are answered. A repeat may be of any message that the site holds."""
        words = {outcome.word for outcome in outcomes}
        if "REPEAT" in words:
            return {origin: count for origin, count in enumerate(self.keeper.holding.counts, 1) if count}
        if "TAKEN" in words:
            return {self.keeper.number: max(outcome.number for outcome in outcomes if outcome.word == "TAKEN")}
        return {}

    async def hold(self, outcomes: list[Outcome]) -> None:
        """Waits until enough peers hold what some outcomes say. Unable if they do not in time, and posts are refused
        then."""
        if not self.many:
            return
        counts, until = self._of(outcomes), time.monotonic() + self.seconds
        while not self._are_held(counts):
            left = until - time.monotonic()
            if left <= 0 or not self.refuses and self.present() < self.many:
                self.lacked += 1
                if self.refuses:
                    raise Unable(f"fewer than {self.many} peers hold it yet: send the same again")
                return
            try:
                await asyncio.wait_for(self.news.wait(), min(left, limits.ACKNOWLEDGE_LOOK_SECONDS))
            except asyncio.TimeoutError:
                continue
