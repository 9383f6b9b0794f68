"""for_peers.py: what other sites ask: the vector of what is held, digests, and the entries that they lack."""
from __future__ import annotations
import asyncio
import collections
import contextlib
import time
from aiohttp import web
from . import digests, limits, seen
from .faults import BadText, Busy, Unable
from .front import TEXT, Front
from .parts import Parts
from .shares import Shares
from .vectors import NO_ENTRIES, number, vector_of


class ForPeers:
    """What other sites ask."""
    waits: collections.Counter[str]  # questions for deltas that wait, of each client

    def __init__(self, parts: Parts, front: Front, shares: Shares) -> None:
        self.parts, self.keeper, self.front, self.shares = parts, parts.keeper, front, shares
        self.news, self.asked_deltas, self.waits = asyncio.Event(), 0, collections.Counter()

    def round(self) -> None:
        """After a round of the site: those who wait look again."""
        self.news.set()
        self.news = asyncio.Event()

    def who(self, vector: str) -> dict[str, str]:
        """What a peer looks at before the body of an answer. The day says that the vector counts each message that the
        site ever took."""
        is_last = self.keeper.marks.is_final and vector == self.keeper.holding.vector
        return {"Niluppang-Site": f"{self.keeper.number}/{self.keeper.group}",
                "Niluppang-Version": self.parts.version, "Niluppang-Vector": vector,
                seen.END: seen.text_of(self.parts.record.last()),
                **({"Niluppang-Closed": self.keeper.marks.closed} if is_last and self.keeper.marks.closed else {})}

    async def _row(self, request: web.Request) -> dict[str, str]:
        """The row of the record that a peer asks for, which it saw before."""
        number = request.headers.get(seen.END, "")
        row = None
        if number.isascii() and number.isdecimal() and len(number) <= 18 and (self.parts.guard.roles.is_open
                                                                              or request["who"].peers):
            with contextlib.suppress(Unable):  # it asks again later
                row = await self.parts.record.row(int(number))
        return {seen.ROW: seen.text_of(row)} if row else {}

    def _peer(self, request: web.Request) -> int | None:
        """The number of the peer that asks. Without roles it is the site that it says. None if it is no peer."""
        name, slash, group = request.headers.get("Niluppang-Site", "").partition("/")
        if slash and name.isascii() and name.isdecimal() and len(name) <= 4 and group == str(self.keeper.group):
            if self.parts.guard.roles.is_open or int(name) in request["who"].peers:
                return int(name)
        return None

    async def _digests(self, request: web.Request) -> tuple[dict[str, str], bool]:
        """The head with digests: to a peer at the counts at which it shows its own, or of all that is held if that is
        less. To others those of all that is held. And whether a peer shows others. An origin gets a mark if they are
        the same before an entry, and differ at it."""
        peer = self._peer(request)
        shown = digests.digests_in(request.headers.get(digests.SHOWN, ""),
                                   self.keeper.group)[:limits.DIGESTS_MOST_SHOWN] if peer else []
        if peer is None or not shown:
            its = list(self.keeper.holding.digests.values())[:limits.DIGESTS_MOST_SHOWN]
            return {digests.SHOWN: digests.head_of(its)}, False
        async with self.shares.asked.turn(request["who"].name):
            own = await self.keeper.digests_of(its[:2] for its in shown)
        held = {its[:2]: its.digits for its in own}
        pairs = [(its, held[its[:2]]) for its in shown if its[:2] in held]
        for origin, first in digests.forks_in(pairs):
            self.keeper.marks.fork(origin, first, peer)
        return {digests.SHOWN: digests.head_of(own)}, any(its.digits != ours for its, ours in pairs
                                                          if its.origin not in self.keeper.marks.forks)

    async def digests(self, request: web.Request) -> web.StreamResponse:
        """The digests of all that is held, or at the counts of a vector."""
        counts = vector_of(request.query.get("at", "-"), self.keeper.group)
        if len(counts) > limits.DIGESTS_MOST_SHOWN:
            raise BadText(f"at has at most {limits.DIGESTS_MOST_SHOWN} sites")
        lacking = [origin for origin, count in counts.items() if count > self.keeper.holding.counts[origin - 1]]
        if lacking:
            raise BadText(f"it holds {self.keeper.holding.counts[lacking[0] - 1]} entries of site {lacking[0]}, and "
                          f"{counts[lacking[0]]} are asked for")
        async with self.shares.asked.turn(request["who"].name):
            its = await self.keeper.digests_of(counts.items()) if counts else self.keeper.holding.digests.values()
        return await self.front.sent(request, digests.text_of(its).encode(),
                                     headers=self.who(self.keeper.holding.vector))

    async def vector(self, request: web.Request) -> web.StreamResponse:
        (shown, _), row = await self._digests(request), await self._row(request)
        more = {**shown, **row}
        return await self.front.sent(request, f"{self.keeper.holding.vector}\n".encode(),
                                     headers={**self.who(self.keeper.holding.vector), **more})

    async def delta(self, request: web.Request) -> web.StreamResponse:
        """The entries of one site above a vector, as many as have room in some bytes. With `wait` not before there are
        some. A peer of version 0.3.0 does not say how many bytes."""
        self.asked_deltas += 1
        have = vector_of(request.query.get("have", "-"))
        self._asks(request, have)
        of, most = (number(request.query.get("of", ""), self.keeper.group),
                    number(request.query.get("most", str(limits.DELTA_MOST_BYTES)), limits.DELTA_MOST_BYTES))
        wait = seconds_in(request.query.get("wait", "0"))
        if not of or not most:
            raise BadText("of is a site, and most is a number of bytes")
        shown, is_other = await self._digests(request)
        if wait and not is_other:  # a peer that has other entries knows it at once
            await self._until_more(request["who"].name, have.get(of, 0), of, wait)
            self.front.must_may(request)
            shown, _ = await self._digests(request)
        row = {**shown, **await self._row(request)}
        if self.keeper.holding.counts[of - 1] <= have.get(of, 0):
            return await self.front.sent(request, NO_ENTRIES, headers={**self.who(self.keeper.holding.vector), **row})
        async with self.shares.deltas.turn(request["who"].name, True):
            answer = await self.keeper.answer(b"? entries %d %d %d" % (of, have.get(of, 0), most))
        return await self.front.sent(request, answer.text, TEXT, self.shares.sent_deltas,
                                     {**self.who(answer.vector), **row})

    def _asks(self, request: web.Request, have: dict[int, int]) -> None:
        """Takes note of what a peer holds that asks."""
        peer = self._peer(request)
        if peer is not None:
            self.parts.posts.copies.asks(peer, have)

    async def _until_more(self, name: str, have: int, of: int, seconds: float) -> None:
        """Waits until the site holds more entries of an origin, or for some seconds. Busy if too many questions of a
        client wait."""
        if self.waits[name] >= limits.DELTA_MOST_WAITS:
            raise Busy()
        end = time.monotonic() + seconds
        self.waits[name] += 1
        try:
            while self.keeper.holding.counts[of - 1] <= have and time.monotonic() < end:
                with contextlib.suppress(asyncio.TimeoutError):
                    await asyncio.wait_for(self.news.wait(), end - time.monotonic())
        finally:
            self.waits[name] -= 1


def seconds_in(text: str) -> float:
    """Seconds for which a peer waits."""
    try:
        seconds = min(float(text[:9]), limits.DELTA_MOST_WAIT_SECONDS)
    except ValueError:
        seconds = -1
    if not seconds >= 0:
        raise BadText("wait is seconds")
    return seconds
