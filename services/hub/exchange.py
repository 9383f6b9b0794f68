"""exchange.py: a site asks its peers for what it lacks.

Before anything else a site asks each peer for its vector. A peer that counts more messages of this site than this site
has shows that its journal lost lines, and then the site halts. The same is looked at in each later answer, before the
body of the answer is read.

Then there is one task for each peer. It sends the site's vector and waits: the peer answers as soon as it has new
entries of its own, with as many as a text of some bytes has room for. That text is given to the site as it came. A peer
is asked for its own entries alone, and an answer with entries of another site is thrown away: no site speaks for
another one. Only the entries of a site that is retired, or cannot be reached, are asked from the peer that the
configuration names for it. A peer that fails is asked again after a pause, which doubles up to a limit.

Twice a second a question shows the digests of all that the site holds, and the answer has those of the peer at common
counts. With each question for entries of an origin comes at least the digest of that origin. What follows is not
accepted if they differ: the site finds the first entry that differs by halving, and marks the origin. So does the peer,
which asks this site in the same way.

A peer of version 0.3.0 does not know how many bytes it is asked for, and answers with up to 32 MiB. That is still
taken.
"""
from __future__ import annotations
import asyncio
import contextlib
import functools
import logging
import random
import ssl
import time
import aiohttp
from typing import AsyncIterator, Callable, TYPE_CHECKING
from aiohttp.client_proto import ResponseHandler
from aiohttp.http import RawResponseMessage
from . import limits
from .config import must_be_closed
from .digests import SHOWN, Digest, digests_in, first_difference, head_of
from .faults import BadText, Busy, Refused, Unable
from .keeper import Keeper
from .seen import Seen
from .vectors import request_of, vector_of
if TYPE_CHECKING:
    from .config import Settings


log = logging.getLogger("hub")


class BadAnswer(Exception):
    """A peer answered something else than it must."""


class Differs(BadAnswer):
    """A peer has other entries of an origin, which is marked now."""


class OwnAhead(BadAnswer):
    """A peer has more messages of this site than this site."""


# what is said of failures of a connection, the first that fits
SAID: list[tuple[type[Exception], str]] = [
    (asyncio.TimeoutError, "no answer in time"),
    (aiohttp.ClientConnectorCertificateError, "its certificate is not trusted"),
    (aiohttp.ClientConnectorSSLError, "TLS fails"), (aiohttp.ClientConnectorError, "nobody answers at its address"),
    (aiohttp.ServerDisconnectedError, "the connection ended without an answer"),
    (aiohttp.ClientPayloadError, "the answer is cut off"),
    (aiohttp.ClientOSError, "the connection is broken"), (OSError, "the connection is broken")]


def said(fault: Exception) -> str:
    """What is said of a failure. It has no address: it is shown to everyone."""
    if isinstance(fault, (BadAnswer, BadText, Refused, Unable)):
        return str(fault)[:300]
    return next((text for kind, text in SAID if isinstance(fault, kind)), "it does not answer as a site does")


class Answers(ResponseHandler):
    """A connection to a peer. It ends after some interim answers: aiohttp would read them without an end."""
    interim = 0

    def feed_data(self, data: tuple[RawResponseMessage, aiohttp.StreamReader], size: int = 0) -> None:
        self.interim = self.interim + 1 if data[0].code < 200 else 0
        if self.interim <= limits.PEER_MOST_INTERIM:
            super().feed_data(data, size)
        elif self.transport:
            self.set_exception(BadAnswer(f"it answered with more than {limits.PEER_MOST_INTERIM} interim answers"))
            self.transport.abort()


class Peer:
    """A peer, and what is known of it. `others` are the sites whose entries it hands on."""
    counts: dict[int, int]
    closed: str | None
    heard_at: float | None
    fault: str | None
    task: asyncio.Task[None] | None
    equal: dict[int, int]  # how many entries of each origin are those of this site, as far as digests were compared
    compared_at: float | None  # when digests were compared last

    def __init__(self, number: int, address: str, others: list[int], keeper: Keeper, silence: float,
                 version: str, headers: dict[str, str],
                 tls: ssl.SSLContext | None, seen: Seen) -> None:
        self.number, self.address, self.others, self.keeper, self.version = (number, address.rstrip("/"), others,
                                                                             keeper, version)
        self.seen = seen
        self.first_silence = self.silence = silence
        self.pause, self.heard_at, self.fault = limits.PEER_FIRST_PAUSE_SECONDS, None, None
        self.counts, self.closed, self.failures, self.asked_others_at = {}, None, 0, 0.0
        self.equal, self.compared_at, self.turn, self.shows = {}, None, 0, False
        connector = aiohttp.TCPConnector(ssl=tls)
        connector._factory = functools.partial(Answers, loop=asyncio.get_running_loop())
        self.session = aiohttp.ClientSession(auto_decompress=False, headers=headers, trust_env=False,
                                             cookie_jar=aiohttp.DummyCookieJar(), connector=connector)
        self.task = None

    def lag(self) -> int:
        """How many entries the peer had when it was heard last that this site lacks now."""
        counts = self.keeper.holding.counts
        return sum(max(0, count - counts[origin - 1]) for origin, count in self.counts.items() if origin <= len(counts))

    def is_due(self) -> bool:
        """Whether it is time to compare all digests."""
        return self.compared_at is None or time.monotonic() - self.compared_at >= limits.PEER_COMPARE_SECONDS

    def shown(self, origin: int | None) -> dict[str, str]:
        """The head that shows digests: of one origin, or of all, some at a time. An origin that is marked is shown
        before and at the entry that differs, so that the peer sees which it is."""
        its = [one for one in self.keeper.holding.digests.values() if origin in (None, one.origin)]
        places = [place for one in its for place in self._places(one)]
        if len(places) > limits.DIGESTS_MOST_SHOWN:
            self.turn = (self.turn + limits.DIGESTS_MOST_SHOWN) % len(places)
            places = (places[self.turn:] + places)[:limits.DIGESTS_MOST_SHOWN]
        return {SHOWN: head_of(places)} if places else {}

    def _places(self, its: Digest) -> list[Digest]:
        """The digests by which an origin is shown."""
        if its.origin not in self.keeper.marks.forks:
            return [its]
        first, known = self.keeper.marks.forks[its.origin][0], self.keeper.holding.known
        return [Digest(its.origin, count, known[its.origin, count]) for count in (first - 1, first) if count
                and (its.origin, count) in known]

    @contextlib.asynccontextmanager
    async def request(self, path: str, shows: int | None = None, **words: str) -> AsyncIterator[aiohttp.ClientResponse]:
        """An answer of the peer, whose head came in time. It is not sent on to where an answer points. The question
        shows digests of all origins, or of one."""
        timeout = aiohttp.ClientTimeout(total=None, sock_connect=limits.PEER_CONNECT_SECONDS,
                                        sock_read=limits.PEER_WAIT_SECONDS + self.silence)
        # wait_for would lose that the task is ended, if the answer comes just then
        async with asyncio.timeout(limits.PEER_CONNECT_SECONDS + limits.PEER_WAIT_SECONDS + self.silence):
            answer = await self.session.get(f"{self.address}{path}", params=words,
                                            timeout=timeout, allow_redirects=False,
                                            headers={**self.seen.asks(self.number), **self.shown(shows)})
        async with answer:
            yield answer

    def heard(self, answer: aiohttp.ClientResponse) -> None:
        """Looks at the head of an answer: whether it is that of the peer, and whether the peer has more of this site
        than it has."""
        if answer.status != 200:
            raise BadAnswer(f"it answered with status {answer.status}")
        group = self.keeper.group
        name = answer.headers.get("Niluppang-Site")
        if name != f"{self.number}/{group}":
            raise BadAnswer(f"it is site {str(name)[:40]}, and not {self.number}/{group}")
        version = answer.headers.get("Niluppang-Version", "")
        if version.split(".")[0] != self.version.split(".")[0]:
            raise BadAnswer(f"it has version {version[:40]}, and this site {self.version}")
        counts = vector_of(answer.headers.get("Niluppang-Vector", ""), group)
        self.seen.looks(self.number, answer.headers)
        own, held = counts.get(self.keeper.number, 0), self.keeper.holding.counts[self.keeper.number - 1]
        if own > held:
            why = (f"43 OwnAhead: site {self.number} has {own} messages of this site, which has {held}: its journal "
                   "lost lines")
            self.keeper.marks.halt(why)
            raise OwnAhead(why)
        self.counts, self.closed, self.shows = counts, answer.headers.get("Niluppang-Closed"), SHOWN in answer.headers

    async def compares(self, answer: aiohttp.ClientResponse, since: float | None = None) -> None:
        """Compares the digests in the head of an answer with those of this site: of all origins if the question, which
        was sent at a moment, showed all. A peer of an older version shows none. Differs if an origin gets a mark."""
        counts = self.keeper.holding.counts
        shown = digests_in(answer.headers.get(SHOWN, ""), self.keeper.group)[:limits.DIGESTS_MOST_SHOWN]
        its = [one for one in shown if 0 < one.number <= counts[one.origin - 1]]
        if not its:
            return
        own = await self.keeper.digests_of(one[:2] for one in its)
        marked = []
        for theirs, ours in zip(its, own):
            if theirs == ours:
                self.equal[ours.origin] = ours.number
            elif ours.origin not in self.keeper.marks.forks:
                first = await first_difference(ours.number, functools.partial(self._is_equal, ours.origin))
                await self.keeper.digests_of([(ours.origin, first - 1), (ours.origin, first)])
                self.keeper.marks.fork(ours.origin, first, self.number)
                marked.append(ours.origin)
        self.compared_at = since or self.compared_at
        if marked:
            raise Differs(f"it has other entries of {', '.join(f'site {origin}' for origin in marked)} than this site")

    async def _is_equal(self, origin: int, count: int) -> bool:
        """Whether the peer has the same digest of the first entries of an origin as this site."""
        async with self.request("/digests", at=f"{origin}:{count}") as answer:
            self.heard(answer)
            theirs, = digests_in((await self._text(answer)).decode("ascii"), self.keeper.group)
        if theirs[:2] != (origin, count):
            raise BadAnswer(f"it has no digest of {count} entries of site {origin}")
        return theirs.digits == await self.keeper.digest(origin, count)

    def is_equal(self, counts: dict[int, int]) -> bool:
        """Whether the digests of all that a vector counts were compared, and are the same. Of a peer of an older
        version it is not known."""
        return not self.shows or all(self.equal.get(origin) == count for origin, count in counts.items())

    def is_well(self) -> None:
        self.heard_at, self.pause, self.silence = time.monotonic(), limits.PEER_FIRST_PAUSE_SECONDS, self.first_silence
        if self.fault:
            log.info("site %d answers again", self.number)
            self.fault = None

    async def hear(self) -> None:
        """Asks for the vector until the peer answers with it."""
        while True:
            try:
                async with self.request("/vector") as answer:
                    self.heard(answer)
                    await self.compares(answer, time.monotonic())
                return self.is_well()
            except (Differs, OwnAhead) as fault:
                self.failed(fault)
                self.heard_at = time.monotonic()
                return
            except Exception as fault:
                self.failed(fault)
                await self.rest()

    async def once(self) -> int:
        """Asks once for what the peer has of its own, and for what it hands on: from time to time, and as long as
        something comes. How many entries are new."""
        fresh = 0
        if time.monotonic() - self.asked_others_at > limits.PEER_WAIT_SECONDS:
            for origin in self.others:
                fresh += await self._fetched(origin)
            self.asked_others_at = 0.0 if fresh else time.monotonic()
        fresh += await self._fetched(self.number, wait=str(0 if fresh else limits.PEER_COMPARE_SECONDS))
        await self.seen.keep()
        self.is_well()
        return fresh

    async def catch_up(self) -> None:
        """Asks until this site holds what the peer had when it was heard, of its own and of what it hands on. What
        comes meanwhile may lack: it would have no end while clients post."""
        had = [(origin, self.counts.get(origin, 0))
               for origin in (self.number, *self.others)] if self.heard_at is not None else []
        while any(self.keeper.holding.counts[origin - 1] < count for origin, count in had) and await self.once():
            pass

    async def _fetched(self, origin: int, **words: str) -> int:
        """Asks for the entries of a site that this site lacks, and accepts them. How many are new. Of a site that is
        marked nothing is asked for: the digests alone are compared."""
        if origin in self.keeper.marks.forks:
            await self._looks()
            return 0
        since = time.monotonic() if self.is_due() else None
        of = {"have": self.keeper.holding.vector, "of": str(origin), "most": str(limits.DELTA_MOST_BYTES)}
        async with self.request("/delta", None if since else origin, **of, **words) as answer:
            self.heard(answer)
            await self.compares(answer, since)
            delta = request_of(await self._text(answer), origin)
        return await self._accepts(delta) if delta else 0

    async def _looks(self) -> None:
        """Compares digests after a while."""
        await asyncio.sleep(limits.PEER_COMPARE_SECONDS)
        since = time.monotonic()
        async with self.request("/vector") as answer:
            self.heard(answer)
            await self.compares(answer, since)

    @staticmethod
    async def _text(answer: aiohttp.ClientResponse) -> bytes:
        text = bytearray()
        async for part in answer.content.iter_any():
            if len(text) + len(part) > limits.PEER_ANSWER_MOST_BYTES:
                raise BadAnswer(f"its answer has more than {limits.PEER_ANSWER_MOST_BYTES} bytes")
            text += part
        return bytes(text)

    async def _accepts(self, delta: bytes) -> int:
        while True:
            try:
                return await self.keeper.accept(delta)
            except Busy:
                await asyncio.sleep(0.1)

    def failed(self, fault: Exception) -> None:
        """Remembers that the peer failed, and logs it if it did not fail so before. A halt has its own line in the
        log."""
        self.failures += 1
        self.seen.away(self.number)
        if isinstance(fault, asyncio.TimeoutError):
            self.silence = min(2 * self.silence, limits.PEER_MOST_SILENCE_SECONDS)
        text = said(fault)
        if text != self.fault and not isinstance(fault, (Differs, OwnAhead)):
            log.warning("site %d at %s: %s", self.number, self.address, str(fault) or text)
        self.fault = text

    async def rest(self) -> None:
        await asyncio.sleep(self.pause * random.uniform(0.5, 1))
        self.pause = min(2 * self.pause, limits.PEER_MOST_PAUSE_SECONDS)

    async def follow(self) -> None:
        """Asks again and again, for ever. No failure ends it."""
        while True:
            try:
                if not await self.once():
                    await asyncio.sleep(limits.PEER_REST_SECONDS)
            except Exception as fault:
                self.failed(fault)
                await self.rest()

    async def end(self) -> None:
        if self.task:
            self.task.cancel()
            await asyncio.gather(self.task, return_exceptions=True)
        await self.session.close()


class Peers:
    """All peers of a site. `context` makes the TLS of a peer, by its number."""
    all: list[Peer]

    def __init__(self, keeper: Keeper, version: str) -> None:
        self.keeper, self.version, self.all, self.follows = keeper, version, [], False
        self.seen = Seen(keeper.files.seen)

    async def be(self, settings: Settings, context: Callable[[int], ssl.SSLContext | None]) -> None:
        """Has the peers that the settings name. Those that were there before are asked anew."""
        headers = {"Niluppang-Site": f"{settings.site}/{settings.group}"}
        if settings.peer_token:
            must_be_closed(settings.peer_token, is_secret=True)
            with open(settings.peer_token, encoding="utf-8") as file:
                headers["Authorization"] = f"Bearer {file.read().strip()}"
        # what fails above and here leaves the peers as they are
        contexts = {number: context(number) for number in settings.peers}

        def handed_on(number: int) -> list[int]:
            return sorted(origin for origin, peer in settings.through.items() if peer == number)

        before, self.all = (self.all, [Peer(number, address, handed_on(number), self.keeper, settings.silence,
                                            self.version, headers, contexts[number], self.seen)
                                       for number, address in sorted(settings.peers.items())])
        for peer in before:
            await peer.end()
        if self.follows:
            self.follow()

    async def hear(self, least: Callable[[], int], is_ended: Callable[[], object]) -> None:
        """Asks each peer for its vector, before the site takes anything. It ends when as many as `least` says were
        heard, and all of them were or some seconds have passed. Meanwhile the configuration may name other peers."""
        tasks: dict[Peer, asyncio.Task[None]] = {}
        until = time.monotonic() + (limits.PEERS_HEARING_SECONDS if least() else 1)
        while not is_ended() and (self.heard() < least() or self.heard() < len(self.all) and time.monotonic() < until):
            for peer in set(self.all) - set(tasks):
                tasks[peer] = asyncio.ensure_future(peer.hear())
            for peer in set(tasks) - set(self.all):
                tasks[peer].cancel()
            await asyncio.sleep(0.02)
        for task in tasks.values():
            task.cancel()
        await asyncio.gather(*tasks.values(), return_exceptions=True)

    def heard(self) -> int:
        """How many peers have answered."""
        return sum(peer.heard_at is not None for peer in self.all)

    def wrong_records(self) -> dict[int, str]:
        """What is wrong with the records of peers, by their numbers."""
        return {peer.number: self.seen.faults[peer.number] for peer in self.all if peer.number in self.seen.faults}

    def others(self, day: str, vector: str) -> list[int]:
        """The peers that are not known to be closed for a day, or to hold what a vector counts: the same entries, by
        their digests."""
        counts = vector_of(vector)
        return [peer.number for peer in self.all if peer.closed != day or peer.counts != counts
                or not peer.is_equal(counts)]

    def follow(self) -> None:
        """From now on each peer is asked."""
        self.follows = True
        for peer in self.all:
            if peer.task is None:
                peer.task = asyncio.ensure_future(peer.follow())

    async def end(self) -> None:
        for peer in self.all:
            await peer.end()
