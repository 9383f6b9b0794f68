"""rounds.py: what waits goes to the process of a site in rounds, and each reply is handed on when it has come.

A round has the lines and deltas that wait, up to a number of bytes, and then the questions. What has a reply is on the
disk. If the process ends, what has no reply is sent again, after it was started again. A request with which the process
ended several times is given up. After each round the process is asked for the digests of what it holds.

If the disk fails, the process ends, and all who wait to write get an error. It is started again, and answers questions.
Before the next lines go to it, the disk is tried with as many bytes.
"""
from __future__ import annotations
import asyncio
import collections
import dataclasses
import logging
import time
from typing import Callable
from . import limits, process
from .changes import Changes
from .faults import Unable
from .files import Held, Wrong
from .process import Ended, Reply
from .starts import DIGESTS, EVALUATE, REPLACED, Core, Starts
from .vectors import origin_in
from .work import Work

FORK, OWN_AHEAD = 42, 43
log = logging.getLogger("hub")


@dataclasses.dataclass
class Measured:
    """What monitors are shown: how many replies had each word or number, and how many rounds there were, and how long
    they took."""
    numbers: collections.Counter[str | int] = dataclasses.field(default_factory=collections.Counter)
    rounds: int = 0
    seconds: float = 0.0


class Rounds:
    """The rounds of a site."""
    task: asyncio.Task[None] | None
    on_round: Callable[[Changes], object]  # called after a round with the changed transfers
    on_failure: Callable[[], object]  # called if the site cannot go on

    def __init__(self, core: Core, starts: Starts) -> None:
        self.core, self.starts, self.measured, self.is_wrong, self.task = core, starts, Measured(), False, None
        self.on_round = lambda changes: None
        self.on_failure = lambda: None
        starts.on_restart = lambda: self.on_round(None)

    def begin(self) -> None:
        self.task = asyncio.ensure_future(self.run())

    async def run(self) -> None:
        """One round after another, until the end or until the site cannot go on."""
        queue = self.core.queue
        try:
            while await self._next_round():
                pass
        except Exception as fault:
            log.exception("the site ends")
            queue.failure, self.is_wrong = f"the site ended: {fault}", isinstance(fault, (Wrong, Held))
            self.on_failure()
        queue.fail_all(queue.failure or "the service ends")

    async def _next(self) -> list[Work] | None:
        """What is done in this round: nothing if the process ended. None at the end."""
        queue = self.core.queue
        while not (queue.all or queue.is_over or self.starts.is_gone()):
            queue.some.clear()
            await queue.some.wait()
        if self.starts.is_gone() and not queue.is_over:
            return []
        return queue.next() if queue.all else None

    async def _next_round(self) -> bool:
        """Does some of what waits. False at the end."""
        works = self.core.queue.under_way = await self._next()
        if works is None:
            return False
        if not works:
            await self._process_ended(await self.starts.there().ended(), [])
            return True
        writes = self._able([work for work in works if work.is_write()])
        questions = [work for work in works if not work.is_write()]
        try:
            self.starts.there()
            await self._written(writes)
            changes = await self.core.watch.changed(self.starts.exchange) if writes else []
            await self._do(questions)
        except Ended as end:
            await self._process_ended(end, writes + questions)
            return True
        if writes:
            self.on_round(changes)
        return True

    def _able(self, writes: list[Work]) -> list[Work]:
        """Those of some lines and deltas that the process is given. The others get an error."""
        for work in writes:
            why = self.core.marks.refusal() if work.kind == "take" else None
            if why:
                work.settle(fault=why)
        if not self.starts.has_its_journal():
            for work in writes:
                work.settle(fault=Unable(REPLACED, True))
        writes, disk = [work for work in writes if not work.done.done()], self.core.disk
        if not disk.is_full or not writes:
            return writes
        try:
            self.core.files.try_room(max(disk.failed_size, sum(work.size for work in writes)))
        except OSError as fault:
            for work in writes:
                work.settle(fault=Unable(f"the disk fails: {fault.strerror}", True))
            return []
        disk.is_full = False
        log.warning("the disk has room again")
        return writes

    async def _written(self, writes: list[Work]) -> None:
        """Gives lines and deltas to the process, and hands their replies on."""
        if not writes:
            return
        began, holding = time.monotonic(), self.core.holding
        await self._do(writes, True)
        self.measured.rounds += 1
        self.measured.seconds += time.monotonic() - began
        if holding.unseen >= limits.UNSEEN_MOST_ENTRIES:
            await self.starts.exchange([(EVALUATE, limits.TEXT_MOST_BYTES)])
            holding.unseen = 0

    async def _do(self, works: list[Work], writes: bool = False) -> None:
        """Gives the process what has no reply yet. Each is settled when its last reply came, and a delta when the
        digests after it are known, too: who handed it on shows them when it asks for what follows."""
        holding = self.core.holding
        waiting = [(work, request) for work in works for request in work.requests[len(work.replies):]]

        def settle(place: int, reply: Reply) -> None:
            if place == len(waiting):
                return holding.hold(reply, self.core.program)
            work, _ = waiting[place]
            work.replies.append(reply)
            self._note(work, reply)
            if len(work.replies) == len(work.requests) and work.kind != "accept":
                work.settle(holding.vector)
        if waiting:
            await self.starts.there().ask([*((request, work.most) for work, request in waiting),
                                           *([(DIGESTS, limits.TEXT_MOST_BYTES)] if writes else [])], settle)
        for work in works:
            work.settle(holding.vector)

    def _note(self, work: Work, reply: Reply) -> None:
        """Keeps the counts, and halts the site after what it must not go on after."""
        core, numbers = self.core, self.measured.numbers
        number = int(reply.rest.split()[0]) if reply.word == b"REFUSED" else None
        if work.kind == "take":
            numbers[reply.word.decode()] += 1
            if reply.word == b"TAKEN":
                core.holding.took(int(reply.rest))
        elif work.kind == "accept" and reply.word == b"ACCEPTED":
            core.holding.accepted(work.requests[0], int(reply.rest))
        elif work.kind == "accept" and number == FORK:
            origin, first = map(int, reply.rest.split()[1:3])
            core.marks.fork(origin, first, origin_in(work.requests[0]))
        elif work.kind == "accept" and number == OWN_AHEAD:
            core.marks.halt(f"a delta was refused: {reply.rest.decode()} OwnAhead")
        if number and work.kind != "ask":
            numbers[number] += 1

    async def _process_ended(self, end: Ended, works: list[Work]) -> None:
        """The process ended: what has no reply is sent again, unless the disk fails or the process ended with it
        several times."""
        left, disk = [work for work in works if not work.done.done()], self.core.disk
        log.error("the process ended with %d requests under way: %s", len(left), end)
        self.starts.process = None
        if end.fault == process.DISK:
            disk.is_full, disk.failed_size = True, sum(work.size for work in left if work.kind != "ask")
        again = []
        for work in left:
            work.ends += 1
            if disk.is_full and work.kind != "ask":
                work.settle(fault=Unable(f"the disk fails: {end}", True))
            elif work.ends >= limits.REQUEST_MOST_ENDS:
                work.settle(fault=Unable(f"the process ended {work.ends} times with it: {end}"))
            else:
                again.append(work)
        self.core.queue.put_back(again)
        await self.starts.again()

    async def end(self) -> None:
        """Ends the rounds after what waits."""
        self.core.queue.is_over = True
        self.core.queue.some.set()
        if self.task:
            await asyncio.wait([self.task], timeout=30)
