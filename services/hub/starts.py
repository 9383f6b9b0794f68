"""starts.py: the process `serve` of a site: its starts, what it holds then, and whether it lives.

A process that ends, while it begins or while nobody asks, is started again at once. One that says nothing for long is
no process: the site is then not ready, and later it is ended. What the program is stays as it was when the site began.

A process that is started again must hold what the one before it held. While none starts, all get an error.
"""
from __future__ import annotations
import asyncio
import dataclasses
import errno
import logging
import time
from typing import Callable
from . import limits, opening, process
from .changes import CHANGES, Watch
from .files import Files, Held, Wrong
from .holding import Holding
from .marks import Marks
from .process import Ended, Process, Program, Reply
from .vectors import listed
from .work import Disk, Queue

NEVER = (errno.ENOENT, errno.EACCES, errno.ENOEXEC)  # why no program is started at this path, however often it is tried
EVALUATE, DIGESTS = b"? evaluate", b"? digests"
REPLACED = "another file is in the place of the journal, or none: posts would be lost with it"
log = logging.getLogger("hub")


@dataclasses.dataclass
class Core:
    """What the queue before a process knows: what waits, what is held, what is marked and who watches."""
    files: Files
    program: str
    queue: Queue
    holding: Holding
    marks: Marks
    watch: Watch
    disk: Disk


class Starts:
    """The process of a site, which is started again whenever it ends."""
    process: Process | None
    image: Program  # the program, as it was when the site began
    inode: tuple[int, int] | None  # which file the process has
    lost_at: float | None  # since when there is no process that answers
    tasks: list[asyncio.Task[None]]

    def __init__(self, core: Core) -> None:
        self.core, self.process, self.inode, self.lost_at = core, None, None, time.monotonic()
        self.restarts, self.tasks = -1, []
        self.on_restart: Callable[[], object] = lambda: None  # called when a process was started again

    # ---- whether it lives

    def has_its_journal(self) -> bool:
        """Whether the journal is the file that the process was given at first."""
        return self.inode is None or self.core.files.identity() == self.inode

    def silence(self) -> float:
        """The seconds in which the process owes a reply and says nothing."""
        since = self.process.since if self.process else None
        return 0.0 if since is None else time.monotonic() - since

    def absence(self) -> str | None:
        """Why there is no process that answers, or None."""
        if self.lost_at is not None:
            return self.core.queue.away or "the process is started again"
        is_silent = self.silence() > limits.PROCESS_SILENT_SECONDS
        return f"the process has said nothing for {round(self.silence())} seconds" if is_silent else None

    def lives(self) -> bool:
        """Whether the process answers, or its start lasts no longer than it may."""
        if self.lost_at is None:
            return not self.core.queue.failure and self.silence() <= limits.PROCESS_SILENT_SECONDS
        return not self.core.queue.failure and time.monotonic() - self.lost_at <= self._most_of_start()

    def is_gone(self) -> bool:
        return self.process is None or self.process.has_ended()

    def there(self) -> Process:
        """The process, which runs. Ended if it does not."""
        if self.process is None:
            raise Ended(None, None, "the service ends")
        return self.process

    async def exchange(self, requests: list[tuple[bytes, int]]) -> list[Reply]:
        """The replies to some requests of the queue itself."""
        replies: list[Reply] = []
        await self.there().ask(requests, lambda _, reply: replies.append(reply))
        return replies

    async def _watch(self, its: Process) -> None:
        """Sees that a process ends, be it asked or not. One that is silent for too long is ended."""
        ended = asyncio.ensure_future(its.child.wait())
        while not ended.done():
            await asyncio.wait([ended], timeout=1)
            is_silent = self.silence() > limits.PROCESS_MOST_SILENT_SECONDS + its.size / limits.ROUND_BYTES_A_SECOND
            if its is self.process and is_silent and not self.core.queue.away:
                self._give_up(f"the process said nothing for {round(self.silence())} seconds, and is ended")
                its.stop()
        self.core.queue.some.set()

    def _give_up(self, why: str) -> None:
        """Says to all who wait why they get nothing, and to all who come before there is a process again."""
        self.core.queue.away, self.lost_at = why, self.lost_at or time.monotonic()
        log.error("%s", why)
        self.core.queue.fail_all(why, self.core.disk.is_full)

    # ---- starts

    def _most_of_start(self) -> float:
        return limits.START_SECONDS + self.core.files.size() / limits.START_BYTES_A_SECOND

    async def begin(self) -> None:
        """Starts the process for the first time. One that somebody kills meanwhile is started again."""
        self.image = Program(self.core.program)
        for left in reversed(range(limits.REQUEST_MOST_ENDS)):
            try:
                return await self._started()
            except Ended as end:
                if end.fault is not None or not left:
                    raise

    async def again(self) -> None:
        """Starts the process until it runs. Meanwhile all get an error, after a start failed."""
        pause = limits.START_FIRST_PAUSE_SECONDS
        if not self.process and self.lost_at is None:
            self.lost_at = time.monotonic()
        while not self.process and not self.core.queue.is_over:
            try:
                await self._started()
            except (Ended, OSError) as fault:
                self._give_up(f"the process does not start: {str(fault) or 'it takes too long'}")
                await asyncio.sleep(pause)
                pause = min(2 * pause, limits.START_MOST_PAUSE_SECONDS)

    async def _started(self) -> None:
        """Starts the process, compares what it holds, and has it work out what it is asked later. Wrong or Held if the
        site must not go on, and Ended or OSError if there is no process now."""
        if not self.has_its_journal():
            raise Wrong(REPLACED)
        its = await asyncio.wait_for(self._ready(), self._most_of_start())
        try:
            self.inode, self.process = self.inode or self.core.files.identity(), its
            if not self.has_its_journal():
                raise Wrong(REPLACED)
            await asyncio.wait_for(self._prepared(its), self._most_of_start())
        except BaseException:
            self.process = None
            await its.kill()
            raise
        self.restarts += 1
        self.core.queue.away = self.lost_at = None
        self.tasks = [task for task in self.tasks if not task.done()] + [asyncio.ensure_future(self._watch(its))]
        if self.restarts:
            self.on_restart()

    async def _ready(self) -> Process:
        """A process that has read the journal. One before it may have the journal a moment longer."""
        files = self.core.files
        until, reading = time.monotonic() + limits.JOURNAL_HELD_SECONDS, opening.Reading(files.size())
        is_first = self.restarts < 0
        while True:
            words = [self.image.place(), "serve", str(files.site), str(files.group), str(files.journal)]
            try:
                with opening.saying(reading.text):
                    return await Process.started(words, reading.began, (self.image.file,))
            except Ended as end:
                if end.fault == process.HELD and time.monotonic() < until:
                    await asyncio.sleep(0.1)
                    continue
                self._must_be_able(end, is_first)
                raise Ended(end.fault, end.status, files.other_names() or str(end)) from None
            except OSError as fault:
                if is_first and fault.errno in NEVER:
                    raise Wrong(f"{self.core.program} cannot be started: {fault.strerror}") from None
                raise

    def _must_be_able(self, end: Ended, is_first: bool) -> None:
        """Wrong or Held if a process that ended says that no other one can serve. What failed for a moment may go well
        the next time."""
        if end.fault in (process.WRONG_JOURNAL, process.OTHER_SITE):
            why = ("it is no journal" if end.fault == process.WRONG_JOURNAL
                   else "it is the journal of another site or group")
            raise Wrong(f"{why} ({end})") from None
        if is_first and end.fault == process.HELD:
            raise Held("another process has it") from None
        if is_first and (end.fault == 64 or end.fault is None and end.status in (1, 126, 127)):
            raise Wrong(f"{self.core.program} does not serve: {end}") from None

    # ---- what it holds

    async def _prepared(self, its: Process) -> None:
        """Compares what a process holds with the journal, and has it work out what it is asked later."""
        core, holding = self.core, self.core.holding
        counts = listed(its.vector.decode(), holding.group)
        with opening.saying(lambda: "the journal is compared with what the process holds"):
            await asyncio.get_running_loop().run_in_executor(None, core.files.check, counts)
        self._must_not_shrink(counts)
        holding.began(counts)  # a site that halts shows at once what is left
        with opening.saying(lambda: f"the digests of {sum(counts)} messages are worked out"):
            await self._must_hold_the_same(counts)
        core.watch.is_watched, holding.unseen = False, 0
        with opening.saying(lambda: f"what {sum(holding.counts)} messages say is worked out"):
            await self.exchange([(EVALUATE, limits.TEXT_MOST_BYTES)])  # everything: nobody has to wait for it
        if core.watch.watchers:
            await self.exchange([(CHANGES, limits.TEXT_MOST_BYTES)])
            core.watch.is_watched = True

    def _must_not_shrink(self, counts: list[int]) -> None:
        """Halts the site if the journal has fewer messages of its own than the site has shown. Wrong if it has fewer of
        another site."""
        holding = self.core.holding
        for origin, (count, before) in enumerate(zip(counts, holding.counts), 1):
            if count < before and origin != holding.number:
                raise Wrong(f"it has {count} entries of site {origin}, and had {before}: it lost lines")
        self.core.marks.must_have(holding.counts[holding.number - 1], counts[holding.number - 1], "the site")

    async def _must_hold_the_same(self, counts: list[int]) -> None:
        """Has the digests of what the process holds. Wrong if it holds other entries than the process before it."""
        holding = self.core.holding
        before = [its for its in holding.digests.values() if its.number <= counts[its.origin - 1]]
        holding.known.clear()
        reply, *replies = await self.exchange([(DIGESTS, limits.TEXT_MOST_BYTES),
                                               *((b"? digest %d %d" % its[:2], limits.DIGEST_BYTES) for its in before)])
        for its, now in zip(before, replies):
            if its.digits.encode() != now.text:
                raise Wrong(
                    f"its first {its.number} entries of site {its.origin} are not those that the site held: the "
                    "journal was changed")
        holding.hold(reply, self.core.program)

    async def end(self) -> None:
        """Ends the process in peace."""
        if self.process:
            await self.process.end()
        for task in self.tasks:
            task.cancel()
