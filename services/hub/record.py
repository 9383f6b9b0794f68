"""record.py: the record of a site that runs: who posted what, when, from where and what became of it, who was denied,
and what operators did. chain.py has its rows, waiting.py what waits in it, and audit.py what its rows say.

While a site runs it knows the last row that it saw, and adds nothing after another one. After a start all rows are
compared in the background.

A post has its row on the disk before its lines are handed on. The row of what became of them follows a moment later.
After a crash it may lack, and then the journal says what was taken.

One thread does all work on the file. What comes while it commits goes to the disk in the next transaction, together.
Another one reads, so that who reads much holds no post up.
"""
from __future__ import annotations
import asyncio
import contextlib
import dataclasses
import json
import logging
import os
import pathlib
import sqlite3
import threading
import time
from typing import Any, Callable, Iterable, Sequence
from concurrent.futures import ThreadPoolExecutor
from . import audit, limits
from .audit import BAD_ROW, DIGESTS_ACT, HeldThen, taken_above
from .chain import (Chain, as_text, changed_parts, check_end, connected, fault_before, first_sum, mark_of, opened,
                    plain, reason, row_of, site_faults, transaction, unable)
from .digests import Digest, digest_in
from .faults import Unable
from .files import Wrong, put_text
from .notes import Denials, Reads
from .waiting import ENDS, WAITING_CELLS, Waiting, end_line, put_lines, remove_ended

log = logging.getLogger("hub")


class Job:
    """What is done in a transaction, and who waits for what it comes to: nobody, if it is a note."""

    def __init__(self, work: Callable[[Chain], Any], done: asyncio.Future[Any] | None = None, size: int = 0) -> None:
        self.work, self.done, self.size = work, done, size

    def settle(self, result: list[Waiting] | Exception | int) -> None:
        """Hands on what came of it, unless who waited has gone."""
        if self.done is None:
            if isinstance(result, Exception):
                log.error("a row of the record is not written: %s", result)
        elif self.done.done():
            return
        elif isinstance(result, Exception):
            self.done.set_exception(result)
        else:
            self.done.set_result(result)


class File:
    """The open file of a record, in the thread that alone writes to it. `end` is the last row that it saw."""
    connection: sqlite3.Connection
    inode: int

    def __init__(self, path: pathlib.Path, site: int, group: int) -> None:
        self.path, self.site, self.group, self.end = path, site, group, (0, first_sum(site, group))

    def open(self, own_lines: Callable[[], Iterable[bytes]]) -> None:
        """Opens the file, or begins it. Wrong if it must not be used, and Unable if it cannot be used now."""
        with site_faults():
            connection = opened(self.path, self.site, self.group, own_lines)
            try:
                changed = changed_parts(connection)
                if changed:
                    raise Wrong(f"it lacks the {' and the '.join(changed)} of a record")
                self.end = check_end(connection, self.site, self.group)
                remove_ended(connection)
            except BaseException:
                connection.close()
                raise
        self.connection, self.inode = connection, os.stat(self.path).st_ino

    def commit(self, jobs: list[Job], seconds: float) -> tuple[list[Any], tuple[int, str]]:
        """Does jobs in one transaction, for which another process has so many seconds to end its own. What each comes
        to, and the end of the chain."""
        if os.stat(self.path).st_ino != self.inode:
            raise OSError("another file is in its place")
        self.connection.execute(f"PRAGMA busy_timeout = {1000 * seconds:.0f}")
        with transaction(self.connection):
            number, its = self.end
            if self.connection.execute("SELECT sum FROM record WHERE number = ?", (number,)).fetchone() != (its,):
                raise OSError(
                    f"it has not the row {number}:{its} any more, which this site saw: rows were removed or changed")
            end = Chain(self.connection, self.site, self.group)
            results = [end.alone(job.work) for job in jobs]
        return results, (end.number, end.sum)

    def put_mark(self) -> None:
        """Writes the last row beside the record."""
        put_text(mark_of(self.path), "{}:{}\n".format(*self.end))


@dataclasses.dataclass
class Threads:
    """The thread that writes, the one that reads, and its connection."""
    writer: ThreadPoolExecutor
    reader: ThreadPoolExecutor
    reading: sqlite3.Connection

    def end(self) -> None:
        self.reader.shutdown()
        self.writer.shutdown()


@dataclasses.dataclass
class Unwritten:
    """Bytes of notes that are not on the disk yet, and notes for which there was no room."""
    noted: int = 0
    lost: int = 0


class Record:
    """The record of a site. All of its calls are made in one event loop."""
    threads: Threads
    some: asyncio.Event
    queue: list[Job]
    task: asyncio.Task[None] | None
    timer: asyncio.TimerHandle | None
    tasks: list[asyncio.Task[None]]
    fault: str | None  # why the last transaction failed, or None
    damage: str | None  # what is wrong with rows that are there, or None

    def __init__(self, path: pathlib.Path | str, site: int, group: int) -> None:
        self.file, self.unwritten = File(pathlib.Path(path), site, group), Unwritten()
        self.denials, self.reads = Denials(self), Reads(self)
        self.task = self.timer = self.fault = self.damage = None  # the others come when it is opened
        self.queue, self.tasks, self.ends = [], [], False
        self.compared = threading.Event()  # set when the rows are compared no more
        self.clients: Callable[[], int] = lambda: 1  # among how many the room of what waits is shared

    def last(self) -> tuple[int, str]:
        """The number and the sum of the last row that this process saw."""
        return self.file.end

    async def open(self, own_lines: Callable[[], Iterable[bytes]]) -> None:
        """Opens the record, or begins it: then own_lines yields the journal's own lines. Wrong if the file must not be
        used, and Unable if it cannot be used now."""
        loop, self.some = asyncio.get_running_loop(), asyncio.Event()
        writer, reader = ThreadPoolExecutor(1, "record"), ThreadPoolExecutor(1, "record-reader")
        try:
            await loop.run_in_executor(writer, self.file.open, own_lines)
            reading = await loop.run_in_executor(reader, connected, self.file.path, "ro")
        except BaseException:
            writer.shutdown(wait=False)
            reader.shutdown(wait=False)
            raise
        self.threads = Threads(writer, reader, reading)
        self.task = asyncio.ensure_future(self._run())
        self.tasks = [asyncio.ensure_future(self._notes_end()), asyncio.ensure_future(self._compares())]

    async def close(self) -> None:
        """Commits what is queued, and closes the file."""
        if self.task is None:
            return
        notes, compares = self.tasks
        notes.cancel()
        self.compared.set()
        await asyncio.wait([compares])  # only the last connection that is closed puts all rows into the one file
        self.denials.end_minute()
        self.reads.note()
        self.ends = True
        self.some.set()
        await self.task
        self.task = None
        loop, threads = asyncio.get_running_loop(), self.threads
        await loop.run_in_executor(threads.reader, threads.reading.close)
        with contextlib.suppress(OSError):
            self.file.put_mark()
        await loop.run_in_executor(threads.writer, self.file.connection.close)
        threads.end()

    async def _notes_end(self) -> None:
        """Writes the last row into the log and beside the record, now and each hour."""
        while True:
            log.info("the record ends with row %d:%s", *self.file.end)
            try:
                await asyncio.to_thread(self.file.put_mark)
            except OSError as fault:
                log.error("the end of the record is not written beside it: %s", fault)
            await asyncio.sleep(limits.RECORD_END_SECONDS)

    async def _compares(self) -> None:
        """Compares all rows that were there at the start."""
        began, its = time.monotonic(), self.file
        try:
            self.damage = await asyncio.to_thread(fault_before, its.path, its.site, its.group, its.end[0],
                                                  self.compared)
        except sqlite3.Error as fault:
            self.damage = f"it cannot be read: {fault}"
        if self.damage:
            log.error("the record is wrong: %s", self.damage)
        elif not self.compared.is_set():
            log.info("the record is right up to row %d, which took %.1f seconds", its.end[0], time.monotonic() - began)

    async def add(self, act: str, who: str, address: str, request: str, what: dict[str, Any]) -> int:
        """Adds a row. Its number, after it is on the disk. Unable if it cannot be written."""
        cells = row_of(act, who, address, request, what)
        return await self._done(lambda its: its.add(*cells))

    def note(self, act: str, who: str, address: str, request: str, what: dict[str, Any]) -> None:
        """Adds a row a moment later, after those that were added and noted before. If there is no room for it, a later
        row has the number of those that are lost."""
        cells = row_of(act, who, address, request, what)
        if self.task is None or self.ends:
            log.error("the record is not open, and has no row of this: %.1000s", as_text(cells))
            return
        size = limits.RECORD_ROW_BYTES + len(cells[-1])
        if self.unwritten.noted + size > limits.RECORD_NOTED_MOST_BYTES:
            self.unwritten.lost += 1
            return
        self.unwritten.noted += size
        self.queue.append(Job(lambda its: its.add(*cells), size=size))
        self._look_in(limits.RECORD_NOTE_SECONDS)

    def read(self, who: str, address: str, request: str, what: str) -> None:
        """Notes that somebody was answered what is about payments, such as GET /archive. What is read in a second is
        noted together."""
        self.reads.add(who, address, request, what)

    def held(self, its: Iterable[Digest], is_all: bool = False) -> None:
        """Notes the digests of what is held: of some origins, or of all."""
        if self.task is not None and not self.ends:
            what: dict[str, Any] = {"held": [one.text() for one in its], **({"all": True} if is_all else {})}
            self.note(DIGESTS_ACT, "", "", "", what)

    def refused(self, who: str, address: str, request: str, what: str, why: str) -> None:
        """Notes or counts that somebody was denied what was asked, such as GET /archive."""
        self.denials.add(who, address, request, what, why)

    async def put_waiting(self, rows: list[Waiting], address: str = "", post: int | None = None) -> list[Waiting]:
        """Puts lines of to_wait that one request posted, all or none. They as they wait now, in their order: a line of
        the same bank that waits already is the row that is there. Busy if too much waits. `post` is the number of the
        post's row."""
        return await self._done(lambda its: put_lines(its, rows, address, post, self.clients()))

    async def end_waiting(self, number: int | None, state: str, outcome: int | str | None = None) -> bool:
        """Ends the waiting of a line: TAKEN and its number, REPEAT, REFUSED or FORBIDDEN and why, or EXPIRED. False if
        it ended before."""
        if state not in ENDS:
            raise ValueError(f"{state} is no end")
        outcome = plain(outcome) if isinstance(outcome, str) else outcome
        return await self._done(lambda its: end_line(its, number, state, outcome))

    async def waiting(self, bank: str | None = None, ended: int = 0, lines: bool = True) -> list[Waiting]:
        """The lines that wait, of all banks or of one, the oldest first, and then as many of the last that ended as are
        wanted."""
        its = "AND bank = ?" if bank else ""
        values = (bank,) if bank else ()
        # the plus keeps SQLite at the index of what waits, since many more may have ended
        cells = WAITING_CELLS if lines else WAITING_CELLS.replace("line,", "x'' AS line,")
        return await self._lines_where(f"state = 'WAITING' {its} ORDER BY +number", *values,
                                       cells=cells) + (await self._lines_where(
                                           f"ended IS NOT NULL {its} ORDER BY ended DESC, number DESC LIMIT ?", *values,
                                           ended, cells=cells) if ended else [])

    async def row(self, number: int) -> tuple[int, str] | None:
        """The number and the sum of a row, if it is there."""
        row, = await self._read("SELECT number, sum FROM record WHERE number = ?", number) or [None]
        return row

    async def last_taken(self) -> int:
        """The greatest number that rows say was given since the record began or a halt was cleared. 0 if they say
        none."""
        return int(await self._done(lambda its: audit.last_taken(its.connection)))

    async def last_held(self, counts: Sequence[int]) -> tuple[list[HeldThen], list[HeldThen]]:
        """Of each origin the newest digest that rows say at no more entries than these counts, and the newest one at
        all if it is of more."""
        return await self._done(lambda its: audit.last_held(its.connection, counts))

    async def first_held(self, origin: int, count: int) -> dict[str, int | str] | None:
        """The first row that says a digest of an origin with so many entries or more: its number, its sum, when it was,
        and the digest."""
        rows = await self._read("SELECT number, sum, at, what FROM record WHERE act = ? ORDER BY number", DIGESTS_ACT)
        for number, its, at, text in rows:
            with contextlib.suppress(*BAD_ROW):
                for one in map(digest_in, json.loads(text)["held"]):
                    if one.origin == origin and one.number >= count:
                        return {"number": int(number), "sum": str(its), "at": str(at), "digest": one.text()}
        return None

    async def changed_line(self, own_lines: Callable[[], Iterable[bytes]], count: int) -> int | None:
        """The first own line above a count that is not the one that rows say was taken under its number, or None."""
        return await self._done(lambda its: audit.changed_line(own_lines, taken_above(its.connection, count)))

    # ---- the queue

    async def _done(self, work: Callable[[Chain], Any]) -> Any:
        """What some work on the file comes to, after it is on the disk."""
        if self.task is None or self.ends:
            raise Unable("the record is not open")
        done = asyncio.get_running_loop().create_future()
        self.queue.append(Job(work, done))
        self.some.set()
        return await done

    def _look_in(self, seconds: float) -> None:
        if self.timer is None:
            self.timer = asyncio.get_running_loop().call_later(seconds, self.some.set)

    async def _run(self) -> None:
        """Commits what is queued, until the end."""
        while not self.ends or self.queue:
            await self.some.wait()
            self.some.clear()
            if self.timer:
                self.timer.cancel()
                self.timer = None
            jobs, self.queue = self.queue, []
            if jobs and not await self._committed(jobs) and self.ends:
                left, self.queue = self.queue, []
                for job in left:
                    job.settle(Unable(f"the record cannot be written: {self.fault}"))

    async def _committed(self, jobs: list[Job]) -> bool:
        """Whether some jobs are done. If not, those that somebody waits for have failed, and notes stay before what
        came meanwhile."""
        try:
            seconds = limits.RECORD_LOCKED_SECONDS if self.fault else limits.RECORD_LOCK_SECONDS
            results, self.file.end = await asyncio.get_running_loop().run_in_executor(
                self.threads.writer, self.file.commit, jobs, seconds)
        except Exception as fault:
            if not self.fault:
                log.error("the record cannot be written: %s", reason(fault))
            self.fault = reason(fault)
            for job in jobs:
                if job.done is not None:
                    job.settle(unable("written", fault))
            self.queue = [job for job in jobs if job.done is None] + self.queue
            self._look_in(limits.RECORD_AGAIN_SECONDS)
            return False
        if self.fault:
            log.warning("the record can be written again")
        self.fault = None
        self.unwritten.noted -= sum(job.size for job in jobs)
        for job, result in zip(jobs, results):
            job.settle(result)
        if self.unwritten.lost and not self.ends:
            lost, self.unwritten.lost = self.unwritten.lost, 0
            log.error("%d rows of the record are lost: there was no room for them", lost)
            self.note("lost", "", "", "", {"rows": lost})
        return True

    async def _lines_where(self, condition: str, *values: int | str, cells: str = WAITING_CELLS) -> list[Waiting]:
        """The rows of lines that wait, or did."""
        return [Waiting(*row) for row in await self._read(f"SELECT {cells} FROM waiting WHERE {condition}", *values)]

    async def _read(self, question: str, *values: int | str) -> list[Any]:
        """The rows that answer a question."""
        if self.task is None:
            raise Unable("the record is not open")
        try:
            return await asyncio.get_running_loop().run_in_executor(
                self.threads.reader, lambda: self.threads.reading.execute(question, values).fetchall())
        except sqlite3.Error as fault:
            raise unable("read", fault) from None
