"""chain.py: the rows of the record of a site, and the file that has them.

It is a file of SQLite beside the journal. Rows are only added. The sum of a row is over its cells and the sum of the
row before it, so a row that is changed, removed or put in breaks the chain. Who can write the file can make all of it
again. So the number and the sum of the last row are printed and measured, and an audit looks for the ones that somebody
kept elsewhere.

A file beside the record, siteN.recorded, names a row that was there: without it no record is opened, and none is begun.
"""
from __future__ import annotations
import contextlib
import hashlib
import json
import logging
import os
import pathlib
import sqlite3
import threading
import time
import urllib.parse
from typing import Any, Callable, Iterable, Iterator, Sequence, Union
from . import limits
from .faults import Unable
from .files import Wrong, synced
from .work import Outcome, as_message

VERSION = 1
HELD_OPEN = ("another program has a transaction open on it, such as a sqlite3 shell. End that program, and the "
             "site goes on by itself")

CELLS = "number, at, who, address, request, act, what, sum"
SCHEMA = ("CREATE TABLE site(number INTEGER NOT NULL, sites INTEGER NOT NULL) STRICT",
          "CREATE TABLE record(number INTEGER PRIMARY KEY, at TEXT NOT NULL, who TEXT NOT NULL, address TEXT "
          "NOT NULL, request TEXT NOT NULL, act TEXT NOT NULL, what TEXT NOT NULL, sum TEXT NOT NULL) STRICT",
          "CREATE TRIGGER record_follows BEFORE INSERT ON record WHEN NEW.number IS NOT (SELECT "
          "coalesce(max(number), 0) + 1 FROM record) BEGIN SELECT RAISE(ABORT, 'a row of the record has the "
          "number after the last one'); END",
          "CREATE TRIGGER record_stays BEFORE UPDATE ON record BEGIN SELECT RAISE(ABORT, 'a row of the "
          "record is never changed'); END",
          "CREATE TRIGGER record_remains BEFORE DELETE ON record BEGIN SELECT RAISE(ABORT, 'a row of the "
          "record is never removed'); END",
          "CREATE TABLE waiting(number INTEGER PRIMARY KEY AUTOINCREMENT, at TEXT NOT NULL, until TEXT NOT "
          "NULL, who TEXT NOT NULL, bank TEXT NOT NULL, kind TEXT NOT NULL, originator TEXT NOT NULL, tx "
          "TEXT NOT NULL, request TEXT NOT NULL, line BLOB NOT NULL, digest TEXT NOT NULL, state TEXT NOT "
          "NULL, outcome ANY, ended TEXT, size INTEGER NOT NULL) STRICT",
          "CREATE UNIQUE INDEX waiting_lines ON waiting(bank, digest, state) WHERE state = 'WAITING'",
          "CREATE INDEX waiting_until ON waiting(until, size, state) WHERE state = 'WAITING'",
          "CREATE INDEX waiting_ended ON waiting(ended) WHERE ended IS NOT NULL")

Path = Union[pathlib.Path, str]
log = logging.getLogger("hub")


# ---- texts and sums

def utc(seconds: float | None = None) -> str:
    """A time in UTC as the record has it, such as 2026-11-29T18:00:00.123Z: now, or the seconds of a clock."""
    full, thousandths = divmod(round(1000 * (time.time() if seconds is None else seconds)), 1000)
    return f"{time.strftime('%Y-%m-%dT%H:%M:%S', time.gmtime(full))}.{thousandths:03d}Z"


def plain(text: str) -> str:
    """A text from outside as a cell has it: short, and of characters that can be printed."""
    most = limits.CELL_MOST_CHARACTERS
    return (text if text.isprintable() else text[:most].encode("unicode_escape").decode())[:most]


as_text = json.JSONEncoder(separators=(",", ":")).encode
as_cells = json.JSONEncoder(separators=(",", ":"), default=repr).encode  # a cell that is no text is not of the record


def first_sum(site: int, group: int) -> str:
    """The sum that the first row follows."""
    return hashlib.sha256(f"site {site} {group}".encode()).hexdigest()


def sum_after(before: str | None, cells: Sequence[Any]) -> str:
    """The sum of a row: the SHA-256 over the sum of the row before it and the JSON list of its other cells, in ASCII
    without blanks. The cell `what` is in it as the text that it is."""
    return hashlib.sha256(f"{before}{as_cells(cells)}".encode()).hexdigest()


def digest_of(line: bytes) -> str:
    return hashlib.sha256(line).hexdigest()


# ---- what rows say

def post_of(lines: list[bytes]) -> dict[str, Any]:
    """What a row of the act `post` or `adopt` says: the digest of each line as it is handed on."""
    return {"lines": [digest_of(as_message(line)) for line in lines]}


def outcomes_of(post: int, outcomes: Iterable[Outcome]) -> dict[str, Any]:
    """What a row of the act `outcome` says: the number of the post's row, and what became of each line, in the same
    order."""
    its = ((word, number, why[:limits.CELL_MOST_CHARACTERS]) for word, number, why in outcomes)
    return {"of": post, "outcomes": [[word, *([number] if number else []), *([why] if why else [])]
                                     for word, number, why in its]}


def failed_of(post: int, why: str) -> dict[str, Any]:
    """What a row of the act `failed` says: the post's lines have no outcome, and why. Some may be in the journal all
    the same."""
    return {"of": post, "why": why[:limits.CELL_MOST_CHARACTERS]}


def row_of(act: str, who: str, address: str, request: str, what: dict[str, Any]) -> tuple[str, str, str, str, str, str]:
    """The cells of a row between its number and its sum."""
    return utc(), plain(who), plain(address), plain(request), act, as_text(what)


# ---- the file

@contextlib.contextmanager
def site_faults() -> Iterator[None]:
    """Turns faults of SQLite into those that a site knows."""
    try:
        yield
    except sqlite3.OperationalError as fault:
        raise unable("used", fault) from None
    except sqlite3.DatabaseError as fault:
        raise Wrong(f"it is no record: {fault}") from None


def is_locked(fault: Exception) -> bool:
    return "locked" in str(fault)


def reason(fault: Exception) -> str:
    """What is said of a fault of the file."""
    return HELD_OPEN if is_locked(fault) else getattr(fault, "strerror", None) or str(fault)


def unable(done: str, fault: Exception) -> Unable:
    """Why something cannot be done with the record. Another process that writes for long is no fault of the disk."""
    return Unable(f"the record cannot be {done}: {reason(fault)}", not is_locked(fault))


def connected(path: pathlib.Path | str, mode: str) -> sqlite3.Connection:
    return sqlite3.connect(f"file:{urllib.parse.quote(str(path))}?mode={mode}", uri=True, isolation_level=None,
                           timeout=limits.RECORD_LOCK_SECONDS)


def mark_of(path: Path) -> pathlib.Path:
    """The file that names a row that was in a record."""
    return pathlib.Path(f"{path}ed")


def lacking(connection: sqlite3.Connection, path: Path) -> str | None:
    """The row that was there before, if a record has it not. None if it has it, or if no row is known."""
    try:
        row = mark_of(path).read_text(encoding="ascii").strip()
    except FileNotFoundError:
        return None
    number, _, its = row.partition(":")
    has = is_begun(connection) and connection.execute("SELECT 1 FROM record WHERE number = ? AND sum = ?",
                                                      (number, its)).fetchone()
    return None if has else row


def is_begun(connection: sqlite3.Connection) -> bool:
    return connection.execute("SELECT count(*) FROM sqlite_master WHERE name = 'record'").fetchone() != (0,)


def check_mark(connection: sqlite3.Connection, path: Path) -> None:
    """Wrong if a record has not the row that was there before."""
    row = lacking(connection, path)
    if row:
        raise Wrong(f"{'the record has not the' if is_begun(connection) else 'there is no record, and it had the'} row "
                    f"{row} that {mark_of(path)} names: rows were removed or changed. Put the record back that has it, "
                    "or keep both files for an inquiry and move them away")


def lacking_in(source: Path | None, path: Path) -> str | None:
    """The row that was there before at the path of a record, if a file has it not that is to take its place, or if
    there is none."""
    with site_faults(), contextlib.closing(connected(source, "ro") if source
                                           else sqlite3.connect(":memory:")) as connection:
        return lacking(connection, path)


def opened(path: Path, site: int, group: int,
           own_lines: Callable[[], Iterable[bytes]] | None = None) -> sqlite3.Connection:
    """A connection that writes the record of a site. One that is not there is begun, if own_lines yields the journal's
    own lines and no record was there before."""
    if own_lines is None and not os.path.exists(path):
        raise Wrong("there is no record: the site begins one when it starts")
    connection = connected(path, "rw" if own_lines is None else "rwc")
    try:
        connection.execute("PRAGMA synchronous = FULL")
        is_fresh = own_lines is not None and connection.execute("PRAGMA schema_version").fetchone() == (0,)
        check_mark(connection, path)
        if not is_fresh:
            check_file(connection, site, group)
        connection.execute("PRAGMA journal_mode = WAL")
        if own_lines is not None and is_fresh:
            begin(connection, site, group, own_lines)
            synced(pathlib.Path(path).absolute().parent)
        return connection
    except BaseException:
        connection.close()
        raise


def lines_in(own_lines: Callable[[], Iterable[bytes]]) -> Iterator[bytes]:
    """The journal's own lines. A journal that is not there has none."""
    with contextlib.suppress(FileNotFoundError):
        yield from own_lines()


def begin(connection: sqlite3.Connection, site: int, group: int, own_lines: Callable[[], Iterable[bytes]]) -> None:
    """Makes a record, whose first row has what the journal had before."""
    many, sums = 0, hashlib.sha256()
    with transaction(connection):
        for statement in (*SCHEMA, f"PRAGMA user_version = {VERSION}"):
            connection.execute(statement)
        connection.execute("INSERT INTO site VALUES (?, ?)", (site, group))
        for many, line in enumerate(lines_in(own_lines), 1):
            sums.update(line + b"\n")
        Chain(connection, site, group).add(*row_of("begin", "", "", "", {"lines": many, "sum": sums.hexdigest()}))
    log.info("the record of site %d begins: its journal has %d lines of its own from before", site, many)


def check_file(connection: sqlite3.Connection, site: int, group: int) -> None:
    """Wrong if a file is not the record of this site, or another version of the program made it."""
    version, = connection.execute("PRAGMA user_version").fetchone()
    if version != VERSION:
        raise Wrong(f"it has version {version} of a record, and not {VERSION}")
    sites = connection.execute("SELECT number, sites FROM site").fetchall()
    if sites != [(site, group)]:
        raise Wrong(f"it is the record of (site, group) {sites}, and not of site {site} of {group}")


def changed_parts(connection: sqlite3.Connection) -> list[str]:
    """The tables and triggers that are not there, or are not as the program made them."""
    there = {statement for statement, in connection.execute("SELECT sql FROM sqlite_master")}
    return [" ".join(statement.split("(")[0].split()[1:3]) for statement in SCHEMA if statement not in there]


def linked(rows: sqlite3.Cursor, number: int, before: str | None) -> Iterator[tuple[tuple[int | str, ...], str | None]]:
    """Each of some rows, and what is wrong with its number or its sum, if anything is. They follow a row with this
    number and sum."""
    for row in rows:
        fault = None
        if row[0] != number + 1:
            lacking = f"row {number + 1}" if row[0] == number + 2 else f"rows {number + 1} to {row[0] - 1}"
            fault = f"the record lacks {lacking}"
        elif row[-1] != sum_after(before, row[:-1]):
            fault = f"row {row[0]} of the record is not the one that followed row {number}, or one of them was changed"
        yield row, fault
        number, before = row[0], row[-1]


def check_end(connection: sqlite3.Connection, site: int, group: int) -> tuple[int, str]:
    """Wrong if the last rows are no chain. The number and the sum of the last one."""
    last, = connection.execute("SELECT max(number) FROM record").fetchone()
    if not last:
        raise Wrong("the record has no row")
    first = max(0, last - limits.RECORD_CHECKED_ROWS)
    before = connection.execute("SELECT sum FROM record WHERE number = ?",
                                (first,)).fetchone() if first else (first_sum(site, group),)
    with contextlib.closing(connection.execute(f"SELECT {CELLS} FROM record WHERE number > ? ORDER BY number",
                                               (first,))) as rows:
        for row, fault in linked(rows, first, *(before or (None,))):
            if fault:
                raise Wrong(fault)
    return int(row[0]), str(row[-1])


def fault_before(path: Path, site: int, group: int, last: int, ends: threading.Event | None = None) -> str | None:
    """What is wrong with the rows up to a number, or None. It reads some at a time, so that the file of what is new
    stays short. It reads no more of them after the event `ends`."""
    ends = ends or threading.Event()
    number, its = 0, first_sum(site, group)
    with contextlib.closing(connected(path, "ro")) as connection:
        while number < last:
            rows = connection.execute(
                f"SELECT {CELLS} FROM record WHERE number > ? AND number <= ? ORDER BY number LIMIT ?",
                (number, last, limits.RECORD_COMPARED_ROWS))
            before = number
            for row, fault in linked(rows, number, its):
                if fault:
                    return fault
                number, its = int(row[0]), str(row[-1])
            if number == before:
                return f"the record lacks row {number + 1}"
            if ends.wait(limits.RECORD_REST_SECONDS):
                return None
    return None


@contextlib.contextmanager
def transaction(connection: sqlite3.Connection) -> Iterator[None]:
    """All that is done meanwhile is on the disk at the end, or nothing of it. Nobody else writes meanwhile."""
    connection.execute("BEGIN IMMEDIATE")
    try:
        yield
        connection.execute("COMMIT")
    except BaseException:
        with contextlib.suppress(sqlite3.Error):
            connection.execute("ROLLBACK")
        raise


class Chain:
    """The end of the chain in a transaction, to which rows are added."""
    number: int
    sum: str

    def __init__(self, connection: sqlite3.Connection, site: int, group: int) -> None:
        self.connection = connection
        last = connection.execute("SELECT number, sum FROM record ORDER BY number DESC LIMIT 1").fetchone()
        self.number, self.sum = last or (0, first_sum(site, group))

    def add(self, *cells: str) -> int:
        """The number of a row, which is added."""
        row = (self.number + 1, *cells)
        its = sum_after(self.sum, row)
        self.connection.execute("INSERT INTO record VALUES (?, ?, ?, ?, ?, ?, ?, ?)", (*row, its))
        self.number, self.sum = self.number + 1, its
        return self.number

    def alone(self, work: Callable[[Chain], Any]) -> Any:
        """What some work comes to, or the fault that it alone has: then nothing of it stays, and what is done beside it
        does."""
        before = self.number, self.sum
        self.connection.execute("SAVEPOINT work")
        try:
            result = work(self)
        except Exception as fault:
            if isinstance(fault, sqlite3.OperationalError) or type(fault) is sqlite3.DatabaseError:
                raise
            self.connection.execute("ROLLBACK TO work")
            self.number, self.sum = before
            result = fault
        self.connection.execute("RELEASE work")
        return result


def act_once(path: Path, site: int, group: int, act: str, who: str, what: dict[str, Any],
             own_lines: Callable[[], Iterable[bytes]] | None = None) -> int:
    """Adds the row of an operator's act, also while the site runs. Its number. Wrong if there is no record, unless
    own_lines begins one."""
    with site_faults(), contextlib.closing(opened(path, site, group, own_lines)) as connection:
        with transaction(connection):
            return Chain(connection, site, group).add(*row_of(act, who, "", "", what))


def copied(path: Path, target: Path, site: int, group: int, meanwhile: Callable[[], object]) -> dict[str, Any]:
    """Copies a record as it is while `meanwhile` is done, in which nobody adds to it. What the copy has: its last row,
    and how many lines wait."""
    with site_faults(), contextlib.closing(opened(path, site, group)) as writer, contextlib.closing(
            connected(path, "ro")) as reader:
        reader.execute("BEGIN")
        with transaction(writer):
            meanwhile()
            # from here it sees no other
            number, its = reader.execute("SELECT number, sum FROM record ORDER BY number DESC LIMIT 1").fetchone()
        with contextlib.closing(connected(target, "rw")) as copy:
            reader.backup(copy)
            copy.execute("PRAGMA journal_mode = DELETE")  # so that it is one file
            many, = copy.execute("SELECT count(*) FROM waiting WHERE state = 'WAITING'").fetchone()
    return {"last": f"{number}:{its}", "waiting": many}
