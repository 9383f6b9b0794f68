"""finding.py: asks the mirror of a site: for transfers by what a caller knows of them, and for what the desk has to do.

The mirror is the database that mirror.py keeps. The questions are those of the desk (seeking.py).
"""
from __future__ import annotations
import asyncio
import contextlib
import json
import pathlib
import sqlite3
import time
from typing import Any, Callable, Iterable, NamedTuple
from . import limits
from .faults import BadText, NoMirror, Unable
from .files import Wrong
from .places import desk_module

OF_TOTALS, LATEST = "totals", "latest"

Rows = Iterable[dict[str, Any]]
Question = Callable[[sqlite3.Connection], "tuple[Rows, dict[str, Any]]"]


class Found(NamedTuple):
    """The lines of an answer, whether there are more, the vector of which the tables have everything, and how the
    question was read."""
    lines: str
    is_partial: bool
    vector: str
    read: dict[str, Any]


class Finder:
    """Asks a database. `path` is that of the database, or None."""

    def __init__(self, path: str | None = None) -> None:
        self.path = path

    async def find(self, query: Any, number: int, group: int) -> Found:
        """Transfers: those that have what is sought, the newest first, or those that are named."""
        of, first = query.getall("of", []), first_of(query)
        if of:
            return await self._answer(these(of), number, group)
        return await self._answer(sought(query.get("what", "")[:limits.SOUGHT_MOST_CHARACTERS], first), number, group)

    async def work(self, query: Any, number: int, group: int) -> Found:
        """A list of what is to be done, the oldest first, or how many rows each of them has, or totals of a day."""
        name, first, bank = query.get("list", ""), first_of(query), query.get("bank")
        seeking, fields = desk_module("seeking"), desk_module("fields")
        if name not in ("", OF_TOTALS, LATEST, *seeking.WORK):
            raise BadText(f"there is no list {name[:20]}: it is one of {', '.join((*seeking.WORK, OF_TOTALS, LATEST))}")
        if bank is not None and not fields.is_bic(bank):
            raise BadText(f"the bank is not {fields.A_BIC}")
        if name == OF_TOTALS and not fields.is_day(query.get("day", "")):
            raise BadText(f"the day is not {fields.A_DAY}")
        questions: dict[str, Callable[[sqlite3.Connection], Rows]] = {
            "": seeking.counts, OF_TOTALS: lambda its: seeking.totals(its, query["day"]),
            LATEST: lambda its: seeking.latest(its, limits.FOUND_MOST_ROWS)}
        ask = questions.get(name) or (lambda its: seeking.work(its, name, bank and fields.bank(bank), first,
                                                               limits.FOUND_MOST_ROWS + 1))
        return await self._answer(lambda its: (ask(its), {}), number, group, is_whole=name in questions)

    async def _answer(self, question: Question, number: int, group: int, is_whole: bool = False) -> Found:
        if self.path is None:
            raise NoMirror("this site has no mirror, which finds transfers")
        return await asyncio.to_thread(self._answered, self.path, question, number, group, is_whole)

    def _answered(self, path: str, question: Question, number: int, group: int, is_whole: bool) -> Found:
        try:
            with contextlib.closing(sqlite3.connect(f"{pathlib.Path(path).resolve().as_uri()}?mode=ro",
                                                    uri=True)) as connection:
                end = time.monotonic() + limits.FIND_SECONDS
                connection.set_progress_handler(lambda: time.monotonic() > end, limits.FIND_STEPS)
                connection.execute("BEGIN")
                vector = vector_in(connection, number, group)
                rows, read = question(connection)
                lines = [json.dumps(row, ensure_ascii=False) + "\n" for row in rows]
        except (sqlite3.Error, Wrong) as fault:
            raise Unable(f"the mirror cannot be asked: {fault}") from None
        most = len(lines) if is_whole else limits.FOUND_MOST_ROWS
        return Found("".join(lines[:most]), len(lines) > most, vector, read)


def first_of(query: Any) -> int:
    """How many rows come before those of an answer."""
    text = query.get("from", "0")
    if not text.isascii() or not text.isdecimal() or len(text) > 7 or int(text) > limits.FOUND_MOST_FIRST:
        raise BadText(f"from is not a number up to {limits.FOUND_MOST_FIRST}")
    return int(text)


def sought(text: str, first: int) -> Question:
    """Transfers that have what is sought, and how that is read."""
    seeking = desk_module("seeking")

    def ask(connection: sqlite3.Connection) -> tuple[Rows, dict[str, Any]]:
        its = seeking.read(connection, text)
        return seeking.found(connection, its, first, limits.FOUND_MOST_ROWS + 1), seeking.said(its)
    return ask


def these(names: list[str]) -> Question:
    """The transfers of some names, each a bank and an identification with a slash between them."""
    keys = [(bank, tx) for bank, slash, tx in (name.partition("/") for name in names) if slash]
    if len(keys) != len(names) or len(names) > limits.FOUND_MOST_NAMED:
        raise BadText(f"of is BANK/TXID, at most {limits.FOUND_MOST_NAMED} times")
    seeking = desk_module("seeking")
    return lambda its: (seeking.these(its, keys), {})


def vector_in(connection: sqlite3.Connection, number: int, group: int) -> str:
    """The vector of which the tables have everything. Unable if they are those of another site."""
    row = connection.execute('SELECT site, "group", vector FROM mirror').fetchone()
    if row is None or row[:2] != (number, group):
        raise Unable(f"the mirror is not one of site {number} of {group}")
    return row[2]
