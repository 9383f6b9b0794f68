"""seen.py: the record of each peer as this site saw it, so that it is found if rows of it are removed, or if all of it
is made again.

Who can write the record of a site can make all of it again, and then the site itself does not know. So each answer to a
peer has the number and the sum of the last row. The peer keeps them on its disk. From time to time it asks for the row
of that number, and keeps the last row of the answer in its place only if that row is still the same.
"""
from __future__ import annotations
import asyncio
import json
import logging
import pathlib
import re
import time
from typing import Any, Dict, Mapping
from . import limits
from .files import put_text

# of an answer: the last row, and the row of the number that the question had as END
END, ROW = "Niluppang-Record", "Niluppang-Record-Row"
ROW_FORM = re.compile(r"([0-9]{1,18}):([0-9a-f]{64})")
log = logging.getLogger("hub")


def row_in(text: Any) -> tuple[int, str] | None:
    """The number and the sum of a row in a text, or None."""
    match = ROW_FORM.fullmatch(text) if isinstance(text, str) else None
    return (int(match[1]), match[2]) if match else None


def text_of(row: tuple[int, str]) -> str:
    return "{}:{}".format(*row)


def fault_of(kept: tuple[int, str], end: tuple[int, str], row: tuple[int, str] | None) -> str | None:
    """What is wrong with a record that ends so, and has such a row, if another one was kept of it."""
    if end[0] < kept[0]:
        return f"its record has {end[0]} rows, and had {kept[0]}: rows were removed"
    if any(shown and shown[0] == kept[0] and shown != kept for shown in (end, row)):
        return f"its record has another row {kept[0]} than before: rows were changed"
    return None


class Seen:
    """The row that is kept of the record of each peer, and what is wrong with that record now."""

    def __init__(self, path: pathlib.Path) -> None:
        self.path, self.is_kept = path, True
        self.rows: Dict[int, tuple[int, str]] = {}
        self.faults: Dict[int, str] = {}
        self.asked_at: Dict[int, float] = {}
        try:
            its = json.loads(path.read_text(encoding="ascii"))
            self.rows = {int(peer): row for peer, row in zip(its, map(row_in, its.values())) if row}
        except FileNotFoundError:
            pass
        except (OSError, ValueError, AttributeError) as fault:
            log.error("what was seen of the records of peers is not read: %s", fault)

    def asks(self, peer: int) -> dict[str, str]:
        """The header with which a question asks for the row that is kept, if it is time for that."""
        now = time.monotonic()
        if peer not in self.rows or now - self.asked_at.get(peer, now - limits.SEEN_SECONDS) < limits.SEEN_SECONDS:
            return {}
        self.asked_at[peer] = now
        return {END: str(self.rows[peer][0])}

    def away(self, peer: int) -> None:
        """A peer failed, and may come back with another record: it is asked at once then."""
        self.asked_at.pop(peer, None)

    def looks(self, peer: int, headers: Mapping[str, str]) -> None:
        """Compares what an answer of a peer has of its record with what is kept. A peer of an older version has
        nothing."""
        kept, end, row = self.rows.get(peer), row_in(headers.get(END)), row_in(headers.get(ROW))
        if end is None:
            return
        fault = fault_of(kept, end, row) if kept else None
        if fault:
            self._wrong(peer, fault)
        elif kept is None or kept in (end, row):
            self.faults.pop(peer, None)
            self.rows[peer], self.is_kept = end, self.is_kept and end == kept

    def _wrong(self, peer: int, fault: str) -> None:
        if peer not in self.faults:
            log.error("site %d: %s", peer, fault)
        self.faults[peer] = fault

    async def keep(self) -> None:
        """Puts the rows on the disk, if others are there."""
        if self.is_kept:
            return
        self.is_kept = True
        text = json.dumps({str(peer): text_of(row) for peer, row in sorted(self.rows.items())})
        try:
            await asyncio.to_thread(put_text, self.path, f"{text}\n")
        except OSError as fault:
            log.error("what was seen of the records of peers is not written: %s", fault)
