"""audit.py: what the rows of a record say, beside what the journal and the site have.

An audit compares all rows with each other and with the journal's own lines. When a site starts, the newest rows say
which numbers were given and what was held: the journal must have it.
"""
from __future__ import annotations
import collections
import contextlib
import hashlib
import itertools
import json
import os
import sqlite3
from typing import Any, Callable, Iterable, Iterator, NamedTuple, Sequence
from . import limits
from .chain import (CELLS, Path, changed_parts, check_file, connected, digest_of, first_sum, lines_in, linked,
                    site_faults)
from .digests import Digest, digest_in
from .files import Wrong
from .waiting import ENDS

POSTS = ("post", "adopt")  # acts whose rows have lines, and are followed by a row of what became of them
# the acts of rows that say what is held, and after which numbers may go on below those that were given
DIGESTS_ACT, CLEARED = "digests", "clear-halt"
# acts that say something of lines
SAYING = {"begin", "outcome", "failed", "wait", *POSTS, *(end.lower() for end in ENDS)}
BAD_ROW = (ValueError, KeyError, TypeError, AttributeError, IndexError, RecursionError)  # of one that says nothing


# ---- which numbers were given, and what was held

def last_taken(connection: sqlite3.Connection) -> int:
    """The greatest number that the last rows say was given: since somebody cleared a halt, numbers may go on below
    it."""
    last = rows = 0
    question = "SELECT act, what FROM record WHERE act IN ('outcome', 'taken', 'clear-halt') ORDER BY number DESC"
    with contextlib.closing(connection.execute(question)) as found:
        for act, text in found:
            rows += 1
            if act == "clear-halt" or last and rows > limits.RECORD_CHECKED_ROWS:
                break
            with contextlib.suppress(*BAD_ROW):
                what = json.loads(text)
                given = [what["outcome"]] if act == "taken" else [number for word, number, *_ in what["outcomes"]
                                                                  if word == "TAKEN"]
                last = max(last, *map(int, given))
    return last


# what a row says of entries: how many of an origin there are, their digest, and when that was
class HeldThen(NamedTuple):
    digest: Digest
    at: str


def held_in(connection: sqlite3.Connection) -> Iterator[tuple[list[HeldThen], bool]]:
    """What rows say is held, the newest first, each with whether it has all origins. Since somebody cleared a halt,
    numbers of the site itself may have been given again: of before that there is nothing of it."""
    question = "SELECT act, at, what FROM record WHERE act IN (?, ?) ORDER BY number DESC"
    own, = connection.execute("SELECT number FROM site").fetchone()
    is_cleared = False
    with contextlib.closing(connection.execute(question, (DIGESTS_ACT, CLEARED))) as rows:
        for act, at, text in rows:
            is_cleared = is_cleared or act == CLEARED
            with contextlib.suppress(*BAD_ROW):
                what = json.loads(text) if act == DIGESTS_ACT else {"held": []}
                its = [HeldThen(digest_in(one), str(at)) for one in what["held"]]
                yield [one for one in its if one.digest.origin != own or not is_cleared], bool(what.get("all"))


def last_held(connection: sqlite3.Connection, counts: Sequence[int]) -> tuple[list[HeldThen], list[HeldThen]]:
    """Of each origin the newest row that says its digest at no more entries than these counts, and the newest one at
    all if it says more."""
    newest: dict[int, HeldThen] = {}
    found: dict[int, HeldThen] = {}
    for its, is_all in held_in(connection):
        for one in its:
            origin, count, _ = one.digest
            newest.setdefault(origin, one)
            if origin <= len(counts) and count <= counts[origin - 1]:
                found.setdefault(origin, one)
        if is_all and newest.keys() == found.keys():
            break
    return list(found.values()), [one for origin, one in newest.items() if origin not in found or one != found[origin]]


def all_held(connection: sqlite3.Connection, origin: int, most: int) -> list[HeldThen]:
    """All that rows say of an origin at no more than so many entries, the fewest first."""
    its = (one for many, _ in held_in(connection) for one in many)
    return sorted((one for one in its if one.digest.origin == origin and one.digest.number <= most),
                  key=lambda one: one.digest.number)


def taken_above(connection: sqlite3.Connection, count: int) -> dict[int, str]:
    """The SHA-256 of each own line above a count, by its number, as the newest rows say: after those the record has no
    digest yet."""
    found: dict[int, str] = {}
    older = 0
    question = "SELECT act, what FROM record WHERE act IN ('outcome', 'taken', ?) ORDER BY number DESC"
    with contextlib.closing(connection.execute(question, (CLEARED,))) as rows:
        for act, text in rows:
            with contextlib.suppress(*BAD_ROW):
                what = json.loads(text) if act != CLEARED else {}
                given = {number: line for number, line in lines_taken(connection, act, what) if number > count}
                older = 0 if given else older + 1
                found.update((number, line) for number, line in given.items() if number not in found)
            if act == CLEARED or older > limits.RECORD_CHECKED_ROWS:
                break
    return found


def lines_taken(connection: sqlite3.Connection, act: str, what: dict[str, Any]) -> list[tuple[int, str]]:
    """The numbers that a row says were given, each with the SHA-256 of its line."""
    if act == "taken":
        return [(int(what["outcome"]), str(what["line"]))]
    if act != "outcome" or not any(word == "TAKEN" for word, *_ in what["outcomes"]):
        return []
    post, = connection.execute("SELECT what FROM record WHERE number = ?", (what["of"],)).fetchone()
    return [(int(more[0]), str(line)) for line, (word, *more) in zip(json.loads(post)["lines"], what["outcomes"])
            if word == "TAKEN"]


def changed_line(own_lines: Callable[[], Iterable[bytes]], taken: dict[int, str]) -> int | None:
    """The first own line of a journal that is not the one that was taken under its number, or None."""
    last = max(taken, default=0)
    its = enumerate(itertools.islice(lines_in(own_lines), last), 1) if taken else ()
    return next((number for number, line in its if number in taken and digest_of(line) != taken[number]), None)


# ---- what rows say was held, beside what is held

def held_faults(path: Path, counts: Sequence[int], own: int, own_lines: Callable[[], Iterable[bytes]],
                digits_of: Callable[[int, int], str]) -> list[str]:
    """How what a site holds differs from what its record says: of entries that are not those that were held, which
    ones. `digits_of` has the digest of the first entries of an origin. None if there is no record."""
    if not os.path.exists(path):
        return []
    with site_faults(), contextlib.closing(connected(path, "ro")) as connection:
        found, more = last_held(connection, counts)
        texts = [f"it has {counts[one.digest.origin - 1]} entries of site {one.digest.origin}, and had "
                 f"{one.digest.number} at {one.at}" for one in more]
        for one in found:
            if digits_of(*one.digest[:2]) != one.digest.digits:
                texts.append(changed_text(all_held(connection, *one.digest[:2]), digits_of))
        count = next((one.digest.number for one in found if one.digest.origin == own), 0)
        number = changed_line(own_lines, taken_above(connection, count))
    return texts if number is None else [*texts,
                                         f"its message {number} is not the one that was taken under this number"]


def changed_text(rows: list[HeldThen], digits_of: Callable[[int, int], str]) -> str:
    """Which entries are not those that they were, by all rows that say digests of an origin, the last of which differs
    from what is held."""
    equal, differs = -1, len(rows) - 1
    while differs - equal > 1:
        middle = (equal + differs) // 2
        if digits_of(*rows[middle].digest[:2]) == rows[middle].digest.digits:
            equal = middle
        else:
            differs = middle
    first = rows[equal].digest.number + 1 if equal >= 0 else 1
    origin, count, _ = rows[differs].digest
    return f"entries {first} to {count} of site {origin} are not those of {rows[differs].at}: one of them was changed"


# ---- the audit

def stretches(numbers: list[int], word: str) -> str:
    """Numbers in their order as a text, such as: rows 3, 5 to 7."""
    ranges: list[list[int]] = []
    many = 0
    for number in numbers:
        many += 1
        if ranges and ranges[-1][1] == number - 1:
            ranges[-1][1] = number
        else:
            ranges.append([number, number])
    parts = [f"{first} to {last}" if first < last else str(first) for first, last in ranges[:limits.REPORT_MOST_RANGES]]
    others = " and others" if len(ranges) > limits.REPORT_MOST_RANGES else ""
    return f"{word}{'s' if many > 1 else ''} {', '.join(parts)}{others}"


def anchor_in(since: str | None) -> tuple[int, str] | None:
    """The number and the sum of a row that somebody kept."""
    number, colon, its = (since or "").partition(":")
    if since and not (colon and number.isascii() and number.isdigit()):
        raise Wrong(f"{since} is not NUMBER:SUM")
    return (int(number), its) if since else None


def is_sum(its: str, kept: str) -> bool:
    """Whether a sum is one that somebody kept, or begins with the digits that a monitor has of it."""
    return its == kept or len(kept) >= limits.SHORT_SUM_DIGITS and its.startswith(kept)


class Said:
    """What rows say of lines: the posts without an outcome, and the lines that wait."""
    posts: dict[int, list[str]]
    waits: dict[int, tuple[str, str]]

    def __init__(self) -> None:
        self.posts, self.waits = {}, {}

    def outcomes(self, number: int, act: str, what: Any) -> list[tuple[str, str, Any]]:
        """The lines whose outcome a row says: the digest of each, its outcome, and the number under which it was taken,
        if it was."""
        if act in POSTS:
            self.posts[number] = list(map(str, what["lines"]))
        elif act == "wait":
            self.waits.update((int(its), (str(bank), str(digest))) for its, bank, digest in what["lines"])
        elif act == "failed":
            return [(digest, "FAILED", None) for digest in self.posts.pop(what["of"])]
        elif act == "outcome":
            lines, outcomes = self.posts.pop(what["of"]), what["outcomes"]
            if len(lines) != len(outcomes):
                raise ValueError("a post has other lines")
            return [(digest, word, more[0] if more else None) for digest, (word, *more) in zip(lines, outcomes)]
        else:
            if self.waits.pop(what["waiting"]) != (what["bank"], what["line"]):
                raise ValueError("another line waits")
            return [(what["line"], act.upper(), what["outcome"])]
        return []

    def pending(self) -> set[str]:
        """The digests of lines that may have been handed on, and have no outcome yet."""
        return {digest for lines in self.posts.values() for digest in lines} | {digest
                                                                                for _, digest in self.waits.values()}


class Audit:
    """An audit: the rows one after another, and beside them the journal's own lines."""
    facts: list[str]
    faults: list[str]
    open: dict[int, str]
    acts: collections.Counter[str]
    last: tuple[int, str, str]

    def __init__(self, site: int, group: int, own_lines: Callable[[], Iterable[bytes]]) -> None:
        self.site, self.group, self.own_lines = site, group, own_lines
        self.facts, self.faults, self.more = [], [], 0
        self.journal, self.held, self.begun = enumerate(lines_in(own_lines), 1), 0, 0
        self.open = {}  # the numbers that no row has given yet of lines that were read, each with its digest
        self.said, self.acts, self.last, self.is_anchored = Said(), collections.Counter(), (0, "", ""), False

    def wrong(self, text: str) -> None:
        if len(self.faults) < limits.REPORT_MOST_LINES:
            self.faults.append(text)
        else:
            self.more += 1

    def report(self) -> tuple[list[str], bool]:
        """The lines of the report, and whether nothing is wrong."""
        more = [f"WRONG: and {self.more} more"] if self.more else []
        return self.facts + [f"WRONG: {text}" for text in self.faults] + more, not self.faults

    def run(self, connection: sqlite3.Connection, least: int, anchor: tuple[int, str] | None) -> None:
        """Looks at all. `least` lines were in the journal before the record was opened: those must have their rows."""
        check_file(connection, self.site, self.group)
        for name in changed_parts(connection):
            self.wrong(f"the {name} of the record is changed or removed")
        with contextlib.closing(connection.execute(f"SELECT {CELLS} FROM record ORDER BY number")) as rows:
            for row, fault in linked(rows, 0, first_sum(self.site, self.group)):
                if fault:
                    self.wrong(fault)
                self.look(row, anchor)
        if self.acts["begin"] != 1:
            self.wrong("the record has no beginning, or more than one")
        self.facts.append(f"The record of site {self.site} of {self.group} has {sum(self.acts.values())} rows. "
                          f"The last, of {self.last[1]}, is {self.last[0]}:{self.last[2]}")
        self.facts.append(f"Rows by act: {', '.join(f'{act} {many}' for act, many in sorted(self.acts.items()))}")
        if anchor:
            self.anchored(anchor)
        self.look_at_rest(connection, least)
        self.look_at_posts(connection)
        self.look_at_waiting(connection)

    def look(self, row: Any, anchor: tuple[int, str] | None) -> None:
        """Looks at one row."""
        number, at, _, _, _, act, text, its = row
        self.acts[str(act)] += 1
        self.last = number, at, its
        self.is_anchored = self.is_anchored or anchor is not None and number == anchor[0] and is_sum(its, anchor[1])
        if act not in SAYING:
            return
        try:
            what = json.loads(text)
            if act == "begin":
                return self.begins(number, **what)
            for digest, word, more in self.said.outcomes(number, act, what):
                if word == "TAKEN":
                    self.taken(number, more, digest)
        except BAD_ROW:
            self.wrong(
                f"row {number} of the record does not say what its act, {act}, must say after the rows before it")

    def begins(self, number: int, lines: int, sum: str) -> None:
        """Looks at the lines that are older than the record."""
        sums = hashlib.sha256()
        for place, line in itertools.islice(self.journal, lines):
            self.held = place
            sums.update(line + b"\n")
        self.begun = lines
        if number != 1:
            self.wrong(f"row {number} begins the record again")
        elif self.held < lines:
            self.wrong(f"the journal has {self.held} lines of its own, and had {lines} when the record began")
        elif sums.hexdigest() != sum:
            self.wrong(
                f"the first {lines} lines of the journal, which are older than the record, are not those that it "
                "had then")

    def read_to(self, number: int) -> None:
        """Reads lines of the journal up to a number, if it has as many."""
        for self.held, line in itertools.islice(self.journal, max(0, number - self.held)):
            self.open[self.held] = digest_of(line)

    def taken(self, row: int, number: int, digest: str) -> None:
        """Looks at a line that was taken under a number, as a row says."""
        self.read_to(number)
        if number > self.held:
            self.wrong(f"row {row} of the record says TAKEN {number}, and the journal has {self.held} lines of its own")
        elif number not in self.open:
            self.wrong(f"row {row} of the record says TAKEN {number}, which was given before")
        elif self.open.pop(number) != digest:
            self.wrong(
                f"row {row} of the record says TAKEN {number}, and the journal has another line under that number")

    def anchored(self, anchor: tuple[int, str]) -> None:
        if self.is_anchored:
            self.facts.append(f"Row {anchor[0]} of the record has the sum that was kept")
        elif anchor[0] > self.last[0]:
            self.wrong(f"the record has lost rows: it ends with row {self.last[0]}, and row {anchor[0]} was there")
        else:
            self.wrong(f"row {anchor[0]} of the record has not the sum that was kept")

    def look_at_rest(self, connection: sqlite3.Connection, least: int) -> None:
        """Looks at the lines of the journal that no row gives a number."""
        self.read_to(1 << 62)
        pending = self.said.pending()
        left = {number: digest for number, digest in self.open.items() if digest not in pending}
        again = set(self.again(connection, set(left.values()))) if left else ()
        unsaid = [number for number, digest in left.items() if digest not in again]
        fresh, lacking = sum(number > least for number in unsaid), [number for number in unsaid if number <= least]
        with_number = max(0, self.held - self.begun - len(self.open))
        self.facts.append(
            f"The journal has {self.held} lines of its own: {min(self.begun, self.held)} are older than the record, "
            f"{with_number} have a row with their number, {len(self.open) - len(unsaid)} have a row without it"
            + (f", {fresh} came after the audit began" if fresh else ""))
        if lacking:
            self.wrong(f"no row of the record has {stretches(lacking, 'line')} of the journal")

    def again(self, connection: sqlite3.Connection, wanted: set[str]) -> Iterator[str]:
        """Lines that were taken without an outcome that says so: the process or the site ended, and they were handed on
        again."""
        said, acts = Said(), sorted(SAYING - {"begin"})
        places = ", ".join("?" * len(acts))
        for number, act, text in connection.execute(
                f"SELECT number, act, what FROM record WHERE act IN ({places}) ORDER BY number", acts):
            with contextlib.suppress(*BAD_ROW):
                for digest, word, _ in said.outcomes(number, act, json.loads(text)):
                    if word in ("REPEAT", "FAILED") and digest in wanted:
                        yield digest

    def look_at_posts(self, connection: sqlite3.Connection) -> None:
        """Reports each post without an outcome, and which of its lines are in the journal."""
        posts = self.said.posts
        wanted = {digest for lines in posts.values() for digest in lines}
        numbers = {}
        for number, line in enumerate(lines_in(self.own_lines), 1) if wanted else ():
            digest = digest_of(line)
            if digest in wanted:
                numbers[digest] = number
        for number, lines in itertools.islice(posts.items(), limits.REPORT_MOST_LINES):
            at, who, act = connection.execute("SELECT at, who, act FROM record WHERE number = ?", (number,)).fetchone()
            there = sorted({numbers[digest] for digest in lines if digest in numbers})
            held = f"{len(there)} of its {len(lines)} lines are in the journal" + (f", as {stretches(there, 'line')}"
                                                                                   if there else "")
            self.facts.append(f"Row {number}, of the act {act}, by {who} at {at}, has no outcome: {held}")
        if len(posts) > limits.REPORT_MOST_LINES:
            self.facts.append(f"And {len(posts) - limits.REPORT_MOST_LINES} more have no outcome")

    def look_at_waiting(self, connection: sqlite3.Connection) -> None:
        """Compares the lines that wait with the rows that say so."""
        there = {number: (bank, digest_of(line)) for number, bank, line in connection.execute(
            "SELECT number, bank, line FROM waiting WHERE state = 'WAITING'")}
        self.facts.append(f"{len(there)} lines wait for their instructions")
        for number in sorted(there.keys() | self.said.waits.keys()):
            if number not in self.said.waits:
                self.wrong(f"line {number} waits, and no row of the record says so")
            elif number not in there:
                self.wrong(f"line {number} does not wait, and no row of the record says that it ended")
            elif there[number] != self.said.waits[number]:
                self.wrong(
                    f"line {number} that waits is another one, or of another bank, than its row of the record says")


def audited(path: Path, site: int, group: int, own_lines: Callable[[], Iterable[bytes]],
            since: str | None = None) -> tuple[list[str], bool]:
    """Compares all rows of a record with each other and with the journal's own lines. The lines of a report, and
    whether all is right. The site may run meanwhile. `since` is NUMBER:SUM of a row that somebody kept."""
    audit = Audit(site, group, own_lines)
    try:
        anchor = anchor_in(since)
        least = sum(1 for _ in lines_in(own_lines))
        with contextlib.closing(connected(path, "ro")) as connection:
            connection.execute("BEGIN")
            audit.run(connection, least, anchor)
    except (Wrong, sqlite3.Error, OSError) as fault:
        audit.wrong(f"the record cannot be read: {fault}")
    return audit.report()
