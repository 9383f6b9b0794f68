"""records.py: the record of a site by itself: its chain, transactions, crashes, full disks, denials, lines that wait,
and its audit.

Sums are made here again with hashlib. Files are edited through a connection of SQLite of their own. No package is
needed.
"""
import asyncio
import contextlib
import datetime
import hashlib
import itertools
import json
import logging
import os
import pathlib
import re
import shutil
import sqlite3
import subprocess
import sys
import tempfile
import time
from tests import harness
from tests.harness import SERVICES, reported
sys.path.insert(0, str(SERVICES))
from hub import audit, chain, files, limits, record, waiting
from hub.faults import Busy, Unable
from hub.files import Wrong
from hub.work import Outcome

SITE, GROUP = 7, 64
WHO = "lutefrpp", "10.0.0.1:4711", "00ff00ff00ff00ff"
OLD = [b'{"old":1}', b'{"old":2}']
BANK, OTHER = "LUTEFRPPXXX", "HANSDEHHXXX"
LATEST = 60  # seconds in which something must come about, also on a busy machine
copies = itertools.count(1)


def sha(data):
    return hashlib.sha256(data).hexdigest()


def taken(number):
    return Outcome("TAKEN", number, "")


@contextlib.contextmanager
def raw(path):
    """A connection that does not wait for the disk."""
    with contextlib.closing(sqlite3.connect(path, isolation_level=None)) as connection:
        connection.execute("PRAGMA synchronous = OFF")
        yield connection


def rows_in(path, table="record"):
    """All rows of a table, through a connection of its own."""
    with raw(path) as connection:
        return connection.execute(f"SELECT * FROM {table} ORDER BY number").fetchall()


def says(row):
    return json.loads(row[6])


def edited(path, *statements):
    """Runs statements on a record without its triggers, and puts the triggers back."""
    with raw(path) as connection:
        triggers = connection.execute("SELECT name, sql FROM sqlite_master WHERE type = 'trigger'").fetchall()
        for name, _ in triggers:
            connection.execute(f"DROP TRIGGER {name}")
        for statement in statements:
            connection.execute(statement)
        for _, text in triggers:
            connection.execute(text)


def copy_of(path):
    """A copy of a record that nobody has open, under a name that no file had before."""
    return shutil.copy(path, f"{path}-{next(copies)}")


def sums_again(path, first, begins=b"site 7 64"):
    """Makes the sums of all rows anew from a row on, as somebody does who knows how."""
    rows = rows_in(path)
    before = rows[first - 2][7] if first > 1 else sha(begins)
    for row in rows[first - 1:]:
        before = sha((before + json.dumps(row[:7], separators=(",", ":"))).encode())
        edited(path, f"UPDATE record SET sum = '{before}' WHERE number = {row[0]}")


async def started(path, journal=(), site=SITE, group=GROUP):
    it = record.Record(path, site, group)
    await it.open(lambda: iter(journal))
    return it


def is_wrong(path, site=SITE, group=GROUP):
    """Whether a site refuses to open a file as its record."""
    async def tried():
        it = await started(path, (), site, group)
        await it.close()
    try:
        asyncio.run(tried())
    except Wrong:
        return True
    return False


async def comes_about(is_so):
    """Whether something comes about while other tasks go on."""
    end = time.monotonic() + LATEST
    while not is_so() and time.monotonic() < end:
        await asyncio.sleep(0.02)
    return is_so()


def fault_in(call, *words):
    try:
        call(*words)
    except Exception as fault:
        return fault


async def fault_of(coroutine):
    try:
        await coroutine
    except Exception as fault:
        return fault


def made(path, *rows, journal=OLD):
    """A record of a site that began with a journal, and then added some rows. They are numbered from 2."""
    async def run():
        it = await started(path, journal)
        await asyncio.gather(*(it.add(act, *WHO, what) for act, what in rows))
        await it.close()
        return it.last()
    return asyncio.run(run())


def audit_of(path, journal, **more):
    lines, is_right = audit.audited(path, SITE, GROUP, lambda: iter(journal), **more)
    return "\n".join(lines), is_right


def sees(path, journal, text, **more):
    """Whether an audit finds something wrong, and says so."""
    report, is_right = audit_of(path, journal, **more)
    return not is_right and any(text in line for line in report.splitlines() if line.startswith("WRONG: "))


def agrees(path, journal, *texts, **more):
    """Whether an audit finds nothing wrong, and says something."""
    report, is_right = audit_of(path, journal, **more)
    return is_right and "WRONG" not in report and all(text in report for text in texts)


# ---- rows and sums

def writes_a_chain(folder):
    path, began = f"{folder}/a.record", time.time()

    async def run():
        it = await started(path, OLD)
        first = it.last()
        numbers = [await it.add("post", *WHO, chain.post_of([b"{1}", b"delta {2}"]))]
        numbers.append(await it.add("odd", "Zo\u00eb", "", "", {"a": "\u20ac"}))
        await it.close()
        return first, numbers, it.last()
    first, numbers, last = asyncio.run(run())
    rows = rows_in(path)
    yield "rows have the numbers that add returns", numbers == [2, 3] and [row[0] for row in rows] == [1, 2, 3]
    yield "a row has who, from where, in which request, and what", (
        rows[1][2:6] == (*WHO, "post") and says(rows[1]) == {"lines": [sha(b"{1}"), sha(b" delta {2}")]})
    yield "the first row has how much the journal had, and its sum", (
        rows[0][5] == "begin" and says(rows[0]) == {"lines": 2, "sum": sha(b'{"old":1}\n{"old":2}\n')})
    times = [datetime.datetime.fromisoformat(row[1][:-1] + "+00:00").timestamp() for row in rows]
    yield "times are of now, in UTC", began - 0.001 <= times[0] <= times[1] <= times[2] <= time.time() + 0.001
    yield "with thousandths", all(re.fullmatch(r"\d{4}-\d\d-\d\dT\d\d:\d\d:\d\d\.\d{3}Z", row[1]) for row in rows)
    yield "a time as a text", [chain.utc(0), chain.utc(951782399.9996), chain.utc(1795975200.123)] == [
        "1970-01-01T00:00:00.000Z", "2000-02-29T00:00:00.000Z", "2026-11-29T18:00:00.123Z"]
    begin, post = f'{{\\"lines\\":2,\\"sum\\":\\"{says(rows[0])["sum"]}\\"}}', rows[1][6].replace('"', '\\"')
    one = sha(sha(b"site 7 64").encode() + f'[1,"{rows[0][1]}","","","","begin","{begin}"]'.encode())
    two = sha(one.encode()
              + f'[2,"{rows[1][1]}","lutefrpp","10.0.0.1:4711","00ff00ff00ff00ff","post","{post}"]'.encode())
    three = sha(two.encode() + f'[3,"{rows[2][1]}","Zo\\u00eb","","","odd","{{\\"a\\":\\"\\\\u20ac\\"}}"]'.encode())
    yield "each sum is over the sum before it and the row", [row[7] for row in rows] == [one, two, three]
    yield "the last row is known, for the log", (first, last) == ((1, one), (3, three))
    made(path, ("more", {}))
    yield "a record that is opened again goes on", [row[5] for row in rows_in(path)] == ["begin", "post", "odd", "more"]
    yield "and its audit is right", agrees(path, OLD + [b"{1}"], since=f"3:{three}")


def writes_texts(folder):
    synced = []

    async def run():
        umask = os.umask(0o077)
        chain.synced = lambda path: synced.append(str(path))
        it = await started(f"{folder}/b.record")
        chain.synced = files.synced
        await it.add("post", "a\nb\ud800\0", "x" * 10_000, "\x1b" * 300, {"a": "\ud800"})
        modes = {os.stat(f"{folder}/b.record{end}").st_mode & 0o777 for end in ("", "-wal", "-shm")}
        os.umask(umask)
        asked = [f"PRAGMA {name}" for name in ("synchronous", "journal_mode")]
        loop, its = asyncio.get_running_loop(), it.file
        found = await loop.run_in_executor(it.threads.writer,
                                           lambda: [its.connection.execute(one).fetchone()[0] for one in asked])
        await it.close()
        return modes, found
    modes, found = asyncio.run(run())
    _, _, who, address, request, _, what, _ = rows_in(f"{folder}/b.record")[1]
    yield "texts from outside are short, and can be printed", (who, address, request) == (
        "a\\nb\\ud800\\x00", "x" * 200, "\\x1b" * 50) and what == '{"a":"\\ud800"}'
    yield "the file is private", modes == {0o600}
    yield "each transaction is put on the disk, and the name of the file", found == [2, "wal"] and synced == [folder]
    outcomes = [taken(17), Outcome("REPEAT", 0, ""),
                Outcome("REFUSED", 36, "36 " + "x" * 300), Outcome("WAITING", 0, ""),
                Outcome("FORBIDDEN", 0, "why")]
    yield "outcomes are short", chain.outcomes_of(5, outcomes) == {"of": 5, "outcomes": [
        ["TAKEN", 17], ["REPEAT"], ["REFUSED", 36, "36 " + "x" * 197], ["WAITING"], ["FORBIDDEN", "why"]]}


def stays_as_it_is(folder):
    path = f"{folder}/c.record"
    made(path, ("one", {}), ("two", {}))
    before = rows_in(path)
    wrong = ["UPDATE record SET who = 'x' WHERE number = 2", "UPDATE record SET sum = sum",
             "DELETE FROM record WHERE number = 3",
             "DELETE FROM record", *(f"INSERT {word} INTO record VALUES ({number}, 'a', 'b', 'c', 'd', 'e', 'f', 'g')"
                                     for word in ("", "OR REPLACE", "OR IGNORE")
                                     for number in (1, 3, 5, 0, -1, "NULL"))]
    refused = []
    with raw(path) as connection:
        for statement in wrong:
            try:
                connection.execute(statement)
            except sqlite3.IntegrityError as fault:
                refused.append("a row of the record" in str(fault))
    yield "triggers refuse each change, removal and wrong number", len(refused) == len(wrong) and all(
        refused) and rows_in(path) == before
    data = pathlib.Path(path).read_bytes()
    yield "the record of another site or group is refused", is_wrong(path, 8, 64) and is_wrong(path, 7, 63)
    yield "and stays as it is", pathlib.Path(path).read_bytes() == data and not is_wrong(path)
    for name, text in ("text", b"no database " * 1000), ("journal", b" site 7 64\n" + b" {}\n" * 1000 + b"\t"):
        pathlib.Path(folder, name).write_bytes(text)
        yield f"a {name} is refused, and stays", is_wrong(f"{folder}/{name}") and pathlib.Path(
            folder, name).read_bytes() == text
    with raw(f"{folder}/old.db") as connection:
        connection.execute("CREATE TABLE site(number INTEGER, sites INTEGER)")
        connection.execute(f"INSERT INTO site VALUES ({SITE}, {GROUP})")
    yield "a journal of an older version is refused", is_wrong(f"{folder}/old.db")
    edits = {"of another version": "PRAGMA user_version = 2", "without a trigger": "DROP TRIGGER record_stays",
             "without a table": "DROP TABLE waiting", "of no site": "DELETE FROM site"}
    for name, statement in edits.items():
        other = copy_of(path)
        with raw(other) as connection:
            connection.execute(statement)
        yield f"a record {name} is refused", is_wrong(other)
    other = copy_of(path)
    edited(other, "DELETE FROM record")
    yield "a record without a row is refused", is_wrong(other)


# ---- edits

EDITS = {  # what is done to the rows 1 to 8, and what an audit says of it
    "who": ("UPDATE record SET who = 'desk' WHERE number = 4", "row 4 of the record is not"),
    "a time": ("UPDATE record SET at = '2020-01-01T00:00:00.000Z' WHERE number = 4", "row 4 of the record is not"),
    "an address": ("UPDATE record SET address = '' WHERE number = 4", "row 4 of the record is not"),
    "a request": ("UPDATE record SET request = '' WHERE number = 4", "row 4 of the record is not"),
    "an act": ("UPDATE record SET act = 'adopt' WHERE number = 4", "row 4 of the record is not"),
    "a blank": ("UPDATE record SET what = what || ' ' WHERE number = 8", "row 8 of the record is not"),
    "a sum": ("UPDATE record SET sum = upper(sum) WHERE number = 8", "row 8 of the record is not"),
    "the first row": ("UPDATE record SET what = replace(what, '2', '3') WHERE number = 1", "row 1 of the record is not"),
    "no row in the middle": ("DELETE FROM record WHERE number = 5", "the record lacks row 5"),
    "no rows in the middle": ("DELETE FROM record WHERE number IN (3, 4, 5)", "the record lacks rows 3 to 5"),
    "no first row": ("DELETE FROM record WHERE number = 1", "the record lacks row 1"),
    "no row, and the others moved up": (("DELETE FROM record WHERE number = 5", "UPDATE record SET number = number - 1 WHERE number > 5"),
                                        "row 5 of the record is not"),
    "a row put between": (("UPDATE record SET number = -number WHERE number > 5", "UPDATE record SET number = 1 - number WHERE number < 0",
                           "INSERT INTO record SELECT 6, at, who, address, request, act, what, sum FROM record WHERE number = 5"),
                          "row 6 of the record is not"),
    "a row put at the end": ("INSERT INTO record SELECT 9, at, who, address, request, 'odd', what, sum FROM record WHERE number = 8",
                             "row 9 of the record is not"),
    "two rows swapped": (("UPDATE record SET number = -4 WHERE number = 4", "UPDATE record SET number = 4 WHERE number = 6",
                          "UPDATE record SET number = 6 WHERE number = -4"), "row 4 of the record is not"),
    "what is no text of its act": ("UPDATE record SET what = '[' WHERE number = 4", "row 4 of the record does not say what its act, post"),
}


def sees_edits(folder):
    lines = [b"{1}", b"{2}", b"{3}"]
    rows = [row for number, line in enumerate(lines) for row in (
        ("post", chain.post_of([line])), ("outcome", chain.outcomes_of(2 + 2 * number, [taken(3 + number)])))]
    path, journal = f"{folder}/d.record", OLD + lines
    number, its = made(path, *rows, ("odd", {}))
    yield "a record as it is", number == 8 and agrees(path, journal, "has 8 rows", f"8:{its}",
                                                      since=f"8:{its}") and not is_wrong(path)
    yield "a row is known by 12 digits of its sum, and not by fewer or others", agrees(
        path, journal, since=f"8:{its[:12]}") and all(
            sees(path, journal, "has not the sum", since=f"8:{digits}") for digits in (its[:11], its[1:13], ""))
    for name, (statements, text) in EDITS.items():
        other = copy_of(path)
        edited(other, *([statements] if isinstance(statements, str) else statements))
        yield f"a record with {name} that somebody edited", sees(other, journal, text) and is_wrong(other)
    yield from sees_edits_that_fit(path, journal)


def sees_edits_that_fit(path, journal):
    """Edits of somebody who knows how sums are made."""
    kept, change = f"4:{rows_in(path)[3][7]}", "UPDATE record SET who = 'desk' WHERE number = 4"
    other = copy_of(path)
    edited(other, change)
    sums_again(other, 4)
    yield "a change with all sums made again is seen by the sum that was kept", sees(
        other, journal, "row 4 of the record has not the sum", since=kept) and agrees(other, journal)
    other = copy_of(path)
    edited(other, "DELETE FROM record WHERE number >= 4")
    yield "rows that are removed from the end are, too", sees(other, journal, "it ends with row 3, and row 4 was there",
                                                              since=kept)
    yield "and by the lines that are left", sees(other, journal, "no row of the record has lines 4 to 5 of the journal")
    other = copy_of(path)
    edited(other, change)
    its = sha((rows_in(path)[2][7] + json.dumps(rows_in(other)[3][:7], separators=(",", ":"))).encode())
    edited(other, f"UPDATE record SET sum = '{its}' WHERE number = 4")
    yield "a change with its own sum made again is seen at the next row", sees(other, journal,
                                                                               "row 5 of the record is not")
    yield "and by a site that opens it", is_wrong(other)
    other = copy_of(path)
    edited(other, "UPDATE record SET act = 'odd' WHERE number = 1")
    sums_again(other, 1)
    yield "a first row that is no beginning", sees(other, journal, "no beginning")
    with raw(other) as connection:
        connection.execute("DROP TRIGGER record_remains")
    yield "a trigger that somebody removed", sees(other, journal,
                                                  "the TRIGGER record_remains of the record is changed or removed")


def checks_the_end(folder):
    """A site that opens a long record looks at its end."""
    path = f"{folder}/end.record"
    made(path, *(("odd", {"its": number}) for number in range(10)))
    limits.RECORD_CHECKED_ROWS = 3
    yield "a record as it is", not is_wrong(path)
    for number in 9, 10, 11:
        other = copy_of(path)
        edited(other, f"UPDATE record SET who = 'desk' WHERE number = {number}")
        yield f"row {number} of 11, changed", is_wrong(other)
    other = copy_of(path)
    edited(other, "DELETE FROM record WHERE number = 8")
    yield "the row before them, removed", is_wrong(other)
    limits.RECORD_CHECKED_ROWS = 1000
    fault = fault_in(asyncio.run, started(other))
    yield "a record that is refused is not open any more", isinstance(fault,
                                                                      Wrong) and not os.path.exists(f"{other}-wal")


# ---- a record that somebody changes while its site runs, or in between

async def knows_its_end(folder):
    """Somebody cuts the last rows off while the site runs, as who has the file can, and puts them back."""
    path = f"{folder}/own-end.record"
    it = await started(path, OLD)
    await it.add("denied", *WHO, {})
    kept = rows_in(path)[1]
    edited(path, "DELETE FROM record WHERE number = 2")
    faults = [await fault_of(it.add("post", *WHO, {})) for _ in range(2)]
    yield "rows that are cut off are not followed by others", all(isinstance(one, Unable) and one.is_full
                                                                  for one in faults) and len(rows_in(path)) == 1
    yield "and the record says so", f"it has not the row 2:{kept[7]} any more" in it.fault
    edited(path, "INSERT INTO record VALUES (2, 'at', 'who', 'a', 'r', 'act', 'what', 'sum')")
    yield "nor is another row in their place", isinstance(await fault_of(it.add("post", *WHO, {})),
                                                          Unable) and len(rows_in(path)) == 2
    edited(path, "DELETE FROM record WHERE number = 2",
           "INSERT INTO record VALUES ({}, {})".format(kept[0], ", ".join(f"'{one}'" for one in kept[1:])))
    yield "when they are back, it goes on", await it.add("post", *WHO, {}) == 3 and it.fault is None
    await it.close()


async def begins_once(folder):
    """A record is removed or is an old one, while a file beside it says what was there."""
    path, mark = f"{folder}/once.record", pathlib.Path(folder, "once.recorded")
    it = await started(path, OLD)
    await comes_about(mark.exists)
    yield "beside a record is its last row", mark.read_text() == "{}:{}\n".format(*it.last())
    await it.add("post", *WHO, {})
    await it.close()
    last = mark.read_text()
    yield "also when it is closed", last == "{}:{}\n".format(*it.last()) and last.startswith("2:")
    kept = pathlib.Path(path).read_bytes()
    os.unlink(path)
    fault = await fault_of(started(path, OLD))
    yield "one that was removed is not begun again", isinstance(
        fault, Wrong) and "there is no record, and it had the row 2:" in str(fault)
    fault = fault_in(chain.act_once, path, SITE, GROUP, "backup", "operator", {}, lambda: iter(OLD))
    yield "by no act of an operator either", isinstance(fault, Wrong)
    pathlib.Path(path).write_bytes(b"")
    yield "nor is one that is empty", isinstance(await fault_of(started(path, OLD)), Wrong)
    pathlib.Path(path).write_bytes(kept)
    edited(path, "DELETE FROM record WHERE number = 2")
    fault = await fault_of(started(path, OLD))
    yield "one whose end was cut off is refused", isinstance(
        fault, Wrong) and f"the record has not the row {last.strip()} that {mark} names" in str(fault)
    pathlib.Path(path).write_bytes(kept)
    it = await started(path, OLD)
    yield "the right one is opened", it.last()[0] == 2
    await it.close()
    mark.unlink()
    os.unlink(path)
    it = await started(path, OLD)
    yield "without that file a record begins, as beside a journal of an older version", it.last()[0] == 1
    await it.close()


async def compares_all(folder):
    """A row before the last ones is changed: the site starts, and finds it in the background."""
    path = f"{folder}/all.record"
    await asyncio.to_thread(made, path, *(("odd", {"its": number}) for number in range(20)))
    limits.RECORD_CHECKED_ROWS, limits.RECORD_COMPARED_ROWS, limits.RECORD_END_SECONDS = 3, 4, 0.1
    it = await started(path)
    await it.add("odd", *WHO, {})
    wanted = "{}:{}\n".format(*it.last())
    yield "the last row is noted again and again", await comes_about(lambda: pathlib.Path(f"{path}ed").read_text()
                                                                     == wanted)
    yield "a record as it is has no fault", await comes_about(lambda: it.tasks[1].done()) and it.damage is None
    await it.close()
    last = it.last()[0]
    found = [chain.fault_before(path, SITE, GROUP, last + more) for more in (0, 1)]
    yield "rows that lack at the end are found", found == [None, f"the record lacks row {last + 1}"]
    edited(path, "UPDATE record SET who = 'desk' WHERE number = 7")
    it = await started(path)
    yield "an old row that was changed is found after the start", await comes_about(
        lambda: it.damage) and it.damage.startswith("row 7 of the record is not")
    await it.close()
    edited(path, "DELETE FROM record WHERE number BETWEEN 2 AND 9")
    it = await started(path)
    yield "and so are rows that lack", await comes_about(
        lambda: it.damage) and it.damage == "the record lacks rows 2 to 9"
    await it.close()
    limits.RECORD_REST_SECONDS = 30.0
    path = f"{folder}/closed.record"
    await asyncio.to_thread(made, path, *(("odd", {"its": number}) for number in range(20)))
    it = await started(path)
    await it.add("odd", *WHO, {})
    began = time.monotonic()
    await it.close()
    yield "a record that is closed while it is compared is one file", not os.path.exists(f"{path}-wal") and len(
        rows_in(copy_of(path))) == 22
    yield "and nobody waits for the rest", time.monotonic() - began < 15 and it.damage is None
    limits.RECORD_CHECKED_ROWS, limits.RECORD_COMPARED_ROWS, limits.RECORD_END_SECONDS, limits.RECORD_REST_SECONDS = 1000, 1000, 3600.0, 0.005


async def notes_reads(folder):
    """What was read is noted, some together."""
    path = f"{folder}/reads.record"
    it = await started(path)
    for number in range(450):
        it.read("desk" if number % 2 else "lutefrpp", f"10.0.0.1:{number}", f"{number:04d}",
                f"GET /transfers/{BANK}/T{number}")
    it.read("desk", "10.0.0.2:1", "last", "GET /find?what=" + "x" * 1000)
    yield "what is read is there a moment later", await comes_about(lambda: "last" in str(rows_in(path)[-1]))
    rows = rows_in(path)[1:]
    found = [(row[2], row[3], *one) for row in rows for one in says(row)["reads"]]
    right = {("desk" if number % 2 else "lutefrpp", "10.0.0.1", f"{number:04d}", f"GET /transfers/{BANK}/T{number}")
             for number in range(450)}
    yield "who read what, from where, and in which request", {row[5] for row in rows} == {"read"} and right == set(
        found[:450]) and len(found) == 451
    yield "a long question is short", found[450] == ("desk", "10.0.0.2", "last", "GET /find?what=" + "x" * 185)
    yield "many have few rows", len(rows) == 7
    it.read("desk", "10.0.0.2:1", "end", "GET /archive")
    await it.close()
    yield "what was read last is there when a record is closed", says(rows_in(path)[-1]) == {
        "reads": [["end", "GET /archive"]]}


# ---- transactions

def commits_in(path):
    """How many transactions the file beside a record has: frames that say how many pages the record has after them."""
    data = pathlib.Path(f"{path}-wal").read_bytes()
    size = 24 + int.from_bytes(data[8:12], "big")
    salt = data[16:24]
    frames = [data[place:place + 24] for place in range(32, len(data) - size + 1, size)]
    return sum(frame[8:16] == salt and frame[4:8] != bytes(4) for frame in frames)


async def commits(folder):
    path = f"{folder}/e.record"
    it = await started(path)
    before, seen = commits_in(path), []

    async def add(number):
        place = await it.add("post", *WHO, {"its": number})
        with raw(path) as connection:
            seen.append(connection.execute("SELECT what FROM record WHERE number = ?",
                                           (place,)).fetchone() == (f'{{"its":{number}}}',))
    await asyncio.gather(*(add(number) for number in range(100)))
    yield "each row is there when add returns", seen == [True] * 100
    yield "rows are in the order of the calls", [says(row)["its"] for row in rows_in(path)[1:]] == list(range(100))
    yield "what comes together is one transaction", 1 <= commits_in(path) - before <= 3
    for number in range(3):
        it.note("note", *WHO, {"its": number})
    last = asyncio.ensure_future(it.add("post", *WHO, {"its": 3}))
    await asyncio.sleep(0)
    it.note("note", *WHO, {"its": 4})
    await last
    await it.add("post", *WHO, {"its": 5})
    yield "notes are in the order of the calls, too", [says(row)["its"] for row in rows_in(path)[101:]] == [0, 1, 2, 3,
                                                                                                            4, 5]
    it.note("note", *WHO, {})
    yield "a note is there a moment later", await comes_about(lambda: len(rows_in(path)) == 108)
    gone = asyncio.ensure_future(it.add("post", *WHO, {}))
    await asyncio.sleep(0)
    gone.cancel()
    yield "who goes away holds nobody up", await it.add("post", *WHO, {}) == 110
    it.note("note", *WHO, {})
    await it.close()
    yield "a record that is closed has all that was noted", len(rows_in(path)) == 111 and it.last()[0] == 111
    it.note("note", *WHO, {})
    yield "and takes nothing", isinstance(await fault_of(it.add("post", *WHO, {})),
                                          Unable) and len(rows_in(path)) == 111


async def waits_for_a_lock(folder):
    it = await started(f"{folder}/f.record")
    with raw(f"{folder}/f.record") as other:
        other.execute("BEGIN IMMEDIATE")
        adding = asyncio.ensure_future(it.add("post", *WHO, {}))
        for _ in range(30):
            await asyncio.sleep(0.01)
        is_done = adding.done()
        other.execute("COMMIT")
        yield "while another process writes a row waits, and nothing else does", not is_done and await adding == 2
    await it.close()
    path, limits.RECORD_LOCK_SECONDS = f"{folder}/late.record", 0.5
    it = await started(path)
    with raw(path) as other:
        other.execute("BEGIN IMMEDIATE")
        fault = await fault_of(it.add("post", *WHO, {}))
        other.execute("ROLLBACK")
    yield "one that writes for too long is no full disk", isinstance(fault, Unable) and not fault.is_full
    yield "and then the record goes on", await it.add("post", *WHO, {}) == 2
    await it.close()
    limits.RECORD_LOCK_SECONDS = 10.0


async def keeps_its_file(folder):
    """Somebody moves the file of a record, and moves it back."""
    path = f"{folder}/aa.record"
    it = await started(path)
    os.rename(path, f"{path}.moved")
    it.note("first", *WHO, {})
    adding = asyncio.ensure_future(it.add("post", *WHO, {}))
    for _ in range(2):
        await asyncio.sleep(0)
    is_under_way = not it.queue
    it.note("second", *WHO, {})
    fault = await fault_of(adding)
    shutil.copy(f"{path}.moved", path)
    second = await fault_of(it.add("post", *WHO, {}))
    os.rename(f"{path}.moved", path)
    yield "a file that somebody moved or put there is not written", isinstance(fault, Unable) and isinstance(second,
                                                                                                             Unable)
    yield "and the record says why", bool(it.fault)
    adding = asyncio.ensure_future(it.add("post", *WHO, {}))
    await asyncio.sleep(0)
    it.note("last", *WHO, {})
    yield ("when it is back, notes are there that came meanwhile",
           is_under_way and await adding == 4 and it.fault is None)
    os.rename(path, f"{path}.moved")
    it.note("lost", *WHO, {})
    await fault_of(it.add("post", *WHO, {}))
    async for one in has_room_for_notes(it, path):
        yield one
    fault = await fault_of(started(f"{folder}/nowhere/a.record"))
    yield "a folder that is not there is a disk that fails", isinstance(fault, Unable) and fault.is_full


async def has_room_for_notes(it, path):
    """The file is moved, and one row is noted."""
    limits.RECORD_NOTED_MOST_BYTES = 5000
    for number in range(100):
        it.note("many", *WHO, {})
    os.rename(f"{path}.moved", path)
    await it.add("post", *WHO, {})
    limits.RECORD_NOTED_MOST_BYTES = 32 << 20
    await comes_about(lambda: rows_in(path)[-1][5] == "lost")
    rows = rows_in(path)
    yield "in the order of the calls", [row[5] for row in rows[:5]] == ["begin", "first", "second", "post", "last"]
    rows = rows[5:]
    yield "of too many notes the number of those that are lost is there", [row[5] for row in rows] == [
        "lost", *["many"] * 8, "post", "lost"] and says(rows[-1]) == {"rows": 92}
    os.rename(path, f"{path}.moved")
    it.note("last", *WHO, {})
    await asyncio.wait_for(it.close(), LATEST)
    os.rename(f"{path}.moved", path)
    yield "a record that cannot be written can be closed", len(rows_in(path)) == 16


async def keeps_others_apart(folder):
    """A row that cannot be written at all fails alone."""
    path = f"{folder}/g.record"
    it = await started(path)
    odd = waiting.to_wait(chain.utc(), "a", BANK, "pacs.002", BANK, "T\ud800", "r", b"{}")

    def half(end):
        end.add(*chain.row_of("half", *WHO, {}))
        raise ValueError
    found = await asyncio.gather(it.add("one", *WHO, {}), it.put_waiting([a_line(1), odd]),
                                 it._done(half), it.add("two", *WHO, {}),
                                 return_exceptions=True)
    await it.close()
    yield "what fails by itself fails alone", found[::3] == [2, 3] and all(isinstance(fault, ValueError)
                                                                           for fault in found[1:3])
    yield "and leaves nothing", rows_in(path, "waiting") == [] and [row[5] for row in rows_in(path)] == ["begin", "one",
                                                                                                         "two"]
    yield "in one chain", agrees(path, [], "has 3 rows")


# ---- other processes

CHILD = """
import asyncio, resource, sys
sys.path.insert(0, sys.argv[1])
from hub import chain, limits, record
from hub.faults import Unable
from hub.work import Outcome
path = sys.argv[2]
it = record.Record(path, 7, 64)
WHO = "a", "b", "c"
"""

POSTING = CHILD + """
async def post(number):
    line = b"{%d}" % number
    place = await it.add("post", *WHO, chain.post_of([line]))
    print(place, number, flush=True)
    if number % 10:
        it.note("outcome", *WHO, chain.outcomes_of(place, [Outcome("REPEAT", 0, "")]))

async def main():
    await it.open(lambda: iter([]))
    for number in range(0, 100_000, 20):
        await asyncio.gather(*(post(number + more) for more in range(20)))
asyncio.run(main())
"""

FULL = CHILD + """
limits.RECORD_AGAIN_SECONDS = 0.1

def room(size):
    resource.setrlimit(resource.RLIMIT_FSIZE, (size, resource.RLIM_INFINITY))

async def main():
    await it.open(lambda: iter([]))
    room(300_000)
    added, faults = 1, []
    while len(faults) < 3:
        try:
            added = await it.add("post", *WHO, {"lines": ["0" * 64] * 100})
        except Unable as fault:
            faults.append(fault.is_full)
            it.note("outcome", *WHO, {"of": added + 1 - len(faults), "outcomes": [["REPEAT"]] * 100})
    await asyncio.sleep(0.3)
    room(resource.RLIM_INFINITY)
    print(added, faults, await it.add("post", *WHO, {"lines": []}))
    await it.close()
asyncio.run(main())
"""

ACTS = CHILD + """
for number in range(40):
    chain.act_once(path, 7, 64, "backup", "operator", {"its": number})
"""


def child(code, path, **more):
    return subprocess.Popen([sys.executable, "-c", code, str(SERVICES), path], stdout=subprocess.PIPE,
                            stderr=subprocess.DEVNULL, **more)


def lasts_over_kills(folder):
    path, said, right = f"{folder}/h.record", [], []
    for _ in range(3):
        with child(POSTING, path) as process:
            said += [process.stdout.readline() for _ in range(70)]
            process.kill()
            said += process.stdout.read().splitlines(True)
        rows = {row[0]: row for row in rows_in(path)}
        pairs = [tuple(map(int, line.split())) for line in said if line.endswith(b"\n")]
        right.append(all(says(rows[place]) == {"lines": [sha(b"{%d}" % number)]} for place, number in pairs))
    yield "each row that add returned is there after a kill", right == [True] * 3 and len(pairs) >= 210
    lacking = [place for place, number in pairs if number % 10 == 0]
    report, is_right = audit_of(path, [])
    yield "a post without an outcome is reported, and is not wrong", is_right and all(
        f"Row {place}, of the act post, by a at " in report for place in lacking[:20])
    before = len(rows)
    made(path, ("more", {}), journal=[])
    yield "a record goes on after a kill", len(rows_in(path)) == before + 1 and agrees(path, [])


def lasts_on_a_full_disk(folder):
    path = f"{folder}/i.record"
    with child(FULL, path, restore_signals=False) as process:
        said = process.stdout.read().decode()
    rows = rows_in(path)
    added = int((said or "0").split()[0])
    yield ("on a full disk a row is refused, again and again",
           said == f"{added} [True, True, True] {added + 4}\n" and added > 10)
    yield "and what was noted meanwhile follows when there is room", [row[5]
                                                                      for row in rows] == ["begin"] + ["post"] * (
                                                                          added - 1) + ["outcome"] * 3 + ["post"]
    yield "in one chain", audit_of(path, [])[1]


async def shares(folder):
    path = f"{folder}/j.record"
    it = await started(path)
    process, many = child(ACTS, path), 0
    while process.poll() is None:
        await asyncio.gather(*(it.add("post", *WHO, {"lines": []}) for _ in range(5)))
        many += 5
    await it.close()
    rows = rows_in(path)
    yield "two processes write at once: each row of both is there", process.wait() == 0 and len(
        rows) == 1 + 40 + many and many >= 5
    yield "in its order", [says(row)["its"] for row in rows if row[5] == "backup"] == list(range(40))
    yield "in one chain", audit_of(path, [])[1]
    process.stdout.close()


def acts_once(folder):
    path = f"{folder}/k.record"
    fault = fault_in(chain.act_once, path, SITE, GROUP, "backup", "operator", {})
    yield "an act without a record is refused, and makes none", isinstance(fault, Wrong) and not os.path.exists(path)
    numbers = [chain.act_once(path, SITE, GROUP, "adopt", "operator", chain.post_of([b"{1}"]), lambda: iter(OLD)),
               chain.act_once(path, SITE, GROUP, "outcome", "operator", chain.outcomes_of(2, [taken(3)]))]
    yield "an act may begin a record", numbers == [2, 3] and [row[5] for row in rows_in(path)] == ["begin", "adopt",
                                                                                                   "outcome"]
    yield "and its lines have their rows", agrees(path, OLD + [b"{1}"],
                                                  "2 are older than the record, 1 have a row with their number")
    for site, group in (SITE + 1, GROUP), (SITE, GROUP - 1):
        fault = fault_in(chain.act_once, path, site, group, "backup", "operator", {})
        yield f"an act at site {site} of {group} is refused", isinstance(fault, Wrong) and len(rows_in(path)) == 3


# ---- denials

async def denies(folder):
    path, key = f"{folder}/l.record", ("GET /archive", "it is not known")
    it = await started(path)
    for number in range(500):
        it.refused("?", f"10.0.0.1:{4000 + number}", f"{number:016x}", *key)
    others = [("?", "[fd00::1]:1", *key), ("?", "[fd00::1]:2", *key), ("?", "fd00::2", *key), ("?", "fd00::3", *key),
              ("desk", "10.0.0.1:1", *key), ("?", "10.0.0.2:1", *key), ("?", "10.0.0.1:1", "GET /status", key[1]),
              ("?", "10.0.0.1:1", key[0], "it may not")]
    for who, address, asked, why in others:
        it.refused(who, address, f"of {address}", asked, why)
    await comes_about(lambda: len(rows_in(path)) > 1)
    first = rows_in(path)[1:]
    yield "the first denial of each is a row at once", {row[5] for row in first} == {"denied"} and [
        row[2:5] for row in first[:3]] == [
            ("?", "10.0.0.1:4000", "0" * 16), ("?", "[fd00::1]:1", "of [fd00::1]:1"), ("?", "fd00::2", "of fd00::2")]
    yield "with what was asked and why not", says(first[0]) == {"asked": "GET /archive", "why": "it is not known"}
    yield "who, address, question and reason make another one", len(first) == 8
    it.denials.end_minute()
    for number in range(700):
        it.refused(f"?{number % 35}", "10.0.0.1:1", "e", f"GET /transfers/BANKDEFF/{number}/" + "x" * 10_000,
                   "it is not known")
    it.denials.end_minute()
    for number in range(30):
        it.refused("one", "10.0.0.1:1", "e", f"GET /{number}", "it is not known")
    it.refused("one", "10.0.0.2:1", "e", "GET /", "it is not known")
    it.denials.end_minute()
    for request in "f", "g":
        it.refused("?", "10.0.0.1:1", request, *key)
    await it.close()
    rows = rows_in(path)[9:]
    yield "the others of a minute are one row with their number", [(*row[2:5], says(row)) for row in rows[:2]] == [
        ("?", "10.0.0.1", "0" * 16, {"asked": key[0], "why": key[1], "more": 499}),
        ("?", "[fd00::1]", "of [fd00::1]:1", {"asked": key[0], "why": key[1], "more": 1})]
    yield "of many that differ 500 have rows of their own", [says(row).get("more")
                                                             for row in rows[2:503]] == [None] * 500 + [200]
    yield "of many of one at an address twenty have, so that nobody hides others", [
        (*row[2:4], says(row).get("more")) for row in rows[503:525]] == [
            *[("one", "10.0.0.1:1", None)] * 20, ("one", "10.0.0.2:1", None), ("", "", 10)]
    yield "and no row is long", max(len(row[6]) for row in rows) < 300
    yield "in the next minute the first is a row again, and a record that is closed has the counts", [
        (row[4], says(row).get("more")) for row in rows[525:]] == [("f", None), ("f", 1)]


async def ends_minutes(folder):
    path = f"{folder}/minutes.record"
    limits.DENIED_SECONDS = 0.1
    it = await started(path)
    for minute in range(2):
        for request in "abc":
            it.refused("?", "10.0.0.1:1", request, "GET /archive", "it is not known")
        await comes_about(lambda: len(rows_in(path)) == 3 + 2 * minute)
    yield "a minute ends by itself", [says(row).get("more") for row in rows_in(path)[1:]] == [None, 2] * 2
    await it.close()
    limits.DENIED_SECONDS = 60.0


async def denies_on_a_full_disk(folder):
    path = f"{folder}/m.record"
    limits.DENIED_SECONDS = 0.1
    it = await started(path)
    os.rename(path, f"{path}.moved")
    await fault_of(it.add("post", *WHO, {}))
    for minute in range(3):
        for number in range(500):
            it.refused("?", "10.0.0.1:1", "e", f"GET /{minute}/{number}", "why")
        await asyncio.sleep(0.15)
    held = len(it.queue)
    os.rename(f"{path}.moved", path)
    await it.add("post", *WHO, {})
    await it.close()
    counts = [says(row).get("more", 1) for row in rows_in(path) if row[5] == "denied"]
    yield "while the disk fails denials are only counted", held <= 100 and sum(counts) == 1500
    limits.DENIED_SECONDS = 60.0


# ---- lines that wait

def a_line(number, bank=BANK, until="2026-11-30T00:00:00.000Z", data=None):
    return waiting.to_wait(until, "lutefrpp", bank, "pacs.002", "HANSDEHHXXX", f"T{number}", "00ff",
                           data or b'{"answer":%d}' % number)


async def waits(folder):
    path = f"{folder}/n.record"
    it = await started(path)
    first = await it.put_waiting([a_line(1), a_line(2), a_line(1)], "10.0.0.1:4711", 17)
    its = a_line(2)._replace(number=2, at=first[1].at)
    yield "lines wait under numbers", [row.number for row in first] == [1, 2, 1] and first[1] == its
    row = rows_in(path)[1]
    digests = [sha(b'{"answer":%d}' % number) for number in (1, 2)]
    yield "and the record has it", row[2:6] == ("lutefrpp", "10.0.0.1:4711", "00ff", "wait") and says(row) == {
        "of": 17, "lines": [[1, BANK, digests[0]], [2, BANK, digests[1]]]}
    again = await it.put_waiting([a_line(2, until="2027-01-01T00:00:00.000Z"),
                                  a_line(3, until="2026-11-29T00:00:00.000Z"),
                                  a_line(2, OTHER)])
    yield "a line of the same bank that waits already waits once", again[0] == first[1] and [
        row.number for row in again] == [2, 3, 4]
    await it.put_waiting([a_line(1), a_line(2)])
    yield "and then the record has no more", len(rows_in(path)) == 3
    await it.close()
    it = await started(path)
    found = await it.waiting()
    yield "all is there after a restart", found == [*first[:2], *again[1:]] and found[0].line == b'{"answer":1}'
    yield "lines of one bank", [row.number for row in await it.waiting(OTHER)] == [4]
    async for one in ends(it, path):
        yield one
    await it.close()


async def ends(it, path):
    ended = [await it.end_waiting(1, "TAKEN", 17), await it.end_waiting(1, "TAKEN", 17),
             await it.end_waiting(1, "REPEAT"),
             await it.end_waiting(99, "EXPIRED")]
    yield "a line ends once", ended == [True, False, False, False]
    others = [await it.end_waiting(2, "REFUSED", "36 \0 why"), await it.end_waiting(3, "EXPIRED"),
              await it.end_waiting(4, "FORBIDDEN", "why")]
    rows = rows_in(path)[3:]
    yield "and the record has what became of it", others == [True] * 3 and [
        (row[5], says(row)["outcome"]) for row in rows] == [
            ("taken", 17), ("refused", "36 \\x00 why"), ("expired", None), ("forbidden", "why")]
    yield "for whom, and in which request", {row[2:5] for row in rows} == {("lutefrpp", "", "00ff")}
    yield "by its number, its bank and its sum", says(rows[0]) == {
        "waiting": 1, "bank": BANK, "line": sha(b'{"answer":1}'), "outcome": 17}
    yield "an end that is none is refused", isinstance(await fault_of(it.end_waiting(5, "WAITING")), ValueError)
    listed = [(row.number, row.state, row.outcome) for row in await it.waiting(ended=3)]
    yield "lines that ended are listed if that is asked, the last first", await it.waiting() == [] and listed == [
        (4, "FORBIDDEN", "why"), (3, "EXPIRED", None), (2, "REFUSED", "36 \\x00 why")]
    yield "of one bank, too", [row.number for row in await it.waiting(BANK, 9)] == [3, 2, 1]
    again = await it.put_waiting([a_line(1)])
    yield "a line that ended may wait again", [row.number for row in again] == [5]
    for number, days in (1, 7.01), (2, 6.99):
        with raw(path) as connection:
            connection.execute("UPDATE waiting SET ended = ? WHERE number = ?",
                               (chain.utc(time.time() - days * 86400), number))
    await it.end_waiting(5, "REPEAT")
    yield "seven days after its end a line is removed", [row[0] for row in rows_in(path, "waiting")] == [2, 3, 4, 5]


async def removes(folder):
    path = f"{folder}/removed.record"
    it = await started(path)
    await it.put_waiting([a_line(1), a_line(2)])
    await it.end_waiting(2, "REPEAT")
    await it.close()
    with raw(path) as connection:
        connection.execute("UPDATE waiting SET ended = ? WHERE number = 2", (chain.utc(time.time() - 8 * 86400),))
    it = await started(path)
    yield "a line that ended long ago is removed at the start", [row[0] for row in rows_in(path, "waiting")] == [1]
    yield "and its number is not given again", [row.number for row in await it.put_waiting([a_line(3)])] == [3]
    await it.close()


async def has_limits(folder):
    path = f"{folder}/o.record"
    it = await started(path)
    its = [a_line(number) for number in range(1000)]
    await it.put_waiting(its)
    fault = await fault_of(it.put_waiting([a_line(1, OTHER), a_line(1000)]))
    many = len(rows_in(path, "waiting")), len(rows_in(path))
    yield "of one bank a thousand lines wait, and of too many none", isinstance(fault, Busy) and many == (1000, 2)
    yield "one that waits already is not too many", [row.number for row in await it.put_waiting([its[500]])] == [501]
    for bank in range(9):
        await it.put_waiting([a_line(number, f"BANK{bank}") for number in range(1000)])
    fault = await fault_of(it.put_waiting([a_line(1, OTHER)]))
    yield "at a site ten thousand lines wait", isinstance(fault, Busy) and len(await it.waiting()) == 10_000
    await it.end_waiting(1, "EXPIRED")
    yield "and one more after one ended", [row.number for row in await it.put_waiting([a_line(1, OTHER)])] == [10_001]
    await it.close()
    it = await started(f"{folder}/q.record")
    await it.put_waiting([a_line(number, data=b"%08d" % number * (1 << 13)) for number in range(32)])
    fault, fits = (await fault_of(it.put_waiting([a_line(1, data=b"x")])),
                   await it.put_waiting([a_line(1, OTHER, data=b"x")]))
    yield "of one bank two MiB wait, and others go on", isinstance(fault, Busy) and [row.number for row in fits] == [33]
    await it.close()
    it = await started(f"{folder}/p.record")
    large = [a_line(number, f"BANK{number // 32}", data=b"%08d" % number * (1 << 13)) for number in range(256)]
    await it.put_waiting(large[:255])
    await it.put_waiting([a_line(1, OTHER, data=b"x" * ((1 << 16) - 1))])
    fault = await fault_of(it.put_waiting([a_line(2, OTHER, data=b"xx")]))
    fits = await it.put_waiting([a_line(2, OTHER, data=b"x")])
    yield "and sixteen MiB of them", isinstance(fault, Busy) and [row.number for row in fits] == [257]
    await it.close()
    it = await started(f"{folder}/g.record")
    it.clients = lambda: 10
    for bank in range(2):
        await it.put_waiting([a_line(number, f"BANK{bank}") for number in range(1000)])
    fault = await fault_of(it.put_waiting([a_line(number, "BANK2") for number in range(501)]))
    fits = await it.put_waiting([a_line(number, "BANK3")._replace(who="another") for number in range(500)])
    yield "a client with many banks has a part of it, and another one goes on", isinstance(fault,
                                                                                           Busy) and len(fits) == 500
    await it.close()


# ---- the audit

def made_in(folder, *rows):
    """The path of a record that is written here, without waiting for the disk: it began with two lines, and then has
    some rows."""
    path, before = f"{folder}/{next(copies)}.record", sha(b"site 7 64")
    begin = "begin", {"lines": 2, "sum": sha(b'{"old":1}\n{"old":2}\n')}
    with raw(path) as connection:
        for statement in ("PRAGMA journal_mode = WAL", *chain.SCHEMA, "PRAGMA user_version = 1",
                          "INSERT INTO site VALUES (7, 64)"):
            connection.execute(statement)
        for number, (act, what) in enumerate([begin, *rows], 1):
            cells = [number, "2026-11-28T18:00:00.000Z", *WHO, act, json.dumps(what)]
            before = sha((before + json.dumps(cells, separators=(",", ":"))).encode())
            connection.execute("INSERT INTO record VALUES (?, ?, ?, ?, ?, ?, ?, ?)", (*cells, before))
    return path


def end_of_waiting(act, outcome=None, bank=BANK):
    return act, {"waiting": 1, "bank": bank, "line": sha(b"{9}"), "outcome": outcome}


POST = "post", chain.post_of([b"{3}", b"{4}", b"{5}"])  # the row 2 of a record of made_in
WAIT = "wait", {"of": 2, "lines": [[1, BANK, sha(b"{9}")]]}


def compares(folder):
    """One site with all kinds of rows. Then its journal changes."""
    lines = [b"{%d}" % number for number in range(3, 8)]
    sent = [lines[1], b"{refused}", lines[0], OLD[0], lines[2], b"{forbidden}"]
    outcomes = [taken(4), Outcome("REFUSED", 36, "36"), taken(3), Outcome("REPEAT", 0, ""), Outcome("WAITING", 0, ""),
                Outcome("FORBIDDEN", 0, "no")]
    waits = {"bank": BANK, "line": sha(lines[2])}
    path = made_in(folder, ("post", chain.post_of(sent)), ("adopt", chain.post_of(lines[3:])),
                   ("wait", {"of": 2, "lines": [[1, *waits.values()]]}), ("outcome", chain.outcomes_of(2, outcomes)),
                   ("outcome", chain.outcomes_of(3, [taken(5), taken(6)])),
                   ("taken", {"waiting": 1, **waits, "outcome": 7}),
                   ("backup", {"to": "x"}), ("denied", {"more": 5}))
    journal = OLD + [lines[0], lines[1], lines[3], lines[4], lines[2]]
    yield "each line of the journal has its row", agrees(
        path, journal, "has 9 rows", "adopt 1, backup 1, begin 1, denied 1, outcome 2, post 1, taken 1, wait 1",
        "0 lines wait",
        "7 lines of its own: 2 are older than the record, 5 have a row with their number, 0 have a row without it")
    changes = {"a line without a row": (journal + [b"{8}"], "no row of the record has line 8 of the journal"),
               "some lines without a row": (journal + [b"{8}", b"{9}"],
                                            "no row of the record has lines 8 to 9 of the journal"),
               "a line that was refused": (journal + [b"{refused}"], "no row of the record has line 8 of"),
               "a line that was forbidden": (journal + [b"{forbidden}"], "no row of the record has line 8 of"),
               "no last line": (journal[:-1], "row 7 of the record says TAKEN 7, and the journal has 6 lines"),
               "no last lines": (journal[:3], "row 5 of the record says TAKEN 4, and the journal has 3 lines"),
               "another line": (journal[:3] + [b"{8}"] + journal[4:], "TAKEN 4, and the journal has another line"),
               "two lines swapped": (journal[:2] + [lines[1], lines[0]] + journal[4:],
                                     "TAKEN 3, and the journal has another line"),
               "another line from before": ([b"{x}"] + journal[1:], "the first 2 lines of the journal"),
               "not all lines from before": (OLD[:1], "1 lines of its own, and had 2 when"),
               "no line": ([], "0 lines of its own, and had 2 when")}
    for name, (other, text) in changes.items():
        yield f"a journal with {name}", sees(path, other, text)
    yield "a sum that is none", sees(path, journal, "not NUMBER:SUM", since="5")
    yield from reads_what_is_there(folder, path, journal)


def reads_what_is_there(folder, path, journal):
    def nothing():
        raise FileNotFoundError
        yield
    report, is_right = audit.audited(path, SITE, GROUP, nothing)
    yield "a journal that is not there", not is_right and any("0 lines of its own, and had 2" in text
                                                              for text in report)
    report, is_right = audit.audited(path, SITE + 1, GROUP, lambda: iter(journal))
    yield "the record of another site", not is_right and len(report) == 1 and "and not of site 8 of 64" in report[0]
    yield "no record", sees(f"{folder}/none.record", [],
                            "cannot be read") and not os.path.exists(f"{folder}/none.record")
    pathlib.Path(folder, "torn.record").write_bytes(pathlib.Path(path).read_bytes()[:9000])
    yield "a record that is torn", sees(f"{folder}/torn.record", journal, "cannot be read")
    calls = iter([journal, journal + [b"{8}"]])
    report, is_right = audit.audited(path, SITE, GROUP, lambda: iter(next(calls)))
    yield "a line that comes while an audit reads is not wrong", is_right and any("1 came after the audit began" in text
                                                                                  for text in report)
    asked = []
    sys.addaudithook(lambda event, words: asked.append(str(words[0])) if event == "sqlite3.connect" else None)
    right = audit_of(path, journal)[1]
    yield "an audit only reads", right and [name[-8:] for name in asked] == ["?mode=ro"]


def reads_one_moment(folder):
    """A line begins to wait while an audit reads: it is of a later moment."""
    path, calls = made_in(folder), itertools.count()

    async def run():
        it = await started(path)
        await it.put_waiting([a_line(1)])
        await it.close()

    def own_lines():
        if next(calls):
            asyncio.run(run())
        yield from OLD
    yield "an audit looks at one moment", audit.audited(path, SITE, GROUP,
                                                        own_lines)[1] and len(rows_in(path, "waiting")) == 1


def knows_crashes(folder):
    """Posts whose outcome lacks, and lines that were handed on twice."""
    posted, none = made_in(folder, POST), "0 have a row with their number"
    yield "a post without an outcome, of which nothing is in the journal", agrees(
        posted, OLD, "Row 2, of the act post, by lutefrpp at ", "has no outcome: 0 of its 3 lines are in the journal\n")
    yield "and of which some is", agrees(
        posted, OLD + [b"{4}", b"{5}"], "2 of its 3 lines are in the journal, as lines 3 to 4",
        f"{none}, 2 have a row without it")
    first = ("post", chain.post_of([b"{4}"])), ("outcome", chain.outcomes_of(2, [taken(3)]))
    yield "also under a number that another row gives", agrees(
        made_in(folder, *first, POST), OLD + [b"{4}"], "Row 4, of the act post",
        "1 of its 3 lines are in the journal, as line 3")
    again = [Outcome("REPEAT", 0, ""), Outcome("REPEAT", 0, ""), taken(5)]
    yield "lines that were handed on again after the process ended", agrees(
        made_in(folder, POST, ("outcome", chain.outcomes_of(2, again))), OLD + [b"{3}", b"{4}", b"{5}"],
        "2 have a row without it")
    yield "a post that failed", agrees(
        made_in(folder, POST, ("failed", chain.failed_of(2, "the process ended"))), OLD + [b"{3}"],
        f"{none}, 1 have a row without it")
    yield "a line that waited, and was handed on again", agrees(
        made_in(folder, WAIT, end_of_waiting("repeat")), OLD + [b"{9}"], f"{none}, 1 have a row without it")
    for act in "expired", "refused", "forbidden":
        yield f"one that was {act} is not in the journal", sees(
            made_in(folder, WAIT, end_of_waiting(act)), OLD + [b"{9}"],
            "no row of the record has line 3 of the journal")


def knows_odd_rows(folder):
    """Rows that fit into the chain, and that no site writes."""

    def outcome(*outcomes):
        return ("outcome", chain.outcomes_of(2, outcomes))

    repeat, twice = (Outcome("REPEAT", 0, ""),
                     ("outcome", {"of": 2, "outcomes": [["TAKEN", "x"], ["TAKEN", 10 ** 30], []]}))
    odd = [[outcome()], [POST, outcome(repeat)],
           [WAIT, end_of_waiting("expired"), end_of_waiting("expired")], [end_of_waiting("taken", 3)],
           [WAIT, end_of_waiting("taken", 3, OTHER)], [("post", {"lines": 5})],
           [("post", {"lines": [[1]]}), ("outcome", {"of": [2]})],
           [("wait", {"of": 2, "lines": [[[1], 2, 3]]})], [POST, twice], [("begin", {})], [("outcome", [])]]
    for rows in odd:
        path = made_in(folder, *rows)
        yield f"a row {as_json(rows[-1])}", sees(
            path, OLD, f"row {1 + len(rows)} of the record does not say what its act, {rows[-1][0]},")
    path = made_in(folder, POST, outcome(taken(3), taken(4), taken(3)))
    yield "a number that was given twice", sees(path, OLD + [b"{3}", b"{4}"],
                                                "row 3 of the record says TAKEN 3, which was given before")
    path = made_in(folder, POST, outcome(taken(2), taken(3), taken(4)))
    yield "or before the record began", sees(path, OLD + [b"{4}", b"{5}"],
                                             "row 3 of the record says TAKEN 2, which was given before")
    path = made_in(folder, ("begin", {"lines": 0, "sum": sha(b"")}))
    yield "a second beginning", sees(path, OLD, "row 2 begins the record again")
    path = made_in(folder, *(("outcome", {}) for _ in range(150)))
    report, is_right = audit.audited(path, SITE, GROUP,
                                     lambda: iter(OLD + [b"{%d}" % number for number in range(10_000)]))
    yield "a report of much that is wrong is short", not is_right and len(report) < 110 and report[
        -1] == "WRONG: and 51 more"


def as_json(row):
    return json.dumps(row)[:60]


def knows_what_waits(folder):
    path = f"{folder}/waiting.record"

    async def run():
        it = await started(path, OLD)
        await it.put_waiting([a_line(1), a_line(2)])
        await it.end_waiting(1, "TAKEN", 3)
        await it.close()
    asyncio.run(run())
    journal = OLD + [b'{"answer":1}']
    yield "lines that wait are those of the record", agrees(path, journal, "1 lines wait",
                                                            "1 have a row with their number")
    yield "one that is in the journal, and has no end after a crash", agrees(path, journal + [b'{"answer":2}'],
                                                                             "1 have a row without it")
    edits = {
        "INSERT INTO waiting SELECT 9, at, until, who, bank, kind, originator, tx, request, x'7b7d', 'x', state, "
        "outcome, ended, 2 FROM waiting WHERE number = 2": "line 9 waits, and no row of the record says so",
        "DELETE FROM waiting WHERE number = 2": "line 2 does not wait, and no row of the record says that it ended",
        "UPDATE waiting SET state = 'EXPIRED' WHERE number = 2": "line 2 does not wait, and no row of the record says",
        "UPDATE waiting SET line = x'7b7d' WHERE number = 2": "line 2 that waits is another one",
        "UPDATE waiting SET bank = 'HANSDEHHXXX' WHERE number "
        "= 2": "line 2 that waits is another one, or of another bank"}
    for statement, text in edits.items():
        other = copy_of(path)
        edited(other, statement)
        yield f"{statement[:46]}: {text}", sees(other, journal, text)


# ---- all

def all_of(asynchronous):
    """What a coroutine yields that is given a folder."""
    async def run(folder):
        return [one async for one in asynchronous(folder)]
    return lambda folder: asyncio.run(run(folder))


CHECKS = [writes_a_chain, writes_texts, stays_as_it_is, sees_edits, checks_the_end,
          all_of(knows_its_end), all_of(begins_once),
          all_of(compares_all), all_of(notes_reads), all_of(commits), all_of(waits_for_a_lock), all_of(keeps_its_file),
          all_of(keeps_others_apart), lasts_over_kills, lasts_on_a_full_disk, all_of(shares), acts_once,
          all_of(denies), all_of(ends_minutes), all_of(denies_on_a_full_disk), all_of(waits),
          all_of(removes), all_of(has_limits), compares,
          reads_one_moment, knows_crashes, knows_odd_rows, knows_what_waits]


def main():
    logging.disable(logging.CRITICAL)
    right = []
    for each in CHECKS:
        with tempfile.TemporaryDirectory(prefix="records-") as folder:
            right += [reported(name, is_so) for name, is_so in each(folder)]
    harness.end_of(right)


if __name__ == "__main__":
    main()
