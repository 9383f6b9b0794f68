"""operators.py: what an operator has sites of services/hub do: check, copy, restore and adopt journals, clear a halt,
retire a number.

Most of it is tried on journals that are written by hand, with faults of each kind, and on the program by itself. Sites
over HTTP show that a journal is copied while clients post, that a copy is put back, and that a number is retired while
the others go on. Children that only write down which signals they get show how several sites are kept.
"""
import asyncio
import contextlib
import hashlib
import io
import json
import logging
import os
import re
import signal
import sqlite3
import subprocess
import sys
import threading
import time
import unittest.mock
from tests import harness, inputs
from tests.harness import SERVICES
from tests.hub import sites
from tests.hub.sites import asked, kept, own_lines, until, write_journal
from tests.hub.trial import lines_of
from tests.hub.troubles import tried
from tests.oracle.digests import chain_of
from tests.oracle.exchange import message_in
from tests.oracle.serve import gated, header, kept_in
from tests.oracle.status import read_message
sys.path.insert(0, str(SERVICES))
from hub import audit, chain, limits, waiting, words
from hub.faults import Halted, Unable
from hub.files import Files, Held, Wrong
from hub.keeper import Keeper

GROUP = 64
DIGEST = re.compile(r"^\d+:\d+:[0-9a-f]{64}\n", re.M)


# ---- journals and copies

class Noted:
    """The rows that a word writes. It fails if it must, and calls something before each row."""

    def __init__(self, fault=None, before=lambda: None):
        self.rows, self.fault, self.before = [], fault, before

    def act(self, act, what):
        self.before()
        if self.fault:
            raise self.fault
        self.rows.append((act, {name: it for name, it in what.items() if name != "digests"}))
        return len(self.rows)


def plain(text):
    """A text without its lines that are digests, which has_digests looks at."""
    return DIGEST.sub("", f"{text}\n")[:-1]


def said(call, *more):
    """What a word returns, without digests, or why it does nothing."""
    try:
        text, status = call(*more)
        return plain(text), status
    except (Wrong, Held) as why:
        return type(why).__name__, str(why)


def is_wrong(found, *parts):
    """Whether a word did nothing, for a reason that has some parts."""
    return found[0] == "Wrong" and all(part in found[1] for part in parts)


def request(text):
    """A delta as a journal has it."""
    return text.replace(b"\n", b"\t")[:-1]


def changed(line):
    """A line with a currency that no message has."""
    return line.replace(b"EUR", b"USD")


def fault_of(line):
    """Why the definitions refuse a line."""
    return message_in(line)[1]


def sum_of(path):
    return hashlib.sha256(path.read_bytes()).hexdigest()


def facts(path, vector, messages):
    """What is printed of a copy."""
    return f"{vector}\nmessages {messages}, bytes {path.stat().st_size}, sha256 {sum_of(path)}"


def made(trial, name, lines=(), site=1):
    """The files of a site in a new folder, whose journal keeps some lines."""
    files = Files(trial.fresh(name), site, GROUP)
    files.make_folder()
    write_journal(files.journal, site, GROUP, lines)
    return files


def wrapped(trial, name, text):
    """A program that first does what a text says, in which $4 is the journal that it serves."""
    path = trial.fresh(name)
    path.write_text(f'#!/bin/sh\n{text}\nexec {trial.program} "$@"\n')
    path.chmod(0o755)
    return str(path)


def in_folder(path):
    return sorted(one.name for one in path.iterdir())


def finds_ends(trial):
    """The file of a journal is cut off after each of its last bytes, or has other bytes after its end."""
    lines = [lines_of(1, 1)[:-1], request(inputs.delta(2, 1, 7)), lines_of(2, 1)[:-1]]
    all_of, files = gated([header(1, GROUP), *lines]), made(trial, "ends")
    first, wrong = len(gated([header(1, GROUP)])) - 1, []
    tails = [all_of[:size] for size in range(first, len(all_of) + 1)] + [all_of + rest
                                                                         for rest in (b"x", b" {}\n", b"half a line")]
    for number, data in enumerate(tails):
        files.journal.write_bytes(data)
        its, end = kept_in(data)
        is_cut = data[end:end + 1] in (b"", b" ")
        right = (len(its), sum(not line.startswith(b"delta ") for line in its[1:]),
                 0 if is_cut else len(data) - end - 1, is_cut)
        if tuple(words.measured(files)) != right:
            wrong.append(data[-20:])
        if number % 50 == 0 or len(tails) - number < 10:
            words.keep(files, files.folder / "copy")
            wrong += [data[-20:]] if (files.folder / "copy").read_bytes() != gated(its) else []
    yield f"{len(tails)} ends of a journal: what it keeps, and what a copy has", len(tails) > 700 and not wrong, str(
        wrong[:3])


def checks_journals(trial):
    one, two, three, four, five = lines_of(1, 5).splitlines()
    delta = request(inputs.delta(2, 1, 7, 8))
    its = made(trial, "right", [one, delta, two])
    yield "check: a journal that is right", said(words.check, its, trial.program) == ("1:2,2:2", 0)
    yield "check: it leaves nothing in the folder", in_folder(its.folder) == ["site1.journal"]
    wrong = request(changed(inputs.delta(3, 1, 9)))
    its = made(trial, "faults", [one, two, delta, changed(three), four, wrong, one, b"? vector", b" \t", five])
    right = "\n".join(["1:4,2:2", f"line 5: {fault_of(changed(three))} (message 3)",
                       "line 7: 45 3 (delta)", "line 8: REPEAT (message 5)",
                       "line 9: 31 (message 6)", "line 10: blank (message 7)"])
    yield "check: each line that is refused, by its place and its number", said(words.check, its,
                                                                                trial.program) == (right, 1)
    deltas = [b"delta 2\torigin x 1 2\tend 0", b"delta nonsense", request(inputs.delta(65, 1, 7)),
              request(inputs.delta(2, 3, 7))]
    its = made(trial, "heads", [one, *deltas])
    right = "1:1\nline 3: 45 2 (delta)\nline 4: 45 1 (delta)\nline 5: 44 (delta)\nline 6: 41 2 0 3 (delta)"
    yield "check: heads of deltas that may be anything", said(words.check, its, trial.program) == (right, 1)
    its.journal.write_bytes(b" site 1 64\n " + one + b"\n\t" + two[:30])
    yield "check: a batch that is not complete does not count, and is no fault", said(words.check, its,
                                                                                      trial.program) == ("1:1", 0)
    its.journal.write_bytes(b" site 1 64\n " + one + b"\n " + two[:30])
    yield "check: a file that is cut off is not right", said(words.check, its, trial.program) == (
        "1:1\nthe file is cut off after line 2: it may have had more", 1)
    its.journal.unlink()
    yield "check: no journal", is_wrong(said(words.check, its, trial.program), "there is no file", "site1.journal")


def verifies_copies(trial):
    files, lines = Files(trial.fresh("none"), 1, GROUP), lines_of(1, 3).splitlines()
    folder, log = trial.fresh("copies"), trial.fresh("places")
    folder.mkdir()
    path = folder / "monday"
    write_journal(path, 1, GROUP, [lines[0], request(inputs.delta(2, 1, 7)), lines[1]])
    watching = wrapped(trial, "watching", f'stat -c "%a %n" "$(dirname "$4")" >> {log}')
    before = path.stat().st_mtime_ns
    yield "verify: a copy that is right", said(words.verify, files, watching, path) == (facts(path, "1:2,2:1", 2), 0)
    mode, place = log.read_text().split()
    yield "verify: it is tried in a private folder, which is gone then", mode == "700" and not os.path.exists(place)
    yield "verify: and not in its own folder", not place.startswith(str(folder)) and in_folder(folder) == ["monday"]
    yield "verify: it is only read", path.stat().st_mtime_ns == before
    path.write_bytes(path.read_bytes() + b"half a batch")
    yield "verify: a plain copy with half a batch", said(words.verify, files, trial.program, path) == (
        facts(path, "1:2,2:1", 2) + "\n12 bytes after line 4 do not count", 0)
    path.write_bytes(path.read_bytes()[:-13])
    yield "verify: a copy that is cut off", said(words.verify, files, trial.program, path) == (
        facts(path, "1:2,2:1", 2) + "\nthe file is cut off after line 4: it may have had more", 1)
    write_journal(path, 1, GROUP, [lines[0], changed(lines[1]), lines[2]])
    yield "verify: a copy with a changed line", said(words.verify, files, trial.program, path) == (
        facts(path, "1:2", 3) + f"\nline 3: {fault_of(changed(lines[1]))} (message 2)", 1)
    for name, site, group in ("site", 2, GROUP), ("group", 1, 9):
        write_journal(path, site, group, lines)
        found = said(words.verify, files, trial.program, path)
        yield f"verify: a journal of another {name}", is_wrong(found, f"{site} of {group}", "fault 76")
    for name, data in ("messages", lines_of(1, 2)), ("nothing", b""), ("a shut gate", b"\t"), ("an odd number",
                                                                                               b" site 01 64\n\t"):
        path.write_bytes(data)
        found = said(words.verify, files, trial.program, path)
        yield f"verify: a file with {name} is no journal", is_wrong(found, "fault 75") and path.read_bytes() == data
    yield "verify: no file", is_wrong(said(words.verify, files, trial.program, folder / "tuesday"), "there is no file")


# ---- backups

class Watched:
    """In place of the module os in words.py: it notes which files are put on the disk, and which get a name."""
    one_at_a_time = threading.Lock()

    def __getattr__(self, name):
        return getattr(os, name)

    def __enter__(self):
        self.one_at_a_time.acquire()
        self.done, words.os = [], self
        return self

    def __exit__(self, *_):
        words.os = os
        self.one_at_a_time.release()

    def fsync(self, file):
        self.done.append(("fsync", os.fstat(file).st_ino))
        os.fsync(file)

    def link(self, new, target):
        self.done.append(("link", os.stat(new).st_ino))
        os.link(new, target)

    def on(self, path):
        """What was done with a file."""
        return [word for word, number in self.done if number == path.stat().st_ino]


def backs_up(trial):
    lines = lines_of(1, 4).splitlines()
    its, out = made(trial, "journal", lines[:3]), trial.fresh("out")
    out.mkdir()
    data = its.journal.read_bytes()
    its.journal.write_bytes(data + lines[3][:20])
    target, noted = out / "monday", Noted(before=lambda: there.append(target.exists()))
    there = []
    with Watched() as watched:
        found = said(words.backup, its, trial.program, target, noted)
    yield "backup: what is printed", found == (facts(target, "1:3", 3), 0)
    yield "backup: the copy ends as a journal that was closed in peace", target.read_bytes() == data
    yield "backup: nobody else reads it", target.stat().st_mode & 0o777 == 0o600 and in_folder(out) == [
        "monday", "monday.manifest"]
    yield "backup: it is on the disk before it has its name", watched.on(target) == ["fsync", "link"]
    yield "backup: the record has it before", there == [False] and noted.rows == [("backup", {
        "file": str(target), "vector": "1:3", "messages": 3, "bytes": len(data), "sha256": sum_of(target)})]
    (out / "folder").mkdir()
    (out / "dangling").symlink_to("nowhere")
    names = ["monday", "folder", "dangling"]
    refused = [is_wrong(said(words.backup, its, trial.program, out / name, noted), "is there already")
               for name in names]
    yield "backup: what is there stays as it is", refused == [True] * 3 and target.read_bytes() == data and len(
        noted.rows) == 1
    late = out / "late"
    slow = wrapped(trial, "slow", f"echo mine > {late}")
    yield "backup: also what comes meanwhile", is_wrong(said(words.backup, its, slow, late,
                                                             Noted()), "is there already") and (
                                                                 late.read_text() == "mine\n")
    names = in_folder(out)
    unnoted = said(words.backup, its, trial.program, out / "new", Noted(Unable("no record")))
    write_journal(its.journal, 1, GROUP, [lines[0], changed(lines[1])])

    def backup():
        return said(words.backup, its, trial.program, out / "new", Noted())

    yield "backup: a line that is refused", is_wrong(backup(), "nothing was done", "line 3: ")
    write_journal(its.journal, 2, GROUP, lines)
    yield "backup: the journal of another site", is_wrong(backup(), "fault 76")
    yield "backup: without a row in the record, and in all these cases, nothing is left", is_wrong(
        unnoted, "no record") and (
            in_folder(out) == names)


def with_record(trial, name):
    """The files of a site with three lines, whose record has them, and one line that waits."""
    its = made(trial, name, lines_of(1, 3).splitlines())
    chain.act_once(its.record, 1, GROUP, "reload", "user root", {}, its.own_lines)
    row = waiting.to_wait("2030-01-01T00:00:00.000Z", "bank", "SCALBEBBXXX", "pacs.002", "LUTEFRPPXXX", "T9", "", b"{}")
    waiting.move_waiting([row], its.record, 1, GROUP, its.own_lines)
    return its


def last_row(path):
    with contextlib.closing(sqlite3.connect(path)) as connection:
        return connection.execute("SELECT number, sum FROM record ORDER BY number DESC LIMIT 1").fetchone()


def copies_at_one_moment(trial):
    its, new = with_record(trial, "moment"), trial.fresh("copy")
    copy, locked = trial.fresh("record"), []
    copy.touch()
    lines, last = lines_of(1, 9).splitlines(), last_row(its.record)

    def meanwhile(finish):
        write_journal(its.journal, 1, GROUP, lines)
        with contextlib.closing(sqlite3.connect(its.record, timeout=0)) as other:
            try:
                other.execute("BEGIN IMMEDIATE")
            except sqlite3.OperationalError as why:
                locked.append(str(why))
        finish()
    words.keep(its, new, lambda finish: chain.copied(its.record, copy, 1, GROUP, lambda: meanwhile(finish)))
    yield "backup: what came before the moment is in the journal", new.read_bytes() == gated([header(1, GROUP), *lines])
    yield "backup: nobody adds to the record meanwhile, and its copy is one file with all rows", locked == [
        "database is locked"] and (
            last_row(copy) == last and not list(copy.parent.glob(f"{copy.name}-*")))


def chained(*messages):
    """The digits of the digests of some lines, from that of none on."""
    return [one.hex() for one in chain_of([read_message(line) for line in messages])]


def has_digests(trial):
    """What is printed of a journal has the digests of the definitions. They are compared with the record and with the
    manifest."""
    lines, others = lines_of(1, 4).splitlines(), lines_of(11, 2).splitlines()
    its, out = (made(trial, "digests", [*lines[:2], request(inputs.delta(2, 1, 11, 12)), *lines[2:]]),
                trial.fresh("digests-out"))
    out.mkdir()
    own, other = chained(*lines), chained(*others)
    right = [f"1:4:{own[4]}", f"2:2:{other[2]}"]
    yield "digests: check prints them", words.check(its, trial.program) == ("\n".join(["1:4,2:2", *right]), 0)

    def held(*digests):
        chain.act_once(its.record, 1, GROUP, "digests", "", {"held": list(digests)}, its.own_lines)
    held(f"1:1:{own[1]}", f"2:2:{other[2]}")
    held(f"1:3:{own[3]}")
    done = words.backup(its, trial.program, out / "monday", Noted())
    yield "digests: a backup prints them", done[1] == 0 and done[0].split("\n")[1:3] == right, str(done)
    manifest = json.loads((out / "monday.manifest").read_text())
    yield "digests: its manifest has them", manifest["digests"] == right
    yield "digests: verify prints the same", words.verify(its, trial.program, out / "monday") == done
    (out / "monday.manifest").write_text(json.dumps({**manifest, "digests": right[::-1]}))
    done = words.verify(its, trial.program, out / "monday")
    yield "digests: verify compares them with the manifest", done[1] == 1 and "other digests than its manifest" in done[
        0], str(done)
    (out / "monday.manifest").write_text(json.dumps({name: it for name, it in manifest.items() if name != "digests"}))
    yield "digests: a manifest of an older version has none", words.verify(its, trial.program, out / "monday")[1] == 0
    held(f"1:4:{'0' * 64}")
    done = words.check(its, trial.program)
    named = done[1] == 1 and "\nentries 4 to 4 of site 1 are not those of " in done[0]
    yield "digests: check names the entries that are not those of the record", named, str(done)
    done = words.audited(its, trial.program, None)
    yield "digests: so does the audit", done[1] == 1 and "WRONG: entries 4 to 4 of site 1 are not those of " in done[
        0], str(done)
    yield "digests: then there is no backup", is_wrong(said(words.backup, its, trial.program, out / "tuesday", Noted()),
                                                       "entries 4 to 4 of site 1")
    chain.act_once(its.record, 1, GROUP, "clear-halt", "", {"halt": "x"})
    yield "digests: of before a halt was cleared own numbers are not compared", words.check(its, trial.program)[1] == 0
    held(f"2:3:{'1' * 64}")
    done = words.check(its, trial.program)
    yield "digests: entries that the journal lost are named", done[
        1] == 1 and "it has 2 entries of site 2, and had 3 at " in done[0], str(done)
    held(f"2:2:{'1' * 64}", f"2:1:{other[1]}")
    done = words.check(its, trial.program)
    yield "digests: and those of another site that changed", done[
        1] == 1 and "\nentries 2 to 2 of site 2 are not those of " in done[0], str(done)


def has_manifests(trial):
    """A backup with a record, and what is changed of it."""
    its, out = with_record(trial, "kept"), trial.fresh("out")
    out.mkdir()
    target, number_sum = out / "monday", "{}:{}".format(*last_row(its.record))
    right = f"{facts(its.journal, '1:3', 3)}\nrecord {number_sum}, lines that wait 1"
    given, give = [], words.give
    with unittest.mock.patch.object(words, "give", lambda new, path: (given.append(path), give(new, path))):
        yield "manifest: what is printed", said(words.backup, its, trial.program, target, Noted()) == (right, 0)
    names = [path.name for path in given if path.parent == out]  # other checks make copies at the same time
    yield "manifest: the journal gets its name after the others", names == ["monday.record", "monday.manifest",
                                                                            "monday"], str(names)
    found = json.loads((out / "monday.manifest").read_text())
    yield "manifest: the vector, the last row, what waits, and the sums", {
        key: it for key, it in found.items() if key not in ("at", "digests")} == {
            "site": 1, "group": GROUP, "vector": "1:3",
            "journal": {"bytes": target.stat().st_size, "sha256": sum_of(target)},
            "record": {"bytes": (out / "monday.record").stat().st_size, "sha256": sum_of(out / "monday.record"),
                       "last": number_sum, "waiting": 1}}
    yield "manifest: nobody else reads the three files", {path.stat().st_mode & 0o777
                                                          for path in out.iterdir()} == {0o600} and in_folder(out) == [
                                                              "monday", "monday.manifest", "monday.record"]
    yield "manifest: verify prints the same", said(words.verify, its, trial.program, target) == (right, 0)
    fresh = Files(trial.fresh("fresh"), 1, GROUP)
    fresh.make_folder()
    (fresh.folder / "site1.record-wal").touch()
    done = said(words.restore, fresh, trial.program, target, Noted())
    yield "restore: rows without their record are not passed over", is_wrong(done, "without its record")
    (fresh.folder / "site1.record-wal").unlink()
    changed = bytearray((out / "monday.record").read_bytes())
    changed[-1] ^= 1
    for name, path, data, text in (("that is changed", "monday.record", bytes(changed),
                                    "is not the file that the manifest names"),
                                   ("that lacks", "monday.record", None, "which the manifest names"),
                                   ("whose manifest lacks", "monday.manifest", None, "is not complete"),
                                   ("with another manifest", "monday.manifest", b"[]", "is no manifest")):
        before = (out / path).read_bytes()
        (out / path).unlink()
        if data is not None:
            (out / path).write_bytes(data)
        done, verified = (said(words.restore, fresh, trial.program, target, Noted()),
                          said(words.verify, its, trial.program, target))
        yield f"restore: a record {name} is not put back", is_wrong(done,
                                                                    text) and in_folder(fresh.folder) == [], str(done)
        yield f"verify: a record {name}", text in str(verified) and verified[1] != 0
        (out / path).write_bytes(before)
    yield "restore: all is put back", said(words.restore, fresh, trial.program, target, Noted())[1] == 0 and (
        sum_of(fresh.record) == found["record"]["sha256"]) and fresh.journal.read_bytes() == target.read_bytes()
    fresh.journal.unlink()
    before = Recorded(fresh).act("reload", {})
    done = said(words.restore, fresh, trial.program, target, Noted())
    yield "restore: a record that is there stays", done[1] == 0 and "stays as it is" in done[0] and last_row(
        fresh.record)[0] == before
    row = Recorded(its).act("post", {"lines": ["0" * 64]})
    Recorded(its).act("outcome", {"of": row, "outcomes": [["TAKEN", 9]]})
    said(words.backup, its, trial.program, out / "tuesday", Noted())
    done = said(words.verify, its, trial.program, out / "tuesday")
    yield "verify: a record that does not fit the journal", done[
        1] == 1 and "says TAKEN 9, and the journal has 3 lines" in done[0], str(done)


def backs_up_meanwhile(trial):
    """A journal is copied while clients post."""
    folder, out = trial.fresh("busy"), trial.fresh("backups")
    out.mkdir()
    with trial.site(folder) as hub, posting([hub.port], 5) as statuses:
        done = []
        for number in range(4):
            posted = len(statuses)
            until(lambda: len(statuses) > posted)
            done.append(trial.ran(folder, f"--backup={out / str(number)}"))
        again = trial.ran(folder, f"--verify={out / '1'}")
        small = harness.run([*hub.command, f"--backup={out / 'large'}"], env=hub.variables, room=200)
        until(lambda: len(statuses) > 5)
    own, found = own_lines(folder / "site1.journal"), [own_lines(out / str(number)) for number in range(4)]
    ends = [json.loads((out / f"{number}.manifest").read_text())["record"]["last"] for number in range(4)]
    texts = [f"{facts(out / str(number), f'1:{len(lines)}', len(lines))}\nrecord {ends[number]}, lines that wait 0\n"
             for number, lines in enumerate(found)]
    yield "copies of a journal that is written are right", [(f"{plain(it.text.decode())}", it.status)
                                                            for it in done] == [(text, 0) for text in texts]
    yield "and grow", len(statuses) > 5 and set(statuses) == {200} and len(found[0]) < len(found[3])
    yield "each is a beginning of the journal", all(own[:len(lines)] == lines for lines in found)
    yield "verify prints the same", (again.text, again.status) == (done[1].text, 0)
    yield ("a disk that is full is said with the name of the file",
           small.status == 3 and f"large: {out / 'large'}" in small.errors.decode())
    yield "and nothing is left", in_folder(out) == sorted(f"{number}{end}" for number in range(4)
                                                          for end in ("", ".manifest", ".record"))
    with contextlib.closing(sqlite3.connect(folder / "site1.record")) as connection:
        rows = connection.execute("SELECT who, what FROM record WHERE act = 'backup' ORDER BY number").fetchall()
    yield "the record has each, and who made it", [json.loads(what)["file"] for _, what in rows] == [
        str(out / str(number)) for number in range(4)] and all(who.startswith("user ") for who, _ in rows)


@contextlib.contextmanager
def posting(ports, many):
    """Clients that post lines at sites, one at each, as long as it lasts. The statuses that they get."""
    statuses, ends = [], threading.Event()

    def posts(place, port):
        for number in range(1_000_000 * (place + 1), 1_000_000 * (place + 2), many):
            if ends.is_set():
                return
            try:
                statuses.append(asked(port, "/messages", lines_of(number, many)).status)
            except OSError as fault:
                statuses.append(str(fault))
            time.sleep(0.05)
    threads = [threading.Thread(target=posts, args=pair, daemon=True) for pair in enumerate(ports)]
    for thread in threads:
        thread.start()
    try:
        yield statuses
    finally:
        ends.set()
        for thread in threads:
            thread.join()


# ---- restoring

def keeps_marks(trial):
    """A backup of a site that takes no messages, which is restored."""
    its, out, why = (with_record(trial, "marked"), trial.fresh("marks"),
                     "43 OwnAhead: for a check (2026-11-30T00:00:00Z)")
    out.mkdir()
    its.halt.write_text(f"{why}\n")
    its.put_closing("2024-05-02", "1:3", [1, 2])
    target = out / "monday"
    done = said(words.backup, its, trial.program, target, Noted())
    yield "marks: a backup has them", done[1] == 0 and done[0].endswith(
        f"\nhalted: {why}\nclosed: 2024-05-02 1:3 1,2"), str(done)
    yield "marks: verify prints them", said(words.verify, its, trial.program, target) == done
    for name, before in ("are put back", None), ("that are there stay", "mine"):
        fresh = Files(trial.fresh("fresh"), 1, GROUP)
        fresh.make_folder()
        if before:
            fresh.halt.write_text(f"{before}\n")
        restored = said(words.restore, fresh, trial.program, target, Noted())
        yield f"marks: those {name}", restored[1] == 0 and (fresh.halted(), fresh.closing()) == (
            before or why, ("2024-05-02", "1:3", [1, 2])), str(restored)
    (out / "monday.manifest").write_text(json.dumps({**json.loads((out / "monday.manifest").read_text()), "halted": 1}))
    yield "marks: one that is no text is none", is_wrong(said(words.verify, its, trial.program, target),
                                                         "is no manifest")


def knows_older_copies(trial):
    """A copy of a site whose record had more rows, as the file beside the record says."""
    its, out = with_record(trial, "more"), trial.fresh("older")
    out.mkdir()
    said(words.backup, its, trial.program, out / "older", Noted())
    last = "{}:{}".format(*last_row(its.record))
    later = Recorded(its).act("reload", {}), last_row(its.record)[1]
    its.record.unlink()
    said(words.backup, its, trial.program, out / "bare", Noted())
    for name, row, copy, why in (("that lacks a row which was there", later, "older", "has it not"),
                                 ("without the record that was there", later, "bare", "is no record"),
                                 ("whose row is another one", (1, "0" * 64), "older", "has it not")):
        fresh = Files(trial.fresh("fresh"), 1, GROUP)
        fresh.make_folder()
        chain.mark_of(fresh.record).write_text("{}:{}\n".format(*row))
        done = said(words.restore, fresh, trial.program, out / copy, Noted())
        words_of = "is older than the site was", "{}:{}".format(*row), why
        yield f"restore: a copy {name} is not put back, and the row is named", is_wrong(done, *words_of), str(done)
        yield "restore: then nothing is done", in_folder(fresh.folder) == ["site1.recorded"]
    chain.mark_of(fresh.record).write_text(f"{last}\n")
    yield "restore: one that has the row is put back", said(words.restore, fresh, trial.program, out / "older",
                                                            Noted())[1] == 0


def restores(trial):
    lines = lines_of(1, 3).splitlines()
    its, copy = made(trial, "old", lines), trial.fresh("copy")
    data = its.journal.read_bytes()
    copy.write_bytes(data + b"half")
    noted = Noted()
    found = said(words.restore, its, trial.program, copy, noted)
    yield "restore: a journal that is there is left as it is", is_wrong(
        found, "move it away first") and its.journal.read_bytes() == data
    its.journal.unlink()
    for name, site, text in ("of another site", 2, "fault 76"), ("with a changed line", 1, "line 2: "):
        write_journal(copy, site, GROUP, [changed(lines[0]), *lines[1:]])
        found = said(words.restore, its, trial.program, copy, noted)
        yield f"restore: a copy {name} is not taken", is_wrong(found, text)
    copy.write_bytes(data[:-1])
    yield "restore: one that is cut off is not taken", is_wrong(said(words.restore, its, trial.program, copy, noted),
                                                                "cut off")
    yield "restore: then nothing is left, and the record has no row", in_folder(its.folder) == [] and noted.rows == []
    copy.write_bytes(data + b"half")
    noted.before = lambda: there.append(its.journal.exists())
    there = []
    with Watched() as watched:
        found = said(words.restore, its, trial.program, copy, noted)
    right = [facts(copy, "1:3", 3), "4 bytes after line 4 do not count",
             "the site halts as soon as a peer counts more than 3 messages of site 1: its number is then retired"]
    yield "restore: what is printed", found == ("\n".join(right), 0)
    yield "restore: the journal is there", its.journal.read_bytes() == data
    yield "restore: and nothing beside it", in_folder(its.folder) == ["site1.journal"]
    mode = its.journal.stat().st_mode & 0o777
    yield "restore: nobody else reads it, and it was on the disk before it had its name", mode == 0o600 and (
        watched.on(its.journal) == ["fsync", "link"])
    yield "restore: the record, which may begin with it, has a row after that", there == [
        True] and noted.rows == [("restore", {
            "file": str(copy), "vector": "1:3", "messages": 3, "bytes": len(data) + 4, "sha256": sum_of(copy)})]
    its.journal.unlink()
    late = wrapped(trial, "late", f"echo mine > {its.journal}")
    found = said(words.restore, its, late, copy, Noted())
    yield "restore: a journal that comes meanwhile stays", is_wrong(
        found, "is there already") and its.journal.read_text() == "mine\n"
    its.journal.unlink()
    found = said(words.restore, its, trial.program, copy, Noted(Unable("no record")))
    yield "restore: that the record has no row is said", is_wrong(found, "is restored, and the record has no row",
                                                                  "no record") and (
                                                                      its.journal.read_bytes() == data)


def halts_after_an_old_copy(trial):
    """A site is restored from a copy, which its peer knows to be old."""
    one, two, copy = trial.fresh("lost"), trial.fresh("keeps"), trial.fresh("copy")
    with trial.site(one) as hub, trial.site(two, f"--peer=1=http://127.0.0.1:{hub.port}", "--hear=0", number=2) as peer:
        asked(hub.port, "/messages", lines_of(1, 15))
        backup = trial.ran(one, f"--backup={copy}")
        asked(hub.port, "/messages", lines_of(16, 5))
        until(lambda: asked(peer.port, "/vector").body == b"1:20\n")
        hub.end()
        there = trial.ran(one, f"--restore={copy}")
        found = own_lines(one / "site1.journal")
        yield "a journal that is there is not replaced", (backup.status, there.status, len(found)) == (0, 2, 20)
        (one / "site1.journal").rename(one / "kept")
        done = trial.ran(one, f"--restore={copy}")
        digest = chain_of([read_message(line) for line in lines_of(1, 15).splitlines()])[-1].hex()
        yield "a copy is put in its place", done.status == 0 and done.text.decode().startswith(
            f"1:15\n1:15:{digest}\nmessages 15, "), str(done)
        with trial.site(one, f"--peer=2=http://127.0.0.1:{peer.port}", is_well=False) as again:
            def answer():
                return asked(again.port, "/messages", lines_of(30, 1))

            yield "the site starts on it, and halts since its record knows more", until(lambda: answer().status == 409)
            yield "and gives no number twice", asked(again.port,
                                                     "/vector").body == b"1:15\n" and b"43 OwnAhead" in answer().body
        cleared = trial.ran(one, "--clear-halt")
        yield ("what it was for is said when it is cleared",
               cleared.status == 0 and b"43 OwnAhead: the record has 20 messages" in cleared.text)
    fresh = trial.fresh("fresh")
    done = trial.ran(fresh, f"--restore={copy}")
    yield "a copy is put into a folder that has nothing", done.status == 0, str(done)
    yield "with all of its lines", own_lines(fresh / "site1.journal") == own_lines(copy) == lines_of(1, 15).splitlines()
    audit = trial.ran(fresh, "--audit")
    yield "and the record begins with it", audit.status == 0 and b"restore 1" in audit.text
    audit = trial.ran(trial.fresh("empty"), "--audit")
    yield ("an audit of a folder without a record says so, and is not done",
           audit.status == 2 and b"there is no record " in audit.errors)


def clears_halts(trial):
    its, noted = made(trial, "halted"), Noted()
    yield "clear-halt: there is none", said(words.clear_halt, its, noted) == ("there was no halt",
                                                                              0) and noted.rows == []
    its.put_halt("43 OwnAhead: its journal lost lines")
    why = its.halted()
    found = said(words.clear_halt, its, Noted(Wrong("no record")))
    yield "clear-halt: without a row in the record it stays", is_wrong(found, "no record") and its.halted() == why
    text, status = said(words.clear_halt, its, noted)
    yield "clear-halt: it is cleared, and what it was for is said", status == 0 and its.halted() is None and why in text
    yield "clear-halt: the record has what it was for", noted.rows == [("clear-halt", {"halt": why})]


# ---- adopting

async def with_site(trial, files, work):
    """What some work with a site comes to."""
    keeper = Keeper(files, trial.program, files.site, files.group)
    await keeper.start()
    try:
        return await work(keeper)
    finally:
        await keeper.end()


adopts_alone = threading.Lock()  # standard error is that of all threads


def adopted(trial, files, path, noted, prepare=None, most=limits.ADOPTED_MOST_BYTES):
    """What a site says when it adopts a journal, what it prints on standard error, and why it is halted. It takes so
    many bytes at once."""
    async def work(keeper):
        if prepare:
            await prepare(keeper)
        noted.before = lambda: noted.counts.append(keeper.holding.counts[files.site - 1])
        noted.counts = []
        errors = io.StringIO()
        with contextlib.redirect_stderr(errors):
            try:
                found = await words.adopt(keeper, path, noted)
            except (Wrong, Held, Halted) as why:
                found = type(why).__name__, str(why)
        return found, errors.getvalue(), keeper.marks.halted
    with adopts_alone:
        limits.ADOPTED_MOST_BYTES, usual = most, limits.ADOPTED_MOST_BYTES
        try:
            return asyncio.run(with_site(trial, files, work))
        finally:
            limits.ADOPTED_MOST_BYTES = usual


def adopts(trial):
    one, two, three, four = lines_of(1, 4).splitlines()
    path, its, noted = trial.fresh("retired"), made(trial, "adopts", site=4), Noted()
    # its entry 1 of site 2 differs from the one that site 4 holds then, and its entry 2 of site 3 comes before entry 1
    deltas = (2, 1, 99, 12), (3, 2, 22), (2, 3, 13), (3, 1, 21)
    first, early, more, late = (request(inputs.delta(*its)) for its in deltas)
    odd = b"delta 2\torigin x 1 1\t{}\tend 1"
    write_journal(path, 1, GROUP, [one, first, two, changed(three), early, b" \t", more, late, four, odd])
    path.write_bytes(path.read_bytes() + b"half")
    why, sums = (fault_of(changed(three)),
                 [hashlib.sha256(line).hexdigest() for line in (one, two, changed(three), four)])

    async def prepare(keeper):
        await keeper.take(lines_of(50, 1).splitlines())
        await keeper.accept(request(inputs.delta(2, 1, 11)))
        await keeper.take([one])
    before = path.read_bytes()
    found, errors, halt = adopted(trial, its, path, noted, prepare)
    yield "adopt: what is printed", found == (
        "taken 2, repeats 1, refused 2\nnew entries of other sites 3, refused deltas 2\n"
        "the site holds 2:3,3:1,4:4", 1), str(found)
    yield "adopt: each line that is refused is on standard error", sorted(errors.splitlines()) == sorted([
        "line 6: 41 3 0 2 (delta)", "line 11: 45 2 (delta)", f"line 5: {why} (message 3)", "line 7: blank (message 4)",
        "4 bytes after line 11 do not count"]), errors
    yield "adopt: a line that the site has in another form does not halt it", halt is None
    yield "adopt: the record has all lines before they are handed on, and then their outcomes", noted.counts == [
        2, 4] and noted.rows == [
            ("adopt", {"journal": str(path), "site": 1, "lines": sums}),
            ("outcome",
             {"of": 1, "outcomes": [["REPEAT"], ["TAKEN", 3], ["REFUSED", int(why.split()[0]), why], ["TAKEN", 4]]})]
    yield "adopt: the lines are in the journal", own_lines(its.journal) == [*lines_of(50, 1).splitlines(), one, two,
                                                                            four]
    yield "adopt: the journal of the other number is only read", path.read_bytes() == before
    before = its.journal.read_bytes()
    found, _, _ = adopted(trial, its, path, Noted())
    yield "adopt: once more changes nothing", found[0].startswith(
        "taken 0, repeats 3, refused 2\nnew entries of other sites 0, ") and (
            its.journal.read_bytes() == before)
    write_journal(path, 1, GROUP, [two, request(inputs.delta(5, 1, 51, 52, 53)), request(inputs.delta(6, 1, 61))])
    found, errors, _ = adopted(trial, its, path, Noted(), most=1)
    yield "adopt: nothing that is refused, one entry at a time", (found[1], errors) == (0, "") and (
        "new entries of other sites 4, " in found[0] and "5:3,6:1" in found[0]), str(found)
    write_journal(path, 1, GROUP, [request(inputs.delta(7, 3, 53))])
    found, errors, _ = adopted(trial, its, path, Noted())
    yield "adopt: a delta that stays early is refused", (found[1], errors) == (1, "line 2: 41 7 0 3 (delta)\n"), errors
    write_journal(path, 1, GROUP, [b"delta 2\torigin 6 0 2\t{}\t{}\tend 2",
                                   b"delta 2\torigin 6 1 2\t{}\tend 1", b"delta 1\tend 1",
                                   b"delta 2\torigin 0 1 1\t{}\tend 1"])
    found, errors, _ = adopted(trial, its, path, Noted())
    yield "adopt: what is no delta is refused as it is", (found[1], errors) == (
        1, "line 2: 45 2 (delta)\nline 3: 45 3 (delta)\n"
        "line 4: 45 2 (delta)\nline 5: 45 2 (delta)\n"), errors


def adopts_nothing(trial):
    """What is not adopted, and why."""
    lines = lines_of(1, 2).splitlines()
    path, its = trial.fresh("other"), made(trial, "refuses", site=4)
    for name, site, group, text in ("of its own number", 4, GROUP, "another site"), ("of another group", 1, 9,
                                                                                     "1 of 9"):
        write_journal(path, site, group, lines)
        noted = Noted()
        found, _, _ = adopted(trial, its, path, noted)
        yield f"adopt: a journal {name}", is_wrong(found, text) and not noted.rows
    path.write_bytes(lines_of(1, 2))
    yield "adopt: a file of messages", is_wrong(adopted(trial, its, path, Noted())[0], "fault 75")
    write_journal(path, 1, GROUP, lines)
    used = Files(path.parent, 1, GROUP)
    used.journal = path
    found = asyncio.run(with_site(trial, used, lambda _: asyncio.to_thread(adopted, trial, its, path, Noted())))[0]
    yield "adopt: a journal whose site runs", found[0] == "Held" and "is in use" in found[1]
    yield "adopt: then nothing is taken", own_lines(its.journal) == []
    write_journal(path, 1, GROUP, [request(inputs.delta(4, 1, 41)), *lines])
    noted = Noted()
    found, _, halt = adopted(trial, its, path, noted)
    yield "adopt: a journal with messages of the site that it lacks halts it", found[
        0] == "Halted" and "43 1 OwnAhead" in halt
    yield "adopt: the record has that the lines were not taken", [
        (act, what.get("of")) for act, what in noted.rows] == [
            ("adopt", None), ("failed", 1)] and own_lines(its.journal) == []


class Recorded:
    """Writes to the record of a site."""
    before = None

    def __init__(self, files):
        self.files = files

    def act(self, act, what):
        return chain.act_once(self.files.record, self.files.site, self.files.group, act, "user root", what,
                              self.files.own_lines)


def adopts_in_pieces(trial):
    """Lines are handed on some at a time. The record of the site fits its journal then."""
    lines = lines_of(1, limits.ADOPTED_MOST_LINES + 5).splitlines()
    path, its = trial.fresh("many"), made(trial, "pieces", lines[:2], site=4)
    write_journal(path, 1, GROUP, lines)
    found, _, _ = adopted(trial, its, path, Recorded(its))
    yield "adopt: lines in pieces", found[0].startswith(f"taken {len(lines) - 2}, repeats 2, refused 0\n")
    yield "adopt: all of them", own_lines(its.journal) == lines
    text, is_right = audit.audited(its.record, 4, GROUP, its.own_lines)
    yield ("adopt: an audit finds each line in the record",
           is_right and "Rows by act: adopt 2, begin 1, outcome 2" in text, "\n".join(text))


# ---- several sites by themselves

CHILD = """import pathlib, signal, sys, time
folder, number, *more = sys.argv[1:]
began = time.monotonic()

def say(word):
    with open(f"{folder}/{number}.said", "a") as file:
        print(word, *more, file=file)

def end(*_):
    say("ends")
    while "waits" in more and not pathlib.Path(folder, f"{number}.may").exists():
        time.sleep(0.02)
    say("ended")
    sys.exit(0)

def again(*_):
    say("again")
signal.signal(signal.SIGTERM, end)
signal.signal(signal.SIGINT, end)
signal.signal(signal.SIGHUP, again)
say("begins")
status = pathlib.Path(folder, f"{number}.status")
if status.exists():
    with open(f"{folder}/{number}.times", "a") as file:
        print(began, time.monotonic(), file=file)
    sys.exit(int(status.read_text()))
while True:
    time.sleep(60)
"""
PARENT = """import json, pathlib, sys
sys.path.insert(0, sys.argv[1])
from hub.files import Wrong
from hub.several import Several

def wanted():
    try:
        return {int(number): words for number, words in json.loads(pathlib.Path(sys.argv[2]).read_text()).items()}
    except ValueError:
        raise Wrong("it is no JSON") from None
sys.exit(Several(wanted).run())
"""


class Parent:
    """Several children in place of sites, each by its number and with words. One with the word waits does not end
    before it may. One with the word none has no program. `statuses` are those with which some of them end at once."""

    def __init__(self, trial, *children, **statuses):
        self.folder = trial.fresh("several")
        self.folder.mkdir()
        for name, text in ("child.py", CHILD), ("parent.py", PARENT):
            (self.folder / name).write_text(text)
        for number, status in statuses.items():
            (self.folder / f"{number[1:]}.status").write_text(str(status))
        self.want(*children)
        with open(self.folder / "log", "wb") as log:
            self.process = subprocess.Popen([sys.executable, self.folder / "parent.py", SERVICES,
                                             self.folder / "wanted"], stderr=log)

    def want(self, *children):
        """Says which children there shall be."""
        wanted = {}
        for one in children:
            number, *more = one if isinstance(one, tuple) else (one,)
            wanted[number] = ["/nowhere"] if "none" in more else [
                sys.executable, str(self.folder / "child.py"), str(self.folder), str(number), *more]
        self.write(json.dumps(wanted))

    def write(self, text):
        (self.folder / "wanted").write_text(text)

    def ask(self, number=signal.SIGHUP):
        self.process.send_signal(number)

    def let_end(self, number):
        (self.folder / f"{number}.may").touch()

    def said(self, number):
        """What a child said."""
        path = self.folder / f"{number}.said"
        return path.read_text().splitlines() if path.exists() else []

    def words(self, number):
        return [line.split()[0] for line in self.said(number)]

    def times(self, number):
        """When a child that ends at once began and ended, each time."""
        path = self.folder / f"{number}.times"
        return [tuple(map(float, line.split())) for line in path.read_text().splitlines()] if path.exists() else []

    def are(self, its, *numbers):
        """Whether some children come to have said some words and no others."""
        return until(lambda: all(self.words(number) == its for number in numbers))

    def text(self):
        return (self.folder / "log").read_text()

    def __enter__(self):
        return self

    def __exit__(self, *_):
        left = [process for process, _ in sites.below(self.process.pid)]
        for number in range(1, 5):
            self.let_end(number)
        self.process.kill()
        self.process.wait()
        until(lambda: not any(os.path.exists(f"/proc/{process}/exe") for process in left))


def keeps_several(trial):
    """Sites come, leave and change while others go on."""
    with Parent(trial, (1, "waits"), (2, "waits"), 3) as parent:
        parent.are(["begins"], 1, 2, 3)
        parent.ask()
        yield "several: all read their configuration again", parent.are(["begins", "again"], 1, 2, 3)
        parent.want((2, "waits"), 3, 4)
        parent.ask()
        yield "several: a new one is started, while one that is gone ends", parent.are(["begins"], 4) and parent.words(
            1)[-1] == "ends"
        yield "several: the others go on, and read it again", parent.are(["begins", "again", "again"], 2, 3)
        parent.let_end(1)
        yield "several: one that is gone ends in peace", parent.are(["begins", "again", "ends", "ended"], 1) and until(
            lambda: "site 1 is ended" in parent.text())
        parent.want((2, "waits", "other"), 3, 4)
        parent.ask()
        parent.are(["begins", "again", "again", "ends"], 2)
        third = next(process for process, its in sites.below(parent.process.pid) if its[3] == "3")
        os.kill(third, signal.SIGKILL)
        yield "several: one that is killed is started again, while another one ends", until(
            lambda: parent.words(3)[-1] == "begins") and (
                "site 3 ended with -9, and is started again" in parent.text() and parent.words(2)[-1] == "ends")
        parent.let_end(2)
        yield "several: one whose words changed is started with them when it has ended", until(
            lambda: parent.said(2)[-3:] == ["ends waits", "ended waits",
                                            "begins waits other"]) and "site 2 ended" not in parent.text()
        parent.want((1, "waits"), (2, "waits", "other"), 3, 4)
        parent.ask()
        yield "several: one that was gone comes back", until(lambda: parent.words(1)[-1] == "begins")
        yield "several: and nobody else was started", parent.are(["begins", "again", "again"], 4) and [
            parent.words(number).count("begins") for number in (1, 2, 3, 4)] == [2, 2, 2, 1]


def changes_its_mind(trial):
    """A site that is still ending is wanted again."""
    with Parent(trial, (1, "waits"), 2) as parent:
        parent.are(["begins"], 1, 2)
        parent.want(2)
        parent.ask()
        parent.are(["begins", "ends"], 1)
        parent.want((1, "waits"), 2)
        parent.ask()
        parent.are(["begins", "again", "again"], 2)
        parent.ask()
        parent.are(["begins", "again", "again", "again"], 2)
        parent.let_end(1)
        yield "several: one that ends is asked for nothing, and started then", parent.are(["begins", "ends", "ended",
                                                                                           "begins"], 1)
        yield "several: it is not said to be gone", "is ended" not in parent.text()


def keeps_several_in_trouble(trial):
    with Parent(trial, 1, 2, 3, (4, "none"), s2=2, s3=1) as parent:
        yield "several: one that must not start stays away alone", parent.are(["begins"], 1) and until(
            lambda: "site 2 must not start, and the others go on" in parent.text())
        until(lambda: len(parent.times(3)) >= 4)
        pauses = [after[0] - before[1] for before, after in zip(parent.times(3), parent.times(3)[1:])]
        right = len(pauses) >= 3 and all(pause > least for pause, least in zip(pauses, (0.1, 0.3, 0.7)))
        yield "several: one that ends is started again, after pauses that grow", right, str(pauses)
        yield "several: one that must not start is not tried again", parent.words(2) == parent.words(1) == ["begins"]
        yield "several: one whose program is not there is said", "site 4 cannot be started" in parent.text()
        parent.write("{")
        parent.ask()
        yield "several: what is wrong changes nothing", until(
            lambda: "hub: it is no JSON; nothing changes" in parent.text()) and (
                parent.process.poll() is None and parent.words(1) == ["begins"] == parent.words(2))
        for number in (2, 3):
            (parent.folder / f"{number}.status").unlink()
        parent.want(1, 2, 3, 4)
        parent.ask()
        yield "several: asked again, one that must not start is tried again", parent.are(["begins"] * 2, 2)
        yield "several: and so is one that had no program", parent.are(["begins"], 4)
        yield "several: then all go on", parent.are(["begins", "again"], 1) and until(
            lambda: len(list(sites.below(parent.process.pid))) == 4)


def ends_several(trial):
    with Parent(trial) as parent:
        yield "several: without a site there is nothing to do: status 2", parent.process.wait(sites.LATEST) == 2
        parent.write("{")
        done = harness.run([sys.executable, parent.folder / "parent.py", SERVICES, parent.folder / "wanted"])
        yield "several: what is wrong at the start: status 2", (done.errors, done.status) == (b"hub: it is no JSON\n",
                                                                                              2)
    with Parent(trial, 1, 2, s1=2, s2=2) as parent:
        yield "several: none of them may start: status 2", parent.process.wait(sites.LATEST) == 2
    for name, number in ("SIGTERM", signal.SIGTERM), ("SIGINT", signal.SIGINT):
        with Parent(trial, (1, "waits"), 2) as parent:
            parent.are(["begins"], 1, 2)
            parent.ask(number)
            parent.are(["begins", "ends", "ended"], 2)
            time.sleep(0.5)
            waits = parent.words(1) == ["begins", "ends"] and parent.process.poll() is None
            parent.let_end(1)
            status = parent.process.wait(sites.LATEST)
            yield f"several: {name} ends all in peace: status 0", waits and status == 0 and parent.words(1) == [
                "begins", "ends", "ended"]
    with Parent(trial, 1, 2) as parent:
        parent.are(["begins"], 1, 2)
        parent.process.kill()
        yield "several: they end with the one that started them", parent.are(["begins", "ends", "ended"], 1, 2)


# ---- a number that is retired

def configured(path, folder, numbers, port, more=""):
    path.write_text(f"folder = {json.dumps(str(folder))}\nsites = {numbers}\nport = {port}\n{more}")


# a site that holds one entry of sites 1 and 2, and is given one of each with each question, by a peer that had some
# when it was heard
CATCHING_UP = """
import asyncio, sys, types
sys.path.insert(0, sys.argv[1])
from hub.exchange import Peer

def asked(had, gives, heard_at=1.0):
    holding = types.SimpleNamespace(counts=[1, 1, 0])
    peer = types.SimpleNamespace(number=1, others=[2], counts=had, heard_at=heard_at, asked=0,
                                 keeper=types.SimpleNamespace(holding=holding))
    async def once():
        peer.asked += 1
        held = peer.keeper.holding.counts
        held[:2] = [count + gives for count in held[:2]]
        return gives
    peer.once = once
    asyncio.run(Peer.catch_up(peer))
    return peer.asked

print(asked({1: 4, 2: 2}, 1), asked({1: 1, 2: 3}, 1), asked({1: 1, 2: 1, 3: 9}, 1), asked({1: 4}, 0), asked({1: 4}, 1, None))
"""


def catches_up(trial):
    """What is asked of a peer before a journal is adopted: what it had, and no more."""
    done = harness.run([trial.python, "-c", CATCHING_UP, str(sites.SERVICES)], seconds=sites.LATEST)
    yield ("a peer is asked as long as it had more, of its own and of what it hands on, and gives some",
           done.text == b"3 2 0 1 0\n", str(done))


def retires_a_number(trial):
    """Number 1 of three sites is retired and number 4 adopts its journal, while clients post at the others."""
    folder, config, port = trial.fresh("retires"), trial.fresh("hub.toml"), sites.free_ports(4)
    configured(config, folder, [1, 2, 3], port)
    journal, more = folder / "site1.journal", "[through]\n1 = 2\n"
    with sites.Hub(trial.python, trial.program, folder, config=config) as hub:
        def words_of_4(*its):
            return harness.run([*hub.command, "--site=4", *its], env=hub.variables, seconds=60)

        def vectors(*numbers):
            return {asked(port + number - 1, "/vector").body for number in numbers}

        sites.begun(hub.process, lambda: all(sites.is_well(port + number) for number in range(3)))
        asked(port, "/messages", lines_of(1, 20))
        until(lambda: vectors(2, 3) == {b"1:20\n"})
        before = hub.children()
        with posting([port + 1, port + 2], 2) as statuses:
            configured(config, folder, [2, 3, 4], port, more)
            early = words_of_4(f"--adopt={journal}")
            yield ("a journal is not adopted as long as its site runs",
                   early.status == 2 and b"is in use" in early.errors)
            configured(config, folder, [2, 3], port, more)
            hub.process.send_signal(signal.SIGHUP)
            yield "a number is retired", until(lambda: sorted(hub.children()) == [2, 3]
                                               and "site 1 is ended" in hub.text())
            write_journal(journal, 1, 64, [*kept(journal), *lines_of(21, 2).splitlines(),
                                           changed(lines_of(30, 1)[:-1])])
            line = len(kept(journal)) + 1
            configured(config, folder, [2, 3, 4], port, more)
            done = words_of_4(f"--adopt={journal}")
            yield ("another one adopts its journal: what no other site holds is taken, and the rest are repeats",
                   done.status == 1 and (done.text.startswith(b"taken 2, repeats 20, refused 1\n")), str(done))
            refused = f"line {line}: {fault_of(changed(lines_of(30, 1)[:-1]))} (message 23)\n"
            yield "a line that is refused is said", done.errors.decode().endswith(refused)
            hub.process.send_signal(signal.SIGHUP)
            until(lambda: sites.is_well(port + 3) and len(statuses) > 20)
        yield "clients of the others see nothing of it", len(statuses) > 20 and set(statuses) == {200}
        after = hub.children()
        yield "the others go on", sorted(after) == [2, 3,
                                                    4] and all(after[number] == before[number] for number in (2, 3))
        yield "all hold the same in the end", until(lambda: len(vectors(2, 3, 4)) == 1 and b"1:20," in vectors(4).pop())
        yield "also what the retired number had alone", vectors(2).pop().endswith(b",4:2\n")
        audit = words_of_4("--audit")
        yield ("an audit finds them in the record of the site that took them",
               audit.status == 0 and b"adopt 1" in audit.text, str(audit))


CHECKS = [retires_a_number, catches_up, keeps_several_in_trouble, halts_after_an_old_copy, backs_up_meanwhile,
          keeps_several, changes_its_mind,
          ends_several, adopts, adopts_nothing, adopts_in_pieces, backs_up, copies_at_one_moment, has_digests,
          has_manifests, keeps_marks, knows_older_copies,
          restores, verifies_copies, checks_journals, clears_halts, finds_ends]


def check(python, program):
    logging.disable(logging.CRITICAL)
    return tried("operators", CHECKS, python, program)


if __name__ == "__main__":
    sites.checked(check)
