"""words.py: what an operator has a site do with journals: check its own, copy it, try a copy, put a copy in its place,
adopt another one.

Each word returns what is printed, and the exit status, which is 1 if lines are refused. Wrong and Held say why nothing
was done. What changes something has a row in the record. A journal that is there is only read.
"""
from __future__ import annotations
import collections
import contextlib
import fcntl
import hashlib
import os
import pathlib
import re
import sys
import tempfile
import threading
from typing import Any, BinaryIO, Callable, Iterator, NamedTuple, Protocol
from . import audit, chain, limits, manifest
from .faults import Refused, Unable
from .files import DELTA, OPEN, Files, Held, Wrong, synced
from .keeper import Keeper
from .over import Serve
from .process import OTHER_SITE, WRONG_JOURNAL
from .starts import DIGESTS
from .vectors import listed, request_of, vector_of
from .work import Outcome, as_message

FIRST_LINE = re.compile(rb" site ([1-9][0-9]{0,3}) ([1-9][0-9]{0,3})\n")
SHUT = b"\t"  # the byte after the last line that counts
BLANK = b" \t\r"
LOCK_AT, LOCKED = 1 << 30, 512  # the bytes of a journal that its process locks
OF_DELTA = " (delta)"  # how a text ends on a delta that is refused


# what a journal keeps: its lines, the messages among them, the bytes after them that do not count, and whether it was
# cut off there
class Kept(NamedTuple):
    lines: int
    messages: int
    rest: int
    is_cut: bool


# what a program makes of a journal: its vector, its digests, what it keeps, the size and the sum of the file, and what
# is wrong
class Tried(NamedTuple):
    vector: str
    digests: list[str]
    kept: Kept
    size: int
    sum: str
    faults: list[str]


# a message of a journal: its line in the file, its number, and the line itself
class Message(NamedTuple):
    place: int
    number: int
    line: bytes


class Noted(Protocol):
    """What an operator does, for the record of a site."""

    def act(self, act: str, what: dict[str, Any]) -> int:
        """Adds a row. Its number, by which a later row names it."""


# ---- journals at any place

@contextlib.contextmanager
def naming(path: str) -> Iterator[None]:
    """Has a fault of the disk say which file it was."""
    try:
        yield
    except OSError as fault:
        fault.filename = fault.filename or str(path)
        raise


def journal_at(path: pathlib.Path | str) -> Files:
    """The files of the site whose journal is at a path, whatever its name is. Wrong if it is none."""
    path = pathlib.Path(path)
    try:
        with open(path, "rb") as file:
            match = FIRST_LINE.fullmatch(file.readline(limits.JOURNAL_FIRST_LINE_BYTES))
    except FileNotFoundError:
        raise Wrong(f"there is no file {path}") from None
    if not match:
        raise Wrong(f"{path} is no journal of a site: fault {WRONG_JOURNAL}")
    files = Files(path.parent, *map(int, match.groups()))
    files.journal = path
    return files


def journal_of(files: Files, path: pathlib.Path | str) -> Files:
    """The same for a journal of this site. Wrong if it is that of another one."""
    its = journal_at(path)
    if (its.site, its.group) != (files.site, files.group):
        raise Wrong(f"{path} is the journal of another site or group, {its.site} of {its.group} in place of "
                    f"{files.site} of {files.group}: fault {OTHER_SITE}")
    return its


def measured(files: Files) -> Kept:
    """What a journal keeps."""
    lines, messages, end = 1, 0, len(b" site %d %d\n" % (files.site, files.group))
    for line in files.kept():
        lines += 1
        messages += not line.startswith(DELTA)
        end += len(line) + 2
    with open(files.journal, "rb") as file:
        file.seek(end)
        is_cut = file.read(1) in (b"", OPEN)
        return Kept(lines, messages, 0 if is_cut else os.fstat(file.fileno()).st_size - end - len(SHUT), is_cut)


def copied(path: pathlib.Path | str, target: pathlib.Path) -> tuple[int, str]:
    """Copies a file byte by byte, once, since a site may write to it meanwhile. The size of the copy, and its
    SHA-256."""
    size, its = 0, hashlib.sha256()
    with open(path, "rb") as file, open(target, "wb") as copy:
        for piece in iter(lambda: file.read(limits.FILE_PIECE_BYTES), b""):
            copy.write(piece)
            its.update(piece)
            size += len(piece)
    return size, its.hexdigest()


# ---- what a program makes of a journal

def tried(files: Files, program: str, path: pathlib.Path | str, its_record: pathlib.Path | None) -> Tried:
    """What a program makes of a journal of this site, of which it is given a copy in a private folder, and how that
    differs from what a record says was held. It serves nobody."""
    journal_of(files, path)
    with tempfile.TemporaryDirectory(prefix="niluppang-") as folder:
        copy = Files(folder, files.site, files.group)
        with naming(folder):
            size, its = copied(path, copy.journal)
        kept, (vector, digests, changed) = measured(copy), restored(program, copy, its_record)
        faults = [*faults_of(program, copy, vector), *changed, *([cut_text(kept)] if kept.is_cut else [])]
        return Tried(vector, digests, kept, size, its, faults)


@contextlib.contextmanager
def served(files: Files, program: str) -> Iterator[tuple[Files, Serve]]:
    """A process of a program that serves a copy of a journal in a private folder, and the files of the copy. In the end
    both are gone."""
    with tempfile.TemporaryDirectory(prefix="niluppang-") as folder:
        copy = Files(folder, files.site, files.group)
        with naming(folder):
            copied(files.journal, copy.journal)
        serve = Serve(program, copy, copy.journal)
        try:
            yield copy, serve
        finally:
            serve.child.kill()
            serve.child.wait()


def restored(program: str, files: Files, its_record: pathlib.Path | None) -> tuple[str, list[str], list[str]]:
    """The vector and the digests of the site that a program restores from a journal, and how it differs from what a
    record says was held."""
    serve = Serve(program, files, files.journal)
    try:
        digests = [line.decode().rstrip("\n") for line in serve.text(DIGESTS)]
        changed = changed_in(files, serve, its_record) if its_record else []
    finally:
        status = serve.end()
    if status:
        raise Wrong(f"{program} ended with status {status}")
    return serve.vector, digests, changed


def changed_in(files: Files, serve: Serve, its_record: pathlib.Path) -> list[str]:
    """How what a process holds that serves a copy of a journal differs from what a record says was held."""
    def digits_of(origin: int, count: int) -> str:
        return b"".join(serve.text(b"? digest %d %d" % (origin, count))).decode()
    try:
        return audit.held_faults(its_record, listed(serve.vector, files.group), files.site, files.own_lines, digits_of)
    except Unable as why:
        raise Wrong(str(why)) from None


def audited(files: Files, program: str, since: str | None) -> tuple[str, int]:
    """Compares the record of a site with itself, with the journal's own lines, and with what a program makes of the
    journal."""
    report, is_right = audit.audited(files.record, files.site, files.group, files.own_lines, since)
    try:
        with served(files, program) as (copy, serve):
            changed = changed_in(copy, serve, files.record)
    except (Wrong, OSError) as why:
        changed = [f"what is held is not compared with the record: {why}"]
    return "\n".join([*report, *(f"WRONG: {text}" for text in changed)]), 0 if is_right and not changed else 1


def faults_of(program: str, files: Files, vector: str) -> list[str]:
    """What a program refuses of a journal, from which it restored a site with this vector: a text for each line."""
    try:
        files.check(listed(vector, files.group))
        return []
    except (Wrong, ValueError, IndexError) as fault:  # the head of a changed delta may be anything
        return list(refused(program, files)) or [str(fault)]


def refused(program: str, files: Files) -> Iterator[str]:
    """A text for each line of a journal that a program refuses, or takes for a repeat: then the lines after it have
    other numbers."""
    messages = 0
    for place, line, reply in replies(program, files):
        is_delta = line.startswith(DELTA)
        messages += not is_delta
        if not reply.startswith("ACCEPTED " if is_delta else "TAKEN "):
            yield fault_text(place, reply.removeprefix("REFUSED "), None if is_delta else messages)


def replies(program: str, files: Files) -> Iterator[tuple[int, bytes, str]]:
    """The lines that a journal keeps, each with its line in the file, and with the reply of a new site that takes one
    after another."""
    serve = Serve(program, files, files.folder / "replies.journal")
    feeding = threading.Thread(target=feed, args=(serve.requests, files), daemon=True)
    feeding.start()
    try:
        for place, line in enumerate(files.kept(), 2):
            reply = serve.replies.readline()
            if not reply:
                raise Wrong(f"{program} ended at line {place}: {serve.said()}")
            yield place, line, reply[:-1].decode(errors="replace")
    finally:
        serve.child.kill()
        serve.child.wait()
        feeding.join()


def feed(stream: BinaryIO, files: Files) -> None:
    """Writes the lines of a journal as requests. A line that looks like a question is a message that is refused."""
    with contextlib.suppress(BrokenPipeError):
        for line in files.kept():
            stream.write((line if line.startswith(DELTA) else as_message(line)) + b"\n")
        stream.close()


# ---- texts

def fault_text(place: int, why: str, message: int | None = None) -> str:
    """What is printed of a line that is refused. It begins as the program prints one, so that explain.py of the desk
    knows it."""
    return f"line {place}: {why or 'blank'}{OF_DELTA if message is None else f' (message {message})'}"


def cut_text(kept: Kept) -> str:
    return f"the file is cut off after line {kept.lines}: it may have had more"


def rest_texts(kept: Kept) -> list[str]:
    return [f"{kept.rest} bytes after line {kept.lines} do not count"] if kept.rest else []


def report_of(trial: Tried) -> list[str]:
    """What is printed of a copy: the vector and the digests of the site that it restores, by what the file is known,
    and what is odd."""
    return [trial.vector, *trial.digests, f"messages {trial.kept.messages}, bytes {trial.size}, sha256 {trial.sum}",
            *rest_texts(trial.kept), *trial.faults]


def row_of(path: pathlib.Path, trial: Tried) -> dict[str, Any]:
    """What the record has of a copy."""
    return {"file": str(path), "vector": trial.vector, "digests": trial.digests, "messages": trial.kept.messages,
            "bytes": trial.size, "sha256": trial.sum}


def must_be_right(path: pathlib.Path | str, trial: Tried) -> None:
    if trial.faults:
        raise Wrong("\n".join([f"{path} is not right, and nothing was done:", *trial.faults]))


# ---- files that come and go

@contextlib.contextmanager
def beside(target: pathlib.Path) -> Iterator[pathlib.Path]:
    """A new file beside a path, which nobody else reads. In the end it is gone, or it was given that path."""
    there, new = tempfile.mkstemp(prefix=f"{target.name}.", suffix=".new", dir=target.parent)
    os.close(there)
    try:
        with naming(new):
            yield pathlib.Path(new)
    finally:
        with contextlib.suppress(FileNotFoundError):
            os.unlink(new)


def keep(files: Files, new: pathlib.Path, at: Callable[[Callable[[], None]], object] = lambda finish: finish()) -> None:
    """Writes what a journal keeps to a file, and puts it on the disk. A batch that comes meanwhile is in it completely
    or not at all. `at` calls what it is given at the moment whose lines the copy has: most of them are written
    before."""
    with open(new, "wb") as copy:
        copy.write(b" site %d %d\n" % (files.site, files.group))

        def go_on(start: int = 0) -> None:
            for line in files.kept(start):
                copy.write(OPEN + line + b"\n")
        go_on()
        at(lambda: go_on(copy.tell()))
        copy.write(SHUT)
        copy.flush()
        os.fsync(copy.fileno())


def give(new: pathlib.Path, target: pathlib.Path) -> None:
    """Gives a file a path that no file has."""
    try:
        os.link(new, target)
    except FileExistsError:
        raise Wrong(f"{target} is there already, and stays as it is") from None
    os.unlink(new)
    synced(target.parent)


# ---- the words

def note(noted: Noted, act: str, what: dict[str, Any]) -> int:
    """The number of a row that the record gets. Wrong if it cannot be written."""
    try:
        return noted.act(act, what)
    except Unable as why:
        raise Wrong(str(why)) from None


def clear_halt(files: Files, noted: Noted) -> tuple[str, int]:
    """Lets a site take messages again."""
    why = files.halted()
    if why is None:
        return "there was no halt", 0
    note(noted, "clear-halt", {"halt": why})
    files.clear_halt()
    if files.site in files.forks():
        return ("the halt is cleared, and comes back as long as the site itself is marked: --clear-fork "
                f"{files.site}. It was halted for: {why}", 0)
    return f"the halt is cleared: the site takes messages when it is started again. It was halted for: {why}", 0


def clear_fork(files: Files, origin: int, noted: Noted) -> tuple[str, int]:
    """Lets a site accept entries of an origin again, of which another site had other entries."""
    if origin not in files.forks():
        return f"site {origin} is not marked", 0
    why = files.forks()[origin][1]
    note(noted, "clear-fork", {"origin": origin, "fork": why})
    files.clear_fork(origin)
    return f"the mark of site {origin} is removed. It was: {why}", 0


def check(files: Files, program: str) -> tuple[str, int]:
    """What a program makes of the journal, such as before an upgrade. The site may run meanwhile."""
    trial = tried(files, program, files.journal, files.record)
    return "\n".join([trial.vector, *trial.digests, *trial.faults]), 1 if trial.faults else 0


def verify(files: Files, program: str, path: pathlib.Path | str) -> tuple[str, int]:
    """What a program makes of a copy of the journal, and whether the files beside it are those of its manifest."""
    path = pathlib.Path(path)
    its, trial = tried_copy(files, program, path)
    faults = manifest.faults(path, its) or manifest.audited(journal_of(files, path), path, its)
    return "\n".join([*report_of(trial), *manifest.texts(its), *faults]), 1 if trial.faults or faults else 0


def tried_copy(files: Files, program: str, path: pathlib.Path) -> tuple[dict[str, Any] | None, Tried]:
    """What the manifest of a backup says, or None if there is none, and what a program makes of its journal, beside its
    record and its manifest."""
    journal_of(files, path)
    its = manifest.read(path)
    trial = tried(files, program, path, manifest.named(path, manifest.RECORD) if its and "record" in its else None)
    if its and its.get("digests", trial.digests) != trial.digests:
        trial.faults.append(f"it has other digests than its manifest, which has {' '.join(map(str, its['digests']))}")
    return its, trial


def backup(files: Files, program: str, target: pathlib.Path | str, noted: Noted) -> tuple[str, int]:
    """Copies the journal, which ends as one does that was closed in peace, and the record with what waits, as both are
    at one moment. The site may run meanwhile. The copy of the journal is the last to get its name."""
    target = pathlib.Path(target).absolute()
    paths = [target, manifest.named(target, manifest.RECORD), manifest.named(target, manifest.MANIFEST)]
    for path in filter(os.path.lexists, paths):
        raise Wrong(f"{path} is there already, and stays as it is")
    with contextlib.ExitStack() as stack:
        new, new_record, new_manifest = [stack.enter_context(beside(path)) for path in paths]
        has = copy_site(files, new, new_record)
        trial = tried(files, program, new, new_record if has else None)
        must_be_right(files.journal, trial)
        its = manifest.made(files, trial.vector, trial.digests, {"bytes": trial.size, "sha256": trial.sum}, new_record,
                            has)
        manifest.put(its, new_manifest)
        note(noted, "backup", row_of(target, trial))
        if has:
            give(new_record, paths[1])
        give(new_manifest, paths[2])
        give(new, target)
    return "\n".join([*report_of(trial), *manifest.texts(its)]), 0


def copy_site(files: Files, new: pathlib.Path, new_record: pathlib.Path) -> dict[str, Any] | None:
    """Copies what a journal keeps, and the record as it is at the same moment. What that copy has, or None if there is
    no record."""
    its, has = journal_of(files, files.journal), {}
    try:
        if files.record.exists():
            keep(its, new,
                 lambda finish: has.update(chain.copied(files.record, new_record, files.site, files.group, finish)))
        else:
            keep(its, new)
    except Unable as why:
        raise Wrong(f"the record is not copied: {why}") from None
    return has or None


def restore(files: Files, program: str, path: pathlib.Path | str, noted: Noted) -> tuple[str, int]:
    """Puts a copy in the place of a journal that is not there any more, and before that the copy of the record, if none
    is there, and the marks of a halt and of a closed group. The row of the record follows, since a new record begins
    with the lines of the journal."""
    path = pathlib.Path(path).absolute()
    if os.path.lexists(files.journal):
        raise Wrong(
            f"{files.journal} is there, and may have messages that {path} lacks: move it away first, and keep it")
    its = journal_of(files, path)
    its_manifest, trial = tried_copy(files, program, path)
    must_be_right(path, trial._replace(faults=[*trial.faults, *manifest.faults(path, its_manifest)]))
    must_have_the_row(files, path, its_manifest)
    said = restore_record(files, path) if its_manifest and "record" in its_manifest else []
    files.put_marks(its_manifest or {})
    with beside(files.journal) as new:
        keep(its, new)
        give(new, files.journal)
    try:
        note(noted, "restore", row_of(path, trial))
    except (Wrong, OSError) as why:
        raise Wrong(f"{files.journal} is restored, and the record has no row of it: {why}") from None
    more = (f"the site halts as soon as a peer counts more than {trial.kept.messages} messages of site "
            f"{files.site}: its number is then retired")
    return "\n".join([*report_of(trial), *manifest.texts(its_manifest), *said, more]), 0


def must_have_the_row(files: Files, path: pathlib.Path, its_manifest: dict[str, Any] | None) -> None:
    """Wrong if the record that the site is to have lacks a row that was there before: then numbers were perhaps given
    after the copy."""
    is_copied = its_manifest and "record" in its_manifest
    source = files.record if files.record.exists() else manifest.named(path, manifest.RECORD) if is_copied else None
    mark = chain.mark_of(files.record)
    try:
        row = chain.lacking_in(source, files.record)
    except Unable as why:
        raise Wrong(f"{path} is not restored: {why}") from None
    if row:
        raise Wrong(f"{path} is not restored: it is older than the site was. The record had the row {row}, which "
                    f"{mark} names, and {f'{source} has it not' if source else 'there is no record'}: restore a newer "
                    f"copy. If there is none, move {mark} away and keep it, and retire number {files.site} after that: "
                    "it may have given numbers that this copy does not know")


def restore_record(files: Files, path: pathlib.Path) -> list[str]:
    """Puts the copy of a record in its place. One that is there stays, since it may know more. What is printed of
    that."""
    if os.path.lexists(files.record):
        return [f"{files.record} is there, and stays as it is"]
    for rest in (pathlib.Path(f"{files.record}{end}") for end in ("-wal", "-shm")):
        if os.path.lexists(rest):
            raise Wrong(f"{rest} is there without its record, and may have rows: move it away first, and keep it")
    with beside(files.record) as new:
        copied(manifest.named(path, manifest.RECORD), new)
        with open(new, "rb") as file:
            os.fsync(file.fileno())
        give(new, files.record)
    return []


# ---- adopting the journal of another number

async def adopt(keeper: Keeper, path: pathlib.Path | str, noted: Noted) -> tuple[str, int]:
    """Has a site take all of the journal of another number: what the site lacks of its deltas, and then its messages.
    What is held is a repeat, so a journal may be adopted again. Standard error has each line that is refused."""
    its = journal_at(path)
    if its.group != keeper.group or its.site == keeper.number:
        raise Wrong(f"{path} is the journal of site {its.site} of {its.group}, and site {keeper.number} of "
                    f"{keeper.group} adopts that of another site of its group")
    must_be_free(path)
    kept = measured(its)
    fresh, faults = await accepted(keeper, its)
    counts, messages = await taken(keeper, its, noted)
    for text in [*faults, *messages, *rest_texts(kept), *([cut_text(kept)] if kept.is_cut else [])]:
        print(text, file=sys.stderr)
    return "\n".join([f"taken {counts['TAKEN']}, repeats {counts['REPEAT']}, refused {len(messages)}",
                      f"new entries of other sites {fresh}, refused deltas {len(faults)}",
                      f"the site holds {await vector_now(keeper)}"]), 1 if faults or messages else 0


def must_be_free(path: pathlib.Path | str) -> None:
    """Held if a process has a journal: its site still takes messages."""
    with open(path, "rb") as file:
        try:
            fcntl.lockf(file, fcntl.LOCK_SH | fcntl.LOCK_NB, LOCKED, LOCK_AT)
        except (BlockingIOError, PermissionError):
            raise Held(f"{path} is in use: end its site first, for good") from None


async def vector_now(keeper: Keeper) -> str:
    return (await keeper.ask(b"? vector")).decode()


async def accepted(keeper: Keeper, its: Files) -> tuple[int, list[str]]:
    """Hands on what a process holds of other sites that serves a copy of a journal, and what the site lacks. How many
    entries are new, and a text for each delta of the journal that the program refuses, and for each site whose entries
    the site refuses."""
    with served(its, keeper.program) as (copy, serve):
        faults = [text for text in faults_of(keeper.program, copy, serve.vector) if text.endswith(OF_DELTA)]
        fresh, counts = 0, listed(await vector_now(keeper), keeper.group)
        for origin in sorted(set(vector_of(serve.vector)) - {its.site}):
            try:
                fresh += await handed_on(keeper, serve, origin, counts[origin - 1])
            except Refused as why:
                faults.append(f"entries of site {origin}: {why.text}")
        return fresh, faults


async def handed_on(keeper: Keeper, serve: Serve, origin: int, above: int) -> int:
    """Hands on the entries of one site above a count, some at a time. How many are new. What a site holds is not handed
    to it: if the journal has something else there, that would halt it."""
    total = 0
    while True:
        text = b"".join(serve.text(b"? entries %d %d %d" % (origin, above + total, limits.ADOPTED_MOST_BYTES)))
        delta = request_of(text, origin)
        fresh = await keeper.accept(delta) if delta else 0
        if not fresh:
            return total
        total += fresh


async def taken(keeper: Keeper, its: Files, noted: Noted) -> tuple[dict[str, int], list[str]]:
    """Has a site take the messages of a journal. How many had each outcome, and a text for each that is refused."""
    counts: collections.Counter[str] = collections.Counter()
    faults: list[str] = []
    for batch in batches(its):
        blank = [message for message in batch if not message.line.strip(BLANK)]
        messages = [message for message in batch if message.line.strip(BLANK)]
        outcomes = await recorded(keeper, its, [message.line for message in messages], noted)
        counts.update(outcome.word for outcome in outcomes)
        faults += [fault_text(message.place, "", message.number) for message in blank]
        faults += [fault_text(message.place, outcome.why, message.number)
                   for message, outcome in zip(messages, outcomes) if outcome.word == "REFUSED"]
    return counts, faults


async def recorded(keeper: Keeper, its: Files, lines: list[bytes], noted: Noted) -> list[Outcome]:
    """The outcomes of messages that a site takes. The record has the sum of each before, and its outcome after that."""
    if not lines:
        return []
    row = note(noted, "adopt", {"journal": str(its.journal.absolute()), "site": its.site, **chain.post_of(lines)})
    try:
        outcomes = await keeper.take(lines)
    except Exception as why:
        note(noted, "failed", chain.failed_of(row, str(why)))
        raise
    note(noted, "outcome", chain.outcomes_of(row, outcomes))
    return outcomes


def batches(files: Files) -> Iterator[list[Message]]:
    """The messages of a journal, some at once."""
    batch, size, number = [], 0, 0
    for place, line in enumerate(files.kept(), 2):
        if line.startswith(DELTA):
            continue
        number += 1
        batch.append(Message(place, number, line))
        size += len(line)
        if size >= limits.ADOPTED_MOST_BYTES or len(batch) >= limits.ADOPTED_MOST_LINES:
            yield batch
            batch, size = [], 0
    if batch:
        yield batch
