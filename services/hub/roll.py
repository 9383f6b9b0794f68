"""roll.py: a group is rolled: its sites take no more messages, and a new group begins with what is kept of them.

A mark beside the journal closes a site: it takes nothing any more, and goes on with all else. When all sites of the
group are closed and hold the same, by their digests, each writes their vector and these into its mark. Nothing ever
changes at them after that.

The word of an operator puts the mark, and waits for the vector. Then it has the program serve a copy of the journal,
and print what is kept of it. For the site with the least number it makes the journal of a new site of that. The other
new sites begin without a journal, and get all from that one. What is made gets its name when all of it is on the disk,
and what is there already is compared. So the word may be repeated after it ended at any moment.
"""
from __future__ import annotations
import asyncio
import hashlib
import logging
import pathlib
import re
import subprocess
import sys
import tempfile
import threading
import time
from typing import IO, Iterable, Iterator, TYPE_CHECKING, cast
from . import limits, over, waiting
from .faults import Busy, Refused, Unable
from .files import Files, Wrong
from .keeper import Keeper
from .starts import DIGESTS
from .vectors import listed
from .words import Noted, give, note, served
if TYPE_CHECKING:
    from .exchange import Peers
    from .posts import Posts

JOURNAL_NAME = re.compile(r"site([1-9][0-9]{0,3})\.journal")
log = logging.getLogger("hub")


# ---- at a site that runs

class Closing:
    """Looks for the mark that closes a site, as long as the site runs."""
    said: tuple[str, ...] | None

    def __init__(self, files: Files, keeper: Keeper, posts: Posts, peers: Peers) -> None:
        self.files, self.keeper, self.posts, self.peers, self.said = files, keeper, posts, peers, None

    async def follow(self) -> None:
        """Looks again and again, until nothing ever changes at the site, and its peers may know it."""
        while not (self.keeper.marks.is_final and self.files.closing()[1]):
            try:
                await self._look()
            except (Busy, OSError, Refused, Unable, Wrong) as why:
                self._say("what is closed is looked at again later: %s", why)
            await asyncio.sleep(limits.CLOSING_LOOK_SECONDS)

    def _say(self, text: str, *words: object) -> None:
        if (text, *map(str, words)) != self.said:
            log.info(text, *words)
        self.said = (text, *map(str, words))

    async def _look(self) -> None:
        day, vector, _ = self.files.closing()
        if day is None:
            return
        await self.keeper.close(day)
        if vector:
            return
        others, held = self.peers.others(day, self.keeper.holding.vector), self.keeper.holding.held()
        if self.posts.under_way or others or held is None:
            self._say("the site is closed for %s, and awaits that the sites %s are closed and hold %s", day, others,
                      self.keeper.holding.vector)
            return
        self.files.put_closing(day, self.keeper.holding.vector,
                               sorted([self.keeper.number, *(peer.number for peer in self.peers.all)]), held)
        log.info("all sites are closed for %s, and hold %s", day, self.keeper.holding.vector)


# ---- what the program keeps

def kept_of(program: str, day: str, lines: Iterable[bytes]) -> Iterator[bytes]:
    """The lines that a program keeps of some, which end with line feeds, as they come. Wrong at their end if it refuses
    the day or a line."""
    faults: list[Exception] = []

    def feed() -> None:
        try:
            with requests as stream:
                stream.writelines(lines)
        except BrokenPipeError:
            pass  # its status says why it ended
        except Exception as fault:
            faults.append(fault)
    with tempfile.TemporaryFile() as errors:
        child = subprocess.Popen([program, "keep", "--", day], stdin=subprocess.PIPE, stdout=subprocess.PIPE,
                                 stderr=errors)
        requests, kept = cast(IO[bytes], child.stdin), cast(IO[bytes], child.stdout)  # they are pipes
        feeding = threading.Thread(target=feed, daemon=True)
        feeding.start()
        try:
            yield from (line[:-1] for line in kept)
        except GeneratorExit:
            child.kill()  # nobody wants the rest
            raise
        finally:
            status = child.wait()
            feeding.join()
            kept.close()
        errors.seek(0)
        said = errors.readline().decode(errors="replace").strip()
    if faults:
        raise faults[0]
    if status:
        raise Wrong(f"{program} keep {day} ended with status {status}: {said}")


class Summed:
    """Lines as they pass, with their number and the SHA-256 of their text."""

    def __init__(self, lines: Iterable[bytes]) -> None:
        self.lines, self.many, self.sum = lines, 0, hashlib.sha256()

    def __iter__(self) -> Iterator[bytes]:
        for line in self.lines:
            self.many += 1
            self.sum.update(line + b"\n")
            yield line


# ---- the word

def roll(old: Files, program: str, day: str, journal: str, noted: Noted) -> tuple[str, int]:
    """Closes a site, waits until all of its group hold the same, and makes what its new site begins with. The text and
    the status."""
    new = new_site(old, journal)
    must_be_one(old)
    list(kept_of(program, day, []))  # a day that is none closes nothing
    vector, its_sites = closed(old, day, noted)
    counts = listed(vector, old.group)
    if new.site in its_sites or counts[new.site - 1]:
        raise Wrong(f"{new.site} is a number of this group: a new site has a new one")
    with served(old, program) as (_, serve):
        if serve.vector != vector:
            raise Wrong(f"{old.journal} has {serve.vector}, and the group ended with {vector}")
        digests = [line.decode().rstrip("\n") for line in serve.text(DIGESTS)]
        if ",".join(digests) != (old.closing_digests() or ",".join(digests)):
            raise Wrong(
                f"{old.journal} has the digests {','.join(digests)}, and the group ended with {old.closing_digests()}")
        kept = Summed(kept_of(program, day, serve.text(b"? archive")))
        done = begin(new, program, kept) if old.site == its_sites[0] else summed(kept)
    many = move_waiting(old, new)
    summary = {"day": day, "vector": vector, "digests": digests, "kept": kept.many,
               "sha256": kept.sum.hexdigest(), "journal": str(new.journal),
               "waiting": many}
    note(noted, "rolled", summary)
    return "\n".join([vector, *digests, f"kept {kept.many}, sha256 {summary['sha256']}", done,
                      f"lines that wait {many}"]), 0


def new_site(old: Files, journal: str) -> Files:
    """The files of the new site, whose journal has a path."""
    path = pathlib.Path(journal).absolute()
    match = JOURNAL_NAME.fullmatch(path.name)
    number = int(match.group(1)) if match else 0
    if not 1 <= number <= old.group or number == old.site:
        raise Wrong(
            f"{journal} is not named siteN.journal, with a number N up to {old.group} that no site of the group has")
    if not path.parent.is_dir():
        raise Wrong(f"there is no folder {path.parent}")
    return Files(path.parent, number, old.group)


def must_be_one(files: Files) -> None:
    """Wrong if an origin is marked: the sites of the group hold different entries, and would keep different ones."""
    for why in (why for _, why in files.forks().values()):
        raise Wrong(f"the sites of the group differ: {why}. Find out which is right, retire the others, and remove the "
                    "mark by --clear-fork")


def closed(files: Files, day: str, noted: Noted) -> tuple[str, list[int]]:
    """Closes a site, and waits for the vector with which its group ends, and the numbers of its sites."""
    closed_for, vector, its_sites = files.closing()
    if vector and closed_for != day:
        raise Wrong(f"the group was closed for {closed_for}")
    if closed_for != day:
        note(noted, "close", {"day": day})
        files.put_closing(day)
    if not vector:
        said = (f"site {files.site} takes no more messages, and waits until all sites are closed for {day} and "
                "hold the same")
        print(said, file=sys.stderr, flush=True)
    while not vector:
        time.sleep(limits.CLOSING_LOOK_SECONDS)
        _, vector, its_sites = files.closing()
    return vector, its_sites or []


def summed(kept: Iterable[bytes]) -> str:
    """Takes note of what is kept. The new site gets it from another one."""
    for _ in kept:
        pass
    return "it comes from the site with the least number"


def begin(files: Files, program: str, kept: Iterable[bytes]) -> str:
    """Makes the journal of a new site, which takes what is kept. One that is there must begin with it."""
    new = files.journal.with_suffix(".new")
    over.remove(new)
    if files.journal.exists():
        own = files.own_lines()
        if not all(line == next(own, None) for line in kept):
            raise Wrong(f"{files.journal} is there, and does not begin with what is kept: name another number")
        return f"{files.journal} begins with it already"
    try:
        serve = over.Serve(program, files, new)
        try:
            for requests, rights in over.batches((line, b"TAKEN %d" % number) for number, line in enumerate(kept, 1)):
                serve.ask(requests, rights)
        finally:
            status = serve.end()
        if status:
            raise Wrong(f"{program} ended with status {status}")
        give(new, files.journal)
    finally:
        over.remove(new)
    return f"{files.journal} begins with it"


def move_waiting(old: Files, new: Files) -> int:
    """Has the lines that wait at a site wait at the new one, too. How many there are."""
    try:
        rows = waiting.waiting_in(old.record)
        if rows:
            waiting.move_waiting(rows, new.record, new.site, new.group, new.own_lines)
        return len(rows)
    except (Busy, Unable) as why:
        raise Wrong(f"the lines that wait are not moved: {why}") from None
