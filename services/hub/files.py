"""files.py: the files of a site: its journal, which the process `serve` writes and this program only reads, and the
marks of a halt, of a group that is closed, and of origins whose entries differ from those of other sites.

The form of a journal is a line for each message and each delta, with a byte before it that is a space if the line
counts. The lines up to the first that does not count are kept. docs/users/hub.md has more.
"""
from __future__ import annotations
import contextlib
import fcntl
import os
import pathlib
import re
import time
from typing import Iterable, Iterator, Mapping
from . import limits
from .faults import BadText
from .vectors import run_in

OPEN, DELTA = b" ", b"delta "
RUN = re.compile(rb"\t(origin [^\t]*)")  # the head of some entries of a site in a delta of a journal


class Wrong(Exception):
    """The journal is not the journal of this site, or it lost lines. The site must not start."""


class Held(Exception):
    """Another process has the journal, or runs the site."""


def synced(folder: pathlib.Path) -> None:
    """Puts the names of a folder on the disk."""
    there = os.open(folder, os.O_RDONLY)
    try:
        os.fsync(there)
    finally:
        os.close(there)


def put_text(path: pathlib.Path, text: str) -> None:
    """Puts a file with a text on the disk, all or nothing of it."""
    new = path.with_name(f"{path.name}.new")
    with open(new, "w", encoding="utf-8") as file:
        file.write(text)
        file.flush()
        os.fsync(file.fileno())
    os.replace(new, path)
    synced(path.parent)


class Files:
    """The files of a site in a folder."""

    def __init__(self, folder: pathlib.Path | str, site: int, group: int) -> None:
        self.folder, self.site, self.group = pathlib.Path(folder), site, group
        self.journal = self.folder / f"site{site}.journal"
        self.halt = self.folder / f"site{site}.halted"
        self.reserved = self.folder / f"site{site}.reserved"
        self.lock = self.folder / f"site{site}.lock"
        self.closed = self.folder / f"site{site}.closed"
        self.forked = self.folder / f"site{site}.forked"
        self.room = self.folder / f"site{site}.room"
        self.record = self.folder / f"site{site}.record"
        self.seen = self.folder / f"site{site}.seen"
        self.old = self.folder / f"site{site}.db"

    def make_folder(self) -> None:
        self.folder.mkdir(mode=0o700, parents=True, exist_ok=True)

    @contextlib.contextmanager
    def alone(self) -> Iterator[None]:
        """Nobody else runs the site, or changes its files by a word, meanwhile. Held if somebody does."""
        until = time.monotonic() + limits.SITE_LOCK_SECONDS
        with open(self.lock, "ab") as file:
            while True:
                try:
                    fcntl.flock(file, fcntl.LOCK_EX | fcntl.LOCK_NB)
                    break
                except BlockingIOError:
                    if time.monotonic() > until:
                        raise Held(
                            f"{self.lock} is in use: another process runs site {self.site}. End it first") from None
                    time.sleep(0.05)
            yield

    # ---- the journal

    def kept(self, start: int = 0) -> Iterator[bytes]:
        """The lines that the journal keeps, without the first, which names the site: all, or those from a byte on at
        which one begins."""
        with open(self.journal, "rb") as file:
            file.seek(start)
            for number, line in enumerate(file, min(start, 1)):
                if not line.startswith(OPEN) or not line.endswith(b"\n"):
                    return
                if number:
                    yield line[1:-1]

    def own_lines(self) -> Iterator[bytes]:
        """The messages that the site took, in the order of their numbers."""
        return (line for line in self.kept() if not line.startswith(DELTA))

    def counts(self) -> list[int]:
        """How many entries of each origin the kept lines have, by their own words. Of the older form of a delta it
        counts none."""
        counts = [0] * self.group
        for line in self.kept():
            if not line.startswith(DELTA):
                counts[self.site - 1] += 1
                continue
            for head in RUN.findall(line):
                try:
                    origin, first, many = run_in(head)
                except BadText:
                    raise Wrong(f"it has a delta with {head[:60]!r}") from None
                if origin > self.group:
                    raise Wrong(f"it has entries of site {origin}, and the group has {self.group}")
                counts[origin - 1] = max(counts[origin - 1], first + many - 1)
        return counts

    def check(self, held: list[int]) -> None:
        """Fails unless the process holds what the lines of the journal have. It passes over a line that it refuses, and
        then all numbers after it are wrong: a line was changed, or another version of the program refuses it."""
        counts = self.counts()
        for origin, (is_there, is_held) in enumerate(zip(counts, held), 1):
            if is_there > is_held or origin == self.site and is_there < is_held:
                raise Wrong(f"it has {is_there} entries of site {origin}, of which the program takes {is_held}")

    def identity(self) -> tuple[int, int] | None:
        """Which file the journal is, whatever its name is later. None if there is none."""
        with contextlib.suppress(FileNotFoundError):
            its = self.journal.stat()
            return its.st_dev, its.st_ino
        return None

    def size(self) -> int:
        with contextlib.suppress(OSError):
            return self.journal.stat().st_size
        return 0

    def other_names(self) -> str | None:
        """Why the program does not write the journal, if it has a second name. Else None."""
        with contextlib.suppress(OSError):
            many = self.journal.stat().st_nlink
            if many > 1:
                return (
                    f"{self.journal} has {many} names, as backups by hard links make them, and the program writes to "
                    f"no such file: `find / -xdev -samefile {self.journal}` prints them; put a copy in the place of "
                    "each of the others, or remove it")
        return None

    # ---- the disk

    def free(self) -> int:
        """Bytes that the disk of the folder has left."""
        disk = os.statvfs(self.folder)
        return disk.f_bavail * disk.f_frsize

    def try_room(self, size: int) -> None:
        """Fails as long as the disk has no room for a batch of some bytes behind the journal. It leaves nothing."""
        end = self.size()
        try:
            with open(self.room, "wb") as file:
                file.seek(end)  # a file may have a limit of its own: what is before is a hole, and takes no room
                file.write(os.urandom(1 << 12) * (size // (1 << 12) + 2))
                file.flush()
                os.fsync(file.fileno())
        finally:
            with contextlib.suppress(OSError):
                self.room.unlink()

    # ---- marks

    def halted(self) -> str | None:
        """Why the site was halted, or None."""
        with contextlib.suppress(FileNotFoundError):
            return self.halt.read_text(encoding="utf-8", errors="replace").strip() or "the site was halted"
        with contextlib.suppress(FileNotFoundError):  # a mark that has its text, and not yet its name
            return self.reserved.read_text(encoding="utf-8", errors="replace").strip() or None
        return None

    def reserve_halt(self) -> None:
        """Has room on the disk for the mark of a halt."""
        if not self.reserved.exists() and not self.halt.exists():
            put_text(self.reserved, " " * limits.HALT_BYTES)

    def put_halt(self, why: str) -> None:
        """Marks that the site takes nothing until somebody removes the mark. It is written into the room that is
        reserved for it."""
        if self.halt.is_file():
            return
        text = f"{why} ({time.strftime('%Y-%m-%dT%H:%M:%SZ', time.gmtime())})\n"
        try:
            with open(self.reserved, "r+b") as file:
                file.write(text.encode()[:limits.HALT_BYTES].ljust(limits.HALT_BYTES))
                file.flush()
                os.fsync(file.fileno())
            os.replace(self.reserved, self.halt)
            synced(self.folder)
        except FileNotFoundError:
            put_text(self.halt, text)

    def clear_halt(self) -> bool:
        """Removes the mark, and the room for it, which may have its text. Whether there was one."""
        is_there = self.halted() is not None
        for mark in self.halt, self.reserved:
            with contextlib.suppress(FileNotFoundError):
                mark.unlink()
        synced(self.folder)
        return is_there

    def marks(self) -> dict[str, str | None]:
        """Why the site takes no messages, or not those of an origin, by the mark that says so. None if it has not that
        mark."""
        self.closing()
        self.forks()
        texts: dict[str, str | None] = {"halted": self.halted(), "closed": None, "forked": None}
        for name, path in ("closed", self.closed), ("forked", self.forked):
            with contextlib.suppress(FileNotFoundError):
                texts[name] = path.read_text(encoding="ascii").strip()
        return texts

    def put_marks(self, its: Mapping[str, str]) -> None:
        """Has the marks of a copy of the site. Those that are there stay."""
        for path, text in (self.halt, its.get("halted")), (self.closed, its.get("closed")), (self.forked,
                                                                                             its.get("forked")):
            if text and not path.exists():
                put_text(path, f"{text}\n")

    def forks(self) -> dict[int, tuple[int, str]]:
        """The origins that are marked, each with the first entry that another site holds differently, and with what was
        found."""
        forks: dict[int, tuple[int, str]] = {}
        try:
            for line in self.forked.read_text(encoding="ascii").splitlines():
                place, _, why = line.partition(" ")
                origin, first = map(int, place.split(":"))
                forks[origin] = first, why
        except FileNotFoundError:
            pass
        except ValueError:
            raise Wrong(f"{self.forked} is not the mark of origins") from None
        return forks

    def put_forks(self, forks: Mapping[int, tuple[int, str]]) -> None:
        """Marks origins for good."""
        put_text(self.forked, "".join(f"{origin}:{first} {why}\n" for origin, (first, why) in sorted(forks.items())))

    def clear_fork(self, origin: int) -> str | None:
        """Removes the mark of an origin. What it said, or None if there was none."""
        forks = self.forks()
        its = forks.pop(origin, None)
        if its:
            self.put_forks(forks)
        return its[1] if its else None

    def closing(self) -> tuple[str | None, str | None, list[int] | None]:
        """The day for which the site is closed, the vector with which its group ended, and the sites of that. What is
        not known is None."""
        try:
            words = self.closed.read_text(encoding="ascii").split()
            if len(words) == 1:
                return words[0], None, None
            day, vector, its_sites, *_ = words
            return day, vector, list(map(int, its_sites.split(",")))
        except FileNotFoundError:
            return None, None, None
        except ValueError:
            raise Wrong(f"{self.closed} is not the mark of a closed site") from None

    def closing_digests(self) -> str | None:
        """The digests of that vector. None if the mark has none, as one of an older version."""
        with contextlib.suppress(FileNotFoundError):
            words = self.closed.read_text(encoding="ascii").split()
            return words[3] if len(words) == 4 else None
        return None

    def put_closing(self, day: str, vector: str | None = None, sites: Iterable[int] = (), digests: str = "") -> None:
        """Marks that the site takes nothing any more, and with a vector and its digests that nothing changes at these
        sites, which are all of its group."""
        put_text(self.closed, " ".join([day, vector, ",".join(map(str, sites)), *filter(None, [digests])]) + "\n"
                 if vector else f"{day}\n")
