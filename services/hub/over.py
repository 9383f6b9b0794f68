"""over.py: makes a journal of the SQLite journal of an older version.

The lines of the site itself are fed to `serve` in the order of their numbers, and then the entries that it accepted, in
the order in which it accepted them. Each must be new, under the number that it had: else nothing is left.
"""
from __future__ import annotations
import contextlib
import os
import pathlib
import sqlite3
import subprocess
import urllib.parse
from typing import IO, Iterable, Iterator, cast
from . import limits
from .files import Files, Wrong, synced


class Serve:
    """A process that is asked one batch after another."""

    def __init__(self, program: str, files: Files, journal: pathlib.Path) -> None:
        words = [program, "serve", str(files.site), str(files.group), str(journal)]
        self.child = subprocess.Popen(words, stdin=subprocess.PIPE, stdout=subprocess.PIPE, stderr=subprocess.PIPE,
                                      restore_signals=False)
        # they are pipes
        self.requests, self.replies = cast(IO[bytes], self.child.stdin), cast(IO[bytes], self.child.stdout)
        ready = self.replies.readline()
        if not ready.startswith(b"READY "):
            raise Wrong(f"{program} does not serve: {self.child.communicate()[1].decode(errors='replace').strip()}")
        self.vector = ready[len("READY "):].strip().decode()

    def ask(self, requests: list[bytes], rights: list[bytes]) -> None:
        """Sends a batch of requests, each of which must have its reply."""
        self.requests.write(b"".join(request + b"\n" for request in requests))
        self.requests.flush()
        for request, right in zip(requests, rights):
            reply = self.replies.readline()
            if reply != right + b"\n":
                raise Wrong(f"{request[:60]!r} is answered with {reply.decode(errors='replace').strip()}, and not with "
                            f"{right.decode()}")

    def text(self, question: bytes) -> Iterator[bytes]:
        """The lines of the text that answers a question, as they come."""
        self.requests.write(question + b"\n")
        self.requests.flush()
        reply = self.replies.readline()
        if not reply.startswith(b"TEXT "):
            raise Wrong(f"{question[:60]!r} is answered with {reply.decode(errors='replace').strip()}")
        left = int(reply[len(b"TEXT "):])
        while left:
            line = self.replies.readline(left)
            if not line:
                raise Wrong(f"it ended within the answer to {question[:60]!r}")
            left -= len(line)
            yield line
        self.replies.readline()

    def said(self) -> str:
        """What it wrote to standard error, until it ended."""
        return cast(IO[bytes], self.child.stderr).read().decode(errors="replace").strip()

    def end(self) -> int:
        self.requests.close()
        return self.child.wait()


def batches(pairs: Iterable[tuple[bytes, bytes]]) -> Iterator[tuple[list[bytes], list[bytes]]]:
    """Requests with their replies, some at once: a reply of a line is short, so that the replies of a batch fit into a
    pipe."""
    requests, rights, size = [], [], 0
    for request, right in pairs:
        requests.append(request)
        rights.append(right)
        size += len(request)
        if size >= limits.READ_OVER_BYTES or len(requests) >= 1000:
            yield requests, rights
            requests, rights, size = [], [], 0
    if requests:
        yield requests, rights


def pairs_in(connection: sqlite3.Connection) -> Iterator[tuple[bytes, bytes]]:
    """What is fed of a database, each with the reply that it must have."""
    for number, line in connection.execute("SELECT number, line FROM own ORDER BY number"):
        yield bytes(line).replace(b"\n", b" "), b"TAKEN %d" % number
    for origin, first, count, lines in connection.execute(
            "SELECT origin, first, count, lines FROM accepted ORDER BY rowid"):
        entries = bytes(lines).replace(b"\n", b"\t")
        yield b"delta 2\torigin %d %d %d\t%send %d" % (origin, first, count, entries, count), b"ACCEPTED %d" % count


def remove(journal: pathlib.Path) -> None:
    """Removes a journal, and the empty file that the program makes beside it."""
    for path in journal, journal.with_name(journal.name + "-wal"):
        with contextlib.suppress(FileNotFoundError):
            path.unlink()


def read_over(old: str, files: Files, program: str) -> str:
    """Makes the journal of a site of an SQLite journal. The result says what it then has."""
    if files.journal.exists():
        raise Wrong(f"{files.journal} is there already")
    new = files.journal.with_suffix(".new")
    remove(new)
    try:
        with contextlib.closing(sqlite3.connect(f"file:{urllib.parse.quote(str(old))}?mode=ro",
                                                uri=True)) as connection:
            sites = connection.execute("SELECT number, sites FROM site").fetchall()
            if sites != [(files.site, files.group)]:
                raise Wrong(f"{old} is the journal of {sites}, and not of site {files.site} of {files.group}")
            serve = Serve(program, files, new)
            try:
                for requests, rights in batches(pairs_in(connection)):
                    serve.ask(requests, rights)
            finally:
                status = serve.end()
        if status:
            raise Wrong(f"{program} ended with status {status}")
        made = Serve(program, files, new)
        made.end()
        os.replace(new, files.journal)
        synced(files.folder)
        return made.vector
    except sqlite3.Error as fault:
        raise Wrong(f"{old} cannot be read: {fault}") from None
    finally:
        remove(new)
