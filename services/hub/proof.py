"""proof.py: where the messages on a transfer are among the entries of a site, with what shows that they were held.

The number of an entry is in the journal: by its place among the own messages, or in the head of its delta. The line of
the archive, the digest before it and the digest with it belong together for one line alone. So a line of the journal
that may be the message is compared by these.
"""
from __future__ import annotations
import hashlib
from typing import Iterable, Iterator, NamedTuple
from . import limits
from .faults import BadText
from .files import DELTA, Files
from .vectors import run_in

ESCAPE = b"\\"


class Place(NamedTuple):
    """The number of an entry of an origin."""
    origin: int
    number: int


def entries_in(delta: bytes) -> Iterator[tuple[Place, bytes]]:
    """The entries of a delta of a journal, each with its place: of form 2, or of form 1."""
    origin = number = 0
    for line in delta.split(b"\t")[1:-1]:
        if line.startswith(b"origin "):
            origin, number, _ = run_in(line)
        elif line.startswith(b"entry "):
            _, its, first, rest = line.split(b" ", 3)
            yield Place(int(its), int(first)), rest
        else:
            yield Place(origin, number), line
            number += 1


def lines_with(files: Files, words: bytes) -> Iterator[tuple[Place, bytes]]:
    """The entries of a journal whose lines have these bytes, or signs that are written as escapes."""
    number = 0
    for line in files.kept():
        is_delta = line.startswith(DELTA)
        number += not is_delta
        if words not in line and ESCAPE not in line:
            continue
        its = entries_in(line) if is_delta else [(Place(files.site, number), line)]
        yield from (one for one in its if words in one[1] or ESCAPE in one[1])


def candidates(files: Files, words: bytes) -> list[Place]:
    """The places of entries that may be messages on a transfer with this identification. BadText if there are too
    many."""
    places: dict[Place, None] = {}
    for place, _ in lines_with(files, words):
        places[place] = None
        if len(places) > limits.PROOF_MOST_LINES:
            raise BadText(f"more than {limits.PROOF_MOST_LINES} lines of the journal may be messages on it")
    return list(places)


def line_between(before: str, after: str, lines: Iterable[bytes]) -> bytes | None:
    """The line that leads from one digest to the next, if it is one of these."""
    return next((line for line in lines if hashlib.sha256(bytes.fromhex(before) + line + b"\n").hexdigest() == after),
                None)
