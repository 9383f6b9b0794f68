"""files.py: files that are there whole or not at all, also after a power cut, numbers in files, and results that are
kept for a later run."""
from __future__ import annotations
import array
import contextlib
import json
import os
import pathlib
import threading
from typing import Any, BinaryIO, Callable, Iterator


class Stop(Exception):
    """Why a run ends without an answer: what is printed, and the exit status."""

    def __init__(self, why: str, status: int = 2) -> None:
        super().__init__(why, status)
        self.why, self.status = why, status


@contextlib.contextmanager
def whole(path: pathlib.Path | str) -> Iterator[BinaryIO]:
    """A file that is written under another name, and gets its own name once it is whole. If writing fails, nothing is
    left."""
    path = pathlib.Path(path)
    path.parent.mkdir(parents=True, exist_ok=True)
    made = path.with_name(f"{path.name}.{os.uname().nodename}-{os.getpid()}-{threading.get_ident()}.new")
    try:
        with open(made, "wb") as file:
            yield file
            file.flush()
            os.fsync(file.fileno())
        os.replace(made, path)
        synced(path.parent)
    finally:
        with contextlib.suppress(FileNotFoundError):
            made.unlink()


def synced(folder: pathlib.Path) -> None:
    """Puts the names of a folder on the disk."""
    there = os.open(folder, os.O_RDONLY)
    try:
        os.fsync(there)
    finally:
        os.close(there)


def read_json(path: pathlib.Path | str) -> Any:
    """What a file has, or None if it is not there or is not whole."""
    try:
        return json.loads(pathlib.Path(path).read_bytes())
    except (FileNotFoundError, ValueError):
        return None


def kept(path: str, make: Callable[[], Any]) -> Any:
    """What was made before and is kept in a file, else what is made now, which is kept then, in a list of its own. It
    is made of lists, texts and numbers."""
    stored = read_json(path)
    if stored is None:
        with whole(path) as file:
            file.write(json.dumps([make()]).encode())
        stored = read_json(path)
    return stored[0]


def numbers(path: str, begin: int = 0, end: int | None = None) -> array.array[int]:
    """The numbers in a file, of eight bytes each, from one byte to another."""
    values = array.array("Q")
    with open(path, "rb") as file:
        file.seek(begin)
        values.frombytes(file.read(-1 if end is None else end - begin))
    return values


def copied(source: BinaryIO, begin: int, end: int, target: BinaryIO) -> None:
    """Copies the bytes of an open file from one place to another into an open file."""
    source.seek(begin)
    left = end - begin
    while left:
        piece = source.read(min(left, 1 << 20))
        if not piece:
            raise Stop(f"{source.name} is shorter than it was")
        target.write(piece)
        left -= len(piece)
