"""opening.py: says what a site does that takes long to start: the log and systemd get a line from time to time."""
from __future__ import annotations
import asyncio
import contextlib
import logging
import re
import time
from typing import Callable, Iterator
from . import limits
from .notify import notify

MEGA = 1_000_000

log = logging.getLogger("hub")


class Reading:
    """How much of a journal of some bytes a process has read, by what the system counts of it."""
    process: int | None

    def __init__(self, size: int, now: Callable[[], float] = time.monotonic) -> None:
        self.size, self.now, self.process, self.at = size, now, None, now()

    def began(self, process: int) -> None:
        """The process of a number begins to read."""
        self.process, self.at = process, self.now()

    def text(self) -> str:
        done, seconds = min(read_by(self.process), self.size), self.now() - self.at
        left = f", about {round(seconds * (self.size - done) / done)} seconds left" if done else ""
        return f"the journal is read: {round(done / MEGA)} of {round(self.size / MEGA)} MB{left}"


def read_by(process: int | None) -> int:
    """Bytes that a process has read. None are known on a system that does not count them."""
    with contextlib.suppress(OSError):
        with open(f"/proc/{process}/io", encoding="ascii") as file:
            match = re.search(r"^rchar: (\d+)$", file.read(), re.M)
        return int(match[1]) if match else 0
    return 0


@contextlib.contextmanager
def saying(text: Callable[[], str]) -> Iterator[None]:
    """Says again and again what is done meanwhile, which a function returns."""
    task = asyncio.ensure_future(_says(text))
    try:
        yield
    finally:
        task.cancel()


async def _says(text: Callable[[], str]) -> None:
    await asyncio.sleep(limits.OPENING_FIRST_SECONDS)
    while True:
        log.info("%s", text())
        notify(f"STATUS={text()}")
        await asyncio.sleep(limits.OPENING_EVERY_SECONDS)
