"""changes.py: which transfers changed in a round, for who watches. While nobody does, the process is asked once a
second at most, so that it forgets them."""
from __future__ import annotations
import time
from typing import Awaitable, Callable, Optional
from . import limits
from .process import Reply

CHANGES = b"? changes"
# the transfers that changed, each with its bank, its identification and its lines or None; None if it is not known
# which ones did
Changes = Optional[list[tuple[str, str, Optional[str]]]]
# requests of the queue itself, and their replies
Exchange = Callable[[list[tuple[bytes, int]]], Awaitable[list[Reply]]]


class Watch:
    """How many watch, and whether the process has said since when."""

    def __init__(self) -> None:
        self.watchers, self.is_watched, self.watched_at = 0, False, 0.0

    def begun(self) -> None:
        """What changes from now on is published."""
        self.is_watched, self.watched_at = True, time.monotonic()

    async def changed(self, exchange: Exchange) -> Changes:
        """The transfers that changed since the round before, each with its lines: if someone watches, or to forget
        them. None if it is not known which ones changed: who comes back to watch has to load again."""
        now = time.monotonic()
        if not self.watchers and (not self.is_watched or now - self.watched_at < 1):
            return [] if self.is_watched else None
        was_watched, self.is_watched, self.watched_at = self.is_watched, True, now
        text, = await exchange([(CHANGES, limits.TEXT_MOST_BYTES)])
        names = [line.split(b"|") for line in bytes(text.text or b"").splitlines()]
        if not self.watchers or not was_watched:
            return None if names or not was_watched else []
        requests = [(b"? transfer " + b" ".join(name), limits.CHANGED_MOST_BYTES)
                    for name in names[:limits.CHANGES_MOST_PUBLISHED]]
        lines: list[str | None] = [None if reply.is_cut else (reply.text or b"").decode()
                                   for reply in await exchange(requests)]
        lines += [None] * (len(names) - len(requests))
        return [(bank.decode(), tx.decode(), its) for (bank, tx), its in zip(names, lines)]
