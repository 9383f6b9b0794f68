"""texts.py: the long texts of a site. A text is made once for a vector, and all who ask for it share it.

A text is kept as long as somebody reads it, and a short one until the vector has grown. Not more than a few long ones
are there at a time: who asks for one more gets an older one, with its vector. Texts are made in a fifth of the time at
most, so that posts do not wait for them.
"""
from __future__ import annotations
import asyncio
import hashlib
import time
import weakref
from typing import Any
from . import limits
from .digests import digests_in, head_of
from .faults import Busy
from .keeper import Keeper
from .starts import DIGESTS


class Text:
    """A text, its vector, and the head with the digests of what was held when it was made."""

    def __init__(self, data: bytes, vector: str, shown: str, mark: str) -> None:
        self.data, self.vector, self.shown, self.mark = data, vector, shown, mark


def mark_of(name: str, group: int, held: str) -> str:
    """What a request has for a text if it asks whether that changed. Sites that hold other entries under the same
    numbers have another one."""
    return f'"{hashlib.sha256(f"{name} {group} {held}".encode()).hexdigest()[:32]}"'


class Texts:
    last: dict[str, Any]  # the last text of each name: itself, or a reference to it if it is long
    making: dict[str, Any]  # the text of a name that is being made
    there: weakref.WeakSet[Any]
    next_at: dict[str, float]

    def __init__(self, keeper: Keeper) -> None:
        self.keeper = keeper
        self.last = {}  # the last text of each name: itself, or a reference to it if it is long
        self.making = {}  # the text of a name that is being made
        self.there, self.next_at = weakref.WeakSet(), {}

    def last_text(self, name: str) -> Text | None:
        last = self.last.get(name)
        return last() if isinstance(last, weakref.ref) else last

    def now(self, name: str) -> str | None:
        """The mark of the text as it is now. None while the digests of what came last are not known yet."""
        held = self.keeper.holding.held()
        return None if held is None else mark_of(name, self.keeper.group, held)

    async def get(self, name: str) -> Text:
        """The text of a name, for the vector as it is now or was a moment ago."""
        while True:
            text = self.last_text(name)
            if text is not None and text.vector == self.keeper.holding.vector:
                return text
            if sum(len(one.data) > limits.TEXT_KEPT_BYTES for one in self.there) >= limits.TEXTS_MOST_THERE:
                if text is None:
                    raise Busy()
                return text
            pause = self.next_at.get(name, 0) - time.monotonic()
            if pause > limits.TEXT_MOST_PAUSE_SECONDS:
                if text is None:
                    raise Busy()
                return text
            if pause > 0:
                await asyncio.sleep(pause)
                continue
            if name not in self.making:
                self.making[name] = asyncio.ensure_future(self._made(name))
            return await asyncio.shield(self.making[name])

    async def _made(self, name: str) -> Text:
        try:
            began = time.monotonic()
            answer, digests = await self.keeper.ask_all([f"? {name}".encode(), DIGESTS])
            held = digests_in(digests.text.decode())
            mark = mark_of(name, self.keeper.group, head_of(held))
            data, text = answer.text, Text(answer.text, answer.vector, head_of(held[:limits.DIGESTS_MOST_SHOWN]), mark)
            self.next_at[name] = time.monotonic() + limits.TEXT_PAUSE_TIMES * (time.monotonic() - began)
            self.there.add(text)
            self.last[name] = text if len(data) <= limits.TEXT_KEPT_BYTES else weakref.ref(text)
            return text
        finally:
            del self.making[name]
