"""for_monitors.py: what monitors and operators ask: whether the site is well, what it counts, and its OpenAPI text."""
from __future__ import annotations
import asyncio
import dataclasses
import pathlib
from typing import Callable, Iterable
from aiohttp import web
from . import limits
from .for_banks import HEARS
from .front import TEXT, Front
from .parts import Parts
from .starts import REPLACED

OPENAPI = pathlib.Path(__file__).with_name("openapi.json").read_bytes()


@dataclasses.dataclass
class Configured:
    """What the configuration says that monitors are shown."""
    before: str | None = None  # where the group before is
    sum: str | None = None  # of the file
    until: dict[str, float] = dataclasses.field(default_factory=dict)  # the last second of each file of certificates


class ForMonitors:
    """What monitors ask. `lines` makes those of the metrics."""

    def __init__(self, parts: Parts, front: Front, lines: Callable[[], Iterable[str]]) -> None:
        self.parts, self.keeper, self.front, self.lines = parts, parts.keeper, front, lines
        self.configured = Configured()

    def faults(self) -> list[str]:
        """Why the site is not well, as texts."""
        keeper = self.keeper
        reasons = [keeper.marks.halted, keeper.queue.failure, "the disk fails" if keeper.disk.is_full else None,
                   keeper.starts.absence(),
                   None if keeper.starts.has_its_journal() else REPLACED, None if self.parts.is_open else HEARS,
                   f"the record cannot be written: {self.parts.record.fault}" if self.parts.record.fault else None,
                   f"the record is wrong: {self.parts.record.damage}" if self.parts.record.damage else None,
                   self.parts.posts.copies.fault() if keeper.marks.takes else None]
        return [reason for reason in reasons if reason]

    def forks(self) -> list[str]:
        """What is said of the origins that are marked: other sites have other entries of them. The site itself may take
        messages all the same."""
        marks = self.keeper.marks
        return [why for origin, (_, why) in sorted(marks.forks.items()) if why != marks.halted]

    async def health(self, request: web.Request) -> web.StreamResponse:
        faults = self.faults() + self.forks()
        keeper, holding, marks = self.keeper, self.keeper.holding, self.keeper.marks
        peers = {peer.number: peer.fault or "" for peer in self.parts.peers.all}
        state = {"site": keeper.number, "group": keeper.group, "version": self.parts.version,
                 "well": not faults, "faults": faults, "peers": peers}
        # who may not ask how much is held is not told by this: digests would let a bank try what others hold
        if request["who"].may(self.front.rules["GET", "/vector"].roles):
            state["vector"] = holding.vector
            state["digests"] = {its.origin: f"{its.number}:{its.digits}" for its in holding.digests.values()}
        if marks.forks:
            state["forks"] = {origin: first for origin, (first, _) in sorted(marks.forks.items())}
        if marks.closed:
            state["closed"], state["awaits"] = marks.closed, self.parts.peers.others(marks.closed, holding.vector)
        records = self.parts.peers.wrong_records()
        if records:
            state["records"] = records
        if self.configured.before:
            state["before"] = self.configured.before
        if self.configured.sum:
            state["configuration"] = self.configured.sum
        return web.json_response(state, status=503 if faults else 200)

    async def live(self, request: web.Request) -> web.StreamResponse:
        """Whether the process of the site answers."""
        await asyncio.wait_for(self.keeper.ask(b"? vector"), limits.LIVE_SECONDS)
        return web.Response(text="live\n")

    async def ready(self, request: web.Request) -> web.StreamResponse:
        """Whether the site takes messages."""
        faults = self.faults() or [str(why) for why in [self.keeper.marks.refusal()] if why]
        return web.Response(status=503 if faults else 200, text=f"{'; '.join(faults) or 'ready'}\n")

    async def openapi(self, request: web.Request) -> web.StreamResponse:
        return await self.front.sent(request, OPENAPI, "application/json")

    async def metrics(self, request: web.Request) -> web.StreamResponse:
        return await self.front.sent(request, "".join(self.lines()).encode(), TEXT)
