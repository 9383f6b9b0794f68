"""converting.py: processes of their own that read XML, so that a long body holds nobody else up. As a program it is
such a process.

A body goes in after its length, and what iso.py makes of it comes back in the same way. A slot is for one body at a
time, and clients have slots in turn. A process that takes too long is ended, and one that takes too much memory ends.
"""
from __future__ import annotations
import asyncio
import importlib
import marshal
import pathlib
import resource
import struct
import subprocess
import sys
from typing import Any, BinaryIO, TYPE_CHECKING
if __name__ == "__main__":
    sys.path.insert(0, str(pathlib.Path(__file__).resolve().parents[1]))
    __package__ = "hub"
    importlib.import_module("hub")
from . import limits
from .costs import Clients, Turns
from .faults import BadText, Unable
from .files import Wrong
from .iso import CONVERTER, Item, drafts_of
from .places import desk_module
from .process import ends_with_parent
if TYPE_CHECKING:
    from asyncio.subprocess import Process

SIZE = struct.Struct("!Q")
# what a process makes of a body: items, why it cannot be read, or why the process cannot read
GOOD, BAD, FAILED = 0, 1, 2


class Converters:
    """The processes. They are started when they are needed first."""

    def __init__(self, clients: Clients) -> None:
        self.turns = Turns(limits.XML_MOST_AT_ONCE, clients)
        self.idle: list[Process] = []

    async def drafts(self, name: str, body: bytes) -> list[Item]:
        """What iso.drafts_of makes of a body, when the client has its turn. BadText if the body cannot be read."""
        async with self.turns.turn(name):
            self.idle = [child for child in self.idle if child.returncode is None]
            child = self.idle.pop() if self.idle else await started()
            try:
                word, made = await asyncio.wait_for(asked(child, body), limits.XML_SECONDS)
            except BaseException as fault:
                if child.returncode is None:
                    child.kill()
                if isinstance(fault, (OSError, EOFError)):
                    raise Unable("the process that reads XML has ended") from None
                raise
            self.idle.append(child)
        if word == BAD:
            raise BadText(made)
        if word == FAILED:
            raise Unable(made)
        line = desk_module(CONVERTER).Line
        return [Item(place, None if its is None else line(*its), why) for place, its, why in made]

    def end(self) -> None:
        for child in self.idle:
            child.kill()
        self.idle.clear()


async def started() -> Process:
    return await asyncio.create_subprocess_exec(sys.executable, __file__, stdin=subprocess.PIPE, stdout=subprocess.PIPE,
                                                preexec_fn=ends_with_parent)


async def asked(child: Process, body: bytes) -> Any:
    """What a process makes of a body. EOFError or OSError if it ends."""
    if child.stdin is None or child.stdout is None:
        raise EOFError("it has no pipes")
    child.stdin.write(SIZE.pack(len(body)) + body)
    await child.stdin.drain()
    size, = SIZE.unpack(await child.stdout.readexactly(SIZE.size))
    return marshal.loads(await child.stdout.readexactly(size))


# ---- in the process

def made_of(body: bytes) -> tuple[int, Any]:
    """What is handed back for a body: plain objects alone."""
    try:
        return GOOD, [(draft.place, draft.line and tuple(draft.line), draft.why) for draft in drafts_of(body)]
    except BadText as why:
        return BAD, str(why)
    except Wrong as why:
        return FAILED, str(why)


def serve(bodies: BinaryIO, answers: BinaryIO) -> None:
    """Reads bodies until the input ends."""
    while head := bodies.read(SIZE.size):
        text = marshal.dumps(made_of(bodies.read(*SIZE.unpack(head))))
        answers.write(SIZE.pack(len(text)) + text)
        answers.flush()


if __name__ == "__main__":
    resource.setrlimit(resource.RLIMIT_DATA, (limits.XML_MEMORY_BYTES, limits.XML_MEMORY_BYTES))
    serve(sys.stdin.buffer, sys.stdout.buffer)
