"""mirroring.py: a site keeps its mirror itself. It runs mirror.py, which asks it at a port of this machine alone, as a
desk.

At that port nobody is let in but the mirror, by a token that only it has. If the mirror ends, it is started again. It
ends with its site, also if the site is killed.
"""
from __future__ import annotations
import asyncio
import contextlib
import hmac
import logging
import os
import pathlib
import secrets
import socket
import sys
from typing import Any, Callable
from aiohttp import web
from . import limits
from .access import Who

MIRROR = pathlib.Path(__file__).with_name("mirror.py")
WHO = Who("mirror", frozenset({"desk"}), frozenset(), frozenset())
log = logging.getLogger("hub")


class Inner:
    """The port of the mirror, and its token."""

    def __init__(self) -> None:
        self.socket = socket.create_server(("127.0.0.1", 0))
        self.address, self.token = self.socket.getsockname(), secrets.token_urlsafe(32)

    @property
    def url(self) -> str:
        return f"http://{self.address[0]}:{self.address[1]}"

    def has(self, transport: Any) -> bool:
        """Whether a connection came to this port."""
        return transport is not None and transport.get_extra_info("sockname") == self.address

    def who(self, authorization: str) -> Who | None:
        """The mirror, if somebody shows its token."""
        return WHO if hmac.compare_digest(authorization.encode(), f"Bearer {self.token}".encode()) else None


class Mirroring:
    """The mirror of a site, as long as the settings name a database. `let_in` is called with the port of the mirror."""

    def __init__(self, runner: web.AppRunner, let_in: Callable[[Inner], object]) -> None:
        self.runner, self.let_in = runner, let_in
        self.inner: Inner | None = None
        self.path: str | None = None
        self.task: asyncio.Task[None] | None = None

    async def be(self, path: str | None) -> None:
        """From now on this database is kept, or none."""
        if path == self.path:
            return
        await self.end()
        self.path = path
        if path:
            self.task = asyncio.ensure_future(self._keep(await self._begun(), path))

    async def _begun(self) -> Inner:
        """The port of the mirror, at which the site listens."""
        if self.inner is None:
            self.inner = Inner()
            self.let_in(self.inner)
            await web.SockSite(self.runner, self.inner.socket).start()
        return self.inner

    async def end(self) -> None:
        if self.task:
            self.task.cancel()
            with contextlib.suppress(asyncio.CancelledError):
                await self.task
        self.task = self.path = None

    async def _keep(self, inner: Inner, path: str) -> None:
        """Runs the mirror again and again. It has a longer pause each time, unless it did something meanwhile."""
        pause = limits.MIRRORING_FIRST_PAUSE_SECONDS
        while True:
            has_worked = await self._run(inner, path)
            pause = (limits.MIRRORING_FIRST_PAUSE_SECONDS if has_worked
                     else min(2 * pause, limits.MIRRORING_MOST_PAUSE_SECONDS))
            await asyncio.sleep(pause)

    async def _run(self, inner: Inner, path: str) -> bool:
        """Runs the mirror until it ends, and logs what it prints. Whether it brought anything into its database."""
        words = [sys.executable, "-u", str(MIRROR), "--with-input", inner.url, path]
        pipe, has_worked, text = asyncio.subprocess.PIPE, False, ""
        try:
            process = await asyncio.create_subprocess_exec(*words, stdin=pipe, stderr=pipe,
                                                           env={**os.environ, "NILUPPANG_TOKEN": inner.token})
        except OSError as fault:
            log.error("the mirror cannot be started: %s", fault)
            return False
        try:
            while process.stderr and (line := await process.stderr.readline()):
                text = line.decode(errors="replace").rstrip()
                has_worked = has_worked or "all is loaded" in text
                log.info("%s", text)
            log.error("the mirror ended with status %d, and is started again: %s", await process.wait(), text)
            return has_worked
        finally:
            if process.returncode is None:
                process.terminate()
                await process.wait()
