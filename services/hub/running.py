"""running.py: one site: its process, its peers, its record, and its service over HTTP, until a signal comes or it
cannot go on.

SIGHUP has it read its configuration, its roles and its certificates again. What is wrong then is logged, and the site
goes on with what it had. Folder, number, group and address of a site are read at the start alone.
"""
from __future__ import annotations
import asyncio
import dataclasses
import logging
import os
import signal
import socket
import ssl
import sys
import aiohttp
from typing import Callable
from aiohttp import web
from . import limits, tls, words
from .access import Roles
from .addresses import table
from .config import Settings
from .connections import Connections
from .digests import Digest
from .exchange import BadAnswer, Peers
from .faults import BadText, Halted, Refused, Unable
from .files import Files, Held, Wrong
from .for_monitors import Configured
from .guard import Guard
from .iso import CONVERTER
from .keeper import Keeper
from .mirroring import Inner, Mirroring
from .notify import notify, watchdog_seconds
from .places import desk_module
from .parts import Parts
from .posts import Posts
from .process import Ended
from .record import Record
from .roll import Closing, move_waiting
from .service import Service

# exit statuses of a site: it cannot go on, it must not start, its disk or its port is not there
ENDED, WRONG, AWAY = 1, 2, 3
# of settings: they are read at the start alone
FIXED = ("folder", "site", "group", "host", "port", "program", "connections")
log = logging.getLogger("hub")


class Stop(Exception):
    """Why a site does not start, and the exit status that says so."""

    def __init__(self, why: str, status: int = WRONG) -> None:
        super().__init__(why)
        self.status = status


def least_of(settings: Settings, usual: int) -> int:
    """How many peers a site must hear first: as its settings say, or a usual number, if it has as many."""
    return min(len(settings.peers), usual) if settings.hear is None else settings.hear


async def began(settings: Settings, files: Files, program: str) -> Keeper:
    """The site, with its process, which has its journal."""
    keeper = Keeper(files, program, settings.site, settings.group)
    cannot = f"site {settings.site} cannot start on its journal, {files.journal}"
    try:
        await keeper.start()
        return keeper
    except Held as fault:
        raise Stop(f"site {settings.site} cannot start: its journal, {files.journal}, is in use: {fault}") from None
    except Wrong as fault:
        raise Stop(f"{cannot}: {fault}") from None
    except (Ended, OSError) as fault:
        raise Stop(f"{cannot}: {fault}", AWAY) from None


class Site:
    """A site that runs. `again` reads its settings anew, and `is_asked` is whether somebody asked for that before it
    began."""
    connections: Connections

    keeper: Keeper
    record: Record
    socket: socket.socket | None
    alive: asyncio.Task[None] | None
    closing: asyncio.Task[None] | None
    noted: list[Digest]  # what the record said at the opening
    noting: asyncio.Task[None] | None

    def __init__(self, settings: Settings, program: str, version: str, again: Callable[[], Settings],
                 is_asked: Callable[[], bool]) -> None:
        self.settings, self.program, self.version, self.again, self.is_asked = (settings, program, version, again,
                                                                                is_asked)
        self.files = Files(settings.folder, settings.site, settings.group)
        self.roles, self.ends = Roles(settings.roles), asyncio.Event()
        self.socket = None
        self.alive = self.closing = self.noting = None
        self.reloading, self.is_asked_again = asyncio.Lock(), False

    # ---- its life

    async def serve(self) -> int:
        """Serves until a signal comes, or until the site cannot go on. The exit status."""
        loop = asyncio.get_running_loop()
        for number in (signal.SIGINT, signal.SIGTERM):
            loop.add_signal_handler(number, self.ends.set)
        loop.add_signal_handler(signal.SIGHUP, self._hung_up)
        self.is_asked_again = self.is_asked()
        table(self.settings.access)  # what is wrong with it, or is missing, is seen at the start
        valid = tls.valid(self.settings.tls)
        desk_module(CONVERTER)
        await self._open()
        self.posts = Posts(self.keeper, self.record, self.settings.waiting)
        self.posts.copies.be(self.settings)
        self.posts.banks_of = lambda name, bank: self.roles.banks_of(name, bank)
        self.guard = Guard([self.settings.host, *self.settings.names], self.roles)
        self.record.clients = self.guard.clients
        self.parts = Parts(self.keeper, self.peers, self.guard, self.record, self.posts, self.version,
                           self.settings.seconds)
        self.service = Service(self.parts)
        self.service.noting.noted = {one.origin: one for one in self.noted}
        self.service.front.allow(table(self.settings.access))
        self._shown(valid)
        runner = web.AppRunner(self.service.application(), access_log=None, auto_decompress=False, lingering_time=1.0)
        await runner.setup()
        self.mirroring = Mirroring(runner, self._let_in)
        if runner.server is None:
            raise Stop(f"site {self.settings.site} has no server", AWAY)
        self.connections = Connections(runner.server, self.settings.connections, self.settings.seconds,
                                       self.guard.clients)
        self.service.front.listens(self.connections)
        try:
            await self._listen()
            await self.mirroring.be(self.settings.mirror)
            if self.is_asked_again:
                await self.reload()
            await self._until_the_end()
        finally:
            await self._end(runner)
        if not await self.keeper.marks.has_kept_halt():
            return AWAY
        return WRONG if self.keeper.rounds.is_wrong else ENDED if self.keeper.queue.failure else 0

    async def _open(self) -> None:
        """Opens the journal and the record, and makes the peers, which are not asked yet."""
        self.keeper = await began(self.settings, self.files, self.program)
        self.keeper.rounds.on_failure, self.keeper.marks.takes = self.ends.set, self.settings.takes
        self.keeper.marks.on_fork = self._forked
        self.record = Record(self.files.record, self.settings.site, self.settings.group)
        try:
            await self.record.open(self.files.own_lines)
            own = self.keeper.holding.counts[self.settings.site - 1]
            self.keeper.marks.must_have(await self.record.last_taken(), own, "the record")
            await self._must_hold_what_was_held()
            self.peers = Peers(self.keeper, self.version)
            await self.peers.be(self.settings, self._to_peer)
        except (Wrong, Unable, OSError) as fault:
            await self.keeper.end()
            await self.record.close()
            raise Stop(f"site {self.settings.site} cannot start: {fault}",
                       AWAY if isinstance(fault, (Unable, OSError)) else WRONG) from None

    def _forked(self, origin: int, first: int, why: str) -> None:
        self.record.note("fork", "", "", "", {"origin": origin, "first": first, "why": why})

    async def _must_hold_what_was_held(self) -> None:
        """Wrong if the journal has other entries than the record says. Lost entries of other sites come again."""
        found, more = await self.record.last_held(self.keeper.holding.counts)
        for one, its in zip(found, await self.keeper.digests_of(one.digest[:2] for one in found)):
            if one.digest != its:
                raise Wrong(
                    f"its first {its.number} entries of site {its.origin} are not those of {one.at}: the journal was "
                    "changed. --check says more")
        self.noted = [one.digest for one in found]
        count = next((one.digest.number for one in found if one.digest.origin == self.settings.site), 0)
        number = await self.record.changed_line(self.files.own_lines, count)
        if number is not None:
            raise Wrong(
                f"its message {number} is not the one that was taken under this number: the journal was changed")
        for one in more:
            log.warning("the journal has %d entries of site %d, and had %d at %s: it lost lines",
                        self.keeper.holding.counts[one.digest.origin - 1],
                        one.digest.origin, one.digest.number, one.at)

    async def _until_the_end(self) -> None:
        settings, keeper = self.settings, self.keeper
        log.info("site %d of %d serves at %s:%d, and holds %s", settings.site, settings.group, settings.host,
                 settings.port, keeper.holding.vector)
        self.alive = asyncio.ensure_future(self._lives())
        self.noting = asyncio.ensure_future(self._notes_all())
        await self.posts.begin()
        await self.peers.hear(lambda: least_of(self.settings, 1), self.ends.is_set)
        self.peers.follow()
        self.posts.open()
        self.closing = asyncio.ensure_future(Closing(self.files, self.keeper, self.posts, self.peers).follow())
        self.parts.is_open = True
        notify("READY=1", f"STATUS={'takes messages' if self.settings.takes else 'accepts what others took'}")
        await self.ends.wait()
        notify("STOPPING=1")

    async def _end(self, runner: web.AppRunner) -> None:
        await self.mirroring.end()
        self.connections.end()
        for task in filter(None, (self.alive, self.closing, self.noting)):
            task.cancel()
        await self.peers.end()
        await self.posts.end()
        await runner.cleanup()
        self.service.banks.converters.end()
        await self.keeper.end()
        self.service.noting.note()
        await self.record.close()

    async def _notes_all(self) -> None:
        """Has the record say what is held, now and each hour."""
        while True:
            self.service.noting.note(True)
            await asyncio.sleep(limits.RECORD_END_SECONDS)

    async def _lives(self) -> None:
        """Says to systemd that the site lives, as long as its process answers, or is started in the time that a start
        may take."""
        pause = watchdog_seconds()
        while pause:
            await asyncio.sleep(pause / 3)
            why = self.keeper.queue.failure or self.keeper.starts.absence()
            notify(*(["WATCHDOG=1"] if self.keeper.starts.lives() else []), *([f"STATUS={why}"] if why else []))

    def _shown(self, valid: tls.Valid) -> None:
        """Has monitors and the desk see what the settings say, and how long certificates are valid."""
        until, self.guard.revoked = valid
        self.service.desk.finder.path = self.settings.mirror
        self.service.monitors.configured = Configured(self.settings.before, self.settings.sum, until)

    # ---- where it listens

    def _let_in(self, inner: Inner) -> None:
        """Lets the mirror in at its port."""
        self.guard.inner = inner

    def _to_peer(self, number: int) -> ssl.SSLContext | None:
        return tls.to_peer(self.settings.tls, number, lambda: self.roles) if self.settings.tls else None

    async def _listen(self) -> None:
        """Begins to listen. When the site listens already, new connections have the certificates as they are now, and
        the others go on with what they had."""
        host, port = self.settings.host, self.settings.port
        self.connections.context = tls.to_clients(self.settings.tls,
                                                  self.service.front.refused_handshake) if self.settings.tls else None
        if self.socket is not None:
            return
        try:
            family = socket.AF_INET6 if ":" in host else socket.AF_INET
            self.socket = socket.create_server((host, port), family=family, backlog=512)
            # each connection has it from here
            self.socket.setsockopt(socket.SOL_SOCKET, socket.SO_SNDBUF, limits.BUFFERED_BYTES)
        except OSError as fault:
            raise Stop(f"site {self.settings.site} cannot serve at {host} port {port}: {fault.strerror}",
                       AWAY) from None
        self.connections.listen(self.socket)

    def _hung_up(self) -> None:
        """SIGHUP came. While the site still opens its journal, the configuration is read again afterwards."""
        self.is_asked_again = True
        if self.socket:
            asyncio.ensure_future(self.reload())

    async def reload(self) -> None:
        """Reads the configuration again. What is wrong with it changes nothing."""
        async with self.reloading:
            await self._reload()

    async def _reload(self) -> None:
        try:
            settings = self.again()
            fixed = [name for name in FIXED if getattr(settings, name) != getattr(self.settings, name)]
            settings = dataclasses.replace(settings, **{name: getattr(self.settings, name) for name in FIXED})
            roles, addresses = Roles(settings.roles), table(settings.access)
            if settings.tls:
                tls.to_clients(settings.tls)
            valid = tls.valid(settings.tls)
            before, self.settings, self.roles = (self.settings, self.roles), settings, roles
            try:
                await self.peers.be(settings, self._to_peer)
            except (Wrong, OSError):
                self.settings, self.roles = before
                raise
        except (Wrong, OSError) as fault:
            log.error("the configuration of site %d is not read again: %s; the one before stays", self.settings.site,
                      fault)
            return
        self.guard.names, self.guard.roles = Guard([settings.host, *settings.names], roles).names, roles
        self._shown(valid)
        self.service.front.allow(addresses)
        await self.mirroring.be(settings.mirror)
        self.parts.seconds = self.connections.seconds = settings.seconds
        self.service.desk.events.end()
        self.posts.ends.most = settings.waiting
        self.posts.copies.be(settings)
        self.keeper.marks.takes = settings.takes
        await self._listen()
        self.record.note("reload", f"user {os.getuid()}", "", "",
                         {"roles": len(roles.all), "peers": sorted(settings.peers)})
        log.info("the configuration is read again%s",
                 f"; {', '.join(fixed)} are read at a start alone" if fixed else "")


async def adopted(settings: Settings, program: str, version: str, path: str, noted: words.Noted) -> tuple[str, int]:
    """Takes all of the journal of a retired number, after the peers were heard and what they have was accepted, and
    what waits in the record beside it. The text and the status."""
    words.journal_at(path)  # what is no journal is refused before the site has files of its own
    files, roles = Files(settings.folder, settings.site, settings.group), Roles(settings.roles)
    keeper = await began(settings, files, program)
    peers = Peers(keeper, version)
    try:
        keeper.marks.must_take()
        await peers.be(settings, lambda number: tls.to_peer(settings.tls, number, lambda: roles) if settings.tls
                       else None)
        await peers.hear(lambda: least_of(settings, len(settings.peers)), lambda: keeper.queue.failure)
        for peer in peers.all:
            await peer.catch_up()
        text, status = await words.adopt(keeper, path, noted)
        return f"{text}\nlines that wait {move_waiting(words.journal_at(path), files)}", status
    finally:
        await peers.end()
        await keeper.end()


def adopt(settings: Settings, program: str, version: str, path: str, noted: words.Noted) -> int:
    """Adopts a journal. The exit status."""
    try:
        text, status = asyncio.run(adopted(settings, program, version, path, noted))
    except (Stop, Wrong, Halted, Unable, BadAnswer, BadText, Refused, aiohttp.ClientError, asyncio.TimeoutError) as why:
        raise Wrong(f"{path} is not adopted, and may be adopted again: {why}") from None
    print(text)
    return status


def run(settings: Settings, program: str, version: str, again: Callable[[], Settings],
        is_asked: Callable[[], bool]) -> int:
    """Runs a site. The exit status."""
    try:
        with Files(settings.folder, settings.site, settings.group).alone():
            return asyncio.run(Site(settings, program, version, again, is_asked).serve())
    except (Stop, Wrong, Held) as why:
        print(f"hub: {why}", file=sys.stderr, flush=True)
        return getattr(why, "status", WRONG)
