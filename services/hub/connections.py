"""connections.py: the connections of a site: who gets one, and when one is cut off.

A connection costs a file alone before its first byte: TLS begins after it. One that has not said who it is makes room
for a new one, the oldest first, so silent ones keep nobody out. The others have a room of connections, in which each
client has a floor. Peers and monitors have some beside it.

A connection is cut off if it is silent at first, if a head takes too long, if its client does not take what it asked
for, asks far ahead of its answers, sends more beside a body than the body has, or sends bytes after it asked for
another protocol.
"""
from __future__ import annotations
import asyncio
import contextlib
import errno
import logging
import socket
import ssl
import time
from typing import Any, Callable, Dict, TYPE_CHECKING
from aiohttp import web
from aiohttp.web_protocol import RequestHandler
from . import limits
from .costs import Clients, Room
from .guard import address_text, cut_off, drop_unsent
from .tls import address as of_client
if TYPE_CHECKING:
    from .access import Who

KEPT_FOR = {"peer", "monitor"}
NO_MORE = {errno.EMFILE, errno.ENFILE, errno.ENOBUFS, errno.ENOMEM}
log = logging.getLogger("hub")


class Connection:
    """A connection, and what is known of it."""
    transport: asyncio.Transport | None = None
    handshake: asyncio.Task[None] | None = None
    room: Room | None = None  # where it is counted
    name = ""  # of its client, after its first head
    head_at: float | None = None  # since when a head is not complete
    unsent_at: float | None = None  # since when its client takes nothing
    body: Any = None  # of its last request
    came = 0  # bytes since the head of that

    def __init__(self, its: socket.socket, address: tuple[Any, ...]) -> None:
        self.socket, self.address, self.began_at = its, address, time.monotonic()

    def is_late(self, now: float, seconds: float) -> bool:
        """Whether its time is over."""
        if self.transport is None or not self.transport.get_write_buffer_size():
            self.unsent_at = None
        elif self.unsent_at is None:
            self.unsent_at = now
        is_late = any(at is not None and now - at > seconds for at in (self.head_at, self.unsent_at))
        return is_late or not self.room and now - self.began_at > min(limits.CONNECTION_SILENT_SECONDS, seconds)

    def is_padded(self) -> bool:
        """Whether more came than a body and its frame have."""
        return self.came > limits.BESIDE_MOST_BYTES + 2 * getattr(self.body, "total_bytes", 0)


class Handler(RequestHandler):
    """What aiohttp does with a connection."""
    __slots__ = ("connection", "connections")

    def __init__(self, connections: Connections, connection: Connection) -> None:
        super().__init__(connections.server, loop=asyncio.get_running_loop(), **connections.server._kwargs)
        self.connection, self.connections = connection, connections

    def connection_made(self, transport: asyncio.BaseTransport) -> None:
        super().connection_made(transport)
        self.connection.transport = self.transport
        if self.connection not in self.connections.open:  # it was cut off while its handshake ended
            cut_off(self.transport)

    def connection_lost(self, exc: BaseException | None) -> None:
        super().connection_lost(exc)
        self.connections.ended(self.connection)

    def data_received(self, data: bytes) -> None:
        """Hands bytes on to aiohttp, which would keep whatever comes."""
        its, before = self.connection, self._request_count
        if not self._upgrade:
            super().data_received(data)
            its.came += len(data)
        if self._request_count > before:
            its.body, its.came, its.head_at = self._messages[-1][1], 0, None
        elif self._waiter is not None and not self._messages and its.head_at is None:
            its.head_at = time.monotonic()
        is_ahead = len(self._messages) > limits.AHEAD_MOST_REQUESTS
        if self._upgrade and (self._request_count == before or self._message_tail) or is_ahead or its.is_padded():
            self._messages.clear()
            self.cut_off()

    def cut_off(self) -> None:
        self.connections.cut(self.connection)

    def resume_writing(self) -> None:
        super().resume_writing()
        self.connection.unsent_at = None

    def handle_error(self, request: web.BaseRequest, status: int = 500, exc: BaseException | None = None,
                     message: str | None = None) -> web.StreamResponse:
        """The answer to what is no request, or to what failed: it does not name the programs that answer."""
        if status >= 500:
            self.log_exception("a request failed", exc_info=exc)
        answer = web.Response(status=status, text="it is no request\n" if status < 500 else "it failed\n",
                              headers={"Server": "niluppang"})
        answer.force_close()
        return answer

    def log_access(self, request: web.BaseRequest, response: web.StreamResponse, time: float) -> None:
        """Notes an answer of aiohttp itself, which the site did not see."""
        if "id" not in request:
            self.connections.on_odd(address_text(self.connection.address), response.status)


class Connections:
    """Accepts connections."""
    listening: socket.socket | None = None
    context: ssl.SSLContext | None = None  # of the connections that come from now on
    # called with an address and the status that was answered to something that is no request
    on_odd: Callable[[str, int], object]

    def __init__(self, server: web.Server, most: int, seconds: float, clients: Clients) -> None:
        self.server, self.most, self.seconds = server, most, seconds
        reserved = min(most // limits.RESERVED_SHARE, limits.RESERVED_MOST)
        self.kept, self.others = Room(most, clients), Room(most - reserved, clients)
        self.open: Dict[Connection, None] = {}
        self.unknown: Dict[Connection, None] = {}  # those that have not said who they are, the oldest first
        self.shaking: Dict[Connection, None] = {}  # those in their handshake, the oldest first
        self.on_odd = lambda address, status: None

    # ---- who gets one

    def listen(self, listening: socket.socket) -> None:
        self.listening = listening
        listening.setblocking(False)
        asyncio.get_running_loop().add_reader(listening.fileno(), self._accept, listening)
        self._look()

    def _accept(self, listening: socket.socket) -> None:
        """Accepts those that wait."""
        for _ in range(limits.ACCEPTED_MOST_AT_ONCE):
            try:
                its, address = listening.accept()
            except (BlockingIOError, InterruptedError, ConnectionAbortedError):
                return
            except OSError as fault:
                if fault.errno not in NO_MORE:
                    raise
                self._pause(listening, fault)
                return
            self._begin(Connection(its, address))

    def _pause(self, listening: socket.socket, fault: OSError) -> None:
        """Accepts nothing for a moment: the system has no more files."""
        log.error("no connection is accepted for a moment: %s", fault.strerror)
        loop = asyncio.get_running_loop()

        def go_on() -> None:
            if self.listening:
                loop.add_reader(listening.fileno(), self._accept, listening)
        loop.remove_reader(listening.fileno())
        loop.call_later(limits.ACCEPT_PAUSE_SECONDS, go_on)

    def _begin(self, connection: Connection) -> None:
        if len(self.open) >= self.most and self.unknown:
            self.cut(next(iter(self.unknown)))
        if len(self.open) >= self.most:
            close_at_once(connection.socket)
            return
        connection.socket.setblocking(False)
        self.open[connection] = self.unknown[connection] = None
        asyncio.get_running_loop().add_reader(connection.socket.fileno(), self._speaks, connection)

    def _speaks(self, connection: Connection) -> None:
        """The first byte of a connection came."""
        asyncio.get_running_loop().remove_reader(connection.socket.fileno())
        if len(self.shaking) >= limits.HANDSHAKES_MOST:
            self.cut(next(iter(self.shaking)))
        self.shaking[connection] = None
        connection.handshake = asyncio.ensure_future(self._shake(connection))

    async def _shake(self, connection: Connection) -> None:
        """Gives a connection its handler, after its handshake if there is TLS. It may have been cut off before this
        began."""
        of_client.set(connection.address)  # for what refuses the handshake
        try:
            if connection in self.open:
                await asyncio.get_running_loop().connect_accepted_socket(
                    lambda: Handler(self, connection), connection.socket, ssl=self.context,
                    ssl_handshake_timeout=limits.CONNECTION_SILENT_SECONDS if self.context else None)
        except OSError:
            pass  # the handshake failed
        finally:
            self.shaking.pop(connection, None)
            if connection.transport is None:
                self.ended(connection)
                close_at_once(connection.socket)

    def known(self, connection: Connection, who: Who) -> None:
        """A head of a connection came, and who asks. Busy if the client has too many connections."""
        if connection.room is None and connection in self.open:
            room = self.others if KEPT_FOR.isdisjoint(who.roles) else self.kept
            room.take(who.name, 1)
            connection.room, connection.name = room, who.name
            self.unknown.pop(connection, None)

    # ---- when one ends

    def cut(self, connection: Connection) -> None:
        """Cuts a connection off, whatever it does. In a handshake its socket is asyncio's, and is closed when that sees
        its end."""
        if connection not in self.open:
            return  # it was cut off before: asyncio may not be asked twice
        self.ended(connection)
        if connection.transport:
            cut_off(connection.transport)
        elif connection.handshake:
            drop_unsent(connection.socket)
            with contextlib.suppress(OSError):  # the other side may have ended it
                connection.socket.shutdown(socket.SHUT_RDWR)
        else:
            asyncio.get_running_loop().remove_reader(connection.socket.fileno())
            close_at_once(connection.socket)

    def ended(self, connection: Connection) -> None:
        """A connection has ended, or will in a moment."""
        self.open.pop(connection, None)
        self.unknown.pop(connection, None)
        self.shaking.pop(connection, None)
        if connection.room:
            connection.room.give(connection.name, 1)
            connection.room = None

    def _look(self) -> None:
        """Cuts off those whose time is over, again and again."""
        if self.listening is None:
            return
        asyncio.get_running_loop().call_later(limits.CONNECTIONS_LOOK_SECONDS, self._look)
        now = time.monotonic()
        for connection in [one for one in self.open if one.is_late(now, self.seconds)]:
            self.cut(connection)

    def end(self) -> None:
        """Accepts nothing any more, and ends those that no request came on."""
        if self.listening:
            asyncio.get_running_loop().remove_reader(self.listening.fileno())
            self.listening.close()
            self.listening = None
        for connection in list(self.unknown):
            self.cut(connection)


def close_at_once(its: socket.socket) -> None:
    """Closes a socket, and drops what it has not sent."""
    drop_unsent(its)
    its.close()
