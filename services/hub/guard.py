"""guard.py: who may ask, and how a connection is ended.

Nobody is let in by a name that is not that of the site, since a page of the web can give its own name the address of
the site.
"""
from __future__ import annotations
import asyncio
import asyncio.trsock
import contextlib
import socket
import struct
import time
import urllib.parse
from typing import Any, TYPE_CHECKING
from .access import NOBODY, Roles, Who, names_in
from .faults import Forbidden
from .mirroring import Inner
from .tls import shown, until_of
if TYPE_CHECKING:
    from aiohttp import web

LOCAL_NAMES = {"localhost", "127.0.0.1", "::1"}


class Guard:
    """The names of a site, who is who, and which certificates are revoked. It is changed while the site runs."""
    revoked: frozenset[int] = frozenset()
    inner: Inner | None = None  # where the mirror of the site asks

    def __init__(self, names: list[str], roles: Roles) -> None:
        self.names, self.roles = LOCAL_NAMES | {name.lower() for name in names}, roles

    def clients(self) -> int:
        """Among how many a site is shared: all who have a role, and one more for those who have none."""
        return 1 if self.roles.is_open else len(self.roles.all) + 1

    def check(self, request: web.Request) -> None:
        """Forbidden if a request must not be answered because of where it comes from."""
        try:
            name = urllib.parse.urlsplit(f"//{request.host}").hostname
            origin = request.headers.get("Origin")
            there = urllib.parse.urlsplit(origin).netloc if origin else None
        except ValueError:
            raise Forbidden("the name of the host or of the origin is none", 400) from None
        if name not in self.names:
            raise Forbidden("the site has another name: names in its configuration gives it one")
        if origin and there != request.host:
            raise Forbidden("a page of another server may not ask")
        is_page = request.method == "GET" and request.path == "/"
        if request.headers.get("Sec-Fetch-Site", "none") not in ("none", "same-origin") and not is_page:
            raise Forbidden("a page of another server may not ask")
        if request.headers.get("Content-Encoding", "identity") != "identity":
            raise Forbidden("a body is taken as it is, and not encoded", 415)

    def who(self, request: web.Request) -> Who:
        """Who asks. Forbidden if it shows a token that nobody has, or a certificate that is not valid any more."""
        authorization = request.headers.get("Authorization", "")
        certificate = shown(request.transport.get_extra_info("ssl_object")) if request.transport else None
        if certificate:
            self._must_be_valid(certificate)
        is_inner = self.inner is not None and self.inner.has(request.transport)
        who = self.inner.who(authorization) if self.inner and is_inner else self.roles.who(certificate, authorization)
        if who is None:
            raise Forbidden("nobody has this token, or several have this certificate", 401)
        return who

    def _must_be_valid(self, certificate: dict[str, Any]) -> None:
        """Forbidden if a certificate expired or was revoked since its connection began."""
        names = ", ".join(names_in(certificate))
        if time.time() > until_of(certificate):
            raise Forbidden(f"the certificate of {names} has expired", 401)
        if int(certificate["serialNumber"], 16) in self.revoked:
            raise Forbidden(f"the certificate of {names} is revoked", 401)

    def must(self, who: Who, roles: tuple[str, ...]) -> None:
        """Forbidden unless somebody has one of some roles."""
        if not who.may(roles):
            status = 401 if who is NOBODY else 403
            raise Forbidden(f"this needs the role {' or '.join(roles)}", status)


def address_text(peer: tuple[Any, ...] | None) -> str:
    """The address of a client as the record and the log have it."""
    return f"{peer[0]}:{peer[1]}" if peer else ""


def cut_off(transport: asyncio.Transport | None) -> None:
    """Ends a connection at once."""
    if transport is None:
        return
    its = transport.get_extra_info("socket")
    if its is not None:
        drop_unsent(its)
    transport.abort()


def drop_unsent(its: socket.socket | asyncio.trsock.TransportSocket) -> None:
    """Has the system drop what a socket has not sent when it is closed: else it keeps that until the other side takes
    it."""
    with contextlib.suppress(OSError):  # the other side may have ended it
        its.setsockopt(socket.SOL_SOCKET, socket.SO_LINGER, struct.pack("ii", 1, 0))
