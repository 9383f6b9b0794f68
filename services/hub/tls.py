"""tls.py: how a site shows who it is over TLS, and how it knows clients and peers by certificates of its own authority.

A certificate is checked when its connection begins. While a connection lasts, the end of the certificate and the list
of revoked ones are looked at again: of clients at each request (guard.py), and of peers at each answer that is read.
"""
from __future__ import annotations
import contextvars
import ssl
import time
from typing import Any, Callable, NamedTuple
from . import certificates
from .access import Roles, names_in, sum_of
from .config import Tls, must_be_closed
from .files import Wrong

# of the client for whom a handshake is made
address: contextvars.ContextVar[tuple[Any, ...]] = contextvars.ContextVar("address")


class Valid(NamedTuple):
    """Until when the files of a site are valid, each by its key in [tls], and the numbers of the certificates that are
    revoked."""
    until: dict[str, float]
    revoked: frozenset[int]


def valid(tls: Tls | None) -> Valid:
    """What the files of a site say. Wrong if they cannot be read, or if the list of revoked certificates is over: it
    would let nobody in."""
    if tls is None:
        return Valid({}, frozenset())
    files = {"certificate": tls.certificate, "authority": tls.authority, **({"crl": tls.crl} if tls.crl else {})}
    until = {key: certificates.until_of(path) for key, path in files.items()}
    if until.get("crl", float("inf")) < time.time():
        raise Wrong(f"{tls.crl} is over since {time.strftime('%Y-%m-%dT%H:%M:%SZ', time.gmtime(until['crl']))}: it "
                    "needs a newer list")
    return Valid(until, certificates.revoked_in(tls.crl) if tls.crl else frozenset())


def until_of(certificate: dict[str, Any]) -> float:
    """The last second of a certificate of the other side."""
    return ssl.cert_time_to_seconds(certificate["notAfter"])


def shown(its: ssl.SSLObject | None) -> dict[str, Any] | None:
    """The certificate of the other side of a connection, with its sum. None if it showed none."""
    certificate = its.getpeercert() if its else None
    return {**certificate, "sum": sum_of(its.getpeercert(True) or b"")} if its and certificate else None


def expect_files(tls: Tls) -> None:
    """Opens each file, since a fault of `ssl` does not name the one that is missing. Wrong if it is open to others."""
    for path in filter(None, (tls.authority, tls.certificate, tls.key, tls.crl)):
        open(path, "rb").close()
        must_be_closed(path, is_secret=path == tls.key)


def prepared(tls: Tls, context: ssl.SSLContext) -> ssl.SSLContext:
    """A context with what holds for clients and for peers."""
    context.minimum_version = ssl.TLSVersion.TLSv1_2
    context.load_cert_chain(tls.certificate, tls.key)
    if tls.crl:
        context.load_verify_locations(tls.crl)
        context.verify_flags |= ssl.VERIFY_CRL_CHECK_LEAF
    return context


def why(fault: ssl.SSLError) -> str:
    """Why a handshake failed, in the words of OpenSSL."""
    return getattr(fault, "verify_message", None) or (fault.reason or str(fault)).replace("_", " ").lower()


def to_clients(tls: Tls, refused: Callable[[tuple[Any, ...], str], object] = lambda there, why: None) -> ssl.SSLContext:
    """The context of a site for its clients. `refused` is called with the address of a client that gets no connection,
    and why."""
    class OfClient(ssl.SSLObject):
        def do_handshake(self) -> None:
            try:
                super().do_handshake()
            except (ssl.SSLWantReadError, ssl.SSLWantWriteError):
                raise
            except ssl.SSLError as fault:
                refused(address.get(()), why(fault))
                raise
    try:
        expect_files(tls)
        context = prepared(tls, ssl.create_default_context(ssl.Purpose.CLIENT_AUTH, cafile=tls.authority))
        context.verify_mode = ssl.CERT_REQUIRED if tls.clients == "required" else ssl.CERT_OPTIONAL
        context.sslobject_class = OfClient
        return context
    except (OSError, ssl.SSLError) as fault:
        raise Wrong(f"the certificates cannot be used: {fault}") from None


def to_peer(tls: Tls, number: int, roles: Callable[[], Roles]) -> ssl.SSLContext:
    """The context of a site for one of its peers, whose certificate must be that of the site with this number, as long
    as it is read."""
    class OfPeer(ssl.SSLObject):
        def do_handshake(self) -> None:
            super().do_handshake()
            certificate = shown(self) or {}
            if not roles().is_peer(number, certificate):
                raise ssl.CertificateError(
                    f"the certificate of {', '.join(names_in(certificate)) or 'nobody'} is not that of site {number}")
            self.until = until_of(certificate)

        def read(self, *words: Any) -> Any:
            if time.time() > self.until:
                raise ssl.CertificateError(f"the certificate of site {number} has expired")
            return super().read(*words)
    try:
        expect_files(tls)
        context = prepared(tls, ssl.create_default_context(cafile=tls.authority))
        context.sslobject_class = OfPeer
        return context
    except (OSError, ssl.SSLError) as fault:
        raise Wrong(f"the certificates cannot be used: {fault}") from None
