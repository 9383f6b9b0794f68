"""certificates.py: until when the certificates and the lists of revoked ones in a file are valid, and which ones are
revoked. `ssl` checks both when a connection begins, and says neither.

They are DER: each value is a byte for its kind, a length, and its bytes.
"""
from __future__ import annotations
import base64
import binascii
import calendar
import pathlib
import re
import time
from typing import Iterator
from .files import Wrong

BLOCK = re.compile(rb"-----BEGIN (CERTIFICATE|X509 CRL)-----(.*?)-----END \1-----", re.S)
SEQUENCE, INTEGER, SHORT_TIME, LONG_TIME = 0x30, 0x02, 0x17, 0x18


def values(data: bytes) -> Iterator[tuple[int, bytes]]:
    """The values one after another in some bytes, each with its kind."""
    place = 0
    while place < len(data):
        kind, size, place = data[place], data[place + 1], place + 2
        if size > 127:
            many = size & 127
            size, place = int.from_bytes(data[place:place + many], "big"), place + many
        if place + size > len(data):
            raise ValueError("it is cut off")
        yield kind, data[place:place + size]
        place += size


def seconds_of(kind: int, text: bytes) -> int:
    """A time as seconds of a clock. A year of two digits is one of 1950 to 2049."""
    century = (b"19" if text[:2] >= b"50" else b"20") if kind == SHORT_TIME else b""
    return calendar.timegm(time.strptime((century + text).decode("ascii"), "%Y%m%d%H%M%SZ"))


class Signed:
    """A certificate or a list of revoked ones: its last second, or None if it has none, and the numbers that are
    revoked."""

    def __init__(self, is_list: bool, data: bytes) -> None:
        (_, whole), = values(data)
        signed = list(values(next(values(whole))[1]))
        # the algorithm, who signed, and then the times or what is revoked
        parts = [part for kind, part in signed if kind == SEQUENCE]
        times = signed if is_list else list(values(parts[2]))
        ends = [seconds_of(*one) for one in times if one[0] in (SHORT_TIME, LONG_TIME)][1:]
        self.until = ends[0] if ends else None
        entries = values(parts[2]) if is_list and len(parts) > 2 else ()
        self.revoked = {int.from_bytes(next(values(entry))[1], "big") for _, entry in entries}


def signed_in(path: str) -> list[Signed]:
    """The certificates and lists in a file. Wrong if it has none, or one that cannot be read."""
    try:
        blocks = BLOCK.findall(pathlib.Path(path).read_bytes())
        found = [Signed(kind == b"X509 CRL", base64.b64decode(text)) for kind, text in blocks]
    except (ValueError, IndexError, StopIteration, binascii.Error) as fault:
        raise Wrong(f"{path} has a certificate or a list that cannot be read: {fault}") from None
    if not found:
        raise Wrong(f"{path} has neither a certificate nor a list of revoked ones in PEM")
    return found


def until_of(path: str) -> float:
    """The second after which the first certificate or list of a file is not valid any more."""
    return min(float("inf") if one.until is None else one.until for one in signed_in(path))


def revoked_in(path: str) -> frozenset[int]:
    """The numbers of the certificates that the lists in a file revoke."""
    return frozenset(number for one in signed_in(path) for number in one.revoked)
