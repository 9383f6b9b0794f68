"""naming.py: what a line of a bank names, for the bounds of a client and for the list of what waits.

The core alone decides what becomes of a line. If a line were read here in another way, a bound would count another
transfer, and a list would show another kind: nothing would be taken or shown by it.
"""
from __future__ import annotations
import json
from typing import NamedTuple
from .access import bank

INSTRUCTION = "pacs.008"


# the kind of a message, its sender, and the transfers that it is about, each by bank and identification
class Named(NamedTuple):
    kind: str
    sender: str
    transfers: tuple[tuple[str, str], ...]


NOTHING = Named("", "", ())


def named_in(line: bytes) -> Named:
    """What a line names. Nothing if it is no message."""
    try:
        message = json.loads(line)
        kind = message["MsgNmId"][:len(INSTRUCTION)]
        tx = "TxId" if kind == INSTRUCTION else "OrgnlTxId"
        transfers = tuple((bank(part["DbtrAgt"]), str(part[tx])) for part in message.get("TxInf", [message]))
        return Named(kind, bank(message["InstgAgt"]), transfers)
    except (ValueError, KeyError, TypeError, AttributeError, RecursionError):
        return NOTHING
