"""questions.py: questions to the process of a site, as the bytes of a request. A request is one line: nothing that ends
a line gets into it.

A bank asks for the banks of its client: the process answers as a hub does that holds what these may see, and nothing
else.
"""
from __future__ import annotations
from typing import Collection
from .faults import Refused
from .work import listed

BAD_ARGUMENT, PLACE = 73, b"73 %d"


def words_of(name: bytes, bank: bytes, more: bytes | None = None, banks: Collection[str] | None = None) -> bytes:
    """A question on a bank, for some banks or for who sees all. What would be no word, or no line, is refused as the
    site refuses it."""
    if not bank or any(byte <= 0x20 for byte in bank):
        raise Refused(PLACE % 1)
    if more is not None and (not more or b"\n" in more or name == b"report" and b" " in more):
        raise Refused(PLACE % 2)
    return b" ".join([b"?", *([] if banks is None else [b"of", listed(banks)]), name, bank,
                      *([] if more is None else [more])])


def on_transfer(originator: str, tx: str, banks: Collection[str] | None = None) -> bytes:
    """The question for the messages on a transfer."""
    return words_of(b"messages", originator.encode(), tx.encode(), banks)


def without_banks(refused: Refused) -> Refused:
    """A refusal of a question for banks, with the places that its words have without these."""
    return Refused(PLACE % (refused.place() - 1)) if refused.number == BAD_ARGUMENT else refused
