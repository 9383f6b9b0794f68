"""keys.py: the keys of a line: the identity of its message and the transfers that the message names, each as a number.

The numbers are the first eight bytes of a BLAKE2b hash, so that all workers find the same ones. Two keys may have one
number. Then more messages come into one part than have to, which changes no answer.

A JSON reader that exists reads the line: orjson if it is there, else the one of Python. Each line that `sct_sites`
takes has keys here. A line without keys is not a message, and `sct_sites` refuses it: answers.py checks that.
"""
from __future__ import annotations
import hashlib
import json

try:
    from orjson import loads
except ImportError:
    def loads(line: bytes) -> dict[str, str] | list[str]:
        return json.loads(line.decode())

# what stands for the transfer of a blank line and of a line that is not a message
BLANK, NO_KEYS, FIRST_KEY = 0, 1, 2
NOT_A_MESSAGE = (ValueError, TypeError, KeyError, AttributeError, RecursionError)


def bank(bic: str) -> str:
    """A BIC as the program keeps it: of 11 characters."""
    return bic + "XXX" if len(bic) == 8 else bic


def number(words: tuple[str, ...]) -> int:
    """The number of a key."""
    digest = hashlib.blake2b("|".join(words).encode(), digest_size=8).digest()
    return max(int.from_bytes(digest, "little"), FIRST_KEY)


def words_of(line: bytes) -> tuple[tuple[str, str, str], list[tuple[str, str]]]:
    """The words of the identity of a line's message, and of each transfer that it names."""
    message = loads(line)
    kind = message["MsgNmId"][:8]
    key = "TxId" if kind == "pacs.008" else "OrgnlTxId"
    listed = message["TxInf"] if kind == "camt.056" and "TxInf" in message else [message]
    identity = bank(message["InstgAgt"]), kind, message["MsgId"]
    return identity, [(bank(one["DbtrAgt"]), one[key]) for one in listed]


def keys_of(line: bytes) -> tuple[int | None, list[int]]:
    """The number of the identity of a line's message, and those of the transfers that it names. A line that is not a
    message has no identity and names no transfer."""
    try:
        identity, transfers = words_of(line)
        return number(identity), [number(words) for words in transfers]
    except NOT_A_MESSAGE:
        return None, []


def is_blank(line: bytes) -> bool:
    """Whether a line is spaces, tabs and carriage returns alone."""
    return not line.strip(b" \t\r\n")
