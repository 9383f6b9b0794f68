"""senders.py: in whose names a client sends and asks. The file of roles says for which banks it stands, and the core
decides by these what may be sent, and what is shown.

Nothing here looks at what a line says: the core reads it by itself. A line may have a key twice, escapes, or a BIC of 8
characters.
"""
from __future__ import annotations
import re
from typing import Collection

# blanks; and a text with its quotes, also one that is never closed, or blanks
BLANKS, TEXT_OR_BLANKS = re.compile(rb"[ \t\r]++"), re.compile(rb'"(?:[^"\\]|\\.)*+"?|[ \t\r]++', re.DOTALL)
ALONE = b"{}[],:"  # of JSON: what ends a word without a blank
# a message has this key; in a text with a backslash it may be written in another way
KEY, ESCAPE = b"MsgNmId", b"\\"
SENDER, ORIGINATOR, BENEFICIARY = "sender", "originator", "beneficiary"  # why the core withholds a line


def why_withheld(said: str, banks: Collection[str]) -> str:
    """A sentence on why the core withholds a line that is sent in the name of banks, by what it says."""
    word, _, place = said.partition(" ")
    names = " or ".join(sorted(banks))
    sentences = {SENDER: f"InstgAgt is not {names}", ORIGINATOR: f"DbtrAgt of transaction {place} is not {names}",
                 BENEFICIARY: f"{names} is not the beneficiary bank of the transfer"}
    return sentences.get(word, said)


def may_be_message(line: bytes) -> bool:
    """Whether a line may be a message, whatever reads it: one without this key is none."""
    return KEY in line or ESCAPE in line


def are_beside(line: bytes, start: int, end: int) -> bool:
    """Whether blanks of a line are at one of its ends, or beside a sign that stands alone."""
    return line[max(0, start - 1):start] in ALONE or line[end:end + 1] in ALONE


def without_blanks(line: bytes) -> bytes:
    """A line of JSON without blanks that say nothing: those outside texts, at its ends and beside signs. It says what
    it said, and what was no JSON is none."""
    if not any(are_beside(line, *match.span()) for match in BLANKS.finditer(line)):
        return line
    return TEXT_OR_BLANKS.sub(
        lambda match: b"" if match[0][:1] != b'"' and are_beside(line, *match.span()) else match[0], line)
