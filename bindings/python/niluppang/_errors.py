"""The errors of a site. Each has the number, the place and the reason that the library reports, and the library's name
of the number. An error may name a transfer."""
from typing import Dict, NamedTuple, Optional, Tuple, Type

# the name and the meaning of each number, which the library has; they are read when it is opened
WORDS: Dict[int, Tuple[str, str]] = {}
UNKNOWN = ("Unknown", "a number of a later version")


class Transfer(NamedTuple):
    """The name of a transfer: its originator bank (a BIC of 11 characters) and its identification."""
    bank: str
    tx: str


class NiluppangError(Exception):
    """A call was refused, and changed nothing.

    `number` and `name` say why, and `meaning` says it in some words (docs/users/codes.md has a remedy). `place` is the
    line, the record, the transaction or the argument that is wrong, from 1, or 0 if the number has no place. `reason`
    is what the program prints, such as `36 InstgAgt 1`. It is empty if there is no site to ask: it was not opened, or
    is closed. It is also empty if the call was not made.
    """

    def __init__(self, number: int, place: int = 0, reason: str = "") -> None:
        super().__init__(number, place, reason)
        self.number = number
        self.place = place
        self.reason = reason
        self.name, self.meaning = WORDS.get(number, UNKNOWN)

    def __str__(self) -> str:
        more = self.reason if self.reason != str(self.number) else ""
        if self.place and not more:
            more = f"place {self.place}"
        return f"{self.number} {self.name}: {self.meaning}" + (f" ({more})" if more else "")


class Refused(NiluppangError, ValueError):
    """What came in is wrong: a message, a delta, a list, a vector or another argument. Numbers 31 to 38, 41 to 46, 48,
    56, 72, 73, 79 and 81 to 84."""


class MessageRefused(Refused):
    """The object that `take` or `take_as` was given is not a message. Who sent it corrects it. Numbers 31 to 38, 46 and
    56."""


class DeltaRefused(Refused):
    """The delta that `accept` was given is not accepted. Numbers 41 to 45."""


class NotYours(Refused):
    """The bank of a question is none of the banks that ask. Number 79."""


class Withheld(Refused):
    """The message that `take_as` was given may not be sent in the name of the banks. Numbers 81 to 83, and 84 of
    `Waits`."""


class Waits(Withheld):
    """No instruction on the transfer of the message is held yet. The message can be sent again when there is one.
    Number 84."""

    @property
    def transfer(self) -> Optional[Transfer]:
        """The transfer whose instruction is waited for. None if there was no memory for the reason."""
        words = self.reason.split(" ", 2)
        return Transfer(*words[1:]) if len(words) == 3 else None


class OutOfMemory(NiluppangError, MemoryError):
    """The library was refused memory, and the call can be made again. Number 65."""


class Closed(NiluppangError):
    """The site is closed. Number 70."""


class LibraryError(OSError):
    """The shared library is not found, or it is of another version than this package."""


MEMORY, EMPTY = 65, 70
OF_DELTAS = range(41, 46)  # 44 is a number of other calls too
OF_NUMBERS: Dict[int, Type[NiluppangError]] = {
    MEMORY: OutOfMemory, EMPTY: Closed, **dict.fromkeys((*range(31, 39), 46, 56), MessageRefused),
    **dict.fromkeys((*OF_DELTAS, 48, 72, 73), Refused), 79: NotYours, **dict.fromkeys(range(81, 84), Withheld),
    84: Waits}


def error_of(call: str, number: int, place: int, reason: str) -> NiluppangError:
    """The error by which a call is refused."""
    if call == "accept" and number in OF_DELTAS:
        return DeltaRefused(number, place, reason)
    return OF_NUMBERS.get(number, NiluppangError)(number, place, reason)
