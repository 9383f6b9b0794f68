"""faults.py: why something is not done, as an answer says it. Each class has the status of the answer, and where they
are its own the number, the name and the remedy. body_of makes the answer of a fault.

Without a name or a remedy of its own a fault has those of its number (errors.py), or else those of its status.
"""
from __future__ import annotations
from typing import Any
from . import limits
from .errors import CODES, said_of

MEMORY, FORK_NUMBERS, BAD_LIST, NOT_YOURS = 65, {41, 42, 43}, 48, 79  # numbers of the program
# the name of each HTTP status, and what to do
STATUSES = {
    400: ("Wrong", "correct the request; it is not sent again as it is"),
    401: ("Unknown", "show a certificate or a token that the file of roles has"),
    403: ("Forbidden", "ask with another role, or about transfers of your own"),
    404: ("NotFound", "/openapi.json lists the addresses"),
    405: ("WrongMethod", "/openapi.json lists the methods of each address"),
    408: ("TooSlow", "send it again"),
    409: ("Halted", "send it to another site; /health says why this one is halted"),
    413: ("TooLong", "send it in several parts"),
    415: ("Encoded", "send the body without Content-Encoding"),
    429: ("TooMany", "send it again after the seconds of Retry-After"),
    503: ("Busy", "send it again later"),
    507: ("DiskFull", "send it again, to any site; the operator makes room"),
}
OTHER = ("Failed", "send it again; if it fails again, the log of the site has more")


class Fault(Exception):
    """Why something is not done."""
    status = 400
    number: int | None = None
    name: str | None = None
    remedy: str | None = None
    seconds: int | None = None  # after which the same may be sent again

    def said(self) -> str:
        """What an answer says of it. With a number it is what the program prints."""
        return str(self)

    def more(self) -> str:
        """What an answer has after the sentence of its number."""
        return ""


# ---- what is wrong with a request

class BadText(Fault, ValueError):
    """A text is not what it must be, such as a vector or a delta."""


class BadList(BadText):
    """A list whose rows cannot be looked up, and why."""


class WrongList(BadText):
    """A list that the program refuses with a text, and the sentences of list_from_csv.py on what is wrong with it."""
    number = BAD_LIST

    def __init__(self, text: str, faults: list[str]) -> None:
        super().__init__(text)
        self.text, self.faults = text, faults

    def more(self) -> str:
        rest = len(self.faults) - limits.NAMED_MOST_ROWS
        return "; ".join([*self.faults[:limits.NAMED_MOST_ROWS], *([f"and {rest} more"] if rest > 0 else [])])


class Forbidden(Fault):
    """Why a request is not answered, and the status that says so."""

    def __init__(self, why: str, status: int = 403) -> None:
        super().__init__(why)
        self.status = status


class NoMirror(Fault):
    """The site has no mirror."""
    status, remedy = 404, "give the bank and the TxId, or have the operator name a mirror in the configuration"


class OtherStatus(Fault):
    """What the server itself says by a status."""

    def __init__(self, why: str, status: int) -> None:
        super().__init__(why)
        self.status = status


class TooSlow(Fault):
    """A body did not come in time."""
    status = 408

    def said(self) -> str:
        return "it took too long"


class TooLong(Fault):
    """A body is too long, and how."""
    status = 413


class TooMany(Fault):
    """A client asks for too much, and the seconds after which it may go on."""
    status = 429

    def __init__(self, seconds: int, why: str = "too many lines of one client") -> None:
        super().__init__(why)
        self.seconds = seconds


# ---- what the site does not do

class Refused(Fault):
    """The site refuses a question or a delta: by a number, with more of its line."""
    number: int

    def __init__(self, rest: bytes) -> None:
        text = rest.decode(errors="replace")
        super().__init__(text)
        self.number, self.text = int(text.split()[0]), text
        self.status = 503 if self.number == MEMORY else 409 if self.number in FORK_NUMBERS else 400

    def place(self) -> int:
        """The place in what is wrong, which follows some numbers."""
        return int(self.text.split()[1])


class Halted(Fault):
    """The site takes no more messages, and why."""
    status = 409


class Closed(Halted):
    """The group of the site is closed."""
    name, remedy = "Closed", "send it to a site of the group after this one"


class OnlyAnswers(Halted):
    """The site never takes messages."""
    remedy = "send it to another site: this one only answers"


class Busy(Fault):
    """Too much waits for the site."""
    status, seconds = 503, 1

    def said(self) -> str:
        return "too much waits"


class Unable(Fault):
    """The site cannot do it at the moment, and why. `is_full`: its disk fails."""
    seconds = 1

    def __init__(self, why: str, is_full: bool = False) -> None:
        super().__init__(why)
        self.is_full, self.status = is_full, 507 if is_full else 503


# ---- answers

def fault_of(why: Exception) -> Fault:
    """The fault that an exception is: itself, a text that is none, or time that ran out."""
    return why if isinstance(why, Fault) else BadText("it is no text") if isinstance(why, UnicodeError) else TooSlow()


def headers_of(fault: Fault) -> dict[str, str]:
    """The headers that an answer has for a fault."""
    return {} if fault.seconds is None else {"Retry-After": str(fault.seconds)}


def body_of(fault: Fault) -> dict[str, Any]:
    """A fault as the body of an answer."""
    row = None if fault.number is None else CODES.get(fault.number)
    name, remedy = (row["name"], row["remedy"]) if row else STATUSES.get(fault.status, OTHER)
    why, more = said_of(fault.said()) if row else fault.said(), fault.more()
    return {"code": fault.number if row else fault.status, "name": fault.name or name,
            "why": f"{why}: {more}" if more else why, "remedy": fault.remedy or remedy}
