"""shares.py: what all who ask share: rooms of bytes, slots that they take in turn, and what each may spend."""
from __future__ import annotations
import dataclasses
from . import limits
from .costs import Accounts, Clients, Days, Room, Turns


@dataclasses.dataclass
class Shares:
    """What clients share (costs.py)."""
    bodies: Room
    lists: Room
    answers: Room
    sent_deltas: Room
    deltas: Turns
    reports: Turns
    asked: Turns
    finds: Turns
    totals: Turns
    shown: Turns
    rates: Accounts  # of lines that are posted
    reads: Accounts  # of lines that are read
    days: Days


def shares_of(clients: Clients) -> Shares:
    """What so many clients share."""
    def room(most: int) -> Room:
        return Room(most, clients)

    def turns(most: int, each: int = 1) -> Turns:
        return Turns(most, clients, each)

    return Shares(bodies=room(limits.BODIES_MOST_BYTES), lists=room(limits.LISTS_MOST_BYTES),
                  answers=room(limits.SENT_MOST_BYTES), sent_deltas=room(limits.SENT_MOST_BYTES),
                  deltas=turns(limits.DELTAS_MOST), reports=turns(limits.REPORTS_MOST),
                  asked=turns(limits.ASKED_MOST, limits.ASKED_MOST_OF_ONE), finds=turns(limits.FINDS_MOST),
                  totals=turns(limits.TOTALS_MOST), shown=turns(limits.TOTALS_MOST),
                  rates=Accounts(limits.LINES_A_SECOND, limits.LINES_MOST_AT_ONCE),
                  reads=Accounts(limits.LINES_A_SECOND, limits.LINES_MOST_AT_ONCE), days=Days())
