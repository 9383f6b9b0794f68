"""digests.py: the digests of what sites hold, as texts and heads of answers, and who has the record say them.

The digest of the first entries of an origin is a function of those entries alone (docs/users/formats.md). Two sites
with the same digest hold the same entries. If the digests of one count differ, so do those of each greater count. So
the first entry that differs is found by halving.
"""
from __future__ import annotations
import asyncio
import re
from typing import TYPE_CHECKING, Awaitable, Callable, Iterable, NamedTuple
from . import limits
from .faults import BadText
from .vectors import MOST_COUNT, MOST_SITES, number
if TYPE_CHECKING:
    from .keeper import Keeper
    from .record import Record

# of heads: digests, and the first entries that other sites hold differently
SHOWN, FORKS = "Niluppang-Digests", "Niluppang-Forks"
DIGITS = re.compile(r"[0-9a-f]{64}")


class Digest(NamedTuple):
    """The digest of the first entries of an origin, as many as the number."""
    origin: int
    number: int
    digits: str

    def text(self) -> str:
        return f"{self.origin}:{self.number}:{self.digits}"


def digest_in(text: str, group: int = MOST_SITES) -> Digest:
    """The digest that a text is. BadText if it is none."""
    origin, _, rest = text.partition(":")
    count, _, digits = rest.partition(":")
    if not DIGITS.fullmatch(digits) or not number(origin, group):
        raise BadText(f"{text[:100]!r} is not a digest")
    return Digest(int(origin), number(count, MOST_COUNT), digits)


def digests_in(text: str, group: int = MOST_SITES) -> list[Digest]:
    """The digests of a text of lines, or of a head in which commas part them."""
    return [digest_in(part, group) for part in re.split("[,\n]", text) if part]


def head_of(its: Iterable[Digest]) -> str:
    return ",".join(one.text() for one in its)


def text_of(its: Iterable[Digest]) -> str:
    return "".join(f"{one.text()}\n" for one in its)


def vector_in(its: Iterable[Digest]) -> str:
    """The vector of some digests, each of another origin."""
    return ",".join(f"{one.origin}:{one.number}" for one in its) or "-"


async def first_difference(count: int, is_equal: Callable[[int], Awaitable[bool]]) -> int:
    """The first entry that differs of two logs, whose digests of this count differ. Those of no entries are equal."""
    equal, differs = 0, count
    while differs - equal > 1:
        middle = (equal + differs) // 2
        if await is_equal(middle):
            equal = middle
        else:
            differs = middle
    return differs


def forks_in(pairs: Iterable[tuple[Digest, str]]) -> list[tuple[int, int]]:
    """The first entry that differs of each origin, as far as digests that somebody shows say it, each with the digits
    that this site has: they differ for it, and are equal for the entry before it."""
    equal: set[tuple[int, int]] = set()
    differs: list[tuple[int, int]] = []
    for shown, own in pairs:
        if shown.digits == own:
            equal.add(shown[:2])
        else:
            differs.append(shown[:2])
    return [(origin, count) for origin, count in differs if count == 1 or (origin, count - 1) in equal]


class Noting:
    """Has the record say what is held: after entries were accepted, after each thousandth own message, each hour, and
    at the end."""
    timer: asyncio.TimerHandle | None

    def __init__(self, keeper: Keeper, record: Record) -> None:
        self.keeper, self.record, self.timer = keeper, record, None
        self.noted: dict[int, Digest] = {}  # what rows of the record say, by origin
        self.is_more = False  # whether there are rows after the last one with all origins

    def round(self) -> None:
        """After a round of the site."""
        if self.timer is None and any(map(self._is_due, self.keeper.holding.digests.values())):
            self.timer = asyncio.get_running_loop().call_later(limits.DIGEST_NOTE_SECONDS, self.note)

    def _is_due(self, its: Digest) -> bool:
        before = self.noted.get(its.origin)
        if its.origin == self.keeper.number:
            stretch = limits.DIGEST_NOTED_MESSAGES
            return its.number // stretch > (before.number // stretch if before else 0)
        return its != before

    def note(self, is_all: bool = False) -> None:
        """Notes the digests of those origins that have others than were noted, or of all."""
        if self.timer:
            self.timer.cancel()
        self.timer = None
        its = [one for one in self.keeper.holding.digests.values() if one != self.noted.get(one.origin)]
        self.is_more = self.is_more or bool(its)
        if is_all and self.is_more:
            its, self.is_more = list(self.keeper.holding.digests.values()), False
        if its:
            self.record.held(its, is_all)
        self.noted.update((one.origin, one) for one in its)
