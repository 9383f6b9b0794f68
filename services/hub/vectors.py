"""vectors.py: vectors as texts, and the heads of deltas."""
from __future__ import annotations
from . import limits
from .faults import BadText

MOST_SITES, MOST_COUNT = 1024, (1 << 64) - 1
FORM, NO_ENTRIES = b"delta 2", b"delta 2\nend 0\n"


def number(text: bytes | str, most: int) -> int:
    """A number as vectors and deltas have it."""
    is_number = 0 < len(text) <= limits.NUMBER_MOST_DIGITS and text.isascii() and text.isdigit()
    if not is_number or text[:1] in ("0", b"0") and len(text) > 1:
        raise BadText(f"{text[:40]!r} is not a number")
    if int(text) > most:
        raise BadText(f"{int(text)} is more than {most}")
    return int(text)


def vector_of(text: str, group: int = MOST_SITES) -> dict[int, int]:
    """The counts of a vector text, by origin."""
    counts: dict[int, int] = {}
    for pair in text.split(",") if text != "-" else []:
        name, colon, count = pair.partition(":")
        origin = number(name, group)
        if not colon or origin <= max(counts, default=0):
            raise BadText("it is not a vector")
        counts[origin] = number(count, MOST_COUNT)
    return counts


def listed(text: str, group: int) -> list[int]:
    """The counts of a vector text of a group, as a list."""
    counts = [0] * group
    for origin, count in vector_of(text, group).items():
        counts[origin - 1] = count
    return counts


def vector_text(counts: list[int]) -> str:
    return ",".join(f"{origin}:{count}" for origin, count in enumerate(counts, 1) if count) or "-"


def run_in(line: bytes) -> tuple[int, int, int]:
    """The origin, the first number and the count of the run that a line of a delta begins."""
    word, *fields = line.split(b" ")
    if word != b"origin" or len(fields) != 3 or b"0" in fields:
        raise BadText(f"{line[:60]!r} begins no entries")
    return number(fields[0], MOST_SITES), number(fields[1], MOST_COUNT), number(fields[2], MOST_COUNT)


def head_in(delta: bytes) -> tuple[int, int, int]:
    """The origin, the first number and the count of a request with entries of one site."""
    return run_in(delta[:limits.DELTA_HEAD_BYTES].partition(b"\t")[2].partition(b"\t")[0])


def origin_in(delta: bytes) -> int:
    """The origin of a request with entries of one site."""
    return head_in(delta)[0]


def request_of(text: bytes, origin: int) -> bytes | None:
    """The request that the text of entries of one site is, or None if it has none. BadText if it begins or ends as no
    such text.

    Its first entries are those that its second line begins. If its last line counts as many, it has no others: the
    process refuses a text whose last line does not count all of its entries.
    """
    if text == NO_ENTRIES:
        return None
    form, _, rest = text[:limits.DELTA_HEAD_BYTES].partition(b"\n")
    its, _, count = run_in(rest.partition(b"\n")[0])
    if form != FORM or not text.endswith(b"\nend %d\n" % count):
        raise BadText("it is not a delta with entries of one site")
    if its != origin:
        raise BadText(f"it has entries of site {its}, and was asked for those of site {origin}")
    return text[:-1].replace(b"\n", b"\t")
