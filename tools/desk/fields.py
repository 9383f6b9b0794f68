"""fields.py: what the tools of the desk know of fields that somebody types or lists. docs/users/formats.md, section 3,
has the types."""
from __future__ import annotations
import datetime
import re
from typing import Any

BIC = re.compile(r"[A-Z0-9]{4}[A-Z]{2}[A-Z0-9]{2}(?:[A-Z0-9]{3})?")
IDENTIFICATION = re.compile(r"(?!/)(?!.*//)(?!.*/\Z)[A-Za-z0-9/?:().,'+ -]{1,35}")
AMOUNT = re.compile(r"(?=.*[1-9])[0-9]{1,9}(?:\.[0-9]{1,2})?")
A_BIC, A_DAY = "a BIC of 8 or 11 capitals and digits", "a day such as 2025-03-10"  # what a text must be


def bank(text: str) -> str:
    """A BIC of 8 characters and the same with XXX after it are one bank."""
    return text + "XXX" if len(text) == 8 else text


def is_bic(text: str) -> bool:
    return BIC.fullmatch(text) is not None


def is_identification(text: str) -> bool:
    return IDENTIFICATION.fullmatch(text) is not None


def is_amount(text: Any) -> bool:
    return AMOUNT.fullmatch(text) is not None


def is_day(text: str) -> bool:
    """Whether a text is a day of the calendar, such as 2025-03-10."""
    try:
        return datetime.date(*map(int, text.split("-"))).isoformat() == text
    except (ValueError, TypeError, OverflowError):
        return False
