"""errors.py: words beside the numbers of the program, such as why a line is refused.

codes.json has the numbers: the name and the sentence of the library, or of codes.md if the library has none, and what
to do. faults.py has what an answer says that has no such number.
"""
from __future__ import annotations
import json
import pathlib
import re

CODES = {int(number): row
         for number, row in json.loads(pathlib.Path(__file__).with_name("codes.json").read_bytes()).items()}
# what the program prints of a refusal: a number, after the place of a transaction if it has one, and what follows it
REFUSAL = re.compile(r"(?:(?P<at>56) \d+ )?(?P<number>\d{1,3})(?: (?P<rest>.*))?", re.DOTALL)
ELEMENT, RULE, EXTRA = 36, 38, 37
OF_KEYS = {34, 35, ELEMENT, EXTRA}  # numbers that a key follows


def parts_of(text: str) -> tuple[list[int], str | None]:
    """The numbers in what the program prints of a refusal, and the key that it names or None."""
    match = REFUSAL.fullmatch(text)
    if not match:
        return [], None
    number, rest = int(match["number"]), match["rest"] or ""
    key, _, last = rest.rpartition(" ") if number == ELEMENT else ("", "", rest)
    inner = [int(last)] if number in (ELEMENT, RULE) and last.isdecimal() else []
    named = key if number == ELEMENT else rest if number in OF_KEYS else ""
    return [*([int(match["at"])] if match["at"] else []), number,
            *inner], plain(named) if number == EXTRA else named or None


def plain(text: str) -> str:
    """A key that the program prints as JSON, without its quotes."""
    try:
        return json.loads(text)
    except ValueError:
        return text


def said_of(text: str) -> str:
    """What the program prints of a refusal, with the name and the sentence of each number in it."""
    rows = [CODES[number] for number in parts_of(text)[0] if number in CODES]
    return f"{text} ({'; '.join('{name}: {why}'.format(**row) for row in rows)})" if rows else text


def refusal(text: str) -> dict[str, str]:
    """The fields that say why a line is refused, by what the program prints of it."""
    numbers, key = parts_of(text)
    name = CODES.get(numbers[0], {}).get("name") if numbers else None
    return {**({"name": name} if name else {}), **({"key": key} if key is not None else {}), "why": said_of(text)}
