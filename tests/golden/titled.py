"""titled.py: files of examples whose parts have a title each."""
from __future__ import annotations
import re
from typing import Any


def titled(text: Any, mark: Any) -> Any:
    """The parts of a text after its lines that begin with a mark, each with the rest of that line."""
    parts = re.split(rf"^{mark} (.*)\n", text, flags=re.MULTILINE)
    return zip(parts[1::2], parts[2::2])


def before_answers(text: Any) -> Any:
    """The part of a text before its first answer."""
    return re.split(r"^--", text, maxsplit=1, flags=re.MULTILINE)[0]
