"""page_tables.py: reads the tables of a page in Markdown, such as those of docs/users/codes.md. explain.py, the manual
page, the page for browsers and the checks of pages use it."""
from __future__ import annotations
import re
from typing import Any, Iterator, NamedTuple


class Row(NamedTuple):  # the number of the line of a row, and its cells
    line: int
    cells: list[str]


def cells(line: str) -> list[str]:
    """The cells of a row of a table. A `|` in a cell has a backslash before it."""
    return [cell.strip().replace("\\|", "|") for cell in re.split(r"(?<!\\)\|", line.strip())[1:-1]]


def plain(cell: str) -> str:
    """A cell without the signs of Markdown: a link is its words."""
    return re.sub(r"\[([^\]]*)\]\([^)]*\)", r"\1", cell).replace("`", "")


def tables(lines: list[str], first: int = 1) -> Iterator[tuple[list[str], Row]]:
    """Each row of the tables of some lines with the names of its columns. The first line has this number."""
    columns = None
    for number, line in enumerate(lines, first):
        if not line.startswith("|"):
            columns = None
        elif columns is None:
            columns = cells(line)
        elif set(line) - set("|-"):
            yield columns, Row(number, cells(line))


def sections(text: Any) -> Any:
    """The lines below each heading of a page, up to the next heading, by the words of the heading."""
    parts = re.split(r"^#+ (.*)\n", text, flags=re.M)
    return {title.strip(): body.splitlines() for title, body in zip(parts[1::2], parts[2::2])}
