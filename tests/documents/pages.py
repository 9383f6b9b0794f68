"""pages.py: the examples and tables of a page of docs/, each with the number of its first line, and the answers of the
program."""
from __future__ import annotations
import re
from typing import Any, Iterator, NamedTuple, Sequence
from tests.harness import TOP, run, stop
from tools.desk.page_tables import tables


class Block(NamedTuple):
    line: int
    text: str


def answered(program: Any, words: Any, data: Any) -> Any:
    """What the program writes to both outputs on an input, and the status that it ends with."""
    text, refused, status = run([program, *words], data.encode())
    return text.decode(), refused.decode(), status


def rows(lines: list[str], first: int, columns: Sequence[str]) -> Iterator[Any]:
    """The rows of the tables that have these columns."""
    return (row for found, row in tables(lines, first) if found == list(columns))


def codes(text: str) -> list[str]:
    """The texts between backquotes."""
    return re.findall(r"`([^`]+)`", text)


class Page:
    """A page, which is asked for what its sections have. A section is named by the words of its heading."""

    def __init__(self, name: str) -> None:
        self.name = name
        self.text = (TOP / "docs" / name).read_text(encoding="utf-8")

    def line_at(self, place: Any) -> Any:
        return self.text.count("\n", 0, place) + 1

    def section(self, heading: Any) -> Any:
        """The places at which a section begins and ends: at the next heading of its own level or of a higher one."""
        begin = re.search(rf"^(##+) {re.escape(heading)}\n", self.text, re.M)
        if begin is None:
            stop(f"{self.name} has no section {heading}")
        end = re.compile(rf"^##{{1,{len(begin.group(1)) - 1}}} ", re.M).search(self.text, begin.end())
        return begin.end(), end.start() if end else len(self.text)

    def found(self, pattern: Any, heading: Any = None) -> Any:
        """Each match of a pattern, in a section or on the whole page."""
        return re.compile(pattern, re.M | re.S).finditer(self.text,
                                                         *(self.section(heading) if heading else (0, len(self.text))))

    def blocks(self, heading: Any = None) -> Iterator[Any]:
        """The texts between lines of three backquotes."""
        for match in self.found(r"^```\w*\n(.*?)^```$", heading):
            yield Block(self.line_at(match.start(1)), match.group(1))

    def rows(self, heading: Any, *columns: Any) -> Iterator[Any]:
        """The rows of the tables of a section that have these columns. There is one at least."""
        begin, end = self.section(heading) if heading else (0, len(self.text))
        found = list(rows(self.text[begin:end].splitlines(), self.line_at(begin), columns))
        if not found:
            stop(f"{self.name}, {heading} has no table of {', '.join(columns)}")
        yield from found
