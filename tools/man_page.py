"""man_page.py: makes the manual page sct_sites(1) of docs/users/codes.md, whose sections and tables it takes over in
their order.

A heading of two marks begins a section, one of three a part of it. A row of a table is an entry: its first cell or
cells are what is printed, and the others follow with the names of their columns. Links are their words.

Usage, at the top of the repository: python3 -m tools.man_page > sct_sites.1

tools/package.py puts it into the release.
"""
from __future__ import annotations
import re
import sys
from typing import Iterator
from tools.desk.page_tables import cells
from tools.kept import TOP

PAGE = TOP / "docs" / "users" / "codes.md"
# the columns that name an entry; the others are what it says
NAMES = ["Number", "Name"]
# signs that troff would read as something else, the first of them before the others
SIGNS = {"\\": "\\e", "-": "\\-", "'": "\\(aq", "`": "\\(ga", "~": "\\(ti", "^": "\\(ha"}
HEAD = """.\\" Made by tools/man_page.py of docs/users/codes.md.
.TH SCT_SITES 1 "" "Niluppang" "User commands"
.SH NAME
sct_sites, niluppang \\- answers on the SEPA Instant messages of a clearing hub
.SH SYNOPSIS
.nf
\\fBsct_sites status\\fR < \\fIMESSAGES\\fR
\\fBsct_sites archive\\fR < \\fIMESSAGES\\fR
\\fBsct_sites keep\\fR \\fIDAY\\fR < \\fIMESSAGES\\fR
\\fBsct_sites closed\\fR \\fIDAY\\fR < \\fIMESSAGES\\fR
\\fBsct_sites totals\\fR < \\fIMESSAGES\\fR
\\fBsct_sites report\\fR \\fIBANK DAY LIST\\fR < \\fIMESSAGES\\fR
\\fBsct_sites replay\\fR < \\fISCRIPT\\fR
\\fBsct_sites run\\fR \\fIFILE\\fR ...
\\fBsct_sites site\\fR \\fISITE SITES JOURNAL\\fR [\\fIDELTA\\fR ...]
\\fBsct_sites vector\\fR \\fISITE SITES JOURNAL\\fR [\\fIDELTA\\fR ...]
\\fBsct_sites digests\\fR \\fISITE SITES JOURNAL\\fR [\\fIDELTA\\fR ...]
\\fBsct_sites cut\\fR \\fISITE SITES HAVE JOURNAL\\fR [\\fIDELTA\\fR ...]
\\fBsct_sites serve\\fR \\fISITE SITES JOURNAL\\fR < \\fIREQUESTS\\fR
.fi
.SH DESCRIPTION
.B sct_sites
reads messages about SEPA Instant Credit Transfers, one JSON object a line, and answers on all of them together:
the status of each transfer and of each recall, what contradicts itself, the totals of each bank,
how the list of a bank differs from the messages,
and which messages are no longer needed after a day.
Sites on several machines give each other files, and then answer alike.
Only
.B serve
keeps something between two runs: the journal of a site that lasts.
The command has the name
.B niluppang
too.
.SH WHAT YOU SEE
"""
FOOT = """.SH SEE ALSO
README.md, and the pages formats.md, model.md, desk.md, exchange.md and participants.md in docs/users of the source.
"""


def plain(text: str) -> str:
    """A text as troff reads it: no sign in it is a request, an escape or another sign."""
    for sign, name in SIGNS.items():
        text = text.replace(sign, name)
    return text


def words(text: str) -> str:
    """A line of Markdown as troff: codes and strong words are bold, links are their words."""
    made, is_strong = "", False
    for place, part in enumerate(re.split(r"`([^`]*)`", re.sub(r"\[([^\]]*)\]\([^)]*\)", r"\1", text))):
        if place % 2:
            made += "\\fB" + plain(part) + ("\\fB" if is_strong else "\\fR")
            continue
        for number, piece in enumerate(part.split("**")):
            is_strong ^= number > 0
            made += ("\\fB" if is_strong else "\\fR") * (number > 0) + plain(piece)
    return "\\&" + made if made.startswith(".") else made


def entry(names: list[str], row: list[str]) -> list[str]:
    """A row of a table."""
    named = dict(zip(names, row))
    firsts = [name for name in names if name in NAMES] or names[:1]
    lines = [".TP", " ".join(words(named[name]) for name in firsts)]
    for name in names:
        if name not in firsts and named[name] not in ("", "–"):
            lines += [".br"] if len(lines) > 2 else []
            lines.append(f"{plain(name)}: {words(named[name])}")
    return lines


def block(lines: list[str]) -> list[str]:
    """Commands, and what they print."""
    return [".PP", ".nf", ".RS 4", *("\\&" + plain(line) for line in lines), ".RE", ".fi"]


def paragraph(lines: list[str]) -> list[str]:
    text = " ".join(line.strip() for line in lines)
    return [".IP \\(bu 2", words(text[2:])] if text.startswith("- ") else [".PP", words(text)]


def kind_of(line: str) -> str | None:
    marks = {"#": "heading", "|": "table", "    ": "block"}
    return next((kind for mark, kind in marks.items() if line.startswith(mark)), "paragraph" if line.strip() else None)


def parts(text: str) -> Iterator[tuple[str | None, list[str]]]:
    """The page as its headings, tables, blocks and paragraphs. An item of a list is a paragraph."""
    before: str | None = None
    lines: list[str] = []
    for line in text.split("\n") + [""]:
        kind = kind_of(line)
        if lines and (kind != before or kind == "heading" or line.startswith("- ")):
            yield before, lines
            lines = []
        if kind:
            lines.append(line)
        before = kind


def made() -> str:
    """The manual page. The words under the title of the page of codes are not of it."""
    lines, is_title = [], False
    for kind, part in parts(PAGE.read_text(encoding="utf-8")):
        if kind == "heading":
            marks, _, title = part[0].partition(" ")
            is_title = marks == "#"
            if not is_title:
                lines.append(f".SH {plain(title.upper())}" if marks == "##" else f".SS {plain(title)}")
        elif kind == "table":
            names = cells(part[0])
            lines += [line for row in part[2:] for line in entry(names, cells(row))]
        elif kind == "block":
            indent = min(len(line) - len(line.lstrip()) for line in part)
            lines += block([line[indent:] for line in part])
        elif not is_title:
            lines += paragraph(part)
    return HEAD + "\n".join(lines) + "\n" + FOOT


if __name__ == "__main__":
    sys.stdout.buffer.write(made().encode())
