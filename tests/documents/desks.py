"""desks.py: the code of docs/developers/sites.md, and what the files have that the page names.

The line before a block names a file. The lines of the block are lines of that file, one after another. A line `..` is
left out code. Spaces at the beginning of a line do not count.
"""
import re
from tests.documents.pages import Page
from tests.harness import TOP


def stripped(text):
    """A text without the spaces at the beginning of its lines."""
    return "".join(line.strip() + "\n" for line in text.splitlines())


def compared(file, block):
    """Each part of a block, with the same part of the file if it has one."""
    path = TOP / file
    whole = stripped(path.read_text(encoding="utf-8")) if path.is_file() else ""
    for part in re.split(r"^\.\.\n", stripped(block), flags=re.M):
        yield part, part if part in whole else f"{file} does not have it"


def examples(_):
    """Each block by its name, with the pairs of what the page and the file have."""
    page = Page("developers/sites.md")
    for block in page.blocks():
        before = page.text[:page.text.index(block.text)].splitlines()[-3]
        named = re.fullmatch(r"`([^`]*)`:", before)
        yield f"sites.md, line {block.line}", compared(named.group(1) if named else "no file that is named", block.text)
