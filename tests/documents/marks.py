"""marks.py: no file of the repository has a line that git writes where a merge was left in conflict."""
from __future__ import annotations
import os
import re
from typing import Iterator
from tests import harness
from tests.harness import TOP, reported

MARK = re.compile(rb"^(?:[<>|]{7}(?: .*)?|={7})\r?$", re.M)


def files() -> list[str]:
    """The paths of all files that git has, from the top on."""
    answer = harness.run([harness.command("git"), "ls-files", "-z"], cwd=TOP)
    if answer.status != 0:
        harness.stop(f"git does not list the files: {answer.errors.decode(errors='replace').strip()}")
    return [os.fsdecode(path) for path in answer.text.split(b"\0") if path and (TOP / os.fsdecode(path)).is_file()]


def marks(text: bytes) -> Iterator[str]:
    """The marks in a file, each with its line."""
    for found in MARK.finditer(text):
        line = text.count(b"\n", 0, found.start()) + 1
        yield f"line {line}: {found.group().decode(errors='replace').strip()}"


def main() -> None:
    paths = files()
    found = {path: list(marks((TOP / path).read_bytes())) for path in paths}
    right = [reported(f"no mark of a merge in {len(paths)} files", bool(paths) and not any(found.values()))]
    right += [reported(path, False, "\n".join(f"  {line}" for line in lines)) for path, lines in found.items() if lines]
    harness.end_of(right)


if __name__ == "__main__":
    main()
