"""shown.py: the commands that a page shows, and what they print when a shell runs them.

A block of a page is indented. A line `$ COMMAND` of it is a command, and lines `> MORE` directly below are its further
lines. The lines below these, up to the next command or the end of the block, are what it prints on both outputs. A line
`..` stands for any number of lines. `sct_sites` is the program.
"""
from __future__ import annotations
import os
import pathlib
import re
import shutil
import subprocess
from typing import Iterator
from tests.harness import DESK, EXAMPLES, TOP

LEFT_OUT = ".."


def blocks(text: str) -> Iterator[tuple[int, list[str]]]:
    """The blocks from their first command on, each as the number of its first line and its lines without their
    indent."""
    for match in re.finditer(r"^( +)\$ .*\n(?:\1.*\n)*", text, re.MULTILINE):
        first = text.count("\n", 0, match.start()) + 1
        yield first, [line[len(match.group(1)):] for line in match.group().splitlines()]


def shown(text: str) -> Iterator[tuple[int, str, list[str]]]:
    """Each command of a page, with the number of its line and the lines that it prints."""
    for first, lines in blocks(text):
        at = first
        command: list[str] = []
        printed: list[str] = []
        for number, line in enumerate(lines, first):
            if line.startswith("$ "):
                if command:
                    yield at, "\n".join(command), printed
                at, command, printed = number, [line[2:]], []
            elif line.startswith("> ") and not printed:
                command.append(line[2:])
            else:
                printed.append(line)
        yield at, "\n".join(command), printed


def is_printed(lines: list[str], text: str) -> bool:
    """Whether a text is what these lines show."""
    pattern = "".join("(?:.*\n)*" if line == LEFT_OUT else re.escape(line) + "\n" for line in lines)
    return re.fullmatch(pattern, text) is not None


def copied(folder: str) -> pathlib.Path:
    """A copy of examples/ in a folder. Beside it are the desk's tools, and the pages that these read."""
    pathlib.Path(folder, "docs").symlink_to(TOP / "docs")
    copy = pathlib.Path(shutil.copytree(EXAMPLES, pathlib.Path(folder, "examples")))
    shutil.copytree(DESK, tools_of(copy), ignore=shutil.ignore_patterns("__pycache__"))
    return copy


def tools_of(copy: pathlib.Path) -> pathlib.Path:
    """The folder of the desk's tools beside a copy of examples/."""
    return copy.parent / "tools" / "desk"


def place(folder: str, program: str) -> pathlib.Path:
    """The place in a folder where a shell finds the program as `sct_sites`."""
    path = pathlib.Path(folder, "bin")
    path.mkdir()
    (path / "sct_sites").symlink_to(program)
    return path


def shell(command: str, where: pathlib.Path, commands: pathlib.Path, **variables: str) -> tuple[str, int]:
    """What a command prints on both outputs in a folder, and the status that it ends with. The place of the program is
    known."""
    path = os.pathsep.join([str(commands), os.environ.get("PATH", os.defpath)])
    environment = {**os.environ, "PATH": path, "LC_ALL": "C", "PYTHONIOENCODING": "utf-8"}
    environment.pop("SCT_SITES", None)
    done = subprocess.run(["sh", "-c", command], cwd=where, env={**environment, **variables}, stdin=subprocess.DEVNULL,
                          stdout=subprocess.PIPE, stderr=subprocess.STDOUT)
    return done.stdout.decode(errors="replace"), done.returncode
