"""readme.py: the commands of README.md print what the page shows, at the top of the repository.

The page has two commands of the toolchain and no other. `rt try -- WORDS` builds the program and runs it. Here the
program runs with these words in its place: it must end with status 0 and print what the example has for its input. The
other one is the command of `.ci/run`. The page has 8,000 bytes at most.
"""
import re
import tempfile
from tests import harness
from tests.golden.shown import is_printed, place, shell, shown
from tests.harness import EXAMPLES, TOP

MOST = 8000  # bytes of the page


def prints(command, lines, commands):
    """Whether a command prints what the page shows, which is at least a line."""
    text, _ = shell(command, TOP, commands)
    return bool(lines) and is_printed(lines, text)


def of_toolchain(page):
    """The commands of the page that it does not show with what they print, each in a line of its own."""
    return re.findall(r"^    ((?:[^$>\n].*)?\brt .*)$", page, re.M)


def command_of_gate():
    """The one command of .ci/run."""
    first, command = (TOP / ".ci" / "run").read_text().splitlines()
    return command if first == "#!/usr/bin/env bash" else None


def is_built_as_shown(line, commands):
    """Whether the program that a line builds by `rt try` prints the answer of the example that it is given."""
    found = re.fullmatch(r"(\(cd \S+ && )rt try -- ((\w+)[^<]* < \S*/([\w-]+)\.jsonl\))", line)
    if found is None:
        return False
    before, words, job, example = found.groups()
    return shell(f"{before}sct_sites {words}", TOP, commands) == ((EXAMPLES / f"{example}.{job}").read_text(), 0)


def main():
    program = harness.program()
    page = (TOP / "README.md").read_text()
    with tempfile.TemporaryDirectory() as folder:
        commands = place(folder, program)
        right = [harness.reported(command, prints(command, lines, commands)) for _, command, lines in shown(page)]
        first, *others = of_toolchain(page)
        right.append(harness.reported(first, is_built_as_shown(first, commands)))
    right.append(harness.reported("the gate, and no other command of the toolchain", others == [command_of_gate()],
                                  f"{others}"))
    right.append(harness.reported("8,000 bytes", len(page.encode()) <= MOST))
    harness.end_of(right)


if __name__ == "__main__":
    main()
