"""operator_pages.py: the commands of the operator's pages print what the pages show.

The commands of a page run one after another in one copy of examples/.
"""
import tempfile
from tests import harness
from tests.golden.shown import copied, is_printed, place, shell, shown
from tests.harness import TOP

PAGES = ["codes.md", "desk.md", "exchange.md", "participants.md"]


def page_runs(name, program):
    """Whether each command of a page prints what the page shows."""
    with tempfile.TemporaryDirectory() as folder:
        commands, copy = place(folder, program), copied(folder)
        for number, command, lines in shown((TOP / "docs" / "users" / name).read_text(encoding="utf-8")):
            text, _ = shell(command, copy, commands)
            yield harness.reported(f"{name}, line {number}", is_printed(lines, text), text)


def main():
    program = harness.program_or_stand_in()
    harness.end_of([right for name in PAGES for right in page_runs(name, program)])


if __name__ == "__main__":
    main()
