"""command_lines.py: the program answers each command line of tests/data/command-lines/, and the test driver each of
tests/data/test-driver/.

A file NAME.txt has one command line after another: a line `== TITLE`, a line `$ WORDS`, the lines of standard input,
after `-- out` and `-- err` what must be written to the two outputs, and a line `-- exit STATUS`. The other files there
are those that the words name.
"""
from tests import harness
from tests.golden.titled import before_answers, titled
from tests.harness import DATA, Case


def command_lines(folder):
    """Each command line of a folder, run there."""
    for path in sorted(folder.glob("*.txt")):
        for title, rest in titled(path.read_text(), "=="):
            words, rest = rest[len("$ "):].split("\n", 1)
            texts = dict(titled(rest, "--"))
            [status] = [int(mark[len("exit "):]) for mark in texts if mark.startswith("exit ")]
            yield Case(f"{path.stem}, {title}", words.split(), before_answers(rest).encode(), texts["out"].encode(),
                       texts["err"].encode(), status, folder)


def main():
    program, driver = harness.program(), harness.program("sct_test_driver")
    right = [harness.fits(program, one) for one in command_lines(DATA / "command-lines")]
    right += [harness.fits(driver, one) for one in command_lines(DATA / "test-driver")]
    harness.end_of(right)


if __name__ == "__main__":
    main()
