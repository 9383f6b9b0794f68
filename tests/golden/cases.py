"""cases.py: the program answers each case of tests/data/cases/ as its file says, each input of made_inputs.py, and
blank inputs with nothing.

A file has one case after another: a line `== TITLE`, the lines of the input, after each line `-- COMMAND` what that
command must write to standard output, and after `-- refused` what each of them must write to standard error. For the
command `report BANK DAY` the list of the bank follows a line `-- list`.

Each case is run as it is, and without the line feed at its end. It is also run with one more member in each object at
the beginning of a line, which is not a text and changes nothing: the program reads such an object in another way. If no
line is refused, a case is also run with its lines in the opposite order, and with each line twice. The answer must be
the same. The events of a script keep their order. On the stand-in of the program, which is slow, each case of a file is
run as it is alone.
"""
import itertools
import pathlib
import re
import tempfile
from tests import harness
from tests.golden.made_inputs import made_inputs
from tests.golden.titled import before_answers, titled
from tests.harness import DATA, Case, case

# inputs that have no message and no refused line
BLANK = [b"", b"\n", b"\r\n \t\r\n\r", b"\n \t\r\n\r"]
READ_ANOTHER_WAY = (re.compile(r'^\{"', re.MULTILINE), '{"MsgNmId":null,"')  # of two equal keys the last counts


def alike(data, keeps_order):
    """The inputs that must be answered as this one is."""
    lines = re.findall(r".*\n", data)
    pattern, changed = READ_ANOTHER_WAY
    same = [data, data[:-1], pattern.sub(changed, data)]
    return same if keeps_order else same + ["".join(reversed(lines)), "".join(line + line for line in lines)]


def status_of(refused):
    """The status that a run ends with by what it writes to standard error."""
    return 2 if refused.startswith("fault") else 1 if refused else 0


def cases(folder, ways):
    """Of each case and each of its commands so many inputs that must be answered alike. Lists of banks are put into the
    folder."""
    for path in sorted((DATA / "cases").glob("*.txt")):
        for place, (title, rest) in enumerate(titled(path.read_bytes().decode(), "==")):
            texts = dict(titled(rest[:-1] if rest.endswith("\n\n") else rest, "--"))
            refused, words = texts.pop("refused", ""), []
            if "list" in texts:
                words = [str(pathlib.Path(folder, f"{path.stem}{place}"))]
                pathlib.Path(words[0]).write_bytes(texts.pop("list").encode())
            for command, text in texts.items():
                name = f"{path.stem}, {title}, {command}"
                yield [Case(name, command.split() + words, data.encode(), text.encode(),
                            refused.encode(), status_of(refused))
                       for data in alike(before_answers(rest), refused or command == "replay")[:ways]]


def made_cases():
    """The inputs that no file shows, those of one name together."""
    for _, some in itertools.groupby(made_inputs(), lambda made: made.name):
        yield [Case(made.name, [made.command], made.data, made.text, made.refused, status_of(made.refused.decode()))
               for made in some]


def blank_inputs():
    """Inputs without a line, and with blank ones alone."""
    yield [case("blank inputs", ["status"], data, b"", b"") for data in BLANK]


def main():
    program = harness.program()
    ways = 1 if program == str(harness.STAND_IN) else None
    with tempfile.TemporaryDirectory() as folder:
        harness.end_of([harness.all_fit(program, ones)
                        for ones in [*cases(folder, ways), *made_cases(), *blank_inputs()]])


if __name__ == "__main__":
    main()
