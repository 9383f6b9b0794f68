"""too_long.py: the program refuses inputs of one byte more than 1 GiB, and folders in place of files.

An input that is too long is `fault 60`: in a file of `run`, in the list of `report`, on standard input, in a journal
and in a delta. A folder in place of a file of `run` or of a list is `fault 62`. In `run` it is the second of two files,
so each file must be read by its own path. A day of `keep` that is not valid is `fault 64` before any input is read,
with a line that names the day. A fault is all that is written, and ends the program with 2. The long file is sparse and
takes no room on the disk. The program takes up to 2 GiB of memory.
"""
import os
import pathlib
import tempfile
from tests import harness
from tests.inputs import files_of, instruction

MOST = 1 << 30
TOO_LONG = (b"", b"fault 60\n", 2)
UNREAD = (b"", b"fault 62\n", 2)
NO_DAY = (b"", b"fault 64\nerror: invalid value '2024-5-02' for '<DAY>': expected a day, written as 2024-05-02\n", 2)
REPORT = ["report", "BANKDEFF", "2024-05-02"]


def zeros(folder, length):
    """The path of a new file with so many zeros."""
    path = pathlib.Path(folder, "zeros")
    path.touch()
    os.truncate(path, length)
    return str(path)


def cases(folder):
    """What is run, with a name, the path that standard input comes from, and what must be answered."""
    longer = zeros(folder, MOST + 1)
    [short] = files_of(folder, "short", [instruction(1).encode()])
    yield "run of a short file and one that is too long", ["run", short, longer], os.devnull, TOO_LONG
    yield "report on a list that is too long", [*REPORT, longer], os.devnull, TOO_LONG
    yield "status of an input that is too long", ["status"], longer, TOO_LONG
    yield "keep of an input that is too long", ["keep", "2024-05-02"], longer, TOO_LONG
    yield "keep of a day that is none, and of an input that is too long", ["keep", "2024-5-02"], longer, NO_DAY
    yield "a journal that is too long", ["vector", "1", "2", longer], os.devnull, TOO_LONG
    yield "a delta that is too long, after a wrong one", ["cut", "1", "2", "-", short, short,
                                                          longer], os.devnull, TOO_LONG
    yield "run of a short file and a folder", ["run", short, folder], os.devnull, UNREAD
    yield "report on a folder", [*REPORT, folder], os.devnull, UNREAD


def fits(program, name, words, path, wanted):
    """Whether the program answers as it must, which is printed too."""
    with open(path, "rb") as file:
        return harness.reported(name, harness.run([program, *words], stdin=file) == wanted)


def main():
    program = harness.program()
    with tempfile.TemporaryDirectory() as folder:
        harness.end_of([fits(program, *one) for one in cases(folder)])


if __name__ == "__main__":
    main()
