"""long_inputs.py: the program answers inputs that it reads in several threads as the definitions say, on any number of
processors.

The long input has made-up messages, recalls of several transfers, blank lines and refused ones. Its lines in turn are
also the sixteen files of a `run`, which must answer the same status text, and report the refused lines of each file.
tests/oracle/ has the right answers. On a machine with fewer processors all of them are used.
"""
import tempfile
from tests import harness
from tests.harness import PROCESSORS, case
from tests.inputs import commands_on, lines_in_turn, long_input

LONG = 2000  # messages: about a megabyte, which is read in several parts
FILES = 16
BLOCK = 1 << 24  # bytes that the program reads at a time


def long_cases():
    """The long input with each command."""
    data = long_input(LONG)
    for words, (text, refused, _) in commands_on(data):
        yield case(f"{LONG} messages {words[0]}", words, data, text.encode(), refused.encode())


def blocks():
    """An input of some blocks, and an input with the same lines but for their spaces."""
    lines = long_input(LONG // 10).splitlines(keepends=True)
    message = next(line for line in lines if line.startswith(b"{"))
    half = len(lines) // 2
    first = b" " * (BLOCK - 100) + b"\n"  # the next line begins in the first block and ends in the second
    long = b"{" + b" " * (BLOCK + 1) + message[1:]
    refused = b"nothing"
    padded = [first, message, *lines[:half], long, first, *lines[half:], refused]
    plain = [b"\n", message, *lines[:half], message, b"\n", *lines[half:], refused]
    return b"".join(padded), b"".join(plain)


def block_cases():
    """The input of some blocks with each command."""
    padded, plain = blocks()
    for words, (text, refused, _) in commands_on(plain):
        yield case(f"some blocks {words[0]}", words, padded, text.encode(), refused.encode())


def main():
    program = harness.program()
    with tempfile.TemporaryDirectory() as folder:
        long = [*long_cases(), *block_cases(), lines_in_turn(folder, long_input(LONG), FILES)]
        harness.end_of([harness.fits(program, one, processors) for processors in PROCESSORS for one in long])


if __name__ == "__main__":
    main()
