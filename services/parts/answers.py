"""answers.py: the answers of `sct_sites` on one part, and its refused lines with their places in the input.

A line without keys must be refused: else keys.py has not read a message that `sct_sites` takes, and the run ends.
"""
from __future__ import annotations
import array
import subprocess
from typing import Any, BinaryIO
from parts.files import Stop, numbers, whole
from parts.parts import KEYLESS, file_and_line, part_file

TAKEN = (0, 1)  # the exit statuses after which the answer is that of the lines that were taken


def answer_file(work: str, name: str, word: str) -> str:
    return f"{work}/answers/{name}.{word}"


def run_program(program: str, words: list[str], source: str, target: BinaryIO) -> bytes:
    """Runs the program on a file, and writes its answer to another one. What it writes to standard error is the
    result."""
    with open(source, "rb") as lines:
        done = subprocess.run([program, *words], stdin=lines, stdout=target, stderr=subprocess.PIPE)
    if done.returncode not in TAKEN:
        why = done.stderr.decode(errors="replace").strip()
        raise Stop(f"{' '.join(words)} on {source} ended with status {done.returncode}: {why}", max(done.returncode, 2))
    return done.stderr


def refused_lines(errors: bytes) -> dict[int, bytes]:
    """Each refused line that the program reports, by its number."""
    return {int(number): fault for number, fault in (line[len(b"line "):].split(b": ", 1)
                                                     for line in errors.splitlines())}


def write_refused(path: str, errors: bytes, places: array.array[int]) -> int:
    """Writes a line for each refused line of a part: its file, its line and its fault."""
    faults = refused_lines(errors)
    for number, place in enumerate(places, 1):
        if place >= KEYLESS and number not in faults:
            file, line = file_and_line(place)
            raise Stop(f"file {file} line {line} has no keys, and the program takes it")
    with whole(path) as target:
        for number in sorted(faults):
            target.write(b"%d %d %b\n" % (*file_and_line(places[number - 1]), faults[number]))
    return len(faults)


def answer_part(work: str, name: str, program: str, commands: list[Any]) -> int:
    """Writes the answer to each command, a word for its file with the words of the command line, and the refused lines.
    The result is how many lines were refused."""
    refused = None
    for word, words in commands:
        with whole(answer_file(work, name, word)) as target:
            errors = run_program(program, words, part_file(work, name, "lines"), target)
        if refused not in (None, errors):
            raise Stop(f"{program} refuses other lines for {word} than before")
        refused = errors
    return write_refused(answer_file(work, name, "refused"), refused or b"", numbers(part_file(work, name, "places")))
