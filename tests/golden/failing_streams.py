"""failing_streams.py: the program ends as it must if a stream fails after any number of bytes.

A read that fails is 62, and nothing is written. A write that fails is 63, and what was written is a prefix of the right
text. If the error output fails too, the exit status alone reports it. No bytes are written of an empty text. For sites
that exchange deltas, a journal or a delta opens and then fails, and the outputs are full. A day that is none ends
`keep` and `closed` before they read.
"""
import os
import pty
import tempfile
import tty
from tests import harness
from tests.inputs import DAY, confirmation, exchanging, instruction
from tests.oracle import exchange, keep

MOST_ROOMS = 100  # in so many sizes at most a file is full
FAILING = "/proc/self/mem"  # a file that opens, and of which the first read fails


def front_then_failure(front):
    """An input that gives these bytes, and then fails: the other end of a terminal that was closed."""
    end, terminal = pty.openpty()
    tty.setraw(terminal)
    os.write(terminal, front)
    os.close(terminal)
    return end


def after_failing_read(program, front, words=("status",)):
    """The answer of a command to an input that fails after these bytes."""
    end = front_then_failure(front)
    answer = harness.run([program, *words], stdin=end)
    os.close(end)
    return answer


def into_little_room(program, data, room, full, words=("status",)):
    """The answer of a command if one output, stdout or stderr, has room for so many bytes."""
    with tempfile.TemporaryFile() as file:
        text, errors, status = harness.run([program, *words], data, room=room, **{full: file})
        file.seek(0)
        held = file.read()
    return (held, errors, status) if full == "stdout" else (text, held, status)


def runs(program):
    """Whether each run ends as it must, by what fails."""
    data = b"foo\n" + instruction(1).encode()
    text, refused = b"T|BANKDEFFXXX|T1|PENDING\n", b"line 1: 31\n"
    return {
        "an input of which a read fails": [
            after_failing_read(program, data[:length]) == (b"", b"fault 62\n", 2) for length in range(len(data) + 1)],
        "an output that is full": [
            into_little_room(program, data, room, "stdout") == (text[:room], refused + b"fault 63\n", 2)
            for room in range(len(text))],
        "an error output that is full": [
            into_little_room(program, data, room, "stderr") == (b"", refused[:room], 2)
            for room in range(len(refused))],
        "an empty text": [into_little_room(program, b"\n", 0, full) == (b"", b"", 0) for full in ("stdout", "stderr")]
    }


def splits(program):
    """Whether each run of `keep` and `closed` ends as it must, by what fails."""
    data, found = ("foo\n" + instruction(1) + confirmation(1) + instruction(2)).encode(), {}
    for word in keep.PARTS:
        text, refused = (part.encode() for part in keep.answer(word, DAY, data)[:2])
        found[f"{word}, an input of which a read fails"] = [
            after_failing_read(program, data[:length], [word, DAY]) == (b"", b"fault 62\n", 2)
            for length in (0, 3, len(data))]
        found[f"{word}, an input that fails, after a day that is none"] = [
            after_failing_read(program, b"", [word, day]) == (b"", keep.answer(word, day, b"")[1].encode(), 2)
            for day in ("2025-3-11", "", "2025-03-11Z")]
        found[f"{word}, an output that is full"] = [
            into_little_room(program, data, room, "stdout", [word, DAY]) == (text[:room], refused + b"fault 63\n", 2)
            for room in rooms(text)]
    return found


def rooms(text):
    """Some sizes of a file that are too small for a text."""
    return range(0, len(text), 1 + len(text) // MOST_ROOMS)


def exchanges(program, folder):
    """Whether each run of a site that exchanges deltas ends as it must, by what fails."""
    found = {"a journal or a delta of which a read fails": [
        harness.run([program, "vector", "1", "2", *files]) == (b"", b"fault 62\n", 2)
        for files in ([FAILING], [os.devnull, FAILING])]}
    for words in exchanging(folder):
        text, refused = (part.encode() for part in exchange.answer(words)[:2])
        found[f"{words[0]}, an output that is full"] = [
            into_little_room(program, b"", room, "stdout", words) == (text[:room], refused + b"fault 63\n", 2)
            for room in rooms(text)]
        found[f"{words[0]}, an error output that is full"] = [
            into_little_room(program, b"", room, "stderr", words) == (b"", refused[:room], 2)
            for room in rooms(refused)]
    return found


def main():
    program = harness.program()
    with tempfile.TemporaryDirectory() as folder:
        of_each = {**runs(program), **splits(program), **exchanges(program, folder)}
    harness.end_of([harness.reported(f"{name}, in {len(right)} ways", all(right)) for name, right in of_each.items()])


if __name__ == "__main__":
    main()
