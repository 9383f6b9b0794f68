"""read_once.py: the program reads each file once, and an input up to its first end.

The files are those of `site`, `vector`, `cut`, `run` and `report`. One of them is a pipe or a FIFO, or all are. A pipe
that is read again is empty, and a FIFO that is opened again has nobody who writes. So the answer must be the one about
regular files.

The input of each command that has one is typed at a terminal. Ctrl-D ends it on an empty line. In a line its second
time does. A program that reads on waits for more. It is stopped then, and has failed.

The input comes from a socket that gives one line to each read, and loses what is beyond the room. So each read must
have room for a line.
"""
import contextlib
import os
import pathlib
import pty
import socket
import subprocess
import tempfile
from tests import harness
from tests.harness import EXAMPLES, SECONDS, Answer, reported
from tests.inputs import commands_on, exchanging, instruction, two_files
from tests.oracle import exchange, replay
from tests.serve.serving import restored

END = b"\x04"  # Ctrl-D
LIST = b"DbtrAgt,TxId,Amt,Sts\n"
ROWS = b"DbtrAgt,TxId,Result,ListAmt,ListSts,Amt,Sts\nBANKDEFFXXX,T1,ONLY_IN_ARCHIVE,,,1.00,PENDING\n"
REPORT = ["report", "BANKDEFF", "2024-05-02"]


# ---- files that can be read once

@contextlib.contextmanager
def pipes(paths, _):
    """Names of pipes with the bytes of files, and how the program gets them."""
    ends = []
    try:
        for path in paths:
            end, begin = os.pipe()
            ends.append(end)
            with open(begin, "wb") as pipe:
                pipe.write(pathlib.Path(path).read_bytes())
        yield [f"/dev/fd/{end}" for end in ends], {"pass_fds": ends}
    finally:
        for end in ends:
            os.close(end)


@contextlib.contextmanager
def fifos(paths, folder):
    """Paths of FIFOs, into each of which a process writes the bytes of a file once."""
    with contextlib.ExitStack() as ends, tempfile.TemporaryDirectory(dir=folder) as place:
        names = [os.path.join(place, str(number)) for number in range(len(paths))]
        for path, name in zip(paths, names):
            os.mkfifo(name)
            writer = ends.enter_context(subprocess.Popen(["sh", "-c", 'exec cat "$1" > "$2"', "sh", path, name]))
            ends.callback(writer.kill)
        yield names, {}


def commands(folder):
    """The words of each command, how many of them at the end are files, its input, and the right answer."""
    for words in exchanging(folder):
        text, refused, status = exchange.answer(words)
        yield words, 3, b"", Answer(text.encode(), refused.encode(), status)
    run = two_files(folder)
    yield run.words, 2, b"", Answer(run.text, run.refused, run.status)
    text, refused, listed = ((EXAMPLES / f"settlement-day.{suffix}").read_bytes()
                             for suffix in ("report", "refused", "jsonl"))
    yield [*REPORT, str(EXAMPLES / "settlement-day.list")], 1, listed, Answer(text, refused, 1 if refused else 0)


def is_read_once(program, folder, kind, command):
    """Whether a command answers as it must if one of its files is of this kind, and if all are."""
    words, many, data, wanted = command
    front, paths = words[:-many], words[-many:]
    found = []
    for some in [{place} for place in range(many)] + [set(range(many))]:
        with kind([paths[place] for place in sorted(some)], folder) as (names, more):
            names = iter(names)
            given = [next(names) if place in some else path for place, path in enumerate(paths)]
            found.append(harness.run([program, *front, *given], data, seconds=SECONDS, **more))
    different = [answer for answer in found if answer != wanted]
    return reported(f"{words[0]}, on {many} files that are {kind.__name__}", not different, f"{different[:1]}")


# ---- a terminal, and a socket

def typed(program, folder, words, keys):
    """The answer of the program if these keys are pressed at the terminal that its input comes from."""
    keyboard, terminal = pty.openpty()
    try:
        os.write(keyboard, keys)
        return harness.run([program, *words], stdin=terminal, seconds=SECONDS, cwd=tempfile.mkdtemp(dir=folder))
    finally:
        os.close(keyboard)
        os.close(terminal)


def at_socket(program, words, lines):
    """The answer of the program if each read of its input gives one of these lines, as far as there is room."""
    ours, theirs = socket.socketpair(socket.AF_UNIX, socket.SOCK_SEQPACKET)
    with ours, theirs:
        for line in lines.splitlines(keepends=True):
            ours.sendall(line)
        ours.shutdown(socket.SHUT_WR)
        return harness.run([program, *words], stdin=theirs, seconds=SECONDS)


def inputs(folder):
    """Commands, with the lines of an input for each and the right answer."""
    message = instruction(1).encode()
    lines = b"foo\n" + message
    for words, (text, refused, status) in commands_on(lines):
        yield words, lines, Answer(text.encode(), refused.encode(), status)
    path = pathlib.Path(folder, "list")
    path.write_bytes(LIST)
    yield [*REPORT, str(path)], message, Answer(ROWS, b"", 0)
    script = b"sites 1\ntake 1 " + message
    text, refused, status = replay.answer(script)
    yield ["replay"], script, Answer(text.encode(), refused.encode(), status)


def at_each(program, folder):
    """Whether each command ends with its right answer. To `serve` a line without a line feed is no request."""
    site = restored(1, 2, [])
    served = Answer(site.ready() + site.reply(b"? vector")[0], b"", 0)
    asked = [("on an empty line", ["serve", "1", "2", "journal"], b"? vector\n" + END, served)]
    for words, lines, wanted in inputs(folder):
        asked += [("on an empty line", words, lines + END, wanted),
                  ("twice in a line", words, lines[:-1] + END + END, wanted)]
    for words, lines, wanted in inputs(folder):
        found = at_socket(program, words, lines)
        yield reported(f"{words[0]} at a socket", found == wanted, f"{found}")
    for way, words, keys, wanted in asked:
        found = typed(program, folder, words, keys)
        yield reported(f"{words[0]} at a terminal, Ctrl-D {way}", found == wanted, f"{found}")


def main():
    program = harness.program()
    with tempfile.TemporaryDirectory() as folder:
        right = [is_read_once(program, folder, kind, command) for kind in (pipes, fifos)
                 for command in commands(folder)]
        right += at_each(program, folder)
    harness.end_of(right)


if __name__ == "__main__":
    main()
