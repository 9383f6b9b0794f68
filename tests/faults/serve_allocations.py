"""serve_allocations.py: `serve` is run with each of its allocations refused in turn.

A short session has rounds of messages and deltas, and each question between them. It begins with no journal, and with
one whose end is torn. A run must write the right replies. If an allocation was refused, it may instead stop with the
replies of whole rounds, `fault 65` and status 3. The journal then keeps what the replied rounds brought, and all or
nothing of the next one, and opens as those lines.
"""
import collections
import os
import pathlib
import tempfile
from concurrent.futures import ThreadPoolExecutor
from tests import harness
from tests.harness import is_refused
from tests.inputs import confirmation, delta, instruction
from tests.oracle import serve
from tests.serve.serving import delta_line, kept, restored, session

OWN, GROUP = 1, 3
HEAD = serve.header(OWN, GROUP)
REPORT = b"? report BANKDEFF 2024-05-02 DbtrAgt,TxId,Amt,Sts\tBANKDEFF,T1,1.00,ACCEPTED\tBANKDEFF,T5,1.00,PENDING"

# how a session may end: what it has written, what the journal keeps then behind its header, and what it keeps if the
# next round lasts too
End = collections.namedtuple("End", "text kept next")


# ---- the session

def line(text):
    return text.rstrip("\n").encode()


def requests():
    """The requests of the session. A question ends a round."""
    messages = [line(instruction(1)), line(confirmation(1)), b"{}", line(instruction(1)), b"", line(instruction(2))]
    deltas = [*map(delta_line, (delta(2, 1, 7, 8), delta(2, 9, 9), delta(2, 1, 7))), b"delta 2\tend 1",
              line(instruction(3))]
    questions = [b"? vector", b"? changes", b"? status", b"? cut 1:1", b"? entries 1 1 1000",
                 b"? digests", b"? digest 1 1",
                 b"? archive", b"? totals", b"? contradictions",
                 b"? transfer BANKDEFF T1", b"? messages BANKDEFF T1", b"? bank BANKDEFF", REPORT, b"? foo", b"? cut x"]
    return [*messages, *questions, *deltas, b"? changes", line(instruction(4)), line(confirmation(4)), b"? status"]


def ends_of(lines):
    """How a session on a journal with these lines may end: before it is ready, after that, and after each of its
    rounds."""
    serving, kept_now = restored(OWN, GROUP, lines), list(lines)
    ends, text = [End(b"", kept_now, kept_now)], serving.ready()
    for these in serve.rounds_of(requests()):
        both = [serving.reply(one) for one in these]
        after = kept_now + [one for one, (_, brings) in zip(these, both) if brings]
        ends.append(End(text, kept_now, after))
        text, kept_now = text + b"".join(reply for reply, _ in both), after
    return [*ends, End(text, kept_now, kept_now)]


# ---- runs

class Journals:
    """The journals of the runs, each of which begins with the same bytes, or with none."""

    def __init__(self, program, folder, start):
        self.program, self.folder, self.start = program, pathlib.Path(folder), start
        self.ends = ends_of(serve.kept_in(start)[0][1:])

    def mark(self, library, number):
        """The run with one allocation refused, and what it came to: the right text, fault 65, or None if it failed."""
        path = self.folder / str(number)
        if self.start:
            path.write_bytes(self.start)
        words = [self.program, "serve", str(OWN), str(GROUP), str(path)]
        run = harness.run_refusing(number, library, words, b"".join(one + b"\n" for one in requests()))
        end = next((end for end in self.ends if end.text == run.answer.text), None)
        right = end is not None and self.is_kept(path, end)
        if right and end is self.ends[-1] and (run.answer.errors, run.answer.status) == (b"", 0):
            return run, "the right text"
        is_short = is_refused(run) and (run.answer.errors, run.answer.status) == (b"fault 65\n", 3)
        return run, "fault 65" if right and is_short else None

    def is_kept(self, path, end):
        """Whether a journal keeps what it must, and opens so. A new one need not be there before the site is ready."""
        lines = kept(path) if path.exists() else []
        if not lines:
            return not self.start and not end.text
        again = restored(OWN, GROUP, lines[1:])
        wanted = again.ready() + again.reply(b"? status")[0]
        return lines[0] == HEAD and lines[1:] in (end.kept, end.next) and (
            session(self.program, OWN, GROUP, path, b"? status\n") == (wanted, b"", 0))

    def marks(self, library):
        """The runs with each number up to the greatest count of allocations, and the one in which none is refused."""
        marks, most = [], 0
        with ThreadPoolExecutor(len(os.sched_getaffinity(0))) as pool:
            while len(marks) <= most:
                marks += pool.map(lambda number: self.mark(library, number), range(len(marks), most + 1))
                most = max(run.allocations for run, _ in marks)
        return marks


def tried(program, library, name, start):
    """How many runs ended as they may, and how many failed. Some must stop with fault 65, and some of these with
    replies."""
    with tempfile.TemporaryDirectory() as folder:
        marks = Journals(program, folder, start).marks(library)
    for run, mark in marks:
        if mark is None:
            print(f"{name}, allocation {run.number}: {run.answer.text[-80:]!r}, {run.answer.errors[-80:]!r}, status "
                  f"{run.answer.status}")
    counts = collections.Counter(mark for _, mark in marks)
    replied = sum(mark == "fault 65" and run.answer.text != b"" for run, mark in marks)
    failed = counts.pop(None, 0)
    print(f"{name}: {len(marks)} runs: " + ", ".join(f"{mark} {times}" for mark, times in counts.items()) +
          f", of these {replied} with replies, {failed} in another way", flush=True)
    return len(marks) - failed, failed + (not counts["fault 65"]) + (not replied)


def main():
    program = harness.program()
    torn = serve.gated([HEAD, line(instruction(5)), delta_line(delta(3, 1, 6))])[:-1] + b" torn"
    with tempfile.TemporaryDirectory() as folder:
        library = harness.refuser(folder)
        harness.end_with([tried(program, library, name, start)
                          for name, start in (("no journal", b""), ("a torn journal", torn))])


if __name__ == "__main__":
    main()
