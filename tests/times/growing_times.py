"""growing_times.py: four times as much input takes at most eight times as long.

The inputs are those that one participant could send to hold up a desk. Most of them have very many messages on one
transfer. In one, recalls tie very many transfers in a chain. A script hands the same delta again and again. A run has
two files. Of one input all lines are refused. Each is given in two sizes, and the processor time of the larger one may
be at most 8 times that of the smaller. The square would be 16 times.

One input is a single line of zeros, longer than the blocks that the program reads. Its reading hides how often it is
searched for its end. So the larger size is 16 times the smaller one, and may take 32 times as long. The program takes
up to 2 GiB of memory.

Of each size the least of three runs counts, and of six if the larger one took too long by three: a busy machine slows
some runs, and a square all. The times are printed, and no limit is set for them.
"""
import collections
import os
import pathlib
import tempfile
from bench.generate import messages
from tests import harness
from tests.inputs import files_of
from tests.times import hot_inputs

SMALL, TIMES, MOST, RUNS = 5_000, 4, 8, 3
DAY = "2025-01-01"  # after all messages
LIST = b"DbtrAgt,TxId,Amt,Sts\nBANKDEFF,T1,1.00,ACCEPTED\n"
ON_ONE_TRANSFER = [hot_inputs.recalls, hot_inputs.recalls_in_lists, hot_inputs.recalls_with_all,
                   hot_inputs.contradicted_recalls,
                   hot_inputs.one_recall, hot_inputs.equal_confirmations, hot_inputs.contradicted_identities]
LINE, LINE_TIMES, LINE_MOST = 40_000_000, 16, 32

# what is timed: the words of the command and its input, which is bytes or a path, by the size; the smaller size; how
# many times as large the other one is, and how many times as long it may take; and the exit status
Timed = collections.namedtuple("Timed", "name made small times most status", defaults=[SMALL, TIMES, MOST, 0])


def cases(folder):
    """All that is timed."""
    [listed] = files_of(folder, "list", [LIST])
    for made in ON_ONE_TRANSFER:
        for words in (["status"], ["totals"], ["report", "BANKDEFF", "2024-05-02", listed], ["keep", DAY]):
            yield Timed(f"{words[0]} of {made.__name__}",
                        lambda many, words=words, made=made: (words, hot_inputs.lines(made(many))))
    for word in ("keep", "closed"):
        yield Timed(f"{word} of chained_recalls",
                    lambda many, word=word: ([word, DAY], hot_inputs.lines(hot_inputs.chained_recalls(many))))
    yield Timed("replay of repeated deltas", lambda many: (["replay"], hot_inputs.repeated_deltas(many)))
    yield Timed("run of two files", lambda many: (["run", *halves(folder, many)], b""))
    yield Timed("status of refused lines", lambda many: (["status"], hot_inputs.refused_lines(many)), status=1)
    yield Timed("status of one long line", lambda many: (["status"], zeros(folder, many)), LINE, LINE_TIMES, LINE_MOST,
                1)


def zeros(folder, many):
    """The path of a file with so many zeros, which take no room on the disk."""
    path = pathlib.Path(folder, "zeros")
    path.touch()
    os.truncate(path, many)
    return path


def halves(folder, many):
    """The paths of two files with so many made-up messages between them."""
    found = "".join(messages.lines(many)).splitlines(keepends=True)
    return files_of(folder, f"half{many}-", ["".join(found[place::2]).encode() for place in (0, 1)])


def spent(program, words, data):
    """The processor time of a run, and its exit status."""
    if isinstance(data, bytes):
        return harness.spent([program, *words], data)
    with open(data, "rb") as file:
        return harness.spent([program, *words], stdin=file)


def least(program, words, data, status):
    """The least of several runs, or None if one of them did not end with this status."""
    runs = [spent(program, words, data) for _ in range(RUNS)]
    return None if any(ended != status for _, ended in runs) else min(seconds for seconds, _ in runs)


def grows(program, one):
    """Whether the larger input takes at most as many times as long as it may, which is printed too."""
    found, is_right = [], False
    while not is_right and len(found) < 2:
        found.append([least(program, *one.made(many), one.status) for many in (one.small, one.times * one.small)])
        if None in found[-1]:
            print(f"{one.name}: FAILED", flush=True)
            return False
        small, large = map(min, zip(*found))
        is_right = large <= one.most * small
    print(f"{one.name}: {small:.2f} s and {large:.2f} s, {large / small:.1f} times", flush=True)
    return is_right


def main():
    program = harness.program()
    with tempfile.TemporaryDirectory() as folder:
        harness.end_of([grows(program, one) for one in cases(folder)])


if __name__ == "__main__":
    main()
