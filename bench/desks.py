"""desks.py: how long takes and answers last at a desk that two threads share.

In the test driver one thread takes messages, each of a transfer of its own. Another asks for the last of them
meanwhile, and as often again once all are taken. The script prints the median time of a take for each tenth of the
messages, and of an answer while messages are taken and afterwards. Of each it prints the least median of the runs,
since other work of the machine only adds to it.

Usage: bench/desks.py [MESSAGES [RUNS]]   (20000, 5)
"""
import collections
import pathlib
import statistics
import subprocess
import sys
sys.path.insert(0, str(pathlib.Path(__file__).resolve().parents[1]))
from tests import harness

PARTS = 10


def times(many):
    """The nanoseconds that each take and each answer lasted, by the word before them."""
    done = subprocess.run([harness.program("sct_test_driver"), "times", str(many)], capture_output=True, text=True,
                          check=True)
    found = collections.defaultdict(list)
    for line in done.stdout.splitlines():
        word, time = line.split()
        found[word].append(int(time))
    return found


def medians(many):
    """The median time of the takes of each tenth, and of the answers while messages are taken and afterwards."""
    found = times(many)
    if len(found["take"]) != many or not found["busy"]:
        harness.stop("the program did not time what it should")
    size = many // PARTS
    parts = [statistics.median(found["take"][part * size:(part + 1) * size]) for part in range(PARTS)]
    return parts + [statistics.median(found["busy"]), statistics.median(found["quiet"])], len(found["busy"])


def main():
    many, runs = [int(word) for word in sys.argv[1:] + ["20000", "5"][len(sys.argv) - 1:]]
    tried = [medians(many) for _ in range(runs)]
    *parts, busy, quiet = [min(column) / 1000 for column in zip(*(medians for medians, _ in tried))]
    print(f"a take, by tenths of {many} messages: " + ", ".join(f"{part:.1f}" for part in parts) + " us; "
          f"the last {parts[-1] / parts[0]:.2f} times the first")
    print(f"an answer: {busy:.2f} us while messages are taken, {quiet:.2f} us afterwards, {busy / quiet:.2f} times; "
          f"{min(count for _, count in tried)} answers and more in a run")


if __name__ == "__main__":
    main()
