"""recalls.py: what recalls of many transactions cost the processor, beside as many transactions in recalls of one.

Both inputs come from bench/generate/recalls.py. The test driver reads the lines, applies them in one batch, and then
reads and applies them in batches of 1,000 transactions. The program answers `status` and `archive` for them. The script
prints the processor time of each step in seconds, and divides that of the recalls of many by that of the recalls of
one.

Usage: bench/recalls.py [RECALLS [TRANSACTIONS]]   (10000, 100; these need some 4 GB of memory)
"""
import pathlib
import sys
import tempfile
sys.path.insert(0, str(pathlib.Path(__file__).resolve().parents[1]))
from bench.batches import Trial, batches
from bench.generate import recalls
from tests import harness

COMMANDS = ["status", "archive"]
BATCH = 1_000


def applied(lines, size):
    """The seconds that it takes to read the lines, to apply them in one batch, and to do both in batches of this
    size."""
    trial = Trial()
    times = {"read": trial.take(lines), "applied": trial.take([""])}
    trial.take(["new"])
    times["read and applied in batches"] = trial.take(batches(lines, size))
    trial.end()
    return {what: microseconds / 1e6 for what, microseconds in times.items()}


def spent(command, path):
    """The seconds of the processor that a command takes on a file, in all its threads."""
    with path.open("rb") as lines:
        seconds, status = harness.spent([harness.program(), command], stdin=lines)
    if status:
        harness.stop(f"{command} ended with status {status}")
    return seconds


def measured(many, transactions):
    """The seconds of everything on so many recalls of so many transactions."""
    lines = [line[:-1] for line in recalls.lines(many, transactions)]
    with tempfile.TemporaryDirectory() as folder:
        path = pathlib.Path(folder, "recalls.jsonl")
        path.write_text("\n".join(lines))
        times = {**applied(lines, max(1, BATCH // transactions)),
                 **{command: spent(command, path) for command in COMMANDS}}
    text = ", ".join(f"{what} {seconds:.2f} s" for what, seconds in times.items())
    print(f"{many} recalls of {transactions}: {text}", flush=True)
    return times


def main():
    many, transactions = [int(word) for word in sys.argv[1:] + ["10000", "100"][len(sys.argv) - 1:]]
    single, listed = measured(many * transactions, 1), measured(many, transactions)
    print("divided: " + ", ".join(f"{what} {listed[what] / single[what]:.2f}" for what in single))


if __name__ == "__main__":
    main()
