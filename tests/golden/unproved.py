"""unproved.py: the program that `rt try` builds without a proof prints the answer of an example. The gate has the
proved program in its place."""
from __future__ import annotations
import shutil
from tests import harness
from tests.harness import CRATES, EXAMPLES, reported

JOB, EXAMPLE = "status", "bank-day"
LONGEST = 1400  # seconds for what takes two minutes if nothing is beside


def main() -> None:
    rt = shutil.which("rt")
    if rt is None:
        print("skipped: there is no command rt on this machine")
        harness.end(0, 0)
    answer = harness.run([str(rt), "try", "--", JOB], (EXAMPLES / f"{EXAMPLE}.jsonl").read_bytes(), seconds=LONGEST,
                         cwd=CRATES / "sct_sites")
    right = (answer.text, answer.status) == ((EXAMPLES / f"{EXAMPLE}.{JOB}").read_bytes(), 0)
    harness.end_of([reported(f"{EXAMPLE} on an unproved program", right,
                             (answer.text + answer.errors).decode(errors="replace"))])


if __name__ == "__main__":
    main()
