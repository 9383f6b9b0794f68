"""repeated_runs.py: what threads do side by side is answered the same each time, however they are scheduled.

`run` takes two small files at two sites, 200 times. The test `desk_shared` of crates/sct_run_tests, in which three
threads share a desk, must pass 100 times and print the same each time.
"""
import os
import pathlib
import tempfile
from tests import harness
from tests.inputs import two_files

TIMES = 200
DESKS = 100


def is_shared_alike(tests):
    """Whether the test of a desk that three threads share passes each time, with one output."""
    runner = pathlib.Path(os.path.realpath(harness.command("rt"))).with_name("rattle-test")
    runs = [harness.run([runner, "--filter", "desk_shared", tests]) for _ in range(DESKS)]
    right = all(run.status == 0 and b"1 passed" in run.text for run in runs) and len({run.text for run in runs}) == 1
    return harness.reported(f"three threads at a desk, {DESKS} times", right)


def main():
    program, tests = harness.program(), harness.crate_tests("sct_run_tests")
    with tempfile.TemporaryDirectory() as folder:
        right = [harness.fits(program, two_files(folder), times=TIMES)]
    harness.end_of([*right, is_shared_alike(tests)])


if __name__ == "__main__":
    main()
