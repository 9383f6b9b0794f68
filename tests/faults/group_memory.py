"""group_memory.py: three sites allocate in a group of 1024 sites what they allocate in a group of 4.

The test driver opens the sites 1, 2 and 3. Each takes messages of its own, and then they settle. What is printed must
be the same for both groups. The library refuse_nth.c counts the bytes that the driver asks for. The lines that open the
sites have three characters more for the larger group. So a few bytes more are right, and 8 bytes for each site that the
group may have are not.
"""
import tempfile
from tests import harness
from tests.inputs import instruction

SITES = [1, 2, 3]
MESSAGES = 10
GROUPS = [4, 1024]
FEW = 256  # bytes


def lines(group):
    """What the driver is asked for a group of this size."""
    for site in SITES:
        yield f"site {site} {group}\n"
        for number in range(MESSAGES):
            yield f"take {instruction(site * MESSAGES + number)}"
    yield "settle\n"


def main():
    driver = harness.program("sct_test_driver")
    with tempfile.TemporaryDirectory() as folder:
        library = harness.refuser(folder)
        inputs = ["".join(lines(group)).encode() for group in GROUPS]
        small, large = [harness.run_refusing(0, library, [driver, "groups"], data) for data in inputs]
    settled = small.answer == large.answer and small.answer.text.startswith(b"SETTLED\nC|1\n") and small.answer[1:] == (
        b"", 0)
    more = large.bytes - small.bytes
    print(f"three sites of a group of {GROUPS[0]} ask for {small.bytes} bytes, and of a group of {GROUPS[1]} "
          f"for {more} more", flush=True)
    harness.end_of([settled and 0 < small.bytes and abs(more) <= FEW])


if __name__ == "__main__":
    main()
