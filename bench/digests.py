"""bench/digests.py [--messages N] [--round N]: measures what a site takes in a second of a processor, with and without
a question for digests after each round, as the service asks it. Both are run in turn, three times. At the end it
measures questions for digests: the first one after a start on the journal, the next one, and one of an older count."""
import argparse
import pathlib
import resource
import subprocess
import sys
import tempfile
import time
sys.path.insert(0, str(pathlib.Path(__file__).resolve().parents[1]))
from bench.generate import messages
from tests import harness


def spent():
    its = resource.getrusage(resource.RUSAGE_CHILDREN)
    return its.ru_utime + its.ru_stime


def serve(program, journal):
    """A process that is ready."""
    child = subprocess.Popen([program, "serve", "1", "64", str(journal)], stdin=subprocess.PIPE, stdout=subprocess.PIPE)
    child.stdout.readline()
    return child


def asked(child, question):
    """The seconds until a question has its answer."""
    began = time.monotonic()
    child.stdin.write(question + b"\n")
    child.stdin.flush()
    size = int(child.stdout.readline().split()[1])
    child.stdout.read(size + 1)
    return time.monotonic() - began


def seconds_of(program, journal, lines, size, asks):
    """The seconds of a processor in which a process takes lines in rounds, with a question for digests after each of
    them or not."""
    before, child = spent(), serve(program, journal)
    for place in range(0, len(lines), size):
        batch = lines[place:place + size]
        child.stdin.write(b"".join(batch))
        child.stdin.flush()
        for _ in batch:
            child.stdout.readline()
        if asks:
            asked(child, b"? digests")
    child.stdin.close()
    child.wait()
    return spent() - before


def main():
    parser = argparse.ArgumentParser(description=__doc__)
    parser.add_argument("--messages", type=int, default=100_000)
    parser.add_argument("--round", type=int, default=100)
    words = parser.parse_args()
    program, lines = harness.program(), [line.encode() for line in messages.lines(words.messages)]
    with tempfile.TemporaryDirectory() as folder:
        for turn in range(3):
            found = [len(lines) / seconds_of(program, f"{folder}/{turn}{asks}", lines, words.round, asks)
                     for asks in (False, True)]
            print("rounds of {}: {:.0f} messages a second of a processor, with digests {:.0f}".format(
                words.round, *found), flush=True)
        child = serve(program, f"{folder}/0True")
        many = len(lines) // 2
        for name, question in ("first ? digests", b"? digests"), ("next", b"? digests"), (f"? digest 1 {many}",
                                                                                          b"? digest 1 %d" % many):
            print(f"{name}: {1000 * asked(child, question):.2f} ms", flush=True)
        child.stdin.close()
        child.wait()


if __name__ == "__main__":
    main()
