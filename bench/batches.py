"""batches.py: what batches cost the processor, on small and on large views.

It hands lines to the test driver, and reads from /proc how much processor time the process took for each part of them.
So other work of the machine matters little. Batches of ten fresh messages go to a view of 2,000 to 3,000 messages
(begun anew each time) and to one of 200,000 and more, in turn. A part of 100 batches has its 1,000 lines read too; what
as many cost that go into one batch is taken off. The medians are printed. The same 200,000 messages then go one by one,
in batches of ten, and in one batch, each in a process of its own, with reading.

Usage: bench/batches.py [PARTS]   (40; the large view grows by 2,000 messages in each)
"""
import fcntl
import os
import pathlib
import statistics
import struct
import subprocess
import sys
import termios
import time
sys.path.insert(0, str(pathlib.Path(__file__).resolve().parents[1]))
from bench.generate import messages
from tests import harness

SMALL, LARGE, PART, SET_PIPE_SIZE = 2_000, 200_000, 1_000, 1031


class Trial:
    """The program, with a pipe to its standard input."""

    def __init__(self):
        end, self.pipe = os.pipe()
        fcntl.fcntl(self.pipe, SET_PIPE_SIZE, 1 << 20)
        self.process = subprocess.Popen([harness.program("sct_test_driver"), "views"], stdin=end,
                                        stdout=subprocess.DEVNULL)
        os.close(end)

    def spent(self):
        """The nanoseconds of processor time that the process took."""
        return int(pathlib.Path(f"/proc/{self.process.pid}/schedstat").read_text().split()[0])

    def is_waiting(self):
        """Whether the process took all that was written, and waits for more."""
        left = struct.unpack("i", fcntl.ioctl(self.pipe, termios.FIONREAD, bytes(4)))[0]
        return left == 0 and pathlib.Path(f"/proc/{self.process.pid}/stat").read_text().rpartition(")")[2].split()[
            0] == "S"

    def settled(self):
        """What it took, once it waits for more."""
        while True:
            spent = self.spent()
            time.sleep(0.002)
            if self.is_waiting() and self.spent() == spent:
                return spent

    def take(self, lines):
        """The microseconds that it takes over some lines."""
        before, text = self.settled(), memoryview(("\n".join(lines) + "\n").encode())
        while text:
            text = text[os.write(self.pipe, text[:1 << 19]):]
        return (self.settled() - before) / 1000

    def end(self):
        os.close(self.pipe)
        if self.process.wait():
            harness.stop("the program did not end well")


def batches(lines, size):
    """The lines, with an empty one after each so many."""
    return [it for at in range(0, len(lines), size) for it in lines[at:at + size] + [""]]


def time_of_ten(trial, lines):
    """The microseconds of one `apply` of ten messages, by 1,000 of the lines in batches and 1,000 in one."""
    in_tens, alone = trial.take(batches(lines[:PART], 10)), trial.take(lines[PART:2 * PART])
    trial.take([""])
    return (in_tens - alone) / (PART / 10)


def main():
    parts = int((sys.argv[1:] or ["40"])[0])
    most = LARGE + 2 * PART * parts
    lines = [line[:-1] for line in messages.lines(most)]
    on_small, on_large, small, large = Trial(), Trial(), [], []
    on_large.take(batches(lines[:LARGE], LARGE))
    for part in range(parts):
        fresh = lines[LARGE + 2 * PART * part:]
        on_small.take(batches(lines[SMALL * part:SMALL * (part + 1)], SMALL))
        small.append(time_of_ten(on_small, fresh))
        on_small.take(["new"])
        large.append(time_of_ten(on_large, fresh))
    on_small.end()
    on_large.end()
    of_small, of_large = statistics.median(small), statistics.median(large)
    print(f"ten messages: {of_small:.1f} us on {SMALL} messages, {of_large:.1f} us on {LARGE}, "
          f"{of_large / of_small:.2f} times", flush=True)
    for name, size in [("one by one", 1), ("in tens", 10), ("in one batch", LARGE)]:
        trial = Trial()
        print(f"{LARGE} messages {name}: {trial.take(batches(lines[:LARGE], size)) / 1e6:.2f} s", flush=True)
        trial.end()


if __name__ == "__main__":
    main()
