"""calls.py: what calls of a site cost from C and from Python, and what a message costs in memory.

Usage: bench/embed/calls.py [MESSAGES] [MORE]   (100000 1000)

A site holds MESSAGES messages of bench/generate/messages.py, which it took one by one. Then MORE are taken, each
followed by its line of the journal, and by the lines of its transfer or by what changed, in turn. MORE others come from
a second site, in a delta of one message each. Times are those of the processor. Those of single calls are medians.
calls.c measures the same in C, with the libraries that tools/library.py makes. A call from Python has the cost of the
call in C and of ctypes.
"""
import json
import os
import pathlib
import statistics
import subprocess
import sys
import tempfile
import time
sys.path.insert(0, str(pathlib.Path(__file__).resolve().parents[2]))
sys.path.insert(0, str(pathlib.Path(__file__).resolve().parents[2] / "bindings" / "python"))
from bench.generate import messages
from tools import library

MESSAGES, MORE = 100_000, 1_000


def timed(call, *words):
    """What a call returns, and the seconds of the processor that it took."""
    began = time.thread_time()
    result = call(*words)
    return result, time.thread_time() - began


def transfer_of(line):
    """The transfer that a message is on."""
    message = json.loads(line)
    return message["DbtrAgt"], message.get("OrgnlTxId") or message["TxId"]


def each(calls):
    """The microseconds of some calls, in the median."""
    return statistics.median(spent for _, spent in calls) * 1e6


def in_python(lines, more):
    """The measures from Python, each with its number and its unit."""
    from niluppang import BytesSite
    held, after, others = lines[:-2 * more], lines[-2 * more:-more], lines[-more:]
    with BytesSite(1, 2) as site, BytesSite(2, 2) as second, BytesSite(2, 2) as whole:
        _, spent = timed(lambda: [site.take(line) for line in held])
        yield "take", spent / len(held) * 1e6, "us"
        yield "takes a second", len(held) / spent, ""
        delta, spent = timed(site.cut)
        yield "cut of everything", spent, "s"
        _, spent = timed(whole.accept, delta)
        yield "accepts a second, in one delta", len(held) / spent, ""
        whole.close()
        yield "first status text", timed(site.status_text)[1], "s"
        yield "status text again", timed(site.status_text)[1], "s"
        site.changes()
        number = site.counts()[0]
        found = [(timed(site.take, line), timed(site.journal, number + place),
                  timed(site.changes) if place % 2 else timed(site.transfer, *transfer_of(line)))
                 for place, line in enumerate(after)]
        took, kept, asked = zip(*found)
        yield "a take, all held", each(took), "us"
        yield "then its line of the journal", each(kept), "us"
        yield "then the lines of its transfer", each(asked[::2]), "us"
        yield "then what changed", each(asked[1::2]), "us"
        deltas = []
        for place, line in enumerate(others):
            second.take(line)
            deltas.append(second.cut([0, place]))
        middle = each(timed(site.accept, delta) for delta in deltas)
        yield "an accept of one message, all held", middle, "us"
        yield "such accepts a second", 1e6 / middle, ""


def in_c(folder, path, more):
    """The measures from C."""
    top = library.TOP
    words = ["gcc", "-std=c99", "-O2", f"-I{top / 'include'}", top / "bench" / "embed" / "calls.c",
             folder / "libniluppang.a"]
    subprocess.run([*words, "-o", folder / "calls"], check=True)
    text = subprocess.run([folder / "calls", path, str(more)], check=True, stdout=subprocess.PIPE).stdout.decode()
    for line in text.splitlines():
        name, number, unit = line.split("|")
        yield name, float(number), unit


def main():
    many, more = map(int, sys.argv[1:] + [MESSAGES, MORE][len(sys.argv) - 1:])
    with tempfile.TemporaryDirectory() as name:
        folder = pathlib.Path(name)
        try:
            library.make(folder)
        except library.Missing as missing:
            sys.exit(f"calls: {missing}")
        os.environ["NILUPPANG_LIBRARY"] = str(folder / "libniluppang.so")
        lines = [line.rstrip("\n").encode() for line in messages.lines(many + 2 * more)]
        (folder / "lines").write_bytes(b"\n".join(lines) + b"\n")
        print(f"{many} messages held, {more} more", flush=True)
        for language, measures in (("C", in_c(folder, folder / "lines", more)), ("Python", in_python(lines, more))):
            for measure, number, unit in measures:
                digits = 1 if number >= 10 else 3
                print(f"{language:6}  {measure:36}  {number:12.{digits}f} {unit}", flush=True)


if __name__ == "__main__":
    main()
