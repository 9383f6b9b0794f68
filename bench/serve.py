"""bench/serve.py [--folder FOLDER] [--large N]: measures `serve` on this machine, beside SQLite and bare writes in the
same folder.

- rounds of 1, 10, 100 and 1,000 messages, each sent when the one before has its replies: the median and the 99th of 100
in milliseconds,
  and messages a second. Beside them rows by Python's sqlite3 (WAL, synchronous FULL), a commit a round, and the same
  lines by `pwrite`
  and `fdatasync`, one of each a round;
- requests a second through a pipe that is never empty: messages, and questions about one transfer;
- the opening of a journal with a million messages: seconds, and the greatest memory.

The folder is on the disk that is measured (default: the current one). With --large 0 the opening is left out.
"""
import argparse
import json
import os
import pathlib
import sqlite3
import statistics
import sys
import tempfile
import threading
import time
sys.path.insert(0, str(pathlib.Path(__file__).resolve().parents[1]))
from bench.generate import messages
from tests import harness
from tests.oracle import serve
from tests.serve.serving import Process

SIZES = {1: 400, 10: 300, 100: 100, 1000: 30}  # of each size of a round, how many rounds
STREAM, QUESTIONS, LATEST = 200_000, 20_000, 600
HEAD = serve.header(1, 2)


def lines_of(many, seed=1):
    return [line.rstrip("\n").encode() for line in messages.lines(many, seed)]


def timed(rounds, once):
    """The seconds of each round."""
    found = []
    for lines in rounds:
        began = time.perf_counter()
        once(lines)
        found.append(time.perf_counter() - began)
    return found


def shown(name, size, seconds):
    last = statistics.quantiles(seconds, n=100)[98]
    print(f"{name}, rounds of {size}: {statistics.median(seconds) * 1000:.2f} ms, 99th {last * 1000:.2f} ms, "
          f"{size * len(seconds) / sum(seconds):.0f} messages a second", flush=True)


# ---- rounds

def by_serve(program, folder, rounds):
    with Process(program, 1, 2, folder / "serve") as process:
        process.reply()

        def once(lines):
            process.send(b"".join(line + b"\n" for line in lines))
            for _ in lines:
                process.reply()
        return timed(rounds, once)


def by_sqlite(folder, rounds):
    base = sqlite3.connect(folder / "base", isolation_level=None)
    base.execute("PRAGMA journal_mode = WAL")
    base.execute("PRAGMA synchronous = FULL")
    base.execute("CREATE TABLE own (number INTEGER PRIMARY KEY, line BLOB NOT NULL)")

    def once(lines):
        base.execute("BEGIN")
        base.executemany("INSERT INTO own (line) VALUES (?)", ((line,) for line in lines))
        base.execute("COMMIT")
    try:
        return timed(rounds, once)
    finally:
        base.close()


def by_writes(folder, rounds):
    file, at = os.open(folder / "bare", os.O_RDWR | os.O_CREAT, 0o644), 0

    def once(lines):
        nonlocal at
        at += os.pwrite(file, b"".join(line + b"\n" for line in lines), at)
        os.fdatasync(file)
    try:
        return timed(rounds, once)
    finally:
        os.close(file)


def rounds(program, folder):
    for size, many in SIZES.items():
        lines = lines_of(size * many)
        parts = [lines[at:at + size] for at in range(0, len(lines), size)]
        with tempfile.TemporaryDirectory(dir=folder) as place:
            place = pathlib.Path(place)
            shown("serve", size, by_serve(program, place, parts))
            shown("sqlite3", size, by_sqlite(place, parts))
            shown("pwrite and fdatasync", size, by_writes(place, parts))


# ---- a pipe that is never empty

def stream(process, lines):
    """The seconds from the first request to the last reply."""
    data, began = b"".join(line + b"\n" for line in lines), time.perf_counter()
    os.set_blocking(process.process.stdin.fileno(), True)
    writer = threading.Thread(target=process.process.stdin.write, args=(data,), daemon=True)
    writer.start()
    for _ in lines:
        process.reply(LATEST)
    return time.perf_counter() - began


def requests(program, folder):
    with tempfile.TemporaryDirectory(dir=folder) as place, Process(program, 1, 2,
                                                                   pathlib.Path(place, "serve")) as process:
        process.reply()
        lines = lines_of(STREAM)
        print(f"{STREAM / stream(process, lines):.0f} messages a second through a full pipe", flush=True)
        instructions = [message for message in map(json.loads, lines[:2 * QUESTIONS]) if "TxId" in message][:QUESTIONS]
        asked = [f"? transfer {message['DbtrAgt']} {message['TxId']}".encode() for message in instructions]
        process.ask(asked[0], LATEST)
        print(f"{len(asked) / stream(process, asked):.0f} questions about a transfer a second, on {STREAM} messages",
              flush=True)


# ---- an opening

def write_journal(path, lines):
    """The journal of a site that took these lines, each with its line feed."""
    with open(path, "wb") as file:
        file.write(serve.gated([HEAD])[:-1])
        for line in lines:
            file.write(serve.OPEN + line.encode())
        file.write(serve.SHUT)


def opening(program, folder, many):
    with tempfile.TemporaryDirectory(dir=folder) as place:
        path = pathlib.Path(place, "serve")
        write_journal(path, messages.lines(many))
        began = time.perf_counter()
        with Process(program, 1, 2, path) as process:
            ready = process.reply(LATEST)
            seconds = time.perf_counter() - began
            began = time.perf_counter()
            process.ask(b"? transfer BANKDEFF T1", LATEST)
            memory = pathlib.Path(f"/proc/{process.process.pid}/status").read_text()
            peak = next(int(line.split()[1]) for line in memory.splitlines() if line.startswith("VmHWM"))
            print(f"an opening with {many} messages, {path.stat().st_size / 1e6:.0f} MB: {seconds:.1f} s, its first "
                  f"answer {time.perf_counter() - began:.1f} s, {peak / 1000:.0f} MB at most "
                  f"({ready.decode().strip()})", flush=True)


def main():
    it = argparse.ArgumentParser(description=__doc__, formatter_class=argparse.RawDescriptionHelpFormatter)
    it.add_argument("--folder", default=".")
    it.add_argument("--large", type=int, default=1_000_000)
    asked, program = it.parse_args(), harness.program()
    print("load averages of the machine before:", *os.getloadavg(), flush=True)
    rounds(program, asked.folder)
    requests(program, asked.folder)
    if asked.large:
        opening(program, asked.folder, asked.large)


if __name__ == "__main__":
    main()
