"""bench/questions.py [--folder FOLDER] [--sizes N,N..]: how long a site answers short questions, by how much it holds.

The site holds so many messages, and beside them 20 transfers of a bank of its own, each contradicted. The first report
evaluates and files all. The other times are medians of 50: of the line of that bank, of its report on an empty list,
also for banks, and of the contradictions. Then one message comes before each report.
"""
import argparse
import os
import pathlib
import statistics
import sys
import tempfile
import time
sys.path.insert(0, str(pathlib.Path(__file__).resolve().parents[1]))
from bench.generate import messages, samples
from bench.serve import LATEST, write_journal
from tests import harness
from tests.serve.serving import Process

BANK, DAY, TIMES = "KLEIDEFF", "2025-03-10", 50
REPORT = f"report {BANK} {DAY} DbtrAgt,TxId,Amt,Sts\t"
QUESTIONS = {
    "? bank": f"? bank {BANK}",
    "? report": f"? {REPORT}",
    "? of BANKS report": f"? of {BANK} {REPORT}",
    "? contradictions": "? contradictions",
}


def instruction(number, **changed):
    return samples.line(samples.instruction(
        MsgId=f"K{number}", TxId=f"K{number}", EndToEndId=f"K{number}", InstgAgt=BANK, DbtrAgt=BANK, IntrBkSttlmDt=DAY,
        **changed))


def lines_of(many):
    """The messages that a site holds."""
    yield from messages.lines(many)
    for number in range(20):
        yield instruction(number)
        yield instruction(number, IntrBkSttlmAmt="7.01")


def asked(process, question):
    """The milliseconds until a question has its answer."""
    began = time.perf_counter()
    if not process.ask(question.encode(), LATEST).startswith(b"TEXT "):
        harness.stop(f"no answer to {question}")
    return 1000 * (time.perf_counter() - began)


def measure(program, folder, many):
    with tempfile.TemporaryDirectory(dir=folder) as place:
        path = pathlib.Path(place, "serve")
        write_journal(path, lines_of(many))
        with Process(program, 1, 2, path) as process:
            process.reply(LATEST)
            for name in "? report", "? of BANKS report":
                print(f"{many} messages, first {name}: {asked(process, QUESTIONS[name]):.0f} ms", flush=True)
            for name, question in QUESTIONS.items():
                taken = statistics.median(asked(process, question) for _ in range(TIMES))
                print(f"  {name}: {taken:.3f} ms", flush=True)
            found = []
            for number in range(TIMES):
                process.ask(instruction(100 + number).rstrip("\n").encode(), LATEST)
                found.append(asked(process, QUESTIONS["? report"]))
            print(f"  ? report after one message more: {statistics.median(found):.3f} ms", flush=True)


def main():
    it = argparse.ArgumentParser(description=__doc__, formatter_class=argparse.RawDescriptionHelpFormatter)
    it.add_argument("--folder", default=".")
    it.add_argument("--sizes", default="100000,1000000")
    words, program = it.parse_args(), harness.program()
    print("load averages of the machine before:", *os.getloadavg(), flush=True)
    for many in words.sizes.split(","):
        measure(program, words.folder, int(many))


if __name__ == "__main__":
    main()
