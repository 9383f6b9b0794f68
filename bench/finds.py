"""bench/finds.py [--messages N] [--samples N]: how long a desk waits for a transfer of which a caller knows the amount
and the day.

A site takes the messages and keeps its mirror. Then the page of the desk is asked in Chromium, with an amount and a day
for each sample, and with the beginnings of both names. The time goes from the search until the page shows the transfer,
or a list with it, with both names. It prints the seconds until the mirror has all, the bytes of the database, and the
median and the longest time of the samples. The program is that of the gate, or the one that SCT_SITES names.
"""
import argparse
import itertools
import json
import pathlib
import random
import statistics
import sys
import tempfile
import time
sys.path.insert(0, str(pathlib.Path(__file__).resolve().parents[1]))
from bench.generate import messages
from tests import harness
from tests.chromium import Browser
from tests.hub import sites

MOST_POSTED = 20_000
LATEST = 3600  # seconds in which the mirror must have all
# the milliseconds of a search, and whether all that must be shown is there
SEARCH = """(async () => {{
  const began = performance.now();
  await find({what});
  const shown = document.getElementById("transfer").innerText;
  return [performance.now() - began, {right}.every(it => shown.includes(it))];
}})()"""


def posted(port, lines):
    """Posts lines, as many at once as a site takes. The seconds until the mirror of the site has all."""
    its = iter(lines)
    for some in iter(lambda: list(itertools.islice(its, MOST_POSTED)), []):
        answer = sites.asked(port, "/messages", "".join(some).encode())
        if answer.status != 200:
            raise SystemExit(f"a post was answered {answer.status}: {answer.body[:200]!r}")
    began, vector = time.monotonic(), f"1:{len(lines)}"
    if not sites.until(lambda: sites.asked(port, "/work").headers.get("Niluppang-Vector") == vector, LATEST):
        raise SystemExit("the mirror does not have all")
    return time.monotonic() - began


def measured(browser, what, one):
    """The milliseconds of a search that finds an instruction."""
    right = json.dumps([one["TxId"], one["Dbtr"], one["Cdtr"]])
    milliseconds, is_right = browser.value(SEARCH.format(what=json.dumps(what), right=right))
    if not is_right:
        raise SystemExit(f"the page does not show {right} for {what}")
    return milliseconds


def main():
    parser = argparse.ArgumentParser(description=__doc__, formatter_class=argparse.RawDescriptionHelpFormatter)
    parser.add_argument("--messages", type=int, default=200_000)
    parser.add_argument("--samples", type=int, default=50)
    asked = parser.parse_args()
    lines = list(messages.lines(asked.messages))
    instructions = [one for one in map(json.loads, random.Random(1).sample(lines, min(len(lines), 3 * asked.samples)))
                    if "TxId" in one]
    with tempfile.TemporaryDirectory(prefix="finds-") as folder:
        port, database = sites.free_ports(1), pathlib.Path(folder, "mirror.db")
        words = "--site=1", f"--port={port}", f"--mirror={database}"
        with sites.Hub(sites.interpreter(), harness.program_or_stand_in(), pathlib.Path(folder, "hub"),
                       *words) as hub, Browser() as browser:
            sites.begun(hub.process, lambda: sites.is_well(port))
            seconds = posted(port, lines)
            size = sum(path.stat().st_size for path in database.parent.glob("mirror.db*"))
            print(f"the mirror has {len(lines):,} messages after {seconds:.1f} s, in {size:,} bytes with the log of "
                  "SQLite", flush=True)
            browser.go(f"http://localhost:{port}/")
            browser.until("document.getElementById('totals').children.length && document.querySelector('#news li')")
            for name, what in (("an amount and a day", lambda it: f"{it['IntrBkSttlmAmt']} {it['IntrBkSttlmDt']}"),
                               ("an amount and both names",
                                lambda it: f"{it['IntrBkSttlmAmt']} {it['Dbtr']} {it['Cdtr']}")):
                times = [measured(browser, what(one), one) for one in instructions[:asked.samples]]
                print(
                    f"{name}: {statistics.median(times):.0f} ms (median), {max(times):.0f} ms at most, of {len(times)}",
                    flush=True)


if __name__ == "__main__":
    main()
