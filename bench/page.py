"""bench/page.py PAGE FILE [LIST BANK DAY]: measures the page PAGE in Chromium on a file of messages, and on a report if
a list is named.

A line for each of the two has the seconds until the page shows the answer, the processor seconds of all processes of
the browser since it began, the most memory that the process of the page had, and the memory of the module after it read
the file. The last line has the sums of the texts, to be compared with the program's or with another page's.
"""
import pathlib
import sys
import time
sys.path.insert(0, str(pathlib.Path(__file__).resolve().parents[1]))
from tests import chromium
from tests.page import driving

TICKS = 100  # of a second of the processor, as /proc counts
LONG = 3600
WATCH = """const kept_order = worker.onmessage;
worker.onmessage = (event) => { window.module_memory = event.data.answer?.memory ?? window.module_memory; kept_order(event); }; 1"""
SUM = """(async () => {{ const blob = (await ask("text", {{ name: "{0}" }})).blob, sum = await crypto.subtle.digest("SHA-256", await blob.arrayBuffer());
return [...new Uint8Array(sum)].map((byte) => byte.toString(16).padStart(2, "0")).join("").slice(0, 16); }})()"""


def processes(first):
    """The numbers of a process and of all below it."""
    parents = {}
    for path in pathlib.Path("/proc").glob("[0-9]*/stat"):
        try:
            parents[int(path.parent.name)] = int(path.read_text().rsplit(")", 1)[1].split()[1])
        except OSError:
            continue
    found, left = [], [first]
    while left:
        found.append(left.pop())
        left += [child for child, parent in parents.items() if parent == found[-1]]
    return found


def used(browser):
    """The processor seconds of all processes of the browser, and the most memory that one of the kind of the page
    had."""
    seconds = most = 0
    for number in processes(browser.process.pid):
        folder = pathlib.Path(f"/proc/{number}")
        try:
            fields = (folder / "stat").read_text().rsplit(")", 1)[1].split()
            is_page = b"--type=renderer" in (folder / "cmdline").read_bytes()
            status = dict(line.split(":", 1) for line in (folder / "status").read_text().splitlines())
        except OSError:
            continue
        seconds += (int(fields[11]) + int(fields[12])) / TICKS
        most = max(most, int(status["VmHWM"].split()[0]) * 1024 if is_page else 0)
    return seconds, most


def said(browser, name, began):
    """Prints what was measured since the beginning of a step."""
    seconds, most = used(browser)
    module = browser.value("window.module_memory") or 0
    print(f"{name}: {time.monotonic() - began:.1f} s, processor {seconds:.1f} s, memory {most / 1e9:.2f} GB, "
          f"module {module / 1e9:.2f} GB, "
          f"{browser.value('at(`fault`).textContent') or browser.value('at(`state`).textContent')}", flush=True)


def main():
    page, messages, *report = sys.argv[1:]
    chromium.SECONDS = LONG
    driving.PAGE = pathlib.Path(page)
    with chromium.Browser() as browser:
        browser.open(page)
        browser.value(WATCH)
        began = time.monotonic()
        driving.answered(browser, messages)
        said(browser, "answers", began)
        names = ["refused", "status", "totals"]
        if report:
            listed, bank, day = report
            began = time.monotonic()
            browser.value(f"at('bank').value = '{bank}'; at('day').value = '{day}'; document.body.dataset.done = ''")
            browser.give("#list", listed)
            browser.value("at('compare').click()")
            browser.until("document.body.dataset.done === '1'")
            said(browser, "report", began)
            names.append("report")
        print(" ".join(f"{name} {browser.value(SUM.format(name))}" for name in names))


if __name__ == "__main__":
    main()
