"""browser.py: the page answers in Chromium as the program does, is used by keys alone, opens no connection and stores
nothing.

The page is web/out/niluppang.html, which web/build makes. It is given each example by its choosers, and what it saves
must be the bytes of the files of examples/. Made-up inputs are answered as the program answers them, also if they are
taken in pieces of some bytes. After a question that is refused the site answers as before. With little memory the page
says that a file needs more, and answers a smaller one. The page's words are whole in each language, its parts have
roles and names, and its texts can be read in two sizes, light and dark (shown.py). Lists as spreadsheets save them,
several files, searches, findings and refused lines are shown as a clerk needs them (clerk.py). --pictures FOLDER keeps
pictures of the page.
"""
import argparse
import base64
import http.server
import json
import pathlib
import random
import sys
import tempfile
import threading
from tests import harness
from tests.golden import lists, made_inputs
from tests.golden.desk_converters import WRONG_CSVS
from tests.golden.examples import REPORTS
from tests.harness import EXAMPLES
from tests.page import clerk, shown
from tests.chromium import Browser, Failed
from tests.page.driving import Checks, answered, opened, reported, saved, text_of, with_report

MADE_UP, SEED = 300, 61
PIECES = [1, 100, 5000]  # bytes of a file that the worker takes at once
TEXTS = ["refused", "status", "totals", "archive"]


def many(browser, names, inputs):
    """The texts of each of many files of messages, by their names."""
    got = browser.value(f"many({json.dumps(names)}, [{', '.join(text_of(data) for data in inputs)}])")
    return [[base64.b64decode(text) for text in texts] for texts in got]


# ---- by files

def by_files(browser, checks):
    """Each example, and each list, as a clerk gives them."""
    for example in sorted(EXAMPLES.glob("*.jsonl")):
        def read(suffix):
            return example.with_suffix(suffix).read_bytes()

        answered(browser, example)
        for name in TEXTS:
            checks.fits(f"{example.stem} {name}", saved(browser, name), read("." + name))
        if example.stem in REPORTS:
            bank, day = REPORTS[example.stem]
            checks.fits(f"{example.stem} report", reported(browser, bank, day, example.with_suffix(".list")),
                        read(".report"))


def by_wrong_files(browser, checks, folder):
    """Lists, banks and days that are refused, each with a line that says why. A list has the lines of
    list_from_csv.py."""
    answered(browser, EXAMPLES / "bank-day.jsonl")
    bad = pathlib.Path(folder, "bad.list")
    texts = [lists.HEADER.encode() + rows for rows, _ in lists.BAD_LISTS]
    for data in [*texts, *(text.encode() for text, _ in WRONG_CSVS if not text.startswith("PK"))]:
        bad.write_bytes(data)
        found = harness.run([sys.executable, harness.DESK / "list_from_csv.py", bad])
        said = found.errors.decode().replace("list_from_csv: ", "").splitlines()
        lines = reported(browser, "LUTEFRPP", "2025-03-10", bad)
        right = ["bad.list is no list as a hub reads it:", *said] if found.status else lines
        checks.fits(f"the list {data!r}", lines.splitlines() if found.status else lines[:8],
                    right if found.status else b"DbtrAgt,")
    good, report = EXAMPLES / "bank-day.list", (EXAMPLES / "bank-day.report").read_bytes()
    checks.fits("a bank in small letters", reported(browser, "lutefrpp", "2025-03-10", good), report)
    checks.fits("a bank that is none", "BIC" in str(reported(browser, "LUTEFR", "2025-03-10", good)), True)
    for day in ("10.03.2025", "10/3/2025"):
        checks.fits(f"the day {day}", reported(browser, "LUTEFRPP", day, good), report)
    checks.fits("a day in a form of its own", "2025-03-10" in str(reported(browser, "LUTEFRPP", "March 10", good)),
                True)
    line = reported(browser, "LUTEFRPP", "2025-03-10", EXAMPLES / "bank-day.jsonl")
    checks.fits("no list file", str(line).splitlines()[1:],
                ["the file is JSON, as messages are: a list is CSV with the header DbtrAgt,TxId,Amt,Sts"])


def chosen(browser, selector, path):
    """Chooses a file that the page does not read yet, and changes it. The browser looks at a file some time after it was
    chosen: when the file was read once, the browser knows how it was."""
    browser.value(f"window.has_come = false; window.kept_order = at('{selector}').onchange; "
                  f"at('{selector}').onchange = () => at('{selector}').files[0].arrayBuffer().then("
                  "() => { has_come = true; }); 0")
    browser.give(f"#{selector}", path)
    browser.until("has_come")
    browser.value(f"at('{selector}').onchange = kept_order")
    path.write_bytes(b"{}\n")


def by_changed_files(browser, checks, folder):
    """A file of messages is read once: the report, the archive and the messages on a transfer are those of what was
    read. A file that changes before it is read is refused."""
    messages, listed, day = (pathlib.Path(folder, name) for name in ("changing.jsonl", "changing.list", "day.jsonl"))
    examples = {path: (EXAMPLES / f"bank-day.{path.suffix[1:]}").read_bytes() for path in (messages, listed)}
    messages.write_bytes(examples[messages])
    listed.write_bytes(examples[listed])
    answered(browser, messages)
    messages.write_bytes(b"{}\n")
    right = [(EXAMPLES / f"bank-day.{name}").read_bytes() for name in ("report", "archive")]
    report = reported(browser, "LUTEFRPP", "2025-03-10", listed)
    checks.fits("the report and the archive of a file that changed since", [report, saved(browser, "archive")], right)
    day.write_bytes(examples[messages])
    chosen(browser, "messages", day)
    said, changed = "at('fault').textContent", browser.value("WORDS.en.changed")
    browser.value("document.body.dataset.done = ''; at('compare').click()")
    browser.until("document.body.dataset.done === '1'")
    checks.fits("a file that changed before it was read", browser.value(said), changed)
    answered(browser, day)
    checks.fits("the file as it is then", saved(browser, "refused"), b"line 1: 33\n")
    chosen(browser, "list", listed)
    browser.value("at('bank').value = 'LUTEFRPP'; at('day').value = '2025-03-10'; document.body.dataset.done = ''; "
                  "at('compare').click()")
    browser.until("document.body.dataset.done === '1'")
    checks.fits("a list that changed before it was read", browser.value(said), changed)


def by_messages(browser, checks):
    """The messages on each transfer of an example, the earliest first."""

    def parts(message):
        return [message, *message.get("TxInf", [])]

    for example in sorted(EXAMPLES.glob("*.jsonl")):
        answered(browser, example)
        lines = example.with_suffix(".archive").read_text().splitlines()
        archive = sorted(((json.loads(line), line) for line in lines), key=lambda both: both[0]["CreDtTm"])
        for transfer in example.with_suffix(".status").read_text().splitlines():
            kind, bank, tx, *_ = transfer.split("|")

            def is_on(part):
                return (part.get("DbtrAgt"), part.get("OrgnlTxId", part.get("TxId"))) == (bank, tx)

            right = [line for message, line in archive if any(map(is_on, parts(message)))]
            if kind == "T":
                got = browser.value(f"ask('messages', {json.dumps({'bank': bank, 'transfer': tx})})")
                checks.fits(f"the messages on {bank} {tx}", [row[4] for row in got["rows"]], right)


# ---- by the worker

def made_up():
    """Inputs that are made from the examples: lines cut, changed, repeated, in another order."""
    chance = random.Random(SEED)
    lines = [line for path in sorted(EXAMPLES.glob("*.jsonl")) for line in path.read_bytes().splitlines()]
    for _ in range(MADE_UP):
        chosen = [bytearray(chance.choice(lines)) for _ in range(chance.randrange(40))]
        for line in chosen:
            for _ in range(chance.choice([0, 0, 0, 1, 2])):
                if line:
                    line[chance.randrange(len(line))] = chance.choice(b'09AZaz"{}[],: |\\\x00\xff')
        yield b"\n".join(bytes(line) for line in chosen) + chance.choice([b"", b"\n", b"\r\n"])


def by_made_up(browser, checks):
    """Made-up inputs, each as the program answers it. The worker takes them at once, and then in pieces of some
    bytes."""
    program = harness.program()
    inputs = [*made_up(), *(one.data for one in made_inputs.made_inputs() if len(one.data) < 1 << 20)]
    right = []
    for data in inputs:
        status, totals = (harness.run([program, command], data) for command in ("status", "totals"))
        right.append([status.errors, status.text, totals.text])
    for piece in 1 << 26, *PIECES[1:]:
        browser.value(f"start_with({piece})")
        for place in range(0, len(inputs), 25):
            for data, got, its in zip(inputs[place:], many(browser, TEXTS[:3], inputs[place:place + 25]),
                                      right[place:]):
                checks.fits(f"made-up input {data[:60]!r} in pieces of {piece}", got, its)


def by_pieces(browser, checks):
    """Each example in pieces of some bytes: shorter than a line, and as long as some lines. The first is shorter than
    any line."""
    examples = sorted(EXAMPLES.glob("*.jsonl"))
    right = [[path.with_suffix("." + name).read_bytes() for name in TEXTS] for path in examples]
    blank = b"\n" * 1000 + b"x\n\r\n" * 1000 + b"y"
    lines = "".join(f"line {number}: 31\n" for number in [*range(1001, 3001, 2), 3001]).encode()
    for piece in PIECES:
        browser.value(f"start_with({piece})")
        got = many(browser, TEXTS, [path.read_bytes() for path in examples])
        for path, its, texts in zip(examples, right, got):
            checks.fits(f"{path.name} in pieces of {piece}", texts, its)
        checks.fits(f"blank lines in pieces of {piece}", many(browser, ["refused"], [blank, b"", b"\n"]),
                    [[lines], [b""], [b""]])


def by_refusals(browser, checks):
    """Each code of a question without an answer, with its place. The site answers as before then."""
    day, listed, right = ((EXAMPLES / f"bank-day.{name}").read_bytes() for name in ("jsonl", "list", "report"))
    before = many(browser, TEXTS, [day])[0]

    def report(bank, date, rows):
        return browser.value(f"report_on({json.dumps(bank)}, {json.dumps(date)}, {text_of(rows)})")

    for name, words, fault in [
            ("a wrong bank", ("lutefrpp", "2025-03-10", listed), [73, 1]),
            ("no bank", ("", "2025-03-10", b""), [73, 1]),
            ("a wrong day", ("LUTEFRPP", "2025-3-10", listed), [73, 2]), ("no day", ("LUTEFRPP", "", listed), [73, 2]),
            ("a wrong list", ("LUTEFRPP", "2025-03-10", lists.HEADER.encode() + b"A,B,C,D\n"), [48, 0, "row_bic"]),
            ("an empty list", ("LUTEFRPP", "2025-03-10", b""), [48, 0, "list_empty"])]:
        checks.fits(name, report(*words), fault)
        checks.fits(f"the report after {name}", base64.b64decode(report("LUTEFRPP", "2025-03-10", listed)), right)
    checks.fits("the texts after all", [saved(browser, name) for name in TEXTS], before)


# ---- by keys

def chosen_by_key(browser, path):
    """Opens the chooser that has the focus by a key, and chooses a file."""
    browser.press("Enter")
    node = browser.event("Page.fileChooserOpened")["backendNodeId"]
    browser.ask("DOM.setFileInputFiles", files=[str(path)], backendNodeId=node)


def tab_to(browser, selector):
    """Goes on by the Tab key to an element."""
    for _ in range(40):
        browser.press("Tab")
        if browser.value(f"document.activeElement?.matches({json.dumps(selector)}) ?? false"):
            return
    raise Failed(f"no Tab comes to {selector}")


def by_keys(browser, checks):
    """A report, and the messages on a transfer, by keys alone."""
    browser.ask("Page.setInterceptFileChooserDialog", enabled=True)
    tab_to(browser, "#messages")
    chosen_by_key(browser, EXAMPLES / "bank-day.jsonl")
    browser.until("document.body.dataset.done === '1'")
    browser.value("document.getElementById('messages').focus()")
    tab_to(browser, "#list")
    chosen_by_key(browser, EXAMPLES / "bank-day.list")
    for selector, text in ("#bank", "LUTEFRPP"), ("#day", "2025-03-10"):
        tab_to(browser, selector)
        browser.ask("Input.insertText", text=text)
    browser.value("document.body.dataset.done = ''")
    tab_to(browser, "#compare")
    browser.press("Enter")
    browser.until("document.body.dataset.done === '1'")
    rows = (EXAMPLES / "bank-day.report").read_text().count("\n") - 1
    checks.fits("rows of the report by keys", browser.value("at('rows').tBodies[0].rows.length"), rows)
    tab_to(browser, "#tables button:nth-child(2)")
    browser.press("Enter")
    browser.until("at('caption').textContent === 'Transfers' && at('rows').querySelector('td button')")
    checks.fits("the focus after a table is chosen",
                browser.value("document.activeElement?.matches('#tables button:nth-child(2)') ?? false"), True)
    tab_to(browser, "td button")
    browser.press("Enter")
    browser.until("at('transfer').open && at('transfer-messages').children.length")
    times = browser.value(
        "[...at('transfer-messages').querySelectorAll('summary')].map((line) => line.textContent.slice(0, 20))")
    checks.fits("messages in the order of time", times, sorted(times))
    tab_to(browser, "#close")
    browser.press("Enter")
    checks.fits("closed by a key", browser.value("at('transfer').open"), False)


# ---- connections

class Seen(http.server.BaseHTTPRequestHandler):
    """A server that counts the connections on which it is sent a byte. For a frame or a form Chromium opens one before
    the page's policy stops it, and sends nothing."""
    count = 0

    def handle_one_request(self):
        Seen.count += bool(self.rfile.peek(1))
        super().handle_one_request()

    def log_message(self, *_):
        pass


def by_connections(browser, checks):
    """Every kind of connection is tried from the page. A server on this machine is sent nothing."""
    server = http.server.ThreadingHTTPServer(("127.0.0.1", 0), Seen)
    threading.Thread(target=server.serve_forever, daemon=True).start()
    try:
        browser.value(f"connect('http://127.0.0.1:{server.server_port}/')")
    finally:
        server.shutdown()
    checks.fits("connections on which a server was sent something", Seen.count, 0)


def by_storage(browser, checks):
    """After a report the browser holds nothing of the page, and the page opened anew shows nothing."""
    with_report(browser)
    held = ("(async () => [localStorage.length, sessionStorage.length, document.cookie, (await "
            "indexedDB.databases()).length, (await caches.keys()).length])()")
    checks.fits("what is stored", browser.value(held), [0, 0, "", 0, 0])
    opened(browser)
    checks.fits("the page opened anew", browser.value(
        "at('answers').hidden && at('bank').value === '' && at('messages').files.length === 0"), True)


def main():
    parser = argparse.ArgumentParser(description=__doc__, formatter_class=argparse.RawDescriptionHelpFormatter)
    parser.add_argument("--pictures")
    asked, checks = parser.parse_args(), Checks()
    with Browser() as browser, tempfile.TemporaryDirectory() as folder:
        opened(browser)
        if asked.pictures:
            shown.pictures(browser, asked.pictures)
            opened(browser)

        def in_folder(step):
            return lambda *both: step(*both, folder)

        for step in (by_files, in_folder(by_wrong_files), in_folder(by_changed_files), by_messages,
                     by_made_up, by_pieces, by_refusals,
                     in_folder(shown.by_memory), in_folder(shown.by_full_memory),
                     in_folder(shown.by_reading), in_folder(shown.by_rows),
                     shown.by_typing, shown.by_remedies, shown.by_words, shown.by_roles,
                     shown.by_looks, in_folder(shown.by_dropping),
                     in_folder(clerk.by_spreadsheets), in_folder(clerk.by_several_files),
                     in_folder(clerk.by_other_kinds),
                     clerk.by_refused_lines, clerk.by_languages, clerk.by_foot, clerk.by_searches, clerk.by_transfer,
                     in_folder(clerk.by_foreign_rows), clerk.by_meanings,
                     clerk.by_colors, by_keys, by_connections, by_storage):
            step(browser, checks)
            opened(browser)
    print(f"{checks.passed} passed, {checks.failed} failed")
    raise SystemExit(1 if checks.failed else 0)


if __name__ == "__main__":
    main()
