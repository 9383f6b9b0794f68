"""clerk.py: what a clerk has and looks for. Lists as spreadsheets save them, several files at once, files of another
kind, the lines that are refused, transfers by amount, account and identification, the messages and findings on a
transfer, lists that a bank may not hand in, and the meaning of each word."""
import csv
import html
import json
import pathlib
import re
import sys
from tests import harness
from tests.harness import DESK, EXAMPLES, SERVICES
from tests.page.driving import answered, reported, saved, with_report
from tools.desk.page_tables import plain, tables

DAY, BANK = "2025-03-10", "LUTEFRPP"
LANGUAGES = ["en", "de", "fr"]
CHECK = DESK / "check_list.py"
HEADER = "DbtrAgt,TxId,Amt,Sts\n"
# what is said of the list of the example in any case
OTHER_DAY = (
    "row 9: LUTEFRPPXXX LU20250310B9 is of 2025-03-11, and not of 2025-03-10; the report compares it all the same")


def text_at(browser, element):
    return browser.value(f"at('{element}').textContent")


def turned(browser, table):
    """Has the page show a table."""
    browser.value(f"turn('{table}')")
    browser.until(f"at('caption').textContent === words.{table}")


def rows_at(browser):
    """The cells of each row that is shown."""
    return browser.value("[...at('rows').tBodies[0].rows].map((row) => [...row.cells].map((cell) => cell.textContent))")


# ---- files

def by_spreadsheets(browser, checks, folder):
    """The list of an example as spreadsheets save it: each has the report of the list itself, and a line says what was
    read."""
    listed, report = ((EXAMPLES / f"bank-day.{name}").read_bytes() for name in ("list", "report"))
    rows = list(csv.reader(listed.decode().splitlines()))
    with_commas = [[bank, transfer, amount.replace(".", ","), status] for bank, transfer, amount, status in rows]
    many = sum(amount != amount.replace(".", ",") for _, _, amount, _ in rows)
    semicolons = "\r\n".join(";".join(row) for row in with_commas).encode() + b"\r\n"
    files = {"semicolons.csv": (semicolons, f"semicolons between its fields, amounts with a decimal comma: {many}"),
             "mark.csv": (b"\xef\xbb\xbf" + semicolons,
                          f"a byte order mark, semicolons between its fields, amounts with a decimal comma: {many}"),
             "marked.csv": (b"\xef\xbb\xbf" + listed, "a byte order mark"), "plain.csv": (listed, None),
             "tabs.csv": (("\ufeff" + "\n".join("\t".join(row) for row in rows)).encode("utf-16-le"),
                          "the encoding UTF-16, tabs between its fields")}
    answered(browser, EXAMPLES / "bank-day.jsonl")
    for name, (data, had) in files.items():
        path = pathlib.Path(folder, name)
        path.write_bytes(data)
        checks.fits(f"the report on {name}", reported(browser, BANK, DAY, path), report)
        said = [f"{name} has {had}. It was read as a list with commas, decimal points and no mark."] if had else []
        checks.fits(f"the line on {name}", text_at(browser, "notes").splitlines(), [*said, OTHER_DAY])
    wrong = pathlib.Path(folder, "wrong.csv")
    wrong.write_bytes(semicolons.replace(b";PENDING\r\n", b";DONE\r\n", 1))
    line = reported(browser, BANK, DAY, wrong)
    why = "row 8: 'DONE' is not one of ACCEPTED, REJECTED, RETURNED, PENDING, INVESTIGATED"
    checks.fits("a wrong row of a list with semicolons", str(line).splitlines(),
                ["wrong.csv is no list as a hub reads it:", why])
    swapped = pathlib.Path(folder, "swapped.csv")
    swapped.write_text("".join(f"{status};{bank};{amount};{transfer}\n"
                               for bank, transfer, amount, status in with_commas))
    checks.fits("a list with its columns in another order", reported(browser, BANK, DAY, swapped), report)
    checks.fits("the line on its order", "its columns in another order" in text_at(browser, "notes"), True)
    alone = pathlib.Path(folder, "alone.csv")
    alone.write_text(HEADER)
    checks.fits("the report on a header alone", b"ONLY_IN_ARCHIVE" in reported(browser, BANK, DAY, alone), True)
    checks.fits("the line on a header alone", text_at(browser, "notes").splitlines(),
                sentences(BANK, DAY, alone, EXAMPLES / "bank-day.archive"))


def by_several_files(browser, checks, folder):
    """Files of messages that are read as one: the texts are those of the program on all of them, one after another."""
    parts = [EXAMPLES / f"hub-morning.site{number}" for number in (1, 2, 3)]
    cut = pathlib.Path(folder, "cut")
    cut.write_bytes(parts[0].read_bytes().rstrip(b"\n"))
    files = [cut, *parts[1:]]
    data = b"".join(path.read_bytes() if path.read_bytes().endswith(b"\n") else path.read_bytes() + b"\n"
                    for path in files)
    answered(browser, *files)
    status = harness.run([harness.program(), "status"], data)
    checks.fits("the refused lines of several files", saved(browser, "refused"), status.errors)
    checks.fits("the status text of several files", saved(browser, "status"), status.text)
    checks.fits("the status text of `run`", saved(browser, "status"), (EXAMPLES / "hub-morning.run").read_bytes())
    turned(browser, "refused")
    places = [row[0] for row in rows_at(browser)]
    lines = (EXAMPLES / "hub-morning.run-refused").read_text().splitlines()
    found = [re.match(r"file (\d) line (\d+):", line).groups() for line in lines]
    right = [f"{files[int(number) - 1].name}: {line}" for number, line in found]
    checks.fits("the file and the line of each refused line", places, right)


def by_other_kinds(browser, checks, folder):
    """XML, compressed files and workbooks are named, and no line of them is refused."""
    message = (EXAMPLES / "desk/iso20022/pacs.008.xml").read_bytes()
    kinds = {"batch.xml": (message, "kind_xml"), "day.gz": (b"\x1f\x8b\x08\0day", "kind_gzip"),
             "day.xlsx": (b"PK\x03\x04day", "kind_zip"),
             "day.xls": (b"\xd0\xcf\x11\xe0day", "kind_workbook"), "day.pdf": (b"%PDF-1.7", "kind_pdf"),
             "list.txt": ("\ufeffDbtrAgt\tTxId".encode("utf-16-le"), "kind_list"),
             "list.csv": (HEADER.encode(), "kind_list"),
             "wide.jsonl": ("\ufeff{}".encode("utf-16-le"), "kind_utf16")}
    for name, (data, word) in kinds.items():
        path = pathlib.Path(folder, name)
        path.write_bytes(data)
        for files in [path], [EXAMPLES / "bank-day.jsonl", path]:
            answered(browser, *files)
            right = browser.value(f"said(WORDS.en.{word}, {json.dumps(name)})")
            shown = text_at(browser, "fault"), browser.value("at('answers').hidden")
            checks.fits(f"{name} as one of {len(files)}", shown, (right, True))
        checks.fits(f"the line on {name} begins with its name", right.startswith(f"{name} is "), True)
    answered(browser, EXAMPLES / "bank-day.jsonl")
    book = pathlib.Path(folder, "day.xlsx")
    right = browser.value("said(WORDS.en.kind_zip, 'day.xlsx')")
    checks.fits("a workbook as a list", reported(browser, BANK, DAY, book), right)


# ---- refused lines

def by_refused_lines(browser, checks):
    """Each refused line has the cause and the remedy of its last number, and its text."""
    codes = {}
    for columns, row in tables((EXAMPLES.parent / "docs/users/codes.md").read_text().splitlines()):
        if columns[0] == "Number":
            codes.setdefault(row.cells[0], list(map(plain, row.cells[1:4])))
    lines = (EXAMPLES / "refusals.jsonl").read_bytes().split(b"\n")
    answered(browser, EXAMPLES / "refusals.jsonl")
    turned(browser, "refused")
    seen = set()
    for row, said in zip(rows_at(browser), saved(browser, "refused").decode().splitlines()):
        number, _, name, cause, remedy, _, text = row
        words = re.fullmatch(r"line (\d+): (?:56 \d+ )?(\d+) ?(.*)", said).groups()
        last = re.search(r"\d+$", words[2])[0] if words[1] in ("36", "38") else words[1]
        seen.add(words[1])
        checks.fits(f"line {number}", (number, [cause, remedy]), (words[0], codes[last][1:]))
        checks.fits(f"the name of line {number}", name.split(": ")[-1], codes[last][0])
        checks.fits(f"the text of line {number}", text, lines[int(number) - 1].decode(errors="replace")[:1000])
    checks.fits("the codes that were seen", {"31", "34", "36", "38"} <= seen, True)


# ---- searches

def by_searches(browser, checks):
    """Transfers by an amount, an account or an end-to-end identification of their messages."""
    archive = [json.loads(line) for line in (EXAMPLES / "bank-day.archive").read_text().splitlines()]
    one = next(message for message in archive if message["MsgNmId"].startswith("pacs.008")
               and message["TxId"] == "LU20250310B1")
    orders = [message for message in archive if message["MsgNmId"].startswith("pacs.008")]

    def of(*keys):
        return {(order["DbtrAgt"], order["TxId"]) for order in orders if one[keys[0]] in [order[key] for key in keys]}

    spaced = " ".join(re.findall(".{1,4}", one["CdtrAcct"]))
    searches = [("claire petit", of("Dbtr", "Cdtr")), ("640.00", of("IntrBkSttlmAmt")), ("640,0", of("IntrBkSttlmAmt")),
                (spaced, of("CdtrAcct", "DbtrAcct")),
                ("640.01", set()), (one["DbtrAcct"].lower(), of("DbtrAcct", "CdtrAcct")),
                ("notprovided", of("EndToEndId"))]
    with_report(browser)
    turned(browser, "transfers")
    for text, right in searches:
        browser.value(f"at('search').value = {json.dumps(text)}")
        browser.value("show()")
        checks.fits(f"transfers by {text}", {tuple(row[:2]) for row in rows_at(browser)}, right)
    browser.value("at('search').value = 'LU20250310B1'; show()")
    browser.until("at('matched').textContent.startsWith('1 ')")
    checks.fits("what is shown of a transfer", rows_at(browser), [[
        "LUTEFRPPXXX", "LU20250310B1", "ACCEPTED", "", "640.00", "2025-03-10", "Claire Petit", "Giulia Conti",
        "NOTPROVIDED", "Messages"]])
    turned(browser, "findings")
    browser.value("at('search').value = '250.00'; show()")
    browser.until("at('matched').textContent.startsWith('1 ')")
    checks.fits("a finding by the amount of its transfer", [row[1] for row in rows_at(browser)], ["LU20250310B6"])
    browser.value("at('search').value = ''; show()")


# ---- one transfer

def opened_at(browser, transfer):
    """Presses the button at the end of a transfer's first row, and waits for its messages."""
    row = f"[...at('rows').tBodies[0].rows].find((row) => row.cells[1].textContent === {json.dumps(transfer)})"
    browser.value(f"{row}.querySelector('button').click()")
    browser.until("at('transfer').open && at('transfer-status').children.length")


def by_transfer(browser, checks):
    """The messages on a transfer from each table whose rows name one, with its findings, and what each message says."""
    with_report(browser)
    status = [line.split("|") for line in (EXAMPLES / "bank-day.status").read_text().splitlines()]
    right = {"report": "LU20250310B6", "transfers": "LU20250310B6", "findings": "LU20250310B6", "recalls": "HH-0301"}
    for table, transfer in right.items():
        turned(browser, table)
        buttons = browser.value(
            "at('rows').querySelectorAll('tbody tr').length === at('rows').querySelectorAll('tbody button').length")
        checks.fits(f"a button at each row of {table}", buttons, True)
        opened_at(browser, transfer)
        shown = browser.value("[...at('transfer-status').querySelectorAll('p > b')].map((word) => word.textContent)")
        places = {"T": 3, "F": 3, "R": 4}
        lines = [" ".join(fields[places[fields[0]]:]) for fields in status if fields[2] == transfer]
        checks.fits(f"the status and the findings of {transfer} in {table}", shown, lines)
        browser.value("at('transfer').close()")
    turned(browser, "transfers")
    for transfer, contents in [("LU20250310B6", ["250.00 EUR", "ACCP", "RJCT MS03"]),
                               ("LU20250310B2", ["12.34 EUR", "RJCT AC06"])]:
        opened_at(browser, transfer)
        shown = browser.value(
            "[...at('transfer-messages').querySelectorAll('summary b')].map((part) => part.textContent)")
        checks.fits(f"what the messages on {transfer} say", shown, contents)
        known = browser.value("[...at('transfer-known').querySelectorAll('dd')].map((part) => part.textContent)")
        checks.fits(f"the parties of {transfer}", (known[0], known[2].split(", ")[0]), (contents[0], "Claire Petit"))
        browser.value("at('transfer').close()")
    opened_at(browser, "HH-0301")
    shown = browser.value("[...at('transfer-messages').querySelectorAll('summary b')].map((part) => part.textContent)")
    checks.fits("a recall and its return", shown[-2:], ["HH-R301 DUPL 49.90 EUR", "HH-R301 FOCR 40.00 EUR"])
    browser.value("at('transfer').close()")


# ---- lists that a bank may not hand in

def sentences(bank, day, path, archive):
    """What the desk's check says of a list."""
    return harness.run([sys.executable, CHECK, bank, day, path, archive]).errors.decode().replace("check_list: ",
                                                                                                  "").splitlines()


def by_foreign_rows(browser, checks, folder):
    """A list with transfers of other banks has no report, and one of another day has one. The sentences are those of
    the desk."""
    archive, good = EXAMPLES / "bank-day.archive", EXAMPLES / "bank-day.list"
    foreign, no_order = pathlib.Path(folder, "foreign.list"), pathlib.Path(folder, "no-order.list")
    foreign.write_text(HEADER + "LUTEFRPP,LU20250310B5,640.00,ACCEPTED\nLUTEFRPP,LU20250310B1,640.00,ACCEPTED\n")
    no_order.write_text(HEADER + "LUTEFRPP,LU20250310B5,640.00,ACCEPTED\n")
    answered(browser, EXAMPLES / "bank-day.jsonl")
    for bank, listed, line in [
            ("DEUTDEFF", good, "row 2: LUTEFRPPXXX LU20250310B1 is a transfer to ARNOITFFXXX, and not of DEUTDEFFXXX"),
            ("TURIESMM", foreign,
             "row 3: LUTEFRPPXXX LU20250310B1 is a transfer to ARNOITFFXXX, and not of TURIESMMXXX"),
            ("DEUTDEFF", no_order,
             "row 2: LUTEFRPPXXX LU20250310B5 has no instruction, and DEUTDEFFXXX is not one of its banks")]:
        found = reported(browser, bank, DAY, listed).splitlines()
        checks.fits(f"no report on {listed.name} of {bank}", found[:2], [f"There is no report on {listed.name}.", line])
        checks.fits(f"the lines on {listed.name} of {bank}", found[1:], sentences(bank, DAY, listed, archive))
        shown = browser.value("[found.report === undefined, at('caption').textContent]")
        checks.fits(f"what is shown of {listed.name} of {bank}", shown, [True, "Transfers"])
    other = (
        "row 2: LUTEFRPPXXX LU20250310B1 is of 2025-03-10, and not of 2025-03-11; the report compares it all the same")
    for day, first in [("2025-03-11", other), (DAY, OTHER_DAY)]:
        report = reported(browser, BANK, day, good)
        checks.fits(f"the report of {day}", report[:8], b"DbtrAgt,")
        lines = text_at(browser, "notes").splitlines()
        checks.fits(f"the lines on a list of {day}", lines, sentences(BANK, day, good, archive))
        checks.fits(f"the first line on a list of {day}", "".join(lines[:1]), first)
    line = reported(browser, BANK, "2025-02-31", good)
    checks.fits("a day that no calendar has", line, "2025-02-31 is in no calendar.")


# ---- meanings and colors

def by_meanings(browser, checks):
    """Each word of each table has a sentence in each language, at its bar, in its cells and among the words of the
    page. In German and French the page says that no native speaker has read it."""
    meanings = json.loads((SERVICES / "hub/meanings.json").read_text())
    sentences_of = browser.value("SENTENCES")
    with_report(browser)
    for language in LANGUAGES:
        browser.value(f"speak('{language}')")
        its = sentences_of[language]
        checks.fits(f"the words in {language}", {table: sorted(words) for table, words in its.items()},
                    {table: sorted(words) for table, words in meanings.items()})
        lengths = {len(parts) for words in its.values() for parts in words.values()}
        checks.fits(f"the sentences in {language}", lengths, {1 if language == "en" else 2})

        def is_one(table, word, parts):
            return re.fullmatch(r"\w.{20,}\.", parts[0]) and all(parts) and (
                language == "en" or parts[0] != sentences_of["en"][table][word][0])

        wrong = [(table, word) for table, words in its.items() for word, parts in words.items()
                 if not is_one(table, word, parts)]
        checks.fits(f"sentences of {language} that are none", wrong, [])
        whole = html.unescape(browser.value("at('glossary-words').textContent"))
        checks.fits(f"the words of the page in {language}", [parts for words in its.values() for parts in words.values()
                                                             if not all(part in whole for part in parts)], [])
        for table in meanings:
            turned(browser, table)
            texts = "['span', 'small'].map((part) => bar.querySelector(part).textContent)"
            bars = browser.value(f"[...at('bars').children].map((bar) => [bar.value, ...{texts}])")
            checks.fits(f"the bars of {table} in {language}",
                        [(word, text) for word, _, text in bars if text != its[table][word][0]], [])
            same = [word for word, said, _ in bars if (said == word) != (language == "en" or table == "findings")]
            checks.fits(f"the words of {table} in {language}", same, [])
        checks.fits(f"who read the words in {language}", browser.value("at('unread').hidden"), language == "en")
    turned(browser, "report")
    cells = "[row.cells[2], row.cells[6]].map((cell) => [cell.textContent, cell.title])"
    titles, labels = browser.value(f"[[...at('rows').tBodies[0].rows].map((row) => {cells}), LABELS.fr]")
    words = {label: word for word, label in labels.items()}
    wrong = [(word, title) for row in titles for (word, title), table in zip(row, ("report", "transfers"))
             if title != sentences_of["fr"][table][words[word]][0]]
    checks.fits("what the cells of a report are explained by", wrong, [])
    browser.value("speak('en')")


def by_languages(browser, checks):
    """Numbers, days, statuses and the file for Excel in each language, and what is above a report."""
    with_report(browser)
    browser.value("at('search').value = 'LU20250310B3'; show()")
    right = {"en": ("STATUS_DIFFERS", "88.00", "2025-03-10"), "de": ("anderer Status", "88,00", "10.03.2025"),
             "fr": ("autre statut", "88,00", "10/03/2025")}
    for language, (result, amount, day) in right.items():
        browser.value(f"speak('{language}')")
        browser.until(f"at('rows').querySelector('td:nth-child(3)')?.textContent === '{result}' && "
                      "at('rows').tBodies[0].rows.length === 1")
        row, = rows_at(browser)
        checks.fits(f"a row in {language}", (row[2], row[5], row[7]), (result, amount, day))
        checks.fits(f"an amount in {language}", browser.value("money('1250000.50')"), {
            "en": "1,250,000.50", "de": "1.250.000,50", "fr": "1\u202f250\u202f000,50"}[language])
        head = browser.value("[...at('report-head').children].map((part) => part.textContent)")
        checks.fits(f"what is above a report in {language}",
                    (BANK in head[0] and day in head[0], "bank-day.list" in head[1] and "bank-day.jsonl" in head[1]),
                    (True, True))
        lines = browser.value("for_excel()").split("\r\n")
        separator, point = (",", ".") if language == "en" else (";", ",")
        rows = [line for line in lines if "B3" in line]
        checks.fits(f"the file for Excel in {language}", (lines[0][0], lines[0].count(separator), rows),
                    ("\ufeff", 6, [separator.join([
                        '"=""LUTEFRPPXXX"""', '"=""LU20250310B3"""', result, f"88{point}00",
                        browser.value("label('ACCEPTED')"), f"88{point}00",
                        browser.value("label('PENDING')")])]))
    above = "at('report-head').compareDocumentPosition(at('bars')) === Node.DOCUMENT_POSITION_FOLLOWING"
    checks.fits("the head of a report is above the bars", browser.value(above), True)
    browser.value("speak('en'); at('search').value = ''; show()")


def by_foot(browser, checks):
    """The foot has the commands that print the sum which the release lists, and no sum of its own."""
    foot = browser.value("document.querySelector('footer').textContent")
    page = (EXAMPLES.parent / "docs/users/page.md").read_text()
    commands = ["certutil -hashfile niluppang.html SHA256", "shasum -a 256 niluppang.html", "sha256sum niluppang.html"]
    checks.fits("the commands at the foot",
                [command for command in commands if command not in foot or command not in page], [])
    checks.fits("the sums at the foot", re.findall(r"[0-9a-f]{64}", foot), [])


def palette(text):
    """The colors of words in a style, in the light and in the dark."""
    return [re.findall(rf"--{name}: ?(#\w+)", text)
            for name in ("good", "wait", "bad", "bad-soft", "accent", "ink", "soft", "line")]


def by_colors(browser, checks):
    """The colors are those of the desk. In a report the result alone has one."""
    desk, page = (SERVICES / "hub/desk.html").read_text(), (EXAMPLES.parent / "web/page.css").read_text()
    checks.fits("the colors of the desk", palette(page), palette(desk))
    checks.fits("how many colors", [len(found) for found in palette(page)], [2] * 8)
    with_report(browser)
    classes = browser.value(
        "[...at('rows').tBodies[0].rows].flatMap((row) => [row.cells[4].className, row.cells[6].className])")
    checks.fits("the colors of statuses in a report", set(classes), {""})
