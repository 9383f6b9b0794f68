"""desk_tools.py: the desk's tools in tools/desk/ write what the files in examples/desk/ have, and refuse what they
must.

- desk.sh makes the folder day/ of bank-day.archive and iso20022.jsonl. It makes no folder after a status of 2 or 3, and
leaves a
  folder that is there as it is. It warns of a day that is empty or that lost messages. It reports on no list of another
  bank.
- desk.sh splits the archive of a folder as the definitions do. After a bad day, and after a fault of the program, it
leaves the folder.
- load_sqlite.py loads the refused lines, and ask_sqlite.py takes no mistyped day, time or bank. It finds a transfer by
what a caller knows,
  and says so if there is none. The page has the tables.
- explain.py prints a name of the code for each number of a refused line, and why a line is no JSON.

desk_converters.py has the two tools that convert.
"""
import contextlib
import csv
import re
import shlex
import shutil
import sqlite3
import tempfile
from bench.generate import samples
from tests import harness
from tests.documents import pages
from tests.golden.shown import copied, place, shell, tools_of
from tests.harness import EXAMPLES, reported
from tools.desk.page_tables import plain, tables

# a program that writes half an answer and ends with a fault
FAULTY = "#!/bin/sh\ncat > /dev/null\necho 'T|HANSDEHHXXX|'\necho 'fault {}' >&2\nexit {}\n"


def answers(name, command, right, folder, commands, **variables):
    """Whether a command prints a text on both outputs and ends with a status."""
    answer = shell(command, folder, commands, **variables)
    return reported(name, answer == right, str(answer))


def tried(tools):
    """Whether each thing is right that some functions look at, each in a copy of examples/ of its own. It ends the
    check."""
    program, right = harness.program_or_stand_in(), []
    for tool in tools:
        with tempfile.TemporaryDirectory() as folder:
            right += tool(copied(folder), place(folder, program))
    harness.end_of(right)


# ---- desk.sh

def files_in(folder):
    """The files below a folder, by their paths in it."""
    return {path.relative_to(folder).as_posix(): path.read_bytes() for path in folder.rglob("*") if path.is_file()}


def days(folder, commands):
    """Whether desk.sh keeps the answers that it must, and no others."""
    desk = "sh ../tools/desk/desk.sh made bank-day.archive desk/iso20022.jsonl"
    text, status = shell(desk, folder, commands)
    yield reported("desk.sh ends with the status of the program", (text, status) == ("", 1), text)
    before = files_in(folder / "made")
    made = dict(before)
    for name, right in files_in(folder / "desk" / "day").items():
        yield reported(f"desk.sh makes {name}", made.pop(name, None) == right)
    yield reported("desk.sh makes no other file", not made, str(sorted(made)))
    text, status = shell(desk, folder, commands)
    left = files_in(folder / "made")
    yield reported("desk.sh leaves a folder as it is", status == 2 and left == before, text)
    shutil.rmtree(folder / "made")
    for status in (2, 3, 137):
        yield keeps_nothing(folder, commands, desk, status)


def keeps_nothing(folder, commands, desk, status):
    """Whether desk.sh makes no folder if the program ends with this status."""
    faulty = folder / "faulty"
    faulty.write_text(FAULTY.format(60 + status, status))
    faulty.chmod(0o755)
    answer = shell(desk, folder, commands, SCT_SITES=str(faulty))
    left = sorted(path.name for path in folder.iterdir() if path.name.startswith("made") and path.name != "made.jsonl")
    right = answer == (f"fault {60 + status}\n", status) and not left
    return reported(f"desk.sh keeps nothing after status {status}", right, f"{answer}, {left}")


# what desk.sh is run on, what it warns of, and the status that it ends with
WARNED = [
    ("printf ' \\n\\n' > empty", "empty", ["empty has no message", "the day is empty: no line is a message"], 0),
    ("echo x > bad", "bad", ["the day is empty: no line is a message"], 1),
    (":> empty", "bank-day.archive empty", ["empty has no message"], 0),
    ("head -c 5000 bank-day.archive > cut", "cut desk/iso20022.jsonl",
     ["the archive shrank: 1 lines of cut are refused"], 1),
    ("sed 's/{/[/' bank-day.archive > all.archive", "all.archive",
     ["the day is empty: no line is a message", "the archive shrank: 23 lines of all.archive are refused"], 1),
    (":", "hub-morning.jsonl", [], 1),
    (":", "bank-day.archive desk/iso20022.jsonl", [], 1)
]


def warnings(folder, commands):
    """Whether desk.sh warns of files without a message, of an empty day, of an archive that lost messages, and of
    nothing else."""
    for number, (before, files, warned, status) in enumerate(WARNED):
        text = "".join(f"desk.sh: WARNING: {warning}\n" for warning in warned)
        command = f"{before}; sh ../tools/desk/desk.sh warned{number} {files}"
        yield answers(f"desk.sh warns on {files}", command, (text, status), folder, commands)
    for words in ("x=1 bank-day.archive", "new bank-day.archive x=1"):
        right = (f"desk.sh: awk takes no path with = in it: {words}\n", 2)
        yield answers(f"desk.sh takes no {words}", f"sh ../tools/desk/desk.sh {words}", right, folder, commands)
    (tools_of(folder) / "explain.py").unlink()
    shell("sh ../tools/desk/desk.sh plain bank-day.archive desk/iso20022.jsonl", folder, commands)
    right = (folder / "desk" / "day" / "day.explained").read_bytes().splitlines(True)[0]
    yield reported("desk.sh needs no explanation", (folder / "plain" / "day.explained").read_bytes() == right)


# of the 23 messages of bank-day, which are all from 2025-03-10: how many are kept on a day, and on how many transfers
KEPT = {"2025-03-10": (23, 12), "2025-03-11": (9, 6)}
NOT_DONE = {"HH-0303", "LU,10", "LU20250310B3", "LU20250310B5", "LU20250310B6", "LU20250310B9"}


def splits(folder, commands):
    """Whether desk.sh splits the archive of a folder, and leaves the folder as it is if it cannot."""
    shell("sh ../tools/desk/desk.sh day bank-day.archive", folder, commands)
    before, archive = files_in(folder / "day"), (folder / "bank-day.archive").read_bytes().splitlines(True)
    split = "sh ../tools/desk/desk.sh --keep {} day"
    faulty = folder / "faulty"
    faulty.write_text('#!/bin/sh\n[ "$1" = closed ] && exec sct_sites "$@"\necho "{}"\necho "fault 65" >&2\nexit 3\n')
    faulty.chmod(0o755)
    wrong = "fault 64\nerror: invalid value '{}' for '<DAY>': expected a day, written as 2024-05-02\n"
    for day in ("2025-3-11", "tomorrow", "-x"):
        yield answers(f"desk.sh keeps nothing by {day}", split.format(day), (wrong.format(day), 2), folder, commands)
    right = ("fault 65\n", 3)
    yield answers("desk.sh keeps nothing after a fault", split.format("2025-03-11"), right, folder, commands,
                  SCT_SITES=str(faulty))
    right = ("desk.sh: desk is not a folder of desk.sh\n", 2)
    yield answers("desk.sh keeps of its own folders", "sh ../tools/desk/desk.sh --keep 2025-03-11 desk", right, folder,
                  commands)
    right = ("desk.sh: usage: desk.sh --keep DAY FOLDER\n", 2)
    yield answers("desk.sh keeps by a day and a folder", "sh ../tools/desk/desk.sh --keep day", right, folder, commands)
    yield reported("desk.sh leaves the folder then", files_in(folder / "day") == before)
    for day, many in KEPT.items():
        yield answers(f"desk.sh splits by {day}", split.format(day), ("", 0), folder, commands)
        after = files_in(folder / "day")
        kept, closed = (after.pop(name, b"").splitlines(True) for name in ("kept.archive", "closed.archive"))
        on = set(re.findall(r'TxId":"([^"]*)"', b"".join(kept).decode()))
        right = (len(kept),
                 len(on)) == many and on >= NOT_DONE and sorted(kept + closed) == sorted(archive) and after == before
        yield reported(f"desk.sh keeps {many[0]} messages on {day}", right,
                       f"{len(kept)} and {len(closed)}, {on}, {sorted(after)}")


# the words of a report on bank-day.list, and for each row that is named what is said of it
OTHERS = {2: "LUTEFRPPXXX LU20250310B1 is a transfer to ARNOITFFXXX",
          3: "LUTEFRPPXXX LU20250310B2 is a transfer to SUOMFIHHXXX",
          4: "LUTEFRPPXXX LU20250310B3 is a transfer to ALPEATWWXXX",
          5: "LUTEFRPPXXX LU20250310B6 is a transfer to SCALBEBBXXX",
          6: "LUTEFRPPXXX LU20250310B7 is a transfer to ARNOITFFXXX",
          7: "LUTEFRPPXXX LU20250310B7 is a transfer to ARNOITFFXXX",
          9: "LUTEFRPPXXX LU20250310B9 is a transfer to ARNOITFFXXX",
          10: "LUTEFRPPXXX LU,10 is a transfer to SUOMFIHHXXX"}


def reports(folder, commands):
    """Whether desk.sh checks a list before it prints a report."""
    shell("sh ../tools/desk/desk.sh day bank-day.archive", folder, commands)
    report = "sh ../tools/desk/desk.sh --report {} {} {} day"
    right = (EXAMPLES / "bank-day.report").read_text()
    row = ("check_list: row 9: LUTEFRPPXXX LU20250310B9 is of 2025-03-11, and not of 2025-03-10; the report "
           "compares it all the same")
    command = report.format("LUTEFRPP", "2025-03-10", "bank-day.list")
    yield answers("desk.sh reports", command, (f"{row}\n{right}", 0), folder, commands)
    for bank, others in [("HANSDEHH", OTHERS),
                         ("DEUTDEFF", {**OTHERS, 11: "HANSDEHHXXX HH-0301 is a transfer to LUTEFRPPXXX"})]:
        rows = "".join(f"check_list: row {number}: {text}, and not of {bank}XXX\n" for number, text in others.items())
        right = (rows + "desk.sh: there is no report on bank-day.list\n", 2)
        command = report.format(bank, "2025-03-10", "bank-day.list")
        yield answers(f"desk.sh gives {bank} no report on transfers of others", command, right, folder, commands)
    right = ("check_list: 2025-02-31 is not a day such as 2025-03-10\ndesk.sh: there is no report on bank-day.list\n",
             2)
    yield answers("desk.sh knows the calendar", report.format("LUTEFRPP", "2025-02-31", "bank-day.list"), right, folder,
                  commands)
    command = "printf '\\nDbtrAgt,TxId,Amt,Sts\\n' > none; " + report.format("LUTEFRPP", "2025-03-10", "none")
    text, status = shell(command, folder, commands)
    yield reported("desk.sh reports on a list without rows, and says that it has none",
                   status == 0 and "ONLY_IN_ARCHIVE,,," in text
                   and text.startswith("check_list: the list has the header alone: "), text)
    yield from of_spreadsheets(folder, commands)


def of_spreadsheets(folder, commands):
    """Whether desk.sh reads a list as a spreadsheet saves it, and says what is wrong with one that is none. A list that
    the program takes is read as it is, with the blanks in it."""
    report = "sh ../tools/desk/desk.sh --report LUTEFRPP 2025-03-10 {} day"
    listed = (EXAMPLES / "bank-day.list").read_text()
    rows = list(csv.reader(listed.splitlines()))
    saved = "\r\n".join(";".join([bank, transfer, amount.replace(".", ","), status])
                        for bank, transfer, amount, status in rows)
    (folder / "saved.csv").write_text("\ufeff" + saved + "\r\n", encoding="utf-8")
    row = ("check_list: row 9: LUTEFRPPXXX LU20250310B9 is of 2025-03-11, and not of 2025-03-10; the report "
           "compares it all the same")
    read = "desk.sh: WARNING: saved.csv was read as a spreadsheet saves a list"
    right = (f"{read}\n{row}\n{(EXAMPLES / 'bank-day.report').read_text()}", 0)
    yield answers("desk.sh reports on what a spreadsheet saved", report.format("saved.csv"), right, folder, commands)
    wrong = {"DbtrAgt,TxId,Amt,Sts\nLUTEFRPP,T1,1.640,ACCEPTED\nLUTEFRPP,T2,1,ACCP\n":
             "list_from_csv: row 2: '1.640' is not an amount such as 12.50: it can be 1640 or 1.640\n"
             "list_from_csv: row 3: 'ACCP' is not one of ACCEPTED, REJECTED, RETURNED, PENDING, INVESTIGATED: it is a code of messages; write"
             " ACCEPTED\n",
             "PK\3\4": "list_from_csv: the file is a workbook or a ZIP archive: save the workbook as CSV\n"}
    for text, said in wrong.items():
        (folder / "wrong.csv").write_text(text)
        right = (f"{said}desk.sh: there is no report on wrong.csv\n", 2)
        yield answers(f"desk.sh says {said}", report.format("wrong.csv"), right, folder, commands)
    right = ("desk.sh: there is no file nothing that can be read\n", 2)
    yield answers("desk.sh names a list that is not there", report.format("nothing"), right, folder, commands)
    (folder / "blank.csv").write_text("DbtrAgt,TxId,Amt,Sts\nLUTEFRPP, T1,1,ACCEPTED\n")
    text, status = shell(report.format("blank.csv"), folder, commands)
    yield reported("desk.sh leaves it to the program what a list is",
                   status == 0 and "\nLUTEFRPPXXX, T1,ONLY_IN_LIST,1.00," in text, text)


def lists(folder, commands):
    """Which rows check_list.py takes: of transfers that are contradicted, that have no instruction, and that the
    archive does not know."""
    one, other = samples.instruction(), samples.instruction(MsgId="M2", CdtrAgt="ARNOITFF")
    alone = samples.confirmation(MsgId="C9", OrgnlTxId="T9", InstgAgt="ARNOITFF")
    (folder / "lines").write_text("".join(map(samples.line, [one, other, alone])))
    shell("sct_sites archive < lines > two.archive", folder, commands)
    banks = {"BANKDEFF": (0, 0), "BANQFRPP": (0, 1), "ARNOITFF": (0, 0), "SUOMFIHH": (1, 1)}
    for bank, statuses in banks.items():
        for row, right in zip(("T1", "T9"), statuses):
            (folder / "rows").write_text(f"DbtrAgt,TxId,Amt,Sts\nBANKDEFF,{row},1,ACCEPTED\nBANKDEFF,T77,1,ACCEPTED\n")
            text, status = shell(f"python3 ../tools/desk/check_list.py {bank} 2024-05-02 rows two.archive", folder,
                                 commands)
            yield reported(f"check_list on {row} of {bank}",
                           status == right and text.count("row 2") == right and "row 3" not in text, text)


def private(folder, commands):
    """Whether nobody else may read what the desk's tools write."""
    shell("umask 022; sh ../tools/desk/desk.sh day bank-day.archive; python3 ../tools/desk/load_sqlite.py day day.db",
          folder, commands)
    paths = [folder / "day", *(folder / "day").iterdir(), folder / "day.db"]
    yield reported("desk.sh and load_sqlite write for their owner alone", len(paths) > 5 and not any(
        path.stat().st_mode & 0o077 for path in paths))


# ---- ask_sqlite.py

# questions with a wrong value, and what a value is
MISTYPED = [(f"{name}={text}", f"{name}={text}", f"a {what}") for name, what, texts in [
    ("open_recalls day", "day such as 2025-03-10",
     ["2025-3-11", "yesterday", "20.03.2025", "2025-13-01", "2025-02-31", "2025-03-11T00:00:00Z"]),
    ("waiting before", "time such as 2025-03-10T12:00:00Z",
     ["10.03.2025", "yesterday", "2025-03-10T25:00:00Z", "2025-03-1012:00", "2025-03-10T12:00Zulu"]),
    ("bank bank", "BIC of 8 or 11 capitals and digits", ["suomfihh", "SUOMFIH", "SUOMFIHHX"])] for text in texts]


def asked(folder, commands):
    """Whether a mistyped value ends a question, and a right one does not."""
    shell("sh ../tools/desk/desk.sh day bank-day.archive; python3 ../tools/desk/load_sqlite.py day day.db", folder,
          commands)
    ask = "python3 ../tools/desk/ask_sqlite.py day.db "
    for words, given, what in MISTYPED:
        right = (f"ask_sqlite: {given.partition(' ')[2]} is not {what}\n", 1)
        yield answers(f"ask_sqlite takes no {words}", ask + words, right, folder, commands)
    for question, short in [("bank bank={}", "SUOMFIHH"), ("history transfer=LU20250310B1 bank={}", "LUTEFRPP")]:
        long, status = shell(ask + question.format(short + "XXX"), folder, commands)
        yield reported(f"{question} has rows", status == 0 and long != "", long)
        yield answers(f"ask_sqlite knows {short}", ask + question.format(short), (long, 0), folder, commands)
    listed, _ = shell(ask, folder, commands)
    right = (f"ask_sqlite: there is no question keep\n{listed}", 1)
    yield answers("ask_sqlite lists the questions", ask + "keep since=2025-03-11", right, folder, commands)
    for before in ("2025-03-11", "2025-03-10T23:59", "2025-03-10T23:59:59.5+01:00"):
        text, status = shell(ask + f"waiting before={before}", folder, commands)
        yield reported(f"ask_sqlite takes {before}", status == 0 and text.count("\n") == 4, text)
    yield loads_refused(folder, commands)


# what a caller may know of a transfer of FOUND, or of none
FOUND = ("pacs.008", {"TxId": "T7", "EndToEndId": "E-7/A", "IntrBkSttlmAmt": "20.50",
                      "DbtrAcct": "DE89370400440532013000", "Dbtr": "Zoë Müller-Weiß",
                      "Ustrd": "Rechnung 1642"})
KNOWN = [("T7", 1), (" T7 ", 1), ("t7", 1), ("E-7/A", 1), ("E-7", 0), ("20.50", 1), ("20,5", 1), ("20.5", 1), ("20.500", 0), ("2050", 0), ("20", 0),
         ("de89 3704 0044 0532 0130 00", 1), ("DE89370400440532013000", 1), ("DE8937040044053201300", 0), ("7.25", 1), ("1.00", 0), ("%", 0), ("'", 0),
         # forms of amounts
         ("\u20ac20,50", 1), ("20,50 EUR", 1), ("EUR 20.5", 1), ("\u20ac20", 0), ("20.50 USD", 0),
         # names and remittance information, by the beginning of a word, without accents and in any case; a number as a whole
         ("m\xfcller", 1), ("MULL", 1), ("zoe weiss", 1), ("maes zo\xeb", 1), ("ller", 0), ("Zoe Weber", 0), ("rechnung 1642", 1), ("164", 0),
         # banks, and days of the settlement and of the sender's time
         ("bankdeff", 1), ("BANQFRPPXXX 20.50", 1), ("SUOMFIHH 20.50", 0), ("20,50 2024-05-02", 1), ("02.05.2024 m\xfcller", 1), ("2/5/2024", 1),
         ("20,50 2024-05-03", 0), ("1.5.2024..03.05.24 T7", 1), ("2024-04-01 - 2024-05-01 T7", 0), ("2024-02-31 T7", 0)]


def finds(folder, commands):
    """Whether a transfer is found by its TxId, its EndToEndId, an IBAN or an amount, and by nothing else. A question
    that finds none says so."""
    one = samples.instruction(**FOUND[1])
    back = samples.line({**samples.payback(), "OrgnlTxId": "T7", "OrgnlIntrBkSttlmAmt": "20.50",
                         "RtrdIntrBkSttlmAmt": "7.25"})
    (folder / "lines").write_text(samples.line(one) + back)
    shell("sh ../tools/desk/desk.sh found lines; python3 ../tools/desk/load_sqlite.py found found.db", folder, commands)
    ask = "python3 ../tools/desk/ask_sqlite.py found.db "
    row = (f"{one['CreDtTm']}|BANKDEFFXXX|T7|PENDING|20.50|E-7/A|DE89370400440532013000|{one['CdtrAcct']}|{one['CdtrAgt']:X<11}|{one['Dbtr']}|"
           f"{one['Cdtr']}|{one['Ustrd']}\n")
    for known, is_found in KNOWN:
        right = (row, 0) if is_found else ("ask_sqlite: no such transfer\n", 1)
        yield answers(f"ask_sqlite finds {is_found} by {known}", ask + f"find what={shlex.quote(known)}", right, folder,
                      commands)
    for question, nothing in (("history bank=BANKDEFF transfer=T8", "no such transfer"),
                              ("bank bank=SUOMFIHH", "no transfer of this bank")):
        yield answers(f"{question} finds none", ask + question, (f"ask_sqlite: {nothing}\n", 1), folder, commands)


def breaks_off(folder, commands):
    """Whether a tool whose reader goes away ends without a word. A pipe has less room than it writes."""
    many = [samples.instruction(MsgId=f"M{number}", TxId=f"T{number}") for number in range(3000)]
    (folder / "lines").write_text("".join(map(samples.line, many)))
    (folder / "many.csv").write_text("DbtrAgt,TxId,Amt,Sts\n" + "".join(f"BANKDEFF,TX-{number},20.50,PENDING\n"
                                                                        for number in range(5000)))
    shell("sh ../tools/desk/desk.sh many lines; python3 ../tools/desk/load_sqlite.py many many.db", folder, commands)
    for words in ("ask_sqlite.py many.db bank bank=BANKDEFF", "explain.py lines", "list_from_csv.py many.csv",
                  "from_iso20022.py" + 100 * " desk/iso20022/pacs.008.xml"):
        command = f"(python3 ../tools/desk/{words}; echo $? > status) | head -n 1 > first; cat status"
        yield answers(f"{words[:40]} | head", command, ("141\n", 0), folder, commands)


def listed_tables(folder, commands):
    """Whether the page has each table of a database with its columns, and each column of message."""
    shell("sh ../tools/desk/desk.sh day bank-day.archive; python3 ../tools/desk/load_sqlite.py day day.db", folder,
          commands)
    with contextlib.closing(sqlite3.connect(folder / "day.db")) as connection:
        names = [name
                 for name, in connection.execute("SELECT name FROM sqlite_master WHERE type = 'table' ORDER BY rowid")]
        made = {name: [row[1] for row in connection.execute(f"PRAGMA table_info({name})")] for name in names}
    found = [row.cells for _, row in tables(
        (harness.TOP / "tools/desk/README.md").read_text(encoding="utf-8").partition("## The tables")[2].splitlines())]
    shown = {cells[0].strip("`"): pages.codes(cells[1]) for cells in found if cells[0].strip("`") in made}
    yield reported("the page of the tools has the tables", shown == made, f"{shown} {made}")
    columns = [name for cells in found if len(cells) == 2 for name in pages.codes(cells[0])]
    right = [name for name in made["message"] if name not in ("bank", "transfer_id")]
    yield reported("the page of the tools has the columns of message", sorted(columns) == sorted(right),
                   f"{columns} {right}")


def loads_refused(folder, commands):
    """Whether the table refused has each refused line with its fault, its place and its text, and nothing of the lines
    between."""
    shell("sh ../tools/desk/desk.sh morning hub-morning.jsonl; python3 ../tools/desk/load_sqlite.py morning morning.db",
          folder, commands)
    with contextlib.closing(sqlite3.connect(folder / "morning.db")) as connection:
        made = list(connection.execute("SELECT fault, place, text FROM refused ORDER BY rowid"))
    lines, refused = [(EXAMPLES / f"hub-morning.{end}").read_text(encoding="utf-8").splitlines()
                      for end in ("jsonl", "refused")]
    right = [re.match(r"line (\d+): (.*)", line).groups() for line in refused]
    right = [(fault, f"hub-morning.jsonl:{number}", lines[int(number) - 1]) for number, fault in right]
    return reported("load_sqlite has the refused lines", made == right, str(made))


# ---- explain.py

# lines, and for each what is below it, without what the page says of it
EXPLAINED = [("fault 62", ["Read"]), ("fault 64", ["Usage"]),
             ("fault 66 42", ["Refused", "Fork"]), ("line 3: 64", ["NoEvent"]),
             ("file 2: 43 2", ["OwnAhead"]),
             ("file 2 line 11: 36 CdtrAgt 1", ["BadBic"]), ("line 1: 56 2 38 22", ["At", "RepeatedRecall"]),
             ("line 1: 56 9 36 CxlId 3", ["At", "BadId"]), ('a b.jsonl:7: 37 "Purp": {"a":": 31"}', ["Extra"]),
             ("{}", []), (6 * "x," + 200000 * "y", []), ("line 5", []), ("", []), ("T|HANSDEHHXXX|T1|ACCEPTED", []),
             ("line 8: 99", [])]


# lines that are no JSON, each with the cause that the page has
LINE = b'{"MsgNmId":"pacs.008","MsgId":"M1"}'
CAUSES = [(b"\xef\xbb\xbf" + LINE, "a byte order mark is before it"), (LINE + b",", "a comma is after the message"),
          (LINE + b",\r", "a comma is after the message"),
          (LINE + b"\r" + LINE, "carriage returns are between messages"),
          (LINE + b" " + LINE, "more than one message is on it"), (LINE + b"x", "more than one message is on it"),
          (b"{", "it is a piece of a message over several lines"),
          (b'"MsgId": "M1",', "it is a piece of a message over several lines"),
          (b"},", "it is a piece of a message over several lines"), (b'{"MsgId":"M', "it is cut off"),
          (b'{"MsgId":"M1"', "it is cut off"),
          (b'<?xml version="1.0"?>', "it is XML"), (b"\x1f\x8b\x08", "it is compressed"),
          (b"PK\x03\x04", "it is compressed"),
          (b"{'MsgId':'M1'}", "its quotes are not those of JSON"),
          ("{\u201cMsgId\u201d:1}".encode(), "its quotes are not those of JSON"),
          (b'{"MsgId":"a\tb"}', "a text has a tab or another control character"),
          (b'{"Dbtr":"M\xfcller"}', "it is not UTF-8"),
          (b"\xff\xfe{\0", "it is UTF-16"), (b"{\0}\0", "it is UTF-16"),
          (b'{"Amt":1e999}', "a number, a character or the depth is out of range"),
          (b"[" * 200000 + b"]" * 200000, "a number, a character or the depth is out of range"),
          (b"hello", "it is no JSON for another cause")]


def causes(folder, commands):
    """Whether explain.py says why a line is no JSON if it has the line. The program refuses each of them by 31."""
    page = (harness.TOP / "docs" / "users"
            / "codes.md").read_text(encoding="utf-8").partition("### Causes of 31")[2].partition("###")[0]
    (folder / "odd").write_bytes(b"\n".join(line for line, _ in CAUSES) + b"\n")
    right = "".join(f"line {number}: 31\n" for number in range(1, len(CAUSES) + 1))
    yield answers("the program refuses all of them", "sct_sites archive < odd", (right, 1), folder, commands)
    (folder / "lines").write_bytes(b"".join(b"odd:%d: 31: %b\n" % (number, line)
                                            for number, (line, _) in enumerate(CAUSES, 1)))
    text, status = shell("python3 ../tools/desk/explain.py lines", folder, commands)
    found = re.findall(r"^    NotJson, ([^:]*): (.*)$", text, re.MULTILINE)
    yield reported("explain says why a line is no JSON",
                   [cause for cause, _ in found] == [cause for _, cause in CAUSES] and status == 0, str(found))
    shown = {row.cells[0]: plain(row.cells[1]) for _, row in tables(page.splitlines())}
    yield reported("with the remedy of the page",
                   all(shown.get(cause, "") == remedy for cause, remedy in found) and set(shown) == {
                       cause for _, cause in CAUSES}, str(sorted(set(shown) ^ {cause for _, cause in CAUSES})))


def explained(folder, commands):
    """Whether each number of a refused line gets its name, each remedy is that of the page, and other lines nothing."""
    page = (harness.TOP / "docs" / "users" / "codes.md").read_text(encoding="utf-8")
    explain = "python3 ../tools/desk/explain.py "
    text, status = shell(explain + "refusals.refused", folder, commands)
    names = re.findall(r"^    (\w+): ", text, re.MULTILINE)
    lines = [line for line in text.splitlines() if not line.startswith("    ")]
    right = (EXAMPLES / "refusals.refused").read_text(encoding="utf-8").splitlines()
    yield reported("explain prints all lines", (lines, status) == (right, 0), text)
    # one line has a number in another
    right = len(names) == len(lines) + 1 and all(f"| `{name}` |" in page for name in names)
    yield reported("explain names each number", right, text)
    for line, right in EXPLAINED:
        (folder / "lines").write_text(line + "\n")
        text, _ = shell(explain + "< lines", folder, commands)
        below = text.splitlines()[1:]
        is_right = text.startswith(line + "\n") and [one.strip().partition(":")[0] for one in below] == right
        yield reported(f"explain {line[:60]}", is_right, text)
    for line, remedy in [
            ("line 2: 36 DbtrAcct 2", "BadIban: remove spaces; ask the sender if the check digits are wrong"),
            ("F|BANKDEFFXXX|T1|TwoReturns", "two returns differ: ask the beneficiary bank what it paid back"),
            ("R|BANKDEFFXXX|T1|R1|CHASED", "remind the beneficiary bank"),
            ("E|12|REFUSED|41|3|0|2", "hand it the earlier delta first"),
            ('LUTEFRPPXXX,"LU,10",LISTED_TWICE,,,1.00,ACCEPTED', "leave one row")]:
        (folder / "lines").write_text(line)
        yield answers(f"explain says {remedy}", explain + "lines", (f"{line}\n    {remedy}\n", 0), folder, commands)
    for line, code, meaning in [("T|BANKDEFFXXX|T1|REJECTED|AC06", "AC06", "the account is blocked"),
                                ("R|BANKDEFFXXX|T1|R1|REFUSED|AC06?", "AC06", "the account is blocked"),
                                ("T|BANKDEFFXXX|T1|REJECTED|ZZ99", "", ""), ("T|BANKDEFFXXX|T1|RETURNED|AC06", "", "")]:
        (folder / "lines").write_text(line)
        text, _ = shell(explain + "lines", folder, commands)
        yield reported(f"explain says the reason of {line}",
                       text.splitlines()[2:] == ([f"    {code}: {meaning}"] if code else []), text)
    text, status = shell(explain + "--help", folder, commands)
    yield reported("explain says how it is used", status == 0 and "Usage: explain.py [FILE..]" in text, text)
    (tools_of(folder) / "codes.md").write_text(page.replace("remove spaces; ask", "REMOVE SPACES; ask"))
    text, _ = shell("echo 'line 1: 36 DbtrAcct 2' | " + explain, folder, commands)
    yield reported("explain reads the page beside it", "REMOVE SPACES" in text, text)


def main():
    tried([days, warnings, reports, splits, lists, private, asked, finds, breaks_off, listed_tables, explained, causes])


if __name__ == "__main__":
    main()
