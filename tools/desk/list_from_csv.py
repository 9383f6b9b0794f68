"""list_from_csv.py: makes the list of a bank, as `report` reads it, of a CSV file as a spreadsheet saves it. If
`report` refuses a list, desk.sh, the hub (services/hub) and the answers on parts (services/parts) read it by this
module, or print what this module says of it.

It reads UTF-8, with a byte order mark or without, UTF-16 with one, and else Windows-1252. Fields may be separated by
semicolons, tabs or commas: the header says which. A first line such as `sep=;` is left out. The four names of the
header may be in any order and in small letters, and each row follows that order. Amounts may have a decimal comma, and
separators of thousands if both are there: 1.250,00 is 1250.00, and so is 1,250.00. No other amount is changed, because
1,250 may be 1.25 or 1250. Spaces around a field, and empty fields at the end of a row, are left out.

The list is written only if every row is right. Else standard error has each row that is not, with what to do, and the
exit status is 1. Rows count from 1 with the header, and without empty ones. A row whose identification looks as if the
spreadsheet took it for a number is named too, with status 0.

Usage: list_from_csv.py [FILE]   (without FILE it reads standard input)
"""
from __future__ import annotations
import csv
import io
import re
import signal
import sys
import fields
from typing import Iterator, List, NamedTuple, Sequence, Tuple

Row = List[str]
HEADER = ["DbtrAgt", "TxId", "Amt", "Sts"]
NAMES = ",".join(HEADER)
STATUSES = ["ACCEPTED", "REJECTED", "RETURNED", "PENDING", "INVESTIGATED"]
CODES = {"ACCP": "ACCEPTED", "RJCT": "REJECTED", "PDNG": "PENDING"}  # of messages, and the word of a list
OTHER_CODES = {"ACSC", "ACWP", "ACSP", "ACTC", "ACCC", "RCVD", "CNCL", "RJCR", "FOCR"}  # of messages, without a word
DECIMAL_COMMA = re.compile(r"[0-9]+,[0-9]{1,2}")
THOUSANDS = re.compile(
    r"[0-9]{1,3}(?:([.' \u00a0\u202f])[0-9]{3})(?:\1[0-9]{3})*,[0-9]{2}|[0-9]{1,3}(?:,[0-9]{3})+\.[0-9]{2}")
AS_NUMBER = re.compile(r"[0-9](?:[.,][0-9]+)?E\+[0-9]+")
MOST_SHOWN = 40  # characters of a field that a sentence shows
# how files begin that are no text, and what they are
BEGINNINGS = [(b"PK\x03\x04", "a workbook or a ZIP archive: save the workbook as CSV"),
              (b"\xd0\xcf\x11\xe0", "a workbook: save it as CSV"),
              (b"\x1f\x8b", "compressed by gzip: unpack it"), (b"%PDF", "a PDF: save the rows as CSV")]
# how texts begin that are no list
TEXTS = [("<", f"XML: a list is CSV with the header {NAMES}"),
         ("{", f"JSON, as messages are: a list is CSV with the header {NAMES}")]
# why a text is no amount
AMOUNT_HINTS = [(re.compile(r""), "it is empty"), (re.compile(r"[+\u2212-].*"), "write it without a sign"),
                (re.compile(r".*(?:[^\W\d_]|[\u20ac$\u00a3]).*"), "write the number alone"),
                (re.compile(r"0+(?:[.,]0+)?"), "the least is 0.01"),
                (re.compile(r"[0-9]+[.,][0-9]{3,}"), "it has more than two decimals"),
                (re.compile(r"[0-9]{10,}(?:[.,][0-9]{1,2})?"), "the most is 999999999.99")]
TWO_AMOUNTS = re.compile(r"([1-9][0-9]{0,2})[.,]([0-9]{3})")


# a list: its rows as `report` reads them, with the header, what is wrong with them, and what may be wrong
class Read(NamedTuple):
    rows: List[Row]
    faults: List[str]
    looks: List[str]


# ---- how a file is read

def text_of(data: bytes) -> str | None:
    """The text of a file, by the first encoding that it fits. None if it is no text."""
    for encoding in ["utf-16"] if data[:2] in (b"\xff\xfe", b"\xfe\xff") else ["utf-8-sig", "cp1252"]:
        try:
            return data.decode(encoding)
        except UnicodeDecodeError:
            pass
    return None


def records(text: str) -> Iterator[Row]:
    """The records of a text that have a field. The first line that is not blank has the separator."""
    text = text.lstrip()
    mark = re.match(r"sep=(.)\r?\n?", text)
    if mark:
        text = text[mark.end():].lstrip()
    head = re.split(r"[\r\n]", text, maxsplit=1)[0]
    separator = mark[1] if mark else max(";\t,", key=head.count)
    for row in csv.reader(io.StringIO(text, newline=""), delimiter=separator):
        row = [field.strip() for field in row]
        while len(row) > len(HEADER) and not row[-1]:
            row.pop()
        if any(row):
            yield row


def amount(text: str) -> str:
    """An amount with a point, if it is clear what it is."""
    if DECIMAL_COMMA.fullmatch(text):
        return text.replace(",", ".")
    if THOUSANDS.fullmatch(text):
        return re.sub(r"[^0-9]", "", text[:-3]) + "." + text[-2:]
    return text


def order_of(header: Row) -> list[int] | None:
    """Where a row has the four fields of a list, if a record is a header: its names are those of a list in any
    order."""
    names = [name.lower() for name in header]
    return [names.index(name.lower()) for name in HEADER] if sorted(names) == sorted(name.lower()
                                                                                     for name in HEADER) else None


def in_order(row: Row, order: list[int]) -> Row:
    """A row with its fields as a list has them, and its amount with a point. A row with other fields stays."""
    if len(row) != len(HEADER):
        return row
    bank, transfer, money, status = (row[place] for place in order)
    return [bank, transfer, amount(money), status]


# ---- what is wrong

def shown(text: str) -> str:
    """A field as a sentence shows it."""
    cut = text if len(text) <= MOST_SHOWN else text[:MOST_SHOWN] + ".."
    return "'" + "".join(one if one.isprintable() else "?" for one in cut) + "'"


def header_fault(found: Sequence[Row]) -> str:
    """Why the first record is no header, and what to do."""
    first, many = found[0], len(HEADER)
    below = next((number for number, row in enumerate(found, 1) if order_of(row)), None)
    if below:
        why = f"row {below} is; delete what is above it"
    elif len(first) == many and fields.is_bic(first[0]):
        why = "it is a transfer; write the header above it"
    else:
        names = ", ".join(map(shown, first[:2 * many])) + ", .." * (len(first) > 2 * many)
        why = f"it is {names}; write these four names" + ("" if len(first) == many
                                                          else ", and keep their four columns alone")
    return f"row 1: the header is not {NAMES}: {why}"


def amount_hint(text: str) -> str | None:
    """Why a text is no amount."""
    two = TWO_AMOUNTS.fullmatch(text)
    if two:
        return f"it can be {two[1]}{two[2]} or {two[1]}.{two[2]}"
    return next((hint for form, hint in AMOUNT_HINTS if form.fullmatch(text)), None)


def status_hint(text: str) -> str | None:
    """Why a text is no status of a list."""
    if text.upper() in STATUSES:
        return f"write {text.upper()}"
    if text in CODES:
        return f"it is a code of messages; write {CODES[text]}"
    return "it is a code of messages" if text in OTHER_CODES else None


def identification_hint(text: str) -> str | None:
    """Why a text is no identification."""
    if len(text) > 35:
        return f"it has {len(text)} characters, and 35 are the most"
    wrong = next((one for one in text if not fields.IDENTIFICATION.fullmatch(f"A{one}A")), None)
    return f"it has {shown(wrong)}" if wrong else None


def fault(row: Row) -> str | None:
    """Why a row is not one of a list, and what to do. None if it is one."""
    if len(row) != len(HEADER):
        return f"it has {len(row)} fields, and not {len(HEADER)}"
    bank, transfer, money, status = row
    is_small = fields.is_bic(bank.upper())
    wrong: list[Tuple[bool, str, str, str | None]] = [
        (fields.is_bic(bank), bank, fields.A_BIC, f"write {bank.upper()}" if is_small else None),
        (fields.is_identification(transfer), transfer, "an identification", identification_hint(transfer)),
        (fields.is_amount(money), money, "an amount such as 12.50", amount_hint(money)),
        (status in STATUSES, status, f"one of {', '.join(STATUSES)}", status_hint(status))]
    return next((f"{shown(text)} is not {what}" + (f": {hint}" if hint else "") for is_right, text, what, hint in wrong
                 if not is_right), None)


def kind_fault(data: bytes) -> str | None:
    """What a file is that is no list: none of its rows is read. None if it may be one."""
    text = text_of(data)
    is_text = text is not None and not any(data.startswith(beginning) for beginning, _ in BEGINNINGS)
    if text is not None and not text.strip("\ufeff \t\r\n"):
        return f"the file is empty: a list has the header {NAMES}, and a row for each transfer"
    if not is_text:
        kind = next((what for beginning, what in BEGINNINGS if data.startswith(beginning)),
                    "no text in UTF-8, UTF-16 or Windows-1252")
        return f"the file is {kind}"
    return next((f"the file is {what}" for beginning, what in TEXTS if str(text).lstrip().startswith(beginning)), None)


def read(data: bytes) -> Read:
    """A list of what a spreadsheet saved. If something is wrong, it has no rows. csv.Error if it has a field that is
    too long."""
    kind = kind_fault(data)
    if kind:
        return Read([], [kind], [])
    found = list(records(text_of(data) or ""))
    order = order_of(found[0]) if found else None
    if order is None:
        return Read([], [header_fault(found or [[]])], [])
    rows = [in_order(row, order) for row in found[1:]]
    faults = [f"row {number}: {why}" for number, row in enumerate(rows, 2) for why in [fault(row)] if why]
    looks = [f"row {number}: {row[1]} looks like a number that the spreadsheet changed"
             for number, row in enumerate(rows, 2) if len(row) > 1 and AS_NUMBER.fullmatch(row[1])]
    return Read([] if faults else [HEADER, *rows], faults, looks)


def as_list(rows: Sequence[Row]) -> str:
    """The rows of a list as `report` reads them."""
    text = io.StringIO()
    csv.writer(text, lineterminator="\n").writerows(rows)
    return text.getvalue()


def main() -> None:
    signal.signal(signal.SIGPIPE, signal.SIG_DFL)
    if len(sys.argv) > 2:
        sys.exit(__doc__)
    try:
        with open(sys.argv[1], "rb") if len(sys.argv) == 2 else sys.stdin.buffer as file:
            found = read(file.read())
    except (OSError, csv.Error) as why:
        sys.exit(f"list_from_csv: {why}")
    for text in found.faults + found.looks:
        print(f"list_from_csv: {text}", file=sys.stderr)
    if found.faults:
        sys.exit(1)
    sys.stdout.buffer.write(as_list(found.rows).encode())


if __name__ == "__main__":
    main()
