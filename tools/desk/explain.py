"""explain.py: prints lines of sct_sites again, and below each that has a code what the code is and what to do about it.

It knows refused lines and deltas (`line 8: 31`), also as day.explained has them, faults (`fault 62`), lines of a status
text, outcomes of a replay that are refused, and rows of a report. Of a line that is no JSON (31) it says why, if its
text follows as in day.explained. Of a reason, such as AC06, it says the meaning, which is that of reasons.json. Other
lines are printed as they are. Names and remedies are those of the tables of codes.md, which is looked for beside this
script, and then in the folder docs of its repository.

Usage: explain.py [FILE..]   (without FILE it reads standard input)
"""
from __future__ import annotations
import json
import pathlib
import re
import signal
import sys
import page_tables

HERE = pathlib.Path(__file__).resolve().parent
FAULTS, OUTCOMES, RESULTS, CAUSES = "Faults", "Outcomes of a replay", "Results of a report", "Causes of 31"
# the sections on the lines of a status text, by the letter of the line and the field that has the word
STATUSES = {"T": ("Statuses of a transfer", 3), "F": ("Findings", 3), "R": ("Statuses of a recall", 4)}
REASONED = {"REJECTED", "REFUSED"}  # the statuses that a reason follows
# a number of a refused line, after the place of a transaction if it has one; for 36 and 38 the number at the end says
# more
REFUSAL = re.compile(r"(?:line \d+|file \d+(?: line \d+)?|.+?:\d+): (?:(56) \d+ )?(?:36 \w+ (\d+)|38 (\d+)|(\d\d))\b")
FAULT = re.compile(r"fault (\d+)(?: (\d+))?")
RESULT = re.compile(r'[A-Z0-9]{11},(?:[^",]+|"[^"]+"),([A-Z_]+),')  # the first three fields of a row of a report
NOT_JSON = "31"
# causes of 31 by how a line begins, as the page has them
BEGINNINGS = [(b"\xef\xbb\xbf", "a byte order mark is before it"), (b"\xff\xfe", "it is UTF-16"),
              (b"\xfe\xff", "it is UTF-16"),
              (b"\x1f\x8b", "it is compressed"), (b"PK\3\4", "it is compressed"), (b"BZh", "it is compressed"),
              (b"\xfd7zXZ\0", "it is compressed"), (b"\x28\xb5\x2f\xfd", "it is compressed"), (b"<", "it is XML")]
PIECE = "it is a piece of a message over several lines"
BLANKS = " \t\r\n"


# ---- why a line is no JSON

def cause_of(line: bytes) -> str:
    """Why a line of bytes is no JSON: a cause of the page."""
    line = line.strip(BLANKS.encode())
    for beginning, cause in BEGINNINGS:
        if line.startswith(beginning):
            return cause
    if b"\0" in line:
        return "it is UTF-16"
    try:
        return cause_of_text(line.decode())
    except UnicodeDecodeError:
        return "it is not UTF-8"
    except RecursionError:
        return "a number, a character or the depth is out of range"


def cause_of_text(text: str) -> str:
    """Why a text is no JSON. It has no blanks at its ends."""
    try:
        value, end = json.JSONDecoder().raw_decode(text)
    except json.JSONDecodeError as fault:
        return cause_of_fault(text, fault)
    rest = text[end:].lstrip(BLANKS)
    if not rest:
        return "a number, a character or the depth is out of range"
    if isinstance(value, str) and rest.startswith(":"):
        return PIECE
    if rest == ",":
        return "a comma is after the message"
    if "\r" in text[end:].rpartition(rest)[0]:
        return "carriage returns are between messages"
    return "more than one message is on it"


def cause_of_fault(text: str, fault: json.JSONDecodeError) -> str:
    """Why a text is no JSON in which Python finds a fault."""
    if text[-1:] in ("{", "[", ",") or text[:1] in ("}", "]"):
        return PIECE
    if fault.msg.startswith("Unterminated string") or fault.pos >= len(text):
        return "it is cut off"
    if fault.msg.startswith("Invalid control character"):
        return "a text has a tab or another control character"
    if text[fault.pos] in "'\u201c\u201d\u201e":
        return "its quotes are not those of JSON"
    return "it is no JSON for another cause"


# ---- the page


def page() -> str:
    """The text of codes.md."""
    for path in [HERE / "codes.md", *sorted((HERE.parents[1] / "docs").rglob("codes.md"))]:
        if path.is_file():
            return path.read_text(encoding="utf-8")
    sys.exit(f"explain: there is no codes.md in {HERE}, and none in {HERE.parents[1] / 'docs'}")


def tables(text: str) -> dict[str, dict[str, dict[str, str]]]:
    """Of each section of the page, each number or word of its tables with its row."""
    found: dict[str, dict[str, dict[str, str]]] = {}
    for section, lines in page_tables.sections(text).items():
        for columns, row in page_tables.tables(lines):
            its = [page_tables.plain(cell) for cell in row.cells]
            found.setdefault(section, {}).setdefault(its[0], dict(zip(columns, its)))
    return found


def said(row: dict[str, str]) -> str:
    """What is printed of a row: its name, if it has one, and its remedy, or its cause if it has no remedy."""
    words = row.get("Remedy", row.get("Cause", ""))
    return f"{row['Name']}: {words}" if "Name" in row else words


class Codes:
    """The numbers and words of the page."""
    numbers: dict[str, dict[str, str]]

    def __init__(self, text: str, reasons: dict[str, dict[str, str]]) -> None:
        self.sections, self.reasons = tables(text), reasons
        self.numbers = {}
        for rows in self.sections.values():  # a number of a refused line comes before the same number of a fault
            self.numbers = {**{number: row for number, row in rows.items() if "Number" in row}, **self.numbers}

    def row(self, section: str, word: str) -> dict[str, str] | None:
        return self.sections.get(section, {}).get(word)

    def not_json(self, line: bytes) -> dict[str, str]:
        """The row of 31 with the cause and the remedy of a line, or as it is if the page does not have that cause."""
        row, cause = self.numbers[NOT_JSON], self.row(CAUSES, cause_of(line))
        return cause and {"Name": f"{row['Name']}, {cause['Cause of 31']}", "Remedy": cause["Remedy"]} or row

    def reason(self, fields: list[str]) -> list[dict[str, str]]:
        """What the reason after a status means, if it is a known one."""
        code = fields[1].rstrip("?") if len(fields) > 1 and fields[0] in REASONED else ""
        return [{"Name": code, "Remedy": self.reasons[code]["en"]}] if code in self.reasons else []

    def of_answer(self, line: str) -> list[dict[str, str] | None]:
        """The rows on a line of a status text, of a replay or of a report."""
        fields = line.split("|")
        if fields[0] in STATUSES:
            section, place = STATUSES[fields[0]]
            return [self.row(section, fields[place]), *self.reason(fields[place:])] if len(fields) > place else []
        if fields[0] == "E" and fields[2:3] == ["REFUSED"]:
            return [self.row(OUTCOMES, " ".join(fields[2:4]))]
        result = RESULT.match(line)
        return [self.row(RESULTS, result[1])] if result else []

    def of(self, line: str) -> list[str]:
        """What the page says of a line: a text for each of its codes that calls for something."""
        fault, refusal = FAULT.fullmatch(line), REFUSAL.match(line)
        if fault:
            rows = [self.row(FAULTS, fault[1]), self.numbers.get(fault[2]) if fault[1] == "66" else None]
        elif refusal:
            rows = [self.numbers.get(number) for number in refusal.groups() if number]
            text = line[refusal.end():]
            if refusal[4] == NOT_JSON and text.startswith(": "):
                rows = [self.not_json(text[2:].encode(errors="surrogateescape"))]
        else:
            rows = self.of_answer(line)
        return [text for text in map(said, filter(None, rows)) if text != "none"]


def main() -> None:
    signal.signal(signal.SIGPIPE, signal.SIG_DFL)
    if sys.argv[1:] in (["-h"], ["--help"]):
        print(__doc__.strip())
        return
    codes = Codes(page(), json.loads((HERE / "reasons.json").read_text(encoding="utf-8")))
    for file in sys.argv[1:] or [""]:
        try:
            stream = open(file, "rb") if file else sys.stdin.buffer
        except OSError as why:
            sys.exit(f"explain: {why}")
        with stream:
            for line in stream:
                line = line.rstrip(b"\n")
                below = "".join(f"    {text}\n" for text in codes.of(line.decode(errors="surrogateescape")))
                sys.stdout.buffer.write(line + b"\n" + below.encode(errors="surrogateescape"))


if __name__ == "__main__":
    main()
