"""ask_sqlite.py: asks a database of load_sqlite.py one question, and prints its rows, fields separated by `|`. The
question find is that of seeking.py, and the others are those of queries.sql.

A bank is a BIC of 8 or 11 characters. A day is written as 2025-03-10, and a time (before) as 2025-03-10 or
2025-03-10T12:00:00Z. Anything else is refused, because the database would compare it as a text. If a question about a
transfer or a bank finds nothing, standard error says so, and the exit status is 1.

Usage: ask_sqlite.py DATABASE QUESTION [NAME=VALUE ..]
Without QUESTION it lists the questions and the names that each needs.
"""
from __future__ import annotations
import pathlib
import re
import signal
import sqlite3
import sys
from typing import Any, Iterable
import fields
import seeking

QUERIES = pathlib.Path(__file__).with_name("queries.sql")
HOUR = re.compile(r"[T ](?:[01][0-9]|2[0-3]):[0-5][0-9](?::[0-5][0-9](?:\.[0-9]+)?)?(?:Z|[+-][0-9]{2}:[0-9]{2})?")


def is_time(text: str) -> bool:
    return fields.is_day(text[:10]) and (text[10:] == "" or HOUR.fullmatch(text[10:]) is not None)


# for some names, whether a text is a value, and what a value is
VALUES = {
    "bank": (fields.is_bic, fields.A_BIC),
    "day": (fields.is_day, fields.A_DAY),
    "before": (is_time, "a time such as 2025-03-10T12:00:00Z"),
}

FIND = "find"
FINDS = "transfers by a bank, an amount, an IBAN, a TxId, an EndToEndId, names or days, as one text; the newest first"
# the fields of a row of find
FOUND = ("at", "bank", "tx", "status", "amount", "endToEnd", "debtorIban", "creditorIban", "beneficiary", "debtor",
         "creditor", "remittance")

# for some questions, what is said if they find nothing
NOTHING = {"find": "no such transfer", "history": "no such transfer", "bank": "no transfer of this bank"}


def questions() -> dict[str, tuple[str, str]]:
    """Each question: its name, what it asks, and its SELECT. That of find is only the name that it needs."""
    parts = re.split(r"^-- (\w+): (.*)\n", QUERIES.read_text(encoding="utf-8"), flags=re.MULTILINE)
    return {FIND: (FINDS, ":what"),
            **{name: (asks, select) for name, asks, select in zip(parts[1::3], parts[2::3], parts[3::3])}}


def names(select: str) -> list[str]:
    return sorted(set(re.findall(r":(\w+)", select)))


def listed(known: dict[str, tuple[str, str]]) -> str:
    """A line for each question."""
    return "\n".join(" ".join([name, *(f"{needed}=.." for needed in names(select))]) + f": {asks}"
                     for name, (asks, select) in known.items())


def values(question: str, select: str, pairs: list[str]) -> dict[str, str]:
    """The value of each name that a question needs. A bank gets its 11 characters."""
    given = dict(pair.split("=", 1) for pair in pairs if "=" in pair)
    if sorted(given) != names(select) or len(pairs) != len(given):
        wanted = " ".join(f"{needed}=.." for needed in names(select)) or "nothing more"
        others = ", ".join(pair.partition("=")[0] for pair in pairs if pair.partition("=")[0] not in names(select))
        sys.exit(f"ask_sqlite: {question} needs {wanted}" + (f", and not {others}" if others else ""))
    for name, text in given.items():
        is_value, wanted = VALUES.get(name, (bool, "a text"))
        if not is_value(text):
            sys.exit(f"ask_sqlite: {name}={text} is not {wanted}")
    return {name: fields.bank(text) if name == "bank" else text for name, text in given.items()}


def rows_of(connection: sqlite3.Connection, question: str, select: str,
            given: dict[str, str]) -> Iterable[Iterable[Any]]:
    """The rows that answer a question."""
    if question != FIND:
        return connection.execute(select, given)
    found = seeking.found(connection, seeking.read(connection, given["what"]))
    return ([row.get(name) for name in FOUND] for row in found)


def is_printed(database: str, question: str, select: str, given: dict[str, str]) -> bool:
    """Prints the rows that answer a question. Whether there is one."""
    connection, row = sqlite3.connect(pathlib.Path(database).resolve().as_uri() + "?mode=ro", uri=True), None
    for row in rows_of(connection, question, select, given):
        print("|".join("" if field is None else str(field) for field in row))
    connection.close()
    return row is not None


def main() -> None:
    signal.signal(signal.SIGPIPE, signal.SIG_DFL)
    words = sys.argv[1:]
    known = questions()
    if len(words) == 1:
        print(listed(known))
        return
    if len(words) < 2:
        sys.exit(__doc__)
    database, question, *pairs = words
    if question not in known:
        sys.exit(f"ask_sqlite: there is no question {question}\n{listed(known)}")
    _, select = known[question]
    given = values(question, select, pairs)
    if not pathlib.Path(database).is_file():
        sys.exit(f"ask_sqlite: there is no database {database}")
    if not is_printed(database, question, select, given) and question in NOTHING:
        sys.exit(f"ask_sqlite: {NOTHING[question]}")


if __name__ == "__main__":
    main()
