"""load_sqlite.py: an example of how a desk asks questions. It loads what desk.sh wrote about a day into a new SQLite
database.

Tables: message has a row for each transfer that a message of the archive names, so a recall of several transactions has
several; transfer, finding and recall have the T, F and R lines of the status text; word has the words of the names and
of the remittance information of each transfer; refused has the refused lines with their texts. Amounts are in cents,
and README.md has each column. The SELECTs of queries.sql ask the database, by ask_sqlite.py or by the program sqlite3.

Usage: load_sqlite.py FOLDER DATABASE   (FOLDER is what desk.sh made; DATABASE is a new file)
"""
from __future__ import annotations
import json
import os
import pathlib
import re
import signal
import sqlite3
import sys
import unicodedata
from typing import Any, Iterable, Iterator, Sequence

TABLES = """
CREATE TABLE message (sender TEXT, kind TEXT, message_id TEXT, created TEXT, bank TEXT, transfer_id TEXT,
    recall_id TEXT,
    word TEXT, reason TEXT, cents INTEGER, returned_cents INTEGER, day TEXT, beneficiary_bank TEXT, end_to_end TEXT,
    debtor_iban TEXT,
    creditor_iban TEXT, debtor TEXT, creditor TEXT, remittance TEXT, text TEXT);
CREATE TABLE transfer (bank TEXT, transfer_id TEXT, status TEXT, detail TEXT, PRIMARY KEY (bank, transfer_id));
CREATE TABLE finding (bank TEXT, transfer_id TEXT, finding TEXT, detail TEXT);
CREATE TABLE recall (bank TEXT, transfer_id TEXT, recall_id TEXT, status TEXT, detail TEXT,
    PRIMARY KEY (bank, transfer_id, recall_id));
CREATE TABLE word (word TEXT, bank TEXT, transfer_id TEXT);
CREATE TABLE refused (fault TEXT, place TEXT, text TEXT);
CREATE INDEX message_on ON message (bank, transfer_id);
CREATE INDEX message_of ON message (transfer_id COLLATE NOCASE);
CREATE INDEX message_cents ON message (cents);
CREATE INDEX message_returned ON message (returned_cents) WHERE returned_cents IS NOT NULL;
CREATE INDEX message_end_to_end ON message (end_to_end COLLATE NOCASE) WHERE end_to_end IS NOT NULL;
CREATE INDEX message_debtor ON message (debtor_iban) WHERE debtor_iban IS NOT NULL;
CREATE INDEX message_creditor ON message (creditor_iban) WHERE creditor_iban IS NOT NULL;
CREATE INDEX message_beneficiary ON message (beneficiary_bank) WHERE beneficiary_bank IS NOT NULL;
CREATE INDEX message_day ON message (day, kind) WHERE day IS NOT NULL;
CREATE INDEX message_created ON message (created);
CREATE INDEX transfer_status ON transfer (status);
CREATE INDEX recall_status ON recall (status);
CREATE INDEX word_of ON word (word, bank, transfer_id);
"""
# the words of each transfer: those of the names and of the remittance information of its instructions
WORDED = """
SELECT bank, transfer_id, group_concat(debtor || ' ' || creditor || ' ' || coalesce(remittance, ''), ' ') FROM message
WHERE kind = 'pacs.008'{} GROUP BY bank, transfer_id
"""


def cents(amount: str | None) -> int | None:
    """An amount as the archive has it, always with two decimals, in cents."""
    return None if amount is None else int(amount.replace(".", ""))


def words_in(text: str) -> list[str]:
    """The words of a text, each once, as they are sought: in small letters, without accents."""
    plain = unicodedata.normalize("NFKD", text.casefold())
    return sorted(set(re.findall(r"[^\W_]+", "".join(sign for sign in plain if not unicodedata.combining(sign)))))


def words(connection: sqlite3.Connection, bank: str | None = None,
          transfer: str | None = None) -> Iterator[tuple[str, str, str]]:
    """The rows of word for the rows of message that are there, or for those of one transfer."""
    its = (bank, transfer) if bank is not None else ()
    for one, tx, text in connection.execute(WORDED.format(" AND bank = ? AND transfer_id = ?" if its else ""), its):
        yield from ((word, one, tx) for word in words_in(text))


def messages(archive: Iterable[str]) -> Iterator[tuple[int | str | None, ...]]:
    """The rows of message."""
    for text in archive:
        message = json.loads(text)
        for part in message.get("TxInf", [message]):
            get = part.get
            yield (message["InstgAgt"], message["MsgNmId"][:8], message["MsgId"], message["CreDtTm"], get("DbtrAgt"),
                   get("TxId", get("OrgnlTxId")), get("CxlId", get("OrgnlCxlId")),
                   get("TxSts", get("Conf")), get("Rsn"),
                   cents(get("IntrBkSttlmAmt", get("OrgnlIntrBkSttlmAmt"))), cents(get("RtrdIntrBkSttlmAmt")),
                   get("IntrBkSttlmDt"), get("CdtrAgt"), get("EndToEndId", get("OrgnlEndToEndId")),
                   get("DbtrAcct"), get("CdtrAcct"),
                   get("Dbtr"), get("Cdtr"), get("Ustrd"), text)


def rows_of(status: list[str], letter: str, many: int) -> Iterator[list[str | None]]:
    """The rows of the lines that begin with a letter. A row has that many fields, and the rest of the line as one
    more."""
    for line in status:
        first, *fields = line.split("|", many + 1)
        if first == letter:
            yield fields + [None] * (many + 1 - len(fields))


def refusals(refused: list[Any], explained: list[Any]) -> Iterator[Any]:
    """The rows of refused. Both files have the refused lines in one order. In day.explained lines of explain.py are
    between them."""
    texts = iter(explained)
    for line in refused:
        fault = line.partition(": ")[2]
        found = next((text for text in texts if f": {fault}: " in text), "")
        place, _, text = found.partition(f": {fault}: ")
        yield fault, place, text


def load(folder: pathlib.Path, database: pathlib.Path) -> None:
    def lines(name: str) -> list[str]:
        return (folder / name).read_bytes().decode(errors="replace").split("\n")[:-1]

    status = lines("day.status")
    tables: dict[str, Iterable[Sequence[Any]]] = {
        "message": messages(lines("day.archive")), "transfer": rows_of(status, "T", 3),
        "finding": rows_of(status, "F", 3),
        "recall": rows_of(status, "R", 4), "refused": refusals(lines("day.refused"), lines("day.explained"))}
    connection = sqlite3.connect(str(database))
    connection.executescript(TABLES)

    def insert(table: str, rows: list[Sequence[Any]]) -> None:
        if rows:
            connection.executemany(f"INSERT INTO {table} VALUES ({', '.join('?' * len(rows[0]))})", rows)

    for table, its in tables.items():
        rows = list(its)
        insert(table, rows)
        print(f"{table}: {len(rows)}")
    insert("word", list(words(connection)))
    connection.commit()
    connection.close()


def main() -> None:
    signal.signal(signal.SIGPIPE, signal.SIG_DFL)
    if len(sys.argv) != 3:
        sys.exit(__doc__)
    folder, database = map(pathlib.Path, sys.argv[1:])
    if not (folder / "day.status").is_file():
        sys.exit(f"load_sqlite: {folder} is not a folder of desk.sh")
    if database.exists():
        sys.exit(f"load_sqlite: {database} is there already")
    os.umask(0o077)  # the database has payments of customers: nobody else of this machine reads it
    load(folder, database)


if __name__ == "__main__":
    main()
