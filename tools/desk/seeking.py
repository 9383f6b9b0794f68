"""seeking.py: finds transfers by what a caller knows of them, in a database of load_sqlite.py or of a mirror, and lists
what a desk has to do.

What is sought is one text, whose parts may have any order. A part is a bank (its BIC), an amount, an IBAN, a TxId or an
EndToEndId, each in any case, a day or two days, or else a word with which a word of a name or of the remittance
information begins. A transfer is found if it has each part. `1.250,00`, `1,250.00` and `EUR 1250` are one amount. A day
is `2025-03-10`, `10.03.2025` or `10/03/2025`. It is the day of the settlement, or that of the time that the sender
wrote.
"""
from __future__ import annotations
import datetime
import re
import sqlite3
from typing import Any, Iterator, NamedTuple
import fields
import load_sqlite

SPACE = "[ \u00a0\u202f]"
DAY = r"\d{4}-\d{2}-\d{2}|\d{1,2}\.\d{1,2}\.(?:\d{4}|\d{2})|\d{1,2}/\d{1,2}/(?:\d{4}|\d{2})"
DAYS = re.compile(
    rf"(?<!\S)({DAY})(?:(?:\.\.|{SPACE}*[-\u2013]{SPACE}*|{SPACE}+(?:to|bis|au|until){SPACE}+)({DAY}))?(?!\S)", re.I)
NUMBER = r"\d{1,3}(?:[ .,'\u2019\u00a0\u202f]\d{3})+(?:[.,]\d{1,2})?|\d+(?:[.,]\d{1,2})?"
EURO = r"(?:\u20ac|(?<![^\W\d])eur(?:os?)?(?![^\W\d]))"
MONEY = re.compile(rf"(?<![\w.,]){EURO}{SPACE}?({NUMBER})(?![\w.,])|(?<![\w.,])({NUMBER}){SPACE}?{EURO}(?!\S)", re.I)
GROUPED = re.compile(r"(?<!\S)(\d{1,3}(?:[ \u00a0\u202f]\d{3})+[.,]\d{2})(?!\S)")
AMOUNT = re.compile(r"(\d{1,9}|\d{1,3}(?:([ .,'\u2019\u00a0\u202f])\d{3}(?:\2\d{3})?))(?:([.,])(\d{1,2}))?")
IBAN = re.compile(r"[A-Z]{2}[0-9]{2}[A-Z0-9]{11,30}")
MOST_PARTS = 20  # of a text
LAST = "\U0010ffff"  # after each sign that a word has

BY_NAME = "SELECT bank, transfer_id FROM message WHERE {0} = ? COLLATE NOCASE"
BY_VALUE = "SELECT bank, transfer_id FROM message WHERE {0} = ?"
BY_WORD = "SELECT bank, transfer_id FROM word WHERE word >= ? AND word < ?"
SENT_BY = "SELECT bank, transfer_id FROM transfer WHERE bank = ?"
OF_BANK = f"{SENT_BY} UNION {BY_VALUE.format('beneficiary_bank')}"
OF_DAYS = ("SELECT bank, transfer_id FROM message WHERE day BETWEEN ? AND ? AND kind = 'pacs.008'"
           " UNION SELECT bank, transfer_id FROM message WHERE created BETWEEN ? AND ? AND kind = 'pacs.008'")
# a row for each transfer of `found`: of its instructions the last one counts, and without one a message that names its
# amount. Only the rows that are answered are looked at in full.
ROWS = """
WITH found AS ({found}),
page AS (SELECT found.*, its.rowid AS place FROM found JOIN message AS its ON its.rowid = (SELECT one.rowid
    FROM message AS one
        WHERE one.bank = found.bank AND one.transfer_id = found.transfer_id
        ORDER BY one.kind <> 'pacs.008', one.cents IS NULL, datetime(one.created) DESC, one.message_id LIMIT 1)
    {where} ORDER BY {order}, found.bank, found.transfer_id LIMIT :many OFFSET :first)
SELECT its.created AS at, its.day, page.bank, page.transfer_id AS tx, transfer.status, transfer.detail, its.cents,
    its.end_to_end AS endToEnd,
    its.debtor, its.debtor_iban AS debtorIban, its.creditor, its.creditor_iban AS creditorIban,
    its.beneficiary_bank AS beneficiary,
    its.remittance, (SELECT count(*) FROM message AS one
        WHERE one.bank = page.bank AND one.transfer_id = page.transfer_id AND one.kind = 'pacs.008') AS instructions,
    (SELECT group_concat(DISTINCT finding) FROM finding
        WHERE finding.bank = page.bank AND finding.transfer_id = page.transfer_id) AS findings{more}
FROM page JOIN message AS its ON its.rowid = page.place
    JOIN transfer ON transfer.bank = page.bank AND transfer.transfer_id = page.transfer_id
ORDER BY {order}, page.bank, page.transfer_id
"""
NEWEST, OLDEST = "datetime(its.created) DESC", "datetime(its.created)"
WITH_BANK = "(found.bank = {0} OR its.beneficiary_bank = {0})"
WITH_DAYS = "(its.day BETWEEN :from_day AND :to_day OR date(its.created) BETWEEN :from_day AND :to_day)"
# recalls that are to be followed, each with the time and the reason of its camt.056, or with the time of the first
# answer if that is not held
RECALLS = """
SELECT bank, transfer_id, recall_id AS recall, status AS recallStatus,
    (SELECT strftime('%Y-%m-%dT%H:%M:%SZ', min(datetime(one.created))) FROM message AS one WHERE one.bank = recall.bank
        AND one.transfer_id = recall.transfer_id AND one.recall_id = recall.recall_id
        AND (one.kind = 'camt.056' OR recall.status = 'UNASKED')) AS since,
    (SELECT one.reason FROM message AS one WHERE one.bank = recall.bank AND one.transfer_id = recall.transfer_id
        AND one.recall_id = recall.recall_id AND one.kind = 'camt.056') AS reason
FROM recall WHERE status IN ('OPEN', 'CHASED', 'UNASKED')
"""
OF_RECALL = ", page.recall, page.recallStatus, page.since, page.reason"
# the transfers of the last messages, of which some may be on one transfer
LATEST = """
SELECT bank, transfer_id, max(created) AS last FROM (SELECT bank, transfer_id, created
    FROM message ORDER BY created DESC LIMIT 400)
GROUP BY bank, transfer_id
"""
# transfers that are named, each with the time of its last message
THESE = """
SELECT its.bank, its.transfer_id, (SELECT one.created FROM message AS one
    WHERE one.bank = its.bank AND one.transfer_id = its.transfer_id
    ORDER BY datetime(one.created) DESC LIMIT 1) AS last FROM ({}) AS its
"""
# of each list of work, the transfers of it
WORK = {
    "contradicted": "SELECT bank, transfer_id FROM transfer WHERE status = 'CONTRADICTED'",
    "missing": "SELECT bank, transfer_id FROM transfer WHERE status = 'MISSING'",
    "recalls": RECALLS,
    "waiting": "SELECT bank, transfer_id FROM transfer WHERE status IN ('PENDING', 'INVESTIGATED')",
}
# what the totals text has of a bank, of the transfers that are settled on a day
TOTALS = """
WITH its AS (SELECT message.bank, message.transfer_id, transfer.status, transfer.detail, max(message.created),
    cents, beneficiary_bank
    FROM message JOIN transfer USING (bank, transfer_id) WHERE day = :day AND kind = 'pacs.008'
    GROUP BY message.bank, message.transfer_id),
each AS (
    SELECT bank, status IN ('ACCEPTED', 'RETURNED') AS sent, cents AS sent_cents,
        CASE WHEN status = 'RETURNED' THEN CAST(replace(detail, '.', '') AS INTEGER) ELSE 0 END AS returned_in,
        status = 'REJECTED' AS rejected,
        status IN ('PENDING', 'INVESTIGATED') AS waiting, status = 'CONTRADICTED' AS contradicted, 0 AS received,
        0 AS received_cents,
        0 AS returned_out FROM its
    UNION ALL
    SELECT beneficiary_bank, 0, 0, 0, 0, 0, 0, 1, cents, CASE WHEN status = 'RETURNED' THEN CAST(replace(detail,
    '.', '') AS INTEGER) ELSE 0 END
    FROM its WHERE status IN ('ACCEPTED', 'RETURNED'))
SELECT bank, sum(sent) AS sent, sum(sent * sent_cents) AS sentAmount, sum(returned_in) AS returnedIn,
    sum(rejected) AS rejected,
    sum(waiting) AS waiting, sum(contradicted) AS contradicted, sum(received) AS received,
    sum(received_cents) AS receivedAmount,
    sum(returned_out) AS returnedOut
FROM each GROUP BY bank ORDER BY bank
"""
AMOUNTS = {"sentAmount", "returnedIn", "receivedAmount", "returnedOut"}


class Part(NamedTuple):
    """A part of what is sought: how it is read, as a text, and a SELECT of the transfers that have it, with its
    values."""
    kind: str
    text: str
    select: str
    values: tuple[Any, ...]


class Sought(NamedTuple):
    parts: list[Part]  # a transfer has each of them
    banks: list[str]
    days: tuple[str, str] | None


# ---- how a text is read

def cents_of(text: str) -> int | None:
    """The cents of an amount, with or without groups of three digits. A point or a comma before three digits is that of
    a group."""
    found = AMOUNT.fullmatch(text)
    if not found or found[3] is not None and found[2] == found[3]:
        return None
    return int(re.sub(r"\D", "", found[1])) * 100 + int((found[4] or "0").ljust(2, "0"))


def amount_text(cents: int) -> str:
    return f"{cents // 100}.{cents % 100:02}"


def day_of(text: str) -> str | None:
    """A day as messages have it, or None if there is no such day."""
    numbers = list(map(int, re.split(r"[./-]", text)))
    year, month, day = numbers if "-" in text else numbers[::-1]
    try:
        return datetime.date(year + 2000 if year < 100 else year, month, day).isoformat()
    except ValueError:
        return None


def is_iban(text: str) -> bool:
    return IBAN.fullmatch(text) is not None and int("".join(str(int(sign, 36))
                                                            for sign in text[4:] + text[:4])) % 97 == 1


def days_in(text: str) -> tuple[str, list[str]]:
    """A text without the days in it, and the days."""
    days: list[str] = []

    def take(found: re.Match[str]) -> str:
        its = [day_of(one) for one in found.groups() if one]
        if None in its:
            return found[0]
        days.extend(one for one in its if one)
        return " "
    return DAYS.sub(take, text), days


def ibans_in(words: list[str]) -> tuple[list[str], list[str]]:
    """Words without the IBANs that some of them are together, and these IBANs."""
    rest, ibans, place = [], [], 0
    while place < len(words):
        ends = [end for end in range(place + 1, min(place + 10, len(words)) + 1)
                if is_iban("".join(words[place:end]).upper())]
        if ends:
            ibans.append("".join(words[place:ends[-1]]).upper())
        else:
            rest.append(words[place])
        place = ends[-1] if ends else place + 1
    return rest, ibans


def amounts_in(text: str) -> tuple[str, list[int]]:
    """A text without the amounts that nothing else can be, and these in cents."""
    amounts: list[int] = []

    def take(found: re.Match[str]) -> str:
        cents = cents_of(next(filter(None, found.groups())))
        amounts.extend([] if cents is None else [cents])
        return found[0] if cents is None else " "
    return GROUPED.sub(take, MONEY.sub(take, text)), amounts


# ---- what has a part

def one_of(kind: str, text: str, *selects: tuple[str, tuple[Any, ...]]) -> Part:
    return Part(kind, text, " UNION ".join(select for select, _ in selects),
                tuple(value for _, its in selects for value in its))


def by_amount(cents: int) -> list[tuple[str, tuple[Any, ...]]]:
    return [(BY_VALUE.format(column), (cents,)) for column in ("cents", "returned_cents")]


def by_name(text: str) -> list[tuple[str, tuple[Any, ...]]]:
    return [(BY_NAME.format(column), (text,)) for column in ("transfer_id", "end_to_end")]


def by_word(word: str) -> tuple[str, tuple[Any, ...]]:
    """A number is a word as a whole. Of another word the beginning is enough."""
    return BY_WORD, (word, word + ("\0" if word.isdecimal() else LAST))


def iban_part(iban: str) -> Part:
    return one_of("iban", iban, *((BY_VALUE.format(column), (iban,)) for column in ("debtor_iban", "creditor_iban")))


def has_one(connection: sqlite3.Connection, selects: list[tuple[str, tuple[Any, ...]]]) -> bool:
    return any(connection.execute(f"SELECT 1 FROM ({select} LIMIT 1)", its).fetchone() for select, its in selects)


def parts_of(connection: sqlite3.Connection, word: str) -> Iterator[Part]:
    """How a word is read: as an identification that is there, as an amount, or as words of names and of remittance
    information. A number may be each of them."""
    cents, words, named = cents_of(word), load_sqlite.words_in(word), by_name(word)
    is_named = has_one(connection, named)
    if cents is not None:
        more = [by_word(word)] if word.isdecimal() else []
        yield one_of("amount", amount_text(cents), *by_amount(cents), *(named if is_named else []), *more)
    elif is_named:
        yield one_of("id", word, *named)
    else:
        yield from (one_of("word", one, by_word(one)) for one in words)


def bank_of(connection: sqlite3.Connection, word: str) -> str | None:
    """The bank that a word is, if it is one of some transfer."""
    bank = fields.bank(word.upper())
    selects: list[tuple[str, tuple[Any, ...]]] = [(SENT_BY, (bank,)), (BY_VALUE.format("beneficiary_bank"), (bank,))]
    return bank if fields.is_bic(word.upper()) and has_one(connection, selects) else None


def read(connection: sqlite3.Connection, text: str) -> Sought:
    """How a text is read. An identification may have blanks and all signs, so the whole text may be one."""
    whole = text.strip()
    if has_one(connection, by_name(whole)) and cents_of(whole) is None:
        return Sought([one_of("id", whole, *by_name(whole))], [], None)
    rest, days = days_in(" ".join(text.split()))
    rest, amounts = amounts_in(rest)
    words, ibans = ibans_in(rest.split()[:MOST_PARTS])
    parts, banks = [iban_part(one) for one in ibans], []
    parts += [one_of("amount", amount_text(cents), *by_amount(cents)) for cents in amounts]
    for word in words:
        bank = bank_of(connection, word)
        banks += [bank] if bank else []
        parts += [] if bank else parts_of(connection, word)
    return Sought(parts[:MOST_PARTS], banks[:MOST_PARTS], (min(days), max(days)) if days else None)


def said(sought: Sought) -> dict[str, Any]:
    """How a text is read, for who wrote it."""
    its: dict[str, Any] = {}
    for part in sought.parts:
        its.setdefault(part.kind, []).append(part.text)
    return {**its, **({"bank": sought.banks} if sought.banks else {}),
            **({"days": list(sought.days)} if sought.days else {})}


# ---- what is answered

def rows_of(connection: sqlite3.Connection, question: str, values: dict[str, Any]) -> list[dict[str, Any]]:
    """The rows of a question, each without what it lacks. Amounts are texts."""
    cursor = connection.execute(question, values)
    names = [it[0] for it in cursor.description]
    return [tidy(dict(zip(names, row))) for row in cursor]


def tidy(row: dict[str, Any]) -> dict[str, Any]:
    its = {"amount" if name == "cents" else name: amount_text(cell) if name == "cents" or name in AMOUNTS else cell
           for name, cell in row.items() if cell is not None}
    if its.get("instructions") in (0, 1):
        del its["instructions"]
    if "findings" in its:
        its["findings"] = sorted(its["findings"].split(","))
    return its


def named(select: str, values: tuple[Any, ...], known: dict[str, Any]) -> str:
    """A SELECT whose values have names, which are known then."""
    its = iter(values)

    def name(_: re.Match[str]) -> str:
        its_name = f"value{len(known)}"
        known[its_name] = next(its)
        return f":{its_name}"
    return re.sub(r"\?", name, select)


def candidates(sought: Sought, known: dict[str, Any]) -> str:
    """A SELECT of the transfers that have each part, or without a part of those of a bank or of the days."""
    if sought.parts:
        return " INTERSECT ".join(f"SELECT bank, transfer_id FROM ({named(part.select, part.values, known)})"
                                  for part in sought.parts)
    if sought.banks:
        return named(OF_BANK, (sought.banks[0],) * 2, known)
    if sought.days:
        first, last = sought.days
        return named(OF_DAYS, (first, last, first, last + LAST), known)
    return "SELECT bank, transfer_id FROM transfer WHERE 0"


def found(connection: sqlite3.Connection, sought: Sought, first: int = 0, many: int = -1) -> list[dict[str, Any]]:
    """The transfers that have all that is sought, the newest first."""
    known: dict[str, Any] = {}
    select, conditions = candidates(sought, known), []
    for place, bank in enumerate(sought.banks):
        known[f"bank{place}"] = bank
        conditions.append(WITH_BANK.format(f":bank{place}"))
    if sought.days:
        known["from_day"], known["to_day"] = sought.days
        conditions.append(WITH_DAYS)
    where = "WHERE " + " AND ".join(conditions) if conditions else ""
    return rows_of(connection, ROWS.format(found=select, more="", where=where, order=NEWEST),
                   {**known, "first": first, "many": many})


def counts(connection: sqlite3.Connection) -> list[dict[str, Any]]:
    """How many each list of work has, and the last day on which a transfer is settled. A day after tomorrow is an error
    of its sender."""
    day, = connection.execute(
        "SELECT max(day) FROM message WHERE kind = 'pacs.008' AND day <= date('now', '+1 day')").fetchone()
    its = [{"list": name, "many": connection.execute(f"SELECT count(*) FROM ({select})").fetchone()[0]}
           for name, select in WORK.items()]
    return [*its, *([{"list": "totals", "day": day}] if day else [])]


def work(connection: sqlite3.Connection, name: str, bank: str | None = None, first: int = 0,
         many: int = -1) -> list[dict[str, Any]]:
    """The transfers or recalls of a list of work, the oldest first. With a bank those of which it is one of the two."""
    is_recalls = name == "recalls"
    question = ROWS.format(found=WORK[name], more=OF_RECALL if is_recalls else "",
                           where=f"WHERE {WITH_BANK.format(':bank')}" if bank else "",
                           order="since" if is_recalls else OLDEST)
    return rows_of(connection, question, {"bank": bank, "first": first, "many": many})


def latest(connection: sqlite3.Connection, many: int) -> list[dict[str, Any]]:
    """The transfers on which the last messages are."""
    question = ROWS.format(found=LATEST, more=", page.last", where="", order="datetime(last) DESC")
    return rows_of(connection, question, {"first": 0, "many": many})


def these(connection: sqlite3.Connection, keys: list[tuple[str, str]]) -> list[dict[str, Any]]:
    """Some transfers, each with the time of its last message."""
    known: dict[str, Any] = {}
    select = named(" UNION ".join("SELECT ? AS bank, ? AS transfer_id" for _ in keys),
                   tuple(text for key in keys for text in key), known)
    question = ROWS.format(found=THESE.format(select), more=", page.last", where="", order=NEWEST)
    return rows_of(connection, question, {**known, "first": 0, "many": -1})


def totals(connection: sqlite3.Connection, day: str) -> list[dict[str, Any]]:
    """What the totals text has of each bank, of the transfers that are settled on a day. A transfer without an
    instruction has no day."""
    return rows_of(connection, TOTALS, {"day": day})
