"""lists.py: lists of banks for reports, as the tools of the desk read them, and what is said of their rows.

What a report shows is the core's: each is made for banks, and a row on a transfer of others says what the list says.
What is said here are warnings for people, with the sentences of check_list.py.
"""
from __future__ import annotations
import csv
import io
import itertools
from typing import Any
from . import limits
from .faults import BadList, BadText, WrongList
from .places import desk_module

# in the canonical line of an instruction and in no other: quotes in a text are escaped
IS_INSTRUCTION = b'"MsgNmId":"pacs.008'


def must_be_words(bank: str, day: str) -> None:
    """BadText if a bank or a day of a report is none: a sentence of check_list.py."""
    wrong = desk_module("check_list").wrong_word(bank, day)
    if wrong:
        raise BadText(wrong)


def listed(data: bytes, is_bounded: bool = True) -> list[tuple[int, str, str]]:
    """The rows of a list, each with its number, its bank and its identification, as check_list.py reads them. That of a
    bank is bounded."""
    if is_bounded and len(data) > limits.LIST_MOST_BYTES:
        raise BadList(f"the list of a bank has at most {limits.LIST_MOST_BYTES} bytes")
    try:
        rows = list(itertools.islice(desk_module("check_list").rows(io.BytesIO(data)),
                                     limits.LIST_MOST_ROWS + 1 if is_bounded else None))
    except csv.Error as fault:
        raise BadList(desk_module("list_from_csv").kind_fault(data) or f"the list cannot be read: {fault}") from None
    if is_bounded and len(rows) > limits.LIST_MOST_ROWS:
        raise BadList(f"the list of a bank has at most {limits.LIST_MOST_ROWS} rows")
    return rows


def of_spreadsheet(data: bytes, refused: str) -> bytes:
    """The list that a spreadsheet meant, which saved it in a way that the program refuses with a text. WrongList if it
    is no list."""
    desk = desk_module("list_from_csv")
    try:
        found = desk.read(data)
    except csv.Error as fault:
        raise WrongList(refused, [f"the list cannot be read: {fault}"]) from None
    if found.faults:
        raise WrongList(refused, found.faults)
    return bytes(desk.as_list(found.rows), "utf-8")


def transfers_in(rows: list[tuple[int, str, str]]) -> list[tuple[str, str]]:
    """The transfers that rows name, each once. A row with other texts than a BIC and an identification names none: the
    program refuses its list."""
    fields = desk_module("fields")

    def is_one(originator: str, tx: str) -> bool:
        return fields.is_bic(originator) and fields.is_identification(tx)

    return list(dict.fromkeys((originator, tx) for _, originator, tx in rows if is_one(originator, tx)))


def rows_of_list(data: bytes, is_bounded: bool = True) -> list[tuple[str, str]]:
    """The transfers that have to be looked up before something is said of a list. BadList if the list is too long, or
    cannot be read."""
    return transfers_in(listed(data, is_bounded))


def lines_in(text: bytes) -> list[bytes]:
    """The lines of a text of the process that say whose transfer it is: its instructions or, if it has none, all.
    Nothing but a line feed ends one. The others are not read: a recall may have 40 KB."""
    lines = [line for line in text.split(b"\n") if line]
    return [line for line in lines if IS_INSTRUCTION in line] or lines


def held_on(text: bytes, originator: str, tx: str) -> tuple[list[Any], set[str]]:
    """What check_list.py looks at of the text of the messages on a transfer: its instructions, and the banks of its
    other messages."""
    instructions, banks = desk_module("check_list").held_in(lines_in(text), {(originator, tx)})
    return instructions.get((originator, tx), []), banks.get((originator, tx), set())


def findings(bank: str, day: str, data: bytes, held: dict[tuple[str, str], tuple[list[Any], set[str]]],
             is_bounded: bool = True) -> tuple[list[str], list[str]]:
    """What is said of the rows of a list of a bank that are transfers of other banks, and of the other rows: sentences
    of check_list.py.

    `held` has what `held_on` finds for each transfer that rows_of_list names. The form of a list is left to the
    program, which refuses a wrong one.
    """
    desk, rows = desk_module("check_list"), listed(data, is_bounded)
    known = {transfer: held[transfer] for transfer in transfers_in(rows)}
    instructions, banks = ({transfer: its[place] for transfer, its in known.items()} for place in (0, 1))
    found = list(desk.faults(desk.bank(bank), day, rows, (instructions, banks)))
    return [text for forbids, text in found if forbids], [text for forbids, text in found if not forbids]
