"""lists.py: the check of a bank's list before a report on it, by check_list.py of the desk.

Of each part a worker keeps what the archive text of the part says about the transfers of the list. Together these are
what an archive of all messages says about them: the messages on one transfer are in one part.
"""
from __future__ import annotations
import csv
import pathlib
from typing import Any
from hub.places import desk_module
from parts.answers import answer_file

TOOLS = ("check_list", "fields", "list_from_csv")


def tools() -> list[str]:
    """The files that this check is made of."""
    return [str(desk_module(name).__file__) for name in TOOLS]


def rows_of(path: str) -> list[tuple[int, str, str]]:
    """The rows of a list."""
    with open(path, "rb") as file:
        return list(desk_module("check_list").rows(file))


def held_in_part(work: str, name: str, path: str) -> list[Any]:
    """What the messages of a part say about the transfers of a list: the instructions, and the banks of other
    messages."""
    wanted = {(bank, tx) for _, bank, tx in rows_of(path)}
    with open(answer_file(work, name, "archive"), encoding="utf-8") as archive:
        instructions, banks = desk_module("check_list").held_in(archive, wanted)
    return [[[*transfer, ones] for transfer, ones in instructions.items()],
            [[*transfer, sorted(its)] for transfer, its in banks.items()]]


def findings(bank: str, day: str, path: str, held: list[Any]) -> tuple[list[str], list[str]]:
    """Why there is no report on a list, as a sentence for each row that is a transfer of other banks, and what is said
    of other rows."""
    desk, instructions, banks = desk_module("check_list"), {}, {}
    for ones, its in held:
        instructions.update({(originator, tx): [desk.Instruction(*one) for one in some]
                             for originator, tx, some in ones})
        banks.update({(originator, tx): set(some) for originator, tx, some in its})
    said = list(desk.faults(desk.bank(bank), day, rows_of(path), (instructions, banks)))
    return [text for forbids, text in said if forbids], [text for forbids, text in said if not forbids]


def wrong_word(bank: str, day: str) -> str | None:
    """What is wrong with the words of a report, or None."""
    return desk_module("check_list").wrong_word(bank, day)


def of_spreadsheet(path: str) -> tuple[list[str], str]:
    """What is wrong with a list that the program refuses, as sentences, and what to do about it."""
    desk = desk_module("list_from_csv")
    try:
        faults = list(desk.read(pathlib.Path(path).read_bytes()).faults)
    except csv.Error as fault:
        faults = [f"the list cannot be read: {fault}"]
    made = f"a spreadsheet saved it: python3 {desk.__file__} {path} prints a list of it"
    return faults, f"there is no report on {path}" + ("" if faults else f": {made}")
