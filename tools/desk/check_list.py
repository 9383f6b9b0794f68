"""check_list.py: checks the list of a bank against an archive, before a report on it is made. The hub (services/hub)
and the answers on parts (services/parts) check a list by this module too.

A report answers each row of a list, whatever its banks and its day are. So a bank could ask for transfers of others,
and a list that belongs to another BANK or DAY gets a report that looks right. Standard error gets a line for each row

- of which all instructions in the archive are between other banks; the exit status is then 1,
- of which the archive has no instruction, but messages of other banks alone; the exit status is then 1, and
- whose instruction has another settlement day: the report compares it all the same.

Of a list without a row it has a line too: each transfer of the day is then ONLY_IN_ARCHIVE. A row of which the archive
has no message, or with too few fields, is not judged: its report says no more than the list. Rows count as in `fault 48
N`: from 1, with the header and without blank lines. A BANK that is no BIC, and a DAY that is no day, are refused.

Usage: check_list.py BANK DAY LIST ARCHIVE   (ARCHIVE: what `sct_sites archive` wrote)
"""
from __future__ import annotations
import collections
import csv
import io
import json
import sys
from typing import BinaryIO, Collection, Dict, Iterable, Iterator, List, NamedTuple, Set, Tuple
from fields import A_BIC, A_DAY, bank, is_bic, is_day


NO_ROW = "the list has the header alone: each transfer of the day is then ONLY_IN_ARCHIVE or MISSING"


# the beneficiary bank and the settlement day of an instruction
class Instruction(NamedTuple):
    beneficiary: str
    day: str


# of transfers by bank and identification: the instructions, and the banks of all other messages
Held = Tuple[Dict[Tuple[str, str], List[Instruction]], Dict[Tuple[str, str], Set[str]]]


def wrong_word(asking: str, day: str) -> str | None:
    """What is wrong with BANK or DAY of a report, as a sentence, or None."""
    if not is_bic(asking):
        return f"{asking} is not {A_BIC}"
    return None if is_day(day) else f"{day} is not {A_DAY}"


def held_in(archive: Iterable[bytes | str], wanted: Collection[tuple[str, str]] | None = None) -> Held:
    """The instructions of an archive, by originator bank and identification, and in the same way the banks of all other
    messages: of some transfers that are wanted, or of all."""
    found: dict[tuple[str, str], list[Instruction]] = collections.defaultdict(list)
    banks: dict[tuple[str, str], set[str]] = collections.defaultdict(set)
    for line in archive:
        message = json.loads(line)
        is_instruction = message["MsgNmId"].startswith("pacs.008")
        for part in message.get("TxInf", [message]):
            transfer = bank(part["DbtrAgt"]), part["TxId" if is_instruction else "OrgnlTxId"]
            if wanted is not None and transfer not in wanted:
                continue
            if is_instruction:
                found[transfer].append(Instruction(bank(message["CdtrAgt"]), message["IntrBkSttlmDt"]))
            else:
                banks[transfer].update(bank(message[name]) for name in ("InstgAgt", "InstdAgt") if name in message)
    return found, banks


def rows(file: BinaryIO) -> Iterator[tuple[int, str, str]]:
    """Each row of a list, a file of bytes, with its number, but for the header and rows that have no transfer."""
    records = (row for row in csv.reader(io.TextIOWrapper(file, encoding="utf-8-sig", errors="replace", newline=""))
               if row)
    for number, row in enumerate(records, 1):
        if number > 1 and len(row) > 1:
            yield number, bank(row[0]), row[1]


def banks_of(originator: str, transfer: str,
             held: tuple[dict[tuple[str, str], list[Instruction]], dict[tuple[str, str], set[str]]]) -> set[str]:
    """The banks of a transfer: its originator, and the beneficiaries of its instructions or, if it has none, the banks
    of its messages."""
    instructions, banks = held
    ones = instructions.get((originator, transfer), [])
    return {originator, *([one.beneficiary for one in ones] or banks.get((originator, transfer), []))}


def faults(asking: str, day: str, listed: Iterable[tuple[int, str, str]],
           held: Held) -> Iterator[tuple[bool, str]]:
    """What is to be said of the rows, each with whether it forbids the report. Of a list without rows one line says
    that it has none."""
    instructions, banks = held
    has_rows = False
    for number, originator, transfer in listed:
        has_rows = True
        ones = instructions.get((originator, transfer), [])
        others = banks.get((originator, transfer), set())
        is_its = asking in banks_of(originator, transfer, held)
        name = f"row {number}: {originator} {transfer}"
        if ones and not is_its:
            yield True, f"{name} is a transfer to {ones[0].beneficiary}, and not of {asking}"
        elif others and not is_its:
            yield True, f"{name} has no instruction, and {asking} is not one of its banks"
        elif ones and day not in [one.day for one in ones]:
            yield False, f"{name} is of {ones[0].day}, and not of {day}; the report compares it all the same"
    if not has_rows:
        yield False, NO_ROW


def main() -> None:
    if len(sys.argv) != 5:
        sys.exit(__doc__)
    asking, day, list_path, archive_path = sys.argv[1:]
    wrong = wrong_word(asking, day)
    if wrong:
        sys.exit(f"check_list: {wrong}")
    try:
        with open(archive_path, encoding="utf-8") as archive:
            held = held_in(archive)
        with open(list_path, "rb") as file:
            found = list(faults(bank(asking), day, rows(file), held))
    except (OSError, ValueError, KeyError, csv.Error) as why:
        sys.exit(f"check_list: {list_path} cannot be checked by {archive_path}: {why}")
    for _, text in found:
        print(f"check_list: {text}", file=sys.stderr)
    sys.exit(1 if any(forbids for forbids, _ in found) else 0)


if __name__ == "__main__":
    main()
