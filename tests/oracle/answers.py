"""answers.py: what a site answers on a set of messages, by the definitions alone: the lines of a transfer, the line of
a bank, and the report on a list.

Messages and their words are those of status.py.
"""
import csv
import io
from tests.oracle import status
from tests.oracle.status import by_transfer, contradicted, standing

REPORT_HEADER = ["DbtrAgt", "TxId", "Result", "ListAmt", "ListSts", "Amt", "Sts"]


def lines_on(key, said, against):
    """The lines of a transfer in the status text."""
    name = "|".join(part.decode() for part in key)
    if not said:
        return f"T|{name}|UNKNOWN\n"
    word, found, recalls = standing(said, against)
    return "".join([f"T|{name}|{word}\n", *(f"F|{name}|{one}\n" for one in found),
                    *(f"R|{name}|{one}\n" for one in recalls)])


def all_lines(messages):
    """The lines of each transfer."""
    against = contradicted(messages)
    return {key: lines_on(key, said, against) for key, said in by_transfer(messages).items()}


def bank_line(messages, bank):
    """The line of a bank in the totals text. A bank without totals has one too."""
    lines = status.totals_text(messages).splitlines(keepends=True)
    found = [line for line in lines if line.startswith(bank + "|")]
    return found[0] if found else f"{bank}|0|0.00|0.00|0|0|0|0|0|0.00|0.00\n"


def result_of(rows, word, cents):
    """The first of the eight results that holds."""
    if len(rows) > 1:
        return "LISTED_TWICE"
    if word == "CONTRADICTED":
        return word
    if word in ("UNKNOWN", "MISSING"):
        return "ONLY_IN_LIST" if rows else "MISSING"
    if not rows:
        return "ONLY_IN_ARCHIVE"
    if rows[0][1] != cents:
        return "AMOUNT_DIFFERS"
    return "MATCHED" if rows[0][2] == word else "STATUS_DIFFERS"


def report_text(messages, bank, day, rows):
    """The report on a list."""
    against, by, keys = contradicted(messages), by_transfer(messages), {key for key, _, _ in rows}
    instructed = {}
    for key, said in by.items():
        instructions = status.Clean(said, against).instructions
        instructed[key] = instructions[0] if len(instructions) == 1 else {}
        is_of_bank = bank.encode() == key[0] or instructed[key].get("CdtrAgt") == bank
        if is_of_bank and instructed[key].get("IntrBkSttlmDt", day) == day:
            keys.add(key)
    text = io.StringIO()
    writer = csv.writer(text, lineterminator="\n")
    writer.writerow(REPORT_HEADER)
    for key in sorted(keys):
        word = standing(by[key], against)[0].partition("|")[0] if key in by else "UNKNOWN"
        cents, on = instructed.get(key, {}).get("IntrBkSttlmAmt"), [row for row in rows if row[0] == key]
        listed = [status.euros(on[0][1]), on[0][2]] if len(on) == 1 else ["", ""]
        writer.writerow([*(part.decode() for part in key), result_of(on, word, cents), *listed,
                         status.euros(cents) if cents else "", word])
    return text.getvalue()
