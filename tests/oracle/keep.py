"""What `keep` and `closed` must answer for an input, by the definitions alone: text, refused lines, exit status.

Usage: tests/oracle/keep.py keep|closed DAY < MESSAGES

A message is open if one of its transfers is not done. Kept are the open messages, then those that are tied to them,
then those that are tied to these, until nothing is added.
"""
import pathlib
import sys
sys.path.insert(0, str(pathlib.Path(__file__).resolve().parents[2]))
from tests.oracle.status import (
    archive_text, by_transfer, contradicted, day as day_in, identity, messages_in, standing, transfers, end_on)

FINAL = {"ACCEPTED", "REJECTED", "RETURNED"}
ANSWERED = {"RETURNED", "REFUSED"}


def date(message):
    """The date of CreDtTm, as it is written."""
    return dict(message[1])["CreDtTm"][:10]


def is_settled(status, recalls):
    """Whether the status of a transfer is final, and each of its recalls was answered."""
    return status.partition("|")[0] in FINAL and all(recall.split("|")[1] in ANSWERED for recall in recalls)


def open_transfers(day, messages):
    """The transfers that are not done before a day."""
    against, found = contradicted(messages), set()
    for transfer, said in by_transfer(messages).items():
        status, _, recalls = standing(said, against)
        if not is_settled(status, recalls) or any(date(message) >= day for message, _ in said):
            found.add(transfer)
    return found


def is_tied(message, identities, on):
    """Whether a message has one of some identities, or is on one of some transfers."""
    return identity(message) in identities or not on.isdisjoint(transfers(message))


def kept(day, messages):
    """The messages that are kept on a day."""
    identities, on = set(), open_transfers(day, messages)
    found, rest = set(), set(messages)
    while True:
        tied = {message for message in rest if is_tied(message, identities, on)}
        if not tied:
            return found
        found, rest = found | tied, rest - tied
        identities = {identity(message) for message in tied}
        on = {transfer for message in tied for transfer in transfers(message)}


def closed(day, messages):
    """The messages that are closed on a day."""
    return set(messages) - kept(day, messages)


PARTS = {"keep": kept, "closed": closed}


def answer(word, day, data):
    """The text, the refused lines and the exit status. The day is looked at before the data."""
    if day_in(day) is None:
        return "", f"fault 64\nerror: invalid value '{day}' for '<DAY>': expected a day, written as 2024-05-02\n", 2
    messages, refused = messages_in(data)
    return archive_text(PARTS[word](day, messages)), refused, 1 if refused else 0


if __name__ == "__main__":
    words = sys.argv[1:]
    end_on(lambda data: answer(*words, data), len(words) == 2 and words[0] in PARTS)
