"""What is done in the name of banks, by the definitions alone: which messages they may send, which transfers are
theirs, and what they are shown.

Banks are a list of BICs of 11 characters. A message, a set of messages and the key of a transfer are those of
status.py.
"""
from tests.oracle import status
from tests.oracle.answers import bank_line, lines_on, report_text
from tests.oracle.status import RECALL, by_transfer, contradicted, identity, transactions_of, transfer_key, transfers

MOST_BANKS = 16
OF_ORIGINATORS = {"pacs.008", "camt.056", "pacs.028"}  # the kinds that an originator bank sends
ALLOWED = ("Allowed",)


def banks_in(text):
    """The banks that a text lists, with commas between them, or None."""
    banks = [status.bic(part) for part in text.split(",")]
    return None if None in banks or len(banks) > MOST_BANKS else banks


# ---- messages and transfers

def sender(message):
    return dict(message[1])["InstgAgt"]


def is_between(banks, message):
    """Whether one of the banks sent the message, or it was sent to one of them."""
    return sender(message) in banks or dict(message[1]).get("InstdAgt") in banks


def on_transfer(held, transfer):
    """The messages on a transfer, contradicted or not."""
    return [message for message in held if transfer in transfers(message)]


def instructions(held, transfer):
    """The instructions on a transfer, contradicted or not."""
    return [message for message in on_transfer(held, transfer) if message[0] == "pacs.008"]


def is_credit_to(banks, instruction):
    """Whether an instruction is to one of the banks."""
    transaction, = transactions_of(instruction)
    return transaction["CdtrAgt"] in banks


def is_theirs(banks, held, transfer):
    instructed = instructions(held, transfer)
    if transfer[0].decode() in banks or any(is_credit_to(banks, instruction) for instruction in instructed):
        return True
    return not instructed and any(is_between(banks, message) for message in on_transfer(held, transfer))


# ---- what may be sent

def verdict(banks, held, message):
    """Whether the message may be sent in the name of the banks: a word, and the place or the transfer that it is
    about."""
    kind = message[0]
    if sender(message) not in banks:
        return ("NotSender",)
    if kind in OF_ORIGINATORS:
        others = (place for place, transaction in enumerate(transactions_of(message), 1)
                  if transaction["DbtrAgt"] not in banks)
        place = next(others, None)
        return ALLOWED if place is None else ("NotOriginator", place)
    transfer, = transfers(message)
    instructed = instructions(held, transfer)
    if not instructed:
        return "Waits", transfer
    return ALLOWED if any(is_credit_to(banks, instruction) for instruction in instructed) else ("NotBeneficiary",)


# ---- what is shown

def visible(banks, held):
    """The messages on transfers that are theirs, and with each of them all messages of its identity."""
    seen = {identity(message) for message in held
            if any(is_theirs(banks, held, transfer) for transfer in transfers(message))}
    return {message for message in held if identity(message) in seen}


def visible_on(banks, held, transfer):
    """What is there to see of one transfer."""
    return visible(banks, held) if is_theirs(banks, held, transfer) else set()


def shown(banks, held, message):
    """A message as it is shown: of a recall message of others, the transactions on transfers that are theirs."""
    kind, head, transactions = message
    if kind != RECALL or sender(message) in banks:
        return message
    return kind, head, tuple(one for one in transactions if is_theirs(banks, held, transfer_key(kind, dict(one))))


# ---- the four questions

def transfer_text(banks, held, transfer):
    seen = visible_on(banks, held, transfer)
    return lines_on(transfer, by_transfer(seen).get(transfer), contradicted(seen))


def messages_text(banks, held, transfer):
    on_it = on_transfer(visible_on(banks, held, transfer), transfer)
    return status.archive_text({shown(banks, held, message) for message in on_it})


def bank_text(banks, held, bank):
    """The line of a bank of theirs in the totals."""
    return bank_line(visible(banks, held), bank)


def report_for(banks, held, bank, day, rows):
    """The report on a list of a bank of theirs. A row on a transfer that is not theirs is that of a hub that holds
    nothing."""

    def lines(messages):
        header, *records = report_text(messages, bank, day, rows).splitlines(keepends=True)
        return header, {tuple(part.encode() for part in record.split(",")[:2]): record for record in records}

    header, seen = lines(visible(banks, held))
    _, unseen = lines(set())
    return header + "".join(record if is_theirs(banks, held, transfer) else unseen[transfer]
                            for transfer, record in seen.items())
