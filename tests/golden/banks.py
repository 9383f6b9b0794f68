"""banks.py: the reference of what is done in the name of banks, tests/oracle/rights.py, has the answers of worked
examples.

BANKDEFF is an originator bank. It sends T1 to BANQFRPP and T2 to BANKITMM. All answers were written by hand.
"""
from bench.generate.samples import confirmation, instruction, line, payback, recall, refusal, request, transaction
from tests import harness
from tests.oracle import rights
from tests.oracle.status import read_message, written

DEBTOR, PAID, OTHER = ["BANKDEFFXXX"], ["BANQFRPPXXX"], ["BANKITMMXXX"]
T1, T2, T9 = ((b"BANKDEFFXXX", tx) for tx in (b"T1", b"T2", b"T9"))
UNKNOWN = "T|BANKDEFFXXX|{}|UNKNOWN\n"
DAY = "2024-05-02"
HEADER = "DbtrAgt,TxId,Result,ListAmt,ListSts,Amt,Sts\n"


def message(elements):
    return read_message(line(elements).encode())


A8, A2 = message(instruction()), message(confirmation())
TO_OTHER = message(instruction(MsgId="M2", TxId="T2", CdtrAgt="BANKITMM"))
RECALL = message(recall([transaction(), transaction(OrgnlTxId="T2")]))
AGAINST = message(instruction(TxId="T9", CdtrAgt="BANKITMM"))  # with the identity of A8


def lists():
    """Texts, and the banks that they list."""
    sixteen = ",".join(["BANKDEFF"] * 16)
    yield "BANKDEFF", DEBTOR
    yield "BANQFRPPXXX,BANKITMM", PAID + OTHER
    yield sixteen, DEBTOR * 16
    yield from ((text, None) for text in ("", "X", ",", "BANKDEFF,", "BANKDEFF, BANQFRPP", "bankdeff", "BANKDEFFX",
                                          sixteen + ",BANKDEFF"))


def verdicts():
    """Banks, what is held, a message, and whether the banks may send it."""
    yes, waits, no = ("Allowed",), ("Waits", T1), ("NotBeneficiary",)
    yield DEBTOR, set(), A8, yes
    yield PAID, set(), A8, ("NotSender",)
    yield PAID, set(), A2, waits
    yield PAID, {A8}, A2, yes
    yield DEBTOR, {A8}, A2, ("NotSender",)
    yield OTHER, {A8}, message(confirmation(InstgAgt="BANKITMM")), no
    yield OTHER + PAID, {A8}, message(confirmation(InstgAgt="BANKITMM")), yes
    yield OTHER, {TO_OTHER}, message(confirmation(InstgAgt="BANKITMM")), waits
    yield OTHER, set(), message(instruction(InstgAgt="BANKITMM")), ("NotOriginator", 1)
    yield DEBTOR, set(), RECALL, yes
    yield DEBTOR, set(), message(recall([transaction(), transaction(DbtrAgt="BANKITMM")])), ("NotOriginator", 2)
    yield DEBTOR, set(), message(request()), yes
    for answer in (payback, refusal):
        yield PAID, {A8, RECALL}, message(answer()), yes
        yield OTHER, {A8, RECALL}, message(answer(InstgAgt="BANKITMM")), no
        yield PAID, {RECALL}, message(answer()), waits
    to_other = message(instruction(CdtrAgt="BANKITMM"))  # contradicts A8 on T1
    yield PAID, {A8, to_other}, A2, yes
    yield OTHER, {A8, to_other}, message(confirmation(InstgAgt="BANKITMM")), yes


def transfers():
    """Banks, what is held, a transfer, and whether it is theirs."""
    yield from ((banks, set(), T1, banks == DEBTOR) for banks in (DEBTOR, PAID, OTHER))
    yield PAID, {A2}, T1, True  # it answered too early
    yield PAID, {A2, message(instruction(CdtrAgt="BANKITMM"))}, T1, False
    yield OTHER, {A2}, T1, False
    yield OTHER, {message(confirmation(InstdAgt="BANKITMM"))}, T1, True
    yield OTHER, {A8, message(confirmation(InstdAgt="BANKITMM"))}, T1, False
    yield PAID, {A8, AGAINST}, T1, True
    yield PAID, {A8, AGAINST}, T9, False


def transfer_texts():
    """Banks, what is held, a transfer, and its lines."""
    accepted = "T|BANKDEFFXXX|T1|ACCEPTED\n"
    contradicted = "T|BANKDEFFXXX|T1|CONTRADICTED\nF|BANKDEFFXXX|T1|Identity|BANKDEFFXXX|pacs.008|M1\n"
    yield DEBTOR, {A8, A2}, T1, accepted
    yield PAID + OTHER, {A8, A2}, T1, accepted
    yield OTHER, {A8, A2}, T1, UNKNOWN.format("T1")
    yield PAID, {A8, AGAINST}, T1, contradicted
    yield PAID, {A8, AGAINST}, T9, UNKNOWN.format("T9")
    yield PAID, {A8, TO_OTHER, RECALL}, T1, "T|BANKDEFFXXX|T1|PENDING\nR|BANKDEFFXXX|T1|R1|OPEN\n"
    yield PAID, {A8, TO_OTHER, RECALL}, T2, UNKNOWN.format("T2")


def messages_texts():
    """Banks, what is held, a transfer, and the messages that they are shown, in order."""
    held = {A8, A2, TO_OTHER, RECALL}
    flat = message(recall([transaction()]))
    yield PAID, held, T1, [flat, A8, A2]
    yield DEBTOR, held, T1, [RECALL, A8, A2]
    yield PAID + OTHER, held, T1, [RECALL, A8, A2]
    yield OTHER, held, T1, []
    yield OTHER, held, T2, [message(recall([transaction(OrgnlTxId="T2")])), TO_OTHER]
    yield PAID, {A8, AGAINST}, T1, [A8]
    own = message(recall([transaction(), transaction(OrgnlTxId="T2")], InstgAgt="BANQFRPP"))
    yield PAID, {A8, TO_OTHER, own}, T1, [A8, own]


def bank_texts():
    """Banks, what is held, one of them, and its line in the totals."""
    yield DEBTOR, {A8, A2, TO_OTHER}, "BANKDEFFXXX|1|1.00|0.00|0|1|0|0|0|0.00|0.00\n"
    yield PAID, {A8, A2, TO_OTHER}, "BANQFRPPXXX|0|0.00|0.00|0|0|0|0|1|1.00|0.00\n"
    yield OTHER, {A8, A2, TO_OTHER}, "BANKITMMXXX|0|0.00|0.00|0|0|0|0|0|0.00|0.00\n"


def reports():
    """Banks, what is held, and the report of one of them on rows on T1, T2 and T9."""
    rows = [(T1, 100, "ACCEPTED"), (T2, 100, "PENDING"), (T9, 100, "PENDING"), (T9, 100, "PENDING")]
    twice = "BANKDEFFXXX,T9,LISTED_TWICE,,,,UNKNOWN\n"
    mine, other = ("BANKDEFFXXX,T1,MATCHED,1.00,ACCEPTED,1.00,ACCEPTED\n",
                   "BANKDEFFXXX,T2,MATCHED,1.00,PENDING,1.00,PENDING\n")
    yield DEBTOR, {A8, A2, TO_OTHER}, rows, HEADER + mine + other + twice
    yield PAID, {A8, A2, TO_OTHER}, rows, HEADER + mine + "BANKDEFFXXX,T2,ONLY_IN_LIST,1.00,PENDING,,UNKNOWN\n" + twice
    yield OTHER, {A8, A2, TO_OTHER}, [], HEADER + "BANKDEFFXXX,T2,ONLY_IN_ARCHIVE,,,1.00,PENDING\n"
    against = (
        "BANKDEFFXXX,T1,CONTRADICTED,1.00,ACCEPTED,,CONTRADICTED\nBANKDEFFXXX,T9,ONLY_IN_LIST,1.00,PENDING,,UNKNOWN\n")
    yield PAID, {A8, AGAINST}, [rows[0], rows[2]], HEADER + against


def asked():
    """The name of each example, the answer of the reference, and the right one."""
    for text, banks in lists():
        yield f"the list {text!r}", rights.banks_in(text), banks
    for banks, held, sent, right in verdicts():
        yield f"{sent[0]} sent by {banks} on {len(held)} messages", rights.verdict(banks, held, sent), right
    for banks, held, transfer, right in transfers():
        yield f"whether {transfer} is of {banks}", rights.is_theirs(banks, held, transfer), right
    for banks, held, transfer, right in transfer_texts():
        yield f"the lines of {transfer} for {banks}", rights.transfer_text(banks, held, transfer), right
    for banks, held, transfer, right in messages_texts():
        yield f"the messages on {transfer} for {banks}", rights.messages_text(banks, held, transfer), "".join(
            written(one) + "\n" for one in right)
    for banks, held, right in bank_texts():
        yield f"the line of {banks[0]}", rights.bank_text(banks, held, banks[0]), right
    for banks, held, rows, right in reports():
        yield f"the report of {banks[0]} on {len(rows)} rows", rights.report_for(banks, held, banks[0], DAY,
                                                                                 rows), right


def main():
    harness.end_of([harness.reported(name, found == right, f"{found!r}\nwhere it is {right!r}")
                    for name, found, right in asked()])


if __name__ == "__main__":
    main()
