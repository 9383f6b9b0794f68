"""bench/generate/recalls.py N TRANSACTIONS [SEED]: prints N recalls of TRANSACTIONS transactions each, 1 to 100, for
measuring.

The same words print the same bytes. Each transaction recalls a transfer of its own, so nothing is contradicted. The
transactions go on from recall to recall: 10 recalls of 100 have the same ones, in the same order, as 1000 recalls of
one. A recall of one transaction is flat.
"""
import pathlib
import random
import sys
sys.path.insert(0, str(pathlib.Path(__file__).resolve().parents[2]))
from bench.generate import messages, samples

REASONS = ["DUPL", "TECH", "FRAD", "CUST", "AC03", "AM09"]
OF_ONE_BANK = 100


def transaction(r, banks, number):
    """The transaction with this number. A hundred in a row are of one originator bank."""
    bank, _ = banks[number // OF_ONE_BANK % len(banks)]
    return samples.transaction(
        CxlId=f"R{number:09d}", OrgnlMsgId=f"M{number:09d}", OrgnlTxId=f"T{number:09d}",
        OrgnlIntrBkSttlmAmt=messages.amount(r),
        Rsn=r.choice(REASONS), DbtrAgt=bank)


def lines(many, transactions, seed=1):
    """So many recalls, each a line."""
    r = random.Random(seed)
    banks = messages.banks(r)
    for i in range(many):
        listed = [transaction(r, banks, i * transactions + place) for place in range(transactions)]
        yield samples.line(samples.recall(listed, MsgId=f"K{i:09d}", InstgAgt=listed[0]["DbtrAgt"]))


if __name__ == "__main__":
    for text in lines(*map(int, sys.argv[1:])):
        sys.stdout.buffer.write(text.encode())
