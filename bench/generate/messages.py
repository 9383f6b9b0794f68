"""bench/generate/messages.py N [SEED]: prints N valid messages for measuring, pacs.008 and a pacs.002 for most of them.

The same N and SEED print the same bytes. Each transfer is by itself: nothing is repeated and nothing contradicts.
About nine in ten instructions are confirmed, a few places later; of these one in twenty is rejected.
"""
import pathlib
import random
import sys
sys.path.insert(0, str(pathlib.Path(__file__).resolve().parents[2]))
from bench.generate import samples
from bench.generate.parties import account

COUNTRIES = [("DE", 20099700), ("FR", 30997), ("BE", 979), ("AT", 99200), ("IT", 9931), ("ES", 9962), ("FI", 799971),
             ("NL", 0)]
NAMES = ["Anna Weber", "Bo Maes", "Jürgen Größler", "Amélie Dubois", "María Núñez", "Päivi Virtanen", "Katharina Höfer",
         "J. de Vries", "Officina Rossi S.r.l.", "Tulp Fietsen B.V.", "Atelier Lumière SARL", "Zeynep Özdemir"]
REASONS = ["AB05", "AC01", "AC04", "AC06", "AG01", "AM04", "AM05", "MS03", "RR04", "TM01"]


def banks(r):
    """48 banks, six a country, some by 8 and some by 11 characters, each with 40 accounts."""
    out = []
    for i in range(48):
        country, code = COUNTRIES[i % len(COUNTRIES)]
        four = "".join(r.choice("ABCDEFGHIJKLMNOPQRSTUVWXYZ") for _ in range(3)) + "ABCDEFGHIJKLMNOPQRSTUVWXYZ"[i // 8]
        place = r.choice(["FF", "PP", "2A", "BB", "WW", "MM", "HH"])
        branch = r.choice(["", "", "XXX", "370"])
        out.append((four + country + place + branch,
                    [account(country, code + i, r.randrange(10 ** 9)) for _ in range(40)]))
    return out


def time_of(i):
    s = 6 * 3600 + i // 40
    day = f"2025-03-{10 + s // 86400 % 20:02d}"
    return day, f"{day}T{s // 3600 % 24:02d}:{s // 60 % 60:02d}:{s % 60:02d}Z"


def amount(r):
    """An amount, as it is written."""
    cents = min(99999999999, int(r.lognormvariate(8.5, 1.6)) + 1)
    return f"{cents // 100}.{cents % 100:02d}"


def instruction(r, pool, i, number):
    """The instruction with this number, in the place i."""
    debtor, debtor_accounts = pool[r.randrange(48)]
    creditor, creditor_accounts = pool[r.randrange(48)]
    day, at = time_of(i)
    sent = amount(r)
    more = {"Ustrd": f"Invoice {r.randrange(10 ** 7)}"} if r.random() < 0.2 else {}
    return samples.instruction(
        MsgId=f"M{number:09d}", CreDtTm=at, InstgAgt=debtor, IntrBkSttlmDt=day, EndToEndId=f"E{number:09d}",
        TxId=f"T{number:09d}", IntrBkSttlmAmt=sent, Dbtr=r.choice(NAMES),
        DbtrAcct=r.choice(debtor_accounts), DbtrAgt=debtor, CdtrAgt=creditor, Cdtr=r.choice(NAMES),
        CdtrAcct=r.choice(creditor_accounts), **more)


def confirmation(r, i, instructed):
    """The confirmation or rejection of an instruction, in the place i."""
    rejected = r.random() < 0.05
    status = {"TxSts": "RJCT", "Rsn": r.choice(REASONS)} if rejected else samples.ACCEPTED
    return samples.confirmation(
        status, MsgId=f"C{i:09d}", CreDtTm=time_of(i)[1], InstgAgt=instructed["CdtrAgt"],
        OrgnlMsgId=instructed["MsgId"],
        OrgnlTxId=instructed["TxId"], DbtrAgt=instructed["DbtrAgt"])


def lines(many, seed=1):
    """So many messages, each a line."""
    r = random.Random(seed)
    pool, waiting, number = banks(r), [], 0
    for i in range(many):
        if len(waiting) > 8 and r.random() < 0.65 or len(waiting) > 60:
            message = confirmation(r, i, waiting.pop(r.randrange(len(waiting))))
        else:
            number += 1
            message = instruction(r, pool, i, number)
            if r.random() < 0.92:
                waiting.append(message)
        yield samples.line(message)


if __name__ == "__main__":
    for text in lines(*map(int, sys.argv[1:])):
        sys.stdout.buffer.write(text.encode())
