"""views.py: made-up sets of messages that are applied to views, and what these must answer by the definitions.

Each of 300 sets is cut into batches in three ways: one batch, one message a batch, and at random. Messages confirm,
recall, return and contradict one another, also after they were counted. Recalls may have a list. Some come again in the
other form, and some with a changed list under the same identification. Every fiftieth set ends with two recalls of 100
transactions. The driver must print of each batch how many messages are fresh and how many transfers they touch. At the
end, and after each batch of the random cut, both texts must be those of tests/oracle/status.py. At the end they must be
those of the view built in one batch.
"""
import json
from tests.oracle.status import (
    by_transfer, contradicted, identity, read_message, recall_key, standing, status_text, totals_text, transactions_of,
    transfers)
from tests.property.messages import Pool, in_other_form, parts, written_out
from tests.property.tries import Try

MANY = 300
TAKEN_BACK = "a batch took back what was counted as sent"
SEVERAL = "a recall of several transfers"
TWICE = "one transfer in two transactions of a recall"
ONE_LISTED = "a list of one transaction"
BOTH_FORMS = "a message in both forms"
OTHER_ORDER = "lists that differ in their order alone"
FRONT = "a list that another one begins with"
ONE_CONTRADICTED = "a recall whose amount contradicts one transfer and not another"
OTHER_ANSWER = "an answer to a recall that is made of another transfer in the same message"
LATE = "a recall contradicted late, on transfers that the later message does not name"
MOST = "200 transfers touched by one message"
MOST_OF_ONE = "a recall of one transfer 100 times"
FINDINGS = ["Identity", "TwoInstructions", "BothConfirmed", "ReasonsDiffer", "AmountDiffers",
            "RecallsDiffer", "BothAnswers",
            "RefusalsDiffer", "TwoReturns", "ReturnOfRejected"]
STATUSES = ["T " + word for word in ["CONTRADICTED", "MISSING", "REJECTED", "RETURNED", "ACCEPTED", "INVESTIGATED",
                                     "PENDING"]]
RECALL_STATUSES = ["R " + word for word in ["CONTRADICTED", "UNASKED", "RETURNED", "REFUSED", "CHASED", "OPEN"]]
TO_MEET = [TAKEN_BACK, SEVERAL, TWICE, ONE_LISTED, BOTH_FORMS, OTHER_ORDER, FRONT,
           ONE_CONTRADICTED, OTHER_ANSWER, LATE, MOST,
           MOST_OF_ONE, *FINDINGS, *STATUSES, *RECALL_STATUSES]


# ---- made-up sets

def changed_list(r, recall):
    """The recall with its list in the opposite order, or without its last transaction."""
    head, transactions = parts(recall)
    return {**head, "TxInf": r.choice([transactions[::-1], transactions[:-1]])}


def answer_elsewhere(pool, recall):
    """A refusal of the first recall of a list, of the transfer of the last one."""
    _, [first, *_, last] = parts(recall)
    return {**pool.refusal(), "OrgnlCxlId": first["CxlId"], "OrgnlTxId": last["OrgnlTxId"], "DbtrAgt": last["DbtrAgt"]}


def next_message(r, pool, messages):
    """A message that may be one of these again, a recall of them with its list changed, or an answer to one."""
    listed = [message for message in messages if len(message.get("TxInf", [])) > 1]
    draw = r.random()
    if messages and draw < 0.05:
        return written_out(in_other_form(r.choice(messages)))
    if listed and draw < 0.1:
        return changed_list(r, r.choice(listed))
    if listed and draw < 0.13:
        return answer_elsewhere(pool, r.choice(listed))
    return pool.message()


def made_up_set(r, number):
    pool, messages = Pool(r), []
    for _ in range(r.randint(1, 18)):
        messages.append(next_message(r, pool, messages))
    if number % 50 == 0:
        messages += pool.longest_recalls(number % 100 == 0)
    return [json.dumps(message) for message in messages]


def cuts(r, lines):
    """The three ways to cut a set into batches."""
    at_random, rest = [], lines
    while rest:
        n = r.randint(0, min(len(rest), 8))
        at_random.append(rest[:n])
        rest = rest[n:]
    return {"one batch": [lines], "one by one": [[line] for line in lines], "cut at random": at_random}


# ---- what the definitions say

def touched(held, fresh):
    """The transfers of the fresh messages, and those of messages held whose identity becomes contradicted."""
    newly = contradicted(held | fresh) - contradicted(held)
    return {t for m in fresh for t in transfers(m)} | {t for m in held if identity(m) in newly for t in transfers(m)}


def standings(messages):
    """The status of each transfer, what is found on it, and its recalls."""
    against = contradicted(messages)
    return {t: standing(said, against) for t, said in by_transfer(messages).items()}


def sent(messages):
    """The transfers that count as sent."""
    return {t for t, (status, _, _) in standings(messages).items()
            if status.partition("|")[0] in ("ACCEPTED", "RETURNED")}


def trial(batches, often):
    """The lines that ask for it all, what must be printed, and what the batches meet."""
    asked, printed, held, counted, met = ["new"], ["new\n"], set(), set(), []
    for number, batch in enumerate(batches, 1):
        messages = {read_message(line.encode()) for line in batch}
        fresh = messages - held
        reached = touched(held, fresh)
        met += met_by_batch(held, fresh, reached)
        asked += batch + [""]
        printed.append(f"{len(fresh)} {len(reached)}\n")
        held |= fresh
        before, counted = counted, sent(held)
        met += [TAKEN_BACK] * len(before - counted)
        if often or number == len(batches):
            asked.append("tell")
            printed.append(status_text(held) + totals_text(held))
    return "\n".join(asked) + "\n", "".join(printed), met


# ---- what is met

def met_by_batch(held, fresh, reached):
    """What a batch of fresh messages meets that touches these transfers."""
    of_fresh = {t for m in fresh for t in transfers(m)}
    of_late = {t for m in held if identity(m) in map(identity, fresh) and len(transfers(m)) > 1 for t in transfers(m)}
    if of_late & reached - of_fresh:
        yield LATE
    if len(fresh) == 1 and len(reached) == 200:
        yield MOST


def met_by_line(line, message):
    """What a line meets by its form and by its transactions."""
    if len(json.loads(line).get("TxInf", [])) == 1:
        yield ONE_LISTED
    if len(transfers(message)) > 1:
        yield SEVERAL
    if len(transfers(message)) < len(message[2]):
        yield TWICE
    if len(transfers(message)) == 1 and len(message[2]) == 100:
        yield MOST_OF_ONE


def met_by_two(one, other):
    """What two recalls meet."""
    if one == other or identity(one) != identity(other):
        return
    if sorted(one[2]) == sorted(other[2]):
        yield OTHER_ORDER
    if one[2] == other[2][:len(one[2])]:
        yield FRONT


def met_by_recall(message, stands):
    """What a recall meets by the statuses of its transfers."""
    findings = [stands[t][1] for t in transfers(message)]
    if [] in findings and ["AmountDiffers"] in findings:
        yield ONE_CONTRADICTED
    for transfer, cxl in (recall_key("camt.056", m) for m in transactions_of(message)):
        if any(cxl + "|UNASKED" in stands[t][2] for t in transfers(message) - {transfer}):
            yield OTHER_ANSWER


def met_by_standing(status, findings, recalls):
    """What is met by the status of one transfer, its findings and its recalls."""
    yield "T " + status.partition("|")[0]
    yield from (finding.partition("|")[0] for finding in findings)
    yield from ("R " + recall.split("|")[1] for recall in recalls)


def met_by_set(lines):
    """What the lines of a set meet, however they are cut."""
    messages = [read_message(line.encode()) for line in lines]
    stands = standings(set(messages))
    listed = {message for line, message in zip(lines, messages) if "TxInf" in line}
    flat = {message for line, message in zip(lines, messages) if "TxInf" not in line}
    yield from [BOTH_FORMS] * len(listed & flat)
    for line, message in zip(lines, messages):
        yield from met_by_line(line, message)
    for message in listed:
        yield from met_by_recall(message, stands)
        for other in listed:
            yield from met_by_two(message, other)
    for one in stands.values():
        yield from met_by_standing(*one)


def tries(r, number):
    """The tries of the set with this number, each with what it meets."""
    lines = made_up_set(r, number)
    in_each = [*met_by_set(lines)]
    for way, batches in cuts(r, lines).items():
        asked, printed, met = trial(batches, way == "cut at random")
        yield Try(f"set {number}, {way}", asked.encode(), printed), in_each + met
