"""c_banks.py: banks send messages and ask questions by the library as worked examples have it, byte for byte.

BANKDEFF sends T1 to BANQFRPP, and T2 to BANKITMM. All numbers, reasons and texts were written by hand.

- Who may send: each reason, in which order they come, that a refused message changes nothing and can be sent again, and
that an instruction counts which came by a delta or is contradicted.
- What is shown: transfers, messages, totals and reports of theirs and of others, a recall in part, a contradiction with
a transfer of others.
- Two sites that differ only in what a bank may not see answer each of its questions with equal bytes.
- Lists of banks, right and wrong ones, and the order of the reasons to refuse a question.
"""
import json
from bench.generate.samples import confirmation, instruction, line, payback, recall, refusal, request, transaction
from tests import harness
from tests.embed import driving
from tests.embed.c_answers import EMPTY_DELTA, OK, right, wanted_of, zeros
from tests.golden.made_inputs import REPORT_WRITTEN, TRANSFER_WRITTEN
from tests.harness import reported

DEBTOR, PAID, OTHER = b"BANKDEFF", b"BANQFRPP", b"BANKITMM"
DAY, HEADER = b"2024-05-02", b"DbtrAgt,TxId,Amt,Sts\n"
OPEN = ("open", 0, 1, 2)
# what is written: an instruction and its confirmation, and a recall of T1 alone and with T2
A8_LINE, A2_LINE = TRANSFER_WRITTEN.encode(), REPORT_WRITTEN.encode()
FLAT = (b'{"Ccy":"EUR","CreDtTm":"2024-05-03T09:00:00Z","CxlId":"R1","DbtrAgt":"BANKDEFFXXX","InstgAgt":"BANKDEFFXXX",'
        b'"MsgId":"K1","MsgNmId":"camt.056","OrgnlIntrBkSttlmAmt":"1.00","OrgnlMsgId":"M1","OrgnlMsgNmId":"pacs.008",'
        b'"OrgnlTxId":"%s","Rsn":"FRAD"}\n')
WHOLE = (b'{"CreDtTm":"2024-05-03T09:00:00Z","InstgAgt":"BANKDEFFXXX","MsgId":"K1","MsgNmId":"camt.056","TxInf":['
         b'{"Ccy":"EUR","CxlId":"R1","DbtrAgt":"BANKDEFFXXX","OrgnlIntrBkSttlmAmt":"1.00","OrgnlMsgId":"M1",'
         b'"OrgnlMsgNmId":"pacs.008","OrgnlTxId":"T1","Rsn":"FRAD"},'
         b'{"Ccy":"EUR","CxlId":"R1","DbtrAgt":"BANKDEFFXXX","OrgnlIntrBkSttlmAmt":"1.00","OrgnlMsgId":"M1",'
         b'"OrgnlMsgNmId":"pacs.008","OrgnlTxId":"T2","Rsn":"FRAD"}]}\n')
TO_OTHER_LINE = (b'{"Ccy":"EUR","Cdtr":"Bo Maes","CdtrAcct":"BE68539007547034","CdtrAgt":"BANKITMMXXX","ChrgBr":"SLEV",'
                 b'"CreDtTm":"2024-05-02T10:00:00Z","Dbtr":"Anna Weber","DbtrAcct":"DE89370400440532013000",'
                 b'"DbtrAgt":"BANKDEFFXXX","EndToEndId":"E1","InstgAgt":"BANKDEFFXXX","IntrBkSttlmAmt":"1.00",'
                 b'"IntrBkSttlmDt":"2024-05-02","LclInstrm":"INST","MsgId":"M2","MsgNmId":"pacs.008","SvcLvl":"SEPA",'
                 b'"TxId":"T2"}\n')
ELSEWHERE_LINE = A8_LINE.replace(b"BANQFRPP", b"BANKITMM")
ACCEPTED, PENDING, MISSING = (b"T|BANKDEFFXXX|T1|%s\n" % word for word in (b"ACCEPTED", b"PENDING", b"MISSING"))
UNKNOWN = b"T|BANKDEFFXXX|%s|UNKNOWN\n"
CONTRADICTED = b"T|BANKDEFFXXX|%s|CONTRADICTED\nF|BANKDEFFXXX|%s|Identity|BANKDEFFXXX|pacs.008|M1\n"
REPORT = b"DbtrAgt,TxId,Result,ListAmt,ListSts,Amt,Sts\n"
WAITS = "84 BANKDEFFXXX T1"


def text(message):
    """The object of a message."""
    return line(message).strip().encode()


A8, A2 = text(instruction()), text(confirmation())
TO_OTHER = text(instruction(MsgId="M2", TxId="T2", CdtrAgt="BANKITMM"))
# two instructions with the identity of A8: on another transfer, and on T1 too
AGAINST, ELSEWHERE = text(instruction(TxId="T9", CdtrAgt="BANKITMM")), text(instruction(CdtrAgt="BANKITMM"))
RECALL = text(recall([transaction(), transaction(OrgnlTxId="T2")]))


def taken(number):
    """What a call comes to whose message is the site's own with this number. It is a repeat if that is 0."""
    return {"ok": 1, "code": 0, "is_repeat": int(not number), "place": 0, "number": number, "reserved": 0}


def takes(banks, json, number):
    """A call that takes a message, and what it comes to."""
    return ("take_as", 0, banks, json), (taken(number), b"")


def refuses(call, why):
    """A call that is refused, and the question why, with what they come to. Some reasons have a place."""
    code, *more = why.split(" ")
    place = int(more[0]) if code in ("46", "48", "56", "73", "82") else 0
    (fields, none), asked = wanted_of(int(code), place, why)
    yield call, (zeros(fields, call[0]), none)
    yield ("why", call[1], 99), asked


def withheld(banks, json, why):
    yield from refuses(("take_as", 0, banks, json), why)


def shows(name, *words):
    """A question on handle 0, and its answer, which is the last word."""
    return (name, 0, *words[:-1]), ({**OK, "length": len(words[-1])}, words[-1])


def of_transfer(banks, tx, lines):
    return shows("transfer_text_for", banks, DEBTOR, tx, lines)


def of_messages(banks, tx, *lines):
    return shows("messages_text_for", banks, DEBTOR, tx, b"".join(lines))


def held(*messages):
    """Calls that open a site and have it take messages as they are."""
    yield OPEN, ({"ok": 1}, None)
    yield from ((("take", 0, one), ({"ok": 1}, None)) for one in messages)


def tried(program, name, *pairs):
    """Whether calls come to what they must."""
    requests, wanted = zip(*pairs)
    return right(name, program, list(requests), list(wanted))


# ---- who may send

def sent(program):
    """Messages in the name of banks at a new site, one after another."""
    by_other = text(confirmation(InstgAgt="BANKITMM"))
    yield tried(program, "an instruction and its confirmation", *held(), *withheld(PAID, A2, WAITS),
                *withheld(PAID, A8, "81"), takes(DEBTOR, A8, 1), takes(DEBTOR, A8, 0), takes(PAID, A2, 2),
                *withheld(OTHER, by_other, "83"), *withheld(OTHER, text(instruction(InstgAgt="BANKITMM")), "82 1"),
                *withheld(OTHER, b"{}", "33"), shows("archive_text", A8_LINE + A2_LINE))
    several = text(recall([transaction(), transaction(OrgnlTxId="T2", DbtrAgt="BANKBEBB"),
                           transaction(DbtrAgt="BANKITMM")]))
    yield tried(program, "what an originator bank sends", *held(), takes(DEBTOR, RECALL, 1),
                takes(DEBTOR, text(request()), 2),
                *withheld(DEBTOR, several, "82 2"), *withheld(b"BANKBEBB,BANKDEFF", several, "82 3"),
                *withheld(b"BANKBEBB,BANKITMM", several, "81"), takes(b"BANKITMM,BANKDEFF,BANKBEBB", several, 3),
                *withheld(OTHER, text(request(InstgAgt="BANKITMM")), "82 1"))
    for answer in (payback, refusal):
        its, by_other = text(answer()), text(answer(InstgAgt="BANKITMM"))
        yield tried(program, f"the {answer.__name__} of a beneficiary bank", *held(RECALL), *withheld(PAID, its, WAITS),
                    *withheld(DEBTOR, its, "81"), takes(DEBTOR, A8, 2), *withheld(OTHER, by_other, "83"),
                    takes(PAID, its, 3), takes(b"BANKITMM,BANQFRPPXXX", by_other, 4))
    spaced = text(confirmation(OrgnlTxId="T 1 B"))
    yield tried(program, "an identification with spaces", *held(A8), *withheld(PAID, spaced, "84 BANKDEFFXXX T 1 B"))
    first = [*withheld(b"X", b"{", "73 1"), *withheld(OTHER, b"{", "31"), *withheld(OTHER, b"", "31")]
    wrong = json.dumps({**recall([{}]), "TxInf": [transaction(), 7]}).encode()
    yield tried(program, "the banks come first, then what is no message", *held(), *first,
                *withheld(OTHER, wrong, "46 2"), *withheld(OTHER, text(instruction(TxId=1)), "35 TxId"))


def instructed(program):
    """Instructions that are contradicted, and that came by a delta or a journal."""
    by_other, on_its_own = (text(confirmation(InstgAgt="BANKITMM", MsgId="C2", OrgnlTxId=tx)) for tx in ("T1", "T9"))
    yield tried(program, "two instructions to two banks", *held(A8, ELSEWHERE), takes(PAID, A2, 3),
                takes(OTHER, by_other, 4))
    yield tried(program, "an instruction that another transfer contradicts", *held(A8, AGAINST), takes(PAID, A2, 3),
                *withheld(OTHER, by_other, "83"), takes(OTHER, on_its_own, 4))
    delta = b"delta 2\norigin 2 1 1\n" + A8_LINE + b"end 1\n"
    came = ("accept", 0, delta), ({"ok": 1, "fresh": 1}, None)
    yield tried(program, "an instruction of another site", *held(), *withheld(PAID, A2, WAITS), came,
                takes(PAID, A2, 1), takes(DEBTOR, A8, 0))
    again = ("restore", 0, 1, 2, A8, EMPTY_DELTA), ({"ok": 1}, b"")
    yield tried(program, "an instruction of the journal", again, *withheld(OTHER, by_other, "83"), takes(PAID, A2, 2))


def unchanged(program):
    """Messages that are not taken leave the site, its journal, its answer and its changes."""
    waits = text(confirmation(OrgnlTxId="T5", MsgId="C5"))
    refused = [*withheld(PAID, waits, "84 BANKDEFFXXX T5"), *withheld(OTHER, A8, "81"), *withheld(PAID, b"{", "31"),
               *withheld(OTHER, text(instruction(InstgAgt="BANKITMM")), "82 1"), *withheld(b"BANQFRPP,", A2, "73 1"),
               *withheld(OTHER, text(confirmation(InstgAgt="BANKITMM")), "83")]
    both, kept = A8_LINE + A2_LINE, shows("answer", 99, ACCEPTED)
    after = [kept, shows("journal_text", 0, both), shows("changes", b""), shows("vector_text", b"1:2"),
             shows("status_text", ACCEPTED), shows("archive_text", both)]
    begin = [*held(A8, A2), shows("changes", b""), shows("status_text", ACCEPTED)]
    yield tried(program, "messages that are not taken change nothing", *begin, *refused, *after)
    yield tried(program, "and a repeat neither", *begin, takes(PAID, A2, 0), kept, shows("changes", b""))
    yield tried(program, "one that is taken is a change, and leaves the answer", *begin, takes(DEBTOR, TO_OTHER, 3),
                kept, shows("changes", b"BANKDEFFXXX|T2\n"))


# ---- what is shown

def shown(program):
    """Transfers and messages of theirs and of others."""
    yield tried(program, "the lines of a transfer", *held(A8, A2), of_transfer(DEBTOR, b"T1", ACCEPTED),
                of_transfer(b"BANQFRPP,BANKITMM", b"T1", ACCEPTED), of_transfer(OTHER, b"T1", UNKNOWN % b"T1"),
                of_transfer(DEBTOR, b"T7", UNKNOWN % b"T7"), of_transfer(b"BANKDEFFXXX", b"T1", ACCEPTED),
                of_transfer(b"BANKDEFF123", b"T1", UNKNOWN % b"T1"))
    every, only = [*held(A8, A2, TO_OTHER, RECALL)], FLAT % b"T1"
    yield tried(program, "the messages on a transfer", *every, of_messages(PAID, b"T1", only, A8_LINE, A2_LINE),
                of_messages(DEBTOR, b"T1", WHOLE, A8_LINE, A2_LINE),
                of_messages(b"BANQFRPP,BANKITMM", b"T1", WHOLE, A8_LINE, A2_LINE),
                of_messages(OTHER, b"T1"), of_messages(DEBTOR, b"T7"),
                of_messages(OTHER, b"T2", FLAT % b"T2", TO_OTHER_LINE))
    yield tried(program, "a recall of others", *every, of_transfer(PAID, b"T2", UNKNOWN % b"T2"),
                of_transfer(PAID, b"T1", ACCEPTED + b"R|BANKDEFFXXX|T1|R1|OPEN\n"))
    own = text(recall([transaction(), transaction(OrgnlTxId="T2")], InstgAgt="BANQFRPP"))
    yield tried(program, "a recall of one's own", *held(A8, TO_OTHER, own), of_messages(
        PAID, b"T1", A8_LINE, WHOLE.replace(b'"InstgAgt":"BANKDEFFXXX"', b'"InstgAgt":"BANQFRPPXXX"')))
    alike = text(recall([transaction(), transaction(OrgnlTxId="T2", Rsn="DUPL")]))  # with the identity of RECALL
    yield tried(program, "messages that are shown alike", *held(A8, RECALL, alike),
                of_messages(PAID, b"T1", only, A8_LINE))
    yield tried(program, "a contradiction from outside", *held(), takes(DEBTOR, A8, 1), takes(DEBTOR, AGAINST, 2),
                of_transfer(PAID, b"T1", CONTRADICTED % (b"T1", b"T1")), of_messages(PAID, b"T1", A8_LINE),
                of_transfer(PAID, b"T9", UNKNOWN % b"T9"), of_messages(PAID, b"T9"),
                of_transfer(OTHER, b"T9", CONTRADICTED % (b"T9", b"T9")), of_transfer(OTHER, b"T1", UNKNOWN % b"T1"))
    both = CONTRADICTED % (b"T1", b"T1")
    yield tried(program, "two instructions of one identity to two banks", *held(A8, ELSEWHERE),
                of_transfer(PAID, b"T1", both), of_transfer(OTHER, b"T1", both),
                of_messages(PAID, b"T1", ELSEWHERE_LINE, A8_LINE), of_messages(OTHER, b"T1", ELSEWHERE_LINE, A8_LINE))
    yield tried(program, "an answer that comes too early", *held(A2), of_transfer(PAID, b"T1", MISSING),
                of_messages(PAID, b"T1", A2_LINE), of_transfer(OTHER, b"T1", UNKNOWN % b"T1"),
                (("take", 0, ELSEWHERE), ({"ok": 1}, None)), of_transfer(PAID, b"T1", UNKNOWN % b"T1"),
                of_transfer(OTHER, b"T1", ACCEPTED))
    yield tried(program, "a message to a bank", *held(text(confirmation(InstdAgt="BANKITMM"))),
                of_transfer(OTHER, b"T1", MISSING), (("take", 0, A8), ({"ok": 1}, None)),
                of_transfer(OTHER, b"T1", UNKNOWN % b"T1"))


def report(banks, bank, rows, *right):
    """A question for a report on rows, and its answer."""
    return shows("report_for", banks, bank, DAY, HEADER + rows, REPORT + b"".join(right))


def of_banks(program):
    """Totals and reports of a bank of theirs."""
    every = [*held(A8, A2, TO_OTHER)]
    totals = [(DEBTOR, b"BANKDEFFXXX|1|1.00|0.00|0|1|0|0|0|0.00|0.00\n"),
              (PAID, b"BANQFRPPXXX|0|0.00|0.00|0|0|0|0|1|1.00|0.00\n"),
              (OTHER, b"BANKITMMXXX|0|0.00|0.00|0|0|0|0|0|0.00|0.00\n")]
    yield tried(program, "the totals of a bank", *every,
                *(shows("bank_totals_for", bank, bank, its) for bank, its in totals),
                shows("bank_totals_for", b"BANKITMM,BANQFRPP", PAID, totals[1][1]),
                *refuses(("bank_totals_for", 0, OTHER, DEBTOR), "79"))
    rows = (b"BANKDEFF,T1,1.00,ACCEPTED\nBANKDEFF,T2,1.00,PENDING\nBANKDEFF,T9,1.00,PENDING\n"
            b"BANKDEFF,T9,1.00,PENDING\n")
    twice = b"BANKDEFFXXX,T9,LISTED_TWICE,,,,UNKNOWN\n"
    mine = b"BANKDEFFXXX,T1,MATCHED,1.00,ACCEPTED,1.00,ACCEPTED\n"
    other = b"BANKDEFFXXX,T2,MATCHED,1.00,PENDING,1.00,PENDING\n"
    hidden = b"BANKDEFFXXX,T2,ONLY_IN_LIST,1.00,PENDING,,UNKNOWN\n"
    yield tried(program, "reports", *every, report(DEBTOR, DEBTOR, rows, mine, other, twice),
                report(PAID, PAID, rows, mine, hidden, twice),
                report(OTHER, OTHER, b"", b"BANKDEFFXXX,T2,ONLY_IN_ARCHIVE,,,1.00,PENDING\n"),
                report(b"BANQFRPP,BANKITMM", PAID, rows, mine, other, twice),
                *refuses(("report_for", 0, OTHER, DEBTOR, DAY, HEADER), "79"))
    yield tried(program, "a report on a contradiction", *held(A8, AGAINST), report(
        PAID, PAID, b"BANKDEFF,T1,1.00,ACCEPTED\nBANKDEFF,T9,1.00,PENDING\n",
        b"BANKDEFFXXX,T1,CONTRADICTED,1.00,ACCEPTED,,CONTRADICTED\n",
        b"BANKDEFFXXX,T9,ONLY_IN_LIST,1.00,PENDING,,UNKNOWN\n"))


# ---- what is not shown

# what two sites hold besides A8 and A2. BANQFRPP is shown nothing of what differs
HIDDEN = {
    "a transfer of others": ([], [TO_OTHER]),
    "the amount of a transfer of others": ([TO_OTHER], [TO_OTHER.replace(b'"1.00"', b'"5.00"')]),
    "answers on a transfer of others": ([TO_OTHER], [
        TO_OTHER, text(confirmation(InstgAgt="BANKITMM", OrgnlTxId="T2"))]),
    "a recall that names another transfer too": ([text(recall([transaction()]))], [RECALL]),
    "the message that contradicts one of theirs": ([AGAINST], [
        text(instruction(TxId="T2", CdtrAgt="BANKITMM", IntrBkSttlmAmt="5.00"))]),
    "a contradiction among others": ([TO_OTHER], [TO_OTHER, TO_OTHER.replace(b'"1.00"', b'"5.00"')]),
}


def asked_by_banks():
    """Questions of BANQFRPP on all transfers."""
    rows = b"".join(b"BANKDEFF,%s,1.00,PENDING\n" % tx for tx in (b"T1", b"T2", b"T9"))
    for tx in (b"T1", b"T2", b"T9"):
        yield from (("transfer_text_for", 0, PAID, DEBTOR, tx), ("messages_text_for", 0, PAID, DEBTOR, tx))
    yield from (("bank_totals_for", 0, PAID, bank) for bank in (PAID, DEBTOR, OTHER))
    yield from (("report_for", 0, PAID, bank, DAY, HEADER + rows) for bank in (PAID, DEBTOR))


def alike(program):
    """Two sites that differ only in what a bank may not see have equal replies."""
    questions = list(asked_by_banks())
    for name, pair in HIDDEN.items():
        both = []
        for hidden in pair:
            takes = [("take", 0, one) for one in (A8, A2, *hidden)]
            archive, *replies = driving.asked(program, [OPEN, *takes, ("archive_text", 0), *questions])[len(takes) + 1:]
            both.append((archive.text, [(reply.fields, reply.text) for reply in replies]))
        (archive, one), (other_archive, other) = both
        yield reported(f"not shown: {name}", one == other and archive != other_archive, f"{one}\n{other}")


# ---- what is refused

def refused(program):
    """Lists of banks, and the order of reasons."""
    sixteen = b",".join([b"BANKDEFF"] * 16)
    wrong = [b"", b"X", b",", b"BANKDEFF,", b",BANKDEFF", b"BANKDEFF, BANQFRPP", b"bankdeff", b"BANKDEFFX",
             b"BANKDEFF;BANQFRPP", b"BANKDEFF\n", b"\xff", sixteen + b",BANKDEFF"]
    rights = [b"BANKDEFF", b"BANKDEFFXXX,BANQFRPP", sixteen, b",".join([b"BANQFRPP"] * 15 + [b"BANKDEFF"])]
    yield tried(program, f"{len(rights)} lists of banks", *held(A8), *(
        pair for banks in rights for pair in (of_transfer(banks, b"T1", PENDING), takes(banks, A8, 0))))
    calls = [("take_as", A8), ("transfer_text_for", DEBTOR, b"T1"), ("messages_text_for", DEBTOR, b"T1"),
             ("bank_totals_for", DEBTOR), ("report_for", DEBTOR, DAY, HEADER)]
    yield tried(program, f"{len(wrong)} texts that list no banks", *held(A8), *(
        pair for banks in wrong for name, *words in calls for pair in refuses((name, 0, banks, *words), "73 1")))
    of_transfers = [(b"X", b"x", b"", "73 1"), (OTHER, b"x", b"", "73 2"), (OTHER, DEBTOR, b"", "73 3")]
    of_totals = [(b"X", b"x", "73 1"), (OTHER, b"x", "73 2"), (OTHER, DEBTOR, "79")]
    of_reports = [(b"X", b"x", b"x", b"x", "73 1"), (OTHER, b"x", b"x", b"x", "73 2"),
                  (OTHER, DEBTOR, b"x", b"x", "73 3"), (OTHER, DEBTOR, DAY, b"x", "79"),
                  (DEBTOR, DEBTOR, DAY, b"x", "48 1"), (DEBTOR, DEBTOR, DAY, HEADER + b"\nx\n", "48 2")]
    rows = {"transfer_text_for": of_transfers, "messages_text_for": of_transfers, "bank_totals_for": of_totals,
            "report_for": of_reports}
    yield tried(program, "the order of reasons", *held(A8), *(
        pair for name, cases in rows.items() for *words, why in cases for pair in refuses((name, 0, *words), why)))


def main():
    driving.end_if_missing()
    with driving.libraries() as folder:
        program = driving.built_driver(folder, *driving.CHECKED)
        checks = (sent, instructed, unchanged, shown, of_banks, alike, refused)
        harness.end_of([one for check in checks for one in check(program)])


if __name__ == "__main__":
    main()
