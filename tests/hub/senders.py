"""senders.py: in whose names lines are, and what banks are shown: what the program says of lines that are sent in the name
of banks, and of questions that are asked for banks; and what the service does with its answers.

The lines are those of somebody who means harm. They are given to the program, or to its stand-in of the definitions.
What it must say was written by hand. No package is needed.
"""
import io
import json
import os
import pathlib
import random
import shutil
import subprocess
import sys
import tempfile
from bench.generate import samples
from bench.generate.samples import confirmation, instruction, payback, recall, refusal, request, transaction
from tests import harness
from tests.harness import DESK, SERVICES, reported
from tests.oracle.status import read_message, transfers, written
from tests.serve.serving import Process
sys.path.insert(0, str(SERVICES))
from hub import lists, naming, questions, senders, work
from hub.faults import BadList, BadText, Refused
from hub.places import desk_module
from hub.process import Reply

SEED, TRIES = 20261128, 400
# A is the originator bank of the samples, and B the beneficiary bank
A, B, C, D, E = "BANKDEFFXXX", "BANQFRPPXXX", "SUOMFIHHXXX", "ARNOITFFXXX", "LUTEFRPPXXX"
T1, T2 = (A, "T1"), (A, "T2")
BOM = b"\xef\xbb\xbf"
SENDER, BENEFICIARY, REFUSED = "FORBIDDEN sender", "FORBIDDEN beneficiary", "REFUSED"


def posted(message):
    """A message as a line of a post."""
    return samples.line(message)[:-1].encode()


def with_more(message, text):
    """The line of a message with more members at its end."""
    return posted(message)[:-1] + b"," + text + b"}"


def archived(*messages):
    """The text in which the process has some messages."""
    return b"".join(written(read_message(posted(message))).encode() + b"\n" for message in messages)


def failure(error, call, *words):
    """The text of the error of a kind by which a call fails, or nothing if it does not fail."""
    try:
        call(*words)
    except error as fault:
        return str(fault)
    return ""


# ---- the program

class Core:
    """The program. Each life has a new journal."""

    def __init__(self, program):
        self.program = program

    def replies(self, requests, held=()):
        """The replies to requests, after lines that are held: they are given in no name. A TEXT is without its size."""
        with tempfile.TemporaryDirectory() as folder:
            with Process(self.program, 1, 2, pathlib.Path(folder, "journal")) as process:
                process.reply()
                if any(not process.ask(line).startswith(b"TAKEN") for line in held):
                    raise ValueError("a line that must be held is refused")
                found = [process.ask(one) for one in requests]
        return [one.partition(b"\n")[2][:-1] if one.startswith(b"TEXT") else one[:-1] for one in found]

    def words(self, banks, lines, held=()):
        """What becomes of lines that are sent in the name of banks: TAKEN without its number, and REFUSED without its
        reason."""
        found = self.replies([work.in_names(banks, line) for line in lines], held)
        return [word if (word := one.split(b" ")[0].decode()) in ("TAKEN", REFUSED) else one.decode() for one in found]

    def word(self, banks, line, held=()):
        word, = self.words(banks, [line], held)
        return word


def waits(bank, tx):
    return f"WAITING {bank} {tx}"


# ---- what the core reads

def reads_kinds(core):
    of_recall = request(OrgnlMsgNmId="camt.056", OrgnlCxlId="R1")
    kinds = [(A, instruction()), (B, confirmation()), (A, request()), (A, of_recall), (A, recall([transaction()])),
             (B, payback()), (B, refusal())]
    lines = [posted(message) for _, message in kinds]
    yield "each kind, in its own name", core.replies([work.in_names({bank}, posted(it)) for bank, it in kinds]) == [
        b"TAKEN %d" % number for number in range(1, 8)]
    yield "and in no other", core.words({C}, lines, [lines[0]]) == [SENDER] * 7
    yield "nor in that of the other bank of the transfer", [
        core.word({B if bank == A else A}, line, [lines[0]]) for (bank, _), line in zip(kinds[1:], lines[1:])] == [
            SENDER] * 6
    named = [instruction(MsgNmId="pacs.008.001.08"),
             confirmation(MsgNmId="pacs.002.001.10", OrgnlMsgNmId="pacs.008.001.08")]
    yield "a kind with its version", [core.words(banks, list(map(posted, named))) for banks in ({A}, {A, B})] == [
        ["TAKEN", SENDER], ["TAKEN", "TAKEN"]]
    sent = [instruction(InstdAgt="LUTEFRPP"), confirmation(InstdAgt="LUTEFRPP")]
    yield "the bank that it is sent to is not the sender", core.words({E}, list(map(posted, sent))) == [SENDER] * 2
    banks = posted(instruction(InstgAgt="BANKDEFFXXX", DbtrAgt="BANKDEFF", CdtrAgt="BANQFRPP001"))
    answers = [posted(confirmation(InstgAgt=bank)) for bank in ("BANQFRPP", "BANQFRPP001")]
    yield "a BIC of 8 characters, and one of 11", core.word({A}, banks) == "TAKEN" and [
        core.word({bank}, line, [banks]) for bank, line in zip((B, "BANQFRPP001"), answers)] == [BENEFICIARY, "TAKEN"]
    several = recall([transaction(), transaction(DbtrAgt="SUOMFIHH", OrgnlTxId="T2"), transaction(CxlId="R2")])
    yield "transactions in their order", [core.word(banks, posted(several)) for banks in ({A}, {A, C}, {A, D})] == [
        "FORBIDDEN originator 2", "TAKEN", "FORBIDDEN originator 2"]
    texts = posted(instruction(TxId="T 1", Ustrd='"MsgNmId":"pacs.002",}', Dbtr='Ann\u2028"InstgAgt":"SUOMFIHHXXX"',
                               Cdtr="\u00e9\U0001f600"))
    yield "odd texts in names", [core.word({bank}, texts) for bank in (A, C)] == ["TAKEN", SENDER] and core.word(
        {B}, posted(confirmation(OrgnlTxId="T 1"))) == waits(A, "T 1")


def reads_tricks(core):
    """Lines that another reader of JSON may read in another way."""
    plain, other = posted(instruction()), "FORBIDDEN originator 1"
    all_of = with_more(instruction(), b'"DbtrAgt":"SUOMFIHH","CdtrAgt":"ARNOITFF","TxId":"T9"')
    listed = posted(recall([transaction(), transaction(CxlId="R2")]))
    lists_of_c = with_more(recall([transaction(DbtrAgt="SUOMFIHH"), transaction(CxlId="R2")]),
                           b'"TxInf":[%s]' % posted(transaction()))
    tricks = {  # each with what becomes of it in the name of A, and in that of C
        "of a key twice the last one counts": (with_more(instruction(), b'"InstgAgt":"SUOMFIHH"'), SENDER, other),
        "in the other order, too": (b'{"InstgAgt":"SUOMFIHH",' + plain[1:], "TAKEN", SENDER),
        "each key that names somebody": (all_of, other, SENDER),
        "the kind twice": (with_more(confirmation(), b'"MsgNmId":"pacs.008"'), REFUSED, REFUSED),
        "the kind twice, in the other order": (b'{"MsgNmId":"pacs.002",' + plain[1:], "TAKEN", SENDER),
        "a key with an escape is that key": (with_more(instruction(), rb'"Ins\u0074gAgt":"SUOMFIHH"'), SENDER, other),
        "and so is one that comes before": (rb'{"\u0049nstgAgt":"SUOMFIHH",' + plain[1:], "TAKEN", SENDER),
        "escapes in a text": (plain.replace(b'"BANKDEFF"', rb'"\u0042ANKDEFF\u0058\u0058\u0058"'), "TAKEN", SENDER),
        "a key twice in a transaction": (
            listed.replace(b'"DbtrAgt":"BANKDEFF"}', b'"DbtrAgt":"BANKDEFF","DbtrAgt":"SUOMFIHH"}', 1), other, SENDER),
        "two lists": (lists_of_c, "TAKEN", SENDER),
        "tabs and carriage returns around a line": (b"\t\r " + plain + b" \r\t\r", "TAKEN", SENDER),
        "and in it": (plain.replace(b'":"', b'"\r\t:\r "'), "TAKEN", SENDER)
    }
    for name, (line, of_a, of_c) in tricks.items():
        for given in line, senders.without_blanks(line):
            yield name, [core.word({bank}, given) for bank in (A, C)] == [of_a, of_c]
        named = naming.named_in(line)
        yield f"{name}: the bounds count it", of_a == REFUSED or is_named(named, read_message(line))


def is_named(named, message):
    """Whether naming.py finds in a line what the definitions read in it."""
    kind, head, _ = message
    its = {(bank.decode(), tx.decode()) for bank, tx in transfers(message)}
    return (named.kind, named.sender, set(named.transfers)) == (kind, dict(head)["InstgAgt"], its)


def refuses(core):
    """Lines that are no message, whoever sends them."""
    plain = posted(instruction())
    broken = [plain + b"\0", b"\0" + plain, BOM + plain, plain[:-1], plain + b"}", plain + plain,
              b"[%s]" % plain, b"\x0b" + plain,
              plain.decode().encode("utf-16").replace(b"\n", b""), b"\xc2\xa0" + plain, b"null", b"1", b'""',
              b"{}", b"{", b"[" * 5000, b"NaN",
              b"\x0b", b"\x0c"]
    broken += [plain.replace(b"Weber", name)
               for name in (b"We\0ber", b"W\xff", b"\xc0\xaf", b"\xed\xa0\x80", rb"\ud800")]
    yield "lines that are no JSON, or no object", core.words({A}, broken) == [REFUSED] * 24
    yield "nor are they without blanks", core.words({A}, list(map(senders.without_blanks, broken))) == [REFUSED] * 24
    values = [b'["BANKDEFF"]', b"null", b"1", b"{}", b"true"]
    yield "a bank that is no text", core.words({A}, [with_more(instruction(), b'"InstgAgt":' + it)
                                                     for it in values]) == [REFUSED] * 5
    banks = [b"bankdeff", b"BANKDEF", b"BANKDEFFXX", b" BANKDEFF", b"BANKDEFF ", rb"BANKDEFF\n", b""]
    yield "a text that is no bank", core.words({A}, [with_more(instruction(), b'"InstgAgt":"%s"' % it)
                                                     for it in banks]) == [REFUSED] * 7


def reads_long_lines(core):
    padded = posted(instruction()).rjust(1 << 15).ljust(1 << 16)
    yield "a line of 64 KiB", len(padded) == 65536 and core.words({A, B}, [padded, posted(confirmation())]) == [
        "TAKEN"] * 2
    often = b'{"InstgAgt":"SUOMFIHH",' + b'"InstgAgt":"ARNOITFF",' * 2800 + posted(instruction())[1:]
    yield "a key 2,801 times", len(often) > 60_000 and [core.word({bank}, often) for bank in (A, C, D)] == [
        "TAKEN", SENDER, SENDER]
    hundred = [transaction(CxlId=f"R{n}", OrgnlTxId=f"T{n}") for n in range(1, 101)]
    hundred[76]["DbtrAgt"] = "SUOMFIHH"
    lines = [posted(recall(hundred)), posted(recall(hundred + [transaction(CxlId="R101")]))]
    yield "a recall of 100 transactions, and one of 101", [core.words(banks, lines) for banks in ({A}, {A, C})] == [
        ["FORBIDDEN originator 77", REFUSED], ["TAKEN", REFUSED]]


def keeps_places(core):
    """Each line has its own reply, whatever lines are between."""
    delta = b"delta 2\torigin 1 1 1\t" + posted(instruction()) + b"\tend 1"
    requests = [b"delta 2", delta, b"delta 1", b"? status", b"? messages BANKDEFF T1", b"? ", b"as BANKDEFF {}",
                b"as BANKDEFF " + posted(instruction())]
    keys = ["\u2028", "\u0085line 1: 31\u0085", "\x0b", "\x0cline 2: 31", "\nline 1: 31\nline 3: 31", "\r",
            "x" * 60_000, "\x1c"]
    refused = requests + [with_more(instruction(), f"{json.dumps(key, ensure_ascii=False)}:1".encode()) for key in keys]
    blank = [b"", b" ", b"\t", b" \t\r", b"\r"]
    one, other = posted(instruction()), posted(confirmation())
    yield "requests are no messages", core.words({A}, requests) == [REFUSED] * 8
    yield "nor are blank lines", core.words({A}, blank) == [REFUSED] * 5
    yield "lines after them", core.words({A, B}, [b"delta 2", one, b"? vector", other]) == [REFUSED, "TAKEN", REFUSED,
                                                                                            "TAKEN"]
    yield "keys that are refused by their names", core.words({A}, refused) == [REFUSED] * len(refused)
    yield "what begins as a request is a message of an operator", [
        work.as_message(line)[:1] for line in requests] == [b" "] * 8 and core.replies(
            list(map(work.as_message, requests))) == [b"REFUSED 31"] * 8
    r, right = random.Random(SEED), []
    for _ in range(5):
        lines = [(posted(instruction(TxId=f"T{n}", MsgId=f"M{n}")), "TAKEN") for n in range(12)]
        lines += [(it, REFUSED) for it in r.sample(refused + blank, 8)]
        r.shuffle(lines)
        right.append(core.words({A}, [line for line, _ in lines]) == [it for _, it in lines])
    yield "posts of messages, refused lines and blank ones in any order", all(right)


def spelled(r, number):
    """An instruction with a number, in one of many spellings."""
    keys = list(instruction(MsgId=f"M{number}", TxId=f"T{number}",
                            IntrBkSttlmAmt=r.choice(["1", "1.0", "01.00"])).items())
    r.shuffle(keys)
    return b" " * r.randint(0, 9) + json.dumps(dict(keys),
                                               separators=(r.choice([",", ", "]), r.choice([":", " : "]))).encode()


def reads_repeats(core):
    """Lines that are one message, in equal bytes and in other spellings."""
    r, right = random.Random(SEED), []
    for many in (2, 15, 33, 100):
        numbers = [r.randrange(max(1, many // 3)) for _ in range(many)]
        wanted = ["TAKEN" if number not in numbers[:place] else "REPEAT" for place, number in enumerate(numbers)]
        right.append(core.words({A}, [spelled(r, number) for number in numbers]) == wanted)
    yield "posts of many repeats, of any length", all(right)


# ---- the words of the service

def says_why(core):
    told = {("sender", (A,)): f"InstgAgt is not {A}", ("sender", (C, A)): f"InstgAgt is not {A} or {C}",
            ("originator 77", (A,)): f"DbtrAgt of transaction 77 is not {A}",
            ("beneficiary", (B,)): f"{B} is not the beneficiary bank of the transfer"}
    yield "why a line is forbidden", {it: senders.why_withheld(*it) for it in told} == told
    replies = {b"TAKEN 7": ("TAKEN", 7, ""), b"REPEAT": ("REPEAT", 0, ""), b"REFUSED 36 InstgAgt 1": (
        "REFUSED", 36, "36 InstgAgt 1"), b"FORBIDDEN originator 2": ("FORBIDDEN", 0, "originator 2"),
        b"WAITING BANKDEFFXXX T 1": ("WAITING", 0, "BANKDEFFXXX T 1")}
    yield "the outcome of each reply", {it: tuple(work.outcome_of(Reply(*it.partition(b" ")[::2], None, False)))
                                        for it in replies} == replies
    yield "banks of a request in their order", work.in_names({C, A}, b"{}") == b"as BANKDEFFXXX,SUOMFIHHXXX {}"
    asked = {(b"messages", b"BANKDEFF", b"T 1", None): b"? messages BANKDEFF T 1",
             (b"messages", b"BANKDEFF", b"T 1", frozenset({C, A})):
             b"? of BANKDEFFXXX,SUOMFIHHXXX messages BANKDEFF T 1",
             (b"bank", b"BANKDEFF", None, frozenset({A})): b"? of BANKDEFFXXX bank BANKDEFF",
             # of somebody without a bank: the program refuses it
             (b"bank", b"BANKDEFF", None, frozenset()): b"? of  bank BANKDEFF"}
    yield "questions for banks", {words: questions.words_of(*words) for words in asked} == asked
    yield "and for nobody there is no answer", core.replies(list(asked.values())[-1:]) == [b"REFUSED 73 1"]
    odd = [(b"", None), (b"A B", None), (b"A\nB", None), (b"BANKDEFF", b"T\n? archive"), (b"BANKDEFF", b"")]
    yield "words that are none", [failure(Refused, questions.words_of, b"messages", *it, {A}) for it in odd] == [
        "73 1"] * 3 + ["73 2"] * 2
    places = {b"73 2": "73 1", b"73 3": "73 2", b"48 7": "48 7", b"64": "64"}
    yield "places count without the banks", {it: str(questions.without_banks(Refused(it))) for it in places} == places


def leaves_blanks_out(core):
    bare = {b' { "a" : "b  c" , "d\\" e" : [ 1 , 2 ] } \r': b'{"a":"b  c","d\\" e":[1,2]}',
            b'{"a":\t\r "x"}': b'{"a":"x"}', b'{"a": tr  ue}': b'{"a":tr  ue}', b'1  2': b"1  2",
            b'"a"\t "b"': b'"a"\t "b"', b'{"a  b': b'{"a  b', b'"a  \\': b'"a  \\', b" \t\r": b"", b"": b"",
            b'{"a":"\\\\" , "b":"  "}': b'{"a":"\\\\","b":"  "}', b'{"a" "b"}': b'{"a" "b"}'}
    yield "blanks outside texts are left out", {it: senders.without_blanks(it) for it in bare} == bare
    r, right = random.Random(SEED), []
    pieces = [b'"', b'\\"', b"\\", b" ", b"\t", b"\r", b"{", b"}", b"[", b"]", b":", b",", b"1", b"tr", b"ue", b'"a"',
              b"\xc3\xa9", b"null", b'"b  c"']
    for _ in range(20 * TRIES):
        line = b"".join(r.choice(pieces) for _ in range(r.randrange(12)))
        right.append(value_of(line) == value_of(senders.without_blanks(line)))
    yield "what is JSON says the same, and what is none is none", all(right)
    long = [b'"' + b'\\"' * 32_000, b" " * 65_000, b'" ' * 32_000, b'\\"' * 32_000, b"1 " * 32_000]
    yield "a long line is none the longer", all(len(senders.without_blanks(it)) <= len(it) for it in long)
    may = [posted(instruction()), rb'{"\u004dsgNmId":1}', b'{"a":"MsgNmId"}', b"\\"]
    yield "what may be a message", [senders.may_be_message(it) for it in [*may, b"{}", b"", b"MsgNmI"]] == [
        True] * 4 + [False] * 3


def value_of(line):
    """What a line of JSON says, or None."""
    try:
        return [json.loads(line, object_pairs_hook=list)]
    except ValueError:
        return None


def names(core):
    """What naming.py finds in lines of each kind."""
    of_recall = request(OrgnlMsgNmId="camt.056", OrgnlCxlId="R1")
    several = recall([transaction(), transaction(DbtrAgt="SUOMFIHH", OrgnlTxId="T2"), transaction(CxlId="R2")])
    found = [naming.named_in(posted(it))
             for it in (instruction(MsgNmId="pacs.008.001.08"), confirmation(), of_recall, several, payback())]
    yield "the kind, the sender and the transfers", list(map(tuple, found)) == [
        ("pacs.008", A, (T1,)), ("pacs.002", B, (T1,)), ("pacs.028", A, (T1,)),
        ("camt.056", A, (T1, (C, "T2"), T1)), ("pacs.004", B, (T1,))]
    odd = [b"", b"{}", b"[]", b"1", b"{", b'{"MsgNmId":1}', b"[" * 100_000, b"\xff", with_more(recall([]), b'"TxInf":[1]'),
           with_more(instruction(), b'"DbtrAgt":1'), with_more(instruction(), b'"TxInf":1')]
    yield "and nothing in other lines", [naming.named_in(it) for it in odd] == [naming.NOTHING] * len(odd)


# ---- what a bank may send

def of(kind, sender, *its, to=None):
    """A message of a kind by a bank on transfers, whose instruction is to a bank."""
    bank, tx = its[0]
    if kind == "pacs.008":
        return posted(instruction(MsgId=f"{sender[:4]}-{to[:4]}-{tx}", InstgAgt=sender, DbtrAgt=bank, TxId=tx, CdtrAgt=to))
    if kind == "camt.056":
        listed = [transaction(DbtrAgt=bank, OrgnlTxId=tx, CxlId=f"R{n}") for n, (bank, tx) in enumerate(its)]
        return posted(recall(listed, InstgAgt=sender))
    made = {"pacs.002": confirmation, "pacs.004": payback, "camt.029": refusal, "pacs.028": request}[kind]
    return posted(made(MsgId=f"{kind[-1]}-{sender[:4]}-{tx}", InstgAgt=sender, DbtrAgt=bank, OrgnlTxId=tx))


def answers(bank, transfer=T1):
    """The three kinds that a beneficiary bank sends."""
    return [of(kind, bank, transfer) for kind in ("pacs.002", "pacs.004", "camt.029")]


def to(*banks, transfer=T1):
    """Instructions of a transfer, each to another bank."""
    return [of("pacs.008", transfer[0], transfer, to=bank) for bank in banks]


ONE, YES, LATER = of("pacs.008", A, T1, to=B), "TAKEN", waits(*T1)
FIRST = "FORBIDDEN originator 1"
HUNDRED = [(C if n == 77 else A, f"T{n}") for n in range(1, 101)]

# lines of originator banks, the banks in whose name somebody sends, and what becomes of them
OF_ORIGINATORS = {
    "an instruction in the own name": ([ONE], {A}, [YES]),
    "in the name of another bank": ([ONE], {C}, [SENDER]),
    "in that of the originator bank, by the beneficiary bank": ([ONE], {B}, [SENDER]),
    "by somebody with several banks": ([ONE, of("pacs.008", C, (C, "T1"), to=B)], {D, C}, [SENDER, YES]),
    "another branch is another bank": ([of("pacs.008", "BANKDEFF370", ("BANKDEFF370", "T1"), to=B)], {A}, [SENDER]),
    "about a transfer of another bank": ([of("pacs.008", A, (C, "T1"), to=B)], {A}, [FIRST]),
    "two banks of one client": ([of(kind, A, (C, "T1"), to=B) for kind in ("pacs.008", "camt.056", "pacs.028")], {A, C},
                                [YES] * 3),
    "a request and a recall": ([of("pacs.028", A, T1), of("camt.056", A, T1)], {A}, [YES] * 2),
    "those of the beneficiary bank": ([of("pacs.028", B, T1), of("camt.056", B, T1)], {B}, [FIRST] * 2),
    "a recall with one transaction of another bank": ([of("camt.056", A, *HUNDRED)], {A}, ["FORBIDDEN originator 77"]),
    "its first one and its last one": ([of("camt.056", A, (C, "T1"), T1), of("camt.056", A, T1, (C, "T1"))], {A}, [
        FIRST, "FORBIDDEN originator 2"]),
    "a recall of own transfers alone": ([of("camt.056", A, *[(A, f"T{n}") for n in range(100)])], {A}, [YES]),
    "what is no message": ([b"{}", ONE, b"x"], {C}, [REFUSED, SENDER, REFUSED])
}

# lines with answers of beneficiary banks, the banks in whose name somebody sends, the instructions that are held, and
# what becomes of them
OF_BENEFICIARIES = {
    "of the beneficiary bank": (answers(B), {B}, [ONE], [YES] * 3),
    "of another bank": (answers(C), {C}, [ONE], [BENEFICIARY] * 3),
    "of the originator bank itself": (answers(A), {A}, [ONE], [BENEFICIARY] * 3),
    "in the name of the beneficiary bank": (answers(B), {C}, [ONE], [SENDER] * 3),
    "whose instruction is not held": (answers(B), {B}, [], [LATER] * 3),
    "in another name, whose instruction is not held": (answers(A), {C}, [], [SENDER] * 3),
    "on the same identification of another bank": (answers(B, (C, "T1")), {B}, [ONE], [waits(C, "T1")] * 3),
    "on one that is held for somebody else": (answers(B, (C, "T1")), {B}, [ONE, *to(D, transfer=(C, "T1"))],
                                              [BENEFICIARY] * 3),
    "on instructions that contradict each other": ([it for bank in (B, D) for it in answers(bank)], {B, D}, to(B, D),
                                                   [YES] * 6),
    "on such that contradict each other by their identity": (answers(B), {B}, [
        posted(instruction()), posted(instruction(TxId="T9", CdtrAgt="ARNOITFF"))], [YES] * 3),
    "of a bank of a client whose other bank is the beneficiary bank": (answers(C), {B, C}, [ONE], [YES] * 3),
    "of a third one on them": (answers(C), {C}, to(B, D), [BENEFICIARY] * 3),
    "on an instruction before it in the post": ([ONE, *answers(B)], {A, B}, [], [YES] * 4),
    "on one after it": ([*answers(B), ONE, *answers(B)], {A, B}, [], [*[LATER] * 3, *[YES] * 4]),
    "on one of the post to another bank": ([ONE, *answers(C)], {A, C}, [], [YES, *[BENEFICIARY] * 3]),
    "on one of the post beside one that is held": ([*to(C), *answers(C), *answers(B)], {A, B, C}, [ONE], [YES] * 7),
    "on one of the post in another name": ([*to(C), *answers(C)], {C}, [], [SENDER, *[LATER] * 3]),
    "on one of the post about a transfer of another bank": ([of("pacs.008", C, T1, to=C), *answers(C)], {C}, [],
                                                            [FIRST, *[LATER] * 3]),
    "on one of the post about another transfer": ([of("pacs.008", A, T2, to=B), *answers(B)], {A, B}, [],
                                                  [YES, *[LATER] * 3]),
    "on a recall of the post": ([of("camt.056", A, T1), *answers(B)], {A, B}, [], [YES, *[LATER] * 3]),
    "of a bank that pays itself": ([*to(A), *answers(A)], {A}, [], [YES] * 4),
    "after a line that is no message": ([b"{}", *answers(C)], {C}, [ONE], [REFUSED, *[BENEFICIARY] * 3])
}


def judges(core):
    for name, (lines, banks, right) in OF_ORIGINATORS.items():
        for held in [], to(B, transfer=(E, "T1")):
            yield f"{name}, with {len(held)} held", core.words(banks, lines, held) == right
    for name, (lines, banks, held, right) in OF_BENEFICIARIES.items():
        yield f"answers {name}", core.words(banks, lines, held) == right


def judges_tricks(core):
    """Lines that bank C sends. It has a transfer T1 of its own, and A has one to B."""
    own = instruction(InstgAgt="SUOMFIHH", DbtrAgt="SUOMFIHH")
    listed = posted(recall([transaction(DbtrAgt="SUOMFIHH", CxlId=name) for name in ("R1", "R2")], InstgAgt="SUOMFIHH"))
    tricks = {
        "the own name first, and another last": (with_more(own, b'"InstgAgt":"BANKDEFF"'), SENDER),
        "another name in a key with an escape": (with_more(own, rb'"Inst\u0067Agt":"BANKDEFF"'), SENDER),
        "the own transfer first, and another last": (with_more(own, b'"DbtrAgt":"BANKDEFF"'), FIRST),
        "another transfer in the last transaction": (
            listed.replace(b'"SUOMFIHH"}]', b'"SUOMFIHH","DbtrAgt":"BANKDEFF"}]'), "FORBIDDEN originator 2"),
        "a confirmation of an own transfer first, and of another last": (
            with_more(confirmation(InstgAgt="SUOMFIHH", DbtrAgt="SUOMFIHH"), b'"DbtrAgt":"BANKDEFF"'), BENEFICIARY),
        "another name first, and the own one last": (with_more(instruction(DbtrAgt="SUOMFIHH"),
                                                               b'"InstgAgt":"SUOMFIHH"'), YES),
        "the own name with 8 and with 11 characters": (posted(instruction(InstgAgt="SUOMFIHH", DbtrAgt="SUOMFIHHXXX")),
                                                       YES),
        "a refused line": (with_more(instruction(), b'"InstgAgt":1'), REFUSED)
    }
    held = [*to(B), *to(C, transfer=(C, "T1"))]
    for name, (line, right) in tricks.items():
        yield f"posted: {name}", core.word({C}, line, held) == right


# ---- what a bank may read

def reads_own(core):
    def may(held, *banks, name=T1):
        """Which banks see something of a transfer, by each of the two questions."""
        asked = [questions.words_of(kind, *(it.encode() for it in name), {bank} if isinstance(bank, str) else bank)
                 for bank in banks for kind in (b"transfer", b"messages")]
        found = core.replies(asked, list(map(posted, held)))
        lines, texts = found[::2], found[1::2]
        if [not text for text in texts] != [b"|UNKNOWN" in line for line in lines]:
            raise ValueError("the two questions differ")
        return [text != b"" for text in texts]

    held = instruction(InstdAgt="LUTEFRPP"), confirmation(InstdAgt="LUTEFRPP")
    yield "the two banks of a transfer", may(held, A, B, C, D, E) == [True, True, False, False, False]
    yield "somebody with several banks", may(held, {C, D}, {C, B}, frozenset({A})) == [False, True, True]
    yield "a BIC of 8 characters names the same bank", may(held, A, B, C, name=("BANKDEFF", "T1")) == [True, True,
                                                                                                       False]
    against = instruction(), instruction(MsgId="M2", CdtrAgt="ARNOITFF")
    yield "instructions that contradict each other", may(against, B, C, D) == [True, False, True]
    alone = confirmation(InstdAgt="LUTEFRPP"), payback(InstgAgt="ARNOITFF")
    yield "one without an instruction", may(alone, A, B, C, D, E) == [True, True, False, True, True]
    several = recall([transaction(), transaction(OrgnlTxId="T2")], InstdAgt="ARNOITFF"),
    yield "a recall of several", [may(several, D, name=(A, name)) for name in ("T1", "T2", "T3")] == [[True], [True],
                                                                                                      [False]]
    yield "who sends about a transfer with an instruction", may(
        (instruction(), confirmation(InstgAgt="SUOMFIHH")), C) == [False]
    other = instruction(DbtrAgt="SUOMFIHH", InstgAgt="SUOMFIHH"),
    yield "the same identification of another bank", may(other, A, B, C, name=(C, "T1")) == [False, True, True]
    odd = (instruction(TxId="pacs.008", Ustrd='"MsgNmId":"pacs.002"', Dbtr="a\u2028b\u0085c"),
           confirmation(InstgAgt="SUOMFIHH", OrgnlTxId="pacs.008"))
    yield "odd texts", may(odd, B, C, name=(A, "pacs.008")) == [True, False]
    rival = instruction(), instruction(TxId="T9", CdtrAgt="ARNOITFF")  # with one identity
    yield "the message that contradicts another one is on its own transfer", [
        may(rival, B, D, name=(A, name)) for name in ("T1", "T9")] == [[True, False], [False, True]]


def shows_own(core):
    """A recall of two originator banks, as an operator posts it, of which a beneficiary bank is shown the transactions
    on its transfer."""
    several = [transaction(), transaction(OrgnlTxId="T2", CxlId="R2"), transaction(DbtrAgt="SUOMFIHH", CxlId="R3")]
    held = [posted(recall(several)), posted(confirmation()), *to(D, transfer=(C, "T1"))]

    def named(bank, originator, tx):
        text, = core.replies([questions.on_transfer(originator, tx, {bank})], held)
        parts = [part for one in map(json.loads, text.splitlines()) if one["MsgNmId"] == "camt.056"
                 for part in one.get("TxInf", [one])]
        return [(part["DbtrAgt"], part["OrgnlTxId"], part["CxlId"]) for part in parts]

    yield "of a recall the transactions on its transfer, and none of another originator bank with the same TxId", [
        named(bank, originator, "T1") for bank, originator in ((B, A), (D, C))] == [[(A, "T1", "R1")],
                                                                                    [(C, "T1", "R3")]]
    yield "who sent the recall is shown all of it", len(named(A, A, "T1")) == 3


def reports_own(core):
    """A list with rows on transfers of others: of these a bank is told what its list says."""
    held = [posted(instruction()), posted(confirmation()),
            posted(instruction(MsgId="M2", TxId="T2", CdtrAgt="ARNOITFF", IntrBkSttlmAmt="1021.00"))]
    rows = list_of(T1, T2, (A, "T3")).replace(b"\n", b"\t")

    def report(bank, banks, held=held):
        question = questions.words_of(b"report", bank.encode(), b"2024-05-02", banks) + b" " + rows
        found, = core.replies([question], held)
        return found.decode().splitlines()[1:] if found.startswith(b"DbtrAgt") else found.decode()

    own, other, none = (f"{A},{row}" for row in ("T1,MATCHED,1.00,ACCEPTED,1.00,ACCEPTED",
                                                 "T2,AMOUNT_DIFFERS,1.00,ACCEPTED,1021.00,PENDING",
                                                 "T3,ONLY_IN_LIST,1.00,ACCEPTED,,UNKNOWN"))
    hidden = [f"{A},T{n},ONLY_IN_LIST,1.00,ACCEPTED,,UNKNOWN" for n in (1, 2)]
    yield "each bank is told of its own rows", [report(bank, {bank}) for bank in (A, B, D, C)] == [
        [own, other, none], [own, hidden[1], none], [hidden[0], other, none], [*hidden, none]]
    yield "for a third bank it is the report of a hub that holds nothing", report(C, {C}) == report(C, {C}, ())
    yield "none is made for another bank", [report(A, {B}), report(B, {A, D})] == ["REFUSED 79"] * 2
    yield "two banks of a client are told of the rows of both", report(B, {B, D}) == [own, other, none]


def rules(core):
    """The rule of check_list.py by itself, on lines that are in memory."""
    desk = desk_module("check_list")
    messages = [instruction(), confirmation(InstgAgt="SUOMFIHH", InstdAgt="LUTEFRPP"),
                confirmation(MsgId="C9", OrgnlTxId="T9", InstdAgt="LUTEFRPP")]
    held = desk.held_in(archived(*messages).splitlines())
    yield "the banks of an instruction, and of other messages", [desk.banks_of(A, name, held)
                                                                 for name in ("T1", "T9", "T5")] == [
                                                                     {A, B}, {A, B, E}, {A}]
    names = list(desk.rows(io.BytesIO(BOM + list_of(("BANKDEFF", "T1"), (A, "T9"), (A, "T5")))))
    yield "the rows of a list", names == [(2, A, "T1"), (3, A, "T9"), (4, A, "T5")]
    day = f"row 2: {A} T1 is of 2024-05-02, and not of 2030-01-01; the report compares it all the same"
    forbidden = [(True, f"row 2: {A} T1 is a transfer to {B}, and not of {C}"),
                 (True, f"row 3: {A} T9 has no instruction, and {C} is not one of its banks")]
    yield "what is said of them", [list(desk.faults(bank, "2030-01-01", names, held)) for bank in (A, B, C, E)] == [
        [(False, day)], [(False, day)], forbidden, [(True, f"row 2: {A} T1 is a transfer to {B}, and not of {E}")]]


# ---- lists

HEADER = b"DbtrAgt,TxId,Amt,Sts\n"


def list_of(*names):
    return HEADER + b"".join(f"{bank},{tx},1.00,ACCEPTED\n".encode() for bank, tx in names)


def names_rows(core):
    named = lists.rows_of_list
    data = list_of(("BANKDEFF", "T2"), T1, (C, "T1"), ("BANKDEFF", "T1"))
    yield "the transfers of a list, each once", named(data) == named(data, False) == [T2, T1, (C, "T1")]
    yield "a list without rows", named(HEADER) == named(b"") == named(BOM + HEADER) == named(b"\n\r\n\n" + HEADER
                                                                                             + b"\n") == []
    yield "quotes", named(HEADER + b'"BANKDEFF","T,1",1,PENDING\n"BANK"DEFF,T2,1,PENDING\n') == [(A, "T,1"), T2]
    ends = BOM + b"\n\nx\rBANKDEFF,T1,1,PENDING\r\r\nBANKDEFF,T2,1,PENDING\r\n\n\rBANKDEFF,T3,1,PENDING"
    yield "other ends of lines, and blank ones", named(ends) == [T1, T2, (A, "T3")]
    wrong = [b"bankdeff,T1", b"BANKDEF,T1", b"BANKDEFF,", b"BANKDEFF,T//1", b"BANKDEFF,/T",
             b'BANKDEFF,"T\n? archive"', b"BANKDEFF,T\x001",
             b"BANKDEFF,T\t1", b'"BANKDEFF\n",T1', b"BANKDEFF,T\xff", b"BANKDEFF T1,T1",
             b"BANKDEFF,T\xe2\x80\xa81", b" BANKDEFF,T1",
             b"BANKDEFF," + b"T" * 36]
    yield "what is no transfer", named(HEADER + b"".join(it + b",1,PENDING\n" for it in wrong) + b"BANKDEFF\n") == []
    yield "a quote that is never closed", named(
        HEADER + b'BANKDEFF,T1,1,PENDING\nBANKDEFF,"T2\nBANKDEFF,T3,1,PENDING\n') == [T1]
    yield "a list that is no text", named(bytes(range(256))
                                          * 8) == [] and named(list_of(T1).decode().encode("utf-16")) == []
    yield "a field that is too long", "field" in failure(BadList, named, HEADER + b"BANKDEFF," + b"T" * 200_000)
    many = [(A, f"T{number}") for number in range(20_000)]
    yield "a list of 20,000 rows", named(list_of(*many)) == many
    yield "a longer one", all("20000 rows" in failure(BadList, named, list_of(*it))
                              for it in (many + [T1], [T1] * 20_001))
    more = list_of(*many, T1, ("BANKDEFF", "T20001")).ljust(3 << 20, b"\n")
    yield "one of the desk is not bounded", named(more, False) == [*many, (A, "T20001")]
    longest = HEADER.ljust((2 << 20) - 1, b"\n")
    too_long = failure(BadList, named, longest + b"\n\n")
    yield "a list of 2 MiB, and a longer one", named(longest + b"\n") == [] and "2097152 bytes" in too_long


def records_of(data):
    """The records of a list by the machine of the crate csv with its defaults: what each byte does in each state."""
    records, fields, field, state = [], [], b"", "record"
    for byte in (bytes([number]) for number in data[3 * data.startswith(BOM):]):
        if state == "record" and byte in b"\r\n":
            continue
        if state in ("record", "field") and byte == b'"':
            state = "quoted"
        elif state == "quoted" and byte == b'"':
            state = "quote"
        elif state == "quoted" or state == "quote" and byte == b'"':
            state, field = "quoted", field + byte
        elif byte == b",":
            state, fields, field = "field", [*fields, field], b""
        elif byte in b"\r\n":
            state, records, fields, field = "record", [*records, [*fields, field]], [], b""
        else:
            state, field = "plain", field + byte
    return records if state == "record" else [*records, [*fields, field]]


PIECES = [b'"', b'"', b",", b",", b"\r", b"\n", b"\r\n", b"\n", b"BANKDEFF", b"BANKDEFF,T1,1,PENDING\n",
          b'"BANKDEFF","T,1"', b"T1", b" ",
          b"\x00", b"\xff", b"\xc3", b"\xe2\x80\xa8", b"\xc2\x85", b"\x0b", b"\x0c", b"\x1c", b"'", b"\\", b"\t",
          b"\xef\xbb", BOM]


def reads_as_the_program(core):
    """A list that the program read in another way than the rule could name other transfers there."""
    r, right, named = random.Random(SEED), [], 0
    for _ in range(TRIES):
        data = r.choice([b"", b"", BOM, b"\xef\xbb"]) + b"".join(r.choice(PIECES) for _ in range(r.randrange(40)))
        records = [[field.decode(errors="replace") for field in record] for record in records_of(data)]
        found = [(number, record[0] + "XXX" * (len(record[0]) == 8), record[1])
                 for number, record in enumerate(records, 1)
                 if number > 1 and len(record) > 1]
        right.append(lists.listed(data) == found)
        named += bool(lists.rows_of_list(data))
    yield "made-up lists are read as the program reads them", all(right) and named > TRIES / 20


def compares(core):
    alone = archived(confirmation(InstgAgt="ARNOITFF", OrgnlTxId="T9", InstdAgt="LUTEFRPP"))
    texts = {T1: archived(instruction()), (A, "T9"): alone, (A, "T77"): b"",
             T2: archived(instruction(TxId="T2"), instruction(TxId="T2", MsgId="M2", CdtrAgt="ARNOITFF"))}
    data = b"\n" + list_of(T1, ("BANKDEFF", "T9"), (A, "T77"), T2, T1)
    held = {transfer: lists.held_on(text, *transfer) for transfer, text in texts.items()}

    def findings(bank, data=data, day="2024-05-02"):
        return lists.findings(bank, day, data, held)

    def faults(*words):
        return findings(*words)[0]

    def to_b(row, bank, tx="T1"):
        return f"row {row}: {A} {tx} is a transfer to {B}, and not of {bank}"

    def no_bank(bank):
        return f"row 3: {A} T9 has no instruction, and {bank} is not one of its banks"

    yield "the originator bank", faults(A) == faults("BANKDEFF") == []
    yield "the beneficiary bank of some rows", faults(B) == faults("BANQFRPP") == [no_bank(B)]
    yield "that of others", faults(D) == [to_b(2, D), to_b(6, D)]
    yield "another bank", faults(C) == [to_b(2, C), no_bank(C), to_b(5, C, "T2"), to_b(6, C)]
    yield "a bank that a message was sent to", faults(E, list_of((A, "T9"))) == []
    other_day = "is of 2024-05-02, and not of 2030-01-01; the report compares it all the same"
    yield "another day forbids nothing, and is said", findings(B, list_of(T1, (A, "T77"), T2), "2030-01-01") == (
        [], [f"row {row}: {A} {tx} {other_day}"
             for row, tx in ((2, "T1"), (4, "T2"))]) and findings(B, list_of(T1)) == ([], [])
    yield "to the originator bank too", findings(A, list_of(T1), "2030-01-01") == ([], [f"row 2: {A} T1 {other_day}"])
    yield "a row that nothing is held of", faults(C, list_of((A, "T77"))) == []
    broken = [b"", b"x,y\n", b"BANKDEFF,T1\xff,1,PENDING\n", b"\x00", b'BANKDEFF,"T\n? archive",1,PENDING\n',
              b'BANKDEFF,"T1']
    yield "lists that the program refuses", [faults(C, HEADER + it) for it in broken] == [*[[]] * 5, [to_b(2, C)]]
    yield "a row that nobody looked up", [failure(KeyError, faults, bank, list_of((A, "T78"))) != ""
                                          for bank in (A, C)] == [True, True]
    both = archived(recall([transaction(), transaction(CxlId="R2", OrgnlTxId="T2")], InstdAgt="ARNOITFF"))
    parts = [lists.held_on(both, *transfer) for transfer in (T1, T2, (A, "T3"))]
    yield "of a recall of several transfers each has its part alone", parts == [
        ([], {A, D}), ([], {A, D}), ([], set())]
    wrong = [failure(BadText, lists.must_be_words, *words)
             for words in (("bankdeff", "2024-05-02"), ("BANKDEFF", "2024-02-30"))]
    yield "words of a report", lists.must_be_words("BANKDEFF", "2024-02-29") is None and wrong == [
        "bankdeff is not a BIC of 8 or 11 capitals and digits", "2024-02-30 is not a day such as 2025-03-10"]
    forms = [BOM + list_of(T1), HEADER + b'"BANKDEFFXXX","T1",1,ACCEPTED\r',
             HEADER.replace(b"\n", b"\r\n\r\n") + b"BANKDEFF,T1"]
    yield "other forms of a list", [faults(C, it) for it in forms] == [[to_b(2, C)]] * 3
    yield "a list that is too long", "20000 rows" in failure(BadList, faults, C, list_of(*[T1] * 20_001))
    yield "a list of 20,000 rows of others", len(faults(C, list_of(*[T1] * 20_000))) == 20_000


# ---- where the parts are

FOUND = """import sys
sys.path.insert(0, sys.argv[1])
from hub import places
before = list(sys.path)
for name in sys.argv[2].split(","):
    if name:
        __import__(name)
for name in "fields", "check_list", "list_from_csv":
    try:
        print(places.desk_module(name).__file__)
    except places.Wrong as why:
        print("Wrong:", why)
print(sys.path == before)
"""
TOOLS = "fields.py", "check_list.py", "list_from_csv.py"


def put_desk(folder, is_empty=False):
    """Puts the tools of the desk into a new folder, or empty files of their names."""
    folder.mkdir(parents=True)
    for name in TOOLS:
        (folder / name).write_bytes(b"" if is_empty else (DESK / name).read_bytes())
    return folder


def put_services(folder):
    """Puts the services into a new folder."""
    (folder / "hub").mkdir(parents=True)
    for name in ("__init__", "errors", "faults", "files", "limits", "places", "vectors"):
        shutil.copy(SERVICES / "hub" / f"{name}.py", folder / "hub")
    shutil.copy(SERVICES / "hub" / "codes.json", folder / "hub")
    return folder


def found(services, before="", **variables):
    """Where the parts are found, if these modules were loaded before, and whether Python looks in the same folders as
    before. No module is found that is installed."""
    clean = {name: it for name, it in os.environ.items() if name != "PYTHONPATH"}
    done = subprocess.run([sys.executable, "-S", "-B", "-c", FOUND, services, before], cwd=services,
                          env={**clean, **variables}, stdout=subprocess.PIPE, stderr=subprocess.STDOUT)
    return done.stdout.decode(errors="replace").splitlines()


def parts(desk):
    """What is printed if this folder has the parts."""
    return [*(f"{desk}/{name}" for name in TOOLS), "True"]


def finds(core):
    yield "the parts of a clone", found(SERVICES) == parts(DESK)
    with tempfile.TemporaryDirectory() as folder:
        top = pathlib.Path(folder).resolve()
        share = top / "share"
        desk, services = put_desk(share / "niluppang" / "desk"), put_services(share / "niluppang" / "services")
        yield "those of a release and of Debian", found(services) == parts(desk)
        other = put_desk(top / "other", is_empty=True)
        yield "nor others of their names", found(services, PYTHONPATH=str(other)) == parts(desk)
        loaded = found(services, "fields,check_list", PYTHONPATH=str(other))
        yield "nor others that were loaded before", [line.startswith(f"Wrong: the module {name} is {other}/")
                                                     for name, line in zip(
                                                         ("fields", "check_list"), loaded)] == [True] * 2
        (top / "empty" / "fields").mkdir(parents=True)
        empty = found(services, "fields", PYTHONPATH=str(top / "empty"))[0]
        yield "nor a folder without a module", "there is a folder fields without a module" in empty
        (desk / "fields.py").unlink()
        yield "a tool that lacks another one", found(services)[1].startswith(
            f"Wrong: {desk} has a check_list.py that cannot be loaded")


def finds_nothing(core):
    with tempfile.TemporaryDirectory() as folder:
        *tools, is_same = found(put_services(pathlib.Path(folder).resolve() / "share" / "niluppang" / "services"))
        begins = [line.startswith(f"Wrong: there is no {name}") and "/usr/share/niluppang/desk" in line
                  for name, line in zip(TOOLS, tools)]
        yield "there are no tools, and where they are", begins == [True] * len(TOOLS)
        yield "the folders of modules are as before", is_same == "True"


CHECKS = [reads_kinds, reads_tricks, refuses, reads_long_lines, keeps_places, reads_repeats, says_why,
          leaves_blanks_out, names, judges, judges_tricks, reads_own, shows_own, reports_own, rules, names_rows,
          reads_as_the_program, compares, finds, finds_nothing]


def main():
    core = Core(harness.program_or_stand_in())
    harness.end_of([reported(*it) for one in CHECKS for it in one(core)])


if __name__ == "__main__":
    main()
