"""model.py: the worked examples of docs/users/model.md, each with what the page says and what the program answers.

The messages of an example are written in the words of the table at the head of the page, whose values they have. An
example is a block of a form of FORMS, or a script with its events. A block of another form stops the check, and so does
a message in other words.
"""
import json
import re
from bench.generate import samples
from tests.documents.pages import Page, answered
from tests.harness import stop
from tests.oracle.status import read_message
from tests.property.groups import Site, settled

ORIGINATOR, BENEFICIARY, AMOUNT, REASON = "HANSDEHHXXX", "SCALBEBBXXX", "12.50", "DUPL"


# ---- messages in words

def about(transfer):
    """The elements by which a later message names its transfer."""
    return {"OrgnlTxId": transfer, "DbtrAgt": ORIGINATOR}


def instructs(msg_id, transfer, amount, receiver, sender, kind):
    sender = sender or ORIGINATOR
    return samples.instruction(
        MsgNmId=kind or "pacs.008", MsgId=msg_id, InstgAgt=sender, TxId=transfer,
        IntrBkSttlmAmt=amount or AMOUNT, DbtrAgt=sender,
        CdtrAgt=receiver or BENEFICIARY)


def accepts(msg_id, transfer):
    return samples.confirmation(MsgId=msg_id, InstgAgt=BENEFICIARY, **about(transfer))


def rejects(msg_id, transfer, reason):
    return samples.confirmation({"TxSts": "RJCT", "Rsn": reason}, MsgId=msg_id, InstgAgt=BENEFICIARY, **about(transfer))


def asks(msg_id, recall, transfer):
    of_recall = {"OrgnlMsgNmId": "camt.056", "OrgnlCxlId": recall} if recall else {}
    return samples.request(MsgId=msg_id, InstgAgt=ORIGINATOR, **about(transfer), **of_recall)


def recalled(words):
    """One transaction of a recall."""
    match = re.fullmatch(r"(\S+) as (\S+)(?: of (\S+))?(?: for (\S+))?", words)
    if match is None:
        stop(f"these are not the words of a transaction: {words}")
    transfer, recall, amount, reason = match.groups()
    return samples.transaction(CxlId=recall, OrgnlIntrBkSttlmAmt=amount or AMOUNT, Rsn=reason or REASON,
                               **about(transfer))


def recalls(msg_id, transactions):
    return samples.recall([recalled(words) for words in transactions.split(", ")], MsgId=msg_id, InstgAgt=ORIGINATOR)


def returns(msg_id, transfer, recall, return_id, returned, original):
    return samples.payback(
        MsgId=msg_id, InstgAgt=BENEFICIARY, RtrId=return_id or "X1", OrgnlCxlId=recall,
        OrgnlIntrBkSttlmAmt=original or AMOUNT,
        RtrdIntrBkSttlmAmt=returned or AMOUNT, **about(transfer))


def refuses(msg_id, recall, transfer, reason):
    return samples.refusal(MsgId=msg_id, InstgAgt=BENEFICIARY, OrgnlCxlId=recall, Rsn=reason or "CUST",
                           **about(transfer))


WORDS = {
    r"(\S+) instructs (\S+)(?: with (\S+))?(?: to (\S+))?(?: from (\S+))?(?: as (\S+))?": instructs,
    r"(\S+) accepts (\S+)": accepts,
    r"(\S+) rejects (\S+) for (\S+)": rejects,
    r"(\S+) asks about (?:(\S+) of )?(\S+)": asks,
    r"(\S+) recalls (.+)": recalls,
    r"(\S+) returns (\S+) for (\S+?)(?: as (\S+))?(?: with (\S+) of (\S+))?": returns,
    r"(\S+) refuses (\S+) of (\S+?)(?: for (\S+))?": refuses,
}


def line_of(words):
    """The line of the message that these words name."""
    for pattern, message in WORDS.items():
        match = re.fullmatch(pattern, words)
        if match:
            return samples.line(message(*match.groups()))
    return stop(f"these are not the words of a message: {words}")


def lines_of(words):
    """The lines of several messages, which a semicolon separates."""
    return [line_of(one) for one in words.split("; ")]


# ---- what the program answers

def written(program, command, lines):
    """What a command writes on some lines, to one output after the other, with the status that it ends with."""
    text, refused, status = answered(program, command.split(), "".join(lines))
    return text + refused, status


def columns(rows):
    """The two columns of rows, which two spaces or more separate."""
    return [re.split(r" {2,}", row) for row in rows]


def text_of(command):
    """The text of a command on the messages that are held, in any order and with each of them twice."""
    def compared(program, held, text):
        lines = lines_of(" ".join(held))
        stated = "".join(row + "\n" for row in text), 0
        for given in (lines, lines[::-1], lines + lines):
            yield stated, written(program, command, given)
    return compared


def archived(program, lines):
    """The lines of the archive text."""
    text, status = written(program, "archive", lines)
    return set(text.splitlines()), status


def identity(line):
    message = json.loads(line)
    return message["InstgAgt"], message["MsgNmId"][:len("pacs.008")], message["MsgId"]


def answers_to(program, added, held):
    """What the archive answers to each message, and how many it holds at the end."""
    lines, before = [], set()
    for words, answer in columns(added):
        lines.append(line_of(words))
        after, _ = archived(program, lines)
        [new] = after - before or [None]
        against = new and identity(new) in map(identity, before)
        yield answer, "Repeat" if new is None else "Against" if against else "Fresh"
        before = after
    yield held, [f"{len(before)} messages"]


def in_parts(program, one, other, of_one, of_other, of_both):
    """The status text of each of two parts, and of both together."""
    first, second = (lines_of(" ".join(words)) for words in (one, other))
    for text, given in ((of_one, first), (of_other, second), (of_both, first + second)):
        yield ("".join(row + "\n" for row in text), 0), written(program, "status", given)


def split(program, held, kept, closed):
    """What is kept and what is closed on a day after all messages, by the identifications of the messages."""
    lines = lines_of("; ".join(held))
    for command, named in (("keep", kept), ("closed", closed)):
        for given in (lines, lines[::-1], lines + lines):
            text, status = written(program, f"{command} 9999-12-31", given)
            yield (sorted(" ".join(named).split()), 0), (sorted(re.findall(r'"MsgId":"([^"]*)"', text)), status)


def event_line(words):
    """The line of a script. A take has its message in words."""
    take = re.fullmatch(r"(take \S+ )(.*)", words)
    return take.group(1) + line_of(take.group(2)) if take else words + "\n"


def replayed(program, events, **sites):
    """The outcome of each event, and the status text of each site that is named."""
    words, outcomes = zip(*columns(events))
    script = ["sites 3\n", *map(event_line, words)]
    text, status = written(program, "replay", script)
    happened, *held = re.split(r"^S\|\d+\n", text, flags=re.M)
    yield (["E|{}|{}".format(*one) for one in enumerate(outcomes, 1)], 0), (happened.splitlines(), status)
    for site, stated in sites.items():
        yield stated, re.findall(r"^[TFR]\|.*", held[int(site[len("site "):]) - 1], flags=re.M)


def entries_of(words):
    """A site with entries in words."""
    number, entries = re.fullmatch(r"site (\d+) holds (.*)", words).groups()
    site = Site(int(number), 3)
    for origin, place, message in re.findall(r"\((\d+),(\d+)\) ([^,]+)(?:, |$)", entries):
        site.held |= {(int(origin), int(place), read_message(line_of(message).encode()))}
    return site


def settling(_, words, gives):
    """How settling ends by the definitions."""
    sites = [entries_of(one) for one in " ".join(words).split("; ")]
    refused = settled(sites)
    if refused:
        yield gives, ["|".join(map(str, ["REFUSED", *refused]))]
        return
    held = {", ".join(f"({origin},{place})" for origin, place, _ in sorted(site.held, key=lambda one: one[:2]))
            for site in sites}
    yield gives, [f"SETTLED, and each site holds {one}" for one in held]


# The forms of blocks, by their labels:
# - `held` and `gives` or `totals`: the status text or the totals text of the messages. They are also read in the
# opposite order, and
#   each of them twice.
# - `added` and `held`: each message with what the archive answers to it. An archive text that does not change is a
# Repeat. If it had a
#   message of the same identity before, the answer is Against, else Fresh.
# - `settled` and `gives`: sites with their entries, and how settling ends by the definitions (groups.py), since no
# command settles
#   sites that are named so.
# - `part 1`, `part 2`, `gives 1`, `gives 2` and `both`: the status text of each part, and of both together.
# - `held`, `kept` and `closed`: the identifications of the messages that are kept and of those that are closed, on a
# day after all of them.
# - `events` and perhaps `site N`: a script with the outcome of each line, and the status text of a site at the end
# (replayed).
FORMS = {
    ("held", "gives"): text_of("status"),
    ("held", "totals"): text_of("totals"),
    ("held", "kept", "closed"): split,
    ("added", "held"): answers_to,
    ("settled", "gives"): settling,
    ("part 1", "part 2", "gives 1", "gives 2", "both"): in_parts,
}


# ---- the page

def labelled(text):
    """The rows of each label of a block. A row without a label belongs to the label above it."""
    parts, rows = {}, []
    for row in text.splitlines():
        label, rest = re.fullmatch(r"(?:([a-z]+(?: \d+)?):)? *(.*)", row).groups()
        if label:
            rows = parts.setdefault(label, [])
        rows.append(rest)
    return parts


def of_block(program, block):
    """What a block says and what is answered, pair by pair."""
    parts = labelled(block.text)
    if next(iter(parts), None) == "events":
        return replayed(program, parts.pop("events"), **parts)
    if tuple(parts) not in FORMS:
        stop(f"model.md, line {block.line}: this block is of no form that is known")
    return FORMS[tuple(parts)](program, *parts.values())


def of_message(program, row):
    """The transfers and the recalls that one message names, by the lines of its status text."""
    words, *keys = row.cells
    text, _ = written(program, "status", lines_of(words))
    for stated, pattern in zip(keys, (r"^T\|([^|\n]*)\|([^|\n]*)", r"^R\|([^|\n]*)\|([^|\n]*)\|([^|\n]*)")):
        found = re.findall(pattern, text, re.M)
        yield stated, "; ".join(", ".join(key) for key in found) or "none"


def of_notation(row):
    """Each value that the table at the head of the page names, which is one of a message of the row."""
    words, meaning = row.cells
    values = set(re.findall(r'"([^"]*)"', "".join(lines_of(words))))
    for stated in re.findall(r"\b(?:pacs|camt)\.\d{3}\b|\d+\.\d\d|\b[A-Z]\d\b|\b[A-Z]{4}\b", meaning):
        yield stated, stated if stated in values else f"{words} does not have it"


def examples(program):
    """Each example by its name, with the pairs of what the page says and what is answered."""
    page = Page("users/model.md")
    for row in page.rows(None, "In short", "Message"):
        yield f"model.md, line {row.line}", of_notation(row)
    for block in page.blocks():
        yield f"model.md, line {block.line}", of_block(program, block)
    for row in page.rows("3. Transfer and recall", "Message", "Transfers", "Recalls"):
        yield f"model.md, line {row.line}", of_message(program, row)
