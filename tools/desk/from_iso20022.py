"""from_iso20022.py: AN EXAMPLE of a converter from ISO 20022 XML to the JSON lines that sct_sites reads. Nothing is
proved of it: it is outside the proofs, and a wrong converter makes wrong answers. Check it against the messages of your
own hub before you use it.

It reads files of pacs.002, pacs.004, pacs.008, pacs.028, camt.029 and camt.056 messages, each with one Document or
several, or with the messages of a bulk file of a clearing system without a Document, and writes the lines to standard
output. It keeps the elements that docs/users/formats.md names, and drops all others. Texts are kept as they are:
sct_sites judges them. But a line feed in a text, with the blanks around it, is one blank, and at an end of it nothing:
a pretty printer put it there. A bank is its BICFI, or its BIC as in pacs.008.001.02 and other old versions.

Of each file standard error gets one line with what was dropped and how often: charges, the UETR, addresses, a second
reason and the other names of DROPPED and REASONS below. It does not change the exit status, and --quiet leaves it out.

- A camt.056 of several transactions becomes one line with TxInf. Of more than 100 it has no line: the sender has to cut
it.
- A message of another kind with several transactions becomes a line for each. Lines that were cut out of one message
need a
  MsgId each, else they all contradict one another. They get the MsgId of the message, a point and the place of the
  transaction:
  M1.1, M1.2 and so on. If such a text is longer than 35 characters, a part of a hash of the MsgId takes the place of
  its end. If the
  sender also uses M1.1 itself for a message of that kind, the two contradict each other, and so do their transfers:
  give the lines other
  MsgIds.
- A status or a recall of a whole message that names no transaction has no line. Neither has a camt.029 that accepts a
recall: its pacs.004 is
  the answer.
- A message without a MsgId (in a camt kind: the Id of its Assgnmt) has no line.
- OrgnlCxlId of a pacs.004, a camt.029, and a pacs.028 about a recall is in no XML message. It is the CxlId of the one
recall of
  that transfer, in the files or in the archive. Of several recalls it is the one that the message names: by the
  OrgnlMsgId of a
  camt.056, or by a RslvdCase whose Id is the Case, the CxlId or the MsgId of the recall. An archive has no Case. If no
  recall is
  left, or more than one, the line is written without the key, and sct_sites refuses it.
- A message that does not name the originator bank, as a positive pacs.002 may, gets it from the one instruction or
recall with its
  OrgnlMsgId and OrgnlTxId, in the files or in the archive. If there is none, or several of different banks, it has no
  line.
- Several texts of remittance (Ustrd) become one, with a blank between them. If it is longer than 140 characters, the
key Ustrd is left out,
  and standard error says so. Structured remittance (Strd) is dropped like each element without a key: two instructions
  that differ in it
  alone are one message.
- The number of transactions is compared with NbOfTxs. If they differ, no line of the message is written.

Standard error gets a line for each message or key that is left out. A file that cannot be read takes no line of another
one. The exit status is 0 if nothing was left out, else 1. It is 2 if the archive cannot be read, or after an error that
nobody foresaw: then lines may lack.

Usage: from_iso20022.py [--quiet] [--archive ARCHIVE] FILE..
ARCHIVE is the archive of the days before, for their recalls.
"""
from __future__ import annotations
import collections
import hashlib
import json
import re
import signal
import sys
from typing import Any, Iterator, NamedTuple, Sequence
from xml.etree import ElementTree

# the elements of each kind: the message, and below it the head, each transaction, and the number of transactions if it
# has one
KINDS = {
    "pacs.008": ("FIToFICstmrCdtTrf", "GrpHdr", "CdtTrfTxInf", "GrpHdr/NbOfTxs"),
    "pacs.002": ("FIToFIPmtStsRpt", "GrpHdr", "TxInfAndSts", None),
    "pacs.028": ("FIToFIPmtStsReq", "GrpHdr", "TxInf", None),
    "camt.056": ("FIToFIPmtCxlReq", "Assgnmt", "Undrlyg/TxInf", "CtrlData/NbOfTxs"),
    "pacs.004": ("PmtRtr", "GrpHdr", "TxInf", "GrpHdr/NbOfTxs"),
    "camt.029": ("RsltnOfInvstgtn", "Assgnmt", "CxlDtls/TxInfAndSts", None),
}
# what has no key, and is counted: in a transaction, and in the group that it is in
DROPPED = ["UETR", "ChrgsInf", "PstlAdr", "UltmtDbtr", "UltmtCdtr", "Strd", "Purp", "AddtlInf", "LEI", "RgltryRptg",
           "RltdRmtInf", "InstrForCdtrAgt",
           "InstrForNxtAgt", "IntrmyAgt1", "PrvsInstgAgt1"]
REASONS = ["StsRsnInf", "CxlRsnInf", "RtrRsnInf", "CxlStsRsnInf"]  # the first of these in a transaction has a key
LINE_FEEDS = re.compile(r"[ \t]*[\r\n][ \t\r\n]*")  # in a text: a pretty printer made them
REFUSAL = "RJCR"
MOST = 100  # transactions of a recall
MOST_TEXT, MOST_REMITTANCE = 35, 140  # characters of an identification, and of a text of remittance


# where a message is, the object of its line, and names of recalls. Those of a recall are the cases of its transactions,
# or None. Those of another message are how it names the recall that it is about. `message` is the MsgId that the XML
# message has.
class Line(NamedTuple):
    place: str
    keys: dict[str, Any]
    names: Any
    message: str | None


class Wrong(Exception):
    """Why a message has no line."""


def is_number(text: str, number: int) -> bool:
    """Whether a text is a number, which may have zeros before it."""
    return re.fullmatch("[0-9]{1,15}", text.strip()) is not None and int(text) == number


class NoDoctype(ElementTree.TreeBuilder):
    """A message has no document type, and so no entities of its own."""

    def doctype(self, name: Any, pubid: Any, system: Any) -> None:
        raise Wrong("it has a document type")


def bare(element: ElementTree.Element) -> ElementTree.Element:
    """Takes the name spaces off the names of an element and of all below it."""
    for part in element.iter():
        part.tag = part.tag.rpartition("}")[2]
    return element


def found(places: Sequence[tuple[ElementTree.Element | None, str]]) -> str | None:
    """The text at the first of some places that has one. A place is an element and a path below it. An attribute
    follows `@`."""
    for element, path in places:
        path, _, attribute = path.partition("@")
        part = element.find(path) if element is not None else None
        text = None if part is None else part.get(attribute) if attribute else in_one_line(part.text)
        if text:
            return text
    return None


def in_one_line(text: str | None) -> str | None:
    """A text with a blank in place of each line feed and the blanks around it, and without those at its ends."""
    if text is None or not LINE_FEEDS.search(text):
        return text
    begin, end = (LINE_FEEDS.match(text), re.search(LINE_FEEDS.pattern + r"\Z", text))
    return LINE_FEEDS.sub(" ", text[begin.end() if begin else 0:end.start() if end and end.start() else len(text)])


def kept(pairs: list[tuple[str, str | None]]) -> dict[str, str]:
    return {key: text for key, text in pairs if text is not None}


def names_recall(group: ElementTree.Element) -> bool:
    """Whether the original that a group names is a recall."""
    return (found([(group, "OrgnlMsgNmId")]) or "").startswith("camt.056")


def bank_at(element: ElementTree.Element | None, path: str) -> list[tuple[ElementTree.Element | None, str]]:
    """Where the BIC of a bank is, by its name in the newer versions and in the older ones."""
    return [(element, f"{path}/FinInstnId/{name}") for name in ("BICFI", "BIC")]


def reason(element: ElementTree.Element | None, name: str) -> list[tuple[ElementTree.Element | None, str]]:
    """Where a reason code is, be it a code of ISO or of the scheme."""
    return [(element, f"{name}/Rsn/Cd"), (element, f"{name}/Rsn/Prtry")]


ELEMENTS = {element: kind for kind, (element, *_) in KINDS.items()}


def messages_in(root: ElementTree.Element) -> tuple[str, list[ElementTree.Element]]:
    """The messages of a file with this root, and what they are called: its Documents, or without any the messages
    themselves."""

    def name(part: ElementTree.Element) -> str:
        return part.tag.rpartition("}")[2]

    for what, ones in (("Document", [part for part in root.iter() if name(part) == "Document"]),
                       ("message", [part for part in root.iter() if name(part) in ELEMENTS])):
        if ones:
            return what, ones
    raise Wrong("it has no Document")


def documents(file: str) -> list[tuple[str, ElementTree.Element]]:
    """The messages of a file, each with what it is called in a message to people."""
    what, ones = messages_in(ElementTree.parse(file, ElementTree.XMLParser(target=NoDoctype())).getroot())
    return [(file if len(ones) == 1 else f"{file}: {what} {place}", one) for place, one in enumerate(ones, 1)]


def cut_name(identification: str, number: int) -> str:
    """The MsgId of a line that was cut out of a message. The same message always gets the same ones, and no two
    messages one."""
    plain = f"{identification}.{number}"
    if len(plain) <= MOST_TEXT:
        return plain
    end = f"-{hashlib.sha256(identification.encode()).hexdigest()[:10].upper()}.{number}"
    return identification[:MOST_TEXT - len(end)] + end


class Message:
    """One XML message, in its Document or in a bulk file."""

    def __init__(self, document: ElementTree.Element) -> None:
        space, _, tag = document.tag.rpartition("}")
        self.name = space.rpartition(":")[2]  # {urn:iso:std:iso:20022:tech:xsd:pacs.008.001.08
        self.kind = self.name[:8]
        if self.kind not in KINDS:
            raise Wrong(f"{self.name or 'its name space'} is not one of the six kinds")
        element, head, transactions, number = KINDS[self.kind]
        bare(document)
        body = document.find(element) if tag == "Document" else document if tag == element else None
        if body is None:
            raise Wrong(f"it has no {element}")
        self.body = body
        its_head = self.body.find(head)
        if its_head is None:
            raise Wrong(f"it has no {head}")
        self.head = its_head
        self.transactions = self.body.findall(transactions)
        self.notes: dict[Any, str] = {}  # what is left out of the line of a transaction
        if self.kind == "pacs.002" and not self.transactions and self.body.find("OrgnlGrpInfAndSts") is not None:
            raise Wrong("it confirms a whole message and names no transaction")
        if self.kind == "camt.056" and not self.transactions and self.body.find(
                "Undrlyg/OrgnlGrpInfAndCxl") is not None:
            raise Wrong("it recalls a whole message and names no transaction: a recall of a group has no line")
        stated = found([(self.body, number)]) if number else None
        if stated is not None and not is_number(stated, len(self.transactions)):
            raise Wrong(f"NbOfTxs is {stated}, and it has {len(self.transactions)} transactions")
        if not self.transactions:
            raise Wrong("it has no transaction")

    def dropped(self) -> Iterator[str]:
        """The name of each element of the transactions that has no key and that is counted, as often as it is there."""
        for transaction in self.transactions:
            yield from (part.tag for part in transaction.iter() if part.tag in DROPPED)
            yield from (f"{name} after the first" for name in REASONS for _ in transaction.findall(name)[1:])
        yield from ("ChrgsInf" for _ in self.head.iter("ChrgsInf"))

    def head_of(self, transaction: ElementTree.Element | None) -> dict[str, str]:
        """The keys of the head."""
        if self.kind.startswith("camt"):
            name, banks = "Id", [bank_at(self.head, f"{agent}/Agt") for agent in ("Assgnr", "Assgne")]
        else:
            name = "MsgId"
            banks = [bank_at(transaction, agent) + bank_at(self.head, agent) for agent in ("InstgAgt", "InstdAgt")]
        identification = found([(self.head, name)])
        if identification is None:
            raise Wrong(f"it has no {name} in its {self.head.tag}")
        return kept([("MsgNmId", self.name), ("MsgId", identification), ("CreDtTm", found([(self.head, "CreDtTm")])),
                     ("InstgAgt", found(banks[0])), ("InstdAgt", found(banks[1]))])

    def original(self, transaction: ElementTree.Element) -> dict[str, str]:
        """The keys that name the transfer which a message other than an instruction is about."""
        places = [transaction, *self.details(transaction), self.body]
        groups = [group for place in places for name in ("OrgnlGrpInf", "OrgnlGrpInfAndSts")
                  for group in place.findall(name)]
        if self.kind == "camt.029":  # of two groups that it names, one may be the recall: that is no transfer
            groups = [group for group in groups if not names_recall(group)] or groups

        def at(name: str) -> str | None:
            return found([(group, name) for group in groups])

        return kept([("OrgnlMsgId", at("OrgnlMsgId")), ("OrgnlMsgNmId", at("OrgnlMsgNmId")),
                     ("OrgnlEndToEndId", found([(transaction, "OrgnlEndToEndId")])),
                     ("OrgnlTxId", found([(transaction, "OrgnlTxId")])),
                     ("DbtrAgt", found(bank_at(transaction, "OrgnlTxRef/DbtrAgt")))])

    def details(self, transaction: ElementTree.Element) -> list[ElementTree.Element]:
        """The details of a camt.029 that have a transaction."""
        return [part for part in self.body.findall("CxlDtls") if transaction in part.findall("TxInfAndSts")]

    def remittance(self, transaction: ElementTree.Element) -> str | None:
        """The texts of remittance as one, unless that is too long."""
        texts = [text for text in (in_one_line(part.text) for part in transaction.findall("RmtInf/Ustrd")) if text]
        text = " ".join(texts)
        if len(texts) > 1 and len(text) > MOST_REMITTANCE:
            self.notes[transaction] = f"Ustrd is left out: its {len(texts)} texts have {len(text)} characters together"
            return None
        return text or None

    def instruction(self, transaction: ElementTree.Element) -> dict[str, str]:
        info = [transaction.find("PmtTpInf"), self.head.find("PmtTpInf")]

        def at(path: str) -> str | None:
            return found([(transaction, path)])

        return kept([
            ("IntrBkSttlmDt", found([(transaction, "IntrBkSttlmDt"), (self.head, "IntrBkSttlmDt")])),
            ("SvcLvl", found([(part, "SvcLvl/Cd") for part in info])),
            ("LclInstrm", found([(part, "LclInstrm/Cd") for part in info])),
            ("InstrId", at("PmtId/InstrId")), ("EndToEndId", at("PmtId/EndToEndId")), ("TxId", at("PmtId/TxId")),
            ("IntrBkSttlmAmt", at("IntrBkSttlmAmt")), ("Ccy", at("IntrBkSttlmAmt@Ccy")), ("ChrgBr", at("ChrgBr")),
            ("AccptncDtTm", at("AccptncDtTm")), ("Dbtr", at("Dbtr/Nm")), ("DbtrAcct", at("DbtrAcct/Id/IBAN")),
            ("DbtrAgt", found(bank_at(transaction, "DbtrAgt"))), ("CdtrAgt", found(bank_at(transaction, "CdtrAgt"))),
            ("Cdtr", at("Cdtr/Nm")), ("CdtrAcct", at("CdtrAcct/Id/IBAN")), ("Ustrd", self.remittance(transaction))])

    def confirmation(self, transaction: ElementTree.Element) -> dict[str, str]:
        group = self.body.find("OrgnlGrpInfAndSts")
        return kept([("TxSts", found([(transaction, "TxSts"), (group, "GrpSts")])),
                     ("Rsn", found(reason(transaction, "StsRsnInf") + reason(group, "StsRsnInf")))])

    def recall(self, transaction: ElementTree.Element) -> dict[str, str]:
        def at(path: str) -> str | None:
            return found([(transaction, path)])

        return kept([("CxlId", at("CxlId")), ("OrgnlIntrBkSttlmAmt", at("OrgnlIntrBkSttlmAmt")),
                     ("Ccy", at("OrgnlIntrBkSttlmAmt@Ccy")),
                     ("OrgnlIntrBkSttlmDt", at("OrgnlIntrBkSttlmDt")),
                     ("Rsn", found(reason(transaction, "CxlRsnInf")))])

    def payback(self, transaction: ElementTree.Element) -> dict[str, str]:
        def at(path: str) -> str | None:
            return found([(transaction, path)])

        currencies = {at("OrgnlIntrBkSttlmAmt@Ccy"), at("RtrdIntrBkSttlmAmt@Ccy")}
        if len(currencies) != 1:
            raise Wrong("its two amounts are in different currencies")
        return kept([("RtrId", at("RtrId")), ("OrgnlIntrBkSttlmAmt", at("OrgnlIntrBkSttlmAmt")),
                     ("RtrdIntrBkSttlmAmt", at("RtrdIntrBkSttlmAmt")), ("Ccy", currencies.pop()),
                     ("IntrBkSttlmDt", found([(transaction, "IntrBkSttlmDt"), (self.head, "IntrBkSttlmDt")])),
                     ("Rsn", found(reason(transaction, "RtrRsnInf")))])

    def refusal(self, transaction: ElementTree.Element) -> dict[str, str]:
        answer, why = (found([(transaction, "TxCxlSts"), (self.body, "Sts/Conf")]),
                       found(reason(transaction, "CxlStsRsnInf")))
        if answer is not None and answer != REFUSAL and why is None:
            raise Wrong(
                f"it answers {answer}: a line is for a refusal ({REFUSAL}), and a pacs.004 is the positive answer")
        return kept([("CxlStsId", found([(transaction, "CxlStsId")])), ("Conf", answer), ("Rsn", why)])

    def keys(self, transaction: ElementTree.Element) -> dict[str, Any]:
        """The keys of a transaction, without the head and without OrgnlCxlId."""
        if self.kind == "pacs.008":
            return self.instruction(transaction)
        own = {"pacs.002": self.confirmation, "camt.056": self.recall, "pacs.004": self.payback,
               "camt.029": self.refusal}
        return {**self.original(transaction), **own.get(self.kind, lambda _: {})(transaction)}

    def names(self, transaction: ElementTree.Element) -> set[str]:
        """How a transaction names the recall that it is about: by the message that made it, or by its case."""
        places = [transaction, *self.details(transaction), self.body]
        groups = [group for place in places for name in ("OrgnlGrpInf", "OrgnlGrpInfAndSts")
                  for group in place.findall(name)]
        messages = [found([(group, "OrgnlMsgId")]) for group in groups if names_recall(group)]
        cases = [found([(place, "RslvdCase/Id")]) for place in places + groups]
        return {name for name in messages + cases if name is not None}

    def recalls(self, place: str) -> Line:
        """The line of a camt.056."""
        if len(self.transactions) > MOST:
            raise Wrong(f"it has {len(self.transactions)} transactions, and a recall has at most {MOST}")
        keys = [self.keys(transaction) for transaction in self.transactions]
        cases = [found([(transaction, "Case/Id"), (self.body, "Case/Id")]) for transaction in self.transactions]
        head = self.head_of(None)
        return Line(place, {**head, **(keys[0] if len(keys) == 1 else {"TxInf": keys})}, cases, head["MsgId"])

    def lines(self, place: str) -> list[Line]:
        """The lines of the message, which is at a place."""
        if self.kind == "camt.056":
            return [self.recalls(place)]
        heads = [self.head_of(one) for one in self.transactions]
        lines = [Line(place, {**head, **self.keys(one)}, self.names(one), head["MsgId"])
                 for head, one in zip(heads, self.transactions)]
        for number, line in enumerate(lines if len(lines) > 1 else [], 1):
            line.keys["MsgId"] = cut_name(line.message or "", number)
        return lines


def bank(text: str | None) -> str | None:
    """A BIC of 8 characters and the same with XXX after it are one bank."""
    return text + "XXX" if text and len(text) == 8 else text


def parts_of(keys: dict[str, Any]) -> list[dict[str, Any]]:
    """The transactions of a recall."""
    return keys.get("TxInf", [keys])


def recalls_of(lines: list[Line]) -> dict[Any, Any]:
    """The recalls that some lines make: of each transfer, each CxlId with all that may name it."""
    recalls: dict[Any, Any] = {}
    for line in lines:
        if line.keys["MsgNmId"].startswith("camt.056"):
            for part, case in zip(parts_of(line.keys), line.names):
                made = recalls.setdefault((bank(part.get("DbtrAgt")), part.get("OrgnlTxId")), {})
                made.setdefault(part.get("CxlId"), set()).update([part.get("CxlId"), line.keys["MsgId"], case])
    return recalls


def banks_of(lines: list[Line]) -> dict[Any, Any]:
    """The originator banks of each transfer that a message makes or recalls, by the MsgId of the message and the
    TxId."""
    banks: dict[Any, Any] = {}
    for line in lines:
        kind = line.keys["MsgNmId"][:8]
        if kind in ("pacs.008", "camt.056"):
            for part in parts_of(line.keys):
                transfer = part.get("TxId" if kind == "pacs.008" else "OrgnlTxId")
                # a line of an archive may have been cut out of one
                for message in (line.message, re.sub(r"\.[0-9]+\Z", "", line.message or "")):
                    banks.setdefault((message, transfer), set()).add(bank(part.get("DbtrAgt")))
    return banks


def lacks_bank(keys: dict[str, str]) -> bool:
    return not keys["MsgNmId"].startswith(("pacs.008", "camt.056")) and "DbtrAgt" not in keys


def wants_recall(keys: dict[str, str]) -> bool:
    kind = keys["MsgNmId"][:8]
    return kind in ("pacs.004", "camt.029") or kind == "pacs.028" and keys.get("OrgnlMsgNmId",
                                                                               "").startswith("camt.056")


def correlated(line: Line, recalls: dict[Any, Any]) -> list[str]:
    """The recalls that a line may be about: those of its transfer that it names, or all of them if it names none."""
    made = recalls.get((bank(line.keys.get("DbtrAgt")), line.keys.get("OrgnlTxId")), {})
    return [recall for recall, names in made.items() if names.intersection(line.names)] or list(made)


def held_in(path: str) -> list[Line]:
    """The lines of the instructions and the recalls in an archive."""
    try:
        with open(path, encoding="utf-8") as archive:
            messages = (json.loads(line) for line in archive if line.strip())
            held = [keys for keys in messages if keys["MsgNmId"].startswith(("pacs.008", "camt.056")) and keys["MsgId"]]
    except (OSError, ValueError, KeyError, TypeError) as why:
        print(f"from_iso20022: {path} is not an archive that can be read: {why!r}", file=sys.stderr)
        sys.exit(2)
    return [Line(path, keys, [None] * len(parts_of(keys)), keys["MsgId"]) for keys in held]


def converted(files: list[str]) -> tuple[list[Line], list[str], list[str]]:
    """The lines of some files, a text for each message that has none, and a text for each file of which something is
    dropped."""
    lines, left_out, notes = [], [], []
    for file in files:
        dropped: collections.Counter[str] = collections.Counter()
        try:
            for place, document in documents(file):
                try:
                    message = Message(document)
                    lines += message.lines(place)
                    left_out += [f"{place}: {note}" for note in message.notes.values()]
                    dropped.update(message.dropped())
                except Wrong as why:
                    left_out.append(f"{place}: {why}")
        except (OSError, ElementTree.ParseError, LookupError, ValueError, RecursionError, Wrong) as why:
            # LookupError and ValueError: an encoding that Python does not have, or does not read so
            left_out.append(f"{file}: {why}")
        if dropped:
            notes.append(f"{file}: dropped, since no key has it: "
                         f"{', '.join(f'{name} {many}' for name, many in sorted(dropped.items()))}")
    return lines, left_out, notes


def without_bank(line: Line, banks: dict[Any, Any]) -> str | None:
    """Why a line has no originator bank, which is looked up if the message names none. None if it has one."""
    if not lacks_bank(line.keys):
        return None
    known = banks.get((line.keys.get("OrgnlMsgId"), line.keys.get("OrgnlTxId")), set()) - {None}
    if len(known) != 1:
        said = ", ".join(sorted(known)) or "none"
        return (f"it names no DbtrAgt; originator banks of {line.keys.get('OrgnlTxId')} in "
                f"{line.keys.get('OrgnlMsgId')}: {said}")
    line.keys["DbtrAgt"], = known
    return None


def without_recall(line: Line, recalls: dict[Any, Any]) -> str | None:
    """Why a line lacks the recall that it is about, which is looked up. None if it has it or needs none."""
    if not wants_recall(line.keys):
        return None
    about = correlated(line, recalls)
    if len(about) != 1:
        known = ", ".join(map(str, about)) or "none"
        return f"OrgnlCxlId is left out; recalls of {line.keys.get('OrgnlTxId')}: {known}"
    line.keys["OrgnlCxlId"] = about[0]
    return None


def json_line(line: Line) -> bytes:
    """A line as bytes, without the line feed at its end."""
    return json.dumps(line.keys, ensure_ascii=False, separators=(",", ":")).encode()


def main() -> None:
    signal.signal(signal.SIGPIPE, signal.SIG_DFL)
    files, held = sys.argv[1:], []
    if files in (["-h"], ["--help"]):
        print(__doc__.strip())
        return
    is_quiet = files[:1] == ["--quiet"]
    files = files[is_quiet:]
    if files[:1] == ["--archive"] and len(files) > 1:
        held, files = held_in(files[1]), files[2:]
    if not files:
        sys.exit(__doc__)
    lines, left_out, notes = converted(files)
    banks, recalls = banks_of(held + lines), recalls_of(held + lines)
    for line in lines:
        no_line = without_bank(line, banks)
        why = no_line or without_recall(line, recalls)
        if why:
            left_out.append(f"{line.place}: {why}")
        if not no_line:
            sys.stdout.buffer.write(json_line(line) + b"\n")
    for text in left_out + ([] if is_quiet else notes):
        print(f"from_iso20022: {text}", file=sys.stderr)
    sys.stdout.buffer.flush()
    sys.exit(1 if left_out else 0)


if __name__ == "__main__":
    try:
        main()
    except Exception as why:
        print(f"from_iso20022: an error that nobody foresaw, so that lines may lack: {why!r}", file=sys.stderr)
        sys.exit(2)
