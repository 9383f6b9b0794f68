"""iso.py: ISO 20022 messages in XML as lines, for POST /iso20022. The converter of the desk, from_iso20022.py, makes
them.

The recall that an answer is about is looked up in the site, and not in an archive. If the site holds the answer
already, its line gets the same recall again: so a message that is sent twice is a repeat. The site is asked by bank and
identification. So an answer that does not name the originator bank needs its instruction or its recall in the same
body.

A short XML text can cost much memory and time. So what costs is limited, as early as it can be seen, and bodies are
read beside the site (converting.py).
"""
from __future__ import annotations
import asyncio
import json
import re
import types
from typing import Any, Awaitable, Callable, Iterable, NamedTuple
from xml.etree import ElementTree
from . import limits
from .faults import BadText, Refused
from .places import desk_module
from .work import Outcome, outcome_line as line_of_outcome

SIGNS = "<=&\r\n"
FAR = re.compile(f"<[^<]{{{limits.XML_MOST_CHARACTERS + 1}}}")
LONG = f"it has a tag or a text of more than {limits.XML_MOST_CHARACTERS} characters"
BEGINNINGS = {b"\xef\xbb\xbf": "utf-8-sig", b"\xff\xfe": "utf-16", b"\xfe\xff": "utf-16", b"<\0": "utf-16-le",
              b"\0<": "utf-16-be"}
DECLARED = re.compile(rb"<\?xml\s[^>]{0,200}?\sencoding\s*=\s*[\"']([A-Za-z0-9._-]{1,40})[\"']")
ENCODINGS = ("utf-8", "us-ascii", "iso-8859-1")  # that a body may declare; one in UTF-16 is known by how it begins
CONVERTER = "from_iso20022"
RECALL = "camt.056"
BAD_NAME = 73  # the number of a refusal: a text is no bank, or no identification

Messages = Callable[[str, str], Awaitable[bytes]]  # looks up the messages on a transfer, by bank and identification


# a message, or a transaction that was cut out of one: its place in the body, its line or None, and why it has none or
# what the line lacks
class Item(NamedTuple):
    place: str
    line: Any
    why: str | None


async def lines_of(drafts: list[Item], messages: Messages) -> list[Item]:
    """The items of drafts, of which each line has the recall that it is about.

    `messages` is asked for the text of the messages on a transfer. It raises Refused if the bank or the identification
    is none.
    """
    recalls, answers = await looked_up(transfers_of(drafts), messages)
    return await asyncio.to_thread(finished, drafts, recalls, answers)


def outcome_line(item: Item, outcome: Outcome | None) -> str:
    """The line that answers an item: what became of its line, or why it has none."""
    if item.line is None or outcome is None:
        answer = {"outcome": "UNREAD", "why": item.why}
    else:
        answer = json.loads(line_of_outcome(0, outcome))
        del answer["line"]
        answer.update({"note": item.why} if item.why else {})
    return json.dumps({"message": item.place, **answer}, separators=(",", ":")) + "\n"


# ---- XML

class Tree(ElementTree.TreeBuilder):
    """Makes a tree as messages have one. A document type is refused, and so a body has no entities of its own."""
    names: set[str]

    def __init__(self) -> None:
        super().__init__()
        self.depth, self.names = 0, set()

    def doctype(self, name: str, pubid: str | None, system: str | None) -> None:
        raise BadText("it has a document type")

    def start_ns(self, prefix: str, space: str) -> None:
        if len(space) > limits.XML_SPACE_CHARACTERS:
            raise BadText(f"it has a name space of more than {limits.XML_SPACE_CHARACTERS} characters")

    def start(self, tag: str, attributes: dict[str, str]) -> ElementTree.Element:
        self.depth += 1
        self.names.add(tag)
        self.names.update(attributes)
        if self.depth > limits.XML_MOST_DEPTH:
            raise BadText(f"it has more than {limits.XML_MOST_DEPTH} elements in each other")
        if len(self.names) > limits.XML_MOST_NAMES:
            raise BadText(f"it has more than {limits.XML_MOST_NAMES} different names")
        return super().start(tag, attributes)

    def end(self, tag: str) -> ElementTree.Element:
        self.depth -= 1
        return super().end(tag)

    def comment(self, text: str | None) -> Any:
        """Leaves a comment out. The builder of ElementTree would copy all of the text before it."""

    def pi(self, target: str, text: str | None = None) -> Any:
        """Leaves a processing instruction out, for the same reason."""


def text_of(body: bytes) -> str:
    """The text of a body: in the encoding that its first bytes show, or else in the one that it declares."""
    encoding = next((its for mark, its in BEGINNINGS.items() if body.startswith(mark)), None)
    if encoding is None:
        declared = DECLARED.match(body)
        encoding = declared.group(1).decode().lower() if declared else ENCODINGS[0]
        if encoding not in ENCODINGS:
            raise BadText(f"it declares the encoding {encoding}, and may be in UTF-16, {', '.join(ENCODINGS)}")
    try:
        return body.decode(encoding)
    except UnicodeError:
        raise BadText(f"it is no text in {encoding}") from None


def tree_of(text: str) -> ElementTree.Element:
    """The root of an XML text, which may cost no more than a body of messages does."""
    if sum(map(text.count, SIGNS)) > limits.XML_MOST_SIGNS:
        raise BadText(f"it has more than {limits.XML_MOST_SIGNS} tags, attributes and ends of lines")
    if FAR.search(text):
        raise BadText(LONG)
    parser = ElementTree.XMLParser(target=Tree())
    try:
        # a piece in which something is refused is read to its end
        for place in range(0, len(text), limits.XML_PIECE_CHARACTERS):
            parser.feed(text[place:place + limits.XML_PIECE_CHARACTERS])
        root = parser.close()
    except ElementTree.ParseError as why:
        raise BadText(f"it is no XML: {shortened(str(why))}") from None
    if any(len(part.text or "") > limits.XML_MOST_CHARACTERS for part in root.iter()):
        raise BadText(LONG)
    return root


# ---- lines

def drafts_of(body: bytes) -> list[Item]:
    """An item for each message of a body, or for each transaction if it is cut into several lines, before recalls are
    looked up: the line of each is one of the converter. BadText if the body cannot be read."""
    desk, drafts = desk_module(CONVERTER), []
    for place, message in enumerate(messages_of(desk, tree_of(text_of(body))), 1):
        drafts += items_of(desk, f"message {place}", message)
    banks = desk.banks_of([draft.line for draft in drafts if draft.line])
    return [with_bank(desk, draft, banks) for draft in drafts]


def messages_of(desk: types.ModuleType, root: ElementTree.Element) -> list[Any]:
    """The messages below a root, each as the converter reads it, or the reason why it reads none. BadText if they are
    too many."""
    try:
        _, ones = desk.messages_in(root)
    except desk.Wrong as why:
        raise BadText(str(why)) from None
    must_be_few(len(ones), "messages")
    messages = [unless_wrong(desk, desk.Message, element) for element in ones]
    read = [message for message in messages if isinstance(message, desk.Message)]
    must_be_few(sum(len(message.transactions) for message in read), "transactions")
    if sum(map(looks, read)) > limits.XML_MOST_BESIDE:
        raise BadText("its messages have too many elements beside their transactions")
    return messages


def must_be_few(many: int, what: str) -> None:
    if many > limits.XML_MOST_MESSAGES:
        raise BadText(f"it has {many} {what}, and a body has at most {limits.XML_MOST_MESSAGES}")


def looks(message: Any) -> int:
    """How many times an element beside the transactions of a message is looked at."""

    def size(element: ElementTree.Element) -> int:
        return sum(1 for _ in element.iter())

    return len(message.transactions) * (size(message.body) - sum(map(size, message.transactions)))


def unless_wrong(desk: types.ModuleType, call: Callable[..., Any], *words: Any) -> Any:
    """What a call of the converter returns, or the reason why it makes no line."""
    try:
        return call(*words)
    except desk.Wrong as why:
        return shortened(str(why))


def shortened(text: str) -> str:
    return text if len(text) <= limits.XML_WHY_CHARACTERS else text[:limits.XML_WHY_CHARACTERS] + ".."


def items_of(desk: types.ModuleType, place: str, message: Any) -> list[Item]:
    """The items of a message, or of the reason why there is none."""
    lines = message if isinstance(message, str) else unless_wrong(desk, message.lines, place)
    if isinstance(lines, str):
        return [Item(place, None, lines)]
    notes = [message.notes.get(transaction) for transaction in message.transactions]
    if len(lines) == 1:
        return [Item(place, lines[0], notes[0])]
    return [Item(f"{place}, transaction {number}", line, note)
            for number, (line, note) in enumerate(zip(lines, notes), 1)]


def with_bank(desk: types.ModuleType, draft: Item, banks: dict[tuple[str, str | None], set[str | None]]) -> Item:
    """A draft whose line has its originator bank, or that has no line."""
    why = draft.line and desk.without_bank(draft.line, banks)
    return Item(draft.place, None, shortened(why)) if why else draft


def finished(drafts: list[Item], recalls: list[Any], answers: dict[Any, Any]) -> list[Item]:
    """The items of drafts, after recalls were looked up."""
    desk, items, size = desk_module(CONVERTER), [], 0
    known = desk.recalls_of(recalls + [draft.line for draft in drafts if draft.line])
    for draft in drafts:
        if draft.line:
            notes = filter(None, [draft.why, without_recall(desk, draft.line, known, answers)])
            draft = Item(draft.place, desk.json_line(draft.line), shortened("; ".join(notes)) or None)
            size += len(draft.line)
        if size > limits.XML_LINES_MOST_BYTES:
            raise BadText(f"its lines have more than {limits.XML_LINES_MOST_BYTES} bytes")
        items.append(draft)
    return items


def without_recall(desk: types.ModuleType, line: Any, recalls: dict[tuple[str, str], dict[str, set[str | None]]],
                   answers: dict[Any, Any]) -> str | None:
    """Why a line lacks the recall that it is about. None if it has it or needs none."""
    before = answers.get(identity(desk, line.keys)) if desk.wants_recall(line.keys) else None
    if before is None:
        return desk.without_recall(line, recalls)
    line.keys["OrgnlCxlId"] = before
    return None


# ---- what the site holds

def transfer_of(desk: types.ModuleType, keys: dict[str, str]) -> tuple[str, str | None]:
    return desk.bank(keys.get("DbtrAgt")), keys.get("OrgnlTxId")


def identity(desk: types.ModuleType, keys: dict[str, str]) -> tuple[tuple[str, str | None], str, str, str]:
    """What an answer is known by if it comes again: its transfer, its kind, its sender and its MsgId."""
    return transfer_of(desk, keys), keys["MsgNmId"][:len(RECALL)], desk.bank(keys.get("InstgAgt")), keys["MsgId"]


def transfers_of(drafts: list[Item]) -> list[Any]:
    """The transfers whose recalls are looked up."""
    desk = desk_module(CONVERTER)
    answers = [draft.line.keys for draft in drafts if draft.line and desk.wants_recall(draft.line.keys)]
    return sorted(transfer for transfer in {transfer_of(desk, keys) for keys in answers} if None not in transfer)


async def looked_up(transfers: list[tuple[str, str]], messages: Messages) -> tuple[list[Any], dict[Any, Any]]:
    """The recalls of some transfers as lines of the converter, and the recall of each answer that the site holds."""
    recalls: list[Any] = []
    answers: dict[Any, Any] = {}
    for place in range(0, len(transfers), limits.XML_LOOKED_UP_AT_ONCE):
        some = transfers[place:place + limits.XML_LOOKED_UP_AT_ONCE]
        texts = await asyncio.gather(*(held_on(messages, *transfer) for transfer in some))
        await asyncio.to_thread(learn_all, zip(some, texts), recalls, answers)
    return recalls, answers


def learn_all(held: Iterable[tuple[tuple[str, str], bytes]], recalls: list[Any], answers: dict[Any, Any]) -> None:
    """Learns of the texts of some transfers."""
    for transfer, text in held:
        learn(transfer, text, recalls, answers)


async def held_on(messages: Messages, bank: str, tx: str) -> bytes:
    """The text of the messages on a transfer. Nothing is held of one with a name that none can have."""
    try:
        return bytes(await messages(bank, tx))
    except Refused as refused:
        if refused.number != BAD_NAME:
            raise
        return b""


def learn(transfer: tuple[str, str], text: bytes, recalls: list[Any], answers: dict[Any, Any]) -> None:
    """Adds the recalls of a transfer, and the recall of each answer, by the text of the messages on it."""
    desk = desk_module(CONVERTER)
    for keys in map(json.loads, filter(None, text.split(b"\n"))):
        if keys["MsgNmId"].startswith(RECALL):
            parts = [part for part in desk.parts_of(keys) if transfer_of(desk, part) == transfer]
            recalls.append(desk.Line(None, {**keys, "TxInf": parts}, [None] * len(parts), keys["MsgId"]))
        elif "OrgnlCxlId" in keys:
            answers[identity(desk, keys)] = keys["OrgnlCxlId"]
