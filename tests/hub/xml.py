"""xml.py: services/hub/iso.py by itself: lines of XML messages, what is looked up in a site, and bodies that mean harm.

In place of the site is a dictionary with messages that are made by hand. The right lines are those of examples/desk. No
package is needed.
"""
import asyncio
import codecs
import json
import re
import sys
import time
from tests import harness
from tests.harness import EXAMPLES, SERVICES, reported
sys.path.insert(0, str(SERVICES))
from hub import converting, iso
from hub.faults import BadText, Busy, Refused, Unable
from hub.work import Outcome, outcome_line
from hub.questions import on_transfer

DESK = EXAMPLES / "desk"
# with their lines
FILES = {"camt.029": 1, "camt.056": 1, "pacs.002-late": 1, "pacs.002": 2, "pacs.004": 1, "pacs.008": 3, "pacs.028": 2}
RIGHT = (DESK / "iso20022.jsonl").read_bytes().splitlines()
MOST_BYTES = 8 << 20  # that a client may post
QUICK, ROOM = 4, 200 << 20  # seconds of the processor in which a body is refused, and bytes of memory


def xml(name):
    """The text of an XML message without its first line."""
    return (DESK / "iso20022" / f"{name}.xml").read_text(encoding="utf-8").partition("\n")[2]


def right_of(name):
    """The lines of an XML message."""
    before = sum(list(FILES.values())[:list(FILES).index(name)])
    return RIGHT[before:before + FILES[name]]


def batch(*texts):
    return f"<Batch>{''.join(texts)}</Batch>".encode()


def changed(text, *pairs):
    for old, new in pairs:
        assert old in text, f"there is no {old}"
        text = text.replace(old, new)
    return text


# ---- a site

class Site:
    """In place of the messages that a site holds. It refuses as the site does, and keeps what it was asked."""

    def __init__(self, *lines, fault=None):
        self.lines, self.asked, self.fault = lines, [], fault

    async def __call__(self, bank, tx):
        self.asked.append((bank, tx))
        on_transfer(bank, tx)
        if self.fault:
            raise self.fault
        if not re.fullmatch("[A-Z0-9]{8}(?:[A-Z0-9]{3})?", bank):
            raise Refused(b"73 1")
        if not re.fullmatch("[A-Za-z0-9-]{1,35}", tx):
            raise Refused(b"73 2")

        def is_on(part):
            return (part["DbtrAgt"], part["OrgnlTxId"]) == (bank.ljust(11, "X"), tx)

        held = [keys for keys in self.lines if any(map(is_on, keys.get("TxInf", [keys])))]
        return bytearray("".join(f"{json.dumps(keys)}\n" for keys in held).encode())


def recall(message, *pairs):
    """A recall of transfers of HANSDEHH, each with its CxlId, as a site holds it."""
    parts = [{"OrgnlMsgId": "HH0310-20", "OrgnlTxId": tx, "DbtrAgt": "HANSDEHHXXX", "CxlId": its} for tx, its in pairs]
    head = {"MsgNmId": "camt.056.001.08", "MsgId": message, "InstgAgt": "HANSDEHHXXX"}
    return {**head, **(parts[0] if len(parts) == 1 else {"TxInf": parts})}


FIRST = recall("HH0311-K5", ("HH-0501", "HH-R501"), ("HH-0502", "HH-R502"))
SECOND = recall("HH0311-K6", ("HH-0502", "HH-S502"))
ANSWER = {"MsgNmId": "camt.029.001.09", "MsgId": "SC-0312-2", "InstgAgt": "SCALBEBBXXX",
          "OrgnlTxId": "HH-0502", "DbtrAgt": "HANSDEHHXXX",
          "OrgnlCxlId": "HH-R502"}
LACKS = RIGHT[0].replace(b',"OrgnlCxlId":"HH-R502"', b"")
BOTH = "OrgnlCxlId is left out; recalls of HH-0502: HH-R502, HH-S502"
NONE = "OrgnlCxlId is left out; recalls of HH-0502: none"


def items_of(body, site=None):
    """The items of a body, as tuples."""
    return list(map(tuple, asyncio.run(iso.lines_of(iso.drafts_of(body), site or Site()))))


def lines_in(items):
    return [line for _, line, _ in items]


def fault_of(body, site=None):
    """What is raised in place of items, or None."""
    try:
        items_of(body, site)
    except (BadText, Refused, Busy, Unable) as fault:
        return fault
    return None


def is_refused(body, why, site=None):
    fault = fault_of(body, site)
    return isinstance(fault, BadText) and why in str(fault)


def is_quick(call):
    """Whether a call returns something true, and takes little of the processor in all threads."""
    began = time.process_time()
    return bool(call()) and time.process_time() - began < QUICK


# ---- lines

PLACES = ["message 1", "message 2", "message 3", "message 4, transaction 1", "message 4, transaction 2", "message 5",
          "message 6, transaction 1", "message 6, transaction 2", "message 6, transaction 3",
          "message 7, transaction 1", "message 7, transaction 2"]


def makes_lines():
    """Lines of XML messages, and their places."""
    for name, many in FILES.items():
        places = [f"message 1, transaction {number}" for number in range(1, many + 1)] if many > 1 else ["message 1"]
        right = [(place, line, None) for place, line in zip(places, right_of(name))]
        yield f"lines of {name}", items_of(xml(name).encode(), Site(FIRST)) == right
    items = items_of(batch(*map(xml, FILES)))
    yield "lines of all of them in one body", items == [(place, line, None) for place, line in zip(PLACES, RIGHT)]

    def head(name):
        return f'<?xml version="1.0" encoding="{name}"?>' + xml("pacs.008")

    wide = head("UTF-16")
    little, big = wide.encode("utf-16-le"), wide.encode("utf-16-be")
    encoded = [codecs.BOM_UTF16_LE + little, codecs.BOM_UTF16_BE + big, little, big,
               codecs.BOM_UTF8 + xml("pacs.008").encode(),
               head("utf-8").encode(), head("ISO-8859-1").encode("latin-1")]
    yield "a body in each encoding", [lines_in(items_of(body)) for body in encoded] == [right_of("pacs.008")] * 7
    body = changed(xml("pacs.004"), ("HH-0501", "HH-<!-- x -->05<?x y?><![CDATA[01]]>")).encode()
    yield "a text with a comment, an instruction and CDATA in it", lines_in(items_of(body, Site(FIRST))) == right_of(
        "pacs.004")


WRONG_COUNT = "NbOfTxs is 2, and it has 1 transactions"


def leaves_out():
    """Messages without a line, and lines without an element."""
    wrong = (DESK / "wrong-count.xml").read_text(encoding="utf-8").partition("\n")[2]
    items = items_of(batch(xml("pacs.002-late"), wrong, '<Document xmlns="urn:x:own"/>', xml("pacs.008")))
    right = [("message 1", right_of("pacs.002-late")[0], None), ("message 2", None, WRONG_COUNT),
             ("message 3", None, "own is not one of the six kinds"),
             *((f"message 4, transaction {number}", line, None) for number, line in enumerate(right_of("pacs.008"), 1))]
    yield "a message without a line takes no line of another", items == right
    amounts = changed(xml("pacs.004"), ('<RtrdIntrBkSttlmAmt Ccy="EUR">', '<RtrdIntrBkSttlmAmt Ccy="USD">'))
    yield "two currencies", items_of(amounts.encode()) == [("message 1", None,
                                                            "its two amounts are in different currencies")]
    texts = f"<RmtInf>{2 * ('<Ustrd>' + 90 * 'A' + '</Ustrd>')}</RmtInf>"
    items = items_of(changed(xml("pacs.008"), ("<Dbtr><Nm>Zeynep", f"{texts}<Dbtr><Nm>Zeynep")).encode())
    notes = [None, "Ustrd is left out: its 2 texts have 181 characters together", None]
    right = [(f"message 1, transaction {number}", *rest)
             for number, rest in enumerate(zip(right_of("pacs.008"), notes), 1)]
    yield "what is left out of a transaction is said of it alone", items == right
    (_, _, why), = items_of(changed(xml("pacs.008"), ("<NbOfTxs>3<", f"<NbOfTxs>{'9' * 5000}<")).encode())
    yield "a reason is short", why == f"NbOfTxs is {'9' * 489}.."


# ---- what is looked up

def looks_up_recalls():
    """The recall of an answer, in the site and in the body."""
    site, body = Site(FIRST), xml("camt.029").encode()
    yield "a recall of the site", items_of(body, site) == [("message 1", RIGHT[0], None)]
    yield "it is asked by the complete BIC", site.asked == [("HANSDEHHXXX", "HH-0502")]
    site = Site(FIRST)
    items_of(batch(*map(xml, ("pacs.002", "pacs.028", "camt.029", "camt.056", "pacs.008", "pacs.004"))), site)
    right = [("HANSDEHHXXX", "HH-0501"), ("HANSDEHHXXX", "HH-0502")]
    yield "a transfer is asked about once, and only if an answer is about its recall", site.asked == right
    sites = [Site(), Site(recall("HH0311-K5", ("HH-0501", "HH-R501")))]
    yield "no recall, or one of another transfer", [items_of(body, site)
                                                    for site in sites] == [[("message 1", LACKS, NONE)]] * 2
    yield "two recalls", items_of(body, Site(FIRST, SECOND)) == [("message 1", LACKS, BOTH)]
    body = batch(xml("camt.029"), xml("camt.056"))
    why = "OrgnlCxlId is left out; recalls of HH-0502: HH-S502, HH-R502"
    yield "one of the body and one of the site", items_of(body, Site(SECOND))[0] == ("message 1", LACKS, why)
    yield "one that both have", items_of(body, Site(FIRST))[0] == ("message 1", RIGHT[0], None)
    names = [f"HH-{number}" for number in range(40)]
    body = batch(*(changed(xml("camt.029"), ("HH-0502", name)) for name in names))
    lines = lines_in(items_of(body, Site(*(recall(f"K{name}", (name, f"R{name}")) for name in names))))
    yield "recalls of many transfers", [json.loads(line)["OrgnlCxlId"] for line in lines] == [f"R{name}"
                                                                                              for name in names]
    for named, its in ("HH-S502", b"HH-S502"), ("HH0311-K6", b"HH-S502"), ("HH0311-K5", b"HH-R502"):
        body = changed(xml("camt.029"), ("<Sts>", f"<RslvdCase><Id>{named}</Id></RslvdCase><Sts>")).encode()
        yield f"the one that is named {named}", lines_in(items_of(body, Site(FIRST, SECOND))) == [
            RIGHT[0].replace(b"HH-R502", its)]


def knows_repeats():
    """An answer that is sent again has the recall that it had, whatever recalls came meanwhile."""
    body = xml("camt.029").encode()
    yield "an answer that is sent again", items_of(body, Site(FIRST, ANSWER, SECOND)) == [("message 1", RIGHT[0], None)]
    others = [{**ANSWER, "MsgId": "SC-0312-3"}, {**ANSWER, "InstgAgt": "HANSDEHHXXX"},
              {**ANSWER, "MsgNmId": "pacs.004.001.09"}]
    yield "another answer", [items_of(body, Site(FIRST, other, SECOND))
                             for other in others] == [[("message 1", LACKS, BOTH)]] * 3
    # the first request is about the transfer, and the second about its recall
    one = changed(xml("pacs.028"), ("HH-0503", "HH-0502"))
    held = {**ANSWER, "MsgNmId": "pacs.028.001.03", "MsgId": "HH0311-Q3.1", "InstgAgt": "HANSDEHHXXX"}
    yield "a message about no recall gets none", b"OrgnlCxlId" not in lines_in(items_of(one.encode(),
                                                                                        Site(FIRST, held)))[0]


TX, AGENT = "<OrgnlTxId>{}<", "<DbtrAgt><FinInstnId><BICFI>{}<"
ODD = [("a line feed in an identification", TX, "HH-0502", "HH-0502&#10;? vector", "HH-0502 ? vector"),
       ("no identification", TX, "HH-0502", "HH_0502", "HH_0502"),
       ("a line feed in a bank", AGENT, "HANSDEHH", "HANS&#10;EHH", "HANS EHHXXX"),
       ("no bank", AGENT, "HANSDEHH", "Hanseatic", "Hanseatic")]


def looks_up_oddly():
    """Names that are none, of which a line feed is a blank, and a site that cannot answer."""
    for name, element, old, new, its in ODD:
        site = Site(FIRST)
        body = changed(xml("camt.029"), (element.format(old), element.format(new))).encode()
        (_, line, why), = items_of(body, site)
        tx = its if element == TX else "HH-0502"
        right = b"\n" not in line and "OrgnlCxlId" not in json.loads(
            line) and why == f"OrgnlCxlId is left out; recalls of {tx}: none"
        yield name, right and len(site.asked) == 1 and its in site.asked[0]
    site = Site(FIRST)
    lines = lines_in(items_of(changed(xml("camt.029"), ("<OrgnlTxId>HH-0502</OrgnlTxId>", "")).encode(), site))
    yield "an answer about no transfer", not site.asked and "OrgnlTxId" not in json.loads(lines[0])
    faults = [Refused(b"65"), Refused(b"72"), Busy()]
    yield "a site that cannot answer", [fault_of(xml("camt.029").encode(), Site(FIRST, fault=fault))
                                        for fault in faults] == faults
    before, iso.CONVERTER = iso.CONVERTER, "no_converter"
    word, why = converting.made_of(xml("camt.029").encode())
    yield "a desk without its converter", word == converting.FAILED and "no_converter" in why
    iso.CONVERTER = before


REFERENCE = "<OrgnlTxRef><DbtrAgt><FinInstnId><BICFI>HANSDEHH</BICFI></FinInstnId></DbtrAgt></OrgnlTxRef>"


def looks_for_banks():
    """The originator bank of an answer that names none: in the body alone."""
    unnamed, site = changed(xml("pacs.002"), (REFERENCE, "")), Site(FIRST)
    lacks = "it names no DbtrAgt; originator banks of HH-050{} in HH0310-20: none"
    right = [(f"message 1, transaction {number}", None, lacks.format(number)) for number in (1, 2)]
    yield "an answer without its bank", items_of(unnamed.encode(), site) == right and not site.asked
    right = [{**json.loads(line), "DbtrAgt": "HANSDEHHXXX"} for line in right_of("pacs.002")]
    items = items_of(batch(unnamed, xml("pacs.008")))
    yield "and with its instruction in the body", [json.loads(line) for line in lines_in(items)[:2]] == right
    other = changed(xml("pacs.008"), ("<DbtrAgt><FinInstnId><BICFI>HANSDEHH<", "<DbtrAgt><FinInstnId><BICFI>LUTEFRPP<"))
    items = items_of(batch(unnamed, xml("pacs.008"), other))
    yield "two banks", items[0] == ("message 1, transaction 1", None,
                                    lacks.format(1).replace("none", "HANSDEHHXXX, LUTEFRPPXXX"))
    answer, site = changed(xml("pacs.004"), (REFERENCE, "")), Site(FIRST)
    (_, line, why), *_ = items_of(batch(answer, xml("pacs.008")), site)
    right = ("HH-R501", None, [("HANSDEHHXXX", "HH-0501")])
    yield "the recall of the bank that was found", (json.loads(line)["OrgnlCxlId"], why, site.asked) == right


# ---- bodies that mean harm

LAUGHS = "".join(f'<!ENTITY {chr(98 + number)} "{f"&{chr(97 + number)};" * 10}">' for number in range(12))
DEPTH, TAGS, FAR = "more than 30 elements in each other", "more than 500000 tags", "a tag or a text of more than 8192"

# texts that are no XML that a body may have, each with a part of the reason
UNREAD = {
    "nothing": ("", "it is no XML: no element found"),
    "no XML": ("{}", "it is no XML: not well-formed"),
    "half of one": ("<Document>", "it is no XML: no element found"),
    "two in a row": ("<a/><b/>", "it is no XML: junk after document element"),
    "no Document": ("<Batch/>", "it has no Document"),
    "a document type": ("<!DOCTYPE a><a/>", "it has a document type"),
    "an entity of a file": ('<!DOCTYPE a [<!ENTITY x SYSTEM "file:///etc/passwd">]><a>&x;</a>',
                            "it has a document type"),
    "a billion laughs": (f'<!DOCTYPE a [<!ENTITY a "{"a" * 10}">{LAUGHS}]><a>&m;</a>', "it has a document type"),
    "an entity that is nowhere": ("<a>&who;</a>", "it is no XML: undefined entity"),
    "31 elements in each other": ("<a>" * 31 + "</a>" * 31, DEPTH),
    "31 of them after a comment": ("<a><!-- <b -->" + "<b>" * 30, DEPTH),
    "a long name": (f"<{'a' * 8193}/>", FAR),
    "a long text": (f"<a>{'x' * 8191}</a>", FAR),
    "a long text in pieces": (f"<a>{'<![CDATA[<x]]>' * 5000}</a>", FAR),
    "many names": ("<a>" + "".join(f"<b{number}/>" for number in range(1000)) + "</a>",
                   "more than 1000 different names"),
    "many names of attributes": ("<a>" + "".join(f'<b c{number}=""/>' for number in range(999)) + "</a>",
                                 "more than 1000 different names"),
    "a long name space": (f'<a xmlns:p="{"u" * 201}"/>', "a name space of more than 200"),
    "a long one of many elements": (f'<a xmlns:p="{"u" * 8000}">' + "<p:a>" * 20_000, "a name space of more than 200"),
    "1,001 messages": (f"<Batch>{'<Document/>' * 1001}</Batch>", "it has 1001 messages, and a body has at most 1000")
}


def large():
    """More of them: large ones, and messages."""
    yield "elements in each other without an end", "<a>" * 490_000, DEPTH
    yield "8 MiB of elements", "<a>" + "<b/>" * (MOST_BYTES // 4 - 2) + "</a>", TAGS
    yield "8 MiB of attributes", "<a" + "".join(f' b{number}=""' for number in range(760_000)) + "/>", TAGS
    yield "100,000 elements with an attribute", "<a>" + '<a b=""/>' * 100_000 + "</a>", "it has no Document"
    yield "8 MiB of ends of lines", "<a>" + "\n" * (MOST_BYTES - 7) + "</a>", TAGS
    yield "500,000 ends of lines in the form of old computers", "<a>" + "\r" * 500_000 + "</a>", TAGS
    yield "500,000 references", "<a>" + "&lt;" * 500_000 + "</a>", TAGS
    yield "an attribute of 8 MiB", f"<a b='{'>' * (MOST_BYTES - 9)}'/>", FAR
    yield "1,001 transactions", answers_of(1001), "it has 1001 transactions, and a body has at most 1000"
    yield "1,001 in two messages", f"<Batch>{answers_of(600)}{answers_of(401)}</Batch>", "it has 1001 transactions"
    yield "1,001 of recalls", f"<Batch>{recalls_of(91) * 11}</Batch>", "it has 1001 transactions"
    yield "elements beside many transactions", answers_of(1000, "<OrgnlGrpInf/>"
                                                          * 300), "too many elements beside their transactions"
    yield "lines that are long together", instructions_of(1000, 8100, 8100), "its lines have more than 8388608 bytes"


def answers_of(many, beside=""):
    """An XML answer with many transactions, and what is beside them."""
    ones = "<TxInfAndSts><OrgnlTxId>HH-0502</OrgnlTxId></TxInfAndSts>" * many
    body = f"<RsltnOfInvstgtn><Assgnmt><Id>A</Id></Assgnmt>{beside}<CxlDtls>{ones}</CxlDtls></RsltnOfInvstgtn>"
    return f'<Document xmlns="urn:iso:std:iso:20022:tech:xsd:camt.029.001.09">{body}</Document>'


def instructions_of(many, *lengths):
    """An XML message with many instructions, and texts of some lengths in its head."""
    texts = "".join(f"<{name}>{'x' * length}</{name}>" for name, length in zip(("CreDtTm", "IntrBkSttlmDt"), lengths))
    body = f"<FIToFICstmrCdtTrf><GrpHdr><MsgId>A</MsgId>{texts}</GrpHdr>{'<CdtTrfTxInf><x/></CdtTrfTxInf>' * many}</FIToFICstmrCdtTrf>"
    return f'<Document xmlns="urn:iso:std:iso:20022:tech:xsd:pacs.008.001.08">{body}</Document>'


def recalls_of(many):
    """An XML recall with many transactions."""
    return changed(xml("camt.056"), ("<NbOfTxs>2<", f"<NbOfTxs>{many}<"),
                   ("</Undrlyg>", "<TxInf/>" * (many - 2) + "</Undrlyg>"))


# bodies in encodings that they may not be in, each with a part of the reason
ENCODED = {
    "an encoding that there is not": (b'<?xml version="1.0" encoding="foo"?><a/>', "it declares the encoding foo"),
    "one of several bytes": (b'<?xml version="1.0" encoding="euc-jp"?><a/>', "it declares the encoding euc-jp"),
    "UTF-7": (b'<?xml version="1.0" encoding="utf-7"?><a/>', "it declares the encoding utf-7"),
    "UTF-16 that is none": (b'<?xml version="1.0" encoding="UTF-16"?><a/>', "it declares the encoding utf-16"),
    "UTF-8 that is none": (b"<a>\xff\xfe</a>", "it is no text in utf-8"),
    "ASCII that is none": (b"<?xml version='1.0' encoding='US-ASCII'?><a>\xc3\xa9</a>", "it is no text in us-ascii"),
    "half of UTF-16": (codecs.BOM_UTF16_LE + b"<\0a\0/", "it is no text in utf-16"),
    "UTF-32": ("<a/>".encode("utf-32"), "it is no XML"),
    "a zero": (b"<a>\0</a>", "it is no XML"),
    "a long attribute in UTF-16": (codecs.BOM_UTF16_LE + f"<a b='{chr(0x3C3C) * 9000}'/>".encode("utf-16-le"), FAR),
}


def bodies():
    """Bodies that cannot be read, each with its name and a part of the reason."""
    yield from ((name, text.encode(), why) for name, (text, why) in UNREAD.items())
    yield from ((name, text.encode(), why) for name, text, why in large())
    yield from ((name, *rest) for name, rest in ENCODED.items())


def refuses():
    """Bodies that cannot be read: each is refused soon, and before anything is asked."""
    for name, body, why in bodies():
        site = Site(FIRST)
        yield name, len(body) <= MOST_BYTES and is_quick(lambda: is_refused(body, why, site)) and not site.asked


def takes_as_much():
    """Bodies that are just not too much."""
    items = items_of(f"<Batch>{'<Document/>' * 1000}</Batch>".encode())
    yield "1,000 messages", len(items) == 1000 and items[999] == ("message 1000", None,
                                                                  "its name space is not one of the six kinds")
    items = items_of(instructions_of(1000, 8000).encode())
    yield "1,000 transactions", [json.loads(line)["MsgId"]
                                 for line in lines_in(items)] == [f"A.{number}" for number in range(1, 1001)]
    yield "a text of 8,190 characters", fault_of(f"<a>{'x' * 8190}</a>".encode()).args == ("it has no Document",)
    body = changed(xml("pacs.002-late"), ("<TxSts>", "<x>" * 27 + "</x>" * 27 + "<TxSts>")).encode()
    yield "30 elements in each other", lines_in(items_of(body)) == right_of("pacs.002-late")
    for name, ones in ("many comments", "x<!---->"), ("many instructions", "x<?x?>"):
        yield name, is_quick(lambda: is_refused(f"<a>{ones * 490_000}</a>".encode(), FAR))
    named = "<OrgnlGrpInf><OrgnlMsgId>{}</OrgnlMsgId><OrgnlMsgNmId>camt.056</OrgnlMsgNmId></OrgnlGrpInf>"
    names = "".join(map(named.format, range(60_000)))
    recalls = [recall(f"K{number}", ("HH-0502", f"R{number}")) for number in range(8000)]
    body, why = (changed(xml("camt.029"), ("<Sts>", names + "<Sts>")).encode(),
                 f"{BOTH.partition(': ')[0]}: R0, R1, R2, ")
    yield "many names and many recalls", is_quick(lambda: items_of(body, Site(*recalls))[0][2].startswith(why))


CHILD = """
import sys
import time
from tests.hub import xml
sys.exit(0 if all(xml.is_refused(text.encode(), why) for _, text, why in xml.large()) else 1)
"""


def has_room():
    """The large ones again, in a process with little memory."""
    done = harness.run([sys.executable, "-c", CHILD], memory=ROOM, cwd=harness.TOP)
    yield f"they need less than {ROOM >> 20} MiB", done.status == 0


# ---- processes

async def converts():
    """Whether bodies are read in other processes, each by one, and what becomes of those that are ended."""
    its, body = converting.Converters(lambda: 4), xml("pacs.002-late").encode()
    drafts = await asyncio.gather(*(its.drafts(name, body) for name in "aaab"))
    found = [lines_in(await iso.lines_of(one, Site())) for one in drafts]
    yield "four bodies of two clients", found == [right_of("pacs.002-late")] * 4
    first = [child.pid for child in its.idle]
    yield "two processes read them", len(first) == 2
    refused = await asyncio.gather(its.drafts("a", b"<x"), its.drafts("a", b"<!DOCTYPE x><x/>"), return_exceptions=True)
    yield "a body that is none is refused", [type(one) for one in refused] == [BadText] * 2 and str(
        refused[1]) == "it has a document type"
    for child in its.idle:
        child.kill()
        await child.wait()
    yield "a process that was ended is started anew", lines_in(await iso.lines_of(await its.drafts("a", body),
                                                                                  Site())) == right_of("pacs.002-late")
    last = its.idle[0]
    reads = asyncio.ensure_future(its.drafts("a", changed_often(body)))
    while its.idle:
        await asyncio.sleep(0.001)
    last.kill()
    fault = (await asyncio.gather(reads, return_exceptions=True))[0]
    yield "who waits for one that is ended is told so", isinstance(fault, Unable)
    its.end()


def changed_often(body):
    """A body that takes a while."""
    return b"<Batch>" + body * 900 + b"</Batch>"


def converts_beside():
    async def all_of():
        return [one async for one in converts()]
    return asyncio.run(all_of())


# ---- answers

OUTCOMES = [
    (iso.Item("message 1", b"{}", None), Outcome("TAKEN", 7, ""),
     '{"message":"message 1","outcome":"TAKEN","number":7}\n'),
    (iso.Item("message 2", b"{}", None), Outcome("REPEAT", 0, ""), '{"message":"message 2","outcome":"REPEAT"}\n'),
    (iso.Item("message 3, transaction 2", b"{}", NONE), Outcome("REFUSED", 34, "34 OrgnlCxlId"),
     '{"message":"message 3, transaction 2","outcome":"REFUSED","code":34,"name":"Missing","key":"OrgnlCxlId",'
     '"why":"34 OrgnlCxlId (Missing: a key that the kind needs is absent)",'
     '"note":"OrgnlCxlId is left out; recalls of HH-0502: none"}\n'),
    (iso.Item("message 4", b"{}", None), Outcome("WAITING", 0, "2026-11-29T18:00:00Z"),
     '{"message":"message 4","outcome":"WAITING","until":"2026-11-29T18:00:00Z"}\n'),
    (iso.Item("message 5", b"{}", None), Outcome("FORBIDDEN", 0, "InstgAgt is not LUTEFRPPXXX"),
     '{"message":"message 5","outcome":"FORBIDDEN","why":"InstgAgt is not LUTEFRPPXXX"}\n'),
    (iso.Item("message 6", None, 'a "\n" \u2028'), None,
     '{"message":"message 6","outcome":"UNREAD","why":"a \\"\\n\\" \\u2028"}\n'),
    (iso.Item("message 7", b"{}", "x\ny"), Outcome("TAKEN", 18446744073709551615, ""),
     '{"message":"message 7","outcome":"TAKEN","number":18446744073709551615,"note":"x\\ny"}\n')
]


def answers():
    for one, outcome, line in OUTCOMES:
        yield f"the answer {outcome.word if outcome else 'UNREAD'} of {one.place}", iso.outcome_line(one,
                                                                                                     outcome) == line
    yield "the answer to a line of JSON", outcome_line(
        3, OUTCOMES[0][1]) == '{"line":3,"outcome":"TAKEN","number":7}\n'


def main():
    checks = [makes_lines, leaves_out, looks_up_recalls, knows_repeats, looks_up_oddly, looks_for_banks,
              refuses, takes_as_much, has_room,
              converts_beside, answers]
    harness.end_of([reported(name, right) for each in checks for name, right in each()])


if __name__ == "__main__":
    main()
