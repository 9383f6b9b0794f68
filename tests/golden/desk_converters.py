"""desk_converters.py: the converters in tools/desk/ make the lines and lists that they must, and none of what is wrong.

- from_iso20022.py makes iso20022.jsonl of the XML messages of iso20022/. Other messages are made here, by changing
these: for each
  it is said what its line is, or why there is none.
- list_from_csv.py makes lists of what spreadsheets save, and refuses those that the program refuses.
"""
import hashlib
import json
import re
from tests.golden import lists
from tests.golden.desk_tools import answers, tried
from tests.golden.shown import shell
from tests.harness import EXAMPLES, reported

XML = EXAMPLES / "desk" / "iso20022"


# ---- from_iso20022.py

def converted(folder, commands):
    """Whether the example converter makes the lines that it must of the XML messages, and none of a wrong one."""
    convert = "python3 ../tools/desk/from_iso20022.py "
    text, status = shell(convert + "--archive bank-day.archive desk/iso20022/*.xml > made.jsonl", folder, commands)
    yield reported("from_iso20022 ends well", (text, status) == ("", 0), text)
    made, right = [path.read_text(encoding="utf-8")
                   for path in (folder / "made.jsonl", folder / "desk" / "iso20022.jsonl")]
    yield reported("from_iso20022 makes the lines", made == right, made)
    text, status = shell(convert + "--help", folder, commands)
    yield reported("from_iso20022 says how it is used",
                   status == 0 and "Usage: from_iso20022.py [--quiet] [--archive ARCHIVE] FILE.." in text, text)
    right = "from_iso20022: desk/wrong-count.xml: NbOfTxs is 2, and it has 1 transactions\n"
    yield answers("from_iso20022 counts transactions", convert + "desk/wrong-count.xml", (right, 1), folder, commands)
    for name, file, why in left_out():
        (folder / "changed.xml").write_text(file, encoding="utf-8")
        right = f"from_iso20022: changed.xml: {why}\n"
        yield answers(f"from_iso20022 leaves out {name}", convert + "changed.xml", (right, 1), folder, commands)
    yield from remittance(folder, commands, convert)
    yield from dropped(folder, commands, convert)
    yield from other_files(folder, commands, convert)
    yield from chosen(folder, commands, convert)
    yield from looked_up(folder, commands, convert)
    yield from converted_alike(folder, commands, convert)
    yield from correlations(folder, commands, convert)


def xml(name):
    """The text of an XML message."""
    return (XML / name).read_text(encoding="utf-8")


def document(text):
    """The Document of a message, without the line before it."""
    return text.partition("\n")[2]


def left_out():
    """Messages that have no line, and why."""
    yield "a message without MsgId", xml("pacs.002.xml").replace("<MsgId>SC-0310-7</MsgId>",
                                                                 ""), "it has no MsgId in its GrpHdr"
    one = xml("pacs.002-late.xml")
    yield "one of one transaction", re.sub("<MsgId>.*</MsgId>", "", one), "it has no MsgId in its GrpHdr"
    yield "a recall without Id", xml("camt.056.xml").replace("<Id>HH0311-K5</Id>", ""), "it has no Id in its Assgnmt"
    recall = xml("camt.056.xml")
    first = re.search(r" *<TxInf>.*?</TxInf>\n", recall, re.DOTALL).group()
    more = "".join(first.replace("HH-R501", f"HH-M{number}") for number in range(99))
    long = recall.replace(first, first + more).replace("<NbOfTxs>2<", "<NbOfTxs>101<")
    yield "a recall of 101", long, "it has 101 transactions, and a recall has at most 100"
    yield "a file without Document", "<Batch/>\n", "it has no Document"
    declared = xml("pacs.008.xml").replace("<Document ",
                                           '<!DOCTYPE Document [<!ENTITY who "Jonas Petersen">]>\n<Document ', 1)
    yield "a document type, and so entities", declared.replace("Jonas Petersen</Nm>",
                                                               "&who;</Nm>"), "it has a document type"
    yield "a recall that lacks a transaction", recall.replace("<NbOfTxs>2<",
                                                              "<NbOfTxs>3<"), "NbOfTxs is 3, and it has 2 transactions"
    yield "a NbOfTxs that is none", recall.replace("<NbOfTxs>2<",
                                                   "<NbOfTxs>two<"), "NbOfTxs is two, and it has 2 transactions"
    amounts = xml("pacs.004.xml").replace('<RtrdIntrBkSttlmAmt Ccy="EUR">', '<RtrdIntrBkSttlmAmt Ccy="USD">')
    yield "a return in another currency", amounts, "its two amounts are in different currencies"
    group = re.sub("<TxInf>.*</TxInf>", "<OrgnlGrpInfAndCxl><GrpCxl>true</GrpCxl></OrgnlGrpInfAndCxl>", recall,
                   flags=re.DOTALL)
    yield "a recall of a whole message", re.sub("<NbOfTxs>.*</NbOfTxs>", "", group), (
        "it recalls a whole message and names no transaction: a recall of a group has no line")
    accepts = re.sub("<CxlStsRsnInf>.*?</CxlStsRsnInf>", "", xml("camt.029.xml"), flags=re.DOTALL).replace(">RJCR<",
                                                                                                           ">CNCL<")
    yield ("an answer that accepts a recall", accepts,
           "it answers CNCL: a line is for a refusal (RJCR), and a pacs.004 is the positive answer")
    elsewhere = xml("pacs.008.xml").replace("urn:iso:std:iso:20022:tech:xsd:pacs.008.001.08", "urn:bank:own")
    yield "a message of another name space", elsewhere, "own is not one of the six kinds"


# a declaration that no XML reader here has, one that it has and cannot use, and texts that are none
ENCODINGS = {"foo": b"", "euc-jp": b"", "utf-7": b"", "utf-8": b"\xff\xfe\xfa", "utf-16": b""}


def other_files(folder, commands, convert):
    """Whether a file that cannot be read takes no line of another one, and a message in another encoding is read."""
    right, _ = shell(convert + "desk/iso20022/pacs.008.xml", folder, commands)
    for encoding, more in ENCODINGS.items():
        text = xml("camt.056.xml").replace('encoding="UTF-8"', f'encoding="{encoding}"').encode() + more
        (folder / "changed.xml").write_bytes(text)
        text, status = shell(convert + "changed.xml desk/iso20022/pacs.008.xml", folder, commands)
        lines, said = text.splitlines(True)[:3], text.splitlines()[3:]
        yield reported(f"from_iso20022 reads the other file after one in {encoding}",
                       "".join(lines) == right and status == 1 and len(said) == 1
                       and said[0].startswith("from_iso20022: changed.xml: "), text)
    for encoding in ("utf-16", "iso-8859-1"):
        (folder / "changed.xml").write_bytes(xml("pacs.008.xml").replace("UTF-8", encoding).encode(encoding))
        yield answers(f"from_iso20022 reads {encoding}", convert + "changed.xml", (right, 0), folder, commands)
    (folder / "half.archive").write_text("{")
    text, status = shell(convert + "--archive half.archive desk/iso20022/pacs.008.xml", folder, commands)
    yield reported("from_iso20022 ends with 2 without its archive",
                   status == 2 and "half.archive is not an archive" in text, text)


AGENT = "<{0}><FinInstnId><BICFI>{1}</BICFI></FinInstnId></{0}>"
GROUP = "<OrgnlMsgId>{}</OrgnlMsgId><OrgnlMsgNmId>{}</OrgnlMsgNmId>"
LONG = "A" * 90

# a message, what is put in place of what, which key of which of its lines is looked at, and what it must be
CHOSEN = [
    ("a status of its own in a group", "pacs.002.xml",
     [("<TxSts>ACCP</TxSts>", "<TxSts>RJCT</TxSts>")], 1, {"TxSts": "RJCT"}),
    ("the status of the group without one", "pacs.002.xml", [("<GrpSts>ACCP<", "<GrpSts>RJCT<")], 0, {"TxSts": "RJCT"}),
    ("a reason of its own in a group with one", "pacs.002.xml", [
        ("<GrpSts>ACCP</GrpSts>", "<GrpSts>RJCT</GrpSts><StsRsnInf><Rsn><Cd>AC01</Cd></Rsn></StsRsnInf>"),
        ("<TxSts>ACCP</TxSts>", "<TxSts>RJCT</TxSts><StsRsnInf><Rsn><Cd>AM04</Cd></Rsn></StsRsnInf>")], 1,
     {"Rsn": "AM04"}),
    ("the reason of the group without one", "pacs.002.xml", [
        ("<GrpSts>ACCP</GrpSts>", "<GrpSts>RJCT</GrpSts><StsRsnInf><Rsn><Cd>AC01</Cd></Rsn></StsRsnInf>")], 0,
     {"Rsn": "AC01"}),
    ("agents of a transaction before those of the head", "pacs.008.xml", [
        ("<IntrBkSttlmAmt Ccy",
         AGENT.format("InstgAgt", "LUTEFRPP") + AGENT.format("InstdAgt", "ARNOITFF") + "<IntrBkSttlmAmt Ccy")], 0,
     {"InstgAgt": "LUTEFRPP", "InstdAgt": "ARNOITFF"}),
    ("agents of the head without others", "pacs.008.xml", [], 0, {"InstgAgt": "HANSDEHH", "InstdAgt": "SCALBEBB"}),
    ("agents of a transaction alone", "pacs.002-late.xml", [
        (AGENT.format("InstgAgt", "ALPEATWW"), ""),
        ("<OrgnlTxId>", AGENT.format("InstgAgt", "SUOMFIHH") + "<OrgnlTxId>")], 0,
     {"InstgAgt": "SUOMFIHH"}),
    ("a day of a transaction before that of the head", "pacs.008.xml", [
        ("<IntrBkSttlmAmt Ccy", "<IntrBkSttlmDt>2025-03-09</IntrBkSttlmDt><IntrBkSttlmAmt Ccy")], 0,
     {"IntrBkSttlmDt": "2025-03-09"}),
    ("a day of a return before that of its head", "pacs.004.xml", [
        ("<RtrRsnInf>", "<IntrBkSttlmDt>2025-03-11</IntrBkSttlmDt><RtrRsnInf>")], 0, {"IntrBkSttlmDt": "2025-03-11"}),
    ("an original of a transaction before that of the group", "pacs.002.xml", [
        ("<StsId>SC-S-72</StsId>", "<OrgnlGrpInf>" + GROUP.format("HH-OTHER", "pacs.008.001.07") + "</OrgnlGrpInf>")],
     1,
     {"OrgnlMsgId": "HH-OTHER", "OrgnlMsgNmId": "pacs.008.001.07"}),
    ("the answer of a transaction before that of the case", "camt.029.xml",
     [("<Conf>RJCR<", "<Conf>PDCR<")], 0, {"Conf": "RJCR"}),
    ("the answer of the case without one", "camt.029.xml", [("<TxCxlSts>RJCR</TxCxlSts>", "")], 0, {"Conf": "RJCR"}),
    ("an original beside the transactions of an answer", "camt.029.xml", [
        ("<OrgnlGrpInf>" + GROUP.format("HH0310-20", "pacs.008.001.08") + "</OrgnlGrpInf>", ""),
        ("<CxlDtls>", "<CxlDtls><OrgnlGrpInfAndSts>" + GROUP.format("HH-DETAILS",
                                                                    "pacs.008.001.08") + "</OrgnlGrpInfAndSts>")], 0,
     {"OrgnlMsgId": "HH-DETAILS", "OrgnlMsgNmId": "pacs.008.001.08"}),
    ("a recall beside the transactions of an answer is no original", "camt.029.xml", [
        ("<CxlDtls>", "<CxlDtls><OrgnlGrpInfAndSts>" + GROUP.format("HH0311-K5",
                                                                    "camt.056.001.08") + "</OrgnlGrpInfAndSts>")], 0,
     {"OrgnlMsgId": "HH0310-20"}),
    ("neither is a recall that a transaction names before its original", "camt.029.xml", [
        ("<OrgnlGrpInf>", "<OrgnlGrpInf>" + GROUP.format("HH0311-K5",
                                                         "camt.056.001.08") + "</OrgnlGrpInf><OrgnlGrpInf>")], 0,
     {"OrgnlMsgId": "HH0310-20", "OrgnlMsgNmId": "pacs.008.001.08"}),
    ("a number of transactions with zeros", "pacs.008.xml",
     [("<NbOfTxs>3<", "<NbOfTxs>003<")], 2, {"MsgId": "HH0310-20.3"}),
    ("several texts of remittance", "pacs.008.xml", [("April</Ustrd>", "April</Ustrd><Ustrd>and May</Ustrd>")], 0,
     {"Ustrd": "Rent for March & April and May"}),
    ("texts of remittance that are too long together", "pacs.008.xml", [
        ("April</Ustrd>", f"April</Ustrd><Ustrd>{LONG}</Ustrd><Ustrd>{LONG}</Ustrd>")], 0, {"Ustrd": None}),
    ("a MsgId that is cut as it is", "pacs.008.xml", [("<MsgId>HH0310-20<", f"<MsgId>{'M' * 33}<")],
     2, {"MsgId": "M" * 33 + ".3"}),
    ("a MsgId that is too long to be cut so", "pacs.008.xml",
     [("<MsgId>HH0310-20<", f"<MsgId>{'M' * 35}<")], 2, {"MsgId": "{sum}"}),
    ("a reason of the scheme", "pacs.004.xml", [("<Cd>FOCR</Cd>", "<Prtry>FRAD</Prtry>")], 0, {"Rsn": "FRAD"}),
    ("a line feed of a pretty printer as a blank", "pacs.008.xml", [
        ("Jonas Petersen</Nm>", "\n        Jonas\r\n          Petersen\n      </Nm>"),
        ("April</Ustrd>", "\n  April\n</Ustrd>")], 0,
     {"Dbtr": "Jonas Petersen", "Ustrd": "Rent for March & April"}),
    ("a blank at the ends of a text as it is", "pacs.008.xml", [("Jonas Petersen</Nm>", " Jonas Petersen </Nm>")], 0,
     {"Dbtr": " Jonas Petersen "}),
    ("a comment in a text's place", "pacs.004.xml", [("<RtrId>", "<!-- RtrId --><RtrId>")], 0, {"RtrId": "SC-RT-501"})
]


def chosen(folder, commands, convert):
    """Whether a key is that of the place which comes first."""
    for name, file, changes, number, keys in CHOSEN:
        text = xml(file)
        for old, new in changes:
            assert old in text, f"{file} has no {old}"
            text = text.replace(old, new)
        (folder / "changed.xml").write_text(text, encoding="utf-8")
        made, _ = shell(f"{convert} --archive bank-day.archive changed.xml desk/iso20022/camt.056.xml 2>/dev/null",
                        folder, commands)
        line = json.loads(made.splitlines()[number])
        end = f"-{hashlib.sha256(b'M' * 35).hexdigest()[:10].upper()}.3"
        right = {key: value.replace("{sum}", "M" * (35 - len(end)) + end) if value else value
                 for key, value in keys.items()}
        yield reported(f"from_iso20022 takes {name}", {key: line.get(key) for key in keys} == right, made)


def remittance(folder, commands, convert):
    """Whether it is said that texts of remittance have no place in a line, and that all other keys are kept."""
    text = xml("pacs.008.xml").replace("April</Ustrd>", f"April</Ustrd><Ustrd>{LONG}</Ustrd><Ustrd>{LONG[:27]}</Ustrd>",
                                       1)
    (folder / "changed.xml").write_text(text, encoding="utf-8")
    right, _ = shell(convert + "desk/iso20022/pacs.008.xml", folder, commands)
    lines = right.splitlines()
    lines[0] = re.sub(r',"Ustrd":"[^"]*"', "", lines[0])
    note = "from_iso20022: changed.xml: Ustrd is left out: its 3 texts have 141 characters together"
    made, status = shell(convert + "changed.xml", folder, commands)
    yield reported("from_iso20022 says which remittance it leaves out",
                   (made.splitlines(), status) == ([*lines, note], 1), made)


def dropped(folder, commands, convert):
    """Whether it is said what has no key, once a file with how often it is there, and nothing if nobody wants to know.
    The lines are the same."""
    right, _ = shell(convert + "desk/iso20022/pacs.008.xml", folder, commands)
    charges = '<ChrgsInf><Amt Ccy="EUR">1</Amt></ChrgsInf>'
    text = xml("pacs.008.xml").replace("<PmtId>", "<PmtId><UETR>u</UETR>").replace(
        "</Nm>", "</Nm><PstlAdr><Ctry>DE</Ctry></PstlAdr>", 1)
    (folder / "changed.xml").write_text(text.replace("<IntrBkSttlmAmt Ccy", charges + "<IntrBkSttlmAmt Ccy", 2),
                                        encoding="utf-8")
    late = xml("pacs.002-late.xml").replace("</TxInfAndSts>",
                                            2 * "<StsRsnInf><Rsn><Cd>AC04</Cd></Rsn></StsRsnInf>" + "</TxInfAndSts>")
    (folder / "second.xml").write_text(late, encoding="utf-8")
    many = late.count("<StsRsnInf>") - 1
    note = "from_iso20022: changed.xml: dropped, since no key has it: ChrgsInf 2, PstlAdr 1, UETR 3"
    made, status = shell(convert + "changed.xml", folder, commands)
    yield reported("from_iso20022 says what it drops", (made.splitlines(), status) == ([*right.splitlines(), note], 0),
                   made)
    yield answers("from_iso20022 is quiet", convert + "--quiet changed.xml", (right, 0), folder, commands)
    made, _ = shell(convert + "second.xml", folder, commands)
    note = f"from_iso20022: second.xml: dropped, since no key has it: StsRsnInf after the first {many}"
    yield reported("from_iso20022 says that it drops a second reason", note in made.splitlines(), made)


REFERENCE = "<OrgnlTxRef><DbtrAgt><FinInstnId><BICFI>HANSDEHH</BICFI></FinInstnId></DbtrAgt></OrgnlTxRef>"


def looked_up(folder, commands, convert):
    """Whether a message that names no originator bank gets it from its original, in the files or in the archive, and
    the recalls of an archive are known."""
    (folder / "changed.xml").write_text(xml("pacs.002.xml").replace(REFERENCE, ""), encoding="utf-8")
    right, _ = shell(convert + "desk/iso20022/pacs.002.xml", folder, commands)

    def banks(text):
        return [json.loads(line).get("DbtrAgt") for line in text.splitlines() if line.startswith("{")
                and "pacs.002" in line]

    shell("python3 ../tools/desk/from_iso20022.py desk/iso20022/pacs.008.xml > made.jsonl; sct_sites archive "
          "< made.jsonl > one.archive", folder, commands)
    for name, words in ("in the files", "changed.xml desk/iso20022/pacs.008.xml"), (
            "in the archive", "--archive one.archive changed.xml"):
        text, status = shell(convert + words, folder, commands)
        made = banks(text)
        yield reported(f"from_iso20022 finds the bank {name}",
                       made in (["HANSDEHH"] * 2, ["HANSDEHHXXX"] * 2) and status == 0, text)
    answer, status = shell(convert + "changed.xml", folder, commands)
    lacks = "from_iso20022: changed.xml: it names no DbtrAgt; originator banks of HH-050{} in HH0310-20: none\n"
    yield reported("from_iso20022 leaves out what names no bank",
                   (answer, status) == (lacks.format(1) + lacks.format(2), 1), answer)
    other = xml("pacs.008.xml").replace(AGENT.format("DbtrAgt", "HANSDEHH"), AGENT.format("DbtrAgt", "LUTEFRPP"))
    (folder / "second.xml").write_text(other, encoding="utf-8")
    answer, status = shell(convert + "changed.xml second.xml desk/iso20022/pacs.008.xml", folder, commands)
    yield reported("from_iso20022 chooses none of two banks",
                   banks(answer) == [] and status == 1 and "HANSDEHHXXX, LUTEFRPPXXX" in answer, answer)
    shell("python3 ../tools/desk/from_iso20022.py desk/iso20022/camt.056.xml > made.jsonl; sct_sites archive "
          "< made.jsonl > recalls.archive", folder, commands)
    text, status = shell(convert + "--archive recalls.archive desk/iso20022/camt.029.xml", folder, commands)
    yield reported("from_iso20022 finds a recall in the archive",
                   status == 0 and json.loads(text)["OrgnlCxlId"] == "HH-R502", text)
    text, status = shell(convert + "desk/iso20022/camt.029.xml", folder, commands)
    yield reported("and says so without it", status == 1 and "recalls of HH-0502: none" in text, text)


def converted_alike(folder, commands, convert):
    """Whether some files give the lines that others of the same meaning give."""
    names = ["pacs.008.xml", "camt.056.xml", "pacs.028.xml"]
    right, status = shell(convert + " ".join(f"desk/iso20022/{name}" for name in names), folder, commands)
    yield reported("three messages", status == 0 and right.count("\n") == 6, right)
    ones = list(map(xml, names))
    batch = "<Batch>" + "".join(map(document, ones)) + "</Batch>\n"
    bulk = re.sub("</?Document[^>]*>", "", batch)
    for space, element in ((f"{kind}.001.{version}", element) for kind, version, element in BULK):
        bulk = bulk.replace(f"<{element}>", f'<x:{element} xmlns:x="urn:iso:std:iso:20022:tech:xsd:{space}" '
                            f'xmlns="urn:iso:std:iso:20022:tech:xsd:{space}">')
        bulk = bulk.replace(f"</{element}>", f"</x:{element}>")
    for name, text in [("several Documents", batch), ("BIC of the old versions", batch.replace("BICFI>", "BIC>")),
                       ("a bulk file without Documents", bulk)]:
        (folder / "changed.xml").write_text(text, encoding="utf-8")
        yield answers(f"from_iso20022 reads {name}", convert + "changed.xml", (right, 0), folder, commands)
    unnamed = document(ones[0]).replace("<MsgId>HH0310-20</MsgId>", "")
    (folder / "changed.xml").write_text("<Batch>" + unnamed + "".join(map(document, ones[1:])) + "</Batch>",
                                        encoding="utf-8")
    right = "".join(right.splitlines(True)[
        3:]) + "from_iso20022: changed.xml: Document 1: it has no MsgId in its GrpHdr\n"
    yield answers("from_iso20022 goes on after a wrong Document", convert + "changed.xml", (right, 1), folder, commands)


BULK = [("pacs.008", "08", "FIToFICstmrCdtTrf"), ("camt.056", "08", "FIToFIPmtCxlReq"),
        ("pacs.028", "03", "FIToFIPmtStsReq")]

# What makes a second recall of HH-0502 of the first, and how the answer names its recall: what is put before a mark,
# and the key that the line gets.
SECOND = [("<Id>HH0311-K5</Id>", "<Id>HH0311-K6</Id>"), ("<CxlId>HH-R50", "<CxlId>HH-S50"),
          ("<CreDtTm>2025-03-11T08:30:00Z</CreDtTm>\n    </Assgnmt>",
           "<CreDtTm>2025-03-11T08:31:00Z</CreDtTm>\n    </Assgnmt>\n    <Case><Id>CASE-6</Id></Case>")]
NAMED = [("<RslvdCase><Id>CASE-6</Id></RslvdCase>", "<Sts><Conf>", "HH-S502"),
         ("<RslvdCase><Id>HH-S502</Id></RslvdCase>", "<Sts><Conf>", "HH-S502"),
         ("<RslvdCase><Id>HH0311-K5</Id></RslvdCase>", "<Sts><Conf>", "HH-R502"),
         ("<RslvdCase><Id>CASE-6</Id></RslvdCase>", "<OrgnlGrpInf>", "HH-S502"),
         ("<OrgnlGrpInfAndSts><OrgnlMsgId>HH0311-K6</OrgnlMsgId><OrgnlMsgNmId>camt.056.001.08</OrgnlMsgNmId></OrgnlGrpInfAndSts>",
          "<TxInfAndSts>", "HH-S502"),
         ("<RslvdCase><Id>CASE-9</Id></RslvdCase>", "<Sts><Conf>", None), ("", "<Sts><Conf>", None)]


def correlations(folder, commands, convert):
    """Whether an answer to one of two recalls of a transfer has the CxlId of the recall that it names."""
    second = xml("camt.056.xml")
    for old, new in SECOND:
        second = second.replace(old, new)
    (folder / "second.xml").write_text(second, encoding="utf-8")
    command = convert + "changed.xml desk/iso20022/camt.056.xml second.xml"
    lacks = "from_iso20022: changed.xml: OrgnlCxlId is left out; recalls of HH-0502: HH-R502, HH-S502"
    for named, mark, key in NAMED:
        (folder / "changed.xml").write_text(xml("camt.029.xml").replace(mark, named + mark), encoding="utf-8")
        text, status = shell(command, folder, commands)
        lines = text.splitlines()
        made = json.loads(lines[0]).get("OrgnlCxlId")
        right = (made, lines[3:], status) == (key, [] if key else [lacks], 0 if key else 1)
        yield reported(f"from_iso20022 correlates {named or 'nothing'} before {mark}", right, text)
    request = xml("pacs.028.xml").replace("<OrgnlMsgId>HH0311-K5<", "<OrgnlMsgId>HH0311-K6<")
    (folder / "changed.xml").write_text(request, encoding="utf-8")
    text, status = shell(command, folder, commands)
    right = status == 0 and json.loads(text.splitlines()[1])["OrgnlCxlId"] == "HH-S502"
    yield reported("from_iso20022 correlates a request", right, text)
    # the second recall has the MsgId of the instruction, which the answer names
    (folder / "second.xml").write_text(second.replace(">HH0311-K6<", ">HH0310-20<"), encoding="utf-8")
    (folder / "changed.xml").write_text(xml("camt.029.xml"), encoding="utf-8")
    right = (lacks + "\n", 1)
    yield answers("from_iso20022 takes no instruction for a recall", f"{command} > /dev/null", right, folder, commands)


# ---- list_from_csv.py

HEADER, ROW = "DbtrAgt;TxId;Amt;Sts\n", "LUTEFRPP;{};{};ACCEPTED\n"
LIST = 'DbtrAgt,TxId,Amt,Sts\nLUTEFRPP,"LU,10",70.00,PENDING\nLUTEFRPP,0012,1250.50,ACCEPTED\nLUTEFRPPXXX,T3,10,REJECTED\n'
SAVED = ("DbtrAgt;TxId;Amt;Sts\r\nLUTEFRPP;LU,10;70,00;PENDING\r\nLUTEFRPP;0012;1{}250,50;ACCEPTED\r\n"
         'LUTEFRPPXXX;"T3"; 10 ;REJECTED;\r\n;;;\r\n')
CSVS = {
    "semicolons": SAVED.format("").encode(), "a byte order mark": b"\xef\xbb\xbf" + SAVED.format(".").encode(),
    "Windows-1252": SAVED.format("\u00a0").encode("cp1252"),
    "UTF-8 with no-break spaces": SAVED.format("\u202f").encode(), "UTF-16": SAVED.format("'").encode("utf-16"),
    "a line sep=": b"sep=;\r\n" + SAVED.format(" ").encode(), "a line sep=|": b"sep=|\n" + SAVED.format("").replace(
        ";", "|").encode(), "tabs": SAVED.format("").replace(";", "\t").encode(), "a list": LIST.encode(),
    "blank lines": b"\n" + LIST.encode() + b"\n", "commas and quotes": LIST.replace("1250.50", '"1250,50"').encode(),
    "carriage returns": LIST.replace("\n", "\r").encode(),
    "a header in small letters": LIST.replace("DbtrAgt,TxId,Amt,Sts", "dbtragt,txid,amt,sts").encode(),
    "separators of thousands that are commas": LIST.replace("1250.50", '"1,250.50"').encode(),
    "columns in another order": b"Sts;Amt;DbtrAgt;TxId\nPENDING;70,00;LUTEFRPP;LU,10\nACCEPTED;1.250,50;LUTEFRPP;0012\n"
    b"REJECTED;10;LUTEFRPPXXX;T3\n"}
STATUSES = "ACCEPTED, REJECTED, RETURNED, PENDING, INVESTIGATED"
NO_HEADER, NO_AMOUNT = "row 1: the header is not DbtrAgt,TxId,Amt,Sts: ", "is not an amount such as 12.50: "
# the texts of files that are no list, and what is said of each
WRONG_CSVS = [
    (ROW.format("T1", "10"), NO_HEADER + "it is a transfer; write the header above it"),
    ("Banque;Transaction;Montant;Statut\n" + ROW.format("T1", "10"),
     NO_HEADER + "it is 'Banque', 'Transaction', 'Montant', 'Statut'; write these four names"),
    ("DbtrAgt;TxId;Amt;Sts;Note\n" + ROW.format("T1", "10;x"), NO_HEADER
     + "it is 'DbtrAgt', 'TxId', 'Amt', 'Sts', 'Note'; write these four names, and keep their four columns alone"),
    ("Transfers of March 10;;;\n;;;\n" + HEADER + ROW.format("T1", "10"),
     NO_HEADER + "row 2 is; delete what is above it"),
    ("DbtrAgt|TxId|Amt|Sts\n",
     NO_HEADER + "it is 'DbtrAgt|TxId|Amt|Sts'; write these four names, and keep their four columns alone"),
    ("", "the file is empty: a list has the header DbtrAgt,TxId,Amt,Sts, and a row for each transfer"),
    ("\n \n", "the file is empty: a list has the header DbtrAgt,TxId,Amt,Sts, and a row for each transfer"),
    ("<Document>", "the file is XML: a list is CSV with the header DbtrAgt,TxId,Amt,Sts"),
    ('{"MsgNmId":', "the file is JSON, as messages are: a list is CSV with the header DbtrAgt,TxId,Amt,Sts"),
    ("PK\3\4\0", "the file is a workbook or a ZIP archive: save the workbook as CSV"),
    *((HEADER + ROW.format("T1", money), f"row 2: {read!r} {NO_AMOUNT}{why}") for money, read, why in [
        ("1,250", "1,250", "it can be 1250 or 1.250"), ("1.640", "1.640", "it can be 1640 or 1.640"),
        ("0,00", "0.00", "the least is 0.01"), ("-10", "-10", "write it without a sign"),
        ("+10", "+10", "write it without a sign"), ("640,00 \u20ac", "640,00 \u20ac", "write the number alone"),
        ("EUR 10", "EUR 10", "write the number alone"), ("", "", "it is empty"),
        ("6400,001", "6400,001", "it has more than two decimals"),
        ("1234567890", "1234567890", "the most is 999999999.99")]),
    (HEADER + ROW.format("T1", "10") + ROW.format("T_2", "10"), "row 3: 'T_2' is not an identification: it has '_'"),
    *((HEADER + ROW.format(text, "10"), f"row 2: {text!r} is not an identification") for text in ("/T", "T/", "T//1")),
    (HEADER + ROW.format(36 * "T", "10"),
     f"row 2: {36 * 'T'!r} is not an identification: it has 36 characters, and 35 are the most"), (HEADER + ROW.format(
         "T1", "10").lower(), "row 2: 'lutefrpp' is not a BIC of 8 or 11 capitals and digits: write LUTEFRPP"),
    (HEADER + ROW.format("T1", "10;x"), "row 2: it has 5 fields, and not 4"),
    *((HEADER + ROW.format("T1", "10").replace("ACCEPTED", word), f"row 2: {word!r} is not one of {STATUSES}{why}")
      for word, why in [("ACCP", ": it is a code of messages; write ACCEPTED"),
                        ("RJCT", ": it is a code of messages; write REJECTED"), ("ACSC", ": it is a code of messages"),
                        ("accepted", ": write ACCEPTED"), ("Accepted", ": write ACCEPTED"), ("DONE", "")])]


def csvs(folder, commands):
    """Whether a list is made of what a spreadsheet saved, and none of what is no list."""
    make = "python3 ../tools/desk/list_from_csv.py saved.csv"
    for name, data in CSVS.items():
        (folder / "saved.csv").write_bytes(data)
        yield answers(f"list_from_csv reads {name}", make, (LIST, 0), folder, commands)
    for text, why in WRONG_CSVS:
        (folder / "saved.csv").write_text(text, encoding="utf-8")
        yield answers(f"list_from_csv says {why}", make, (f"list_from_csv: {why}\n", 1), folder, commands)
    for rows, _ in lists.BAD_LISTS:
        (folder / "saved.csv").write_bytes(lists.HEADER.encode() + rows)
        text, status = shell(make, folder, commands)
        trimmed = rows.replace(b", ", b",").replace(b",\n", b"\n") != rows  # what the script mends
        yield reported(f"list_from_csv judges {rows!r}", status == (0 if trimmed else 1), text)
    (folder / "saved.csv").write_text(HEADER + ROW.format("1,00E+05", "10"))
    right = ("list_from_csv: row 2: 1,00E+05 looks like a number that the spreadsheet changed\n"
             'DbtrAgt,TxId,Amt,Sts\nLUTEFRPP,"1,00E+05",10,ACCEPTED\n', 0)
    yield answers("list_from_csv names a number", make, right, folder, commands)


def main():
    tried([converted, csvs])


if __name__ == "__main__":
    main()
