"""made_inputs.py: inputs that are too long or too deep for tests/data/cases/, or have bytes that no text shows there,
with their answers.

Each is a Made: a name, the command, the input, what must be written to standard output, and what to standard error.
cases.py runs them.
"""
import collections
from tests.inputs import instruction

Made = collections.namedtuple("Made", "name command data text refused")

PART = 40_000  # two such parts are more than what is read in one

TRANSFER = instruction(1).rstrip("\n")
TRANSFER_WRITTEN = (
    '{"Ccy":"EUR","Cdtr":"Bo Maes","CdtrAcct":"BE68539007547034","CdtrAgt":"BANQFRPPXXX","ChrgBr":"SLEV",'
    '"CreDtTm":"2024-05-02T10:00:00Z","Dbtr":"Anna Weber","DbtrAcct":"DE89370400440532013000","DbtrAgt":"BANKDEFFXXX",'
    '"EndToEndId":"E1","InstgAgt":"BANKDEFFXXX","IntrBkSttlmAmt":"1.00","IntrBkSttlmDt":"2024-05-02","LclInstrm":"INST",'
    '"MsgId":"M1","MsgNmId":"pacs.008","SvcLvl":"SEPA","TxId":"T1"}\n')
PENDING = "T|BANKDEFFXXX|T1|PENDING\n"
REPORT = ('{"MsgNmId":"pacs.002","MsgId":"C1","CreDtTm":"2024-05-02T10:00:02Z","InstgAgt":"BANQFRPP","OrgnlMsgId":"M1",'
          '"OrgnlMsgNmId":"pacs.008","OrgnlTxId":"T1","TxSts":"ACCP","DbtrAgt":"BANKDEFF"}')
REPORT_WRITTEN = ('{"CreDtTm":"2024-05-02T10:00:02Z","DbtrAgt":"BANKDEFFXXX","InstgAgt":"BANQFRPPXXX","MsgId":"C1","MsgNmId":"pacs.002",'
                  '"OrgnlMsgId":"M1","OrgnlMsgNmId":"pacs.008","OrgnlTxId":"T1","TxSts":"ACCP"}\n')
# a recall message as it is written, before its transactions, and the members of one of these
BEFORE_LIST = '{"CreDtTm":"2024-05-03T09:00:00Z","InstgAgt":"BANKDEFFXXX","MsgId":"K1","MsgNmId":"camt.056","TxInf":['
TRANSACTION = {"Ccy": "EUR", "CxlId": "R1", "DbtrAgt": "BANKDEFFXXX", "OrgnlIntrBkSttlmAmt": "1.00", "OrgnlMsgId": "M1",
               "OrgnlMsgNmId": "pacs.008", "OrgnlTxId": "T1", "Rsn": "FRAD"}


def listed(*elements):
    """A recall message with these elements in its list."""
    return BEFORE_LIST + ",".join(elements) + "]}"


def transaction(cxl="R1", **changes):
    """A transaction with this recall."""
    members = {**TRANSACTION, "CxlId": cxl, **changes}
    return "{" + ",".join(f'"{key}":"{value}"' for key, value in members.items()) + "}"


def numbered(count):
    """Transactions of one transfer, each of another recall."""
    return [transaction(f"R{number}") for number in range(1, count + 1)]


def refused_lines(name, *lines):
    """Lines that are refused, each with its fault, and no other lines."""
    data = "".join(line + "\n" for line, _ in lines)
    refused = "".join(f"line {number}: {fault}\n" for number, (_, fault) in enumerate(lines, start=1))
    return Made(name, "status", data.encode(), b"", refused.encode())


# ---- bytes that a file does not show

# refused lines and blank ones on both sides of a message, which end in carriage returns, and no last line feed
MIXED = f"foo\r\n\n \t\r\n[]\r\n{REPORT}\r\n\n{{}}\n\r\n".encode() + b'{"MsgNmId":"pacs.002"}'
MIXED_REFUSED = b"line 1: 31\nline 4: 32\nline 7: 33\nline 9: 34 MsgId\n"


def odd_bytes():
    """Lines that end in carriage returns, and bytes that are not UTF-8."""
    yield Made("lines that end in carriage returns", "archive", MIXED, REPORT_WRITTEN.encode(), MIXED_REFUSED)
    yield Made("blank lines count", "status", b"\n\nfoo\n\r\n[]\n", b"", b"line 3: 31\nline 5: 32\n")
    yield Made("a message before a carriage return, and no last line feed", "archive", f"{REPORT}\r\n{{}}".encode(),
               REPORT_WRITTEN.encode(), b"line 2: 33\n")
    yield Made("white space around a message and between its parts", "status",
               TRANSFER.replace('"Ccy":"EUR",', '\t"Ccy"\r: "EUR"\t,\r').encode() + b" \t\r\n", PENDING.encode(), b"")
    yield Made("bytes that are not UTF-8", "status", b'\xff\n{"MsgNmId":"\xff"}\n', b"", b"line 1: 31\nline 2: 31\n")
    yield Made("a dot and a vertical tab, which are no white space", "status", b" .\n\x0b\n \t\r\n", b"",
               b"line 1: 31\nline 2: 31\n")


def after_feeds():
    """A refused line after so many line feeds that it is read in another part of the input."""
    for feeds in (65_532, 200_000):
        yield Made(f"{feeds} line feeds", "status", b"\n" * feeds + b"foo", b"", f"line {feeds + 1}: 31\n".encode())


def in_parts():
    """These lines so deep in spaces that they are read in parts. The middle, where a part begins, is once at each of
    their bytes."""
    for place in range(len(MIXED) + 1):
        data = b" " * PART + MIXED + b" " * (PART + 2 * place - len(MIXED))
        yield Made("the middle of an input at each byte of its lines", "archive", data, REPORT_WRITTEN.encode(),
                   MIXED_REFUSED)


# ---- deep and long objects

def deep():
    """Lists in lists: as a line, at a key that no message has, and in a list of transactions."""

    def nested(depth):
        return "[" * depth + "]" * depth

    def at_a_key(depth):
        return TRANSFER.replace("{", '{"Foo":' + nested(depth) + ",", 1)

    yield refused_lines("lists that nest", (nested(127), "32"), (nested(128), "31"))
    yield refused_lines("an extra key that nests", (at_a_key(126), '37 "Foo"'), (at_a_key(127), "31"))
    yield refused_lines("a list of transactions that nests", (listed(nested(125)), "46 1"), (listed(nested(126)), "31"))


def many_members():
    """Objects of many members."""
    many = TRANSFER.replace("{", "{" + '"Ccy":"USD",' * 10_000, 1)
    yield Made("a key 10,000 times, of which the last counts", "status", many.encode(), PENDING.encode(), b"")
    yield refused_lines("an extra key before these", (many.replace('"Ccy"', '"Cxy"', 1), '37 "Cxy"'))
    keys = "".join(f'"x{number}":1,"X{number}":[],' for number in range(5_000))
    one = transaction().replace('"DbtrAgt"', keys + '"DbtrAgt"')
    yield refused_lines("10,000 extra keys of a transaction", (listed(one), '56 1 37 "X0"'))


# ---- long lists of transactions

def counted():
    """Lists of one element many times, and a last one."""

    def repeated(element, count, last):
        return listed(*[element] * count, last)

    yield refused_lines("lists of 100 elements", (repeated("{}", 99, "{}"), "56 1 34 CxlId"),
                        (repeated("{}", 99, "7"), "46 100"),
                        (repeated("[]", 99, "{}"), "46 1"))
    yield refused_lines("lists of more elements", (repeated("{}", 100, "{}"), "46 0"),
                        (repeated("7", 100, "{}"), "46 0"),
                        (repeated("{}", 100, "7"), "46 0"), (repeated("{}", 100_000, "{}"), "46 0"),
                        (repeated("[[]]", 100_000, "7"), "46 0"),
                        (listed(*numbered(101)), "46 0"))
    most = listed(*numbered(100)) + "\n"
    yield Made("100 transactions", "archive", most.encode(), most.encode(), b"")


def rules():
    """Lists of transactions that break a rule, and the first of these rules by number."""
    first, second = transaction(), transaction("R2")
    other_transfer, other_bank = transaction(OrgnlTxId="T2"), transaction(DbtrAgt="BANKNL2A")
    dollars, about_return = transaction("R0", Ccy="USD"), transaction("R00", OrgnlMsgNmId="pacs.004")
    yield refused_lines("a recall that is named twice", *[(listed(*elements), "38 22") for elements in (
        [first, first], [first, transaction(OrgnlMsgNmId="pacs.008.001.08", OrgnlIntrBkSttlmAmt="8.00", Rsn="DUPL")],
        [second, first, second], [first, other_transfer, first], [first, other_bank, first],
        *[[*numbered(99), transaction(cxl)] for cxl in ("R1", "R50", "R99")])])
    yield refused_lines("dollars in any transaction", *[(listed(*elements), "38 11") for elements in (
        [first, dollars], [dollars, first], [*numbered(99), dollars], [about_return, dollars],
        [first, first, dollars])])
    yield refused_lines("an original of another kind in any transaction", *[
        (listed(*elements), "38 21") for elements in (
            [first, about_return], [about_return, first], [*numbered(99), about_return], [first, first, about_return])])
    for name, elements in (("another transfer", [first, other_transfer]), ("another bank", [first, other_bank]),
                           ("a space after the identification", [first, transaction("R1 ")]),
                           ("the first of 99 recalls on another transfer", [*numbered(99), other_transfer])):
        text = listed(*elements).replace('"BANKNL2A"', '"BANKNL2AXXX"') + "\n"
        yield Made(f"a list with {name}", "archive", listed(*elements).encode(), text.encode(), b"")


# ---- scripts

def scripts():
    """Scripts with carriage returns, and for the greatest number of sites."""

    def answers(sites):
        return "".join(f"S|{site}\n" for site in range(1, sites + 1))

    written = TRANSFER_WRITTEN + PENDING + "BANKDEFFXXX|0|0.00|0.00|0|1|0|0|0|0.00|0.00\n"
    report = REPORT.replace('"TxSts":"ACCP"', '"TxSts":"ACSP"')
    lines = ["", " \t\r", "sites 1", "", "take 9 []", "take 0 {}", 'take 1 {"MsgNmId":"pacs.002"}',
             "take 1 " + REPORT.replace('"TxSts":"ACCP",', ""), "take 1 " + report]
    refused = "line 5: 32\nline 6: 33\nline 7: 34 MsgId\nline 8: 34 TxSts\nline 9: 38 15\n"
    yield Made("messages of a script that are refused", "replay", "\n".join(lines).encode(), answers(1).encode(),
               refused.encode())
    yield Made("an event that ends in a carriage return", "replay", b"sites 3\ncut 1 -\r\n", answers(3).encode(),
               b"line 2: 64\n")
    for sites in (1, 1024):
        yield Made(f"{sites} sites and no event", "replay", f"sites {sites}".encode(), answers(sites).encode(), b"")
    script = (f"sites 2\ntake 1  {TRANSFER}\r\ntake 0 {TRANSFER}\ntake 65535 {TRANSFER}\ncut 3 -\nhand 0 1\nhand "
              "18446744073709551615 1\n")
    ends = ["TAKEN|1", *["REFUSED|44"] * 3, *["REFUSED|47"] * 2]
    text = "".join(f"E|{number}|{end}\n" for number, end in enumerate(ends, start=1)) + f"S|1\n{written}S|2\n"
    yield Made("sites and deltas that do not exist", "replay", script.encode(), text.encode(), b"")
    script = f"sites 1024\ntake 1024 {TRANSFER}\ncut 1024 -\nhand 1 700\n"
    text = answers(1024).replace("S|700\n", "S|700\n" + written).replace("S|1024\n", "S|1024\n" + written)
    text = "E|1|TAKEN|1\nE|2|CUT|1|1\nE|3|ACCEPTED|1\n" + text
    yield Made("the last of 1024 sites takes a message", "replay", script.encode(), text.encode(), b"")
    for data in (b"", b"\n\n", b"sites 3\r\n"):
        yield Made(f"{data!r} as a script", "replay", data, b"", b"fault 64\n")


def made_inputs():
    """All of these inputs."""
    for some in (odd_bytes, after_feeds, in_parts, deep, many_members, counted, rules, scripts):
        yield from some()
