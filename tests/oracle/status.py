"""What the program must answer for an input, by the definitions alone: text, refused lines, exit status.

Usage: tests/oracle/status.py status|archive|totals < MESSAGES

It takes the words of the program, writes what the program must write, and ends as it must. It has no help, and is for
small inputs.
"""
import contextlib
import json
import os
import re
import sys

IDSET = r"[A-Za-z0-9/\-?:().,'+ ]"


class Refused(Exception):
    pass


# ---- element types: text -> written form (an amount: cents), or None

def bic(s):
    if re.fullmatch(r"[A-Z0-9]{4}[A-Z]{2}[A-Z0-9]{2}([A-Z0-9]{3})?", s):
        return s if len(s) == 11 else s + "XXX"


def iban(s):
    if not re.fullmatch(r"[A-Z]{2}[0-9]{2}[A-Za-z0-9]{1,30}", s):
        return None
    t = s.upper()
    number = int("".join(str(int(c, 36)) for c in t[4:] + t[:4]))
    return t if number % 97 == 1 else None


def stamp(s):
    return s if re.fullmatch(IDSET + "{1,35}", s) else None


def id35(s):
    ok = stamp(s) is not None and s[0] != "/" and s[-1] != "/" and "//" not in s
    return s if ok else None


def amount(s):
    m = re.fullmatch(r"([0-9]{1,9})(?:\.([0-9]{1,2}))?", s)
    if not m:
        return None
    cents = 100 * int(m.group(1)) + int((m.group(2) or "").ljust(2, "0"))
    return cents if cents >= 1 else None


def day(s):
    return s if re.fullmatch(r"[0-9]{4}-[0-9]{2}-[0-9]{2}", s) else None


def code4(s):
    return s if re.fullmatch(r"[A-Z0-9]{1,4}", s) else None


def name(s):
    return s if 1 <= len(s) <= 70 else None


def remittance(s):
    return s if 1 <= len(s) <= 140 else None


def reason(s):
    return code4(s)


NUMBER = {bic: 1, iban: 2, id35: 3, amount: 4, day: 5, name: 6, remittance: 6, stamp: 7, code4: 9, reason: 9}

# ---- the key tables, "?" after an optional key: the head of each message, and what each kind has after it

HEAD = [("MsgNmId", id35), ("MsgId", id35), ("CreDtTm", stamp), ("InstgAgt", bic), ("InstdAgt?", bic)]
ORIGINAL = [("OrgnlMsgId", id35), ("OrgnlMsgNmId", id35), ("OrgnlEndToEndId?", id35), ("OrgnlTxId", id35)]
TABLE = {
    "pacs.008": [
        ("IntrBkSttlmDt", day), ("SvcLvl", code4), ("LclInstrm", code4), ("InstrId?", id35), ("EndToEndId", id35),
        ("TxId", id35), ("IntrBkSttlmAmt", amount), ("Ccy", code4), ("ChrgBr", code4), ("AccptncDtTm?", stamp),
        ("Dbtr", name), ("DbtrAcct", iban), ("DbtrAgt", bic), ("CdtrAgt", bic), ("Cdtr", name), ("CdtrAcct", iban),
        ("Ustrd?", remittance)],
    "pacs.002": ORIGINAL + [("TxSts", code4), ("Rsn?", reason), ("DbtrAgt", bic)],
    "pacs.028": ORIGINAL + [("OrgnlCxlId?", id35), ("DbtrAgt", bic)],
    "camt.056": [("CxlId", id35)] + ORIGINAL + [
        ("OrgnlIntrBkSttlmAmt", amount), ("Ccy", code4), ("OrgnlIntrBkSttlmDt?", day), ("Rsn", reason),
        ("DbtrAgt", bic)],
    "pacs.004": [("RtrId", id35), ("OrgnlCxlId", id35)] + ORIGINAL + [
        ("OrgnlIntrBkSttlmAmt", amount), ("RtrdIntrBkSttlmAmt", amount), ("Ccy", code4), ("IntrBkSttlmDt", day),
        ("Rsn", reason), ("DbtrAgt", bic)],
    "camt.029": [("CxlStsId", id35), ("OrgnlCxlId", id35)] + ORIGINAL + [
        ("Conf", code4), ("Rsn", reason), ("DbtrAgt", bic)],
}

# A recall may have a list of transactions in place of one: the key of the list, and how many it may have
RECALL, LIST, MOST_TRANSACTIONS = "camt.056", "TxInf", 100

# ---- the reasons that are usual for a rejection, and for the refusal of a recall

REJECTIONS = set("""
    AB05 AB06 AB07 AB08 AB09 AB10 AC01 AC04 AC06 AG01 AG02 AG09 AG10 AG11 AM02 AM04 AM05 AM09 AM23 BE04 FF01 MD07
    MS02 MS03 RC01 RR01 RR02 RR03 RR04 TM01""".split())
REFUSALS = set("AC04 AM04 ARDT CUST LEGL NOAS NOOR".split())


def kind_named(s):
    for kind in TABLE:
        if re.fullmatch(re.escape(kind) + r"(\.[0-9]{3}\.[0-9]{2})?", s):
            return kind


# ---- one line

class Object(dict):
    """A JSON object. Of two members at one key the last counts. All members, as they are written, are in `written`."""

    def __init__(self, written):
        super().__init__(written)
        self.written = written


def depth(v):
    if isinstance(v, Object):
        return 1 + max([depth(x) for _, x in v.written], default=0)
    if isinstance(v, list):
        return 1 + max([depth(x) for x in v], default=0)
    return 0


def has_surrogate(v):
    if isinstance(v, str):
        return any(0xD800 <= ord(c) <= 0xDFFF for c in v)
    if isinstance(v, Object):
        return any(has_surrogate(k) or has_surrogate(x) for k, x in v.written)
    return isinstance(v, list) and any(map(has_surrogate, v))


def no_constant(_):
    raise ValueError("constant")


def finite(s):
    x = float(s)
    if x in (float("inf"), float("-inf")):
        raise ValueError("range")
    return x


def parse(line):
    try:
        v = json.loads(line.decode("utf-8"), object_pairs_hook=Object, parse_constant=no_constant, parse_float=finite,
                       parse_int=finite)
    except (ValueError, RecursionError):
        raise Refused("31")
    if depth(v) > 127 or has_surrogate(v):
        raise Refused("31")
    return v


def original_kind(kind, m):
    """The kind of the message that a later message is about."""
    return RECALL if kind == "pacs.028" and "OrgnlCxlId" in m else "pacs.008"


def rules_broken_in(kind, m):
    """The numbers of the rules that one transaction of a message breaks."""

    def has(key, *right):
        return m.get(key) in right

    if kind in ("pacs.008", "camt.056", "pacs.004") and not has("Ccy", "EUR"):
        yield 11
    if kind == "pacs.008":
        for number, key, right in ((12, "SvcLvl", "SEPA"), (13, "LclInstrm", "INST"), (14, "ChrgBr", "SLEV")):
            if not has(key, right):
                yield number
    if kind == "pacs.002":
        if not has("TxSts", "ACCP", "RJCT"):
            yield 15
        if has("TxSts", "RJCT") and "Rsn" not in m:
            yield 16
        if has("TxSts", "ACCP") and "Rsn" in m:
            yield 17
    if kind == "pacs.004":
        if m["RtrdIntrBkSttlmAmt"] > m["OrgnlIntrBkSttlmAmt"]:
            yield 18
        if not has("Rsn", "FOCR"):
            yield 19
    if kind == "camt.029" and not has("Conf", "RJCR"):
        yield 20
    if kind != "pacs.008" and kind_named(m["OrgnlMsgNmId"]) != original_kind(kind, m):
        yield 21


def broken_rules(kind, transactions):
    """The numbers of all rules that a message of the kind breaks."""
    for m in transactions:
        yield from rules_broken_in(kind, m)
    recalls = [recall_key(kind, m) for m in transactions]
    if len(set(recalls)) < len(recalls):
        yield 22
    if not 1 <= len(transactions) <= MOST_TRANSACTIONS:
        yield 23


def elements_of(v, table):
    """What an object has at the keys of a table, each element as it is kept."""
    m = {}
    for key, read in table:
        optional, key = key.endswith("?"), key.rstrip("?")
        if key not in v:
            if not optional:
                raise Refused("34 " + key)
            continue
        if not isinstance(v[key], str):
            raise Refused("35 " + key)
        x = read(v[key])
        if x is None:
            raise Refused(f"36 {key} {NUMBER[read]}")
        m[key] = x
    return m


def refuse_extra(v, table, *others):
    """Refuses the first key of an object that is neither in the table nor one of the others."""
    known = {key.rstrip("?") for key, _ in table}.union(others)
    extra = sorted((k for k in v if k not in known), key=lambda k: k.encode())
    if extra:
        raise Refused("37 " + json.dumps(extra[0], ensure_ascii=False))


def objects_in(v):
    """The objects of a list of transactions."""
    if not isinstance(v, list) or not 1 <= len(v) <= MOST_TRANSACTIONS:
        raise Refused("46 0")
    for place, one in enumerate(v, start=1):
        if not isinstance(one, dict):
            raise Refused(f"46 {place}")
    return v


def listed_transaction(place, v):
    """The transaction at a place of the list, counted from 1."""
    try:
        m = elements_of(v, TABLE[RECALL])
        refuse_extra(v, TABLE[RECALL])
    except Refused as e:
        raise Refused(f"56 {place} {e}")
    return m


def frozen(m):
    """Elements as they are compared and hashed."""
    return tuple(sorted(m.items()))


def read_message(line):
    """The message of a line: its kind, its head, and its transactions in order. Only a recall has more than one."""
    v = parse(line)
    if not isinstance(v, dict):
        raise Refused("32")
    kind = kind_named(v["MsgNmId"]) if isinstance(v.get("MsgNmId"), str) else None
    if kind is None:
        raise Refused("33")
    head = elements_of(v, HEAD)
    if kind == RECALL and LIST in v:
        transactions = [listed_transaction(*it) for it in enumerate(objects_in(v[LIST]), start=1)]
        refuse_extra(v, HEAD, LIST)
    else:
        transactions = [elements_of(v, TABLE[kind])]
        refuse_extra(v, HEAD + TABLE[kind])
    broken = sorted(broken_rules(kind, transactions))
    if broken:
        raise Refused(f"38 {broken[0]}")
    return kind, frozen(head), tuple(map(frozen, transactions))


# ---- the set

def identity(msg):
    kind, head = msg[0], dict(msg[1])
    return head["InstgAgt"].encode(), kind.encode(), head["MsgId"].encode()


def transfer_key(kind, m):
    """The transfer that a transaction is about."""
    return m["DbtrAgt"].encode(), m["TxId" if kind == "pacs.008" else "OrgnlTxId"].encode()


def recall_named(kind, m):
    """The identification of the recall that a transaction names, or None."""
    return m.get("CxlId" if kind == RECALL else "OrgnlCxlId")


def recall_key(kind, m):
    """The recall that a transaction is about: its transfer and the identification."""
    return transfer_key(kind, m), recall_named(kind, m)


def transactions_of(msg):
    return [dict(m) for m in msg[2]]


def transfers(msg):
    """All transfers that a message is about."""
    return {transfer_key(msg[0], m) for m in transactions_of(msg)}


def euros(cents):
    return f"{cents // 100}.{cents % 100:02d}"


def written(msg):
    """The written form of a message, without a line feed."""

    def text(elements):
        return {k: euros(x) if isinstance(x, int) else x for k, x in elements}

    head, transactions = text(msg[1]), [text(m) for m in msg[2]]
    whole = {**head, **transactions[0]} if len(transactions) == 1 else {**head, LIST: transactions}
    return json.dumps(whole, ensure_ascii=False, separators=(",", ":"), sort_keys=True)


def shown(code, usual):
    """A reason as it is shown if these are usual."""
    return code if code in usual else code + "?"


def contradicted(messages):
    """The identities that two different messages of the set have."""
    shares = {}
    for m in messages:
        shares.setdefault(identity(m), set()).add(m)
    return {i for i, ms in shares.items() if len(ms) > 1}


def by_transfer(messages):
    """What is said of each transfer: the messages on it, each with those of its transactions that are about it."""
    by = {}
    for msg in messages:
        about = {}
        for m in transactions_of(msg):
            about.setdefault(transfer_key(msg[0], m), []).append(m)
        for t, transactions in about.items():
            by.setdefault(t, []).append((msg, transactions))
    return by


def recalls_named(said):
    """The identifications of the recalls that are named in what is said of a transfer."""
    return {recall_named(msg[0], m) for msg, transactions in said for m in transactions} - {None}


class Clean:
    """What the uncontradicted messages on a transfer say of it."""

    def __init__(self, said, against):
        said = [(msg, transactions) for msg, transactions in said if identity(msg) not in against]

        def of(kind):
            return [m for msg, transactions in said if msg[0] == kind for m in transactions]

        confirmations = of("pacs.002")
        self.instructions = of("pacs.008")
        self.accepts = [m for m in confirmations if m["TxSts"] == "ACCP"]
        self.reasons = {m["Rsn"] for m in confirmations if m["TxSts"] == "RJCT"}
        self.investigations = [m for m in of("pacs.028") if "OrgnlCxlId" not in m]
        self.chased = {m["OrgnlCxlId"] for m in of("pacs.028") if "OrgnlCxlId" in m}
        self.recalls = {(m["CxlId"], m["OrgnlIntrBkSttlmAmt"], m["Rsn"]) for m in of(RECALL)}
        self.returns = {(m["RtrId"], m["OrgnlCxlId"], m["RtrdIntrBkSttlmAmt"]) for m in of("pacs.004")}
        self.refusals = {(m["OrgnlCxlId"], m["Rsn"]) for m in of("camt.029")}
        self.originals = {m["OrgnlIntrBkSttlmAmt"] for m in of(RECALL) + of("pacs.004")}
        self.named = recalls_named(said)

    def findings(self):
        def twice(cxls):
            return sorted({c for c in cxls if cxls.count(c) > 1}, key=str.encode)

        returned = {c for _, c, _ in self.returns}
        if len(self.instructions) > 1:
            yield "TwoInstructions"
        if self.accepts and self.reasons:
            yield "BothConfirmed"
        if len(self.reasons) > 1:
            yield "ReasonsDiffer"
        if len(self.instructions) == 1 and self.originals - {self.instructions[0]["IntrBkSttlmAmt"]}:
            yield "AmountDiffers"
        for c in twice([c for c, _, _ in self.recalls]):
            yield "RecallsDiffer|" + c
        for c in sorted({c for c, _ in self.refusals} & returned, key=str.encode):
            yield "BothAnswers|" + c
        for c in twice([c for c, _ in self.refusals]):
            yield "RefusalsDiffer|" + c
        if len(self.returns) > 1:
            yield "TwoReturns"
        if self.returns and self.reasons:
            yield "ReturnOfRejected"

    def status(self):
        if not self.instructions:
            return "MISSING"
        if self.reasons:
            return "REJECTED|" + shown(*self.reasons, REJECTIONS)
        if self.accepts:
            amounts = {amount for _, _, amount in self.returns}
            return "RETURNED|" + euros(*amounts) if amounts else "ACCEPTED"
        return "INVESTIGATED" if self.investigations else "PENDING"

    def recall_status(self, cxl):
        amounts = {amount for _, c, amount in self.returns if c == cxl}
        reasons = {reason for c, reason in self.refusals if c == cxl}
        if cxl not in self.named:
            return "UNKNOWN"
        if cxl not in {c for c, _, _ in self.recalls}:
            return "UNASKED"
        if amounts:
            return "RETURNED|" + euros(*amounts)
        if reasons:
            return "REFUSED|" + shown(*reasons, REFUSALS)
        return "CHASED" if cxl in self.chased else "OPEN"


def standing(said, against):
    """The words of the T line, of the F lines and of the R lines of a transfer, from what all messages on it say of
    it."""
    asides = sorted({identity(msg) for msg, _ in said if identity(msg) in against})
    clean = Clean(said, against)
    recalls = sorted(recalls_named(said), key=str.encode)
    found = ["Identity|" + "|".join(p.decode() for p in i) for i in asides] + list(clean.findings())
    status = "CONTRADICTED" if found else clean.status()
    return status, found, [c + "|" + ("CONTRADICTED" if found else clean.recall_status(c)) for c in recalls]


def status_text(messages):
    by = by_transfer(messages)
    against = contradicted(messages)
    text = []
    for t in sorted(by):
        bank, tx = t[0].decode(), t[1].decode()
        status, found, recalls = standing(by[t], against)
        text.append(f"T|{bank}|{tx}|{status}\n")
        text += [f"F|{bank}|{tx}|{f}\n" for f in found]
        text += [f"R|{bank}|{tx}|{r}\n" for r in recalls]
    return "".join(text)


def archive_text(messages):
    lines = sorted((identity(m), written(m).encode()) for m in messages)
    return b"".join(line + b"\n" for _, line in lines).decode()


def totals_text(messages):
    """Of each bank: sent, their cents, returned in, rejected, waiting, missing, contradicted, received, cents, returned
    out."""
    against, totals = contradicted(messages), {}

    def add(bank, place, n):
        totals.setdefault(bank.encode(), [0] * 10)[place] += n

    for (bank, _), said in by_transfer(messages).items():
        clean = Clean(said, against)
        word = standing(said, against)[0].partition("|")[0]
        if word in ("ACCEPTED", "RETURNED"):
            paid, = clean.instructions
            back = sum({amount for _, _, amount in clean.returns}) if word == "RETURNED" else 0
            for side, first in ((bank.decode(), 0), (paid["CdtrAgt"], 7)):
                for place, n in enumerate((1, paid["IntrBkSttlmAmt"], back)):
                    add(side, first + place, n)
        else:
            place = {"REJECTED": 3, "PENDING": 4, "INVESTIGATED": 4, "MISSING": 5, "CONTRADICTED": 6}[word]
            add(bank.decode(), place, 1)

    def fields(row):
        return [euros(n) if place in (1, 2, 8, 9) else str(n) for place, n in enumerate(row)]

    return "".join("|".join([bank.decode()] + fields(row)) + "\n" for bank, row in sorted(totals.items()) if any(row))


TEXT = {"status": status_text, "archive": archive_text, "totals": totals_text}


def lines_of(data):
    """The lines that are not blank, each with its number."""
    lines = data.split(b"\n")
    if lines[-1] == b"":
        lines.pop()
    return [(n, line) for n, line in enumerate(lines, 1) if line.strip(b" \t\r")]


def messages_in(data):
    """The messages of an input, and the refused lines."""
    messages, refused = set(), []
    for n, line in lines_of(data):
        try:
            messages.add(read_message(line))
        except Refused as e:
            refused.append(f"line {n}: {e}\n")
    return messages, "".join(refused)


def answer(job, data):
    messages, refused = messages_in(data)
    return TEXT[job](messages), refused, 1 if refused else 0


def write(stream, text):
    """Writes a text to a stream, in as many parts as it takes."""
    data = text.encode()
    while data:
        data = data[os.write(stream, data):]


def end_with(text, refused, status):
    """Writes an answer to the two outputs as the program does, and ends with its exit status."""
    try:
        write(2, refused)
        write(1, text)
    except OSError:
        status = 2
        with contextlib.suppress(OSError):
            write(2, "fault 63\n")
    sys.exit(status)


def end_on(answer, is_right):
    """Answers standard input and ends. The words of the command line are right, or they are fault 64."""
    if not is_right:
        end_with("", "fault 64\n", 2)
    try:
        data = sys.stdin.buffer.read()
    except OSError:
        end_with("", "fault 62\n", 2)
    end_with(*answer(data))


if __name__ == "__main__":
    end_on(lambda data: answer(sys.argv[1], data), len(sys.argv) == 2 and sys.argv[1] in TEXT)
