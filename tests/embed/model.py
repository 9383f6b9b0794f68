"""model.py: what each call of the C interface must come to, by the definitions alone.

A handle has a site of tests/oracle/exchange.py, its journal, the answer that was made last, why the last call was
refused, and what it held when its changes were asked for last. Each call returns the fields of its result by their
names, and the text that it makes or copies, or None. Memory never runs out here.
"""
import csv
import io
import struct
from tests.oracle import exchange, keep, rights, status
from tests.oracle.answers import bank_line, lines_on, report_text
from tests.oracle.digests import Chains
from tests.oracle.status import by_transfer, contradicted, lines_of, transfers
from tests.property.views import touched

HEADER = ["DbtrAgt", "TxId", "Amt", "Sts"]
WORDS = ["ACCEPTED", "REJECTED", "RETURNED", "PENDING", "INVESTIGATED"]
MOST_ITEMS = 1024
MOST_TEXT = (64 << 20) - 1  # bytes of a text of entries, at most

# the name and the meaning of each number
CODES = {31: ("NotJson", "the bytes are not one JSON text in UTF-8"),
         32: ("NotObject", "the JSON text is not an object"),
         33: ("UnknownKind", "MsgNmId is not a name of one of the six kinds of message"),
         34: ("Missing", "a key that the kind needs is absent"), 35: ("NotText", "the value of a key is not a text"),
         36: ("Element", "the text of a key is not of the key's type"), 37: (
             "Extra", "the object has a key that the kind does not have"), 38: ("Rule", "a rule of the kind is broken"),
         41: ("Gap", "the delta begins after what the site holds of its origin"),
         42: ("Fork", "the delta has another message under a number that the site holds"),
         43: ("OwnAhead", "the delta has messages of this site that it does not hold: its journal lost some"),
         44: ("BadSite", "there is no such site in a group of 1 to 1024 sites"),
         45: ("BadDelta", "the text is not a delta: the place is that of its first wrong line"),
         46: ("BadTransactions",
              "TxInf is not a list of 1 to 100 objects: the place is that of the first one that is no object, or 0"),
         48: ("BadList", "the list is not valid: the place is that of its first wrong record, from 1 with the header"),
         56: ("At", "the transaction of TxInf at the place has a fault"),
         65: ("Memory", "out of memory; the call can be made again"), 70: ("Empty", "the handle has no site"),
         71: ("Full", "the handle has a site already"), 72: ("BadVector", "the text is not a version vector"),
         73: ("BadArgument",
              "a bank, an identification, a day, an origin, a count or a size is not valid: the place is that of "
              "the argument, from 1"), 79: ("NotYours", "the bank is none of the banks that ask"),
         81: ("NotSender", "the sender of the message is none of the banks in whose name it is sent"),
         82: ("NotOriginator", "the originator bank of the transaction at the place is none of the banks"),
         83: ("NotBeneficiary", "the beneficiary bank of each instruction on the transfer is none of the banks"),
         84: ("Waits",
              "no instruction on the transfer is held yet; the call can be made again when there is one"),
         85: ("Snapshot", "the handle has a snapshot of a site, which takes nothing")}
PLACED = {45, 46, 48, 56, 73, 82}  # the numbers that a place follows
VERDICTS = {"NotSender": 81, "NotOriginator": 82, "NotBeneficiary": 83, "Waits": 84}

# all fields that a result may have
FIELDS = ["place", "length", "is_repeat", "number", "fresh", "repeats", "refused", "reserved"]
# the calls that a snapshot refuses
TAKING = {"take", "take_as", "take_lines", "accept"}
# the calls that need no site, and those after which the site says the same of why, as after a call refused by 71
WITHOUT_SITE = {"open", "restore", "close", "code_name", "code_text"}
SILENT = WITHOUT_SITE | {"counts", "answer", "answer_part", "answer_end", "why"}


FULL = 71


class Refusal(Exception):
    """A call is refused. The text says why: a number, and what follows it."""

    def __init__(self, why):
        super().__init__(why)
        code, *more = why.split(" ")
        self.code = int(code)
        self.place = int(more[0]) if self.code in PLACED else 0


def read(line):
    """The message of a JSON object."""
    message, why = exchange.message_in(line)
    if why is not None:
        raise Refusal(why)
    return message


def element(kind, text, place):
    """An element in its written form, which is an argument in this place of a call."""
    found = kind(text.decode("latin-1"))
    if found is None:
        raise Refusal(f"73 {place}")
    return found


def transfer(bank, tx, place=1):
    """The transfer that a bank, which is the argument in a place, and an identification after it name."""
    return element(status.bic, bank, place).encode(), element(status.id35, tx, place + 1).encode()


def one_of(banks, bank):
    """A bank, which must be one of some banks."""
    if bank not in banks:
        raise Refusal("79")
    return bank


def rows_in(text):
    """The rows of a list, each a transfer, cents and a word."""
    # no element has a byte that is not of UTF-8
    lines = io.StringIO(text.decode("utf-8-sig", "surrogateescape"), newline="")
    records = [record for record in csv.reader(lines) if record]
    if not records or records[0] != HEADER:
        raise Refusal("48 1")
    rows = []
    for place, record in enumerate(records[1:], 2):
        kinds = status.bic, status.id35, status.amount, lambda word: word if word in WORDS else None
        found = [kind(field) for kind, field in zip(kinds, record)]
        if len(record) != 4 or None in found:
            raise Refusal(f"48 {place}")
        rows.append(((found[0].encode(), found[1].encode()), found[2], found[3]))
    return rows


# ---- a site

class Site(exchange.Site):
    """A site that keeps the order in which its entries came."""

    def __init__(self, own, group):
        super().__init__(own, group)
        self.arrivals, self.chains = [], Chains(self.logs)

    def hold(self, origin, message):
        super().hold(origin, message)
        self.arrivals.append(message)

    def copy(self):
        """A site that holds the same."""
        its = Site(self.own, self.group)
        its.logs.update((origin, list(log)) for origin, log in self.logs.items())
        its.messages.update(self.messages)
        its.arrivals += self.arrivals
        return its

    def join(self, text):
        """Accepts a delta text."""
        try:
            runs = exchange.delta_in(text)
        except exchange.BadDelta as bad:
            raise Refusal(f"45 {bad.args[0]}")
        refusal = self.refusal(runs)
        if refusal:
            raise Refusal(" ".join(map(str, refusal)))
        self.accept(runs)


def lines_with(messages):
    """The lines of messages, in their order, as the archive text has them."""
    return "".join(status.written(message) + "\n" for message in messages)


def names_text(keys):
    return b"".join(b"|".join(key) + b"\n" for key in keys)


def changes_text(before, now):
    """The names of the transfers that arrivals touch, if these were held before them and after them. Nothing is held
    before the watch."""
    return names_text([] if before is None else sorted(touched(set(before), set(now) - set(before))))


def is_right_about_changes(before, now, text):
    """Whether a text names the transfers that arrivals touch."""
    return text == changes_text(before, now)


# ---- a handle

class Handle:
    """A handle, and what it must answer."""

    def __init__(self):
        self.site, self.answer, self.refused, self.watched, self.journal = None, b"", b"", None, []
        self.is_snapshot = False

    def call(self, name, *arguments):
        """The fields of the result of a call, and the text that it makes or copies, or None."""
        fields = dict.fromkeys(FIELDS, 0)
        try:
            if self.site is None and name not in WITHOUT_SITE:
                raise Refusal("70")
            if self.is_snapshot and name in TAKING:
                raise Refusal("85")
            found, text = getattr(self, "copied" if name == "answer" else name)(*arguments)
            fields, why = {"ok": 1, "code": 0, **fields, **found}, b""
        except Refusal as refusal:
            fields, why, text = ({**fields, "ok": 0, "code": refusal.code, "place": refusal.place},
                                 str(refusal).encode(), None)
        if name not in SILENT and fields["code"] != FULL:
            self.refused = why
        return fields, text

    def made(self, text):
        """What a call comes to that makes an answer."""
        self.answer = text if isinstance(text, bytes) else text.encode()
        return {"length": len(self.answer)}, self.answer

    def begin(self, number, group):
        if self.site is not None:
            raise Refusal("71")
        if not 1 <= number <= group <= exchange.MOST_SITES:
            raise Refusal("44")
        self.hold(Site(number, group), [], False)

    def hold(self, site, journal, is_snapshot):
        """Has a site, or a snapshot of one, with its journal. No call was made on it."""
        self.site, self.journal, self.is_snapshot = site, journal, is_snapshot
        self.answer, self.refused, self.watched = b"", b"", None

    def open(self, number, group):
        self.begin(number, group)
        return {}, None

    def restore(self, number, group, journal, delta):
        self.begin(number, group)
        refused = exchange.taken(self.site, journal)
        try:
            if delta:
                self.site.join(delta)
        except Refusal as refusal:
            refused.append(f"file 2: {refusal}\n")
        self.journal = [line for _, line in lines_of(journal)]
        return self.made("".join(refused))

    def close(self):
        self.site = None
        return {}, None

    def snapshot(self, other):
        """Another handle has a snapshot of the site from now on."""
        if other.site is not None:
            raise Refusal("71")
        other.hold(self.site.copy(), list(self.journal), True)
        return {}, None

    def starved(self):
        """A call that finds no memory."""
        raise Refusal("65")

    # ---- messages and deltas in

    def take(self, json):
        return self.taken(read(json), json)

    def take_as(self, banks, json):
        banks, message = element(rights.banks_in, banks, 1), read(json)
        word, *about = rights.verdict(banks, self.site.messages, message)
        if word in VERDICTS:
            words = [str(one) for one in about] if word != "Waits" else [part.decode() for part in about[0]]
            raise Refusal(" ".join([str(VERDICTS[word]), *words]))
        return self.taken(message, json)

    def taken(self, message, json):
        """What a take of a message comes to, which came as this object."""
        is_repeat = message in self.site.messages
        self.site.take(message)
        self.journal += [] if is_repeat else [json.replace(b"\n", b" ")]
        return {"is_repeat": int(is_repeat), "number": 0 if is_repeat else self.site.have(self.site.own)}, None

    def take_lines(self, text):
        refused, before, lines = [], self.site.have(self.site.own), lines_of(text)
        for number, line in lines:
            message, why = exchange.message_in(line)
            if why is None:
                self.journal += [] if message in self.site.messages else [line]
                self.site.take(message)
            else:
                refused.append(f"line {number}: {why}\n")
        fresh = self.site.have(self.site.own) - before
        fields, answer = self.made("".join(refused))
        return {"fresh": fresh, "repeats": len(lines) - len(refused) - fresh, "refused": len(refused), **fields}, answer

    def accept(self, text):
        before = self.many()
        self.site.join(text)
        return {"fresh": self.many() - before}, None

    def many(self):
        return len(self.site.arrivals)

    # ---- what the site holds, and deltas out

    def counts(self, items):
        if items > MOST_ITEMS:
            raise Refusal("44")
        return {}, struct.pack(f"={items}Q", *(self.site.have(origin) for origin in range(1, items + 1)))

    def vector_text(self):
        return self.made(self.site.vector_text())

    def cut(self, vector):
        try:
            return self.made(exchange.delta_text(self.site.above(exchange.vector_in(vector.decode("latin-1")))))
        except exchange.Fault:
            raise Refusal("72")

    def cut_above(self, counts):
        if len(counts) > MOST_ITEMS:
            raise Refusal("44")
        return self.made(exchange.delta_text(self.site.above(dict(enumerate(counts, 1)))))

    def entries(self, origin, above, most):
        limits = (1, exchange.MOST_SITES), (0, exchange.BELOW - 1), (1, MOST_TEXT)
        for place, (number, (least, limit)) in enumerate(zip((origin, above, most), limits), 1):
            if number is None or not least <= number <= limit:
                raise Refusal(f"73 {place}")
        return self.made(exchange.delta_text(self.site.entries(origin, above, most)))

    def digest(self, origin, count):
        for place, (number, least, limit) in enumerate([(origin, 1, exchange.MOST_SITES),
                                                        (count, 0, exchange.BELOW - 1)], 1):
            if number is None or not least <= number <= limit:
                raise Refusal(f"73 {place}")
        if count > self.site.have(origin):
            raise Refusal("73 2")
        return self.made(self.site.chains.of(origin)[count].hex())

    def digests_text(self):
        return self.made(self.site.chains.text())

    def journal_text(self, above):
        return self.made(lines_with(self.site.logs.get(self.site.own, [])[above:]))

    def newest_text(self, count):
        return self.made(lines_with(self.site.arrivals[max(0, self.many() - count):]))

    # ---- reading

    def reading_text(self, text):
        read_lines = [(number, *exchange.message_in(line)) for number, line in lines_of(text)]
        return self.made("".join(status.written(message) + "\n" if why is None else f"line {number}: {why}\n"
                                 for number, message, why in read_lines))

    # ---- answers on everything held, on one transfer and on one bank

    def evaluate(self):
        return {"length": len(self.answer)}, None

    def archive_text(self):
        return self.made(status.archive_text(self.site.messages))

    def status_text(self):
        return self.made(status.status_text(self.site.messages))

    def totals_text(self):
        return self.made(status.totals_text(self.site.messages))

    def contradictions_text(self):
        return self.made(b"".join(b"|".join(identity) + b"\n" for identity in sorted(contradicted(self.site.messages))))

    def report(self, bank, day, rows):
        bank, day = element(status.bic, bank, 1), element(status.day, day, 2)
        return self.made(report_text(self.site.messages, bank, day, rows_in(rows)))

    def kept_text(self, day):
        return self.made(status.archive_text(keep.kept(element(status.day, day, 1), self.site.messages)))

    def closed_text(self, day):
        return self.made(status.archive_text(keep.closed(element(status.day, day, 1), self.site.messages)))

    def transfer_text(self, bank, tx):
        key = transfer(bank, tx)
        return self.made(lines_on(key, by_transfer(self.site.messages).get(key), contradicted(self.site.messages)))

    def messages_text(self, bank, tx):
        key = transfer(bank, tx)
        return self.made(status.archive_text([message for message in self.site.messages if key in transfers(message)]))

    def bank_totals(self, bank):
        return self.made(bank_line(self.site.messages, element(status.bic, bank, 1)))

    # ---- the same for banks

    def transfer_text_for(self, banks, bank, tx):
        banks = element(rights.banks_in, banks, 1)
        return self.made(rights.transfer_text(banks, self.site.messages, transfer(bank, tx, 2)))

    def messages_text_for(self, banks, bank, tx):
        banks = element(rights.banks_in, banks, 1)
        return self.made(rights.messages_text(banks, self.site.messages, transfer(bank, tx, 2)))

    def bank_totals_for(self, banks, bank):
        banks, bank = element(rights.banks_in, banks, 1), element(status.bic, bank, 2)
        return self.made(rights.bank_text(banks, self.site.messages, one_of(banks, bank)))

    def report_for(self, banks, bank, day, rows):
        banks, bank, day = (element(kind, text, place) for place, (kind, text) in enumerate(
            [(rights.banks_in, banks), (status.bic, bank), (status.day, day)], 1))
        return self.made(rights.report_for(banks, self.site.messages, one_of(banks, bank), day, rows_in(rows)))

    # ---- changes

    def changes(self):
        before, self.watched = self.watched, frozenset(self.site.messages)
        return self.made(changes_text(before, self.watched))

    # ---- the answer, why a call was refused, and numbers

    def copied(self, room):
        return whole(self.answer, room)

    def answer_part(self, start, room):
        part = self.answer[start:start + room]
        return {"length": len(part)}, part

    def answer_end(self):
        return self.made(b"")

    def why(self, room):
        return whole(self.refused, room)

    def code_name(self, code, room):
        return whole(CODES.get(code, ("", ""))[0].encode(), room)

    def code_text(self, code, room):
        return whole(CODES.get(code, ("", ""))[1].encode(), room)


def called(handles, place, name, *arguments):
    """What a call comes to on one of some handles. The argument of `snapshot` is the place of another one."""
    return handles[place].call(name, *([handles[other] for other in arguments] if name == "snapshot" else arguments))


def whole(text, room):
    """What a call comes to that copies a text if it fits."""
    return {"length": len(text)}, text if len(text) <= room else b""
