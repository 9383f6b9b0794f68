"""c_calls.py: made-up calls in any order come to what the definitions say, with each access to memory checked.

Usage: python3 -m tests.embed.c_calls [--seed N] [--cases N] [--long]
The default is the number of today and 20,000 calls. With --long there are 1,000,000.

A day is some hundred calls on the handles of a small group. Sites take and accept messages that confirm, recall and
contradict each other, lines that are refused, deltas that are late, repeated, damaged and of another life of a site.
Messages come in the name of banks, too. Sites are asked all questions at any time, also for banks, closed, opened anew
and restored, and called on when they are closed. Snapshots of them are made, also of snapshots, and asked while their
sites go on. After each refusal they are asked why. In every second run a text or a
room without bytes is a null pointer. The address sanitizer checks driver.c and what it gives the library, and finds
memory that is lost. model.py has what each call must come to: no crate is in it. A tenth of a usual number of calls is
made under valgrind too, which sees each access of the library itself. Each call has to be met, and each number but 65,
both as it is and as a why. So have answers for banks that hide a transfer, a part of a recall, and a row of a report.
"""
import argparse
import collections
import concurrent.futures
import os
import random
import re
import shutil
from bench.generate import samples
from tests import harness
from tests.embed import driving, model
from tests.oracle import exchange, rights, status
from tests.oracle.status import RECALL, by_transfer, transfers
from tests.property import cases
from tests.property.hubs import NO_VECTORS
from tests.property.messages import BANKS, Pool, shuffled
from tests.property.worlds import refused_list, refused_text

USUAL, LONG, OF_VALGRIND, DAYS_OF_A_RUN, SNAPSHOTS = 20_000, 1_000_000, 2_000, 10, 2
CALLS = {"take": 22, "take_as": 15, "take_lines": 6, "accept": 22, "changes": 6, "transfer_text": 6,
         "messages_text": 4, "status_text": 5,
         "archive_text": 3, "totals_text": 4, "contradictions_text": 3, "bank_totals": 4, "report": 4,
         "kept_text": 4, "closed_text": 3,
         "counts": 3, "vector_text": 3, "cut": 4, "cut_above": 3, "entries": 5, "digest": 5, "digests_text": 4,
         "journal_text": 4, "newest_text": 4, "reading_text": 4, "evaluate": 4,
         "transfer_text_for": 8, "messages_text_for": 8, "bank_totals_for": 5, "report_for": 5,
         "answer": 4, "answer_part": 6, "answer_end": 2, "why": 8, "code_name": 1, "code_text": 1, "close": 2,
         "open": 4, "restore": 4, "snapshot": 9}
NUMBERS = [31, 32, 33, 34, 35, 36, 37, 38, 41, 42, 43, 44, 45, 46, 48, 56, 70, 71, 72, 73, 79, 81, 82, 83, 84, 85]
REASONS = [f"why {number}" for number in NUMBERS if number not in (70, 71)]
DAYS = ["2024-05-02", "2024-05-02", "2024-05-03", "2024-5-2", ""]
WRONG_BANKS, WRONG_NAMES = ["", "bankdeff", "BANKDEFFXX", "BANKDEFF\n", "\xff"], ["", "a_b", "/T1", "T1\n", "T" * 36]
NO_BANKS = [b"", b"BANKDEFF,", b",BANKDEFF", b"BANKDEFF, BANQFRPP", b"BANKDEFF,bankdeff", b",".join([b"BANKDEFF"] * 17)]

# two transfers to two banks, and a recall of both
RECALLED = [samples.line(one).strip().encode() for one in [
    *(samples.instruction(MsgId=f"M-{tx}", TxId=tx, CdtrAgt=bank) for tx, bank in zip(("T6", "T7"), BANKS[1:])),
    samples.recall([samples.transaction(OrgnlTxId=tx) for tx in ("T6", "T7")], MsgId="K-6")]]
# what answers for banks meet
FOR_BANKS = ["a transfer of others", "a recall in part", "a row of others"]

# a request, the fields and the text that it must come to, and what its answer meets
Call = collections.namedtuple("Call", "request fields text met")


class Day:
    """The calls of a day, made up one after another."""

    def __init__(self, r):
        self.r, self.pool, self.group, self.calls = r, Pool(r), r.randint(1, 4), []
        self.messages = [self.pool.message() for _ in range(r.randint(3, 40))]
        self.lines = [shuffled(r, message) for message in self.messages]
        # the last site has the number of the first: a second life. Handles after it are for snapshots
        self.handles = [model.Handle() for _ in range(self.group + 1 + SNAPSHOTS)]
        self.deltas = [b"delta 2\nend 0\n"]
        for place in range(self.group + 1):
            self.call(place, "open", *self.site(place))
        for _ in range(r.randint(40, 160)):
            name = r.choices(list(CALLS), CALLS.values())[0]
            place = self.place()
            self.call(place, name, *getattr(self, name, list)(*([place] if name in PLACED else [])))
        for place in range(len(self.handles)):
            self.call(place, "close")

    def site(self, place):
        return [place % self.group + 1, self.group]

    def place(self):
        """The place of a handle, most often of one that is not empty."""
        place = self.r.randrange(len(self.handles))
        is_empty = self.handles[place].site is None and self.r.random() < 0.7
        return self.r.randrange(self.group + 1) if is_empty else place

    def call(self, place, name, *arguments):
        """Makes a call: what it must come to is noted. After a refusal the handle is asked why."""
        found, text = model.called(self.handles, place, name, *arguments)
        fields = {field: found[field] for field in driving.FIELDS[name]}
        met = list(self.met_by(name, self.handles[place].site, text or b""))
        self.calls.append(Call((name, place, *arguments), fields, text, met))
        if not found["ok"] and name != "why":
            self.call(place, "why", 1 << 12)

    def met_by(self, name, site, text):
        """What the answer of a call for banks meets."""
        held, lines = site.messages if site else (), text.splitlines()
        if name == "transfer_text_for":
            yield from (FOR_BANKS[0] for line in lines if line.endswith(b"|UNKNOWN")
                        and tuple(line.split(b"|")[1:3]) in by_transfer(held))
        elif name == "messages_text_for" and not set(lines) <= set(status.archive_text(held).encode().splitlines()):
            yield FOR_BANKS[1]
        elif name == "report_for":
            yield from (FOR_BANKS[2] for line in lines if line.endswith(b",,UNKNOWN")
                        and tuple(line.split(b",")[:2]) in by_transfer(held))

    # ---- arguments

    def line(self):
        draw = self.r.random()
        if draw < 0.8:
            return self.r.choice(self.lines)
        message = self.r.choice(self.messages)
        return refused_text(self.r, message) if draw < 0.92 else shuffled(self.r, refused_list(self.r, self.messages))

    def take(self):
        return [self.line()]

    def take_lines(self):
        lines = [self.r.choice([self.line(), self.line(), b"", b" \t"]) for _ in range(self.r.randint(0, 8))]
        lines += RECALLED if self.r.random() < 0.2 else []
        return [b"\n".join(lines) + self.r.choice([b"", b"\n", b"\r\n"])]

    def delta(self, place):
        """A delta that some site cuts, for this one or for any."""
        r, givers = self.r, [handle.site for handle in self.handles if handle.site]
        if not givers or r.random() < 0.2:
            return r.choice(self.deltas)
        taker, giver = self.handles[place].site, r.choice(givers)
        above = {origin: len(log) for origin, log in taker.logs.items()} if taker else {}
        draw = r.random()
        above = above if draw < 0.6 else {} if draw < 0.8 else {origin: r.randint(0, 3)
                                                                for origin in range(1, self.group + 1)}
        self.deltas.append(exchange.delta_text(giver.above(above)).encode())
        return self.deltas[-1]

    def accept(self, place):
        r, text = self.r, self.delta(place)
        draw = r.random()
        if draw < 0.8:
            return [text]
        if draw < 0.85:
            line = status.written(status.read_message(self.lines[0])).encode()
            return [b"delta 1\nentry %d %d %s\nend 1\n" % (r.randint(1, self.group + 1), r.randint(1, 3), line)]
        place = r.randrange(len(text))
        return [r.choice([text[:place], text[:place] + r.choice([b"0", b"1", b"\n", b"\xff"]) + text[place + 1:],
                          text + b"x", b""])]

    def counts(self):
        return [self.r.choice([0, 1, self.group, self.group + 3, 1024, 1025])]

    def cut(self):
        if self.r.random() < 0.2:
            return [self.r.choice([*NO_VECTORS, "-\n", "\xb2:1", "1:18446744073709551616"]).encode("latin-1")]
        origins = sorted(self.r.sample(range(1, self.group + 2), self.r.randint(0, self.group)))
        return [",".join(f"{origin}:{self.r.choice([0, 1, 2, 5, 2 ** 64 - 1])}" for origin in origins).encode() or b"-"]

    def cut_above(self):
        return [[self.r.choice([0, 1, 2, 2 ** 64 - 1])
                 for _ in range(self.r.choice([0, 1, self.group, self.group + 2, 1025]))]]

    def entries(self, place):
        """Entries of some origin above some count, in room for none of them, for some or for all."""
        site = self.handles[place].site
        origin = self.r.choice([*range(1, self.group + 2), *range(1, self.group + 2), 0, 1024, 1025])
        above = self.r.choice([0, 0, 1, site.have(origin) if site else 3, self.r.randint(0, 9), 2 ** 64 - 1])
        whole = len(exchange.delta_text(site.above({other: 2 ** 64 for other in site.logs
                                                    if other != origin})).encode()) if site else 999
        return [origin, above,
                self.r.choice([0, 1, 500, 1000, 2000, whole - 1, whole, whole, model.MOST_TEXT, model.MOST_TEXT + 1])]

    def digest(self, place):
        """The digest of some origin at some count, which the site may not hold."""
        site = self.handles[place].site
        origin = self.r.choice([*range(1, self.group + 2), *range(1, self.group + 2), 0, 1024, 1025])
        have = site.have(origin) if site else 3
        return [origin, self.r.choice([0, 1, have, have, self.r.randint(0, have), have + 1, 2 ** 64 - 1])]

    def bank(self):
        bank = self.r.choice(BANKS + ["NOBODYXX"]) if self.r.random() < 0.9 else self.r.choice(WRONG_BANKS)
        return (bank + self.r.choice(["", "XXX"])).encode("latin-1")

    def banks(self):
        """A text that lists 1 to 16 banks, each in either form, or one that lists none."""
        if self.r.random() < 0.05:
            return self.r.choice(NO_BANKS)
        many = self.r.choice([1, 1, 1, 1, 2, 3, 16])
        return b",".join((self.r.choice(BANKS + ["NOBODYXX"]) + self.r.choice(["", "XXX"])).encode()
                         for _ in range(many))

    def take_as(self):
        """A message in the name of banks, most often in that of its sender alone."""
        line = self.line()
        sender = re.search(rb'"InstgAgt": "(\w+)"', line)
        return [sender.group(1) if sender and self.r.random() < 0.6 else self.banks(), line]

    def transfer_text_for(self):
        """A transfer, most often of the bank that most transfers are of."""
        bank, tx = self.transfer_text()
        return [self.banks(), self.pool.banks[0].encode() if self.r.random() < 0.7 else bank, tx]

    def messages_text_for(self, place):
        """A transfer, often one that a recall of several names, for a bank to which it is instructed."""
        site = self.handles[place].site
        held = site.messages if site else set()
        named = sorted({key for message in held if message[0] == RECALL and len(message[2]) > 1
                        for key in transfers(message)})
        if not named or self.r.random() < 0.4:
            return self.transfer_text_for()
        key = self.r.choice(named)
        banks = sorted({dict(one[2][0])["CdtrAgt"] for one in rights.instructions(held, key)})
        return [self.r.choice(banks).encode() if banks else self.banks(), *key]

    def bank_totals_for(self):
        banks = self.banks()
        return [banks, banks[:8] if self.r.random() < 0.5 else self.bank()]

    def report_for(self):
        """Any report, or one of the first of the banks on a list of the transfers that there may be."""
        banks, (bank, day, rows) = self.banks(), self.report()
        if self.r.random() < 0.4:
            return [banks, bank, day, rows]
        listed = [[self.pool.banks[0], tx, "1.00", "PENDING"] for tx in self.pool.transfers]
        rows = "".join(",".join(row) + "\n" for row in [model.HEADER, *listed])
        return [banks, banks.partition(b",")[0], DAYS[0].encode(), rows.encode()]

    def transfer_text(self):
        name = self.r.choice([*self.pool.transfers, "T99"]) if self.r.random() < 0.9 else self.r.choice(WRONG_NAMES)
        return [self.bank(), name.encode()]

    messages_text = transfer_text

    def bank_totals(self):
        return [self.bank()]

    def report(self):
        rows = [[self.r.choice(BANKS), self.r.choice([*self.pool.transfers, "T,9"]),
                 self.r.choice([*self.pool.amounts, "7"]),
                 self.r.choice(model.WORDS)] for _ in range(self.r.randint(0, 6))]
        if rows and self.r.random() < 0.15:
            self.r.choice(rows)[self.r.randrange(4)] = self.r.choice(["", "x", "-1"])
        text = "".join(",".join(f'"{field}"' if "," in field else field for field in row) + "\n" for row in rows)
        header = ",".join(model.HEADER) + "\n" if self.r.random() < 0.95 else ""
        data = (header + text).encode()
        return [self.bank(), self.r.choice(DAYS).encode(),
                data if self.r.random() < 0.95 else data.replace(b"PEND", b"PEND\xff", 1)]

    def kept_text(self):
        return [self.r.choice([*DAYS, "2024-05-04", "2024-06-01", "2024-06-01"]).encode()]

    closed_text = kept_text

    def reading_text(self):
        return self.take_lines()

    def journal_text(self, place):
        site = self.handles[place].site
        return [self.r.choice([0, 1, site.have(site.own) if site else 5, self.r.randint(0, 9), 2 ** 64 - 1])]

    def newest_text(self, place):
        return [self.r.choice([0, 1, self.handles[place].many() if self.handles[place].site else 5,
                               self.r.randint(0, 9), 2 ** 64 - 1])]

    def room(self, text):
        return self.r.choice([0, max(0, len(text) - 1), len(text), len(text) + 1, len(text) + 100])

    def answer(self, place):
        return [self.room(self.handles[place].answer)]

    def answer_part(self, place):
        length = len(self.handles[place].answer)
        return [self.r.choice([0, self.r.randint(0, length), length, length + 1, 2 ** 64 - 1]),
                self.r.choice([0, 1, 20, length + 9])]

    def why(self, place):
        return [self.room(self.handles[place].refused)]

    def snapshot(self, place):
        """The place of another handle, most often of one that is empty."""
        others = [other for other in range(len(self.handles)) if other != place]
        empty = [other for other in others if self.handles[other].site is None]
        return [self.r.choice(empty if empty and self.r.random() < 0.8 else others)]

    def code_name(self):
        return [self.r.choice([self.r.choice(NUMBERS), self.r.randrange(256)]), self.r.choice([0, 6, 200])]

    code_text = code_name

    def open(self, place):
        if self.handles[place].site is None and self.r.random() < 0.2:
            return self.r.choice([[0, 1], [2, 1], [1, 1025], [1, 0]])
        return self.site(place)

    def restore(self, place):
        """The site as it was, or with a journal that lost lines or has a line too many, and with a delta."""
        journal, draw = list(self.handles[place].journal), self.r.random()
        if journal and draw < 0.2:
            del journal[self.r.randrange(len(journal)):]
        elif draw < 0.4:
            journal.insert(self.r.randint(0, len(journal)), self.line())
        return [*self.site(place), b"\n".join(journal), self.accept(place)[0]]


# calls whose arguments go by what the handle has
PLACED = ["accept", "answer", "answer_part", "why", "digest", "entries", "journal_text", "messages_text_for",
          "newest_text", "open", "restore", "snapshot"]


def wrong(call, reply):
    """What differs, or None."""
    if reply.fields != call.fields or call.text is not None and call.text != reply.text:
        return f"{call.request}\n wanted {call.fields} {call.text}\n found {reply}"
    return None


def ran(program, before, seed, days):
    """What some days met, and what is wrong or None."""
    calls = [call for day in days for call in Day(random.Random(f"{seed} {day}")).calls]
    met = collections.Counter(call.request[0] for call in calls) + collections.Counter(call.fields.get("code")
                                                                                       for call in calls)
    met += collections.Counter(f"why {call.text[:2].decode()}" for call in calls if call.request[0] == "why"
                               and call.text)
    met.update(thing for call in calls for thing in call.met)
    words = ["null"] if days.start // DAYS_OF_A_RUN % 2 else []
    try:
        replies = driving.asked(program, [call.request for call in calls], before, words)
    except driving.Failed as failed:
        return len(calls), met, f"days {days}: {failed}"
    differ = [text for text in map(wrong, calls, replies) if text]
    return len(calls), met, f"days {days}, {len(differ)} calls: DIFFERS: {differ[0]}" if differ else None


def tried(program, before, seed, many):
    """How many calls were made, what they met, and what is wrong with them. Days are made up until there are as many
    calls."""
    made, met, failures, first = 0, collections.Counter(), [], 0
    workers = len(os.sched_getaffinity(0))
    with concurrent.futures.ProcessPoolExecutor(workers) as pool:
        while made < many:
            parts = [range(first + place * DAYS_OF_A_RUN, first + (place + 1) * DAYS_OF_A_RUN)
                     for place in range(workers)]
            first = parts[-1].stop
            for number, found, failed in pool.map(ran, *zip(*((program, before, seed, part) for part in parts))):
                made, met, failures = made + number, met + found, failures + [failed] * (failed is not None)
    return made, met, failures


def checked(name, program, before, seed, many):
    """How many calls passed, and how many runs of them failed. All has to be met if there are as many calls as usual,
    or more."""
    made, met, failures = tried(program, before, seed, many)
    things = [*CALLS, *NUMBERS, *REASONS, *FOR_BANKS]
    print(f"{made} calls {name}: " + ", ".join(f"{thing} {met[thing]}" for thing in things), flush=True)
    for failure in failures[:3]:
        print(failure, flush=True)
    missing = [thing for thing in things if not met[thing]] if many >= USUAL else []
    if missing:
        print(f"not met: {missing}", flush=True)
    return made if not failures else 0, len(failures) + len(missing)


def main():
    parser = argparse.ArgumentParser(usage=__doc__)
    cases.add_options(parser)
    asked = cases.chosen(parser.parse_args())
    many = asked.number or (LONG if asked.long else USUAL)
    print(f"python3 -m tests.embed.c_calls {' '.join(asked.words())}", flush=True)
    driving.end_if_missing()
    with driving.libraries() as folder:
        numbers = [checked("under the address sanitizer", driving.built_driver(folder, *driving.CHECKED), (),
                           asked.seed, many)]
        if shutil.which("valgrind"):
            plain = driving.built_driver(folder, "-O1", "-g", name="plain")
            numbers.append(checked("under valgrind", plain, driving.VALGRIND, asked.seed, min(many, OF_VALGRIND)))
        else:
            print("skipped: there is no command valgrind on this machine: apt-get install valgrind", flush=True)
    harness.end_with(numbers)


if __name__ == "__main__":
    main()
