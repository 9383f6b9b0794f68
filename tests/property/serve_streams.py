"""serve_streams.py: made-up streams of requests get the replies that the definitions say, and leave the journal that
they say.

Each of 200 streams goes to one site of a small group, in writes that are cut anywhere. There are messages that confirm,
recall and contradict each other, in any form, refused lines and lists, blank lines, repeats, deltas of peers, of the
site itself and of nobody, and all questions, also wrong ones. Lines are sent and questions are asked in the name of banks,
too. After a stream the site starts again on its journal, and gets another stream. tests/oracle/serve.py has each reply
to the byte, but for `? changes`, which tests/embed/model.py judges, and the bytes of the journal.

An answer for banks must also be that of the definitions on all that is held: tests/oracle/serve.py gives these only what
is near the transfer.
"""
import collections
import concurrent.futures
import os
import pathlib
import random
import re
import tempfile
from tests import harness
from tests.embed import model
from tests.oracle import exchange, rights, serve
from tests.oracle.status import identity, read_message, transfers
from tests.property import cases
from tests.property.messages import BANKS, Pool, shuffled
from tests.property.worlds import refused_list, refused_text
from tests.serve.serving import Ended, Process, delta_line, replies_in, restored
from tests.serve.streams import Requests

MANY, LIVES, MOST_REQUESTS = 200, 3, 80
DAYS = ["2024-05-02", "2024-05-03", "2024-5-2"]
BANKS_ASKED, TRANSFERS_ASKED = [*BANKS, "NOBODYXX", "bankdeff"], ["T1", "T2", "T9", "T 1", "/T"]
SHARES = {"message": 40, "repeat": 6, "refused_line": 5, "refused_recall": 2, "blank": 3,
          "delta": 8, "any_delta": 6, "damaged": 2,
          "question": 8, "one_question": 8, "entries": 6, "digest": 6, "digests": 4,
          "report": 3, "changes": 4, "wrong_question": 3, "as_banks": 30, "as_oddly": 4, "of_banks": 24, "of_oddly": 3}
QUESTIONS = [name.decode() for name in serve.CALLS]
TO_MEET = ["TAKEN", "REPEAT", "blank", "ACCEPTED 0", "ACCEPTED", "form 1", *(f"REFUSED {number}" for number in [
    31, 32, 33, 34, 35, 36, 37, 38, 41, 42, 43, 44, 45, 46, 48, 56, 64, 72, "73 1", "73 2", "73 3"]),
           *(f"? {name}" for name in QUESTIONS),
           "changes after changes", "no entries", "an entry without room", "some entries", "all entries",
           "a digest of none", "a digest of some", "a digest of all",
           *(f"as {it}" for it in ["TAKEN", "REPEAT", "WAITING", "FORBIDDEN sender", "FORBIDDEN originator",
                                   "FORBIDDEN beneficiary", "REFUSED 31", "REFUSED 33", "REFUSED 36", "REFUSED 56",
                                   "REFUSED 73 1"]),
           *(f"of {it}" for it in ["transfer", "messages", "bank", "report", "REFUSED 48", "REFUSED 64", "REFUSED 73 1",
                                   "REFUSED 73 2", "REFUSED 73 3", "REFUSED 79"]),
           "a transfer of theirs", "a transfer of others", "a recall in part", "an instruction to several banks",
           "an answer without its instruction is theirs", "a later transaction of others",
           "a contradiction by a message of others"]


class Mixed(Pool):
    """A pool of messages of which each bank is the originator bank as often as the others."""

    def debtor_bank(self):
        return self.r.choice(self.banks)


class Stream(Requests):
    """Requests of all kinds to one site."""

    def __init__(self, r, own, group):
        super().__init__(r, own, group, SHARES)
        self.own, self.pool, self.lines = own, r.choice([Pool, Mixed])(r), []
        self.messages = [self.pool.message() for _ in range(r.randint(5, 50))]
        self.messages += [self.rival(one) for one in r.sample(self.messages, len(self.messages) // 4)]

    def rival(self, message):
        """A message with the identity of another one, about another transfer of any banks. A list has other
        transactions."""
        r = self.r
        if "TxInf" in message:
            return {**message, "TxInf": r.choice([message["TxInf"][1:], []]) or self.pool.transactions()}
        banks = {key: r.choice(BANKS) for key in ("DbtrAgt", "CdtrAgt") if key in message}
        name = "TxId" if "TxId" in message else "OrgnlTxId"
        return {**message, **banks, name: r.choice([*self.pool.transfers, "T7", "T8"])}

    def text(self):
        return shuffled(self.r, self.r.choice(self.messages))

    def message(self):
        return self.around(self.text())

    def refused_line(self):
        draw = self.r.random()
        return super().refused() if draw < 0.4 else refused_text(self.r, self.r.choice(self.messages)) or b"foo"

    def refused_recall(self):
        return shuffled(self.r, refused_list(self.r, self.messages))

    def delta(self):
        return super().delta() if self.peers else self.any_delta()

    def any_delta(self):
        """A delta of any origins, the site itself and one above the group too."""
        r, runs = self.r, []
        for origin in sorted(r.sample(range(1, self.group + 2), r.randint(0, 2))):
            messages = [read_message(self.text()) for _ in range(r.randint(1, 3))]
            runs.append(exchange.Run(origin, r.choice([1, 1, 2, 3, 5]), messages))
        return delta_line(exchange.delta_text(runs).encode())

    def damaged(self):
        line = self.any_delta() if self.r.random() < 0.5 else self.delta()
        place = self.r.randrange(6, len(line))
        return line[:place] + self.r.choice([b"", b"0", b"1", b"\t", b"\r",
                                             b"\xff"]) + line[place + self.r.choice([0, 1]):]

    def one_question(self):
        r = self.r
        bank, transfer = r.choice(BANKS_ASKED), r.choice([*self.pool.transfers, *TRANSFERS_ASKED])
        return r.choice([f"? transfer {bank} {transfer}", f"? messages {bank} {transfer}", f"? bank {bank}"]).encode()

    def entries(self):
        """Entries of some origin above some count, in room for none of them, for some or for all."""
        r = self.r
        most = r.choice([1, r.randint(1, 5000), r.randint(1, 5000), 10 ** 6, 67_108_863, 0, 67_108_864])
        return b"? entries %d %d %d" % (r.choice([self.own, r.randint(0, self.group + 1)]),
                                        r.choice([0, 0, 1, 2, r.randint(0, 20)]), most)

    def digest(self):
        """A digest of some origin at some count, which the site may not hold."""
        r = self.r
        return b"? digest %d %d" % (r.choice([self.own, r.randint(0, self.group + 1)]),
                                    r.choice([0, 1, 2, r.randint(0, 20)]))

    def digests(self):
        return b"? digests"

    def report(self):
        r = self.r
        rows = [[r.choice(BANKS), r.choice(self.pool.transfers),
                 r.choice([*self.pool.amounts, "7"]), r.choice(model.WORDS)]
                for _ in range(r.randint(0, 5))]
        if rows and r.random() < 0.2:
            r.choice(rows)[r.randrange(4)] = r.choice(["", "x"])
        header = [model.HEADER] if r.random() < 0.9 else []
        text = "\t".join(",".join(row) for row in header + rows) + r.choice(["", "\t"])
        return f"? report {r.choice(BANKS_ASKED)} {r.choice(DAYS)} {text}".encode()

    def changes(self):
        return b"? changes"

    def banks(self):
        """A text that lists banks, each in either form."""
        r = self.r
        some = r.sample(BANKS, r.choice([1, 1, 1, 2, 3])) + r.choice([[], [], ["NOBODYXX"]])
        return ",".join(bank + r.choice(["", "XXX"]) for bank in some).encode()

    def as_banks(self):
        """A message in the name of banks, which may be its own, or a line that is none."""
        draw = self.r.random()
        line = self.message() if draw < 0.85 else self.refused_line() if draw < 0.95 else self.refused_recall()
        return b"as %s %s" % (self.banks(), line)

    def as_oddly(self):
        """A line in the name of no banks, or what is no message in the name of some."""
        r = self.r
        banks = r.choice([b"", b"X", b"BANKDEFF,", b",BANKDEFF", b"BANKDEFF,bankdeff", b",".join([b"BANKDEFF"] * 17)])
        others = [self.one_question(), self.any_delta(), b"as BANKDEFF " + self.text(), super().blank()]
        return r.choice([b"as %s %s" % (banks, self.text()), b"as %s %s" % (self.banks(), r.choice(others)),
                         b"as %s" % self.banks(), b"as "])

    def of_banks(self):
        line = self.report() if self.r.random() < 0.2 else self.one_question()
        return b"? of %s %s" % (self.banks(), line[2:])

    def of_oddly(self):
        """A question for no banks, or one that is not asked for banks."""
        r = self.r
        banks = r.choice([b"", b"x", b"BANKDEFF;BANQFRPP", self.banks()])
        line = r.choice([self.one_question(), self.digest(), self.digests(), self.wrong_question(), b"? status"])
        return r.choice([b"? of %s %s" % (banks, line[2:]), b"? of %s" % banks, b"? of"])


def room_of(line, wanted, site):
    """What a question for entries meets that has numbers for words, by the text that it must have."""
    origin, above, room = map(int, line.split(b" ")[2:])
    text = wanted.partition(b"\n")[2][:-1]
    runs = exchange.delta_in(text)
    if not runs:
        return "no entries"
    if len(text) > room:
        return "an entry without room"
    return "all entries" if site.have(origin) == above + len(runs[0].messages) else "some entries"


def part_of(line, site):
    """Of which part of an origin's entries a question asks the digest."""
    origin, count = map(int, line.split(b" ")[2:])
    return "a digest of none" if count == 0 else "a digest of all" if count == site.have(origin) else "a digest of some"


class Differs(Exception):
    """The program did not reply as it must."""


def kind_of(line, reply):
    """What a reply meets."""
    if line.startswith(b"? ") and reply.startswith(b"TEXT"):
        return line.split(b" ")[0].decode() + " " + line.split(b" ")[1].decode()
    text = reply[:-1].decode(errors="replace")
    if text in ("", "ACCEPTED 0"):
        return text or "blank"
    number = re.match(r"REFUSED (73 \d|\d+)|FORBIDDEN \w+", text)
    return number.group() if number else text.partition(" ")[0]


def kinds_of(line, reply, site):
    """What a request meets by its reply, and by what the site holds."""
    if line.startswith(b"as "):
        later = reply.startswith(b"FORBIDDEN originator") and reply != b"FORBIDDEN originator 1\n"
        return [f"as {kind_of(b'', reply)}", *(["a later transaction of others"] if later else [])]
    if not line.startswith(b"? of "):
        return [kind_of(line, reply)]
    if not reply.startswith(b"TEXT"):
        return [f"of {kind_of(b'', reply)}"]
    _, _, banks, name, *words = line.split(b" ")
    banks = rights.banks_in(banks.decode())
    return [f"of {name.decode()}", *met_on(banks, model.transfer(words[0], b" ".join(words[1:])), name, reply, site)
            ] if name in (b"transfer", b"messages") else [f"of {name.decode()}"]


def met_on(banks, its, name, reply, site):
    """What a question for banks on a transfer meets. Its answer must be that of the definitions on all that is held."""
    texts = {b"transfer": rights.transfer_text, b"messages": rights.messages_text}
    text = texts[name](banks, site.messages, its).encode()
    if reply != b"TEXT %d\n%s\n" % (len(text), text):
        raise Differs(f"{name!r} of {banks} on {its}: the definitions have {text!r}")
    is_theirs = rights.is_theirs(banks, site.messages, its)
    yield "a transfer of theirs" if is_theirs else "a transfer of others"
    if is_theirs and its[0].decode() not in banks and not rights.instructions(site.messages, its):
        yield "an answer without its instruction is theirs"
    seen = rights.on_transfer(rights.visible_on(banks, site.messages, its), its)
    if name == b"messages" and any(rights.shown(banks, site.messages, one) != one for one in seen):
        yield "a recall in part"
    rivals = [one for one in rights.visible(banks, site.messages) if identity(one) in set(map(identity, seen))]
    if any(not any(rights.is_theirs(banks, site.messages, key) for key in transfers(one)) for one in rivals):
        yield "a contradiction by a message of others"
    if len({dict(one[2][0])["CdtrAgt"] for one in seen if one[0] == "pacs.008"}) > 1:
        yield "an instruction to several banks"


def is_right(line, wanted, found, before, now):
    """Whether a reply is right, to the byte. Changes are those between what was held when they were asked for before,
    and now."""
    if line != b"? changes":
        return found == wanted
    head, _, text = found.partition(b"\n")
    return head == b"TEXT %d" % (len(text) - 1) and model.is_right_about_changes(before, now, text[:-1])


def life(r, program, path, stream, site, met):
    """One life of a site, with a stream of requests."""
    own, group = site
    lines = serve.kept_in(path.read_bytes())[0] if path.exists() else [serve.header(own, group)]
    serving = restored(own, group, lines[1:])
    requests = [stream.made() for _ in range(r.randint(1, MOST_REQUESTS))]
    data = b"".join(line + b"\n" for line in requests) + r.choice([b"", b"", b"? vector", b"{", b" "])
    most = r.choice([3, 40, 400, 4000, 1 << 16])
    with Process(program, own, group, path) as process:
        process.send(data)
        while process.unsent and process.is_open:
            process.step(0.1, r.randint(1, most))
        answer = process.end()
    replies, rest = replies_in(answer.text)
    if (replies[:1], rest, answer.errors, answer.status, len(replies)) != ([serving.ready()], b"", b"", 0,
                                                                           len(requests) + 1):
        raise Differs(f"{len(requests)} requests, {len(replies)} replies, {replies[:1]}, {rest!r}, {answer.errors}, "
                      f"{answer.status}")
    for line, found in zip(requests, replies[1:]):
        before = serving.handle.watched
        wanted, brings = serving.reply(line)
        if not is_right(line, wanted, found, before, frozenset(serving.site.messages)):
            raise Differs(f"{line!r}\n wanted {wanted!r}\n found {found!r}")
        lines += [serve.kept_of(line)] if brings else []
        met.update(kinds_of(line, wanted, serving.site))
        if line.startswith(b"? entries ") and wanted.startswith(b"TEXT"):
            met[room_of(line, wanted, serving.site)] += 1
        if line.startswith(b"? digest ") and wanted.startswith(b"TEXT"):
            met[part_of(line, serving.site)] += 1
        met["form 1"] += line.startswith(b"delta 1") and wanted.startswith(b"ACCEPTED")
        met["changes after changes"] += line == b"? changes" and before is not None and wanted != b"TEXT 0\n\n"
    if path.read_bytes() != serve.gated(lines):
        raise Differs("the journal has other bytes")


def tried(program, seed, number):
    """What a stream met, and what differs in it or None."""
    r, met = random.Random(f"serve {seed} {number}"), collections.Counter()
    group = r.randint(1, 4)
    site = r.randint(1, group), group
    with tempfile.TemporaryDirectory() as folder:
        try:
            stream = Stream(r, *site)
            for _ in range(LIVES):
                life(r, program, pathlib.Path(folder, "journal"), stream, site, met)
        except (Differs, Ended) as differs:
            return met, f"stream {number}: DIFFERS: {differs}"[:3000]
    return met, None


def main():
    asked, program = cases.asked(__doc__), harness.program()
    met, failed, many = dict.fromkeys(TO_MEET, 0), 0, 0
    with concurrent.futures.ProcessPoolExecutor(len(os.sched_getaffinity(0))) as pool:
        numbers = range(1, asked.many(MANY) + 1)
        for found, differs in pool.map(tried, [program] * len(numbers), [asked.seed] * len(numbers), numbers):
            many += 1
            failed += differs is not None
            for thing, times in found.items():
                met[thing] = met.get(thing, 0) + times
            if differs:
                print(differs, flush=True)
    print(f"{many} streams: " + ", ".join(f"{thing} {met[thing]}" for thing in TO_MEET))
    missed = [thing for thing in TO_MEET if not met[thing]] if many >= MANY else []
    harness.end(many - failed, failed + len(missed))


if __name__ == "__main__":
    main()
