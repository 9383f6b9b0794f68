"""hubs.py: made-up hubs, whose sites give each other deltas by files, and what their commands must answer by the
definitions.

Usage: python3 -m tests.property.hubs [--seed N] [--cases N]   (default: the number of today, as 20261127, and 300)

A hub has 2 to 5 sites. Their journals grow, with blank lines, refused lines, repeats, messages of other sites and lines
that break off. A site asks with its vector, as it is, as it was or as it never was. What another one cuts for it is
lost, comes late, twice or in another form, or is cut short or damaged. Each command is compared with
tests/oracle/exchange.py: the two outputs to the byte, and the status. No delta is refused with 42, 43 or 44, and sites
with equal vectors print equal archive texts. At the end the sites give each other all that is lacking. Then all print
one archive text, which has the messages of all journals.

One hub of five is not honest: a journal loses or changes lines, a delta is damaged so that it still is one, or a site
has another group. There only the answers are compared. What has to be met in 300 hubs and was not counts as failed. The
seed is printed: with it all is the same again.
"""
import argparse
import collections
import concurrent.futures
import datetime
import os
import pathlib
import random
import re
import tempfile
from tests import harness
from tests.oracle import exchange
from tests.oracle.status import archive_text, lines_of
from tests.property.messages import Pool, shuffled

CASES, STEPS, ENOUGH = 300, range(8, 33), 300
REFUSED_LINES = [b"", b" \t\r", b"{}", b"foo", b"[]", b'{"MsgNmId":"pacs.008"}', b"\xff"]
NO_VECTORS = ["", "1", "1:", "2:1,1:1", "1:1,1:1", "0:1", "1:01", "1:1,", "1025:1"]
TO_MEET = ["41", "42", "43", "44", "45", "a refused line", "fault 62", "fault 64", "two rounds",
           "three rounds", "an empty vector",
           "a delta twice", "a late delta", "form 1", "equal vectors", "equal bytes", "a message of two sites"]

Answer = collections.namedtuple("Answer", "text status")


class Differs(Exception):
    """The program did not answer as it must."""


class Hub:
    """The sites of a hub, with their files in a folder, and the program that they run."""

    def __init__(self, r, program, folder):
        self.r, self.program, self.folder, self.met = r, program, folder, collections.Counter()
        self.honest, self.sites = r.random() >= 1 / 5, r.randint(2, 5)
        pool = Pool(r)
        self.texts = [shuffled(r, pool.message()) for _ in range(r.randint(5, 60))]
        self.given = {site: [] for site in self.numbers()}  # the files that each site was sent
        self.late, self.asked, self.files = [], {site: "-" for site in self.numbers()}, 0
        self.archives = {}  # the archive text that was printed at each vector
        for site in self.numbers():
            self.journal(site).touch()

    def numbers(self):
        return range(1, self.sites + 1)

    def journal(self, site):
        return pathlib.Path(self.folder, f"journal{site}")

    def file(self, text):
        """The name of a new file with this text."""
        self.files += 1
        pathlib.Path(self.folder, f"delta{self.files}").write_bytes(text)
        return f"delta{self.files}"

    # ---- commands

    def run(self, *words):
        """What the program answers to these words, which is as it must be."""
        words = list(map(str, words))
        text, refused, status = exchange.answer(words, self.folder)
        found = harness.run([self.program, *words], cwd=self.folder)
        errors = found.errors.split(b"\n")[0] + b"\n" if status == 2 else found.errors
        if (found.text, errors, found.status) != (text.encode(), refused.encode(), status):
            raise Differs(f"{words}\n wanted {text!r}, {refused!r}, {status}\n found {found}")
        why = re.findall(r"^(?:file \d+: )?(\d+|fault \d+)", refused, re.M)
        if self.honest and {"42", "43", "44"}.intersection(why):
            raise Differs(f"{words} is refused with {why}")
        self.met.update(why)
        self.met["a refused line"] += refused.startswith("file 1 line")
        return Answer(text, status)

    def at(self, site, command, *more, files=None):
        """A command at a site, on its journal and on files that it was sent: on all, or on these."""
        files = self.given[site] if files is None else files
        self.met["a delta twice"] += len(set(files)) < len(files)
        return self.run(command, site, self.sites, *more, self.journal(site).name, *files).text

    # ---- what happens

    def append(self, site=None):
        """A site receives lines. Its last one may break off, and the next begin in a new line."""
        r, site = self.r, site or self.r.choice(self.numbers())
        data = self.journal(site).read_bytes()
        lines = [r.choice(self.texts) if r.random() < 0.8 else r.choice(REFUSED_LINES) for _ in range(r.randint(1, 6))]
        lines = [line + r.choice([b"", b"", b"\r"]) for line in lines]
        data += b"\n" if data and not data.endswith(b"\n") else b""
        data += b"".join(line + b"\n" for line in lines)
        if r.random() < 0.2:
            data += self.texts[0][:r.randint(1, len(self.texts[0]) - 1)]
        self.journal(site).write_bytes(data)
        self.at(site, "vector")

    def vector(self, site):
        """A vector that a site may ask with: what it has, what it once asked with, what it would have if all had come,
        or anything."""
        r, draw = self.r, self.r.random()
        if draw < 0.4:
            self.asked[site] = self.at(site, "vector").strip()
            self.met["an empty vector"] += self.asked[site] == "-"
        if draw < 0.85:
            return self.asked[site]
        origins = sorted(r.sample(range(1, self.sites + 3), r.choice([0, 0, 0, 1, 2, 3])))
        return ",".join(f"{origin}:{r.randint(0, 6)}" for origin in origins) or "-"

    def send(self):
        """A site cuts a delta for another one, which gets it now, later, twice, in another form, damaged or never."""
        r = self.r
        giver, taker = r.sample(self.numbers(), 2)
        text = self.at(giver, "cut", self.vector(taker)).encode()
        way = r.choice(["well", "well", "late", "late", "late", "twice", "lost", "damaged", "form 1"])
        if way in ("late", "lost"):
            self.asked[taker] = self.at(giver, "vector").strip()
            self.late += [(taker, self.file(text))] if way == "late" else []
        else:
            text = {"damaged": self.damaged, "form 1": self.in_form_1}.get(way, lambda same: same)(text)
            name = self.file(text)
            self.given[taker] += [name] * (2 if way == "twice" else 1)
            self.site(taker)
            if not is_delta(text) and r.random() < 0.5:
                self.given[taker].remove(name)

    def stream(self):
        """A site sends another one what is new again and again, without being asked. The deltas come in any order, and
        not all."""
        r = self.r
        giver, taker = r.sample(self.numbers(), 2)
        have, names = "-", []
        for _ in range(r.randint(2, 4)):
            names.append(self.file(self.at(giver, "cut", have).encode()))
            have = self.at(giver, "vector").strip()
            self.append(giver)
        self.given[taker] += r.sample(names, r.randint(1, len(names)))
        self.site(taker)

    def in_form_1(self, text):
        """The text of the same delta in form 1."""
        self.met["form 1"] += 1
        runs, lines = exchange.delta_in(text), text.split(b"\n")
        messages = [line for line in lines if line.startswith(b"{")]
        places = [(run.origin, n) for run in runs for n in range(run.first, run.first + len(run.messages))]
        entries = [b"entry %d %d %s\n" % (*place, line) for place, line in zip(places, messages)]
        return b"delta 1\n" + b"".join(entries) + b"end %d\n" % len(entries)

    def damaged(self, text):
        """A text with a wrong byte, or without some bytes or lines. In an honest hub it is no delta text."""
        r, lines = self.r, text.split(b"\n")
        place, line = r.randrange(len(text)), r.randrange(len(lines))
        wrong = r.choice([text[:place],
                          text[:place] + r.choice([b"0", b"1", b"9", b" ", b"\n", b"\xff"]) + text[place + 1:],
                          b"\n".join(lines[:line] + lines[line + 1:]), b"\n".join(lines[:line + 1] + lines[line:])])
        return text[:-1] if self.honest and is_delta(wrong) else wrong

    def arrive(self):
        """A delta that is late comes to its site, in any place among the files."""
        if self.late:
            site, name = self.late.pop(self.r.randrange(len(self.late)))
            self.given[site].insert(self.r.randint(0, len(self.given[site])), name)
            self.met["a late delta"] += 1
            self.site(site)

    def site(self, site):
        """A site writes its archive, with the files in some order, some of them again, and sometimes not all."""
        r, files = self.r, list(self.given[site])
        r.shuffle(files)
        files += r.sample(files, r.choice([0, 0, 1])) if files else []
        files = files[r.choice([0, 0, 0, 1]):]
        text, vector = (self.at(site, command, files=files) for command in ("site", "vector"))
        self.met["equal vectors"] += vector in self.archives
        if self.honest and self.archives.setdefault(vector, text) != text:
            raise Differs(f"two archive texts at {vector}")
        texts = [pathlib.Path(self.folder, name).read_bytes() for name in files]
        rounds = exchange.exchanged(site, self.sites, self.journal(site).read_bytes(), texts).rounds
        self.met["two rounds"] += rounds == 2
        self.met["three rounds"] += rounds > 2

    def forget(self):
        """A site keeps one whole cut in place of the files that it was sent, if none of them is refused."""
        site = self.r.choice(self.numbers())
        answer = self.run("cut", site, self.sites, "-", self.journal(site).name, *self.given[site])
        if answer.status == 0:
            self.given[site] = [self.file(answer.text.encode())]

    def mistake(self):
        """Words that ask for nothing, and a file that is not there."""
        r, site = self.r, self.r.choice(self.numbers())
        journal = self.journal(site).name
        self.run(*r.choice([
            ("site", 0, self.sites, journal), ("vector", self.sites + 1, self.sites, journal),
            ("site", site, 1025, journal),
            ("cut", site, self.sites, r.choice(NO_VECTORS), journal), ("site", site, self.sites, journal, "nowhere"),
            ("cut", site, self.sites, "-", "nowhere")]))

    def spoil(self):
        """What no honest hub has: a journal loses or changes a line, and the site is sent all that another one has; or
        a smaller group."""
        r, draw = self.r, self.r.random()
        giver, site = r.sample(self.numbers(), 2)
        if draw < 0.3:
            self.run("site", 1, r.randint(1, self.sites - 1), self.journal(site).name, *self.given[site])
            return
        lines = self.journal(site).read_bytes().split(b"\n")
        place = r.randrange(len(lines))
        lines[place:place + 1] = [] if draw < 0.6 else [r.choice(self.texts)]
        self.journal(site).write_bytes(b"\n".join(lines))
        self.given[site].append(self.file(self.at(giver, "cut", "-").encode()))
        self.site(site)

    def day(self):
        """All that happens, and what has to hold in the end."""
        r = self.r
        things = [self.append] * 5 + [self.send] * 8 + [self.arrive] * 3 + [self.stream, self.forget, self.mistake]
        things += [] if self.honest else [self.spoil] * 3
        for _ in range(r.choice(STEPS)):
            r.choice(things)()
        if self.honest:
            self.settle()

    def settle(self):
        """Each site is sent what it lacks: the first one by each other one, and then each by the first one. All must
        agree."""
        for giver, taker in [(site, 1) for site in self.numbers()[1:]] + [(1, site) for site in self.numbers()[1:]]:
            text = self.at(giver, "cut", self.at(taker, "vector").strip())
            self.given[taker].append(self.file(text.encode()))
        held = [messages_in(self.journal(site).read_bytes()) for site in self.numbers()]
        wanted = archive_text(set().union(*held))
        answers = {(self.at(site, "site"), self.at(site, "vector")) for site in self.numbers()}
        if len(answers) > 1 or answers.pop()[0] != wanted:
            raise Differs("the sites do not agree on the messages of all journals")
        self.met["equal bytes"] += 1
        self.met["a message of two sites"] += len(set().union(*held)) < sum(map(len, held))


def is_delta(text):
    """Whether a text is a delta text."""
    try:
        exchange.delta_in(text)
    except exchange.BadDelta:
        return False
    return True


def messages_in(journal):
    """The messages of a journal."""
    return {message for message, why in (exchange.message_in(line) for _, line in lines_of(journal)) if why is None}


def tried(program, seed, number):
    """What a hub met, and what differs in it or None."""
    with tempfile.TemporaryDirectory() as folder:
        hub = Hub(random.Random(f"{seed} {number}"), program, folder)
        try:
            hub.day()
        except Differs as differs:
            return hub.met, f"hub {number}: DIFFERS: {differs}"
    return hub.met, None


def main():
    words = argparse.ArgumentParser(usage=__doc__)
    words.add_argument("--seed", type=int, default=int(datetime.date.today().strftime("%Y%m%d")))
    words.add_argument("--cases", type=int, default=CASES)
    given = words.parse_args()
    program, met, failed = harness.program(), collections.Counter(), 0
    print(f"--seed {given.seed} --cases {given.cases}", flush=True)
    with concurrent.futures.ProcessPoolExecutor(len(os.sched_getaffinity(0))) as pool:
        hubs = [pool.submit(tried, program, given.seed, number) for number in range(given.cases)]
        for found, differs in (hub.result() for hub in hubs):
            met.update(found)
            failed += differs is not None
            if differs:
                print(differs, flush=True)
    print(f"{given.cases} hubs: " + ", ".join(f"{thing} {met[thing]}" for thing in TO_MEET))
    lacking = [thing for thing in TO_MEET if not met[thing]] if given.cases >= ENOUGH else []
    harness.end(given.cases - failed, failed + len(lacking))


if __name__ == "__main__":
    main()
