"""serve_hub.py: three sites that last are killed while clients send messages and deltas come late, again, in any order
or never.

Usage: python3 -m tests.serve.serve_hub [--seed N] [--cases N]   (default: today's number as the seed, and 400 events)

A client sends lines to any site, and again to any site what had no reply. A delta is the text of `? cut` above a vector
that the site told, now or before, or that it never had, or the text of `? entries` of one origin above a count of such
a vector. A site is killed in the middle of requests, of a cut or at rest, and starts again. No delta is refused but as
early. No number is told of two lines, and each told number is the place of its line in the journal. In the end each
site asks each other one for the entries of its number, a few at a time, until none comes: then all answer equal
vectors, archives, statuses and totals, which are those of all lines with a reply.
"""
import argparse
import collections
import itertools
import pathlib
import tempfile
import time
from tests import harness
from tests.harness import reported
from tests.oracle import status
from tests.oracle.exchange import message_in, vector_in
from tests.property import cases
from tests.serve.serving import Ended, Process, delta_line, kept
from tests.serve.streams import Requests

SITES, EVENTS = 3, 400
SHARES = {"instruction": 50, "confirmation": 30, "contradiction": 4, "repeat": 10, "refused_line": 3, "blank": 3}
TEXTS = {b"? archive": status.archive_text, b"? status": status.status_text, b"? totals": status.totals_text}
TO_MEET = ["TAKEN", "REPEAT", "REFUSED", "ACCEPTED", "ACCEPTED 0", "REFUSED 41",
           "a kill among lines", "a kill at a delta",
           "a kill at rest", "a kill at a cut", "sent again", "a late delta", "a delta twice",
           "a lost delta", "entries of one origin",
           "a text among the last"]


class Wrong(Exception):
    """Something that must not be."""


class Lines(Requests):
    """Lines of clients: no deltas and no questions."""

    def refused_line(self):
        return self.r.choice([b"{}", b"foo", b"\xff", b"site 1 3"])


class Hub:
    """Three sites, their journals, and what is on its way."""

    def __init__(self, r, program, folder):
        self.r, self.program, self.folder = r, program, pathlib.Path(folder)
        self.requests, self.again, self.running, self.met = Lines(r, 1, SITES, SHARES), [], {}, collections.Counter()
        self.acknowledged, self.numbers, self.vectors, self.late = set(), {}, {site: b"-" for site in self.sites()}, []
        self.least = {site: {} for site in self.sites()}  # of each origin, how many entries a site is known to have

    def sites(self):
        return range(1, SITES + 1)

    def journal(self, site):
        return self.folder / f"journal{site}"

    def at(self, site):
        """The process of a site, which is started if it does not run."""
        if site not in self.running:
            self.running[site] = Process(self.program, site, SITES, self.journal(site))
            word, _, vector = self.running[site].reply()[:-1].partition(b" ")
            if word != b"READY":
                raise Wrong(f"site {site} did not begin with READY")
            self.has(site, vector)
        return self.running[site]

    def has(self, site, vector):
        """Notes a vector of a site, which lacks nothing that the site had before."""
        now = vector_in(vector.decode())
        lost = {origin: count for origin, count in self.least[site].items() if now.get(origin, 0) < count}
        if lost:
            raise Wrong(f"site {site} has {vector!r}, and had {lost}")
        self.least[site] = now

    def vector(self, site):
        found = self.asked(site, b"? vector")
        self.has(site, found)
        return found

    def kill(self, site):
        """The replies that a site wrote before it was killed."""
        process = self.running.pop(site)
        with process:
            return process.kill()

    def killed_after(self, site, most_seconds, most_bytes=1 << 16):
        """The replies of a site that is killed after at least one write to it, of so many bytes at most."""
        latest = time.monotonic() + self.r.uniform(0, most_seconds)
        self.running[site].step(0.1, most_bytes)
        while time.monotonic() < latest:
            self.running[site].step(0.001, most_bytes)
        return self.kill(site)

    def asked(self, site, question):
        """The text that answers a question."""
        head, _, text = self.at(site).ask(question).partition(b"\n")
        if head != b"TEXT %d" % (len(text) - 1):
            raise Wrong(f"{question!r} at site {site}: {head!r}")
        return text[:-1]

    # ---- lines

    def give(self):
        """Lines are sent to a site. It may be killed among them, and what had no reply is sent again later."""
        r, site = self.r, self.r.choice(self.sites())
        self.met["sent again"] += bool(self.again)
        lines = self.again[:20] + [self.requests.made() for _ in range(r.randint(1, 8))]
        self.again = self.again[20:]
        process = self.at(site)
        process.send(b"".join(line + b"\n" for line in lines))
        if r.random() < 0.25:
            replies = self.killed_after(site, r.choice([0, 0.001, 0.01]), r.choice([50, 500, 1 << 16]))
            self.met["a kill among lines"] += len(replies) < len(lines)
        else:
            replies = [process.reply() for _ in lines]
        for line, reply in zip(lines, replies):
            self.acknowledge(site, line, reply)
        self.again += lines[len(replies):]

    def acknowledge(self, site, line, reply):
        """Notes what a line was replied, which is right."""
        message, why = message_in(line) if line.strip(b" \t\r") else (None, "")
        word, _, number = reply[:-1].partition(b" ")
        if message is None:
            right = reply == (b"REFUSED %s\n" % why.encode() if why else b"\n")
        else:
            right = word == b"TAKEN" or reply == b"REPEAT\n"
            self.acknowledged.add(message)
        if word == b"TAKEN":
            right = right and self.numbers.setdefault((site, int(number)), line) == line
            self.least[site][site] = max(self.least[site].get(site, 0), int(number))
        if not right:
            raise Wrong(f"{line!r} at site {site}: {reply!r}")
        self.met[word.decode()] += bool(word)

    # ---- deltas

    def cut(self):
        """A site cuts for another one. The delta comes now, late, twice or never."""
        r = self.r
        giver, taker = r.sample(self.sites(), 2)
        if r.random() < 0.5:
            self.vectors[taker] = self.vector(taker)
        have = self.vectors[taker] if r.random() < 0.8 else b"%d:%d" % (giver, r.randint(0, 40))
        if r.random() < 0.1:
            self.at(giver).send(b"? cut " + have + b"\n")
            self.at(giver).step(r.uniform(0, 0.002))
            self.kill(giver)
            self.met["a kill at a cut"] += 1
            return
        line = delta_line(self.asked(giver, b"? cut " + have if r.random() < 0.5 else self.entries(have)))
        way = r.choice(["now", "now", "late", "late", "twice", "lost"])
        self.met[{"late": "a late delta", "twice": "a delta twice", "lost": "a lost delta"}.get(way, way)] += 1
        if way == "lost":
            self.vectors[taker] = self.vector(giver)
        elif way == "late":
            self.late.append((taker, line))
            self.vectors[taker] = self.vector(giver)
        else:
            self.hand(taker, line)
        if way == "twice":
            self.hand(taker, line)

    def entries(self, have):
        """A question for entries of one origin above a vector."""
        origin = self.r.choice(self.sites())
        above = vector_in(have.decode()).get(origin, 0)
        self.met["entries of one origin"] += 1
        return b"? entries %d %d %d" % (origin, above, self.r.choice([1, 1500, 1 << 20]))

    def hand(self, site, line):
        """A delta is handed to a site, which may be killed at it."""
        process = self.at(site)
        if self.r.random() < 0.15:
            process.send(line + b"\n")
            replies = self.killed_after(site, self.r.choice([0, 0.001, 0.004]))
            self.met["a kill at a delta"] += not replies
        else:
            replies = [process.ask(line)]
        for reply in replies:
            early = reply.startswith(b"REFUSED 41 ")
            if not early and not reply.startswith(b"ACCEPTED "):
                raise Wrong(f"a delta at site {site}: {reply!r}")
            if not early and site in self.running and self.r.random() < 0.5:
                self.vector(site)
            self.met["REFUSED 41" if early else "ACCEPTED 0" if reply == b"ACCEPTED 0\n" else "ACCEPTED"] += 1

    def arrive(self):
        """A late delta comes, in any order."""
        if self.late:
            self.hand(*self.late.pop(self.r.randrange(len(self.late))))

    def rest(self):
        """A site is killed when it has nothing to do, or ends in peace."""
        site = self.r.choice(self.sites())
        process = self.at(site)
        if self.r.random() < 0.5:
            self.kill(site)
            self.met["a kill at rest"] += 1
        else:
            del self.running[site]
            with process:
                if process.end() != (b"", b"", 0):
                    raise Wrong(f"site {site} did not end well")

    # ---- the end

    def settle(self):
        """What had no reply is sent until it has one. Then each site asks each other one for its entries, until none
        comes."""
        while self.again:
            self.give()
        for giver, taker in itertools.permutations(self.sites(), 2):
            while self.catches_up(giver, taker):
                self.met["a text among the last"] += 1

    def catches_up(self, giver, taker):
        """Whether a site had entries of its own that another one lacked, of which it accepted the first."""
        above = vector_in(self.vector(taker).decode()).get(giver, 0)
        line = delta_line(self.asked(giver, b"? entries %d %d %d" % (giver, above, self.r.choice([1, 1500, 5000]))))
        reply = self.at(taker).ask(line)
        if line != b"delta 2\tend 0" and reply[:9] == b"ACCEPTED " and int(reply[9:]) > 0:
            return True
        if line == b"delta 2\tend 0" and reply == b"ACCEPTED 0\n":
            return False
        raise Wrong(f"{line[:80]!r} at site {taker} in the end: {reply!r}")

    def judged(self):
        """Whether all answer equal bytes, which are the right ones, and each told number is that of its line."""
        vectors = {self.vector(site) for site in self.sites()}
        yield "equal vectors", len(vectors) == 1
        for question, text_of in TEXTS.items():
            texts = {self.asked(site, question) for site in self.sites()}
            yield question[2:].decode(), texts == {text_of(self.acknowledged).encode()}
        for site in self.sites():
            self.kill(site)
        own = {site: [line for line in kept(self.journal(site))[1:] if not line.startswith(b"delta ")]
               for site in self.sites()}
        is_own = [own[site][number - 1:number] == [line] for (site, number), line in self.numbers.items()]
        yield "each number is that of its line", all(is_own)
        yield "each line of a journal is new to it", all(
            len({message_in(line)[0] for line in lines}) == len(lines) for lines in own.values())


def happened(hub, events):
    """Lets so many events happen. Why they went wrong, or None."""
    things = [hub.give] * 8 + [hub.cut] * 8 + [hub.arrive] * 4 + [hub.rest]
    try:
        for _ in range(events):
            hub.r.choice(things)()
        hub.settle()
    except (Wrong, Ended) as wrong:
        return str(wrong)[:3000]
    return None


def main():
    parser = argparse.ArgumentParser(usage=__doc__)
    cases.add_options(parser)
    asked, program = cases.chosen(parser.parse_args()), harness.program()
    events = asked.many(EVENTS)
    print(f"python3 -m tests.serve.serve_hub {' '.join(asked.words())}", flush=True)
    with tempfile.TemporaryDirectory() as folder:
        hub = Hub(asked.source("serve_hub"), program, folder)
        why = happened(hub, events)
        right = [reported(f"{events} events", why is None, why or "")]
        right += [reported(name, it) for name, it in hub.judged()] if why is None else []
        for site in list(hub.running):
            hub.kill(site)
    print(f"{len(hub.acknowledged)} messages: " + ", ".join(f"{thing} {hub.met[thing]}" for thing in TO_MEET),
          flush=True)
    missing = [thing for thing in TO_MEET if not hub.met[thing]] if events >= EVENTS and why is None else []
    harness.end_of([*right, *(reported(f"met: {thing}", False) for thing in missing)])


if __name__ == "__main__":
    main()
