"""groups.py: made-up groups of sites, and what settling must make of them by the definitions.

Each of 300 groups has up to 5 sites. They take messages and then hold beginnings of the entries of other sites, also of
sites that are not there. Two of three groups have a fault: a fork, in which two sites hold different messages under one
number; entries ahead of the site that they come from; two sites of one number; sites of two groups.
tests/oracle/replay.py has sites as sets of entries: whole sets are handed to the first site and then from it to each.
`judged` then asks, by the sets alone, whether settling may end so.
"""
from itertools import groupby
from tests.oracle.replay import counted, place, refusal
from tests.oracle.status import archive_text, read_message, transactions_of, written
from tests.property.messages import Pool, shuffled
from tests.property.tries import Try

MANY = 300
TO_MEET = ["SETTLED", "REFUSED|42", "REFUSED|43", "REFUSED|44", "no site", "one site", "two sites of one number",
           "sites of two groups", "a fork in what is not settled", "entries handed over before a refusal",
           "a recall of several transactions"]


class Site:
    """A site: its number, its group and its entries, and the lines that make it."""

    def __init__(self, number, group):
        self.number, self.group, self.held = number, group, frozenset()
        self.lines = [b"site %d %d" % (number, group)]

    def take(self, text):
        message = read_message(text)
        self.lines.append(b"take " + text)
        if message not in {held for _, _, held in self.held}:
            self.held |= {(self.number, counted(self.held).get(self.number, 0) + 1, message)}

    def hold(self, origin, text):
        """Holds a message as the next entry of another site."""
        n = counted(self.held).get(origin, 0) + 1
        self.lines.append(b"hold %d %d " % (origin, n) + text)
        self.held |= {(origin, n, read_message(text))}

    def accept(self, delta):
        """Why the site refuses a delta, or None. If it does not, it has the entries."""
        refused = refusal(self.held, self.number, self.group, delta)
        if not refused:
            self.held |= delta
        return refused


# ---- made-up groups

def numbers_of(r, group):
    """The numbers of the sites: each once, and in some groups one of them twice."""
    numbers = r.sample(range(1, group + 1), r.choice([0, 1] + [min(3, group), group] * 3))
    if numbers and r.random() < 0.1:
        numbers.append(r.choice(numbers))
    return numbers


def log_of(r, texts):
    """The messages of a site, each once."""
    return r.sample(texts, r.randint(0, min(4, len(texts))))


def begun(r, log, texts, wrong):
    """A beginning of a log. One that is made wrong has another message somewhere, or goes past its end."""
    log = log[:r.randint(0, len(log))]
    if wrong == "fork" and log:
        log[r.randrange(len(log))] = r.choice(texts)
    if wrong == "ahead":
        log += r.sample(texts, r.randint(1, 2))
    return log


def made_up_group(r):
    """The sites, as they are before they are settled."""
    group, pool = r.randint(2, 5), Pool(r)
    texts = [shuffled(r, pool.message()) for _ in range(r.randint(4, 12))]
    logs = {origin: log_of(r, texts) for origin in range(1, group + 1)}
    numbers = numbers_of(r, group)
    sites = [Site(number, group) for number in numbers]
    if sites and r.random() < 0.06:
        sites[-1] = Site(numbers[-1], group + 1)
    wrong = r.choice(["nothing", "fork", "ahead"])
    for site in sites:
        for text in logs[site.number]:
            site.take(text)
    own = {site.number: [entry[2] for entry in sorted(site.held, key=place)] for site in sites}
    for site in sites:
        for origin in r.sample(range(1, group + 1), group):
            if origin != site.number:
                known = [text for text in logs[origin] if origin not in own or read_message(text) in own[origin]]
                for text in begun(r, known, texts, wrong if r.random() < 0.2 else "nothing"):
                    site.hold(origin, text)
    return sites


# ---- what the definitions say

def handed_on(sites):
    """Each pair of a site that hands over all that it holds and one that is handed it, in order."""
    yield from ((site, sites[0]) for site in sites[1:])
    yield from ((sites[0], site) for site in sites[1:])


def settled(sites):
    """Why settling is refused, with the fields after the number, or None. The sites have what they were handed."""
    if len({site.number for site in sites}) < len(sites) or len({site.group for site in sites}) > 1:
        return [44]
    for giver, taker in handed_on(sites):
        refused = taker.accept(giver.held)
        if refused:
            return refused
    return None


def forks(entries):
    """The places that two different messages have."""
    at = {}
    for entry in entries:
        at.setdefault(place(entry), set()).add(entry[2])
    return {where for where, messages in at.items() if len(messages) > 1}


def ahead(sites, before):
    """The numbers of entries that come from one of the sites and that it has not."""
    own = {site.number: counted(held).get(site.number, 0) for site, held in zip(sites, before)}
    return {n for held in before for origin, n, _ in held if n > own.get(origin, n)}


def judged(sites, before, refused):
    """Fails unless settling may end so: by what the sites held before and hold now, however it is done."""
    union = frozenset().union(*before)
    for site, held in zip(sites, before):
        assert held <= site.held <= union
        assert {e for e in site.held if e[0] == site.number} == {e for e in held if e[0] == site.number}
    wrong = {42: forks(union), 43: ahead(sites, before)}
    if refused is None:
        assert not wrong[42] and not wrong[43] and all(site.held == union for site in sites)
    elif refused == [44]:
        assert [site.held for site in sites] == before
    else:
        assert (refused[1] if refused[0] == 43 else tuple(refused[1:])) in wrong[refused[0]]


# ---- tries

def group_lines(origin, entries):
    """The lines of an origin in form 2 of the delta text."""
    messages = "".join(f"{written(message)}\n" for _, _, message in entries)
    return f"origin {origin} {entries[0][1]} {len(entries)}\n{messages}"


def held_text(site):
    """What a site holds, as a delta text and as an archive text."""
    held = sorted(site.held, key=place)
    groups = groupby(held, key=lambda entry: entry[0])
    lines = "".join(group_lines(origin, list(entries)) for origin, entries in groups)
    archive = archive_text({message for _, _, message in site.held})
    return f"C|{site.number}\ndelta 2\n{lines}end {len(held)}\n{archive}"


def met_in(sites, before, refused):
    """What a group shows."""
    yield "|".join(map(str, ["REFUSED", *refused][:2])) if refused else "SETTLED"
    if len(sites) < 2:
        yield ["no site", "one site"][len(sites)]
    if len({site.number for site in sites}) < len(sites):
        yield "two sites of one number"
    if len({site.group for site in sites}) > 1:
        yield "sites of two groups"
    if refused and forks(frozenset().union(*before)):
        yield "a fork in what is not settled"
    if refused and before != [site.held for site in sites]:
        yield "entries handed over before a refusal"
    if any(len(transactions_of(message)) > 1 for site in sites for _, _, message in site.held):
        yield "a recall of several transactions"


def tries(r, number):
    """The try of the group with this number, with what it meets."""
    sites = made_up_group(r)
    before = [site.held for site in sites]
    refused = settled(sites)
    judged(sites, before, refused)
    asked = b"\n".join([line for site in sites for line in site.lines] + [b"settle\n"])
    ended = "|".join(map(str, ["REFUSED", *refused])) if refused else "SETTLED"
    yield Try(f"group {number}", asked, ended + "\n" + "".join(map(held_text, sites))), met_in(sites, before, refused)
