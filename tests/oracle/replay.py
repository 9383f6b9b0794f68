"""What `replay` must answer for a script, by the definitions alone: text, refused lines, exit status.

Usage: tests/oracle/replay.py replay < SCRIPT

A site is a set of entries, each an origin, a number and a message, and nothing else: no log, no archive, no view. Its
answers are those of the set of its messages (status.py).
"""
import pathlib
import re
import sys
sys.path.insert(0, str(pathlib.Path(__file__).resolve().parents[2]))
from tests.oracle.status import Refused, archive_text, lines_of, read_message, status_text, totals_text, end_on

MOST_SITES = 1024


class NoEvent(Exception):
    pass


# ---- the fields of a line

def number(text, below=2 ** 64):
    if not re.fullmatch(rb"0|[1-9][0-9]*", text) or int(text) >= below:
        raise NoEvent
    return int(text)


def site_named(text):
    return number(text, 2 ** 16)


def parted(text, at):
    """The two parts of a text around its first such byte."""
    first, found, rest = text.partition(at)
    if not found:
        raise NoEvent
    return first, rest


def pair(text):
    origin, count = parted(text, b":")
    return site_named(origin), number(count)


def vector(text):
    """How many entries of each origin it counts."""
    pairs = [] if text == b"-" else [pair(part) for part in text.split(b",")]
    origins = [origin for origin, _ in pairs]
    if any(not 1 <= origin <= MOST_SITES for origin in origins) or origins != sorted(set(origins)):
        raise NoEvent
    return dict(pairs)


# ---- a line

def event(line):
    """The event of a line. Raises what the line is refused for."""
    word, rest = parted(line, b" ")
    if word == b"take":
        site, json = parted(rest, b" ")
        return "take", site_named(site), read_message(json)
    if word == b"cut":
        site, counts = parted(rest, b" ")
        return "cut", site_named(site), vector(counts)
    if word == b"hand":
        delta, site = parted(rest, b" ")
        return "hand", site_named(site), number(delta)
    raise NoEvent


def size(line):
    """How many sites a first line has, or None."""
    try:
        word, count = parted(line, b" ")
        sites = number(count)
    except NoEvent:
        return None
    return sites if word == b"sites" and 1 <= sites <= MOST_SITES else None


# ---- worlds: what a site holds is a set of (origin, number, message)

def counted(entries):
    counts = {}
    for origin, _, _ in entries:
        counts[origin] = counts.get(origin, 0) + 1
    return counts


def place(entry):
    return entry[:2]


def refusal(held, own, group, delta):
    """Why a site refuses a delta, with the fields after the number, or None."""
    have = counted(held)
    ordered = sorted(delta, key=place)
    if any(origin > group for origin, _, _ in ordered):
        return [44]
    ahead = [n for origin, n, _ in ordered if origin == own and n > have.get(own, 0)]
    if ahead:
        return [43, ahead[0]]
    for origin in sorted({origin for origin, _, _ in ordered}):
        first = min(n for o, n, _ in ordered if o == origin)
        if first > have.get(origin, 0) + 1:
            return [41, origin, have.get(origin, 0), first]
    at = {place(entry): entry[2] for entry in held}
    forks = [place(entry) for entry in ordered if at.get(place(entry), entry[2]) != entry[2]]
    return [42, *forks[0]] if forks else None


class World:
    def __init__(self, sites):
        self.held = {site: frozenset() for site in range(1, sites + 1)}
        self.deltas = []

    def step(self, kind, site, what):
        """What an event is answered, as the fields of its line. One that is refused changes nothing."""
        if site not in self.held:
            return ["REFUSED", 44]
        held = self.held[site]
        if kind == "take":
            if what in {message for _, _, message in held}:
                return ["REPEAT"]
            n = counted(held).get(site, 0) + 1
            self.held[site] = held | {(site, n, what)}
            return ["TAKEN", n]
        if kind == "cut":
            self.deltas.append(frozenset(entry for entry in held if entry[1] > what.get(entry[0], 0)))
            return ["CUT", len(self.deltas), len(self.deltas[-1])]
        if not 1 <= what <= len(self.deltas):
            return ["REFUSED", 47]
        delta = self.deltas[what - 1]
        refused = refusal(held, site, len(self.held), delta)
        if refused:
            return ["REFUSED", *refused]
        self.held[site] = held | delta
        return ["ACCEPTED", len(delta - held)]


# ---- the whole

def answer(data):
    """The text, the refused lines and the exit status."""
    lines = lines_of(data)
    sites = size(lines[0][1]) if lines else None
    if sites is None:
        return "", "fault 64\n", 2
    world, text, refused, events = World(sites), [], [], 0
    for n, line in lines[1:]:
        try:
            happening = event(line)
        except NoEvent:
            refused.append(f"line {n}: 64\n")
        except Refused as e:
            refused.append(f"line {n}: {e}\n")
        else:
            events += 1
            text.append("|".join(map(str, ["E", events, *world.step(*happening)])) + "\n")
    for site, held in world.held.items():
        messages = {message for _, _, message in held}
        text += [f"S|{site}\n", archive_text(messages), status_text(messages), totals_text(messages)]
    return "".join(text), "".join(refused), 1 if refused else 0


if __name__ == "__main__":
    end_on(answer, sys.argv[1:] == ["replay"])
