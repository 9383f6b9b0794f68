"""What `site`, `vector`, `digests` and `cut` must answer, by the definitions alone: text, refused lines and files, exit
status.

Usage: tests/oracle/exchange.py site SITE SITES JOURNAL [DELTA]..
       tests/oracle/exchange.py vector SITE SITES JOURNAL [DELTA]..
       tests/oracle/exchange.py digests SITE SITES JOURNAL [DELTA]..
       tests/oracle/exchange.py cut SITE SITES HAVE JOURNAL [DELTA]..

It takes the words of the program, writes what the program must write, and ends as it must. It has no help, and after
`fault 64` no text of clap. A site is a list of messages for each origin. A delta is a list of runs, each an origin, a
first number and messages.
"""
import collections
import functools
import os
import pathlib
import re
import sys
sys.path.insert(0, str(pathlib.Path(__file__).resolve().parents[2]))
from tests.oracle.digests import Chains
from tests.oracle.status import Refused, archive_text, end_with, lines_of, read_message, written

MOST_BYTES, MOST_SITES, MOST_SITES_OF_FORM_1, BELOW = 1 << 30, 1024, 64, 1 << 64

Run = collections.namedtuple("Run", "origin first messages")
# rounds: the number of those in which a delta was accepted
Ended = collections.namedtuple("Ended", "site refused rounds")


class Fault(Exception):
    """What ends a run without an answer."""


class BadDelta(Exception):
    """A text is no delta text. It has the number of the first wrong line."""


@functools.lru_cache(maxsize=1 << 16)
def message_in(line):
    """The message of a line, or the text of its refusal."""
    try:
        return read_message(line), None
    except Refused as refused:
        return None, str(refused)


# ---- words

def number(text):
    """The number that a word is, or None."""
    return int(text) if re.fullmatch("0|[1-9][0-9]{0,19}", text) and int(text) < BELOW else None


def site_in(text, most=MOST_SITES):
    """The number of a site of so many, which a word must be."""
    found = number(text)
    if found is None or not 1 <= found <= most:
        raise Fault(64)
    return found


def vector_in(text):
    """How many entries of each origin a vector counts."""
    pairs = [] if text == "-" else [pair.split(":") for pair in text.split(",")]
    if any(len(pair) != 2 or number(pair[1]) is None for pair in pairs):
        raise Fault(64)
    origins = [site_in(origin) for origin, _ in pairs]
    if origins != sorted(set(origins)):
        raise Fault(64)
    return {origin: number(count) for origin, (_, count) in zip(origins, pairs)}


def plain(words):
    """The words without the mark after which none is an option. Any option is a mistake."""
    place = words.index("--") if "--" in words else len(words)
    if any(word.startswith("-") and word != "-" for word in words[:place]):
        raise Fault(64)
    return words[:place] + words[place + 1:]


def read(path):
    """The bytes of a file."""
    try:
        with open(path, "rb") as file:
            data = file.read(MOST_BYTES + 1)
    except OSError:
        raise Fault(62)
    if len(data) > MOST_BYTES:
        raise Fault(60)
    return data


# ---- delta texts

class Lines:
    """The lines of a text, which are taken one after another. Each must end with a line feed."""

    def __init__(self, data):
        self.lines, self.taken = data.split(b"\n"), 0

    def next(self):
        self.taken += 1
        self.must(self.taken < len(self.lines))
        return self.lines[self.taken - 1]

    def must(self, is_right):
        """Fails with the line that was taken last if it is wrong."""
        if not is_right:
            raise BadDelta(self.taken)

    def numbers(self, fields):
        """The numbers of some fields of the line that was taken last."""
        found = [number(field.decode("latin-1")) for field in fields]
        self.must(None not in found)
        return found

    def message(self, line):
        """The message in a line, or in the rest of one."""
        message, refused = message_in(line)
        self.must(refused is None)
        return message

    def end(self, fields, many):
        """Takes the last line of a delta of so many entries."""
        self.must(len(fields) == 2 and self.numbers(fields[1:]) == [many])
        self.taken += 1
        self.must(self.lines[self.taken - 1:] == [b""])


def form_1(lines):
    """The runs of the lines after the first, each of which is one entry."""
    runs, many = [], 0
    while True:
        fields = lines.next().split(b" ", 3)
        if fields[0] == b"end":
            lines.end(fields, many)
            return runs
        lines.must(fields[0] == b"entry" and len(fields) == 4)
        origin, n = lines.numbers(fields[1:3])
        last = runs[-1] if runs else Run(0, 0, [])
        lines.must(1 <= origin <= MOST_SITES_OF_FORM_1 and n >= 1)
        lines.must(n == last.first + len(last.messages) if origin == last.origin else origin > last.origin)
        if origin > last.origin:
            runs.append(Run(origin, n, []))
        runs[-1].messages.append(lines.message(fields[3]))
        many += 1


def form_2(lines):
    """The runs of the lines after the first."""
    runs = []
    while True:
        fields = lines.next().split(b" ")
        if fields[0] == b"end":
            lines.end(fields, sum(len(run.messages) for run in runs))
            return runs
        lines.must(fields[0] == b"origin" and len(fields) == 4)
        origin, first, count = lines.numbers(fields[1:])
        lines.must((runs[-1].origin if runs else 0) < origin <= MOST_SITES)
        lines.must(first >= 1 and count >= 1 and first + count <= BELOW)
        messages = []
        while len(messages) < count:
            messages.append(lines.message(lines.next()))
        runs.append(Run(origin, first, messages))


def delta_in(data):
    """The runs of a delta text."""
    lines = Lines(data)
    line = lines.next()
    lines.must(line in (b"delta 1", b"delta 2"))
    return (form_1 if line == b"delta 1" else form_2)(lines)


@functools.lru_cache(maxsize=1 << 16)
def line_of(message):
    """The line of a message in a delta text."""
    return written(message) + "\n"


def delta_text(runs):
    """The text of a delta, in form 2."""
    text = ["delta 2\n"]
    for origin, first, messages in runs:
        text += [f"origin {origin} {first} {len(messages)}\n", *map(line_of, messages)]
    return "".join([*text, f"end {sum(len(messages) for _, _, messages in runs)}\n"])


def front_of(run, most):
    """As many entries of a run as a delta text of so many bytes has room for, and one at least."""
    size = 0
    for count, message in enumerate(run.messages, 1):
        size += len(line_of(message).encode())
        if count > 1 and size + len(f"delta 2\norigin {run.origin} {run.first} {count}\nend {count}\n") > most:
            return run._replace(messages=run.messages[:count - 1])
    return run


# ---- a site

class Site:
    """A site: its number, its group, and the messages of each origin in the order of their numbers."""

    def __init__(self, own, group):
        self.own, self.group, self.logs, self.messages = own, group, {}, set()

    def have(self, origin):
        return len(self.logs.get(origin, []))

    def hold(self, origin, message):
        self.logs.setdefault(origin, []).append(message)
        self.messages.add(message)

    def take(self, message):
        if message not in self.messages:
            self.hold(self.own, message)

    def refusal(self, runs):
        """Why the site refuses a delta, as the fields that are printed, or None."""
        if any(run.origin > self.group for run in runs):
            return [44]
        for origin, first, messages in runs:
            if origin == self.own and first + len(messages) > self.have(origin) + 1:
                return [43, max(first, self.have(origin) + 1)]
        for origin, first, _ in runs:
            if first > self.have(origin) + 1:
                return [41, origin, self.have(origin), first]
        for origin, first, messages in runs:
            for n, message in enumerate(messages, first):
                if n <= self.have(origin) and self.logs[origin][n - 1] != message:
                    return [42, origin, n]
        return None

    def accept(self, runs):
        """Takes over the entries of a delta that are not held."""
        for origin, first, messages in runs:
            for n, message in enumerate(messages, first):
                if n > self.have(origin):
                    self.hold(origin, message)

    def vector_text(self):
        return ",".join(f"{origin}:{len(log)}" for origin, log in sorted(self.logs.items())) or "-"

    def above(self, have):
        """The entries above a vector, as runs."""
        logs = ((origin, have.get(origin, 0), log) for origin, log in sorted(self.logs.items()))
        return [Run(origin, held + 1, log[held:]) for origin, held, log in logs if len(log) > held]

    def entries(self, origin, above, most):
        """The entries of an origin above a count that a delta text of so many bytes has room for, as runs."""
        lacking = self.logs.get(origin, [])[above:]
        return [front_of(Run(origin, above + 1, lacking), most)] if lacking else []


# ---- a run

def taken(site, data):
    """Takes the messages of a journal, and returns its refused lines."""
    refused = []
    for n, line in lines_of(data):
        message, why = message_in(line)
        if why is None:
            site.take(message)
        else:
            refused.append(f"file 1 line {n}: {why}\n")
    return refused


def exchanged(own, group, journal, texts):
    """A site after its journal and the deltas of some texts, what was refused, and in how many rounds deltas were
    accepted."""
    site, refused, waiting, rounds = Site(own, group), {}, {}, 0
    lines = taken(site, journal)
    for file, text in enumerate(texts, 2):
        try:
            waiting[file] = delta_in(text)
        except BadDelta as bad:
            refused[file] = [45, bad.args[0]]
    while True:
        before = len(waiting)
        for file in list(waiting):
            refused[file] = site.refusal(waiting[file])
            if not refused[file]:
                site.accept(waiting.pop(file))
        if len(waiting) == before:
            break
        rounds += 1
    told = [f"file {file}: {' '.join(map(str, why))}\n" for file, why in sorted(refused.items()) if why]
    return Ended(site, lines + told, rounds)


def answer(words, at="."):
    """The text, what is on standard error and the exit status, if the files of the words are looked for in a folder."""
    try:
        command, *words = words or [""]
        words = plain(words)
        if command not in ("site", "vector", "digests", "cut") or len(words) < (4 if command == "cut" else 3):
            raise Fault(64)
        group = site_in(words[1])
        own = site_in(words[0], group)
        have = vector_in(words.pop(2)) if command == "cut" else {}
        journal, *texts = [read(os.path.join(at, path)) for path in words[2:]]
    except Fault as fault:
        return "", f"fault {fault}\n", 2
    ended = exchanged(own, group, journal, texts)
    text = {"site": lambda: archive_text(ended.site.messages), "vector": lambda: ended.site.vector_text() + "\n",
            "digests": lambda: Chains(ended.site.logs).text(),
            "cut": lambda: delta_text(ended.site.above(have))}[command]()
    return text, "".join(ended.refused), 1 if ended.refused else 0


if __name__ == "__main__":
    end_with(*answer(sys.argv[1:]))
