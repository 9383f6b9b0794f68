"""c_answers.py: the library answers the examples to the byte, refuses by each number, and holds sites 1 to 1024, in 256
KB of stack.

- The examples of examples/: the answers that their files have, of messages taken at once, one by one, and restored from
a journal. What
  the site reads in their lines, its journal and its newest messages are the lines of these files. What is kept of them
  and what is closed
  are those of tests/oracle/keep.py.
- The three sites of hub-morning, which exchange deltas, and the cases of examples/exchange that one delta decides.
- Each number of the header once, with its place and with why, and each call on a handle without a site.
- Why a call was refused, until the next call; parts of an answer; an evaluation; the name and the meaning of each of
256 numbers.
- Snapshots: of the examples, and of sites that go on, end or are snapshots themselves. Some have as many messages as a
sealed block of the site, one more and one fewer.
- Entries of one origin, in room for none of them, for some and for all. Digests, by hashlib.
- Texts and rooms without bytes, at an address and at none, and objects over several lines.
- Sites 1 to 1024 of the largest group. Each gives its message to site 1, and three are given all.
- A site that holds 1,000 messages takes 2,000 more, and accepts as many.
- Calls that only read, on a handle in a page that may not be written (only_reads.c).
- What needs the most stack: 99,999 opening brackets, a recall of 100 transactions, and 20,000 messages.
- The structures have their sizes. The library gives away the names of the header and no other, in the shared one under
its version. It
  needs nothing but the C library, and no stack whose bytes run.
"""
import collections
import hashlib
import json
import re
import signal
from bench.generate import messages, samples
from tests import harness
from tests.embed import driving, model
from tests.golden.examples import REPORTS
from tests.golden.made_inputs import REPORT_WRITTEN, TRANSFER_WRITTEN
from tests.harness import DATA, EXAMPLES, TOP, reported
from tests.inputs import confirmation, delta, instruction
from tests.oracle import keep, status

CALLED = {"malloc", "realloc", "free", "memcpy", "memmove", "memset", "memcmp"}
OF_COMPILER = {"__udivti3", "__umodti3"}  # of the library that each compiler of C links
BANK, DAY, STACK = b"BANKDEFF", b"2024-05-02", 256 * 1024
LATER = "2025-03-11"  # the day after the messages of most examples
MOST_SITES, LONG, MOST = 1024, 20_000, 2 ** 64 - 1
BLOCK = 4096  # messages that a site seals together
HELD = 200, 6000  # messages
# what only_reads.c writes: the answer, a part of it, the reason and the counts of a site that took two refused lines
READ = b"answer 1 0 22 line 1: 31\nline 2: 33\n\npart 1 0 4 1: 3\nwhy 1 0 2 72\ncounts 1 0 0 0 0\n"
EMPTY_DELTA = b"delta 2\nend 0\n"
MOST_TEXT = 67108863  # bytes of a text of entries
# the numbers of calls for entries that are refused, each with the place of the first that is not valid
NO_ENTRIES = [((0, 0, 1), 1), ((1025, 0, 1), 1), ((65535, 0, 0), 1), ((1, 0, 0), 3), ((1, MOST, 0), 3),
              ((1, 0, MOST_TEXT + 1), 3), ((1, 0, MOST), 3)]
# and for digests, at a site of which one message at most is held of each site
NO_DIGESTS = [((0, 0), 1), ((1025, 0), 1), ((65535, MOST), 1), ((1, 99), 2), ((2, 99), 2), ((1024, 1), 2),
              ((1, MOST), 2)]
# the size of each structure, and where its fields are, in the order of the header
LAYOUT = b"""sct_site 16
sct_outcome 32 0 1 8 16 24
sct_taken 32 0 1 2 8 16 24
sct_lines 56 0 1 8 16 24 32 40 48
sct_accepted 32 0 1 8 16 24
"""


def right(name, program, requests, wanted, words=()):
    """Whether the replies to requests have these fields and texts. What a wanted reply does not name may be
    anything."""
    try:
        found = driving.asked(program, requests, words=words)
    except driving.Failed as failed:
        return reported(name, False, str(failed))
    for one, reply, (fields, text) in zip(requests, found, wanted):
        named = {field: reply.fields.get(field) for field in fields}
        if named != fields or text is not None and reply.text != text:
            return reported(
                name, False,
                f"{one[:2]}: wanted {fields} {text and text[:200]!r}\n found {reply.fields} {reply.text[:200]!r}")
    return reported(name, len(found) == len(wanted))


def as_modelled(name, program, requests, words=()):
    """Whether the replies to requests are those of the model."""
    handles, wanted = collections.defaultdict(model.Handle), []
    for call, handle, *arguments in requests:
        fields, text = model.called(handles, handle, call, *arguments)
        wanted.append(({field: fields[field] for field in driving.FIELDS[call] if field in fields}, text))
    return right(name, program, requests, wanted, words)


# ---- the examples

OK = {"ok": 1, "code": 0, "place": 0, "reserved": 0}


def answers_of(stem):
    """Requests for the answers that an example has files for, with these."""
    for name, suffix in (("archive_text", ".archive"), ("status_text", ".status"), ("totals_text", ".totals")):
        yield (name, 0), (OK, (EXAMPLES / (stem + suffix)).read_bytes())
    if stem in REPORTS:
        words = [word.encode() for word in REPORTS[stem]]
        yield ("report", 0, *words,
               (EXAMPLES / (stem + ".list")).read_bytes()), (OK, (EXAMPLES / (stem + ".report")).read_bytes())
    messages, _ = status.messages_in((EXAMPLES / (stem + ".jsonl")).read_bytes())
    for name, part in (("kept_text", keep.kept), ("closed_text", keep.closed)):
        yield (name, 0, LATER.encode()), (OK, status.archive_text(part(LATER, messages)).encode())


def takes_of(lines, refused):
    """Requests that take lines one by one, and the numbers of the refused ones."""
    why = {int(number): int(code) for number, code in re.findall(r"^line (\d+): (\d+)", refused.decode(), re.M)}
    for number, line in status.lines_of(lines):
        yield ("take", 0, line), ({"ok": int(number not in why), "code": why.get(number, 0)}, b"")


def example(program, stem):
    """An example in three ways."""
    lines, refused = ((EXAMPLES / (stem + suffix)).read_bytes() for suffix in (".jsonl", ".refused"))
    opened = ("open", 0, 1, 1), (OK, b"")
    of_journal = "".join(f"file 1 {line}\n" for line in refused.decode().splitlines()).encode()
    of_other = [(("open", 1, 1, 1), (OK, b"")), (("take_lines", 1, lines), ({"ok": 1, "code": 0}, refused)),
                (("snapshot", 1, 0), (OK, b"")),
                (("take", 1, instruction(1).encode()), ({"ok": 1, "is_repeat": 0}, b""))]
    ways = {"at once": [opened, (("take_lines", 0, lines), ({"ok": 1, "code": 0}, refused))],
            "one by one": [opened, *takes_of(lines, refused)],
            "as a snapshot of a site that goes on": of_other,
            "as a snapshot of a site that is closed": [*of_other, (("close", 1), ({}, None))],
            "restored": [(("restore", 0, 1, 1, lines, EMPTY_DELTA), (OK, of_journal))]}
    for way, begin in ways.items():
        requests, wanted = zip(*begin, *answers_of(stem))
        yield right(f"{stem}, {way}", program, list(requests), list(wanted))
    yield lines_of_example(program, stem, lines, refused)


def lines_of_example(program, stem, lines, refused):
    """What a site reads in the lines of an example, takes of them into its journal, and has as its newest messages."""
    held = (EXAMPLES / (stem + ".archive")).read_bytes().splitlines(keepends=True)
    requests = [("open", 0, 1, 1), ("reading_text", 0, lines), ("vector_text", 0),
                ("take_lines", 0, lines), ("journal_text", 0, 0),
                ("journal_text", 0, 2), ("newest_text", 0, MOST), ("newest_text", 0, 2), ("journal_text", 0, len(held)),
                ("newest_text", 0, 0)]
    texts = [reply.text for reply in driving.asked(program, requests)]
    found = texts[1].splitlines(keepends=True)
    messages = [line for line in found if line.startswith(b"{")]
    journal = list(dict.fromkeys(messages))
    is_read = sorted(journal) == sorted(held) and b"".join(line for line in found if line not in journal) == refused
    places = [int(number) for number in re.findall(rb"^line (\d+):", texts[1], re.M)]
    numbers = [number for number, _ in status.lines_of(lines)]
    in_place = [number for number, line in zip(numbers, found)
                if not line.startswith(b"{")] == places and len(numbers) == len(found)
    wanted = [b"-", refused, b"".join(journal), b"".join(journal[2:]), b"".join(journal), b"".join(journal[-2:]), b"",
              b""]
    return reported(f"{stem}, line by line", is_read and in_place and texts[2:] == wanted, f"{texts}"[:2000])


def hub(program):
    """Three sites exchange what they hold, and answer alike."""
    group, requests = 3, []
    for site in range(1, group + 1):
        lines = (EXAMPLES / f"hub-morning.site{site}").read_bytes()
        requests += [("open", site, site, group), ("take_lines", site, lines)]
    cuts = [reply.text for reply in driving.asked(program, [*requests, *(("cut", site, b"-") for site in (2, 3))])[-2:]]
    requests += [("accept", 1, text) for text in cuts]
    whole = driving.asked(program, [*requests, ("cut_above", 1, [])])[-1].text
    requests += [("accept", site, whole) for site in (2, 3)]
    texts = [("run", "status_text"), ("archive", "archive_text"), ("totals", "totals_text")]
    for suffix, name in texts:
        wanted = (EXAMPLES / f"hub-morning.{suffix}").read_bytes()
        found = driving.asked(program, [*requests, *((name, site) for site in (1, 2, 3))])[-3:]
        yield reported(f"three sites of hub-morning, {name}", all(reply.text == wanted for reply in found))
    looks = [("vector_text",), ("counts", 4), ("journal_text", 1), ("newest_text", 7), ("entries", 2, 1, 900),
             ("digest", 2, 3), ("digests_text",)]
    yield as_modelled("three sites of hub-morning, as the definitions say", program,
                      [*requests, *((name, site, *words) for name, *words in looks for site in (1, 2, 3))])


def entries(program):
    """What a site of two that holds two messages, and a third one of its peer, answers who asks for entries of one
    site."""
    one, two = TRANSFER_WRITTEN.encode(), REPORT_WRITTEN.encode()
    first, second = b"delta 2\norigin 1 1 1\n" + one + b"end 1\n", b"delta 2\norigin 1 2 1\n" + two + b"end 1\n"
    both = b"delta 2\norigin 1 1 2\n" + one + two + b"end 2\n"
    rows = [((1, 0, 10 ** 6), both), ((1, 0, MOST_TEXT), both), ((1, 0, len(both)), both),
            ((1, 0, len(both) - 1), first), ((1, 0, 1), first),
            ((1, 1, 10 ** 6), second), ((1, 1, 1), second), ((1, 2, 100), EMPTY_DELTA), ((1, MOST, 100), EMPTY_DELTA),
            ((2, 0, 100), delta(2, 1, 2)), ((2, 1, 100), EMPTY_DELTA), ((9, 0, 100), EMPTY_DELTA),
            ((1024, 0, 100), EMPTY_DELTA)]
    begin = [("open", 0, 1, 2), ("take", 0, instruction(1).encode()), ("take", 0, confirmation(1).encode()),
             ("accept", 0, delta(2, 1, 2))]
    yield right("entries of one origin", program, [*begin, *(("entries", 0, *numbers) for numbers, _ in rows)],
                [({"ok": 1}, None)] * len(begin) + [({**OK, "length": len(text)}, text) for _, text in rows])
    texts = [delta(1, 1, *range(1, count + 1)) for count in range(13)]
    room = [(("entries", 1, 1, 0, len(texts[count]) + more), texts[count + min(0, more)]) for count in (8, 9, 10, 11)
            for more in (-1, 0, 1)]
    yield right("the room counts each byte, also where a number has more digits", program,
                [("open", 1, 2, 2), ("accept", 1, texts[12]), *(call for call, _ in room)],
                [({"ok": 1}, None)] * 2 + [({"ok": 1}, text) for _, text in room])


def digests(program):
    """What a site of two that holds two messages, and a third one of its peer, answers who asks for digests."""
    none = bytes(32)
    one = hashlib.sha256(none + TRANSFER_WRITTEN.encode()).digest()
    two = hashlib.sha256(one + REPORT_WRITTEN.encode()).digest()
    peer = hashlib.sha256(none + delta(2, 1, 2).split(b"\n", 2)[2].rpartition(b"end")[0]).digest()
    rows = [((1, 0), none), ((1, 1), one), ((1, 2), two), ((2, 0), none), ((2, 1), peer), ((9, 0), none),
            ((1024, 0), none)]
    lines = b"1:2:%s\n2:1:%s\n" % (two.hex().encode(), peer.hex().encode())
    begin = [("open", 0, 1, 2), ("take", 0, instruction(1).encode()), ("take", 0, confirmation(1).encode()),
             ("accept", 0, delta(2, 1, 2))]
    yield right("digests", program, [*begin, *(("digest", 0, *numbers) for numbers, _ in rows), ("digests_text", 0)],
                [({"ok": 1}, None)] * len(begin) + [({**OK, "length": 64}, digest.hex().encode()) for _, digest in rows]
                + [({**OK, "length": len(lines)}, lines)])
    some = b"1:1:%s\n" % one.hex().encode()
    yield right("digests, again and again", program,
                [("open", 0, 1, 2), ("digests_text", 0), begin[1], ("digests_text", 0), ("digest", 0, 1, 1),
                 *begin[2:], ("digests_text", 0),
                 ("digest", 0, 1, 1)],
                [({"ok": 1}, text) for text in (None, b"", None, some, one.hex().encode(), None, None, lines,
                                                one.hex().encode())])


def exchanged(program):
    """A site of a journal and one delta, as the command `site` makes it, for each pair of files of
    tests/data/exchange."""
    folder = DATA / "exchange"
    files = sorted(path for path in folder.iterdir() if path.suffix == "")
    journals = [path for path in files if not path.read_bytes().startswith(b"delta")]
    deltas = [path for path in files if path.read_bytes().startswith(b"delta")]
    requests = []
    for journal in journals:
        for text in deltas:
            requests += [("restore", 0, 1, 2, journal.read_bytes(), text.read_bytes()), ("archive_text", 0),
                         ("vector_text", 0)]
            requests += [("close", 0)]
    yield as_modelled(f"{len(journals)} journals with {len(deltas)} deltas each", program, requests)


# ---- refusals

def refused_takes():
    """An object for each number that refuses an object, with the place, and with why."""

    def of(**more):
        return samples.line(samples.instruction(**more)).encode()

    without = {key: value for key, value in samples.instruction().items() if key != "TxId"}

    def recall(*transactions):
        return samples.line({**samples.recall([{}]), "TxInf": list(transactions)}).encode()

    one, other = samples.transaction(), samples.transaction(CxlId="R2")
    less = {key: value for key, value in one.items() if key != "CxlId"}
    return [(b"{", 0, "31"), (b"", 0, "31"), (b"\xff", 0, "31"), (b"[]", 0, "32"), (b"{}", 0, "33"),
            (samples.line(without).encode(), 0, "34 TxId"), (of(TxId=1), 0, "35 TxId"),
            (of(TxId="a_b"), 0, "36 TxId 3"),
            (of(DbtrAcct="DE1"), 0, "36 DbtrAcct 2"), (of(Purp="SALA"), 0, '37 "Purp"'),
            (of(**{'a "b"\n': ""}), 0, r'37 "a \"b\"\n"'),
            (of(**{"\u00e9\u0001": ""}), 0, '37 "\u00e9\\u0001"'), (of(Ccy="USD"), 0, "38 11"), (recall(), 0, "46 0"),
            (recall(one, 7), 2, "46 2"), (recall(one, {**other, "Rsn": "fraud"}), 2, "56 2 36 Rsn 9"),
            (recall({**one, "CxlId": None}), 1, "56 1 35 CxlId"), (recall(one, other, less), 3, "56 3 34 CxlId"),
            (recall({**one, "Purp": "SALA"}), 1, '56 1 37 "Purp"'), (recall(one, one), 0, "38 22")]


def refused_calls():
    """A call for each other number, or several: on handle 0, which holds two messages of site 1 of 3, on handle 1,
    which holds one of site 2 and the first of site 1, on handle 2, which is empty, and on handle 3, which has a
    snapshot of handle 0. Each with the number, the place, and why: None at no site."""
    header, items = b"DbtrAgt,TxId,Amt,Sts\n", [0] * (MOST_SITES + 1)
    yield from [(("accept", 1, delta(1, 3, 4)), 41, 0, "41 1 1 3"), (("accept", 1, delta(1, 1, 2)), 42, 0, "42 1 1"),
                (("accept", 0, delta(1, 3, 4)), 43, 0, "43 3"), (("accept", 0, delta(1, 2, 2, 4)), 43, 0, "43 3"),
                (("accept", 0, delta(4, 1, 4)), 44, 0, "44"), (("accept", 0, b""), 45, 1, "45 1"),
                (("accept", 0, EMPTY_DELTA[:-2]), 45, 2, "45 2")]
    yield from [(("counts", 0, len(items)), 44, 0, "45 2"), (("cut_above", 0, items), 44, 0, "44"),
                (("cut", 0, b"1"), 72, 0, "72"),
                (("cut", 0, b""), 72, 0, "72")]
    yield from [(("open", 0, 1, 1), 71, 0, "72"), (("restore", 0, 1, 1, b"", EMPTY_DELTA), 71, 0, "72"),
                (("snapshot", 0, 1), 71, 0, "72"), (("snapshot", 0, 3), 71, 0, "72"), (("snapshot", 2, 4), 70, 0, None),
                (("snapshot", 2, 1), 70, 0, None)]
    yield from refused_by_snapshot()
    yield from [(("entries", 0, *numbers), 73, place, f"73 {place}") for numbers, place in NO_ENTRIES]
    yield from [(("digest", 0, *numbers), 73, place, f"73 {place}") for numbers, place in NO_DIGESTS]
    yield from [(("report", 0, BANK, DAY, b""), 48, 1, "48 1"),
                (("report", 0, BANK, DAY, header + b"\nx\n"), 48, 2, "48 2"),
                (("report", 0, b"bankdeff", DAY, header), 73, 1, "73 1"),
                (("report", 0, BANK, b"today", header), 73, 2, "73 2"),
                (("kept_text", 0, b"2024-5-02"), 73, 1, "73 1"), (("closed_text", 0, b""), 73, 1, "73 1")]
    yield from [(("transfer_text", 0, b"", b"T1"), 73, 1, "73 1"), (("transfer_text", 0, BANK, b""), 73, 2, "73 2"),
                (("messages_text", 0, b"BANK", b"T1"), 73, 1, "73 1"),
                (("messages_text", 0, BANK, b"T//1"), 73, 2, "73 2"),
                (("bank_totals", 0, b"X"), 73, 1, "73 1"), (("restore", 2, 0, 1, b"", EMPTY_DELTA), 44, 0, None)]
    yield from refused_to_banks()
    for number, group in ((0, 1), (2, 1), (1, 0), (1025, 1025), (1, 1025), (65535, 65535)):
        yield ("open", 2, number, group), 44, 0, None
    for name, words in on_no_site():
        yield (name, 2, *words), 70, 0, None


def refused_by_snapshot():
    """A snapshot takes nothing, whatever it is given, and refuses questions as a site does."""
    of_bank = [("take_as", 3, banks, json)
               for banks in (BANK, b"BANKDEFF,") for json in (instruction(3).encode(), b"{")]
    takes = [("take", 3, json) for json in (instruction(3).encode(), instruction(1).encode(), b"{", b"")]
    lines = [("take_lines", 3, text) for text in (instruction(3).encode(), b"x", b"")]
    deltas = [("accept", 3, text) for text in (delta(2, 1, 3), delta(1, 1, 1), EMPTY_DELTA, b"")]
    yield from ((call, 85, 0, "85") for call in [*takes, *of_bank, *lines, *deltas])
    yield from [(("open", 3, 1, 3), 71, 0, "85"), (("restore", 3, 1, 3, b"", b""), 71, 0, "85"),
                (("cut", 3, b"1"), 72, 0, "72"), (("counts", 3, MOST_SITES + 1), 44, 0, "72"),
                (("digest", 3, 1, 3), 73, 2, "73 2"), (("bank_totals_for", 3, b"BANKITMM", BANK), 79, 0, "79")]


def refused_to_banks():
    """The same for calls that are made in the name of banks. Handle 0 holds instructions of BANKDEFF to BANQFRPP."""
    other = b"BANKITMM"
    of_others = [samples.line(one).encode() for one in (samples.instruction(InstgAgt="BANKITMM"),
                                                        samples.confirmation(InstgAgt="BANKITMM"))]
    early = samples.line(samples.confirmation(OrgnlTxId="T9")).encode()
    yield from [(("take_as", 0, other, instruction(3).encode()), 81, 0, "81"),
                (("take_as", 0, other, of_others[0]), 82, 1, "82 1"),
                (("take_as", 0, other, of_others[1]), 83, 0, "83"),
                (("take_as", 0, b"BANQFRPP", early), 84, 0, "84 BANKDEFFXXX T9"),
                (("take_as", 0, b"BANKDEFF,", b"{}"), 73, 1, "73 1"), (("take_as", 0, BANK, b"{}"), 33, 0, "33")]
    yield from [(("transfer_text_for", 0, BANK, b"", b"T1"), 73, 2, "73 2"),
                (("messages_text_for", 0, BANK, BANK, b"T//1"), 73, 3, "73 3"),
                (("bank_totals_for", 0, other, BANK), 79, 0, "79"),
                (("report_for", 0, other, BANK, DAY, b""), 79, 0, "79"),
                (("report_for", 0, BANK, BANK, DAY, b""), 48, 1, "48 1")]


def wanted_of(code, place, why):
    """What a refused call comes to, and then what the question why comes to."""
    yield {"ok": 0, "code": code, "place": place, "length": 0, "reserved": 0}, b""
    if why is None:
        yield {"ok": 0, "code": 70, "place": 0, "length": 0, "reserved": 0}, b""
    else:
        yield {**OK, "length": len(why.encode())}, why.encode()


def zeros(fields, name):
    """The fields that the result of a call has, and what is not given of them is 0."""
    return {field: fields.get(field, 0) for field in driving.FIELDS[name]}


def refusals(program):
    """Each number once, with its place and with why, and what a refusal leaves as it was."""
    kept = [("open", 0, 1, 3), ("take", 0, instruction(1).encode()), ("take", 0, instruction(2).encode()),
            ("open", 1, 2, 3), ("take", 1, instruction(3).encode()), ("accept", 1, delta(1, 1, 1)), ("snapshot", 0, 3),
            ("status_text", 0)]
    refused = [*((("take", 0, json), int(why[:2]), place, why) for json, place, why in refused_takes()),
               *refused_calls()]
    length = driving.asked(program, kept)[-1].fields["length"]
    after = [("answer", 0, length), ("answer", 3, 9), *(("counts", site, 3) for site in (0, 1, 3)),
             *(("archive_text", site) for site in (0, 1, 3))]
    as_was = driving.asked(program, [*kept, *after])[len(kept):]
    requests = kept + [ask for one, *_ in refused for ask in (one, ("why", one[1], 1 << 10))] + after
    wanted = [({"ok": 1}, None)] * len(kept)
    wanted += [one for _, *which in refused for one in wanted_of(*which)]
    wanted += [(reply.fields, reply.text) for reply in as_was]
    wanted = [(fields if fields.get("ok") else zeros(fields, one[0]), text)
              for one, (fields, text) in zip(requests, wanted)]
    yield right(f"{len(refused)} refusals, which change nothing", program, requests, wanted)
    numbers = set(map(int, re.findall(r"^ \*     (\d+) [A-Z]", (TOP / "include" / "niluppang.h").read_text(), re.M)))
    met = {code for _, code, *_ in refused} | {65}  # memory runs out in c_growths.py
    yield reported("each number of the header is met", met == numbers, f"{sorted(met ^ numbers)}")


def on_no_site():
    """Each call that needs a site."""
    words = {
        "take": [b"{}"], "take_lines": [b""], "accept": [EMPTY_DELTA], "counts": [1], "cut": [b"-"], "cut_above": [[]],
        "entries": [1, 0, 1], "digest": [1, 0], "journal_text": [0], "newest_text": [1], "reading_text": [b"{}"],
        "report": [BANK, DAY, b""], "kept_text": [DAY],
        "closed_text": [DAY], "transfer_text": [BANK, b"T1"], "messages_text": [BANK, b"T1"], "bank_totals": [BANK],
        "take_as": [BANK, b"{}"], "transfer_text_for": [BANK, BANK, b"T1"], "messages_text_for": [BANK, BANK, b"T1"],
        "bank_totals_for": [BANK, BANK], "report_for": [BANK, BANK, DAY, b""],
        "answer": [0], "answer_part": [0, 1], "why": [10], "snapshot": [4]}
    texts = ["vector_text", "digests_text", "archive_text", "status_text", "totals_text", "contradictions_text",
             "changes", "evaluate", "answer_end"]
    return [*words.items(), *((name, []) for name in texts)]


# ---- why, parts, evaluations, numbers, and nothing

def reasons(program):
    """Why the last call was refused: until the next one, and through the calls that leave it."""
    ask, none, told = ("why", 0, 100), ({**OK, "length": 0}, b""), ({**OK, "length": 7}, b"35 TxId")
    wrong = samples.line(samples.instruction(TxId=1)).encode()
    silent = [("answer", 0, 0), ("answer_part", 0, 0, 1), ("answer_end", 0), ("counts", 0, 1),
              ("counts", 0, 1025), ("open", 0, 1, 1),
              ("restore", 0, 1, 1, b"", b""), ("snapshot", 0, 1), ("code_name", 0, 35, 0), ("why", 0, 6),
              ("take", 1, b"{}"),
              ("status_text", 1)]
    done = [("take", 0, instruction(1).encode()), ("take", 0, instruction(1).encode()),
            ("take_lines", 0, b"{"), ("accept", 0, EMPTY_DELTA),
            ("cut", 0, b"-"), ("cut_above", 0, []), ("report", 0, BANK, DAY, b"DbtrAgt,TxId,Amt,Sts\n"),
            ("transfer_text", 0, BANK, b"T1"),
            ("messages_text", 0, BANK, b"T1"), ("bank_totals", 0, BANK), ("entries", 0, 1, 0, 1),
            ("digest", 0, 1, 0), ("digests_text", 0),
            ("journal_text", 0, 0), ("newest_text", 0, 0), ("evaluate", 0), ("kept_text", 0, DAY),
            ("closed_text", 0, DAY), ("reading_text", 0, b"{}"), ("take_as", 0, BANK, instruction(1).encode()),
            ("transfer_text_for", 0, BANK, BANK, b"T1"), ("messages_text_for", 0, BANK, BANK, b"T1"),
            ("bank_totals_for", 0, BANK, BANK), ("report_for", 0, BANK, BANK, DAY, b"DbtrAgt,TxId,Amt,Sts\n"),
            ("snapshot", 0, 2),
            *((name, 0) for name in ("vector_text", "archive_text", "status_text", "totals_text", "contradictions_text",
                                     "changes"))]
    well, refused = ({"ok": 1}, None), (("take", 0, wrong), ({"ok": 0}, None))
    begin = [(("open", 0, 1, 1), well), (ask, none), (("open", 1, 1, 1), well)]
    kept = [pair for one in silent for pair in ((one, ({}, None)), (ask, told))]
    cleared = [pair for one in done for pair in (refused, (ask, told), (one, well), (ask, none))]
    again = [refused, (("close", 0), ({}, None)), (("restore", 0, 1, 1, b"{", b"x"), well), (ask, none)]
    pairs = [*begin, refused, (ask, told), (("why", 0, 6), ({**OK, "length": 7}, b"")), (("why", 0, 7), told), *kept,
             *cleared, *again]
    yield right(f"why, through {len(silent)} calls that leave it and {len(done)} that do not", program,
                *map(list, zip(*pairs)))


def parts(program):
    """Parts of an answer of 16 bytes, the end of it, and what an evaluation leaves."""
    whole = b"1:1,2:18,3:7,4:9"
    numbers = {1: 1, 2: 18, 3: 7, 4: 9}
    begin = [("open", 0, 5, 5)] + [("accept", 0, delta(origin, 1, *range(100 * origin, 100 * origin + many)))
                                   for origin, many in numbers.items()] + [("vector_text", 0)]
    pieces = [(0, 16), (0, 17), (0, 5), (3, 4), (12, 4), (12, 5), (15, 1), (15, 9), (16, 0), (16, 9), (17, 9),
              (MOST, 9), (5, 0), (0, 0)]
    pairs = [(("answer_part", 0, *one), ({**OK, "length": len(whole[one[0]:][:one[1]])}, whole[one[0]:][:one[1]]))
             for one in pieces]
    asked = [(("evaluate", 0), ({**OK, "length": 16}, b"")), (("answer", 0, 16), ({**OK, "length": 16}, whole)),
             (("answer_end", 0), ({**OK, "length": 0}, b"")), (("answer", 0, 16), ({**OK, "length": 0}, b"")),
             (("answer_part", 0, 0, 9), ({**OK, "length": 0}, b"")), (("evaluate", 0), ({**OK, "length": 0}, b"")),
             (("vector_text", 0), ({**OK, "length": 16}, whole))]
    requests, wanted = map(list, zip(*pairs, *asked))
    yield right("parts of an answer, and its end", program, begin + requests, [({"ok": 1}, None)] * len(begin) + wanted)
    takes = [("take", 0, instruction(number).encode()) for number in range(1, 4)]
    evaluated = [*takes[:2], ("evaluate", 0), ("evaluate", 0), takes[2], ("evaluate", 0)]
    questions = [("changes", 0), ("transfer_text", 0, BANK, b"T1"), ("status_text", 0), ("changes", 0)]
    yield as_modelled("answers after an evaluation", program,
                      [("open", 0, 1, 1), ("changes", 0), *evaluated, *questions])


def numbers(program):
    """The name and the meaning of each number, in ample, in just enough and in too little room."""
    requests = [(name, 0, code, room) for name, place in (("code_name", 0), ("code_text", 1)) for code in range(256)
                for room in (200, len(model.CODES.get(code, ("", ""))[place]),
                             max(0, len(model.CODES.get(code, ("", ""))[place]) - 1))]
    yield as_modelled("the names and the meanings of 256 numbers", program, requests)
    names = [reply.text for reply in driving.asked(program,
                                                   [("code_name", 0, code, 99) for code in (31, 46, 73, 30, 255)])]
    yield reported("three of the names", names == [b"NotJson", b"BadTransactions", b"BadArgument", b"", b""],
                   f"{names}")


def nothing(program):
    """Each call that takes a pointer, with nothing there."""
    texts = [("take",), ("take_lines",), ("accept",), ("cut",), ("reading_text",), ("bank_totals",),
             ("kept_text",), ("closed_text",),
             ("transfer_text", b""), ("transfer_text", BANK), ("messages_text", b""),
             ("messages_text", BANK), ("report", b"", b""),
             ("report", BANK, b""), ("report", BANK, DAY), ("report", b"", DAY), ("take_as", b""), ("take_as", BANK),
             ("transfer_text_for", b"", b""), ("transfer_text_for", BANK, b""), ("transfer_text_for", BANK, BANK),
             ("messages_text_for", b"", b""), ("messages_text_for", BANK, BANK), ("bank_totals_for", b""),
             ("bank_totals_for", BANK), ("report_for", b"", b"", b""), ("report_for", BANK, BANK, b""),
             ("report_for", BANK, BANK, DAY)]
    rooms = [("answer", 0), ("answer_part", 0, 0), ("answer_part", 9, 0), ("why", 0), ("counts", 0), ("cut_above", [])]
    requests = [("open", 0, 1, 2), ("take", 0, instruction(1).encode()), ("restore", 1, 2, 2, b"", b""),
                ("restore", 2, 1, 2, instruction(1).encode(), b""), ("restore", 3, 1, 2, b"", delta(2, 1, 2)),
                ("answer", 1, 0)]
    requests += [(name, 0, *words, b"") for name, *words in texts] + [("status_text", 0)]
    requests += [(name, 0, *words) for name, *words in rooms] + [("answer_end", 0)] + [(name, 0, *words)
                                                                                       for name, *words in rooms]
    requests += [("code_name", 0, 31, 0), ("code_text", 0, 31, 0),
                 ("code_text", 0, 1, 0)] + [("vector_text", site) for site in range(4)]
    for name, words in (("an address", ()), ("a null pointer", ("null",))):
        yield as_modelled(f"nothing at {name}", program, requests, words)


# ---- snapshots

def all_of(handle):
    """Requests for all that a handle of a site of three is asked."""
    texts = ["vector_text", "digests_text", "archive_text", "status_text", "totals_text", "contradictions_text"]
    bank, header = [BANK, BANK, b"T1"], b"DbtrAgt,TxId,Amt,Sts\n"
    return [("counts", handle, 4), *((name, handle) for name in texts), ("cut", handle, b"1:1"),
            ("cut_above", handle, [0, 1]), ("entries", handle, 2, 0, MOST_TEXT), ("digest", handle, 1, 2),
            ("journal_text", handle, 1), ("newest_text", handle, 2), ("report", handle, BANK, DAY, header),
            ("kept_text", handle, b"2025-01-01"), ("closed_text", handle, b"2025-01-01"),
            ("transfer_text", handle, *bank[1:]), ("messages_text", handle, *bank[1:]), ("bank_totals", handle, BANK),
            ("transfer_text_for", handle, *bank), ("messages_text_for", handle, *bank),
            ("bank_totals_for", handle, BANK, BANK), ("report_for", handle, BANK, BANK, DAY, header)]


def snapshots(program):
    """A snapshot of a site that goes on, one of that, and what each has left when another is closed."""
    one, two, five = (f"{written(number)}\n".encode() for number in (1, 2, 5))
    vector, status_of = ({"ok": 1}, b"1:2,2:1"), b"T|BANKDEFFXXX|T%d|%s\n"
    then = b"".join(status_of % (number, b"PENDING") for number in (1, 2, 5))
    now = b"".join(status_of % (number, word) for number, word in ((1, b"ACCEPTED"), (2, b"PENDING"), (5, b"PENDING"),
                                                                   (6, b"PENDING")))
    begin = [("open", 0, 1, 3), ("take", 0, instruction(1).encode()), ("take", 0, instruction(2).encode()),
             ("accept", 0, delta(2, 1, 5)), ("changes", 0), ("vector_text", 0)]
    steps = [(("snapshot", 0, 1), (OK, b"")), (("answer", 0, 9), vector),
             (("answer", 1, 9), ({**OK, "length": 0}, b"")),
             (("take", 0, confirmation(1).encode()), ({"number": 3}, b"")), (("snapshot", 1, 2), (OK, b"")),
             (("accept", 0, delta(2, 2, 6)), ({"fresh": 1}, b"")),
             (("changes", 0), ({"ok": 1}, b"BANKDEFFXXX|T1\nBANKDEFFXXX|T6\n")),
             *(((name, place), ({**OK, "length": len(text)}, text)) for place in (1, 2) for name, text in (
                 ("status_text", then), ("archive_text", one + two + five), ("vector_text", b"1:2,2:1"))),
             (("status_text", 0), ({"ok": 1}, now)), (("changes", 1), ({"ok": 1}, b"")),
             (("changes", 1), ({"ok": 1}, b"")), (("journal_text", 2, 1), ({"ok": 1}, two)), (("close", 1), ({}, None)),
             (("newest_text", 2, 2), ({"ok": 1}, two + five)), (("close", 0), ({}, None)),
             (("cut", 2, b"1:2"), ({"ok": 1}, b"delta 2\norigin 2 1 1\n" + five + b"end 1\n")),
             (("snapshot", 2, 0), (OK, b"")), (("close", 2), ({}, None)), (("status_text", 0), ({"ok": 1}, then)),
             (("take", 0, b"{}"), ({"code": 85}, b""))]
    requests, wanted = map(list, zip(*steps))
    begun = [({"ok": 1}, None)] * len(begin)
    yield right("snapshots of a site that goes on", program, begin + requests, begun + wanted)
    more = [("take", 0, samples.line(samples.instruction(TxId="T7")).encode()), ("take", 0, confirmation(1).encode()),
            ("accept", 0, delta(2, 2, 6, 7))]
    asked = [("snapshot", 0, 1), *all_of(0), ("snapshot", 0, 2), *more, *all_of(1), ("close", 1), *all_of(0),
             ("snapshot", 0, 1), ("close", 0), ("snapshot", 2, 0), *all_of(2), *all_of(1), ("close", 2), *all_of(0)]
    yield as_modelled("each question to snapshots", program, begin + asked)
    yield as_modelled("snapshots of a site without messages", program,
                      [("open", 0, 3, 3), ("snapshot", 0, 1), *begin[1:], *all_of(1), *all_of(0)])


def blocks(program):
    """Snapshots of as many messages as the site seals in a block, one fewer and one more, also twice, made while the
    site goes on. Each has the digest of its own messages."""
    sizes = [many + more for many in (BLOCK, 2 * BLOCK) for more in (-1, 0, 1)]
    lines = [instruction(number).encode() for number in range(1, sizes[-1] + 100)]
    chain = [bytes(32)]
    for number in range(1, len(lines) + 1):
        chain.append(hashlib.sha256(chain[-1] + f"{written(number)}\n".encode()).digest())
    pairs, held = [(("open", 0, 1, 1), OK)], 0
    for place, many in enumerate([*sizes, len(lines)], 1):
        pairs += [(("take_lines", 0, b"".join(lines[held:many])), {"fresh": many - held}), (("snapshot", 0, place), OK)]
        held = many
    requests, wanted = [call for call, _ in pairs], [(fields, None) for _, fields in pairs]
    for place, many in enumerate([*sizes, len(lines)], 1):
        last = f"{written(many)}\n".encode()
        requests += [("digest", place, 1, many), ("counts", place, 1), ("newest_text", place, 1),
                     ("journal_text", place, many - 1), ("digest", place, 1, many + 1), ("digest", place, 1, many - 1)]
        wanted += [({"ok": 1}, text) for text in (chain[many].hex().encode(), many.to_bytes(8, "little"), last, last)]
        wanted += [({"code": 73}, b""), ({"ok": 1}, chain[many - 1].hex().encode())]
    yield right(f"snapshots of {sizes} messages", program, requests, wanted)


def line_feeds(program):
    """An object with line feeds and other white space around it and between its parts, as no line is. Of two equal keys
    the last counts."""
    spread = json.dumps(samples.instruction(), indent="\t", separators=(" \r\n,", "\t:\r\n "))
    objects = [f" \r\n{spread}\t\n", spread.replace("{", '{\n"MsgNmId"\n:\nnull,', 1)]
    requests = [("open", 0, 1, 1), *(("take", 0, one.encode()) for one in objects), ("archive_text", 0)]
    wanted = [(OK, b""), ({"ok": 1, "is_repeat": 0}, b""), ({"ok": 1, "is_repeat": 1}, b""),
              ({"ok": 1}, f"{written(1)}\n".encode())]
    yield right("objects over several lines", program, requests, wanted)


def sizes(program):
    yield right("the sizes of the structures", program, [("layout", 0)], [({}, LAYOUT)])


# ---- many sites, little stack

def most_sites(program):
    """All sites of the largest group."""
    sites, whole = range(1, MOST_SITES + 1), [1, 2, 512, MOST_SITES]
    requests = [("open", site, site, MOST_SITES) for site in sites] + [("take", site, instruction(site).encode())
                                                                       for site in sites]
    requests += [("accept", 1, delta(site, 1, site)) for site in sites[1:]]
    everything = "delta 2\n" + "".join(f"origin {site} 1 1\n{written(site)}\n"
                                       for site in sites) + f"end {MOST_SITES}\n"
    requests += [("cut_above", 1, [0] * MOST_SITES)] + [("accept", site, everything.encode()) for site in whole[1:]]
    asked = [(name, site, *words) for site in whole
             for name, *words in (["vector_text"], ["counts", MOST_SITES], ["status_text"])]
    vector = ",".join(f"{site}:1" for site in sites).encode()
    statuses = "".join(f"T|BANKDEFFXXX|{name}|PENDING\n" for name in sorted(f"T{site}" for site in sites)).encode()
    wanted = [({"ok": 1}, None)] * (3 * MOST_SITES - 1) + [({"ok": 1}, everything.encode())]
    wanted += [({"ok": 1, "fresh": MOST_SITES - 1}, None)] * len(whole[1:])
    counts = b"".join([(1).to_bytes(8, "little")] * MOST_SITES)
    wanted += [({"ok": 1}, text) for _ in whole for text in (vector, counts, statuses)]
    yield right("sites 1 to 1024", program, requests + asked, wanted)


def written(number):
    return status.written(status.read_message(instruction(number).encode()))


def deepest():
    """Requests that need the most stack."""
    yield from (("open", 0, 1, 2), ("open", 1, 2, 2), ("take", 0, b"[" * 99_999), ("take", 0, b'{"a":' * 99_999))
    yield "take_lines", 0, "".join(messages.lines(LONG)).encode()
    transactions = [samples.transaction(OrgnlTxId=f"T{place}", CxlId=f"R{place}") for place in range(100)]
    yield "take", 0, json.dumps(samples.recall(transactions)).encode()
    yield from (("evaluate", 0), ("changes", 0), ("status_text", 0), ("totals_text", 0), ("archive_text", 0),
                ("contradictions_text", 0))
    yield from (("entries", 0, 1, 0, MOST_TEXT), ("digest", 0, 1, 1), ("digests_text", 0), ("journal_text", 0, 1),
                ("newest_text", 0, LONG))
    yield "reading_text", 0, "".join(messages.lines(LONG)).encode()
    rows = "".join(f"BANKDEFF,T{place},1.00,PENDING\n" for place in range(5000))
    rows = ("DbtrAgt,TxId,Amt,Sts\n" + rows).encode()
    yield from (("report", 0, BANK, DAY, rows), ("snapshot", 0, 2), ("status_text", 2), ("report", 2, BANK, DAY, rows))


def little_stack(program):
    """What needs the most stack, and what a site that is brought it all needs."""
    requests = list(deepest())
    found = driving.asked(program, [*requests, ("cut", 0, b"-")])
    codes = [reply.fields["code"] for reply in found]
    yield reported("the deepest and the longest texts", codes == [0, 0, 31, 31] + [0] * (len(codes) - 4), f"{codes}")
    held = found[-1].text
    more = [("accept", 1, held), ("status_text", 1), ("close", 1), ("restore", 1, 2, 2, b"", held), ("archive_text", 1),
            ("stack", 0)]
    found = driving.asked(program, [*requests[:2], *more])
    is_right = all(reply.fields.get("ok", 1) for reply in found) and found[-1].fields["bytes"] < STACK
    yield reported(f"the most stack used is {found[-1].fields['bytes'] // 1024} of 256 KB", is_right)


# ---- names

def only_reads(folder):
    """Calls that only read leave the handle as it is, so they may use one that cannot be written. A call that changes
    it is killed there."""
    if not driving.stands_in():
        program = driving.built(folder, driving.SOURCES / "only_reads.c", wraps=())
        read, ended = harness.run([program]), harness.run([program, "end"])
        yield reported("calls that only read do not write the handle", (read.text, read.status) == (READ, 0), f"{read}")
        yield reported("a call that changes it does", (ended.text, ended.status) == (READ, -signal.SIGSEGV), f"{ended}")


def names(folder):
    """What the libraries give away and need."""
    declared = set(re.findall(r"^\w+ (sct_version|sct_raw_\w+)\(", (TOP / "include" / "niluppang.h").read_text(), re.M))
    version = "NILUPPANG_" + ".".join((TOP / "VERSION").read_text().split(".")[:2])
    for path, words, outside in (("libniluppang.a", ["--extern-only"], CALLED | OF_COMPILER),
                                 ("libniluppang.so", ["--dynamic"], CALLED)):
        lines = harness.run(["nm", *words, folder / path]).text.decode().splitlines()
        found = [line.split()[-2:] for line in lines if re.search(r" [A-Za-z] \S+$", line)]
        given = {name for kind, name in found if kind in "TDBRV"}
        needed = {name.partition("@")[0] for kind, name in found if kind == "U"}
        wanted = {f"{name}@@{version}" if words == ["--dynamic"] else name for name in declared}
        yield reported(f"{path} has the names of the header alone", given == wanted, f"{sorted(given ^ wanted)}")
        if not driving.stands_in():
            yield reported(f"{path} needs the C library alone", needed <= outside, f"{sorted(needed - outside)}")
    versions = harness.run(["readelf", "--version-info", "--wide", folder / "libniluppang.so"]).text.decode()
    defined = re.findall(r"Index: \d+ +Cnt: 1 +Name: (\S+)", versions)  # the first is the soname
    soname = harness.run(["readelf", "--dynamic", "--wide", folder / "libniluppang.so"]).text.decode()
    is_named = f"Library soname: [libniluppang.so.{version.partition('_')[2]}]" in soname and defined[1:] == [version]
    yield reported("the version of the names, and the soname", is_named, versions + soname)
    headers = harness.run(["readelf", "--program-headers", "--wide", folder / "libniluppang.so"]).text.decode()
    yield reported("the shared library needs no stack that runs", re.search(r"GNU_STACK.* RW +0x", headers) is not None,
                   headers)


def asked_for(program, held):
    """How often calls about one transfer or one bank ask for memory, after a take at a site that holds some
    messages."""
    lines, of_one = "".join(messages.lines(held)).encode(), [BANK, BANK, b"T1"]
    questions = [("transfer_text", 0, BANK, b"T1"), ("bank_totals", 0, BANK), ("changes", 0),
                 ("transfer_text_for", 0, *of_one), ("messages_text_for", 0, *of_one),
                 ("bank_totals_for", 0, BANK, BANK), ("report_for", 0, BANK, BANK, DAY, b"DbtrAgt,TxId,Amt,Sts\n"),
                 ("take_as", 0, BANK, instruction(99).encode()),
                 ("take_as", 0, b"BANQFRPP", confirmation(1).encode()), ("snapshot", 0, 1)]
    taken = [(("take", 0, instruction(number).encode()), question) for number, question in enumerate(questions, 1)]
    report = next(question for question in questions if question[0] == "report_for")
    requests = [("open", 0, 1, 1), ("take_lines", 0, lines), ("changes", 0), ("transfer_text_for", 0, *of_one), report,
                *(request for pair in taken for request in pair)]
    replies = driving.asked(program, requests)
    whole = replies[1].fields["ok"] == 1 and replies[1].fields["fresh"] == held
    return whole, [reply.asked for reply in replies[6::2]]


def progress(program):
    """A site that holds 1,000 messages takes 2,000 more, accepts as many, and is restored. No call is out of memory for
    long."""
    lines = [instruction(number).encode() for number in range(1, 3002)]
    whole, rest = delta(2, 1, *range(4001, 6001)), delta(2, 2001, 6001)
    steps = [(("open", 0, 1, 2), {}),
             (("take_lines", 0, b"".join(lines[:1000])), {"fresh": 1000, "repeats": 0, "refused": 0}),
             (("take_lines", 0, b"".join(lines[1:3000])), {"fresh": 2000, "repeats": 999, "refused": 0}),
             (("take", 0, lines[3000]), {"number": 3001}), (("accept", 0, whole), {"fresh": 2000}),
             (("accept", 0, rest), {"fresh": 1}),
             (("take_lines", 0, b"".join(lines)), {"fresh": 0, "repeats": 3001}),
             (("restore", 1, 1, 2, b"".join(lines), whole), {})]
    wanted = [({"ok": 1, "code": 0, **fields}, b"" if call[0] != "open" else None) for call, fields in steps]
    asked = [("counts", 0, 2), ("counts", 1, 2)]
    counts = [({"ok": 1}, b"".join(many.to_bytes(8, "little") for many in held))
              for held in ([3001, 2001], [3001, 2000])]
    yield right("3,001 messages taken and 2,001 accepted, in parts", program, [call for call, _ in steps] + asked,
                wanted + counts)


def costs(program):
    """A question after a take evaluates and files what is new, and not what is held. A long text is taken whole."""
    (few_whole, few), (many_whole, many) = (asked_for(program, held) for held in HELD)
    yield reported(f"all {HELD} messages of a text are taken", few_whole and many_whole)
    grown = all(after <= 2 * before + 9 for before, after in zip(few, many))
    yield reported(f"questions ask for memory {few} times with {HELD[0]} messages, and {many} times with {HELD[1]}",
                   grown)


def examples(program):
    """All examples."""
    for stem in sorted(path.stem for path in EXAMPLES.glob("*.jsonl")):
        yield from example(program, stem)


def done(check, program):
    """What a check finds. If the driver ends as it must not, that is a failure too."""
    try:
        yield from check(program)
    except driving.Failed as failed:
        yield reported(check.__name__, False, str(failed))


def main():
    driving.end_if_missing()
    with driving.libraries() as folder:
        program = driving.built_driver(folder)
        checks = (examples, hub, entries, digests, exchanged, refusals, reasons, parts, numbers, nothing, snapshots,
                  blocks, line_feeds, sizes, most_sites, little_stack, progress, costs)
        found = [one for check in checks for one in done(check, program)]
        harness.end_of([*found, *only_reads(folder), *names(folder)])


if __name__ == "__main__":
    main()
