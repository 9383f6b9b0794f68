"""header_alone.py: what programs print that were written from the header alone, compared with the definitions. A part
of c_examples.py.

- nulls.c makes each call that takes a pointer with a null pointer and the length 0. As C and as C++ it is linked with
the library, and with
  its stand-in, which ends the process if a function of the library is given a null pointer.
- header_alone.c and header_alone.cc are hubs of three sites, which take the lines of hub-morning. Each of their calls,
at random, comes to
  what model.py has for it, with why, and the last answers are those of the example.
- They are the commands `site`, `vector` and `cut` too, on the files of tests/data/exchange and on words that are
refused.

All runs under the sanitizers for addresses and for undefined behaviour.
"""
import collections
import pathlib
import random
import shutil
import tempfile
from bench.generate import samples
from tests import harness
from tests.embed import driving, model
from tests.harness import DATA, EXAMPLES, reported
from tests.inputs import delta, instruction
from tests.oracle import exchange

FILES = sorted(EXAMPLES.glob("hub-morning.site*"))
CASES = DATA / "exchange"
OTHER = samples.line(samples.instruction(MsgId="OTHER", TxId="OTHER")).strip()
SEEDS, STEPS, RUNS = (1, 2, 3, 4), 250, 30
OF_SNAPSHOTS = 100  # the least number by which a hub calls the handle of a snapshot
COMPILERS = {"header_alone.c": ["gcc", "clang"], "header_alone.cc": ["g++", "clang++"],
             "nulls.c": ["gcc", "clang", "g++", "clang++"]}
MORE = ["-Wshadow", "-Wconversion"]
# what the calls of hubs must meet: calls, and the numbers of refusals
TO_MEET = ["open", "restore", "close", "take", "take_lines", "accept", "counts", "cut", "cut_above", "entries",
           "digest", "digests_text", "vector_text",
           "journal_text", "newest_text", "reading_text", "evaluate", "changes", "answer_end", "status_text",
           "archive_text", "kept_text", "closed_text",
           "take_as", "transfer_text_for", "messages_text_for", "bank_totals_for", "report_for",
           "refused 41", "refused 42", "refused 43", "refused 45", "refused 73", "refused 79", "refused 81",
           "refused 84",
           "snapshot", "refused 71", "refused 85", "a question to a snapshot", "a repeat", "a delta again",
           "a cut that was kept"]


def programs(folder, source):
    """The program of a source by each compiler that is there, with all warnings as errors, under the sanitizers."""
    for compiler in COMPILERS[source]:
        if shutil.which(compiler):
            name = f"{source} by {compiler}"
            yield name, driving.built(folder, driving.SOURCES / source, *driving.CHECKED, *MORE,
                                      name=name.replace(" ", "_"), wraps=(),
                                      compiler=compiler)


# ---- nothing at null pointers

def results_of_nulls():
    """What nulls.c must print."""
    empty = {"take": [b""], "take_as": [b"", b""], "take_lines": [b""], "accept": [b""], "counts": [0], "cut": [b""],
             "reading_text": [b""], "report": [b"", b"", b""], "kept_text": [b""], "closed_text": [b""],
             "transfer_text": [b"", b""], "messages_text": [b"", b""],
             "bank_totals": [b""], "cut_above": [[]], "transfer_text_for": [b"", b"", b""],
             "messages_text_for": [b"", b"", b""], "bank_totals_for": [b"", b""], "report_for": [b"", b"", b"", b""]}
    last = [("answer", [0]), ("answer_part", [3, 0]), ("answer_end", []), ("answer", [0]), ("why", [0])]
    handle = model.Handle()
    for name, arguments in [("restore", [1, 2, b"", b""]), *empty.items(), *last]:
        fields, _ = handle.call(name, *arguments)
        yield " ".join([name, *(str(fields[field]) for field in driving.FIELDS[name])])
    gap = model.CODES[41]
    yield from (f"code_name {len(gap[0])}", f"code_text {len(gap[1])}")


def nulls(folder):
    """Whether nothing at null pointers is no text."""
    wanted = "".join(line + "\n" for line in results_of_nulls()).encode()
    with tempfile.TemporaryDirectory() as other:
        driving.make_stand_in(other)
        for place, what in ((folder, "the library"), (pathlib.Path(other), "the stand-in")):
            for name, program in programs(place, "nulls.c"):
                answer = harness.run([program])
                yield reported(f"{name}, with {what}", answer == (wanted, b"", 0), str(answer))


# ---- hubs

# a call of a hub: its name, its site, its arguments, the fields of its result, what it made or wrote, and why
Call = collections.namedtuple("Call", "name site arguments fields text why")


class Transcript:
    """The calls that a hub wrote, taken one after another."""

    def __init__(self, data):
        self.data, self.place = data, 0

    def bytes(self, length):
        self.place += length
        return self.data[self.place - length:self.place]

    def words(self):
        return self.bytes(self.data.index(b"\n", self.place) + 1 - self.place).decode().split()

    def call(self):
        name, site, *words = self.words()
        arguments = [self.bytes(int(word[1:])) if word.startswith("=") else int(word) for word in words]
        *fields, length, why = map(int, self.words())
        result = dict(zip(driving.FIELDS[name], fields))
        return Call(name, int(site), arguments, result, self.bytes(length), self.bytes(why))

    def calls(self):
        while self.place < len(self.data):
            yield self.call()


def wrong(handles, call):
    """What differs of a call, or None."""
    arguments = [driving.counts_in(text) for text in call.arguments] if call.name == "cut_above" else call.arguments
    fields, text = model.called(handles, call.site, call.name, *arguments)
    why = handles[call.site].call("why", 1 << 20)[1]
    wanted = {field: fields[field] for field in driving.FIELDS[call.name]}
    if (wanted, text or b"", why or b"") != (call.fields, call.text, call.why):
        return f"{call}\n wanted {wanted} {text} {why}"
    return None


def met_by(call):
    """What a call meets."""
    yield call.name
    if call.fields.get("code"):
        yield f"refused {call.fields['code']}"
    if call.fields.get("is_repeat") or call.fields.get("repeats"):
        yield "a repeat"
    if call.name == "accept" and call.fields["ok"] and not call.fields["fresh"]:
        yield "a delta again"
    if call.name == "restore" and call.arguments[3]:
        yield "a cut that was kept"
    if call.site >= OF_SNAPSHOTS and call.name in ("status_text", "cut", "kept_text"):
        yield "a question to a snapshot"


def differences(calls):
    """What is wrong with the calls of a hub."""
    handles = collections.defaultdict(model.Handle)
    return [text for text in (wrong(handles, call) for call in calls) if text]


def are_last_answers(calls):
    """Whether the last answers are those of the example."""
    last = {call.name: call.text for call in calls if call.name in ("archive_text", "status_text")
            and call.site < OF_SNAPSHOTS}
    status = last.get("status_text", b"")
    return [last["archive_text"], status[-len(in_example("run")):]] == [in_example("archive"), in_example("run")]


def in_example(suffix):
    return (EXAMPLES / f"hub-morning.{suffix}").read_bytes()


def hubs(name, program):
    """Whether the calls of hubs come to what they must, and meet what there is."""
    met = set()
    for seed in SEEDS:
        with tempfile.TemporaryDirectory() as folder:
            answer = harness.run([program, "hub", str(seed), str(STEPS), folder, OTHER, *FILES])
        if answer.status or answer.errors:
            yield reported(f"{name}, hub {seed}", False, answer.errors.decode(errors="replace")[-2000:])
            continue
        calls = list(Transcript(answer.text).calls())
        met.update(thing for call in calls for thing in met_by(call))
        found = differences(calls)
        yield reported(f"{name}, hub {seed}, {len(calls)} calls", not found and are_last_answers(calls),
                       "".join(found[:1])[:2000])
    missing = [thing for thing in TO_MEET if thing not in met]
    yield reported(f"{name}, what hubs meet", not missing, f"{missing}")


# ---- the commands

def words_of(r, journals, deltas):
    """The words of a command at random."""
    command, site = r.choice(["site", "vector", "cut"]), r.choice(["1", "2"])
    have = [r.choice(["-", "1:1", "2:1", "1:2,2:1", "1024:3"])] if command == "cut" else []
    return [command, site, "2", *have, r.choice(journals), *r.choices(deltas, k=r.randint(0, 4))]


WRONG = [["site", "3", "2", "empty"], ["site", "0", "2", "empty"], ["site", "01", "2", "empty"],
         ["site", "1", "1025", "empty"],
         ["cut", "1", "2", "1:0x", "empty"], ["cut", "1", "2", "2:1,1:1", "empty"],
         ["cut", "1", "2", "", "empty"], ["site", "1", "2"],
         ["cut", "1", "2", "-"], ["vector", "1", "two", "empty"], ["site", "1", "2", "empty", "nowhere"],
         ["site", "1", "2", "nowhere"],
         ["vector", "1", "2", "folder"], ["site", "00", "2", "empty"], ["vector", "1", "1024", "empty", "empty"]]


# a delta before an earlier one, which is then accepted in a second round, one that is too early, and a journal that
# lost or changed lines
WORKED = [["site", "2", "2", "two", "second", "first"], ["site", "2", "2", "two", "second"],
          ["site", "2", "2", "two", "second", "second"],
          ["vector", "2", "2", "two", "second", "first", "both"], ["site", "1", "2", "short", "both"],
          ["site", "1", "2", "other", "both"],
          ["cut", "2", "2", "1:2", "two", "both"], ["site", "2", "2", "two", "damaged", "both", "second"],
          ["site", "2", "2", "lines"]]


def made_files(folder):
    """A folder with the files of tests/data/exchange, and some others. The names of the journals, and of the deltas."""
    for path in CASES.iterdir():
        if path.is_file():
            shutil.copy(path, folder)
    place = pathlib.Path(folder)
    (place / "folder").mkdir()
    more = {"empty": b"", "lines": (instruction(1) + "{}\n\n[]\n" + instruction(1)).encode(),
            "two": instruction(3).encode(),
            "short": instruction(1).encode(),
            "other": (instruction(4) + instruction(2)).encode(), "first": delta(1, 1, 1),
            "second": delta(1, 2, 2), "both": delta(1, 1, 1, 2), "damaged": delta(1, 1, 1, 2)[:-2]}
    for name, data in more.items():
        (place / name).write_bytes(data)
    names = sorted(path.name for path in place.iterdir() if path.is_file() and path.suffix == "")
    deltas = [name for name in names if (place / name).read_bytes().startswith(b"delta")]
    return [name for name in names if name not in deltas], [*deltas, "empty"]


def commands(name, program):
    """Whether commands print and end as they must."""
    with tempfile.TemporaryDirectory() as folder:
        journals, deltas = made_files(folder)
        r = random.Random(20261129)
        cases = WRONG + WORKED + [words_of(r, journals, deltas) for _ in range(RUNS)]
        wanted = [exchange.answer(words, folder) for words in cases]
        found = [harness.run([program, *words], cwd=folder) for words in cases]
    right = [(text.encode(), refused.encode(), status) for text, refused, status in wanted]
    differ = [f"{words}\n wanted {one}\n found {other}" for words, one, other in zip(cases, right, found)
              if one != other]
    kinds = collections.Counter(status for _, _, status in wanted)
    numbers = {line.split()[2] for _, refused, _ in wanted for line in refused.splitlines() if line.startswith("file")
               and ":" in line}
    is_met = min(kinds[status] for status in (0, 1, 2)) > 3 and {"41", "42", "43", "45"} <= numbers
    return reported(f"{name}, {len(cases)} commands", not differ and is_met,
                    "".join(differ[:1])[:2000] or f"{kinds} {numbers}")


def checks(folder):
    """Whether each program prints what it must."""
    yield from nulls(folder)
    for source in ("header_alone.c", "header_alone.cc"):
        for name, program in programs(folder, source):
            yield from hubs(name, program)
            yield commands(name, program)
