"""What a site answers beside the examples: transfers, banks, changes, journals, arrivals, readings, and lines that are
read in parts."""
import gc
import hashlib
import io
import json
import threading

import pytest
from conftest import RECALLED, Hooked, archived, bytes_in, confirmation, delta, instruction, line_of, recall

from niluppang import Accepted, BytesSite, Closed, LinesTaken, NiluppangError, Site, Taken, Transfer, _site

SITES = {"str": Site, "bytes": BytesSite}


def in_kind(kind, text):
    """A text as str or as bytes."""
    return text if kind == "str" else text.encode()


@pytest.fixture
def site():
    """A site with the messages of the bank's day."""
    with Site(1, 1) as site:
        site.take_lines(bytes_in("bank-day.jsonl"))
        yield site


# ---- one transfer, one bank, changes

def test_one_transfer_and_one_bank(site):
    lines = bytes_in("bank-day.status").decode().splitlines(keepends=True)
    for line in lines:
        _, bank, tx, *_ = line.rstrip("\n").split("|")
        assert site.transfer(bank, tx) == "".join(one for one in lines
                                                  if one.rstrip("\n").split("|")[1:3] == [bank, tx])
    for line in bytes_in("bank-day.totals").decode().splitlines(keepends=True):
        assert site.bank_totals(line.split("|")[0]) == line
    assert site.transfer("NOBODYXX", "T9") == "T|NOBODYXXXXX|T9|UNKNOWN\n"
    assert site.bank_totals("NOBODYXX") == "NOBODYXXXXX|0|0.00|0.00|0|0|0|0|0|0.00|0.00\n"


# ---- for banks

BOTH = recall(RECALLED, {**RECALLED, "OrgnlTxId": "T2"})


@pytest.fixture(params=SITES)
def shared(request):
    """A site with a transfer T1 of BANKDEFF to BANQFRPP, one T2 to BANKITMM, and a recall of both. Its kind, too."""
    with SITES[request.param](1, 1) as site:
        for message in (instruction(1), confirmation(1), instruction(2, CdtrAgt="BANKITMM"), BOTH):
            site.take(message)
        yield site, request.param


def test_messages_in_the_name_of_banks():
    with Site(1, 2) as site:
        assert site.take_as("BANKDEFF", instruction(1)) == Taken(False, 1)
        assert site.take_as(b"BANQFRPP,BANKDEFFXXX", instruction(1).encode()) == Taken(True, None)
        assert site.take_as(bytearray(b"BANQFRPP"), confirmation(1)) == (False, 2)
        assert site.take_as(",".join(["BANKITMM"] * 15 + ["BANQFRPP"]), confirmation(1)).is_repeat
        assert site.journal() == archived(1) + line_of(json.loads(confirmation(1))) and site.counts() == [2, 0]


def test_transfers_of_theirs_and_of_others(shared):
    site, kind = shared
    lines = in_kind(kind, "T|BANKDEFFXXX|T1|ACCEPTED\nR|BANKDEFFXXX|T1|R1|OPEN\n")
    for banks in ("BANKDEFF", b"BANQFRPP", "BANKITMM,BANQFRPPXXX"):
        assert site.transfer_for(banks, "BANKDEFF", "T1") == site.answer() == lines
    assert site.transfer_for("BANKITMM", "BANKDEFF", "T1") == in_kind(kind, "T|BANKDEFFXXX|T1|UNKNOWN\n")
    assert site.transfer_for("BANQFRPP", "BANKDEFF", "T2") == in_kind(kind, "T|BANKDEFFXXX|T2|UNKNOWN\n")


def test_messages_of_theirs_and_of_others(shared):
    site, kind = shared
    recalled = json.loads(BOTH)
    head = {key: recalled[key] for key in recalled if key != "TxInf"}
    on_it = archived(1) + line_of(json.loads(confirmation(1)))
    assert site.messages_for("BANQFRPP", b"BANKDEFF", "T1") == in_kind(kind, line_of({**head, **RECALLED}) + on_it)
    assert site.messages_for("BANKITMM", "BANKDEFF", "T2") == in_kind(
        kind, line_of({**head, **RECALLED, "OrgnlTxId": "T2"}) + archived(2, CdtrAgt="BANKITMM"))
    for banks in ("BANKDEFF", "BANKITMM,BANQFRPP"):
        assert site.messages_for(banks, "BANKDEFF", "T1") == site.messages("BANKDEFF", "T1")
    assert site.messages_for("BANKITMM", "BANKDEFF", "T1") == in_kind(kind, "")


def test_totals_and_reports_of_theirs(shared):
    site, kind = shared
    totals = in_kind(kind, "BANQFRPPXXX|0|0.00|0.00|0|0|0|0|1|1.00|0.00\n")
    assert site.bank_totals_for("BANKITMM,BANQFRPP", b"BANQFRPPXXX") == totals
    rows = "DbtrAgt,TxId,Amt,Sts\nBANKDEFF,T1,1.00,ACCEPTED\nBANKDEFF,T2,1.00,PENDING\n"
    head = "DbtrAgt,TxId,Result,ListAmt,ListSts,Amt,Sts\n"
    mine, other = ("BANKDEFFXXX,T1,MATCHED,1.00,ACCEPTED,1.00,ACCEPTED\n",
                   "BANKDEFFXXX,T2,MATCHED,1.00,PENDING,1.00,PENDING\n")
    hidden = "BANKDEFFXXX,T2,ONLY_IN_LIST,1.00,PENDING,,UNKNOWN\n"
    for banks, last in (("BANQFRPP", hidden), ("BANKITMM,BANQFRPP", other)):
        assert site.report_for(banks, "BANQFRPP", "2024-05-02", rows) == in_kind(kind, head + mine + last)


@pytest.mark.parametrize("kind", SITES)
def test_changes(kind):
    with SITES[kind](1, 2) as site, Site(2, 2) as other:
        site.take(instruction(1))
        assert site.changes() == []
        site.take(instruction(2))
        site.take(instruction(1))
        assert site.changes() == [Transfer("BANKDEFFXXX", "T2")]
        assert site.answer() == in_kind(kind, "BANKDEFFXXX|T2\n")
        assert site.changes() == []
        other.take(instruction(4))
        other.take(instruction(3))
        assert site.accept(other.cut(site.vector_text())) == Accepted(2)
        assert site.changes() == [("BANKDEFFXXX", "T3"), ("BANKDEFFXXX", "T4")]


# the transfers of the bank's day that are not done on the day after it. All its messages are of 2025-03-10
NOT_DONE = {"HH-0303", "LU,10", "LU20250310B3", "LU20250310B5", "LU20250310B6", "LU20250310B9"}


@pytest.mark.parametrize("kind", SITES)
def test_what_is_kept_and_what_is_closed(kind):
    lines = bytes_in("bank-day.archive").decode().splitlines(keepends=True)
    on = [message.get("TxId", message.get("OrgnlTxId")) for message in map(json.loads, lines)]
    kept, closed = ("".join(line for line, tx in zip(lines, on) if (tx in NOT_DONE) == is_kept)
                    for is_kept in (True, False))
    with SITES[kind](1, 1) as site:
        assert site.kept_text("2025-03-11") == site.closed_text("2025-03-11") == in_kind(kind, "")
        site.take_lines(bytes_in("bank-day.jsonl"))
        assert site.kept_text("2025-03-11") == site.answer() == in_kind(kind, kept)
        assert site.closed_text(b"2025-03-11") == site.answer() == in_kind(kind, closed)
        assert (site.kept_text("2025-03-10"), site.closed_text("2025-03-10")) == (in_kind(kind, "".join(lines)),
                                                                                  in_kind(kind, ""))
        assert site.archive_text() == in_kind(kind, "".join(lines))


def test_what_is_kept_follows_what_comes():
    with Site(1, 1) as site:
        site.take(instruction(1))
        assert (site.kept_text("2025-01-01"), site.closed_text("2025-01-01")) == (archived(1), "")
        accepted = {
            "MsgNmId": "pacs.002", "MsgId": "C1", "CreDtTm": "2024-12-31T23:59:59-05:00", "InstgAgt": "BANQFRPP",
            "OrgnlMsgId": "M1", "OrgnlMsgNmId": "pacs.008", "OrgnlTxId": "T1", "TxSts": "ACCP", "DbtrAgt": "BANKDEFF"}
        site.take(json.dumps(accepted))
        assert site.kept_text("2025-01-01") == "" and site.closed_text("2025-01-01") == site.archive_text()
        assert site.kept_text("2024-12-31") == site.archive_text() and site.closed_text("2024-12-31") == ""


def test_contradictions():
    with Site(1, 1) as site:
        site.take(instruction(1))
        site.take(instruction(1, TxId="T7"))
        assert site.contradictions_text() == "BANKDEFFXXX|pacs.008|M1\n"


# ---- the journal, arrivals, readings

@pytest.mark.parametrize("kind", SITES)
def test_journal(kind):
    with SITES[kind](2, 2) as site:
        assert site.journal() == site.journal(5) == in_kind(kind, "")
        site.take(instruction(7))
        site.accept(delta(1, 1, 5, 6))
        site.take_lines("\n".join(map(instruction, [3, 7, 5, 3, 1])))
        own = [archived(7), archived(3), archived(1)]
        for above in range(5):
            assert site.journal(above) == in_kind(kind, "".join(own[above:]))
        assert site.journal((1 << 64) - 1) == in_kind(kind, "")
        assert site.journal() == in_kind(kind, "".join(own))
        kept = site.journal(), site.cut()
    with Site.restore(2, 2, *kept) as again:
        assert (again.refused_text, again.vector_text()) == ("", "1:2,2:3")


def written(origin, first, *numbers):
    """A delta of instructions, as a site writes it."""
    return f"delta 2\norigin {origin} {first} {len(numbers)}\n{''.join(map(archived, numbers))}end {len(numbers)}\n"


@pytest.mark.parametrize("kind", SITES)
def test_entries(kind):
    both, one = written(1, 1, 9, 7, 4), written(1, 1, 9)
    room, little = len(both.encode()), len(one.encode())
    with SITES[kind](2, 3) as site:
        assert site.entries(1, 0, 1) == in_kind(kind, "delta 2\nend 0\n")
        site.accept(delta(1, 1, 9, 7, 4))
        site.take(instruction(8))
        assert site.entries(1, 0, 67108863) == site.entries(1, 0, room) == in_kind(kind, both)
        assert site.entries(1, 0, room - 1) == in_kind(kind, written(1, 1, 9, 7))
        assert site.entries(1, 0, little) == site.entries(1, 0, 1) == in_kind(kind, one)
        assert site.entries(1, 1, room) == in_kind(kind, written(1, 2, 7, 4))
        assert site.entries(2, 0, little) == in_kind(kind, written(2, 1, 8))
        for origin, above in (1, 3), (1, (1 << 64) - 1), (2, 1), (3, 0), (1024, 0):
            assert site.entries(origin, above, 100) == in_kind(kind, "delta 2\nend 0\n")


def test_entries_until_none_come():
    with Site(1, 2) as giver, Site(2, 2) as taker:
        giver.take_lines("\n".join(map(instruction, range(1, 20))))
        for most in range(500, 3000, 250):
            taker.accept(giver.entries(1, taker.counts()[0], most))
        while taker.accept(giver.entries(1, taker.counts()[0], 1)).fresh:
            pass
        assert taker.archive_text() == giver.archive_text() and taker.vector_text() == "1:19"


@pytest.mark.parametrize("kind", SITES)
def test_digests(kind):
    chain = [bytes(32)]
    for number in 9, 7, 4:
        chain.append(hashlib.sha256(chain[-1] + archived(number).encode()).digest())
    own = hashlib.sha256(bytes(32) + archived(8).encode()).hexdigest()
    with SITES[kind](2, 3) as site:
        assert site.digests_text() == in_kind(kind, "") and site.digest(1, 0) == in_kind(kind, "0" * 64)
        site.accept(delta(1, 1, 9, 7))
        assert site.digests_text() == in_kind(kind, f"1:2:{chain[2].hex()}\n")
        site.accept(delta(1, 3, 4))
        site.take(instruction(8))
        assert [site.digest(1, count) for count in range(4)] == [in_kind(kind, digest.hex()) for digest in chain]
        assert site.digests_text() == in_kind(kind, f"1:3:{chain[3].hex()}\n2:1:{own}\n")


@pytest.mark.parametrize("kind", SITES)
def test_newest(kind):
    with SITES[kind](2, 2) as site:
        assert site.newest(0) == site.newest(5) == in_kind(kind, "")
        site.take(instruction(7))
        came = site.accept(delta(1, 1, 9, 7, 4))
        site.take(instruction(9))
        lines = list(map(archived, [7, 9, 7, 4]))
        assert came == Accepted(3)
        for count in range(1, 5):
            assert site.newest(count) == in_kind(kind, "".join(lines[-count:]))
        assert site.newest(0) == in_kind(kind, "")
        assert site.newest(5) == site.newest((1 << 64) - 1) == in_kind(kind, "".join(lines))


def test_journal_has_no_repeats():
    with Site(1, 2) as site, Site(2, 2) as other:
        other.take(instruction(1))
        site.accept(other.cut())
        assert site.take(instruction(1)) == Taken(True, None)
        assert site.take(instruction(2)) == Taken(False, 1)
        assert site.journal() == archived(2)
        whole = site.cut()
    with Site.restore(1, 2, instruction(2), whole) as again:
        assert (again.refused_text, again.cut(), again.vector_text()) == ("", whole, "1:1,2:1")
    with Site.restore(1, 2, instruction(1) + "\n" + instruction(2), whole) as wrong:
        assert wrong.refused_text == "file 2: 42 1 1\n"


@pytest.mark.parametrize("kind", SITES)
def test_reading(kind):
    twice = '{"MsgId":"M9",' + instruction(4)[1:]
    lines = [instruction(1), "", instruction(InstgAgt="b"), "x", " \t\r", instruction(1), twice, "[]",
             " " + instruction(2)]
    right = [archived(1), "line 3: 36 InstgAgt 1\n", "line 4: 31\n", archived(1), archived(4), "line 8: 32\n",
             archived(2)]
    with SITES[kind](1, 1) as site:
        assert site.reading("\n".join(lines)) == site.answer() == in_kind(kind, "".join(right))
        assert site.reading("") == site.reading(b" \n\n") == in_kind(kind, "")
        assert site.counts() == [0]


@pytest.mark.parametrize("call", ["journal", "journal_lines", "newest"])
@pytest.mark.parametrize("number, error", [(-1, ValueError), (1 << 64, ValueError), (1.5, TypeError), ("1", TypeError),
                                           (None, TypeError)])
def test_what_is_no_number_of_messages(site, call, number, error):
    with pytest.raises(error) as raised:
        getattr(site, call)(number)
    assert type(raised.value) is error and (error is TypeError or str(number) in str(raised.value))


def test_evaluate(site):
    library, text = Hooked(site), site.bank_totals("LUTEFRPP")
    assert site.evaluate() is None and library.calls.pop() == "evaluate"
    assert site.answer() == text
    site.take(instruction())
    site.evaluate()
    assert site.transfer("BANKDEFF", "T1") == "T|BANKDEFFXXX|T1|PENDING\n"


# ---- the answer

def test_answer_is_the_last_text():
    with Site(1, 1) as site:
        assert site.answer() == ""
        site.take(instruction())
        text = site.status_text()
        site.take(instruction(2))
        assert site.answer() == text == "T|BANKDEFFXXX|T1|PENDING\n"
        with pytest.raises(NiluppangError):
            site.cut("x")
        assert site.answer() == text
        assert site.take_lines("x") == LinesTaken(0, 0, 1, "line 1: 31\n")
        assert site.answer() == "line 1: 31\n"


def test_answer_ends(site):
    site.status_text()
    assert site.answer_end() is None and site.answer() == ""
    assert site.status_text().encode() == bytes_in("bank-day.status")


# ---- lines

STEMS = ["bank-day", "hub-morning", "recall-batch", "refusals", "settlement-day"]


def lines_of(data):
    """The lines of some bytes, each with its line feed."""
    return list(io.BytesIO(data))


@pytest.mark.parametrize("part", [1, 7, 1 << 16])
@pytest.mark.parametrize("stem", STEMS)
def test_lines_of_examples(kind, stem, part, monkeypatch):
    monkeypatch.setattr(_site, "PART", part)

    def as_bytes(line):
        return line.encode() if kind == "str" else line

    with SITES[kind](1, 1) as site:
        site.take_lines(bytes_in(stem + ".jsonl"))
        assert list(map(as_bytes, site.status_lines())) == lines_of(bytes_in(stem + ".status"))
        assert list(map(as_bytes, site.archive_lines())) == lines_of(bytes_in(stem + ".archive"))
        assert list(map(as_bytes, site.journal_lines(1))) == lines_of(as_bytes(site.journal(1)))
        cut = [b"delta 2\n", *lines_of(as_bytes(site.cut()))[1:]]
        assert list(map(as_bytes, site.cut_lines())) == list(map(as_bytes, site.cut_lines([]))) == cut


def test_lines_of_a_cut_and_of_a_journal():
    with Site(2, 2) as site:
        site.take_lines(instruction(1) + "\n" + instruction(2))
        cut = ["delta 2\n", "origin 2 2 1\n", archived(2), "end 1\n"]
        assert list(site.cut_lines("2:1")) == list(site.cut_lines([0, 1])) == cut
        assert list(site.journal_lines()) == [archived(1), archived(2)] and list(site.journal_lines(1)) == [archived(2)]


def test_nothing_has_no_lines():
    with Site(1, 1) as site, BytesSite(1, 1) as twin:
        assert list(site.status_lines()) == list(twin.archive_lines()) == list(site.journal_lines()) == []


def test_only_a_line_feed_ends_a_line():
    name = "A\u2028B\x85C\x0bD\u2029"
    with Site(1, 1) as site:
        site.take(instruction(1, Dbtr=name))
        line, = site.archive_lines()
        assert line.endswith("}\n") and json.loads(line)["Dbtr"] == name


def test_lines_are_read_in_parts(site, monkeypatch):
    monkeypatch.setattr(_site, "PART", 100)
    places = []
    library = Hooked(site, answer_part=lambda _, place, room, size: places.append((place, size)))
    lines = site.archive_lines()
    assert library.calls == ["archive_text"] and next(lines).encode() == lines_of(bytes_in("bank-day.archive"))[0]
    read = len(places)
    assert len(list(lines)) == len(lines_of(bytes_in("bank-day.archive"))) - 1
    whole = len(bytes_in("bank-day.archive"))
    assert places == [(place, 100) for place in range(0, whole, 100)] + [(whole, 100)] and 1 < read < 20
    assert set(library.calls) == {"archive_text", "answer_part"}


KEPT = {"a take": lambda site: site.take(instruction()), "a repeat": lambda site: site.take(instruction()),
        "an accept": lambda site: site.accept("delta 2\nend 0\n"), "counts": Site.counts,
        "evaluate": Site.evaluate, "answer": Site.answer,
        "a refused take": lambda site: pytest.raises(NiluppangError, site.take, "x"),
        "a refused question": lambda site: pytest.raises(NiluppangError, site.transfer, "", "")}
REPLACED = {
    "a question": Site.totals_text, "the same question": Site.status_text, "lines of another": Site.archive_lines,
    "take_lines": lambda site: site.take_lines(""), "changes": Site.changes, "an end of the answer": Site.answer_end}


@pytest.mark.parametrize("part", [10, 1 << 16])
@pytest.mark.parametrize("name", KEPT)
def test_calls_that_leave_the_lines(site, name, part, monkeypatch):
    monkeypatch.setattr(_site, "PART", part)
    lines = site.status_lines()
    found = [next(lines)]
    KEPT[name](site)
    assert [line.encode() for line in [*found, *lines]] == lines_of(bytes_in("bank-day.status"))


@pytest.mark.parametrize("part", [10, 1 << 16])
@pytest.mark.parametrize("many", [0, 1, 14])
@pytest.mark.parametrize("name", REPLACED)
def test_calls_that_make_another_answer(site, name, many, part, monkeypatch):
    """The next line fails, whatever was read, also after the last one."""
    monkeypatch.setattr(_site, "PART", part)
    lines = site.status_lines()
    assert [next(lines).encode() for _ in range(many)] == lines_of(bytes_in("bank-day.status"))[:many]
    REPLACED[name](site)
    with pytest.raises(RuntimeError, match="another answer"):
        next(lines)
    assert list(lines) == []


@pytest.mark.parametrize("part", [10, 1 << 16])
@pytest.mark.parametrize("many", [0, 1, 14])
def test_lines_of_a_site_that_is_closed(site, many, part, monkeypatch):
    monkeypatch.setattr(_site, "PART", part)
    lines = site.status_lines()
    assert [next(lines).encode() for _ in range(many)] == lines_of(bytes_in("bank-day.status"))[:many]
    site.close()
    with pytest.raises(Closed) as raised:
        next(lines)
    assert (raised.value.number, raised.value.reason) == (70, "")


def test_lines_that_were_read_to_the_end(site):
    lines = site.status_lines()
    assert len(list(lines)) == 14
    site.totals_text()
    assert list(lines) == []


def test_refused_part_ends_no_text(site):
    """A part that is refused is an error, and never the end of the lines."""
    lines = site.status_lines()
    closed = Site(1, 1)
    closed.close()
    handle = closed._handle
    Hooked(site, answer_part=lambda _, *more: closed._library.sct_raw_answer_part(handle, *more))
    with pytest.raises(Closed):
        next(lines)


def test_another_thread_makes_another_answer(site, monkeypatch):
    """Each line that is read is right, until the next one fails."""
    monkeypatch.setattr(_site, "PART", 10)
    right, lines, found = lines_of(bytes_in("bank-day.status")), site.status_lines(), []
    other = threading.Thread(target=site.totals_text)
    with pytest.raises(RuntimeError):
        for line in lines:
            found.append(line.encode())
            if len(found) == 5:
                other.start()
                other.join()
    assert found == right[:5]


def test_lines_keep_their_site():
    lines = Site.restore(1, 1, bytes_in("bank-day.jsonl")).status_lines()
    gc.collect()
    with pytest.warns(ResourceWarning, match="unclosed"):
        assert [line.encode() for line in lines] == lines_of(bytes_in("bank-day.status"))
        gc.collect()
