"""Snapshots of a site: what they answer while the site goes on, what they refuse, threads, and their end."""
import ctypes
import gc
import json
import threading
import warnings

import pytest
from conftest import IS_STAND_IN, Hooked, archived, bytes_in, confirmation, delta, instruction
from test_answers import NOT_DONE, SITES, in_kind
from test_refusals import table
from test_site import Long, on_threads, resident

from niluppang import BytesSite, Closed, OutOfMemory, Questions, Refused, Site, Snapshot
from niluppang._library import Outcome, library

TAKING = {"take": 1, "take_as": 2, "take_lines": 1, "accept": 1}  # the calls that take or accept, with their texts
HEADER = "DbtrAgt,TxId,Amt,Sts\n"
# each question with its arguments; of each its answer is another one after the site has gone on
QUESTIONS = {"counts": [], "vector_text": [], "cut": ["1:1"], "entries": [1, 1, 1 << 20], "digest": [2, 1],
             "digests_text": [], "journal": [1], "newest": [2], "archive_text": [], "status_text": [],
             "totals_text": [], "contradictions_text": [], "report": ["BANKDEFF", "2024-05-02", HEADER],
             "kept_text": ["2024-05-02"], "closed_text": ["2025-01-01"], "transfer": ["BANKDEFF", "T1"],
             "messages": ["BANKDEFF", "T1"], "bank_totals": ["BANKDEFF"],
             "transfer_for": ["BANQFRPP", "BANKDEFF", "T1"], "messages_for": ["BANQFRPP", "BANKDEFF", "T1"],
             "bank_totals_for": ["BANQFRPP", "BANQFRPP"],
             "report_for": ["BANQFRPP", "BANQFRPP", "2024-05-02", HEADER]}
LINES = {"cut_lines": ["1:1"], "journal_lines": [1], "archive_lines": [], "status_lines": []}
OTHERS = {"number", "group", "is_closed", "close", "snapshot", "reading", "evaluate", "answer", "answer_end"}


def begun(site):
    """The site took two messages, and accepted one of site 2."""
    site.take(instruction(1))
    site.take(instruction(2))
    site.accept(delta(2, 1, 5))


def gone_on(site):
    """Then another instruction contradicts the second one, the first one and it are confirmed, and deltas come."""
    for message in (instruction(2, TxId="T7"), confirmation(1), confirmation(2)):
        site.take(message)
    site.accept(delta(2, 2, 6))
    site.accept(delta(2, 3, 8))


def asked(site):
    """What a site or a snapshot answers to each question."""
    found = {name: getattr(site, name)(*arguments) for name, arguments in QUESTIONS.items() if name != "digest"}
    found["digest"] = site.digest(2, site.counts()[1])
    return {**found, **{name: list(getattr(site, name)(*arguments)) for name, arguments in LINES.items()}}


@pytest.fixture(params=SITES)
def kind(request):
    return request.param


@pytest.fixture
def site(kind):
    with SITES[kind](1, 3) as site:
        begun(site)
        yield site


# ---- what it answers

def test_the_bank_day(kind):
    """A snapshot has the answers of the files of the example, whatever comes to the site."""
    with SITES[kind](1, 1) as site:
        site.take_lines(bytes_in("bank-day.jsonl"))
        with site.snapshot() as snapshot:
            site.take(instruction(1))
            for name, suffix in (("archive_text", "archive"), ("status_text", "status"), ("totals_text", "totals")):
                right = in_kind(kind, bytes_in(f"bank-day.{suffix}").decode())
                assert getattr(snapshot, name)() == snapshot.answer() == right
                assert getattr(site, name)() not in ("", b"", right)
            lines = in_kind(kind, bytes_in("bank-day.archive").decode()).splitlines(keepends=True)
            assert list(snapshot.archive_lines()) == lines
            on = [json.loads(line) for line in snapshot.kept_text("2025-03-11").splitlines()]
            assert {message.get("TxId", message.get("OrgnlTxId")) for message in on} == NOT_DONE


def test_a_snapshot_by_hand(site, kind):
    with site.snapshot() as snapshot:
        gone_on(site)
        assert (snapshot.number, snapshot.group, snapshot.counts()) == (1, 3, [2, 1, 0])
        assert snapshot.vector_text() == in_kind(kind, "1:2,2:1")
        assert snapshot.status_text() == in_kind(
            kind, "".join(f"T|BANKDEFFXXX|T{number}|PENDING\n" for number in (1, 2, 5)))
        assert snapshot.journal() == in_kind(kind, archived(1) + archived(2))
        assert snapshot.newest(2) == in_kind(kind, archived(2) + archived(5))
        assert snapshot.contradictions_text() == in_kind(kind, "")
        assert site.counts() == [5, 3, 0]
        assert site.contradictions_text() == in_kind(kind, "BANKDEFFXXX|pacs.008|M2\n")
        assert site.transfer("BANKDEFF", "T1") == in_kind(kind, "T|BANKDEFFXXX|T1|ACCEPTED\n")
        assert snapshot.transfer("BANKDEFF", "T1") == in_kind(kind, "T|BANKDEFFXXX|T1|PENDING\n")


def test_each_question_is_answered_as_then(site):
    then = asked(site)
    with site.snapshot() as snapshot, snapshot.snapshot() as again:
        gone_on(site)
        assert asked(snapshot) == asked(again) == then
        now = asked(site)
    assert not [name for name in then if now[name] == then[name]]


def test_what_a_snapshot_offers():
    public = {name for name in dir(Snapshot) if not name.startswith("_")}
    assert public == {name for name in dir(Questions) if not name.startswith("_")} == {*QUESTIONS, *LINES, *OTHERS}
    assert {name for name in dir(Site) if not name.startswith("_")} - public == {*TAKING, "restore", "refused_text",
                                                                                 "changes"}


def test_what_is_asked_of_one_is_not_the_answer_of_the_other(site, kind):
    site.vector_text()
    with site.snapshot() as snapshot:
        assert (snapshot.answer(), site.answer()) == (in_kind(kind, ""), in_kind(kind, "1:2,2:1"))
        snapshot.evaluate()
        lines = snapshot.archive_lines()
        assert next(lines) == in_kind(kind, archived(1))
        site.status_text()
        site.answer_end()
        assert list(lines) == [in_kind(kind, archived(number)) for number in (2, 5)]
        assert snapshot.reading("x") == snapshot.answer() == in_kind(kind, "line 1: 31\n")
        snapshot.answer_end()
        assert snapshot.answer() == site.answer() == in_kind(kind, "")


def test_changes_of_the_site_go_on(site):
    site.changes()
    site.take(confirmation(1))
    with site.snapshot():
        site.take(confirmation(2))
        assert site.changes() == [("BANKDEFFXXX", "T1"), ("BANKDEFFXXX", "T2")]


# ---- what it refuses

def test_a_snapshot_takes_nothing(site):
    with site.snapshot() as snapshot:
        snapshot.vector_text()
        then = snapshot.answer(), snapshot.counts(), snapshot.archive_text()
        for call, many in TAKING.items():
            for text in (instruction(9).encode(), b"{", b"", b"delta 2\nend 0\n"):
                texts = [b"BANKDEFF", text][-many:]
                words = [word for one in texts for word in (one, len(one))]
                outcome = getattr(library(), "sct_raw_" + call)(snapshot._handle, *words)
                assert (outcome.ok, outcome.code, outcome.place, snapshot._why()) == (False, 85, 0, "85")
        assert table()[85][0] == "Snapshot"
        assert (snapshot.answer(), snapshot.counts(), snapshot.archive_text()) == (then[2], *then[1:])
        assert site.counts() == [2, 1, 0] and site.take(instruction(9)).number == 3


def test_no_other_site_in_its_place(site, kind):
    """The library refuses by 71 to put a site or a snapshot where one is. Why the call before was refused stays."""
    with site.snapshot() as snapshot, SITES[kind](3, 3) as other:
        outcome = library().sct_raw_open(snapshot._handle, 1, 1)
        assert (outcome.ok, outcome.code) == (False, 71)
        with pytest.raises(Refused):
            other.cut("x")
        outcome = library().sct_raw_snapshot(other._handle, snapshot._handle)
        assert (outcome.ok, outcome.code, other._why()) == (False, 71, "72")
        assert snapshot.counts() == [2, 1, 0] and other.counts() == [0, 0, 0]


def test_memory_that_is_refused(site):
    def why(handle, room, size):
        if size:
            room.value = b"65"
        return Outcome(ok=True, length=2)
    with warnings.catch_warnings(record=True) as warned:
        warnings.simplefilter("always")
        hooked = Hooked(site, snapshot=lambda *_: Outcome(ok=False, code=65), why=why)
        with pytest.raises(OutOfMemory) as raised:
            site.snapshot()
        gc.collect()
    assert warned == [] and (raised.value.number, raised.value.reason) == (65, "65")
    hooked.hooks.clear()
    with site.snapshot() as snapshot:
        assert snapshot.counts() == site.counts() == [2, 1, 0]


# ---- the end

@pytest.mark.parametrize("call", [*QUESTIONS, *LINES, "snapshot", "evaluate", "answer", "answer_end"])
def test_after_close(site, call):
    with site.snapshot() as snapshot:
        assert repr(snapshot) == "<Snapshot 1 of 3, open>" and not snapshot.is_closed
    assert repr(snapshot) == "<Snapshot 1 of 3, closed>" and snapshot.is_closed
    with pytest.raises(Closed) as raised:
        getattr(snapshot, call)(*{**QUESTIONS, **LINES}.get(call, []))
    assert (raised.value.number, raised.value.reason) == (70, "")
    snapshot.close()
    assert site.counts() == [2, 1, 0]


def test_closed_before_its_site(site, kind):
    first, second = site.snapshot(), site.snapshot()
    first.status_text()
    first.close()
    gone_on(site)
    assert second.counts() == [2, 1, 0] and site.counts() == [5, 3, 0]
    second.close()
    assert site.transfer("BANKDEFF", "T1") == in_kind(kind, "T|BANKDEFFXXX|T1|ACCEPTED\n")


def test_closed_after_its_site(kind):
    with SITES[kind](1, 3) as site:
        begun(site)
        snapshot = site.snapshot()
        again = snapshot.snapshot()
        gone_on(site)
        then = asked(snapshot)
    snapshot.close()
    assert asked(again) == then and again.counts() == [2, 1, 0]
    again.close()


def test_snapshot_of_what_is_closed(site):
    with site.snapshot() as snapshot:
        pass
    site.close()
    with warnings.catch_warnings(record=True) as warned:
        warnings.simplefilter("always")
        for one in (site, snapshot):
            with pytest.raises(Closed):
                one.snapshot()
        gc.collect()
    assert warned == []


def test_snapshot_that_nobody_closed(site):
    snapshot = site.snapshot()
    calls = Hooked(snapshot).calls
    with pytest.warns(ResourceWarning) as warned:
        del snapshot
        gc.collect()
    assert [str(one.message) for one in warned] == ["unclosed <Snapshot 1 of 3, open>"] and calls == ["close"]


@pytest.mark.skipif(IS_STAND_IN, reason="the stand-in has its memory in another process")
def test_memory_is_given_back():
    text = "".join(instruction(number) + "\n" for number in range(2000)).encode()
    with BytesSite(1, 1) as site:
        site.take_lines(text)
        for _ in range(5):
            with site.snapshot() as snapshot:
                snapshot.status_text()
        before = resident()
        for _ in range(40):
            with site.snapshot() as snapshot:
                snapshot.status_text()
        assert resident() - before < 10 << 20  # what forty snapshots evaluated is 40 MB at least


# ---- threads

def statuses(many):
    """The status text of so many transfers, whose identifications have one length."""
    return "".join(f"T|BANKDEFFXXX|T{1000 + number}|PENDING\n" for number in range(many))


def totals(many):
    """The totals text of these transfers."""
    return f"BANKDEFFXXX|0|0.00|0.00|0|{many}|0|0|0|0.00|0.00\n" if many else ""


def test_threads_ask_while_the_site_takes(kind):
    """One thread takes. Each other one has snapshots, each of which answers on the first messages, as many as it
    counts, and no fewer than the one before it."""
    each, over = 150, threading.Event()
    with SITES[kind](1, 1) as site:
        def work(number):
            if number == 0:
                for place in range(each):
                    site.take(instruction(1000 + place))
                over.set()
                return
            least, is_last = 0, False
            while not is_last:
                is_last = over.is_set()
                with site.snapshot() as snapshot:
                    many, = snapshot.counts()
                    assert least <= many and snapshot.status_text() == in_kind(kind, statuses(many))
                    assert snapshot.counts() == [many]
                    assert snapshot.totals_text() == in_kind(kind, totals(many))
                least = many
            assert least == each
        on_threads(work, 4)


def test_closed_in_other_threads(kind):
    """Snapshots of one site are asked and closed in threads, while the site is closed."""
    site = SITES[kind](1, 3)
    begun(site)
    then, snapshots = asked(site), [site.snapshot() for _ in range(6)]

    def work(number):
        if number == 6:
            site.close()
            return
        with snapshots[number] as snapshot:
            assert asked(snapshot) == then
    on_threads(work, 7)
    assert all(one.is_closed for one in [site, *snapshots])


def test_neither_waits_for_the_other(site, kind):
    """While a question is answered at the snapshot the site takes, and while the site is asked the snapshot answers."""
    with site.snapshot() as snapshot:
        with Long(snapshot):
            assert site.take(instruction(9)).number == 3
        with Long(site):
            assert snapshot.vector_text() == in_kind(kind, "1:2,2:1")
        assert site.counts() == [3, 1, 0]


def test_a_snapshot_waits_for_a_call_of_the_site(site):
    made = []
    maker = threading.Thread(target=lambda: made.append(site.snapshot()))
    with Long(site):
        maker.start()
        maker.join(0.2)
        assert maker.is_alive()
    maker.join()
    assert made[0].counts() == [2, 1, 0]
    made[0].close()


def test_the_handle_is_its_own(site):
    with site.snapshot() as snapshot:
        assert ctypes.addressof(snapshot._handle) != ctypes.addressof(site._handle)
