"""Each number of a refusal, with its name, place, reason and error; and that a refusal changes nothing."""
import copy
import json
import os
import pathlib
import pickle
import re
import subprocess
import sys
import threading

import pytest
from conftest import IS_STAND_IN, RECALLED, TOP, Hooked, confirmation, delta, instruction, recall

from niluppang import (Closed, DeltaRefused, MessageRefused, NiluppangError, NotYours, OutOfMemory, Refused, Site,
                       Transfer, Waits, Withheld)
from niluppang._errors import WORDS
from niluppang._library import Outcome, TakenOutcome

HEADER = "DbtrAgt,TxId,Amt,Sts\n"
DAY = "2024-05-02"


def without(key):
    message = json.loads(instruction())
    del message[key]
    return json.dumps(message)


# a call at the site below, the name and the place of its number, and the reason
OF_MESSAGES = [
    (["{"], "NotJson", 0, "31"), ([b"\xff"], "NotJson", 0, "31"), (['"\ud800"'], "NotJson", 0, "31"),
    (["[]"], "NotObject", 0, "32"),
    (["{}"], "UnknownKind", 0, "33"), ([without("TxId")], "Missing", 0, "34 TxId"),
    ([instruction(TxId=1)], "NotText", 0, "35 TxId"),
    ([instruction(TxId="a_b")], "Element", 0, "36 TxId 3"),
    ([instruction(InstgAgt="bankdeff")], "Element", 0, "36 InstgAgt 1"),
    ([instruction(Purp="SALA")], "Extra", 0, '37 "Purp"'), ([instruction(**{'ä"\n': ""})], "Extra", 0, r'37 "ä\"\n"'),
    ([instruction(Ccy="USD")], "Rule", 0, "38 11"), ([recall()], "BadTransactions", 0, "46 0"),
    ([recall(RECALLED, 7)], "BadTransactions", 2, "46 2"),
    ([recall(RECALLED, {**RECALLED, "Rsn": "fraud"})], "At", 2, "56 2 36 Rsn 9"),
    ([recall({**RECALLED, "Purp": ""})], "At", 1, '56 1 37 "Purp"')]
OF_DELTAS = [
    ([delta(1, 3, 4)], "Gap", 0, "41 1 1 3"), ([delta(1, 1, 2)], "Fork", 0, "42 1 1"),
    ([delta(2, 2, 4)], "OwnAhead", 0, "43 2"),
    ([delta(4, 1, 4)], "BadSite", 0, "44"), ([""], "BadDelta", 1, "45 1"),
    ([delta(3, 1, 4)[:-1]], "BadDelta", 4, "45 4")]
OF_OTHERS = [
    ("cut", ["1"], "BadVector", 0, "72"), ("cut", [[0] * 1025], "BadSite", 0, "44"),
    ("cut_lines", ["1:1:1"], "BadVector", 0, "72"),
    ("entries", [0, 0, 1], "BadArgument", 1, "73 1"), ("entries", [1025, 0, 0], "BadArgument", 1, "73 1"),
    ("entries", [1, 0, 0], "BadArgument", 3, "73 3"), ("entries", [1, 0, 67108864], "BadArgument", 3, "73 3"),
    ("digest", [0, 0], "BadArgument", 1, "73 1"), ("digest", [1025, 0], "BadArgument", 1, "73 1"),
    ("digest", [1, 99], "BadArgument", 2, "73 2"), ("digest", [3, (1 << 64) - 1], "BadArgument", 2, "73 2"),
    ("report", ["BANKDEFF", DAY, ""], "BadList", 1, "48 1"),
    ("report", ["BANKDEFF", DAY, HEADER + "\nx\n"], "BadList", 2, "48 2"),
    ("report", ["bankdeff", DAY, HEADER], "BadArgument", 1, "73 1"),
    ("report", ["BANKDEFF", "today", HEADER], "BadArgument", 2, "73 2"),
    ("kept_text", ["2024-5-02"], "BadArgument", 1, "73 1"), ("closed_text", [""], "BadArgument", 1, "73 1"),
    ("transfer", ["", "T1"], "BadArgument", 1, "73 1"), ("transfer", ["BANKDEFF", "T//1"], "BadArgument", 2, "73 2"),
    ("messages", ["BANK", "T1"], "BadArgument", 1, "73 1"), ("messages", ["BANKDEFF", ""], "BadArgument", 2, "73 2"),
    ("bank_totals", ["X"], "BadArgument", 1, "73 1"),
    ("take_as", ["BANKDEFF,", "{"], "BadArgument", 1, "73 1"),
    ("transfer_for", ["", "BANKDEFF", "T1"], "BadArgument", 1, "73 1"),
    ("transfer_for", ["BANKDEFF", "", "T1"], "BadArgument", 2, "73 2"),
    ("messages_for", ["BANKDEFF", "BANKDEFF", "T//1"], "BadArgument", 3, "73 3"),
    ("bank_totals_for", ["BANKDEFF", "X"], "BadArgument", 2, "73 2"),
    ("report_for", ["BANKDEFF", "BANKDEFF", "today", HEADER], "BadArgument", 3, "73 3"),
    ("report_for", ["BANKDEFF", "BANKDEFF", DAY, ""], "BadList", 1, "48 1")]
# calls in the name of banks, each with its error
FOR_BANKS = [
    (NotYours, "bank_totals_for", ["BANKITMM", "BANKDEFF"], "NotYours", 0, "79"),
    (NotYours, "report_for", ["BANKITMM", "BANKDEFF", DAY, ""], "NotYours", 0, "79"),
    (MessageRefused, "take_as", ["BANKDEFF", "{"], "NotJson", 0, "31"),
    (MessageRefused, "take_as", ["BANKITMM", recall(RECALLED, 7)], "BadTransactions", 2, "46 2"),
    (Withheld, "take_as", ["BANKITMM", instruction(4)], "NotSender", 0, "81"),
    (Withheld, "take_as", ["BANKDEFF", recall(RECALLED, {**RECALLED, "DbtrAgt": "BANKITMM"})], "NotOriginator", 2,
     "82 2"),
    (Withheld, "take_as", ["BANKITMM", confirmation(3, InstgAgt="BANKITMM")], "NotBeneficiary", 0, "83"),
    (Waits, "take_as", ["BANQFRPP", confirmation(4)], "Waits", 0, "84 BANKDEFFXXX T4")]
# the library is not called for what C has no place for
NOT_CALLED = [("cut", [[-1]], "BadVector", 0, ""), ("cut", [[1 << 64]], "BadVector", 0, ""),
              ("cut_lines", [[0, -1]], "BadVector", 0, ""),
              ("entries", [-1, 0, 1], "BadArgument", 1, ""), ("entries", [1 << 16, 0, 1], "BadArgument", 1, ""),
              ("entries", [65537, -1, 1], "BadArgument", 1, ""), ("entries", [1, -1, 1], "BadArgument", 2, ""),
              ("entries", [1, 1 << 64, 1], "BadArgument", 2, ""), ("entries", [1, 0, 1 << 64], "BadArgument", 3, ""),
              ("digest", [-1, 0], "BadArgument", 1, ""), ("digest", [1 << 16, -1], "BadArgument", 1, ""),
              ("digest", [1, -1], "BadArgument", 2, ""), ("digest", [1, 1 << 64], "BadArgument", 2, "")]
REFUSED = [(MessageRefused, "take", *one) for one in OF_MESSAGES] + [(DeltaRefused, "accept", *one)
                                                                     for one in OF_DELTAS]
REFUSED += [(Refused, *one) for one in OF_OTHERS + NOT_CALLED] + FOR_BANKS


def table():
    """The numbers of the header, each with its name and its meaning."""
    text = (TOP / "include" / "niluppang.h").read_text(encoding="utf-8")
    return {int(number): (name, meaning)
            for number, name, meaning in re.findall(r"^ \*     (\d\d) ([A-Z][a-z]\w*) +(.*)$", text, re.M)}


NUMBERS = {name: number for number, (name, _) in table().items()}


@pytest.fixture
def site():
    """Site 2 of 3, which has a message of its own and one of site 1."""
    with Site(2, 3) as site:
        site.take(instruction(3))
        site.accept(delta(1, 1, 1))
        yield site


@pytest.mark.parametrize("error, call, arguments, name, place, reason", REFUSED)
def test_each_number(site, error, call, arguments, name, place, reason):
    site.status_text()
    before = site.answer(), site.counts()
    with pytest.raises(NiluppangError) as raised:
        getattr(site, call)(*arguments)
    it = raised.value
    assert (type(it), it.number, it.name, it.place, it.reason) == (error, NUMBERS[name], name, place, reason)
    assert str(it).startswith(f"{it.number} {name}: {table()[it.number][1]}") and reason in str(it)
    assert (site.answer(), site.counts()) == before


@pytest.mark.parametrize("number, group", [(0, 1), (2, 1), (1, 0), (1025, 1025), (1, 1025), (65536, 3), (65537, 3),
                                           (1, 65539), (-1, 3), (1 << 70, 1 << 70)])
def test_no_such_site(number, group):
    for make in (Site, lambda number, group: Site.restore(number, group, b"x")):
        with pytest.raises(Refused) as raised:
            make(number, group)
        assert (type(raised.value), raised.value.number, raised.value.name, raised.value.reason) == (Refused, 44,
                                                                                                     "BadSite", "")


def test_each_number_is_met():
    assert {name for _, _, _, name, _, _ in REFUSED} == set(NUMBERS) - {"Memory", "Empty", "Full", "Snapshot"}


def test_names_and_meanings_are_those_of_the_header():
    assert len(table()) == 27 and WORDS == table()


# ---- errors

def test_kinds_of_errors():
    bases = {Refused: (NiluppangError, ValueError), MessageRefused: (Refused,), DeltaRefused: (Refused,),
             OutOfMemory: (NiluppangError, MemoryError), Closed: (NiluppangError,), NiluppangError: (Exception,),
             NotYours: (Refused,), Withheld: (Refused,), Waits: (Withheld,)}
    assert {kind: kind.__bases__ for kind in bases} == bases


def test_transfer_that_is_waited_for(site):
    for tx in ("T4", "T 4 B", "4"):
        with pytest.raises(Waits) as raised:
            site.take_as("BANQFRPP", confirmation(4, OrgnlTxId=tx))
        for it in (raised.value, pickle.loads(pickle.dumps(raised.value)), copy.copy(raised.value)):
            assert it.transfer == Transfer("BANKDEFFXXX", tx)
    assert Waits(84).transfer is None and Waits(84, 0, "84").transfer is None


def test_message_that_waited_is_taken(site):
    with pytest.raises(Waits):
        site.take_as("BANQFRPP", confirmation(4))
    site.accept(delta(1, 2, 4))
    assert site.take_as("BANQFRPP", confirmation(4)).number == 2


@pytest.mark.parametrize("call, arguments, text", [
    ("take", ["{"], "31 NotJson: the bytes are not one JSON text in UTF-8"),
    ("take", [instruction(InstgAgt="b")], "36 Element: the text of a key is not of the key's type (36 InstgAgt 1)"),
    ("accept", [delta(1, 3, 4)], "41 Gap: the delta begins after what the site holds of its origin (41 1 1 3)"),
    ("cut", [[-1]], "72 BadVector: the text is not a version vector")])
def test_text_of_an_error(site, call, arguments, text):
    with pytest.raises(NiluppangError) as raised:
        getattr(site, call)(*arguments)
    assert str(raised.value) == text


def test_text_without_a_reason():
    assert str(Refused(48, 7)) == f"48 BadList: {table()[48][1]} (place 7)"
    assert str(NiluppangError(99)) == "99 Unknown: a number of a later version"


@pytest.mark.parametrize("again", [lambda error: pickle.loads(pickle.dumps(error)), copy.copy, copy.deepcopy])
def test_errors_are_copied(site, again):
    with pytest.raises(DeltaRefused) as raised:
        site.accept(delta(1, 3, 4))
    it = again(raised.value)
    assert (type(it), it.number, it.name, it.place, it.reason, str(it)) == (DeltaRefused, 41, "Gap", 0, "41 1 1 3",
                                                                            str(raised.value))


def test_error_is_read_by_a_process_without_the_library(site):
    with pytest.raises(DeltaRefused) as raised:
        site.accept(delta(1, 3, 4))
    source = "import pickle, sys; print(pickle.load(sys.stdin.buffer))"
    done = subprocess.run([sys.executable, "-c", source], input=pickle.dumps(raised.value),
                          stdout=subprocess.PIPE, check=True,
                          env={**environment(), "NILUPPANG_LIBRARY": "/none"})
    assert done.stdout.decode() == f"{raised.value}\n"


def test_refused_again(site):
    """A reason is that of its own call."""
    for arguments, _, _, reason in OF_MESSAGES:
        with pytest.raises(MessageRefused, match=re.escape(reason)):
            site.take(*arguments)
        with pytest.raises(Refused) as raised:
            Site(0, 0)
        assert raised.value.reason == ""


def test_no_call_comes_between_a_refusal_and_its_reason(site):
    came = threading.Event()

    def take(*_):
        if library.calls.count("take") == 2:
            came.set()

    def why(*_):
        if len(library.calls) == 2:
            other.start()
            assert not came.wait(0.3)
    library = Hooked(site, take=take, why=why)
    other = threading.Thread(target=lambda: pytest.raises(MessageRefused, site.take, "{}"))
    with pytest.raises(MessageRefused) as raised:
        site.take(instruction(Ccy="USD"))
    other.join()
    assert raised.value.reason == "38 11" and came.is_set() and library.calls == ["take", "why", "why"] * 2


def test_delta_that_is_refused_at_a_restore():
    with Site.restore(2, 3, "", delta(1, 3, 4)) as site:
        assert (site.refused_text, site.vector_text()) == ("file 2: 41 1 0 3\n", "-")


# ---- memory

@pytest.mark.parametrize("memory, reason", [(2, "65"), (1, ""), (0, "")])
def test_refused_memory(site, memory, reason):
    """The library answers 65 to a take. It may find no memory for the reason either, at once or when it is copied."""
    def why(handle, room, size):
        if library.calls.count("why") > memory:
            return Outcome(ok=False, code=65)
        if size:
            room.value = b"65"
        return Outcome(ok=True, length=2)
    library = Hooked(site, take=lambda *_: TakenOutcome(ok=False, code=65), why=why)
    with pytest.raises(MemoryError) as raised:
        site.take(instruction())
    error = raised.value
    assert (type(error), error.number, error.name, error.reason) == (OutOfMemory, 65, "Memory", reason)
    library.hooks.clear()
    assert site.take(instruction(5)).number == 2


OUT_OF_MEMORY = """
import resource, sys
from conftest import instruction
from niluppang import OutOfMemory, Site
text = "".join(instruction(number) + "\\n" for number in range(200000)).encode()
site = Site(1, 1)
site.take_lines(text[:text.index(b"\\n") + 1])
used = int(open("/proc/self/statm").read().split()[5]) * resource.getpagesize()
resource.setrlimit(resource.RLIMIT_DATA, (used + (1 << 26), -1))
try:
    site.take_lines(text)
except OutOfMemory as error:
    print(error.number, error.name, error.reason in ("65", ""))
resource.setrlimit(resource.RLIMIT_DATA, (-1, -1))
print(site.take_lines(text).fresh + site.counts()[0] >= 200000, site.counts())
site.close()
"""


@pytest.mark.skipif(IS_STAND_IN, reason="the stand-in has another process, whose memory is not limited")
def test_out_of_memory():
    folder = pathlib.Path(__file__).parent
    done = subprocess.run([sys.executable, "-c", OUT_OF_MEMORY], cwd=folder, env=environment(), capture_output=True,
                          text=True, check=True)
    assert done.stdout == "65 Memory True\nTrue [200000]\n"


def environment():
    """The environment, with the packages of this interpreter."""
    return {**os.environ, "PYTHONPATH": os.pathsep.join(path for path in sys.path if path)}
