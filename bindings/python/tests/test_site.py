"""How a site behaves in a Python program: its end, its texts, threads, copies, and where the library is found."""
import array
import copy
import ctypes
import gc
import mmap
import os
import pathlib
import pickle
import re
import shutil
import subprocess
import sys
import threading
import time
import warnings

import pytest
from conftest import TOP, Hooked, bytes_in, instruction

import niluppang
from niluppang import BytesSite, Closed, LibraryError, NiluppangError, Site, Taken, _library
from niluppang._library import VARIABLE, library

CALLS = {"take": [instruction()], "take_lines": [""], "accept": ["delta 2\nend 0\n"], "reading": [""],
         "counts": [], "vector_text": [],
         "cut": ["-"], "cut_lines": [[]], "entries": [1, 0, 1], "digest": [1, 0], "digests_text": [],
         "journal": [], "journal_lines": [0],
         "newest": [1], "evaluate": [], "archive_text": [],
         "archive_lines": [], "status_text": [], "status_lines": [], "totals_text": [], "contradictions_text": [],
         "report": ["BANKDEFF", "2024-05-02", ""], "kept_text": ["2024-05-02"], "closed_text": ["2024-05-02"],
         "transfer": ["BANKDEFF", "T1"], "messages": ["BANKDEFF", "T1"],
         "bank_totals": ["BANKDEFF"], "changes": [], "answer": [], "answer_end": [],
         "snapshot": [],
         "take_as": ["BANKDEFF", instruction()], "transfer_for": ["BANKDEFF", "BANKDEFF", "T1"],
         "messages_for": ["BANKDEFF", "BANKDEFF", "T1"], "bank_totals_for": ["BANKDEFF", "BANKDEFF"],
         "report_for": ["BANKDEFF", "BANKDEFF", "2024-05-02", ""]}
OTHERS = {"close", "restore", "number", "group", "is_closed", "refused_text"}


# ---- the end of a site

@pytest.mark.parametrize("call", CALLS)
def test_after_close(call):
    with Site(1, 1) as site:
        assert not site.is_closed and repr(site) == "<Site 1 of 1, open>"
    assert site.is_closed and repr(site) == "<Site 1 of 1, closed>"
    with pytest.raises(Closed) as raised:
        getattr(site, call)(*CALLS[call])
    assert (raised.value.number, raised.value.name, raised.value.reason) == (70, "Empty", "")
    site.close()


def test_each_call_is_tried_after_close():
    assert {name for name in dir(Site) if not name.startswith("_")} == set(CALLS) | OTHERS


def test_closed_by_an_error():
    with pytest.raises(KeyError):
        with Site(1, 1) as site:
            raise KeyError
    assert site.is_closed


def resident():
    """The bytes of memory that this process has."""
    return int(pathlib.Path("/proc/self/statm").read_text().split()[1]) * os.sysconf("SC_PAGESIZE")


@pytest.mark.filterwarnings("ignore:unclosed")
def test_memory_is_given_back():
    text = "".join(instruction(number) + "\n" for number in range(2000)).encode()
    for _ in range(5):
        Site(1, 1).take_lines(text)  # nobody closes it
    gc.collect()
    before = resident()
    for _ in range(20):
        Site(1, 1).take_lines(text)
    assert resident() - before < 10 << 20  # twenty lost sites would be 60 MB


@pytest.mark.parametrize("make, text", [(lambda: Site(2, 3), "unclosed <Site 2 of 3, open>"),
                                        (lambda: BytesSite.restore(1, 1, b""), "unclosed <BytesSite 1 of 1, open>")])
def test_site_that_nobody_closed(make, text):
    site = make()
    calls = Hooked(site).calls
    with pytest.warns(ResourceWarning) as warned:
        del site
        gc.collect()
    assert [str(one.message) for one in warned] == [text] and calls == ["close"]
    assert warned[0].source.is_closed


def test_site_that_nobody_closed_where_a_warning_is_an_error(monkeypatch):
    raised, site = [], Site(1, 1)
    monkeypatch.setattr(sys, "unraisablehook", lambda error: raised.append(error.exc_type))
    calls = Hooked(site).calls
    with warnings.catch_warnings():
        warnings.simplefilter("error")
        del site
        gc.collect()
    assert raised == [ResourceWarning] and calls == ["close"]


def test_no_warning_without_a_site():
    """A site that is closed, one that was refused, and an object that was never opened."""
    with warnings.catch_warnings(record=True) as warned:
        warnings.simplefilter("always")
        Site(1, 1).close()
        for make in (lambda: Site(0, 1), lambda: Site.restore(2, 1, b""), lambda: Site(-1, 1), lambda: Site("x", 1)):
            pytest.raises((ValueError, TypeError), make)
        Site.__new__(Site)
        gc.collect()
    assert warned == []


def test_end_of_the_program():
    source = "from niluppang import Site\nsite = Site(1, 1)"
    variables = {**os.environ, "PYTHONPATH": str(pathlib.Path(niluppang.__file__).parents[1]),
                 VARIABLE: library()._name}
    done = subprocess.run([sys.executable, "-W", "always", "-c", source], env=variables, capture_output=True, text=True)
    assert done.returncode == 0 and done.stderr.count("ResourceWarning: unclosed <Site 1 of 1, open>") == 1
    assert "Traceback" not in done.stderr and "Exception" not in done.stderr


@pytest.mark.parametrize("how", [copy.copy, copy.deepcopy, pickle.dumps])
def test_no_copies(how):
    with Site(1, 1) as site, pytest.raises(TypeError):
        how(site)


# ---- its number

def test_number_and_group_stay():
    with Site(2, 3) as site, BytesSite.restore(3, 3, b"") as other:
        for name in ("number", "group", "is_closed", "refused_text"):
            with pytest.raises(AttributeError):
                setattr(site, name, 1)
        assert (site.number, site.group, other.number, other.group) == (2, 3, 3, 3)
        assert site.counts() == [0, 0, 0]


@pytest.mark.parametrize("make", [lambda: Site(1, 2), lambda: Site.restore(1, 2, b"")])
def test_opened_once(make):
    with make() as site:
        site.take(instruction())
        calls = Hooked(site).calls
        for number, group in ((1, 2), (2, 2), (0, 0)):
            with pytest.raises(RuntimeError):
                site.__init__(number, group)
        assert calls == [] and (site.number, site.counts(), site.is_closed) == (1, [1, 0], False)
    with pytest.raises(RuntimeError):
        site.__init__(1, 2)
    assert site.is_closed


@pytest.mark.parametrize("number", ["1", 1.5, None])
def test_what_is_no_number(number):
    for words in ((number, 3), (1, number)):
        with pytest.raises(TypeError):
            Site(*words)


# ---- texts

KINDS = {"str": str, "bytes": str.encode, "bytearray": lambda text: bytearray(text.encode()),
         "memoryview": lambda text: memoryview(text.encode()),
         "memory of others": lambda text: memoryview(bytearray(text.encode())),
         "a part": lambda text: memoryview(bytearray(b"x" + text.encode() + b"x"))[1:-1],
         "with gaps": lambda text: memoryview(b"".join(b"%c-" % byte for byte in text.encode()))[::2],
         "backwards": lambda text: memoryview(bytearray(text.encode()[::-1]))[::-1],
         "array": lambda text: array.array("B", text.encode()), "mmap": lambda text: mapped(text.encode())}


def mapped(data):
    """A mapping of memory with some bytes."""
    found = mmap.mmap(-1, len(data))
    found[:] = data
    return found


@pytest.mark.parametrize("kind", KINDS)
def test_kinds_of_text(kind):
    kind = KINDS[kind]
    with Site(1, 1) as site:
        assert site.take(kind(instruction())) == Taken(False, 1)
        assert site.take(kind(instruction())) == Taken(True, None)
        assert site.transfer(kind("BANKDEFF"), kind("T1")) == "T|BANKDEFFXXX|T1|PENDING\n"
        assert "Jürgen Größler" in site.messages(kind("BANKDEFFXXX"), "T1")
        assert site.reading(kind("x")) == "line 1: 31\n"


@pytest.mark.parametrize("kind", ["str", "bytes", "bytearray", "memoryview", "mmap"])
def test_kinds_of_vector(kind):
    with Site(1, 1) as site:
        site.take(instruction())
        assert site.cut(KINDS[kind]("1:1")) == site.cut([1]) == site.cut(iter([1])) == "delta 2\nend 0\n"


@pytest.mark.parametrize("kind", ["bytes", "bytearray", "memory of others", "array", "mmap"])
def test_what_is_not_copied(kind):
    """The library is given the address of the bytes themselves."""
    text, seen = KINDS[kind](instruction()), []
    with Site(1, 1) as site:
        Hooked(site, take=lambda _, data, length: seen.append((data if kind == "bytes" else ctypes.addressof(data._obj),
                                                               length)))
        site.take(text)
    right = text if kind == "bytes" else ctypes.addressof(ctypes.c_char.from_buffer(text))
    assert seen == [(right, len(instruction().encode()))] and (kind != "bytes" or seen[0][0] is text)


def test_a_part_is_not_copied():
    data, seen = bytearray(b"xx" + instruction().encode()), []
    with Site(1, 1) as site:
        Hooked(site, take=lambda _, text, length: seen.append(ctypes.addressof(text._obj)))
        site.take(memoryview(data)[2:])
    assert seen == [ctypes.addressof(ctypes.c_char.from_buffer(data)) + 2]


def test_mapped_journal(tmp_path):
    path = tmp_path / "journal"
    path.write_bytes(bytes_in("bank-day.jsonl"))
    for access in (mmap.ACCESS_READ, mmap.ACCESS_WRITE, mmap.ACCESS_COPY):
        with open(path, "r+b") as file, mmap.mmap(file.fileno(), 0,
                                                  access=access) as journal, Site.restore(1, 1, journal) as site:
            assert site.status_text().encode() == bytes_in("bank-day.status")


def test_memory_is_lent_for_the_call_alone():
    """Who gave it may change its size, release it or close it, also while the error of the call is there."""
    calls = [lambda site, text: site.take(text), lambda site, text: site.accept(text),
             lambda site, text: site.cut(text),
             lambda site, text: site.report(text, text, text), lambda site, text: site.cut_lines(text)]
    with Site(1, 1) as site:
        for call in calls:
            data, shared = bytearray(b"{"), mapped(b"{")
            view = memoryview(data)
            for text in (data, view, shared):
                try:
                    call(site, text)
                except NiluppangError as error:
                    if text is view:
                        view.release()
                    assert error.number in (31, 45, 72, 73)
            try:
                call(site, data)
            except NiluppangError:
                data += b"}"
                shared.close()
        assert site.take_lines(data).refused == 1
        data.clear()


@pytest.mark.parametrize("wrong", [None, 5, 1.5, ["x"], (b"x", 1), ("x",)])
def test_what_is_no_text(wrong):
    with Site(1, 1) as site:
        for call in (site.take, site.take_lines, site.accept, site.reading,
                     lambda text: site.transfer("BANKDEFF", text)):
            with pytest.raises(TypeError):
                call(wrong)
        assert site.counts() == [0]


def test_zero_bytes_and_empty_texts():
    with Site(1, 1) as site:
        assert site.take_lines(b"").refused_text == ""
        assert site.take_lines(instruction() + "\n\0\n").refused_text == "line 2: 31\n"
        assert site.take_lines("\n \n").refused == 0


@pytest.mark.parametrize("empty", ["", b"", bytearray(), memoryview(b""), memoryview(bytearray())])
def test_the_library_is_never_given_nothing(empty):
    """Each text has an address, also one without bytes."""
    seen = []
    with Site(1, 1) as site:
        def note(_, *more):
            return seen.extend(zip(more[::2], more[1::2]))

        Hooked(site, take=note, take_lines=note, accept=note, cut=note, report=note, transfer_text=note,
               reading_text=note)
        for name in ("take", "take_lines", "accept", "cut", "report", "transfer", "reading"):
            words = [empty] * {"report": 3, "transfer": 2}.get(name, 1)
            try:
                getattr(site, name)(*words)
            except NiluppangError as error:
                assert error.number in (31, 45, 72, 73)
        site.cut([])
        assert site.reading(empty) == ""
    assert len(seen) == 11 and all(type(data) is bytes and length == 0 for data, length in seen)


def test_bytes_site():
    with Site(1, 1) as site, BytesSite(1, 1) as twin:
        for one in (site, twin):
            one.take_lines(bytes_in("bank-day.jsonl"))
        for name in ("archive_text", "status_text", "totals_text", "vector_text", "contradictions_text", "cut",
                     "journal", "answer"):
            text, data = getattr(site, name)(), getattr(twin, name)()
            assert type(text) is str and type(data) is bytes and text.encode() == data
        assert twin.changes() == site.changes() == []


# ---- threads

def on_threads(work, count):
    """Runs a piece of work with each number, on a thread each, and raises what one of them raised."""
    errors = []

    def run(number):
        try:
            work(number)
        except BaseException as error:
            errors.append(error)
    threads = [threading.Thread(target=run, args=[number]) for number in range(count)]
    for thread in threads:
        thread.start()
    for thread in threads:
        thread.join()
    if errors:
        raise errors[0]


def test_a_site_for_each_thread():
    def work(_):
        for _ in range(20):
            with Site(1, 1) as site:
                site.take_lines(bytes_in("bank-day.jsonl"))
                assert site.status_text().encode() == bytes_in("bank-day.status")
    on_threads(work, 4)


def test_one_site_for_all_threads():
    each = 100
    with Site(1, 1) as site:
        def work(number):
            for place in range(each):
                site.take(instruction(number * each + place))
                assert site.transfer("BANKDEFF",
                                     f"T{number * each + place}").endswith(f"T{number * each + place}|PENDING\n")
        on_threads(work, 4)
        assert site.counts() == [4 * each]


def test_closed_by_another_thread():
    site, begun, latest = Site(1, 1), threading.Semaphore(0), time.monotonic() + 60

    def work(number):
        if number == 0:
            begun.acquire()
            begun.acquire()
            site.close()
            return
        with pytest.raises(Closed):
            while time.monotonic() < latest:
                site.take(instruction())
                site.status_text()
                begun.release()
    on_threads(work, 3)
    assert site.is_closed


class Long:
    """A call of a site that runs in another thread. The handle is empty while it runs, as the library leaves it
    then."""

    def __init__(self, site, call="status_text"):
        self.site, self.began, self.may_end = site, threading.Event(), threading.Event()
        Hooked(site, **{call: self.run})
        self.thread = threading.Thread(target=getattr(site, call))

    def run(self, handle, *_):
        kept = bytes(handle)
        ctypes.memset(ctypes.addressof(handle), 0, len(kept))
        self.began.set()
        assert self.may_end.wait(60)
        ctypes.memmove(ctypes.addressof(handle), kept, len(kept))

    def __enter__(self):
        self.thread.start()
        assert self.began.wait(10)

    def __exit__(self, *_):
        self.may_end.set()
        self.thread.join()


def test_open_while_a_call_runs():
    """To other threads the site is open, and they do not wait."""
    with Site(1, 1) as site:
        with Long(site):
            assert not site.is_closed and repr(site) == "<Site 1 of 1, open>" and (site.number, site.group) == (1, 1)
        assert not site.is_closed and site.answer() == ""


def test_close_waits_for_a_call():
    site = Site(1, 1)
    closer = threading.Thread(target=site.close)
    with Long(site):
        closer.start()
        closer.join(0.2)
        assert closer.is_alive() and not site.is_closed
    closer.join()
    assert site.is_closed


@pytest.mark.filterwarnings("ignore")
def test_child_of_fork_that_came_while_a_call_ran():
    """The child cannot free the site, whose lock is held for ever there. It goes on all the same."""
    site = Site(1, 1)
    with Long(site):
        child = os.fork()
        if child == 0:
            site.__del__()
            os._exit(int(site.is_closed or "close" in site._library.calls))
        assert os.waitpid(child, 0)[1] == 0
    assert site.counts() == [0]
    site.close()


# ---- the library

ASK = "import niluppang; print(niluppang.library_version())"


def ask(path, **variables):
    """What a program prints that asks for the version, with a package in this folder."""
    kept = {name: value for name, value in os.environ.items() if name != VARIABLE}
    return subprocess.run([sys.executable, "-c", ASK], cwd=path, env={**kept, "PYTHONPATH": str(path), **variables},
                          capture_output=True, text=True)


def test_version():
    assert niluppang.library_version().split(".")[:2] == niluppang.__version__.split(".")[:2]


def test_library_that_the_variable_names(tmp_path):
    package = pathlib.Path(niluppang.__file__).parents[1]
    wrong = ask(package, **{VARIABLE: str(tmp_path / "nowhere.so")})
    assert wrong.returncode and "LibraryError" in wrong.stderr and "nowhere.so" in wrong.stderr
    no_library = tmp_path / "libc.so"
    no_library.write_text("x")
    assert "LibraryError" in ask(package, **{VARIABLE: str(no_library)}).stderr
    another = ask(package, **{VARIABLE: "libc.so.6"}).stderr
    assert "LibraryError: the library has not every function of this package" in another and "libc.so.6" in another
    assert issubclass(LibraryError, OSError)


def test_library_beside_the_package(tmp_path):
    package = tmp_path / "niluppang"
    shutil.copytree(pathlib.Path(niluppang.__file__).parent, package,
                    ignore=shutil.ignore_patterns("*.so", "__pycache__"))
    shutil.copy(library()._name, package / "libniluppang.so")
    assert ask(tmp_path).stdout == niluppang.library_version() + "\n"


def test_library_of_another_version(tmp_path):
    package = tmp_path / "niluppang"
    shutil.copytree(pathlib.Path(niluppang.__file__).parent, package, ignore=shutil.ignore_patterns("__pycache__"))
    (package / "_version.py").write_text('__version__ = "7.0.0"\n')
    assert "and this package 7.0.0" in ask(tmp_path, **{VARIABLE: library()._name}).stderr


def test_sizes_are_those_of_the_header():
    """What a call returns has room for all that the library writes."""
    kinds = {"sct_site": _library.Handle, "sct_outcome": _library.Outcome, "sct_taken": _library.TakenOutcome,
             "sct_lines": _library.LinesOutcome, "sct_accepted": _library.AcceptedOutcome}
    header = (TOP / "include" / "niluppang.h").read_text(encoding="utf-8")
    sizes = dict(re.findall(r"ASSERT\(sizeof\((\w+)\) == (\d+),", header))
    assert len(sizes) == 5 and {name: str(ctypes.sizeof(kind)) for name, kind in kinds.items()} == sizes


def test_package_is_typed():
    assert (pathlib.Path(niluppang.__file__).parent / "py.typed").is_file()


def test_names_of_the_package():
    """What the package gives away is there, and is all that has a public name."""
    public = {name for name in vars(niluppang) if not name.startswith("_")}
    assert set(niluppang.__all__) == public | {"__version__"}
