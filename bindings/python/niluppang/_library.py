"""The shared library: how it is found, and its functions as include/niluppang.h declares them."""
import ctypes
import os
import pathlib
import threading
from typing import Any, Dict, Iterator, List, Optional, Tuple

from ._errors import WORDS, LibraryError
from ._version import __version__

VARIABLE = "NILUPPANG_LIBRARY"
FILE = "libniluppang.so"
SONAME = FILE + "." + ".".join(__version__.split(".")[:2])


class Handle(ctypes.Structure):
    """What C calls sct_site. It is empty at first. Only the library reads and writes what is in it."""
    _fields_ = [("private_address", ctypes.c_void_p), ("private_is_full", ctypes.c_bool)]


class Outcome(ctypes.Structure):
    _fields_ = [("ok", ctypes.c_bool), ("code", ctypes.c_uint8),
                ("place", ctypes.c_uint64), ("length", ctypes.c_size_t),
                ("reserved", ctypes.c_uint64)]


class TakenOutcome(ctypes.Structure):
    _fields_ = [("ok", ctypes.c_bool), ("code", ctypes.c_uint8),
                ("is_repeat", ctypes.c_bool), ("place", ctypes.c_uint64),
                ("number", ctypes.c_uint64), ("reserved", ctypes.c_uint64)]


class LinesOutcome(ctypes.Structure):
    _fields_ = [("ok", ctypes.c_bool), ("code", ctypes.c_uint8), ("place", ctypes.c_uint64), ("fresh", ctypes.c_uint64),
                ("repeats", ctypes.c_uint64), ("refused", ctypes.c_uint64), ("length", ctypes.c_size_t),
                ("reserved", ctypes.c_uint64)]


class AcceptedOutcome(ctypes.Structure):
    _fields_ = [("ok", ctypes.c_bool), ("code", ctypes.c_uint8), ("place", ctypes.c_uint64), ("fresh", ctypes.c_uint64),
                ("reserved", ctypes.c_uint64)]


# a text goes in as its address and its length; c_char_p passes the address of the bytes themselves, so nothing is
# copied
TEXT = [ctypes.c_char_p, ctypes.c_size_t]
ROOM = [ctypes.c_void_p, ctypes.c_size_t]
COUNTS = [ctypes.POINTER(ctypes.c_uint64), ctypes.c_size_t]
GROUP = [ctypes.c_uint16, ctypes.c_uint16]

# of each call on a handle, without sct_raw_: the type of its result, and those of its arguments after the handle
CALLS: Dict[str, List[object]] = {
    "open": [Outcome, *GROUP], "restore": [Outcome, *GROUP, *TEXT, *TEXT], "close": [None],
    "take": [TakenOutcome, *TEXT], "take_as": [TakenOutcome, *TEXT, *TEXT], "take_lines": [LinesOutcome, *TEXT],
    "accept": [AcceptedOutcome, *TEXT], "snapshot": [Outcome, ctypes.POINTER(Handle)],
    "counts": [Outcome, *COUNTS], "vector_text": [Outcome], "cut": [Outcome, *TEXT], "cut_above": [Outcome, *COUNTS],
    "entries": [Outcome, ctypes.c_uint16, ctypes.c_uint64, ctypes.c_uint64],
    "digest": [Outcome, ctypes.c_uint16, ctypes.c_uint64],
    "digests_text": [Outcome], "journal_text": [Outcome, ctypes.c_uint64],
    "newest_text": [Outcome, ctypes.c_uint64], "reading_text": [Outcome, *TEXT],
    "evaluate": [Outcome], "archive_text": [Outcome], "status_text": [Outcome], "totals_text": [Outcome],
    "contradictions_text": [Outcome], "report": [Outcome, *TEXT, *TEXT, *TEXT], "kept_text": [Outcome, *TEXT],
    "closed_text": [Outcome, *TEXT], "transfer_text": [Outcome, *TEXT, *TEXT], "messages_text": [Outcome, *TEXT, *TEXT],
    "bank_totals": [Outcome, *TEXT], "transfer_text_for": [Outcome, *TEXT, *TEXT, *TEXT],
    "messages_text_for": [Outcome, *TEXT, *TEXT, *TEXT], "bank_totals_for": [Outcome, *TEXT, *TEXT],
    "report_for": [Outcome, *TEXT, *TEXT, *TEXT, *TEXT], "changes": [Outcome],
    "answer": [Outcome, *ROOM], "answer_part": [Outcome, ctypes.c_size_t, *ROOM],
    "answer_end": [Outcome], "why": [Outcome, *ROOM]
}
# of each other function, without sct_: the type of its result, and those of its arguments
OTHERS: Dict[str, List[object]] = {
    "version": [ctypes.c_uint32], "raw_code_name": [ctypes.c_size_t, ctypes.c_uint8, *ROOM],
    "raw_code_text": [ctypes.c_size_t, ctypes.c_uint8, *ROOM],
}

_loading = threading.Lock()
_loaded: Optional[ctypes.CDLL] = None


def candidates() -> Iterator[str]:
    """What may be the library, in the order in which it is tried. The last is a name that the system looks for."""
    named = os.environ.get(VARIABLE)
    if named:
        yield named
        return
    folder = pathlib.Path(__file__).resolve().parent
    yield str(folder / FILE)
    if folder.parts[-4:-1] == ("share", "niluppang", "python"):  # the release package, unpacked anywhere
        yield str(folder.parents[3] / "lib" / FILE)
    yield SONAME


def opened() -> ctypes.CDLL:
    """The first library that is there."""
    tried = []
    for name in candidates():
        if os.sep in name and name != os.environ.get(VARIABLE) and not os.path.exists(name):
            tried.append(name)
            continue
        try:
            return ctypes.CDLL(name)
        except OSError as error:
            tried.append(f"{name} ({error})")
    raise LibraryError(f"no library of niluppang was found: set {VARIABLE} to its path. Tried: {', '.join(tried)}")


def version_of(library: ctypes.CDLL) -> str:
    """The version of a library, such as 0.3.0."""
    number = library.sct_version()
    return f"{number // 1000000}.{number // 1000 % 1000}.{number % 1000}"


def typed(function: Any, result: object, *arguments: object) -> None:
    """Gives a function of the library its types."""
    function.restype, function.argtypes = result, arguments


def declared(library: ctypes.CDLL) -> ctypes.CDLL:
    """The library with the types of its functions. Its first two numbers must be those of this package."""
    try:
        for name, types in OTHERS.items():
            typed(getattr(library, "sct_" + name), *types)
        for name, (result, *arguments) in CALLS.items():
            typed(getattr(library, "sct_raw_" + name), result, ctypes.POINTER(Handle), *arguments)
    except AttributeError as error:
        raise LibraryError(f"the library has not every function of this package: {error}") from None
    version = version_of(library)
    if version.split(".")[:2] != __version__.split(".")[:2]:
        raise LibraryError(f"the library has version {version}, and this package {__version__}")
    return library


def word_of(function: Any, number: int) -> str:
    """What a function says of a number, or nothing if it has no such number."""
    length = function(number, ctypes.byref(ctypes.c_char()), 0)
    room = ctypes.create_string_buffer(length + 1)
    function(number, room, length)
    return room.raw[:length].decode()


def words_of(library: ctypes.CDLL) -> Dict[int, Tuple[str, str]]:
    """The name and the meaning of each number that the library has."""
    names = {number: word_of(library.sct_raw_code_name, number) for number in range(1 << 8)}
    return {number: (name, word_of(library.sct_raw_code_text, number)) for number, name in names.items() if name}


def library() -> ctypes.CDLL:
    """The library, which is opened once."""
    global _loaded
    with _loading:
        if _loaded is None:
            found = declared(opened())
            WORDS.update(words_of(found))
            _loaded = found
        return _loaded


def library_version() -> str:
    """The version of the library that is used, such as 0.3.0."""
    return version_of(library())
