"""driving.py: builds driver.c, writes its requests, and reads its replies.

The library is the one that tools/library.py makes: of crates/sct_c/out/libsct_c.a, or of the static library that the
variable SCT_C names. If the variable NILUPPANG_STANDIN is 1, it is tests/standin/library.c, a stand-in of the
definitions. That tries the checks themselves: nothing is said of the library then. A program is built in a temporary
folder, which has the libraries too.
"""
from __future__ import annotations
import collections
import contextlib
import os
import pathlib
import shlex
import shutil
import struct
import tempfile
from typing import Any, Iterator
from tests import harness
from tests.harness import TOP
from tools import library

SOURCES = pathlib.Path(__file__).resolve().parent
WARNINGS = ["-Wall", "-Wextra", "-pedantic", "-Wcast-qual", "-Werror"]
STANDARDS = {"gcc": ["-std=c99"], "clang": ["-std=c99"], "g++": ["-std=c++11", "-x", "c++"],
             "clang++": ["-std=c++11", "-x", "c++"]}
WRAPPED = ["-Wl,--wrap=malloc,--wrap=calloc,--wrap=realloc,--wrap=free"]
CHECKED = ["-O1", "-g", "-fsanitize=address,undefined", "-fno-sanitize-recover=all"]
VALGRIND = ["valgrind", "--quiet", "--leak-check=full", "--show-leak-kinds=all", "--errors-for-leak-kinds=all",
            "--error-exitcode=9"]

OUTCOME = ("ok", "code", "place", "length", "reserved")
TAKEN = ("ok", "code", "is_repeat", "place", "number", "reserved")
FIELDS = collections.defaultdict(lambda: OUTCOME, {
    "take": TAKEN, "take_as": TAKEN,
    "take_lines": ("ok", "code", "place", "fresh", "repeats", "refused", "length", "reserved"),
    "accept": ("ok", "code", "place", "fresh", "reserved"), "close": (), "version": ("version",),
    "stack": ("bytes",), "layout": (),
    "held": ("blocks", "bytes"), "move": (),
    "code_name": ("length",), "code_text": ("length",)})

# the fields of the result of a call by their names, how often it asked for memory and was refused, and what it wrote
Reply = collections.namedtuple("Reply", "fields asked refused text")


def stands_in() -> bool:
    """Whether the library is the stand-in."""
    return os.environ.get("NILUPPANG_STANDIN") == "1"


def end_if_missing(*commands: Any) -> None:
    """Ends the check with one line if something is missing that it needs."""
    try:
        if stands_in():
            print("program: the stand-in tests/standin/library.c of the definitions, since NILUPPANG_STANDIN is 1",
                  flush=True)
        else:
            library.check_there()
    except library.Missing as missing:
        skip(missing)
    for name in commands:
        if shutil.which(name) is None:
            skip(f"there is no command {name} on this machine: apt-get install {name}")


def skip(why: Any) -> None:
    """Ends the check, with one line that says why. Nothing has passed, and nothing failed."""
    print(f"skipped: {why}")
    harness.end(0, 0)


def make_stand_in(folder: Any) -> None:
    """Makes both libraries of the stand-in in a folder."""
    source = harness.STAND_IN.parent
    words = ["-std=gnu11", "-O1", "-Wall", "-Wextra", "-Werror", "-fPIC", f"-I{TOP / 'include'}",
             f'-DSERVER="{source / "library.py"}"']
    steps = [["gcc", *words, "-c", source / "library.c", "-o", "library.o"],
             ["ar", "rcsD", "libniluppang.a", "library.o"]]
    for step in steps:
        made = harness.run(step, cwd=folder)
        if made.status:
            harness.stop(f"the stand-in is not built:\n{made.errors.decode(errors='replace')}")
    library.make_shared(folder)


@contextlib.contextmanager
def libraries() -> Iterator[Any]:
    """A temporary folder with both libraries."""
    with tempfile.TemporaryDirectory() as folder:
        (make_stand_in if stands_in() else library.make)(folder)
        yield pathlib.Path(folder)


def built(folder: Any, source: Any, *words: Any, name: Any = None, wraps: Any = WRAPPED, compiler: str = "gcc") -> Any:
    """The program that a compiler makes of a source and the archive in a folder. Each warning is an error."""
    path = folder / (name or pathlib.Path(source).stem)
    made = harness.run([compiler, *STANDARDS[compiler], *WARNINGS, *words, f"-I{TOP / 'include'}", source, "-x", "none",
                        folder / "libniluppang.a", *wraps, "-lpthread", "-o", path])
    if made.status:
        harness.stop(f"{source} is not built by {compiler}:\n{made.errors.decode(errors='replace')}")
    return path


def built_driver(folder: Any, *words: Any, name: str = "driver") -> Any:
    return built(folder, SOURCES / "driver.c", *(words or ["-O1"]), name=name)


# ---- requests and replies

def request(name: Any, handle: int = 0, *arguments: Any) -> Any:
    """A request: the name of a call, the number of a handle, and arguments, which are numbers, texts, or lists of
    counts."""
    data = [struct.pack(f"={len(argument)}Q", *argument) if isinstance(argument, list) else
            argument.encode() if isinstance(argument, str) else argument for argument in arguments]
    words = [str(argument) if isinstance(argument, int) else str(len(argument)) for argument in data]
    head = " ".join([name, str(handle), *words]) + "\n"
    return head.encode() + b"".join(argument for argument in data if not isinstance(argument, int))


def counts_in(text: Any) -> Any:
    """The counts in what was written."""
    return list(struct.unpack(f"={len(text) // 8}Q", text))


def replies(names: Any, data: Any) -> Any:
    """The replies in what the driver wrote, to requests with these names."""
    place, found = 0, []
    for name in names:
        end = data.index(b"\n", place)
        *fields, asked, refused, length = map(int, data[place:end].split())
        place = end + 1 + length
        found.append(Reply(dict(zip(FIELDS[name], fields)), asked, refused, data[end + 1:place]))
    return found, data[place:]


def asked(program: Any, requests: Any, before: Any = (), words: Any = ()) -> Any:
    """The replies to requests, each a tuple of a name, a handle and arguments. The driver must end well, and write no
    more."""
    answer = harness.run([*before, program, *words], b"".join(request(*one) for one in requests))
    names = [one[0] for one in requests if one[0] != "refuse"]
    try:
        found, rest = replies(names, answer.text)
    except ValueError:
        found, rest = None, answer.text[-200:]
    if answer.status or answer.errors or found is None or rest:
        text = answer.errors.decode(errors="replace")
        raise Failed(f"{shlex.join(map(str, [*before, program]))} ended with status "
                     f"{answer.status}\n{text[:4000]}{rest[:200]!r}")
    return found


class Failed(Exception):
    """The driver did not end as it must."""
