"""harness.py: what the checks share: the paths of programs, a run and its answer, the comparison with the right one,
the last line.

The program is the one that `rt run` and the gate leave in crates/sct_sites, and the test driver the one in
crates/sct_test_driver. The variables SCT_SITES and SCT_TEST_DRIVER may name other programs. Checks of what is
around the program use a stand-in of the definitions where the program is not there, and a line says so. A run may be
limited: in processors, in memory, in the bytes that it writes to a file, and in seconds. One of its allocations may be
refused.
"""
from __future__ import annotations
import contextlib
import os
import pathlib
import resource
import shutil
import struct
import subprocess
import sys
import tempfile
from typing import Any, Callable, Iterator, NamedTuple, NoReturn, Sequence
from concurrent.futures import ThreadPoolExecutor

TOP = pathlib.Path(__file__).resolve().parents[1]
CRATES = TOP / "crates"
EXAMPLES = TOP / "examples"
DATA = TOP / "tests" / "data"  # inputs with their answers that checks alone read
SERVICES = TOP / "services"
DESK = TOP / "tools" / "desk"
STAND_IN = TOP / "tests" / "standin" / "sct_sites"
PROCESSORS = [1, 2, 4, 8]
COUNTS = struct.Struct("@LLLLL")
SECONDS = 60  # a run with an allocation refused that lasts longer is stopped, and has failed
LONGEST = 900  # seconds after which any run is stopped


# what a process wrote to standard output and to standard error, and the status that it ended with
class Answer(NamedTuple):
    text: bytes
    errors: bytes
    status: int | str


OUT_OF_MEMORY = Answer(b"", b"fault 65\n", 3)
NO_WORKER = Answer(b"", b"fault 67\n", 2)


# what is run, in which folder and on which input, and what the program must write and end with
class Case(NamedTuple):
    name: str
    words: list[str]
    input: bytes
    text: bytes
    refused: bytes
    status: int
    folder: pathlib.Path = EXAMPLES


# a run with the allocation of one number refused: its answer, how many allocations came, from how many threads, and
# their bytes, how many came before the first thread was to start, and how many were refused to the start of a thread
class Refusing(NamedTuple):
    number: int
    answer: Answer
    allocations: int
    threads: int
    bytes: int
    before_threads: int
    of_starts: int


# ---- programs and files

def stop(why: str) -> NoReturn:
    """Ends the check that was started, with one line that names it."""
    sys.exit(f"{pathlib.Path(sys.argv[0]).stem}: {why}")


def there(path: str | pathlib.Path, what: str, how: str) -> Any:
    """The whole path of a file, which must be there."""
    if not os.path.isfile(path):
        stop(f"there is no {what} {path}; {how} makes it")
    return os.path.abspath(path)


def program(crate: str = "sct_sites") -> Any:
    """The program of a crate: the one that a variable names, else the one that `rt run` and the gate leave."""
    path = os.environ.get(crate.upper()) or CRATES / crate / "out" / crate
    return there(path, "program", f"`rt run` in crates/{crate}")


def program_or_stand_in() -> str:
    """The program, or its stand-in of the definitions where nobody named one and none is built. A line says which it
    is."""
    path = str(os.environ.get("SCT_SITES") or CRATES / "sct_sites" / "out" / "sct_sites")
    if os.environ.get("SCT_SITES") or os.path.isfile(path):
        path = program()
        print(f"program: {path}", flush=True)
        return path
    print(f"program: the stand-in tests/standin/sct_sites of the definitions, since {path} is not built", flush=True)
    return str(STAND_IN)


def crate_tests(crate: Any) -> Any:
    """The tests of a crate, as `rt test` and the gate leave them."""
    return there(CRATES / crate / "out" / f"{crate}_tests", "tests", f"`rt test` in crates/{crate}")


def command(name: str) -> str:
    """The path of a command of this machine."""
    path = shutil.which(name)
    if path is None:
        stop(f"there is no command {name} on this machine")
    return path


# ---- a run and its answer

def limits(processors: Any, memory: int | None, room: int | None) -> Callable[..., Any] | None:
    """What limits a process before its program begins, or None if nothing does."""
    if processors is memory is room is None:
        return None

    def limit() -> None:
        if processors is not None:
            os.sched_setaffinity(0, sorted(os.sched_getaffinity(0))[:processors])
        if memory is not None:
            resource.setrlimit(resource.RLIMIT_DATA, (memory, memory))
        if room is not None:
            resource.setrlimit(resource.RLIMIT_FSIZE, (room, room))
    return limit


def run(words: Sequence[str | pathlib.Path], data: bytes | None = None, processors: Any = None,
        memory: int | None = None, room: int | None = None,
        seconds: int = LONGEST, **more: Any) -> Answer:
    """The answer of a process to an input.

    It runs on so many processors, or on all if there are fewer. It may map so many bytes of memory to write in, its
    threads' stacks included, and write so many bytes to a file. A process that goes on for longer than these seconds is
    stopped.
    """
    streams: dict[str, Any] = {"stdout": subprocess.PIPE, "stderr": subprocess.PIPE, **more}
    try:
        # if room is limited, the signal for a full file stays ignored, so that the write fails
        done = subprocess.run(words, input=data,
                              preexec_fn=limits(processors, memory, room), restore_signals=room is None,
                              timeout=seconds, **streams)
    except subprocess.TimeoutExpired:
        return Answer(b"", b"", f"none in {seconds} seconds")
    return Answer(done.stdout, done.stderr, done.returncode)


@contextlib.contextmanager
def started(words: Sequence[str | pathlib.Path], **more: Any) -> Iterator[subprocess.Popen[bytes]]:
    """A process that goes on beside the check. It is killed at the end, so that a check that fails does not wait for
    it."""
    with subprocess.Popen(words, **more) as process:
        try:
            yield process
        finally:
            process.kill()


def spent(words: Sequence[str | pathlib.Path], data: Any = None, **streams: Any) -> Any:
    """The seconds of the processor that a process takes, in all its threads, and the status that it ends with."""
    before = resource.getrusage(resource.RUSAGE_CHILDREN)
    status = run(words, data, **{"stdout": subprocess.DEVNULL, "stderr": subprocess.DEVNULL, **streams}).status
    after = resource.getrusage(resource.RUSAGE_CHILDREN)
    return after.ru_utime + after.ru_stime - before.ru_utime - before.ru_stime, status


def least_spent(runs: Sequence[tuple[Sequence[str | pathlib.Path], bytes]], times: int) -> list[float | None]:
    """The least processor time of each of some runs, by its words and its input. They are repeated in turn, so that
    other work of the machine slows all of them. None for one that ended with another status than 0."""
    rounds = [[spent(*one) for one in runs] for _ in range(times)]
    return [None if any(status for _, status in its) else min(seconds for seconds, _ in its) for its in zip(*rounds)]


# ---- runs with one allocation refused

def refuser(folder: Any) -> Any:
    """The library that refuses one allocation, made in a folder. It is preloaded."""
    path = pathlib.Path(folder, "refuse_nth.so")
    source = TOP / "tests" / "faults" / "refuse_nth.c"
    subprocess.run([command("cc"), "-O2", "-shared", "-fPIC", "-o", path, source], check=True)
    return str(path)


def run_refusing(number: Any, library: Any, words: Any, data: Any, also: int = 0) -> Any:
    """A run in which the allocation with this number is refused, and one more. With 0 none is.

    The input is a file: a pipe gives pieces that differ from run to run, and so do then the allocations.
    """
    with tempfile.NamedTemporaryFile() as counts, tempfile.TemporaryFile() as given:
        os.truncate(counts.name, COUNTS.size)
        given.write(data)
        given.seek(0)
        variables = {"LD_PRELOAD": library, "REFUSE_NUMBER": str(number), "REFUSE_ALSO": str(also),
                     "REFUSE_COUNTS": counts.name}
        answer = run(words, seconds=SECONDS, stdin=given, env={**os.environ, **variables})
        return Refusing(number, answer, *COUNTS.unpack(counts.read()))


def each_refused(library: Any, words: Any, data: Any, also: int = 0) -> Any:
    """A run with no allocation refused, and one with each number up to the greatest count of allocations. In each run
    one more is refused, if it is named."""
    runs: list[Refusing] = []
    most = 0
    with ThreadPoolExecutor(len(os.sched_getaffinity(0))) as pool:
        while len(runs) <= most:
            runs += pool.map(lambda number: run_refusing(number, library, words, data, also),
                             range(len(runs), most + 1))
            most = max(run.allocations for run in runs)
    return runs


def is_refused(run: Any) -> bool:
    """Whether the allocation came that was to be refused."""
    return 0 < run.number <= run.allocations


# ---- the comparison

def case(name: Any, words: Any, data: Any, text: Any, refused: Any) -> Any:
    """A case that ends with status 1 if a line is refused, else with 0."""
    return Case(name, words, data, text, refused, 1 if refused else 0)


def reported(name: str, right: bool, written: str = "") -> bool:
    """Whether something is right, which is printed. If it is not, what was written is printed too."""
    print(f"{name}: {'ok' if right else 'DIFFERS'}", flush=True)
    if not right and written:
        print(written, end="" if written.endswith("\n") else "\n", flush=True)
    return right


def answers(program: Any, one: Any, processors: Any) -> bool:
    """Whether a program answers a case as it must, on so many processors."""
    return run([program, *one.words], one.input, processors, cwd=one.folder) == (one.text, one.refused, one.status)


def fits(program: Any, one: Any, processors: Any = PROCESSORS[-1], times: int = 1) -> Any:
    """Whether a program answers a case as it must, so many times in a row."""
    again = f", {times} times" if times > 1 else ""
    right = all(answers(program, one, processors) for _ in range(times))
    return reported(f"{one.name}, on {processors} processors{again}", right)


def all_fit(program: Any, ones: Any) -> Any:
    """Whether a program answers each of some cases of one name as it must."""
    return reported(f"{ones[0].name}, in {len(ones)} ways", all(answers(program, one, PROCESSORS[-1]) for one in ones))


# ---- the last line

def end(passed: int, failed: int) -> None:
    """Prints how many passed and how many failed, and ends the check. The exit status is 0 if none has failed."""
    print(f"{passed} passed, {failed} failed")
    sys.exit(1 if failed else 0)


def end_with(numbers: list[tuple[int, int]]) -> None:
    """Ends the check with several pairs of how many passed and how many failed."""
    end(*map(sum, zip(*numbers)))


def end_of(right: list[bool]) -> None:
    """Ends the check with a list of whether each thing is right."""
    end(sum(right), len(right) - sum(right))
