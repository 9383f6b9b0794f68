"""sites.py: starts sites of services/hub for a check, and asks them over HTTP. They run on the program, or on its
stand-in."""
from __future__ import annotations
import contextlib
import glob
import http.client
import itertools
import json
import os
import pathlib
import resource
import socket
import subprocess
import sys
import threading
import time
from typing import Any, Callable, Iterator, NamedTuple
from tests import harness
from tests.harness import SERVICES

MAIN = SERVICES / "hub" / "main.py"
PACKAGES = "python3-aiohttp"
LATEST = 60  # seconds in which something must come about, also on a busy machine
LONGEST = 300  # seconds in which an answer must come, and a site must start


class Answer(NamedTuple):
    status: int
    body: bytes
    headers: Any


class Skipped(Exception):
    """Why the check cannot run on this machine."""


def interpreter() -> str:
    """A Python that has aiohttp. Debian's packages are those of /usr/bin/python3."""
    for path in (sys.executable, "/usr/bin/python3"):
        if os.path.isfile(path) and harness.run([path, "-c", "import aiohttp"]).status == 0:
            return path
    raise Skipped(f"no Python here has aiohttp; `apt-get install {PACKAGES}` installs it for /usr/bin/python3")


def ended(check: Callable[..., Any], *words: Callable[..., Any]) -> None:
    """Runs a check, and ends with its last line. A machine without the parts skips it, and a line says why."""
    try:
        right = check(*(word() for word in words))
    except Skipped as why:
        print(f"skipped: {why}")
        harness.end(0, 0)
    harness.end_of(right)


def checked(check: Callable[..., Any]) -> None:
    """Runs a check on the program or its stand-in."""
    ended(check, interpreter, harness.program_or_stand_in)


class Ports:
    """Ports of this check alone, as long as it runs: of each block there is a name, which the system gives to one
    process at a time. The blocks are below the ports that the system gives to connections."""
    FIRST, END, BLOCK = 10000, 32000, 200

    def __init__(self) -> None:
        self.names: list[socket.socket] = []
        self.left = range(0)

    def begin_block(self) -> None:
        """Goes on in a block that no check has."""
        for first in range(self.FIRST, self.END, self.BLOCK):
            name = socket.socket(socket.AF_UNIX)
            with contextlib.suppress(OSError):
                name.bind(f"\0niluppang-ports-{first}")
                self.names.append(name)
                self.left = range(first, first + self.BLOCK)
                return
        raise Skipped("no port is free")

    def next(self, many: int) -> range:
        """The next ports in a row."""
        if len(self.left) < many:
            self.begin_block()
        found, self.left = self.left[:many], self.left[many:]
        return found


ports, one_at_a_time = Ports(), threading.Lock()


def is_free(port: int) -> bool:
    """Whether nobody listens at a port."""
    with socket.socket() as its, contextlib.suppress(OSError):
        its.bind(("127.0.0.1", port))
        return True
    return False


def free_ports(many: int) -> int:
    """Ports in a row that nobody listens at, and that this check was not given before: a site that is killed comes back
    to its own."""
    with one_at_a_time:
        return next(found[0] for found in iter(lambda: ports.next(many), range(0)) if all(map(is_free, found)))


def begun(process: subprocess.Popen[bytes], is_so: Callable[..., Any]) -> bool:
    """Whether a site that was started comes to be as it must, before it ends: a busy machine needs a minute to start
    one."""
    return until(lambda: process.poll() is not None or is_so(), LONGEST) and process.poll() is None


def until(is_so: Callable[..., Any], seconds: float = LATEST) -> bool:
    """Whether something comes about in some seconds."""
    end = time.monotonic() + seconds
    while time.monotonic() < end:
        with contextlib.suppress(OSError, http.client.HTTPException, ValueError):
            if is_so():
                return True
        time.sleep(0.02)
    return False


def asked(port: int, path: str, body: bytes | None = None, timeout: int = LONGEST, **headers: str) -> Answer:
    """The answer of a site to a request."""
    return answer_on(http.client.HTTPConnection("127.0.0.1", port, timeout=timeout), path, body, headers)


def answer_on(connection: http.client.HTTPConnection, path: str, body: bytes | None, headers: dict[str, str]) -> Answer:
    """The answer to a request on a connection, which is closed then. A low line in a name of a header is written for a
    dash."""
    try:
        connection.request("GET" if body is None else "POST", path, body,
                           {name.replace("_", "-"): it for name, it in headers.items()})
        answer = connection.getresponse()
        return Answer(answer.status, answer.read(), dict(answer.getheaders()))
    finally:
        connection.close()


def outcomes(answer: Answer) -> list[dict[str, int | str]]:
    """The outcomes that a site answered to a post of lines."""
    return [json.loads(line) for line in answer.body.splitlines()]


def refusal_of(outcome: dict[str, Any]) -> str:
    """What the program prints of a line, in an outcome that is REFUSED. The name of its code and a sentence follow it
    there."""
    return outcome["why"].partition(f" ({outcome['name']}: ")[0]


def error_of(answer: Answer) -> tuple[int, int, str, str]:
    """The status, the code and the name of an error, and what the program prints of it or the reason."""
    found = json.loads(answer.body)
    return answer.status, found["code"], found["name"], refusal_of(found)


class Hub:
    """A process of main.py with these words, in a folder, whose output goes to a file."""

    def __init__(self, python: str, program: str, folder: pathlib.Path, *words: str, room: Any = None,
                 config: pathlib.Path | None = None,
                 **variables: Any) -> None:
        self.folder, self.log = pathlib.Path(folder), pathlib.Path(f"{folder}.log")
        clean = {name: it for name, it in os.environ.items() if name not in ("PYTHONHOME", "PYTHONPATH")}
        self.command = [python, "-u", str(MAIN), *([f"--config={config}"] if config else [str(folder)]),
                        *map(str, words)]
        self.variables = {**clean, "SCT_SITES": program, **variables}
        self.room = room
        self.start()

    def start(self) -> None:
        def limit() -> None:
            if self.room is not None:
                resource.setrlimit(resource.RLIMIT_FSIZE, (self.room, resource.RLIM_INFINITY))
        with open(self.log, "ab") as log:
            self.process = subprocess.Popen(self.command, stdout=log, stderr=log, env=self.variables, preexec_fn=limit,
                                            restore_signals=False)

    def text(self) -> str:
        return self.log.read_text(errors="replace")

    def kill(self) -> None:
        self.process.kill()
        self.process.wait()

    def end(self) -> int | None:
        """Ends it as a machine that is switched off does. The exit status."""
        self.process.terminate()
        try:
            return self.process.wait(LATEST)
        except subprocess.TimeoutExpired:
            self.kill()
            return None

    def children(self) -> dict[Any, Any]:
        """The processes of the sites that it runs, by number."""
        return {int(words[words.index("--only") + 1]): process for process, words in below(self.process.pid)
                if "--only" in words}

    def served(self) -> dict[int, int]:
        """The processes `serve`, each below a site, by number."""
        sites = list(self.children().values()) or [self.process.pid]
        return {int(words[words.index("serve") + 1]): process for site in sites for process, words in below(site)
                if "serve" in words}

    def __enter__(self) -> Hub:
        return self

    def __exit__(self, *_: object) -> None:
        self.end()


def below(parent: int) -> Iterator[tuple[int, list[str]]]:
    """The processes that a process started and that run, each with its words."""
    for path in glob.glob("/proc/[0-9]*/stat"):
        with contextlib.suppress(OSError, IndexError, ValueError):
            state, its = pathlib.Path(path).read_text().rsplit(")", 1)[1].split()[:2]
            if int(its) == parent and state != "Z":
                yield int(path.split("/")[2]), pathlib.Path(path).with_name("cmdline").read_text().split("\0")


def is_well(port: int) -> bool:
    """Whether a site serves and takes messages."""
    return asked(port, "/health").status == 200


# ---- journals

def kept(path: pathlib.Path) -> list[bytes]:
    """The lines that a journal keeps, without the first. A space before a line says that it counts."""
    lines = pathlib.Path(path).read_bytes().split(b"\n")[:-1]
    counted = list(itertools.takewhile(lambda line: line.startswith(b" "), lines))
    return [line[1:] for line in counted[1:]]


def own_lines(path: pathlib.Path) -> list[bytes]:
    """The messages of a journal, in the order of their numbers."""
    return [line for line in kept(path) if not line.startswith(b"delta ")]


def write_journal(path: pathlib.Path, site: int, group: int, lines: list[bytes] | tuple[()]) -> None:
    """Makes a journal that keeps these lines."""
    pathlib.Path(path).write_bytes(b"".join(b" " + line + b"\n"
                                            for line in [b"site %d %d" % (site, group), *lines]) + b"\t")
