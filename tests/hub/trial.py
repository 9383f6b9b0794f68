"""trial.py: what the checks of single sites share: sites in folders of their own, made-up lines, open connections, and
events."""
from __future__ import annotations
import contextlib
import json
import pathlib
import select
import socket
from typing import Any, Iterator
from tests import inputs
from tests.hub import sites
from tests.hub.sites import Hub, asked
from tests.oracle.status import read_message, written
from tests.harness import Answer


def lines_of(first: int, many: int) -> bytes:
    """Lines of instructions, from a number on."""
    return "".join(map(inputs.instruction, range(first, first + many))).encode()


def line_of(line: Any) -> Any:
    """The line of a message in an archive text."""
    return written(read_message(line)).encode() + b"\n"


def same_set(port: Any, lines: Any) -> bool:
    """Whether a site holds the messages of these lines and no more."""
    return sorted(asked(port, "/archive").body.splitlines(True)) == sorted(set(map(line_of, lines.splitlines())))


class Trial:
    """The interpreter, the program and a folder."""

    def __init__(self, python: str, program: str, folder: str) -> None:
        self.python, self.program, self.folder = python, program, pathlib.Path(folder)
        self.number = 0

    def fresh(self, name: str) -> pathlib.Path:
        with sites.one_at_a_time:
            self.number += 1
            return self.folder / f"{self.number}-{name}"

    @contextlib.contextmanager
    def site(self, folder: pathlib.Path, *words: str, number: int = 1, is_well: bool = True,
             port: int | None = None, program: Any = None,
             **more: Any) -> Iterator[None]:
        """One site in a folder, which serves and is well, or serves if it is not. Nobody asks it if `is_well` is
        None."""
        port = port or sites.free_ports(1)
        with Hub(self.python, program or self.program, folder, f"--site={number}", f"--port={port}", *words,
                 **more) as hub:
            hub.port = port
            sites.begun(hub.process, lambda: is_well is None or sites.is_well(port) if is_well is not False
                        else asked(port, "/health"))
            yield hub

    def fails(self, folder: pathlib.Path, *words: str, number: int = 1, **variables: Any) -> tuple[int | None, str]:
        """The exit status of a site that does not start, and what it says."""
        with Hub(self.python, self.program, folder, f"--site={number}", f"--port={sites.free_ports(1)}", *words,
                 **variables) as hub:
            try:
                return hub.process.wait(sites.LONGEST), hub.text()
            except sites.subprocess.TimeoutExpired:
                return None, hub.text()

    def ran(self, folder: pathlib.Path, *words: str, number: int = 1, program: Any = None) -> Answer:
        """The answer of main.py to words after which it ends by itself."""
        variables = {**sites.os.environ, "SCT_SITES": program or self.program}
        return sites.harness.run([self.python, str(sites.MAIN), str(folder), f"--site={number}", *words], env=variables,
                                 seconds=sites.LONGEST)

    def print_logs(self) -> None:
        """Prints the last lines of each site."""
        for log in sorted(self.folder.glob("*.log")):
            print(f"--- {log.name}", *log.read_text(errors="replace").splitlines()[-12:], sep="\n")


def raw(port: int, text: bytes) -> socket.socket:
    """An open connection, on which a text was sent."""
    connection = socket.create_connection(("127.0.0.1", port), sites.LATEST)
    connection.sendall(text)
    return connection


def head(method: str, path: str, *more: str, length: int | None = None) -> bytes:
    """The head of a request."""
    lines = [f"{method} {path} HTTP/1.1", "Host: localhost",
             *more] + ([] if length is None else [f"Content-Length: {length}"])
    return "".join(f"{line}\r\n" for line in [*lines, ""]).encode("latin-1")


def status_of(connection: socket.socket, seconds: float = sites.LATEST) -> int | None:
    """The status that a connection is answered with, or None if it is closed or silent."""
    connection.settimeout(seconds)
    with contextlib.suppress(OSError):
        found = connection.recv(200).split(b" ")
        return int(found[1]) if len(found) > 1 else None
    return None


def answered(port: int, text: bytes) -> int:
    """The status of the answer to a request that is sent as it is."""
    connection = raw(port, text)
    try:
        return status_of(connection)
    finally:
        connection.close()


def is_answered(connection: socket.socket, status: int) -> bool:
    """Whether a connection has been answered with a status by now. The answer may be read again."""
    if not select.select([connection], [], [], 0)[0]:
        return False
    with contextlib.suppress(OSError):
        return connection.recv(200, socket.MSG_PEEK).split(b" ")[1:2] == [b"%d" % status]
    return False


def is_closed(connection: Any, seconds: Any = sites.LATEST) -> bool:
    """Whether the other side closes a connection in some seconds. What it sends before is read."""
    connection.settimeout(seconds)
    try:
        while connection.recv(1 << 20):
            pass
    except (BrokenPipeError, ConnectionResetError):
        return True
    except OSError:
        return False
    return True


# ---- events

def events(stream: Any, many: Any) -> Any:
    """The next server-sent events, each as its fields."""
    found, fields = [], {}
    while len(found) < many:
        line = stream.readline()
        if not line:
            break
        line = line.decode().rstrip("\n")
        if line and not line.startswith(":"):
            name, _, value = line.partition(": ")
            fields[name] = value
        elif fields:
            found.append(fields)
            fields = {}
    return found


def watched(port: Any, last: Any = None) -> Any:
    """The lines of the events of a site."""
    more = f"Last-Event-ID: {last}\r\n" if last else ""
    stream = raw(port, f"GET /changes HTTP/1.0\r\nHost: localhost\r\n{more}\r\n".encode()).makefile("rb")
    while stream.readline().strip():
        pass
    return stream


def named(event: Any) -> Any:
    """The transfers that an event names."""
    return [one["tx"] for one in json.loads(event["data"])]
