"""mirror.py: a mirror of a site in a database: its transfers, findings, recalls, messages and totals in SQLite, for
dashboards and SQL.

message, transfer, finding, recall, word and refused are the tables of load_sqlite.py, and refused stays empty. totals
has a row for each bank, with amounts in cents. mirror has one row: the site, its group, its address, the vector of
which the tables have everything, the digests of that, the last event that they have, and the time at which that was so.
When nothing has come for a moment, the tables are the texts of that vector.

It opens the stream of changes, and then loads the complete texts. From then on it replaces the rows of each transfer
that an event names. A site says what changes only while somebody listens. So after a break the mirror goes on after its
last event if the site still has the vector and the digests of the tables, and else it loads all again. What somebody
removes or drops of the database is made again, also if it is only the log of SQLite beside the file.

Usage: mirror.py [--once | --compare] [--with-input] [--token-file FILE] [--cert FILE --key FILE] [--ca FILE] URL
DATABASE

It runs until a signal comes, and with --with-input until its standard input ends. With --once it ends when the tables
have all that the site held at its start. With --compare it compares the database with the texts, which another mirror
may keep meanwhile. The exit status is then 1 if they differ, and standard output says where. It is 2 if the site
refuses what is asked, the database is that of something else, or another mirror has it: standard error says why.
"""
from __future__ import annotations
import argparse
import contextlib
import fcntl
import itertools
import json
import os
import pathlib
import signal
import sqlite3
import sys
import threading
import time
import urllib.parse
from typing import Any, Callable, Iterable, Iterator, NamedTuple, Sequence
sys.path.insert(0, str(pathlib.Path(__file__).resolve().parents[1]))
from hub import limits
from hub.client import Answer, Client, Failed, Later, add_options, client_of, failure_of
from hub.faults import BadText
from hub.files import Wrong
from hub.places import desk_module
from hub.vectors import vector_of

try:
    load_sqlite = desk_module("load_sqlite")
except Wrong as lack:
    print(f"mirror: {lack}", file=sys.stderr)
    sys.exit(2)

MARK = 0x4E4C5047  # what says in a file of SQLite that it is a mirror

MIRROR_TABLES = load_sqlite.TABLES + """
CREATE TABLE totals (bank TEXT PRIMARY KEY, sent INTEGER, sent_cents INTEGER, returned_in_cents INTEGER,
    rejected INTEGER, waiting INTEGER,
    missing INTEGER, contradicted INTEGER, received INTEGER, received_cents INTEGER, returned_out_cents INTEGER);
CREATE TABLE mirror (site INTEGER, "group" INTEGER, url TEXT, vector TEXT, digests TEXT, event TEXT, time TEXT);
CREATE INDEX finding_on ON finding (bank, transfer_id);
"""
STATEMENTS = [statement.strip() for statement in MIRROR_TABLES.split(";") if statement.strip()]
# the tables that are made of texts
TEXT_TABLES = ("message", "transfer", "finding", "recall", "word", "refused", "totals")
OF_TRANSFER = ("message", "transfer", "finding", "recall")  # those with rows of single transfers
IN_MESSAGE = slice(4, 6)  # the bank and the transfer in a row of message


class Text(NamedTuple):
    vector: str
    lines: Iterator[str]


class Event(NamedTuple):
    id: str
    word: str
    data: list[dict[str, Any]]


class State(NamedTuple):
    site: int
    group: int
    url: str
    vector: str
    digests: str
    event: str | None
    time: str


# what came of a site: changed transfers with their lines or None, the last event, whether all must be loaded, and
# totals if they were asked
class News(NamedTuple):
    changes: dict[tuple[str, str], list[str] | None]
    event: str | None
    loads: bool
    totals: Totals | None


class Totals(NamedTuple):
    vector: str | None
    rows: list[list[int | str]] | None
    event: str | None  # the last one after all that the vector counts


class Stop(Exception):
    """Why the mirror cannot go on."""


def say(text: object) -> None:
    print(f"mirror: {text}", file=sys.stderr, flush=True)


def now() -> str:
    return time.strftime("%Y-%m-%dT%H:%M:%SZ", time.gmtime())


def covers(vector: str, other: str) -> bool:
    """Whether a vector counts all that another one does."""
    counts = vector_of(vector)
    return all(counts.get(origin, 0) >= count for origin, count in vector_of(other).items())


def is_after(event: str, other: str) -> bool:
    """Whether an event is the same as another one of its run of a site, or came after it."""
    (run, _, number), (its_run, _, its_number) = event.rpartition("-"), other.rpartition("-")
    return run == its_run and int(number) >= int(its_number)


# ---- what a site answers

def events_in(lines: Iterable[bytes]) -> Iterator[Event]:
    """The server-sent events in lines."""
    fields = {}
    for line in lines:
        text = line.decode(errors="replace").rstrip("\r\n")
        if text:
            name, _, value = text.partition(":")
            fields[name] = value.strip()
            continue
        if "event" in fields:
            yield Event(fields["id"], fields["event"], json.loads(fields["data"]))
        fields = {}


def status_rows(lines: list[str]) -> dict[str, Iterable[Sequence[Any]]]:
    """The rows of T, F and R lines."""
    of = load_sqlite.rows_of
    return {"transfer": of(lines, "T", 3), "finding": of(lines, "F", 3), "recall": of(lines, "R", 4)}


def totals_rows(lines: Iterable[str]) -> Iterator[list[int | str]]:
    """The rows of a totals text. An amount has two decimals, and a count has no point."""
    for line in lines:
        bank, *fields = line.split("|")
        yield [bank, *(int(field.replace(".", "")) for field in fields)]


class Site:
    """Asks a site. Later if it may answer another time, and another Failed if it never will."""

    def __init__(self, client: Client) -> None:
        self.client = client

    def get(self, path: str) -> Answer:
        answer = self.client.get(path)
        if answer.status != 200:
            raise failure_of(self.client.address(), answer)
        return answer

    def lines(self, path: str) -> list[str]:
        return self.get(path).body.decode(errors="replace").split("\n")[:-1]

    def who(self) -> tuple[int, int, str]:
        """The number of the site, its group and its vector."""
        answer = self.get("/vector")
        try:
            site, group = map(int, answer.headers.get("Niluppang-Site", "").split("/"))
        except ValueError:
            raise Stop(f"{self.client.address()} is not the address of a site") from None
        return site, group, answer.body.decode().strip()

    def digests(self, vector: str) -> str:
        """The digests of what a vector counts, which the site holds. None are known of a site of an older version, or
        that holds less now."""
        counts, found = list(vector_of(vector).items()), []
        for place in range(0, len(counts), limits.DIGESTS_MOST_SHOWN):
            at = ",".join(f"{origin}:{count}" for origin, count in counts[place:place + limits.DIGESTS_MOST_SHOWN])
            answer = self.client.get(f"/digests?at={at}")
            if answer.status in (400, 404):
                return ""
            if answer.status != 200:
                raise failure_of(self.client.address(), answer)
            found += answer.body.decode("ascii").splitlines()
        return ",".join(found)

    def path(self, bank: str, tx: str) -> str:
        """The path of a transfer. Each character of an identification that has a meaning in a path is quoted."""
        return f"/transfers/{urllib.parse.quote(bank, safe='')}/{urllib.parse.quote(tx, safe='')}"

    @contextlib.contextmanager
    def text(self, name: str, least: str = "-") -> Iterator[Text]:
        """A complete text that covers a vector. A site that is busy may give an older one for a time."""
        until = time.monotonic() + limits.MIRROR_OLD_SECONDS
        while time.monotonic() < until:
            with self.client.stream(f"/{name}") as stream:
                vector = stream.headers.get("Niluppang-Vector", "")
                if covers(vector, least):
                    yield Text(vector, (line.decode(errors="replace").rstrip("\n") for line in stream))
                    return
            time.sleep(limits.MIRROR_FIRST_PAUSE_SECONDS)
        raise Later(f"{self.client.address()} gives a text that is too old")

    @contextlib.contextmanager
    def rows(self, least: str = "-") -> Iterator[tuple[dict[str, Iterable[Sequence[Any]]], set[str]]]:
        """The rows of all tables, by complete texts that cover a vector, and the vectors of these texts. Messages are
        read as they come."""
        with self.text("status", least) as status:
            rows = status_rows(list(status.lines))
        with self.text("totals", least) as totals:
            rows["totals"] = list(totals_rows(totals.lines))
        with self.text("archive", least) as archive:
            yield {**rows, "message": load_sqlite.messages(archive.lines)}, {status.vector, totals.vector,
                                                                             archive.vector}

    def rows_on(self, changes: dict[tuple[str, str], list[str] | None]) -> dict[str, list[Sequence[Any]]]:
        """The rows of some transfers. The lines of a transfer are asked for if its event does not have them."""
        tables: dict[str, list[Sequence[Any]]] = {table: [] for table in OF_TRANSFER}
        for (bank, tx), lines in changes.items():
            its = status_rows(self.lines(self.path(bank, tx)) if lines is None else lines)
            messages = load_sqlite.messages(self.lines(f"{self.path(bank, tx)}/messages"))
            # a recall is on other transfers, too
            its["message"] = (row for row in messages if row[IN_MESSAGE] == (bank, tx))
            for table, rows in its.items():
                tables[table] += rows
        return tables

    def last_event(self) -> str:
        """The event that the site published last: a new stream begins with it. All that the site answered before is in
        it."""
        with self.client.stream("/changes") as lines:
            return next(events_in(lines)).id


class Stream:
    """The stream of changes. A thread reads it, so that the site never waits for a mirror that loads. What nobody took
    yet is put together: of each transfer the last lines count."""
    changes: dict[tuple[str, str], list[str] | None]
    totals: Totals | None
    fault: Failed | None
    event: str | None

    def __init__(self, client: Callable[[], Client], last: str | None) -> None:
        self.client, self.event, self.some = client, last, threading.Condition()
        self.changes, self.loads, self.totals, self.is_open, self.fault, self.is_over = ({}, False, None, False, None,
                                                                                         False)
        self._begin(self._read)

    def __enter__(self) -> Stream:
        """Waits until the site publishes to this stream."""
        with self.some:
            self.some.wait_for(lambda: self.is_open and self.event or self.fault)
        return self

    def __exit__(self, *_: object) -> None:
        self.is_over = True

    def take(self, seconds: float) -> News:
        """What came and was not taken yet, after some seconds at most."""
        with self.some:
            self.some.wait_for(lambda: self.changes or self.loads or self.totals or self.fault, seconds)
            if self.fault:
                raise self.fault
            news = News(self.changes, self.event, self.loads, self.totals)
            self.changes, self.loads, self.totals = {}, False, None
            return news

    def ask_totals(self) -> None:
        """Has the totals loaded. A site takes its time for them if it has much to do, and changes come meanwhile."""
        self._begin(self._load_totals)

    def _begin(self, work: Callable[[Site], None]) -> None:
        threading.Thread(target=self._done, args=(work,), daemon=True).start()

    def _done(self, work: Callable[[Site], None]) -> None:
        """Does what a thread is for. Who waits for it has to know why it failed, whatever it was."""
        try:
            work(Site(self.client()))
        except Failed as failed:
            self._set(fault=failed)
        except Exception as failed:
            self._set(fault=Later(f"the site answers something else: {type(failed).__name__} {failed}"))

    def _set(self, **its: Any) -> None:
        with self.some:
            vars(self).update(its)
            self.some.notify()

    def _read(self, site: Site) -> None:
        with site.client.stream("/changes", **({"Last-Event-ID": self.event} if self.event else {})) as lines:
            self._set(is_open=True)
            for event in events_in(itertools.takewhile(lambda _: not self.is_over, lines)):
                self._put(event)
        raise Later("the stream of changes has ended")

    def _put(self, event: Event) -> None:
        changes = {(transfer["bank"], transfer["tx"]): transfer.get("lines") for transfer in event.data}
        with self.some:
            self.changes.update(changes)
            self.event, self.loads = event.id, self.loads or event.word != "transfers"
            self.some.notify()

    def _load_totals(self, site: Site) -> None:
        try:
            with site.text("totals") as text:
                rows = list(totals_rows(text.lines))
            self._set(totals=Totals(text.vector, rows, site.last_event()))
        except Later:
            self._set(totals=Totals(None, None, None))  # it is too busy: another time


# ---- the database

class Lock:
    """The lock of a database: a file beside it, so that no two mirrors write to one."""
    file: int | None

    def __init__(self, database: str) -> None:
        self.database, self.path, self.file = database, f"{database}.lock", None
        self.take()

    def take(self) -> None:
        """Takes the lock, also if somebody removed its file. Stop if another mirror has it."""
        if self.file is not None:
            os.close(self.file)
        try:
            self.file = os.open(self.path, os.O_RDWR | os.O_CREAT, 0o600)
            fcntl.flock(self.file, fcntl.LOCK_EX | fcntl.LOCK_NB)
        except BlockingIOError:
            raise Stop(f"another mirror has {self.database}") from None
        except OSError as fault:
            raise Stop(f"{self.path} cannot be made: {fault.strerror}") from None

    def hold(self) -> None:
        if self.file is None or inode_of(self.path) != inode_of(self.file):
            self.take()


def inode_of(file: str | int) -> tuple[int, int] | None:
    """Which file has a path, or is open. None if there is none."""
    try:
        status = os.stat(file)
    except FileNotFoundError:
        return None
    return status.st_dev, status.st_ino


def schema_of(connection: sqlite3.Connection) -> set[tuple[str, str]]:
    return set(connection.execute("SELECT name, sql FROM sqlite_master WHERE sql IS NOT NULL"))


def blueprint() -> tuple[set[tuple[str, str]], dict[str, str]]:
    """The tables as SQLite lists them, and how a row of each is inserted."""
    with contextlib.closing(sqlite3.connect(":memory:")) as made:
        for statement in STATEMENTS:
            made.execute(statement)

        def width(table: str) -> int:
            return len(list(made.execute(f"PRAGMA table_info({table})")))

        return schema_of(made), {table: f"INSERT INTO {table} VALUES ({', '.join('?' * width(table))})"
                                 for table in (*TEXT_TABLES, "mirror")}


SCHEMA, INSERTS = blueprint()


def fill(connection: sqlite3.Connection, rows: dict[str, Iterable[Sequence[Any]]]) -> None:
    """Makes all tables anew, with these rows. An index is quicker made of the rows that are there."""
    for table in INSERTS:
        connection.execute(f"DROP TABLE IF EXISTS {table}")
    for statement in filter(lambda it: it.startswith("CREATE TABLE"), STATEMENTS):
        connection.execute(statement)
    for table, its in rows.items():
        connection.executemany(INSERTS[table], its)
    connection.executemany(INSERTS["word"], load_sqlite.words(connection))
    for statement in filter(lambda it: it.startswith("CREATE INDEX"), STATEMENTS):
        connection.execute(statement)


class Database:
    """The database. Each change of it is one transaction."""
    _open: sqlite3.Connection | None
    files: dict[str, tuple[int, int] | None]  # the file, its log and the index of the log, as they were opened

    def __init__(self, path: str) -> None:
        self.path, self._open, self.files = path, None, {}

    @property
    def connection(self) -> sqlite3.Connection:
        """The connection. Stop if the database is not open."""
        if self._open is None:
            raise Stop(f"{self.path} is not open")
        return self._open

    def open(self) -> None:
        """Opens the file, or makes it. Stop if it is a database of something else."""
        self.close()
        if not os.path.exists(self.path):
            remove(*self._beside())  # of a file that was removed
        try:
            self._open = sqlite3.connect(self.path, timeout=limits.MIRROR_BUSY_SECONDS, isolation_level=None)
        except sqlite3.OperationalError as fault:
            raise Stop(f"{self.path}: {fault}") from None
        (mark,), (many,) = map(self._row, ("PRAGMA application_id", "SELECT count(*) FROM sqlite_master"))
        if mark != MARK and many:
            raise Stop(f"{self.path} is a database, and not one of a mirror: it is left as it is")
        if mark != MARK:
            self.connection.execute(f"PRAGMA application_id = {MARK}")
        self._row("PRAGMA journal_mode = WAL")
        self._row(f"PRAGMA journal_size_limit = {limits.MIRROR_LOG_BYTES}")
        self.connection.execute("PRAGMA synchronous = NORMAL")
        self._row("SELECT count(*) FROM sqlite_master")  # from the first reading on, the log and its index are there
        self.files = self._found()

    def _beside(self) -> list[str]:
        """The files that SQLite has beside the database while it is open: the log, and its index."""
        return [f"{self.path}-wal", f"{self.path}-shm"]

    def _found(self) -> dict[str, tuple[int, int] | None]:
        return {path: inode_of(path) for path in [self.path, *self._beside()]}

    def open_again(self) -> None:
        """Opens the file of which somebody removed a part: others would not see what it has. What is left of it is
        removed first, and what somebody put in its place is not."""
        self.close()
        remove(*(path for path, known in self.files.items() if known == inode_of(path)))
        self.open()

    def close(self) -> None:
        if self._open:
            self._open.close()
            self._open = None

    def _row(self, question: str) -> Any:
        return self.connection.execute(question).fetchone()

    def state(self) -> State | None:
        """What the tables have, or None if one of them lacks."""
        if not SCHEMA <= schema_of(self.connection):
            return None
        row = self._row("SELECT * FROM mirror")
        return row and State(*row)

    def is_removed(self) -> bool:
        return None in self.files.values() or self.files != self._found()

    def messages(self) -> int:
        return self._row("SELECT count(*) FROM message")[0]

    @contextlib.contextmanager
    def transaction(self) -> Iterator[sqlite3.Connection]:
        self.connection.execute("BEGIN IMMEDIATE")
        try:
            yield self.connection
            self.connection.execute("COMMIT")
        finally:
            if self.connection.in_transaction:
                self.connection.execute("ROLLBACK")

    def load(self, rows: dict[str, Iterable[Sequence[Any]]], state: State) -> None:
        """Makes all tables anew."""
        with self.transaction() as its:
            fill(its, rows)
            its.execute(INSERTS["mirror"], state)

    def replace(self, transfers: list[tuple[str, str]], rows: dict[str, list[Sequence[Any]]],
                event: str | None) -> None:
        """Replaces the rows of some transfers by those that an event led to."""
        with self.transaction() as its:
            its.executemany("DELETE FROM word WHERE word = ? AND bank = ? AND transfer_id = ?",
                            words_of(its, transfers))
            for table in OF_TRANSFER:
                its.executemany(f"DELETE FROM {table} WHERE bank = ? AND transfer_id = ?", transfers)
                its.executemany(INSERTS[table], rows[table])
            its.executemany(INSERTS["word"], words_of(its, transfers))
            its.execute("UPDATE mirror SET event = ?", (event,))

    def put_totals(self, rows: list[list[int | str]]) -> None:
        with self.transaction() as its:
            its.execute("DELETE FROM totals")
            its.executemany(INSERTS["totals"], rows)

    def confirm(self, vector: str, digests: str) -> None:
        """Notes that the tables have all that a vector counts, of these digests."""
        with self.transaction() as its:
            its.execute("UPDATE mirror SET vector = ?, digests = ?, time = ?", (vector, digests, now()))


def words_of(connection: sqlite3.Connection, transfers: list[tuple[str, str]]) -> list[tuple[str, str, str]]:
    """The rows of word for the rows of message of some transfers."""
    return [row for bank, tx in transfers for row in load_sqlite.words(connection, bank, tx)]


def remove(*paths: str) -> None:
    for path in paths:
        with contextlib.suppress(FileNotFoundError):
            os.unlink(path)


# ---- the mirror

class Mirror:
    """Keeps a database equal to a site. `client` makes a client of it: each thread has its own."""
    event: str | None
    vector: str | None
    mark: tuple[str, str] | None

    def __init__(self, url: str, path: str, client: Callable[[], Client]) -> None:
        self.url, self.client, self.site = url, client, Site(client())
        self.lock, self.database = Lock(path), Database(path)
        # the last event of which the tables have the changes, and what they have in any case
        self.event, self.vector = None, None
        # whether the totals are older than the other tables, and whether they are being loaded
        self.is_old, self.is_asked = True, False
        self.mark = None  # a vector, and the event after which the tables have all that it counts
        self.totals_at = self.beat_at = 0.0
        self.pause, self.is_away = limits.MIRROR_FIRST_PAUSE_SECONDS, False

    def run(self, once: bool) -> None:
        """Follows the site until a signal comes, or with `once` until the tables have all that it held."""
        try:
            while not self._ran(once):
                time.sleep(self.pause)
                self.pause = min(2 * self.pause, limits.MIRROR_MOST_PAUSE_SECONDS)
        finally:
            self.database.close()

    def _ran(self, once: bool) -> bool:
        """Whether it came to its end. What may be well another time is said once."""
        try:
            self.lock.hold()
            self.database.open()
            self._follow(once)
            return True
        except (Later, sqlite3.OperationalError) as why:
            if not self.is_away:
                say(f"{why}; it is tried again")
            self.is_away = True
            return False

    def _follow(self, once: bool) -> None:
        state = self.database.state()

        def knows() -> bool:
            if state is None or (state.site, state.group, state.vector, state.url) != (*self.site.who(), self.url):
                return False
            if self.site.digests(state.vector) == state.digests:
                return True
            say(f"the site holds other entries than the tables have of {state.vector}")
            return False

        with Stream(self.client, state.event if state and knows() else None) as stream:
            is_there = knows()
            self.event, self.vector, self.is_old, self.is_asked, self.mark = (stream.event, state and state.vector,
                                                                              True, False, None)
            while not once or self.is_old or self.is_asked or self.mark:
                news = stream.take(self._rest() if is_there else 0)
                self._bring(news._replace(loads=news.loads or not is_there))
                is_there = self._is_there()
                if is_there:
                    self._settle(stream)

    def _rest(self) -> float:
        """The seconds for which the mirror may wait for news."""
        left = self.totals_at - time.monotonic()
        look = limits.MIRROR_LOOK_SECONDS
        return max(0.0, min(look, left)) if self.is_old and not self.is_asked else look

    def _is_there(self) -> bool:
        """Whether nobody removed the database or dropped a table. A file that was removed is made again."""
        self.lock.hold()
        if self.database.is_removed():
            self.database.open_again()
        return self.database.state() is not None

    def _bring(self, news: News) -> None:
        """Brings news into the tables. If many transfers changed it is quicker to load all."""
        many = len(news.changes)
        if news.loads or many > limits.MIRROR_MOST_ALONE and many > self.database.messages() // limits.MIRROR_SHARE:
            self._load(news.event)
        elif news.changes:
            self.database.replace(list(news.changes), self.site.rows_on(news.changes), news.event)
        if news.loads or news.changes:
            self.event, self.is_old = news.event, True
        if news.totals:
            self._put_totals(news.totals)

    def _put_totals(self, totals: Totals) -> None:
        """Brings totals into their table. All tables have what the vector counts when they have the event."""
        self.is_asked, is_new = False, False
        if totals.vector is not None and totals.rows is not None and totals.event is not None and covers(
                totals.vector, self.vector or "-"):
            self.database.put_totals(totals.rows)
            self.mark, is_new = (totals.vector, totals.event), True
        self.is_old = self.is_old or not is_new

    def _load(self, event: str | None) -> None:
        """Makes all tables anew. What came since the event is in the texts or comes as another event, and may be
        both."""
        site, group, self.vector = self.site.who()
        with self.site.rows(self.vector) as (rows, _):
            self.database.load(rows, State(site, group, self.url, self.vector, self.site.digests(self.vector), event,
                                           now()))
        say(f"all is loaded: {self.database.messages()} rows of messages, with all that {self.vector} counts")

    def _settle(self, stream: Stream) -> None:
        """Has the totals loaded after changes, and notes what the tables have. A quiet site is asked at times whether
        that is still all."""
        at = time.monotonic()
        if self.is_old and not self.is_asked and at >= self.totals_at:
            stream.ask_totals()
            self.is_asked, self.is_old, self.totals_at = True, False, at + limits.MIRROR_TOTALS_SECONDS
        if self.mark and self.event and is_after(self.event, self.mark[1]):
            self._confirm(self.mark[0])
            self.mark = None
        if not self.is_old and not self.is_asked and not self.mark and at >= self.beat_at:
            *_, vector = self.site.who()
            self.is_old = vector != self.vector
            if not self.is_old:
                self._confirm(vector)

    def _confirm(self, vector: str) -> None:
        """Notes that the tables have all that a vector counts. Digests that are noted of it stay, so that other ones at
        the site are found."""
        state = self.database.state()
        self.database.confirm(vector, state.digests if state and state.vector == vector else self.site.digests(vector))
        if self.is_away:
            say("it goes on")
        self.vector, self.is_away, self.pause = vector, False, limits.MIRROR_FIRST_PAUSE_SECONDS
        self.beat_at = time.monotonic() + limits.MIRROR_BEAT_SECONDS


# ---- the comparison

def is_reached(path: str, vector: str, until: float) -> bool:
    """Whether a mirror has all that a vector counts, in some time."""
    while time.monotonic() < until:
        with contextlib.suppress(sqlite3.OperationalError), contextlib.closing(sqlite3.connect(read_only(path),
                                                                                               uri=True)) as connection:
            row = connection.execute("SELECT vector FROM mirror").fetchone()
            if row and covers(row[0], vector):
                return True
        time.sleep(limits.MIRROR_FIRST_PAUSE_SECONDS)
    return False


def read_only(path: str) -> str:
    return f"{pathlib.Path(path).as_uri()}?mode=ro"


def differences(connection: sqlite3.Connection) -> Iterator[str]:
    """What the tables of a mirror lack, what they have beside it, and how many rows they have. Of each only the
    first."""
    for table, (word, database, other) in itertools.product(TEXT_TABLES,
                                                            (("lacks", "main", "made"), ("has", "made", "main"))):
        question = (f"SELECT * FROM {database}.{table} EXCEPT SELECT * FROM {other}.{table} "
                    f"LIMIT {limits.MIRROR_SHOWN_ROWS}")
        yield from (f"{table} {word} {row}" for row in connection.execute(question))
    for table in TEXT_TABLES:
        right, its = (connection.execute(f"SELECT count(*) FROM {database}.{table}").fetchone()[0]
                      for database in ("main", "made"))
        if right != its:
            yield f"{table} has {its} rows in place of {right}"


def compared(site: Site, path: str) -> tuple[set[str], list[str]]:
    """The vectors of the texts, and the first differences between them and a database."""
    with contextlib.closing(sqlite3.connect("", isolation_level=None, uri=True)) as connection:
        with site.rows() as (rows, vectors):
            fill(connection, rows)
        try:
            connection.execute("ATTACH ? AS made", (read_only(path),))
            connection.execute("BEGIN")
            return vectors, list(differences(connection))
        except sqlite3.OperationalError as fault:
            return vectors, [f"{path}: {fault}"]


def other_digests(site: Site, path: str) -> Iterator[str]:
    """How the digests that a database has of its vector differ from those of a site."""
    with contextlib.closing(sqlite3.connect(read_only(path), uri=True)) as connection:
        vector, its = connection.execute("SELECT vector, digests FROM mirror").fetchone()
    held = site.digests(vector)
    if held != its:
        yield f"mirror has the digests {its or '-'} of {vector}, and the site has {held or '-'}"


def compare(site: Site, path: str) -> int:
    """Prints how a database differs from the texts of a site, after a mirror had some seconds to have what they have.
    The exit status."""
    until, is_over, differing = time.monotonic() + limits.MIRROR_COMPARING_SECONDS, False, [""]
    while differing and not is_over:
        *_, vector = site.who()
        is_due = is_reached(path, vector, until)
        vectors, differing = compared(site, path)
        is_over = not is_due or time.monotonic() > until or vectors == {vector, site.who()[2]}
    differing = differing or list(other_digests(site, path))
    print(*(differing or [f"equal at {' and '.join(sorted(vectors))}"]), sep="\n")
    return 1 if differing else 0


def options() -> argparse.Namespace:
    parser = argparse.ArgumentParser(prog="mirror.py", description=__doc__,
                                     formatter_class=argparse.RawDescriptionHelpFormatter)
    what = parser.add_mutually_exclusive_group()
    what.add_argument("--once", action="store_true", help="make the database equal, and end")
    what.add_argument("--compare", action="store_true", help="compare the database with the site, and end")
    parser.add_argument("--with-input", action="store_true",
                        help="end when standard input ends, as of a site that runs its mirror")
    add_options(parser)
    parser.add_argument("url", metavar="URL", help="the address of the site, such as https://site1.hub.example:8700")
    parser.add_argument("database", metavar="DATABASE", help="the file of the database")
    return parser.parse_args()


def client_for(args: argparse.Namespace) -> Client:
    try:
        return client_of(args, [args.url])
    except (ValueError, OSError) as why:
        raise Stop(f"{why}") from None


def end_with_input() -> None:
    """Ends this process when standard input ends: who started it has ended then, even if nothing was said."""
    def wait() -> None:
        while sys.stdin.buffer.read(1):
            pass
        os._exit(0)
    threading.Thread(target=wait, daemon=True).start()


def main() -> None:
    args = options()
    if args.with_input:
        end_with_input()
    os.umask(0o077)  # the database has payments of customers: nobody else of this machine reads it
    for number in (signal.SIGINT, signal.SIGTERM):
        signal.signal(number, lambda *_: sys.exit(0))
    path, client = os.path.realpath(args.database), lambda: client_for(args)
    try:
        if args.compare:
            sys.exit(compare(Site(client()), path))
        Mirror(args.url.rstrip("/"), path, client).run(args.once)
        sys.exit()
    except (Stop, Failed, BadText) as why:
        say(why)
    except sqlite3.DatabaseError as why:
        say(f"{path} is damaged: {why}; when it is removed, a new one is made")
    sys.exit(2)


if __name__ == "__main__":
    main()
