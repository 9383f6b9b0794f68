"""journals.py: the journals of sites of services/hub: no number is given twice, whatever was lost or copied.

A journal lost its last lines, and its peer is there, away or slow; it has a line that changed, or belongs to another
site; two processes open it; it is copied while its site takes lines; a new number adopts it; it is made of an SQLite
journal of an older version. A site that was halted stays so.
"""
import contextlib
import os
import pathlib
import shutil
import signal
import sqlite3
import stat
import subprocess
import threading
import time
from tests import harness, inputs
from tests.harness import DESK, SERVICES
from tests.hub import sites
from tests.hub.sites import asked, kept, outcomes, own_lines, until, write_journal
from tests.hub.trial import lines_of
from tests.hub.troubles import tried
from tests.oracle.digests import chain_of
from tests.oracle.exchange import message_in
from tests.oracle.status import read_message


def at(hub):
    return f"http://127.0.0.1:{hub.port}"


def take(hub, first, many=1):
    return asked(hub.port, "/messages", lines_of(first, many))


def refuses_a_second_process(trial):
    folder = trial.fresh("second")
    with trial.site(folder) as hub:
        take(hub, 1)
        status, said = trial.fails(folder)
        yield "a second process on a journal does not start, and says why", status == 2 and "is in use" in said
        yield "the first one goes on", take(hub, 2).status == 200
        modes = [stat.S_IMODE(os.stat(path).st_mode) for path in (folder, folder / "site1.journal")]
        yield "nobody else may read the folder and the journal", modes == [0o700, 0o600]
        taken = sites.free_ports(1)
        with sites.socket.create_server(("127.0.0.1", taken)):
            status, said = trial.fails(trial.fresh("port"), f"--port={taken}")
        yield ("a port in use is not the end of a site: status 3",
               status == 3 and "address already in use" in said.lower())
    shutil.copy(folder / "site1.journal", folder / "site2.journal")
    for name, words in ("the journal of another site", {"number": 2}), ("the journal of another group", {}):
        status, said = trial.fails(folder, *([] if words else ["--group=9"]), **words)
        yield f"{name} is refused", status == 2 and "another site or group" in said
    before = (folder / "site1.journal").read_bytes()
    yield "a journal that was refused is as it was", (folder / "site2.journal").read_bytes() == before
    (folder / "site3.journal").write_bytes(lines_of(1, 2))
    status, said = trial.fails(folder, number=3)
    yield "a file of messages is no journal, and is not cut", status == 2 and (
        folder / "site3.journal").read_bytes() == lines_of(1, 2)


def names_in(folder):
    """The names of the files in a folder, but for the empty ones that the program makes beside a journal that it opens,
    and locks of sites."""
    return sorted(path.name for path in folder.iterdir()
                  if path.suffix != ".lock" and not (path.name == "site1.journal-wal" and path.stat().st_size == 0))


def digest_line(lines):
    """The digest of a site 1 that holds these lines, as a check prints it."""
    return f"1:{len(lines)}:{chain_of([read_message(line) for line in lines])[-1].hex()}\n"


def refuses_changed_lines(trial):
    """A line in the middle that is no message any more would give its number to the one after it."""
    folder, lines = trial.fresh("changed"), lines_of(1, 5).splitlines()
    folder.mkdir()
    write_journal(folder / "site1.journal", 1, 64, [*lines[:2], lines[2].replace(b"EUR", b"USD"), *lines[3:]])
    status, said = trial.fails(folder)
    yield ("a journal with a line that is refused: the site does not start",
           status == 2 and "5 entries of site 1, of which the program takes 4" in said)
    checked = trial.ran(folder, "--check")
    fault = message_in(lines[2].replace(b"EUR", b"USD"))[1]
    yield "and a check of it names the line", (checked.text.decode(), checked.status) == (
        f"1:4\n{digest_line(lines[:2] + lines[3:])}line 4: {fault} (message 3)\n", 1)
    write_journal(folder / "site1.journal", 1, 64,
                  [*lines, inputs.delta(2, 1, 7, 8).replace(b"\n", b"\t")[:-1].replace(b"EUR", b"USD")])
    status, said = trial.fails(folder)
    yield ("a journal with a delta that is refused: the site does not start",
           status == 2 and "2 entries of site 2" in said)
    checked = trial.ran(folder, "--check")
    yield "and a check of it names the delta", (checked.text.decode(), checked.status) == (
        f"1:5\n{digest_line(lines)}line 7: 45 3 (delta)\n", 1)
    write_journal(folder / "site1.journal", 1, 64, lines)
    checked = trial.ran(folder, "--check")
    yield "a check of a journal that is right says what it holds", (checked.text.decode(), checked.status) == (
        f"1:5\n{digest_line(lines)}", 0)
    yield "and leaves nothing", names_in(folder) == ["site1.journal"]


@contextlib.contextmanager
def behind(trial, *words, lost=5):
    """A site whose folder is an older copy, its peer that has what the copy lacks and is away, and the words for the
    site."""
    one, two, copy = trial.fresh("lost"), trial.fresh("keeps"), trial.fresh("older")
    with trial.site(one) as hub:
        take(hub, 1, 20 - lost)
        hub.end()
        shutil.copytree(one, copy)
        hub.start()
        until(lambda: sites.is_well(hub.port))
        take(hub, 21 - lost, lost)
        with trial.site(two, f"--peer=1={at(hub)}", "--hear=0", number=2) as peer:
            until(lambda: asked(peer.port, "/vector").body == b"1:20\n")
            hub.kill()
            until(lambda: not hub.served())
            peer.kill()
            shutil.rmtree(one)
            shutil.copytree(copy, one)
            yield one, peer, [f"--peer=2={at(peer)}", *words]


def is_halted(hub):
    answer = take(hub, 30)
    return answer.status == 409 and b"43 OwnAhead" in answer.body and "Retry-After" not in answer.headers


def notices_a_lost_line(trial):
    with behind(trial) as (folder, peer, words):
        peer.start()
        until(lambda: sites.is_well(peer.port))
        with trial.site(folder, *words, is_well=False) as again:
            yield "a journal that lost lines, and a peer that is there: the site takes nothing", until(
                lambda: is_halted(again))
            yield "and says so", b"43 OwnAhead" in asked(again.port, "/health").body
            yield "and still answers", asked(again.port, "/vector").body == b"1:15\n"
            yield "its peer has no other entries", asked(peer.port, "/vector").body == b"1:20\n"
            yield "the halt is a file beside the journal", b"43 OwnAhead" in (folder / "site1.halted").read_bytes()
        peer.kill()
        with trial.site(folder, *words, "--hear=0", is_well=False) as again:
            yield "a halted site that is started again while its peer is away stays halted", until(
                lambda: is_halted(again))
            yield "and gives no number", asked(again.port, "/vector").body == b"1:15\n"
        cleared = trial.ran(folder, "--clear-halt")
        with trial.site(folder, "--hear=0") as again:
            yield "until somebody clears it", cleared.status == 0 and take(again, 30).status == 200


def waits_for_a_peer(trial):
    with behind(trial) as (folder, peer, words):
        with trial.site(folder, *words, is_well=False) as again:
            time.sleep(7)
            answer = take(again, 40)
            yield ("a peer that is away: the site takes nothing before it was heard",
                   answer.status == 503 and b"hears its peers" in answer.body)
            peer.start()
            yield "and then it halts", until(lambda: is_halted(again))
            yield "without a number given twice", asked(again.port, "/vector").body == b"1:15\n"
    with behind(trial) as (folder, peer, words):
        with trial.site(folder, *words, "--hear=0", is_well=False) as again:
            yield "with the word --hear=0 it takes messages all the same", until(lambda: take(again, 40).status == 200)


def starts_alone(trial):
    """One site of three must not start: the others go on without it."""
    folder, port = trial.fresh("three"), sites.free_ports(3)
    folder.mkdir()
    write_journal(folder / "site2.journal", 3, 64, [])
    with sites.Hub(trial.python, trial.program, folder, f"--port={port}") as hub:
        both = sites.begun(hub.process, lambda: all(sites.is_well(port + site) for site in (0, 2)))
        yield "one site must not start: the others go on", both and "site 2 must not start" in hub.text()
        taken = asked(port, "/messages", lines_of(1, 3)).status
        yield "and take messages", taken == 200 and until(lambda: asked(port + 2, "/vector").body == b"1:3\n")
        first = hub.children()[1]
        os.kill(first, signal.SIGKILL)
        yield "a site that is killed is started again", until(lambda: hub.children().get(1, first) != first
                                                              and sites.is_well(port))


def copies(trial):
    """A plain copy of a journal while its site takes lines is a journal of an earlier moment."""
    folder = trial.fresh("copied")
    with trial.site(folder) as hub:
        ends = threading.Event()

        def posts():
            for number in range(0, 100_000, 20):
                if ends.is_set():
                    return
                take(hub, number, 20)
                time.sleep(0.02)
        thread = threading.Thread(target=posts, daemon=True)
        thread.start()
        found, journal, size = [], folder / "site1.journal", 0
        for _ in range(8):
            until(lambda: journal.stat().st_size > size)
            copy = trial.fresh("copy")
            copy.mkdir()
            size = pathlib.Path(shutil.copyfile(journal, copy / "site1.journal")).stat().st_size
            found.append(trial.ran(copy, "--check"))
        ends.set()
        thread.join()
        own = own_lines(journal)
    vectors = [it.text.splitlines()[0] for it in found]  # the digests follow
    counts = [int(vector.rpartition(b":")[2]) for vector in vectors if vector != b"-"]
    yield "copies of a journal that is written are journals of earlier moments", all(it.status == 0 for it in found)
    yield "and grow", counts == sorted(counts) and len(set(counts)) > 2 and counts[-1] <= len(own)


def retires_a_number(trial):
    """The journal of a number that is retired is printed, and adopted by a site with a new number, which first hears
    its peer."""
    old, new, keeps = trial.fresh("old"), trial.fresh("new"), trial.fresh("peer")
    with trial.site(old) as hub, trial.site(keeps, f"--peer=1={at(hub)}", number=2) as peer:
        asked(hub.port, "/messages", lines_of(1, 20) + b"{}\n" + lines_of(1, 3))
        until(lambda: asked(peer.port, "/vector").body == b"1:20\n")
        printed = harness.run([*hub.command, "--print"], env=hub.variables)
        yield "a journal is printed while its site runs", printed == (lines_of(1, 20), b"", 0)
        peer.kill()
        hub.end()
        write_journal(old / "site1.journal", 1, 64, lines_of(1, 22).splitlines())
        words = [f"--peer=2={at(peer)}", "--through=1=2"]
        command = [trial.python, str(sites.MAIN), str(new), "--site=3", *words, f"--adopt={old / 'site1.journal'}"]
        with harness.started(command, stdout=subprocess.PIPE, stderr=subprocess.DEVNULL, env=hub.variables) as adopting:
            until(lambda: any("serve" in its for _, its in sites.below(adopting.pid)))
            time.sleep(2)
            yield "a journal is not adopted before the peers were heard", adopting.poll() is None and own_lines(
                new / "site3.journal") == []
            peer.start()
            text, _ = adopting.communicate(timeout=sites.LONGEST)
        yield ("what no other site holds is taken, and the rest are repeats",
               adopting.returncode == 0 and text.startswith(b"taken 2, repeats 20, refused 0\n"))
        with trial.site(new, *words, number=3) as third:
            yield "under its own number", asked(third.port, "/vector").body == b"1:20,3:2\n"


OLD = ("CREATE TABLE site (number INTEGER NOT NULL, sites INTEGER NOT NULL);CREATE TABLE own (number "
       "INTEGER PRIMARY KEY, line BLOB NOT NULL);CREATE TABLE accepted (origin INTEGER, first INTEGER, "
       "count INTEGER, lines BLOB NOT NULL, PRIMARY KEY (origin, first))")


def old_journal(path, own, runs):
    """An SQLite journal as older versions wrote it, of site 2."""
    with contextlib.closing(sqlite3.connect(path)) as journal:
        journal.executescript(OLD)
        journal.execute("INSERT INTO site VALUES (2, 64)")
        journal.executemany("INSERT INTO own VALUES (?, ?)", own)
        journal.executemany("INSERT INTO accepted VALUES (?, ?, ?, ?)", runs)
        journal.commit()


def reads_over(trial):
    folder = trial.fresh("over")
    folder.mkdir()

    def lines(delta):
        return b"".join(delta.splitlines(True)[2:-1])

    own = [(number, line) for number, line in enumerate(lines_of(1, 4).splitlines(), 1)]
    runs = [(3, 1, 2, lines(inputs.delta(3, 1, 11, 12))), (1, 1, 1, lines(inputs.delta(1, 1, 21))),
            (3, 3, 1, lines(inputs.delta(3, 3, 13)))]
    old_journal(folder / "site2.db", own, runs)
    status, said = trial.fails(folder, number=2)
    yield "a site does not begin anew beside a journal of an older version", status == 2 and "--read-over" in said
    done = trial.ran(folder, f"--read-over={folder / 'site2.db'}", number=2)
    yield "an SQLite journal is read over", (done.text, done.status) == (b"1:1,2:4,3:3\n", 0)
    found = kept(folder / "site2.journal")
    yield "its own lines first, and then its deltas in their order", found[:4] == [line for _, line in own] and [
        line.split(b"\t")[1] for line in found[4:]] == [b"origin 3 1 2", b"origin 1 1 1", b"origin 3 3 1"]
    again = trial.ran(folder, f"--read-over={folder / 'site2.db'}", number=2)
    yield "a journal that is there is left as it is", again.status == 2 and kept(folder / "site2.journal") == found
    with trial.site(folder, number=2) as hub:
        yield "a site serves it", outcomes(take(hub, 3, 2))[0] == {"line": 1, "outcome": "REPEAT"} and asked(
            hub.port, "/vector").body == (
                b"1:1,2:4,3:3\n")
    for name, its in ("a gap", [own[0], *own[2:]]), ("a refused line", [own[0], (2, b"{}"), *own[2:]]), (
            "a line twice", [*own, (5, own[0][1])]):
        other = trial.fresh("wrong")
        other.mkdir()
        old_journal(other / "site2.db", its, runs)
        done = trial.ran(other, f"--read-over={other / 'site2.db'}", number=2)
        yield f"one with {name} is not", done.status == 2 and names_in(other) == ["site2.db"]


def is_released(trial):
    """The service in the layout of a release finds the program of the release."""
    release = trial.fresh("release")
    for folder, place in (SERVICES, "niluppang/services"), (DESK, "niluppang/desk"):
        shutil.copytree(folder, release / "share" / place, ignore=shutil.ignore_patterns("__pycache__"))
    (release / "bin").mkdir()
    (release / "bin" / "sct_sites").write_text(f'#!/bin/sh\nexec {trial.program} "$@"\n')
    (release / "bin" / "sct_sites").chmod(0o755)
    port, clean = (sites.free_ports(1),
                   {name: it for name, it in os.environ.items() if name not in ("SCT_SITES", "PYTHONPATH")})
    words = [trial.python, str(release / "share/niluppang/services/hub/main.py"), str(trial.fresh("released")),
             "--site=1", f"--port={port}"]
    with open(trial.folder / "released.log", "wb") as log, sites.subprocess.Popen(words, env=clean, stdout=log,
                                                                                  stderr=log, cwd="/") as process:
        try:
            is_there = sites.begun(process, lambda: sites.is_well(port))
            yield "the service of a release runs on the program of the release", is_there and asked(
                port, "/messages", lines_of(1, 1)).status == 200
        finally:
            process.terminate()
            ended = process.wait(30)
    yield "and ends in peace", ended == 0


def comes_back(trial):
    """The port of one site is in use for a time: the site is started again until it has it."""
    port = sites.free_ports(2)
    with sites.socket.create_server(("127.0.0.1", port + 1)):
        hub = sites.Hub(trial.python, trial.program, trial.fresh("back"), f"--port={port}", "--sites=2", "--hear=0")
        until(lambda: "site 2 ended with 3, and is started again" in hub.text())
        sites.begun(hub.process, lambda: sites.is_well(port))
    with hub:
        yield "a site whose port was in use comes back", until(lambda: sites.is_well(port + 1) and sites.is_well(port))
        taken = asked(port, "/messages", lines_of(1, 2)).status
        yield "and catches up", taken == 200 and until(lambda: asked(port + 1, "/vector").body == b"1:2\n")


CHECKS = [is_released, comes_back, refuses_a_second_process, refuses_changed_lines, notices_a_lost_line,
          waits_for_a_peer, starts_alone, copies,
          retires_a_number, reads_over]


def check(python, program):
    return tried("journals", CHECKS, python, program)


if __name__ == "__main__":
    sites.checked(check)
