"""replaced.py: files of a site that are moved, replaced, cut or changed while it runs, and halts on a full disk: no
number is given twice, and no halt is forgotten."""
import contextlib
import json
import os
import pathlib
import shutil
import signal
from tests import harness
from tests.hub import records, sites
from tests.hub.peers import odd_peer
from tests.hub.processes import kill, takes
from tests.hub.sites import asked, outcomes, own_lines, until, write_journal
from tests.hub.trial import lines_of
from tests.hub.troubles import tried

DELTA = b"delta 2\nend 0\n"


def numbers(answer):
    return [it.get("number") for it in outcomes(answer)]


def is_halted(hub, why=b"43 OwnAhead"):
    answer = asked(hub.port, "/messages", lines_of(900, 1))
    return answer.status == 409 and why in answer.body


# ---- the journal

def is_moved(trial):
    folder = trial.fresh("moved")
    with trial.site(folder) as hub:
        asked(hub.port, "/messages", lines_of(1, 8))
        os.rename(folder / "site1.journal", folder / "elsewhere")
        answer = asked(hub.port, "/messages", lines_of(9, 1))
        yield ("a journal that is moved while its site runs: posts get 507",
               answer.status == 507 and b"another file" in answer.body)
        yield "and the site is not well", asked(hub.port, "/health").status == 503
        os.rename(folder / "elsewhere", folder / "site1.journal")
        yield "when it is back the site goes on", numbers(asked(hub.port, "/messages",
                                                                lines_of(9, 1))) == [9] and until(
                                                                    lambda: sites.is_well(hub.port))
        os.rename(folder / "site1.journal", folder / "elsewhere")
        kill(hub)
        yield "a process is not started on a new journal in its place", hub.process.wait(sites.LATEST) == 2
        yield "and none is made", not (folder / "site1.journal").exists() and len(own_lines(folder / "elsewhere")) == 9


def is_restored_while_it_runs(trial):
    folder = trial.fresh("restored")
    with trial.site(folder) as hub:
        asked(hub.port, "/messages", lines_of(1, 5))
        trial.ran(folder, f"--backup={trial.folder / 'five.journal'}")
        asked(hub.port, "/messages", lines_of(6, 4))
        os.rename(folder / "site1.journal", folder / "elsewhere")
        done = trial.ran(folder, f"--restore={trial.folder / 'five.journal'}")
        yield ("a copy is not put in place while the site runs",
               done.status == 2 and b"is in use" in done.errors and not (folder / "site1.journal").exists())
        done = trial.ran(folder, f"--read-over={folder / 'site1.db'}")
        yield "nor is an older journal read over", done.status == 2 and b"is in use" in done.errors
        shutil.copyfile(trial.folder / "five.journal", folder / "site1.journal")
        kill(hub)
        yield "a process is not started on an older copy", hub.process.wait(sites.LATEST) == 2
    with trial.site(folder, is_well=False) as again:
        yield "a site that is started on an older copy halts by its record, without a peer", until(
            lambda: is_halted(again))
        yield "and gives no number", asked(again.port, "/vector").body == b"1:5\n"
        yield "the halt is on the disk", b"43 OwnAhead" in (folder / "site1.halted").read_bytes()
        done = trial.ran(folder, "--clear-halt")
        yield "a halt is not cleared while the site runs", done.status == 2 and b"is in use" in done.errors and (
            folder / "site1.halted").exists()
    cleared = trial.ran(folder, "--clear-halt")
    with trial.site(folder) as again:
        yield "after somebody cleared it the site goes on", cleared.status == 0 and numbers(
            asked(again.port, "/messages", lines_of(6, 1))) == [6]


def is_changed(trial):
    """A line of the journal is changed in its place, and the process ends."""
    folder = trial.fresh("changed")
    with trial.site(folder) as hub:
        took = numbers(asked(hub.port, "/messages", lines_of(1, 10))) == list(range(1, 11))
        path = folder / "site1.journal"
        with open(path, "r+b") as file:
            at = file.read().index(b"EUR")
            file.seek(at)
            file.write(b"USD")
        kill(hub)
        with contextlib.suppress(OSError):
            asked(hub.port, "/messages", lines_of(11, 1), timeout=10)
        yield ("a line that is refused since it was changed: the site ends when its process is started again",
               took and hub.process.wait(sites.LATEST) == 2
               and "10 entries of site 1, of which the program takes 9" in hub.text())
        yield "and no number is given twice", len(own_lines(path)) == 10


def is_cut(trial):
    """A journal loses its last lines in its place, and the process ends."""
    folder = trial.fresh("cut")
    with trial.site(folder) as hub:
        asked(hub.port, "/messages", lines_of(1, 10))
        kill(hub, signal.SIGSTOP)
        write_journal(folder / "site1.journal", 1, 64, own_lines(folder / "site1.journal")[:7])
        kill(hub)
        yield "a journal that loses lines under a site halts it", until(lambda: is_halted(hub))
        yield "and gives no number", asked(hub.port, "/vector").body == b"1:7\n"
        yield "which a restart keeps", b"43 OwnAhead" in (folder / "site1.halted").read_bytes()


# ---- the record

def rewritten(path, *statements, first=None):
    """Somebody who can write the files of a site changes its record, and makes all of it fit."""
    records.edited(path, *statements)
    if first:
        records.sums_again(path, first, b"site 2 64")
    mark(path)


def mark(path):
    """Names the last row of a record beside it, as its site does."""
    number, *_, its = records.rows_in(path)[-1]
    pathlib.Path(f"{path}ed").write_text(f"{number}:{its}\n")


def is_seen_by_peers(trial):
    """The record of a site loses its last rows, or all of it is made anew after a change: no program at that site sees
    it, and a peer does."""
    one, two, port = trial.fresh("seen"), trial.fresh("rewritten"), sites.free_ports(1)
    path = two / "site2.record"

    def second(**more):
        return trial.site(two, "--hear=0", number=2, port=port, **more)

    with second() as hub:
        took = all(takes(hub, number) for number in range(1, 6))
    with trial.site(one, "--hear=0", f"--peer=2=http://127.0.0.1:{port}") as watcher:
        def is_wrong(what):
            return (b'peer_record_is_wrong{peer="2"} 1\n' in asked(watcher.port, "/metrics").body
                    and what in json.loads(asked(watcher.port, "/health").body).get("records", {}).get("2", ""))

        def is_right(rows):
            found = asked(watcher.port, "/metrics").body
            return b'peer_record_is_wrong{peer="2"} 0\n' in found and b'peer_record_rows{peer="2"} %d\n' % rows in found

        with second():
            rows = len(records.rows_in(path))
            yield "a peer keeps the last row of a record", took and until(lambda: is_right(rows)) and until(
                (one / "site1.seen").is_file)
        whole = records.copy_of(path)
        rewritten(path, f"DELETE FROM record WHERE number > {rows - 2}")
        with second():
            # the site itself may have noted meanwhile what it holds, in a row more
            yield "of a record that lost its last rows it says so", until(
                lambda: is_wrong(f"rows, and had {rows}")), watcher.text()
            yield "also in its log", until(lambda: f"rows, and had {rows}: rows were removed" in watcher.text())
            yield "and the site itself is well", sites.is_well(port)
        shutil.copyfile(whole, path)
        mark(path)
        with second() as hub:
            yield "when the rows are there again all is right", until(lambda: is_right(rows)), watcher.text()
            took = takes(hub, 6)
        more = len(records.rows_in(path))
        rewritten(path, "UPDATE record SET who = 'desk' WHERE number = 3", first=3)
        with second():
            yield ("of a record that was made anew after a change, with more rows, it says so",
                   took and more > rows and until(lambda: is_wrong("another row ")), watcher.text())
            yield "and the site itself is well, and finds nothing", sites.is_well(port)
            watcher.kill()
            watcher.start()
            yield "a peer that is started again knows it still", until(lambda: is_wrong("another row "),
                                                                       sites.LONGEST), watcher.text()


# ---- halts

@contextlib.contextmanager
def small_disk(folder, size="2m"):
    """A folder with a small disk of its own. None if nobody may mount one here."""
    folder.mkdir()
    if not shutil.which("mount") or harness.run(["mount", "-t", "tmpfs", "-o", f"size={size}", "tmpfs",
                                                 str(folder)]).status:
        print("not tried: a small file system, since nobody may mount one here")
        yield None
        return
    try:
        yield folder
    finally:
        harness.run(["umount", "--lazy", str(folder)])


def fill(path):
    """Fills the disk of a path."""
    with open(path, "wb", buffering=0) as file, contextlib.suppress(OSError):
        while True:
            file.write(b"x" * (1 << 12))


def halts_on_a_full_disk(trial):
    """A peer counts more while the disk is full. The site is killed, and started again with room and without the
    peer."""
    with small_disk(trial.fresh("small")) as disk, odd_peer(lambda it: it.send(DELTA)) as peer:
        if disk is None:
            return
        folder, words = disk / "hub", ["--hear=0", f"--peer=2=http://127.0.0.1:{peer.server_port}"]
        with trial.site(folder, *words) as hub:
            took = takes(hub, 1)
            fill(disk / "filler")
            peer.answer = lambda it: it.send(DELTA, vector="1:99")
            yield "a peer counts more while the disk is full: the site halts", took and until(lambda: is_halted(hub))
            hub.kill()
            until(lambda: not hub.served())
            (disk / "filler").unlink()
            peer.answer = lambda it: it.send(DELTA, status=500)
        with trial.site(folder, *words, is_well=False) as again:
            yield "after a kill it is halted all the same", until(lambda: is_halted(again))
            yield "and gives no number", asked(again.port, "/vector").body == b"1:1\n"


def writes_a_halt_later(trial):
    """The mark of a halt cannot be written at first, or is removed while the site runs."""
    folder, mark = trial.fresh("later"), "site1.halted"
    with odd_peer(lambda it: it.send(DELTA)) as peer:
        with trial.site(folder, "--hear=0", f"--peer=2=http://127.0.0.1:{peer.server_port}") as hub:
            took = takes(hub, 1)
            (folder / mark).mkdir()  # what is in its place is no file
            (folder / mark / "x").touch()
            peer.answer = lambda it: it.send(DELTA, vector="1:99")
            is_so = until(lambda: is_halted(hub))
            shutil.rmtree(folder / mark)
            yield "the mark of a halt that was not written is written later", took and is_so and until(
                (folder / mark).is_file)
            pathlib.Path(folder / mark).unlink()
            yield "and is written again if it is removed while the site runs", until((folder / mark).is_file)
        (folder / mark).unlink()
        with trial.site(folder, "--hear=0") as hub:
            yield "a site without the mark takes messages again", takes(hub, 2)


CHECKS = [is_moved, is_restored_while_it_runs, is_changed, is_cut, is_seen_by_peers, halts_on_a_full_disk,
          writes_a_halt_later]


def check(python, program):
    return tried("replaced", CHECKS, python, program)


if __name__ == "__main__":
    sites.checked(check)
