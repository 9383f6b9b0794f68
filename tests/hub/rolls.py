"""rolls.py: a group is rolled: its sites are closed, a new group begins with what is kept, and no kill loses or doubles
anything.

What is kept of transfers that are written by hand is known by hand. The word of an operator is killed before each thing
that it does to files, databases and processes, and is repeated. Three sites are rolled while clients post to both
groups, and sites, their processes and the word are killed. In the end each acknowledged message is held, and both
groups together have the statuses of all messages.
"""
import asyncio
import contextlib
import hashlib
import json
import os
import pathlib
import random
import re
import signal
import sqlite3
import subprocess
import sys
import threading
import time
from bench.generate import messages, samples
from tests import harness
from tests.harness import SERVICES
from tests.hub import sites
from tests.hub.sites import asked, kept, outcomes, own_lines, write_journal
from tests.hub.trial import line_of
from tests.hub.troubles import tried
from tests.oracle import status as oracle
from tests.oracle.digests import chain_of
sys.path.insert(0, str(SERVICES))
from hub import chain, waiting
from hub.files import Files
from hub.roll import Closing

DAY, BEFORE, GROUP = "2026-03-02", "2026-03-01T23:59:59Z", 64
ON_THE_DAY = "2026-03-02T00:00:00Z"
BANK = "BANKDEFFXXX"


def until(is_so, seconds=120):
    """Whether something comes about. Six sites need their time to start on a busy machine."""
    return sites.until(is_so, seconds)


# ---- transfers by hand

def on(number, **more):
    """What messages of one transfer have in common: their time, if it is not another one, and its identifications."""
    return {"CreDtTm": BEFORE, "MsgId": f"M{number}", **more}


def instructed(number):
    return samples.instruction(**on(number), TxId=f"T{number}")


def confirmed(number, status=samples.ACCEPTED, **more):
    return samples.confirmation(status, **{**on(f"C{number}"), **more}, OrgnlMsgId=f"M{number}", OrgnlTxId=f"T{number}")


def about(number):
    return {"OrgnlMsgId": f"M{number}", "OrgnlTxId": f"T{number}", "CxlId": f"R{number}"}


def recalled(*numbers, **more):
    return samples.recall([samples.transaction(**about(number)) for number in numbers],
                          **{**on(f"K{numbers[0]}"), **more})


def answered(kind, number, **more):
    its = {key: text for key, text in about(number).items() if key != "CxlId"}
    return kind(**{**on(f"{kind.__name__}{number}"), **more}, **its, OrgnlCxlId=f"R{number}")


REJECTED = {"TxSts": "RJCT", "Rsn": "AC04"}
# done before the day: an accepted transfer, a rejected one, a returned one, and one whose recall was refused
DONE = [instructed(1), confirmed(1), instructed(2), confirmed(2, REJECTED),
        instructed(3), confirmed(3), recalled(3), answered(samples.payback, 3),
        instructed(4), confirmed(4), recalled(4), answered(samples.refusal, 4)]
# not done: no confirmation, a confirmation on the day, an open recall of a transfer and of another one whose recall was
# refused
NOT_DONE = [instructed(5), instructed(6), confirmed(6, CreDtTm=ON_THE_DAY),
            instructed(7), confirmed(7), instructed(8), confirmed(8), recalled(7, 8), answered(samples.refusal, 8)]
STATUS_OF_KEPT = f"""T|{BANK}|T5|PENDING
T|{BANK}|T6|ACCEPTED
T|{BANK}|T7|ACCEPTED
R|{BANK}|T7|R7|OPEN
T|{BANK}|T8|ACCEPTED
R|{BANK}|T8|R8|REFUSED|CUST
""".encode()


def lines_for(its):
    """The lines of some messages, as they come."""
    return [samples.line(one)[:-1].encode() for one in its]


def archive_of(lines):
    """The lines of an archive text of some messages."""
    return oracle.TEXT["archive"]({oracle.read_message(line) for line in lines}).encode().splitlines()


def is_status(text, lines):
    return text == oracle.TEXT["status"]({oracle.read_message(line) for line in lines}).encode()


KEPT = archive_of(lines_for(NOT_DONE))
TEXT_OF_KEPT = b"".join(line + b"\n" for line in KEPT)
SUM = f"kept {len(KEPT)}, sha256 {hashlib.sha256(TEXT_OF_KEPT).hexdigest()}"


def run_text(origin, first, lines):
    """The request of a delta of entries of one site."""
    return b"\t".join([b"delta 2", b"origin %d %d %d" % (origin, first, len(lines)), *lines, b"end %d" % len(lines)])


def two_sites(folder, waits=False):
    """The journals of two closed sites in a folder. Each has half of the messages from the other one. The word finds
    them as they are after all sites of the group have held the same."""
    folder.mkdir()
    lines = lines_for(DONE + NOT_DONE)
    halves = lines[::2], lines[1::2]
    for site, (own, others) in (1, halves), (2, halves[::-1]):
        other, its = 3 - site, list(map(line_of, others))
        deltas = [run_text(other, 1, [line[:-1] for line in its[:5]]),
                  run_text(other, 4, [line[:-1] for line in its[3:]])]
        write_journal(folder / f"site{site}.journal", site, GROUP, [*own[:3], deltas[0], *own[3:], deltas[1]])
        closes(folder, site, f"{DAY} 1:{len(halves[0])},2:{len(halves[1])} 1,2")
    if waits:
        put_waiting(folder)
    return folder


def closes(folder, site, text):
    (folder / f"site{site}.closed").write_text(text + "\n")


def put_waiting(folder):
    """Has three lines of two posts wait at site 1."""
    path = folder / "site1.record"
    with contextlib.closing(chain.opened(path, 1, GROUP,
                                         lambda: iter(own_lines(folder / "site1.journal")))) as connection:
        with chain.transaction(connection):
            for who, numbers in ("one", (91, 92)), ("two", (93,)):
                rows = [waiting.to_wait("2100-01-01T00:00:00.000Z", who, "BANQFRPPXXX",
                                        "pacs.002", BANK, f"T{number}", "00ff",
                                        lines_for([confirmed(number)])[0]) for number in numbers]
                waiting.put_lines(chain.Chain(connection, 1, GROUP), rows, "", None)


def waiting_at(folder, site):
    """The lines that wait at a site, each with who posted it and until when."""
    path = folder / f"site{site}.record"
    if not path.exists():
        return []
    with contextlib.closing(sqlite3.connect(path)) as connection:
        return connection.execute(
            "SELECT who, bank, tx, until, line FROM waiting WHERE state = 'WAITING' ORDER BY tx").fetchall()


def roll_words(folder, site, new):
    return f"--site={site}", "--roll", DAY, str(folder / f"site{new}.journal")


def rolled(trial, folder, site, new, program=None):
    """What the word says at a site."""
    return trial.ran(folder, *roll_words(folder, site, new)[1:], number=site, program=program)


def keeps_by_hand(trial):
    folder = two_sites(trial.fresh("by-hand"), waits=True)
    before = {path.name: path.read_bytes() for path in folder.glob("*.journal")}
    vector = "1:11,2:10"
    one, two = rolled(trial, folder, 1, 4), rolled(trial, folder, 2, 5)
    digests = [re.findall(rb"^\d+:\d+:[0-9a-f]{64}$", its.text, re.M) for its in (one, two)]
    yield "by hand: the digests of both sites are printed, and are the same", digests[0] == digests[1] and len(
        digests[0]) == 2, str(one)
    one, two = (its._replace(text=re.sub(rb"^\d+:\d+:[0-9a-f]{64}\n", b"", its.text, flags=re.M)) for its in (one, two))
    yield "by hand: the site with the least number makes the journal of the new one", (
        one.text.decode(), one.status) == (
            f"{vector}\n{SUM}\n{folder}/site4.journal begins with it\nlines that wait 3\n", 0), str(one)
    yield "by hand: the other one finds the same, and makes none", (two.text.decode(), two.status) == (
        f"{vector}\n{SUM}\nit comes from the site with the least number\nlines that wait 0\n", 0), str(two)
    yield "by hand: what is kept are the messages on what is not done", own_lines(folder
                                                                                  / "site4.journal") == KEPT == kept(
                                                                                      folder / "site4.journal")
    yield "by hand: the new journal is of the new number and of the same group", (
        folder / "site4.journal").read_bytes().startswith(
            b" site 4 64\n")
    yield "by hand: the old journals stay", all((folder / name).read_bytes() == data for name, data in before.items())
    yield "by hand: what waits at the old site waits at the new one", len(waiting_at(folder, 4)) == 3 and (
        waiting_at(folder, 4) == waiting_at(folder, 1))
    names = sorted(path.name for path in folder.iterdir() if not path.name.endswith(("-wal", "-shm")))
    yield "by hand: nothing else is left", names == ["site1.closed", "site1.journal", "site1.record",
                                                     "site2.closed", "site2.journal",
                                                     "site2.record", "site4.journal", "site4.record"], str(names)
    audit = trial.ran(folder, "--audit", number=4)
    yield "by hand: the record of the new site fits its journal", audit.status == 0, str(audit)


def adopts_what_waits(trial):
    """A retired number had answers that wait: the number that adopts its journal has them."""
    folder = two_sites(trial.fresh("adopts"), waits=True)
    for number in range(2):
        done = trial.ran(folder, f"--adopt={folder / 'site1.journal'}", number=4)
        yield "adopt: what waits is counted", done.status == 0 and done.text.endswith(b"\nlines that wait 3\n"), str(
            done)
        yield "adopt: and waits at the new number, each line once", len(waiting_at(folder, 4)) == 3 and (
            waiting_at(folder, 4) == waiting_at(folder, 1)), str(waiting_at(folder, 4))
    audit = trial.ran(folder, "--audit", number=4)
    yield "adopt: the record of the new number fits its journal", audit.status == 0, str(audit)


def is_refused(done, *parts):
    return done.status == 2 and all(part in done.errors.decode() for part in parts)


def refuses(trial):
    """What is not rolled, and why."""
    folder = two_sites(trial.fresh("refuses"))
    program = trial.program
    for name, new in ("no number", "x"), ("its own number", 1), ("the number of another site", 2), ("too high a number",
                                                                                                    65):
        yield f"refused: {name}", is_refused(rolled(trial, folder, 1, new),
                                             "N up to 64" if new != 2 else "2 is a number of this group")
    other = trial.ran(folder, "--roll", "2026-03-03", str(folder / "site4.journal"))
    yield "refused: another day, after the group ended", is_refused(other, f"the group was closed for {DAY}")
    closes(folder, 2, f"{DAY} 1:11,2:10")
    yield "refused: a mark that was changed", is_refused(rolled(trial, folder, 2, 5),
                                                         "site2.closed is not the mark of a closed site")
    closes(folder, 2, f"{DAY} 1:12,2:10 1,2")
    yield "refused: a journal that lacks what the sites held", is_refused(
        rolled(trial, folder, 2, 5), "site2.journal has 1:11,2:10, and the group ended with 1:12,2:10")
    (folder / "site1.closed").unlink()
    bad = trial.ran(folder, "--roll", "2026-3-2", str(folder / "site4.journal"))
    yield "refused: a day that is none, and the site is not closed", is_refused(bad, "ended with status 2") and not (
        folder / "site1.closed").exists()
    closes(folder, 1, f"{DAY} 1:11,2:10 1,2")
    write_journal(folder / "site4.journal", 4, GROUP, [KEPT[1], KEPT[0]])
    yield "refused: a new journal that does not begin with what is kept", is_refused(rolled(trial, folder, 1, 4),
                                                                                     "does not begin")
    write_journal(folder / "site4.journal", 4, GROUP, KEPT[:-1])
    yield "refused: one that lacks the last of it", is_refused(rolled(trial, folder, 1, 4), "does not begin")
    (folder / "site4.journal").unlink()
    for name, text in ("ends in the middle",
                       f'{program} "$@" | head -n 3; exit 2'), ("ends with a fault", f'{program} "$@"; exit 3'), (
                           "refuses a line", f'sed "3s/EUR/USD/" | {program} "$@"'):
        odd = trial.fresh("odd")
        odd.write_text(
            f'#!/bin/bash\nif [ "$1" = keep ]; then\n[ -t 0 ]; set -o pipefail; {text}\nelse exec {program} "$@"; fi\n')
        odd.chmod(0o755)
        done = rolled(trial, folder, 1, 4, program=str(odd))
        yield f"refused: a program that {name}", is_refused(done, "ended with status") and not list(
            folder.glob("site4*")), str(done)
    moved = rolled(trial, folder, 1, 4)
    yield "then nothing stays that is in the way", moved.status == 0 and own_lines(
        folder / "site4.journal") == KEPT, str(moved)


# ---- kills

KILLED = """import itertools, json, os, pathlib, shutil, signal, sys
main, whole, *words = sys.argv[1:]
sys.path.insert(0, os.path.dirname(main))
import main as hub  # once: each word is a process that is forked
WRITES = os.O_WRONLY | os.O_RDWR | os.O_CREAT
ACTS = "os.rename", "os.remove", "os.link", "os.mkdir", "subprocess.Popen", "sqlite3.connect"

def is_act(event, its):
    if event != "open":
        return event in ACTS
    mode, flags = its[1:]
    return bool(isinstance(mode, str) and set(mode) & set("wax+") or flags and flags & WRITES)

def hook(left):
    def called(event, its):
        if is_act(event, its):
            left[0] -= 1
            if left[0] == 0:
                os.kill(os.getpid(), signal.SIGKILL)
    return called

def ran(folder, step):
    child = os.fork()
    if child == 0:
        sys.addaudithook(hook([step]))
        sys.argv = [main, folder, *(word.replace("FOLDER", folder) for word in words)]
        with open(folder + ".log", "a") as log:
            os.dup2(log.fileno(), 1)
            os.dup2(log.fileno(), 2)
        status = 1
        try:
            hub.main()
        except SystemExit as end:
            status = end.code
        finally:
            sys.stdout.flush()
            os._exit(status)
    return os.waitstatus_to_exitcode(os.waitpid(child, 0)[1])

for step in itertools.count(1):
    folder = whole + str(step)
    shutil.copytree(whole, folder)
    first = ran(folder, step)
    journal = pathlib.Path(folder, "site4.journal")
    there = journal.read_bytes().decode() if journal.exists() else None
    print(json.dumps([folder, first, there, [ran(folder, 0), ran(folder, 0)]]), flush=True)
    if first == 0:
        break
"""


def is_killed_at_each_step(trial):
    """The word is killed before each thing that it does to files, databases and processes, and is then repeated
    twice."""
    whole = two_sites(trial.fresh("steps"), waits=True)
    right, journal = ([row[:4] for row in waiting_at(whole, 1)],
                      b"".join(b" " + line + b"\n" for line in [b"site 4 64", *KEPT]) + b"\t")
    words = [str(sites.MAIN), str(whole), *(word.replace(str(whole), "FOLDER") for word in roll_words(whole, 1, 4))]
    done = harness.run([trial.python, "-c", KILLED, *words], env={**os.environ, "SCT_SITES": trial.program},
                       seconds=600)
    steps, wrong = [json.loads(line) for line in done.text.splitlines()], []
    for folder, first, there, again in steps:
        its = pathlib.Path(folder)
        is_right = first in (0, -9) and again == [0, 0] and there in (None, journal.decode())
        is_whole = (its / "site4.journal").read_bytes() == journal and [row[:4] for row in waiting_at(its, 4)] == right
        if not is_right or not is_whole or (its / "site4.new").exists():
            wrong.append(f"{folder}: {first} {again} {there}\n{pathlib.Path(folder + '.log').read_text()}")
    yield f"the word is killed at each of {len(steps) - 1} steps, and repeated twice", len(
        steps) > 12 and not wrong and done.status == 0, (
            "\n".join(wrong[:3]) + done.errors.decode())


class Traffic:
    """Clients that post lines to sites at some ports. A site that is closed is asked no more, and the new ones then
    are."""

    def __init__(self, lines, old, new):
        self.old, self.new, self.posts = old, new, [lines[place:place + 10] for place in range(0, len(lines), 10)]
        self.lock, self.acknowledged, self.given_up, self.many = threading.Lock(), [], [], len(lines)
        self.closed, self.share, self.until = 0, 0.0, time.monotonic() + 600
        self.threads = [threading.Thread(target=self.client, args=(random.Random(seed),), daemon=True)
                        for seed in range(4)]

    def next(self):
        """The next post, when it is time for it. None if all are sent."""
        while time.monotonic() < self.until:
            with self.lock:
                if not self.posts:
                    return None
                if len(self.posts) * 10 > (1 - self.share) * self.many:
                    return self.posts.pop()
            time.sleep(0.005)

    def client(self, r):
        for post in iter(self.next, None):
            ports = self.old
            while time.monotonic() < self.until:
                try:
                    answer = asked(r.choice(ports), "/messages", b"\n".join(post), timeout=20)
                except (OSError, sites.http.client.HTTPException):
                    if ports is self.old and r.random() < 0.2:
                        with self.lock:
                            self.given_up += post
                        break
                    time.sleep(0.02)
                    continue
                if answer.status == 409:
                    ports, self.closed = self.new, self.closed + 1
                elif answer.status == 200:
                    with self.lock:
                        self.acknowledged += [post[one["line"] - 1] for one in outcomes(answer)
                                              if one["outcome"] in ("TAKEN", "REPEAT")]
                    break

    def begin(self):
        for thread in self.threads:
            thread.start()

    def end(self):
        """Lets the clients post all that is left, and waits for them."""
        self.reach(1.0)
        for thread in self.threads:
            thread.join(max(1, self.until - time.monotonic()))

    def sent(self):
        return 1 - 10 * len(self.posts) / self.many

    def reach(self, share):
        """Lets the clients post a share of the lines, and waits until they do."""
        self.share = share
        until(lambda: self.sent() >= share - 0.01)


def configured(path, folder, numbers, port):
    path.write_text(f"folder = {json.dumps(str(folder))}\nsites = {numbers}\nport = {port}\n")


def begun(hub, number, day):
    """The word that begins at a site of a hub. The new number is three more."""
    words = [*hub.command, f"--site={number}", "--roll", day, str(hub.journals / f"site{number + 3}.journal")]
    return subprocess.Popen(words, env=hub.variables, stdin=subprocess.DEVNULL, stdout=subprocess.PIPE,
                            stderr=subprocess.PIPE)


def ended(word):
    """How a word ended that was begun, and what it said."""
    text, errors = word.communicate(timeout=240)
    return word.returncode, text.decode(), errors.decode()


def kill(process):
    """Kills a process, if there is one."""
    with contextlib.suppress(ProcessLookupError):
        if process:
            os.kill(process, signal.SIGKILL)


def made_up_lines(r):
    """Lines of 900 messages in any order, and recalls of some of their transfers."""
    lines = list(messages.lines(900))
    for number, it in enumerate(filter(lambda it: "CdtrAcct" in it, map(json.loads, lines[::9]))):
        its = samples.transaction(CxlId=f"X{number}", OrgnlMsgId=it["MsgId"],
                                  OrgnlTxId=it["TxId"], DbtrAgt=it["DbtrAgt"],
                                  OrgnlIntrBkSttlmAmt=it["IntrBkSttlmAmt"])
        lines.append(samples.line(samples.recall([its], MsgId=f"X{number}", InstgAgt=it["DbtrAgt"])))
    r.shuffle(lines)
    return [line[:-1].encode() for line in lines]


def rolls_three(hub, traffic, day):
    """Rolls three sites while clients post, and kills sites, processes and a word at each step. How the words ended."""
    words, is_closed = {1: begun(hub, 1, day)}, lambda site: (hub.journals / f"site{site}.closed").exists()
    kill(hub.children().get(2))
    traffic.reach(0.4)
    first = begun(hub, 2, day)
    kill(hub.served().get(1))
    until(lambda: is_closed(2))
    first.kill()
    first.communicate()
    kill(hub.children().get(1))
    traffic.reach(0.5)
    words[3] = begun(hub, 3, day)
    until(lambda: is_closed(3))
    kill(hub.children().get(3))
    kill(hub.served().get(2))
    words[2] = begun(hub, 2, day)
    return [ended(words[number]) for number in (1, 2, 3)]


def kills_while_it_rolls(trial):
    """Three sites are rolled while clients post, and sites, processes and words are killed."""
    folder, port, day = trial.fresh("rolls"), sites.free_ports(6), "2025-03-11"
    old, new = trial.fresh("old.toml"), trial.fresh("new.toml")
    configured(old, folder, [1, 2, 3], port)
    configured(new, folder, [4, 5, 6], port)
    traffic = Traffic(made_up_lines(random.Random(20261129)), [port, port + 1, port + 2],
                      [port + 3, port + 4, port + 5])

    def are_well(places):
        return all(sites.is_well(port + place) for place in places)

    def vectors(first):
        return {asked(port + first + place, "/vector").body for place in range(3)}

    with sites.Hub(trial.python, trial.program, folder, config=old) as hub, contextlib.ExitStack() as later:
        hub.journals = folder
        until(lambda: are_well(range(3)))
        traffic.begin()
        traffic.reach(0.3)
        ends = rolls_three(hub, traffic, day)
        yield "kills: each word ends well, also one that was killed and begun again", [end[0] for end in ends] == [
            0] * 3, str(ends)
        said = {tuple(text.splitlines()[:2]) for _, text, _ in ends}
        yield "kills: all say one vector, and one sum of what is kept", len(said) == 1, str(said)
        begins = own_lines(folder / "site4.journal")
        after = later.enter_context(sites.Hub(trial.python, trial.program, trial.fresh("new"), config=new))
        traffic.reach(0.8)
        until(lambda: sites.is_well(port + 3))
        kill(after.children().get(4))
        kill(after.children().get(5))
        traffic.end()
        until(lambda: are_well(range(6)) and len(vectors(0)) == len(vectors(3)) == 1)
        texts = [{asked(port + first + place, "/archive").body for place in range(3)} for first in (0, 3)]
        again = ended(begun(hub, 1, day))
    yield "kills: all sites of a group hold the same in the end", [len(its) for its in texts] == [1, 1]
    yield from merges(trial, traffic, *[its.pop().splitlines() for its in texts], begins, day)
    yield "kills: the word may be repeated while the new group runs", again[
        0] == 0 and "begins with it already" in again[1], str(again)
    yield from are_whole(trial, folder, hub.text() + after.text())


def are_whole(trial, folder, logs):
    """Whether nothing went wrong at six sites, by their logs and their records."""
    wrong = [line for line in logs.splitlines()
             if any(word in line for word in ("Fork", "OwnAhead", "Traceback", "must not start"))]
    yield "kills: no delta is refused by 42 or 43", not wrong, "\n".join(wrong[:3])
    audits = [trial.ran(folder, "--audit", number=number) for number in range(1, 7)]
    yield "kills: the records of all six sites are complete", all(it.status == 0 for it in audits), str(audits)


def merges(trial, traffic, before, after, begins, day):
    """What must hold of the archive lines of both groups, and of what the new group began with."""

    def run(word, lines):
        return harness.run([trial.program, *word], b"".join(line + b"\n" for line in lines)).text

    held, acknowledged = {*before, *after}, {line_of(line)[:-1] for line in traffic.acknowledged}
    given_up = {line_of(line)[:-1] for line in traffic.given_up}
    closed = sorted(set(before) - set(begins))
    yield f"kills: clients saw that sites were closed, and {len(acknowledged)} messages are acknowledged", (
        traffic.closed > 0 and len(acknowledged) + len(given_up) > 900)
    yield ("kills: each of them is held by one of both groups", acknowledged <= held,
           f"{len(acknowledged - held)} are lost")
    yield "kills: nothing is made up", held <= acknowledged | given_up
    yield f"kills: the new group began with the {len(begins)} messages that the program keeps of the old one", (
        begins == run(["keep", day], before).splitlines() and 0 < len(begins) < len(before))
    yield "kills: the new group holds all of them", set(begins) <= set(after)
    old, apart = (sorted(run(["status"], its).splitlines()) for its in (before, []))
    apart = sorted(run(["status"], begins).splitlines() + run(["status"], closed).splitlines())
    yield f"kills: the statuses of what is kept and of {len(closed)} closed messages are those of all", bool(
        closed) and old == apart
    words = {line.split(b"|")[4 if line.startswith(b"R") else 3] for line in run(["status"], closed).splitlines()}
    yield "kills: what is closed is done", words <= {b"ACCEPTED", b"REJECTED", b"RETURNED", b"REFUSED"}, str(words)
    yield "kills: both archives together have the status text of all messages by the definitions", is_status(
        run(["status"], before + after), list(held))


# ---- sites that are closed, and what comes later

def awaits_all(trial):
    """A group ends when all of its sites are closed for one day and hold the same."""
    folder, config, port = trial.fresh("awaits"), trial.fresh("awaits.toml"), sites.free_ports(2)
    configured(config, folder, [1, 2], port)
    lines = lines_for(DONE + NOT_DONE)

    def health(place):
        return json.loads(asked(port + place, "/health").body)

    with sites.Hub(trial.python, trial.program, folder, config=config) as hub:
        hub.journals = folder
        until(lambda: sites.is_well(port) and sites.is_well(port + 1))
        asked(port, "/messages", b"\n".join(lines[:5]))
        one = begun(hub, 1, DAY)
        yield "awaits: the first site is closed and well, and awaits the other one", until(
            lambda: (health(0).get("closed"), health(0).get("awaits"), health(0)["well"]) == (DAY, [2], True))
        answer = asked(port, "/messages", lines[5])
        why = f"the group is closed for {DAY}: messages go to the group after it"
        yield "awaits: it takes nothing, and says so", (answer.status, json.loads(answer.body)) == (
            409, {"code": 409, "name": "Closed", "why": why, "remedy": "send it to a site of the group after this one"})
        ready = asked(port, "/ready")
        yield "awaits: it is not ready for messages", (ready.status, ready.body) == (503, f"{why}\n".encode())
        yield "awaits: the other one takes what comes", asked(port + 1, "/messages",
                                                              b"\n".join(lines[5:])).status == 200
        yield "awaits: the first one gets it", until(lambda: asked(port, "/vector").body
                                                     == f"1:5,2:{len(lines) - 5}\n".encode())
        other = begun(hub, 2, "2026-03-03")
        until(lambda: health(1).get("closed") == "2026-03-03" and hub.text().count("awaits that the sites [") >= 2)
        yield ("awaits: a site that is closed for another day is no answer",
               one.poll() is None and other.poll() is None and (health(0)["awaits"], health(1)["awaits"]) == ([2], [1]))
        other.kill()
        other.communicate()
        two = begun(hub, 2, DAY)
        ends = ended(one), ended(two)
        one, two = (chain_of(map(oracle.read_message, its))[-1].hex() for its in (lines[:5], lines[5:]))
        vector = f"1:5,2:{len(lines) - 5}\n1:5:{one}\n2:{len(lines) - 5}:{two}"
        yield "awaits: then both go on, with all that was taken", [end[:2] for end in ends] == [
            (0, f"{vector}\n{SUM}\n{last}\nlines that wait 0\n") for last in (
                f"{folder}/site4.journal begins with it", "it comes from the site with the least number")], str(ends)
        os.kill(hub.children()[1], signal.SIGKILL)
        yield "awaits: a site that comes back is closed", until(lambda: sites.is_well(port)) and asked(
            port, "/messages", lines[0]).status == 409
        adopts = trial.fresh("other.journal")
        write_journal(adopts, 9, GROUP, lines_for([instructed(50)]))
    adopted = harness.run([*hub.command, "--site=1", f"--adopt={adopts}"], env=hub.variables, seconds=60)
    yield "awaits: a closed site adopts nothing", is_refused(adopted, "the group is closed")


def awaits_what_is_under_way(trial):
    """A site is closed while its process has a message without a reply, and another message waits for the process."""
    folder, lines, answers = trial.fresh("under-way"), lines_for([instructed(1), instructed(2)]), {}
    mark = folder / "site1.closed"

    def posts(place):
        answers[place] = asked(hub.port, "/messages", lines[place]).status
    with trial.site(folder) as hub:
        process, = hub.served().values()
        os.kill(process, signal.SIGSTOP)
        threads = [threading.Thread(target=posts, args=(place,), daemon=True) for place in (0, 1)]
        threads[0].start()

        def posted():
            return sqlite3.connect(folder / "site1.record").execute(
                "SELECT 1 FROM record WHERE act = 'post'").fetchall()

        def waits():
            return b"niluppang_waiting_bytes 0\n" not in asked(hub.port, "/metrics").body

        until(lambda: posted() and not waits())
        threads[1].start()
        until(waits)
        closes(folder, 1, DAY)
        closed = until(lambda: json.loads(asked(hub.port, "/health").body).get("closed") == DAY)
        yield ("under way: the site is closed, and its group has not ended", closed and mark.read_text() == f"{DAY}\n"
               and ("Niluppang-Closed" not in asked(hub.port, "/vector").headers))
        os.kill(process, signal.SIGCONT)
        for thread in threads:
            thread.join(60)
        yield "under way: what the process had is taken, and what waited is not", answers == {0: 200,
                                                                                              1: 409}, str(answers)
        digest = chain_of([oracle.read_message(lines[0])])[-1].hex()
        yield "under way: the group ends with what was taken", until(
            lambda: mark.read_text() == f"{DAY} 1:1 1 1:1:{digest}\n") and (
                own_lines(folder / "site1.journal") == lines[:1]
                and asked(hub.port, "/vector").headers["Niluppang-Closed"] == DAY)


class Part:
    """In place of a part of a site: it has what it is given."""

    def __init__(self, **its):
        vars(self).update(its)


def awaits_posts(trial):
    """A group does not end as long as a post may still have a line wait, and a row that was moved is moved once."""
    folder = two_sites(trial.fresh("posts"), waits=True)
    closes(folder, 1, DAY)

    async def close(day):
        found.append(day)
    found, posts = [], Part(under_way=1)
    held = f"1:11:{'a' * 64},2:10:{'b' * 64}"
    keeper, peers = (Part(close=close, number=1, holding=Part(vector="1:11,2:10", held=lambda: held)),
                     Part(all=[Part(number=2)], others=lambda *_: []))
    its = Closing(Files(folder, 1, GROUP), keeper, posts, peers)
    asyncio.run(its._look())
    yield "posts: one that has no answer is awaited", (found, (folder / "site1.closed").read_text()) == ([DAY],
                                                                                                         f"{DAY}\n")
    posts.under_way = 0
    asyncio.run(its._look())
    yield "posts: without one the group ends", (folder / "site1.closed").read_text() == f"{DAY} 1:11,2:10 1,2 {held}\n"
    done = rolled(trial, folder, 1, 4)
    yield "posts: a journal with other digests than the group ended with is not rolled", is_refused(
        done, "and the group ended with " + held), str(done)
    closes(folder, 1, f"{DAY} 1:11,2:10 1,2")
    rolled(trial, folder, 1, 4)
    with contextlib.closing(chain.connected(folder / "site4.record",
                                            "rw")) as connection, chain.transaction(connection):
        waiting.end_line(chain.Chain(connection, 4, GROUP), 1, "EXPIRED", None)
    rolled(trial, folder, 1, 4)
    waits = [row[2] for row in waiting_at(folder, 4)]
    yield "posts: a line that waited at the new site and ended does not wait again", waits == ["T92", "T93"], str(waits)


def awaits_equal_vectors(trial):
    """Both sites are closed, and one has a message of a retired number that the other one does not get at first."""
    folder, config, port = two_sites(trial.fresh("unequal")), trial.fresh("unequal.toml"), sites.free_ports(2)
    configured(config, folder, [1, 2], port)
    journal = folder / "site1.journal"
    write_journal(journal, 1, GROUP, [*kept(journal), run_text(3, 1, [line_of(lines_for([instructed(9)])[0])[:-1]])])
    for site in (1, 2):
        closes(folder, site, DAY)

    def marks():
        return [re.sub(r" 1:11:[0-9a-f]{64},2:10:[0-9a-f]{64}(,3:1:[0-9a-f]{64})?$", "",
                       (folder / f"site{site}.closed").read_text(), flags=re.M)
                for site in (1, 2)]

    def asks(place):
        return int(asked(port + place, "/metrics").body.split(b"\nniluppang_deltas_total ")[1].split(b"\n")[0])

    with sites.Hub(trial.python, trial.program, folder, config=config) as hub:
        until(lambda: min(asks(0), asks(1)) > 3)
        yield "unequal: the group does not end as long as the sites hold different messages", marks() == [
            f"{DAY}\n"] * 2
        config.write_text(config.read_text() + "[through]\n3 = 1\n")
        hub.process.send_signal(signal.SIGHUP)
        yield "unequal: it ends when they hold the same", until(lambda: marks() == [f"{DAY} 1:11,2:10,3:1 1,2\n"]
                                                                * 2), str(marks())


def comes_back_late(trial):
    """One of two sites has its vector in its mark, and ends before the other one knows it."""
    folder, config, port = two_sites(trial.fresh("late")), trial.fresh("late.toml"), sites.free_ports(2)
    configured(config, folder, [1, 2], port)
    closes(folder, 2, DAY)
    with sites.Hub(trial.python, trial.program, folder, config=config):
        mark = f"{DAY} 1:11,2:10 1,2 1:11:"
        yield "a site whose group has ended says so to one that does not know it yet", until(
            lambda: (folder / "site2.closed").read_text().startswith(mark))


def answers_later(trial):
    """Messages on closed transfers come to the new group. The old one has the transfers, and they can be brought
    back."""
    folder = two_sites(trial.fresh("later"))
    rolled(trial, folder, 1, 4)
    config, port = trial.fresh("later.toml"), sites.free_ports(1)
    with trial.site(folder, number=2) as old:
        before = f"http://127.0.0.1:{old.port}"
        config.write_text(
            f"folder = {json.dumps(str(folder))}\nsite = 4\nport = {port}\nbefore = {json.dumps(before)}\n")
        with sites.Hub(trial.python, trial.program, trial.fresh("after"), config=config):
            until(lambda: sites.is_well(port))
            health = json.loads(asked(port, "/health").body)
            yield "later: the new site names the group before, and is not closed", health[
                "before"] == before and "closed" not in health
            yield "later: the new group begins with these transfers", asked(port, "/status").body == STATUS_OF_KEPT

            def of(at, number, more=""):
                return asked(at, f"/transfers/{BANK}/T{number}{more}").body

            yield "later: a closed transfer is not among them", of(port, 1) == f"T|{BANK}|T1|UNKNOWN\n".encode()
            asked(port, "/messages", lines_for([recalled(1, CreDtTm=ON_THE_DAY)])[0])
            missing = f"T|{BANK}|T1|MISSING\nR|{BANK}|T1|R1|OPEN\n".encode()
            yield "later: after a recall it is MISSING there, and the recall OPEN", of(port, 1) == missing
            yield "later: the old group has the transfer", of(old.port, 1) == f"T|{BANK}|T1|ACCEPTED\n".encode()
            asked(port, "/messages", of(old.port, 1, "/messages"))
            whole = f"T|{BANK}|T1|ACCEPTED\nR|{BANK}|T1|R1|OPEN\n".encode()
            yield "later: its messages from there make it whole again", of(port, 1) == whole
            asked(port, "/messages", lines_for([answered(samples.payback, 1, CreDtTm=ON_THE_DAY)])[0])
            yield "later: and its return counts", of(
                port, 1) == f"T|{BANK}|T1|RETURNED|1.00\nR|{BANK}|T1|R1|RETURNED|1.00\n".encode()


CHECKS = [adopts_what_waits, kills_while_it_rolls, is_killed_at_each_step, awaits_all, refuses, awaits_equal_vectors,
          awaits_what_is_under_way, answers_later, comes_back_late, awaits_posts, keeps_by_hand]


def check(python, program):
    return tried("rolls", CHECKS, python, program)


if __name__ == "__main__":
    sites.checked(check)
