"""waits.py: what waits at sites of services/hub is not lost: it ends in time at a halted site, and a backup that was
made while banks post puts it back with the journal and the record."""
import contextlib
import json
import sqlite3
import threading
from tests import harness
from tests.hub import sites
from tests.hub.attackers import LUX, SCA, Secure, confirmation, instruction
from tests.hub.sites import own_lines, until
from tests.hub.troubles import tried_with_tls

CELLS = "number, at, who, address, request, act, what, sum"


def states(it, hub):
    """The state of what waits, or did, by transfer."""
    return {one["tx"]: one["state"] for one in map(json.loads, it.asked(hub, "/waiting", who="desk").body.splitlines())}


def halted(trial):
    """An answer waits at a site that is halted, which gets its instruction from a peer."""
    it, port = Secure(trial), sites.free_ports(2)
    data = trial.fresh("halted")

    def peer(number):
        return "[peers]", f'{number} = "https://localhost:{port + number - 1}"'

    with it.site("other", *peer(1), number=2, port=port + 1, hear=0) as other:
        with it.site("halted", *peer(2), port=port, data=data, waiting=5) as hub:
            yield "an answer waits", it.words(hub, "scalbebb", confirmation(SCA, LUX, 1)) == ["WAITING"]
            hub.end()
            (data / "site1.halted").write_text("43 OwnAhead: for a check\n")
            yield "its instruction is taken by a peer", it.words(other, "lutefrpp",
                                                                 instruction(LUX, SCA, 1)) == ["TAKEN"]
        with it.site("halted", *peer(2), port=port, data=data, waiting=5, is_well=False) as hub:
            yield "the site is halted, and has the instruction", until(
                lambda: it.asked(hub, f"/transfers/{LUX}/T1").body == b"T|LUTEFRPPXXX|T1|PENDING\n") and it.asked(
                hub, "/messages", instruction(LUX, SCA, 2), who="lutefrpp").status == 409
            yield "the answer does not wait longer than it may", until(lambda: states(it, hub)
                                                                       == {"T1": "EXPIRED"}), str(states(it, hub))


def deaf(trial):
    """Two answers wait at a site whose peer is away when it starts. It holds the instruction of one of them."""
    it, port, data = Secure(trial), sites.free_ports(2), trial.fresh("deaf")
    peers = {number: ("[peers]", f'{number} = "https://localhost:{port + number - 1}"') for number in (1, 2)}

    def site(**more):
        return it.site("deaf", *peers[2], port=port, data=data, is_well=False, **more)

    for waiting, becomes in (5, "EXPIRED"), (3600, "WAITING"):
        with site(hear=0, waiting=waiting) as hub:
            until(lambda: it.made.is_well(port))
            words = it.words(hub, "scalbebb", confirmation(SCA, LUX, 1), confirmation(SCA, LUX, 2))
        sites.write_journal(data / "site1.journal", 1, 64, [instruction(LUX, SCA, 2).strip()])
        with site(waiting=waiting) as hub:
            yield f"while its peers are away, an answer is {becomes}, also with its instruction", words == [
                "WAITING"] * 2 and until(
                    lambda: states(it, hub) == {"T1": becomes, "T2": becomes}), str(states(it, hub))
            yield "and nothing is taken", it.asked(hub, "/vector", who="desk").body == b"1:1\n"
            if becomes == "WAITING":
                with it.site("other", *peers[1], number=2, port=port + 1, hear=0):
                    yield "when a peer is heard it is taken", until(
                        lambda: states(it, hub) == {"T1": "WAITING", "T2": "TAKEN"}), str(states(it, hub))
        for path in data.iterdir():
            path.unlink()


# ---- a backup

@contextlib.contextmanager
def banks_post(it, hub):
    """Banks post as long as it lasts: one its instructions, the other its answers, of which each other one comes before
    its instruction."""
    ends, sent = threading.Event(), []

    def post():
        for number in range(1000, 100_000):
            if ends.is_set():
                return
            lines = [("scalbebb", confirmation(SCA, LUX, number)), ("lutefrpp", instruction(LUX, SCA, number))]
            for who, line in lines if number % 2 else lines[::-1]:
                sent.append(it.words(hub, who, line))

    thread = threading.Thread(target=post, daemon=True)
    thread.start()
    try:
        yield sent
    finally:
        ends.set()
        thread.join()


def rows_of(path):
    """The rows of a record, and the lines that wait."""
    with contextlib.closing(sqlite3.connect(f"file:{path}?mode=ro", uri=True)) as connection:
        return (connection.execute(f"SELECT {CELLS} FROM record ORDER BY number").fetchall(),
                connection.execute(
                    "SELECT tx, state, line FROM waiting WHERE state = 'WAITING' ORDER BY number").fetchall())


def drill(trial):
    """A site is copied while banks post, is lost, and is put back from the copy."""
    it, target, lost = Secure(trial), trial.fresh("monday"), trial.fresh("lost")
    with it.site("drill") as hub:
        def word(*words):
            return harness.run([*hub.command, *words], env=hub.variables, seconds=sites.LONGEST)

        early = [confirmation(SCA, LUX, number) for number in range(1, 6)]
        waits = it.words(hub, "scalbebb", *early) == ["WAITING"] * 5
        with banks_post(it, hub) as sent:
            until(lambda: len(sent) > 10)
            done = [word(f"--backup={target}{number}") for number in range(3)]
            many = len(sent)
            until(lambda: len(sent) > many + 4)
        hub.end()
        yield "a site is copied while banks post", waits and [one.status for one in done] == [0] * 3, str(done)
        was, rows = own_lines(hub.folder / "site1.journal"), rows_of(hub.folder / "site1.record")[0]
        verified = word(f"--verify={target}2")
        yield "verify reads the copy by its manifest", verified == done[2], str(verified)
        hub.folder.rename(lost)
        restored = word(f"--restore={target}2")
        yield "the copy is put in the place of a site that is lost", restored.status == 0, str(restored)
        audit = word("--audit")
        yield ("an audit finds that the record fits the journal", audit.status == 0 and b"no row of" not in audit.text,
               str(audit))
        own = own_lines(hub.folder / "site1.journal")
        yield "the journal is the beginning of the one that was lost", 10 < len(own) < len(was) and own == was[
            :len(own)]
        again, waiting = rows_of(hub.folder / "site1.record")
        yield "the record is the beginning of the one that was lost, with a row of what was done", again[
            :-1] == rows[:len(again) - 1] and (
                again[-1][5] == "restore")
        yield "what waits is there", [(tx, line) for tx, _, line in waiting[:5]] == [
            (f"T{number}", line[:-1]) for number, line in enumerate(early, 1)], str(waiting)
        hub.start()
        sites.begun(hub.process, lambda: it.made.is_well(hub.port))
        yield "the site that is put back waits on for the same", until(lambda: set(states(it, hub))
                                                                       >= {f"T{number}" for number in range(1, 6)})

        def is_status_of_lines():
            """The site has the lines of the copy, and of those that waited there the ones whose instruction it has:
            they are taken at once."""
            lines = own_lines(hub.folder / "site1.journal")
            text = harness.run([trial.program, "status"], b"".join(line + b"\n" for line in lines),
                               seconds=sites.LONGEST).text
            waited = {line for _, _, line in waiting[5:]}
            return lines[:len(own)] == own and waited.issuperset(lines[len(own):]) and it.asked(hub, "/status",
                                                                                                who="desk").body == text
        yield "its texts are those of the lines that it has", until(is_status_of_lines)
        yield "the instruction comes, and the answer is taken", it.words(
            hub, "lutefrpp", instruction(LUX, SCA, 1)) == ["TAKEN"] and until(
                lambda: states(it, hub)["T1"] == "TAKEN")


CHECKS = [drill, halted, deaf]


def check(python, program):
    return tried_with_tls("waits", CHECKS, python, program)


if __name__ == "__main__":
    sites.checked(check)
