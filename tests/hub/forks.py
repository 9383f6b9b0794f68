"""forks.py: sites that hold other entries under the same numbers: a peer that says two things, an old copy that took as
many messages as it lost, two machines with one number, a journal that changed. Each is found at contact, marked at both
sides, and stops what comes from that origin alone."""
import contextlib
import hashlib
import json
import os
import shutil
from tests import inputs
from tests.hub import sites
from tests.hub.peers import Odd, odd_peer
from tests.hub.processes import kill
from tests.hub.sites import asked, outcomes, until, write_journal
from tests.hub.trial import lines_of
from tests.hub.troubles import tried
from tests.oracle.digests import NO_DIGEST, chain_of, next_digest
from tests.oracle.status import read_message, written

NOTHING = b"delta 2\nend 0\n"
MARK, SHOWN = "Niluppang-Forks", "Niluppang-Digests"


def numbers(answer):
    return [it.get("number") for it in outcomes(answer)]


def health(port):
    return json.loads(asked(port, "/health").body)


def is_marked(port, *forks):
    """Whether a site has these marks and no others, as ORIGIN:FIRST: in the head of answers, in /health and in the
    metrics."""
    its, metrics = health(port), asked(port, "/metrics").body.decode()
    return (asked(port, "/live").headers.get(MARK) == ",".join(forks)
            and {f"{origin}:{first}" for origin, first in its.get("forks", {}).items()} == set(forks)
            and asked(port, "/health").status == 503 and f"niluppang_forks {len(forks)}\n" in metrics
            and "niluppang_is_well 0\n" in metrics
            and all('niluppang_fork{{origin="{}"}} {}\n'.format(*fork.split(":")) in metrics for fork in forks))


def has(port, vector):
    return asked(port, "/vector").body == vector + b"\n"


def takes(port, number):
    """Whether a site takes a message."""
    answer = asked(port, "/messages", lines_of(number, 1))
    return answer.status == 200 and outcomes(answer)[0]["outcome"] == "TAKEN"


def is_stopped(port, number):
    """Whether a site takes no message, since its own number forked."""
    answer = asked(port, "/messages", lines_of(number, 1))
    return answer.status == 409 and b"42 Fork" in answer.body


def peer(number, port):
    return f"--peer={number}=http://127.0.0.1:{port}"


def said(*entries):
    """What a peer answers as site 2 that has entries with these numbers of instructions, and shows no digests."""
    def answer(it):
        have = int(it.path.partition("have=")[2].partition("2%3A")[2].partition("%")[0].partition("&")[0]
                   or 0) if "2%3A" in it.path else 0
        its = entries[have:]
        it.send(inputs.delta(2, have + 1, *its) if its and "/delta" in it.path else NOTHING,
                vector=f"2:{len(entries)}" if entries else "-")
    return answer


def says_two_things(trial):
    """A peer that gives two sites different entries under one number."""
    ports, folders = sites.free_ports(2), [trial.fresh("one"), trial.fresh("three")]
    with odd_peer(said(1, 2)) as to_1, odd_peer(said(1, 3)) as to_3, contextlib.ExitStack() as stack:
        one = stack.enter_context(trial.site(folders[0], peer(2, to_1.server_port), "--hear=0", port=ports,
                                             is_well=None))
        until(lambda: has(ports, b"2:2"))
        one.end()
        words = peer(2, to_1.server_port), peer(3, ports + 1), "--hear=0"
        one = stack.enter_context(trial.site(folders[0], *words, port=ports, is_well=None))
        three = stack.enter_context(trial.site(folders[1], peer(2, to_3.server_port), peer(1, ports), "--hear=0",
                                               number=3, port=ports + 1, is_well=None))
        yield "both sites that a peer told different things mark it, from the first different entry on", until(
            lambda: is_marked(ports, "2:2") and is_marked(ports + 1, "2:2"))
        yield ("the mark is logged", "site 3 has another entry 2 of site 2" in one.text()
               and "site 1 has another entry 2 of site 2" in three.text())
        yield "both take messages, and are ready", takes(ports, 10) and takes(ports + 1, 20) and asked(
            ports, "/ready").status == 200
        yield "and hand them on to each other", until(lambda: has(ports, b"1:1,2:2,3:1")
                                                      and has(ports + 1, b"1:1,2:2,3:1"))
        marks = [asked(port, "/archive").headers["ETag"] for port in (ports, ports + 1)]
        yield "equal vectors with other entries have other ETags", marks[0] != marks[1]
        heads = [asked(port, path).headers.get(MARK) for port in (ports, ports + 1)
                 for path in ("/archive", "/transfers/BANKDEFF/T1", "/none", "/ready")]
        yield "each answer has the mark in its head", heads == ["2:2"] * 8, str(heads)
        to_1.answer, to_3.answer = said(1, 2, 4), said(1, 3, 4)
        before = to_1.asked, to_3.asked
        until(lambda: to_1.asked > before[0] + 3 and to_3.asked > before[1] + 3)
        yield "nothing more of that origin is accepted", has(ports, b"1:1,2:2,3:1") and has(ports + 1, b"1:1,2:2,3:1")
        record = trial.ran(folders[0], "--audit")
        yield "the record has a row of it", record.status == 0 and b"fork 1" in record.text, record.text.decode()
        three.end()
        one.end()
        marked = (folders[0] / "site1.forked").read_text()
        yield "the mark is a file", marked.startswith("2:2 42 Fork: site 3 has another entry 2 of site 2"), marked
        backup = trial.folder / "marked.journal"
        done = trial.ran(folders[0], f"--backup={backup}")
        yield "a backup has it", b"forked: 2:2 42 Fork" in done.text and done.status == 0, done.text.decode()
        again = trial.fresh("again")
        done = trial.ran(again, f"--restore={backup}")
        with trial.site(again, peer(2, to_1.server_port), "--hear=0", is_well=None) as hub:
            yield "and so has a site that is restored of it", until(lambda: is_marked(hub.port, "2:2")), (
                done.text + done.errors).decode()
    with odd_peer(said(1, 2, 4)) as server:
        words = peer(2, server.server_port), "--hear=0"
        with trial.site(folders[0], *words, is_well=None) as one:
            until(lambda: server.asked > 3)
            yield "it stays after a start, while nobody else is there", is_marked(one.port, "2:2") and has(
                one.port, b"1:1,2:2,3:1")
            done = trial.ran(folders[0], "--clear-fork=2")
            yield "it is not removed while the site runs", done.status == 2 and b"is in use" in done.errors
        done = trial.ran(folders[0], "--clear-fork=2")
        yield ("an operator removes it", done.status == 0 and b"site 3 has another entry 2 of site 2" in done.text,
               done.text.decode())
        with trial.site(folders[0], *words) as one:
            yield "and the site accepts more of the origin", until(
                lambda: has(one.port, b"1:1,2:3,3:1")) and MARK not in asked(one.port, "/live").headers


class Group:
    """Three sites of one hub, each of which is started and ended by itself."""

    def __init__(self, trial, stack):
        self.trial, self.stack, self.ports = trial, stack, [sites.free_ports(1) for _ in range(4)]
        self.folders, self.hubs = [trial.fresh(f"group-{n}") for n in range(1, 4)], {}

    def words(self, number, addresses):
        return [peer(n, port) for n, port in addresses.items() if n != number]

    def start(self, number, folder=None, addresses=None, port=None, is_well=True):
        addresses = addresses or dict(enumerate(self.ports[:3], 1))
        its = self.trial.site(folder or self.folders[number - 1], *self.words(number, addresses), number=number,
                              port=port or self.ports[number - 1],
                              is_well=is_well)
        self.hubs[number] = self.stack.enter_context(its)
        return self.hubs[number]

    def end(self, number):
        self.hubs[number].end()


def is_an_old_copy(trial):
    """A site goes back to a copy of all of its files, and takes as many new messages as it lost, before a peer that has
    those is there."""
    with contextlib.ExitStack() as stack:
        its = Group(trial, stack)
        one, two, three = its.ports[:3]
        for number in 1, 2, 3:
            its.start(number, is_well=None)
        until(lambda: all(map(sites.is_well, its.ports[:3])), sites.LONGEST)
        asked(one, "/messages", lines_of(1, 3))
        yield "three sites hold three messages", until(lambda: all(has(port, b"1:3") for port in its.ports[:3]))
        its.end(1)
        copy = trial.fresh("copy")
        shutil.copytree(its.folders[0], copy)
        its.end(2)
        its.start(1)
        yield "a fourth one is at site 3 alone", takes(one, 100) and until(lambda: has(three, b"1:4"))
        its.end(3)
        its.end(1)
        shutil.rmtree(its.folders[0])
        shutil.copytree(copy, its.folders[0])
        its.start(2, is_well=None)
        its.start(1, is_well=None)
        until(lambda: sites.is_well(one) and sites.is_well(two), sites.LONGEST)
        yield "an old copy takes another one under its number", numbers(asked(one, "/messages",
                                                                              lines_of(200, 1))) == [4]
        yield "which the other site accepts", until(lambda: has(two, b"1:4"))
        its.start(3, is_well=None)
        yield "when site 3 comes back all three mark site 1", until(lambda: all(is_marked(port, "1:4")
                                                                                for port in its.ports[:3]))
        yield "site 1 takes nothing under its number any more", until(lambda: is_stopped(one, 300))
        yield "the others go on, and hand on", takes(two, 301) and takes(three, 302) and until(
            lambda: has(two, b"1:4,2:1,3:1") and has(three, b"1:4,2:1,3:1") and has(one, b"1:4,2:1,3:1"))


def are_two_machines(trial):
    """Two machines run with one number, each with another part of the others."""
    with contextlib.ExitStack() as stack:
        its = Group(trial, stack)
        one, two, three, twin = its.ports
        its.start(2, is_well=None)
        its.start(3, addresses={1: twin, 2: two}, is_well=None)
        its.start(1, addresses={2: two}, is_well=None)
        first = its.hubs[1]
        its.start(1, folder=trial.fresh("twin"), addresses={3: three}, port=twin, is_well=None)
        until(lambda: all(asked(port, "/ready").status == 200 for port in its.ports), sites.LONGEST)
        took = asked(one, "/messages", lines_of(1, 2)), asked(twin, "/messages", lines_of(1, 1) + lines_of(11, 1))
        yield "two machines with one number give a number twice", [numbers(answer) for answer in took] == [[1, 2],
                                                                                                           [1, 2]]
        yield "the sites that heard the one and the other mark the number", until(lambda: is_marked(two, "1:2")
                                                                                  and is_marked(three, "1:2"))
        yield "and take messages", takes(two, 21) and takes(three, 31)
        first.end()
        again = its.start(1, addresses={2: two, 3: three}, is_well=None)
        yield "a machine that hears the other side halts for good", until(
            lambda: is_stopped(again.port, 41) and is_marked(one, "1:2"), sites.LONGEST)


def is_a_journal_that_changed(trial):
    """A digit of a journal is flipped: of an own message, and of one that was accepted."""
    for kind, place in ("an own message", 0), ("an accepted message", 1):
        with contextlib.ExitStack() as stack:
            its = Group(trial, stack)
            one, two = its.ports[:2]
            addresses = {1: one, 2: two}
            for number in 1, 2:
                its.start(number, addresses=addresses, is_well=None)
            until(lambda: sites.is_well(one) and sites.is_well(two), sites.LONGEST)
            asked(one, "/messages", lines_of(1, 2))
            asked(two, "/messages", lines_of(11, 2))
            until(lambda: has(one, b"1:2,2:2") and has(two, b"1:2,2:2"))
            its.end(1)
            flip(its.folders[0] / "site1.journal", b"T11" if place else b"T1\"", b"T71" if place else b"T7\"")
            status, text = trial.fails(its.folders[0], *its.words(1, addresses))
            yield (f"{kind} that changed in a journal: the site does not start",
                   status == 2 and "are not those of" in text, text)
            done = trial.ran(its.folders[0], "--check")
            yield "and --check says which", done.status == 1 and b"of site %d are not those of" % (
                1 + place) in done.text, done.text.decode()
            done = trial.ran(its.folders[0], "--audit")
            yield "so does --audit", done.status == 1 and b"WRONG: entries 1 to 2 of site %d are not those of" % (
                1 + place) in done.text, done.text.decode()
            for end in "record", "recorded":
                os.unlink(its.folders[0] / f"site1.{end}")
            its.start(1, addresses=addresses, is_well=None)
            fork = f"{1 + place}:1"
            yield "without its record both sites mark it when they meet", until(lambda: is_marked(one, fork)
                                                                                and is_marked(two, fork))
            yield "and the site whose number it is takes nothing", until(
                lambda: is_stopped(two if place else one, 51)) and takes(one if place else two, 52)


def flip(path, old, new):
    """Changes a part of a file in its place. Each is as long as the other."""
    text = path.read_bytes()
    if text.count(old) < 1 or len(old) != len(new):
        raise ValueError("the part is not there")
    with open(path, "r+b") as file:
        file.seek(text.index(old))
        file.write(new)


def is_changed_below_a_process(trial):
    """The journal of a site that runs is changed in its place, with as many messages, and its process ends."""
    folder = trial.fresh("below")
    with trial.site(folder) as hub:
        asked(hub.port, "/messages", lines_of(1, 3))
        flip(folder / "site1.journal", b"T2\"", b"T9\"")
        kill(hub)
        yield "a process that holds other entries than the one before it ends the site", hub.process.wait(
            sites.LATEST) == 2
        yield ("and the log says why",
               "its first 3 entries of site 1 are not those that the site held: the journal was changed" in hub.text())


def asks_alone(trial):
    """A site asks another one, which does not ask it: that one is shown the entry that differs, and marks it, too."""
    folders, ports = [trial.fresh("asked"), trial.fresh("asks")], sites.free_ports(2)
    for folder in folders:
        folder.mkdir()
    write_journal(folders[0] / "site1.journal", 1, 64, lines_of(1, 3).splitlines())
    write_journal(folders[1] / "site4.journal", 4, 64, [inputs.delta(1, 1, 1, 9)[:-1].replace(b"\n", b"\t")])
    with trial.site(folders[0], port=ports, is_well=None), trial.site(folders[1], peer(1, ports), number=4,
                                                                      port=ports + 1, is_well=None):
        yield "a site that asks marks what differs", until(lambda: is_marked(ports + 1, "1:2"))
        yield "and so does the one that is asked, after the place was found", until(lambda: is_marked(ports, "1:2"))


def lines_given(many):
    return [read_message(line) for line in lines_of(1, many).splitlines()]


def shows(trial):
    """The digests of a site: their digits, where they are, and what is refused."""
    with trial.site(trial.fresh("shows")) as hub:
        yield "a site without entries shows none", asked(hub.port, "/digests").body == b"" and asked(
            hub.port, "/vector").headers[SHOWN] == ""
        lines = lines_of(1, 3)
        asked(hub.port, "/messages", lines)
        digest = NO_DIGEST
        for line in lines.splitlines():
            digest = next_digest(digest, written(read_message(line)).encode() + b"\n")
        by_hand = NO_DIGEST
        for line in asked(hub.port, "/archive").body.splitlines(True):
            by_hand = hashlib.sha256(by_hand + line).digest()
        yield "the digest is that of the lines of the archive, each after the other", digest == by_hand == chain_of(
            lines_given(3))[-1]
        whole = f"1:3:{digest.hex()}"
        yield "it is beside the vector", asked(hub.port, "/vector").headers[SHOWN] == whole
        yield "and in /digests", asked(hub.port, "/digests").body.decode() == whole + "\n"
        yield "and in /health", health(hub.port)["digests"] == {"1": f"3:{digest.hex()}"}
        metrics = asked(hub.port, "/metrics").body.decode()
        yield ("the metrics have 12 digits of it as a number",
               f'niluppang_digest{{origin="1"}} {int(digest.hex()[:12], 16)}\n' in metrics)
        first = chain_of(lines_given(1))[1].hex()
        yield "an older one is there, too", asked(hub.port, "/digests?at=1:1").body.decode() == f"1:1:{first}\n"
        yield "and with texts", asked(hub.port, "/archive").headers[SHOWN] == whole
        statuses = [asked(hub.port, f"/digests?at={at}").status for at in ("1:4", "2:1", "1:x", "65:1", "1:1,1:1")]
        yield "more than is held, and what is no vector, is 400", statuses == [400] * 5, str(statuses)
        site = {"Niluppang_Site": "2/64"}
        head = asked(hub.port, "/vector", **site, Niluppang_Digests=f"1:1:{first},1:9:{first}").headers
        yield "a peer is shown digests at its own counts, or at all that is held", head[
            SHOWN] == f"1:1:{first},{whole}" and MARK not in head, str(head)
        other = "0" * 64
        head = asked(hub.port, "/vector", **site, Niluppang_Digests=f"1:3:{other}").headers
        yield "one that shows another digest is not believed without the one before", head[
            SHOWN] == whole and MARK not in head
        bad = asked(hub.port, "/vector", **site, Niluppang_Digests="1:3:x").status
        yield "what is no digest is 400", bad == 400
        head = asked(hub.port, "/vector", Niluppang_Digests=f"1:1:{first},1:2:{other}").headers
        yield "who is no peer puts no mark", head[SHOWN] == whole and not (hub.folder / "site1.forked").exists()
        asked(hub.port, "/vector", **site, Niluppang_Digests=f"1:1:{first},1:2:{other}")
        yield "a peer that shows the entry that differs has it marked", until(lambda: is_marked(hub.port, "1:2")
                                                                              and is_stopped(hub.port, 9))


def shows_wrong_digests(trial):
    """Peers that show digests of others, that do not say where they differ, and that are of the version before."""
    def answer(text, more):
        def send(it):
            if "/digests" in it.path:
                return more(it)
            it.send(inputs.delta(2, 2, 2) if "2%3A1" in it.path else inputs.delta(2, 1, 1), vector="2:2",
                    **{"Niluppang-Digests": text} if text else {})
        return send
    kinds = {"says no place": lambda it: it.send(b"no", status=404),
             "says another place": lambda it: it.send(b"2:9:" + b"1" * 64 + b"\n", vector="2:2"),
             "says nonsense": lambda it: it.send(b"1" * 70, vector="2:2"), "never answers": Odd.endless}
    for kind, more in kinds.items():
        with odd_peer(said(1)) as server:
            with trial.site(trial.fresh("wrong"), peer(2, server.server_port), "--hear=0", "--silence=1",
                            is_well=None) as hub:
                until(lambda: has(hub.port, b"2:1"))
                first = asked(hub.port, "/digests").body.decode().strip()
                server.answer = answer(f"2:1:{'0' * 64}", more)
                # of one entry the first that differs is known: so two are there
                yield f"a peer with another first entry, which {kind}: it is marked", until(
                    lambda: is_marked(hub.port, "2:1")), first
    with odd_peer(said(1, 2)) as server:
        with trial.site(trial.fresh("wrong"), peer(2, server.server_port), "--hear=0", "--silence=1",
                        is_well=None) as hub:
            until(lambda: has(hub.port, b"2:2"))
            for kind, more in kinds.items():
                server.answer, before = answer(f"2:2:{'0' * 64}", more), server.asked
                until(lambda: server.asked > before + 4)
                yield f"a peer that shows another digest, and {kind}: nothing of it is accepted", has(
                    hub.port, b"2:2") and until(
                        lambda: health(hub.port)["peers"]["2"]) and MARK not in asked(hub.port, "/live").headers
            server.answer = answer("2:x:y", Odd.endless)
            yield "one that shows what is no digest is said", until(lambda: "is not a digest"
                                                                    in health(hub.port)["peers"]["2"])
            server.answer = said(1, 2, 3)
            yield "a peer of the version before, which shows none, is understood", until(
                lambda: has(hub.port, b"2:3") and sites.is_well(hub.port) and not health(hub.port)["peers"]["2"])
            yield "and is not said to be compared", b'peer_compared_seconds{peer="2"}' not in asked(hub.port,
                                                                                                    "/metrics").body


CHECKS = [says_two_things, is_an_old_copy, are_two_machines, is_a_journal_that_changed, is_changed_below_a_process,
          asks_alone, shows, shows_wrong_digests]


def check(python, program):
    return tried("forks", CHECKS, python, program)


if __name__ == "__main__":
    sites.checked(check)
