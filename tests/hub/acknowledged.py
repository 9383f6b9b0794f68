"""acknowledged.py: posts that are answered after a peer holds what they brought, and a site that takes none and only
accepts."""
import contextlib
import os
import shutil
import signal
import time
from tests.hub import sites
from tests.hub.sites import asked, error_of, outcomes, until
from tests.hub.trial import lines_of
from tests.hub.troubles import tried

POSTS = 40


def words(hub, first, many=1, timeout=60):
    """The outcomes of a post, or its status if it has none."""
    answer = asked(hub.port, "/messages", lines_of(first, many), timeout=timeout)
    return [it["outcome"] for it in outcomes(answer)] if answer.status == 200 else answer.status


def vector(hub):
    return asked(hub.port, "/vector").body.decode().strip()


def metric(hub, name):
    lines = asked(hub.port, "/metrics").body.decode().splitlines()
    return next((line.split()[1] for line in lines if line.startswith(f"niluppang_{name} ")), None)


@contextlib.contextmanager
def stopped(hub):
    """A site that does nothing meanwhile."""
    os.kill(hub.process.pid, signal.SIGSTOP)
    try:
        yield
    finally:
        os.kill(hub.process.pid, signal.SIGCONT)


@contextlib.contextmanager
def two(trial, *lines):
    """Two sites that are peers. The first one has more lines in its configuration."""
    port, folder = sites.free_ports(2), trial.fresh("one")
    config = folder.with_suffix(".toml")
    config.write_text("\n".join([f'folder = "{folder}"', "site = 1", f"port = {port}", "hear = 0", *lines, "[peers]",
                                 f'2 = "http://127.0.0.1:{port + 1}"']))
    with sites.Hub(trial.python, trial.program, folder, config=config) as one:
        one.port = port
        with trial.site(trial.fresh("two"), "--hear=0", f"--peer=1=http://127.0.0.1:{port}", number=2,
                        port=port + 1) as other:
            until(lambda: sites.is_well(port))
            yield one, other


def are_held_by_a_peer(trial):
    with two(trial, "acknowledge = 1") as (one, other):
        held = []
        for number in range(1, POSTS + 1):
            taken = words(one, number) == ["TAKEN"]
            held.append(taken and vector(other) == f"1:{number}")
        yield f"each of {POSTS} posts is held by a peer when it is answered", all(held)
        with stopped(other):
            yield "a peer that does not ask: a post gets 503", words(one, 100) == 503
            yield "and so does a repeat", words(one, 100) == 503
        yield "it is acknowledged when the peer holds it", until(lambda: words(one, 100) == ["REPEAT"]
                                                                 and vector(other) == vector(one))
        other.end()
        yield "without a peer for a time: the site is not ready", until(lambda: asked(one.port, "/ready").status == 503)
        before = vector(one)
        answer = asked(one.port, "/messages", lines_of(101, 1))
        yield ("posts get 503, and nothing is taken",
               answer.status == 503 and b"peers ask this site" in answer.body and vector(one) == before)
        yield "which is counted", metric(one, "acknowledging_peers") == "0" and metric(one, "unacknowledged_total") in (
            "1", "2")
        other.start()
        yield "and with it they are taken", until(lambda: words(one, 101)
                                                  == ["TAKEN"]) and asked(one.port, "/ready").status == 200


def go_on_without_a_peer(trial):
    with two(trial, "acknowledge = 1", 'unacknowledged = "answer"') as (one, other):
        yield "a post is held by a peer", words(one, 1) == ["TAKEN"] and vector(other) == "1:1"
        other.end()
        yield "a peer is away, and the configuration says so: posts go on", words(one, 2) == ["TAKEN"] and words(
            one, 3) == ["TAKEN"]
        yield "and are counted", metric(one, "unacknowledged_total") == "2"
        until(lambda: metric(one, "acknowledging_peers") == "0")
        began = time.monotonic()
        yield "and do not wait when the peer is known to be away", words(one, 4) == [
            "TAKEN"] and time.monotonic() - began < 4


def survive_a_fire(trial):
    """The folder of a site is removed while it runs. What it acknowledged is held by its peer."""
    with two(trial, "acknowledge = 1") as (one, other):
        many, ends = 0, time.monotonic() + 3
        while time.monotonic() < ends:
            many += len(words(one, 10 * many, 10)) // 10
        one.kill()
        shutil.rmtree(one.folder)
        yield f"{10 * many} messages of a site that burns are held by its peer", many > 0 and vector(
            other) == f"1:{10 * many}"


def takes_none(trial):
    port = sites.free_ports(2)
    folder = trial.fresh("answers")
    config = folder.with_suffix(".toml")
    config.write_text("\n".join([f'folder = "{folder}"', "site = 4", f"port = {port + 1}",
                                 "takes = false", "acknowledge = 1", "[peers]",
                                 f'1 = "http://127.0.0.1:{port}"']))
    with trial.site(trial.fresh("takes"), port=port) as one, sites.Hub(trial.python, trial.program, folder,
                                                                       config=config) as hub:
        hub.port = port + 1
        took = words(one, 1, 3)
        yield "a site that takes none accepts what others took", took == ["TAKEN"] * 3 and until(lambda: vector(hub)
                                                                                                 == "1:3")
        yield "and answers", asked(hub.port, "/transfers/BANKDEFF/T2").body == b"T|BANKDEFFXXX|T2|PENDING\n"
        said = error_of(asked(hub.port, "/messages", lines_of(4, 1)))
        yield "a post gets 409", said[:3] == (409, 409, "Halted") and "takes = false" in said[3]
        remedy = sites.json.loads(asked(hub.port, "/messages", lines_of(4, 1)).body)["remedy"]
        yield "with what to do", remedy == "send it to another site: this one only answers", remedy
        yield "it is well, though no peer asks it for what it never takes", sites.is_well(hub.port)
        yield "and not ready for messages", asked(hub.port, "/ready").status == 503
        yield "and has no message of its own", vector(hub) == "1:3"
        config.write_text(config.read_text().replace("takes = false", "takes = true").replace("acknowledge = 1",
                                                                                              "acknowledge = 0"))
        hub.process.send_signal(signal.SIGHUP)
        yield "until its configuration says so", until(lambda: words(hub, 4) == ["TAKEN"])


CHECKS = [are_held_by_a_peer, go_on_without_a_peer, survive_a_fire, takes_none]


def check(python, program):
    return tried("acknowledged", CHECKS, python, program)


if __name__ == "__main__":
    sites.checked(check)
