"""processes.py: the process of a site that ends while it begins, hangs, is stopped, cannot be started for a moment, or
is another program.

The site is never ready without a process that answers, starts it again at once, and says to systemd that it lives in no
other case.
"""
import contextlib
import http.client
import os
import random
import resource
import signal
import socket
import threading
import time
from tests import harness
from tests.harness import SERVICES
from tests.hub import sites
from tests.hub.sites import asked, outcomes, until
from tests.hub.trial import lines_of
from tests.hub.troubles import tried

SEED, KILLS = 20261130, 20


def script(path, *lines):
    """A program in place of the one that is tried, which its last line runs."""
    path.write_text("\n".join(["#!/bin/sh", *lines]) + "\n")
    path.chmod(0o755)
    return path


def status(port, path="/ready"):
    return asked(port, path).status


def takes(hub, number):
    return asked(hub.port, "/messages", lines_of(number, 1)).status == 200


def kill(hub, number=signal.SIGKILL):
    """Sends a signal to the process of a site. Whether there was one."""
    for process in hub.served().values():
        with contextlib.suppress(ProcessLookupError):
            os.kill(process, number)
            return True
    return False


# ---- a process that ends

def ends_while_it_begins(trial):
    """A process ends after it was ready and before it has worked out what it holds, as often as a mark is there."""
    mark = trial.folder / "ends-early"
    program = script(trial.folder / "dies", f'[ "$1" = serve ] && [ -e {mark} ] || exec {trial.program} "$@"',
                     f'sed -u "/^? evaluate/Q" | {trial.program} "$@"')
    with trial.site(trial.fresh("early"), program=str(program)) as hub:
        took = takes(hub, 1)
        mark.touch()
        kill(hub)
        with contextlib.suppress(OSError):
            asked(hub.port, "/messages", lines_of(2, 1), timeout=10)
        yield "a process that ends while it begins: the site is not ready", took and until(
            lambda: status(hub.port) == 503) and (
                status(hub.port, "/health") == 503)
        mark.unlink()
        yield "and it is started again", until(lambda: takes(hub, 3)) and until(lambda: status(hub.port) == 200)


def is_killed_while_it_begins(trial):
    """The process is killed at moments of its start that a seed chooses."""
    r = random.Random(SEED)
    with trial.site(trial.fresh("killed")) as hub:
        kills = sum(until(hub.served) and not time.sleep(r.uniform(0, 0.4)) and kill(hub) for _ in range(KILLS))
        yield f"a process that is killed {kills} times while it begins is there again", kills > KILLS / 2 and until(
            lambda: takes(hub, 1), 60)
        yield "and the site is ready", until(lambda: status(hub.port) == 200)


def is_started_at_once(trial):
    with trial.site(trial.fresh("quiet")) as hub:
        before = hub.served()
        kill(hub)
        yield "a process that ends while nobody asks is started at once", until(
            lambda: hub.served() not in ({}, before)
            and b"process_restarts_total 1\n" in asked(hub.port, "/metrics").body)
        yield "and then the site is ready", until(lambda: status(hub.port) == 200)


# ---- a process that says nothing

def hangs(trial):
    with trial.site(trial.fresh("stopped")) as hub:
        took = takes(hub, 1)
        kill(hub, signal.SIGSTOP)
        yield "a process that is stopped: the site is not ready", took and until(lambda: status(hub.port) == 503)
        well = asked(hub.port, "/health")
        yield "and not well, and says why", well.status == 503 and b"has said nothing for" in well.body
        kill(hub, signal.SIGCONT)
        yield "and ready again when it goes on", until(lambda: status(hub.port) == 200) and takes(hub, 2)
        kill(hub, signal.SIGSTOP)
        yield "a post at one that stays so is answered", asked(hub.port, "/messages", lines_of(3, 1),
                                                               timeout=200).status == 503
        yield "and the process is ended, and another one started", until(
            lambda: takes(hub, 3)) and "and is ended" in hub.text()


def says_that_it_lives(trial):
    """What systemd is told while the process answers, and while it is stopped."""
    place, heard = str(trial.folder / "notify"), []

    def listen():
        with contextlib.suppress(OSError):
            while True:
                heard.append(channel.recv(1000))

    def lives():
        heard.clear()
        return until(lambda: any(b"WATCHDOG=1" in one for one in heard))
    with socket.socket(socket.AF_UNIX, socket.SOCK_DGRAM) as channel:
        channel.bind(place)
        threading.Thread(target=listen, daemon=True).start()
        with trial.site(trial.fresh("watched"), NOTIFY_SOCKET=place, WATCHDOG_USEC="900000") as hub:
            yield "systemd is told that a site lives", lives()
            kill(hub, signal.SIGSTOP)
            until(lambda: status(hub.port) == 503)
            time.sleep(1)
            heard.clear()
            time.sleep(5)
            yield "and not while its process is stopped", until(lambda: heard) and not any(b"WATCHDOG=1" in one
                                                                                           for one in heard)
            kill(hub, signal.SIGCONT)
            yield "and then again", lives()


# ---- a moment without descriptors, and another program

def has_no_descriptors(trial):
    """No file can be opened when the process has to be started again."""
    with trial.site(trial.fresh("descriptors")) as hub:
        line = http.client.HTTPConnection("127.0.0.1", hub.port, timeout=sites.LONGEST)
        line.request("POST", "/messages", lines_of(1, 1))
        took = line.getresponse().read()
        _, most = resource.prlimit(hub.process.pid, resource.RLIMIT_NOFILE)
        resource.prlimit(hub.process.pid, resource.RLIMIT_NOFILE, (3, most))
        kill(hub)
        line.request("POST", "/messages", lines_of(2, 1))
        said = line.getresponse()
        said.read()
        yield "no process can be started for a moment: a post gets 503", bool(took) and said.status == 503
        time.sleep(2)
        yield "and the site goes on", hub.process.poll() is None
        resource.prlimit(hub.process.pid, resource.RLIMIT_NOFILE, (most, most))
        yield "and takes messages when one can", until(lambda: takes(hub, 2))
    program = script(trial.folder / "none", f'exec {trial.program} "$@"')
    hub = trial.site(trial.fresh("none"), program=str(program))
    with hub as its:
        program.unlink()
        kill(its)
        yield "a program that is removed while its site runs is started all the same", until(lambda: takes(its, 1))


def is_exchanged(trial):
    """Another program takes the path of the one with which the site was started."""
    mark, path = trial.folder / "another-ran", trial.folder / "exchanged"
    program = script(path, f'exec {trial.program} "$@"')
    with trial.site(trial.fresh("exchanged"), program=str(program)) as hub:
        took = takes(hub, 1)
        other = script(trial.folder / "another", f'[ "$1" = serve ] && touch {mark}', f'exec {trial.program} "$@"')
        os.replace(other, program)
        kill(hub)
        yield "another program in its place: the process is started of the one before", took and until(
            lambda: takes(hub, 2)) and not mark.exists()
        hub.end()
        hub.start()
        yield "until the site is started again", until(lambda: takes(hub, 3)) and mark.exists()
        script(path, "exit 0")
        kill(hub)
        yield "a program that is written over is not started, and the site says so", hub.process.wait(
            sites.LATEST) == 2 and (
                "was written over" in hub.text())


# what a start does that asks a program for its version, and gives it less time
ASKS = ("import sys; sys.path.insert(0, sys.argv[1]); from hub import limits, main; limits.VERSION_SECONDS = 0.2; "
        "main.version_of(sys.argv[2])")


def is_slow_to_say_its_version(trial):
    slow = script(trial.folder / "slow", "exec sleep 300")
    done = harness.run([trial.python, "-c", ASKS, SERVICES, slow], seconds=sites.LONGEST)
    is_right = done.status == 3 and b"does not say its version" in done.errors
    yield "a machine too busy for the version of the program is tried again: status 3", is_right, str(done)


def numbers_go_on(trial):
    with trial.site(trial.fresh("numbers")) as hub:
        first = outcomes(asked(hub.port, "/messages", lines_of(1, 3)))
        kill(hub)
        last = until(lambda: takes(hub, 4)) and outcomes(asked(hub.port, "/messages", lines_of(5, 1)))
        yield "numbers go on after each start", [it["number"] for it in first] == [1, 2, 3] and [it["number"]
                                                                                                 for it in last] == [5]


CHECKS = [hangs, ends_while_it_begins, is_killed_while_it_begins, is_started_at_once, says_that_it_lives,
          has_no_descriptors, is_exchanged,
          is_slow_to_say_its_version, numbers_go_on]


def check(python, program):
    return tried("processes", CHECKS, python, program)


if __name__ == "__main__":
    sites.checked(check)
