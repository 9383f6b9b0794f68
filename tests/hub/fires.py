"""fires.py: three sites with TLS, roles and `acknowledge = 1` on small disks of their own lose nothing that was
acknowledged, whatever happens.

Clients post as in kills.py. Meanwhile sites and processes are killed, disks are filled and freed, and the journal of a
site is replaced by an older copy while its process is killed. Later a site is killed on an older copy: it halts, and
stays halted. At last the folder of another one is removed while it takes lines. What is left must be right:

- each outcome is the right one, and each acknowledged number has its message, also the numbers of the site that burnt;
- each acknowledged message is held by both other sites, and each message that is held was sent;
- a site that was halted takes nothing, also after another kill;
- both sites answer equal texts, the right ones by tests/oracle, and their records are whole by an audit.

`python3 -m tests.hub.fires --kills 200 --messages 4000` is the long form. It needs to mount disks.
"""
import contextlib
import os
import pathlib
import random
import re
import shutil
import signal
import tempfile
import threading
import time
from tests import harness
from tests.harness import reported
from tests.hub import kills, secure, sites
from tests.hub.kills import SITES, Lines, client, made_lines, messages_of, same_texts, vectors
from tests.hub.replaced import fill, small_disk
from tests.oracle import exchange

FORKS = re.compile(r".*(?:\bFork\b|a delta was refused).*")
SIZE = "24m"


class Burning:
    """A hub whose sites have disks of their own, and what is done to it."""

    def __init__(self, r, made, data, port, running, lines):
        self.r, self.made, self.data, self.port, self.hub, self.lines = r, made, data, port, running, lines
        self.full = self.replaced = 0
        self.context = made.context("gateway")

    def ask(self, port, path, body=None, **more):
        return self.made.asked(port, path, body, context=self.context, **more)

    def status(self, site, path="/ready", body=None):
        with contextlib.suppress(*kills.FAILURES):
            return self.ask(self.port + site - 1, path, body, timeout=20).status
        return None

    def journal(self, site):
        return self.data / f"site{site}" / f"site{site}.journal"

    def older(self, site):
        """Puts an older copy in the place of a journal. The path of the journal itself, and how many messages the copy
        has."""
        path, aside = self.journal(site), self.journal(site).with_suffix(".aside")
        os.rename(path, aside)
        own = sites.own_lines(aside)
        sites.write_journal(path, site, 64, own[:len(own) // 2])
        return aside

    def kill(self, number):
        process = kills.victim(self.r, self.hub, self.lines, number)
        if process:
            with contextlib.suppress(ProcessLookupError):
                os.kill(process, signal.SIGKILL)
            self.lines.kills += 1

    def fills(self, number):
        """The disk of a site is full for a while, and somebody kills meanwhile."""
        path = self.data / f"site{self.r.randint(1, SITES)}" / "filler"
        fill(path)
        self.kill(number)
        time.sleep(self.r.uniform(0.2, 1))
        path.unlink()
        self.full += 1

    def replaces(self, number):
        """Another file takes the place of a journal, and the process is killed. Later the journal is put back, and the
        site is tried again."""
        site = self.r.randint(1, SITES)
        served = self.hub.served().get(site)
        if self.status(site) != 200 or served is None:
            return self.kill(number)
        aside = self.older(site)
        with contextlib.suppress(ProcessLookupError):
            os.kill(served, signal.SIGKILL)
        self.lines.kills += 1
        sites.until(lambda: site not in self.hub.children())
        os.replace(aside, self.journal(site))
        self.hub.process.send_signal(signal.SIGHUP)
        self.replaced += 1

    def acts(self, many):
        """Kills and the rest, each at any moment, while clients post."""
        for number in range(1, many + 1):
            self.lines.share = (number + 2) / (many + 3)
            sites.until(lambda: self.lines.sent() >= number / (many + 3), 20)
            time.sleep(self.r.uniform(0, 0.1))
            act = self.replaces if number % 10 == 4 else self.fills if number % 10 in (3, 7) else self.kill
            act(number)
            if number % 10 == 0 or number == many:
                print(f"{number} acts, {len(self.lines.acknowledged)} lines acknowledged", flush=True)

    def halts(self, site):
        """A site is killed, and started on an older copy. Its journal is put back, and it is killed again. Whether it
        was and stays halted."""
        sites.until(lambda: self.status(site) == 200, 60)
        mark, body = self.journal(site).with_suffix(".halted"), b'{"x":1}\n'
        aside = self.older(site)
        os.kill(self.hub.children()[site], signal.SIGKILL)
        is_halted = sites.until(mark.is_file, 60) and sites.until(lambda: self.status(site, "/messages", body) == 409)
        os.kill(self.hub.children()[site], signal.SIGKILL)
        os.replace(aside, self.journal(site))
        return is_halted and sites.until(lambda: self.status(site, "/messages", body) == 409, 60) and mark.is_file()

    def burns(self, site):
        """The folder of a site is removed while it takes lines, and it ends."""
        sites.until(lambda: self.status(site) == 200, 60)
        self.lines.share = 1.0
        sites.until(lambda: self.lines.posted_to == site, 5)
        process = self.hub.children()[site]
        for path in (self.data / f"site{site}").iterdir():
            path.unlink(missing_ok=True)
        os.kill(process, signal.SIGKILL)

    def goes_on_without(self, site, others):
        """The site is taken out of the configuration. Of its messages each of the others has what one of them has."""
        held = {}
        sites.until(lambda: not held.update({other: exchange_count(self.ask(self.port + other - 1, "/vector").body,
                                                                   site) for other in others}))
        most = max(held, key=held.__getitem__)  # one of them may just have started
        configured(self.made, self.data, self.port, others, "[through]", f"{site} = {most}")
        self.hub.process.send_signal(signal.SIGHUP)
        return sites.until(lambda: len(vectors(self.ask, self.port, others)) == 1, 60)


def exchange_count(vector, site):
    """How many messages of a site a vector counts."""
    counts = dict(pair.split(":") for pair in vector.decode().strip().split(",") if ":" in pair)
    return int(counts.get(str(site), 0))


def configured(made, data, port, numbers, *lines):
    """The configuration of sites, each with a folder of its own. A post is answered when a peer holds it."""
    return made.configured(data / "site{site}", numbers, port, *lines, acknowledge=1, acknowledge_seconds=3)


def entries_of(path, origin):
    """The messages of a site in the journal of another one, in their order."""
    runs = [run for line in sites.kept(path) if line.startswith(b"delta ")
            for run in exchange.delta_in(line.replace(b"\t", b"\n") + b"\n")]
    return {first + place: message for its, first, messages in map(tuple, runs) if its == origin
            for place, message in enumerate(messages)}


def numbers_of(lines, site):
    """The messages that a site acknowledged as taken, by number."""
    return {it.outcome["number"]: exchange.message_in(it.line)[0] for it in lines.acknowledged
            if it.site == site and it.outcome["outcome"] == "TAKEN"}


def judged(it, program, burnt, others, texts):
    """What must be in the end, by what it says."""
    lines = it.lines
    held = messages_of(texts.get("archive", b"").splitlines())
    sure = messages_of([one.line for one in lines.acknowledged])
    sent = sure | messages_of(lines.given_up)
    own = {(site, number): line for site in others for number, line in enumerate(sites.own_lines(it.journal(site)), 1)}
    taken = [one for one in lines.acknowledged if one.outcome["outcome"] == "TAKEN" and one.site in others]
    burnt_ones, there = numbers_of(lines, burnt), entries_of(it.journal(others[0]), burnt)
    forks = [found.group() for found in FORKS.finditer(it.hub.text())]
    yield "both sites answer equal texts", len(texts) == len(kills.oracle.TEXT), ""
    yield f"each of {len(lines.acknowledged)} outcomes is right", all(map(kills.is_right, lines.acknowledged)), ""
    yield f"each of {len(taken)} acknowledged numbers has its line", all(own.get((one.site, one.outcome["number"]))
                                                                         == one.line for one in taken), ""
    lacking = [number for number, message in burnt_ones.items() if there.get(number) != message]
    yield f"each of {len(burnt_ones)} numbers of the site that burnt has its message at another one", bool(
        burnt_ones) and not lacking, str(lacking[:9])
    yield f"each of {len(sure)} acknowledged messages is held", sure <= held, f"{len(sure - held)} are lost"
    yield f"each of {len(held)} messages that are held was sent", held <= sent, f"{len(held - sent)} are made up"
    yield "no site refused a delta", not forks, "\n".join(forks[:5])
    yield "the texts are those of tests/oracle", kills.are_right(texts, held), ""
    yield "the texts are those of the program", bool(texts) and kills.program_texts(program, texts), ""
    yield (f"{lines.kills} kills, {it.full} full disks and {it.replaced} replaced journals, and all lines "
           "were sent in time", (lines.kills > 0 and it.full > 0 and it.replaced > 0 and not lines.posts), "")
    yield "a third of the lines at least were acknowledged", 3 * len(lines.acknowledged) >= lines.all, ""
    wrong = [done.text.decode() + done.errors.decode() for done in (
        harness.run([*it.hub.command, f"--site={site}", "--audit"], env=it.hub.variables) for site in others)
             if done.status]
    yield "the record of each site is whole", not wrong, "\n".join(wrong)


def tried(asked, it, program):
    """Whether a hub does what it must, to which all of this happens."""
    halted, burnt = it.r.sample(range(1, SITES + 1), 2)
    others = sorted(set(range(1, SITES + 1)) - {burnt})
    with it.hub as hub:
        sites.until(lambda: all(it.status(site) == 200 for site in range(1, SITES + 1)), 60)
        clients = [threading.Thread(target=client,
                                    args=(random.Random(it.r.random()), it.ask, it.port, it.lines), daemon=True)
                   for _ in range(kills.CLIENTS)]
        for one in clients:
            one.start()
        it.acts(asked.kills)
        right = [reported(f"site {halted} halts on an older copy, and stays halted", it.halts(halted))]
        it.burns(burnt)
        right.append(reported(f"the others go on without site {burnt}", it.goes_on_without(burnt, others)))
        for one in clients:
            one.join(max(1, it.lines.until + 30 - time.monotonic()))
        print(f"failures that the clients saw: {dict(it.lines.failures)}; lines given up: {len(it.lines.given_up)}")
        sites.until(lambda: len(vectors(it.ask, it.port, others)) == 1, 60)
        texts = same_texts(it.ask, it.port, others)
        right.append(reported("the site that was halted is halted",
                              it.status(halted, "/messages", b'{"x":1}\n') == 409))
    right += [reported(*one) for one in judged(it, program, burnt, others, texts)]
    if not all(right):
        print(*hub.text().splitlines()[-40:], sep="\n")
    return right


def check(python, program):
    """Lets clients post while all of this happens, and checks what is there in the end."""
    asked = kills.options(8, 1000)
    if shutil.which("openssl") is None:
        raise sites.Skipped("there is no openssl: apt-get install openssl")
    with contextlib.ExitStack() as stack:
        data = pathlib.Path(stack.enter_context(tempfile.TemporaryDirectory(prefix="hub-fires-")), "hub")
        data.mkdir()
        disks = [stack.enter_context(small_disk(data / f"site{site}", SIZE)) for site in range(1, SITES + 1)]
        if None in disks:
            raise sites.Skipped("nobody may mount a disk here")
        r, port, made = random.Random(asked.seed), sites.free_ports(SITES), secure.Secured(data.with_name("secured"))
        lines = Lines(r, made_lines(r, asked.messages), asked.seconds or 180 + asked.kills * 6 + asked.messages / 20)
        hub = sites.Hub(python, program, data, config=configured(made, data, port, list(range(1, SITES + 1))))
        return tried(asked, Burning(r, made, data, port, hub, lines), program)


if __name__ == "__main__":
    sites.checked(check)
