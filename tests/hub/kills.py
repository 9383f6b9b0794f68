"""kills.py: sites that are killed at any moment lose nothing and make nothing up.

Three sites run after one command, each with a process `serve` below it. Several clients post lines to any of them:
messages, some of them twice and at two sites, messages that contradict each other, refused lines and blank ones. A
client sends a post again, to any site, until it is acknowledged; some posts it gives up after the first failure.
Meanwhile sites are killed by signal 9, and every second time the process of one, and start again. In the end:

- each outcome is the right one, and each acknowledged number has its line in that site's journal;
- each acknowledged message is held, and each message that is held was sent;
- no site ever refused a delta by 42 or 43;
- all sites answer equal archive, status and totals texts, and these are the right ones by tests/oracle and by the
program;
- lines were acknowledged, and a kill met posts under way.

Sites and clients know each other by certificates, and clients have roles; with --plain there are neither. At the end
the record of each site is whole, by an audit.

`python3 -m tests.hub.kills --kills 100 --messages 20000` is the long form. The gate runs the short one. It ends after
--seconds in any case.
"""
import argparse
import collections
import contextlib
import functools
import http.client
import json
import os
import pathlib
import random
import re
import shutil
import signal
import tempfile
import threading
import time
from tests import harness, inputs
from tests.harness import reported
from tests.hub import secure, sites
from tests.oracle import status as oracle
from tests.oracle.exchange import message_in

SITES, CLIENTS = 3, 5
WRONG = re.compile(r".*(?:\b(?:Fork|OwnAhead)\b|Traceback|takes no more messages|cannot start|must not start).*")
FAILURES = (OSError, http.client.HTTPException)
Sent = collections.namedtuple("Sent", "site line outcome")


def made_lines(r, many):
    """A number of lines in any order: messages, repeats, contradictions, refused lines and blank ones."""
    lines = inputs.long_input(many * 9 // 10).split(b"\n")
    instructions = [json.loads(line) for line in lines if b'"IntrBkSttlmAmt"' in line and b'"CdtrAcct"' in line]
    lines += [json.dumps({**one, "IntrBkSttlmAmt": "7.77"}).encode() for one in r.sample(instructions, many // 50)]
    lines += r.sample(lines, max(0, many - len(lines)))
    r.shuffle(lines)
    return lines[:many]


class Lines:
    """The lines as posts that the clients fetch, and what is known of each. After some seconds no client goes on."""

    def __init__(self, r, lines, seconds):
        self.until = time.monotonic() + seconds
        self.lock, self.posts, self.all, self.left = threading.Lock(), collections.deque(), len(lines), len(lines)
        while lines:
            size = r.choice([1, 3, 10, 40])
            self.posts.append(lines[:size])
            lines = lines[size:]
        self.given_up, self.acknowledged, self.failures = [], [], collections.Counter()
        self.share = 0.0  # of the lines, how much may be sent by now
        self.posted, self.posted_to, self.kills = threading.Event(), 0, 0

    def is_over(self):
        return time.monotonic() > self.until

    def sent(self):
        """The share of the lines that clients have fetched."""
        return 1 - self.left / self.all

    def next(self):
        """The next post, when it is time for it. None if all are sent."""
        while not self.is_over():
            with self.lock:
                if not self.posts:
                    return None
                if self.all - self.left <= self.share * self.all:
                    self.left -= len(self.posts[0])
                    return self.posts.popleft()
            time.sleep(0.005)


def client(r, ask, port, lines):
    """Posts lines to any sites, until all are sent."""
    for post in iter(lines.next, None):
        again = r.choices([1, 2], [9, 1])[0]
        gives_up = r.random() < 0.2
        while again and not lines.is_over():
            site = r.randint(1, SITES)
            lines.posted_to = site
            lines.posted.set()
            try:
                answer = ask(port + site - 1, "/messages", b"\n".join(post), timeout=20)
                if answer.status != 200:
                    raise http.client.HTTPException(f"status {answer.status}")
            except FAILURES as fault:
                with lines.lock:
                    lines.failures[type(fault).__name__] += 1
                    if gives_up:
                        lines.given_up += post
                        break
                time.sleep(r.uniform(0, 0.1))
                continue
            with lines.lock:
                lines.acknowledged += [Sent(site, post[it["line"] - 1], it) for it in sites.outcomes(answer)]
            again -= 1


def victim(r, hub, lines, number):
    """A process to kill: of a site, or the process `serve` of one. Half of the times it is one that a client posts to
    just now."""
    while not lines.is_over():
        running = hub.served() if number % 2 else hub.children()
        if running and r.random() < 0.5:
            return r.choice(sorted(running.values()))
        lines.posted.clear()
        process = running.get(lines.posted_to) if lines.posted.wait(0.5) else None
        if process:
            time.sleep(r.uniform(0, 0.01))
            return process


def killed(r, hub, lines, kills):
    """Kills sites, each at any moment, and lets the clients go on meanwhile."""
    for number in range(1, kills + 1):
        lines.share = (number + 2) / (kills + 1)
        # on a slow machine sites need their time to start
        sites.until(lambda: lines.sent() >= number / (kills + 1), 20)
        time.sleep(r.uniform(0, 0.1))
        process = victim(r, hub, lines, number)
        if process is None:
            return print(f"only {number - 1} kills in the time that there was")
        with contextlib.suppress(ProcessLookupError):
            os.kill(process, signal.SIGKILL)
        lines.kills += 1
        if number % 10 == 0 or number == kills:
            print(f"{number} kills, {len(lines.acknowledged)} lines acknowledged", flush=True)
    lines.share = 1.0


# ---- what must be

def is_right(sent):
    """Whether the outcome of a line is right, but for its number."""
    _, refusal = message_in(sent.line)
    if refusal is None:
        return sent.outcome["outcome"] in ("TAKEN", "REPEAT")
    return sent.outcome["outcome"] == "REFUSED" and sites.refusal_of(sent.outcome) == refusal


def journals(folder):
    """The lines of each site's journal, by site and number, once nobody has it."""
    return {(site, number): line for site in range(1, SITES + 1)
            for number, line in enumerate(sites.own_lines(folder / f"site{site}.journal"), 1)}


def is_kept(lines, kept):
    """Whether each number that was acknowledged has its line in the journal of that site."""
    taken = [sent for sent in lines.acknowledged if sent.outcome["outcome"] == "TAKEN"]
    return all(kept.get((sent.site, sent.outcome["number"])) == sent.line for sent in taken)


def messages_of(lines):
    """The messages in some lines."""
    return {message for message, refusal in map(message_in, lines) if refusal is None}


def same_texts(ask, port, numbers=range(1, SITES + 1)):
    """The archive, status and totals texts, if all sites answer equal ones."""
    texts = {name: {ask(port + site - 1, f"/{name}").body for site in numbers} for name in oracle.TEXT}
    return {name: all_texts.pop() for name, all_texts in texts.items() if len(all_texts) == 1}


def are_right(texts, held):
    """Whether texts are those of the definitions on a set of messages."""
    return all(texts.get(name) == text_of(held).encode() for name, text_of in oracle.TEXT.items())


def program_texts(program, texts):
    """Whether the program answers the same texts on the archive."""
    return all(harness.run([program, name], texts["archive"]).text == texts[name] for name in oracle.TEXT)


def vectors(ask, port, numbers=range(1, SITES + 1)):
    return {ask(port + site - 1, "/vector").body for site in numbers}


def audits(hub, numbers=range(1, SITES + 1)):
    """What an audit says of the record of each site, if it finds something wrong."""
    for site in numbers:
        done = harness.run([*hub.command, f"--site={site}", "--audit"], env=hub.variables)
        if done.status:
            yield f"site {site}: {done.text.decode()}{done.errors.decode()}"


def judged(program, asked, lines, texts, kept, log):
    """What must be in the end, by what it says."""
    held = messages_of(texts.get("archive", b"").splitlines())
    sure, sent = (messages_of(them) for them in ([it.line for it in lines.acknowledged],
                                                 [it.line for it in lines.acknowledged] + lines.given_up))
    wrong = [found.group() for found in WRONG.finditer(log)]
    yield "all sites answer equal texts", len(texts) == len(oracle.TEXT), ""
    yield f"each of {len(lines.acknowledged)} outcomes is right", all(map(is_right, lines.acknowledged)), ""
    yield f"each acknowledged number has its line in one of {len(kept)} journal lines", is_kept(lines, kept), ""
    yield f"each of {len(sure)} acknowledged messages is held", sure <= held, f"{len(sure - held)} are lost"
    yield f"each of {len(held)} messages that are held was sent", held <= sent, f"{len(held - sent)} are made up"
    yield "no site refused a delta by 42 or 43, or ended by itself", not wrong, "\n".join(wrong[:5])
    yield "the texts are those of tests/oracle", are_right(texts, held), ""
    yield "the texts are those of the program", len(texts) == len(oracle.TEXT) and program_texts(program, texts), ""
    yield (f"all {asked.kills} kills were made, and all lines were sent in time",
           lines.kills == asked.kills and not lines.posts, "")
    yield "half of the lines at least were acknowledged", 2 * len(lines.acknowledged) >= asked.messages, ""
    yield "kills met posts under way", sum(lines.failures.values()) > 0, ""


def asking(asked, folder, port, data):
    """How clients ask, and the words or the configuration of the hub."""
    if asked.plain:
        return sites.asked, [f"--port={port}"], None
    made = secure.Secured(pathlib.Path(folder, "secured"))
    config = made.configured(data, list(range(1, SITES + 1)), port)
    return functools.partial(made.asked, context=made.context("gateway")), [], config


def check(python, program):
    """Lets clients post and sites be killed, and checks what is there in the end."""
    asked = options()
    if not asked.plain and shutil.which("openssl") is None:
        raise sites.Skipped("there is no openssl: apt-get install openssl")
    with tempfile.TemporaryDirectory(prefix="hub-kills-") as folder:
        port, data = sites.free_ports(SITES), pathlib.Path(folder, "hub")
        ask, words, config = asking(asked, folder, port, data)
        return killed_hub(asked, program, ask, port, sites.Hub(python, program, data, *words, config=config))


def killed_hub(asked, program, ask, port, running):
    """Whether a hub that runs does what it must, while its sites are killed."""
    r = random.Random(asked.seed)
    lines = Lines(r, made_lines(r, asked.messages), asked.seconds or 300 + asked.kills * 5 + asked.messages / 20)
    with running as hub:
        sites.begun(hub.process, lambda: all(ask(port + site, "/health").status == 200 for site in range(SITES)))
        clients = [threading.Thread(target=client, args=(random.Random(r.random()), ask, port, lines), daemon=True)
                   for _ in range(CLIENTS)]
        for one in clients:
            one.start()
        killed(r, hub, lines, asked.kills)
        for one in clients:
            one.join(max(1, lines.until + 30 - time.monotonic()))
        print(f"failures that the clients saw: {dict(lines.failures)}; lines given up: {len(lines.given_up)}")
        sites.until(lambda: len(vectors(ask, port)) == 1, 60)
        print("vectors:", *sorted(vectors(ask, port)))
        texts = same_texts(ask, port)
    right = [reported(*one) for one in judged(program, asked, lines, texts, journals(hub.folder), hub.text())]
    wrong = list(audits(hub))
    right.append(reported("the record of each site is whole, and has each line of its journal", not wrong,
                          "\n".join(wrong)))
    if not all(right):
        print(*hub.text().splitlines()[-30:], sep="\n")
    return right


def options(kills=6, messages=1000):
    it = argparse.ArgumentParser(description=__doc__, formatter_class=argparse.RawDescriptionHelpFormatter)
    it.add_argument("--kills", type=int, default=kills)
    it.add_argument("--messages", type=int, default=messages)
    it.add_argument("--seed", type=int, default=20261127)
    it.add_argument("--seconds", type=float, help="after which the clients end")
    it.add_argument("--plain", action="store_true", help="without TLS and roles")
    return it.parse_args()


if __name__ == "__main__":
    sites.checked(check)
