"""bench/hubs.py [--messages N] [--large N] [--acknowledge N]: measures sites of services/hub on this machine, clients
and all.

- messages a second that are acknowledged at one site, and at three sites that exchange, for posts of 1, 10 and 100
messages by 4 clients: one
  after the other without TLS and roles, with both by an operator, and with both by a bank, in whose name they are;
- how long it takes until a peer shows a message: the median and the 99th of 100, without load and under load;
- a site with a journal of a million messages: its start, its memory, and its first answer.

With --acknowledge the rates of three sites without TLS are measured alone, first as usual and then with posts that N
peers hold when they are answered. With 0 messages, or a journal of 0, that part is left out. The program is that of the
gate, or the one that SCT_SITES names.
"""
import argparse
import contextlib
import http.client
import itertools
import multiprocessing
import os
import pathlib
import statistics
import sys
import tempfile
import threading
import time
sys.path.insert(0, str(pathlib.Path(__file__).resolve().parents[1]))
from bench.generate import messages
from tests import harness, inputs
from tests.hub import secure, sites

CLIENTS, SAMPLES = 4, 300
ROLES = {"operator": ["operator"], "desk": ["desk"], "bank": ["bank BANKDEFF"],
         **{f"site{number}": [f"peer {number}"] for number in range(1, 4)}}
WAYS = {None: "without TLS and roles", "operator": "with TLS, by an operator", "bank": "with TLS, by a bank"}


def connected(port, made, who):
    """A connection of a client, with TLS if it is somebody."""
    if who:
        return http.client.HTTPSConnection("localhost", port, timeout=60, context=made.context(who))
    return http.client.HTTPConnection("127.0.0.1", port, timeout=60)


def posted(port, posts, made=None, who=None):
    """Posts bodies over one connection."""
    connection = connected(port, made, who)
    for body in posts:
        connection.request("POST", "/messages", body)
        answer = connection.getresponse()
        answer.read()
        if answer.status != 200:
            sys.exit(f"a post was answered with status {answer.status}")


def rate(ports, lines, size, made=None, who=None):
    """Messages a second that clients have acknowledged, which post to sites in turn, and the seconds until all sites
    hold all."""
    shares = [lines[client::CLIENTS] for client in range(CLIENTS)]
    work = [(ports[client % len(ports)],
             [b"".join(share[at:at + size]) for at in range(0, len(share), size)], made, who)
            for client, share in enumerate(shares)]
    clients = [multiprocessing.Process(target=posted, args=one) for one in work]
    began = time.monotonic()
    for client in clients:
        client.start()
    for client in clients:
        client.join()
    ended = time.monotonic()
    asked = (lambda port: made.asked(port, "/vector", who="operator")) if who else lambda port: sites.asked(port,
                                                                                                            "/vector")
    sites.until(lambda: len({asked(port).body for port in ports}) == 1, 120)
    return len(lines) / (ended - began), time.monotonic() - ended


def seen_after(port, peer, number):
    """Seconds from the acknowledgement of a message at a site until a peer shows it, and those of the post itself."""
    began = time.monotonic()
    sites.asked(port, "/messages", inputs.instruction(number).encode())
    acknowledged = time.monotonic()
    connection = http.client.HTTPConnection("127.0.0.1", peer, timeout=60)
    while True:
        connection.request("GET", f"/transfers/BANKDEFF/T{number}")
        if b"PENDING" in connection.getresponse().read():
            return time.monotonic() - began, acknowledged - began


def delays(port, peer, first):
    """The median and the 99th of 100, in milliseconds, until a peer shows a message, and until it is acknowledged."""
    both = [seen_after(port, peer, first + number) for number in range(SAMPLES) if not time.sleep(0.01)]
    return [f"{statistics.median(one) * 1000:.1f} {statistics.quantiles(one, n=100)[98] * 1000:.1f}"
            for one in zip(*both)]


def memory(process):
    """The resident memory of a site and its process, in megabytes."""
    return sum(next(int(line.split()[1]) for line in open(f"/proc/{one}/status") if line.startswith("VmRSS"))
               for one in [process, *(its for its, _ in sites.below(process))]) / 1000


@contextlib.contextmanager
def hub_of(python, program, running, who, *more):
    """A hub of some sites, which words may say more of: its ports, and its certificates if it has TLS."""
    port = sites.free_ports(3)
    with tempfile.TemporaryDirectory() as folder:
        data, made = pathlib.Path(folder, "hub"), secure.Secured(f"{folder}/secured", ROLES) if who else None
        config = made.configured(data, list(range(1, running + 1)), port) if who else None
        words = [] if who else [f"--port={port}", "--group=64", f"--sites={','.join(map(str, range(1, running + 1)))}",
                                *more]
        with sites.Hub(python, program, data, *words, config=config):
            ports = [port + site for site in range(running)]
            sites.until(lambda: all(made.is_well(one) if who else sites.is_well(one) for one in ports))
            yield ports, made


def rates(python, program, many):
    """The rates of each way, one after the other. Of a bank not more lines are posted than it may post at once."""
    lines = [inputs.instruction(number).encode() for number in range(many)]
    for running, (size, share) in itertools.product((1, 3), ((1, 20), (10, 4), (100, 1))):
        for who, way in WAYS.items():
            with hub_of(python, program, running, who) as (ports, made):
                its = lines[:min(many // share, 20_000) if who == "bank" else many // share]
                a_second, rest = rate(ports, its, size, made, who)
                print(f"{running} sites, posts of {size}, {way}: {a_second:.0f} messages a second acknowledged; all "
                      f"sites equal {rest:.2f} s after the last", flush=True)


def acknowledged(python, program, many, peers):
    """The rates of three sites whose posts are answered at once, and after some peers hold them, in turn."""
    lines = [inputs.instruction(number).encode() for number in range(many)]
    for (size, share), more in itertools.product(((1, 20), (10, 4), (100, 1)), (0, peers)):
        with hub_of(python, program, 3, None, f"--acknowledge={more}") as (ports, _):
            a_second, rest = rate(ports, lines[:many // share], size)
            print(f"3 sites, posts of {size}, held by {more} peers: {a_second:.0f} messages a second acknowledged; "
                  f"all sites equal {rest:.2f} s after the last", flush=True)


def shown(python, program, many):
    """How long it takes until a peer shows a message."""
    with hub_of(python, program, 3, None) as (ports, _):
        print("a peer shows a message, without load (ms, median and 99th):", delays(*ports[:2], 10 ** 6)[0], flush=True)
        ends = threading.Event()
        extra = [line.encode() for line in messages.lines(many * 4, 7)]
        load = threading.Thread(target=background, args=(ports, extra, ends), daemon=True)
        load.start()
        seen, acknowledged = delays(*ports[:2], 2 * 10 ** 6)
        ends.set()
        load.join()
        print(f"a peer shows a message, under a load of {LOAD} messages a second: {seen}; acknowledged after "
              f"{acknowledged}", flush=True)


LOAD = 1000


def background(ports, lines, ends):
    """Posts 10 messages at a time to the sites in turn, at a steady rate."""
    posts, began = itertools.cycle([lines[at:at + 10] for at in range(0, len(lines), 10)]), time.monotonic()
    for number, (post, port) in enumerate(zip(posts, itertools.cycle(ports))):
        if ends.is_set():
            return
        time.sleep(max(0, began + number * 10 / LOAD - time.monotonic()))
        posted(port, [b"".join(post)])


def large_journal(folder, many):
    """Makes a journal of a number of messages."""
    pathlib.Path(folder).mkdir()
    with open(f"{folder}/site1.journal", "wb") as journal:
        journal.write(b" site 1 64\n")
        journal.writelines(b" " + line.encode() for line in messages.lines(many))
        journal.write(b"\t")


def large_site(hub, port, many):
    """Measures a site that starts with a large journal."""
    began = time.monotonic()
    hub.start()
    sites.until(lambda: sites.is_well(port), 300)
    started = time.monotonic() - began
    before = memory(hub.process.pid)
    began = time.monotonic()
    sites.asked(port, "/transfers/BANKDEFF/T1", timeout=300)
    first = time.monotonic() - began
    began = time.monotonic()
    sites.asked(port, "/transfers/BANKDEFF/T1", timeout=300)
    print(f"a site with a journal of {many}: starts in {started:.1f} s, has {before:.0f} MB; its first "
          f"answer takes {first:.1f} s, and then {1000 * (time.monotonic() - began):.1f} ms; it has "
          f"{memory(hub.process.pid):.0f} MB", flush=True)


def large(python, program, many):
    with tempfile.TemporaryDirectory() as folder:
        port = sites.free_ports(1)
        large_journal(f"{folder}/hub", many)
        with sites.Hub(python, program, f"{folder}/hub", "--site=1", f"--port={port}") as hub:
            hub.kill()
            large_site(hub, port, many)


def main():
    it = argparse.ArgumentParser(description=__doc__, formatter_class=argparse.RawDescriptionHelpFormatter)
    it.add_argument("--messages", type=int, default=40_000)
    it.add_argument("--large", type=int, default=1_000_000)
    it.add_argument("--acknowledge", type=int, help="measure posts that so many peers hold, beside others")
    asked = it.parse_args()
    python, program = sites.interpreter(), harness.program()
    print("load averages of the machine before:", *os.getloadavg(), flush=True)
    if asked.acknowledge:
        return acknowledged(python, program, asked.messages, asked.acknowledge)
    if asked.messages:
        rates(python, program, asked.messages)
        shown(python, program, asked.messages)
    if asked.large:
        large(python, program, asked.large)


if __name__ == "__main__":
    main()
