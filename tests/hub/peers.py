"""peers.py: sites of services/hub and peers that are odd, slow, an hour behind, or another site than they should be."""
import json
import hashlib
import contextlib
import http.server
import os
import re
import signal
import threading
import time
import urllib.parse
from bench.generate import messages
from tests import harness, inputs
from tests.harness import SERVICES, TOP
from tests.hub import sites
from tests.hub.sites import asked, until
from tests.hub.trial import lines_of
from tests.hub.troubles import tried
from tests.oracle import exchange

VERSION = (TOP / "VERSION").read_text().strip()


class Odd(http.server.BaseHTTPRequestHandler):
    """A peer that answers what it is asked to."""
    protocol_version = "HTTP/1.1"

    def do_GET(self):
        self.server.asked += 1
        self.server.paths.append((time.monotonic(), self.path))
        self.server.answer(self)

    def send(self, body, length=None, status=200, vector="-", site="2/64", version=VERSION, **headers):
        its = {"Content-Length": str(len(body) if length is None else length),
               "Niluppang-Vector": vector, "Niluppang-Site": site,
               "Niluppang-Version": version, **headers}
        self.send_response(status)
        for name, value in its.items():
            if value is not None:
                self.send_header(name, value)
        self.end_headers()
        with contextlib.suppress(OSError):
            self.wfile.write(body)
        self.close_connection = length is not None

    def endless(self):
        self.send_response(200)
        for name, value in ("Niluppang-Vector", "-"), ("Niluppang-Site", "2/64"), ("Niluppang-Version", VERSION):
            self.send_header(name, value)
        self.end_headers()
        with contextlib.suppress(OSError):
            while True:
                self.wfile.write(b"x" * (1 << 16))

    def interim(self):
        """Interim answers, one after the other, until the other side ends the connection."""
        with contextlib.suppress(OSError):
            while True:
                self.wfile.write(b"HTTP/1.1 100 Continue\r\n\r\n" * 1000)
                self.server.interim += 1
        self.close_connection = True

    def log_message(self, *_):
        pass


@contextlib.contextmanager
def odd_peer(answer):
    server = http.server.ThreadingHTTPServer(("127.0.0.1", 0), Odd)
    server.daemon_threads = True
    server.answer, server.asked, server.paths, server.interim = answer, 0, [], 0
    threading.Thread(target=server.serve_forever, args=(0.05,), daemon=True).start()
    try:
        yield server
    finally:
        server.shutdown()
        server.server_close()


def memory(process):
    return next(int(line.split()[1]) for line in open(f"/proc/{process}/status") if line.startswith("VmRSS")) / 1000


def faults(port):
    """What a site says of its peers."""
    return sites.json.loads(asked(port, "/health").body)["peers"]


def survives_odd_peers(trial):
    """Peers that answer rubbish, half a delta, too much, nothing, or that are another site."""
    delta = inputs.delta(2, 1, 1, 2, 3)
    one, other = delta.split(b"\n")[2], inputs.delta(3, 1, 4).split(b"\n")[2]
    kinds = {
        "rubbish": lambda it: it.send(os.urandom(5000)),
        "half a delta": lambda it: it.send(delta[:len(delta) // 2]),
        "half a delta, cut off": lambda it: it.send(delta[:len(delta) // 2], len(delta)),
        "a delta and more": lambda it: it.send(delta + b"x\n"),
        "an error": lambda it: it.send(b"no", status=500),
        "a vector that is none": lambda it: it.send(delta, vector="1:2:3,x"),
        "a vector with a number that is none": lambda it: it.send(delta, vector="-5000:7"),
        "no vector": lambda it: it.send(delta, vector=None),
        "another site": lambda it: it.send(delta, site="3/64"),
        "another group": lambda it: it.send(delta, site="2/65"),
        "no site": lambda it: it.send(delta, site=None),
        "another version": lambda it: it.send(delta, version="9.0.0"),
        "entries of a site that is none": lambda it: it.send(inputs.delta(99, 1, 1)),
        "a gap": lambda it: it.send(inputs.delta(2, 5, 1)),
        "entries of two sites": lambda it: it.send(b"delta 2\norigin 2 1 1\n" + one
                                                   + b"\norigin 3 1 1\n" + other + b"\nend 2\n"),
        "entries of another site behind a tab": lambda it: it.send(
            b"delta 2\norigin 2 1 1\n" + one + b"\torigin 3 1 1\t" + other + b"\nend 1\n"),
        "entries of another site behind an end": lambda it: it.send(
            b"delta 2\norigin 2 1 1\n" + one + b"\torigin 3 1 1\t" + other + b"\tend 2\nend 1\n"),
        "no answer": lambda it: time.sleep(3),
        "no end": Odd.endless
    }
    with odd_peer(kinds["rubbish"]) as server:
        words = ["--silence=1", "--hear=0", f"--peer=2=http://127.0.0.1:{server.server_port}"]
        with trial.site(trial.fresh("odd"), *words, is_well=False) as hub:
            until(lambda: sites.is_well(hub.port))
            for place, (kind, answer) in enumerate(kinds.items()):
                server.answer, before = answer, server.asked
                is_asked = until(lambda: server.asked > before)
                took = until(lambda: asked(hub.port, "/messages", lines_of(100 + place, 1)).status == 200)
                its = until(lambda: faults(hub.port)["2"]) and asked(hub.port, "/metrics").status == 200
                yield (f"a peer that answers {kind}: the site goes on, and says so",
                       is_asked and took and its and sites.is_well(hub.port))
            yield "none of it is accepted", asked(hub.port, "/vector").body == b"1:%d\n" % len(kinds)
            yield "an answer without an end takes no memory", memory(hub.process.pid) < 150
            metrics = asked(hub.port, "/metrics").body
            yield "a peer that fails is counted", int(re.search(rb'peer_failures_total\{peer="2"\} (\d+)',
                                                                metrics).group(1)) >= len(kinds)
            yield from is_not_sent_on(server, hub)
            server.answer = lambda it: it.send(delta, vector="2:3")
            yield "what is right then is accepted", until(lambda: asked(hub.port,
                                                                        "/vector").body == b"1:%d,2:3\n" % len(kinds))
            yield "and the peer is well", until(lambda: not faults(hub.port)["2"])
            server.answer = lambda it: it.send(b"delta 2\nend 0\n", vector="2:9,5:1")
            yield "how far a peer is ahead is counted", until(lambda: b'peer_lag_entries{peer="2"} 7\n'
                                                              in asked(hub.port, "/metrics").body)
            server.answer = lambda it: it.send(inputs.delta(2, 3, 9), vector="2:3")
            yield "another message under a known number: nothing more of that site is accepted", until(
                lambda: b"42 Fork: site 2 has another entry 3 of site 2" in asked(hub.port, "/health").body)
            yield "which is logged once", hub.text().count("nothing of site 2 is accepted any more") == 1
            yield "and is not well", b"niluppang_is_well 0\n" in asked(hub.port,
                                                                       "/metrics").body and not sites.is_well(hub.port)
            yield "and takes messages", asked(hub.port, "/messages", lines_of(200, 1)).status == 200


def ends_interim_answers(trial):
    """A peer that sends interim answers without an end, or the head of an answer byte by byte."""
    right = inputs.delta(2, 1, 1)

    def drips(it):
        with contextlib.suppress(OSError):
            for byte in b"HTTP/1.1 200 OK\r\nX: " + b"x" * 400:
                it.wfile.write(bytes([byte]))
                time.sleep(0.2)
        it.close_connection = True

    with odd_peer(lambda it: it.send(right, vector="2:1")) as server:
        words = ["--silence=1", "--hear=0", f"--peer=2=http://127.0.0.1:{server.server_port}"]
        with trial.site(trial.fresh("interim"), *words, is_well=False) as hub:
            for kind, answer in ("interim answers without an end", Odd.interim), ("a head byte by byte", drips):
                well = until(lambda: asked(hub.port, "/vector").body == b"2:1\n" and not faults(hub.port)["2"])
                server.answer = answer
                yield f"a peer that sends {kind}: the site says so", well and until(lambda: faults(hub.port)["2"], 60)
                server.answer = lambda it: it.send(right, vector="2:1")
            before = server.interim
            yield "and reads them no more", until(lambda: not faults(hub.port)["2"]) and server.interim == before
            yield "interim answers are few", server.interim < 3000, str(server.interim)


def is_not_sent_on(server, hub):
    """A peer that sends the site to another address."""
    with odd_peer(lambda it: it.send(inputs.delta(2, 1, 1), vector="2:1")) as other:
        server.answer = lambda it: it.send(b"", status=302, Location=f"http://127.0.0.1:{other.server_port}/delta")
        before = server.asked
        until(lambda: server.asked > before + 2)
        yield "a site is not sent on to another address", other.asked == 0 and "status 302" in faults(hub.port)["2"]


ENDED = """
import asyncio, pathlib, sys, types
sys.path.insert(0, sys.argv[1])
from hub import exchange, seen

async def is_ended(turns):
    '''Whether a peer ends that is ended so many turns of the loop after it is asked, while its answer comes.'''
    async def get(*_, **__):
        await asyncio.sleep(0)
        raise ConnectionError
    holding = types.SimpleNamespace(vector="-", counts=[0] * 64, digests={}, known={})
    keeper = types.SimpleNamespace(group=64, number=1, holding=holding, marks=types.SimpleNamespace(forks={}))
    its = seen.Seen(pathlib.Path("none"))
    peer = exchange.Peer(2, "http://localhost", [], keeper, 1.0, "0.3.0", {}, None, its)
    await peer.session.close()
    peer.session.get = get
    peer.task = asyncio.ensure_future(peer.follow())
    for _ in range(turns):
        await asyncio.sleep(0)
    done, _ = await asyncio.wait([asyncio.ensure_future(peer.end())], timeout=5)
    return bool(done)

async def main():
    print([turns for turns in range(12) if not await is_ended(turns)])

asyncio.run(main())
"""


def ends_at_once(trial):
    """A peer that is ended while its answer comes, as at each SIGHUP: else the site would never have the peers of its
    new configuration."""
    done = harness.run([trial.python, "-c", ENDED, SERVICES], seconds=120)
    yield "it ends, at whichever moment", done.text == b"[]\n", (done.text + done.errors).decode()


def halts_at_one_more(trial):
    """A peer that counts one message of this site more than the site has."""
    with odd_peer(lambda it: it.send(b"1:4\n" if "/vector" in it.path else b"delta 2\nend 0\n",
                                     vector="1:4")) as server:
        folder, words = trial.fresh("one-more"), ["--hear=0", f"--peer=2=http://127.0.0.1:{server.server_port}"]
        folder.mkdir()
        sites.write_journal(folder / "site1.journal", 1, 64, lines_of(1, 3).splitlines())
        with trial.site(folder, *words, is_well=False) as hub:
            yield "one message that was lost halts a site", until(
                lambda: b"43 OwnAhead: site 2 has 4 messages of this site, which has 3" in asked(hub.port,
                                                                                                 "/health").body)
            yield "and it gives its number to no other message", asked(hub.port, "/messages",
                                                                       lines_of(4, 1)).status == 409


def hears_slow_peers(trial):
    """A peer that takes longer than a site waits at first: the site waits twice as long after each failure."""
    def answer(it):
        time.sleep(3.2)
        it.send(b"delta 2\nend 0\n" if "/delta" in it.path else b"-\n", vector="-")
    with odd_peer(answer) as server:
        words = ["--silence=0.5", f"--peer=2=http://127.0.0.1:{server.server_port}"]
        with trial.site(trial.fresh("slow"), *words, is_well=False) as hub:
            yield "a slow peer is heard in the end", until(lambda: sites.is_well(hub.port))


def asks_seldom(trial):
    """While nothing happens, a site asks a peer that lets it wait seldom."""
    with trial.site(trial.fresh("quiet")) as hub:
        with trial.site(trial.fresh("asks"), f"--peer=1=http://127.0.0.1:{hub.port}", number=2):
            began = number(hub.port)
            time.sleep(4)
            yield "a peer that waits is asked once in some seconds", number(hub.port) - began < 12


def number(port):
    """How many requests for deltas a site had."""
    found = re.search(rb"niluppang_deltas_total (\d+)", asked(port, "/metrics").body)
    return int(found.group(1))


def catches_up(trial):
    """A peer that was away for an hour, and one that asks while messages come."""
    with trial.site(trial.fresh("first")) as hub:
        lines = list(messages.lines(14_000))
        for at in range(0, 14_000, 2000):
            asked(hub.port, "/messages", "".join(lines[at:at + 2000]).encode())
        with trial.site(trial.fresh("behind"), f"--peer=1=http://127.0.0.1:{hub.port}", number=2) as peer:
            yield "a peer an hour behind catches up", until(lambda: asked(peer.port, "/vector").body == b"1:14000\n",
                                                            sites.LONGEST)
            pieces = [line for line in sites.kept(peer.folder / "site2.journal") if line.startswith(b"delta ")]
            yield "and is given the delta in several pieces of one site each", len(pieces) > 1 and all(
                len(re.findall(rb"\torigin ", line)) == 1 and len(line) < 5 << 20 for line in pieces)
            yield "and answers the same", asked(peer.port, "/archive").body == asked(hub.port, "/archive").body
            asked(hub.port, "/messages", lines_of(1, 1))
            asked(hub.port, "/messages", lines_of(2, 1))
            seen = until(lambda: b"PENDING" in asked(peer.port, "/transfers/BANKDEFF/T2").body)
            yield "and then sees each message soon", seen
            held = asked(peer.port, "/archive").body
            hub.kill()
            peer.kill()
    with trial.site(peer.folder, "--hear=0", f"--peer=1=http://127.0.0.1:{hub.port}", number=2) as again:
        yield "it starts again without its peer, and holds the same", asked(again.port, "/archive").body == held


def asks_for_entries(trial):
    """A site asks a peer for entries of one site, above what it holds of it, in as many bytes as it takes at once."""
    with odd_peer(lambda it: it.send(inputs.delta(2, 1, 1), vector="2:1")) as server:
        with trial.site(trial.fresh("entries"), "--hear=0", f"--peer=2=http://127.0.0.1:{server.server_port}",
                        is_well=False) as hub:
            until(lambda: asked(hub.port, "/vector").body == b"2:1\n")
            seen = until(lambda: [path for _, path in server.paths if path.startswith("/delta")][3:])
            asks = [dict(urllib.parse.parse_qsl(path.partition("?")[2])) for _, path in server.paths
                    if path.startswith("/delta")]
            yield "it names the site, its vector, the bytes and the seconds", bool(seen) and [asks[0], asks[-1]] == [
                {"of": "2", "have": have, "most": str(4 << 20), "wait": wait}
                for have, wait in (("-", asks[0]["wait"]), ("2:1", "0.5"))], str(asks)


def asks_on(trial):
    """A peer hands on the entries of a retired site one by one: it is asked for the next one as soon as one came, and
    then seldom."""
    many, none = 20, b"delta 2\nend 0\n"

    def answer(it):
        words = dict(urllib.parse.parse_qsl(it.path.partition("?")[2]))
        next_one = exchange.vector_in(words.get("have", "-")).get(5, 0) + 1
        it.send(inputs.delta(5, next_one, next_one) if words.get("of") == "5" and next_one <= many else none,
                vector=f"5:{many}")

    with odd_peer(answer) as server:
        words = ["--hear=0", f"--peer=2=http://127.0.0.1:{server.server_port}", "--through=5=2"]
        with trial.site(trial.fresh("on"), *words, is_well=False) as hub:
            def turns():
                """The place of each question for entries of the retired site among all questions for entries, and when
                it came."""
                asks = [(at, path) for at, path in server.paths if path.startswith("/delta")]
                return [(place, at) for place, (at, path) in enumerate(asks) if "of=5" in path]

            taken = until(lambda: asked(hub.port, "/vector").body == b"5:%d\n" % many and len(turns()) > many + 2)
            places, times = zip(*turns())
            yield "it is asked for the next entry in each turn", taken and places[many - 1] - places[0] == 2 * (
                many - 1), str(places)
            pauses = [after - before for before, after in zip(times[many:], times[many + 1:])]
            yield "and when none comes, after some seconds", min(pauses) > 1.9, str(pauses)


def understands_an_older_peer(trial):
    """A peer of version 0.3.0 knows no number of bytes: it answers with up to 32 MiB, and asks without one."""
    site, many = exchange.Site(2, 64), 14_000
    for line in messages.lines(many):
        site.take(exchange.message_in(line.encode())[0])
    whole, none = exchange.delta_text(site.above({})).encode(), b"delta 2\nend 0\n"

    def answer(it):
        words = dict(urllib.parse.parse_qsl(it.path.partition("?")[2]))
        held = exchange.vector_in(words.get("have", "2:1")).get(2, 0)
        it.send(none if held else whole, vector=f"2:{many}", version="0.3.0")

    with odd_peer(answer) as server:
        words = ["--hear=0", f"--peer=2=http://127.0.0.1:{server.server_port}"]
        with trial.site(trial.fresh("older"), *words, is_well=False) as hub:
            taken = until(lambda: asked(hub.port, "/vector").body == b"2:%d\n" % many, sites.LONGEST)
            its = [line for line in sites.kept(hub.folder / "site1.journal") if line.startswith(b"delta ")]
            yield f"its answer of {len(whole) >> 20} MiB is taken as it came", taken and its == [
                whole[:-1].replace(b"\n", b"\t")]
            lines = list(messages.lines(many, 7))
            for number in range(0, many, 2000):
                asked(hub.port, "/messages", "".join(lines[number:number + 2000]).encode())
            held, texts = 0, []
            while not texts or texts[-1] != none:
                texts.append(asked(hub.port, f"/delta?have=1:{held}&of=1&wait=0").body)
                for run in exchange.delta_in(texts[-1]):
                    right, held = (run.origin, run.first) == (1, held + 1), held + len(run.messages)
                    yield f"it gets entries of one site up to {held}, without a gap", right and len(
                        texts[-1]) <= 4 << 20
            yield "and so all of them", held == many and len(texts) > 2


def takes_from_a_third(trial):
    """Entries of a site that is away come over a third one, if the configuration names it, and else not."""
    ports = sites.free_ports(2)

    def url(number):
        return f"--peer={number}=http://127.0.0.1:{ports + number - 1}"

    with trial.site(trial.fresh("a"), "--hear=0", url(2), port=ports) as first:
        with trial.site(trial.fresh("b"), "--hear=0", url(1), number=2, port=ports + 1) as second:
            asked(first.port, "/messages", lines_of(1, 3))
            yield "two sites hear each other", until(lambda: asked(second.port, "/vector").body == b"1:3\n")
            first.kill()
            with trial.site(trial.fresh("c"), url(2), "--through=1=2", number=3) as third:
                yield "entries of a site that is away come over the one that is named", until(
                    lambda: asked(third.port, "/vector").body == b"1:3\n")
            with trial.site(trial.fresh("d"), url(2), number=4) as other:
                asked(second.port, "/messages", lines_of(4, 1))
                yield "and else not", until(lambda: asked(other.port, "/vector").body == b"2:1\n")


def changes_peers(trial):
    """A configuration that is read again: with other peers while the site still hears them, and with a file that is not
    there."""
    ports, folder = sites.free_ports(2), trial.fresh("changed")
    config = folder.with_suffix(".toml")

    def write(address, *more):
        return config.write_text("\n".join([f'folder = "{folder}"', "site = 1", f"port = {ports}", *more, "[peers]",
                                            f'2 = "{address}"']))

    write("http://127.0.0.1:1")
    with trial.site(trial.fresh("other"), "--hear=0", f"--peer=1=http://127.0.0.1:{ports}", number=2, port=ports + 1):
        with sites.Hub(trial.python, trial.program, folder, config=config) as hub:
            hears = until(lambda: asked(ports, "/ready").status == 503)
            write(f"http://127.0.0.1:{ports + 1}")
            hub.process.send_signal(signal.SIGHUP)
            yield "a site that hears nobody is given another address, and opens", hears and until(
                lambda: sites.is_well(ports))
            live = hashlib.sha256(config.read_bytes()).hexdigest()
            yield "its health has the sum of the file", json.loads(asked(ports,
                                                                         "/health").body)["configuration"] == live
            yield "its log has the program", f"the program is {trial.program}, version " in hub.text()
            write(f"http://127.0.0.1:{ports + 1}", f'peer_token = "{folder}/none"')
            hub.process.send_signal(signal.SIGHUP)
            yield "a file that is not there is logged", until(lambda: "the configuration of site 1 is not read again"
                                                              in hub.text())
            yield "and its health keeps the sum of the one before", json.loads(asked(ports, "/health").body)[
                "configuration"] == live
            asked(ports + 1, "/messages", lines_of(1, 1))
            yield "and the peers stay as they are", until(lambda: asked(ports, "/vector").body == b"2:1\n")


CHECKS = [survives_odd_peers, ends_interim_answers, ends_at_once, halts_at_one_more,
          hears_slow_peers, asks_seldom, asks_for_entries, asks_on, understands_an_older_peer, catches_up,
          takes_from_a_third, changes_peers]


def check(python, program):
    return tried("peers", CHECKS, python, program)


if __name__ == "__main__":
    sites.checked(check)
