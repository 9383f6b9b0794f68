"""harms.py: clients that harm others, at sites of services/hub with TLS and roles, and what the others are answered
meanwhile.

Statuses and orders are compared. A time is waited for with a generous bound, since the machine may be full of other
work.
"""
import contextlib
import http.client
import json
import signal
import socket
import threading
import time
from tests import harness
from tests.harness import SERVICES
from tests.hub import secure, sites
from tests.hub.attackers import HAN, LUX, SCA, Secure, confirmation, instruction, recorded
from tests.hub.limits import connections, memory
from tests.hub.processes import kill
from tests.hub.sites import until
from tests.hub.trial import head, is_closed, status_of
from tests.hub.troubles import tried_with_tls

MIB = 1 << 20
TAKEN = b'"outcome":"TAKEN"'


def opened(it, hub, who, text=b""):
    """A connection of somebody with TLS, on which a text was sent. Without a name it has not begun its handshake."""
    connection = socket.create_connection(("localhost", hub.port), sites.LATEST)
    if who:
        connection = it.made.context(who).wrap_socket(connection, server_hostname="localhost")
    connection.sendall(text)
    return connection


def pushed(connection, piece, most):
    """How many bytes a connection takes, until it is closed or has taken enough."""
    connection.settimeout(sites.LATEST)
    sent = 0
    with contextlib.suppress(OSError):
        while sent < most:
            connection.sendall(piece)
            sent += len(piece)
    return sent


def posts(it, hub, who, number):
    """Whether a post of somebody is taken."""
    return it.asked(hub, "/messages", instruction(LUX, SCA, number), who=who).body.count(TAKEN) == 1


# ---- connections

def goes_on_after_upgrade(trial):
    """Bytes after a request that asks for another protocol: the site would keep them all."""
    it = Secure(trial)
    with it.site("upgrade") as hub:
        before = memory(hub)
        asks = head("GET", "/delta?have=-&of=2&wait=20", "Connection: Upgrade", "Upgrade: anything")
        connection = opened(it, hub, "site2", asks)
        sent = pushed(connection, b"x" * MIB, 60 * MIB)
        yield "the connection ends", sent < 60 * MIB and is_closed(connection), str(sent)
        yield "and takes no memory", memory(hub) - before < 30 * MIB
        connection = opened(it, hub, "site2", head("GET", "/health", "Connection: Upgrade", "Upgrade: anything"))
        yield "who asks for another protocol and waits is answered", status_of(connection) == 200
        yield "others are answered", posts(it, hub, "lutefrpp", 1)


def never_reads(trial):
    """Connections that ask for short answers, and never take them."""
    it = Secure(trial)
    with it.site("never-read", connections=24, seconds=4) as hub:
        secure.certificate(it.made.folder / "tls", "unknown")
        held = []
        for _ in range(24):
            with contextlib.suppress(OSError):
                held.append(asks_and_never_reads(it, hub))
        yield "peers and monitors are let in meanwhile", until(lambda: it.asked(hub, "/metrics",
                                                                                who="monitor").status == 200, 60)
        yield "who never reads is cut off", until(lambda: connections(hub.port) <= 1, 60), str(connections(hub.port))
        yield "and others are let in", posts(it, hub, "lutefrpp", 1)
        for one in held:
            one.close()


def asks_and_never_reads(it, hub):
    """A connection of somebody without a role, which asks for some MiB in short answers."""
    connection = socket.socket()
    connection.setsockopt(socket.SOL_SOCKET, socket.SO_RCVBUF, 4096)
    connection.settimeout(5)
    connection.connect(("localhost", hub.port))
    connection = it.made.context("unknown").wrap_socket(connection, server_hostname="localhost")
    for _ in range(4):
        connection.sendall(head("GET", "/openapi.json") * 10)
        time.sleep(0.1)
    return connection


def is_silent(trial):
    """More connections than a site takes, which say nothing, or one byte of a handshake."""
    it = Secure(trial)
    with it.site("silent", connections=40, seconds=300) as hub:
        for what, text in ("nothing", b""), ("a byte of a handshake", b"\x16"):
            held = [opened(it, hub, None, text) for _ in range(200)]
            yield f"while they say {what}, others are let in", [posts(it, hub, "lutefrpp", 1 + 100 * len(text)),
                                                                it.made.is_well(hub.port)] == [True, True]
            yield "and they are cut off early", all(map(is_closed, held))
        begun = [opened(it, hub, None, b"\x16\x03\x01\x02\x00") for _ in range(30)]
        yield "a handshake that stops ends early, too", all(map(is_closed, begun))


CUTS = """
import asyncio, contextlib, gc, json, socket, ssl, sys
sys.path.insert(0, sys.argv[1])
from aiohttp import web
from hub.connections import Connection, Connections

certificate, key, authority = sys.argv[2:]
ROUNDS = range(12)

def is_closed(client, text):
    # Whether the other side ends a connection, on which its client says no more than a text, or goes on with a handshake
    # if that is None.
    try:
        client.settimeout(60)
        if text is not None:
            client.sendall(text)
        else:
            client = ssl.create_default_context(cafile=authority).wrap_socket(client, server_hostname="localhost")
        return client.recv(1) == b""
    except TimeoutError:
        return False
    except OSError:
        return True

async def cut_after(rounds, text):
    # Whether a connection is closed that is cut off some rounds of the loop after its first byte.
    context = ssl.create_default_context(ssl.Purpose.CLIENT_AUTH)
    context.load_cert_chain(certificate, key)
    its = Connections(web.Server(lambda request: web.Response()), 10, 60, lambda: 1)
    its.context = context
    with socket.create_server(("127.0.0.1", 0)) as listening:
        client = socket.create_connection(listening.getsockname())
        connection = Connection(*listening.accept())
    its._begin(connection)
    end = asyncio.get_running_loop().run_in_executor(None, is_closed, client, text)
    while not connection.handshake:
        await asyncio.sleep(0)
    for _ in range(rounds):
        await asyncio.sleep(0)
    its.cut(connection)
    return await end and not its.open and not its.unknown

class Faulty:
    looks = 0

    def is_late(self, now, seconds):
        self.looks += 1
        if self.looks == 1:
            raise AttributeError("a transport that was closed twice has nothing any more")
        return False

async def looks_on():
    # Whether a connection that is late is cut off after the look at another one failed.
    its = Connections(web.Server(lambda request: web.Response()), 10, 60, lambda: 1)
    its.open[Faulty()] = None
    with socket.create_server(("127.0.0.1", 0)) as listening:
        client = socket.create_connection(listening.getsockname())
        late = Connection(*listening.accept())
        late.began_at -= 100
        its._begin(late)
        with contextlib.suppress(AttributeError):
            its.listen(listening)
        return await asyncio.get_running_loop().run_in_executor(None, is_closed, client, b"")

async def main():
    gc.disable()  # what closes must not be the collector
    return [[await cut_after(rounds, text) for rounds in ROUNDS] for text in (b"\\x16", None)] + [await looks_on()]

print(json.dumps(asyncio.run(main())))
"""


def is_cut_at_any_time(trial):
    """Connections that are cut off in each round of their handshake, of which the first is before it begins: each is
    closed."""
    it = Secure(trial)
    files = [it.made.folder / "tls" / name for name in ("site1.crt", "site1.key", "authority.crt")]
    done = harness.run([trial.python, "-c", CUTS, SERVICES, *files], seconds=sites.LONGEST)
    found = json.loads(done.text) if done.status == 0 else done.errors.decode()
    yield "a connection that is cut off at any time is closed", found[:2] == [[True] * 12] * 2, str(found)
    yield "and so is a late one after a look that failed", found[2:] == [True], str(found)


def pads_its_body(trial):
    """A body in pieces, which has more beside its bytes than bytes."""
    it = Secure(trial)
    with it.site("padded") as hub:
        connection = opened(it, hub, "lutefrpp", head("POST", "/messages", "Transfer-Encoding: chunked"))
        sent = pushed(connection, b"1;" + b"e" * 4000 + b"\r\n \r\n", 40 * MIB)
        yield "the connection ends", sent < 20 * MIB, str(sent)
        lines = [instruction(LUX, SCA, number) for number in range(1, 40)]
        pieces = b"".join(b"%x\r\n%s\r\n" % (len(line), line) for line in lines) + b"0\r\n\r\n"
        connection = opened(it, hub, "lutefrpp", head("POST", "/messages", "Transfer-Encoding: chunked") + pieces)
        yield "a post with a line in each piece is taken", status_of(connection) == 200


def drips_a_second_head(trial):
    """A connection that had an answer, and then sends a head byte by byte. The configuration has given it few seconds
    since the site began."""
    it = Secure(trial)
    with it.site("drips", seconds=300) as hub:
        hub.config.write_text(hub.config.read_text().replace("seconds = 300", "seconds = 3"))
        hub.process.send_signal(signal.SIGHUP)
        yield "the configuration is read again", until(lambda: "the configuration is read again" in hub.text())
        connection = opened(it, hub, "monitor", head("GET", "/health"))
        first, began = status_of(connection), time.monotonic()
        connection.settimeout(sites.LATEST)
        with contextlib.suppress(OSError):
            connection.sendall(head("GET", "/health")[:-2] + b"X: ")
            while time.monotonic() - began < sites.LATEST:
                connection.sendall(b"x")
                time.sleep(0.2)
        yield "it is cut off after its seconds", first == 200 and time.monotonic() - began < sites.LATEST


def sends_bad_heads(trial):
    """Heads that are none, and handshakes that fail: they are counted, and nothing says what the server is made of."""
    it = Secure(trial)
    with it.site("bad-heads") as hub:
        connection = opened(it, hub, "monitor", b"GET / HTTP/9\r\n\r\n")
        with contextlib.suppress(OSError):
            answer = http.client.HTTPResponse(connection)
            answer.begin()
        yield "a bad head is answered without the names of programs", answer.status == 400 and answer.headers[
            "Server"] == "niluppang"
        expects = opened(it, hub, "monitor", head("GET", "/health", "Expect: x"))
        yield "who expects something odd is refused", status_of(expects) == 417
        yield "both are in the log", until(lambda: ': 400"' in hub.text() and ': 417"' in hub.text())
        with contextlib.suppress(OSError, http.client.HTTPException):
            it.asked(hub, "/health", authority="other", who="desk")

        def counted():
            return it.asked(hub, "/metrics", who="monitor").body

        yield "a handshake that is refused is counted", until(
            lambda: b"niluppang_tls_refused_total 0\n" not in counted()
            and b"niluppang_tls_refused_total " in counted())


# ---- bodies

def holds_bodies_back(trial):
    """Clients that announce long bodies and send nothing, or all but the last byte."""
    it = Secure(trial)
    with it.site("bodies", seconds=120) as hub:
        held = [it.open(hub, who, 8 * MIB) for who in ("lutefrpp", "hansdehh", "operator", "gateway") for _ in range(2)]
        until(lambda: connections(hub.port) == len(held))
        yield "what is announced takes no room from others", [posts(it, hub, "lutefrpp", 1),
                                                              it.words(hub, "scalbebb", instruction(SCA, LUX, 2))] == [
                                                                  True, ["TAKEN"]]
        for one in held:
            one.close()
        held = [it.open(hub, "lutefrpp", 8 * MIB) for _ in range(2)]
        for one in held:
            one.send(b" " * (8 * MIB - 1))
        full = b"niluppang_body_bytes %d\n" % (2 * (8 * MIB - 1))
        yield "what came takes it from its client", until(
            lambda: full in it.asked(hub, "/metrics", who="monitor").body) and it.asked(
                hub, "/messages", b"{}\n", who="lutefrpp").status == 503
        yield "and not from others", it.words(hub, "scalbebb", instruction(SCA, LUX, 3)) == ["TAKEN"]
        for one in held:
            one.close()
        yield "and may post when it has given it back", until(lambda: posts(it, hub, "lutefrpp", 4))


# ---- what a client asks

def at_once(many, call):
    """Threads that call something, and what it returned, each in the order of its end."""
    ended = []
    threads = [threading.Thread(target=lambda: ended.append(call()), daemon=True) for _ in range(many)]
    for one in threads:
        one.start()
    return threads, ended


def is_in_turn(it, hub, path, who, other, other_path, body=None, other_body=None, many=30, stops=False):
    """Whether another client is answered before half of what one asks at once is, and what the other is answered. It
    has its connection before: a handshake may wait for long. With `stops` the process stands still until all is asked,
    because it answers as fast as a client can ask."""
    connection = http.client.HTTPSConnection("localhost", hub.port, timeout=300, context=it.made.context(other))
    connection.request("GET", "/live")
    connection.getresponse().read()
    if stops:
        kill(hub, signal.SIGSTOP)
    threads, ended = at_once(many, lambda: it.asked(hub, path, body, who=who, timeout=300).status)
    if stops:
        time.sleep(1)  # what has not come by then comes after the other client
    else:
        until(lambda: len(ended) > 1, 120)
    connection.request("POST" if other_body else "GET", other_path, other_body, {})
    if stops:
        time.sleep(0.2)
        kill(hub, signal.SIGCONT)
    with connection.getresponse() as response:
        response.read()
        status = response.status
    before = len(ended)
    for one in threads:
        one.join(300)
    return before < many // 2, status, set(ended)


def rows(*transfers):
    """A list on some transfers."""
    return b"DbtrAgt,TxId,Amt,Sts\n" + b"".join(b"%s,%s,1.00,ACCEPTED\n" % (bank.encode(), tx.encode())
                                                for bank, tx in transfers)


def asks_much(trial):
    """A bank that asks for reports, totals and what waits, many at once."""
    it = Secure(trial)
    with it.site("asks-much") as hub:
        it.asked(hub, "/messages", b"".join(instruction(LUX, SCA, number) for number in range(200)), who="operator")
        it.asked(hub, "/messages", b"".join(confirmation(SCA, LUX, number) for number in range(5000, 5200)),
                 who="scalbebb")
        listed = rows(*((LUX, f"T{number}") for number in range(100)))
        found = is_in_turn(it, hub, f"/report/{LUX}/2024-05-02", "lutefrpp", "hansdehh", f"/report/{HAN}/2024-05-02",
                           listed, rows((HAN, "T1")), 60, stops=True)
        yield "reports of one bank do not keep another one from its report", found == (True, 200, {200}), str(found)
        found = is_in_turn(it, hub, f"/totals/{LUX}", "lutefrpp", "hansdehh", f"/totals/{HAN}", many=50, stops=True)
        yield "nor do its totals", found[:2] == (True, 200), str(found)
        found = is_in_turn(it, hub, "/waiting", "scalbebb", "hansdehh", "/waiting", many=120)
        yield "nor what waits", found[:2] == (True, 200), str(found)
        yield "and others post", it.words(hub, "hansdehh", instruction(HAN, SCA, 9000)) == ["TAKEN"]


def asks_for_deltas(trial):
    """A peer that asks for everything, many times at once."""
    it = Secure(trial)
    with it.site("deltas") as hub:
        it.asked(hub, "/messages", b"".join(instruction(LUX, SCA, number) for number in range(3000)), who="operator")
        found = is_in_turn(it, hub, "/delta?of=1", "site3", "site2", "/delta?have=1:2999&of=1", many=40)
        yield "another peer is answered before most of it", found == (True, 200, {200}), str(found)
        threads, ended = at_once(100, lambda: it.asked(hub, "/delta?have=1:3000&of=1&wait=20", who="site3",
                                                       timeout=100).status)
        yield "no more of its questions wait than some", until(lambda: ended.count(503) >= 30, 60), str(len(ended))
        yield "another one waits, and is answered", it.asked(hub, "/delta?have=1:3000&of=1&wait=1",
                                                             who="site2").status == 200
        for one in threads:
            one.join(100)


def lists_what_comes(trial):
    """A bank that lists the next identifications of another one, while these come."""
    it = Secure(trial)
    with it.site("to-come") as hub:
        own = [(LUX, f"X{number}") for number in range(3000)]
        body, found = rows(*((HAN, f"T{number}") for number in range(60)), *own), []

        def post():
            for number in range(60):
                it.words(hub, "hansdehh", instruction(HAN, SCA, number, IntrBkSttlmAmt="1021.00"))
        victim = threading.Thread(target=post)
        while len(found) < 4:
            if len(found) == 1:
                victim.start()
            found.append(it.asked(hub, f"/report/{LUX}/2024-05-02", body, who="lutefrpp", timeout=300))
        victim.join()
        found.append(it.asked(hub, f"/report/{LUX}/2024-05-02", body, who="lutefrpp", timeout=300))
        held = it.asked(hub, f"/transfers/{HAN}/T59", who="desk").body
        told = {line.partition(b",ONLY")[2] for answer in found for line in answer.body.splitlines()
                if line.startswith(HAN.encode())}
        yield "it is told nothing of them, before they come, meanwhile and afterwards", [
            it.status for it in found] == [200] * 5 and told == {b"_IN_LIST,1.00,ACCEPTED,,UNKNOWN"}, str(told)[:300]
        yield "and its answers are equal", len({answer.body for answer in found}) == 1 and b"PENDING" in held


def fills_the_disk(trial):
    """A bank that pads its lines, and one that posts very many messages on one transfer."""
    it = Secure(trial)
    with it.site("fills") as hub:
        line = instruction(LUX, SCA, 1)
        padded = line.replace(b",", b"," + b" " * 3000)
        took = it.words(hub, "lutefrpp", padded)
        yield "blanks are not kept", took == ["TAKEN"] and (hub.folder / "site1.journal").stat().st_size < 5000
        yield "and the line is the message that it was", it.words(hub, "lutefrpp", line) == ["REPEAT"]
        wait = confirmation(SCA, LUX, 7)
        yield "nor while it waits", [it.words(hub, "scalbebb", one)
                                     for one in (wait.replace(b",", b", "), wait)] == [["WAITING"]] * 2 and len(
                                         it.asked(hub, "/waiting", who="scalbebb").body.splitlines()) == 1
        same = [instruction(LUX, SCA, 2, MsgId=f"M{number}") for number in range(2002)]
        words = [word for at in range(0, 2002, 500) for word in it.words(hub, "lutefrpp", *same[at:at + 500])]
        yield "of one transfer some thousand messages are taken, and the bank is told", words == [
            "TAKEN"] * 2000 + ["FORBIDDEN"] * 2, str(
                [words.count(word) for word in ("TAKEN", "FORBIDDEN")])
        yield "other transfers go on, and the beneficiary bank answers", posts(it, hub, "lutefrpp", 3) and it.words(
            hub, "scalbebb", confirmation(SCA, LUX, 2)) == ["TAKEN"]


def has_a_quota(trial):
    """A bank that may post some lines and bytes in a day, by the file of roles."""
    it = Secure(trial)
    roles = it.made.folder / "roles.toml"
    roles.write_text(roles.read_text().replace("[lutefrpp]", "[lutefrpp]\nlines_a_day = 5\nbytes_a_day = 4000"))
    with it.site("quota") as hub:
        def post(*numbers, who="lutefrpp"):
            return it.asked(hub, "/messages", b"".join(instruction(LUX, SCA, number) for number in numbers), who=who)

        yield "it posts as much as it may", [post(1, 2).status, post(3, 4).status] == [200, 200]

        def used():
            return it.asked(hub, "/metrics", who="monitor").body

        yield ("how much it used is a metric",
               b'niluppang_quota_used_ratio{client="lutefrpp",of="lines"} 0.8000\n' in used())
        more = post(5, 6)
        yield "what is too much is refused, until the next day", more.status == 429 and 0 < int(
            more.headers["Retry-After"]) <= 86400
        yield "and nothing of it is taken", it.asked(hub, "/vector", who="operator").body == b"1:4\n"
        yield "other clients are not refused", [post(7, who="operator").status,
                                                it.words(hub, "scalbebb", instruction(SCA, LUX, 8))] == [200, ["TAKEN"]]


def makes_noise(trial):
    """Who is refused again and again."""
    it = Secure(trial)
    with it.site("noise") as hub:
        secure.certificate(it.made.folder / "tls", "unknown")

        def ask(path, address):
            context = it.made.context("unknown")
            connection = http.client.HTTPSConnection("localhost", hub.port, timeout=60, context=context,
                                                     source_address=(address, 0))
            return sites.answer_on(connection, path, None, {}).status

        refused = {ask(f"/totals/{number}", "127.0.0.1") for number in range(60)}
        yield "the log has some of them", refused == {401} and 10 <= hub.text().count("/totals/") < 40, str(
            hub.text().count("/totals/"))
        ask("/archive", "127.0.0.2")
        rows_of = [what["asked"] for act, _, what in recorded(hub) if act == "denied" and "asked" in what]
        yield "the record too, and one from elsewhere has a row of its own", until(lambda: "GET /archive" in [
            what.get("asked") for act, _, what in recorded(hub) if act == "denied"]) and len(rows_of) < 40, str(rows_of)


def asks_from_a_page(trial):
    """A page of the web in the browser of the desk asks again and again, and so does who has no role."""
    it = Secure(trial)
    with it.site("page") as hub:
        secure.certificate(it.made.folder / "tls", "unknown")
        for who, status, headers in ("desk", 403, {"Origin": "https://evil.example"}), ("unknown", 401, {}):
            statuses = []

            def floods():
                connection = http.client.HTTPSConnection("localhost", hub.port, timeout=sites.LATEST,
                                                         context=it.made.context(who))
                while len(statuses) < 800:
                    connection.request("GET", "/totals", headers=headers)
                    answer = connection.getresponse()
                    answer.read()
                    statuses.append(answer.status)
                connection.close()
            began = time.monotonic()
            threads, _ = at_once(8, floods)
            own = [it.asked(hub, "/totals", who="desk").status, posts(it, hub, "lutefrpp", status)]
            for one in threads:
                one.join(sites.LONGEST)
            seconds = time.monotonic() - began
            yield f"{who} is refused each time, and after 200 times not more than 50 times a second", set(statuses) == {
                status} and (
                    800 <= len(statuses) <= 200 + 8 + 50 * seconds), f"{len(statuses)} in {seconds:.1f} seconds"
            yield "and the desk is answered, and a bank posts", own == [200, True], str(own)


def holds_connections(trial):
    """A monitor, a peer and a bank, each of which has as many connections as it gets."""
    it = Secure(trial)
    with it.site("holds", connections=40, seconds=120) as hub:
        held = {who: [opened(it, hub, who, head("GET", "/health")) for _ in range(14)]
                for who in ("monitor", "site3", "lutefrpp")}
        statuses = {who: [status_of(one) for one in some] for who, some in held.items()}
        yield "each has a quarter of them, and no more", {who: some.count(200) for who, some in statuses.items()} == {
            "monitor": 10, "site3": 10, "lutefrpp": 9}, str(statuses)
        yield "another peer, a desk and a bank are let in", [it.asked(hub, path, who=who).status for who, path in (
            ("site2", "/vector"), ("desk", "/totals"), ("scalbebb", "/waiting"))] == [200] * 3


CHECKS = [asks_much, asks_for_deltas, lists_what_comes, fills_the_disk, makes_noise, asks_from_a_page,
          holds_connections, has_a_quota,
          holds_bodies_back, goes_on_after_upgrade, never_reads, is_silent, is_cut_at_any_time, pads_its_body,
          drips_a_second_head, sends_bad_heads]


def check(python, program):
    return tried_with_tls("harms", CHECKS, python, program)


if __name__ == "__main__":
    sites.checked(check)
