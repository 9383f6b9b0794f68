"""limits.py: who may ask a site of services/hub, and that nobody without a right uses up its memory, its connections or
its time."""
import gzip
import json
import os
import pathlib
import threading
import time
from tests.hub import sites
from tests.hub.sites import asked, until
from tests.hub.trial import answered, events, head, is_answered, is_closed, lines_of, raw, status_of, watched
from tests.hub.troubles import tried

MIB = 1 << 20


def memory(hub):
    """The resident memory of a site, in bytes, without its process."""
    return next(int(line.split()[1]) for line in open(f"/proc/{hub.process.pid}/status")
                if line.startswith("VmRSS")) << 10


# ---- who may ask

def guards(trial):
    """Who asks a site without roles: programs of this machine, by a name of the site, and pages of its own."""
    with trial.site(trial.fresh("local"), "--name=hub.example") as hub:
        own = f"http://127.0.0.1:{hub.port}"

        def post(**headers):
            return asked(hub.port, "/messages", lines_of(1, 1), **headers).status

        def get(**headers):
            return asked(hub.port, "/archive", **headers).status

        hosts = {"hub.example": 200, f"hub.example:{hub.port}": 200, "evil.example": 403,
                 "hub.example.evil.example": 403, "[": 400}
        yield "only by a name of its own, to write and to read", {name: {post(Host=name), get(Host=name)}
                                                                  for name in hosts} == {
                                                                      name: {status} for name, status in hosts.items()}
        others = ["http://evil.example", f"http://127.0.0.1:{hub.port + 1}", "null", "http://127.0.0.1"]
        yield "pages of other servers, also of other ports", [f(Origin=it) for it in others
                                                              for f in (post, get)] == [403] * 8
        yield "a page of its own", [post(Origin=own), get(Origin=own)] == [200, 200]
        yield "a browser that says that another page asks", [
            get(Sec_Fetch_Site=it) for it in ("cross-site", "same-site", "same-origin", "none")] == [
                403, 403, 200, 200]
        odd = [answered(hub.port, head("GET", "/status", *more))
               for more in (["Origin: http://["], ["Authorization: \xff"], ["Origin: \xff\xfe"])]
        yield "heads that are none are no errors of the site", odd == [400, 200, 403] and "Traceback" not in hub.text()
        yield "a metric counts who was not let in", b"niluppang_forbidden_total 0\n" not in asked(hub.port,
                                                                                                  "/metrics").body
        yield "no address takes deltas", asked(hub.port, "/deltas", b"delta 2\nend 0\n").status in (404, 405)
        live, ready = asked(hub.port, "/live"), asked(hub.port, "/ready")
        yield "it lives, and is ready", [(it.status, it.body) for it in (live, ready)] == [(200, b"live\n"),
                                                                                           (200, b"ready\n")]
    with trial.site(trial.fresh("deaf"), "--peer=2=http://127.0.0.1:1", is_well=False) as hub:
        yield "a site that has heard no peer lives, and is not ready", [asked(hub.port, path).status
                                                                        for path in ("/live", "/ready")] == [200, 503]
    status, said = trial.fails(trial.fresh("open"), "--host=0.0.0.0")
    yield ("without roles it serves no other machine",
           status == 2 and "without [tls] and roles only this machine is served" in said)
    wrong = [["--peer=1=http://127.0.0.1:1"], ["--peer=65=http://127.0.0.1:1"],
             ["--peer=2=http://a:1", "--peer=2=http://b:1"], ["--hear=1"]]
    yield "peers that are none", [trial.fails(trial.fresh("words"), *words)[0] for words in wrong] == [2] * len(wrong)


def is_private(trial):
    """What browsers may do with the page and with answers."""
    with trial.site(trial.fresh("private")) as hub:
        page, text, health = [asked(hub.port, path) for path in ("/", "/status", "/health")]
        policy = page.headers["Content-Security-Policy"]
        words = ["default-src 'none'", "script-src 'sha256-", "style-src 'sha256-", "frame-ancestors 'none'",
                 "base-uri 'none'", "form-action 'none'"]
        yield "the page runs its own script alone", all(word in policy for word in words) and "unsafe" not in policy
        both = [{name: it.headers.get(name) for name in ("X-Content-Type-Options", "Cross-Origin-Resource-Policy")}
                for it in (page, text, health)]
        yield "no answer is used by another page", both == [{"X-Content-Type-Options": "nosniff",
                                                             "Cross-Origin-Resource-Policy": "same-origin"}] * 3
        yield "no answer is kept", health.headers["Cache-Control"] == "no-store"
        yield "no version of the server is said", text.headers["Server"] == "niluppang"
        yield "health says nothing of processes and addresses", sorted(json.loads(health.body)) == [
            "digests", "faults", "group", "peers", "site", "vector", "version", "well"]
        tag = text.headers["ETag"]
        again = asked(hub.port, "/status", If_None_Match=tag)
        asked(hub.port, "/messages", lines_of(1, 1))
        after = asked(hub.port, "/status", If_None_Match=tag)
        yield "a text that did not change is not sent again", (again.status, again.body, after.status) == (304, b"",
                                                                                                           200)
        yield "a text has its vector", after.headers["Niluppang-Vector"] == "1:1"
        yield "a site that lives says so", asked(hub.port, "/live").status == 200
        for process in hub.served().values():
            os.kill(process, 19)
        yield "one whose process hangs does not", asked(hub.port, "/live").status == 408
        for process in hub.served().values():
            os.kill(process, 18)


# ---- bodies

def bounds_posts(trial):
    """What a post may have: bytes, lines, and bytes of a line."""
    with trial.site(trial.fresh("posts")) as hub:
        def post(body, **more):
            return asked(hub.port, "/messages", body, **more).status

        line = lines_of(1, 1)

        def padded(size):
            return line[:-1] + b" " * (size - len(line) + 1) + b"\n"

        yield "a post that is too long is refused", post(b" " * (9 * MIB)) == 413
        yield "a line that is too long is refused, and the post with it", post(lines_of(5, 1)
                                                                               + padded((64 << 10) + 1)) == 413
        yield "nothing of it is taken", asked(hub.port, "/vector").body == b"-\n"
        yield "one that is just short enough is taken", post(padded(64 << 10)) == 200
        yield "too many lines are refused", post(b"x\n" * 20_001) == 413
        yield "some thousand are not", post(b"x\n" * 4000) == 200
        chunks = b"".join(b"100000\r\n" + b" " * MIB + b"\r\n" for _ in range(9)) + b"0\r\n\r\n"
        with raw(hub.port, head("POST", "/messages", "Transfer-Encoding: chunked")) as connection:
            threading.Thread(target=send, args=(connection, chunks), daemon=True).start()
            yield "a post in pieces that is too long is refused", status_of(connection) in (413, None)
        yield "and not taken", asked(hub.port, "/vector").body == b"1:1\n"
        bomb = gzip.compress(b" " * (100 * MIB))
        before = memory(hub)
        yield "a body that is encoded is refused", post(bomb, Content_Encoding="gzip") == 415
        yield "and not decoded", memory(hub) - before < 20 * MIB
        yield "no word of it in the log", "Traceback" not in hub.text()


def send(connection, data):
    try:
        connection.sendall(data)
    except OSError:
        pass


def held_back(hub, path, many):
    """Connections that have sent a body of 8 MiB but for its last byte."""
    connections = [raw(hub.port, head("POST", path, length=8 * MIB)) for _ in range(many)]
    senders = [threading.Thread(target=send, args=(connection, b"x" * (8 * MIB - 1)), daemon=True)
               for connection in connections]
    for sender in senders:
        sender.start()
    until(lambda: not any(sender.is_alive() for sender in senders))  # a body is there but for its end, or is refused
    return connections


def bounds_bodies(trial):
    """Many lists at the same time: their room is taken before they are read."""
    with trial.site(trial.fresh("bodies"), "--seconds=120") as hub:
        before = memory(hub)
        open_ones = held_back(hub, "/report/BANKDEFF/2024-05-02", 30)
        taken = memory(hub) - before  # of 240 MiB: how much comes before a list is refused depends on the machine
        yield "30 lists that hold back their last byte take the room of a few", taken < 120 * MIB, str(taken)
        yield "most of them are refused", until(lambda: sum(is_answered(it, 503) for it in open_ones) >= 25)
        yield "clients go on posting", asked(hub.port, "/messages", lines_of(1, 1)).status == 200
        for one in open_ones:
            one.close()
        listed = b"DbtrAgt,TxId,Amt,Sts\n"
        yield "and then reports are made again", until(lambda: asked(hub.port, "/report/BANKDEFF/2024-05-02",
                                                                     listed).status == 200)
        for process in hub.served().values():
            os.kill(process, 19)
        many = [raw(hub.port, head("POST", "/report/BANKDEFF/2024-05-02", length=len(listed)) + listed)
                for _ in range(10)]
        early = [status_of(it, 0.1) for it in many]
        for process in hub.served().values():
            os.kill(process, 18)
        yield "while two reports are made, others wait for their turn", (early, [status_of(it, 20) for it in many]) == (
            [None] * 10, [200] * 10)


def bounds_posted_bodies(trial):
    """Many posts at the same time, on a machine where everyone may write."""
    with trial.site(trial.fresh("posted"), "--seconds=120") as hub:
        before = memory(hub)
        open_ones = held_back(hub, "/messages", 40)
        yield "40 posts that hold back their last byte take the room of a few", memory(hub) - before < 160 * MIB
        yield "the others are refused", until(lambda: sum(is_answered(it, 503) for it in open_ones) >= 30)
        for one in open_ones:
            one.close()
        yield "and then posts are taken again", until(lambda: asked(hub.port, "/messages",
                                                                    lines_of(1, 1)).status == 200)
        yield "the room is given back", until(lambda: b"niluppang_body_bytes 0\n" in asked(hub.port, "/metrics").body)


# ---- answers and connections

def bounds_readers(trial):
    """Readers that do not read: an answer has seconds for all of it, others get theirs, and posts and peers go on."""
    with trial.site(trial.fresh("readers"), "--seconds=2") as hub:
        for number in range(0, 12_000, 2000):
            asked(hub.port, "/messages", lines_of(number, 2000))
        size = len(asked(hub.port, "/archive").body)
        yield "the archive does not fit into what the system buffers", size > 4 * MIB
        readers = [small_window(hub.port, head("GET", "/archive", "Connection: close")) for _ in range(8)]
        deltas = [small_window(hub.port, head("GET", "/delta?of=1", "Connection: close")) for _ in range(8)]
        until(lambda: connections(hub.port) == len(readers) + len(deltas))
        stop = threading.Event()
        for one in readers[:4]:
            threading.Thread(target=trickle, args=(one, stop), daemon=True).start()
        yield "clients that do not read hold nobody up", asked(hub.port, "/messages", lines_of(20_000, 2)).status == 200
        # an answer has two seconds here, and on a busy machine one may be cut off
        yield "others read meanwhile", until(lambda: len(asked(hub.port, "/archive").body) > size)
        yield "a peer is answered meanwhile", asked(hub.port, "/delta?have=1:12000&of=1").body.count(b"\n") == 5
        yield "who does not take all of an answer in time is cut off, also who reads slowly", until(
            lambda: connections(hub.port) == 0)
        stop.set()
        for one in [*readers, *deltas]:
            one.close()


def connections(port):
    """How many connections to a port are established, seen from the site."""
    found = 0
    for line in pathlib.Path("/proc/net/tcp").read_text().splitlines()[1:]:
        local, _, state = line.split()[1:4]
        found += int(local.rpartition(":")[2], 16) == port and state == "01"
    return found


def small_window(port, text):
    """An open connection that takes little before it is read from."""
    connection = sites.socket.socket()
    connection.setsockopt(sites.socket.SOL_SOCKET, sites.socket.SO_RCVBUF, 4096)
    connection.settimeout(sites.LATEST)
    connection.connect(("127.0.0.1", port))
    connection.sendall(text)
    return connection


def trickle(connection, stop):
    """Reads a little at a time."""
    connection.settimeout(5)
    try:
        while not stop.is_set() and connection.recv(4096):
            time.sleep(0.1)
    except OSError:
        pass


def bounds_connections(trial):
    """Connections that are silent or send half a head, and more of them than a site takes."""
    with trial.site(trial.fresh("connections"), "--seconds=4", "--connections=40") as hub:
        silent = [raw(hub.port, b"") for _ in range(10)] + [raw(hub.port, b"GET /status HT") for _ in range(10)]
        yield "silent connections and half heads are cut off", all(map(is_closed, silent))
        kept = [raw(hub.port, head("GET", "/health")) for _ in range(30)]
        yield "connections that asked something are not", all(status_of(one) for one in kept) and not is_closed(kept[0],
                                                                                                                3)
        more = [raw(hub.port, head("GET", "/health")) for _ in range(20)]
        yield "one too many is refused, and the others go on", [status_of(one, 2) for one in more].count(None) >= 9
        for one in [*kept, *more]:
            one.close()
        yield "and then there is room again", until(lambda: asked(hub.port, "/health").status == 200)


def bounds_pages(trial):
    """Watchers that send odd marks, heads without bodies, and waits."""
    with trial.site(trial.fresh("pages")) as hub:
        stream = watched(hub.port)
        first, = events(stream, 1)
        began = first["id"].partition("-")[0]
        for mark in [began + "-" + "9" * 4400, "x", began + "-", began + "-\u00b2".encode().decode("latin-1")] * 30:
            with raw(hub.port, head("GET", "/changes", f"Last-Event-ID: {mark}")) as connection:
                status_of(connection)

        def again():
            return [it["event"] for it in events(watched(hub.port, began + "-" + "9" * 1000), 1)]

        yield ("after 120 odd marks, as soon as pages that are gone are forgotten, a page watches and loads again",
               until(lambda: again() == ["reset"]))
        asked(hub.port, "/messages", lines_of(1, 1))
        yield "pages that are gone are forgotten", until(
            lambda: b"niluppang_pages 1\n" in asked(hub.port, "/metrics").body
            or not asked(hub.port, "/messages", lines_of(int(time.time()), 1)))
        yield "a head alone is not answered by a body", [answered(hub.port, head("HEAD", path))
                                                         for path in ("/archive", "/changes")] == [405, 405]
        many = [watched(hub.port) for _ in range(99)]
        yield "more pages than a site has room for are refused", asked(hub.port, "/changes").status == 503
        yield "with a word when to come back", asked(hub.port, "/changes").headers.get("Retry-After") == "1"
        for one in many:
            one.close()
        began = time.monotonic()
        body = asked(hub.port, "/delta?have=-&of=5&wait=1").body
        yield ("a peer that waits is answered after its seconds",
               body == b"delta 2\nend 0\n" and time.monotonic() - began > 0.9)
        wrong = [f"/delta?{words}" for words in (
            "of=1&have=1:1:1", "of=1&have=-5000:7", "of=1&have=2:1,1:1", "of=1&have=1:" + "9" * 5000,
            "", "have=-", "of=0", "of=65", "of=-1", "of=x", "of=01", "of=" + "9" * 5000, "of=1&wait=x",
            "of=1&wait=-1", "of=1&wait=nan", "of=1&most=0", "of=1&most=x", f"of=1&most={(4 << 20) + 1}")]
        yield "vectors and words that are none", [asked(hub.port, path).status for path in wrong] == [400] * len(wrong)


CHECKS = [guards, is_private, bounds_posts, bounds_bodies, bounds_posted_bodies, bounds_readers, bounds_connections,
          bounds_pages]


def check(python, program):
    return tried("limits", CHECKS, python, program)


if __name__ == "__main__":
    sites.checked(check)
