"""clients.py: the client of a hub and its command hubctl, at sites that are odd and at one that is not, and the OpenAPI
text of a site.

Odd sites are servers of this check. They answer each request as they are asked to, and keep what they were asked.
`describes` compares the OpenAPI text with the router of a site and its table of roles.
"""
import ast
import collections
import contextlib
import copy
import email.utils
import http.server
import importlib.util
import io
import json
import os
import re
import shutil
import signal
import ssl
import subprocess
import sys
import threading
import time
import types
from tests import harness, inputs
from tests.harness import EXAMPLES, SERVICES, TOP
from tests.hub import secure, sites
from tests.hub.sites import asked
from tests.hub.trial import lines_of
from tests.hub.troubles import tried
sys.path.insert(0, str(SERVICES))
from hub import addresses, client
from hub.files import Wrong

HUBCTL = SERVICES / "hub" / "hubctl.py"
OPENAPI = SERVICES / "hub" / "openapi.json"
Asked = collections.namedtuple("Asked", "method path headers body port")
# a post of three lines, of which one is blank, and the outcomes that an odd site has for it
LINES, BODY = [b'{"a":1}', b" \t\r", b'{"b":2}'], b'{"a":1}\n \t\r\n{"b":2}'
REQUEST = "00ff00ff00ff00ff"
TAKEN = [{"line": 1, "outcome": "TAKEN", "number": 1}, {"line": 3, "outcome": "TAKEN", "number": 3}]


# ---- odd sites

class Odd(http.server.BaseHTTPRequestHandler):
    """A site that answers one request after another as it is asked to, and all that follow as the last of them."""
    protocol_version = "HTTP/1.1"

    def do_GET(self):
        its = self.server
        body = b"" if its.reads_not else self.rfile.read(int(self.headers.get("Content-Length") or 0))
        its.asked.append(Asked(self.command, self.path, self.headers, body, self.client_address[1]))
        its.answers[min(len(its.asked), len(its.answers)) - 1](self)

    do_POST = do_GET

    def log_message(self, *_):
        pass


class Server(http.server.ThreadingHTTPServer):
    daemon_threads = True

    def handle_error(self, *_):
        pass


@contextlib.contextmanager
def odd(*answers, tls=None, reads_not=False):
    server = Server(("127.0.0.1", 0), Odd)
    if tls:
        server.socket = tls.wrap_socket(server.socket, server_side=True)
    server.answers, server.asked, server.reads_not = answers, [], reads_not
    server.url = f"{'https' if tls else 'http'}://localhost:{server.server_port}"
    threading.Thread(target=server.serve_forever, args=(0.02,), daemon=True).start()
    try:
        yield server
    finally:
        server.shutdown()
        server.server_close()


def says(status=200, body=b"", length=None, **headers):
    """An answer, which says that it has a length."""
    def answer(it):
        it.send_response(status)
        for name, text in {"Content-Length": str(len(body) if length is None else length), **headers}.items():
            it.send_header(name.replace("_", "-"), text)
        it.end_headers()
        it.wfile.write(body)
        it.close_connection = length is not None
    return answer


def lines(*outcomes, **headers):
    return says(200, "".join(json.dumps(one) + "\n" for one in outcomes).encode(), **headers)


def pieces(*parts, ends=True):
    """An answer in pieces, which may lack its end."""
    def answer(it):
        it.send_response(200)
        it.send_header("Transfer-Encoding", "chunked")
        it.end_headers()
        for part in parts:
            if callable(part):
                part()
            else:
                it.wfile.write(b"%x\r\n%b\r\n" % (len(part), part))
        it.wfile.write(b"0\r\n\r\n" if ends else b"")
        it.close_connection = not ends
    return answer


def as_it_is(text):
    """An answer that is sent as it is, after which the connection ends."""
    def answer(it):
        it.wfile.write(text)
        it.close_connection = True
    return answer


def silent(it):
    """No answer, until the other side has ended the connection."""
    it.connection.settimeout(sites.LATEST)
    while it.connection.recv(1 << 16):
        pass
    it.close_connection = True


taken, breaks = lines(*TAKEN), as_it_is(b"")


def redirect(site):
    return says(302, b"", Location=f"{site.url}/messages")


def failed(call, *words):
    """The failure of a call, or None if there is none."""
    try:
        call(*words)
    except client.Failed as fault:
        return fault


def refused(call, *words):
    """Why a call refuses its words, or nothing."""
    try:
        call(*words)
    except ValueError as fault:
        return str(fault)
    return ""


def soon():
    return time.monotonic() + sites.LATEST


# ---- posts

def cuts_posts(_):
    def cut(text):
        return [(first, len(found)) for first, found in client.posts(io.BytesIO(text))]

    yield "a thousand lines are a post, and numbers go on", cut(b"x\n" * 2500) == [(1, 1000), (1001, 1000), (2001, 500)]
    long = (b"x" * 400_000 + b"\n") * 3 + b"y" * 2_000_000 + b"\nz"
    yield "a MiB is a post, and a longer line one by itself", cut(long) == [(1, 2), (3, 1), (4, 1), (5, 1)]
    half = b"x" * ((1 << 19) - 1) + b"\n"
    yield "a MiB to the byte is one post", cut(half * 2) == [(1, 2)] and cut(half * 2 + b"\n") == [(1, 2), (3, 1)]
    (_, found), = client.posts(io.BytesIO(b" a \r\n\n\t\nb"))
    yield "lines are as they were, without their line feeds", found == [b" a \r", b"", b"\t", b"b"]
    yield "nothing is no post", cut(b"") == []


def sends_again(_):
    kinds = {
        **{f"status {status}": says(status, b"later\n") for status in (408, 429, 500, 502, 503, 504, 507)},
        "a broken connection": breaks,
        "an answer that is cut off": says(200, b'{"line":1,"outcome":"TAKEN","number":1}\n', 500),
        "an answer in pieces that is cut off": pieces(json.dumps(TAKEN[0]).encode() + b"\n", ends=False),
        "an answer without an end": as_it_is(b"HTTP/1.1 200 OK\r\n\r\n"
                                             + b"".join(json.dumps(one).encode() + b"\n" for one in TAKEN)),
        "too few outcomes": lines(TAKEN[0]), "too many outcomes": lines(*TAKEN, TAKEN[1]),
        "outcomes of other lines": lines(TAKEN[0], {**TAKEN[1], "line": 2}),
        "an outcome that is none": lines(TAKEN[0], {**TAKEN[1], "outcome": 5}),
        "lines that are none": says(200, b"taken\n"), "lines of another kind": says(200, b"1\n2\n"),
        "no HTTP": as_it_is(b"taken\n")
    }
    for name, first in kinds.items():
        with odd(first, taken) as site:
            found = client.Client([site.url]).posted(LINES, soon())
            sent = [(it.method, it.path, it.body) for it in site.asked]
            yield f"after {name} the same lines are sent again", found == TAKEN and sent == [("POST", "/messages",
                                                                                              BODY)] * 2
    with odd(taken) as site:
        its = client.Client([site.url])
        yield "blank lines are not sent", its.posted([b"", b" ", b"\t\r"], soon()) == [] and not site.asked
    outcomes = [{"message": "message 1", "outcome": "TAKEN", "number": 1},
                {"message": "message 2", "outcome": "UNREAD", "why": "x"}]
    with odd(says(503), says(200, b"<html>"), lines(TAKEN[0]), lines(*outcomes), lines()) as site:
        its = client.Client([site.url])
        found = its.posted_xml(b"<a/>", soon())
        right = [(it.path, it.body, it.headers["Content-Type"])
                 for it in site.asked] == [("/iso20022", b"<a/>", "application/xml")] * 4
        yield "so is XML, until there are outcomes of messages", right and found == outcomes
        yield "XML without a message is not", its.posted_xml(b"<a/>", soon()) == [] and len(site.asked) == 5


def ends_for_good(_):
    for status in (400, 401, 403, 404, 413, 415, 301, 302, 307):
        with odd(taken) as other, odd(says(status, b"no\nway\x1b[2J\n", Location=other.url,
                                           Niluppang_Request=REQUEST)) as site:
            fault = failed(client.Client([site.url, other.url]).posted, LINES, soon())
            known = (type(fault), fault.status, fault.request, len(site.asked), len(other.asked))
            right, said = (known == (client.Failed, status, REQUEST, 1, 0),
                           f"{site.url}: status {status}: no way?[2J (request {REQUEST})")
            yield f"after status {status} nothing is sent again", right and (str(fault) == said or 300 <= status < 400)
            if status == 302:
                found = client.Client([site.url, other.url]).get("/status")
                yield "a question is not sent on", found.status == 302 and not other.asked


class Clock:
    """In place of the module time: sleep takes no time, and is kept."""

    def __init__(self):
        self.now, self.slept = 1000.0, []

    def time(self):
        return self.now

    def monotonic(self):
        return self.now

    def sleep(self, seconds):
        self.slept.append(round(seconds, 3))
        self.now += seconds


def on_a_clock():
    """A client module of its own, on a clock of its own."""
    its = importlib.util.spec_from_file_location("client_on_a_clock", SERVICES / "hub" / "client.py")
    module = importlib.util.module_from_spec(its)
    its.loader.exec_module(module)
    module.time = Clock()
    return module, module.time


def slept(seconds, *answers, others=()):
    """The pauses of a post that may take some seconds, and how often the first site was asked and the others were."""
    module, clock = on_a_clock()
    with contextlib.ExitStack() as stack:
        site, *more = [stack.enter_context(odd(*its)) for its in (answers, *others)]
        with contextlib.suppress(module.Failed):
            module.Client([one.url for one in (site, *more)]).posted(LINES, clock.now + seconds)
        return clock.slept, [len(one.asked) for one in (site, *more)]


def waits(_):
    yield "pauses double to five seconds, and end in time", slept(20, says(503)) == ([0.1, 0.2, 0.4, 0.8, 1.6, 3.2, 5.0,
                                                                                      5.0], [9])

    def after(text):
        return says(503, b"", Retry_After=text)

    yield "a site says how long", slept(20, after("7"), says(503), taken) == ([7.0, 0.2], [3])
    yield "or until when", slept(200, after(email.utils.formatdate(Clock().now + 100, usegmt=True)), taken) == ([100.0],
                                                                                                                [2])
    odd_ones = ["", "x", "-5", "1e9", "\u00b2", "Thu, 01 Jan 1970 00:00:00 GMT", "99 Foo 2026"]
    yield "what is no time is none", [slept(20, after(text), taken)
                                      for text in odd_ones] == [([0.1], [2])] * len(odd_ones) and (
                                          [client.seconds_of(text) for text in odd_ones] == [0.0] * len(odd_ones))
    yield "what would be too late is not waited for", slept(20, after("21"), taken) == ([], [1])
    other = [says(503), says(503), taken]
    yield "another site is asked meanwhile", slept(20, after("15"), taken, others=[other]) == ([0.1, 0.2, 0.4], [1, 3])
    yield "each in its turn", slept(20, says(503), says(503), taken, others=[[says(503)]]) == ([0.1, 0.2, 0.4, 0.8],
                                                                                               [3, 2])
    module, clock = on_a_clock()
    with odd(says(503), says(503), taken, says(503), taken) as site:
        its = module.Client([site.url])
        its.posted(LINES, clock.now + 20)
        its.posted(LINES, clock.now + 20)
        yield "each post begins with a short pause", clock.slept == [0.1, 0.2, 0.1]
    with odd(silent) as site:
        fault = failed(client.Client([site.url]).posted, LINES, time.monotonic() - 5)
        yield "each post is sent once, and a site that is silent holds nobody for long", len(
            site.asked) == 1 and "timed out" in str(fault)


def goes_elsewhere(_):
    with odd(says(409, b"halted\n")) as halted, odd(taken) as well:
        its = client.Client([halted.url, well.url])
        yield "what a halted site does not take another one takes", its.posted(LINES, soon()) == TAKEN and len(
            halted.asked) == 1
        yield "and it stays there", its.posted(LINES, soon()) == TAKEN and (len(halted.asked), len(well.asked)) == (1,
                                                                                                                    2)
    with odd(says(409)) as halted, odd(says(503), says(503), taken) as slow:
        yield "a halted site is not asked again", client.Client([halted.url,
                                                                 slow.url]).posted(LINES, soon()) == TAKEN and (
                                                                     len(halted.asked), len(slow.asked)) == (1, 3)
    with odd(says(409)) as one, odd(says(409, b"halted\n")) as other:
        faults = [failed(client.Client(urls).posted, LINES, soon()) for urls in ([one.url], [one.url, other.url])]
        yield "if all are halted there is no use to wait", (
            [it.status for it in faults] == [409, 409] and "halted" in str(faults[1])
            and (len(one.asked), len(other.asked)) == (2, 1))
    away = f"http://127.0.0.1:{sites.free_ports(1)}"
    with odd(taken) as site:
        its = client.Client([away, site.url])
        yield "a site that is away is followed by the next", its.posted(LINES,
                                                                        soon()) == TAKEN and its.address() == site.url
        found = client.Client([away, site.url])
        yield "also for questions", found.get("/status").status == 200 and found.post("/report/A/B", b"x").status == 200
        with client.Client([away, site.url]).stream("/status") as found:
            yield "and for streams", len(list(found)) == 2
    fault = failed(client.Client([away, away]).get, "/status")
    known = (type(fault), fault.status, str(fault))
    yield "if all are away the failure says so", known == (client.Later, None, f"{away}: Connection refused")


def keeps_connections(_):
    with odd(says(200, b"x")) as site:
        its = client.Client([site.url])
        bodies = [its.get("/a").body, its.post("/b", b"yz", X_Name="1").body, its.get("/c").body]
        yield "one connection is enough", bodies == [b"x"] * 3 and len({it.port for it in site.asked}) == 1
        yield "a request is sent as it is", [
            (it.method, it.path, it.body, it.headers["X-Name"]) for it in site.asked] == [
                ("GET", "/a", b"", None), ("POST", "/b", b"yz", "1"), ("GET", "/c", b"", None)]
        its.close()
        yield "also after its end", its.get("/d").body == b"x" and len({it.port for it in site.asked}) == 2
    then_ends = as_it_is(b"HTTP/1.1 200 OK\r\nContent-Length: 1\r\n\r\nx")
    with odd(then_ends) as site:
        its = client.Client([site.url])
        bodies = [its.get("/").body, its.post("/", b"a").body, its.get("/").body]
        yield "one that the site has ended is opened anew", bodies == [b"x"] * 3 and len({it.port
                                                                                          for it in site.asked}) == 3
    with odd(breaks) as site:
        yield "a new one that is broken is not", failed(client.Client([site.url]).get, "/") and len(site.asked) == 1
    with odd(says(200, b"x"), silent) as site:
        its = client.Client([site.url])
        its.get("/")
        its.timeout = 0.3
        fault = failed(its.get, "/")
        yield "a site that is silent is given up", "timed out" in str(fault) and len(site.asked) == 2
    with odd(says(401, b"no\n", Connection="close"), reads_not=True) as site:
        found = client.Client([site.url]).post("/messages", b"x" * (16 << 20))
        yield "a site may answer before it has read a body", (found.status, found.body) == (401, b"no\n")


def streams(_):
    read, asks = [], threading.Event()
    with odd(pieces(b"one\ntw", b"o\n", lambda: asks.wait(sites.LATEST), b"three\nfour")) as site:
        with client.Client([site.url]).stream("/changes", Last_Event_ID="7") as found:
            for line in found:
                read.append(line)
                if line == b"two\n":
                    asks.set()
        yield "lines come as they are sent", read == [b"one\n", b"two\n", b"three\n", b"four"]
        yield "a question has its head", site.asked[0].headers["Last-Event-ID"] == "7"
    cut = {"pieces": pieces(b"one\ntwo", ends=False), "a length": says(200, b"one\ntwo", 50)}
    for name, answer in cut.items():
        with odd(answer) as site, client.Client([site.url]).stream("/") as found:
            its = iter(found)
            first = next(its)
            fault = failed(lambda: list(its))
            yield (f"a stream with {name} that is cut off is a failure",
                   first == b"one\n" and "the answer is cut off" in str(fault))
    with odd(says(200, b"one\ntwo\n"), says(404, b"none\n"), as_it_is(b"HTTP/1.1 200 OK\r\n\r\none\n")) as site:
        its = client.Client([site.url])
        with its.stream("/") as found:
            yield "a stream with a length ends", list(found) == [b"one\n",
                                                                 b"two\n"] and found.headers["Content-Length"] == "8"

        def enters():
            return its.stream("/").__enter__()

        yield "an error is a failure", failed(enters).status == 404
        yield "so is an answer without an end", "cut off" in str(failed(enters))


# ---- who asks

def hides_tokens(trial):
    others = ["http://192.0.2.1", "http://site1.hub.example:8700", "http://localhost.example",
              "http://127.0.0.1.example", "http://0.0.0.0",
              "http://[2001:db8::1]", "HTTP://192.0.2.1"]
    found = [refused(client.Client, ["https://a.example", url], "secret") for url in others]
    yield "a token is not sent over http to other machines", all("not sent over http to another machine" in text
                                                                 for text in found)
    own = ["http://localhost:1", "http://127.0.0.1", "http://127.8.8.8:1", "http://[::1]:1", "HTTP://LOCALHOST",
           "https://192.0.2.1"]
    yield "to this one, and over https, it is", [refused(client.Client, [url], "secret")
                                                 for url in own] == [""] * len(own)
    yield "without one other machines are asked", [refused(client.Client, [url])
                                                   for url in others] == [""] * len(others)
    wrong = ["", "localhost", "ftp://localhost", "http://", "http://a@localhost",
             "http://localhost/?a", "http://localhost/#a",
             "http://localhost:x", "http://[", "http://a b", "http://localhost/a b", "http://localhost:70000"]
    yield "what is no address", all("is not the address of a site" in refused(client.Client, [url]) for url in wrong)
    yield "no address, and tokens that are none", refused(client.Client, []) and all(
        "one word" in refused(client.Client, ["https://a.example"], token)
        for token in ("a b", "a\nb", "\u00e4", "a\n"))
    with odd(says(200, b"x")) as site:
        client.Client([site.url + "/below/"], "se-cret").get("/vector")
        client.Client([site.url]).get("/vector")
        yield "a token comes in its header", [(it.path, it.headers["Authorization"]) for it in site.asked] == [
            ("/below/vector", "Bearer se-cret"), ("/vector", None)]
    with odd(taken) as other, odd(redirect(other)) as site:
        failed(client.Client([site.url], "secret").posted, LINES, soon())
        yield "it is not sent on", site.asked[0].headers["Authorization"] == "Bearer secret" and not other.asked
    token = trial.fresh("token")
    token.write_text(" from-file\n")
    with odd(says(200, b"-\n")) as site:
        done = [ran(site, *words, "vector", NILUPPANG_TOKEN="from-variable")
                for words in ([], [f"--token-file={token}"])]
        given = [it.headers["Authorization"] for it in site.asked]
        yield "hubctl has it from a file, or else from its variable", given == [
            "Bearer from-variable", "Bearer from-file"] and (
                [it.status for it in done] == [0, 0])
    done = ran(None, "--url=http://192.0.2.1", "health", NILUPPANG_TOKEN="secret")
    said = b"hubctl: http://192.0.2.1: a token is not sent over http"
    yield "hubctl says why it does not send it", done.status == 2 and done.errors.startswith(
        said) and done.errors.count(b"\n") == 1
    token.write_text("\n")
    empty, none = [ran(None, "--url=https://a.example", f"--token-file={path}", "health")
                   for path in (token, trial.fresh("none"))]
    yield "a file without a token", (empty.status, empty.errors) == (2, f"hubctl: {token} has no token\n".encode())
    yield "a file of a token that is not there", none.status == 2 and b"No such file" in none.errors


def certified(folder, name, *others):
    """The paths of a certificate and its key, and that of the authority of the folder."""
    secure.certificate(folder, name, *others)
    return folder / f"{name}.crt", folder / f"{name}.key", folder / "authority.crt"


def speaks_tls(trial):
    """A site that wants certificates, of the authority that clients know."""
    if shutil.which("openssl") is None:
        print("skipped: there is no openssl")
        return
    folder, post = trial.fresh("tls"), trial.fresh("tls-post")
    post.write_bytes(BODY)
    (cert, key, authority), (site_cert, site_key, _) = certified(folder, "bank"), certified(folder, "localhost")
    strange_cert, strange_key, another = certified(trial.fresh("strange"), "bank")
    server = ssl.create_default_context(ssl.Purpose.CLIENT_AUTH, cafile=authority)
    server.load_cert_chain(site_cert, site_key)
    server.verify_mode = ssl.CERT_REQUIRED
    both = folder / "both.pem"
    both.write_text(cert.read_text() + key.read_text())
    with odd(taken, tls=server) as site:
        def hubctl(seconds, *words):
            return ran(site, *words, "post", f"--seconds={seconds}", post, NILUPPANG_TOKEN="secret")

        right = harness.Answer(b"taken 2, repeats 0, waiting 0, refused 0, forbidden 0\n", b"", 0)
        yield "a certificate of the authority", hubctl(30, f"--ca={authority}", f"--cert={cert}",
                                                       f"--key={key}") == right
        yield "with its key in one file", hubctl(30, f"--ca={authority}", f"--cert={both}") == right
        yield "and a token", [it.headers["Authorization"] for it in site.asked] == ["Bearer secret"] * 2
        wrong = [hubctl(600, f"--ca={another}", f"--cert={both}"), hubctl(600, f"--cert={both}")]
        yield "a site of another authority is not trusted, and not asked for long", [
            it.status for it in wrong] == [2, 2] and all(
                b"CERTIFICATE_VERIFY_FAILED" in it.errors for it in wrong)
        wrong = [hubctl(1, f"--ca={authority}"),
                 hubctl(1, f"--ca={authority}", f"--cert={strange_cert}", f"--key={strange_key}")]
        yield "no certificate, and one of another authority, are no success", [
            it.status for it in wrong] == [2, 2] and all(
                b"hubctl: line 1 and those after it are not acknowledged: " in it.errors
                for it in wrong) and len(site.asked) == 2
        named = ran(None, f"--url=https://127.1:{site.server_port}", f"--ca={authority}", f"--cert={both}", "vector")
        yield ("a site of another name is not trusted",
               named.status == 2 and b"CERTIFICATE_VERIFY_FAILED" in named.errors)
        plain = f"http://127.0.0.1:{site.server_port}"
        said = f"{plain}: this port speaks TLS: write https:// in place of http://\n"
        done = [ran(None, f"--url={plain}", *its) for its in (["post", "--seconds=600", post], ["vector"])]
        yield "a port that speaks TLS is not asked again without", [
            (it.text, it.errors.decode(), it.status) for it in done] == [
                (b"", f"hubctl: line 1 and those after it are not acknowledged: {said}", 2),
                (b"", f"hubctl: {said}", 2)]
    words = [[f"--key={key}"], [f"--cert={cert}", "--ca=none"], [f"--cert={cert}"], [f"--cert={post}"]]
    done = [ran(None, "--url=https://a.example", *these, "vector") for these in words]
    done.append(ran(None, "--url=http://a", f"--ca={cert}", "vector"))
    yield "words on certificates that do not fit", [(it.status, it.errors.count(b"\n")) for it in done] == [(2, 1)] * 5
    yield "a certificate that is not there", done[1].errors == b"hubctl: none: No such file or directory\n"


# ---- hubctl at odd sites

def words_of(site, *words, **variables):
    """The command line of hubctl and its variables."""
    clean = {name: it for name, it in os.environ.items() if not name.startswith("NILUPPANG_")}
    return [sys.executable, str(HUBCTL), *map(str, words)], {**clean, **({"NILUPPANG_URL": site.url} if site else {}),
                                                             **variables}


def ran(site, *words, data=None, **variables):
    """The answer of hubctl to a command line and its standard input."""
    line, variables = words_of(site, *words, **variables)
    return harness.run(line, data, env=variables, seconds=60, **({"stdin": subprocess.DEVNULL} if data is None else {}))


def judges(it):
    """Takes each line, and refuses those that begin with bad."""
    found = [(number, line) for number, line in enumerate(it.server.asked[-1].body.split(b"\n"), 1) if line]
    refuse = {"outcome": "REFUSED", "code": 33, "why": "33"}
    lines(*({"line": number, **(refuse if line.startswith(b"bad") else {"outcome": "REPEAT"})}
            for number, line in found))(it)


FIVE = [{"line": 1, "outcome": "TAKEN", "number": 7}, {"line": 2, "outcome": "REPEAT"},
        {"line": 4, "outcome": "WAITING", "until": "2026-11-29T18:00:00Z"},
        {"line": 5, "outcome": "REFUSED", "code": 36, "why": "36 DbtrAcct 2"},
        {"line": 6, "outcome": "FORBIDDEN", "why": "not\x1b[2J\nX"}]


def posts_files(trial):
    with odd(lines(*FIVE)) as site:
        done = ran(site, "post", "-", data=b"a\nb\n\nc\nd\ne\n")
        yield "each outcome is counted, and what is wrong is listed", done == (
            b"taken 1, repeats 1, waiting 1, refused 1, forbidden 1\n",
            b"line 5: 36 DbtrAcct 2\nline 6: forbidden: not?[2J X\n", 1)
    for one, status in zip(FIVE, (0, 0, 0, 1, 1)):
        with odd(lines({**one, "line": 1})) as site:
            yield f"{one['outcome']} alone", ran(site, "post", "-", data=b"a").status == status
    with odd(lines({"line": 1, "outcome": "LOST"})) as site:
        yield "an outcome that nobody knows is not well", ran(site, "post", "-", data=b"a") == (
            b"taken 0, repeats 0, waiting 0, refused 0, forbidden 0, lost 1\n", b"line 1: lost:\n", 1)
    post = trial.fresh("post")
    post.write_bytes(b"x\n" * 1001 + b"\nbad\n")
    with odd(judges) as site:
        yield "line numbers are those of the file", ran(site, "post", post) == (
            b"taken 0, repeats 1001, waiting 0, refused 1, forbidden 0\n", b"line 1003: 33\n", 1)
    with odd(judges, says(413, b"no\n", Niluppang_Request=REQUEST)) as site:
        said = (f"hubctl: line 1001 and those after it are not acknowledged: {site.url}: status 413: no (request "
                f"{REQUEST})\n")
        yield "what is not acknowledged is said", ran(site, "post", post) == (b"", said.encode(), 2)
    with odd(says(503, b"later\n")) as site:
        done = ran(site, "post", "--seconds=5", post)
        said = f"hubctl: line 1 and those after it are not acknowledged: {site.url}: status 503: later\n"
        first = f"hubctl: {site.url}: status 503: later; it is sent again\n"
        yield "it ends in time, and what fails is said at once and once", done == (b"", (first + said).encode(),
                                                                                   2) and 2 <= len(site.asked) <= 6
    with odd(says(409, b"halted\n")) as halted, odd(judges) as well:
        done = [ran(None, "post", post, NILUPPANG_URL=f" {halted.url}  {well.url} "),
                ran(halted, f"--url={halted.url}", f"--url={well.url}", "post", post),
                ran(halted, f"--url={well.url}", "post", post)]
        right = [it.status for it in done] == [1] * 3 and (len(halted.asked), len(well.asked)) == (2, 6)
        yield "it goes on to the next address, of the variable or of words", right
    with odd() as site:
        done = [ran(site, *words, "none") for words in (["post"], ["xml"], ["report", "A", "B"])]
        yield "a file that is not there", done == [(b"", b"hubctl: none: No such file or directory\n",
                                                    2)] * 3 and not site.asked


def posts_xml(trial):
    path = trial.fresh("xml")
    path.write_bytes(b"<b/>")
    plain = [{key: it for key, it in one.items() if key != "line"} for one in FIVE]

    def of(place, number, **more):
        return {**plain[place], "message": f"message {number}", **more}

    with odd(lines(of(0, 1), of(2, 2, note="no\nUstrd")), lines(of(3, 1, note="no recall"), of(4, 2)),
             lines(of(1, 1))) as site:
        said = f"-: message 2: note: no Ustrd\n{path}: message 1: 36 DbtrAcct 2\n{path}: message 1: note: no recall\n"
        yield "files of XML", ran(site, "xml", "-", path, data=b"<a/>") == (
            b"taken 1, repeats 0, waiting 1, refused 1, forbidden 1\n",
            f"{said}{path}: message 2: forbidden: not?[2J X\n".encode(), 1)
        sent = [(it.method, it.path, it.body) for it in site.asked]
        yield "are sent one by one", sent == [("POST", "/iso20022", b"<a/>"), ("POST", "/iso20022", b"<b/>")]
        yield "a file that is well", ran(site, "xml",
                                         path) == (b"taken 0, repeats 1, waiting 0, refused 0, forbidden 0\n", b"", 0)
    with odd(lines(of(0, 1), {"message": "message 2", "outcome": "UNREAD", "why": "no MsgId"}), lines()) as site:
        yield "what has no line, and no message", ran(site, "xml", path, "-", data=b"<a/>") == (
            b"taken 1, repeats 0, waiting 0, refused 0, forbidden 0, unread 2\n",
            f"{path}: message 2: unread: no MsgId\n-: the document: unread: there is no message in it\n".encode(), 1)
    with odd(lines(of(0, 1)), says(400, b"no XML\n")) as site:
        said = f"hubctl: {path} and the files after it are not acknowledged: {site.url}: status 400: no XML\n"
        yield "a file that is not taken", ran(site, "xml", "-", path, "c", data=b"<a/>") == (b"", said.encode(), 2)


QUESTIONS = {
    ("transfer", "A/B C", "\u00e4%?#+..&"): "/transfers/A%2FB%20C/%C3%A4%25%3F%23%2B..%26",
    ("messages", "LUTEFRPP", "A/B"): "/transfers/LUTEFRPP/A%2FB/messages",
    ("totals",): "/totals", ("totals", "A/B"): "/totals/A%2FB", ("status",): "/status", ("archive",): "/archive",
    ("contradictions",): "/contradictions", ("waiting",): "/waiting", ("vector",): "/vector",
    ("delta", "3", "4"): "/delta?of=3&have=3%3A4",
}


def asks_questions(_):
    for words, path in QUESTIONS.items():
        with odd(says(200, b"one\ntwo")) as site:
            right = ran(site, *words) == (b"one\ntwo", b"",
                                          0) and [(it.method, it.path) for it in site.asked] == [("GET", path)]
            yield f"{words[0]} of {len(words)} words", right
    with odd(says(403, b"this needs\nthe role desk\n", Niluppang_Request=REQUEST)) as site:
        said = f"hubctl: {site.url}: status 403: this needs the role desk (request {REQUEST})\n".encode()
        yield "an error", [ran(site, *words)
                           for words in (["status"], ["transfer", "A", "B"], ["waiting"])] == [(b"", said, 2)] * 3
    with odd(says(200, b"report\n"), says(503, b"later\n")) as site:
        done = [ran(site, "report", "A/B", "2025-03-10", "-", data=b"list\n") for _ in range(2)]
        right = [(it.method, it.path, it.body)
                 for it in site.asked] == [("POST", "/report/A%2FB/2025-03-10", b"list\n")] * 2
        said = f"hubctl: {site.url}: status 503: later\n".encode()
        yield "a report, and an error", right and done == [(b"report\n", b"", 0), (b"", said, 2)]
    wrong = [ran(None, "status"), ran(None, "--url=localhost", "status"), ran(None),
             ran(None, "--url=http://localhost", "restart")]
    yield "words that are none", [(it.text, it.status)
                                  for it in wrong] == [(b"", 2)] * 4 and b"--url" in wrong[0].errors


def asks_odd_questions(_):
    well, ill = b'{"well": true, "faults": []}', b'{"faults": ["halted", "away"]}'
    with odd(says(200, well), says(503, ill), says(503, b"busy\n"), says(401, b"no\n")) as site:
        done, said = [ran(site, "health") for _ in range(4)], lambda why: f"hubctl: {site.url}: status {why}\n".encode()
        yield "health is printed, and is an error if the site is not well", done == [
            (well + b"\n", b"", 0), (ill + b"\n", said("503: halted; away"), 2), (b"", said("503: busy"), 2),
            (b"", said("401: no"), 2)]
    with odd(says(200, b"one\ntw", 50), breaks, as_it_is(b"x\n")) as site:
        cut, broken, odd_one = [ran(site, "archive") for _ in range(3)]

        def said(why):
            return f"hubctl: {site.url}: {why}\n".encode()

        yield "a text that is cut off", cut == (b"one\ntw", said("the answer is cut off"), 2)
        yield "no text", broken == (b"", said("the connection ended without an answer"), 2)
        yield "something else", odd_one == (b"", said("the answer is none of HTTP"), 2)


def event(number, name="transfers", text="[]"):
    return f"id: x-{number}\nevent: {name}\ndata: {text}\n\n".encode()


def printed(number, name="transfers"):
    return b'{"id": "x-%d", "event": "%b", "data": []}\n' % (number, name.encode())


def follows_changes(_):
    def follow(site, *words):
        return ran(site, "changes", *words)

    first = pieces(event(0, "begin"), b":\n\n", event(1)[:9], event(1)[9:], ends=False)
    with odd(first, says(503), pieces(event(2), event(3))) as site:
        right = (printed(0, "begin") + printed(1) + printed(2), b"", 0)
        yield "a stream that ends goes on after its last event", follow(site, "-n", "3") == right
        yield "and names it", [it.headers["Last-Event-ID"] for it in site.asked] == [None, "x-1", "x-1"]
    with odd(pieces(b":\n\n"), pieces(event(5))) as site:
        yield "also one without an event", follow(site, "--events=1") == (printed(5), b"", 0)
    with odd(pieces(event(1)), says(503, b"later\n")) as site:
        done = follow(site, "--seconds=5")
        said = f"hubctl: {site.url}: status 503: later\n".encode()
        yield "it is given up in time", done == (printed(1), said, 2) and len(site.asked) > 2
    for name, answers, text in (("an error at first", [says(503)], b""), ("a stream without anything", [pieces()], b""),
                                ("an error later that is for good", [pieces(event(1)), says(403)], printed(1))):
        with odd(*answers) as site:
            done = follow(site)
            yield f"{name} is one", (done.text, done.status, done.errors.count(b"\n"),
                                     len(site.asked)) == (text, 2, 1, len(answers))


def started(site, *words):
    line, variables = words_of(site, *words)

    # what a shell runs in the background would take no SIGINT
    def heard():
        return signal.signal(signal.SIGINT, signal.SIG_DFL)

    return harness.started(line, env=variables, stdin=subprocess.DEVNULL, stdout=subprocess.PIPE,
                           stderr=subprocess.PIPE, preexec_fn=heard)


def ends_quietly(trial):
    asks = threading.Event()
    with odd(says(200, b"x" * 50 + b"\n")) as site, started(site, "archive") as process:
        process.stdout.close()
        yield "a pipe that nobody reads ends it without a word", (process.wait(sites.LATEST),
                                                                  process.stderr.read()) == (-signal.SIGPIPE, b"")
    if os.path.exists("/dev/full"):
        with odd(says(200, b"x\n")) as site, open("/dev/full", "wb") as full:
            line, variables = words_of(site, "archive")
            done = subprocess.run(line, env=variables, stdout=full, stderr=subprocess.PIPE)
            yield "a full disk is an error", (done.returncode, done.stderr) == (2, b"hubctl: No space left on device\n")
    with odd(pieces(event(1), asks.wait)) as site, started(site, "changes") as process:
        first = process.stdout.readline()
        process.send_signal(signal.SIGINT)
        yield "it is interrupted without a word", (first, process.wait(sites.LATEST),
                                                   process.stderr.read()) == (printed(1), -signal.SIGINT, b"")
        asks.set()
    post = trial.fresh("interrupted")
    post.write_bytes(b"x\n")
    with odd(says(503)) as site, started(site, "post", post) as process:
        first = process.stderr.readline()
        process.send_signal(signal.SIGINT)
        yield "a post that is interrupted says what is not acknowledged", (
            first, process.wait(sites.LATEST), process.stderr.read()) == (
                f"hubctl: {site.url}: status 503; it is sent again\n".encode(), 2,
                b"hubctl: line 1 and those after it are not acknowledged: it was interrupted\n")


# ---- hubctl at a site

def at(hub):
    """The address of a site, as that of an odd one."""
    return types.SimpleNamespace(url=f"http://127.0.0.1:{hub.port}")


def asks_a_site(trial):
    def of(name):
        return (EXAMPLES / name).read_bytes()

    with trial.site(trial.fresh("site")) as hub:
        def hubctl(*words, **more):
            return ran(at(hub), *words, **more)

        def prints(text, *words, **more):
            return hubctl(*words, **more) == (text, b"", 0)

        held, wrong = of("hub-morning.archive").count(b"\n"), of("hub-morning.refused")
        repeats = sum(bool(line.strip()) for line in of("hub-morning.jsonl").splitlines()) - held - wrong.count(b"\n")
        done = hubctl("post", EXAMPLES / "hub-morning.jsonl")
        yield "post, with lines that are refused", (done.text, done.status) == (
            f"taken {held}, repeats {repeats}, waiting 0, refused {wrong.count(b'line')}, forbidden 0\n".encode(), 1)
        iban = ("36 DbtrAcct 2 (Element: the text of a key is not of the key's type; BadIban: not an IBAN: wrong "
                "check digits, spaces, or a country")
        iban += " in small letters)\n"
        yield "each of them as the program prints it, with words", re.sub(
            rb" \(\w+: .*\)$", b"", done.errors, flags=re.M) == wrong and (
                f"line 42: {iban}".encode() in done.errors)
        yield "post - again", prints(b"taken 0, repeats 2, waiting 0, refused 0, forbidden 0\n", "post", "-",
                                     data=b"".join(of("hub-morning.archive").splitlines(True)[:2]))
        yield "status, archive and totals", all(prints(of(f"hub-morning.{word}"), word)
                                                for word in ("status", "archive", "totals"))
        yield "contradictions", prints(b"HANSDEHHXXX|pacs.002|HH-S-0005\nMEUSNL2RXXX|pacs.008|MEUS0310000001\n"
                                       b"SCALBEBBXXX|pacs.002|SC.990018\n", "contradictions")
        yield "vector", prints(b"1:%d\n" % held, "vector")
        hubctl("post", "-", data=lines_of(1, 2))
        yield "delta", prints(inputs.delta(1, held + 1, 1, 2), "delta", "1", str(held)) and prints(b"delta 2\nend 0\n",
                                                                                                   "delta", "2", "0")
        yield "transfer", prints(b"T|BANKDEFFXXX|T1|PENDING\n", "transfer", "BANKDEFF", "T1")
        unknown = hubctl("transfer", "BANKDEFF", "A/B")
        yield "a slash in an identification, and no such transfer", (unknown.text, unknown.errors, unknown.status) == (
            b"T|BANKDEFFXXX|A/B|UNKNOWN\n", b"hubctl: no such transfer: compare its bank and its TxId\n", 1)
        yield "messages", prints(b"".join(inputs.delta(1, 1, 2).splitlines(True)[2:-1]), "messages", "BANKDEFF", "T2")
        yield "totals of a bank", prints(b"BANKDEFFXXX|0|0.00|0.00|0|2|0|0|0|0.00|0.00\n", "totals", "BANKDEFF")
        done = hubctl("health")
        yield "health", (done.errors, done.status, json.loads(done.text)["well"]) == (b"", 0, True)
        wrong = [hubctl("transfer", "bank", "T1"), hubctl("totals", "bank"), hubctl("delta", "x", "0"),
                 hubctl("find", "T1")]
        yield "errors", [(it.text, it.status, it.errors.count(b"\n")) for it in wrong] == [(b"", 2, 1)] * 4
        lacks = b"status 404: this site has no mirror, which finds transfers; give the bank and"
        yield "a site without a mirror says what to do", lacks in wrong[3].errors
        yield "with the number of the program, and the identification of the request", all(re.search(
            rb"status 400: 73 1 \(BadArgument: .*\); write a bank in 8 or 11 capitals .* \(request [0-9a-f]{16}\)\n",
            it.errors) for it in wrong[:2])
        yield from follows_a_site(hub)
    with trial.site(trial.fresh("report")) as hub:
        yield "waiting", ran(at(hub), "waiting") == (b"", b"", 0)
        path = EXAMPLES / "desk" / "iso20022" / "pacs.008.xml"
        yield "xml", ran(at(hub), "xml", path) == (b"taken 2, repeats 0, waiting 0, refused 1, forbidden 0\n",
                                                   f"{path}: message 1, transaction 3: {iban}".encode(), 1)
        ran(at(hub), "post", EXAMPLES / "bank-day.jsonl")
        yield "report", ran(at(hub), "report", "LUTEFRPP", "2025-03-10", EXAMPLES / "bank-day.list") == (
            of("bank-day.report"),
            (b"hubctl: row 9: LUTEFRPPXXX LU20250310B9 is of 2025-03-11, and not of 2025-03-10; the report "
             b"compares it all the same\n"), 0)


def follows_a_site(hub):
    with started(at(hub), "changes", "-n", "2") as process:
        begin = json.loads(process.stdout.readline())
        asked(hub.port, "/messages", inputs.confirmation(1).encode())
        found = json.loads(process.stdout.readline())
        yield "changes", begin["event"] == "begin" and (found["event"], found["data"]) == (
            "transfers",
            [{"bank": "BANKDEFFXXX", "tx": "T1", "lines": ["T|BANKDEFFXXX|T1|ACCEPTED"]}]) and process.wait(20) == 0


# ---- the OpenAPI text

def form_of(path):
    """A path without the names of its parameters."""
    return re.sub(r"\{[^{}]*\}", "{}", path)


def expression_of(path):
    """What the paths of the text look like that a path of a router is for. A parameter may have its own pattern after a
    colon."""
    return re.compile("".join(re.escape(part) if place % 2 == 0 else part.partition(":")[2] or r"\{\w+\}"
                              for place, part in enumerate(re.split(r"\{([^{}]*)\}", path))))


def operations_of(openapi):
    return {f"{method.upper()} {path}": its for path, item in openapi["paths"].items()
            for method, its in item.items() if method != "parameters"}


def describes(openapi, routes, roles):
    """What an OpenAPI text has otherwise than a router and a table of roles, each as a text. Nothing if they agree.

    `routes` has the method and the path of each route. A parameter is in braces, and its name does not matter. One with
    a pattern, such as {rest:.+}, is for all paths of the text that the pattern fits. `roles` has the roles of each
    "METHOD /path".
    """
    operations, found = operations_of(openapi), []

    def is_for(route, name):
        return name.split(" ")[0] == route[0] and expression_of(route[1]).fullmatch(name.split(" ")[1])

    found += [f"{name} is no route" for name in operations if not any(is_for(route, name) for route in routes)]
    found += [f"{' '.join(route)} is not in the text" for route in routes
              if not any(is_for(route, name) for name in operations)]
    shown = {form_of(name): sorted(its.get("x-roles", [])) for name, its in operations.items()}
    right = {form_of(name): sorted(its) for name, its in roles.items()}
    found += [f"{name} is for {right.get(name)}, and not for {shown.get(name)}" for name in sorted({*shown, *right})
              if shown.get(name) != right.get(name)]
    return found


SMALL = {"paths": {
    "/": {"get": {"x-roles": ["desk"]}}, "/a/{x}/b": {"get": {"x-roles": ["everyone"]}},
    "/a/{x}": {"parameters": [], "get": {"x-roles": ["bank", "desk"]}, "post": {"x-roles": ["bank"]}}}}
ROUTES = [("GET", "/"), ("GET", "/a/{bank}"), ("POST", "/a/{bank}"), ("GET", "/a/{bank}/b")]
ROLES = {"GET /": ("desk",), "GET /a/{bank}": ("desk", "bank"), "POST /a/{bank}": ("bank",),
         "GET /a/{bank}/b": ("everyone",)}


def compares_routes(_):
    yield "a text that describes its router", describes(SMALL, ROUTES, ROLES) == []
    yield "a route with a pattern", describes(SMALL, [*ROUTES[:1], ROUTES[2], ("GET", "/a/{rest:.+}")], ROLES) == []
    differences = {
        "a route that is not there": (ROUTES[:-1], ROLES, ["GET /a/{x}/b is no route"]),
        "a route of another method": ([*ROUTES[1:], ("PUT", "/")], ROLES,
                                      ["GET / is no route", "PUT / is not in the text"]),
        "a route more": ([*ROUTES, ("GET", "/b")], ROLES, ["GET /b is not in the text"]),
        "a longer route": ([*ROUTES[:3], ("GET", "/a/{bank}/{b}")], ROLES, [
            "GET /a/{x}/b is no route", "GET /a/{bank}/{b} is not in the text"]),
        "a parameter in place of a word": ([*ROUTES[:3], ("GET", "/{a}/{bank}/b")], ROLES, [
            "GET /a/{x}/b is no route", "GET /{a}/{bank}/b is not in the text"]),
        "a role less": (ROUTES, {**ROLES, "GET /a/{bank}": ("desk",)},
                        ["GET /a/{} is for ['desk'], and not for ['bank', 'desk']"]),
        "a role more": (ROUTES, {**ROLES, "GET /": ("desk", "bank")},
                        ["GET / is for ['bank', 'desk'], and not for ['desk']"]),
        "an address without roles": (ROUTES, dict(list(ROLES.items())[:-1]),
                                     ["GET /a/{}/b is for None, and not for ['everyone']"]),
        "an address more with roles": (ROUTES, {**ROLES, "GET /b": ()}, ["GET /b is for [], and not for None"])
    }
    for name, (routes, roles, right) in differences.items():
        yield f"what is different: {name}", describes(SMALL, routes,
                                                      roles) == right, f"{describes(SMALL, routes, roles)}"


TYPES = {"string": str, "integer": int, "number": (int, float), "boolean": bool, "array": list, "object": dict}
# what each word of a schema asks of a value: the text, what the word has, the value and the schema are given
WORDS = {
    "type": lambda its, it, value, _: isinstance(value, TYPES[it]) and (it == "boolean" or not isinstance(value, bool)),
    "enum": lambda its, it, value, _: value in it,
    "const": lambda its, it, value, _: value == it,
    "pattern": lambda its, it, value, _: not isinstance(value, str) or re.search(it, value),
    "minLength": lambda its, it, value, _: len(value) >= it,
    "maxLength": lambda its, it, value, _: len(value) <= it,
    "minItems": lambda its, it, value, _: len(value) >= it,
    "maxItems": lambda its, it, value, _: len(value) <= it,
    "minimum": lambda its, it, value, _: value >= it,
    "maximum": lambda its, it, value, _: value <= it,
    "required": lambda its, it, value, _: all(key in value for key in it),
    "properties": lambda its, it, value, _: all(its.fits(one, value[key]) for key, one in it.items() if key in value),
    "additionalProperties": lambda its, it, value, schema: all(
        it is not False and its.fits(it, one) for key, one in value.items() if key not in schema.get("properties", {})),
    "items": lambda its, it, value, _: all(its.fits(it, one) for one in value),
    "allOf": lambda its, it, value, _: all(its.fits(one, value) for one in it),
    "oneOf": lambda its, it, value, _: sum(its.fits(one, value) for one in it) == 1,
    "default": lambda *_: True, "description": lambda *_: True,
}
# the keys that each kind of object must have, and those that it may have
KEYS = {
    "text": ("openapi info paths components security", "servers tags"), "info": ("title version description", ""),
    "operation": ("operationId summary tags x-roles responses", "description parameters requestBody security"),
    "parameter": ("name in description schema example", "required"),
    "header": ("description schema example", "required"),
    "response": ("description", "headers content"), "body": ("required description content", ""),
    "media": ("schema example", "x-line"),
    "components": ("securitySchemes headers parameters schemas responses", "")
}


class OpenApi:
    """An OpenAPI text, and the faults that it has."""

    def __init__(self, openapi):
        self.all, self.faults, self.used = openapi, [], set()

    def of(self, it):
        """An object, or the one that a reference names."""
        if "$ref" not in it:
            return it
        self.used.add(it["$ref"])
        kind, name = it["$ref"].split("/")[-2:]
        found = self.all["components"].get(kind, {}).get(name)
        self.check(it["$ref"] == f"#/components/{kind}/{name}" and found is not None and len(it) == 1,
                   f"{it} names nothing")
        return found or {}

    def check(self, is_right, fault):
        if not is_right:
            self.faults.append(fault)

    def keyed(self, kind, name, it):
        """An object of a kind, with its keys."""
        it, (needed, more) = self.of(it), map(str.split, KEYS[kind])
        self.check(set(needed) <= set(it) <= {*needed, *more}, f"{name} has the keys {sorted(it)}")
        return it

    def fits(self, schema, value):
        schema = self.of(schema)
        self.check(set(schema) <= set(WORDS), f"{sorted(schema)} is no schema")
        return all(WORDS[word](self, it, value, schema) for word, it in schema.items() if word in WORDS)

    def lines_fit(self, schema, text):
        return text.endswith("\n") and all(self.fits(schema, json.loads(line)) for line in text.splitlines())

    # ---- its parts

    def value(self, kind, name, it):
        """A parameter or a header: its example is one."""
        it = self.keyed(kind, name, it)
        self.check(self.fits(it.get("schema", {}), it.get("example")), f"the example of {name} does not fit")

    def content(self, name, content):
        """The bodies that there may be: the example of each is one, and so are its lines."""
        for kind, media in content.items():
            media = self.keyed("media", f"{name} {kind}", media)
            its, schema = media.get("example"), media.get("schema", {})
            fits = self.fits(schema, its) and ("x-line" not in media or self.lines_fit(media["x-line"], its))
            self.check(fits, f"the example of {name} {kind} does not fit")
            self.check("x-line" in media or kind != "application/x-ndjson", f"{name} does not say what a line is")

    def response(self, name, status, it):
        self.check(re.fullmatch("[2345][0-9]{2}|default", status), f"{name} is no status")
        it = self.keyed("response", name, it)
        for header, its in it.get("headers", {}).items():
            self.value("header", f"{name} {header}", its)
        self.check(status == "304" or it.get("content"), f"{name} has no body")
        self.check(status == "default" or "Niluppang-Request" in it.get("headers", {}), f"{name} has no identification")
        self.content(name, it.get("content", {}))

    def operation(self, name, path, shared, it):
        it = self.keyed("operation", name, it)
        parameters = [self.of(one) for one in shared + it.get("parameters", [])]
        for one in parameters:
            self.value("parameter", f"{name} {one.get('name')}", one)
        in_path = [one["name"] for one in parameters if one.get("in") == "path" and one.get("required")]
        self.check(sorted(in_path) == sorted(re.findall(r"\{(\w+)\}", path)),
                   f"{name} has the parameters {in_path} in its path")
        self.check(it["x-roles"] and isinstance(it["x-roles"], list), f"{name} has no roles")
        self.check(("security" in it) == (it["x-roles"] == ["everyone"]) and not it.get("security"),
                   f"{name} asks everyone who it is")
        if "requestBody" in it:
            self.content(name, self.keyed("body", name, it["requestBody"])["content"])
        self.check({"200", "400", "401", "403", "default"} <= set(it["responses"]), f"{name} lacks a status")
        for status, its in it["responses"].items():
            self.response(f"{name} {status}", status, its)

    def checked(self):
        """The faults of the text."""
        it = self.keyed("text", "the text", self.all)
        self.keyed("info", "info", it["info"])
        self.keyed("components", "components", it["components"])
        schemes = [name for one in it["security"] for name in one]
        self.check(sorted(schemes) == sorted(it["components"]["securitySchemes"]), "security names no scheme")
        operations = operations_of(it)
        names = [one.get("operationId") for one in operations.values()]
        self.check(len(set(names)) == len(names), "two operations have one name")
        for name, one in operations.items():
            path = name.split(" ")[1]
            self.check(set(one.get("tags", [])) <= {tag["name"] for tag in it["tags"]},
                       f"{name} has a tag that is none")
            self.operation(name, path, it["paths"][path].get("parameters", []), one)
        there = {f"#/components/{kind}/{name}" for kind, its in it["components"].items() for name in its
                 if kind != "securitySchemes"}
        self.check(there == self.used, f"{sorted(there - self.used)} is not used")
        return self.faults


def spoiled(openapi, *path, value=None):
    """A copy of a text in which one place has another value, or is gone."""
    it = copy.deepcopy(openapi)
    inside = it
    for key in path[:-1]:
        inside = inside[key]
    if value is None:
        del inside[path[-1]]
    else:
        inside[path[-1]] = value
    return it


def spoils():
    """What is wrong with a text: the place that is spoiled, and what it has then if it is not gone."""
    post, vector, parts = ("paths", "/messages", "post"), ("paths", "/vector", "get"), ("components",)
    taken = (*post, "responses", "200", "content", "application/x-ndjson")
    yield "no summary", (*post, "summary"), {}
    yield "no roles", (*post, "x-roles"), {"value": []}
    yield "another key", (*post, "reponses"), {"value": {}}
    yield "no example", (*taken, "example"), {}
    yield "a line that does not fit", (*taken, "example"), {"value": '{"line":1,"outcome":"TAKEN"}\n'}
    yield "a line that is cut off", (*taken, "example"), {"value": '{"line":1,"outcome":"REPEAT"}'}
    yield "lines of no kind", (*taken, "x-line"), {}
    yield "a reference to nothing", (*vector, "responses", "403", "$ref"), {"value": "#/components/responses/No"}
    yield "no error", (*vector, "responses", "401"), {}
    yield "a status that is none", (*vector, "responses", "99"), {"value": {"$ref": "#/components/responses/Busy"}}
    yield "a name twice", (*vector, "operationId"), {"value": "status"}
    yield "a tag that is none", (*vector, "tags"), {"value": ["vectors"]}
    yield "a parameter that is not in the path", ("paths", "/vector",
                                                  "parameters"), {"value": [{"$ref": "#/components/parameters/bank"}]}
    yield "a parameter less", ("paths", "/totals/{bank}", "parameters"), {}
    yield "an example of a parameter", (*parts, "parameters", "day", "example"), {"value": "10.3.2025"}
    yield "an example of a header", (*parts, "headers", "Request", "example"), {"value": "X"}
    yield "what is not used", (*parts, "schemas", "Other"), {"value": {"type": "string"}}
    yield "a scheme that is none", ("security",), {"value": [{"basic": []}]}
    yield "everyone with a certificate", ("paths", "/live", "get", "security"), {}
    yield "a word that is none in a schema", (*parts, "schemas", "Bic", "patern"), {"value": "x"}
    yield "an answer without a body", (*parts, "responses", "Busy", "content"), {}
    yield "an answer without an identification", (*parts, "responses", "Busy", "headers", "Niluppang-Request"), {}


def is_sound(_):
    openapi = json.loads(OPENAPI.read_bytes())
    faults = OpenApi(openapi).checked()
    yield "the text is one of OpenAPI, and its examples fit", faults == [], "\n".join(faults)
    versions = openapi["openapi"], openapi["info"]["version"]
    yield "its version is that of the program", versions == ("3.1.0", (TOP / "VERSION").read_text().strip())
    yield from is_of_the_table(OPENAPI.read_text(encoding="utf-8"))
    wrong = {name: spoiled(openapi, *path, **more) for name, path, more in spoils()}
    seen = {name: bool(OpenApi(it).checked()) for name, it in wrong.items()}
    yield f"{len(wrong)} wrong texts are seen", all(
        seen.values()), f"{[name for name, is_seen in seen.items() if not is_seen]}"


def is_of_the_table(text):
    """The text has what the table of addresses says, and another table makes another text."""
    table = addresses.ADDRESSES
    yield "the text is the one that the table of addresses makes", addresses.described(text, table) == text
    first, last = table[0], table[-1]
    turned = {"roles": first._replace(roles=("desk", "monitor")), "a summary": first._replace(summary="A page"),
              "a name": first._replace(name="desk"), "a tag": first._replace(tag="sites")}
    yield "and another table makes another one", all(
        addresses.described(text, [one, *table[1:]]) != text for one in turned.values())
    yield "also with everyone in place of a role", '"x-roles": ["everyone"], "security": [],' in addresses.described(
        text, [first._replace(roles=addresses.EVERYONE), *table[1:]]).split('"/messages"')[0]
    odd = [table[1:], [*table, last._replace(path="/more")], [*table[:-1], last._replace(method="POST")]]
    yield "an address that the text has not, or the table", all(is_wrong(text, one) for one in odd)


def is_wrong(text, table):
    try:
        addresses.described(text, table)
    except Wrong:
        return True
    return False


def misfits(its, name, answer):
    """How an answer of a site is otherwise than the text says."""
    response = its.of(operations_of(its.all)[name]["responses"].get(str(answer.status), {}))
    kind = answer.headers.get("Content-Type", "").partition(";")[0]
    media, headers = (response.get("content", {}).get(kind),
                      {header: its.of(one) for header, one in response.get("headers", {}).items()})
    found = [header for header, one in headers.items() if one.get("required") and header not in answer.headers]
    found += [header for header, one in headers.items() if header in answer.headers
              and not its.fits(one["schema"], answer.headers[header])]
    found += [header for header in answer.headers if header.startswith("Niluppang-") and header not in headers]
    if media is None and answer.body:
        return [*found, f"{answer.status} {kind}"]
    if media and "x-line" in media and answer.body and not its.lines_fit(media["x-line"], answer.body.decode()):
        found.append("a line")
    if kind == "application/json" and not its.fits(media["schema"], json.loads(answer.body)):
        found.append("the body")
    return found


def answers_as_described(trial):
    its = OpenApi(json.loads(OPENAPI.read_bytes()))
    with trial.site(trial.fresh("described")) as hub:
        def ask(*words, **more):
            return asked(hub.port, *words, **more)

        answers = {"POST /messages": [
            ask("/messages", lines_of(1, 2) + lines_of(1, 1) + b"\n{}\n"), ask("/messages", b"x" * (9 << 20)),
            ask("/messages", b"x", Content_Encoding="gzip"), ask("/messages", b"x", Host="a.example")]}
        tag = ask("/status").headers["ETag"]
        names = ["", "status", "archive", "totals", "contradictions", "vector", "health", "live", "ready",
                 "metrics", "delta", "waiting",
                 "openapi.json"]
        texts = {f"GET /{name}": [ask(f"/{name}")] for name in names}
        texts["GET /status"].append(ask("/status", If_None_Match=tag))
        texts["GET /delta"] += [ask("/delta?of=1&have=x"), ask("/delta?of=1&have=-"),
                                ask("/delta?of=1&most=1"), ask("/delta?of=1&most=0"),
                                ask("/delta?of=1", Niluppang_Record="1", Niluppang_Site="2/64")]
        texts["GET /vector"].append(ask("/vector", Niluppang_Record="1"))
        xml = (EXAMPLES / "desk" / "iso20022" / "pacs.008.xml").read_bytes()
        texts["POST /iso20022"] = [ask("/iso20022", xml), ask("/iso20022", b"<a/>"), ask("/iso20022", b"x")]
        answers.update(texts)
        transfer = "GET /transfers/{bank}/{tx}"
        report = "/report/BANKDEFF/2024-05-02"
        answers.update({transfer: [ask("/transfers/BANKDEFF/T1"), ask("/transfers/bank/T1")],
                        f"{transfer}/messages": [ask("/transfers/BANKDEFF/T1/messages")],
                        "GET /totals/{bank}": [ask("/totals/BANKDEFF"), ask("/totals/bank")],
                        "GET /find": [ask("/find?what=T1")], "GET /work": [ask("/work")],
                        "POST /report/{bank}/{day}": [ask(report, b"DbtrAgt,TxId,Amt,Sts\n"), ask(report, b"x")]})
        found = {name: [misfits(its, name, one) for one in some] for name, some in answers.items()}
        statuses = [one.status for some in answers.values() for one in some]
        right = not its.faults and not any(it for some in found.values() for it in some)
        yield "answers of a site are as the text says", right, f"{found} {its.faults}"
        yield "with several statuses", set(statuses) == {200, 304, 400, 403, 404, 413,
                                                         415} and statuses.count(200) >= 15
        rows = [one.headers.get("Niluppang-Record-Row", "").partition(":")[0]
                for one in (texts["GET /delta"][-1], texts["GET /vector"][-1])]
        yield "and with the row of the record that is asked for", rows == ["1", "1"]
        less = {path: spoiled(its.all, "paths", path, "get", "responses", "200", "headers", "Niluppang-Record")
                for path in ("/vector", "/delta")}
        yield "a header that the text lacks is seen", all(misfits(OpenApi(it), f"GET {path}", texts[f"GET {path}"][-1])
                                                          for path, it in less.items())


def takes_nothing_as_described(trial):
    """A site whose peers are away, which awaits them, and one that only accepts."""
    its = OpenApi(json.loads(OPENAPI.read_bytes()))
    peer = "[peers]", '2 = "http://127.0.0.1:1"'
    for name, line, status, why in ("acknowledge", "acknowledge = 1", 503,
                                    b"peers ask this site"), ("takes", "takes = false", 409, b"only accepts"):
        folder, config, port = trial.fresh(name), trial.fresh(f"{name}.toml"), sites.free_ports(1)
        config.write_text("\n".join([f'folder = "{folder}"', "site = 1", f"port = {port}", "hear = 0", line, *peer]))
        with sites.Hub(trial.python, trial.program, folder, config=config) as hub:
            sites.begun(hub.process, lambda: asked(port, "/ready").body.startswith(b"this site only" if status == 409
                                                                                   else b"0 peers"))
            found = {f"GET {path}": asked(port, path) for path in ("/health", "/ready", "/live", "/vector")}
            posts = {f"POST {path}": asked(port, path, body)
                     for path, body in (("/messages", lines_of(1, 1)), ("/iso20022", b"<a/>"))}
            wrong = {one: misfits(its, one, answer) for one, answer in {**found, **posts}.items()}
            yield f"answers of a site with {name} that takes nothing are as the text says", not any(
                wrong.values()), str(wrong)
            yield f"a post is answered {status}, and why", posts["POST /messages"].status == status and why in posts[
                "POST /messages"].body, str(posts)


def is_of_old_python(_):
    for path in (SERVICES / "hub" / "client.py", HUBCTL):
        try:
            ast.parse(path.read_text(encoding="utf-8"), feature_version=(3, 8))
            yield f"{path.name} is written for Python 3.8", True
        except SyntaxError as fault:
            yield f"{path.name} is written for Python 3.8", False, str(fault)
    used = re.findall(r"^import (.*)$|^from (\w+)", (SERVICES / "hub" / "client.py").read_text(encoding="utf-8"), re.M)
    modules = {name.strip().partition(".")[0] for many, one in used for name in (many or one).split(",")}
    known = getattr(sys, "stdlib_module_names", modules)
    yield "the client needs the standard library alone", modules <= set(known)


CHECKS = [cuts_posts, sends_again, ends_for_good, waits, goes_elsewhere, keeps_connections, streams,
          hides_tokens, speaks_tls, posts_files,
          posts_xml, asks_questions, asks_odd_questions, follows_changes, ends_quietly,
          asks_a_site, compares_routes, is_sound,
          answers_as_described, takes_nothing_as_described, is_of_old_python]


def check(python, program):
    return tried("clients", CHECKS, python, program)


if __name__ == "__main__":
    sites.checked(check)
