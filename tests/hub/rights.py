"""rights.py: rights that end while sites run, files that are open to others, and what a site says of files that it
cannot use.

A certificate expires or is revoked, a role is taken away while its request is under way, and somebody whom TLS refuses
is on record. SIGHUP comes while a site begins. A journal has two names, and another program holds the record.
"""
import calendar
import contextlib
import hashlib
import http.client
import json
import os
import pathlib
import signal
import socket
import sqlite3
import ssl
import sys
import time
from tests import harness
from tests.harness import SERVICES
from tests.hub import secure, sites
from tests.hub.attackers import LUX, SCA, Secure, answer_of, instruction, is_cut, is_ended, recorded
from tests.hub.operators import configured
from tests.hub.sites import Hub, asked, until, write_journal
from tests.hub.trial import lines_of
from tests.hub.troubles import tried_with_tls
sys.path.insert(0, str(SERVICES))
from hub import certificates
from hub.files import Wrong


# ---- SIGHUP while a site begins

def has_loaded(process, name):
    """Whether a process has loaded a library with a word in its path."""
    return name in pathlib.Path(f"/proc/{process}/maps").read_text()


def is_asked_early(trial):
    """Sites are asked to read their files again before they can."""
    folder, config, port = trial.fresh("early"), trial.fresh("early.toml"), sites.free_ports(2)
    configured(config, folder, [1, 2], port)
    with Hub(trial.python, trial.program, folder, config=config) as hub:
        until(lambda: len(hub.children()) == 2)
        for process in hub.children().values():
            os.kill(process, signal.SIGHUP)
        yield "SIGHUP at the first moment ends no site of several", until(
            lambda: sites.is_well(port) and sites.is_well(port + 1)) and "ended with" not in hub.text(), hub.text()
    config.write_text(f'folder = "{folder}"\nsite = 1\nport = {port}\n')
    with Hub(trial.python, trial.program, folder, config=config) as hub:
        until(lambda: has_loaded(hub.process.pid, "multidict"))
        hub.process.send_signal(signal.SIGHUP)
        yield "nor one by itself, and it reads its files again", until(lambda: sites.is_well(port)) and until(
            lambda: "the configuration is read again" in hub.text()), hub.text()


# ---- files

def refuses_open_files(trial):
    """Files that every user of the machine may read or write."""
    it = Secure(trial)
    folder = it.made.folder
    config = it.made.configured(trial.fresh("open"), 1, sites.free_ports(1))
    for path, mode, may, change in (
            (folder / "tls/site1.key", 0o644, "read", "o="), (folder / "tls/site1.key", 0o602, "write", "o="),
            (folder / "tls/site1.key", 0o666, "read and write", "o="),
            (folder / "tls/authority.crt", 0o666, "write", "o-w"),
            (folder / "roles.toml", 0o666, "write", "o-w"), (config, 0o646, "write", "o-w")):
        before = path.stat().st_mode
        path.chmod(mode)
        done = harness.run([trial.python, str(sites.MAIN), f"--config={config}"],
                           env={**os.environ, "SCT_SITES": trial.program}, seconds=sites.LONGEST)
        said = f"every user of this machine may {may} {path}: chmod {change} {path}\n"
        yield (f"{path.name} of mode {mode:o} is refused, with the remedy",
               done.status == 2 and done.errors.decode().endswith(said), str(done))
        path.chmod(before)
    (folder / "tls/site1.key").chmod(0o640)
    with it.site("closed") as hub:
        yield "a key that its group alone reads is taken", it.made.is_well(hub.port)
        (folder / "tls/site1.key").chmod(0o644)
        hub.process.send_signal(signal.SIGHUP)
        yield "one that is opened later is not read again", until(
            lambda: "is not read again: every user of this machine may read" in hub.text())
        yield "and the site goes on", it.made.is_well(hub.port)
    folder = trial.fresh("token")
    token = folder.with_suffix(".token")
    token.write_text("x")
    token.chmod(0o644)
    config = folder.with_suffix(".toml")
    config.write_text(f'folder = "{folder}"\nsite = 1\nport = {sites.free_ports(1)}\npeer_token = "{token}"\n')
    done = harness.run([trial.python, str(sites.MAIN), f"--config={config}"],
                       env={**os.environ, "SCT_SITES": trial.program}, seconds=sites.LONGEST)
    yield ("a token of peers that others read is refused",
           done.status == 2 and f"may read {token}" in done.errors.decode(), str(done))


def knows_names(trial):
    with trial.site(trial.fresh("names"), "--name=Hub.Example") as hub:
        yield "a name with capital letters is a name of the site", [
            asked(hub.port, "/status", Host=name).status
            for name in ("hub.example", "HUB.EXAMPLE", "Hub.Example", "hub.example.org")] == [
                200, 200, 200, 403]


def explains_links(trial):
    """A journal that a backup gave a second name."""
    folder = trial.fresh("linked")
    folder.mkdir(mode=0o700)
    journal, other = folder / "site1.journal", folder / "backup"
    write_journal(journal, 1, 64, lines_of(1, 1).splitlines())
    os.link(journal, other)
    status, said = trial.fails(folder)
    yield ("a second name of the journal is explained at the start",
           status == 3 and "has 2 names, as backups by hard links make them" in said
           and (f"find / -xdev -samefile {journal}" in said), said)
    other.unlink()
    with trial.site(folder) as hub:
        os.link(journal, other)
        for process in hub.served().values():
            os.kill(process, signal.SIGKILL)
        yield "one that comes while the site runs, too", until(
            lambda: asked(hub.port, "/messages", lines_of(2, 1)).status == 503
            and b"has 2 names" in asked(hub.port, "/health").body)
        other.unlink()
        yield "and the site goes on when it is gone", until(lambda: asked(hub.port, "/messages",
                                                                          lines_of(2, 1)).status == 200)


def explains_locks(trial):
    """Another program has a transaction open on the record."""
    with trial.site(trial.fresh("locked")) as hub:
        with contextlib.closing(sqlite3.connect(hub.folder / "site1.record", isolation_level=None)) as shell:
            shell.execute("BEGIN IMMEDIATE")
            why, seconds = (b"another program has a transaction open on it, such as a sqlite3 shell. End that program",
                            [])
            for number in range(4):
                began = time.monotonic()
                answer = asked(hub.port, "/messages", lines_of(number, 1))
                seconds.append(time.monotonic() - began)
                yield "a post says what holds the record", answer.status == 503 and why in answer.body, str(answer)
            yield "and so does health", why in asked(hub.port, "/health").body
            yield "who posts then waits for a shorter time", min(seconds[1:]) < seconds[0] / 2, str(seconds)
            shell.execute("ROLLBACK")
        yield "the site goes on by itself", until(lambda: asked(hub.port, "/messages", lines_of(1, 1)).status == 200
                                                  and sites.is_well(hub.port))


# ---- certificates

class Open:
    """A connection that somebody keeps open, and a stream of changes."""

    def __init__(self, it, hub, who):
        self.connection = http.client.HTTPSConnection("localhost", hub.port, timeout=20, context=it.made.context(who))
        self.before = self.status()
        self.stream = it.made.context(who).wrap_socket(socket.create_connection(("localhost", hub.port), 60),
                                                       server_hostname="localhost")
        self.stream.sendall(b"GET /changes HTTP/1.0\r\nHost: localhost\r\n\r\n")
        self.began = self.stream.recv(15)

    def status(self, path="/totals"):
        """The status of an answer on the connection, which is made anew if the site closed it."""
        self.connection.request("GET", path)
        return answer_of(self.connection)

    def is_on_record(self, hub, why):
        """Whether the record comes to have that somebody got no answer for a reason."""
        return until(lambda: any(why in what["why"] for act, _, what in recorded(hub) if act == "denied"
                                 and "why" in what))


def number_in(it, hub, name):
    """The number of a metric."""
    text = it.asked(hub, "/metrics", who="monitor").body.decode()
    return float(text.partition(f"\nniluppang_{name} ")[2].split("\n")[0] or "nan")


def expires(trial):
    """A certificate expires while its connection and its stream are open."""
    it = Secure(trial)
    with it.site("expires") as hub:
        end = time.time() + 25
        secure.short_certificate(it.made.folder / "tls", "desk", end)
        its = Open(it, hub, "desk")
        yield "a certificate that is valid is taken", its.before == 200 and its.began == b"HTTP/1.0 200 OK"
        time.sleep(max(0, end + 1 - time.time()))
        yield "it has no answer when it has expired, on the open connection", its.status() == 401
        yield "its stream ends", is_ended(its.stream)
        yield "which is on record, by its name", its.is_on_record(hub, "the certificate of DNS:desk has expired")
        refused = number_in(it, hub, "tls_refused_total")
        yield "it gets no other connection", is_cut(lambda: it.asked(hub, "/health", who="desk"))
        yield "and that is on record, too, and counted", its.is_on_record(
            hub, "TLS: certificate has expired") and until(
                lambda: number_in(it, hub, "tls_refused_total") > refused)
        before = number_in(it, hub, "tls_refused_total")
        calls = [lambda: it.asked(hub, "/health", who=None),
                 lambda: it.asked(hub, "/health", who="desk", authority="other"),
                 lambda: asked(hub.port, "/health", timeout=10)]
        yield "so are who shows none, one of another authority, or no TLS", all(map(is_cut, calls)) and until(
            lambda: number_in(it, hub, "tls_refused_total") == before + 3)

        def reasons():
            return {(who, what["why"]) for act, who, what in recorded(hub) if act == "denied"
                    and what.get("asked") == "a connection"}

        yield "each by its reason", until(lambda: len(reasons())
                                          == 4) and {who for who, _ in reasons()} == {"nobody"}, str(reasons())


def ends_peers(trial):
    """The certificate of a peer expires while it is asked on an open connection."""
    it, ports = Secure(trial), sites.free_ports(2)
    end = time.time() + 40

    def peer(number):
        return "[peers]", f'{number} = "https://localhost:{ports + number - 1}"'

    def said(hub):
        return json.loads(it.asked(hub, "/health", who="desk").body)["peers"]["2"]

    secure.short_certificate(it.made.folder / "tls", "site2", end, "localhost")
    with it.site("two", *peer(1), number=2, port=ports + 1, hear=0, is_well=False), it.site("one", *peer(2), port=ports,
                                                                                            hear=0) as one:
        yield "a peer is heard as long as its certificate is valid", until(lambda: said(one) == ""
                                                                           and time.time() < end), said(one)
        time.sleep(max(0, end + 1 - time.time()))
        yield "and then not, on the connection that is open", until(lambda: said(one) != "")


def revokes(trial):
    """A certificate is revoked by a list, which is read again by SIGHUP."""
    it = Secure(trial)
    folder = it.made.folder / "tls"
    crl = secure.write_list(folder)
    with it.site("revokes", crl=crl) as hub:
        its = Open(it, hub, "desk")
        yield "a list that revokes nothing lets all in", its.before == 200
        secure.write_list(folder, "desk")
        hub.process.send_signal(signal.SIGHUP)
        yield "who is revoked has no answer on an open connection", until(lambda: its.status() == 401)
        yield "and no stream", is_ended(its.stream) and its.is_on_record(hub, "the certificate of DNS:desk is revoked")
        yield "and no other connection", until(lambda: is_cut(lambda: it.asked(hub, "/health", who="desk"))) and (
            its.is_on_record(hub, "TLS: certificate revoked"))
        yield "others have", it.asked(hub, "/metrics", who="monitor").status == 200
        left = {key: number_in(it, hub, f'certificate_seconds{{file="{key}"}}') / 86400
                for key in ("certificate", "authority", "crl")}
        right = {"certificate": 397, "authority": 3650, "crl": 60}
        yield "a metric has how long each file is valid", all(days - 1 < left[key] <= days
                                                              for key, days in right.items()), str(left)
        crl.write_text("no list")
        hub.process.send_signal(signal.SIGHUP)
        yield "a file that is no list changes nothing", until(lambda: "is not read again"
                                                              in hub.text()) and its.status() == 401
    secure.as_authority(folder, "-gencrl", "-crl_lastupdate", "20200101000000Z", "-crl_nextupdate", "20200201000000Z",
                        "-out", crl)
    done = harness.run(hub.command, env=hub.variables, seconds=sites.LONGEST)
    yield ("a list that is over is refused at the start",
           done.status == 2 and b"is over since 2020-02-01T00:00:00Z" in done.errors, str(done))


def knows_sums(trial):
    """Roles have the sum of a certificate in place of its name: an older one with the same name is nobody's."""
    it = Secure(trial)
    folder = it.made.folder
    with it.site("sums") as hub:
        its, old = Open(it, hub, "desk"), (folder / "tls/desk.crt").read_text()
        secure.certificate(folder / "tls", "desk")
        der = ssl.PEM_cert_to_DER_cert((folder / "tls/desk.crt").read_text())
        text = (folder / "roles.toml").read_text()
        (folder / "roles.toml").write_text(text.replace('"DNS:desk"', f'"sha256:{hashlib.sha256(der).hexdigest()}"'))
        hub.process.send_signal(signal.SIGHUP)
        yield "the one that roles had before is nobody's, on an open connection", until(lambda: its.status()
                                                                                        == 401) and old != der
        yield "the one whose sum they have is the desk's", it.asked(hub, "/totals", who="desk").status == 200


def is_wrong(path):
    try:
        certificates.until_of(str(path))
    except Wrong:
        return True
    return False


def reads_certificates(trial):
    """What certificates.py reads, beside what openssl says."""
    folder = trial.fresh("read")
    for number in range(3):
        secure.certificate(folder, f"c{number}")
    for year in "1999", "2049", "2050", "2150":
        its = ["-crl_lastupdate", "19900101000000Z", "-crl_nextupdate", f"{year}0203040506Z", "-out", folder / "crl"]
        secure.as_authority(folder, "-gencrl", *its)
        right = calendar.timegm((int(year), 2, 3, 4, 5, 6))
        found = certificates.until_of(str(folder / "crl")), certificates.revoked_in(str(folder / "crl"))
        yield f"a list until {year}", found == (right, set()), str(found)
    secure.write_list(folder, "c0", "c2")

    def said(name, *words):
        return harness.run(["openssl", "x509", "-noout", *words, "-in",
                            folder / f"{name}.crt"]).text.decode().strip().partition("=")[2]

    numbers = {int(said(name, "-serial"), 16) for name in ("c0", "c2")}
    yield "the numbers that it revokes", certificates.revoked_in(str(folder / "revoked.pem")) == numbers
    both = folder / "both"
    both.write_text((folder / "authority.crt").read_text() + "text between\n" + (folder / "c1.crt").read_text())
    yield "the first end of several certificates", certificates.until_of(str(both)) == ssl.cert_time_to_seconds(
        said("c1", "-enddate"))
    data = (folder / "c1.crt").read_text()
    der = ssl.PEM_cert_to_DER_cert(data)
    for name, text in ("cut off", ssl.DER_cert_to_PEM_cert(der[:100])), ("no number",
                                                                         data.replace("A", "!")), ("nothing", ""):
        both.write_text(text)
        yield f"a file with {name} is refused", is_wrong(both)


# ---- roles that are taken away

def asks_again(trial):
    """A role is taken away after the head of a post came, and while a question waits."""
    it = Secure(trial)
    with it.site("again") as hub:
        line = instruction(LUX, SCA, 1)
        post = it.open(hub, "lutefrpp", len(line))
        question = http.client.HTTPSConnection("localhost", hub.port, timeout=sites.LONGEST,
                                               context=it.made.context("site4"))
        question.request("GET", "/delta?have=-&of=1&wait=30")
        until(lambda: number_in(it, hub, "deltas_total") == 1)
        it.made.write_roles(lutefrpp=["monitor"], site4=["monitor"])
        hub.process.send_signal(signal.SIGHUP)
        until(lambda: "the configuration is read again" in hub.text())
        post.send(line)
        yield "a post whose body comes later is not taken", answer_of(post) == 403 and it.asked(
            hub, "/vector").body == b"-\n"
        it.words(hub, "operator", instruction(LUX, SCA, 2))
        answer = question.getresponse()
        yield "and a question for entries that waited has none", answer.status == 403 and b"origin" not in answer.read()


CHECKS = [expires, ends_peers, revokes, knows_sums, reads_certificates, asks_again, is_asked_early, refuses_open_files,
          knows_names, explains_links, explains_locks]


def check(python, program):
    return tried_with_tls("rights", CHECKS, python, program)


if __name__ == "__main__":
    sites.checked(check)
