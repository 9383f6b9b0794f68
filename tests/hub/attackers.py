"""attackers.py: what each who may do, and what it may not, at sites of services/hub with TLS and roles.

The rows are those of the table of attackers in docs/users/hub.md: strangers, pages of the web, banks, peers, people in
the middle, users of the machine, monitors and operators.
"""
import asyncio
import contextlib
import hashlib
import http.client
import json
import os
import pathlib
import re
import signal
import socket
import sqlite3
import ssl
import sys
import time
from concurrent.futures import ThreadPoolExecutor
from bench.generate import samples
from tests import harness, inputs
from tests.harness import EXAMPLES, SERVICES
from tests.hub import clients, secure, sites
from tests.hub.limits import connections, memory
from tests.hub.peers import odd_peer
from tests.hub.secure import DESK_TOKEN, OLD_TOKEN, ROLES
from tests.hub.sites import Hub, outcomes, until
from tests.hub.trial import head
from tests.hub.troubles import tried_with_tls
sys.path.insert(0, str(SERVICES))
from hub import chain, mirror, record, waiting

LUX, HAN, SCA = "LUTEFRPPXXX", "HANSDEHHXXX", "SCALBEBBXXX"
# of each address, a path and a body that somebody may send, and the roles that may ask it
PATHS = {
    "GET /": ("/", None, "desk gateway"),
    "POST /messages": ("/messages", b"{}\n", "lutefrpp hansdehh scalbebb operator gateway"),
    "POST /iso20022": ("/iso20022", (EXAMPLES / "desk/iso20022/pacs.008.xml").read_bytes(),
                       "lutefrpp hansdehh scalbebb operator gateway"),
    "GET /waiting": ("/waiting", None, "lutefrpp hansdehh scalbebb desk operator gateway"),
    "GET /transfers": (f"/transfers/{LUX}/T0", None, "lutefrpp desk gateway"),
    "GET messages": (f"/transfers/{LUX}/T0/messages", None, "lutefrpp desk gateway"),
    "GET /find": ("/find?what=T0", None, "desk gateway"), "GET /work": ("/work", None, "desk gateway"),
    "GET /totals/BANK": (f"/totals/{LUX}", None, "lutefrpp desk gateway"),
    "POST /report": (f"/report/{LUX}/2025-03-10", b"DbtrAgt,TxId,Amt,Sts\n", "lutefrpp desk gateway"),
    "GET /totals": ("/totals", None, "desk gateway"),
    "GET /status": ("/status", None, "desk gateway"), "GET /archive": ("/archive", None, "desk gateway"),
    "GET /contradictions": ("/contradictions", None, "desk gateway"),
    "GET /vector": ("/vector", None, "desk monitor operator gateway site1 site2 site3 site4"),
    "GET proof": (f"/transfers/{LUX}/T0/proof", None, "desk gateway"),
    "GET /digests": ("/digests", None, "desk operator gateway site1 site2 site3 site4"),
    "GET /delta": ("/delta?of=1", None, "site1 site2 site3 site4"),
    "GET /metrics": ("/metrics", None, "monitor operator gateway"),
    **{f"GET {path}": (path, None, " ".join(ROLES)) for path in ("/health", "/live", "/ready", "/openapi.json")}
}


def instruction(sender, receiver, number, **changed):
    """The line of an instruction of a bank."""
    keys = {"MsgId": f"M{number}", "TxId": f"T{number}", "InstgAgt": sender, "DbtrAgt": sender, "CdtrAgt": receiver,
            **changed}
    return samples.line(samples.instruction(**keys)).encode()


def confirmation(sender, originator, number, **changed):
    """The line of the confirmation of an instruction."""
    keys = {"MsgId": f"C{number}", "InstgAgt": sender, "DbtrAgt": originator, "OrgnlMsgId": f"M{number}",
            "OrgnlTxId": f"T{number}", **changed}
    return samples.line(samples.confirmation(**keys)).encode()


def recall(sender, originator, *numbers):
    """The line of a recall of some transfers of a bank."""
    listed = [samples.transaction(CxlId=f"R{number}", OrgnlMsgId=f"M{number}", OrgnlTxId=f"T{number}",
                                  DbtrAgt=originator) for number in numbers]
    return samples.line(samples.recall(listed, MsgId=f"K{'-'.join(map(str, numbers))}", InstgAgt=sender)).encode()


class Secure:
    """The interpreter and the program, and certificates and roles of its own for each hub."""

    def __init__(self, trial):
        self.trial, self.made = trial, secure.Secured(trial.fresh("secured"))

    @contextlib.contextmanager
    def site(self, name, *lines, number=1, is_well=True, **keys):
        """One site with TLS and roles, which takes messages."""
        port, data = keys.pop("port", None) or sites.free_ports(1), keys.pop("data", None) or self.trial.fresh(name)
        config = self.made.configured(data, number, port, *lines, **keys)
        with Hub(self.trial.python, self.trial.program, data, config=config) as hub:
            hub.port, hub.config = port, config
            sites.begun(hub.process, lambda: self.made.is_well(port) if is_well
                        else self.made.asked(port, "/health", who="desk"))
            yield hub

    def asked(self, hub, path, body=None, **more):
        return self.made.asked(hub.port, path, body, **more)

    def open(self, hub, who, size):
        """A connection on which somebody sends the head of a post, and holds its body back."""
        connection = http.client.HTTPSConnection("localhost", hub.port, timeout=sites.LATEST,
                                                 context=self.made.context(who))
        connection.putrequest("POST", "/messages")
        connection.putheader("Content-Length", str(size))
        connection.endheaders()
        return connection

    def words(self, hub, who, *lines):
        """The outcomes of lines that somebody posts."""
        return [one["outcome"] for one in outcomes(self.asked(hub, "/messages", b"".join(lines), who=who))]


def is_cut(call):
    """Whether a connection is refused before there is an answer."""
    try:
        call()
    except (ssl.SSLError, ConnectionError, http.client.HTTPException):
        return True
    return False


def strangers(trial):
    """Who has no certificate, one of another authority, one that nobody knows, or speaks no TLS."""
    it = Secure(trial)
    with it.site("strangers") as hub:
        yield "no certificate: no answer", all(is_cut(lambda: it.asked(hub, path, who=None))
                                               for path in ("/health", "/archive", "/"))
        yield "a certificate of another authority: no answer", is_cut(lambda: it.asked(hub, "/health",
                                                                                       authority="other", who="desk"))
        yield "no TLS: no answer", is_cut(lambda: sites.asked(hub.port, "/health"))
        secure.certificate(it.made.folder / "tls", "unknown")
        found = [it.asked(hub, path, body, who="unknown").status for path, body, roles in PATHS.values()
                 if "site1" not in roles or "desk" not in roles]
        yield "a certificate that no role has: 401 on all but health", set(found) == {401}
        yield "and health, as everyone has it who may connect", it.asked(hub, "/health", who="unknown").status == 200
        names = {"evil.example": 403, f"localhost:{hub.port}": 200, "[": 400}
        yield "a page that gives its name the address of the site: 403, with a certificate too", {
            name: it.asked(hub, "/archive", Host=name).status for name in names} == names
        from_page = [it.asked(hub, "/messages", b"{}\n", Origin="https://evil.example").status,
                     it.asked(hub, "/archive", Sec_Fetch_Site="cross-site").status]
        yield "a page of another server, in a browser with a certificate: 403", from_page == [403, 403]
    with it.site("optional", clients="optional") as hub:
        def got(token, path="/status"):
            return it.asked(hub, path, who=None, **({"Authorization": f"Bearer {token}"} if token else {})).status

        yield "if certificates are optional, who has none needs a token", [got(None), got("x"), got(DESK_TOKEN),
                                                                           got(OLD_TOKEN)] == [401, 401, 200, 200]
        yield "a token has its role and no other", [got(DESK_TOKEN, path)
                                                    for path in ("/metrics", "/delta", "/vector")] == [403, 403, 200]
        yield "a peer needs a certificate or a token", got(None, "/delta") == 401


def each_role(trial):
    """Each role asks each address."""
    it, path = Secure(trial), trial.fresh("matrix.db")
    made = mirror.Database(path)
    made.open()
    made.load({}, mirror.State(1, 64, "", "-", "", "", ""))
    made.close()
    with it.site("matrix", mirror=str(path)) as hub:
        for name, (path, body, roles) in PATHS.items():
            got = {who: it.asked(hub, path, body, who=who).status for who in ROLES}
            right = {who: who in roles.split() for who in ROLES}
            yield f"{name}: {roles}", {who: status not in (401, 403) for who, status in got.items()} == right, str(got)

        def finds():
            return {who for act, who, what in recorded(hub) if act == "read" for _, asked in what["reads"]
                    if asked.startswith("GET /find?")}

        yield "what is found in a mirror is on record", until(lambda: finds() == {"desk", "gateway"}), str(finds())
        yield "who may ask is not refused for another reason", [
            it.asked(hub, path, body, who=roles.split()[0]).status for path, body, roles in PATHS.values()] == [
            200] * len(PATHS)


ROUTES = """
import json, sys, types
sys.path.insert(0, sys.argv[1])
from hub.addresses import ADDRESSES
from hub.guard import Guard
from hub.parts import Parts
from hub.service import Service
its = Service(Parts(types.SimpleNamespace(rounds=types.SimpleNamespace()), None, Guard([], None), None, None, "", 1)).application().router.routes()
print(json.dumps([[(it.method, it.resource.canonical.replace("{rest}", "{rest:.+}")) for it in its], {f"{a.method} {a.path}": a.roles for a in ADDRESSES}]))
"""


def describes_itself(trial):
    """The OpenAPI text has the addresses of the router, with the roles that may ask each."""
    done = harness.run([trial.python, "-c", ROUTES, SERVICES])
    yield "the router has its addresses", done.status == 0, done.errors.decode()
    routes, roles = json.loads(done.text)
    text = json.loads((SERVICES / "hub" / "openapi.json").read_text())
    wrong = clients.describes(text, [tuple(one) for one in routes], roles)
    yield "the OpenAPI text has each of them, with its roles", wrong == [] and len(
        routes) == 22, f"{wrong} {len(routes)}"
    less = clients.describes(text, [tuple(one) for one in routes[1:]], roles)
    more = clients.describes(text, [tuple(one) for one in routes], {**roles, "GET /archive": ["monitor"]})
    yield "and would be found out without", bool(less) and bool(more)


def banks(trial):
    """A bank in the name of another one."""
    it = Secure(trial)
    with it.site("banks", waiting=3) as hub:
        def words(who, *lines):
            return it.words(hub, who, *lines)

        mine = instruction(LUX, SCA, 1)
        yield "an instruction of its own", words("lutefrpp", mine) == ["TAKEN"]
        yield "the same of another bank", words("hansdehh", instruction(LUX, SCA, 2)) == ["FORBIDDEN"]
        yield "sent by itself for the account of another bank", words(
            "hansdehh", instruction(HAN, SCA, 2, DbtrAgt=LUX)) == ["FORBIDDEN"]
        yield "another instruction of the same transfer, to contradict it", words(
            "hansdehh", instruction(LUX, HAN, 1, MsgId="X")) == ["FORBIDDEN"]
        yield "the confirmation by the originator, and by a third bank", [
            words(who, confirmation(bank, LUX, 1))
            for who, bank in (("lutefrpp", LUX), ("hansdehh", HAN))] == [["FORBIDDEN"], ["FORBIDDEN"]]
        yield "a third bank that says it is the beneficiary", words("hansdehh",
                                                                    confirmation(SCA, LUX, 1)) == ["FORBIDDEN"]
        yield "the confirmation by the beneficiary bank", words("scalbebb", confirmation(SCA, LUX, 1)) == ["TAKEN"]
        yield "a recall of its own, of another bank, and of both", [
            words("lutefrpp", recall(LUX, LUX, 1)), words("hansdehh", recall(HAN, LUX, 1)),
            words("lutefrpp", recall(HAN, LUX, 1))] == [
                ["TAKEN"], ["FORBIDDEN"], ["FORBIDDEN"]]
        both = json.loads(recall(LUX, LUX, 1, 2))
        both["TxInf"][1]["DbtrAgt"] = HAN
        yield "a recall of which one transaction is of another bank", words(
            "lutefrpp", samples.line(both).encode()) == ["FORBIDDEN"]
        twice = b'{"InstgAgt":"LUTEFRPPXXX",' + instruction(HAN, SCA, 3)[1:]
        yield "a name that is there twice is read as the core reads it", [
            words("lutefrpp", twice), words("hansdehh", twice)] == [["FORBIDDEN"], ["TAKEN"]]
        other = b"as HANSDEHH " + instruction(HAN, SCA, 4)
        yield "a line that is a delta, a question or sent as another bank is no message", words(
            "lutefrpp", b"delta 2\tend 0\n", b"? archive\n", other) == words(
                "operator", b"delta 2\tend 0\n", b"? archive\n", other) == ["REFUSED"] * 3
        answer = it.asked(hub, "/messages", (EXAMPLES / "refusals.jsonl").read_bytes(), who="lutefrpp")
        refused = [sites.refusal_of(one) for one in outcomes(answer) if one["outcome"] == "REFUSED"]
        right = [line.partition(": ")[2] for line in (EXAMPLES / "refusals.refused").read_text().splitlines()]
        yield "lines that are no messages are refused in the words of the program", refused == right and len(
            right) == 29, str(refused)
        yield "and are counted", b'niluppang_messages_total{outcome="REFUSED"} 35\n' in it.asked(hub, "/metrics",
                                                                                                 who="monitor").body
        yield "who may say anything", words("operator", instruction(HAN, SCA, 9)) == ["TAKEN"]
        yield from reads_own(it, hub)
        yield from answers_recalls(it, hub)
        yield from waits(it, hub)


def reads_own(it, hub):
    """What a bank reads, after a transfer from LUX to SCA and one from HAN to SCA."""

    def got(who, path, body=None):
        return it.asked(hub, path, body, who=who).status

    paths = [f"/transfers/{LUX}/T1", f"/transfers/{LUX}/T1/messages"]
    yield "its own transfers, as originator and as beneficiary bank", [
        got(who, path) for who in ("lutefrpp", "scalbebb") for path in paths] == [200] * 4
    yield "no transfer of others", [got("hansdehh", path) for path in paths] == [403] * 2
    said = [it.asked(hub, f"/transfers/{LUX}/{tx}", who="hansdehh").body for tx in ("T1", "NONE")]
    yield "and not whether it is there", said[0] == said[1]
    yield "totals of its own", [got("hansdehh", f"/totals/{bank}") for bank in ("HANSDEHH", HAN, LUX)] == [200, 200,
                                                                                                           403]

    def rows(*names):
        return b"DbtrAgt,TxId,Amt,Sts\n" + b"".join(f"{bank},{tx},1.00,ACCEPTED\n".encode() for bank, tx in names)

    def report(who, bank, *names):
        return got(who, f"/report/{bank}/2024-05-02", rows(*names))

    yield "a report on its own list", [report("scalbebb", "SCALBEBB", (LUX, "T1"), (HAN, "T9")),
                                       report("hansdehh", HAN, (HAN, "T9"))] == [200, 200]
    yield "no report in another name", [sites.error_of(it.asked(hub, f"/report/{bank}/2024-05-02", rows((LUX, "T1")),
                                                                who="hansdehh")) for bank in (LUX, "SCALBEBB")] == [
        (403, 403, "Forbidden", "a bank asks about itself alone")] * 2
    answer = it.asked(hub, f"/report/{HAN}/2024-05-02", rows((HAN, "T9"), (LUX, "T1"), (LUX, "NONE")), who="hansdehh")
    yield "of a row on a transfer of others it is told what its list says, as of one that is not there", [
        answer.status, answer.body.decode().splitlines()[1:], answer.headers.get("Niluppang-Notes")] == [
            200, [f"{HAN},T3,ONLY_IN_ARCHIVE,,,1.00,PENDING", f"{HAN},T9,STATUS_DIFFERS,1.00,ACCEPTED,1.00,PENDING",
                  *(f"{LUX},{tx},ONLY_IN_LIST,1.00,ACCEPTED,,UNKNOWN" for tx in ("NONE", "T1"))], None], str(answer)
    yield "and the beneficiary bank what is held", it.asked(
        hub, "/report/SCALBEBB/2024-05-02", rows((LUX, "T1")), who="scalbebb").body.decode().splitlines()[-1] == (
            f"{LUX},T1,MATCHED,1.00,ACCEPTED,1.00,ACCEPTED")
    words = [it.words(hub, "lutefrpp", *lines)
             for lines in ([instruction(LUX, HAN, 31), instruction(LUX, SCA, 32)], [recall(LUX, LUX, 31, 32)])]
    its = {who: it.asked(hub, f"/transfers/{LUX}/T31/messages", who=who).body.splitlines()
           for who in ("lutefrpp", "hansdehh", "desk")}
    about = {who: [[part["OrgnlTxId"] for part in one.get("TxInf", [one])]
                   for one in map(json.loads, lines) if one["MsgNmId"] == "camt.056"] for who, lines in its.items()}
    yield "of a recall of several transfers a beneficiary bank is shown its own", words == [
        ["TAKEN"] * 2, ["TAKEN"]] and about == {
            "lutefrpp": [["T31", "T32"]], "hansdehh": [["T31"]], "desk": [["T31", "T32"]]}


def of_han(*lines):
    """What HAN has with LUX and SCA, and some lines more: T1 and T3 are from LUX to it, and T2 is from it to SCA."""
    return b"".join([instruction(LUX, HAN, 1), confirmation(HAN, LUX, 1), instruction(HAN, SCA, 2),
                     instruction(LUX, HAN, 3), *lines])


def recalled(*numbers):
    """A recall of transfers of LUX under one name, whatever it recalls."""
    return recall(LUX, LUX, *numbers).replace(b"K" + "-".join(map(str, numbers)).encode(), b"KX")


# what two hubs hold that HAN may not tell from each other: T1 is recalled with a transfer of others, T3 is contradicted
# by a message about a transfer of others, and the others have other transfers, contradictions and early answers
HUBS = [of_han(recalled(1, 4), instruction(LUX, SCA, 4), confirmation(SCA, LUX, 4),
               instruction(LUX, SCA, 9, MsgId="M3", IntrBkSttlmAmt="7.00"), confirmation(SCA, LUX, 6)),
        of_han(recalled(1, 5), instruction(LUX, SCA, 8, MsgId="M3", IntrBkSttlmAmt="9.00"),
               instruction(SCA, LUX, 7), instruction(SCA, LUX, 7, IntrBkSttlmAmt="3.00"),
               instruction(LUX, SCA, 10), recall(LUX, LUX, 10, 4), confirmation(SCA, LUX, 10))]
NUMBERED = ("Date", "Niluppang-Request")  # headers that name a moment or a request, and say nothing of what is held


def questions_of_han():
    """All that HAN may ask: each address, each transfer of all banks, and lists of all of them. What is taken has a
    number, by which the hubs differ."""
    paths = [(path, body) for path, body, _ in PATHS.values() if path not in ("/messages", "/iso20022")]
    named = [(bank, f"T{number}") for bank in (LUX, HAN, SCA) for number in range(12)]
    paths += [(f"/transfers/{bank}/{tx}{more}", None) for bank, tx in named for more in ("", "/messages", "/proof")]
    paths += [(f"/totals/{bank}", None) for bank in (LUX, HAN, HAN[:8], SCA, "NOBODYXX", "x")]
    rows = "".join(f"{bank},{tx},1.00,ACCEPTED\n" for bank, tx in named)
    paths += [(f"/report/{bank}/{day}", f"DbtrAgt,TxId,Amt,Sts\n{rows}{more}".encode()) for bank in (HAN, LUX)
              for day in ("2024-05-02", "2024-05-03", "x") for more in ("", f"{LUX},T 1,x,ACCEPTED\n")]
    answer = (EXAMPLES / "desk/iso20022/camt.029.xml").read_text().replace("HANSDEHH", LUX[:8])
    answer = answer.replace("SCALBEBB", HAN[:8])
    return paths + [("/iso20022", answer.replace("HH-0502", f"T{number}").encode()) for number in (4, 5, 9, 11)]


def is_blind(trial):
    """Two hubs that differ in what a bank may not see answer each of its questions with equal bytes."""
    it, port, data = Secure(trial), sites.free_ports(1), trial.fresh("blind")
    found, seen = [], []
    for held in HUBS:
        with it.site("blind", port=port, data=data) as hub:
            it.words(hub, "operator", held)
            answers = [it.asked(hub, path, body, who="hansdehh") for path, body in questions_of_han()]
            found.append([(one.status, one.body, sorted((name, text) for name, text in one.headers.items()
                                                        if name not in NUMBERED)) for one in answers])
            seen.append([it.asked(hub, path, who=who).body for who, path in (
                ("desk", "/status"), ("hansdehh", f"/transfers/{LUX}/T3"), ("hansdehh", f"/transfers/{LUX}/T1/messages"),
                ("desk", "/health"), ("hansdehh", "/health"))])
            until_then = it.words(hub, "hansdehh", instruction(HAN, SCA, 20), confirmation(HAN, LUX, 3),
                                  confirmation(HAN, LUX, 11), instruction(LUX, HAN, 21))
            yield "it posts, and is told the same", until_then == ["TAKEN", "TAKEN", "WAITING", "FORBIDDEN"]
        for path in data.iterdir():
            path.unlink()
    differ = [asked for asked, one, other in zip(questions_of_han(), *found) if one != other]
    yield "all answers are equal, with their heads", differ == [], str(differ[:5])
    (status, contradicted, messages, health, own), (others, *_, other_health, _) = seen
    yield "though the desk sees that the hubs differ", status != others and health != other_health
    yield "and the bank what is its own", contradicted.startswith(f"T|{LUX}|T3|CONTRADICTED".encode()) and [
        one["OrgnlTxId"] for one in map(json.loads, messages.splitlines()) if one["MsgNmId"] == "camt.056"] == ["T1"]
    yield "health tells a bank neither how much is held nor its digests", {"vector", "digests"} <= set(
        json.loads(health)) and not {"vector", "digests"} & set(json.loads(own))


def stands_for_two(trial):
    """A client that stands for two banks, as a direct participant does, and loses one of them."""
    it = Secure(trial)
    it.made.write_roles(hansdehh=["bank HANSDEHH", "bank LUTEFRPP"])
    with it.site("two-banks") as hub:
        lines = [instruction(HAN, SCA, 1, DbtrAgt=LUX), instruction(LUX, SCA, 2), instruction(SCA, HAN, 3),
                 instruction(HAN, SCA, 4, DbtrAgt=SCA), confirmation(LUX, SCA, 5), recall(HAN, LUX, 1, 2)]
        yield "it sends by one of them about a transfer of the other one, and by neither about a third bank's", it.words(
            hub, "hansdehh", *lines) == ["TAKEN", "TAKEN", "FORBIDDEN", "FORBIDDEN", "WAITING", "TAKEN"]
        yield "each for itself may not", it.words(hub, "lutefrpp", *lines[:1]) == ["FORBIDDEN"]

        def got(who, path, body=None):
            answer = it.asked(hub, path, body, who=who)
            return answer.status, answer.body.decode()

        seen = [got("hansdehh", f"/transfers/{LUX}/T{n}")[1].splitlines()[0] for n in (1, 2)]
        totals = [got("hansdehh", f"/totals/{bank}")[0] for bank in (HAN, LUX, SCA)]
        yield "it reads about both", (seen, totals) == ([f"T|{LUX}|T{n}|PENDING" for n in (1, 2)], [200, 200, 403])
        yield "what waits is listed for each of its banks", [one["bank"] for one in map(
            json.loads, got("hansdehh", "/waiting")[1].splitlines())] == [LUX]
        answer = it.asked(hub, f"/report/{HAN}/2024-05-02", f"DbtrAgt,TxId,Amt,Sts\n{LUX},T2,1.00,PENDING\n".encode(),
                          who="hansdehh")
        yield "a row of one in the list of the other has a report, and a warning", answer.body.decode().splitlines()[
            1:] == [f"{LUX},T2,MATCHED,1.00,PENDING,1.00,PENDING"] and json.loads(
                answer.headers["Niluppang-Notes"]) == [f"row 2: {LUX} T2 is a transfer to {SCA}, and not of {HAN}"]
        it.made.write_roles(hansdehh=["bank HANSDEHH"])
        hub.process.send_signal(signal.SIGHUP)
        yield "a bank that is taken away is read no more", until(
            lambda: got("hansdehh", f"/transfers/{LUX}/T2")[0] == 403)
        it.words(hub, "operator", instruction(SCA, LUX, 5))
        yield "nor is what waits in its name taken", until(lambda: recorded(hub)[-1][0] == "forbidden") and got(
            "desk", f"/transfers/{SCA}/T5")[1] == f"T|{SCA}|T5|PENDING\n"


def answers_recalls(it, hub):
    """Refusals of recalls in XML. T1 and T31 from LUX are recalled, and T40 is not."""
    it.words(hub, "lutefrpp", instruction(LUX, SCA, 40))
    text = (EXAMPLES / "desk/iso20022/camt.029.xml").read_text().replace("HANSDEHH", LUX[:8])

    def answer(who, bank, tx):
        body = text.replace("SCALBEBB", bank[:8]).replace("HH-0502", tx).replace("SC-0312-2", f"{bank[:4]}-{tx}")
        return it.asked(hub, "/iso20022", body.encode(), who=who).body.replace(tx.encode(), b"TX")

    yield "a third bank gets the same answer, be the transfer recalled or not", answer("hansdehh", HAN, "T1") == answer(
        "hansdehh", HAN, "T40")
    yield "and the beneficiary bank answers the recall", b'"TAKEN"' in answer("scalbebb", SCA, "T1") and (
        b'"REFUSED"' in answer("scalbebb", SCA, "T40"))


def waits(it, hub):
    """An answer before its instruction."""

    def words(who, *lines):
        return it.words(hub, who, *lines)

    def waiting(who):
        return [(one["tx"], one["state"])
                for one in map(json.loads, it.asked(hub, "/waiting", who=who).body.splitlines())]

    yield "an answer whose instruction is not there waits, also if it is sent again", words(
        "scalbebb", confirmation(SCA, LUX, 5)) == ["WAITING"] and words(
            "scalbebb", confirmation(SCA, LUX, 5)) == ["WAITING"]
    yield "one of a third bank waits, too: nobody knows yet", words("hansdehh",
                                                                    confirmation(HAN, LUX, 5)) == ["WAITING"]
    yield "the desk sees what waits, and a bank what is its own", [
        waiting(who) for who in ("desk", "scalbebb", "hansdehh", "lutefrpp")] == [
            [("T5", "WAITING")] * 2, [("T5", "WAITING")], [("T5", "WAITING")], []]
    yield "it changes nothing", it.asked(hub, f"/transfers/{LUX}/T5").body == b"T|LUTEFRPPXXX|T5|UNKNOWN\n"
    yield "the instruction comes", words("lutefrpp", instruction(LUX, SCA, 5)) == ["TAKEN"]
    yield "the answer is taken", until(lambda: it.asked(hub,
                                                        f"/transfers/{LUX}/T5").body == b"T|LUTEFRPPXXX|T5|ACCEPTED\n")
    yield "and that of the third bank is not", until(lambda: (waiting("scalbebb"), waiting("hansdehh"))
                                                     == ([("T5", "TAKEN")], [("T5", "FORBIDDEN")]))
    yield "both in one post, in the right order and in the other one", words(
        "scalbebb", instruction(SCA, SCA, 6), confirmation(SCA, SCA, 6)) == [
            "TAKEN", "TAKEN"] and words("scalbebb", confirmation(SCA, SCA, 7), instruction(SCA, SCA, 7)) == ["WAITING",
                                                                                                             "TAKEN"]
    yield "and it is taken then", until(lambda: it.asked(hub,
                                                         f"/transfers/{SCA}/T7").body == b"T|SCALBEBBXXX|T7|ACCEPTED\n")
    words("scalbebb", confirmation(SCA, LUX, 8))
    yield "without an instruction it is given up in time", until(lambda: ("T8", "EXPIRED") in waiting("scalbebb"))
    yield "and a late instruction changes nothing", words(
        "lutefrpp", instruction(LUX, SCA, 8)) == ["TAKEN"] and it.asked(
            hub, f"/transfers/{LUX}/T8").body == b"T|LUTEFRPPXXX|T8|PENDING\n"


def is_bounded(statuses, cost, began):
    """Whether a client got no more than its 20,000 lines at once and 5,000 a second since then, by what each answer
    costs: on a slow machine that may be all."""
    return set(statuses) <= {200, 429} and statuses.count(200) * cost <= 20_000 + 5000 * (time.monotonic() - began)


def floods(trial):
    """A bank that posts and asks as much as it can."""
    it = Secure(trial)
    with it.site("floods", seconds=120) as hub:
        def post(body, who="lutefrpp"):
            return it.asked(hub, "/messages", body, who=who)

        began = time.monotonic()
        with ThreadPoolExecutor(5) as pool:
            answers = list(pool.map(post, [b"{}\n" * 20_000] * 5))
        late = [int(one.headers["Retry-After"]) for one in answers if one.status == 429]
        yield "lines in a row are bounded for each client, with a word when to come back", is_bounded(
            [one.status for one in answers], 20_000, began) and set(late) <= {1, 2, 3,
                                                                              4}, str([one.status for one in answers])
        yield "another bank is not, and neither is an operator", [post(b"{}\n", who).status
                                                                  for who in ("hansdehh", "operator")] == [200, 200]
        yield "the bank may go on later", until(lambda: post(b"{}\n").status == 200)
        size = (hub.folder / "site1.record").stat().st_size
        yield "lines that are no messages do not fill the record", size < 200_000, str(size)
        for _ in range(100):
            it.asked(hub, "/archive", who="lutefrpp")
        it.asked(hub, "/" + "y" * 7000, who="lutefrpp")
        yield "a long path is a short line of the log", max(map(len, hub.text().splitlines())) < 1000
        rows = recorded(hub, "denied")
        denied = [what for act, who, what in rows if act == "denied" and who == "lutefrpp"]
        yield "being refused 100 times is one row", len(denied) == 1 and denied[0]["asked"] == "GET /archive"
        held = [it.open(hub, "lutefrpp", 4 << 20) for _ in range(4)]
        for one in held:
            one.send(b" " * ((4 << 20) - 1))

        def held_bytes():
            return it.asked(hub, "/metrics", who="monitor").body.partition(b"\nniluppang_body_bytes ")[2].split()[:1]

        yield "bodies that one client holds back leave room for the others", until(
            lambda: held_bytes() == [b"%d" % (4 * ((4 << 20) - 1))]) and [
                post(b"{}\n" * 10).status, post(b"x" * (4 << 20) + b"\n",
                                                "hansdehh").status] == [503, 413], str(held_bytes())
        for one in held:
            one.close()
        connection = it.open(hub, "monitor", 8 << 20)
        yield "the body of who may not post is not waited for", answer_of(connection) == 403
        connection.close()


# a program that answers as another one does, but for the messages on one transfer: these are the lines of a file
ANSWERING = """#!{python}
import os, subprocess, sys
if sys.argv[1] != "serve":
    os.execv({program!r}, [{program!r}, *sys.argv[1:]])
text, out = open({path!r}, "rb").read(), sys.stdout.buffer
child = subprocess.Popen([{program!r}, *sys.argv[1:]], stdin=subprocess.PIPE, stdout=subprocess.PIPE)
def hand_on():
    line = child.stdout.readline()
    out.write(line + (child.stdout.read(int(line[5:]) + 1) if line.startswith(b"TEXT ") else b""))
    out.flush()
hand_on()
for request in sys.stdin.buffer:
    if request.startswith(b"? of ") and request.endswith(b" messages {bank} T900\\n"):
        out.write(b"TEXT %d\\n" % len(text) + text + b"\\n")
        out.flush()
        continue
    child.stdin.write(request)
    child.stdin.flush()
    hand_on()
child.stdin.close()
sys.exit(child.wait())
"""


def reads_long_texts(trial):
    """A bank asks about a transfer whose messages have 5 MB, which the program hands over in no time."""
    it, path, program = Secure(trial), trial.fresh("long.jsonl"), trial.fresh("long")
    path.write_bytes(instruction(LUX, SCA, 900) + confirmation(SCA, LUX,
                                                               900) * ((5 << 20) // len(confirmation(SCA, LUX, 900))))
    program.write_text(ANSWERING.format(python=trial.python, program=trial.program, path=str(path), bank=LUX))
    program.chmod(0o755)
    with it.site("long-texts", program=str(program)) as hub:
        def asks(who):
            return it.asked(hub, f"/transfers/{LUX}/T900", who=who).status

        began = time.monotonic()
        statuses = [asks("lutefrpp") for _ in range(12)]
        yield "a long text costs a bank more than a short one", statuses[0] == 200 and is_bounded(
            statuses, (5 << 10) - 1, began), str(statuses)
        yield "and another bank nothing", asks("scalbebb") == 200


@contextlib.contextmanager
def without_handshake(hub, many):
    """Connections that are silent, as many as the site accepts of some."""
    with contextlib.ExitStack() as held:
        for _ in range(many):
            with contextlib.suppress(OSError):
                held.enter_context(socket.create_connection(("127.0.0.1", hub.port), 5))
        yield


def crowds(trial):
    """Who has no certificate, or no role, and uses up connections and memory."""
    it = Secure(trial)
    with it.site("bounded", connections=30, seconds=300) as hub, without_handshake(hub, 100):
        yield "connections without a handshake are bounded too", until(lambda: connections(hub.port)
                                                                       <= 30), str(connections(hub.port))
    with it.site("crowds", connections=30, seconds=8) as hub:
        with without_handshake(hub, 100):
            yield "and end after their seconds: then others are let in", until(lambda: it.made.is_well(hub.port))
        before = memory(hub)
        ahead = it.made.context("monitor").wrap_socket(socket.create_connection(("localhost", hub.port), sites.LATEST),
                                                       server_hostname="localhost")
        ahead.settimeout(10)
        many, request = 0, b"GET /health HTTP/1.1\r\nHost: localhost\r\n\r\n" * 100
        with contextlib.suppress(OSError):
            for many in range(20_000_000 // len(request)):
                ahead.sendall(request)
        yield "who asks far ahead of its answers is cut off, and takes no memory", many * len(
            request) < 19_000_000 and memory(hub) - before < 40 << 20
        yield "and others are answered", it.made.is_well(hub.port)


def recorded(hub, *acts):
    """The rows of the record of a site: the act, who, and what. A note is written a moment later, so that some acts are
    waited for."""
    def rows():
        with contextlib.closing(sqlite3.connect(f"file:{hub.folder}/site1.record?mode=ro", uri=True)) as connection:
            return [(act, who, json.loads(what))
                    for act, who, what in connection.execute("SELECT act, who, what FROM record ORDER BY number")]
    until(lambda: {act for act, _, _ in rows()}.issuperset(acts))
    return rows()


def on_record(trial):
    """What is on record of each post, each refusal and each operator's act, and that nobody changes it unseen."""
    it, digest = Secure(trial), lambda line: hashlib.sha256(line.rstrip(b"\n")).hexdigest()
    with it.site("record") as hub:
        lines = [instruction(LUX, SCA, 1), b"{}\n", instruction(HAN, SCA, 2)]
        answer = it.asked(hub, "/messages", b"".join(lines), who="lutefrpp")
        it.asked(hub, "/messages", confirmation(SCA, LUX, 9), who="scalbebb")
        it.asked(hub, "/archive", who="monitor")
        rows = [row for row in recorded(hub, "outcome", "unread", "wait", "denied") if row[0] != "begin"]
        by_act = {act: (who, what) for act, who, what in reversed(rows)}
        yield "who posted what, and what became of it, also what was in the name of another bank", [
            by_act[act] for act in ("post", "outcome")] == [
                ("lutefrpp", {"lines": [digest(lines[0]), digest(lines[2])]}),
                ("lutefrpp", {"of": 2, "outcomes": [["TAKEN", 1], ["FORBIDDEN", f"InstgAgt is not {LUX}"]]})]
        yield "what is no message", by_act["unread"] == ("lutefrpp", {"lines": 1, "first": digest(b"{}")})
        waits = digest(confirmation(SCA, LUX, 9))
        yield "what waits", by_act["wait"] == ("scalbebb", {"of": None, "lines": [[1, SCA, waits]]}) and (
            "post", "scalbebb", {"lines": [waits]}) in rows
        yield "who was refused", by_act["denied"] == ("monitor",
                                                      {"asked": "GET /archive", "why": "this needs the role desk"})
        with contextlib.closing(sqlite3.connect(f"file:{hub.folder}/site1.record?mode=ro", uri=True)) as connection:
            cells = connection.execute("SELECT address, request, at FROM record WHERE act = 'post'").fetchone()
        yield from reads_on_record(it, hub)
        yield "from where, in which request, and when", (
            cells[0].startswith("127.0.0.1:") and cells[1] == answer.headers["Niluppang-Request"]
            and cells[2].startswith(time.strftime("%Y-", time.gmtime())))
        log = [json.loads(line) for line in hub.text().splitlines() if line.startswith("{")]
        yield "the log has the request too", any(one.get("request") == cells[1] and one["who"] == "lutefrpp"
                                                 for one in log)

        def audit(*words):
            return harness.run([trial.python, str(sites.MAIN), f"--config={hub.config}", "--audit", *words],
                               env={**os.environ, "SCT_SITES": trial.program})

        first = audit()
        yield "an audit while the site runs finds nothing wrong", first.status == 0 and b"WRONG" not in first.text
        last = first.text.decode().splitlines()[0].rsplit(" ", 1)[1]
        yield "a row that was kept is still there", audit("--since", last).status == 0
        yield "its sum and no other", audit("--since", last[:-1] + ("0" if last[-1] != "0" else "1")).status == 1
        operator = harness.run([trial.python, str(sites.MAIN), f"--config={hub.config}", f"--backup={hub.folder}/copy"],
                               env={**os.environ, "SCT_SITES": trial.program})
        yield "an operator's act is on record", operator.status == 0 and [row[0] for row in recorded(hub, "backup")][
            -1] == "backup", operator.errors.decode()
    with contextlib.closing(sqlite3.connect(hub.folder / "site1.record")) as connection:
        for statement in ("UPDATE record SET who = 'x'", "DELETE FROM record"):
            refused = is_refused_by_base(connection, statement)
            yield f"{statement.split()[0]} is refused by the file itself", refused
        connection.execute("DROP TRIGGER record_stays")
        connection.execute("UPDATE record SET who = 'hansdehh' WHERE act = 'post'")
        connection.commit()
    changed = audit()
    yield "a changed row is found by an audit", changed.status == 1 and b"WRONG" in changed.text


def reads_on_record(it, hub):
    """Who was answered what about payments."""
    body = b"DbtrAgt,TxId,Amt,Sts\nLUTEFRPP,T1,1.00,PENDING\n"
    asks = [("lutefrpp", f"/transfers/{LUX}/T1", None),
            ("desk", f"/transfers/{LUX}/T1/messages", None), ("desk", "/archive", None),
            ("lutefrpp", f"/report/{LUX}/2024-05-02", body), ("scalbebb", "/waiting", None),
            ("desk", "/status", None), ("desk", "/contradictions", None), ("hansdehh", f"/transfers/{LUX}/T1", None),
            ("monitor", "/metrics", None), ("desk", f"/totals/{LUX}", None)]
    answers = [it.asked(hub, path, data, who=who) for who, path, data in asks]
    right = [(who, answer.headers["Niluppang-Request"], f"{'GET' if data is None else 'POST'} {path}")
             for (who, path, data), answer in list(zip(asks, answers))[:7]]
    with socket.create_connection(("localhost", hub.port), sites.LATEST) as plain, it.made.context("desk").wrap_socket(
            plain, server_hostname="localhost") as stream:
        stream.sendall(head("GET", "/changes"))
        begun = stream.recv(1 << 16)
    right.append(("desk", re.search(rb"Niluppang-Request: (\w+)", begun)[1].decode(), "GET /changes"))

    def found():
        return sorted((who, *one) for act, who, what in recorded(hub) if act == "read" for one in what["reads"])

    yield "who read which payments, in which request, and nothing else", [one.status for one in answers] == [
        200] * 7 + [403, 200, 200] and until(
            lambda: found() == sorted(right)), str(found())


def certificates_are_kept(trial):
    """certificates.sh never writes over the authority, and nothing beside its folder."""
    folder = trial.fresh("tls")
    secure.certificate(folder, "one")
    before = {path.name: path.read_bytes() for path in folder.iterdir()}
    wrong = ["authority", "../out", "-out", ".hidden", "a,DNS:b"]
    yield "names that are none", [harness.run(["sh", secure.CERTIFICATES, folder, name]).status
                                  for name in wrong] == [2] * len(wrong)
    yield "nothing is written then", {path.name: path.read_bytes() for path in folder.iterdir()} == before and not (
        folder.parent / "out.key").exists()


def is_refused_by_base(connection, statement):
    try:
        connection.execute(statement)
    except sqlite3.DatabaseError:
        return True
    return False


def peers(trial):
    """A peer that speaks for another site, or is another one, and who is between two sites."""
    it = Secure(trial)
    ports = sites.free_ports(3)

    def url(number):
        return f"https://localhost:{ports + number - 1}"

    def its(number, *others):
        return ["[peers]", *(f'{other} = "{url(other)}"' for other in others)]

    def held(port, who="gateway"):
        return it.made.asked(port, "/vector", who=who).body.strip().decode()

    with it.site("one", *its(1, 2, 3), port=ports, is_well=False) as one, it.site("two", *its(2, 1), number=2,
                                                                                  port=ports + 1) as two:
        yield "two sites hear each other by their certificates", until(lambda: it.made.is_well(ports))
        it.words(two, "operator", instruction(LUX, SCA, 1))
        yield "and exchange", until(lambda: held(ports) == "2:1")
        with it.site("three", *its(3, 2), number=3, port=ports + 2):
            it.made.asked(ports + 2, "/messages", instruction(LUX, SCA, 2), who="operator")
            yield "a third one exchanges with both", until(lambda: held(ports) == "2:1,3:1")
            yield "what comes over another site is not taken from it", held(ports + 1) == "2:1"
        config = (one.config).read_text()
        swapped = config.replace(url(2), url(3)).replace(f'3 = "{url(3)}"\n', "", 1)
        one.config.write_text(swapped)
        one.process.send_signal(signal.SIGHUP)
        with it.site("three", *its(3, 2), number=3, port=ports + 2):
            def said():
                return json.loads(it.made.asked(ports, "/health", who="desk").body)["peers"]

            yield ("a site at the address of another one is not heard: its certificate is not that of the other one",
                   until(lambda: said().get("2") == "its certificate is not trusted"), str(said()))
        one.config.write_text(config)
        one.process.send_signal(signal.SIGHUP)
        it.words(two, "operator", instruction(LUX, SCA, 3))
        yield "with the right address it goes on", until(lambda: held(ports) == "2:2,3:1")
        yield "a peer is given deltas, and nothing else", [
            it.made.asked(ports, path, who="site2").status for path in ("/delta?of=1", "/archive", "/totals")] == [
            200, 403, 403]


def overtakes(trial):
    """An answer that comes to another site than its instruction, before it, and that lasts over a kill."""
    it = Secure(trial)
    ports = sites.free_ports(2)

    def its(number, other):
        return ["[peers]", f'{other} = "https://localhost:{ports + other - 1}"']

    line = confirmation(SCA, LUX, 1)
    with it.site("late", *its(2, 1), number=2, port=ports + 1, hear=0) as two:
        yield "an answer at a site that never heard of its transfer waits", it.words(two, "scalbebb",
                                                                                     line) == ["WAITING"]
        two.kill()
        two.start()
        yield "also after a kill", until(lambda: b'"WAITING"' in it.made.asked(ports + 1, "/waiting",
                                                                               who="scalbebb").body)
        with it.site("early", *its(1, 2), port=ports) as one:
            it.words(one, "lutefrpp", instruction(LUX, SCA, 1))
            accepted = f"T|{LUX}|T1|ACCEPTED\n".encode()
            yield "the instruction comes from the other site, and the answer goes back to it", until(
                lambda: {it.made.asked(port, f"/transfers/{LUX}/T1").body for port in (ports, ports + 1)} == {accepted})
            yield "sent again at the other site, it is a message of that one too, and changes nothing", it.words(
                one, "scalbebb", line)[0] in (
                    "TAKEN", "REPEAT") and it.made.asked(ports, f"/transfers/{LUX}/T1").body == accepted


def goes_on(trial):
    """An answer that waited when its site ended, while its instruction had come: it is taken at the next start."""
    it, data = Secure(trial), trial.fresh("goes-on")
    data.mkdir(mode=0o700)
    sites.write_journal(data / "site1.journal", 1, 64,
                        [instruction(LUX, SCA, 1).strip(), instruction(LUX, HAN, 2).strip()])
    until_then = chain.utc(time.time() + 3600)
    rows = [waiting.to_wait(until_then, "scalbebb", SCA, "pacs.002", LUX, f"T{number}", "",
                            confirmation(SCA, LUX, number).strip()) for number in (1, 2)]

    async def put():
        its = record.Record(data / "site1.record", 1, 64)
        await its.open(lambda: [])
        await its.put_waiting(rows)
        await its.close()
    asyncio.run(put())
    with it.site("goes-on", data=data) as hub:
        def status(number):
            return it.asked(hub, f"/transfers/{LUX}/T{number}").body.split(b"|")[3].strip()

        yield "what waited is taken when the site starts and holds its instruction", until(lambda: status(1)
                                                                                           == b"ACCEPTED")
        yield "and not if the instruction is to another bank", until(
            lambda: "forbidden" in {row[0] for row in recorded(hub)}) and status(2) == b"PENDING"


def handed_on(trial):
    """Entries of another site in the answer of a peer, and those of a retired one, which the configuration lets a peer
    hand on."""
    delta = inputs.delta(5, 1, 1, 2)
    cookies = []

    def sends_cookies(it):
        cookies.append(it.headers.get("Cookie"))
        it.send(delta, vector="5:2", **{"Set-Cookie": f"c{len(cookies)}=x"})
    with odd_peer(sends_cookies) as server:
        # a name, since cookies of a number are never kept
        words = ["--hear=0", f"--peer=2=http://localhost:{server.server_port}"]
        with trial.site(trial.fresh("other"), *words, is_well=False) as hub:
            yield "entries of a third site are thrown away, and it is said", until(
                lambda: "entries of site 5" in str(said_of(hub))) and sites.asked(
                    hub.port, "/vector").body == b"-\n"
            asked_for = {path.partition("?")[2] for _, path in server.paths if path.startswith("/delta")}
            yield "what a peer gives to remember is not remembered", until(lambda: len(cookies)
                                                                           > 3) and set(cookies) == {None}
            yield "a peer is asked for its own entries", all("of=2" in words for words in asked_for)
    own = inputs.delta(2, 1, 3)

    def answer(it):
        return it.send(delta if "of=5" in it.path else own, vector="2:1,5:2")

    with odd_peer(answer) as server:
        words = ["--hear=0", f"--peer=2=http://127.0.0.1:{server.server_port}", "--through=5=2"]
        with trial.site(trial.fresh("through"), *words, is_well=False) as hub:
            yield "a peer that the configuration names hands on those of a retired site", until(
                lambda: sites.asked(hub.port, "/vector").body == b"2:1,5:2\n"), str(said_of(hub))


def said_of(hub):
    return json.loads(sites.asked(hub.port, "/health").body)["peers"]


def insiders(trial):
    """Other users of the machine, monitors and operators."""
    it = Secure(trial)
    with it.site("insiders") as hub:
        it.words(hub, "operator", instruction(LUX, SCA, 1))
        modes = {path.name: path.stat().st_mode & 0o077 for path in [hub.folder, *hub.folder.iterdir()]}
        yield "no other user reads a file of the site", len(modes) > 2 and not any(modes.values()), str(modes)
        yield "what another user of the machine asks needs a certificate, too", is_cut(lambda: it.asked(hub, "/health",
                                                                                                        who=None))
        yield "a monitor reads no payment", [
            it.asked(hub, path, who="monitor").status
            for path in ("/archive", f"/transfers/{LUX}/T1", "/changes", "/metrics")] == [
                403, 403, 403, 200]
        yield "an operator reads none either, and posts on record", it.asked(
            hub, "/archive", who="operator").status == 403 and (
                "post", "operator") in [row[:2] for row in recorded(hub)]
        words = pathlib.Path(f"/proc/{hub.process.pid}/cmdline").read_bytes() + pathlib.Path(
            f"/proc/{hub.process.pid}/environ").read_bytes()
        yield "no secret is in the words or the environment of the process", DESK_TOKEN.encode() not in words
        connection = http.client.HTTPSConnection("localhost", hub.port, context=it.made.context("desk"))

        def get():
            return (connection.request("GET", "/totals"), answer_of(connection))[1]

        before, plain = get(), socket.create_connection(("localhost", hub.port), sites.LATEST)
        stream = it.made.context("desk").wrap_socket(plain, server_hostname="localhost")
        stream.sendall(b"GET /changes HTTP/1.0\r\nHost: localhost\r\n\r\n")
        stream.recv(100)
        it.words(hub, "scalbebb", confirmation(SCA, LUX, 9))
        it.made.write_roles(desk=["monitor"], scalbebb=["bank HANSDEHH370"])
        hub.process.send_signal(signal.SIGHUP)
        yield "a role that is taken away is gone at once, on an open connection too", before == 200 and until(
            lambda: get() == 403)
        yield "an open stream of changes ends", is_ended(stream)
        it.words(hub, "operator", instruction(LUX, SCA, 9))
        yield "what waits in the name of a bank that its client lost is not taken", until(
            lambda: recorded(hub)[-1][0] == "forbidden") and it.asked(
                hub, f"/transfers/{LUX}/T9").body == f"T|{LUX}|T9|PENDING\n".encode()
        (it.made.folder / "roles.toml").write_text("[desk]\nroles = [1]\n")
        hub.process.send_signal(signal.SIGHUP)
        yield "a file of roles that is none changes nothing, and is logged", until(lambda: "is not read again"
                                                                                   in hub.text()) and get() == 403


def other_roles(trial):
    """A configuration that gives addresses other roles, and one that gives a bank too much."""
    it = Secure(trial)
    own = '"GET /transfers/{bank}/{tx}/messages" = ["desk"]'
    with it.site("other-roles", "[access]", '"GET /totals" = ["monitor"]', own) as hub:
        def got(who, path):
            return it.asked(hub, path, who=who).status

        yield "an address has the roles that the configuration gives it", [got(who, "/totals")
                                                                           for who in ("monitor", "desk")] == [200, 403]
        paths = [f"/transfers/{LUX}/T1", f"/transfers/{LUX}/T1/messages"]
        yield "a transfer and its messages are two addresses", [got("lutefrpp", path) for path in paths] == [200, 403]
    config = it.made.configured(trial.fresh("too-much"), 1, sites.free_ports(1), "[access]",
                                '"GET /archive" = ["bank"]')
    done = harness.run([trial.python, str(sites.MAIN), f"--config={config}"],
                       env={**os.environ, "SCT_SITES": trial.program}, seconds=sites.LATEST)
    yield ("a bank gets no complete text", done.status == 2 and b"GET /archive in [access]" in done.errors,
           done.errors.decode())


def is_ended(stream):
    """Whether the other side ends a connection in some seconds."""
    stream.settimeout(sites.LATEST)
    with contextlib.suppress(ConnectionError, ssl.SSLError):
        while stream.recv(1 << 16):
            pass
        return True
    return False


def answer_of(connection):
    answer = connection.getresponse()
    answer.read()
    return answer.status


def new_certificates(trial):
    """A site is given another certificate and another authority while it runs."""
    it = Secure(trial)
    with it.site("renewed") as hub:
        def serial():
            return peer_certificate(it, hub)

        before = serial()
        secure.certificate(it.made.folder / "tls", "site1", "localhost", "127.0.0.1")
        hub.process.send_signal(signal.SIGHUP)
        yield "a new certificate is shown after SIGHUP", until(lambda: serial() != before)
        config = hub.config.read_text()
        hub.config.write_text(config.replace("tls/authority.crt", "other/authority.crt"))
        hub.process.send_signal(signal.SIGHUP)
        yield "who has a certificate of the old authority is let in no more", until(
            lambda: is_cut(lambda: it.asked(hub, "/health", who="desk")))
        yield "and who has one of the new one is", it.asked(hub, "/health", who="desk", authority="other").status == 200


def peer_certificate(it, hub):
    with socket.create_connection(("localhost", hub.port), sites.LATEST) as plain:
        with it.made.context("desk").wrap_socket(plain, server_hostname="localhost") as connection:
            return connection.getpeercert()["serialNumber"]


CHECKS = [describes_itself, strangers, each_role, banks, stands_for_two, is_blind, floods, reads_long_texts, crowds, on_record, peers,
          overtakes, goes_on, handed_on,
          insiders, other_roles, new_certificates, certificates_are_kept]


def check(python, program):
    return tried_with_tls("attackers", CHECKS, python, program)


if __name__ == "__main__":
    sites.checked(check)
