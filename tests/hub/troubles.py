"""troubles.py: sites of services/hub on the examples, on a full disk, with clients that are slow or cut off, and with
pages that watch."""
import csv
import json
import os
import re
import resource
import shutil
import sys
import tempfile
import time
import traceback
from concurrent.futures import ThreadPoolExecutor
from tests import harness, inputs
from tests.harness import EXAMPLES, reported
from tests.hub import sites
from tests.hub.sites import asked, error_of, outcomes, refusal_of, until
from tests.hub.trial import Trial, answered, events, head, lines_of, named, raw, same_set, watched

SIDE_BY_SIDE = 4
ROOM = 400_000  # bytes that a file of a full disk has
EXAMPLE = ["bank-day", "hub-morning", "recall-batch", "refusals", "settlement-day"]


# ---- examples

def answers_examples(trial):
    """The files of examples/, posted at a site: the texts are those that the examples have."""
    for name in EXAMPLE:
        with trial.site(trial.fresh(name)) as hub:
            answer = asked(hub.port, "/messages", (EXAMPLES / f"{name}.jsonl").read_bytes())
            refused = "".join(f"line {it['line']}: {refusal_of(it)}\n" for it in outcomes(answer)
                              if it["outcome"] == "REFUSED")
            texts = {word: asked(hub.port, f"/{word}").body for word in ("status", "totals", "archive")}
            yield f"{name}: the texts and the refused lines", (
                all(text == (EXAMPLES / f"{name}.{word}").read_bytes() for word, text in texts.items())
                and refused.encode() == (EXAMPLES / f"{name}.refused").read_bytes())
            against = {tuple(line.split(b"|")[4:7]) for line in texts["status"].splitlines() if b"|Identity|" in line}
            found = {tuple(line.split(b"|")) for line in asked(hub.port, "/contradictions").body.splitlines()}
            yield f"{name}: the contradictions", found == against
            if name == "bank-day":
                yield from one_answers(hub, texts)


def saved_lists(hub, report):
    """Lists as a spreadsheet saves them have the report of the list itself. What is no list is named, row by row."""
    rows = list(csv.reader((EXAMPLES / "bank-day.list").read_text().splitlines()))
    saved = "\r\n".join(";".join([bank, tx, amount.replace(".", ","), status]) for bank, tx, amount, status in rows)
    for name, data in (("semicolons", saved.encode()), ("UTF-16", saved.replace(";", "\t").encode("utf-16"))):
        found = asked(hub.port, "/report/LUTEFRPP/2025-03-10", data)
        notes = ["the list was read as a spreadsheet saves it", *json.loads(report.headers["Niluppang-Notes"])]
        yield f"a list with {name}", (found.body, json.loads(found.headers["Niluppang-Notes"])) == (report.body, notes)
    kind = report.headers["Content-Type"], report.headers["Content-Disposition"]
    yield "a report is CSV with the name of a file", kind == (
        "text/csv; charset=utf-8", 'attachment; filename="report-LUTEFRPPXXX-2025-03-10.csv"')
    header = b"DbtrAgt,TxId,Amt,Sts\n"
    alone = asked(hub.port, "/report/LUTEFRPP/2025-03-10", header)
    yield "a header alone", alone.status == 200 and json.loads(alone.headers["Niluppang-Notes"]) == [
        "the list has the header alone: each transfer of the day is then ONLY_IN_ARCHIVE or MISSING"]
    for data, number, why in (
            (b"", 1, "the file is empty: "),
            (b"PK\3\4" + b"x" * 200_000, 1, "the file is a workbook or a ZIP archive: save the workbook as CSV"),
            (b"Bank;Kennung;Betrag;Status\n", 1, "it is 'Bank', 'Kennung', 'Betrag', 'Status'; write these four names"),
            (header + b"LUTEFRPP,T1,1.640,ACCEPTED\nLUTEFRPP,T2,1,ACCP\n", 2,
             "it can be 1640 or 1.640; row 3: 'ACCP' is not one of ")):
        wrong = asked(hub.port, "/report/LUTEFRPP/2025-03-10", data)
        yield f"the list {data[:20]!r} is explained", wrong.status == 400 and why in json.loads(wrong.body)["why"] and (
            error_of(wrong)[1:] == (48, "BadList", f"48 {number}") or data[:2] == b"PK")
    many = asked(hub.port, "/report/LUTEFRPP/2025-03-10", header + b"LUTEFRPP,T_1,1,ACCEPTED\n" * 30)
    yield "twenty rows of a list are named", json.loads(many.body)["why"].endswith(
        "row 21: 'T_1' is not an identification: it has '_'; and 10 more")


def one_answers(hub, texts):
    """Answers about one transfer, one bank and one list."""
    report = asked(hub.port, "/report/LUTEFRPP/2025-03-10", (EXAMPLES / "bank-day.list").read_bytes())
    yield "the report", report.body == (EXAMPLES / "bank-day.report").read_bytes()
    yield "a row of another day is named", json.loads(report.headers["Niluppang-Notes"]) == [
        "row 9: LUTEFRPPXXX LU20250310B9 is of 2025-03-11, and not of 2025-03-10; the report compares it all the same"]
    yield from wrong_reports(hub)
    wrong = asked(hub.port, "/report/LUTEFRPP/2025-03-10", b"DbtrAgt,TxId,Amt,Sts\n\nLUTEFRPP,A,1,PENDING\n,\tB\n")
    yield "a list with a tab in a row is refused by that row", error_of(wrong) == (400, 48, "BadList", "48 3")
    yield from saved_lists(hub, report)
    yield "one transfer", asked(hub.port, "/transfers/LUTEFRPP/LU%2C10").body == b"T|LUTEFRPPXXX|LU,10|INVESTIGATED\n"
    held = [line for line in texts["archive"].splitlines(True) if b'TxId":"LU20250310B6"' in line]
    yield "its messages", asked(hub.port,
                                "/transfers/LUTEFRPP/LU20250310B6/messages").body == b"".join(held) and len(held) == 3
    bank = [line for line in texts["totals"].splitlines(True) if line.startswith(b"LUTEFRPPXXX|")]
    yield "one bank", [asked(hub.port, "/totals/LUTEFRPP").body] == bank
    refused = ["/transfers/bank/T1", "/transfers/A%20LUTEFRPP/T1", "/transfers/%0A/T1", "/totals/bank",
               "/transfers/LUTEFRPP/T%0A1"]
    answers = [error_of(asked(hub.port, path)) for path in refused]
    yield "words that are none", answers == [(400, 73, "BadArgument", "73 1")] * 4 + [(400, 73, "BadArgument", "73 2")]
    others = [asked(hub.port, path) for path in ("/nothing", "/delta?have=x")]

    def is_json(it):
        return set(json.loads(it.body)) == {"code", "name", "why",
                                            "remedy"} and it.headers["Content-Type"].startswith("application/json")

    yield "other errors", [error_of(it)[:3] for it in others] == [(404, 404, "NotFound"),
                                                                  (400, 400, "Wrong")] and all(map(is_json, others))
    yield "a slash in an identification", asked(hub.port,
                                                "/transfers/BANKDEFF/A%2FB").body == b"T|BANKDEFFXXX|A/B|UNKNOWN\n"
    with raw(hub.port, head("GET", f"http://localhost:{hub.port}/transfers/BANKDEFF/A%2FB",
                            "Connection: close")) as proxied:
        yield "a request as a proxy sends it", b"T|BANKDEFFXXX|A/B|UNKNOWN" in proxied.makefile("rb").read()
    both = outcomes(asked(hub.port, "/messages", b"delta 2\tend 0\n? vector\n \n? archive\n"))
    yield "a line that looks like a delta or a question is no message", [(it["line"],
                                                                          it.get("code")) for it in both] == [
                                                                              (1, 31), (2, 31), (4, 31)]
    yield "nothing is not a message", asked(hub.port, "/messages", b"\n \n\r\n").body == b""


def wrong_reports(hub):
    """A report for a bank or a day that the list is not of. desk.sh says the same."""
    listed = (EXAMPLES / "bank-day.list").read_bytes()
    wrong = asked(hub.port, "/report/DEUTDEFF/2025-03-10", listed)
    others = [b"row 2: LUTEFRPPXXX LU20250310B1 is a transfer to ARNOITFFXXX, and not of DEUTDEFFXXX",
              b"row 11: HANSDEHHXXX HH-0301 is a transfer to LUTEFRPPXXX, and not of DEUTDEFFXXX"]
    yield "another bank gets no report", wrong.status == 400 and all(
        text in wrong.body for text in others) and b"MATCHED" not in wrong.body
    wrong = [asked(hub.port, f"/report/{words}", listed)
             for words in ("LUTEFRPP/2025-02-31", "LUTEFRPP/today", "lutefrpp/2025-03-10")]
    why = (b"2025-02-31 is not a day such as", b"today is not a day such as",
           b"lutefrpp is not a BIC of 8 or 11 capitals and digits")
    yield "nor is there one for what is no day or no bank", [it.status for it in wrong] == [400] * 3 and all(
        text in it.body for it, text in zip(wrong, why))
    other_days = asked(hub.port, "/report/LUTEFRPP/2025-03-09", listed)
    notes = json.loads(other_days.headers["Niluppang-Notes"])
    right = (200, 6, "and 4 other rows of other days")
    yield "of many rows of another day only some are named", (other_days.status, len(notes), notes[-1]) == right


# ---- the disk

def fills(hub, many=200):
    """The lines that a site acknowledges until its disk is full, and the answer then."""
    taken = b""
    for number in range(0, 100_000, many):
        lines = lines_of(number, many)
        answer = asked(hub.port, "/messages", lines)
        if answer.status != 200:
            return taken, answer
        taken += lines
    return taken, answer


def survives_a_full_disk(trial):
    """The disk is full: posts are refused, nothing is lost, questions are answered, and it goes on when there is
    room."""
    folder = trial.fresh("full")
    with trial.site(folder, room=ROOM) as hub:
        taken, answer = fills(hub)
        yield "a full disk: a post is refused by 507", answer.status == 507 and bool(taken)
        started = hub.served()
        many = [asked(hub.port, "/messages", lines_of(500_000, 300)).status for _ in range(5)]
        yield "a full disk: again, and other posts too", many == [507] * 5
        yield "a full disk: the process is not started anew for each of them", started == hub.served() != {}
        yield "a full disk: what was acknowledged is held, and nothing else", same_set(hub.port, taken)
        yield "a full disk: the site says so", b"the disk fails" in asked(hub.port, "/health").body
        for process in [hub.process.pid, *hub.served().values()]:
            resource.prlimit(process, resource.RLIMIT_FSIZE, (resource.RLIM_INFINITY, resource.RLIM_INFINITY))
        more = lines_of(600_000, 300)
        yield "a full disk: there is room again", until(lambda: asked(hub.port, "/messages", more).status == 200)
        yield "a full disk: the site is well again", sites.is_well(hub.port)
        hub.kill()
        hub.room = None
        hub.start()
        until(lambda: sites.is_well(hub.port))
        yield "a full disk: all is there after a kill", same_set(hub.port, taken + more)


def survives_a_full_file_system(trial):
    """The same on a small file system, if this machine lets the check mount one."""
    folder = trial.fresh("small")
    folder.mkdir()
    mounted = shutil.which("mount") and not harness.run(["mount", "-t", "tmpfs", "-o", "size=2m", "tmpfs",
                                                         str(folder)]).status
    if not mounted:
        print("not tried: a small file system, since nobody may mount one here")
        return
    try:
        with trial.site(folder / "hub") as hub:
            taken, answer = fills(hub, 50)
            yield "a small file system: a post is refused by 507", answer.status == 507 and bool(taken)
            yield "a small file system: what was acknowledged is held, and nothing else", same_set(hub.port, taken)
            harness.run(["mount", "-o", "remount,size=20m", str(folder)])
            more = lines_of(600_000, 300)
            yield "a small file system: there is room again", until(lambda: asked(hub.port, "/messages",
                                                                                  more).status == 200)
            yield "a small file system: all is there", same_set(hub.port, taken + more)
    finally:
        harness.run(["umount", str(folder)])


# ---- the process

def survives_its_process(trial):
    """The process of a site ends with a request under way, again and again: the request is given up, and the site goes
    on."""
    stubborn = trial.folder / "stubborn"
    stubborn.write_text(f'#!/bin/sh\n[ "$1" = serve ] || exec {trial.program} "$@"\n'
                        f'sed -u "/STOP/Q" | {trial.program} "$@"\n')
    stubborn.chmod(0o755)
    with trial.site(trial.fresh("process"), program=str(stubborn)) as hub:
        yield "a line is taken", outcomes(asked(hub.port, "/messages", lines_of(1, 1)))[0]["outcome"] == "TAKEN"
        yield "what ends the process is given up", asked(hub.port, "/messages",
                                                         b'{"a":"STOP"}\n{"b":1}\n').status == 503
        yield "and the site goes on", outcomes(asked(hub.port, "/messages", lines_of(2, 1)))[0].get("number") == 2


# ---- clients

def survives_clients(trial):
    def post(length):
        return head("POST", "/messages", length=length)

    lines = lines_of(1, 3)
    with trial.site(trial.fresh("clients"), "--seconds=300") as hub:
        cut_off = raw(hub.port, post(len(lines)) + lines[:-10])
        slow = [raw(hub.port, post(len(lines)) + lines[:20]) for _ in range(50)]
        cut_off.close()
        yield "clients that are slow or cut off hold nobody up", asked(hub.port, "/messages",
                                                                       lines_of(10, 2)).status == 200
        yield "of a post that is cut off nothing is taken", asked(hub.port, "/vector").body == b"1:2\n"
        slow[0].sendall(lines[20:])
        yield "a slow client is answered in the end", slow[0].recv(100).startswith(b"HTTP/1.1 200")
        for one in slow:
            one.close()
    with trial.site(trial.fresh("late"), "--seconds=4") as hub:
        yield "one that is too slow is answered 408", answered(hub.port, post(len(lines)) + lines[:20]) == 408


# ---- pages

def publishes(trial):
    with trial.site(trial.fresh("events")) as hub:
        asked(hub.port, "/messages", lines_of(1, 2))
        page = watched(hub.port)
        begin, = events(page, 1)
        yield "a page begins", begin["event"] == "begin"
        asked(hub.port, "/messages", inputs.confirmation(1).encode())
        changed, = events(page, 1)
        yield "it sees what changed, and its lines", json.loads(changed["data"]) == [
            {"bank": "BANKDEFFXXX", "tx": "T1", "lines": ["T|BANKDEFFXXX|T1|ACCEPTED"]}]
        for process in hub.served().values():
            os.kill(process, 9)
        asked(hub.port, "/messages", lines_of(50, 1))
        after = events(page, 2)
        yield "when the process was started again, the page loads again and goes on", [it["event"] for it in after] in (
            ["reset", "transfers"], ["transfers", "reset"]) or after[0]["event"] == "reset"
        page.close()
        second = watched(hub.port)
        events(second, 1)
        asked(hub.port, "/messages", inputs.confirmation(2).encode())
        missed = events(watched(hub.port, after[-1]["id"]), 1)
        yield "a page that comes back sees what it missed", "T2" in named(missed[0])
        reset, = events(watched(hub.port, "1-1"), 1)
        yield "and loads again if that is not here any more", reset["event"] == "reset"
        hub.kill()
        hub.start()
        until(lambda: sites.is_well(hub.port))
        reset, = events(watched(hub.port, after[-1]["id"]), 1)
        yield "and after the site was started again", reset["event"] == "reset"
        many = [watched(hub.port) for _ in range(3)]
        for one in many:
            one.close()
        asked(hub.port, "/messages", lines_of(70, 1))
        gone = until(lambda: b"niluppang_pages 1\n" in asked(hub.port, "/metrics").body
                     or b"niluppang_pages 0\n" in asked(
                         hub.port, "/metrics").body)
        yield "pages that are gone are forgotten", gone


def counts(trial):
    """What a monitor reads after some posts."""
    with trial.site(trial.fresh("counts")) as hub:
        asked(hub.port, "/messages", lines_of(1, 3) + lines_of(1, 1) + b"{}\nfoo\n")
        lines = asked(hub.port, "/metrics").body.decode().splitlines()
        types = [line.split()[2] for line in lines if line.startswith("# TYPE ")]
        helps = [line.split(" ", 3)[2:] for line in lines if line.startswith("# HELP ")]
        yield "each metric has a sentence", [name for name, _ in helps] == types and all(
            re.fullmatch(r"\S.{5,}\.", text) for _, text in helps)
        found = dict(line[len("niluppang_"):].rsplit(" ", 1) for line in lines if not line.startswith("#"))
        right = {'messages_total{outcome="TAKEN"}': "3", 'messages_total{outcome="REPEAT"}': "1",
                 'messages_total{outcome="REFUSED"}': "2",
                 'entries{origin="1"}': "3", 'refusals_total{number="33"}': "1",
                 'refusals_total{number="31"}': "1", "rounds_total": "1",
                 "process_restarts_total": "0", "waiting_bytes": "0", "body_bytes": "0", "pages": "0",
                 "forbidden_total": "0", "is_halted": "0",
                 "is_well": "1", "deltas_total": "0",
                 "journal_bytes": str((hub.folder / "site1.journal").stat().st_size)}
        yield "what a monitor reads", {name: found.get(name) for name in right} == right
        for process in hub.served().values():
            os.kill(process, 9)
        yield "a restart of the process is counted", until(
            lambda: asked(hub.port, "/messages", lines_of(9, 1)).status == 200
            and b"process_restarts_total 1\n" in asked(hub.port, "/metrics").body)


CHECKS = [answers_examples, counts, survives_a_full_disk, survives_a_full_file_system, survives_its_process,
          survives_clients, publishes]


def check(python, program):
    return tried("troubles", CHECKS, python, program)


def tried(name, checks, python, program):
    """Whether each thing is right that some functions look at: all, or those that words of the command line name. Some
    of them are looked at side by side, since they wait most of the time."""
    checks = [each for each in checks if not sys.argv[1:] or each.__name__ in sys.argv[1:]]
    with tempfile.TemporaryDirectory(prefix=f"hub-{name}-") as folder, ThreadPoolExecutor(SIDE_BY_SIDE) as pool:
        trial = Trial(python, program, folder)
        right = [one for found in pool.map(lambda each: looked_at(each, trial), checks) for one in found]
        if not all(right):
            trial.print_logs()
        return right


def tried_with_tls(name, checks, python, program):
    """The same, of checks with certificates."""
    if shutil.which("openssl") is None:
        raise sites.Skipped("there is no openssl: apt-get install openssl")
    return tried(name, checks, python, program)


def looked_at(each, trial):
    """Whether each thing is right that a function looks at. An error of the function is one that is not."""
    began, right, name = time.monotonic(), [], f"{each.__name__} ends"
    try:
        for one in each(trial):
            right.append(reported(*one))
    except Exception:
        right.append(reported(name, False, traceback.format_exc()))
    print(f"  {each.__name__}: {time.monotonic() - began:.1f} seconds", flush=True)
    return right


if __name__ == "__main__":
    sites.checked(check)
