"""evidence.py: what digests show to others: where two sites differ, and that a message was held."""
import contextlib
import json
import os
import sys
from tests import inputs
from tests.harness import EXAMPLES, SERVICES, run
from tests.hub import sites
from tests.hub.forks import has, peer
from tests.hub.sites import asked, until, write_journal
from tests.hub.trial import line_of, lines_of
from tests.hub.troubles import tried
from tests.oracle.digests import chain_of
from tests.oracle.status import read_message

HUBCTL, CHECK = SERVICES / "hub" / "hubctl.py", EXAMPLES / "proof" / "check_proof.py"


def url(hub):
    return f"http://127.0.0.1:{hub.port}"


def hubctl(*words):
    return run([sys.executable, HUBCTL, *words], env={name: it for name, it in os.environ.items()
                                                      if not name.startswith("NILUPPANG")}, seconds=sites.LONGEST)


def chain(*numbers):
    """The digests of instructions with these numbers, from that of none on."""
    return [one.hex() for one in chain_of([read_message(inputs.instruction(number).encode()) for number in numbers])]


def site_of(trial, stack, number, lines, deltas=()):
    """A site with these own lines and deltas in its journal."""
    folder = trial.fresh(f"site{number}")
    folder.mkdir()
    write_journal(folder / f"site{number}.journal", number, 64,
                  [*lines, *(delta[:-1].replace(b"\n", b"\t") for delta in deltas)])
    return stack.enter_context(trial.site(folder, number=number))


def compares(trial):
    """Two sites that hold the same, more, or something else."""
    with contextlib.ExitStack() as stack:
        own = lines_of(1, 3).splitlines()
        one = site_of(trial, stack, 1, own, [inputs.delta(2, 1, 11, 12, 13, 14), inputs.delta(3, 1, 21)])
        two = site_of(trial, stack, 2, lines_of(11, 5).splitlines(), [inputs.delta(1, 1, 1, 2), inputs.delta(5, 1, 51)])
        done = hubctl("compare", url(one), url(two))
        said = (f"equal at 1:2,2:4\n{url(one)} has 1 more of site 1\n{url(one)} has 1 more of site 3\n"
                f"{url(two)} has 1 more of site 2\n{url(two)} has 1 more of site 5\n")
        yield "two sites that hold the same, as far as both do", done == (said.encode(), b"", 0), str(done)
        other = site_of(trial, stack, 4, [], [inputs.delta(1, 1, 1, 2, 9), inputs.delta(2, 1, 11, 99, 13, 14)])
        done = hubctl("compare", url(one), url(other))
        said = (b"entry 3 of site 1 is the first that differs, of 3 that both hold\nentry 2 of site 2 is the first "
                b"that differs, of 4 that both hold\n")
        yield "two that differ: the first entry of each origin", (done.text.startswith(said),
                                                                  done.status) == (True, 1), str(done)
        none = site_of(trial, stack, 6, [])
        done = hubctl("compare", url(none), url(none))
        yield "sites that hold nothing are equal", done == (b"equal at -\n", b"", 0), str(done)
        done = hubctl("compare", url(one), "http://127.0.0.1:1")
        yield ("one that does not answer is an error",
               done.status == 2 and b"127.0.0.1:1" in done.errors and not done.text, str(done))


def proves(trial):
    """The messages on a transfer, with their numbers and digests, which a page of Python checks."""
    ports = sites.free_ports(2)
    with trial.site(trial.fresh("one"), peer(2, ports + 1), "--hear=0", port=ports, is_well=None) as one, trial.site(
            trial.fresh("two"), peer(1, ports), "--hear=0", number=2, port=ports + 1, is_well=None) as two:
        until(lambda: sites.is_well(one.port) and sites.is_well(two.port))
        odd = inputs.instruction(3).replace('"T3"', '"\\u0054\\u0033"').replace(":", " : ", 1)
        asked(one.port, "/messages", lines_of(1, 2) + odd.encode() + lines_of(33, 1))
        until(lambda: has(two.port, b"1:4"))
        asked(two.port, "/messages", inputs.confirmation(3).encode())
        yield "two sites hold a transfer and its confirmation", until(lambda: has(one.port, b"1:4,2:1")
                                                                      and has(two.port, b"1:4,2:1"))
        done = hubctl("--url", url(one), "--url", url(two), "proof", "BANKDEFF", "T3")
        proof = json.loads(done.text or b"{}")
        digests = chain(1, 2, 3)
        confirmed = chain_of([read_message(inputs.confirmation(3).encode())])[1].hex()
        whole = [{"origin": 1, "number": 3, "message": line_of(odd.encode()).decode()[:-1],
                  "before": digests[2], "after": digests[3]},
                 {"origin": 2, "number": 1, "message": line_of(inputs.confirmation(3).encode()).decode()[:-1],
                  "before": "0" * 64, "after": confirmed}]
        shown = [{name: it for name, it in entry.items() if name in whole[0]} for entry in proof["entries"]]
        yield "each message has its number and its digests, however it was written", sorted(
            shown, key=lambda it: it["origin"]) == whole, done.text.decode()
        held = [[(site["url"], site["digest"] == entry["after"]) for site in entry["sites"]]
                for entry in proof["entries"]]
        yield "both sites say that they have the same", held == [[(url(one), True),
                                                                  (url(two), True)]] * 2 and done.status == 0
        yield "after a while a row of the record has a digest with each", until(lambda: all(
            row_of(one, entry["origin"], entry["number"]) for entry in whole), sites.LATEST)
        path = trial.folder / "proof.json"
        path.write_bytes(done.text)
        checked = run([sys.executable, CHECK, path, f"1:3:{digests[3]}"])
        yield ("a page of Python checks it without a site", checked.status == 0 and b"WRONG" not in checked.text
               and checked.text.count(b"the digests fit the message") == 2 and b"kept, too: 1:3:" in checked.text,
               checked.text.decode())
        changes = {"another message": lambda it: it.update(message=it["message"].replace("T3", "T4")),
                   "another digest": lambda it: it.update(
                       after="f" * 64), "another digest before": lambda it: it.update(before="f" * 64),
                   "another number": lambda it: it.update(number=1),
                   "a site with another digest": lambda it: it["sites"][0].update(digest="f" * 64)}
        for kind, change in changes.items():
            its = json.loads(done.text)
            change(next(entry for entry in its["entries"] if entry["origin"] == 1))
            path.write_text(json.dumps(its))
            checked = run([sys.executable, CHECK, path])
            yield f"{kind} is found", checked.status == 1 and b"WRONG" in checked.text, checked.text.decode()
        path.write_bytes(done.text)
        checked = run([sys.executable, CHECK, path, f"1:3:{'f' * 64}"])
        yield ("and so is a digest that somebody kept",
               checked.status == 1 and b"WRONG: another one was kept" in checked.text, checked.text.decode())
        none = hubctl("--url", url(one), "proof", "BANKDEFF", "T9")
        yield "without a message there is none", (none.status, json.loads(none.text)["entries"]) == (
            1, []) and b"no message" in none.errors
        path.write_bytes(none.text)
        yield "which proves nothing", run([sys.executable, CHECK, path]).status == 1
        bad = hubctl("--url", url(one), "proof", "bankdeff", "T9")
        yield "a bank that is none is refused", bad.status == 2 and b"73 1" in bad.errors, str(bad)


def row_of(hub, origin, number):
    """The first row of the record of a site that has a digest with an entry, if there is one."""
    tx = "T3"
    rows = [json.loads(line) for line in asked(hub.port, f"/transfers/BANKDEFF/{tx}/proof").body.splitlines()]
    return next((it["row"] for it in rows if (it["origin"], it["number"]) == (origin, number) and "row" in it), None)


CHECKS = [compares, proves]


def check(python, program):
    return tried("evidence", CHECKS, python, program)


if __name__ == "__main__":
    sites.checked(check)
