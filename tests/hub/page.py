"""page.py: the page of a site of services/hub, in headless Chromium: by its keys, with what comes while it is open,
dark and narrow.

`python3 -m tests.hub.page PICTURE` writes a picture of it too.
"""
import asyncio
import contextlib
import json
import pathlib
import re
import shutil
import socket
import sys
import tempfile
import threading
import time
import urllib.request
from bench.generate.samples import confirmation, line
from tests.chromium import Browser, Failed
from tests.harness import EXAMPLES, SERVICES, reported
from tests.hub import sites
sys.path.insert(0, str(SERVICES))
from hub import chain, record, waiting

SEARCH = 'document.getElementById("transfer").innerText'
ROWS = '[...document.querySelectorAll("#transfer tbody tr")]'
TIMES = f'{ROWS}.map(it => it.cells[0].innerText)'
SINCE = f'{ROWS}.map(it => it.cells[0].querySelector("[title]").title)'
NEWS = 'document.getElementById("news").innerText'
TILE = '(name => document.querySelector("#work-" + name + " b").textContent)'
TOTALS_OF = (
    '(bank => [...document.querySelectorAll("#totals tbody tr")].find(it => it.innerText.includes(bank)).innerText)')
WIDTHS = '[...document.querySelectorAll("#totals .bar i")].map(it => it.offsetWidth).filter(it => it)'
# nothing is wider than its box, or beside the screen
NO_CUT = ('document.documentElement.scrollWidth <= innerWidth && [...document.querySelectorAll("table, tr, '
          'td, h3, .sides, .title, .tiles button")].every(it => it.getBoundingClientRect().right <= '
          'innerWidth && it.scrollWidth <= it.clientWidth + 1)')


def steps(post):
    """What is done with the page, and what must be on it then. `post` is a script that posts an example at the site.

    A step is a script whose value must become true, or one that is done, a key, a text that is typed, a width, a height
    and whether it is dark, or an address that must answer what fits a pattern.
    """
    return [
        {"look": [1300, 900]},
        'document.getElementById("state").textContent === "well"',
        'document.getElementById("before").hidden && document.getElementById("group").textContent === ""',
        # what is to be done is there without a change since the page was opened
        f'{TILE}("contradicted") === "1" && {TILE}("missing") === "1" && {TILE}("recalls") === "0" && {TILE}("waiting") === "4"',
        f'{TILE}("answers") === "1" && document.getElementById("many").textContent === "the last ones"',
        f'{ROWS}.length === 1 && {SEARCH}.includes("BothConfirmed It is accepted and rejected: ask the beneficiary bank what it booked.")',
        f'/^[0-9.,]+ d [0-9]+ h$/.test({ROWS}[0].cells[0].innerText) && {ROWS}[0].innerText.includes("LUTEFRPPXXX")',
        f'{NEWS}.includes("2025-03-10 14:00:00") && {NEWS}.includes("49.90")',
        # totals have a day, amounts have groups, and a large amount leaves the others their bars
        'document.getElementById("of").textContent === "of the settlement day 2025-03-11"',
        {"do": 'document.getElementById("day").value = "2025-03-10"; document.getElementById("day").dispatchEvent(new Event("change"))'},
        'document.getElementById("of").textContent === "of the settlement day 2025-03-10"',
        f'{TOTALS_OF}("LUTEFRPPXXX").includes("646.00") && {TOTALS_OF}("LUTEFRPPXXX").includes("52.90")',
        f'{NO_CUT}',
        {"do": 'document.getElementById("day").value = ""; document.getElementById("day").dispatchEvent(new Event("change"))'},
        'document.getElementById("of").textContent === "of all days"',
        # each number of work is pressed
        {"do": 'document.getElementById("work-waiting").click()'},
        f'{ROWS}.length === 4 && /PENDING/.test({SEARCH}) && location.hash === "#list=waiting"',
        {"do": 'document.getElementById("work-missing").click()'},
        f'{ROWS}.length === 1 && {SEARCH}.includes("Its instruction is not held: look for the pacs.008")',
        {"do": 'document.getElementById("work-answers").click()'},
        f'{ROWS}.length === 1 && {SEARCH}.includes("SCALBEBBXXX") && {SEARCH}.includes("LATE/1")',
        {"do": '[...document.querySelectorAll("#totals tr")].find(it => it.innerText.includes("LUTEFRPPXXX")).querySelector("button.bad").click()'},
        f'{SEARCH}.startsWith("Instruction missing LUTEFRPPXXX") && {ROWS}.length === 1',
        # a caller's bank and amount, and a transfer with its parties
        {"key": "/"}, {"text": "lutefrpp 640,00"},
        'document.activeElement.id === "what"',
        {"key": "Enter"},
        f'{SEARCH}.includes("LUTEFRPPXXX") && location.hash === "#LUTEFRPPXXX/LU20250310B1"',
        f'["Claire Petit", "FR1420041010050500013M02606", "Giulia Conti", "IT60X0542811101000000123456", "ARNOITFF", "640.00 EUR", "NOTPROVIDED",'
        f' "instructed 2025-03-10 09:15:00", "settles on 2025-03-10"].every(it => {SEARCH}.includes(it))',
        {"do": 'document.querySelector("#transfer button").click()'},
        f'{ROWS}.length === 1 && /Found: amount 640.00, bank LUTEFRPPXXX/.test({SEARCH})',
        {"do": 'find("lu20250310b2")'},
        f'/REJECTED AC06 \\(the account is blocked\\)/.test({SEARCH}) && {SEARCH}.includes("Aino Laine")',
        {"do": 'find("LU20250310B6")'},
        f'/CONTRADICTED/.test({SEARCH}) && /BothConfirmed One confirmation accepts .* It is accepted and rejected/.test({SEARCH})',
        f'{SEARCH}.includes("Clear it with the banks: its findings say what to ask.") && {SEARCH}.includes("MS03 (the bank refuses it without a reason)")',
        'document.querySelector("#transfer .title .word").className === "word bad"',
        f'{ROWS}.length === 3 && {TIMES}.every((it, at, all) => !at || all[at - 1] <= it)',
        {"do": 'find("HH-0301")'},
        f'/RETURNED 40.00/.test({SEARCH}) && {SEARCH}.includes("Book the money that came back.") && !/if its transfer/.test({SEARCH})',
        # changes, while the page is open
        post,
        f'{NEWS}.includes("HANSDEHHXXX HH-0005") && {NEWS}.includes("310.00") && {NEWS}.includes("2025-03-10 11:02:40")',
        f'{TILE}("contradicted") === "8" && {TILE}("waiting") === "6" && {TILE}("missing") === "4"',
        {"do": 'document.getElementById("work-recalls").click()'},
        f'{ROWS}.length === 1 && {SEARCH}.includes("OPEN FRAD (the payment is of fraudulent origin) LU-R0001")',
        {"do": 'document.getElementById("work-waiting").click()'},
        f'{ROWS}.length === 6 && {SINCE}.every((it, at, all) => !at || all[at - 1] <= it)',
        {"key": "Escape"},
        'document.getElementById("what").value === "" && document.activeElement.id === "what"',
        {"do": 'document.activeElement.blur()'},
        {"key": "c"},
        f'{ROWS}.length === 8 && document.getElementById("work-contradicted").getAttribute("aria-pressed") === "true"',
        {"key": "j"}, {"key": "j"}, {"key": "k"},
        'document.activeElement === document.querySelector("#transfer button.open")',
        {"key": "Enter"},
        'document.querySelectorAll("#transfer .finding").length > 0',
        # forms of what is sought, and pages of it
        'find("1.250,00").then(() => location.hash === "#HANSDEHHXXX/HH-0003")',
        'find("\u20ac1,250.00 10.03.2025").then(() => location.hash === "#HANSDEHHXXX/HH-0003")',
        f'find("GROSSLER").then(() => {ROWS}.length === 4 && {TIMES}.every((it, at, all) => !at || all[at - 1] >= it))',
        f'find("NOTPROVIDED").then(() => {ROWS}.length > 5)',
        {"do": 'document.querySelector("#transfer button.open").click()'},
        'document.querySelectorAll("#transfer .title").length === 1',
        f'find("640 2025-03-11").then(() => {SEARCH} === "No such transfer. The text is read as: amount 640.00, 2025-03-11.")',
        f'find("%").then(() => {SEARCH} === "No such transfer.")',
        {"do": 'show("HANSDEHHXXX", "NOPE")'},
        f'/UNKNOWN/.test({SEARCH}) && {SEARCH}.endsWith("No such transfer.")',
        {"key": "Escape"},
        'fetch("/transfers/RHEIDE3K/RK-78").then(it => it.ok)',
        {"do": 'show("SUOMFIHHXXX", "FI-1")'},
        f'["BothConfirmed", "Identity", "ReasonsDiffer"].every(it => {SEARCH}.includes(it))',
        'document.querySelectorAll("#totals tr").length > 8 && document.getElementById("vector").textContent === "1:23,2:52"',
        f'{WIDTHS}.every(it => it > 0) && Math.max(...{WIDTHS}) < 20 * Math.min(...{WIDTHS})',
        f'{TOTALS_OF}("SCALBEBBXXX").includes("999,999,999.99")',
        # narrow, dark, and in the other languages
        *(step for name in ("show('LUTEFRPPXXX', 'LU20250310B6')", "find('lutefrpp')", "choose('contradicted')") for step in (
            {"do": name}, {"look": [1300, 900]}, NO_CUT, {"look": [420, 900]}, NO_CUT)),
        {"look": [420, 900, True]},
        'getComputedStyle(document.body).backgroundColor === "rgb(18, 22, 28)"',
        {"look": [1300, 900]},
        'getComputedStyle(document.body).backgroundColor === "rgb(246, 247, 249)"',
        'Object.values(WORDS).every(it => Object.keys(it).join() === Object.keys(WORDS.en).join())',
        *(step for language, name, said in (("de", "Widersprüchlich", ["1.250,00 EUR", "10.03.2025 07:02:30", "Auftrag", "Konto"]),
                                            ("fr", "Contradictoires", ["1\u202f250,00 EUR", "10/03/2025 07:02:30", "ordre", "rejette"])) for step in (
            {"do": f'find("HH-0003"); speak("{language}")'}, f'document.getElementById("work").innerText.includes("{name}")',
            *(f'{SEARCH}.includes("{one}")' for one in said), '!document.body.innerText.includes("undefined")')),
        {"do": 'speak("en")'},
        # after it is loaded again the list is there
        {"do": 'choose("waiting").then(() => location.reload())'},
        f'{ROWS}.length === 6 && location.hash === "#list=waiting" && {TILE}("waiting") === "6"',
        {"do": 'choose("contradicted")'},
        f'{ROWS}.length === 8',
    ]


# what is done with a page whose site is away for a time, and is back. The browser gives up the stream of changes, and
# the page opens it anew
def away(url):
    return [
        'document.getElementById("state").textContent === "well"',
        {"ask": [f"{url}/toggle/refuse", ".*"]},
        'document.getElementById("state").textContent === "not reached; no changes are received"',
        'document.getElementById("state").className === "word bad"',
        {"do": 'show("LUTEFRPPXXX", "LU20250310B6"); clear()'},
        'document.getElementById("transfer").innerText.startsWith("Search a transfer")',
        {"ask": [f"{url}/toggle/count", "[2-9]|.."]},
        'document.getElementById("transfer").innerText.startsWith("Search a transfer")',
        {"ask": [f"{url}/toggle/forward", ".*"]},
        'document.getElementById("state").textContent === "well"',
        {"do": 'show("LUTEFRPPXXX", "LU20250310B6")'},
        f'/CONTRADICTED/.test({SEARCH})',
    ]


# what is done with the page of a site whose group is closed, and came after another one
CLOSED = ['document.getElementById("group").textContent === "closed group: ask it about what was done before '
          '2025-03-11"', {"do": 'show("LUTEFRPPXXX", "A/B")'},
          '!document.getElementById("before").hidden && document.getElementById("before").href === '
          '"http://old.example:8701/#LUTEFRPPXXX/A%2FB"',
          '!document.getElementById("none").hidden && document.getElementById("of").textContent === "of all days"',
          f'find("LUTEFRPP A/B").then(() => /this site has no mirror/.test({SEARCH}))']


class Between:
    """A server between a browser and a site. It hands on what it is given, or refuses all by 503, as the page asks it
    to."""

    def __init__(self, port):
        self.to, self.refuses, self.refused, self.open = port, False, 0, []
        self.server = socket.create_server(("127.0.0.1", 0))
        self.port = self.server.getsockname()[1]
        threading.Thread(target=self.serve, daemon=True).start()

    def serve(self):
        while True:
            try:
                connection, _ = self.server.accept()
            except OSError:
                return
            threading.Thread(target=self.meet, args=(connection,), daemon=True).start()

    def meet(self, connection):
        head = connection.recv(1 << 16)
        path = (head.split(b" ") + [b""])[1]
        if path.startswith(b"/toggle/"):
            body = b"%d" % self.refused
            connection.sendall(b"HTTP/1.1 200 OK\r\nConnection: close\r\nContent-Length: %d\r\n\r\n%b" % (len(body),
                                                                                                          body))
            connection.close()
            if path != b"/toggle/count":
                self.refuses = path == b"/toggle/refuse"
                for one in self.open:
                    with contextlib.suppress(OSError):
                        one.shutdown(socket.SHUT_RDWR)
        elif self.refuses:
            self.refused += path == b"/changes"
            connection.sendall(b"HTTP/1.1 503 Away\r\nConnection: close\r\nContent-Length: 0\r\n\r\n")
            connection.close()
        elif head:
            site = socket.create_connection(("127.0.0.1", self.to))
            self.open += [connection, site]
            site.sendall(head)
            threading.Thread(target=handed_on, args=(site, connection), daemon=True).start()
            handed_on(connection, site)


def handed_on(source, target):
    with contextlib.suppress(OSError):
        for piece in iter(lambda: source.recv(1 << 16), b""):
            target.sendall(piece)
    for one in (source, target):
        with contextlib.suppress(OSError):
            one.shutdown(socket.SHUT_RDWR)


# ---- the steps in a browser

def becomes(is_right):
    """Whether something becomes right in some seconds."""
    return sites.until(is_right)


def is_true(browser, script):
    """Whether the value of a script is true. A script may fail as long as the page is not there."""
    with contextlib.suppress(Failed):
        return browser.value(script) is True
    return False


def answers(address, pattern):
    """Whether an address answers what fits a pattern. The page does not see it."""
    with urllib.request.urlopen(address) as answer:
        return re.fullmatch(pattern, answer.read().decode()) is not None


# what is done in a step that is no script
DOES = {"do": lambda browser, script: browser.value(f"{{{script}}}; 0"), "key": Browser.press, "text": Browser.type,
        "look": lambda browser, sizes: browser.look(*sizes)}


def tried(browser, step):
    """Takes a step. Yields whether it is right, if it says what must be."""
    if isinstance(step, str):
        yield reported(step[:150], becomes(lambda: is_true(browser, step)))
    elif "ask" in step:
        yield reported(step["ask"][0], becomes(lambda: answers(*step["ask"])))
    else:
        [(kind, what)] = step.items()
        DOES[kind](browser, what)


def used(url, steps, *picture, may_fail=False):
    """Whether each script became true on a page, and whether all were tried and the page reported no error. Answers may
    fail while a site is away, and if it has no mirror."""
    with Browser() as browser:
        browser.go(url)
        right = [is_right for step in steps for is_right in tried(browser, step)]
        if picture:
            browser.picture(*picture)
        faults = browser.faults(and_failed=not may_fail)
        return [*right, reported("the page reports no error", not faults, "\n".join(faults))]


def make_waiting(folder, site):
    """Makes the record of a site, in which an answer waits for its instruction."""
    async def put():
        its = record.Record(folder / f"site{site}.record", site, 64)
        await its.open(lambda: [])
        answer = line(confirmation(InstgAgt="SCALBEBB", DbtrAgt="LUTEFRPP", OrgnlTxId="LATE/1")).strip().encode()
        await its.put_waiting([waiting.to_wait(chain.utc(time.time() + 3600), "scalbebb", "SCALBEBBXXX", "pacs.002",
                                               "LUTEFRPPXXX", "LATE/1", "", answer)])
        await its.close()
    folder.mkdir(mode=0o700)
    asyncio.run(put())


def used_closed(python, program, folder):
    """Uses the page of a site whose group is closed."""
    port, its, config = sites.free_ports(1), folder / "closed", folder / "closed.toml"
    its.mkdir(mode=0o700)
    (its / "site1.closed").write_text("2025-03-11\n")
    config.write_text(f'folder = "{its}"\nsite = 1\nport = {port}\nbefore = "http://old.example:8701/"\n')
    with sites.Hub(python, program, its, config=config) as hub:
        sites.begun(hub.process, lambda: sites.is_well(port))
        return used(f"http://localhost:{port}/", CLOSED, may_fail=True)


def check(python, program):
    if shutil.which("chromium") is None:
        raise sites.Skipped("there is no chromium: apt-get install chromium")
    more = json.dumps((EXAMPLES / "hub-morning.jsonl").read_text())
    post = f'fetch("/messages", {{method: "POST", body: {more}}}).then(it => it.ok)'
    with tempfile.TemporaryDirectory(prefix="hub-page-") as folder:
        port = sites.free_ports(3)
        make_waiting(pathlib.Path(folder, "hub"), 2)
        words = f"--port={port}", f"--mirror={folder}/site{{site}}.db"
        with sites.Hub(python, program, f"{folder}/hub", *words) as hub:
            sites.begun(hub.process, lambda: all(sites.is_well(port + site) for site in range(3)))
            sites.asked(port, "/messages", (EXAMPLES / "bank-day.jsonl").read_bytes())
            sites.until(lambda: sites.asked(port + 1, "/work").headers.get("Niluppang-Vector") == "1:23", sites.LONGEST)
            right = used(f"http://localhost:{port + 1}/", steps(post), *sys.argv[1:])
            url = f"http://localhost:{Between(port).port}"
            right += used(f"{url}/#%", away(url), may_fail=True)
        return right + used_closed(python, program, pathlib.Path(folder))


if __name__ == "__main__":
    sites.checked(check)
