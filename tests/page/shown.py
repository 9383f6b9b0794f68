"""shown.py: what the page shows, with little memory, while it reads, in long tables, while somebody types, in each
language, to a screen reader and to the eye."""
import json
import pathlib
import re
from bench.generate import messages
from tests import harness
from tests.harness import EXAMPLES
from tests.page.driving import answered, saved, with_report

LOOKS = [(1280, 1400, False), (1280, 1400, True), (420, 1500, False), (420, 1500, True)]
OWN_COLORS = {("transfers", "REJECTED"): "wait"}  # of the page: a bank looks at what was rejected
LITTLE = 400  # pages of 64 KiB: 25 MiB, of which the stack has 8 MiB
LANGUAGES = ["en", "de", "fr"]
KEPT = 10_000  # refused lines whose text the worker keeps
# the parts of a page with a report, by their roles and names as a screen reader has them
PARTS = [("main", ""), ("form", "Files"), ("region", "Answers"), ("navigation", "Tables"), ("search", ""),
         ("status", ""), ("alert", ""),
         ("table", "Report"), ("columnheader", "Result"), ("heading", "Answers"),
         ("combobox", "Language"), ("searchbox", "Search"),
         ("textbox", "Bank begins with"), ("button", "Read and compare"), ("button", "What the list lacks"),
         ("button", "Save report.csv")]
NAMED = {"button", "textbox", "searchbox", "combobox", "progressbar", "table", "form", "region", "navigation", "dialog",
         "link", "columnheader"}
WIDER = "document.documentElement.scrollWidth - document.documentElement.clientWidth"


# ---- memory

def line_about(browser, path):
    """What the page says when it is given a file that it cannot answer: the line on the fault, and whether it shows no
    answer and is ready."""
    answered(browser, path)
    ready = "at('answers').hidden && at('progress').hidden && !at('compare').disabled && at('state').textContent === ''"
    return browser.value("at('fault').textContent"), browser.value(ready)


def by_memory(browser, checks, folder):
    """Files that need more memory than the module may have, each with a clear line, and a smaller one after each."""
    long, some, small = pathlib.Path(folder, "long"), pathlib.Path(folder, "some"), EXAMPLES / "bank-day.jsonl"
    long.write_bytes(b"\n" * (LITTLE << 16))
    some.write_text("".join(messages.lines(10_000)))
    said = browser.value("WORDS.en.no_memory")
    browser.value(f"limit_memory({LITTLE})")
    for name, path in ("a file longer than the memory", long), ("a file whose answer needs more memory", some):
        checks.fits(name, line_about(browser, path), (said, True))
        answered(browser, small)
        after = browser.value("at('fault').textContent"), saved(browser, "status")
        checks.fits(f"a smaller file after {name}", after, ("", small.with_suffix(".status").read_bytes()))
    browser.value("limit_memory()")
    answered(browser, some)

    def run(command):
        return harness.run([harness.program(), command], some.read_bytes()).text

    whole = browser.value("at('fault').textContent"), saved(browser, "status")
    checks.fits("the same file with the memory of the page", whole, ("", run("status")))
    checks.fits("its archive", saved(browser, "archive"), run("archive"))


def by_full_memory(browser, checks, folder):
    """A question that needs more memory than the site has left, with a clear line. The site still answers smaller
    ones."""
    path = pathlib.Path(folder, "some")
    path.write_text("".join(messages.lines(10_000)))
    browser.value("start_with(1 << 16)")
    give = "ask('answers', {files: [...at('messages').files]}).then(({ memory }) => memory)"
    answered(browser, path)
    pages = browser.value(give) >> 16
    status = saved(browser, "status")
    browser.value(f"limit_memory({pages})")
    browser.value(give)
    browser.value("complain(() => ''); save('archive')")
    checks.fits("an archive text without memory", browser.value("at('fault').textContent"),
                browser.value("WORDS.en.no_memory"))
    bank, tx = status.decode().split("|")[1:3]
    rows = browser.value(f"ask('messages', {json.dumps({'bank': bank, 'transfer': tx})})")["rows"]
    checks.fits("texts after it", (len(rows) > 0, saved(browser, "status")), (True, status))


def by_reading(browser, checks, folder):
    """The bar of progress while a file is read, and a file that is chosen meanwhile, which is answered after it."""
    long, small = pathlib.Path(folder, "lines"), EXAMPLES / "bank-day.jsonl"
    long.write_bytes(b"\n" * (25 << 20))
    browser.value("watch_progress()")
    answered(browser, long)
    seen = browser.value("progress_seen")
    parts = seen[:seen.index(None)] if None in seen else []
    checks.fits("the progress of a file", (len(parts) > 4, parts == sorted(parts), parts[-1:]), (True, True, [1]))
    browser.value("document.body.dataset.done = ''; at('messages').value = ''")
    for path in long, small:
        browser.give("#messages", path)
    browser.until("document.body.dataset.done === '1'")
    shown = browser.value("at('state').textContent.split(':')[0]"), saved(browser, "status")
    checks.fits("a file that is chosen while another is read", shown,
                (small.name, small.with_suffix(".status").read_bytes()))


# ---- rows

def by_rows(browser, checks, folder):
    """The rows of long tables: their number, those at the end, those that are searched for, and those of a word. The
    text of the refused lines is longer than what the worker reads at once."""
    many, path = 1_500_000, pathlib.Path(folder, "wrong")
    path.write_bytes(b"x\n" * many + b"{}\n" + (EXAMPLES / "bank-day.jsonl").read_bytes())
    answered(browser, path)
    whole = {"search": "", "bank": "", "words": [], "count": 2}

    def rows(table, start, **more):
        return browser.value(f"ask('rows', {json.dumps({'table': table, 'from': start, **whole, **more})})")

    def wrong(*numbers):
        return [[str(number), "31", "", "wrong", str(number), "x" if number <= KEPT else ""] for number in numbers]

    checks.fits("the last of many rows", rows("refused", many - 2),
                {"rows": wrong(many - 1, many), "matched": many + 1})
    checks.fits("the last rows whose text is kept, and the next", rows("refused", KEPT - 1)["rows"],
                wrong(KEPT, KEPT + 1))
    last = [str(many + 1), "33", "", "wrong", str(many + 1), ""]
    checks.fits("rows of a code", rows("refused", 0, words=["33"]), {"rows": [last], "matched": 1})
    checks.fits("rows of a search", rows("refused", 0, search=f"Line {many}:"), {"rows": wrong(many), "matched": 1})
    status = (EXAMPLES / "bank-day.status").read_text().splitlines()

    def of(begin):
        return [line for line in status if line.startswith(begin)]

    checks.fits("rows of a bank", rows("transfers", 0, bank="HANSDEHH")["matched"], len(of("T|HANSDEHH")))
    accepted = [line for line in of("T|") if line.split("|")[3] == "ACCEPTED"]
    checks.fits("rows of a status", rows("transfers", 0, words=["ACCEPTED"])["matched"], len(accepted))
    last = rows("transfers", len(of("T|")) - 1)
    checks.fits("the last transfer", last, {"rows": [of("T|")[-1].split("|")[1:]], "matched": len(of("T|"))})
    checks.fits("all recalls", rows("recalls", 0, count=500)["rows"], [line.split("|")[1:] for line in of("R|")])
    text = browser.value("at('tables').textContent")
    counts = f"Transfers ({len(of('T|'))})Findings ({len(of('F|'))})Recalls ({len(of('R|'))})"
    checks.fits("the numbers of rows", counts in text and f"Refused lines ({many + 1:,})" in text, True)


def by_typing(browser, checks):
    """A search begins when the typist pauses, and once."""
    answered(browser, EXAMPLES / "bank-day.jsonl")
    browser.value("watch_searches()")
    soon = "new Promise((kept) => setTimeout(() => kept(searched.length), PAUSE / 2))"
    checks.fits("searches while somebody types", browser.value(f"type_search('hansdehh'); {soon}"), 0)
    browser.until("searched.length")
    browser.value("new Promise((kept) => setTimeout(kept, 3 * PAUSE))")
    lines = [line for line in (EXAMPLES / "bank-day.status").read_text().splitlines() if line.startswith("T|")
             and "HANSDEHH" in line]
    shown = browser.value("[searched, at('rows').tBodies[0].rows.length]")
    checks.fits("searches after a pause", shown, [["hansdehh"], len(lines)])


def by_remedies(browser, checks):
    """The color of each word, and what to do about it, by the table that the page of the desk has too."""
    meanings = json.loads((harness.SERVICES / "hub/meanings.json").read_text())
    with_report(browser)
    for table, words in meanings.items():
        browser.value(f"turn('{table}')")
        for word in browser.value(f"Object.keys(found['{table}'].counts)"):
            browser.value(f"choose(['{word}'])")
            color = OWN_COLORS.get((table, word), words[word]["color"])
            browser.until(f"at('rows').querySelector('.{color}')?.textContent === '{word}'")
            line = browser.value("at('remedy').hidden ? null : at('remedy').textContent")
            checks.fits(f"what to do about {word}", line, f"What to do about {word}: {words[word]['remedy']}")
            bar = browser.value("at('bars').querySelector('[aria-pressed=true] i').className")
            checks.fits(f"the color of {word}", bar, color)
    browser.value("choose([])")
    checks.fits("what to do about no word", browser.value("at('remedy').hidden"), True)


# ---- words, roles and looks

def by_words(browser, checks):
    """The page in each language: it has all words, with the same places for what is put in, and shows them."""
    words = browser.value("WORDS")

    def places(text):
        return sorted(re.findall(r"\{\d\}", text))

    def form(language):
        return {name: places(text) if isinstance(text, str) else
                {key: places(part) if isinstance(part, str) else len(part) for key, part in text.items()}
                for name, text in words[language].items()}

    answered(browser, EXAMPLES / "bank-day.jsonl")
    for language in LANGUAGES:
        checks.fits(f"the words in {language}", form(language), form("en"))
        browser.value(f"at('language').value = '{language}'; at('language').dispatchEvent(new Event('change'))")
        browser.until(f"document.documentElement.lang === '{language}' && at('caption').textContent === "
                      f"WORDS.{language}.transfers")
        has_word = "(part) => part.textContent && part.textContent === words[part.dataset.word]"
        shown = browser.value(f"[...document.querySelectorAll('[data-word]')].every({has_word})")
        checks.fits(f"the words that the page shows in {language}", shown, True)
        browser.value("at('bank').value = 'x'; document.body.dataset.done = ''; at('compare').click()")
        browser.until("document.body.dataset.done === '1'")
        checks.fits(f"a line on a fault in {language}", browser.value("at('fault').textContent"),
                    words[language]["need_both"])
    browser.value("at('language').value = 'de'; at('language').dispatchEvent(new Event('change'))")
    checks.fits("a line on a fault in another language", browser.value("at('fault').textContent"),
                words["de"]["need_both"])


def by_roles(browser, checks):
    """What a screen reader has: each part by its role and its name, and no part without a name."""
    with_report(browser)
    browser.value("at('progress').hidden = false")

    def value(node, name):
        return node.get(name, {}).get("value", "")

    nodes = browser.ask("Accessibility.getFullAXTree")["nodes"]
    parts = [(value(node, "role"), value(node, "name").strip()) for node in nodes if not node["ignored"]]
    for part in [*PARTS, ("progressbar", "Progress")]:
        checks.fits(f"the part {part}", part in parts, True)
    checks.fits("parts without a name", [role for role, name in parts if role in NAMED and not name], [])
    files = [name for role, name in parts if role == "button" and name.startswith(("Messages a JSON", "A bank's list"))]
    checks.fits("the choosers of files", len(files), 2)


def by_looks(browser, checks):
    """The page in two sizes, light and dark: nothing is wider than the page, and each text stands out from what is
    behind it."""
    with_report(browser)
    for table in ("report", "transfers", "totals"):
        browser.value(f"turn('{table}')")
        browser.until(f"at('caption').textContent === WORDS.en.{table}")
        for width, height, is_dark in LOOKS:
            browser.look(width, height, is_dark)
            name = f"{table} at {width} points, {'dark' if is_dark else 'light'}"
            checks.fits(f"{name}: what is wider than the page", browser.value(WIDER), 0)
            checks.fits(f"{name}: what is hard to read", browser.value("hard_to_read()"), [])
    for language in LANGUAGES:
        browser.value(f"speak('{language}')")
        for width, height, is_dark in LOOKS[::2]:
            browser.look(width, height, is_dark)
            name = f"the page in {language} at {width} points: what is wider than the page"
            checks.fits(name, browser.value(WIDER), 0)
    browser.look()


def by_dropping(browser, checks, folder):
    """A file of messages that is dropped on the page, and then a list. Two files of messages and a list at once."""
    def drop(*paths):
        browser.value("document.body.dataset.done = ''")
        data = {"items": [], "files": [str(path) for path in paths], "dragOperationsMask": 1}
        for kind in "dragEnter", "dragOver", "drop":
            browser.ask("Input.dispatchDragEvent", type=kind, x=300, y=300, data=data)
        browser.until("document.body.dataset.done === '1'")
    drop(EXAMPLES / "bank-day.jsonl")
    checks.fits("a file that was dropped", saved(browser, "status"), (EXAMPLES / "bank-day.status").read_bytes())
    browser.value("at('bank').value = 'LUTEFRPP'; at('day').value = '2025-03-10'")
    drop(EXAMPLES / "bank-day.list")
    checks.fits("a list that was dropped", saved(browser, "report"), (EXAMPLES / "bank-day.report").read_bytes())
    lines = (EXAMPLES / "bank-day.jsonl").read_bytes().splitlines(True)
    halves = [pathlib.Path(folder, name) for name in ("morning", "evening")]
    for path, half in zip(halves, (lines[:7], lines[7:])):
        path.write_bytes(b"".join(half))
    drop(halves[0], EXAMPLES / "bank-day.list", halves[1])
    texts = [saved(browser, name) for name in ("status", "report")]
    checks.fits("files that were dropped at once", texts,
                [(EXAMPLES / f"bank-day.{name}").read_bytes() for name in ("status", "report")])
    checks.fits("the names of both", "morning, evening:" in browser.value("at('state').textContent"), True)


def pictures(browser, folder):
    """Pictures of the page with a report, in two sizes, light and dark."""
    pathlib.Path(folder).mkdir(parents=True, exist_ok=True)
    browser.value("at('bank').value = 'LUTEFRPP'; at('day').value = '2025-03-10'")
    browser.give("#list", EXAMPLES / "bank-day.list")
    answered(browser, EXAMPLES / "bank-day.jsonl")
    for width, height, is_dark in LOOKS:
        browser.look(width, height, is_dark)
        browser.picture(pathlib.Path(folder,
                                     f"{'wide' if width > 600 else 'narrow'}-{'dark' if is_dark else 'light'}.png"))
    browser.look()
