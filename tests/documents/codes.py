"""codes.py: docs/users/codes.md has the numbers and names of the code and lines of the examples, and a manual page can
be made of it.

The numbers and names in the tables are those of the functions of the code that number a fault or a permission, and so
are the numbers that the page says are not assigned. Each word of a status text or of a report has the remedy that services/hub/meanings.json
has, which the pages show. The numbers that the service explains have the names and the sentences of the C header, or of
the page, and its remedies. Each line that a table shows in its column Line or Example is a line of some file of
examples/ or of tests/data/, or is `fault N` and N ends a run by the code. Each line with a bank that the page shows
elsewhere is one of an example too. The manual page that man_page.py makes has each section of the page, and is
well-formed: troff reads each of its lines and signs as it is meant.
"""
import json
import re
from tests import harness
from tests.documents import pages
from tests.harness import CRATES, DATA, EXAMPLES, SERVICES, TOP, reported
from tools import man_page
from tools.desk.page_tables import plain, tables

SHOWN = ["Line", "Example"]
MOST = 85  # the greatest number
# a function that numbers something, and a case of it
NUMBERING = re.compile(r"^( *)(?:pub )?fn (?:\w+_)?number\(.*?\n\1\}\n", re.DOTALL | re.M)
NUMBERED = re.compile(r"(\w+Fault|Permission)::(\w+)(?:\([^)]*\)|\s*\{[^}]*\})? => ([1-9]\d*),")
# the sections on words, each with the table of meanings.json that has them, and the colors of that table
WORDS = {"Statuses of a transfer": "transfers", "Findings": "findings", "Statuses of a recall": "recalls",
         "Results of a report": "report"}
COLORS = {"good", "wait", "bad"}
# the requests and the signs of the manual page
REQUESTS = {".\\\"", ".TH", ".SH", ".SS", ".PP", ".TP", ".IP", ".br", ".nf", ".fi", ".RS", ".RE", ".B"}
SIGNS = re.compile(r"\\(?:[-e&]|f[BIR]|\((?:aq|ga|ti|ha|bu))")


def numbers_of_code():
    """The pairs of numbers and names by the functions of the code that number something, and the numbers that end a
    run."""
    pairs, ends = {("64", "NoEvent")}, set()
    for path in CRATES.glob("*/src/**/*.rt"):
        for body in NUMBERING.finditer(path.read_text(encoding="utf-8")):
            for fault, name, number in NUMBERED.findall(body.group()):
                pairs.add((number, name))
                if fault == "ProgramFault":
                    ends.add(number)
    return pairs, ends


def said_free(text):
    """The numbers that the page says are not assigned."""
    spans = re.findall(r"(\d+)(?: to (\d+))?", re.search(r"\*\*([^*]*) are not\s+assigned\.\*\*", text).group(1))
    return [number for first, last in spans for number in range(int(first), int(last or first) + 1)]


def example_lines():
    """The lines of all files of examples/ and of tests/data/."""
    lines = set()
    for path in [*EXAMPLES.rglob("*"), *DATA.rglob("*")]:
        if path.is_file():
            lines.update(path.read_bytes().decode(errors="replace").split("\n"))
    return lines


def numbers(text, table, pairs):
    """Whether the tables have the numbers of the code, and the page those that are not assigned."""
    named = {(row["Number"], re.match(r"`(\w+)`", row["Name"]).group(1)) for row in table if "Number" in row}
    for pair in sorted(pairs - named, key=lambda pair: (int(pair[0]), pair[1])):
        yield reported(f"codes.md has no row {pair[0]} {pair[1]}", False)
    for pair in sorted(named - pairs):
        yield reported(f"codes.md has a row {pair[0]} {pair[1]}, and the code has not", False)
    yield reported("the numbers of codes.md are those of the code", named == pairs)
    taken = {int(number) for number, _ in pairs}
    free = [number for number in range(1, MOST + 1) if number not in taken]
    yield reported("codes.md says which numbers are not assigned", free == said_free(text))


def lines_shown(text, table, ends):
    """Whether each line that the tables show is one of an example, or ends a run, and each line with a bank that the
    text shows."""
    examples = example_lines()
    for line in re.findall(r"`((?:[TFR]\|)?[A-Z0-9]{11}[|,][^`]+)`", text):
        yield reported(f"codes.md shows {line}", line in examples)
    for row in table:
        for column in SHOWN:
            for line in pages.codes(row.get(column, "")):
                fault = re.fullmatch(r"fault (\d+)", line)
                right = fault.group(1) in ends if fault else line in examples
                yield reported(f"codes.md shows {line}", right)


def remedies(text):
    """Whether the pages show the remedy of each word that this page has."""
    meanings = json.loads((SERVICES / "hub/meanings.json").read_text(encoding="utf-8"))
    sections = dict(part.split("\n", 1) for part in text.split("\n## ")[1:])
    yield reported("meanings.json has the tables of words", set(meanings) == set(WORDS.values()))
    for section, table in WORDS.items():
        rows = {tuple(row.cells[:2]) for _, row in tables(sections[section].splitlines())}
        its = {(word, row["remedy"]) for word, row in meanings[table].items()}
        yield reported(f"the remedies of {section}", rows == its, f"{rows ^ its}")
        yield reported(f"the colors of {section}", {row["color"] for row in meanings[table].values()} <= COLORS)


def of_header():
    """The name and the sentence of each number in the C header."""
    listed = (TOP / "include/niluppang.h").read_text(encoding="utf-8").partition("Refusals.")[2].partition(
        "`place` counts")[0]
    return {number: (name, sentence)
            for number, name, sentence in re.findall(r"^ \*     (\d+) (\w+) +(.*)$", listed, re.M)}


def explained(text):
    """Whether codes.json of the service has the names, the sentences and the remedies of the header and of the page."""
    its, header = json.loads((SERVICES / "hub/codes.json").read_text(encoding="utf-8")), of_header()
    sections = {title: body for marks, title, body in re.findall(r"^(##+) (.*)\n((?:(?!^##).*\n)*)", text, re.M)}

    def table(title):
        return [dict(zip(columns, row.cells)) for columns, row in tables(sections[title].splitlines())]

    titles = ("Numbers of refused lines", "Types", "Rules", "Refused deltas")
    rows = [row for title in titles for row in table(title) if row["Name"] != "`NoEvent`"]
    right = {row["Number"]: (*header.get(row["Number"], (plain(row["Name"]), plain(row["Cause"]))),
                             plain(row["Remedy"])) for row in rows}
    for row in table("Replies of `serve`"):
        number = re.match(r"`REFUSED (\d+)", row["Reply"]).group(1)
        right[number] = (*header.get(number, ("Usage", plain(row["Cause"]))), plain(row["Remedy"]))
    right["65"] = (*header["65"], "send it again later; if it fails again, the site needs more memory")
    found = {number: (row["name"], row["why"], row["remedy"]) for number, row in its.items()}
    yield reported("codes.json of the service", found == right, f"{set(found.items()) ^ set(right.items())}")
    is_same = all(header[row["Number"]][0] == plain(row["Name"]) for row in rows if row["Number"] in header)
    yield reported("the page and the header have the same names", is_same)


def manual(text):
    """Whether the manual page has each section of the page, and is well-formed."""
    lines = man_page.made().splitlines()
    requests = [line.split(" ")[0] for line in lines if line.startswith(".")]
    titles = {line for line in lines if line.startswith((".SH ", ".SS "))}
    for marks, title in re.findall(r"^(##+) (.*)$", text, re.M):
        request = ".SH " + man_page.plain(title.upper()) if marks == "##" else ".SS " + man_page.plain(title)
        yield reported(f"the manual page has {request}", request in titles)
    yield reported("its requests are known", REQUESTS.issuperset(requests), f"{sorted(set(requests) - REQUESTS)}")
    blocks = "".join(request for request in requests if request in (".nf", ".fi", ".RS", ".RE"))
    yield reported("each of its blocks ends", re.fullmatch(r"(?:\.nf(?:\.RS\.RE)?\.fi)*", blocks) is not None)
    empty = [number for number, line in enumerate(lines, 1) if not line or line == ".TP"
             and lines[number][:1] in ("", ".")]
    yield reported("its entries have names, and no line is empty", not empty, f"{empty}")
    unknown = [line for line in lines[1:] if "\\" in SIGNS.sub("", line) or line.startswith("'")]
    yield reported("its signs are known", not unknown, "\n".join(unknown))


def main():
    text, (pairs, ends) = man_page.PAGE.read_text(encoding="utf-8"), numbers_of_code()
    table = [dict(zip(columns, row.cells)) for columns, row in tables(text.splitlines())]
    harness.end_of([*numbers(text, table, pairs), *lines_shown(text, table, ends), *remedies(text), *explained(text),
                    *manual(text)])


if __name__ == "__main__":
    main()
