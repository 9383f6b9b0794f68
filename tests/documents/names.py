"""names.py: the names that README.md, the pages in docs and the README.md of some folders write are those of the code.

Names in backquotes are declared in a crate, or are words of crates.txt, of the tests, benches or examples, or of
OUTSIDE. Those of a crate, as "`settle` of sct_world", and those that follow a file, are declared there. Files in
backquotes exist, and links lead to a file and a heading. README.md links to every page. Rows of promises have functions
of the crate of their section, and clauses of these functions: without a clause a function has a single one, and a law
has an empty body. The first line of each edit says what it does. So does that of each source and each file of
definitions, and the files of the table of places declare what it names. The page for auditors has functions with their
clauses, definitions and their number, code at its line, and every crate of the kit that is used. NOTICE has these
crates too.
"""
import functools
import os
import pathlib
import re
from tests import harness
from tests.documents import sources
from tests.documents.pages import codes, rows
from tests.harness import CRATES, TOP

PAGES = [*sorted(TOP.glob("*.md")), *sorted((TOP / "docs").rglob("*.md")), TOP / "examples" / "README.md"]
# CONTRIBUTING.md has these folders
OF_FOLDERS = [TOP / folder / "README.md" for folder in ("services", "tools/desk", "tests/data")]

# names of std, of the language and of the kit, commands of the shell, and names that a page has because they are wrong
# here
OUTSIDE = set("""
    AllocError Brand Debug Display IfErr IfSome OnErr OnOk Vec Wait dac8208d650f15bf try_send
    comm diff grep RT_JOBS
    Ctgy HANSDEHH370 PDCR txid
""".split())

NAME = re.compile(r"[A-Za-z_]\w*(?:::\w+)*(?:\(\))?")
FILE = re.compile(r"[\w.*/-]+\.(?:rt|antt|py|md|edit|txt|jsonl|list|c|script)")


class Report:
    """What was compared: how much of it is right, and what is wrong."""

    def __init__(self):
        self.right, self.faults = 0, []

    def check(self, page, line, is_right, fault):
        if is_right:
            self.right += 1
        else:
            self.faults.append(f"{page.relative_to(TOP)}:{line}: {fault}")


def words_of(name):
    return re.findall(r"\w+", name)


def prose(text):
    """The lines of a page with their numbers, but for blocks of code: between lines of three backquotes, or indented
    after an empty line."""
    text = re.sub(r"^( *)```.*?^\1```", lambda block: "\n" * block.group().count("\n"), text,
                  flags=re.MULTILINE | re.DOTALL)
    found, above = [], ""
    for number, line in enumerate(text.splitlines(), 1):
        if line.startswith("    ") and not above and not line.lstrip().startswith("- "):
            continue
        found.append((number, line))
        above = line
    return found


def sections(text):
    """The lines of each section below its heading, as deep as it goes, with the heading and its line."""
    found = [(match.start(), len(match.group(1)), match.group(2))
             for match in re.finditer(r"^(#+) (.*)$", text, re.MULTILINE)]
    for place, (start, depth, heading) in enumerate(found):
        end = next((later for later, other, _ in found[place + 1:] if other <= depth), len(text))
        yield heading, text.count("\n", 0, start) + 1, text[start:end].splitlines()


# ---- names, files and links

def check_names(report, page, text):
    """Every name in backquotes."""
    for number, line in prose(text):
        for name in codes(line):
            if NAME.fullmatch(name):
                known = all(word in sources.everywhere() or word in OUTSIDE for word in words_of(name))
                report.check(page, number, known, f"there is no {name}")
        for name, crate in re.findall(r"`(\w+(?:::\w+)*)` (?:\(|of |in )(sct_\w+)", line):
            report.check(page, number, is_in(name, crate), f"{crate} has no {name}")
        for crate, name in re.findall(r"(sct_\w+)'s `(\w+(?:::\w+)*)`", line):
            report.check(page, number, is_in(name, crate), f"{crate} has no {name}")


def is_in(name, crate):
    return crate in sources.names() and set(words_of(name)) <= sources.defined(crate)


def check_outside(report):
    """Each name of OUTSIDE is on a page."""
    seen = {word for page in PAGES for _, line in prose(page.read_text()) for name in codes(line)
            for word in words_of(name)}
    for name in sorted(OUTSIDE):
        report.check(pathlib.Path(__file__), 1, name in seen, f"no page has {name} of OUTSIDE")


@functools.lru_cache(maxsize=None)
def all_files():
    """Every file of the repository that a page may name, with a slash before it."""
    tops = [TOP / name for name in ("docs", "tests", "bench", "examples", "services", "bindings", "tools")]
    tops += [CRATES / crate / part for crate in sources.names() for part in ("src", "specs", "proofs", "must-fail")]
    found = [os.path.join(folder, name) for top in tops for folder, _, names in os.walk(top) for name in names]
    return "\n".join("/" + os.path.relpath(path, TOP)
                     for path in [*TOP.glob("*.*"), *CRATES.glob("*.txt"), *found]) + "\n"


def is_file(name):
    """Whether there is a file with this path or one that ends so. `*` stands for any part of a name."""
    return re.search("/" + re.escape(name).replace(r"\*", "[^/\n]*") + "\n", all_files()) is not None


def check_files(report, page, text):
    """Every file in backquotes."""
    for number, line in prose(text):
        for code in codes(line):
            for word in code.split():
                if FILE.fullmatch(word) and not word.startswith(("/", "..")) and (word == code or "/" in word):
                    report.check(page, number, is_file(word), f"there is no file {word}")


def anchors(page):
    """What the headings of a page are called in links."""
    headings = re.findall(r"^#+ (.*)$", page.read_text(), re.MULTILINE)
    return {re.sub(r"[^\w\- ]", "", heading.lower()).replace(" ", "-") for heading in headings}


def path_of(file):
    """The path of a source or a file of definitions that is named from the top or from crates/ on."""
    return TOP / file if file.startswith("crates/") else CRATES / file


def check_declared(report, page, text):
    """Every name that follows its file."""
    for number, line in prose(text):
        for file, following in re.findall(r"`([\w/]+/(?:src|specs)/[\w/]+\.(?:rt|antt))`((?:,? `\w+`)+)", line):
            for name in codes(following) if path_of(file).is_file() else []:
                report.check(page, number, name in sources.declared(path_of(file)), f"{file} declares no {name}")


def check_links(report, page, text):
    """Every link to a file or a heading."""
    for number, line in prose(text):
        for target in re.findall(r"\]\(([^)\s]+)\)", line):
            if "://" not in target:
                file, _, anchor = target.partition("#")
                to = (page.parent / file).resolve() if file else page
                report.check(page, number, to.exists(), f"there is no file {file}")
                report.check(page, number, not anchor or not to.is_file() or anchor in anchors(to),
                             f"there is no heading {target}")


def check_pages(report, page, text):
    """Whether the page links to every page of docs/."""
    for other in PAGES:
        if other.parent != TOP:
            name = other.relative_to(TOP).as_posix()
            report.check(page, 1, f"]({name})" in text, f"the page has no link to {name}")


# ---- tables

def found(name, functions):
    """The functions that a name of a table means: of a type or a trait if it has one before it. A trait means its
    members."""
    owner, _, last = name.rpartition("::")
    if owner:
        return [one for one in functions if one.name == last and owner in (one.type, one.trait)]
    members = [one for one in functions if one.name is None and name in (one.type, one.trait)]
    return [one for one in functions if one.name == name] or members


def carriers(cell):
    """The items of a cell: what they are (a law, an invariant or nothing), functions, clauses, and crates that are
    named. A function without a type may be of the type before it."""
    for item in cell.split("; "):
        kind = re.match(r"law |invariant of |", item).group().split(" ")[0]
        named, _, clauses = item.partition(": ")
        yield kind, codes(named), codes(clauses), re.findall(r"\((sct_\w+)\)", item)


def is_carried(one, kind, clauses):
    """Whether a function, or a type, carries one of some clauses. Without a clause a function has a single one."""
    if kind == "law":
        return one.is_law
    if kind == "invariant":
        return one.name is None and set(clauses) <= set(one.clauses)
    return bool(set(clauses) & set(one.clauses)) if clauses else len(one.clauses) == 1


def check_promise(report, page, number, cell, its):
    """The second cell of a row, in the section of these crates."""
    for kind, names, clauses, crates in carriers(cell):
        functions = [one for crate in crates or its for one in sources.functions(crate)]
        report.check(page, number, bool(names), f"no function is named in {cell}")
        carrying, owner = [], ""
        for name in names:
            ones = found(f"{owner}::{name}", functions) or found(name, functions)
            owner = name.rpartition("::")[0] or owner
            carrying += [one for one in ones if is_carried(one, kind, clauses)]
            report.check(page, number, bool(ones), f"{', '.join(crates or its)} has no {name}")
            report.check(page, number, any(one in carrying for one in ones), f"{name} carries no clause of the row")
        for clause in clauses:
            report.check(page, number, any(clause in one.clauses for one in carrying),
                         f"no function of the row has the clause {clause}")


def check_promises(report, page, text):
    """Every row of promises, by the crates of the heading above it."""
    for heading, first, lines in sections(text):
        if not heading.startswith("Promises"):
            for number, cells in rows(lines, first, ["Promise", "Function: clauses"]):
                check_promise(report, page, number, cells[1], crates_of(heading))


def crates_of(heading):
    return [word for word in re.findall(r"\bsct_\w+", heading) if word in sources.names()]


def check_edits(report, page, text):
    """Whether the first line of each edit says what it does, which the page points to, and whether the lines that it
    turns are there."""
    for path in sorted(CRATES.glob("*/must-fail/*")):
        lines = path.read_text(encoding="utf-8").splitlines()
        report.check(path, 1, re.fullmatch(r"# [^a-z].*\.", lines[0]) is not None,
                     "the first line does not say what the edit does")
        text = ""
        for number, line in enumerate(lines, 1):
            if line.startswith("file: "):
                text = (path.parents[1] / line[len("file: "):]).read_text(encoding="utf-8")
            elif line.startswith("old: "):
                report.check(path, number, text.count(line[len("old: "):]) == 1,
                             "the line that the edit turns is not there once")


def check_places(report, page, text):
    """The rows that say where things are: files of the crate, or of the one before them, each with what it declares."""
    for number, cells in rows(text.splitlines(), 1, ["What", "Crate", "Function", "Definition"]):
        for other, file, named in re.findall(r"(?:(sct_\w+)'s )?`([\w/]+\.(?:rt|antt))`((?:,? `\w+`)*)",
                                             " ".join(cells[2:])):
            path = CRATES / (other or cells[1]) / ("src" if file.endswith(".rt") else "specs") / file
            report.check(page, number, path.is_file(), f"{other or cells[1]} has no {file}")
            for name in codes(named) if path.is_file() else []:
                report.check(page, number, name in sources.declared(path),
                             f"{file} of {other or cells[1]} declares no {name}")


def check_sources(report, page, text):
    """Whether each source and each file of definitions says in its first line what it does, which the page points
    to."""
    for crate in sources.names():
        for path in [*sources.files(crate).values(), *sorted((CRATES / crate / "specs").glob("*.antt"))]:
            mark = "//! " if path.suffix == ".rt" else "-- "
            report.check(path, 1, path.read_text(encoding="utf-8").startswith(mark),
                         "the first line does not say what the file does")


# ---- the page for auditors

def check_carried(report, page, text):
    """The tables of what carries the commands, and of the definitions: functions with their clauses, and definitions,
    by file."""
    for number, cells in rows(text.splitlines(), 1, ["Command", "Function and clause", "File", "What is printed"]):
        functions = [one for file in codes(cells[2]) for one in sources.functions(file.split("/")[1])
                     if f"crates/{one.file}" == file]
        names = codes(cells[1])
        ones = [one for one in functions if one.name in names]
        report.check(page, number, bool(ones), f"no file of the row has {names[0]}")
        for name in names:
            known = any(name == one.name or name in one.clauses for one in ones) or name.startswith("Is")
            report.check(page, number, known or name in sources.names(),
                         f"no function of the row has the clause {name}")
    for number, (names, _, files) in rows(text.splitlines(), 1, ["Definition", "Says", "File"]):
        there = set().union(*(sources.declared(path_of(file)) for file in codes(files) if path_of(file).is_file()))
        for name in codes(names):
            report.check(page, number, name in there, f"no file of the row declares {name}")


def check_counts(report, page, text):
    """On how many files of definitions the headline rests, and its first definition alone."""
    table = next(list(rows(lines, 1, ["Definition", "Says", "File"])) for heading, _, lines in sections(text)
                 if "headline" in heading)
    files = [path_of(file) for _, (_, _, named) in table for file in codes(named)]
    counts = [len(sources.rests_on(files)), len(sources.rests_on(files[:1]))]
    stated = re.search(r"these are (\d+) files of definitions\. `\w+` alone rests on (\d+) files",
                       text.replace("\n", " "))
    report.check(page, 1, stated is not None and [*map(int, stated.groups())] == counts,
                 f"the files of definitions are {counts}")


def check_quotes(report, page, text):
    """Code that a page shows with its file and line."""
    for match in re.finditer(r"`([\w./-]+):(\d+)`:\n\n((?:    .*\n)+)", text):
        file, line, block = match.groups()
        shown = "".join(part.strip() + "\n" for part in block.splitlines())
        path = TOP / file
        there = "".join(part.strip() + "\n" for part in path.read_text().splitlines()) if path.is_file() else ""
        at = there.count("\n", 0, there.index(shown)) + 1 if shown in there else "no line"
        report.check(page, text.count("\n", 0, match.start()) + 1, str(at) == line,
                     f"{file}:{line}: this code is at {at}")


def crates_of_kit():
    """Each crate that crates.txt has and this repository does not."""
    lines = [line.partition(":") for line in (TOP / "crates.txt").read_text().splitlines() if not line.startswith("#")]
    own = {head.split()[0] for head, _, _ in lines if head.strip()}
    return sorted({word for _, _, uses in lines for word in uses.split()} - own)


def check_kit(report, page, text):
    """Whether the page names each crate of the kit that is used."""
    for crate in crates_of_kit():
        report.check(page, 1, f"`{crate}`" in text, f"the page does not name the crate {crate} of the kit")


def check_notice(report, page, text):
    """Whether NOTICE, to which the page points, names each crate of the kit that is used, and both say that there is no
    licence."""
    notice = TOP / "NOTICE"
    words = set(re.findall(r"\w+", notice.read_text(encoding="utf-8")))
    for crate in crates_of_kit():
        report.check(notice, 1, crate in words, f"NOTICE does not name the crate {crate} of the kit")
    for one in (page, notice):
        report.check(one, 1, "No licence has been granted yet" in one.read_text(encoding="utf-8"),
                     "it does not say that no licence has been granted yet")


BY_PAGE = {
    "README.md": [check_pages, check_notice],
    "docs/auditors/promises.md": [check_promises],
    "docs/auditors/review.md": [check_edits],
    "docs/developers/architecture.md": [check_places, check_sources],
    "docs/auditors/proved.md": [check_carried, check_counts, check_quotes, check_kit],
}


def main():
    report = Report()
    for page in [*PAGES, *OF_FOLDERS]:
        text = page.read_text()
        for check in [check_names, check_files, check_declared, check_links,
                      *BY_PAGE.get(page.relative_to(TOP).as_posix(), [])]:
            check(report, page, text)
    check_outside(report)
    for fault in report.faults:
        print(fault)
    harness.end(report.right, len(report.faults))


if __name__ == "__main__":
    main()
