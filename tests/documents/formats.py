"""formats.py: the examples and tables of docs/users/formats.md, each with what the page says and what the program
answers.

Section 2 has messages that are all read. A row of section 5 names one of them, what is changed in it, and how that line
is refused. Section 3 has names of kinds, each given to the message of its kind, and reasons, each shown for a rejection
and for the refusal of a recall, with `?` or without. No answer shows which codes are usual for a recall. Section 6 has
a written form. Section 11 has refused lines of scripts, and a script. Sections 12 and 13 have lines of
examples/hub-morning.refused and examples/hub-morning.run-refused. Section 8 has dates, each given to a transfer that is
done but for its date. Section 14 has bad lists and a report. Section 10 has a delta, and section 15 what a site refuses
of files of tests/data/exchange/. Section 16 has requests to a new site, one after another, and their replies. A row in
other words than those of the tables stops the check.
"""
import json
import os
import pathlib
import re
import tempfile
from bench.generate import samples
from tests.documents.pages import Page, answered, codes
from tests.harness import DATA, EXAMPLES, TOP, stop

NAMES = ["the instruction", "the confirmation", "the request", "the recall", "the return", "the resolution",
         "the batch"]
ORDINALS = {"first": 0, "second": 1}
BEGINNINGS = {"the header": "DbtrAgt,TxId,Amt,Sts\n", "an empty file": "", "no header": "", "two blank lines": "\n\n"}
MOST = 100


# ---- section 5: lines that are changed

def part(message, words):
    """A message, or the transaction of it that the words name."""
    named = re.match(r"its (first|second) transaction", words)
    return message["TxInf"][ORDINALS[named.group(1)]] if named else message


def longer_list(message, many):
    """As many transactions as are asked for, in place of those that the list has."""
    message["TxInf"] = [{**message["TxInf"][0], "CxlId": f"R{place}"} for place in range(1, int(many) + 1)]


def put(message, value, place):
    """Another element in the list of transactions."""
    message["TxInf"][ORDINALS[place]] = json.loads(value)


CHANGES = {
    r"(?:with )?`(\"\w+\":[^`]*)`(?: and)?": lambda message, where, text: where.update(json.loads("{" + text + "}")),
    r"without `(\w+)`(?: and)?": lambda message, where, key: where.pop(key),
    r"(?:with )?a key `(\w+)`(?: beside `TxInf`)?": lambda message, where, key: where.update({key: "1"}),
    r"with keys `(\w+)` and `(\w+)`": lambda message, where, *keys: where.update(dict.fromkeys(keys, "1")),
    r"with `([^`]*)` as its (first|second) element": lambda message, where, *what: put(message, *what),
    r"with (\d+) transactions": lambda message, where, many: longer_list(message, many),
    r"its (first|second) transaction": lambda message, where, _: None,
    r"(?:,|and) ?": lambda message, where: None,
}


def changed(message, words):
    """Makes the changes that the words name, one after the other, in the message or in one of its transactions."""
    where = message
    while words:
        where = part(message, words) if words.startswith("its ") else where
        for pattern, change in sorted(CHANGES.items(), key=lambda one: -len(one[0])):
            match = re.match(pattern + r"(?=$|[ ,]) ?", words)
            if match:
                change(message, where, *match.groups())
                words = words[match.end():]
                break
        else:
            stop(f"these are not the words of a change: {words}")


def line_named(messages, cell):
    """The line that a cell names: its text, or a message with changes."""
    if cell.startswith("`"):
        return codes(cell)[0] + "\n"
    [name] = [name for name in NAMES if cell.startswith(name)]
    message = json.loads(messages[name])
    changed(message, cell[len(name):].strip())
    return samples.line(message)


def refusals(program, page, messages):
    """The refused lines of section 5."""
    for columns in (("Line", "Refusal"), ("Line", "Refusal", "Because")):
        for row in page.rows("5. Refusals", *columns):
            line, refusal = line_named(messages, row.cells[0]), codes(row.cells[1])[0]
            yield row.line, ("", f"line 1: {refusal}\n", 1), answered(program, ["status"], line)


# ---- sections 2 and 6: messages and their written forms

def messages_of(page):
    """The lines of section 2 by their names."""
    lines = "".join(block.text for block in page.blocks("Six messages")).splitlines()
    return dict(zip(NAMES, [line for line in lines if line.startswith("{")]))


def stories(program, page, messages):
    """The answers on the first five messages, and on those with the sixth in place of the fifth. All six contradict
    each other."""
    answers = [block for block in page.blocks("Six messages") if not block.text.startswith("{")]
    lines = [messages[name] + "\n" for name in NAMES[:6]]
    for block, story in zip(answers, (lines[:5], [*lines[:4], lines[5]])):
        yield block.line, (block.text, "", 0), answered(program, ["status"], "".join(story))
    finding = re.search(r"by the finding (\w+)\.", page.text)
    text, *_ = answered(program, ["status"], "".join(lines))
    found = [line.split("|")[::3][:2] for line in text.splitlines()[:2]]
    yield page.line_at(finding.start()), [["T", "CONTRADICTED"], ["F", finding[1]]], found
    yield answers[-1].line, 2, len(answers)


def written_forms(program, page, messages):
    """The written forms of section 6."""
    pattern = r"(?:^The|^and the) (instruction|resolution|batch)(?: is written)?\n\n```\n(.*?)^```"
    for match in page.found(pattern, "6. Written form"):
        line = messages["the " + match.group(1)] + "\n"
        yield page.line_at(match.start()), (match.group(2), "", 0), answered(program, ["archive"], line)


# ---- section 3: names of kinds, reasons

def kinds(program, page, messages):
    """Names that are read as a kind, and names that are refused."""
    of_kind = {json.loads(line)["MsgNmId"]: json.loads(line) for line in list(messages.values())[:-1]}
    for row in page.rows("Names of kinds", "Kind", "Read as this kind"):
        kind, names = row.cells
        for name in codes(names):
            line = samples.line({**of_kind.get(kind, of_kind["pacs.008"]), "MsgNmId": name})
            text, refused, status = answered(program, ["archive"], line)
            stated = (0, "line 1: 33\n", 1) if kind == "none" else (1, "", 0)
            yield row.line, stated, (text.count(json.dumps(name)), refused, status)


def shown(program, code, usual):
    """The line of a transfer that is rejected for a reason, and that of a recall that is refused for it."""
    lines = [samples.instruction(), samples.confirmation({"TxSts": "RJCT", "Rsn": code}),
             samples.recall([samples.transaction()]),
             samples.refusal(Rsn=code)]

    def mark(use):
        return code if code in usual[use] else code + "?"

    text = (f"T|BANKDEFFXXX|T1|REJECTED|{mark('rejection')}\n"
            f"R|BANKDEFFXXX|T1|R1|REFUSED|{mark('refusal of a recall')}\n")
    return (text, "", 0), answered(program, ["status"], "".join(map(samples.line, lines)))


def reasons(program, page, _):
    """Which reasons are usual in which use."""
    rows = list(page.rows("Reasons", "Use", "Kind", "Usual codes"))
    usual = {row.cells[0]: codes(row.cells[2]) for row in rows}
    listed = sorted(set().union(*usual.values()))
    many = re.search(r"These (\d+) codes are listed", page.text).group(1)
    meanings = json.loads((TOP / "tools/desk/reasons.json").read_text(encoding="utf-8"))
    shown_meanings = {row.cells[0].strip("`"): row.cells[1] for row in page.rows("Reasons", "Code", "Meaning")}
    yield "the meanings of reasons", {code: its["en"] for code, its in meanings.items()}, shown_meanings
    yield "the reasons with a meaning", listed, sorted(meanings)
    yield "each in three languages", {("en", "de", "fr")}, {tuple(its) for its in meanings.values()
                                                            if all(its.values())}
    for row in rows:
        yield row.line, int(many), len(listed)
        for code in listed + ["ZZ9"]:
            yield (row.line, *shown(program, code, usual))
            if row.cells[0] == "return":
                refused = ("", 0) if code in usual["return"] else ("line 1: 38 19\n", 1)
                yield row.line, refused, answered(program, ["totals"], samples.line(samples.payback(Rsn=code)))[1:]


# ---- section 8: dates

def dates(program, page, _):
    """Which messages were created before a day: what is kept of a transfer that is done by all but the date of its
    confirmation."""
    for row in page.rows("8. Archive text", "`CreDtTm`", "Before 2026-01-02"):
        lines = [samples.instruction(), samples.confirmation(CreDtTm=codes(row.cells[0])[0])]
        text, refused, status = answered(program, ["keep", "2026-01-02"], "".join(map(samples.line, lines)))
        yield row.line, ({"yes": 0, "no": 2}[row.cells[1]], "", 0), (text.count("\n"), refused, status)


# ---- section 11: scripts

def script_lines(program, page, _):
    """Lines of a script that are refused."""
    for row in page.rows("11. Scripts", "Line", "Refusal", "Because"):
        for line in codes(row.cells[0]):
            refused = f"line 2: {codes(row.cells[1])[0]}\n"
            yield row.line, ("S|1\nS|2\nS|3\n", refused, 1), answered(program, ["replay"], f"sites 3\n{line}\n")


def script(program, page, messages):
    """The script, of which the first message is the instruction and the second the confirmation, and its outcomes."""
    [first, outcomes] = page.blocks("11. Scripts")
    pieces = first.text.split("<JSON text of a message>")
    whole = pieces[0] + messages["the instruction"] + pieces[1] + messages["the confirmation"] + "".join(pieces[2:])
    text, refused, status = answered(program, ["replay"], whole)
    yield outcomes.line, (outcomes.text, "", 0), ("".join(re.findall(r"^E.*\n", text, re.M)), refused, status)


# ---- sections 12 and 13: refused lines of the examples

def example_lines(_, page, __):
    """Lines that an example has, too."""
    for heading, example in (("12. Standard error and exit status", "refused"),
                             ("13. Several files: `run`", "run-refused")):
        [block] = page.blocks(heading)
        lines = (EXAMPLES / f"hub-morning.{example}").read_text().splitlines()
        yield block.line, block.text.splitlines(), [line for line in lines if line in block.text.splitlines()]


# ---- section 14: lists and reports

def reported(program, rows, lines):
    """What `report` writes on a list."""
    with tempfile.TemporaryDirectory() as folder:
        path = pathlib.Path(folder, "list")
        path.write_text(rows)
        return answered(program, ["report", "BANKDEFF", "2024-05-02", str(path)], "".join(map(samples.line, lines)))


def rows_named(cell):
    """The list that a cell names: each part is a beginning in words, or a line."""
    return "".join(BEGINNINGS[words] if words else row + "\n"
                   for row, words in re.findall(r"`([^`]*)`|([a-z][a-z ]*[a-z])", cell))


def bad_lists(program, page, _):
    """Lists that are refused."""
    for row in page.rows("14. Lists and reports", "List", "Fault", "Because"):
        yield row.line, ("", codes(row.cells[1])[0] + "\n", 2), reported(program, rows_named(row.cells[0]), [])


def report(program, page, _):
    """The report on the list: T1 of 10.00 is accepted, `T,2` of 20.00 waits, and T3 of 5.00 is rejected."""
    [rows, text] = page.blocks("14. Lists and reports")
    amounts = {"T1": "10.00", "T,2": "20.00", "T3": "5.00"}
    lines = [samples.instruction(MsgId=f"M{transfer[-1]}", TxId=transfer, IntrBkSttlmAmt=amounts[transfer])
             for transfer in amounts]
    lines += [samples.confirmation(),
              samples.confirmation({"TxSts": "RJCT", "Rsn": "AC04"}, MsgId="C3", OrgnlTxId="T3")]
    yield text.line, (text.text, "", 0), reported(program, rows.text, lines)


# ---- sections 10 and 15: deltas, and a site of several machines

def deltas(program, page, _):
    """A text of a delta, which begins with entry 2 of site 1: it is a delta text, and is early for a site without
    entries."""
    for block in [block for block in page.blocks("10. Delta text") if "<" not in block.text]:
        with tempfile.NamedTemporaryFile("w") as file:
            file.write(block.text)
            file.flush()
            yield block.line, ("-\n", "file 2: 41 1 0 2\n",
                               1), answered(program, ["vector", "2", "2", os.devnull, file.name], "")


def refused_files(program, page, _):
    """What a site refuses of a journal and two deltas."""
    *_, block = page.blocks("15. A site of several machines: `site`, `vector`, `cut`")
    files = [str(DATA / "exchange" / name) for name in ("bad", "e2", "empty")]
    yield block.line, ("2:1\n", block.text, 1), answered(program, ["vector", "2", "2", *files], "")


# ---- section 16: a site that lasts

def requests(program, page, messages):
    """Requests to a new site 1 of 2, one after another."""
    found = list(page.rows("16. A site that lasts: `serve`", "Request", "Reply"))

    def signs(text):
        return text.replace("<TAB>", "\t").replace("<LF>", "\n")

    lines = [signs(codes(row.cells[0])[0]) if row.cells[0].startswith("`") else messages[row.cells[0]] for row in found]
    stated = "READY -\n" + "".join(signs(codes(row.cells[1])[0]) + "\n" for row in found)
    with tempfile.TemporaryDirectory() as folder:
        words = ["serve", "1", "2", str(pathlib.Path(folder, "journal"))]
        yield found[0].line, (stated, "", 0), answered(program, words, "".join(line + "\n" for line in lines))


# ---- the page

PARTS = [stories, refusals, written_forms, kinds, reasons, dates, script_lines, script,
         example_lines, bad_lists, report, deltas,
         refused_files,
         requests]


def examples(program):
    """Each example by its name, with the pairs of what the page says and what is answered."""
    page = Page("users/formats.md")
    messages = messages_of(page)
    text, refused, status = answered(program, ["archive"], "\n".join(messages.values()))
    yield "formats.md, the messages of section 2", [((7, "", 0), (text.count("\n"), refused, status))]
    for part_of_page in PARTS:
        lines = {}
        for line, stated, found in part_of_page(program, page, messages):
            lines.setdefault(line, []).append((stated, found))
        if not lines:
            stop(f"formats.md has nothing for {part_of_page.__name__}")
        for line, pairs in lines.items():
            yield f"formats.md, line {line}", pairs
