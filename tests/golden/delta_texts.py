"""delta_texts.py: the program reads delta texts of both forms, and reports the first wrong line of a text and the first
reason of a delta.

A message of each kind, without and with its optional keys, is an entry of a delta in form 1 and of one in form 2, with
white space around it too. `cut` must write all of them in form 2. A delta that begins at a great number is refused for
the gap, so it was read. Of the wrong texts, each has the number of its first wrong line. Each proper beginning of a
text is wrong in its last line. A delta may be refused for several reasons. The first counts: a site that is not there
(44), an own entry ahead (43), a gap (41), a fork (42). Nothing of it is held.
"""
import tempfile
from tests import harness
from tests.golden.titled import before_answers, titled
from tests.harness import DATA, case
from tests.inputs import confirmation, delta, files_of, instruction
from tests.oracle.status import read_message, written

MOST = 2 ** 64 - 1  # the greatest number of an entry
TOGETHER = 500  # so many texts at most go into one run
FIRST, SECOND = (written(read_message(line.encode())) for line in (instruction(1), confirmation(1)))

# ---- wrong texts, by the first wrong line; @ is a message

HEADS = ["", "\n", "x", "delta 1", "delta 2", "delta 3\nend 0\n", "end 0\n", "Delta 1\nend 0\n", "Delta 2\nend 0\n",
         *(head.format(form) for form in (1, 2) for head in (
             "delta 0{}\nend 0\n", "delta  {}\nend 0\n", " delta {}\nend 0\n", "delta {} \nend 0\n",
             "delta {}\r\nend 0\r\n"))]
# what follows the first line, in both forms
ENDS = {
    2: ["", "end 0", "end", "\nend 0\n", "end 1\n", "end 00\n", "end +0\n", "end -0\n", "end \n",
        "end\n", "end 0 \n", "end  0\n",
        "END 0\n", f"end {MOST + 1}\n"],
    3: ["end 0\nx", "end 0\n\n"]
}
# lines of one entry, in form 1
ENTRIES = [
    "entry 65 1 @", "entry 0 1 @", "entry 70000 1 @", f"entry {MOST + 2} 1 @", "entry 01 1 @",
    "entry +1 1 @", "entry -1 1 @",
    "entry 1 01 @", "entry 1 0 @", "entry 1 +1 @", "entry 1 1a @", f"entry 1 {MOST + 1} @", "entry  1 1 @",
    "entry 1  1 @", "entry\t1 1 @",
    "Entry 1 1 @", " entry 1 1 @", "entry 1 1@", "entry 1 1 {}", "entry 1 1 ", "entry 1 1", "entry", "entry 1 1 @}"
]
# lines of an origin with one message, in form 2
ORIGINS = [
    "origin 1025 1 1", "origin 0 1 1", "origin 70000 1 1", f"origin {MOST + 2} 1 1", "origin 01 1 1",
    "origin +1 1 1", "origin -1 1 1",
    "origin 1 01 1", "origin 1 0 1", "origin 1 +1 1", "origin 1 1a 1", f"origin 1 {MOST + 1} 1",
    "origin 1 1 01", "origin 1 1 0",
    "origin 1 1 +1", "origin 1 1 1a", f"origin 1 1 {MOST + 2}", f"origin 1 {MOST} 2",
    f"origin 1 2 {MOST}", "origin  1 1 1",
    "origin 1  1 1", "origin 1 1  1", "origin 1 1 1 ", "origin 1 1 1\r", "origin\t1 1 1",
    "Origin 1 1 1", " origin 1 1 1", "origin",
    "origin 1", "origin 1 1", "origin 1 1 ", "entry 1 1 {}"
]
PAIRS = [("1 2", "1 4"), ("1 2", "1 2"), ("1 2", "1 1"), ("2 1", "1 1"), ("2 1", "3 0"), ("2 1", "65 1"),
         (f"1 {MOST}", "1 0")]
PAIRS_OF_ORIGINS = [("1 1", "1 2 1"), ("1 1", "1 1 1"), ("2 1", "1 1 1"), ("2 1", "3 0 1"), ("2 1", "1025 1 1"),
                    ("2 1", "3 1 0")]
FORM_1 = {
    2: ["entry 1 1 @"],
    3: ["entry 1 1 @\n", "entry 1 1 @\nend 2\n", "entry 1 1 @\nend 0\n", "entry 1 1 @\nend 1",
        *(f"entry {one} @\nentry {other} @\nend 2\n" for one, other in PAIRS)],
    4: ["entry 1 1 @\nend 1\nend 1\n"],
}
FORM_2 = {
    2: ["origin 1 1 1 @\nend 1\n", "@\nend 1\n", "origin 1 1 1"],
    3: ["origin 1 1 1\n", "origin 1 1 1\n{}", "origin 1 1 1\n{}\nend 1\n",
        "origin 1 1 1\n\nend 1\n", "origin 1 1 1\nend 0\n",
        "origin 1 1 1\norigin 2 1 1\n", f"origin 1 1 {MOST}\nend 0\n", "origin 1 1 1\n@}\nend 1\n", "origin 1 1 1\n@"],
    4: ["origin 1 1 1\n@\n", "origin 1 1 1\n@\nend 2\n", "origin 1 1 1\n@\nend 0\n", "origin 1 1 1\n@\nend 1",
        "origin 1024 1 2\n@\nend 1\n", "origin 1024 1 2\n@\nend 2\n", f"origin 1 1 {MOST}\n@\nend 1\n",
        "origin 1 1 1\n@\n@\nend 2\n",
        "origin 1 1 2\n@\norigin 2 1 1\n@\nend 2\n",
        *(f"origin {one} 1\n@\norigin {other}\n@\nend 2\n" for one, other in PAIRS_OF_ORIGINS)],
    5: ["origin 1 1 1\n@\nend 1\nx", "origin 1 1 1\n@\nend 1\nend 1\n", "origin 1 1 2\n@\n@\nend 1\n",
        "origin 1 1 2\n@\n@\nend 3\n",
        "origin 1 1 3\n@\n@\nend 2\n"],
    6: ["origin 1 1 1\n@\norigin 2 1 2\n@\nend 2\n", "origin 1 1 1\n@\norigin 2 1 1\n@\nend 1\n"]
}


def filled(text):
    """A text with its messages: the first one, and then another."""
    return text.replace("@", FIRST, 1).replace("@", SECOND).encode()


def wrong_texts():
    """Each wrong text with the number of its first wrong line."""
    yield from ((1, head.encode()) for head in HEADS)
    for form, lines in ((1, {**FORM_1, 2: [*FORM_1[2], *(f"{line}\nend 1\n" for line in ENTRIES)]}),
                        (2, {**FORM_2, 2: [*FORM_2[2], *(f"{line}\n@\nend 1\n" for line in ORIGINS)]})):
        for rows in (ENDS, lines):
            yield from ((line, filled(f"delta {form}\n{text}")) for line, texts in rows.items() for text in texts)


def broken_off():
    """Each proper beginning of a text of either form with three entries of two sites, with the number of its last
    line."""
    for text in (f"delta 1\nentry 1 2 {SECOND}\nentry 1 3 {FIRST}\nentry 5 1 {SECOND}\nend 3\n",
                 f"delta 2\norigin 1 2 2\n{SECOND}\n{FIRST}\norigin 5 1 1\n{SECOND}\nend 3\n"):
        for length in range(len(text)):
            yield text.count("\n", 0, length) + 1, text[:length].encode()


def refused(folder, name, texts):
    """Runs of a site that is given wrong texts, and accepts none."""
    for begin in range(0, len(texts), TOGETHER):
        part = texts[begin:begin + TOGETHER]
        paths = files_of(folder, f"{name}{begin}-", [text for _, text in part])
        lines = "".join(f"file {file}: 45 {line}\n" for file, (line, _) in enumerate(part, 2))
        yield case(f"{len(part)} {name}", ["vector", "1", "1024", "/dev/null", *paths], b"", b"-\n", lines.encode())


# ---- right texts

def in_form_1(runs, before="", behind=""):
    """The text in form 1 of the runs, each an origin, the number of its first entry, and messages."""
    lines = [f"entry {origin} {n} {before}{message}{behind}\n"
             for origin, first, messages in runs for n, message in enumerate(messages, first)]
    return "".join(["delta 1\n", *lines, f"end {len(lines)}\n"]).encode()


def in_form_2(runs, before="", behind=""):
    """The text in form 2 of the runs."""
    groups = [f"origin {origin} {first} {len(messages)}\n"
              + "".join(f"{before}{message}{behind}\n" for message in messages)
              for origin, first, messages in runs]
    return "".join(["delta 2\n", *groups, f"end {sum(len(messages) for *_, messages in runs)}\n"]).encode()


def each_kind():
    """The written messages of each kind, without an optional key and with every one."""
    [rest] = [rest for title, rest in titled((DATA / "cases" / "forms.txt").read_text(), "==")
              if title.startswith("each kind without")]
    return [line for line in before_answers(rest).splitlines() if not line.startswith('{"MsgNmId"')]


def right_texts(folder):
    """Texts in both forms, with and without white space around messages, and what is cut of their entries."""
    messages = each_kind()
    # each origin, and the places of its first message and of the next origin's
    places = [(1, 0, 2), (2, 2, 5), (3, 5, 6), (9, 6, 8), (63, 8, 10), (64, 10, 12)]
    runs = [(origin, 1, messages[begin:end]) for origin, begin, end in places]
    for form in (in_form_1, in_form_2):
        for before, behind in (("", ""), (" ", "\t\r")):
            paths = files_of(folder, f"{form.__name__}{len(behind)}-", [form(runs, before, behind)])
            words = ["cut", "1024", "1024", "-", "/dev/null", *paths]
            yield case(f"{len(messages)} messages, {form.__name__}", words, b"", in_form_2(runs), b"")
    for origin, first in ((9, MOST - 5), (64, MOST - 1)):
        paths = files_of(folder, f"great{origin}-",
                         [form([(origin, first, [FIRST, SECOND])]) for form in (in_form_1, in_form_2)])
        lines = "".join(f"file {file}: 41 {origin} 0 {first}\n" for file in (2, 3))
        yield case(f"entries from {first} on", ["vector", "1", "1024", "/dev/null", *paths], b"", b"-\n",
                   lines.encode())


# ---- deltas that are refused for several reasons

# the site, its own messages and those of site 1 that it holds; then runs of a delta by the numbers of messages, and why
# it is refused
REASONS = [
    (2, [], [1, 2], [(1, 2, [9])], "42 1 2"),
    (3, [], [1, 2], [(1, 2, [9]), (2, 2, [5])], "41 2 0 2"),
    (3, [], [1, 2], [(1, 2, [9]), (2, 2, [5]), (3, 1, [6])], "43 1"),
    (3, [], [1, 2], [(1, 2, [9]), (2, 2, [5]), (3, 1, [6]), (4, 1, [4])], "44"),
    (2, [], [], [(1, 2, [2])], "41 1 0 2"),
    (2, [], [], [(1, MOST, [9])], f"41 1 0 {MOST}"),
    (1, [], [], [(1, MOST, [9])], f"43 {MOST}"),
    (1, [1, 2, 3], [], [(1, 9, [9])], "43 9"),
    (1, [1, 2, 3], [], [(4, 1, [4])], "44"),
]


def several_reasons(folder):
    """Each site with the delta that it refuses, and all that it holds afterwards."""
    for place, (site, own, of_site_1, runs, why) in enumerate(REASONS):
        messages = [(origin, first, [instruction(number).strip() for number in numbers])
                    for origin, first, numbers in runs]
        held = delta(1, 1, *(own or of_site_1)) if own or of_site_1 else b"delta 2\nend 0\n"
        journal = "".join(map(instruction, own)).encode()
        paths = files_of(folder, f"reason{place}-", [journal, held, in_form_2(messages)])
        yield case(f"refused with {why}", ["cut", str(site), "3", "-", *paths], b"", held, f"file 3: {why}\n".encode())


def main():
    program = harness.program()
    with tempfile.TemporaryDirectory() as folder:
        cases = [*right_texts(folder), *several_reasons(folder), *refused(folder, "wrong texts", list(wrong_texts())),
                 *refused(folder, "texts that break off", list(broken_off()))]
        harness.end_of([harness.fits(program, one) for one in cases])


if __name__ == "__main__":
    main()
