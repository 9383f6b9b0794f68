"""numbers.py: pages quote the numbers of docs/developers/costs.md that are there to be quoted, and no others in their
place.

The table "Numbers that other pages quote" of that page has each number with its value. TOPICS says which sentences
quote one, and what in them is a value. Each value of such a sentence is that of a number of its topic, and each number
is quoted on some page. A cell of a table is a sentence. Measurements of costs.md itself, and what versions of the past
took (CHANGELOG.md), are not compared.
"""
import collections
import re
from tests import harness
from tests.documents.names import OF_FOLDERS, PAGES, prose
from tests.documents.pages import Page
from tests.documents.words import MORE_PAGES
from tests.harness import TOP, reported
from tools.desk.page_tables import cells

COSTS, HEADING = "developers/costs.md", "Numbers that other pages quote"
NOT_COMPARED = [TOP / "docs" / COSTS, TOP / "CHANGELOG.md"]

# the numbers of a topic by how their names begin, the sentences that are about it, and what is a value in them
Topic = collections.namedtuple("Topic", "names sentence value")
TOPICS = [
    Topic(["memory of a message"], r"\bKB\b.*\ba message\b|\ba message\b.*\bKB\b", r"[\d.,]+ KB"),
    Topic(["time of `status`"], r"(?=.*\b(?:1,000,000|a million) messages)(?=.*\bseconds?\b)", r"[\d.,]+ seconds?"),
    Topic(["messages in an input"], r"million messages", r"[\d.,]+ million"),
    Topic(["time of `services/parts/`", "bytes that `services/parts/`", "time of the gate",
           "memory that the gate", "disk that the gate"],
          r"2,000,000 messages|minutes on four processors", r"[\d.,]+ (?:minutes|seconds|GB)"),
    Topic(["memory of a worker"], r"(?=.*\bworker\b)(?=.*\bMB\b)", r"[\d.,]+ MB"),
    Topic(["memory of the page", "time of the page"], r"\bpage takes\b(?=.*\bGB\b)", r"[\d.,]+ GB|[\d.,]+ s\b"),
    Topic(["time of `rt try`"], r"`rt try`.*\bminutes\b", r"[\d.,]+ minutes")
]


def numbers():
    """The value of each number, by its name."""
    return {row.cells[0]: row.cells[1] for row in Page(COSTS).rows(HEADING, "Number", "Value")}


def sentences(text):
    """The sentences of a page outside its blocks of code."""
    paragraph = []
    for _, line in [*prose(text), (0, "")]:
        if line.startswith("|"):
            yield from (cell for cell in cells(line))
        elif re.match(r"\s*(?:- |\d+\. |#|$)", line):
            yield from re.split(r"(?<=[.:;?!]) ", " ".join(paragraph))
            paragraph = [line.strip()]
        else:
            paragraph.append(line.strip())


def quoted(text, topic):
    """Each value that a page quotes on a topic, with its sentence."""
    for sentence in sentences(text):
        if re.search(topic.sentence, sentence, re.IGNORECASE):
            for value in re.findall(topic.value, sentence):
                yield value.strip(), sentence


def main():
    values, seen, right = numbers(), set(), []
    known = {name for topic in TOPICS for name in values if name.startswith(tuple(topic.names))}
    right.append(reported("each number has a topic", known == set(values), f"{set(values) - known}"))
    for page in [one for one in [*PAGES, *OF_FOLDERS, *MORE_PAGES] if one not in NOT_COMPARED]:
        wrong = []
        for topic in TOPICS:
            its = {value: name for name, value in values.items() if name.startswith(tuple(topic.names))}
            for value, sentence in quoted(page.read_text(encoding="utf-8"), topic):
                seen.add(its.get(value))
                if value not in its:
                    wrong.append(f"  {value} is none of {', '.join(its)}: {sentence}")
        right.append(reported(page.relative_to(TOP).as_posix(), not wrong, "\n".join(wrong)))
    unused = {name for name, value in values.items() if name not in seen}
    right.append(reported("each number is quoted", not unused, f"{unused}"))
    harness.end_of(right)


if __name__ == "__main__":
    main()
