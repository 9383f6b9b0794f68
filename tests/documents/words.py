"""words.py: the pages use plain words, and none of the list below.

Words in backquotes and in blocks of code do not count. ALLOWED has the uses of a word of the list that are terms.
"""
import re
from tests import harness
from tests.documents.names import OF_FOLDERS, PAGES, prose
from tests.harness import TOP, reported

# words, each with what a page says in its place
WORDS = {
    r"tells?|told|telling": "a program prints or reports, a call returns",
    r"growths?": "an allocation",
    r"whole": "all, complete, entire",
    r"mend(?:s|ed|ing)?": "correct, repair",
    r"so many": "n, the number of",
    r"as often": "as many times as",
    r"(?:go|goes|going|went|gone) by": "depend on, be decided by",
    r"of these": "name what they are",
    r"(?:is|are|was|were) judged": "be checked, be decided",
    r"(?:is|are|was|were) known of": "say who knows what",
    r"cannot be had": "is missing",
    r"(?:have|has) a table of": "list",
    r"want of": "out of, without",
    r"in so many words": "literally",
}
ALLOWED = r"whole (?:numbers?|euros?)|as many times as"
MORE_PAGES = [*sorted((TOP / "bindings").glob("*/README.md")), TOP / "web" / "README.md"]


def used(text):
    """The words of the list on a page, each with its line and what to say in its place."""
    for number, line in prose(text):
        plain = re.sub(rf"`[^`]*`|\b(?:{ALLOWED})\b", "", line, flags=re.I)
        for pattern, instead in WORDS.items():
            for word in re.findall(rf"\b(?:{pattern})\b", plain, re.I):
                yield f"line {number}: {word} ({instead})"


def main():
    found = {page.relative_to(TOP).as_posix(): list(used(page.read_text(encoding="utf-8")))
             for page in [*PAGES, *OF_FOLDERS, *MORE_PAGES]}
    harness.end_of([reported(name, not faults, "\n".join(f"  {fault}" for fault in faults))
                    for name, faults in found.items()])


if __name__ == "__main__":
    main()
