"""meanings.py: each public name of the files of definitions has one meaning.

No name is declared in two of these files. Files for proofs do not count, as their heads say, nor do the files of ALIKE
among themselves. EXCEPTIONS has the other names, each with the reason.
"""
import collections
import re
from tests import harness
from tests.harness import CRATES

# what the head of a file for proofs says
FOR_PROOFS = re.compile(r"proof plumbing|serves proofs|cited by proofs|for those who prove", re.IGNORECASE)
DECLARED = re.compile(r"^(?:(?:abbrev|unfoldable) )?pub (?:record |data )?(?!use |mod )(\S+)", re.MULTILINE)

# files with models of one shape, which say so
ALIKE = {"sct_hub/specs/Embedded.antt", "sct_hub/specs/Hubs.antt"}

EXCEPTIONS = {
    "◌>>=◌": "the notation `do` asks for this name, at the faults of a message and of a line",
    "failed_reads": "one count at the faults of three layers: the reads that failed",
    "joined": "the word for logs and a delta, and for the pieces of a text; no file uses both",
}


def is_for_proofs(text):
    """Whether the comment that a file begins with says that it is for proofs."""
    return FOR_PROOFS.search(" ".join(re.match(r"(?:--.*\n)*", text).group().replace("--", "").split())) is not None


def declarations():
    """The public names of the files of definitions that are not for proofs, each with its files."""
    found = collections.defaultdict(set)
    for path in sorted(CRATES.glob("*/specs/**/*.antt")):
        text = path.read_text(encoding="utf-8")
        if not is_for_proofs(text):
            for name in DECLARED.findall(text):
                found[name].add(path.relative_to(CRATES).as_posix())
    return found


def main():
    right, faults = 0, []
    found = declarations()
    for name, files in sorted(found.items()):
        several = len(files) > 1 and not files <= ALIKE
        if several and name not in EXCEPTIONS:
            faults.append(f"{name} is declared in {', '.join(sorted(files))}")
        elif name in EXCEPTIONS and not several:
            faults.append(f"{name} of EXCEPTIONS has one meaning")
        else:
            right += 1
    faults += [f"{name} of EXCEPTIONS is not declared" for name in sorted(EXCEPTIONS.keys() - found.keys())]
    for fault in faults:
        print(fault)
    harness.end(right, len(faults))


if __name__ == "__main__":
    main()
