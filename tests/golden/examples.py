"""examples.py: the program answers each example of examples/ as its files say.

NAME.jsonl is a list of messages, and NAME.script a script. NAME.COMMAND is what that command must write to standard
output, and NAME.refused what it must write to standard error. NAME.site1, NAME.site2 and so on are lists of messages at
several sites: NAME.run and NAME.run-refused are what `run` must write for them. NAME.list is the list of a bank for the
day that REPORTS has, and NAME.report the report on it over NAME.jsonl. The exit status must be 1 if a line is refused,
else 0.
"""
from tests import harness
from tests.harness import EXAMPLES, case

COMMANDS = {".jsonl": ["status", "archive", "totals"], ".script": ["replay"]}
# the bank of each list, and the day
REPORTS = {"bank-day": ["LUTEFRPP", "2025-03-10"], "settlement-day": ["BANKDEFF", "2024-05-02"],
           "recall-batch": ["HANSDEHH", "2025-03-10"]}


def examples():
    """Each example with each command."""
    for example in sorted(EXAMPLES.iterdir()):
        def read(suffix):
            return example.with_suffix(suffix).read_bytes()

        for command in COMMANDS.get(example.suffix, []):
            yield case(f"{example.stem} {command}", [command], example.read_bytes(), read("." + command),
                       read(".refused"))
        if example.suffix == ".run":
            sites = sorted(site.name for site in EXAMPLES.glob(example.stem + ".site*"))
            yield case(f"{example.stem} run", ["run", *sites], b"", example.read_bytes(), read(".run-refused"))
        if example.suffix == ".list":
            words = ["report", *REPORTS[example.stem], example.name]
            yield case(f"{example.stem} report", words, read(".jsonl"), read(".report"), read(".refused"))


def main():
    program = harness.program()
    harness.end_of([harness.fits(program, one) for one in examples()])


if __name__ == "__main__":
    main()
