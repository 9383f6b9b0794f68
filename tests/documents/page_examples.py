"""page_examples.py: the program answers the worked examples of docs/users/model.md and the examples and tables of
docs/users/formats.md as the pages say, and the code of docs/developers/sites.md is in the files that the page names.

The inputs are made of what the pages say (model.py, formats.py, desks.py). An example in words that are not known stops
the check.
"""
import itertools
from tests import harness
from tests.documents import desks, formats, model

PAGES = (model, formats, desks)


def right(name, pairs):
    """Whether the program answers an example as the page says, which is printed too."""
    pairs = list(pairs)
    wrong = [(stated, found) for stated, found in pairs if stated != found]
    print(f"{name}: {'DIFFERS' if wrong or not pairs else 'ok'}", flush=True)
    for stated, found in wrong:
        print(f"  the page says {stated!r}\n  the answer is {found!r}", flush=True)
    return bool(pairs) and not wrong


def main():
    program = harness.program()
    harness.end_of([right(*one) for one in itertools.chain.from_iterable(page.examples(program) for page in PAGES)])


if __name__ == "__main__":
    main()
