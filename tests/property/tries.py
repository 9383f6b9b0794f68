"""tries.py: tries of the test driver, many of which go through one run, and tries of the program, which have a run
each.

A try of the driver asks it something, in the form that the driver's word has, and has the text that it must print. A
try of the program has the input of a command, and the answer to it. Runs go side by side.
"""
import collections
import os
from concurrent.futures import ThreadPoolExecutor
from tests import harness

TOGETHER = 100
SECONDS = 600  # a run takes a second of a processor, and the machine may have other work

# a text, the bytes of the input, and the text that must be printed, or the answer that the program must give
Try = collections.namedtuple("Try", "name asked wanted")


def first_that_differs(tries, text):
    """The place of the first try of a run that was not answered as it must be, and the text from there on."""
    for place, one in enumerate(tries):
        if not text.startswith(one.wanted):
            return place, text
        text = text[len(one.wanted):]
    return len(tries), text


def passed(tries, answer):
    """How many tries of a run passed. After the first that differs nothing is compared, and nothing has passed."""
    place, rest = first_that_differs(tries, answer.text.decode(errors="replace"))
    if place < len(tries):
        print(f"{tries[place].name}: DIFFERS\n asked {tries[place].asked!r}\n wanted {tries[place].wanted!r}\n "
              f"printed {rest[:2000]!r}")
    elif rest or answer.errors or answer.status:
        place -= 1
        print(f"{tries[place].name}: more is printed after it\n {rest[:2000]!r}")
    if answer.errors or answer.status:
        print(f" {answer.errors[-2000:]!r}, status {answer.status}")
    return place


def answered(word, tries):
    """How many tries of a word the driver answers as it must."""
    driver, parts = (harness.program("sct_test_driver"),
                     [tries[place:place + TOGETHER] for place in range(0, len(tries), TOGETHER)])
    with ThreadPoolExecutor(len(os.sched_getaffinity(0))) as pool:
        def ask(part):
            return harness.run([driver, word], b"".join(one.asked for one in part), seconds=SECONDS)

        return sum(map(passed, parts, pool.map(ask, parts)))


def is_answered(one, answer):
    """Whether the program answered a try as it must, which is printed if it did not."""
    if answer != one.wanted:
        print(f"{one.name}: DIFFERS\n asked {one.asked!r}\n wanted {one.wanted!r}\n answered {answer!r}")
    return answer == one.wanted


def answered_alone(word, tries):
    """How many inputs of a command the program answers as it must."""
    program = harness.program()
    with ThreadPoolExecutor(len(os.sched_getaffinity(0))) as pool:
        answers = pool.map(lambda one: harness.run([program, word], one.asked), tries)
        return sum(map(is_answered, tries, answers))
