"""made_up.py: the program and the test driver answer made-up inputs as the definitions say.

The inputs are sets of messages in batches (views.py) and groups of sites that are settled (groups.py), for the driver,
and worlds (worlds.py), for the command `replay`. Independent programs of the definitions have the right answers
(tests/oracle/). Of each kind the check prints what was met. What has to be met and was not counts as failed. cases.py
has the options.
"""
from tests import harness
from tests.property import cases, groups, views, worlds
from tests.property.tries import answered, answered_alone

# each kind with who answers it, by which word
KINDS = {"views": (views, answered, "views"), "worlds": (worlds, answered_alone, "replay"),
         "groups": (groups, answered, "groups")}


def tries_of(word, kind, asked):
    """The tries of a kind, and how often each thing was met that has to be met."""
    r, tries, met = asked.source(word), [], dict.fromkeys(kind.TO_MEET, 0)
    for number in asked.numbers(kind.MANY, met):
        for one, things in kind.tries(r, number):
            tries.append(one)
            for thing in things:
                met[thing] += 1
    return tries, met


def tried(name, kind, answer, word, asked):
    """How many tries of a kind passed, and how many failed. What has to be met and was not has failed."""
    tries, met = tries_of(name, kind, asked)
    print(f"{len(tries)} {name}: " + ", ".join(f"{thing} {times}" for thing, times in met.items()), flush=True)
    right = answer(word, tries)
    return right, len(tries) - right + asked.missed(kind.MANY, met)


def main():
    asked = cases.asked(__doc__)
    harness.end_with([tried(name, *how, asked) for name, how in KINDS.items()])


if __name__ == "__main__":
    main()
