"""cases.py: from which seed a property check makes up its cases, and how many it makes up.

`--seed N` is the seed. Without it, the seed is the date as a number, such as 20261127. One seed always makes up the
same cases. With `--cases N` there are N cases of each kind, in place of the usual number. With `--long` there are ten
times as many as without it. A check goes on after the usual number until it met all that it has to meet. So that a
failure can be repeated, each check begins with the command that makes up the same cases.
"""
from __future__ import annotations
import argparse
import collections
import datetime
import pathlib
import random
import sys
from typing import Any, Iterator

LONG = 10


class Cases(collections.namedtuple("Cases", "seed number long")):
    """What the options choose: the seed, the number of cases or None for the usual one, and whether there are ten times
    as many."""

    def words(self) -> Any:
        """The words of a command line that choose the same cases."""
        return ["--seed", str(self.seed)] + ["--cases",
                                             str(self.number)] * (self.number is not None) + ["--long"] * self.long

    def many(self, usual: Any) -> Any:
        """How many cases of a kind there are, if so many are usual."""
        return (self.number or usual) * (LONG if self.long else 1)

    def numbers(self, usual: Any, met: Any) -> Iterator[Any]:
        """The numbers of the cases: up to ten times as many as usual if something is not met yet. Met has how often
        each thing was met."""
        many = self.many(usual)
        for number in range(1, many * LONG + 1):
            if number > many and (many < usual or all(met.values())):
                return
            yield number

    def missed(self, usual: Any, met: Any) -> Any:
        """How many things were not met. None has to be, if there are fewer cases than usual."""
        return list(met.values()).count(0) if self.many(usual) >= usual else 0

    def source(self, kind: Any) -> Any:
        """The random numbers that make up the cases of a kind."""
        return random.Random(f"{kind} {self.seed}")


def positive(word: Any) -> Any:
    """The positive number that a word is."""
    number = int(word)
    if number < 1:
        raise ValueError(word)
    return number


def add_options(parser: argparse.ArgumentParser) -> None:
    """Adds the options that choose the cases to a parser of command lines."""
    day = int(datetime.date.today().strftime("%Y%m%d"))
    parser.add_argument("--seed", type=positive, metavar="N", default=day,
                        help="make up the cases from N and not from the date")
    parser.add_argument("--cases", type=positive, metavar="N", help="make up N cases of each kind")
    parser.add_argument("--long", action="store_true", help="make up ten times as many cases")


def chosen(options: argparse.Namespace) -> Cases:
    """The cases that the options choose."""
    return Cases(options.seed, options.cases, options.long)


def asked(about: Any) -> Any:
    """The cases that the command line of a check asks for. The command that makes up the same cases is printed."""
    parser = argparse.ArgumentParser(description=about, formatter_class=argparse.RawDescriptionHelpFormatter)
    add_options(parser)
    cases = chosen(parser.parse_args())
    print(f"python3 -m tests.property.{pathlib.Path(sys.argv[0]).stem} {' '.join(cases.words())}", flush=True)
    return cases
