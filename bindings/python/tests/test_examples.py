"""The examples of the repository, to the byte."""
import re

import pytest
from conftest import EXAMPLES, TOP, bytes_in

from niluppang import BytesSite, MessageRefused, Site

STEMS = sorted(path.stem for path in EXAMPLES.glob("*.jsonl"))
REPORTS = {"bank-day": ("LUTEFRPP", "2025-03-10"), "settlement-day": ("BANKDEFF", "2024-05-02"),
           "recall-batch": ("HANSDEHH", "2025-03-10")}
SITES = {"str": Site, "bytes": BytesSite}


def right(site, stem):
    """Whether a site answers as the files of an example say."""

    def as_bytes(text):
        return text.encode() if isinstance(text, str) else text

    assert as_bytes(site.archive_text()) == bytes_in(stem + ".archive")
    assert as_bytes(site.status_text()) == bytes_in(stem + ".status")
    assert as_bytes(site.totals_text()) == bytes_in(stem + ".totals")
    if stem in REPORTS:
        assert as_bytes(site.report(*REPORTS[stem], bytes_in(stem + ".list"))) == bytes_in(stem + ".report")


@pytest.mark.parametrize("stem", STEMS)
def test_lines_at_once(stem, kind):
    with SITES[kind](1, 1) as site:
        taken = site.take_lines(bytes_in(stem + ".jsonl"))
        refused = bytes_in(stem + ".refused")
        assert taken.refused_text == (refused if kind == "bytes" else refused.decode())
        assert taken.refused == refused.count(b"\n")
        assert taken.fresh == bytes_in(stem + ".archive").count(b"\n") == sum(site.counts())
        right(site, stem)


def refused_in(stem):
    """Why each refused line of an example is refused, by its number."""
    return {int(number): why for number, why in re.findall(r"^line (\d+): (.*)$", bytes_in(stem + ".refused").decode(),
                                                           re.M)}


@pytest.mark.parametrize("stem", STEMS)
def test_lines_one_by_one(stem):
    found = {}
    with Site(1, 1) as site:
        for number, line in enumerate(bytes_in(stem + ".jsonl").split(b"\n"), 1):
            if line.strip():
                try:
                    site.take(line.decode())
                except MessageRefused as error:
                    assert str(error.number) == error.reason.split(" ")[0]
                    found[number] = error.reason
        assert found == refused_in(stem)
        right(site, stem)


@pytest.mark.parametrize("stem", STEMS)
def test_reading(stem):
    why, lines = refused_in(stem), bytes_in(stem + ".jsonl").split(b"\n")
    numbers = [number for number, line in enumerate(lines, 1) if line.strip()]
    with Site(1, 1) as site:
        found = site.reading(bytes_in(stem + ".jsonl")).split("\n")
        assert found.pop() == "" and len(found) == len(numbers) and site.counts() == [0]
    refused = {number: line for number, line in zip(numbers, found) if not line.startswith("{")}
    assert refused == {number: f"line {number}: {text}" for number, text in why.items()}
    messages = {line + "\n" for line in found if line.startswith("{")}
    assert messages == set(bytes_in(stem + ".archive").decode().splitlines(keepends=True))


@pytest.mark.parametrize("stem", STEMS)
def test_restored(stem):
    with Site.restore(1, 1, bytes_in(stem + ".jsonl")) as site:
        assert site.refused_text == "".join(f"file 1 {line}\n"
                                            for line in bytes_in(stem + ".refused").decode().splitlines())
        right(site, stem)


def test_hub_of_three_sites():
    with Site(1, 3) as one, Site(2, 3) as two, Site(3, 3) as three:
        exchange([one, two, three])


def exchange(sites):
    """The sites of hub-morning give each other what they have, and then answer alike."""
    for number, site in enumerate(sites, 1):
        site.take_lines(bytes_in(f"hub-morning.site{number}"))
    first, *others = sites
    for other in others:
        first.accept(other.cut(first.vector_text()))
    for other in others:
        other.accept(first.cut(other.counts()))
    for site in sites:
        assert site.counts() == first.counts()
        assert site.status_text().encode() == bytes_in("hub-morning.run") == bytes_in("hub-morning.status")
        assert site.totals_text().encode() == bytes_in("hub-morning.totals")
        assert site.archive_text().encode() == bytes_in("hub-morning.archive")


def test_sites_that_exchange_by_files():
    def read(name):
        return (TOP / "tests" / "data" / "exchange" / name).read_bytes()

    with Site.restore(1, 2, read("one")) as one, Site.restore(2, 2, read("two"), one.cut()) as two:
        assert (one.vector_text(), two.vector_text()) == ("1:2", "1:2,2:1")
        assert one.cut().encode() == read("d1")
        assert one.cut("1:1").encode() == read("e2")
        one.accept(two.cut(one.counts()))
        assert one.archive_text().encode() == two.archive_text().encode() == read("one-two.archive")
        whole = two.cut()
    with Site.restore(2, 2, read("two"), whole) as again:
        assert (again.refused_text, again.cut()) == ("", whole)
