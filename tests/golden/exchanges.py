"""exchanges.py: the program answers `site`, `vector`, `digests` and `cut` on files as tests/data/exchange/ says, and
hub.sh writes what it must.

A file NAME.txt of cases has one command line after another: a line `== TITLE`, a line `$ WORDS`, after `-- out` and `--
err` what must be written to the two outputs, and a line `-- exit STATUS`. After `-- out FILE` the text is that of a
file beside it. The words name the other files there.

Some cases are made up here: a hundred deltas that are given in the opposite order, the deltas of a group of 1024 sites,
and digests, which hashlib makes.

examples/exchange/hub.sh runs with each shell of this machine. It must print hub.expected, and stop with one line if the
program fails.
"""
import hashlib
import pathlib
import shlex
import shutil
import tempfile
from tests import harness
from tests.golden.shown import place, shell
from tests.golden.titled import titled
from tests.harness import DATA, EXAMPLES, Case, case, reported
from tests.inputs import delta, files_of, instruction
from tests.oracle.status import archive_text, read_message

HUB = EXAMPLES / "exchange"
SHELLS = ["sh", "dash", "bash"]
FAULTY = "#!/bin/sh\necho 'fault 65' >&2\nexit 3\n"  # a program that has no memory
MANY, MOST_SITES = 100, 1024


# ---- the cases of the files

def command_lines():
    """Each command line of the files of cases, run in their folder."""
    folder = DATA / "exchange"
    for path in sorted(folder.glob("*.txt")):
        for title, rest in titled(path.read_text(), "=="):
            words, rest = rest[len("$ "):].split("\n", 1)
            marks = {mark.split(" ")[0]: (mark.split(" ")[1:], text) for mark, text in titled(rest, "--")}
            [name], text = marks["out"] if marks["out"][0] else ([None], marks["out"][1].encode())
            out = (folder / name).read_bytes() if name else text
            [status] = map(int, marks["exit"][0])
            yield Case(title, shlex.split(words), b"", out, marks["err"][1].encode(), status, folder)


# ---- cases that are made up

def archive(numbers):
    """The archive text of some instructions."""
    return archive_text({read_message(instruction(number).encode()) for number in numbers}).encode()


def in_opposite_order(folder):
    """A site without a journal is given so many deltas of one entry, the last one first. It accepts one in each
    round."""
    texts = [delta(1, number, number) for number in range(MANY, 0, -1)]
    words = ["2", "2", "/dev/null", *files_of(folder, "late", texts)]
    yield case(f"{MANY} deltas in the opposite order", ["site", *words], b"", archive(range(1, MANY + 1)), b"")
    yield case("their vector", ["vector", *words], b"", b"1:%d\n" % MANY, b"")
    early = b"".join(b"file %d: 41 1 0 %d\n" % (file, MANY + 2 - file) for file in range(2, MANY + 1))
    yield case("all but the first of them", ["site", *words[:-1]], b"", b"", early)


def of_most_sites(folder):
    """The last site of the largest group is given a delta of each other one, and of one more."""
    texts = [delta(origin, 1, origin) for origin in range(1, MOST_SITES)]
    [journal, above] = files_of(folder, "most", [instruction(MOST_SITES).encode(), delta(MOST_SITES, 1, MOST_SITES)])
    words = [str(MOST_SITES), str(MOST_SITES)], [journal, *files_of(folder, "site", texts)]
    vector = ",".join(f"{origin}:1" for origin in range(1, MOST_SITES + 1))
    yield case(f"a group of {MOST_SITES}", ["site", *words[0], *words[1]], b"", archive(range(1, MOST_SITES + 1)), b"")
    yield case("its vector", ["vector", *words[0], *words[1]], b"", vector.encode() + b"\n", b"")
    yield case("a cut for one that lacks the last entry",
               ["cut", *words[0], vector[:vector.rindex(",")], *words[1]], b"",
               delta(MOST_SITES, 1, MOST_SITES), b"")
    yield case("a delta of the last site in a smaller group",
               ["vector", "1", str(MOST_SITES - 1), journal, above], b"", b"1:1\n",
               b"file 2: 44\n")


def digest(*texts):
    """The digest of entries with these texts: each is over the one before it, the text of its entry and a line feed."""
    last = bytes(32)
    for text in texts:
        last = hashlib.sha256(last + text.encode() + b"\n").digest()
    return last.hex()


def compared(folder):
    """The digests of a site with entries of its own and of another one, also if a line came in another form."""
    texts = [archive([number]).decode().rstrip("\n") for number in range(5)]
    loose = instruction(1).replace('":"', '" : "').encode()
    own, again, theirs = files_of(folder, "digests", [(instruction(1) + instruction(2)).encode(),
                                                      loose + instruction(2).encode(), delta(2, 1, 4, 3)])
    both = f"1:2:{digest(texts[1], texts[2])}\n2:2:{digest(texts[4], texts[3])}\n".encode()
    yield case("digests of two origins, each in the order of its entries", ["digests", "1", "2", own, theirs], b"",
               both, b"")
    yield case("digests of lines in another form", ["digests", "1", "2", again, theirs], b"", both, b"")
    yield case("digests of one origin", ["digests", "1", "2", own], b"", both[:both.index(b"\n") + 1], b"")
    yield case("digests of nothing", ["digests", "1", "2", "/dev/null"], b"", b"", b"")
    yield case("digests beside a delta that is too early", ["digests", "1", "2", own,
                                                            *files_of(folder, "early", [delta(2, 2, 4)])],
               b"", both[:both.index(b"\n") + 1], b"file 2: 41 2 0 2\n")


# ---- the hub

def hubs(folder, commands):
    """Whether hub.sh prints what it must with each shell, keeps a folder that is named and takes none that is there,
    and stops if the program fails."""
    wanted = (HUB / "hub.expected").read_text()
    for name in filter(shutil.which, SHELLS):
        text, status = shell(f"{name} hub.sh", HUB, commands)
        yield reported(f"hub.sh by {name}", (text, status) == (wanted, 0), text)
    hub = pathlib.Path(folder, "hub")
    text, status = shell(f"sh hub.sh {hub}", HUB, commands)
    kept = {path.name for path in hub.glob("site2/*")}
    yield reported("hub.sh keeps a folder",
                   (text, status) == (wanted, 0) and kept == {"journal", "in", "archive", "status"}, f"{kept}")
    faulty = pathlib.Path(folder, "faulty")
    faulty.write_text(FAULTY)
    faulty.chmod(0o755)
    for words, program, why in (("", faulty, "vector at site 2 ended with 3: fault 65"),
                                ("", "/nowhere", "there is no program /nowhere; SCT_SITES may name it"),
                                (hub, faulty, f"there is a {hub} already, or it cannot be made")):
        text, status = shell(f"sh hub.sh {words}", HUB, commands, SCT_SITES=str(program))
        yield reported(f"hub.sh stops: {why}", status == 2 and text.endswith(f"hub.sh: {why}\n"), text)


def main():
    program = harness.program()
    with tempfile.TemporaryDirectory() as folder:
        cases = [*command_lines(), *in_opposite_order(folder), *of_most_sites(folder), *compared(folder)]
        right = [harness.fits(program, one) for one in cases]
        right += hubs(folder, place(folder, program))
    harness.end_of(right)


if __name__ == "__main__":
    main()
