#!/usr/bin/env python3
"""edits.py: has the prover try the wrong bodies that `rt ci` leaves out, and writes down which it refused.

Usage: tools/edits.py [--later | --gate] [CRATE..]

`rt ci` tries the files crates/NAME/must-fail/*.edit. The files *.md beside them have the same form. This script tries
those of some crates, or without a name those that were not tried since their crate changed, and writes
crates/edits-tried.txt (edit_files.py). With --gate it tries those of crates/edits-in-gate.txt, over libraries that
`rt ci` has just proved, and writes nothing: the check `edits` of the gate does so.

It works on a copy of the crates, over the libraries that this clone has or that `rt ci` kept. What is missing is proved
first, but not with --gate. `rt check --only` must prove the functions as they are, which `rt ci` has done before
--gate, and then refuse each with its edit. Edits in functions that do not call each other are tried at once, since its
own body and the contracts of what it calls decide about a function. If the function of an edit is proved all the same,
its callers in the crate are tried, and then the crate (`rt must-fail`). An edit that is still proved or is not compiled
has failed.

With --later nothing is tried, and the list says so. The last line is 'N passed, M failed'. The exit status is 0 if none
failed.
"""
from __future__ import annotations
import argparse
import contextlib
import datetime
import pathlib
import re
import shutil
import subprocess
import sys
import tempfile
from typing import Iterator, NamedTuple
sys.path.insert(0, str(pathlib.Path(__file__).resolve().parents[1]))
from tools import edit_files, kept
from tools.edit_files import TOP, Edit, Function, Row, Wrong

# the methods that code calls without their names: operators, loops, formats, and the ends of values
UNNAMED = set("""add add_assign as_ref borrow call call_mut call_once clone cmp copy default deref deref_mut div drop
                 eq fmt from ge gt hash index index_mut into into_iter le lt mul ne neg next not
                 partial_cmp rem sub sub_assign""".split())
NO_FUNCTION = re.compile(r"(?:has no function|several functions are named) `([^`]+)`")


# a copy of the crates in which edits of one crate are tried, the functions of that crate, and whether they were proved
# as they are
class Bench(NamedTuple):
    top: pathlib.Path
    crate: str
    functions: list[Function]
    is_proved: bool

    def folder(self) -> pathlib.Path:
        return self.top / "crates" / self.crate


# an edit with the paths of the functions that are checked with it
class Try(NamedTuple):
    edit: Edit
    paths: list[str]


# ---- what the prover says

def said_of(words: list[str], folder: pathlib.Path) -> tuple[int, str]:
    """The status that a command ends with, and what it prints."""
    done = subprocess.run(words, cwd=folder, stdin=subprocess.DEVNULL, stdout=subprocess.PIPE,
                          stderr=subprocess.STDOUT, text=True,
                          errors="replace")
    return done.returncode, done.stdout


@contextlib.contextmanager
def changed(bench: Bench, edits: list[Edit]) -> Iterator[None]:
    """The copy of the crate with some edits in it."""
    texts = edit_files.applied(bench.top, edits)
    before = {bench.folder() / file: (bench.folder() / file).read_text(encoding="utf-8") for file in texts}
    try:
        for file, text in texts.items():
            (bench.folder() / file).write_text(text, encoding="utf-8")
        yield
    finally:
        for path, text in before.items():
            path.write_text(text, encoding="utf-8")


def checked(bench: Bench, tries: list[Try]) -> tuple[int, str]:
    """The status and the output of a check of all functions of some tries."""
    paths = sorted({path for one in tries for path in one.paths})
    return said_of(["rt", "check", "--jobs", "1", *(word for path in paths for word in ("--only", path))],
                   bench.folder())


def proved(bench: Bench, tries: list[Try]) -> list[Try]:
    """The tries, of which all functions are proved as they are. What their proofs cite is kept for the next checks. A
    function that the prover does not know by its path, or not alone, is left out, and a try that has no other."""
    if bench.is_proved:
        return tries
    status, said = checked(bench, tries)
    unknown = NO_FUNCTION.search(said)
    if unknown:
        left = [one._replace(paths=[path for path in one.paths if path != unknown.group(1)]) for one in tries]
        return proved(bench, [one for one in left if one.paths])
    if status:
        raise Wrong(f"the crate as it is: `rt check` ended with status {status}\n{said[-2000:]}")
    return tries


def refused_at_once(bench: Bench, tries: list[Try]) -> list[Edit]:
    """Those of some edits with which a function is not proved. All are in the copy at once."""
    if not tries:
        return []
    with changed(bench, [one.edit for one in tries]):
        status, said = checked(bench, tries)
    if re.search(r"^only=\d+ proved=\d+$", said, re.M) is None:
        if len(tries) > 1:
            return [edit for one in tries for edit in refused_at_once(bench, [one])]
        raise Wrong(
            f"{tries[0].edit.name}: it is not compiled, or the prover gave up with status {status}\n{said[-2000:]}")
    open_ones = re.findall(r"^fn (\S+): (?:not proved|no proof)\b", said, re.M)
    return [one.edit for one in tries if any(name.endswith(f"::{path}") for name in open_ones for path in one.paths)]


def refused_by_crate(bench: Bench, edit: Edit) -> bool:
    """Whether the prover refuses the crate with an edit."""
    alone = bench.folder() / "must-fail" / f"{edit.name}.edit"
    for other in alone.parent.glob("*.edit"):
        other.unlink()
    shutil.copy(edit_files.path_of(bench.top, edit.crate, edit.name), alone)
    status, said = said_of(["rt", "must-fail", bench.crate], bench.top)
    print(said, end="", flush=True)
    return status == 0


# ---- which edits are tried how

def at_functions(bench: Bench, edit: Edit) -> list[Function]:
    """The functions in which an edit turns lines. Empty if one line is in none."""
    found = [edit_files.function_at(bench.top, bench.crate, pair) for pair in edit.pairs]
    return [one for one in found if one] if all(found) else []


def at_callers(bench: Bench, edit: Edit) -> list[Function]:
    """The functions of the crate that may call those of an edit, by the words in their texts."""
    ones = at_functions(bench, edit)
    words = re.compile("|".join(rf"\b{one.name}\b" for one in ones) or "$^")
    return [one for one in bench.functions if one not in ones and words.search(one.text.partition("\n")[2])]


def are_apart(bench: Bench, ones: list[Function], others: list[Function]) -> bool:
    """Whether no function of two lists is or calls one of the other, so that each is proved or not whatever the other's
    body."""
    for some, these in (ones, others), (others, ones):
        reached = {name for one in some for name in (one.name, *edit_files.calls(bench.functions, one.name))}
        if any(one.name in reached or one.name in UNNAMED for one in these):
            return False
    return True


def groups(bench: Bench, edits: list[Edit]) -> list[list[Edit]]:
    """The edits in groups that are tried at once."""
    found: list[list[Edit]] = []
    for edit in edits:
        ones = at_functions(bench, edit)
        fit = [group for group in found if all(are_apart(bench, ones, at_functions(bench, other)) for other in group)]
        if not fit:
            found.append([])
        (fit or found)[-1].append(edit)
    return found


def refused_at_functions(bench: Bench, edits: list[Edit]) -> Iterator[tuple[Edit, str]]:
    """The edits with which their own function is not proved."""
    placed = [edit for edit in edits if at_functions(bench, edit)]
    tries = [Try(edit, [one.path for one in at_functions(bench, edit)]) for edit in placed]
    known = {one.edit.name: one for one in (proved(bench, tries) if tries else [])}
    for group in groups(bench, [one.edit for one in known.values()]):
        for edit in refused_at_once(bench, [known[edit.name] for edit in group]):
            yield edit, "function"


def refused_above(bench: Bench, edits: list[Edit]) -> Iterator[tuple[Edit, str]]:
    """The edits with which a caller of their function, or another part of the crate, is not proved."""
    for edit in edits:
        paths = [caller.path for caller in at_callers(bench, edit)]
        if paths and refused_at_once(bench, proved(bench, [Try(edit, paths)])):
            yield edit, "caller"
        elif refused_by_crate(bench, edit):
            yield edit, "crate"


# ---- one crate

def all_but_libraries(folder: str, names: list[str]) -> list[str]:
    """What a copy of a crate leaves out: of what was made, all but its library."""
    return [name for name in names if name != "rlib"] if pathlib.Path(folder).name == "out" else []


@contextlib.contextmanager
def bench_of(crate: str, is_proved: bool) -> Iterator[Bench]:
    """A copy of a crate and of those below it, with the libraries that this clone has or `rt ci` kept."""
    with tempfile.TemporaryDirectory(prefix="edits-") as folder:
        top, lines = pathlib.Path(folder), kept.lines_of(crate)
        for name in lines:
            shutil.copytree(TOP / "crates" / name, top / "crates" / name, ignore=all_but_libraries)
        (top / "crates.txt").write_text("".join(f"{line}\n" for line in lines.values()), encoding="utf-8")
        shutil.copy(TOP / "HANDLES", top / "HANDLES")
        is_known = kept.is_proved(top / "crates" / crate)
        are_there = kept.prepare(crate, shutil.which("rt") or "rt", top)
        if is_proved and not (is_known and are_there):
            raise Wrong("it and the crates below are not all proved in this clone: run `rt ci` before")
        yield Bench(top, crate, edit_files.functions(top, crate), is_proved)


def note(top: pathlib.Path, edit: Edit, by: str) -> None:
    """Writes that an edit was tried today, as its files in the copy are."""
    day, toolchain = datetime.date.today().isoformat(), said_of(["rt", "version"], top)[1].split()[0]
    edit_files.write([Row(edit.crate, edit.name, day, toolchain, by, edit_files.sum_of(top, edit.crate, edit.name))])


def tried(crate: str, names: list[str], is_gate: bool) -> list[str]:
    """Tries edits of a crate, and returns the names of those that were not refused."""
    left = {edit.name: edit for edit in edit_files.of_crate(TOP, crate) if edit.name in names}
    try:
        with bench_of(crate, is_gate) as bench:
            for how in refused_at_functions, refused_above:
                for edit, by in how(bench, [*left.values()]):
                    if not is_gate:
                        note(bench.top, edit, by)
                    print(f"{edit.crate}/{edit.name}: refused ({by})", flush=True)
                    del left[edit.name]
    except Wrong as why:
        print(f"{crate}: {why}", flush=True)
    return [*left]


def later(crate: str, names: list[str]) -> list[str]:
    """Writes that edits of a crate were not tried since it changed. Each keeps the day on which it was tried last."""
    before = {row.edit: row for row in edit_files.rows() if row.crate == crate}
    never = Row(crate, "", *[edit_files.NEVER] * 4)
    edit_files.write([before.get(name, never)._replace(edit=name, by=edit_files.LATER) for name in names])
    return []


def of_list(crate: str, is_gate: bool) -> list[str]:
    """The edits of a crate that the check `edits` tries, or the others."""
    in_gate = [name for of, name in edit_files.in_gate(TOP) if of == crate]
    return [edit.name for edit in edit_files.of_crate(TOP, crate) if (edit.name in in_gate) == is_gate]


def left_in(crate: str) -> list[str]:
    """The edits of a crate that were not tried since it changed."""
    done = {row.edit for row in edit_files.rows() if row.crate == crate and edit_files.is_of_today(row)}
    return [name for name in of_list(crate, False) if name not in done]


def main() -> None:
    parser = argparse.ArgumentParser(description=__doc__, formatter_class=argparse.RawDescriptionHelpFormatter)
    how = parser.add_mutually_exclusive_group()
    how.add_argument("--later", action="store_true", help="try nothing, and write that the edits are to be tried later")
    how.add_argument("--gate", action="store_true", help="try those of the gate, over what `rt ci` proved")
    parser.add_argument("crates", nargs="*", metavar="CRATE")
    asked = parser.parse_args()
    known = edit_files.crates(TOP)
    unknown = [crate for crate in asked.crates if crate not in known]
    if unknown:
        sys.exit(f"edits: no such edits has {', '.join(unknown)}; {', '.join(known)} have some")
    passed = failed = 0
    for crate in asked.crates or known:
        names = of_list(crate, asked.gate) if asked.gate or asked.crates and not asked.later else left_in(crate)
        missed = (later(crate, names) if asked.later else tried(crate, names, asked.gate)) if names else []
        for name in missed:
            print(f"{crate}/{name}: NOT REFUSED", flush=True)
        passed, failed = passed + len(names) - len(missed), failed + len(missed)
    print(f"{passed} passed, {failed} failed")
    sys.exit(1 if failed else 0)


if __name__ == "__main__":
    main()
