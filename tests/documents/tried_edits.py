"""tried_edits.py: the list of when the other edits were tried than those of the gate is of today's files, and pages
count all edits.

Each edit has one row, and each row an edit, unless it is in the list of those that the check `edits` tries. The sum of
a row is that of the edit and of src/ and specs/ of its crate as they are, unless the row says that the edit is to be
tried later. A line says how many are. tools/edits.py writes the list. What it reads of a made-up crate is compared
with what is there: the functions by which it tries edits, what they call, and what a sum rests on.
"""
from __future__ import annotations
import collections
import pathlib
import re
import tempfile
from typing import Iterator
from tests import harness
from tests.harness import CRATES, TOP, reported
from tools import edit_files

COUNTED = {"README.md": r"(\d+) wrong bodies that the prover must refuse",
           "docs/auditors/proved.md": r"The gate tries (\d+) of (\d+) edits"}
# a source of a made-up crate, and its functions as a check of rt names them
SOURCE = """\
impl<'a, S: Source<'a>> Source<'a> for Reading<S> {
    fn read(&mut self, most: usize) -> Result<usize, Failed>
        ensures fits { result ≤ most }
    {
        self.source.take(most)
    }
}

impl From<AllocError> for crate::fault::Fault {
    fn from(_: AllocError) -> Fault {
        Fault::Memory
    }
}

trait Files {
    fn open(&self);
}

impl Reading<u8> {
    pub(crate) const fn most() -> usize {
        once(70)
    }
}

fn once(n: usize) -> usize {
    n
}

pub type Name = Text<70>;
"""
NAMED = ["ReadingSource::read", "FaultFromAllocError::from", "Reading::most", "reads::parts::once"]
EDITS = {"in_a_method": ("        once(70)", "        once(71)", "Reading::most"),
         "in_no_function": ("Text<70>", "Text<71>", None)}


def write(path: pathlib.Path, text: str) -> None:
    path.parent.mkdir(parents=True, exist_ok=True)
    path.write_text(text, encoding="utf-8")


def made_up(top: pathlib.Path) -> Iterator[bool]:
    """Whether the tool finds the functions of a made-up crate, the function of each edit, what it calls, and what a sum
    rests on."""
    crate = top / "crates" / "made_up"
    write(crate / "src" / "reads" / "parts.rt", SOURCE)
    for name, (old, new, _) in EDITS.items():
        write(edit_files.path_of(top, "made_up", name),
              f"# An edit.\nfile: src/reads/parts.rt\nold: {old}\nnew: {new}\n")
    functions = edit_files.functions(top, "made_up")
    yield reported("functions have the names of a check", [one.path for one in functions] == NAMED, f"{functions}")
    found = {edit.name: edit_files.function_at(top, "made_up", edit.pairs[0])
             for edit in edit_files.of_crate(top, "made_up")}
    right = all((found[name].path if found[name] else None) == of for name, (_, _, of) in EDITS.items())
    yield reported("the function of an edit", right, f"{found}")
    yield reported("what a function calls",
                   (edit_files.calls(functions, "most"), edit_files.calls(functions, "once")) == ({"once"}, set()))
    sums: list[str] = []
    for part in ("src/reads/parts.rt", "proofs/Lib.antt", "specs/Lib.antt", "src/reads/parts.rt",
                 "must-fail/in_a_method.md"):
        write(crate / part, f"-- {part} {len(sums)}")
        sums.append(edit_files.sum_of(top, "made_up", "in_a_method"))
    yield reported("a sum rests on the edit, the code and the definitions",
                   [sums.index(one) for one in sums] == [0, 0, 2, 3, 4], f"{sums}")


def row_faults() -> list[str]:
    """What is wrong with the rows, one by one."""
    rows = edit_files.rows()
    edits = {(edit.crate, edit.name) for crate in edit_files.crates(TOP) for edit in edit_files.of_crate(TOP, crate)}
    in_gate = edit_files.in_gate(TOP)
    faults = [f"{crate}/{edit} is no edit for the gate to try" for crate, edit in sorted(set(in_gate) - edits)]
    faults += [f"{crate}/{edit} is twice in the list of the gate" for crate, edit in sorted(
        key for key, count in collections.Counter(in_gate).items() if count > 1)]
    edits -= set(in_gate)
    many = collections.Counter((row.crate, row.edit) for row in rows)
    faults += [f"{crate}/{edit} has {many[crate, edit]} rows" for crate, edit in sorted(edits)
               if many[crate, edit] != 1]
    faults += [f"{crate}/{edit} is no edit that the gate leaves out" for crate, edit in sorted(set(many) - edits)]
    old = [row for row in rows if (row.crate, row.edit) in edits and row.by != edit_files.LATER
           and not edit_files.is_of_today(row)]
    return faults + [
        f"{row.crate}/{row.edit} was tried before its crate changed: `tools/edits.py {row.crate}` tries it "
        "again, and with --later the list says that this is to be done" for row in old]


def is_counted(page: str, pattern: str) -> bool:
    """Whether a page counts the edits that the gate tries, and all edits, as they are."""
    by_rt, left = (len([*CRATES.glob(f"*/must-fail/*.{ending}")]) for ending in ("edit", "md"))
    tried = by_rt + len(edit_files.in_gate(TOP))
    found = re.search(pattern, " ".join((TOP / page).read_text(encoding="utf-8").split()))
    right = found is not None and [int(number) for number in found.groups()] == [tried,
                                                                                 by_rt + left][:len(found.groups())]
    return reported(f"the edits that {page} counts", right,
                    f"  {tried} are tried by the gate, {by_rt + left} are there")


def main() -> None:
    faults = row_faults()
    right = [reported("the list of the edits that were tried", not faults, "\n".join(f"  {fault}" for fault in faults))]
    right += [is_counted(page, pattern) for page, pattern in COUNTED.items()]
    late = sum(row.by == edit_files.LATER for row in edit_files.rows())
    print(f"{late} of {len(edit_files.rows())} edits were not tried since their crate changed")
    with tempfile.TemporaryDirectory() as folder:
        right += made_up(pathlib.Path(folder))
    harness.end_of(right)


if __name__ == "__main__":
    main()
