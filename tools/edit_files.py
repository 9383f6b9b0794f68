"""edit_files.py: the wrong bodies that `rt ci` leaves out, the functions in which they are, and the lists of them.

They are the files crates/NAME/must-fail/*.md. The check `edits` of the gate tries those of crates/edits-in-gate.txt, by
crate and name. The list of the others is crates/edits-tried.txt. A row has the crate, the edit, the day on which it was
tried, the toolchain, what was not proved then (the function of the edit, a caller of it, or another part of the crate),
and a sum of what that rests on: the edit and all files of src/ and specs/ of its crate. In place of what was not
proved, 'later' says that the edit was not tried since its crate changed. The sum is then that of the last try.
"""
from __future__ import annotations
import hashlib
import pathlib
import re
from typing import Iterator, NamedTuple

TOP = pathlib.Path(__file__).resolve().parents[1]
LIST = pathlib.Path("crates", "edits-tried.txt")
IN_GATE = pathlib.Path("crates", "edits-in-gate.txt")
LATER, NEVER = "later", "never"
TITLE = """\
# The edits that the gate leaves out, as tools/edits.py writes them: crate, edit, day of the last try, toolchain, what was not proved then,
# sum of the edit with src/ and specs/ of its crate. 'later': the edit was not tried since its crate changed.
"""


class Wrong(Exception):
    """Why an edit cannot be tried."""


# a line of a file as it is, and as the edit has it
class Pair(NamedTuple):
    file: str
    old: str
    new: str


class Edit(NamedTuple):
    crate: str
    name: str
    pairs: list[Pair]


# a function of a source: the end of its path as a check prints it, its name and its text. A method is below the module
# of its type, wherever it is written, so its path begins with the type
class Function(NamedTuple):
    path: str
    name: str
    text: str


class Row(NamedTuple):
    crate: str
    edit: str
    day: str
    toolchain: str
    by: str
    sum: str


# ---- edits

def path_of(top: pathlib.Path, crate: str, name: str) -> pathlib.Path:
    return top / "crates" / crate / "must-fail" / f"{name}.md"


def pairs_of(text: str) -> Iterator[Pair]:
    """The lines that an edit turns."""
    file = old = ""
    for line in text.splitlines():
        word, _, rest = line.partition(": ")
        if word == "file":
            file = rest
        elif word == "old":
            old = rest
        elif word == "new":
            yield Pair(file, old, rest)


def of_crate(top: pathlib.Path, crate: str) -> list[Edit]:
    """The edits of a crate that `rt ci` leaves out."""
    paths = sorted((top / "crates" / crate / "must-fail").glob("*.md"))
    return [Edit(crate, path.stem, list(pairs_of(path.read_text(encoding="utf-8")))) for path in paths]


def in_gate(top: pathlib.Path) -> list[tuple[str, str]]:
    """The edits that the check `edits` tries, each by its crate and its name."""
    lines = (top / IN_GATE).read_text(encoding="utf-8").splitlines()
    return [(crate, name) for crate, _, name in (line.partition(" ") for line in lines if not line.startswith("#"))]


def crates(top: pathlib.Path) -> list[str]:
    """The crates that have such edits, in the order of crates.txt."""
    named = re.findall(r"^(\w+)", (top / "crates.txt").read_text(encoding="utf-8"), re.M)
    return [crate for crate in named if of_crate(top, crate)]


def applied(top: pathlib.Path, edits: list[Edit]) -> dict[str, str]:
    """The texts of the files that some edits of a crate turn, by their paths in the crate."""
    texts: dict[str, str] = {}
    for edit, pair in ((edit, pair) for edit in edits for pair in edit.pairs):
        if pair.file not in texts:
            texts[pair.file] = (top / "crates" / edit.crate / pair.file).read_text(encoding="utf-8")
        if texts[pair.file].count(pair.old) != 1:
            raise Wrong(f"the line that it turns is not in {pair.file} once")
        texts[pair.file] = texts[pair.file].replace(pair.old, pair.new)
    return texts


def sum_of(top: pathlib.Path, crate: str, name: str) -> str:
    """The sum of what the refusal of an edit rests on."""
    folder = top / "crates" / crate
    sums = hashlib.sha256(path_of(top, crate, name).read_bytes())
    for path in sorted(path for part in ("src", "specs") for path in (folder / part).rglob("*") if path.is_file()):
        sums.update(f"\n{path.relative_to(folder).as_posix()}\n".encode() + path.read_bytes())
    return sums.hexdigest()[:16]


# ---- functions

HEAD = re.compile(r"^( *)(?:pub(?:\([a-z]+\))? )?(?:const |unsafe |extern \"C\" )*fn (\w+)", re.M)
OWNER = re.compile(r"^(impl|(?:pub(?:\([a-z]+\))? )?trait)\b(.*?)\{?$", re.M)
PARAMETERS = r"<(?:[^<>]|<[^<>]*>)*>"


def owner_name(head: str) -> str:
    """What a check calls what an `impl` is of: a type, or a type with the trait and the trait's parameters."""
    words = re.sub(rf"^{PARAMETERS}| where .*", "", head).strip()
    trait, found, of = words.partition(" for ")
    kind = re.sub(r"\W.*", "", re.sub(r"^&?(?:'\w+ )?(?:\w+::)*", "", of if found else words))
    return kind + re.sub(r"'\w+|\w+::|\W", "", trait) if found else kind


def module_of(file: str) -> str:
    """The module that a file below src/ is, as a path of a check has it."""
    return "::".join(part for part in pathlib.PurePath(file).with_suffix("").parts[1:]
                     if part not in ("lib", "main", "mod"))


def functions_of(text: str, file: str) -> Iterator[Function]:
    """The functions of a source, in the layout of `rt fmt`, but for those of a trait itself."""
    owners = [*OWNER.finditer(text)]
    for head in HEAD.finditer(text):
        end = re.compile(rf"^{head.group(1)}}}$", re.M).search(text, head.end())
        above = [owner for owner in owners if owner.start() < head.start()][-1:] if head.group(1) else []
        if not any(owner.group(1) != "impl" for owner in above):
            begin = owner_name(above[0].group(2)) if above else module_of(file)
            yield Function(f"{begin}::{head.group(2)}".lstrip(":"), head.group(2),
                           text[head.start():end.end() if end else len(text)])


def functions(top: pathlib.Path, crate: str) -> list[Function]:
    """The functions of a crate."""
    folder = top / "crates" / crate
    paths = sorted((folder / "src").rglob("*.rt"))
    return [one for path in paths for one in functions_of(path.read_text(encoding="utf-8"),
                                                          path.relative_to(folder).as_posix())]


def function_at(top: pathlib.Path, crate: str, pair: Pair) -> Function | None:
    """The function in which an edit turns a line, or None."""
    text = (top / "crates" / crate / pair.file).read_text(encoding="utf-8")
    around = sorted((one for one in functions_of(text, pair.file) if pair.old in one.text),
                    key=lambda one: len(one.text))
    return around[0] if around else None


def calls(all_functions: list[Function], name: str) -> set[str]:
    """The names of the functions that those of a name may call, and what these may call, by the words in their
    texts."""
    words: dict[str, set[str]] = {}
    for one in all_functions:
        words.setdefault(one.name, set()).update(re.findall(r"\w+", one.text.partition("\n")[2]))
    found: set[str] = set()
    left = [name]
    while left:
        new = (words.get(left.pop(), set()) & set(words)) - found
        found |= new
        left += new
    return found


# ---- the list

def rows(top: pathlib.Path = TOP) -> list[Row]:
    """The rows of the list."""
    path = top / LIST
    lines = path.read_text(encoding="utf-8").splitlines() if path.is_file() else []
    return [Row(*line.split(" ")) for line in lines if line and not line.startswith("#")]


def write(new: list[Row], top: pathlib.Path = TOP) -> None:
    """Puts rows into the list, each in place of those of its edit, and leaves out those of edits that are gone."""
    kept = {(row.crate, row.edit): row for row in [*rows(top), *new]}
    left = [kept[key] for key in sorted(kept) if path_of(top, *key).is_file() and key not in in_gate(top)]
    (top / LIST).write_text(TITLE + "".join(" ".join(row) + "\n" for row in left), encoding="utf-8")


def is_of_today(row: Row, top: pathlib.Path = TOP) -> bool:
    """Whether an edit was tried since its files changed."""
    return row.by != LATER and path_of(top, row.crate, row.edit).is_file() and row.sum == sum_of(top, row.crate,
                                                                                                 row.edit)
