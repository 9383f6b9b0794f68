"""sources.py: the names in the code: files, functions with their clauses, definitions, edits, and the words of tests
and examples."""
from __future__ import annotations
import collections
import functools
import pathlib
import re
from typing import Iterator, NamedTuple
from tests.harness import CRATES, TOP


# A function, with the type and the trait of its `impl` or None, the names of its clauses, None for one without a name,
# and whether its body does nothing. The ghost members of an `impl`, and the ghost fields of a type, make up one that
# has no name.
class Function(NamedTuple):
    name: str | None
    type: str | None
    trait: str | None
    file: str
    clauses: list[str | None]
    is_law: bool


HEAD = re.compile(r"( *)(?:pub(?:\([a-z]+\))? )?(?:const |unsafe |extern \"C\" )*fn (\w+)")
OWNER = re.compile(r"(?:pub(?:\([a-z]+\))? )?(impl|trait)\b(?:<(?:[^<>]|<[^<>]*>)*>)? +(.*?)(?: where .*)?\{?$")
CLAUSE = re.compile(r" +ensures(?: (\w+))? \{")
STRUCT = re.compile(r"(?:pub(?:\([a-z]+\))? )?struct (\w+).* \{$")
MEMBER = re.compile(r" +ghost (\w+)(?:\b.* ?= ?\{|: \{)")
DERIVED = re.compile(r"#\[derive\((.*)\)\]")

# what a source or a file of definitions gives a name to, and the texts of a source, which name keys of formats
OF_SOURCE = re.compile(r"\b(?:fn|struct|enum|trait|type|const|static|mod|impl|ensures|requires|ghost) +(\w+)"
                       r"|^ +(?:pub(?:\([a-z]+\))? )?(\w+):|^ +([A-Z]\w*)(?:,$|\(| \{)|\"((?:[^\"\\\n]|\\.)*)\"",
                       re.MULTILINE)
OF_DEFINITIONS = re.compile(r"^ *(?:(?:abbrev|unfoldable|data|record|pub|mutual) )*(\w+)(?: [({]| :|$)", re.MULTILINE)


def base(name: str) -> str:
    """A type without its reference, its path and its parameters."""
    return re.sub(r"<.*", "", name.strip().lstrip("&")).split("::")[-1].strip()


def owner_of(line: str) -> tuple[str, str | None]:
    """The type and the trait of an `impl`. A `trait` is a type here."""
    word, rest = OWNER.findall(line)[0]
    trait, found, of = rest.partition(" for ")
    return (base(of), trait.strip()) if found and word == "impl" else (base(rest.split(":")[0] if word == "trait"
                                                                            else rest), None)


def clauses_of(lines: list[str], indent: str) -> tuple[list[str | None], bool]:
    """The names of the clauses of the function that begins with these lines, and whether its body does nothing but call
    laws."""
    clauses = []
    for place, line in enumerate(lines):
        clause = CLAUSE.match(line)
        if clause:
            clauses.append(clause.group(1))
        if line == indent + "{":
            body = lines[place + 1:lines.index(indent + "}", place)]
            return clauses, all(re.fullmatch(r" +(?:let \w+ = )?[\w:.]+\(.*\);", inner) for inner in body)
        is_word = re.match(r" +(?:ensures|requires|ghost)\b", line)
        if line.endswith("};") or (line.endswith((" {", ";")) and not is_word):
            return clauses, False
        if line.endswith("{}"):
            return clauses, True
    return clauses, False


def functions_of(path: pathlib.Path, file: str) -> Iterator[Function]:
    """The functions of a source."""
    lines = path.read_text().splitlines()
    owner: tuple[str | None, str | None] = (None, None)
    members: dict[tuple[str | None, str | None], list[str | None]] = collections.defaultdict(list)
    for place, line in enumerate(lines):
        struct = STRUCT.match(line)
        if OWNER.match(line):
            owner = owner_of(line)
        elif struct:
            owner = (struct.group(1), None)
        elif line == "}":
            owner = (None, None)
        derived, member, head = DERIVED.match(line), MEMBER.match(line), HEAD.match(line)
        if derived:
            for trait in derived.group(1).split(", "):
                members[None, trait] += []
        if member and owner[0]:
            members[owner].append(member.group(1))
        if head:
            kind, trait = owner if head.group(1) else (None, None)
            yield Function(head.group(2), kind, trait, file, *clauses_of(lines[place:], head.group(1)))
    for (kind, trait), names in members.items():
        yield Function(None, kind, trait, file, names, False)


@functools.lru_cache(maxsize=None)
def names() -> list[str]:
    """The names of the crates."""
    return sorted(path.name for path in CRATES.iterdir() if (path / "src").is_dir())


@functools.lru_cache(maxsize=None)
def files(crate: str) -> dict[str, pathlib.Path]:
    """The sources of a crate, by their paths below its src/."""
    top = CRATES / crate / "src"
    return {path.relative_to(top).as_posix(): path for path in sorted(top.rglob("*.rt"))}


@functools.lru_cache(maxsize=None)
def written(crate: str) -> list[Function]:
    """The functions of a crate as they are written, each with its file from crates/ on."""
    return [function for file, path in files(crate).items() for function in functions_of(path, f"{crate}/src/{file}")]


@functools.lru_cache(maxsize=None)
def functions(crate: str) -> list[Function]:
    """The functions of a crate. One of a trait without clauses of its own has those of the trait, if that is of the
    crate."""
    of_trait = {(one.type, one.name): one.clauses for one in written(crate) if one.name and not one.trait}
    return [one._replace(clauses=one.clauses or of_trait.get((base(one.trait or ""), one.name or ""), []))
            for one in written(crate)]


@functools.lru_cache(maxsize=None)
def edits(crate: str) -> set[str]:
    """The names of the edits of a crate."""
    return {path.stem for path in (CRATES / crate / "must-fail").iterdir()} if (CRATES / crate
                                                                                / "must-fail").is_dir() else set()


@functools.lru_cache(maxsize=None)
def declared(path: pathlib.Path) -> set[str]:
    """What a source or a file of definitions gives a name to, and the words of the texts of a source."""
    if path.suffix == ".antt":
        return set(OF_DEFINITIONS.findall(path.read_text()))
    return set(re.findall(r"\w+", " ".join(map(" ".join, OF_SOURCE.findall(path.read_text())))))


@functools.lru_cache(maxsize=None)
def defined(crate: str) -> set[str]:
    """What has a name in a crate: its files and edits, and what these declare."""
    found = {crate, *edits(crate)}
    paths = [path for folder in ("specs", "proofs") for path in (CRATES / crate / folder).rglob("*.antt")]
    for path in [*files(crate).values(), *paths]:
        found.add(path.stem)
        found |= declared(path)
    return found


def rests_on(paths: list[pathlib.Path]) -> set[pathlib.Path]:
    """Some files of definitions with all files of definitions that they use."""
    found, left = set(), list(paths)
    while left:
        path = left.pop()
        if path not in found and path.is_file():
            found.add(path)
            used = re.findall(r"^(?:pub )?use Rattle\.(sct_\w+)\.specs\.(\w+)", path.read_text(), re.M)
            left += [CRATES / crate / "specs" / f"{name}.antt" for crate, name in used]
    return found


@functools.lru_cache(maxsize=None)
def everywhere() -> set[str]:
    """What has a name in any crate, and the words of crates.txt, of the tests but for this check, of the benches, of
    the examples, and of the header, the packages and the tools."""
    found = set(re.findall(r"\w+", (TOP / "crates.txt").read_text()))
    for crate in names():
        found |= defined(crate)
    for path in (path for folder in ("tests", "bench", "examples", "services", "include", "bindings", "tools")
                 for path in (TOP / folder).rglob("*")):
        if path.is_file() and path.suffix not in (".md", ".pyc") and path != TOP / "tests" / "documents" / "names.py":
            found.add(path.stem)
            found.update(re.findall(r"\w+", path.read_text(errors="replace")))
    return found
