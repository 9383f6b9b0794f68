"""manifest.py: the files of a backup: a copy of the journal, a copy of the record with what waits, and a manifest,
which has the sum of each.

Their names are FILE, FILE.record and FILE.manifest. A manifest is JSON: when the backup was made, of which site, its
vector, its digests, the last row of the record, how many lines wait, the bytes and the SHA-256 of each file, and the
marks of a halt and of a closed group. A journal without a record has a backup without one.
"""
from __future__ import annotations
import hashlib
import json
import os
import pathlib
from typing import Any
from . import audit, chain, limits
from .files import Files, Wrong

RECORD, MANIFEST = ".record", ".manifest"  # what the names of the other files end in
MARKS = ("halted", "closed", "forked")  # why a site took no messages, or none of an origin


def named(copy: pathlib.Path, end: str) -> pathlib.Path:
    """Another file of the backup whose journal is at a path."""
    return copy.with_name(f"{copy.name}{end}")


def summed(path: pathlib.Path) -> dict[str, int | str]:
    """The size and the sum of a file."""
    size, its = 0, hashlib.sha256()
    with open(path, "rb") as file:
        for piece in iter(lambda: file.read(limits.FILE_PIECE_BYTES), b""):
            its.update(piece)
            size += len(piece)
    return {"bytes": size, "sha256": its.hexdigest()}


def made(files: Files, vector: str, digests: list[str], journal: dict[str, int | str], its_record: pathlib.Path,
         has: dict[str, Any] | None) -> dict[str, Any]:
    """What the manifest of a backup says. `has` is what the copy of the record has, or None without one."""
    marks = {name: text for name, text in files.marks().items() if text}
    its = {"at": chain.utc(), "site": files.site, "group": files.group, "vector": vector, "digests": digests, **marks,
           "journal": journal}
    return its if has is None else {**its, "record": {**summed(its_record), **has}}


def put(its: dict[str, Any], path: pathlib.Path) -> None:
    with open(path, "w", encoding="ascii") as file:
        file.write(json.dumps(its, indent=1) + "\n")
        file.flush()
        os.fsync(file.fileno())


def read(copy: pathlib.Path) -> dict[str, Any] | None:
    """What the manifest of a copy says. None if it is a journal alone. Wrong if the manifest is missing, or is none."""
    path = named(copy, MANIFEST)
    try:
        its = json.loads(path.read_text(encoding="ascii"))
        if not all(isinstance(its[name], dict) for name in ("journal", "record") if name in its or name == "journal"):
            raise ValueError
        if not all(isinstance(its.get(name, ""), str) for name in MARKS) or not isinstance(its.get("digests", []),
                                                                                           list):
            raise ValueError
        return dict(its)
    except FileNotFoundError:
        if named(copy, RECORD).exists():
            raise Wrong(f"the backup {copy} is not complete: there is no {path}") from None
        return None
    except (ValueError, KeyError, TypeError):
        raise Wrong(f"{path} is no manifest of a backup") from None


def faults(copy: pathlib.Path, its: dict[str, Any] | None) -> list[str]:
    """What is wrong with the files of a backup, by its manifest."""
    wrong = []
    for name, path in ("journal", copy), ("record", named(copy, RECORD)):
        if its and name in its:
            found = summed(path) if path.is_file() else {}
            if any(found.get(what) != its[name].get(what) for what in ("bytes", "sha256")):
                wrong.append(f"{path} is not the file that the manifest names" if found
                             else f"there is no {path}, which the manifest names")
    return wrong


def texts(its: dict[str, Any] | None) -> list[str]:
    """What is printed of the record of a backup, and of a site that takes no messages."""
    has = ([f"record {its['record'].get('last')}, lines that wait {its['record'].get('waiting')}"] if its
           and "record" in its else [])
    return has + [f"{name}: {line}" for name in MARKS if its and name in its for line in its[name].splitlines()]


def audited(files: Files, copy: pathlib.Path, its: dict[str, Any] | None) -> list[str]:
    """How the copy of a record does not fit itself or the copy of the journal. `files` are those of that journal."""
    if not its or "record" not in its:
        return []
    report, _ = audit.audited(named(copy, RECORD), files.site, files.group, files.own_lines)
    return [line for line in report if line.startswith("WRONG: ")]
