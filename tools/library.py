"""library.py: makes libniluppang.a and libniluppang.so of the static library of crates/sct_c.

Usage: python3 tools/library.py FOLDER

The archive has one object: the library, and the code of the toolchain that calls malloc, realloc and free. So a program
needs nothing but the C library. The shared library is made of it. Both give away `sct_version` and the names that begin
with `sct_raw_`, and no other. In the shared library these names have the version of the interface, such as
NILUPPANG_0.3. The same inputs make the same bytes. It needs gcc and binutils. `rt lib` makes the static library first,
if it is not there or not of these sources (kept.py). The variable SCT_C names another one.
"""
from __future__ import annotations
import os
import pathlib
import shutil
import subprocess
import sys
import tempfile
from typing import Any
sys.path.insert(0, str(pathlib.Path(__file__).resolve().parents[1]))
from tools import kept

TOP = kept.TOP
VERSION = (TOP / "VERSION").read_text(encoding="utf-8").strip()
INTERFACE = ".".join(VERSION.split(".")[:2])
SONAME = f"libniluppang.so.{INTERFACE}"
NAMES = ["sct_version", "sct_raw_*"]
EXPORTS = f"NILUPPANG_{INTERFACE} {{ global: {'; '.join(NAMES)}; local: *; }};\n"
NEEDED = ["gcc", "ld", "objcopy", "ar"]


def pkg_config(prefix: str, libraries: str) -> str:
    """What pkg-config reads of the library, for a prefix and the folder of libraries below it."""
    lines = [f"prefix={prefix}", f"libdir=${{prefix}}/{libraries}",
             "includedir=${prefix}/include", "", "Name: niluppang",
             "Description: The proved site of a clearing hub for SEPA Instant Credit Transfers", f"Version: {VERSION}",
             "Libs: -L${libdir} -lniluppang", "Cflags: -I${includedir}"]
    return "\n".join(lines) + "\n"


class Missing(Exception):
    """Something is not there that the libraries are made of."""


def static_library(proves: bool = True) -> Any:
    """The static library of sct_c. If it may not prove anything, it is there or is made of what `rt ci` kept."""
    named = os.environ.get("SCT_C")
    if named and not pathlib.Path(named).is_file():
        raise Missing(f"there is no static library {named}, which SCT_C names")
    why = None if named else kept.make(proves)
    if why:
        raise Missing(f"the static library is not made: {why}")
    return pathlib.Path(named or kept.BUILT)


def toolchain() -> pathlib.Path:
    """The folder of the toolchain, which has the code that allocates."""
    rt = shutil.which("rt")
    if rt is None:
        raise Missing("there is no command rt on this machine: its folder has the code that allocates")
    return pathlib.Path(rt).resolve().parents[1]


def allocation() -> Any:
    """The archive of the toolchain with the code that calls malloc, realloc and free."""
    path = toolchain() / "c" / "liblibc_c.a"
    if not path.is_file():
        raise Missing(f"there is no {path} in the toolchain")
    return path


def parts(proves: bool = True) -> Any:
    """The archives that the library is made of. Fails with what is missing."""
    for name in NEEDED:
        if shutil.which(name) is None:
            raise Missing(f"there is no command {name} on this machine: apt-get install gcc")
    return static_library(proves), allocation()


def check_there(proves: bool = True) -> None:
    """Fails with what is missing."""
    with kept.alone():
        parts(proves)


def run(*words: Any, folder: Any) -> None:
    subprocess.run(list(map(str, words)), check=True, cwd=folder)


def make_archive(folder: str, proves: bool = True) -> Any:
    """Makes libniluppang.a in a folder."""
    with kept.alone(), tempfile.TemporaryDirectory() as place:
        library, heap = parts(proves)
        run("ld", "-r", "-z", "noexecstack", "-o", "niluppang.o", "--whole-archive", library.resolve(), heap,
            folder=place)
        kept_names = [f"--keep-global-symbol={name}" for name in NAMES]
        run("objcopy", "--enable-deterministic-archives", "--strip-debug", "--wildcard", *kept_names, "niluppang.o",
            folder=place)
        run("ar", "rcsD", "libniluppang.a", "niluppang.o", folder=place)
        shutil.copy(pathlib.Path(place, "libniluppang.a"), folder)
    return pathlib.Path(folder, "libniluppang.a")


def make_shared(folder: Any) -> Any:
    """Makes libniluppang.so in a folder, with its name for programs that load it, of the archive there."""
    with tempfile.TemporaryDirectory() as place:
        exports = pathlib.Path(place, "exports")
        exports.write_text(EXPORTS)
        run("gcc", "-shared", "-o", SONAME, f"-Wl,-soname,{SONAME}", f"-Wl,--version-script={exports}",
            "-Wl,-z,defs", "-Wl,-z,relro",
            "-Wl,-z,now", "-Wl,-z,noexecstack", "-Wl,--whole-archive", "libniluppang.a", "-Wl,--no-whole-archive",
            folder=folder)
    link = pathlib.Path(folder, "libniluppang.so")
    link.unlink(missing_ok=True)
    link.symlink_to(SONAME)
    return link


def make(folder: Any) -> None:
    """Makes both libraries in a folder."""
    make_archive(folder)
    make_shared(folder)


def main() -> None:
    if len(sys.argv) != 2:
        sys.exit(__doc__)
    folder = pathlib.Path(sys.argv[1])
    folder.mkdir(parents=True, exist_ok=True)
    try:
        make(folder.resolve())
    except Missing as missing:
        sys.exit(f"library: {missing}")
    print(f"{folder}/libniluppang.a and {folder}/libniluppang.so")


if __name__ == "__main__":
    main()
