"""kept.py: has `rt check` and `rt lib` work over the libraries that `rt ci` proved on this machine.

Usage: tools/kept.py CRATE..

The libraries below some crates are put where `rt check` and `rt lib` look for them. A line says whether all are there:
what is missing, these commands prove.

`rt ci` checks a static library and builds none, and `rt lib` takes no library of `rt ci` by itself: it would prove all
crates below again, which takes most of an hour. So the libraries that the gate proved and kept are put where `rt lib`
looks for them, each under the key by which `rt ci` itself finds it again: the sum of its sources, of its line in
crates.txt and of the libraries below it. An older toolchain keeps nothing, and leaves what it proved in the folders of
the crates without that key: such a library gets its key if it is newer than all that it is made of. What was not kept,
`rt lib` proves. It proves the static library in each case. The page is made of the same static library, for WebAssembly
(web/build).
"""
from __future__ import annotations
import contextlib
import fcntl
import hashlib
import importlib.machinery
import importlib.util
import io
import os
import pathlib
import shutil
import subprocess
import sys
import types
from typing import Any, Iterator

TOP = pathlib.Path(__file__).resolve().parents[1]
CRATE = TOP / "crates" / "sct_c"
BUILT = CRATE / "out" / "libsct_c.a"


@contextlib.contextmanager
def alone() -> Iterator[None]:
    """As long as it lasts, no other process makes or reads a static library of this clone: checks run side by side."""
    folder = os.open(TOP / "crates", os.O_RDONLY)
    try:
        fcntl.flock(folder, fcntl.LOCK_EX)
        yield
    finally:
        os.close(folder)


def lines_of(name: str) -> dict[str, str]:
    """The line of crates.txt of a crate, and of each crate below it, by name."""
    lines = {line.split()[0].rstrip(":"): line for line in (TOP / "crates.txt").read_text(encoding="utf-8").splitlines()
             if ":" in line}
    found, left = {}, [name]
    while left:
        crate = left.pop()
        if crate in lines and crate not in found:
            found[crate] = lines[crate]
            left += lines[crate].split(":")[1].split()
    return found


def sources(name: str) -> str:
    """A sum of all that the static library of a crate is made of: the lines of crates.txt and the files of that crate
    and those below."""
    lines = lines_of(name)
    sums = hashlib.sha256(repr(sorted(lines.items())).encode())
    for crate in sorted(lines):
        for path in sorted(path for part in ("src", "specs", "proofs")
                           for path in TOP.glob(f"crates/{crate}/{part}/**/*") if path.is_file()):
            sums.update(f"{path.relative_to(TOP)} ".encode() + path.read_bytes())
    return sums.hexdigest()


def module_of(rt: str) -> types.ModuleType:
    """The command rt as a module, for its own names of what it kept."""
    sys.path.insert(0, str(pathlib.Path(rt).resolve().parent))
    loader = importlib.machinery.SourceFileLoader("rt", str(pathlib.Path(rt).resolve()))
    spec = importlib.util.spec_from_loader("rt", loader)
    if spec is None:
        raise ImportError(f"{rt} is no module")
    module = importlib.util.module_from_spec(spec)
    loader.exec_module(module)
    return module


def take(module: types.ModuleType, kept: Any, crate: Any) -> bool:
    """Puts a library that was kept where `rt lib` looks for it. Returns whether it is there."""
    if any(below.name not in kept.rlibs for below in crate.below()):
        return False
    if not os.path.isdir(kept.place(crate, False, kept.key(crate))):
        return False
    shutil.rmtree(f"{crate.folder}/out/rlib", ignore_errors=True)
    if not kept.give(crate, False, kept.key(crate)):
        return False
    pathlib.Path(crate.folder, "out", "rlib", "stamp").write_text(crate.stamp(), encoding="utf-8")
    kept.is_built(crate)
    return True


def newest(folder: str | pathlib.Path) -> float:
    """When the newest file was written that the library of a crate is made of."""
    return max(path.stat().st_mtime for part in ("src", "specs", "proofs")
               for path in pathlib.Path(folder, part).rglob("*") if path.is_file())


def is_proved(folder: pathlib.Path) -> bool:
    """Whether the library of a crate, which is made only when the crate is proved, is newer than all that it is made
    of."""
    library = folder / "out" / "rlib" / f"{folder.name}.rlib"
    return library.is_dir() and library.stat().st_mtime > newest(folder)


def give_keys(module: Any, name: Any, top: pathlib.Path) -> Any:
    """Gives each library below a crate its key that `rt ci` proved and left without one. Returns whether each has one
    then."""
    rtlib = sys.modules["rtlib"]
    made = rtlib.Crate.__init__

    def make(self: Any, *given: Any, **named: Any) -> None:
        made(self, *given, **named)
        module.read_files(self)
    rtlib.Crate.__init__ = make
    crates = rtlib.crates_below(str(top))
    below = next(crate for crate in crates if crate.name == name).below()
    for crate in below:
        stamp = pathlib.Path(crate.folder, "out", "rlib", "stamp")
        if os.path.isdir(crate.rlib) and not stamp.exists() and os.path.getmtime(crate.rlib) > max(
                newest(one.folder) for one in [crate, *crate.below()]):
            stamp.write_text(crate.stamp(), encoding="utf-8")
    return all(crate.is_built() for crate in below)


def take_all(name: str, rt: str, top: pathlib.Path) -> bool:
    """Puts each library below a crate that was kept where `rt lib` looks for it. Returns whether each is there then."""
    module = module_of(rt)
    if not hasattr(module, "Kept"):
        return give_keys(module, name, top)
    module.Crate.allowed = module.handles_of(str(top))
    crates = module.crates_of(str(top))
    kept = module.Kept(crates)
    below = next(crate for crate in crates if crate.name == name).below()
    for crate in crates:
        if crate in below:
            take(module, kept, crate)
    return all(crate.is_built() for crate in below)


def prepare(name: str, rt: str, top: pathlib.Path = TOP) -> bool:
    """Puts what was kept of the libraries below a crate where rt looks for it, as far as that can be done: rt makes the
    rest. Returns whether there is none. The crates are those of the repository, or of a copy."""
    with contextlib.suppress(Exception, SystemExit), contextlib.redirect_stdout(io.StringIO()):
        here = os.getcwd()
        os.chdir(top)
        try:
            return take_all(name, rt, top)
        finally:
            os.chdir(here)
    return False


def make(proves: bool = True) -> str | None:
    """Has `rt lib` make the library of sct_c, unless it is there and of these sources. Returns why it could not, or
    None. If it may not prove the crates below, it makes nothing unless `rt ci` kept all of them."""
    mark, now = BUILT.with_suffix(".sum"), sources("sct_c")
    if BUILT.is_file() and mark.is_file() and mark.read_text(encoding="utf-8") == now:
        return None
    rt = shutil.which("rt")
    if rt is None:
        return "there is no command rt on this machine"
    if not prepare("sct_c", rt) and not proves:
        return ("the crates below crates/sct_c are not proved on this machine, and to prove them takes an hour: "
                "run the gate before")
    ran = subprocess.run(["rt", "lib"], cwd=CRATE, stdin=subprocess.DEVNULL, capture_output=True, text=True,
                         errors="replace")
    if ran.returncode or not BUILT.is_file():
        return f"`rt lib` in crates/sct_c ended with status {ran.returncode}: {ran.stderr.strip()[-300:]}"
    mark.write_text(now, encoding="utf-8")
    return None


def main() -> None:
    crates, rt = sys.argv[1:], shutil.which("rt")
    unknown = [crate for crate in crates if not (TOP / "crates" / crate / "src").is_dir()]
    if not crates or unknown or rt is None:
        sys.exit(__doc__ if not crates
                 else f"kept: there is no {f'crate {unknown[0]}' if unknown else 'command rt on this machine'}")
    are_there = [prepare(crate, rt) for crate in crates]
    for crate, is_there in zip(crates, are_there):
        print(f"{crate}: the libraries below are {'there' if is_there else 'not all there: rt proves the others'}")
    sys.exit(0 if all(are_there) else 1)


if __name__ == "__main__":
    main()
