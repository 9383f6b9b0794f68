"""places.py: where the tools of the desk are that a site uses beside its program.

A clone has them in a folder of its own. In a release and in Debian they are beside the services. The folder is among
those that Python looks in only while a module of it is loaded.
"""
from __future__ import annotations
import functools
import importlib
import pathlib
import sys
import threading
import types
from .files import Wrong

TOP = pathlib.Path(__file__).resolve().parents[2]  # a clone, or share/niluppang of a release or of Debian
PACKAGE = "niluppang"
DESKS = [TOP / "tools" / "desk", TOP / "desk"]  # of a clone, of a release or of Debian
NO_TOOL = ("there is no {}.py of the desk: Debian's package niluppang has it in /usr/share/niluppang/desk, a "
           "clone has it in tools/desk, and a release in share/niluppang/desk")

one_at_a_time = threading.Lock()


def of_release(top: pathlib.Path = TOP) -> pathlib.Path | None:
    """The program of a release, if these services are those of one: bin/ is beside share/niluppang/. In a clone it is
    None."""
    program = top.parents[1] / "bin" / "sct_sites"
    return program if (top.parent.name, top.name) == ("share", PACKAGE) and program.is_file() else None


def loaded(name: str, folder: pathlib.Path) -> types.ModuleType:
    """The module of a name, which must be that of a folder."""
    with one_at_a_time:
        sys.path[:0] = [str(folder)]
        try:
            module = importlib.import_module(name)
        finally:
            sys.path.remove(str(folder))
    if module.__file__ is None:
        raise ImportError(f"there is a folder {name} without a module")
    if folder not in pathlib.Path(module.__file__).resolve().parents:
        raise Wrong(f"the module {name} is {module.__file__}, and is needed of {folder}")
    return module


def first_with(folders: list[pathlib.Path], path: str) -> pathlib.Path | None:
    """The first of some folders that has a file, or None."""
    return next((folder for folder in folders if (folder / path).is_file()), None)


@functools.lru_cache(maxsize=None)
def desk_module(name: str) -> types.ModuleType:
    """A tool of the desk as a module, such as check_list."""
    folder = first_with(DESKS, f"{name}.py")
    if folder is None:
        raise Wrong(NO_TOOL.format(name))
    try:
        return loaded(name, folder)
    except ImportError as fault:
        raise Wrong(f"{folder} has a {name}.py that cannot be loaded: {fault}") from None
