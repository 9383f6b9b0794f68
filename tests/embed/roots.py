"""roots.py: this machine as a root of its own for a check, through an overlay. What is written there goes to memory.

The mounts are those of the process of the check alone, and of what it starts. So nothing of them is left, however it
ends.
"""
from __future__ import annotations
import contextlib
import ctypes
import filecmp
import os
import pathlib
import tempfile
from typing import Any, Iterator
from tests import harness
from tests.hub import sites

PLAIN = {"PATH": "/usr/sbin:/usr/bin:/sbin:/bin", "HOME": "/root", "LANG": "C.UTF-8",
         "DEBIAN_FRONTEND": "noninteractive"}
NEW_MOUNTS = 0x20000  # of unshare(2)


class Root:
    """A root. `upper` has what was written there, by the same paths."""

    def __init__(self, folder: Any) -> None:
        self.upper, self.path = folder / "upper", folder / "root"

    def words(self, user: Any, *words: Any) -> Any:
        """The command line of a command there, which ends when the process that starts it ends."""
        return ["chroot", self.path, "setpriv", f"--reuid={user}", f"--regid={user}", "--init-groups",
                "--pdeathsig=KILL", *words]

    def run(self, *words: Any, data: Any = None, user: str = "root", **variables: Any) -> Any:
        """The answer of a command there."""
        return harness.run(self.words(user, *words), data, env={**PLAIN, **variables})

    def does(self, name: Any, *words: Any) -> Any:
        """Whether a command there ends well, which is printed."""
        done = self.run(*words)
        return harness.reported(name, done.status == 0, (done.text + done.errors).decode(errors="replace"))

    def written(self) -> Iterator[Any]:
        """The paths of what was changed, made or removed there. A folder counts if the machine has none with its
        path."""
        for folder, names, files in os.walk(self.upper):
            its = pathlib.Path(folder).relative_to(self.upper)
            yield from (str(its / name) for name in files if not is_same(self.upper / its / name, f"/{its / name}"))
            yield from (str(its / name) for name in names if not os.path.lexists(f"/{its / name}"))


def is_same(path: Any, other: Any) -> Any:
    """Whether two paths have files with the same bytes."""
    return os.path.isfile(path) and os.path.isfile(other) and filecmp.cmp(path, other, shallow=False)


def mount(*words: Any) -> None:
    done = harness.run(["mount", *words])
    if done.status:
        raise sites.Skipped(f"this machine has no overlay: {done.errors.decode(errors='replace').strip()}")


@contextlib.contextmanager
def overlaid() -> Iterator[Any]:
    """This machine as a root of its own. Skipped if it gives none."""
    if os.geteuid():
        raise sites.Skipped("packages are installed by root alone")
    if ctypes.CDLL(None).unshare(NEW_MOUNTS):
        raise sites.Skipped("this process may have no mounts of its own")
    with tempfile.TemporaryDirectory(prefix="packages-") as name:
        it, work = Root(pathlib.Path(name)), pathlib.Path(name, "work")
        try:
            mount("--make-rprivate", "/")
            mount("-t", "tmpfs", "-o", "mode=755", "packages", name)
            for path in (it.upper, it.path, work):
                path.mkdir()
            mount("-t", "overlay", "overlay", "-o", f"lowerdir=/,upperdir={it.upper},workdir={work}", it.path)
            for path in ("proc", "dev"):
                mount("--rbind", f"/{path}", it.path / path)
            yield it
        finally:
            harness.run(["umount", "--recursive", "--lazy", name])
