"""page.py: has web/build make the page of what `rt ci` proved on this machine.

It proves sct_c alone, in some minutes. If a library below it is not kept, it makes nothing, since to prove all anew
takes an hour.
"""
from __future__ import annotations
import subprocess
import sys
from tools.kept import TOP

PAGE = TOP / "web" / "out" / "niluppang.html"


def make() -> str | None:
    """Has web/build make the page, unless it is there and of these sources. Returns why it could not, or None."""
    words = [sys.executable, str(TOP / "web" / "build"), "--kept"]
    ran = subprocess.run(words, stdin=subprocess.DEVNULL, capture_output=True, text=True, errors="replace")
    return " ".join(ran.stderr.split())[-900:] if ran.returncode else None
