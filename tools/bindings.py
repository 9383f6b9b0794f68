"""bindings.py: makes what pip and programs in Java take of the release: a wheel with the Python package and the
library, and niluppang.jar.

Both are written here, by zipfile: neither setuptools nor wheel is needed, and the same files make the same bytes. A jar
is made if this machine has a JDK, from version 17 on, and Debian's package libjna-java.
"""
from __future__ import annotations
import base64
import hashlib
import io
import os
import pathlib
import re
import shutil
import subprocess
import tempfile
import time
import zipfile
from typing import Any
from tools import debian
from tools.library import SONAME, TOP, VERSION, Missing

PACKAGE = "share/niluppang/python/"  # in the archive
INFO = f"niluppang-{VERSION}.dist-info/"
OLDEST = 5  # pip has no name for a Linux with an older GNU C library than 2.5
FIRST = 315532800  # no time of a zip file is before 1980
SOURCES = TOP / "bindings" / "java" / "src"
JNA = os.environ.get("JNA") or "/usr/share/java/jna.jar"
MANIFEST = f"Manifest-Version: 1.0\r\nImplementation-Title: niluppang\r\nImplementation-Version: {VERSION}\r\n" \
    "License: No licence has been granted yet.\r\n\r\n"


def zipped(files: dict[str, bytes], seconds: int) -> bytes:
    """A zip file of some files, in their order, with one time."""
    file, moment = io.BytesIO(), time.gmtime(max(FIRST, seconds))[:6]
    with zipfile.ZipFile(file, "w") as it:
        for path, data in files.items():
            info = zipfile.ZipInfo(path, moment)
            info.compress_type, info.create_system = zipfile.ZIP_DEFLATED, 3
            info.external_attr = (0o100755 if path.endswith(".so") else 0o100644) << 16
            it.writestr(info, data, compresslevel=9)
    return file.getvalue()


# ---- the wheel

def platform(data: Any) -> Any:
    """The name that pip has for a Linux on which a shared library runs: by the newest version of the GNU C library that
    it names."""
    libraries, versions = debian.named_by(data)
    strange = sorted({*libraries - set(debian.OWNERS), *(it for it in versions if not re.fullmatch(r"2(\.\d+)+", it))})
    if strange:
        raise Missing(f"a wheel is for each Linux with the GNU C library, but the library needs {', '.join(strange)}")
    return f"manylinux_2_{max([OLDEST, *(int(it.split('.')[1]) for it in versions)])}_x86_64"


def metadata(project: Any, readme: Any) -> Any:
    """What a wheel says of its package, by the table of pyproject.toml, and its page."""

    def text(key: Any) -> Any:
        return re.findall(rf'^{key} = "(.*)"$', project, re.M)[0]

    author, = re.findall(r'^authors = \[\{ name = "(.*)" \}\]$', project, re.M)
    licence, = re.findall(r'^license = \{ text = "(.*)" \}$', project, re.M)
    listed, = re.findall(r"^classifiers = \[(.*?)^\]", project, re.M | re.S)
    lines = ["Metadata-Version: 2.1", "Name: niluppang", f"Version: {VERSION}",
             f"Summary: {text('description')}", f"Author: {author}",
             f"License: {licence}", *(f"Classifier: {it}" for it in re.findall(r'"(.*)"', listed)),
             f"Requires-Python: {text('requires-python')}",
             "Description-Content-Type: text/markdown"]
    return "\n".join(lines) + "\n\n" + readme


def row_of(path: Any, data: Any) -> Any:
    """The row of a file in the list of what a wheel has."""
    digest = base64.urlsafe_b64encode(hashlib.sha256(data).digest()).rstrip(b"=").decode()
    return f"{path},sha256={digest},{len(data)}\n"


def wheel(found: Any, seconds: Any) -> Any:
    """The wheel, by its name, of the files of the archive."""
    modules = {path[len(PACKAGE):]: data for path, data in found.items() if path.startswith(PACKAGE + "niluppang/")}
    files = {**modules, "niluppang/libniluppang.so": found["lib/" + SONAME]}
    tag = f"py3-none-{platform(found['lib/' + SONAME])}"
    about = metadata(*(found[PACKAGE + name].decode() for name in ("pyproject.toml", "README.md")))
    form = f"Wheel-Version: 1.0\nGenerator: niluppang ({VERSION})\nRoot-Is-Purelib: false\nTag: {tag}\n"
    files = {**dict(sorted(files.items())), INFO + "METADATA": about.encode(), INFO + "WHEEL": form.encode()}
    rows = "".join(row_of(path, data) for path, data in files.items()) + f"{INFO}RECORD,,\n"
    return {f"niluppang-{VERSION}-{tag}.whl": zipped({**files, INFO + "RECORD": rows.encode()}, seconds)}


# ---- the jar

def jar(seconds: int) -> bytes:
    """The bytes of niluppang.jar."""
    if shutil.which("javac") is None or not os.path.isfile(JNA):
        raise Missing("there is no JDK or no JNA on this machine: apt-get install openjdk-17-jdk-headless libjna-java")
    with tempfile.TemporaryDirectory() as folder:
        words = ["javac", "--release", "17", "-encoding", "UTF-8", "-cp", JNA, "-d", folder,
                 *sorted(SOURCES.glob("niluppang/*.java"))]
        subprocess.run(list(map(str, words)), check=True)
        classes = {path.relative_to(folder).as_posix(): path.read_bytes()
                   for path in sorted(pathlib.Path(folder).rglob("*.class"))}
    return zipped({"META-INF/MANIFEST.MF": MANIFEST.encode(), **classes}, seconds)
