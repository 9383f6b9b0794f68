"""python_package.py: the tests of bindings/python pass, its types hold, and pip installs it from the folder and as a
wheel.

The tests run in pytest, with the shared library that tools/library.py makes, or with the one that the variable
NILUPPANG_LIBRARY names. mypy judges the types if it is there, also those that a program sees. pip installs a copy of
the folder, with no package from elsewhere, and the installed package finds the library beside it. The wheel of
tools/bindings.py is installed in a new environment of Python, without setuptools and without a network. A small program
runs there, and nothing is left after its removal.
"""
import base64
import contextlib
import csv
import email
import hashlib
import io
import os
import pathlib
import re
import shutil
import sys
import tempfile
import zipfile
from tests import harness
from tests.documents.pages import Page
from tests.embed import driving
from tests.harness import EXAMPLES, TOP, reported
from tools import bindings, library

FOLDER = TOP / "bindings" / "python"
ASK = "import niluppang, pathlib; print(niluppang.library_version(), pathlib.Path(niluppang.__file__).parent)"
STATUS = """import niluppang, sys
from niluppang._library import library
with niluppang.Site.restore(1, 1, sys.stdin.buffer.read()) as site:
    sys.stdout.writelines(site.status_lines())
print(library()._name, file=sys.stderr)
"""
USE = """from typing import Iterator, List, Optional
from mmap import mmap
from niluppang import BytesSite, Closed, DeltaRefused, LinesTaken, MessageRefused, NiluppangError, OutOfMemory, Refused, Site
from niluppang import NotYours, Questions, Snapshot, Transfer, Waits, Withheld
with Site.restore(1, 3, b"", "delta 2\\nend 0\\n") as site, BytesSite(2, 3) as twin, mmap(-1, 2) as mapped:
    split: str = site.kept_text("2024-05-02") + site.closed_text(b"2024-05-02")
    text: str = site.status_text() + site.journal(1) + site.newest(2) + site.reading(mapped) + site.answer()
    data: bytes = twin.cut([1, 2]) + twin.journal() + twin.entries(1, 0, 1)
    taken: LinesTaken[bytes] = twin.take_lines(bytearray(b""))
    number: Optional[int] = site.take(memoryview(b"{}")).number or site.take_as("BANKDEFF", b"{}").number
    shown: bytes = twin.transfer_for(b"BANKDEFF", "BANKDEFF", "T1") + twin.messages_for("BANKDEFF", b"BANKDEFF", "T1")
    theirs: str = site.bank_totals_for("BANKDEFF", "BANKDEFF") + site.report_for("BANKDEFF", "BANKDEFF", "2024-05-02", b"")
    changes: List[Transfer] = site.changes()
    restored: Site = site
    lines: Iterator[str] = site.status_lines()
    parts: Iterator[bytes] = twin.cut_lines("-")
    with site.snapshot() as held, twin.snapshot() as again:
        of_text: Snapshot[str] = held.snapshot()
        asked: List[Questions[str]] = [site, held, of_text]
        then: str = of_text.totals_text() + "".join(one.cut("-") for one in asked)
        of_bytes: bytes = again.archive_text() + again.report_for("BANKDEFF", "BANKDEFF", "2024-05-02", b"")
        of_text.close()
    is_over: bool = site.is_closed or site.number == site.group
    site.evaluate()
    site.answer_end()
errors: List[NiluppangError] = [Refused(44), MessageRefused(56, 2, "56 2 34 Rsn"), DeltaRefused(41), OutOfMemory(65), Closed(70)]
values: List[ValueError] = [Refused(44), MessageRefused(31), DeltaRefused(45), NotYours(79), Waits(84)]
withheld: List[Withheld] = [Withheld(81), Waits(84)]
waited_for: Optional[Transfer] = Waits(84).transfer
reasons: List[str] = [error.reason + error.name + error.meaning for error in errors if error.number or error.place]
"""
WRONG = ["site.number = 2", "site.is_closed = True", "site.take(5)", "text: bytes = site.status_text()",
         "site.journal('1')", "site.take_as(['BANKDEFF'], b'{}')", "site.snapshot().take(b'{}')",
         "site.snapshot().changes()", "data: bytes = site.snapshot().status_text()", "site = site.snapshot()"]


@contextlib.contextmanager
def shared():
    """A folder with the shared library."""
    named = os.environ.get("NILUPPANG_LIBRARY")
    if not named:
        driving.end_if_missing()
        with driving.libraries() as folder:
            yield folder
        return
    print(f"program: the library {named}", flush=True)
    with tempfile.TemporaryDirectory() as folder:
        shutil.copy(named, f"{folder}/libniluppang.so")
        yield pathlib.Path(folder)


def interpreter(*modules, paths=(sys.executable, "/usr/bin/python3")):
    """A Python that has these modules, or None. Debian's packages are those of /usr/bin/python3."""
    for path in paths:
        if os.path.isfile(path) and harness.run([path, "-c", f"import {', '.join(modules)}"]).status == 0:
            return path
    return None


def without(what, package):
    print(f"skipped: there is no {what} on this machine: apt-get install {package}", flush=True)


def clean(**more):
    """The environment without what names another library or has Python write beside its modules."""
    return {**{name: it for name, it in os.environ.items() if not name.startswith(("NILUPPANG_", "PYTHON", "PIP_"))},
            "PYTHONDONTWRITEBYTECODE": "1", "PIP_DISABLE_PIP_VERSION_CHECK": "1", **more}


def tests(shared):
    """How many of the tests passed and failed."""
    python = interpreter("pytest")
    if python is None:
        without("pytest", "python3-pytest")
        return 0, 0
    answer = harness.run([python, "-m", "pytest", "-q", "-p", "no:cacheprovider"], cwd=FOLDER,
                         env=clean(NILUPPANG_LIBRARY=str(shared)))
    text = answer.text.decode(errors="replace")
    numbers = {word: int(number) for number, word in re.findall(r"(\d+) (passed|failed|error)",
                                                                text.splitlines()[-1] if text else "")}
    if answer.status:
        print(text[-4000:], answer.errors.decode(errors="replace")[-1000:], flush=True)
    failed = numbers.get("failed", 0) + numbers.get("error", 0)
    return numbers.get("passed", 0), failed or int(answer.status != 0)


def page(folder):
    """The program in Python on docs/users/embedding.md, which prints what the page shows."""
    match, = Page("users/embedding.md").found(r"^```python\n(.*?)^```.*?^```\n(.*?)^```$")
    in_python, shown = match.groups()
    source = folder / "page.py"
    source.write_text(in_python)
    answer = harness.run([sys.executable, source],
                         env=clean(NILUPPANG_LIBRARY=str(folder / "libniluppang.so"), PYTHONPATH=str(FOLDER)))
    yield reported("the program in Python of docs/users/embedding.md", answer == (shown.encode(), b"", 0), str(answer))


def types(folder):
    """Whether mypy finds nothing in the package and in a program that uses it, and something in each wrong line."""
    python = interpreter("mypy")
    if python is None:
        without("mypy", "mypy")
        return
    words = [python, "-m", "mypy", "--strict", "--cache-dir", folder / "mypy"]

    def judged(path):
        return harness.run([*words, path], env=clean(MYPYPATH=str(FOLDER)))

    (folder / "use.py").write_text(USE)
    for name, path in (("the package", FOLDER / "niluppang"), ("a program that uses it", folder / "use.py")):
        answer = judged(path)
        yield reported(f"the types of {name}", answer.status == 0, answer.text.decode(errors="replace"))
    head = "from niluppang import Site\nsite = Site(1, 1)\n"
    (folder / "wrong.py").write_text(head + "\n".join(WRONG) + "\n")
    found = re.findall(r"wrong\.py:(\d+): error", judged(folder / "wrong.py").text.decode())
    yield reported("types of wrong lines", sorted(set(map(int, found))) == [3 + place for place in range(len(WRONG))],
                   f"{found}")


def installed(folder, about):
    """Whether pip installs a copy of the folder, which then works without the variable, and says of itself what the
    wheel says."""
    python = interpreter("setuptools", "wheel", "pip")
    if python is None:
        without("pip with setuptools and wheel", "python3-pip python3-setuptools python3-wheel")
        return
    source, place = folder / "source", folder / "installed"
    shutil.copytree(FOLDER, source, ignore=shutil.ignore_patterns("__pycache__"))
    shutil.copy(folder / "libniluppang.so", source / "niluppang" / "libniluppang.so")
    alone = ["--quiet", "--no-index", "--no-deps", "--no-build-isolation"]
    made = harness.run([python, "-m", "pip", "install", *alone, "--target", place, source], env=clean())
    yield reported("pip installs the folder", made.status == 0, made.errors.decode(errors="replace"))
    answer = harness.run([python, "-c", ASK], cwd=folder, env=clean(PYTHONPATH=str(place)))
    wanted = f"{library.VERSION} {place / 'niluppang'}\n"
    yield reported("the installed package", answer.text.decode() == wanted, answer.errors.decode(errors="replace"))
    has_types = (place / "niluppang" / "py.typed").is_file()
    yield reported("its mark for types", has_types)
    said, = (path.read_text(encoding="utf-8") for path in place.glob("niluppang-*.dist-info/METADATA"))
    yield reported("what it says of itself", fields(said) == fields(about), f"{fields(said)}\n{fields(about)}")


def fields(text):
    """The fields of what a package says of itself, with its page. The version of the form is another one by each
    program."""
    message = email.message_from_string(text)
    return {*(pair for pair in message.items() if pair[0] != "Metadata-Version"),
            ("page", message.get_payload().strip())}


# ---- the wheel

def release_files(path):
    """The files of the release's archive of which a wheel is made, with the library at a path."""
    paths = [FOLDER / "pyproject.toml", FOLDER / "README.md",
             *(it for it in (FOLDER / "niluppang").iterdir() if it.is_file())]
    found = {f"share/niluppang/python/{it.relative_to(FOLDER)}": it.read_bytes() for it in paths}
    return {"lib/" + library.SONAME: path.read_bytes(), **found}


def newest_symbol(path):
    """The second number of the newest GNU C library whose symbols a library needs, by the table of its symbols."""
    text = harness.run(["objdump", "-T", path]).text.decode()
    return max(int(number) for number in re.findall(r"\bGLIBC_2\.(\d+)", text))


def in_wheel(name, data, its_library):
    """The tag, the files, their times and the list of a wheel. It is read by zipfile, csv and email."""
    archive = zipfile.ZipFile(io.BytesIO(data))
    names = archive.namelist()
    info = f"niluppang-{library.VERSION}.dist-info/"
    modules = sorted(f"niluppang/{path.name}" for path in (FOLDER / "niluppang").iterdir() if path.is_file())
    right = [*sorted([*modules, "niluppang/libniluppang.so"]), *(info + one for one in ("METADATA", "WHEEL", "RECORD"))]
    yield reported("the files of the wheel, in their order", names == right and archive.testzip() is None, f"{names}")
    same = all(archive.read(one) == (FOLDER / one).read_bytes() for one in modules)
    yield reported("their bytes", same and archive.read("niluppang/libniluppang.so") == its_library.read_bytes())
    tag = f"py3-none-manylinux_2_{max(5, newest_symbol(its_library))}_x86_64"
    form = email.message_from_bytes(archive.read(info + "WHEEL"))
    said = form["Wheel-Version"], form["Root-Is-Purelib"], form.get_all("Tag")
    yield reported("its tag", name == f"niluppang-{library.VERSION}-{tag}.whl" and said == ("1.0", "false", [tag]),
                   f"{name} {said}")

    def digest(one):
        return base64.urlsafe_b64encode(hashlib.sha256(archive.read(one)).digest()).decode().rstrip("=")

    rows = [[one, f"sha256={digest(one)}", str(len(archive.read(one)))] for one in names[:-1]] + [[names[-1], "", ""]]
    yield reported("its list", list(csv.reader(archive.read(info + "RECORD").decode().splitlines())) == rows)
    moments = {one.date_time for one in archive.filelist}
    modes = {one.filename: one.external_attr >> 16 & 0o777 for one in archive.filelist}
    right = {one: 0o755 if one.endswith(".so") else 0o644 for one in names}
    yield reported("its times and modes", moments == {(2024, 5, 2, 10, 0, 0)} and modes == right, f"{moments} {modes}")


def said_of(about):
    """What the wheel says of itself. It has no licence and names no address."""
    message = email.message_from_string(about)
    right = {"Metadata-Version": "2.1", "Name": "niluppang", "Version": library.VERSION,
             "Author": "The authors of Niluppang",
             "License": "No licence has been granted yet.",
             "Summary": "The proved site of a clearing hub for SEPA Instant Credit Transfers",
             "Requires-Python": ">=3.8",
             "Description-Content-Type": "text/markdown"}
    said, listed = dict(message.items()), message.get_all("Classifier")
    said.pop("Classifier")
    is_right = said == right and {"Operating System :: POSIX :: Linux", "Typing :: Typed"} <= set(listed)
    page = (FOLDER / "README.md").read_text(encoding="utf-8")
    return reported("what the wheel says of itself", is_right and message.get_payload() == page, f"{message.items()}")


def in_venv(folder, wheel):
    """Whether pip installs the wheel in a new environment, a program runs there, and pip removes all of it."""
    python = interpreter("venv", "ensurepip", paths=("/usr/bin/python3", sys.executable))
    if python is None:
        without("venv", "python3-venv")
        return
    place = folder / "venv"
    made = harness.run([python, "-m", "venv", place], env=clean())
    yield reported("an environment of Python", made.status == 0, (made.text + made.errors).decode(errors="replace"))

    def pip(*words):
        return harness.run([place / "bin" / "python", "-m", "pip", *words], env=clean())

    before = {path for path in place.rglob("*")}
    done = pip("install", "--no-index", wheel)
    yield reported("pip installs the wheel", done.status == 0, (done.text + done.errors).decode(errors="replace"))
    lib, = place.glob("lib/python3*/site-packages")
    status = (EXAMPLES / "bank-day.status").read_bytes()
    answer = harness.run([place / "bin" / "python", "-c", STATUS], (EXAMPLES / "bank-day.jsonl").read_bytes(),
                         cwd=folder, env=clean())
    wanted = status, f"{lib / 'niluppang' / 'libniluppang.so'}\n".encode(), 0
    yield reported("a program in it", answer == wanted, str(answer))
    shown = pip("show", "niluppang").text.decode()
    yield reported("pip shows it", f"Name: niluppang\nVersion: {library.VERSION}\n" in shown, shown)
    done = pip("uninstall", "--yes", "niluppang")
    left = {path for path in place.rglob("*")} - before
    yield reported("pip removes all of it", done.status == 0 and not left, f"{left}")


# what a library is made of, and the name of the systems on which it runs, or what it may not need
TAGS = {
    "int gettid(void); int f(void) { return gettid(); }": "manylinux_2_30_x86_64",
    "int getpid(void); int f(void) { return getpid(); }": "manylinux_2_5_x86_64",
    "int getrandom(void); int gettid(void); int f(void) { return getrandom() + gettid(); }": "manylinux_2_30_x86_64",
    "int of_others(void); int f(void) { return of_others(); }": "libothers.so",
}


def tags(folder):
    """The tags of libraries with symbols of known versions of the GNU C library."""
    place = folder / "tags"
    place.mkdir()
    words = ["gcc", "-shared", "-fPIC", "-nostartfiles", "-x", "c", "-", "-o"]

    def gcc(text, name, *more):
        return harness.run([*words, name, *more], text.encode(), cwd=place)

    gcc("int of_others(void) { return 0; }", "libothers.so")
    for text, right in TAGS.items():
        made = gcc(text, "libtried.so", "-L.", "-lothers") if "others" in text else gcc(text, "libtried.so")
        try:
            found = bindings.platform((place / "libtried.so").read_bytes())
            is_right = found == right
        except library.Missing as missing:
            found, is_right = str(missing), right in str(missing) and not right.startswith("manylinux")
        yield reported(f"the tag of {text[:20]}..", made.status == 0 and is_right, found)


def wheels(folder):
    """The wheel of the library in a folder, which is made twice. Returns what it says of itself, and what is right."""
    its_library = folder / "libniluppang.so"
    one, other = (bindings.wheel(release_files(its_library), 1714644000) for _ in range(2))  # 2024-05-02 10:00:00
    (name, data), = one.items()
    (folder / name).write_bytes(data)
    about = zipfile.ZipFile(io.BytesIO(data)).read(f"niluppang-{library.VERSION}.dist-info/METADATA").decode()
    right = [reported("the wheel made twice", one == other), *in_wheel(name, data, its_library), said_of(about)]
    return about, [*right, *in_venv(folder, folder / name)]


def main():
    with shared() as folder:
        passed, failed = tests(folder / "libniluppang.so")
        about, right = wheels(folder)
        more = [*page(folder), *types(folder), *tags(folder), *right, *installed(folder, about)]
    harness.end(passed + sum(more), failed + len(more) - sum(more))


if __name__ == "__main__":
    main()
