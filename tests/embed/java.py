"""java.py: builds the Java package of bindings/java by its script, and runs its tests on the examples. Its jar is that
of the release."""
import contextlib
import io
import os
import pathlib
import re
import shutil
import tempfile
import zipfile
from tests import harness
from tests.harness import EXAMPLES, TOP, reported
from tests.hub import sites
from tools import bindings
from tools import library as libraries

SOURCES = TOP / "bindings" / "java"
JNA = pathlib.Path("/usr/share/java/jna.jar")
TIME = 1714644000  # 2024-05-02 10:00:00


@contextlib.contextmanager
def library():
    """The path of the library: the one that a variable names, else one that is made of what the gate leaves, else a
    stand-in of the definitions. Nothing is proved for it. A line says which it is."""
    named = os.environ.get("NILUPPANG_LIBRARY")
    if named and not os.path.isfile(named):
        raise sites.Skipped(f"there is no library {named}, which NILUPPANG_LIBRARY names")
    with tempfile.TemporaryDirectory(prefix="java-library-") as folder:
        try:
            made = named or libraries.make_shared(libraries.make_archive(folder, proves=False).parent)
            print(f"program: the library {made}", flush=True)
        except libraries.Missing as missing:
            made = stand_in(folder)
            print(f"program: the stand-in tests/standin/library.c of the definitions, since {missing}", flush=True)
        yield os.path.abspath(made)


def stand_in(folder):
    """A stand-in for the library, made in a folder."""
    path, source = pathlib.Path(folder, "libniluppang.so"), harness.STAND_IN.parent
    words = ["-std=gnu11", "-Wall", "-Wextra", "-Werror", "-shared", "-fPIC", f"-I{TOP / 'include'}",
             f'-DSERVER="{source / "library.py"}"']
    done = harness.run(["gcc", *words, source / "library.c", "-o", path, "-lpthread"])
    if done.status:
        raise sites.Skipped(f"the stand-in of the library is not built: {done.errors.decode(errors='replace')[:300]}")
    return path


def is_of_release(path):
    """Whether the jar of the release is the same when it is made again, and has the classes of a jar, sorted, with one
    time."""
    one, other = bindings.jar(TIME), bindings.jar(TIME)
    with zipfile.ZipFile(io.BytesIO(one)) as its, zipfile.ZipFile(path) as built:
        classes = {name: built.read(name) for name in built.namelist() if name.endswith(".class")}
        same = its.namelist() == ["META-INF/MANIFEST.MF",
                                  *sorted(classes)] and all(its.read(name) == classes[name] for name in classes)
        is_one_time = {entry.date_time for entry in its.filelist} == {(2024, 5, 2, 10, 0, 0)}
    return reported("the jar of the release", one == other and len(classes) > 3 and same and is_one_time)


def tested(library):
    """Whether each test passes on a library."""
    if not JNA.is_file() or shutil.which("javac") is None:
        raise sites.Skipped("there is no JNA, or no JDK: apt-get install libjna-java openjdk-17-jdk-headless")
    with tempfile.TemporaryDirectory(prefix="embed-java-") as folder:
        path = f"{folder}/niluppang.jar:{folder}:{JNA}"
        javac = ["javac", "--release", "17", "-Xlint:all,-try", "-Werror", "-cp", path, "-d", folder]
        words = [["sh", SOURCES / "build.sh", folder], [*javac, *SOURCES.glob("test/niluppang/*.java")],
                 ["java", f"-Dniluppang.library={library}", "-cp", path, "niluppang.SiteTest", str(EXAMPLES)]]
        for one in words:
            done = harness.run(one)
            text = (done.text + done.errors).decode(errors="replace")
            if done.status:
                print(text)
                return [False]
        is_right = is_of_release(f"{folder}/niluppang.jar")
    print(text, end="")
    passed, = re.findall(r"^(\d+) passed, 0 failed$", text, re.M)
    return [True] * int(passed) + [is_right]


def check():
    with library() as path:
        return tested(path)


if __name__ == "__main__":
    sites.ended(check)
