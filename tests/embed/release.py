"""release.py: the release is the same bytes when it is made again, and works in any folder, without the repository.

tools/package.py makes it twice. It is unpacked into a temporary folder. Its sums hold, BUILD names the version and the
toolchain, and the program answers an example by each of its names. By pkg-config and the release alone, the C example
is built with each library and answers. Python imports the package from its place in the release, and finds the library
there. It also imports it from the wheel beside the archive. A program in Java runs on niluppang.jar. The service of
sites there runs on the program of the release.
"""
import hashlib
import os
import pathlib
import re
import shutil
import tarfile
import tempfile
import zipfile
from tests import harness
from tests.embed import driving
from tests.harness import EXAMPLES, reported
from tests.hub import sites
from tools import library, package

ASK = """import niluppang, sys
with niluppang.Site(1, 1) as site:
    site.take_lines(sys.stdin.buffer.read())
    print(site.status_text(), end='')
"""
IN_JAVA = """import niluppang.Site;

public class Status {
    public static void main(String[] words) throws Exception {
        try (Site site = new Site(1, 1)) {
            site.takeLines(System.in.readAllBytes());
            site.statusStream().transferTo(System.out);
        }
    }
}
"""
JNA = "/usr/share/java/jna.jar"


def made(folder):
    """The archive of the release, which is made twice, and whether all is the same bytes."""
    try:
        first, second = (package.make(folder / name) for name in ("first", "second"))
    except library.Missing as missing:
        driving.skip(missing)
    one, other = ({path.name: path.read_bytes() for path in archive.parent.iterdir()} for archive in (first, second))
    return first, reported("the release made twice", one == other)


def unpacked(path, folder):
    """The folder that the release has, unpacked."""
    with tarfile.open(path) as tar:
        tar.extractall(folder)
    return folder / package.NAME


def contents(place):
    """What the release says of itself, and its program."""
    sums = harness.run(["sha256sum", "--check", "--strict", "--quiet", "SHA256SUMS"], cwd=place)
    yield reported("the sums", sums.status == 0, sums.text.decode() + sums.errors.decode())
    listed = {line.split("  ")[1] for line in (place / "SHA256SUMS").read_text().splitlines()}
    files = {path.relative_to(place).as_posix() for path in place.rglob("*") if path.is_file()
             and not path.is_symlink()}
    yield reported("each file has a sum", files == listed | {"SHA256SUMS"}, f"{sorted(files ^ listed)}")
    text = (place / "share" / "doc" / "niluppang" / "BUILD").read_text()
    pattern = rf"niluppang {re.escape(library.VERSION)}\ncommit (\w{{40}}|unknown)(, with changes)?\ntoolchain \S+ logic \w+\n"
    yield reported("BUILD", re.fullmatch(pattern, text) is not None, text)
    for name in "sct_sites", "niluppang":
        answer = harness.run([place / "bin" / name, "status"], (EXAMPLES / "bank-day.jsonl").read_bytes(),
                             env=without_repository())
        right = answer == ((EXAMPLES / "bank-day.status").read_bytes(), b"", 0)
        yield reported(f"the program as {name}", right, answer.errors.decode(errors="replace"))
    manual = place / "share" / "man" / "man1"
    yield reported("the manual page of both names",
                   (manual / "niluppang.1").read_bytes() == (manual / "sct_sites.1").read_bytes())


def without_repository(**more):
    """The environment without the variables that name other files."""
    return {**{name: value for name, value in os.environ.items() if not name.startswith(("SCT_", "NILUPPANG_"))},
            **more}


def built(place, folder):
    """The C example, built as its first lines say, with each library."""
    if not shutil.which("pkg-config"):
        print("skipped: there is no command pkg-config on this machine: apt-get install pkg-config", flush=True)
        return
    at = without_repository(PKG_CONFIG_PATH=str(place / "lib" / "pkgconfig"), LD_LIBRARY_PATH=str(place / "lib"))
    asked = harness.run(["pkg-config", "--modversion", "niluppang"], env=at)
    yield reported("the version by pkg-config", asked.text.decode().strip() == library.VERSION, asked.errors.decode())
    source = place / "share" / "doc" / "niluppang" / "examples" / "embed" / "hub.c"
    flags = harness.run(["pkg-config", "--cflags", "--libs", "niluppang"], env=at).text.decode().split()
    static = [*(word for word in flags if word != "-lniluppang"), "-l:libniluppang.a"]
    for name, words in (("shared", flags), ("static", static)):
        done = harness.run(["gcc", "-std=c99", "-Wall", "-Wextra", "-Werror", source, *words, "-o", folder / name],
                           env=at)
        yield reported(f"hub.c with the {name} library", done.status == 0, done.errors.decode(errors="replace"))
        answer = harness.run([folder / name, *sorted(EXAMPLES.glob("hub-morning.site*"))], env=at)
        right = answer.text == (EXAMPLES / "hub-morning.run").read_bytes()
        yield reported(f"what it prints with the {name} library", right, str(answer.errors))


def answered(name, words, **more):
    """Whether a program prints the statuses of the bank's day, which it reads."""
    answer = harness.run(words, (EXAMPLES / "bank-day.jsonl").read_bytes(), **more)
    return reported(name, answer == ((EXAMPLES / "bank-day.status").read_bytes(), b"", 0),
                    answer.errors.decode(errors="replace"))


def python(place, folder):
    """The Python package at its place in the release."""
    path = str(place / "share" / "niluppang" / "python")
    return answered("the Python package", ["python3", "-W", "error", "-c", ASK], cwd=folder,
                    env=without_repository(PYTHONPATH=path))


def wheel(archive, place, folder):
    """The wheel beside the archive: it is on the list of the release, has the library of the archive, and works where
    it is unpacked."""
    names = sorted(path.name for path in archive.parent.iterdir() if path.suffix == ".whl")
    pattern = rf"niluppang-{re.escape(library.VERSION)}-py3-none-manylinux_2_\d+_x86_64\.whl"
    yield reported("one wheel", re.fullmatch(pattern, " ".join(names)) is not None, f"{names}")
    if not names:
        return
    sums = harness.run(["sha256sum", "--check", "--strict", "SHA256SUMS"], cwd=archive.parent)
    yield reported("its sum", sums.status == 0 and f"{names[0]}: OK" in sums.text.decode(), sums.errors.decode())
    with zipfile.ZipFile(archive.parent / names[0]) as its:
        its.extractall(folder / "wheel")
    same = (folder / "wheel/niluppang/libniluppang.so").read_bytes() == (place / "lib" / library.SONAME).read_bytes()
    yield reported("its library is that of the archive", same)
    alone = without_repository(PYTHONPATH=str(folder / "wheel"))
    yield answered("its package", ["python3", "-W", "error", "-c", ASK], cwd=folder, env=alone)


def java(place, folder):
    """A program in Java on niluppang.jar of the release, and on the one that build.sh makes of the sources there."""
    its, made = place / "share" / "niluppang" / "java", folder / "java"
    if not shutil.which("javac") or not os.path.isfile(JNA):
        yield reported("no jar without a JDK", not (its / "niluppang.jar").exists())
        print("skipped: there is no JDK or no JNA on this machine: apt-get install openjdk-17-jdk-headless libjna-java",
              flush=True)
        return
    if not (its / "niluppang.jar").exists():
        yield reported("niluppang.jar is there", False)
        return
    made.mkdir()
    done = harness.run(["sh", its / "build.sh", made])
    yield reported("build.sh", done.status == 0, done.errors.decode(errors="replace"))
    (folder / "Status.java").write_text(IN_JAVA)
    for name, jar in (("niluppang.jar", its / "niluppang.jar"), ("the jar of build.sh", made / "niluppang.jar")):
        words = ["java", f"-Dniluppang.library={place / 'lib' / library.SONAME}", "-cp", f"{jar}:{JNA}", "Status.java"]
        yield answered(name, words, cwd=folder, env=without_repository())
    with zipfile.ZipFile(its / "niluppang.jar") as one, zipfile.ZipFile(made / "niluppang.jar") as other:
        classes = {name: other.read(name) for name in other.namelist() if name.endswith(".class")}
        right = ["META-INF/MANIFEST.MF", *sorted(classes)]
        same = one.namelist() == right and all(one.read(name) == data for name, data in classes.items())
        yield reported("what niluppang.jar has", same and len({entry.date_time for entry in one.filelist}) == 1,
                       f"{one.namelist()}")


def service(place, folder):
    """The service of sites at its place in the release: it reads a journal with the program of the release."""
    line = (EXAMPLES / "bank-day.archive").read_bytes().splitlines()[0]
    sites.write_journal(folder / "site1.journal", 1, 64, [line])
    main = place / "share" / "niluppang" / "services" / "hub" / "main.py"
    variables = {name: it for name, it in without_repository().items() if name != "PYTHONPATH"}
    answer = harness.run([sites.interpreter(), main, folder, "--site=1", "--check"], cwd=folder, env=variables)
    digest = hashlib.sha256(bytes(32) + line + b"\n").hexdigest()
    return reported("the service of sites", (answer.text.decode(), answer.status) == (f"1:1\n1:1:{digest}\n", 0),
                    answer.errors.decode(errors="replace"))


def main():
    driving.end_if_missing()
    with tempfile.TemporaryDirectory() as name:
        folder = pathlib.Path(name)
        path, is_same = made(folder)
        place = unpacked(path, folder)
        harness.end_of([is_same, *contents(place), *built(place, folder),
                        python(place, folder), *wheel(path, place, folder),
                        *java(place, folder), service(place, folder)])


if __name__ == "__main__":
    main()
