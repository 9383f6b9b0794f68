"""shipped.py: the release has the page, with its sum in both lists, and there is no release without it.

tools/package.py makes the release. The page in the archive and the one beside it are the one that web/build made,
sha256sum finds the sums of both right, and the sum is the one that docs/users/page.md has a clerk compare. With a
toolchain that web/build does not find, the package says so, and leaves nothing.
"""
import os
import pathlib
import sys
import tarfile
import tempfile
from tests import harness
from tests.embed import driving
from tests.harness import TOP, reported
from tools import library, package, page

INSIDE = f"{package.NAME}/share/niluppang/niluppang.html"


def inside(archive, path):
    """The bytes of a file in an archive."""
    with tarfile.open(archive) as tar:
        return tar.extractfile(path).read()


def summed(folder):
    """What sha256sum says of the list in a folder."""
    return harness.run(["sha256sum", "--check", "--strict", package.SUMS], cwd=folder)


def shipped(folder):
    """The page in the release."""
    archive = package.make(folder)
    html = page.PAGE.read_bytes()
    yield reported("the page in the archive", inside(archive, INSIDE) == html)
    yield reported("the page beside the archive", (folder / "niluppang.html").read_bytes() == html)
    done = summed(folder)
    yield reported("the list of the release", done.status == 0, done.errors.decode())
    named = {line.split("  ")[1] for line in (folder / package.SUMS).read_text().splitlines()}
    packages, wheels = ({path.name for path in folder.glob(f"*.{end}")} for end in ("deb", "whl"))
    whole = named == {"niluppang.html", archive.name, *packages, *wheels}
    yield reported("what the list names", len(packages) == 5 and len(wheels) == 1 and whole, str(named))
    lines = inside(archive, f"{package.NAME}/{package.SUMS}").decode().splitlines()
    sums = [line.split("  ")[0] for line in [*lines, *(folder / package.SUMS).read_text().splitlines()]
            if line.endswith("niluppang.html")]
    yield reported("one sum in both lists", len(sums) == 2 and sums[0] == sums[1], str(sums))
    (folder / "niluppang.html").write_bytes(html.replace(b"Niluppang", b"Niluppanq", 1))
    yield reported("a page that was changed", b"niluppang.html: FAILED" in summed(folder).text)


def without_page(folder):
    """There is no release if the page cannot be made."""
    variables = {**os.environ, "RATTLE_KIT": str(folder / "none")}
    done = harness.run([sys.executable, TOP / "tools/package.py", folder / "out"], env=variables)
    said = done.errors.decode(errors="replace")
    right = done.status == 1 and said.startswith("package: the page is not made: web/build: there is no toolchain at ")
    yield reported("a release without the toolchain of the page", right and not (folder / "out").exists(), said)


def main():
    driving.end_if_missing()
    with tempfile.TemporaryDirectory() as name:
        folder = pathlib.Path(name)
        try:
            right = [*shipped(folder / "release"), *without_page(folder)]
        except library.Missing as missing:
            driving.skip(missing)
        harness.end_of(right)


if __name__ == "__main__":
    main()
