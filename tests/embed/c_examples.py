"""c_examples.py: the examples in C and in Rust are built without a warning, and print what three sites together answer.

examples/embed/hub.c is built by gcc, and by clang if it is there. It runs under the address sanitizer too, and so does
the program of docs/users/embedding.md. The Rust one is built by cargo, without a crate of a registry. The header is
read as C99, as C11 and as C++. The programs of header_alone.py, which were written from it alone, print what the
definitions have. Each compiler that is missing is named.
"""
import os
import re
import shutil
from tests import harness
from tests.documents.pages import Page
from tests.embed import driving, header_alone
from tests.harness import EXAMPLES, TOP, reported

FOLDER = EXAMPLES / "embed"
FILES = sorted(EXAMPLES.glob("hub-morning.site*"))
READ = ("#include <niluppang.h>\nint main(void) { sct_site site = SCT_SITE_EMPTY; sct_site_close(&site); "
        "return sct_version() == 0; }\n")
DROPPED = (
    "#include <niluppang.h>\nvoid drop(sct_site *site); void drop(sct_site *site) { sct_site_open(site, 1, 1); }\n")
# how the header is read: the compiler, the standard, and the ending of the file
READERS = [("gcc", "c99", "c"), ("gcc", "c11", "c"), ("g++", "c++98", "cc"),
           ("g++", "c++11", "cc"), ("g++", "c++20", "cc"),
           ("clang", "c99", "c"), ("clang", "c11", "c"), ("clang++", "c++11", "cc"), ("clang++", "c++17", "cc")]
PACKAGES = {"clang++": "clang", "rustc": "cargo"}


def has(command):
    """Whether a command is there. If it is not, a line says so."""
    if shutil.which(command):
        return True
    print(f"skipped: there is no command {command} on this machine: apt-get install {PACKAGES.get(command, command)}",
          flush=True)
    return False


def refused_lines():
    """The refused lines of each site, as `run` writes them: the number of the file, and the rest with why."""
    text = (EXAMPLES / "hub-morning.run-refused").read_text()
    return re.findall(r"^file (\d+) (line .*)$", text, re.M)


def of_c():
    """What the C example writes to standard error."""
    lines, last = [], None
    for file, line in refused_lines():
        lines += [f"site {file}:\n"] * (file != last) + [line + "\n"]
        last = file
    return "".join(lines).encode()


def is_hub(name, program, errors, before=()):
    """Whether a program prints what three sites together answer."""
    answer = harness.run([*before, program, *FILES])
    right = (answer.text, answer.status) == ((EXAMPLES / "hub-morning.run").read_bytes(), 0) and errors(answer.errors)
    return reported(name, right, answer.errors.decode(errors="replace"))


def c_example(folder):
    """The C example by each compiler."""

    def is_told(errors):
        return errors == of_c()

    for compiler in filter(has, ("gcc", "clang")):
        program = driving.built(folder, FOLDER / "hub.c", "-std=c99", "-O2", name=f"hub_{compiler}", wraps=(),
                                compiler=compiler)
        yield is_hub(f"hub.c by {compiler}", program, is_told)
    checked = driving.built(folder, FOLDER / "hub.c", *driving.CHECKED, name="checked", wraps=())
    yield is_hub("hub.c under the address sanitizer", checked, is_told)
    wrong = [harness.run([checked, *words]) for words in ([], ["nowhere"], [folder], FILES * 6)]
    yield reported("hub.c with wrong words", all((one.text, one.status) == (b"", 2) and one.errors for one in wrong))


def page(folder):
    """The program in C on docs/users/embedding.md, which prints what the page shows."""
    in_c, _, shown = (block.text for block in Page("users/embedding.md").blocks())
    source = folder / "page.c"
    source.write_text(in_c)
    answer = harness.run([driving.built(folder, source, *driving.CHECKED, wraps=())])
    yield reported("the program in C of docs/users/embedding.md", answer == (shown.encode(), b"", 0), str(answer))


def rust_example(folder):
    """The Rust example, built in the temporary folder."""
    if not has("cargo"):
        return
    place = folder / "rust"
    shutil.copytree(FOLDER / "rust", place, ignore=shutil.ignore_patterns("target", "Cargo.lock"))
    variables = {**os.environ, "NILUPPANG_LIB_DIR": str(folder), "CARGO_TARGET_DIR": str(folder / "target"),
                 "RUSTFLAGS": "-D warnings"}
    made = harness.run(["cargo", "build", "--offline", "--quiet", "--jobs", "2"], cwd=place, env=variables)
    yield reported("the Rust example is built", made.status == 0, made.errors.decode(errors="replace"))
    if made.status == 0:
        lines = sorted(f"site {file} {line}" for file, line in refused_lines())

        def found(errors):
            return sorted(line for line in errors.decode().splitlines() if " line " in line)

        yield is_hub("the Rust example", folder / "target" / "debug" / "hub", lambda errors: found(errors) == lines)


def header(folder):
    """The header, read by itself in each way. A result that is dropped is a warning, and so an error here."""
    for compiler, standard, ending in READERS:
        if has(compiler):
            source, dropped = folder / f"read.{ending}", folder / f"dropped.{ending}"
            source.write_text(READ)
            dropped.write_text(DROPPED)
            words = [compiler, f"-std={standard}", *driving.WARNINGS, "-Wconversion", "-Wshadow",
                     f"-I{TOP / 'include'}"]
            made = harness.run([*words, source, folder / "libniluppang.a", "-lpthread", "-o", folder / "read"])
            refused = harness.run([*words, "-c", dropped, "-o", folder / "dropped.o"])
            right = made.status == 0 and harness.run([folder / "read"]).status == 0
            right = right and refused.status != 0 and b"unused-result" in refused.errors
            yield reported(f"the header by {compiler} {standard}", right,
                           (made.errors + refused.errors).decode(errors="replace"))


def main():
    driving.end_if_missing()
    with driving.libraries() as folder:
        harness.end_of([*c_example(folder), *page(folder), *rust_example(folder), *header(folder),
                        *header_alone.checks(folder)])


if __name__ == "__main__":
    main()
