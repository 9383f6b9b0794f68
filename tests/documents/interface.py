"""interface.py: VERSION, the C header, the Python package and the crate sct_c have one version, one interface and one
list of numbers.

VERSION has the version. The macros of include/niluppang.h, bindings/python, the crate sct_version and the function
`sct_version` of sct_c, which returns the number of that crate, agree with it, and so do the numbers in bindings/java
and in the example in Rust. Each call that the header explains is an inline function there. It hands its arguments to
the function of the library with the same name, result and parameters, and a word in place of a pointer to nothing.
These functions are the exports of sct_c with the same types, and there is no other export. The classes of C++ and the
Python package have each call. The results have the same fields in the header, in the crate and in Python, and their
sizes are those that the header asserts. The numbers, names and meanings of the header's table are those of its
enumeration, of the crate sct_place and of tests/embed/model.py, and are numbers of the code. What concerns sct_c is
compared if crates.txt names it.
"""
import collections
import re
import sys
from tests import harness
from tests.documents import codes
from tests.embed import model
from tests.harness import CRATES, TOP, reported

sys.path.insert(0, str(TOP / "bindings" / "python"))
from niluppang import _library, _version

HEADER = (TOP / "include" / "niluppang.h").read_text(encoding="utf-8")
EXPORT = re.compile(r'^pub extern "C" fn (\w+)\(([^)]*)\)(?: -> (\w+))?', re.M)
C_TYPES = {"bool": "bool", "u8": "uint8_t", "u16": "uint16_t", "u32": "uint32_t", "u64": "uint64_t", "usize": "size_t"}
SIZES = {"bool": 1, "uint8_t": 1, "uint64_t": 8, "size_t": 8, "void *": 8}
RESULTS = {"CallOutcome": "sct_outcome", "TakeOutcome": "sct_taken", "LinesOutcome": "sct_lines",
           "AcceptOutcome": "sct_accepted"}
PYTHON_RESULTS = {"sct_site": _library.Handle, "sct_outcome": _library.Outcome, "sct_taken": _library.TakenOutcome,
                  "sct_lines": _library.LinesOutcome, "sct_accepted": _library.AcceptedOutcome}
VERSION, HANDLE = "sct_version", "sct_site *"

# a function: the type of its result, and its parameters, each a type and a name
Function = collections.namedtuple("Function", "result parameters")


# ---- the header

def parameter(text):
    """The type and the name of a parameter or a field of C."""
    kind, name = re.fullmatch(r"(.*?\W)(\w+)", re.sub(r"\s+", " ", text.strip())).groups()
    return re.sub(r" ?\*", " *", kind).strip(), name


def functions(pattern):
    """The functions of the header whose beginnings fit a pattern with a result, a name and parameters."""
    found = re.findall(pattern, HEADER, re.M)

    def parameters(given):
        return [] if given == "void" else [parameter(one) for one in given.split(",")]

    return {name: Function(result, parameters(given)) for result, name, given in found}


def explained():
    """The calls that the header explains."""
    return functions(r"^SCT_CALL (?:SCT_READ )?(\w+) (sct_\w+)\(([^;]*)\);")


def given_away():
    """The functions of the library."""
    return functions(r"^(\w+) (sct_version|sct_raw_\w+)\(([^;{]*)\);")


def raw_name(call):
    """The name of the library's function for a call."""
    return re.sub("^sct_(site_)?", "sct_raw_", call)


def handed(call, function):
    """The statement by which the call hands its arguments to the library's function."""
    words, left = [], list(function.parameters)
    while left:
        kind, name = left.pop(0)
        if kind.endswith("*") and kind != HANDLE:
            length = left.pop(0)[1]
            words += [f"({kind})sct_private_{'at' if kind.startswith('const') else 'room'}({name}, {length})", length]
        else:
            words.append(name)
    return f"{'' if function.result == 'void' else 'return '}{raw_name(call)}({', '.join(words)});"


def bodies():
    """The bodies of the inline functions, on one line each."""
    found = re.findall(r"^static inline \w+ (sct_\w+)\([^{;]*\) \{\n(.*?)\n\}", HEADER, re.M | re.S)
    return {name: re.sub(r"\s+", " ", body.strip()) for name, body in found}


def structures():
    """The fields of each structure, as pairs of a name and a type."""
    found = re.findall(r"typedef struct (\w+) \{\n(.*?)\n\}", HEADER, re.S)
    return {name: [parameter(line.strip(" ;"))[::-1] for line in body.splitlines()] for name, body in found}


def size_of(fields):
    """The size of a structure with these fields. Each field begins at a multiple of its own size."""
    place = 0
    for _, kind in fields:
        place += -place % SIZES[kind] + SIZES[kind]
    return place + -place % max(SIZES[kind] for _, kind in fields)


def is_read(name):
    """Whether the header has a compiler warn if the result of a call is dropped."""
    return re.search(rf"^SCT_CALL SCT_READ \w+ {name}\(", HEADER, re.M) is not None


def table():
    """The names and the meanings of the header's table, by number."""
    return {int(number): (name, text)
            for number, name, text in re.findall(r"^ \*     (\d+) ([A-Z][a-z]\w*) +(\S.*)$", HEADER, re.M)}


def enumerated():
    """The names of the enumeration by number, written as those of the table."""
    found = re.findall(r"^    SCT_(\w+) = (\d+)", HEADER, re.M)
    return {int(number): name.title().replace("_", "") for name, number in found if name != "OK"}


def refusals():
    """The numbers that the calls of the header name as their refusals."""
    for text in re.findall(r"^ \* Refusals?: ([^.]*)\.", HEADER, re.M):
        for first, last in re.findall(r"(\d+)(?: to (\d+))?", re.sub(r"\([^)]*\)", "", text)):
            yield from set(range(int(first), int(last or first) + 1)) & ({int(first),
                                                                          int(last or first)} | set(table()))


def header_versions():
    """The version by the macros of its numbers, and by that of its text."""
    numbers = [re.search(rf"^#define SCT_VERSION_{part} (\d+)$", HEADER, re.M).group(1)
               for part in ("MAJOR", "MINOR", "PATCH")]
    return ".".join(numbers), re.search(r'^#define SCT_VERSION "(.*)"$', HEADER, re.M).group(1)


def header_checks(version):
    """Compares the parts of the header."""
    calls, given, inline = (explained(), given_away(),
                            functions(r"^static inline (\w+) (sct_(?:site|code)_\w+)\(([^{;]*)\) \{"))
    number = "#define SCT_VERSION_NUMBER (1000000 * SCT_VERSION_MAJOR + 1000 * SCT_VERSION_MINOR + SCT_VERSION_PATCH)\n"
    yield reported("the macros of the header are VERSION", header_versions() == (version, version) and number in HEADER)
    yield reported("each call of the header is an inline function", calls == inline, f"{calls.keys() ^ inline.keys()}")
    yield reported("the library gives away a function for each call", set(given) == {VERSION, *map(raw_name, calls)})
    found = bodies()
    for name, function in sorted(calls.items()):
        right = given.get(raw_name(name)) == function and found.get(name) == handed(name, function)
        yield reported(f"{name} hands its arguments on", right, f"{given.get(raw_name(name))}\n{found.get(name)}")
        yield reported(f"the result of {name} has to be read", is_read(name) == (function.result != "void"))
        if name.startswith("sct_site_"):
            in_class = re.search(rf"\b{name}\(&handle_", HEADER.partition("namespace niluppang {")[2]) is not None
            yield reported(f"a class of C++ has {name}", in_class)
    for name, fields in structures().items():
        asserted = f"SCT_PRIVATE_ASSERT(sizeof({name}) == {size_of(fields)}, " in HEADER
        yield reported(f"{name} has {size_of(fields)} bytes", asserted)
    names = {number: name for number, (name, _) in table().items()}
    yield reported("the enumeration of the header has the numbers and names of its table", enumerated() == names)
    yield reported("each refusal of a call is in the table", {*refusals()} == {*names},
                   f"{sorted({*refusals()} ^ {*names})}")
    yield reported("the model has the numbers, names and meanings of the table", model.CODES == table())


# ---- the crates

def c_types(text):
    """The types that a parameter of Rattle has in C."""
    kind = text.partition(":")[2].strip()
    span = re.fullmatch(r"&(mut )?\[(\w+)\]", kind)
    if span:
        return [("" if span.group(1) else "const ") + C_TYPES[span.group(2)] + " *", "size_t"]
    return {"Global": [], "&mut Place": [HANDLE]}.get(kind) or ([C_TYPES[kind]] if kind in C_TYPES else [])


def types(function):
    """The type of the result of a function, and those of its parameters."""
    return [function.result, *(kind for kind, _ in function.parameters)]


def exported(source):
    """The types of each export of a source."""
    return {name: [RESULTS.get(result) or C_TYPES.get(result, "void"),
                   *(kind for one in parameters.split(",") for kind in c_types(one))]
            for name, parameters, result in EXPORT.findall(source)}


def crate_fields(name):
    """The fields of a structure of the crates, as pairs of a name and a type of C."""
    for path in CRATES.glob("*/src/**/*.rt"):
        body = re.search(rf"#\[repr\(C\)\]\n(?:#.*\n)*pub struct {name} \{{\n(.*?)\n\}}",
                         path.read_text(encoding="utf-8"), re.S)
        if body:
            return [(field, C_TYPES.get(kind))
                    for field, kind in re.findall(r"^    pub (\w+): (\w+),", body.group(1), re.M)]


def crate_table():
    """The texts that the crate sct_place has for each number: its name and its meaning."""
    found = collections.defaultdict(tuple)
    source = (CRATES / "sct_place" / "src" / "codes.rt").read_text(encoding="utf-8")
    for number, text in re.findall(r'\b(\d+)\s*=>\s*\{?\s*"((?:[^"\\]|\\.)*)"', source):
        found[int(number)] += (text,)
    return dict(found)


def body_of(source, name):
    """What a function of a source returns, which is one expression."""
    found = re.search(rf"\bfn {name}\(\).*?^\{{\n    (\S+)\n\}}", source, re.M | re.S)
    return found and found.group(1)


def crate_checks(version):
    """Compares sct_c and sct_place with the header."""
    source, versions = ((CRATES / name / "src" / "lib.rt").read_text(encoding="utf-8")
                        for name in ("sct_c", "sct_version"))
    major, minor, patch = map(int, version.split("."))
    number = str(major * 1000000 + minor * 1000 + patch)
    yield reported("what the program prints is VERSION", f'pub const VERSION: &str = "{version}";\n' in versions)
    is_number = body_of(source, VERSION) == "version_number()" and body_of(versions, "version_number") == number
    yield reported("sct_version of sct_c is VERSION", is_number)
    ours, theirs = {name: types(function) for name, function in given_away().items()}, exported(source)
    for name in sorted({*ours, *theirs}):
        yield reported(f"{name} of the header and of sct_c", ours.get(name) == theirs.get(name),
                       f"{ours.get(name)}, {theirs.get(name)}")
    for crate_name, name in RESULTS.items():
        yield reported(f"{name} and {crate_name} have the same fields", structures()[name] == crate_fields(crate_name))
    yield reported("sct_place has the numbers, names and meanings of the table", crate_table() == table(),
                   f"{crate_table()}")
    numbers = {(int(number), name) for number, name in codes.numbers_of_code()[0]}
    for number, (name, _) in sorted(table().items()):
        yield reported(f"{number} {name} of the header is of the code", (number, name) in numbers)


# ---- Python

def python_fields(structure):
    """The fields of a structure of ctypes, as pairs of a name and a type of C."""
    names = {"c_void_p": "void *", "c_bool": "bool", "c_ubyte": "uint8_t", "c_ulong": "uint64_t"}
    return [(name, names[kind.__name__]) for name, kind in structure._fields_]


def python_types(result, *arguments):
    """The types of a function, as C writes them, by those of ctypes. A text that only goes in is a c_char_p."""
    names = {"c_char_p": "const uint8_t *", "c_void_p": "uint8_t *", "c_ubyte": "uint8_t",
             "c_ushort": "uint16_t", "c_uint": "uint32_t",
             "c_ulong": "uint64_t", "LP_c_ulong": "uint64_t *", "LP_Handle": HANDLE}
    results = {structure: name for name, structure in PYTHON_RESULTS.items()}
    return [results.get(result) or (names[result.__name__] if result else "void"),
            *(names[argument.__name__] for argument in arguments)]


def in_python(function):
    """The types of a function as ctypes tells them apart: a size is a number, and a vector that is read is one that is
    written."""
    return [kind.replace("size_t", "uint64_t").replace("const uint64_t", "uint64_t") for kind in types(function)]


def python_calls():
    """The types of the functions that the Python package uses."""
    calls = {f"sct_raw_{name}": python_types(*found) for name, found in _library.CALLS.items()}
    others = {f"sct_{name}": python_types(*found) for name, found in _library.OTHERS.items()}
    return {**{name: [result, HANDLE, *arguments] for name, (result, *arguments) in calls.items()}, **others}


def python_checks(version):
    """Compares the Python package with the header."""
    yield reported("the version of the Python package is VERSION", _version.__version__ == version)
    ours, theirs = given_away(), python_calls()
    for name, function in ours.items():
        yield reported(f"{name} of the header and of Python", theirs.get(name) == in_python(function),
                       f"{function}, {theirs.get(name)}")
    yield reported("Python has no other function", set(theirs) == set(ours), f"{set(theirs) ^ set(ours)}")
    for name, fields in structures().items():
        same = [(field, kind.replace("size_t", "uint64_t")) for field, kind in fields]
        yield reported(f"{name} has the same fields in Python", same == python_fields(PYTHON_RESULTS[name]))


def version_checks(version):
    """Compares the numbers by which the Java package and the example in Rust know their library."""
    major, minor, _ = map(int, version.split("."))
    java = (TOP / "bindings" / "java" / "src" / "niluppang" / "Library.java").read_text(encoding="utf-8")
    yield reported("the Java package is for VERSION", f" MAJOR = {major};" in java and f" MINOR = {minor};" in java)
    rust = (TOP / "examples" / "embed" / "rust" / "src" / "site.rs").read_text(encoding="utf-8")
    yield reported("the example in Rust is for VERSION", f"const VERSION: u32 = {1000 * major + minor};" in rust)


def main():
    text = (TOP / "VERSION").read_text(encoding="utf-8")
    version = text.strip()
    right = [reported("VERSION is a line of three numbers", re.fullmatch(r"\d+\.\d+\.\d+\n", text) is not None)]
    right += [*header_checks(version), *python_checks(version), *version_checks(version)]
    if re.search(r"^sct_c\b", (TOP / "crates.txt").read_text(encoding="utf-8"), re.M):
        right += crate_checks(version)
    harness.end_of(right)


if __name__ == "__main__":
    main()
