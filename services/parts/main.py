"""main.py: answers on any number of files of messages, in parts that share nothing, on the workers of Dask.

The answers are those of `sct_sites` on all lines together. FOLDER gets whole.status, whole.totals, whole.archive,
whole.report, whole.kept and whole.closed, as they are asked for, and whole.refused. All workers must see FOLDER, the
files, the program and this package under the same paths. docs/users/parts.md has more.
"""
from __future__ import annotations
import argparse
import concurrent.futures
import contextlib
import fcntl
import hashlib
import importlib
import ipaddress
import json
import logging
import os
import pathlib
import re
import resource
import shutil
import subprocess
import sys
import urllib.parse
import warnings
from typing import Any, Iterator

sys.path.insert(0, str(pathlib.Path(__file__).resolve().parents[1]))
try:
    from distributed import Client, LocalCluster, Security, as_completed
except ImportError as missing:
    print(f"parts: {sys.executable} has no {missing.name}. Debian's packages python3-dask and "
          "python3-distributed belong to /usr/bin/python3: start this program with it", file=sys.stderr)
    sys.exit(2)
from hub.places import of_release
from parts import lists, parts, ties
from parts.files import Stop, read_json, whole
from parts.progress import STEPS, Progress

PACKAGE = pathlib.Path(__file__).resolve().parent
CHECKED = ["status", "archive"]  # what the check of the parts reads
HEAD = 256  # bytes that show what a file is
# how files begin that have no lines of messages, and what they are
KINDS = [(b"\x1f\x8b", "compressed by gzip: unpack it"), (b"PK\3\4", "a workbook or a ZIP archive: unpack it"),
         (b"BZh", "compressed by bzip2: unpack it"),
         (b"\xfd7zXZ", "compressed by xz: unpack it"), (b"\x28\xb5\x2f\xfd", "compressed by zstd: unpack it"),
         (b"\xff\xfe", "in UTF-16: save it in UTF-8"), (b"\xfe\xff", "in UTF-16: save it in UTF-8")]
OF_LIST = "archive"  # what the check of a list reads
BAD_LIST = b"fault 48 "  # how the program refuses a list
TEXTS = ["status", "totals", "archive", "report", "kept", "closed", "refused"]
OURS = "niluppang parts"  # the mark of a plan that this program wrote
UNITS = {"": 1, "B": 1, **{unit + "iB": 1 << 10 * power for power, unit in enumerate("KMGT", 1)},
         **{unit + "B": 1000 ** power for power, unit in enumerate("kMGT", 1)}, "KB": 1000}
MOST_PART = 1 << 30  # bytes that `sct_sites` takes
WORK = ["keys", "cuts", "parts", "answers", "merged", "merging", "done", "dask"]  # the folders of the work
HERE = "127.0.0.1"
FILL = 0.75  # a part is meant to have so much of the bytes that it may have, since parts are not all of one size


# ---- what is asked

def number(text: str) -> int:
    """A number from 1 on."""
    if not text.isascii() or not text.isdecimal() or not 1 <= int(text) <= sys.maxsize:
        raise argparse.ArgumentTypeError(f"{text} is not a number from 1 on")
    return int(text)


def size(text: str, most: int = sys.maxsize) -> int:
    """A number of bytes from 1 on, which may have a unit."""
    match = re.fullmatch(r"([0-9]{1,18}) ?([A-Za-z]*)", text)
    bytes_of_all = int(match[1]) * UNITS.get(match[2], 0) if match else 0
    if not bytes_of_all:
        raise argparse.ArgumentTypeError(f"{text} is not a size such as 134217728, 128MiB or 1GB")
    if bytes_of_all > most:
        raise argparse.ArgumentTypeError(f"{text} is more than {most} bytes")
    return bytes_of_all


def part_size(text: str) -> int:
    """How many bytes a part may have."""
    return size(text, MOST_PART)


def words() -> argparse.ArgumentParser:
    """The words of the command line."""
    parser = argparse.ArgumentParser(prog="main.py", description=__doc__,
                                     formatter_class=argparse.RawDescriptionHelpFormatter)
    parser.add_argument("folder", metavar="FOLDER", help="where the answers go")
    parser.add_argument("files", metavar="FILE", nargs="+", help="a file of messages, as docs/users/formats.md says")
    parser.add_argument("--ask", metavar="WORDS", default="status,totals,archive",
                        help="which of these three, with commas (all)")
    parser.add_argument("--report", metavar=("BANK", "DAY", "LIST"), nargs=3, help="a report on a bank's list too")
    parser.add_argument("--keep", metavar="DAY", help="what is kept on a day, too")
    parser.add_argument("--closed", metavar="DAY", help="what is closed on a day, too")
    parser.add_argument("--scheduler", metavar="ADDRESS", help="the scheduler of a cluster (workers on this machine)")
    parser.add_argument("--tls-ca", metavar="FILE", help="who signs the certificates of a cluster at tls://")
    parser.add_argument("--tls-cert", metavar="FILE", help="the certificate that is shown to it")
    parser.add_argument("--tls-key", metavar="FILE", help="the key of that certificate")
    parser.add_argument("--plain", action="store_true",
                        help="use a cluster on other machines without TLS: whoever reaches it runs programs there")
    parser.add_argument("--progress", action="store_true",
                        help="say on standard error how far it is, and how long it takes (a terminal shows it always)")
    parser.add_argument("--workers", metavar="N", type=number, default=len(os.sched_getaffinity(0)),
                        help="workers on this machine")
    parser.add_argument("--parts", metavar="N", type=number, default=1, help="cut into so many parts at least")
    parser.add_argument("--most", metavar="SIZE", type=part_size, default=128 << 20,
                        help="a part has so much at most, such as 500MB (128MiB)")
    parser.add_argument("--block", metavar="SIZE", type=size, default=64 << 20,
                        help="bytes of a file that are read at once (64MiB)")
    parser.add_argument("--program", metavar="PATH",
                        help="sct_sites (the variable SCT_SITES, the search path, then that of the release)")
    parser.add_argument("--unchecked", action="store_true", help="do not check that the parts share nothing")
    parser.add_argument("--leave-parts", action="store_true", help="leave the parts and their answers in FOLDER/work")
    return parser


def program_of(given: str | None) -> str:
    """The path of the program."""
    path = shutil.which(given or os.environ.get("SCT_SITES") or "sct_sites") or (None if given
                                                                                 else str(of_release() or "")) or None
    if path is None:
        raise Stop("there is no program sct_sites: name it by --program or by the variable SCT_SITES")
    return os.path.abspath(path)


def commands_of(args: argparse.Namespace) -> tuple[list[Any], list[Any]]:
    """The words of the command line for each word that is asked for, and for what the checks read."""
    plain = [word for word in args.ask.split(",") if word]
    if not set(plain) <= {"status", "totals", "archive"}:
        raise Stop(f"--ask takes status, totals and archive, and not {args.ask}")
    report = args.report and ["report", *args.report[:2], os.path.abspath(args.report[2])]
    days = [[word, [command, "--", day]]
            for word, command, day in (("kept", "keep", args.keep), ("closed", "closed", args.closed))
            if day is not None]
    wanted = [[word, [word]] for word in plain] + [["report", report]] * bool(report) + days
    more = [[word, [word]] for word in CHECKED if word not in plain
            and (not args.unchecked or report and word == OF_LIST)]
    if not wanted:
        raise Stop("nothing is asked for")
    return wanted, more


def mark(path: str | pathlib.Path) -> list[Any]:
    """A file by its path, its size and the time of its last change."""
    path = os.path.abspath(path)
    there = os.stat(path)
    return [path, there.st_size, there.st_mtime_ns]


def must_be_lines(path: str) -> None:
    """Stops at a file that is compressed, XML, a workbook or in UTF-16, by its first bytes."""
    with open(path, "rb") as file:
        head = file.read(HEAD)
    kind = next((what for beginning, what in KINDS if head.startswith(beginning)), None)
    if kind is None and head.removeprefix(b"\xef\xbb\xbf").lstrip().startswith(b"<"):
        kind = "XML: a converter makes JSON lines of it, such as tools/desk/from_iso20022.py"
    if kind:
        raise Stop(f"{path} is {kind}")


def plan_of(args: argparse.Namespace) -> dict[str, Any]:
    """What a run does: if it is the same as that of a run that was cut off, the work goes on where it stopped."""
    wanted, more = commands_of(args)
    for path in args.files:
        must_be_lines(path)
    program = program_of(args.program)
    list_of_bank = [mark(args.report[2])] if args.report else []
    code = code_sum(lists.tools() if args.report else [])
    return {"made by": OURS, "code": code, "files": [mark(path) for path in args.files], "program": mark(program),
            "wanted": wanted, "more": more,
            "list": list_of_bank, "parts": args.parts, "most": args.most, "block": args.block}


def code_sum(more: list[str]) -> str:
    """A sum of the code of this program, and of more files: work that other code began is not gone on with."""
    sums = hashlib.sha256()
    for path in [*sorted(PACKAGE.glob("*.py")), *map(pathlib.Path, more)]:
        sums.update(path.name.encode() + path.read_bytes())
    return sums.hexdigest()


# ---- the folder

@contextlib.contextmanager
def alone_in(folder: pathlib.Path) -> Iterator[None]:
    """The folder, in which no other run is at work."""
    if folder.exists() and not folder.is_dir():
        raise Stop(f"{folder} is a file: the first word is the folder for the answers")
    folder.mkdir(parents=True, exist_ok=True)
    with open(folder / "lock", "ab") as lock:
        try:
            fcntl.flock(lock, fcntl.LOCK_EX | fcntl.LOCK_NB)
        except BlockingIOError:
            raise Stop(f"another run is at work in {folder}") from None
        yield


def is_ours(file: pathlib.Path) -> bool:
    """Whether a plan is one that this program wrote."""
    plan = read_json(file)
    return isinstance(plan, dict) and plan.get("made by") == OURS


def remove_work(work: pathlib.Path) -> None:
    """Removes what a run left in the folder of the work, and the folder if nothing else is in it."""
    for name in WORK:
        shutil.rmtree(work / name, ignore_errors=True)
    for name in ("roots", "plan.json"):
        with contextlib.suppress(FileNotFoundError):
            (work / name).unlink()
    with contextlib.suppress(OSError):
        work.rmdir()


def made_before(folder: pathlib.Path) -> dict[str, Any]:
    """The texts that runs have put into a folder, each with its size and the time of its last change. They are in the
    file of the lock."""
    made = read_json(folder / "lock")
    return made if isinstance(made, dict) else {}


def note_made(folder: pathlib.Path, texts: dict[str, pathlib.Path]) -> None:
    """Notes texts by their names and files as made by this program, so that a later run may remove them."""
    (folder / "lock").write_text(json.dumps({name: mark(path)[1:] for name, path in texts.items()}))


def remove_texts(folder: pathlib.Path) -> None:
    """Removes the texts of an earlier run. One that this program did not make, or that changed since, stays, and the
    run ends."""
    made = made_before(folder)
    there = [f"whole.{word}" for word in TEXTS if (folder / f"whole.{word}").exists()]
    for name in there:
        if made.get(name) != mark(folder / name)[1:]:
            raise Stop(
                f"{folder / name} is there, and this program did not make it so: move it away, or name another folder")
    for name in there:
        (folder / name).unlink()
    note_made(folder, {})


def prepared(folder: pathlib.Path, plan: dict[str, Any]) -> pathlib.Path:
    """The folder of the work. What an earlier run left there stays if it had the same plan."""
    work = folder / "work"
    file = work / "plan.json"
    if work.exists() and not is_ours(file) and any(work.iterdir()):
        raise Stop(f"{work} is there, and this program did not make it: move it away, or name another folder")
    if read_json(file) != plan:
        remove_texts(folder)
        remove_work(work)
        with whole(file) as target:
            target.write(json.dumps(plan).encode())
    return work


# ---- the steps

class Steps:
    """The steps of the work on the workers. The result of each call is kept in the folder, for a run that goes on."""

    def __init__(self, client: Client, work: pathlib.Path, is_kept: bool, progress: Progress) -> None:
        self.client, self.work, self.is_kept, self.progress = client, str(work), is_kept, progress

    def each(self, name: str, function: str, calls: list[list[Any]]) -> list[Any]:
        """The results of a function of a module on the folder of the work, for each list of its other arguments."""
        jobs = [[str(PACKAGE.parent), self.work, name, number, function, its] for number, its in enumerate(calls)]
        calls = self.client.map(kept_call, jobs, pure=False)
        if self.progress.is_shown:
            self.progress.say(name, 0, len(calls))
            for done, _ in enumerate(as_completed(calls), 1):
                self.progress.say(name, done, len(calls))
        return self.client.gather(calls)

    def drop(self, folder: str) -> None:
        """Removes files that no later step reads."""
        if not self.is_kept:
            shutil.rmtree(f"{self.work}/{folder}", ignore_errors=True)


def kept_call(call: list[Any]) -> Any:
    """One call of a step, on a worker, which finds this package under the same path."""
    top, work, name, number, function, its = call
    if top not in sys.path:
        sys.path.insert(0, top)
    module, _, word = function.rpartition(".")
    files, made = importlib.import_module("parts.files"), getattr(importlib.import_module(module), word)
    return files.kept(f"{work}/done/{name}.{number}", lambda: made(work, *its))


def tied(steps: Steps, blocks: list[parts.Block], read: list[dict[str, Any]], buckets: int) -> int:
    """Writes the root of each tied transfer. The result is how many are tied."""
    slices = [[[block.number, *its["ends"][bucket:bucket + 2]] for block, its in zip(blocks, read)]
              for bucket in range(buckets)]
    of_buckets = steps.each("ties", "parts.ties.pairs_in", [[its] for its in slices])
    pairs = [pair for its in read for pair in its["pairs"]] + [pair for its in of_buckets for pair in its]
    roots = ties.Ties(pairs).roots()
    with whole(f"{steps.work}/roots") as file:
        for pair in sorted(roots.items()):
            file.write(b"".join(number.to_bytes(8, sys.byteorder) for number in pair))
    return len(roots)


def lines_before(blocks: list[parts.Block], read: list[dict[str, Any]]) -> list[int]:
    """How many lines of its file come before each block."""
    before: dict[int, int] = {}
    counts = []
    for block, its in zip(blocks, read):
        counts.append(before.setdefault(block.file, 0))
        before[block.file] += its["lines"]
    return counts


def cut(steps: Steps, blocks: list[parts.Block], plan: dict[str, Any]) -> tuple[list[Any], int]:
    """Cuts all lines into parts. The result has the name, the bytes and the lines of each, and how many transfers are
    tied."""
    buckets = min(len(blocks), parts.MOST_BUCKETS)
    read = steps.each("read", "parts.parts.read_block", [[list(block), buckets] for block in blocks])
    many = tied(steps, blocks, read, buckets)
    size_of_all = sum(its for _, its, _ in plan["files"])
    number = max(plan["parts"], int(size_of_all / (plan["most"] * FILL)) + 1)
    calls = [[list(block), before, number] for block, before in zip(blocks, lines_before(blocks, read))]
    pieces = steps.each("cut", "parts.parts.cut_block", calls)
    steps.drop("keys")
    gathered = steps.each("gather", "parts.parts.gather_part", [[part, pieces, plan["most"]] for part in range(number)])
    steps.drop("cuts")
    made = [one for its in gathered for one in its]
    if sum(lines for _, _, lines in made) != sum(its["lines"] - its["blank"] for its in read):
        raise Stop("the parts have other lines than the files")
    return made, many


def check_list(steps: Steps, names: list[str], words: list[str]) -> None:
    """Stops if a list has a row that is a transfer of other banks. What is said of other rows is printed."""
    *_, bank, day, path = words
    held = steps.each("check", "parts.lists.held_in_part", [[name, path] for name in names])
    faults, notes = lists.findings(bank, day, path, held)
    steps.progress.end()
    for text in faults + notes:
        print(f"parts: {text}", file=sys.stderr)
    if faults:
        raise Stop(f"there is no report on {path}")


def answered(steps: Steps, plan: dict[str, Any]) -> tuple[list[str], str, int]:
    """Asks the program on each part, and merges its answers. The result is a line that says what was done, and how many
    lines were refused."""
    blocks = parts.blocks_of([path for path, _, _ in plan["files"]], plan["block"])
    made, many = cut(steps, blocks, plan)
    names, commands = [name for name, _, _ in made], plan["wanted"] + plan["more"]
    refused = sum(steps.each("answer", "parts.answers.answer_part",
                             [[name, plan["program"][0], commands] for name in names]))
    steps.drop("parts")
    for words in [words for word, words in plan["wanted"] if word == "report"]:
        check_list(steps, names, words)
    wanted = [word for word, _ in plan["wanted"]] + ["refused"]
    calls = [[names, word, len(plan["files"]), word in wanted] for word in [word for word, _ in commands] + ["refused"]]
    steps.each("merge", "parts.merge.merge", calls)
    lines = sum(lines for _, _, lines in made)
    return wanted, f"lines {lines}, refused {refused}, tied transfers {many}, parts {len(names)}", refused


# ---- the workers

@contextlib.contextmanager
def workers(args: argparse.Namespace, work: pathlib.Path) -> Iterator[Client]:
    """The workers: those of a cluster, or some on this machine, which nobody else reaches."""
    if args.scheduler:
        with Client(args.scheduler, security=security_of(args)) as client:
            yield client
        return
    # what Dask leaves undone when it ends is no part of the answer
    logging.getLogger("asyncio").setLevel(logging.CRITICAL)
    warnings.simplefilter("ignore", RuntimeWarning)
    try:
        security = Security.temporary()
    except ImportError:
        raise Stop("there is no python3-cryptography: without it every user of this machine could run programs in the "
                   "workers") from None
    how = {"threads_per_worker": 1, "local_directory": f"{work}/dask", "silence_logs": logging.CRITICAL,
           "security": security, "host": HERE,
           "dashboard_address": f"{HERE}:0", "worker_dashboard_address": f"{HERE}:0"}
    with LocalCluster(n_workers=args.workers, **how) as cluster, Client(cluster) as client:
        yield client


def security_of(args: argparse.Namespace) -> Security | None:
    """How the scheduler of a cluster is spoken to."""
    address = urllib.parse.urlsplit(args.scheduler)
    files = [args.tls_ca, args.tls_cert, args.tls_key]
    if address.scheme == "tls" or any(files):
        if address.scheme != "tls" or not all(files):
            raise Stop("a cluster at tls:// needs --tls-ca, --tls-cert and --tls-key")
        return Security(tls_ca_file=files[0], tls_client_cert=files[1], tls_client_key=files[2],
                        require_encryption=True)
    if not args.plain and not is_here(address.hostname or ""):
        raise Stop(f"{args.scheduler} is spoken to without TLS: whoever reaches that network runs programs on all "
                   "workers. Use tls://, or say by --plain that nobody else reaches it")
    return None


def is_here(host: str) -> bool:
    """Whether a host is this machine."""
    try:
        return ipaddress.ip_address(host).is_loopback
    except ValueError:
        return host == "localhost"


@contextlib.contextmanager
def shown(args: argparse.Namespace) -> Iterator[Progress]:
    """What says how far the run is. Its line is gone in the end."""
    progress = Progress([step for step in STEPS if step != "check" or args.report], args.progress)
    try:
        yield progress
    finally:
        progress.end()


def is_taken(plan: dict[str, Any]) -> None:
    """Stops if a report has wrong words, and as the program does if it takes no such list or day: it reads these before
    any message."""
    for word, its in plan["wanted"]:
        if word == "report":
            wrong = lists.wrong_word(*its[1:3])
            if wrong:
                raise Stop(wrong)
        if len(its) > 1:
            done = subprocess.run([plan["program"][0], *its], stdin=subprocess.DEVNULL, stdout=subprocess.DEVNULL,
                                  stderr=subprocess.PIPE)
            if done.returncode and word == "report" and done.stderr.startswith(BAD_LIST):
                faults, why = lists.of_spreadsheet(its[3])
                for text in faults:
                    print(f"parts: {text}", file=sys.stderr)
                raise Stop(why, done.returncode)
            if done.returncode:
                raise Stop(done.stderr.decode(errors="replace").strip(), done.returncode)


def run(args: argparse.Namespace) -> int:
    """The exit status of the run, which is 1 if a line was refused."""
    plan, folder = plan_of(args), pathlib.Path(args.folder).resolve()
    is_taken(plan)
    with alone_in(folder):
        work = prepared(folder, plan)
        with workers(args, work) as client, shown(args) as progress:
            wanted, done, refused = answered(Steps(client, work, args.leave_parts, progress), plan)
        if plan_of(args) != plan:
            raise Stop("a file changed while it was read")
        remove_texts(folder)
        # a file that is moved keeps its time
        note_made(folder, {f"whole.{word}": work / "merged" / word for word in wanted})
        for word in wanted:
            os.replace(work / "merged" / word, folder / f"whole.{word}")
        if not args.leave_parts:
            remove_work(work)
    print(done)
    return 1 if refused else 0


def main() -> None:
    os.umask(0o077)  # parts and answers are payments of customers: nobody else of this machine reads them
    _, most = resource.getrlimit(resource.RLIMIT_NOFILE)
    resource.setrlimit(resource.RLIMIT_NOFILE,
                       (min(most, 1 << 16) if most != resource.RLIM_INFINITY else 1 << 16, most))
    try:
        sys.exit(run(words().parse_args()))
    except Stop as stop:
        print(f"parts: {stop.why}", file=sys.stderr)
        sys.exit(stop.status)
    except (Exception, concurrent.futures.CancelledError, KeyboardInterrupt) as error:
        print(f"parts: {str(error) or type(error).__name__}", file=sys.stderr)
        sys.exit(2)


if __name__ == "__main__":
    main()
