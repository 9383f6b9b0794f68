"""parts.py: the program of services/parts/, which asks `sct_sites` on parts of an input, answers as `sct_sites` alone
does.

- The examples, with their own texts.
- 20,000 messages in 7 files, in any order: repeated, refused and blank lines, identities that are contradicted across
files, recalls
  of up to 100 transfers. It is cut into parts of a given number, and into smaller ones than fit. Then a worker is
  killed.
- Made-up small inputs, on the workers of a cluster that has an address. `tests/golden/parts.py N` tries N of them.
- A full disk, a run that goes on where another one stopped, a run on other files in its folder, one with other code,
and messages that are
  tied together and too large for a part.
- A list with rows of other banks or of another day, sizes with units, and how far a run is, by a clock that is set.
- A folder with what the program did not make, errors that nobody foresaw, who listens while it works, a cluster over
TLS, and texts of more
  parts than a process may have files.
- A program that names one transfer or one identity in each part, and one that takes what is not a message: the check
finds that.
- The commands of docs/users/parts.md, and the words with which it starts Dask.

On the stand-in of the program the large input is smaller. It needs the Debian packages python3-dask and
python3-distributed. Without them nothing passes and nothing fails, and a line says so.
"""
import collections
import contextlib
import fcntl
import glob
import io
import json
import os
import pathlib
import random
import re
import shutil
import subprocess
import sys
import tempfile
from concurrent.futures import ThreadPoolExecutor
from bench.generate import messages, samples
from tests import harness, inputs
from tests.golden.shown import is_printed, place, shell, shown
from tests.hub import sites
from tests.hub.secure import certificate
from tests.harness import DESK, EXAMPLES, SERVICES, TOP, reported
from tests.oracle.status import Refused, read_message
from tests.property.messages import Pool, shuffled, written_out
from tests.property.worlds import refused_list, refused_text
sys.path.insert(0, str(SERVICES))
from parts import progress

MAIN = SERVICES / "parts" / "main.py"
PACKAGES = "python3-dask python3-distributed python3-cryptography"
MANY, MOST = 20000, 500000  # messages of the large input, and bytes of a part that is cut again
FEW, LESS, FEWER_MADE_UP = 4000, 200000, 4  # on the stand-in
MADE_UP, SEED = 12, 20261127
# the words with which docs/users/parts.md starts the commands of Dask
DASK = {"dask_scheduler": ["--tls-ca-file", "--tls-cert", "--tls-key"],
        "dask_worker": ["--nthreads", "--tls-ca-file", "--tls-cert", "--tls-key"]}
COMMANDS = ["status", "totals", "archive"]
KEEP = {"kept": ["keep", inputs.DAY], "closed": ["closed", inputs.DAY]}
NOT_MESSAGES = ["foo", "{}", "[]", "\x0c", '{"MsgNmId":"pacs.008"}', '{"MsgNmId":"camt.056","TxInf":[]}', "\ufeff{}",
                " \t\r", ""]

# a program that runs another one, after it did something to the worker that runs it
ONCE_KILLED = '#!/bin/sh\n[ "$1" = status ] && mkdir "$0.killed" 2> /dev/null && kill -9 $PPID\nexec {} "$@"\n'
# a program that ends with status 2 from its eleventh call on, as long as a file is there; each call adds a line to
# another file
STOPS = ('#!/bin/sh\necho "$1" >> "$0.calls"\n[ -e "$0.stop" ] && [ $(wc -l < "$0.calls") -gt 10 ] && exit '
         '2\nexec {} "$@"\n')

# programs that answer what they must not: each part has one transfer, or one identity, or refuses nothing
LIES = {
    "a transfer": '#!/bin/sh\n[ "$1" = status ] || exec {0} "$@"\n{0} "$@" > /dev/null\nstatus=$?\necho "T|A|T1|PENDING"\nexit $status\n',
    "an identity": '#!/bin/sh\n[ "$1" = archive ] || exec {0} "$@"\n{0} "$@" > /dev/null\nstatus=$?\n'
                   'echo \'{{"CdtrAgt":"B","DbtrAgt":"A","InstgAgt":"A","IntrBkSttlmDt":"","MsgId":"M","MsgNmId":"pacs.008","TxId":"T"}}\'\n'
                   'exit $status\n',
    "no refused line": '#!/bin/sh\n{0} "$@" 2> /dev/null\nexit 0\n',
}


def interpreter():
    """A Python that has Dask, or None. Debian's packages are those of /usr/bin/python3."""
    for path in (sys.executable, "/usr/bin/python3"):
        if os.path.isfile(path) and harness.run([path, "-c", "import dask, distributed, cryptography"]).status == 0:
            return path
    return None


# ---- inputs

def contradicting(r, lines):
    """A line with the identity of one of these, on the transfer of another one or with another amount."""
    one, other = (json.loads(r.choice(lines)) for _ in range(2))
    if "OrgnlTxId" in one:
        transfer = other.get("OrgnlTxId", other.get("TxId"))
        return json.dumps({**one, "OrgnlTxId": transfer, "DbtrAgt": other["DbtrAgt"]})
    return json.dumps({**one, "IntrBkSttlmAmt": "7.77"})


# a BIC of 8 characters with its key, which is one bank with the BIC of 11 that has XXX after it
SHORT_BIC = re.compile(r'("[A-Z][a-z]+Agt":"[A-Z0-9]{8})"')


def large_input(r, many):
    """So many lines in any order: messages, most of them on a transfer of their own, and what the head of this page
    says."""
    lines = [line[:-1] for line in messages.lines(many * 9 // 10)]
    instructed = [line for line in lines if '"TxId"' in line]
    more = [inputs.recall(number, instructed[at:at + r.choice([2, 10, 100])])[:-1]
            for number in range(many * 3 // 1000) for at in [r.randrange(len(instructed) - 100)]]
    more += [contradicting(r, lines) for _ in range(many // 200)] + r.choices(NOT_MESSAGES, k=100)
    more += [line.replace('"Ccy":"EUR"', '"Ccy":"USD"') + "\r" for line in r.sample(lines, 50)]
    more += [SHORT_BIC.sub(r'\1XXX"', line) for line in r.sample(lines, many - len(lines) - len(more))]
    whole = lines + more
    r.shuffle(whole)
    return [line.encode() for line in whole]


def files_of(r, folder, lines, many):
    """The paths of so many files with these lines. The last line of a file has no line feed, unless it is blank."""
    ends = sorted(r.choices(range(len(lines) + 1), k=many - 1))
    texts = [b"\n".join(lines[begin:end]) for begin, end in zip([0] + ends, ends + [len(lines)])]
    return inputs.files_of(folder, "messages", texts)


def small_input(r):
    """A few messages that meet one another, refused lines and blank ones."""
    pool = Pool(r)
    made = [pool.message() for _ in range(r.randint(1, 25))]
    lines = [shuffled(r, message) for message in made + [written_out(message)
                                                         for message in r.sample(made, len(made) // 2)]]
    lines += [refused_text(r, r.choice(made)) for _ in range(r.randint(0, 3))] + [shuffled(r, refused_list(r, made))]
    lines += [b"", b" \r", "é".encode("latin-1")]
    r.shuffle(lines)
    return lines


def instructions_in(lines):
    """The first instructions among some lines."""
    for line in [line for line in lines if b"CdtrAcct" in line][:500]:
        with contextlib.suppress(Refused):
            if read_message(line)[0] == "pacs.008":
                yield json.loads(line)


def list_of(r, lines):
    """A bank, a day, and a list of rows on the first transfers of that bank, of which some are twice, and on two that
    no message names."""
    instructed = list(instructions_in(lines)) or [samples.instruction()]
    bank, day = instructed[0]["CdtrAgt"], instructed[0]["IntrBkSttlmDt"]
    keys = [(one["DbtrAgt"], one["TxId"], one["IntrBkSttlmAmt"]) for one in instructed
            if bank in (one["DbtrAgt"], one["CdtrAgt"])]
    rows = keys[:300:2] + keys[:20] + [(bank, "T,1", "1.00"), (bank, "T0", "2.00")]
    text = "".join(f'{one},"{two}",{amount},{r.choice(["ACCEPTED", "PENDING"])}\n' for one, two, amount in rows)
    return bank, day, ("DbtrAgt,TxId,Amt,Sts\n" + text).encode()


def listed(r, lines, path):
    """Writes a list of a bank on some lines to a file. The words of a report on it."""
    bank, day, text = list_of(r, lines)
    path.write_bytes(text)
    return [bank, day, str(path)]


# ---- what sct_sites alone answers, and what the program in parts does

def alone(program, files, report):
    """What `sct_sites` writes on all files together, by the name of the text, and its exit status."""
    lines = b"\n".join(pathlib.Path(file).read_bytes() for file in files)
    texts, status = {}, None
    for word, words in [(word, [word]) for word in COMMANDS] + [*KEEP.items(), ("report", ["report", *report])]:
        answer = harness.run([program, *words], lines)
        texts[f"whole.{word}"], status = answer.text, answer.status
    refused = harness.run([program, "run", *files]).errors if len(files) > 1 else answer.errors
    return {**texts, "whole.refused": refused}, status


def texts_in(folder):
    return {path.name: path.read_bytes() for path in pathlib.Path(folder).glob("whole.*")}


Right = collections.namedtuple("Right", "texts status")


class Tried:
    """The program in parts on some files with a list, and what it must write."""
    main = MAIN

    def __init__(self, python, program, files, report):
        self.python, self.program, self.files, self.report = python, program, files, report
        self.right = Right(*alone(program, files, report))

    def run(self, folder, *words, program=None, **more):
        """The answer of the program in parts, which writes to the folder."""
        days = ["--keep", inputs.DAY, "--closed", inputs.DAY]
        words = ["--program", program or self.program, *days, *words, "--report", *self.report]
        return harness.run([self.python, self.main, *words, folder, *self.files], **more)

    def is_right(self, name, folder, *words, **more):
        """Whether it writes the right texts and ends as it must, which is printed."""
        self.answer, texts = self.run(folder, *words, **more), texts_in(folder)
        wrong = [text for text, right in self.right.texts.items() if texts.get(text) != right]
        return reported(name, Right(texts, self.answer.status) == self.right, f"{self.answer}, {wrong}")

    def parts(self):
        """How many parts there were, by the line that the program printed."""
        return int(self.answer.text.split()[-1])

    def stops(self, name, why, folder, *words, **more):
        """Whether it ends with status 2, says why, and leaves no text."""
        answer = self.run(folder, *words, **more)
        right = answer.status == 2 and why in answer.errors.decode() and not texts_in(folder)
        return reported(name, right, f"{answer}")


def script(folder, name, text, program):
    """The path of a program that runs another one."""
    path = pathlib.Path(folder, name)
    path.write_text(text.format(program))
    path.chmod(0o755)
    return str(path)


def copied_code(folder):
    """A copy of the program, which may be changed, beside the package that finds the tools of the desk."""
    code = shutil.copytree(SERVICES / "parts", pathlib.Path(folder, "code", "parts"),
                           ignore=shutil.ignore_patterns("__pycache__"))
    (code.parent / "hub").symlink_to(SERVICES / "hub")
    return code


# ---- what is tried

def large(r, python, program, folder):
    """The large input: as it is, in smaller parts than fit, and with a worker that is killed."""
    many, most = (FEW, LESS) if program == str(harness.STAND_IN) else (MANY, MOST)
    lines = large_input(r, many)
    report = listed(r, lines, pathlib.Path(folder, "rows.list"))
    tried = Tried(python, program, files_of(r, folder, lines, 7), report)
    out = pathlib.Path(folder, "out")
    yield tried.is_right(f"{many} messages in 7 files", out, "--workers", "2", "--parts", "7", "--block", "300000")
    yield tried.is_right(f"the same in parts of {most} bytes at most", out, "--workers", "2", "--most", str(most))
    yield reported("some of these parts were cut again",
                   tried.parts() > sum(map(os.path.getsize, tried.files)) // (most * 3 // 4) + 1)
    killing = script(folder, "killing", ONCE_KILLED, program)
    yield tried.is_right("the same with a worker that is killed", out, "--workers", "2", "--parts", "4",
                         program=killing)
    yield reported("a worker was killed", os.path.isdir(killing + ".killed"))
    shutil.rmtree(out)
    yield tried.stops("a full disk", "File too large", out, "--workers", "2", room=200000)
    yield tried.is_right("the same folder with room again", out, "--workers", "2")


def asks(tried, calls, name, everything, out, *asked, program):
    """Whether a run asked as often as one in a new folder does, or less often."""
    count = len(calls.read_text().split())
    calls.unlink()
    yield tried.is_right(f"{name}, in a new folder", out, *asked, program=program)
    right = count == len(calls.read_text().split()) if everything else count < len(calls.read_text().split())
    calls.unlink()
    yield reported(f"{name} asks {'everything' if everything else 'what was not asked'}", right)


def going_on(r, python, program, folder):
    """A run that goes on where another one stopped, and one on a file that changed, which begins anew."""
    lines, path, out = small_input(r) + small_input(r), pathlib.Path(folder, "rows.list"), pathlib.Path(folder, "out")
    report = listed(r, lines, path)
    files, stopping = files_of(r, folder, lines, 2), script(folder, "stopping", STOPS, program)
    stop, calls = pathlib.Path(stopping + ".stop"), pathlib.Path(stopping + ".calls")
    asked, more = ["--workers", "1", "--parts", "4"], b"\n" + shuffled(r, Pool(r).message())
    for name, change in ("a run that goes on", b""), ("a run on a file that changed", more):
        stop.touch()
        tried = Tried(python, program, files, report)
        yield tried.stops("a program that fails", "ended with status 2", out, *asked, program=stopping)
        stop.unlink()
        calls.unlink()
        with open(files[0], "ab") as file:
            file.write(change)
        tried = Tried(python, program, files, report)
        yield tried.is_right(name, out, *asked, program=stopping)
        yield from asks(tried, calls, name, bool(change), pathlib.Path(folder, f"{name} at once"), *asked,
                        program=stopping)


def refusing(r, python, program, folder):
    """Messages that are tied together and too large for a part, and programs that answer what they must not."""
    lines = [line.encode() for line in messages.lines(40)]
    tie = inputs.recall(1, [line.decode() for line in lines])[:-1].encode()
    path, out = pathlib.Path(folder, "rows.list"), pathlib.Path(folder, "out")
    report = listed(r, lines, path)
    tried = Tried(python, program, files_of(r, folder, lines + [tie, b"foo"], 2), report)
    yield tried.stops("messages that are tied together", "|camt.056|K1 names 2", out, "--most", "8000", "--workers",
                      "1")
    for word in "--keep", "--closed":
        yield tried.stops(f"{word} of a day that is none", "fault 64", out, word, "2025-3-11", "--workers", "1")
        yield tried.stops(f"{word} of a word that is an option of the program", "fault 64", out, word + "=--help",
                          "--workers", "1")
    for what, text in LIES.items():
        lying = script(folder, "lying", text, program)
        why = "has no keys" if what == "no refused line" else f"share the {what.split()[-1]}"
        yield tried.stops(f"a program that has {what} too many", why, out, "--parts", "3", "--workers", "1",
                          program=lying)


def examples(python, program, folder):
    """The examples with their texts."""
    for name in ("hub-morning", "recall-batch", "bank-day", "refusals"):
        right = {f"whole.{word}": (EXAMPLES / f"{name}.{word}").read_bytes() for word in COMMANDS}
        refused = EXAMPLES / f"{name}.refused"
        right["whole.refused"] = refused.read_bytes() if refused.exists() else b""
        out = pathlib.Path(folder, name)
        answer = harness.run([python, MAIN, "--program", program, "--workers", "1", "--parts", "3", out,
                              EXAMPLES / f"{name}.jsonl"])
        yield reported(name, (texts_in(out), answer.status) == (right, 1 if right["whole.refused"] else 0), f"{answer}")


# ---- the check of a list, sizes, and how far a run is

def checking(python, program, folder):
    """A list is checked before a report, as the desk does it: with the same sentences, and also if the archive is not
    asked for."""
    listed = EXAMPLES / "bank-day.list"
    begin, check = [python, MAIN, "--program", program, "--workers", "1"], [sys.executable, DESK / "check_list.py"]

    def report(out, words, *asked):
        return harness.run([*begin, *asked, "--report", *words, listed, folder + out, EXAMPLES / "bank-day.jsonl"])

    def checked(*words):
        return harness.run([*check, *words, listed, EXAMPLES / "bank-day.archive"]).errors

    def as_said(*words):
        return checked(*words).replace(b"check_list: ", b"parts: ")

    right, said = (EXAMPLES / "bank-day.report").read_bytes(), as_said("LUTEFRPP", "2025-03-10")
    for out, *asked in (["/all", "--parts", "3"], ["/less", "--ask", "totals", "--unchecked"]):
        answer = report(out, ("LUTEFRPP", "2025-03-10"), *asked)
        yield reported(f"a report with a row of another day, {' '.join(asked)}",
                       (texts_in(folder + out).get("whole.report"), answer.status,
                        answer.errors) == (right, 0, said) and said.count(b"row 9: ") == 1, f"{answer}")
    answer, said = report("/wrong", ("DEUTDEFF", "2025-03-10"), "--parts", "3"), as_said("DEUTDEFF", "2025-03-10")
    last = f"parts: there is no report on {listed}\n".encode()
    yield reported("no report on transfers of others",
                   (answer.status, answer.errors) == (2, said + last) and said.count(b"row ") == 9
                   and not texts_in(folder + "/wrong"), f"{answer}")
    for words, why in ((("LUTEFRPP", "2025-02-31"), b"2025-02-31 is not a day such as 2025-03-10"),
                       (("lutefrpp", "2025-03-10"), b"lutefrpp is not a BIC of 8 or 11 capitals and digits")):
        answer = report("/words", words)
        yield reported(f"a report with the words {words}",
                       (answer.status, answer.errors) == (2, b"parts: " + why + b"\n"), f"{answer}")


def explaining(python, program, folder):
    """A list that `sct_sites` refuses is explained row by row, or by the command that makes a list of it. Files of
    another kind are named."""
    def run(*words):
        return harness.run([python, MAIN, "--program", program, "--workers", "1", *words])

    listed, day = pathlib.Path(folder, "saved.csv"), EXAMPLES / "bank-day.jsonl"
    for data, said in (
            (b"DbtrAgt,TxId,Amt,Sts\nLUTEFRPP,T1,1.640,ACCEPTED\n",
             "parts: row 2: '1.640' is not an amount such as 12.50: it can be 1640 or 1.640\nparts: there is "
             f"no report on {listed}\n"), (b"DbtrAgt;TxId;Amt;Sts\nLUTEFRPP;T1;640,00;ACCEPTED\n",
                                           f"parts: there is no report on {listed}: a spreadsheet saved it: python3 "
                                           f"{DESK / 'list_from_csv.py'} {listed} prints a list of it\n")):
        listed.write_bytes(data)
        answer = run("--report", "LUTEFRPP", "2025-03-10", listed, folder + "/saved", day)
        yield reported(f"the list {data!r}", (answer.status, answer.errors.decode()) == (2, said), f"{answer}")
    for name, data, why in (("day.gz", b"\x1f\x8b\x08", "compressed by gzip: unpack it"),
                            ("day.xml", b"\xef\xbb\xbf\n <Document>", "XML: a converter"),
                            ("day.xlsx", b"PK\3\4", "a workbook or a ZIP archive"),
                            ("wide.jsonl", "\ufeff{}".encode("utf-16-le"), "in UTF-16")):
        path = pathlib.Path(folder, name)
        path.write_bytes(data)
        answer = run(folder + "/kind", day, path)
        yield reported(f"{name} is named",
                       answer.status == 2 and answer.errors.startswith(f"parts: {path} is {why}".encode()), f"{answer}")


def sizing(python, program, folder):
    """Sizes may have units, and a file is no folder for the answers."""
    batch = EXAMPLES / "recall-batch.jsonl"

    def run(*words):
        return harness.run([python, MAIN, "--program", program, "--workers", "1", *words])

    for text, many in (("2000", 2000), ("2kB", 2000), ("2 KiB", 2048), ("3KB", 3000), ("3072B", 3072)):
        answer = run("--most", text, folder + "/out", batch)
        yield reported(f"--most {text}", answer.status == 2 and b"a part has at most %d bytes" % many in answer.errors,
                       f"{answer}")
    for text, why in (("2GiB", b"more than 1073741824 bytes"), ("128MiX", b"is not a size such as"),
                      ("0", b"is not a size such as"),
                      ("-1", b"is not a size such as"), ("1.5GiB", b"is not a size such as"),
                      ("128mib", b"is not a size such as")):
        answer = run("--most", text, folder + "/out", batch)
        yield reported(f"no --most {text}", answer.status == 2 and why in answer.errors, f"{answer}")
    answer = run(batch, EXAMPLES / "bank-day.jsonl")
    right = answer.status == 2 and b"is a file: the first word is the folder" in answer.errors
    yield reported("a file in place of the folder", right, f"{answer}")


class Screen(io.StringIO):
    """A terminal, or a file, to which lines are written."""

    def __init__(self, is_terminal):
        super().__init__()
        self.isatty = lambda: is_terminal


def progressing():
    """How far a run is, by a clock that is set by hand. The read step has 84 of 241 seconds, and the answer step
    157."""
    clock = [0.0]

    def made(screen, is_asked):
        return progress.Progress(["read", "answer"], is_asked, screen, lambda: clock[0])

    lines = ["parts: step 1 of 2, read: 0 of 2 blocks", "parts: step 1 of 2, read: 1 of 2 blocks, about 3:19 left",
             "parts: step 2 of 2, answer: 0 of 4 parts, about 2:37 left",
             "parts: step 2 of 2, answer: 4 of 4 parts, about 0:00 left"]
    for name, is_terminal, is_asked, right in (
            ("a terminal has one line", True, False, "".join("\r\033[K" + line for line in lines) + "\r\033[K"),
            ("a file has a line for each call that ended", False, True,
             "".join(line + "\n" for line in (lines[1], lines[3]))),
            ("a file has none if it is not asked for", False, False, "")):
        screen, clock[0] = Screen(is_terminal), 0.0
        shown = made(screen, is_asked)
        for at, words in ((0, ("read", 0, 2)), (42, ("read", 1, 2)), (84, ("answer", 0, 4)), (241, ("answer", 4, 4))):
            clock[0] = at
            shown.say(*words)
        shown.end()
        yield reported(name, screen.getvalue() == right, repr(screen.getvalue()))
    yield reported("hours, minutes and seconds", [progress.clock(at) for at in (0.4, 59.6, 61, 3599, 3600, 36_061)] == [
        "0:00", "1:00", "1:01", "59:59", "1:00:00", "10:01:01"])


# ---- what is not its own, errors, and who listens

def keeping(r, python, program, folder):
    """Folders with what the program did not make: it ends, and leaves all of it. Errors that nobody foresaw: status
    2."""
    lines, path = small_input(r), pathlib.Path(folder, "rows.list")
    report = listed(r, lines, path)
    tried = Tried(python, program, files_of(r, folder, lines, 2), report)
    asked = ["--workers", "1", "--parts", "2"]
    for name in ("work/thesis.txt", "work/plan.json", "whole.status"):
        out = pathlib.Path(folder, f"mine-{name.partition('/')[0]}-{name[-4:]}")
        (out / name).parent.mkdir(parents=True)
        (out / name).write_text('{"mine": 1}')
        (out / "whole.truth").write_text("mine")
        answer = tried.run(out, *asked)
        left = [(out / one).read_text() for one in (name, "whole.truth")]
        yield reported(f"{name} of somebody else stays, and the run ends",
                       answer.status == 2 and b"did not make it" in answer.errors
                       and left == ['{"mine": 1}', "mine"], f"{answer}")
    out = pathlib.Path(folder, "out")
    yield tried.is_right("a folder of its own", out, *asked, "--progress")
    right = re.search(rb"parts: step 5 of 7, answer: 2 of 2 parts, about \d+:\d\d left\n", tried.answer.errors)
    yield reported("it says how far it is", bool(right), f"{tried.answer}")
    modes = {path.stat().st_mode & 0o077 for path in [out, *out.iterdir()]}
    yield reported("nobody else reads the answers", modes == {0})
    yield tried.is_right("the same folder again", out, *asked)
    (out / "whole.status").write_text("mine")
    answer = tried.run(out, *asked)
    yield reported("a text that somebody changed stays",
                   answer.status == 2 and (out / "whole.status").read_text() == "mine", f"{answer}")
    shutil.rmtree(out)
    odd = script(folder, "odd",
                 '#!/bin/sh\n[ "$1" = totals ] || exec {0} "$@"\n{0} "$@" > /dev/null\ns=$?\necho "BANK|x"\nexit $s\n',
                 program)
    answer = tried.run(out, *asked, program=odd)
    yield reported("an error that nobody foresaw is no answer",
                   answer.status == 2 and answer.errors.startswith(b"parts: ") and not texts_in(out),
                   f"{answer}")
    for words in (["--scheduler", "tcp://10.255.255.1:8786"], ["--scheduler", "tls://10.255.255.1:8786"]):
        answer = tried.run(pathlib.Path(folder, "far"), *words)
        yield reported(f"{words[1][:3]} to another machine needs its words",
                       answer.status == 2 and b"--" in answer.errors, f"{answer}")


def noticing(r, python, program, folder):
    """A file that changes while it is read, a second run in the folder, and a cut that loses a line: the run ends
    without an answer."""
    lines, path, out = small_input(r) + small_input(r), pathlib.Path(folder, "rows.list"), pathlib.Path(folder, "out")
    report = listed(r, lines, path)
    files = files_of(r, folder, lines, 2)
    tried, asked = Tried(python, program, files, report), ["--workers", "1", "--parts", "2"]
    changing = script(folder, "changing", f'#!/bin/sh\n[ "$1" = status ] && echo >> {files[1]}\nexec {{}} "$@"\n',
                      program)
    yield tried.stops("a file that changes while it is read", "a file changed", out, *asked, program=changing)
    with open(out / "lock", "rb") as lock:
        fcntl.flock(lock, fcntl.LOCK_EX)
        yield tried.stops("a second run in the folder", "another run is at work", out, *asked)
    code = copied_code(folder)
    source = (code / "parts.py").read_text()
    lossy = source.replace("        if transfer != BLANK:\n", "        if transfer != BLANK and number % 2:\n")
    (code / "parts.py").write_text(lossy)
    tried.main = code / "main.py"
    yield reported("the cut can be changed", lossy != source)
    yield tried.stops("a cut that loses a line", "the parts have other lines than the files",
                      pathlib.Path(folder, "lossy"), *asked)


def beginning_anew(r, python, program, folder):
    """A run that was cut off, with a result that a power cut emptied, and then one of other code, which begins anew."""
    lines, path, out = small_input(r) + small_input(r), pathlib.Path(folder, "rows.list"), pathlib.Path(folder, "out")
    report = listed(r, lines, path)
    stopping = script(folder, "stopping", STOPS, program)
    stop, calls = pathlib.Path(stopping + ".stop"), pathlib.Path(stopping + ".calls")
    tried = Tried(python, program, files_of(r, folder, lines, 2), report)
    code = copied_code(folder)
    tried.main, asked = code / "main.py", ["--workers", "1", "--parts", "4"]
    for name, changes in ("the same code", False), ("other code", True):
        stop.touch()
        yield tried.stops("a program that fails", "ended with status 2", out, *asked, program=stopping)
        stop.unlink()
        calls.unlink()
        (out / "work" / "done" / "read.0").write_bytes(b"")
        if changes:
            with open(code / "keys.py", "a") as file:
                file.write("# changed\n")
        yield tried.is_right(f"a run that goes on with {name}", out, *asked, program=stopping)
        yield from asks(tried, calls, name, changes, pathlib.Path(folder, f"{name} at once"), *asked, program=stopping)


def listening(processes):
    """The addresses and ports at which some processes listen."""
    inodes = set()
    for process in processes:
        for entry in glob.glob(f"/proc/{process}/fd/*"):
            with contextlib.suppress(OSError):
                inodes.update(re.findall(r"socket:\[(\d+)\]", os.readlink(entry)))
    for name in ("tcp", "tcp6"):
        for line in pathlib.Path(f"/proc/net/{name}").read_text().splitlines()[1:]:
            fields = line.split()
            if fields[3] == "0A" and fields[9] in inodes:
                yield fields[1].partition(":")[0]


def below(process):
    """A process and all that it started."""
    found = [process]
    for path in glob.glob("/proc/[0-9]*/stat"):
        with contextlib.suppress(OSError):
            if int(pathlib.Path(path).read_text().rsplit(")", 1)[1].split()[1]) == process:
                found += below(int(path.split("/")[2]))
    return found


def private(r, python, program, folder):
    """Who listens while the program works: on 127.0.0.1 alone, and nobody without its certificate sends a task."""
    lines = small_input(r)
    waiting = script(
        folder, "waiting",
        '#!/bin/sh\nif [ "$1" = status ]; then touch "$0.is"; until [ -e "$0.may" ]; do sleep 0.1; done; fi\n'
        'exec {} "$@"\n', program)
    words = [python, MAIN, "--program", waiting, "--workers", "2", f"{folder}/out", *files_of(r, folder, lines, 1)]
    with subprocess.Popen(words, stdout=subprocess.DEVNULL, stderr=subprocess.DEVNULL) as process:
        sites.until(lambda: os.path.exists(waiting + ".is") or process.poll() is not None, sites.LONGEST)
        found = list(listening(below(process.pid)))
        plain = {port for port in ports_of(process.pid) if answers_plainly(python, port)}
        pathlib.Path(waiting + ".may").touch()
    yield reported("it listens on 127.0.0.1 alone", len(found) > 2 and set(found) == {"0100007F"}, f"{found}")
    yield reported("nobody without its certificate sends tasks", not plain, f"{plain}")


def ports_of(process):
    """The ports at which the processes below one listen. Empty after it ended."""
    inodes = {number for one in below(process) for entry in glob.glob(f"/proc/{one}/fd/*")
              for number in inode_of(entry)}
    lines = [line.split() for line in pathlib.Path("/proc/net/tcp").read_text().splitlines()[1:]]
    return {int(fields[1].partition(":")[2], 16) for fields in lines if fields[3] == "0A" and fields[9] in inodes}


def inode_of(entry):
    with contextlib.suppress(OSError):
        return re.findall(r"socket:\[(\d+)\]", os.readlink(entry))
    return []


PLAIN = ("import sys\nfrom distributed import Client\nClient('tcp://127.0.0.1:' + sys.argv[1], "
         "timeout=2).submit(int).result(timeout=2)\n")


def answers_plainly(python, port):
    """Whether a port does what somebody without a certificate asks."""
    return harness.run([python, "-c", PLAIN, str(port)], seconds=sites.LATEST).status == 0


LEVELS = """
import pathlib, resource, sys
sys.path.insert(0, sys.argv[1])
from parts import answers, merge
from parts.files import Stop
work, many = sys.argv[2], int(sys.argv[3])
resource.setrlimit(resource.RLIMIT_NOFILE, (256, 256))
names, wrong = [f"{part}" for part in range(many)], sys.argv[4:]
pathlib.Path(work, "answers").mkdir(parents=True)
for name in names:
    bank, other = f"BANK{int(name) % 7}", "1" if wrong == ["status"] and name in ("3", "906") else name
    texts = {"status": f"T|{bank}|{other}|PENDING\\nF|{bank}|{other}|Identity\\n", "refused": f"1 {int(name) + 1} 31\\n",
             "archive": f'{{"InstgAgt":"{bank}","MsgId":"{1 if wrong == ["archive"] and name in ("3", "906") else name}",'
                        f'"MsgNmId":"pacs.008.001.08","Part":"{name}"}}\\n',
             "report": f"HEADER\\nAA,9,UNKNOWN\\n{bank},{name},x\\n", "totals": f"{bank}|1|0.10\\n"}
    texts.update(kept=texts["archive"] if int(name) % 3 else "", closed="" if int(name) % 3 else texts["archive"])
    for word, text in texts.items():
        pathlib.Path(answers.answer_file(work, name, word)).write_text(text)
try:
    for word in merge.MERGED:
        merge.merge(work, names, word, 1, True)
except Stop as stop:
    sys.exit(stop.why)
"""


def levels(python, folder):
    """Texts of 1,100 parts, merged by a process that may have 256 files."""

    def ran(place, *words):
        return harness.run([python, "-c", LEVELS, str(SERVICES), f"{folder}/{place}", "1100", *words])

    done, texts = ran("work"), {}
    for path in pathlib.Path(folder, "work", "merged").glob("*"):
        texts[path.name] = path.read_text().splitlines()
    keys = sorted((f"BANK{part % 7}", f"{part}") for part in range(1100))

    def messages_of(some):
        return [f'{{"InstgAgt":"{bank}","MsgId":"{tx}","MsgNmId":"pacs.008.001.08","Part":"{tx}"}}'
                for bank, tx in some]

    right = {"status": [line for bank, tx in keys for line in (f"T|{bank}|{tx}|PENDING", f"F|{bank}|{tx}|Identity")],
             "archive": messages_of(keys), "kept": messages_of(key for key in keys if int(key[1]) % 3),
             "closed": messages_of(key for key in keys if not int(key[1]) % 3),
             "report": ["HEADER", "AA,9,UNKNOWN", *(f"{bank},{tx},x" for bank, tx in keys)],
             "totals": [f"BANK{n}|{len(range(n, 1100, 7))}|{len(range(n, 1100, 7)) / 10:.2f}" for n in range(7)],
             "refused": [f"line {part + 1}: 31" for part in range(1100)]}
    yield reported("texts of 1,100 parts", done.status == 0 and texts == right,
                   f"{done}, {[word for word in right if texts.get(word) != right[word]]}")
    shared = ran("shared", "status")
    yield reported("a transfer in two of them",
                   shared.status == 1 and b"the parts 3 and 906 share the transfer" in shared.errors, f"{shared}")
    shared = ran("both", "archive")
    yield reported("an identity in two of them", shared.status == 1 and b"share the identity" in shared.errors,
                   f"{shared}")


CLUSTER = """
import sys
from distributed import LocalCluster, Security
if __name__ == "__main__":
    files = sys.argv[2:]
    security = Security(tls_ca_file=files[0], tls_scheduler_cert=files[1], tls_scheduler_key=files[2], tls_worker_cert=files[1],
                        tls_worker_key=files[2], tls_client_cert=files[1], tls_client_key=files[2], require_encryption=True) if files else None
    with LocalCluster(n_workers=2, threads_per_worker=1, host="127.0.0.1", dashboard_address="127.0.0.1:0", security=security,
                      local_directory=sys.argv[1]) as cluster:
        print(cluster.scheduler_address, flush=True)
        sys.stdin.read()
"""


@contextlib.contextmanager
def cluster(python, folder, *certificates):
    """The address of a scheduler with two workers, which may speak over TLS alone."""
    path = pathlib.Path(folder, "cluster.py")
    path.write_text(CLUSTER)
    streams = {"stdin": subprocess.PIPE, "stdout": subprocess.PIPE, "stderr": subprocess.DEVNULL}
    with subprocess.Popen([python, path, f"{folder}/workers", *certificates], cwd=folder, **streams) as process:
        yield process.stdout.readline().decode().strip()
        process.stdin.close()


def made_up(number, python, program, folder, address):
    """A made-up small input in 1 to 4 files, on the workers of a cluster."""
    r, its = random.Random(SEED + number), pathlib.Path(folder, f"{number}")
    its.mkdir()
    lines = small_input(r)
    report = listed(r, lines, its / "rows.list")
    tried = Tried(python, program, files_of(r, its, lines, r.randint(1, 4)), report)
    return tried.is_right(f"made-up input {number}", its / "out", "--scheduler", address,
                          "--parts", str(r.randint(1, 6)),
                          "--block", str(r.choice([1, 1000, 10000])))


def all_made_up(many, python, program, folder):
    with cluster(python, folder) as address, ThreadPoolExecutor(2) as pool:
        yield from pool.map(lambda number: made_up(number, python, program, folder, address), range(many))


def over_tls(r, python, program, folder):
    """A cluster that speaks over TLS alone."""
    place = pathlib.Path(folder)
    certificate(place, "mine", "localhost", "127.0.0.1")
    mine = [str(place / name) for name in ("authority.crt", "mine.crt", "mine.key")]
    path = place / "rows.list"
    lines = small_input(r)
    report = listed(r, lines, path)
    tried = Tried(python, program, files_of(r, folder, lines, 2), report)
    with cluster(python, folder, *mine) as address:
        words = [word for kind, its in zip(("ca", "cert", "key"), mine) for word in (f"--tls-{kind}", its)]
        yield tried.is_right("a cluster over TLS", place / "out", "--scheduler", address, "--parts", "2", *words)
        yield reported("its address says so", address.startswith("tls://127.0.0.1:"), address)


def dask_words(python):
    """The words with which docs/users/parts.md starts the commands of Dask are on the page, and are those of Dask."""
    text = (TOP / "docs" / "users" / "parts.md").read_text(encoding="utf-8")
    for command, words in DASK.items():
        known = harness.run([python, "-m", f"distributed.cli.{command}", "--help"]).text.decode().split()
        wrong = [word for word in words if word not in known or not re.search(rf"{word}\b(?!-)", text)]
        yield reported(f"the words of {command} on the page", not wrong, f"{wrong}")


def page(python, program, folder):
    """The commands of docs/users/parts.md, in a copy of examples/ with services/ beside it."""
    commands, copy = place(folder, program), shutil.copytree(EXAMPLES, f"{folder}/examples")
    pathlib.Path(folder, "services").symlink_to(SERVICES)
    for number, command, lines in shown((TOP / "docs" / "users" / "parts.md").read_text(encoding="utf-8")):
        text, _ = shell(command.replace("/usr/bin/python3", python), copy, commands)
        yield reported(f"parts.md, line {number}", is_printed(lines, text), text)


def main():
    python, program, r = interpreter(), harness.program_or_stand_in(), random.Random(SEED)
    if python is None:
        print(f"skipped: no Python here has Dask; `apt-get install {PACKAGES}` installs it for /usr/bin/python3")
        harness.end(0, 0)
    many = int(sys.argv[1]) if len(sys.argv) > 1 else FEWER_MADE_UP if program == str(harness.STAND_IN) else MADE_UP
    right = []
    for tried in (lambda folder: examples(python, program, folder), lambda folder: large(r, python, program, folder),
                  lambda folder: going_on(r, python, program, folder),
                  lambda folder: refusing(r, python, program, folder),
                  lambda folder: checking(python, program, folder), lambda folder: explaining(python, program, folder),
                  lambda folder: sizing(python, program, folder), lambda folder: progressing(),
                  lambda folder: keeping(r, python, program, folder),
                  lambda folder: noticing(r, python, program, folder),
                  lambda folder: beginning_anew(r, python, program, folder),
                  lambda folder: private(r, python, program, folder), lambda folder: levels(python, folder),
                  lambda folder: over_tls(r, python, program, folder),
                  lambda folder: all_made_up(many, python, program, folder),
                  lambda folder: dask_words(python), lambda folder: page(python, program, folder)):
        with tempfile.TemporaryDirectory() as folder:
            right += tried(folder)
    harness.end_of(right)


if __name__ == "__main__":
    main()
