"""serve_troubles.py: `serve` in trouble: files that it must not touch, disks and readers that fail, requests that are
too long or no requests, and a journal in its making.
"""
import os
import pathlib
import shutil
import subprocess
import tempfile
from tests import harness
from tests.harness import reported
from tests.inputs import instruction
from tests.oracle import serve
from tests.serve.serving import LATEST, Ended, Process, kept, replies_in, restored, session
from tests.serve.streams import WRONG_QUESTIONS

HEAD = b"site 1 2"
MOST, MOST_READ = 64 << 20, 1 << 20
LONG_INPUT = 4_000  # messages, of some 400 bytes each
SMALL_DISK = 128 << 10  # bytes
FULL = 600  # requests, more than a full disk takes


def fault(number):
    return b"", b"fault %d\n" % number, 2


def line(number):
    return instruction(number).rstrip("\n").encode()


def journal_of(*numbers):
    """A journal at rest with instructions of these numbers."""
    return serve.gated([HEAD, *map(line, numbers)])


def leaves(program, path, wanted):
    """Whether a life ends with this answer at once, and leaves the file as it is, and when it was changed."""
    before = path.read_bytes(), path.stat().st_mtime_ns
    found = session(program, 1, 2, path, line(1) + b"\n")
    return found == wanted and (path.read_bytes(), path.stat().st_mtime_ns) == before


# ---- files that are not its journal

def foreign(program, folder):
    """Files that are no journal (75), and journals of other sites (76)."""
    no_journals = {
        "messages": line(1) + b"\n", "text": b"hello\n", "two bytes": b"  ",
        "two zeros": b"\0\0", "a line feed": b"\n\n",
        "a front of the header": b" site 1", "a shut gate before a long file": b"\t" + journal_of(1)[1:],
        "a header behind another gate": b"x" + journal_of(1)[1:], "a header without its gate": journal_of(1)[1:],
        "another first word": b" sites 1 2\n\t", "no header": serve.gated([line(1)]), "small letters": b" Site 1 2\n\t",
        "a database": b"SQLite format 3\0" + bytes(100)}
    others = {"site 2": b" site 2 2\n\t", "group 3": b" site 1 3\n\t", "site 11": b" site 11 2\n\t",
              "group 21": b" site 1 21\n\t",
              "no number": b" site x\n\t", "no line feed": b" site 1 2", "two spaces": b" site 1  2\n\t",
              "a carriage return": b" site 1 2\r\n\t"}
    no_journals["a front of the header"] = b" site"
    for number, files in (75, no_journals), (76, others):
        for name, file in files.items():
            path = folder / f"foreign {name}"
            path.write_bytes(file)
            yield f"{number}: {name}", leaves(program, path, fault(number))


def places(program, folder):
    """Paths at which no journal can be (78), and words that ask for nothing (64)."""
    missing, read_only, twice, other = (folder / name
                                        for name in ("nowhere/journal", "read-only", "twice", "other name"))
    yield "78: a folder", session(program, 1, 2, folder) == fault(78)
    yield "78: a missing folder", session(program, 1, 2, missing) == fault(78) and not missing.parent.exists()
    yield "78: a device", session(program, 1, 2, "/dev/null") == fault(78)
    twice.write_bytes(journal_of(1))
    os.link(twice, other)
    yield "78: a file with two names", leaves(program, twice, fault(78))
    read_only.write_bytes(journal_of(1))
    read_only.chmod(0o444)
    if os.geteuid():
        yield "78: a file that is read-only", leaves(program, read_only, fault(78))
    elif shutil.which("setpriv"):
        folder.chmod(0o755)
        folder.parent.chmod(0o755)
        as_nobody = ["setpriv", "--reuid=65534", "--regid=65534", "--clear-groups", program]
        if harness.run([*as_nobody, "--version"]).status in (126, 127):
            print("skipped: another user may not run the program")
        else:
            found = harness.run([*as_nobody, "serve", "1", "2", str(read_only)], line(2) + b"\n", seconds=LATEST)
            yield "78: a file that is read-only", found == fault(78) and read_only.read_bytes() == journal_of(1)
    else:
        print("skipped: root may write into each file, and there is no setpriv")
    link, linked = folder / "link", folder / "linked"
    linked.write_bytes(journal_of(1))
    link.symlink_to(linked)
    yield "a link to a journal", (
        session(program, 1, 2, link, line(2) + b"\n") == (b"READY 1:1\nTAKEN 2\n", b"", 0)
        and linked.read_bytes() == journal_of(1, 2))
    for words in (["0", "2"], ["3", "2"], ["01", "2"], ["1", "1025"], ["1", "2:"], ["", "2"]):
        path = folder / "unasked"
        text, errors, status = session(program, *words, path)
        yield f"64: {words}", (text, errors.split(b"\n")[0], status) == (b"", b"fault 64", 2) and not path.exists()
    for words in (["-"], ["--", "-journal"]):
        found = harness.run([program, "serve", "1", "2", *words], line(1) + b"\n", cwd=folder, seconds=LATEST)
        yield f"a file of the name {words[-1]}", (
            found == (b"READY -\nTAKEN 1\n", b"", 0) and (folder / words[-1]).read_bytes() == journal_of(1))
    for words in (["1", "2"], ["1", "2", "a", "b"]):
        text, errors, status = harness.run([program, "serve", *words], b"", cwd=folder)
        yield f"64: {words}", (text, errors.split(b"\n")[0], status) == (b"", b"fault 64", 2)


def second_process(program, folder):
    """A journal that another process has, until that one is killed."""
    path = folder / "two processes"
    with Process(program, 1, 2, path) as process:
        process.reply()
        process.ask(line(1))
        yield "77: a second process", leaves(program, path, fault(77)) and process.ask(line(2)) == b"TAKEN 2\n"
        process.kill()
    yield "77: not after a kill", session(program, 1, 2, path) == (b"READY 1:2\n", b"", 0)


# ---- a journal in its making

def in_its_making(program, folder):
    """Every file that a stop in the making of a journal may leave is a new journal."""
    whole = serve.gated([HEAD])
    files = [b"", b"\t", b" ", b"x", b"\n"]
    files += [b"\t" + whole[1:length] for length in range(1, len(whole) + 1)]
    files += [b"\t" + bytes(length) for length in range(len(whole))]
    files += [gate + whole[1:] for gate in (b"\0", b"x", b"\n", b"\xff")]
    path, right = folder / "new", []
    for file in files:
        path.write_bytes(file)
        found = session(program, 1, 2, path, line(1) + b"\n")
        right.append(found == (b"READY -\nTAKEN 1\n", b"", 0) and path.read_bytes() == journal_of(1))
    yield f"a journal in its making, in {len(files)} ways", all(right)
    path.write_bytes(whole)
    yield "a journal that has its header alone", session(program, 1, 2, path) == (b"READY -\n", b"",
                                                                                  0) and path.read_bytes() == whole


def at_rest(program, folder):
    """A file that was closed in peace is only read. So is one that another gate than a tab ends."""
    path = folder / "at rest"
    path.write_bytes(journal_of(1, 2))
    os.utime(path, ns=(10 ** 18, 10 ** 18))
    data = line(1) + b"\n? vector\n{}\n\n"
    text = b"READY 1:2\nREPEAT\nTEXT 3\n1:2\nREFUSED 33\n\n"
    yield "a file at rest is only read", (
        session(program, 1, 2, path, data) == (text, b"", 0) and path.read_bytes() == journal_of(1, 2)
        and path.stat().st_mtime_ns == 10 ** 18)
    path.write_bytes(journal_of(1)[:-1] + b"x")
    os.utime(path, ns=(10 ** 18, 10 ** 18))
    yield "another gate is left as it is", (
        session(program, 1, 2, path) == (b"READY 1:1\n", b"", 0) and path.read_bytes() == journal_of(1)[:-1] + b"x"
        and path.stat().st_mtime_ns == 10 ** 18)
    yield "and is opened by the next batch", (
        session(program, 1, 2, path, line(2) + b"\n") == (b"READY 1:1\nTAKEN 2\n", b"", 0)
        and path.read_bytes() == journal_of(1, 2))


# ---- disks and readers that fail

def keeps(program, path, replies):
    """Whether a journal keeps what had a reply, in order, and goes on after that."""
    taken = sum(reply.startswith(b"TAKEN ") for reply in replies)
    lines = kept(path)[1:]
    numbers = b"".join(b"TAKEN %d\n" % number for number in range(1, taken + 1))
    right = b"".join(replies[1:]) == numbers and lines[:taken] == [line(number) for number in range(1, taken + 1)]
    again = session(program, 1, 2, path, b"? vector\n", cwd=path.parent)
    vector = restored(1, 2, lines).site.vector_text().encode()
    return right and again == (b"READY %s\nTEXT %d\n%s\n" % (vector, len(vector), vector), b"", 0)


def fills(program, path, size, **more):
    """The replies to requests of so many lines each until the process ends, and how it ends."""
    with Process(program, 1, 2, path, **more) as process:
        replies = []
        try:
            replies.append(process.reply())
            for first in range(1, FULL, size):
                process.send(b"".join(line(number) + b"\n" for number in range(first, first + size)))
                replies += [process.reply() for _ in range(size)]
        except Ended:
            pass
        answer = process.end()
        return replies + replies_in(answer.text)[0], answer


def full_files(program, folder):
    """A file that may not grow past so many bytes: in its making, in its first batch, later."""
    for room in [0, 1, 5, 9, 10, 11, 12, 200, 403, 404, 405, 1000, 20_000]:
        path = folder / f"room {room}"
        replies, answer = fills(program, path, 1 if room < 10_000 else 7, room=room)
        right = answer.errors == b"fault 78\n" and answer.status == 2
        right = right and (not replies or replies[0] == b"READY -\n")
        if replies:
            right = right and keeps(program, path, replies)
        else:
            right = right and session(program, 1, 2, path) == (b"READY -\n", b"", 0)
        yield f"78: a file with room for {room} bytes, after {len(replies)} replies", right


def full_disk(program, folder):
    """A disk that is full, if this process may mount one."""
    disk = folder / "disk"
    disk.mkdir()
    mounted = os.geteuid() == 0 and shutil.which("mount") and harness.run(
        ["mount", "-t", "tmpfs", "-o", f"size={SMALL_DISK}", "tmpfs", str(disk)]).status == 0
    if not mounted:
        print("skipped: no small disk can be mounted here", flush=True)
        return
    try:
        path = disk / "journal"
        replies, answer = fills(program, path, 3)
        right = answer.errors == b"fault 78\n" and answer.status == 2 and len(replies) > 1
        shutil.copy(path, folder / "copy")
        yield f"78: a disk that is full, after {len(replies)} replies", right and keeps(program, folder / "copy",
                                                                                        replies)
    finally:
        subprocess.run(["umount", str(disk)], check=True)


def readers(program, folder):
    """A reader that goes away (63), after each of some replies; an output that is full; an input that cannot be read
    (62)."""
    for after in range(4):
        path = folder / f"reader {after}"
        end, into = os.pipe()
        with open(into, "wb") as into:
            process = subprocess.Popen([program, "serve", "1", "2", str(path)], stdin=subprocess.PIPE, stdout=into,
                                       stderr=subprocess.PIPE)
        text = b""
        for number in range(after + 1):
            wanted = b"READY -\n" + b"".join(b"TAKEN %d\n" % it for it in range(1, number + 1))
            while len(text) < len(wanted):
                text += os.read(end, 1)
            if number < after:
                process.stdin.write(line(number + 1) + b"\n")
                process.stdin.flush()
        os.close(end)
        _, errors = process.communicate(line(after + 1) + b"\n", timeout=LATEST)
        numbers = range(1, after + 2)
        yield f"63: a reader that goes away after {after} replies", (
            (errors, process.returncode) == (b"fault 63\n", 2) and kept(path) == [HEAD, *map(line, numbers)]
            and session(program, 1, 2, path).text == b"READY 1:%d\n" % (after + 1))
    path = folder / "full output"
    with open("/dev/full", "wb") as full:
        found = session(program, 1, 2, path, line(1) + b"\n", stdout=full)
    yield "63: an output that is full", (found.errors, found.status) == (b"fault 63\n",
                                                                         2) and kept(path) in ([HEAD], [HEAD, line(1)])
    path = folder / "no input"
    with open("/proc/self/mem", "rb") as unread:
        found = harness.run([program, "serve", "1", "2", str(path)], stdin=unread, seconds=LATEST)
    yield "62: an input that cannot be read", found == (b"READY -\n", b"fault 62\n", 2) and kept(path) == [HEAD]


# ---- requests

def long_requests(program, folder):
    """Requests of 64 MiB and of one byte more."""
    message = line(2)
    for name, request, wanted in (
            ("a message of 64 MiB", message + b" " * (MOST - len(message)), b"TAKEN 2\n"),
            ("blanks of 64 MiB", b" " * MOST, b"\n"), ("no message of 64 MiB", b"x" * MOST, b"REFUSED 31\n")):
        path = folder / "long"
        path.write_bytes(journal_of(1))
        yield name, session(program, 1, 2, path,
                            request + b"\n" + line(1) + b"\n") == (b"READY 1:1\n" + wanted + b"REPEAT\n", b"", 0)
        again = (b"READY 1:2\nREPEAT\n", b"", 0) if wanted == b"TAKEN 2\n" else (b"READY 1:1\nTAKEN 2\n", b"", 0)
        yield f"{name}, and a start after it", session(program, 1, 2, path, line(2) + b"\n") == again
    for name, request in ("a message", message + b" " * (MOST + 1 - len(message))), ("blanks", b" " * (MOST + 1)):
        for end in b"\n", b"":
            path.write_bytes(journal_of(1))
            found = session(program, 1, 2, path, request + end)
            yield f"60: {name} of one byte more{', and a line feed' if end else ''}", (
                found == (b"READY 1:1\n", b"fault 60\n", 2) and path.read_bytes() == journal_of(1))
    path.write_bytes(journal_of(1))
    with Process(program, 1, 2, path) as process:
        replies = [process.reply(), process.ask(message)]
        process.send(b"x" * (MOST + 1))
        answer = process.end()
        yield "60: as soon as it has them, after a reply", (
            replies == [b"READY 1:1\n", b"TAKEN 2\n"] and answer == fault(60)
            and kept(path) == [HEAD, line(1), message])


def long_journals(program, folder):
    """Journals whose lines end around a MiB behind the header, with a last line that ends and one that does not."""
    path, right = folder / "long lines", []
    for length in [*range(MOST_READ - 3, MOST_READ + 4), 2 * MOST_READ, 5 * MOST_READ + 1]:
        long = line(1) + b" " * (length - len(line(1)))
        for file, ready in ((serve.gated([HEAD, long, line(2)]), b"READY 1:2\n"),
                            (serve.gated([HEAD, line(2), long]), b"READY 1:2\n"),
                            (serve.gated([HEAD, line(2), long])[:-2], b"READY 1:1\n")):
            path.write_bytes(file)
            at_rest = file if ready == b"READY 1:2\n" else journal_of(2)
            right.append(session(program, 1, 2, path) == (ready, b"", 0) and path.read_bytes() == at_rest)
    yield f"journals with long lines, in {len(right)} ways", all(right)


def long_inputs(program, folder):
    """An input of more than a MiB that is there at once: in a file, and in a pipe."""
    numbers = range(1, LONG_INPUT + 1)
    data = b"".join(line(number) + b"\n" for number in numbers)
    wanted = b"".join(b"TAKEN %d\n" % number for number in numbers)
    source = folder / "input"
    source.write_bytes(data)
    with open(source, "rb") as file:
        found = harness.run([program, "serve", "1", "2", str(folder / "of a file")], stdin=file, seconds=LATEST)
    for name, answer in (("of a file", found), ("of a pipe", session(program, 1, 2, folder / "of a pipe", data))):
        right = answer == (b"READY -\n" + wanted, b"", 0) and (folder / name).read_bytes() == journal_of(*numbers)
        yield f"{len(data)} bytes {name}", right


def ends(program, folder):
    """Inputs that end before a line feed, or at once."""
    path = folder / "ends"
    for data, text in ((b"", b""), (line(1), b""), (line(1) + b"\n" + line(2), b"TAKEN 1\n"),
                       (b"? vector", b""), (b" ", b""),
                       (b"\n", b"\n"), (b"\n\n", b"\n\n"), (b"foo\n\n? vec", b"REFUSED 31\n\n")):
        path.unlink(missing_ok=True)
        yield f"an input that ends with {data[-8:]!r}", session(program, 1, 2, path, data) == (b"READY -\n" + text, b"",
                                                                                               0)


def questions(program, folder):
    """Each question that is refused, by hand."""
    report = b"? report BANKDEFF 2024-05-02 DbtrAgt,TxId,Amt,Sts"
    wanted = {
        b"? ": b"64", b"?  vector": b"64", b"? foo": b"64", b"? Status": b"64",
        b"? status now": b"64", b"? vector ": b"64",
        b"? cut": b"64", b"? cut ": b"72", b"? cut - -": b"64", b"? transfer": b"64", b"? transfer BANKDEFF": b"64",
        b"? messages BANKDEFF": b"64", b"? bank": b"64", b"? bank BANKDEFF x": b"64",
        b"? report": b"64", b"? report BANKDEFF": b"64",
        b"? report BANKDEFF 2024-05-02": b"64",
        b"? vector\r": b"64", b"? \tvector": b"64", b"? cut 1": b"72", b"? cut 2:1,1:1": b"72",
        b"? cut 0:1": b"72", b"? cut 1:01": b"72",
        b"? cut -\r": b"72", b"? transfer bankdeff T1": b"73 1", b"? transfer BANKDEFF a_b": b"73 2",
        b"? transfer BANKDEFF /T": b"73 2",
        b"? entries": b"64", b"? entries 1 0": b"64", b"? entries 1 0 9 9": b"64",
        b"? entries 1025 0 9": b"73 1", b"? entries x y z": b"73 1",
        b"? entries 1 x 9": b"73 2", b"? entries 1 0 0": b"73 3", b"? entries 1 0 67108864": b"73 3",
        b"? messages x T1": b"73 1", b"? messages BANKDEFF a//b": b"73 2", b"? bank BANKDEFFX": b"73 1",
        b"? bank BANKDEFF\r": b"73 1",
        report.replace(b"BANKDEFF", b"x"): b"73 1",
        report.replace(b"2024-05-02", b"today"): b"73 2", report[:-1]: b"48 1",
        report + b"\tBANKDEFF,T1,0,ACCEPTED": b"48 2", report + b"\tBANKDEFF,T1,1,ACCEPTED\t\tBANKDEFF,T1,1": b"48 3"}
    path = folder / "questions"
    data = b"".join(question + b"\n" for question in wanted)
    text = b"".join(b"REFUSED %s\n" % number for number in wanted.values())
    found = session(program, 1, 2, path, data)
    differ = [(question, reply) for (question, number), reply in zip(wanted.items(), replies_in(found.text)[0][1:])
              if reply != b"REFUSED %s\n" % number]
    for question, reply in differ:
        print(f"{question!r}: {reply!r}")
    yield f"{len(wanted)} questions that are refused", found == (b"READY -\n" + text, b"", 0) and kept(path) == [HEAD]
    serving = restored(1, 2, [])
    data = b"".join(question + b"\n" for question in WRONG_QUESTIONS)
    text = b"".join(serving.reply(question)[0] for question in WRONG_QUESTIONS)
    yield f"{len(WRONG_QUESTIONS)} more", session(program, 1, 2, path, data) == (b"READY -\n" + text, b"", 0)


TROUBLES = [foreign, places, second_process, in_its_making, at_rest, full_files, full_disk,
            readers, long_requests, long_journals,
            long_inputs, ends, questions]


def main():
    program = harness.program()
    with tempfile.TemporaryDirectory() as folder:
        harness.end_of([reported(name, right) for trouble in TROUBLES
                        for name, right in trouble(program, pathlib.Path(folder))])


if __name__ == "__main__":
    main()
