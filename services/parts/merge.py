"""merge.py: the answers of all parts as one, and the check that the parts share nothing.

More parts than a process may have files are merged in levels: first some of them into one text each, with the part of
each piece beside it.

The check reads what `sct_sites` wrote of each part: the transfers of its status text, which names each transfer that a
message of the part names, and the identities of its archive text, which has each message of the part. None may be in
two parts.
"""
from __future__ import annotations
import heapq
import re
from typing import Any, Callable, Iterator
from parts.answers import answer_file
from parts.files import Stop, whole

MOST_OPEN = 200  # files that are merged at once
HEADED = "report"  # the text whose first line is a header

# in a written form no text has an unescaped quote, so these keys are found nowhere else
IDENTITY = re.compile(rb'"InstgAgt":"([^"]*)".*"MsgId":"([^"]*)","MsgNmId":"(.{8})')


# ---- what the text of a part has, in its order: the key, the part, and the bytes

def transfers_in(path: str, part: str) -> Iterator[tuple[Any, str, bytes]]:
    """Each transfer of a status text with its lines."""
    key: Any = None
    lines: list[bytes] = []
    with open(path, "rb") as file:
        for line in file:
            if line.startswith(b"T|"):
                if lines:
                    yield key, part, b"".join(lines)
                key, lines = tuple(line.split(b"|", 3)[1:3]), []
            lines.append(line)
    if lines:
        yield key, part, b"".join(lines)


def messages_in(path: str, part: str) -> Iterator[tuple[Any, str, bytes]]:
    """Each message of an archive text or of a part of it: its identity and its line."""
    with open(path, "rb") as file:
        for line in file:
            match = IDENTITY.search(line)
            if match is None:
                raise Stop(f"{path} has a line without an identity")
            sender, msg_id, kind = match.groups()
            yield (sender, kind, msg_id, line), part, line


def rows_in(path: str, part: str) -> Iterator[tuple[Any, str, bytes]]:
    """Each row of a report after its header. Of the rows of one transfer those come last whose part has no message of
    it."""
    with open(path, "rb") as file:
        next(file)
        for line in file:
            bank, rest = line.split(b",", 1)
            quoted = re.match(rb'"([^"]*)"', rest)
            yield (bank, quoted.group(1) if quoted else rest.split(b",", 1)[0],
                   line.endswith(b",UNKNOWN\n")), part, line


def refused_in(path: str, part: str) -> Iterator[tuple[Any, str, bytes]]:
    """Each refused line: its place and its fault."""
    with open(path, "rb") as file:
        for line in file:
            name, number, fault = line.split(b" ", 2)
            yield (int(name), int(number)), part, fault


def sorted_from(work: str, names: list[str], word: str,
                read: Callable[[str, Any], Iterator[tuple[Any, str, bytes]]]) -> Iterator[tuple[Any, str, bytes]]:
    """What the texts of all parts have, in one order."""
    sources = [read(answer_file(work, name, word), name) for name in names]
    level = 0
    while len(sources) > MOST_OPEN:
        groups = [sources[at:at + MOST_OPEN] for at in range(0, len(sources), MOST_OPEN)]
        sources = [merged_source(f"{work}/merging/{word}.{level}.{place}", word, read, group)
                   for place, group in enumerate(groups)]
        level += 1
    return iter(heapq.merge(*sources))


def merged_source(path: str, word: str, read: Callable[[str, Any], Iterator[tuple[Any, str, bytes]]],
                  sources: list[Iterator[tuple[Any, str, bytes]]]) -> Iterator[tuple[Any, str, bytes]]:
    """Some texts as one, in a file. It is read as each of them is."""
    with whole(path) as text, whole(f"{path}.parts") as parts:
        text.write(b"header\n" if word == HEADED else b"")
        for key, part, its in heapq.merge(*sources):
            text.write(b"%d %d %b" % (*key, its) if word == "refused" else its)
            parts.write(f"{part}\n".encode())
    return with_parts(path, read)


def with_parts(path: str, read: Callable[[str, Any], Iterator[tuple[Any, str, bytes]]]) -> Iterator[tuple[Any, str,
                                                                                                          bytes]]:
    """What a merged text has, each with its own part."""
    with open(f"{path}.parts") as parts:
        for (key, _, its), part in zip(read(path, None), parts):
            yield key, part.rstrip("\n"), its


def apart(texts: Iterator[tuple[Any, str, bytes]], width: int, what: str) -> Iterator[tuple[Any, str, bytes]]:
    """The same, of which no two from different parts may begin with the same parts of a key."""
    last: tuple[Any, ...] = ()
    its = None
    for key, part, text in texts:
        if key[:width] == last and part != its:
            raise Stop(f"the parts {its} and {part} share the {what} " + b"|".join(last).decode())
        last, its = key[:width], part
        yield key, part, text


# ---- the merged texts

def merged_status(work: str, names: list[str], files: int) -> Iterator[bytes]:
    for _, _, text in apart(sorted_from(work, names, "status", transfers_in), 2, "transfer"):
        yield text


def merged_messages(work: str, names: list[str], word: str) -> Iterator[bytes]:
    """The lines of the archive text, of what is kept, or of what is closed: each of a part is a line of the whole."""
    for _, _, line in apart(sorted_from(work, names, word, messages_in), 3, "identity"):
        yield line


def merged_archive(work: str, names: list[str], files: int) -> Iterator[bytes]:
    return merged_messages(work, names, "archive")


def merged_kept(work: str, names: list[str], files: int) -> Iterator[bytes]:
    return merged_messages(work, names, "kept")


def merged_closed(work: str, names: list[str], files: int) -> Iterator[bytes]:
    return merged_messages(work, names, "closed")


def merged_report(work: str, names: list[str], files: int) -> Iterator[bytes]:
    """The header, and the row of each transfer in its part. A transfer of no part has the same row in all parts."""
    with open(answer_file(work, names[0], "report"), "rb") as file:
        yield next(file)
    last = None
    for key, _, line in sorted_from(work, names, "report", rows_in):
        if key[:2] != last:
            yield line
        last = key[:2]


def in_cents(field: bytes) -> int:
    """A count, or an amount in cents."""
    return int(field.replace(b".", b""))


def merged_totals(work: str, names: list[str], files: int) -> Iterator[bytes]:
    """The sums of each bank's totals. The fields with two decimals are amounts."""
    sums: dict[bytes, list[int]] = {}
    amounts: list[bool] = []
    for name in names:
        with open(answer_file(work, name, "totals"), "rb") as file:
            for line in file:
                bank, *fields = line.rstrip(b"\n").split(b"|")
                amounts = [b"." in field for field in fields]
                before = sums.get(bank, [0] * len(fields))
                sums[bank] = [one + in_cents(field) for one, field in zip(before, fields)]
    for bank in sorted(sums):
        written = (b"%d.%02d" % divmod(n, 100) if is_amount else b"%d" % n for n, is_amount in zip(sums[bank], amounts))
        yield b"|".join([bank, *written]) + b"\n"


def merged_refused(work: str, names: list[str], files: int) -> Iterator[bytes]:
    """The refused lines as `sct_sites` reports them: those of one file by their line, those of several by their file
    too."""
    for (file, line), _, fault in sorted_from(work, names, "refused", refused_in):
        yield b"line %d: %b" % (line, fault) if files == 1 else b"file %d line %d: %b" % (file, line, fault)


MERGED = {"status": merged_status, "archive": merged_archive, "totals": merged_totals,
          "report": merged_report, "kept": merged_kept,
          "closed": merged_closed, "refused": merged_refused}


def merge(work: str, names: list[str], word: str, files: int, is_asked: bool) -> int:
    """Writes the text of one command from those of all parts. A text that was not asked for is only checked. The result
    is how many bytes it has."""
    text = MERGED[word](work, names, files)
    if not is_asked:
        return sum(map(len, text))
    with whole(f"{work}/merged/{word}") as target:
        target.writelines(text)
        return target.tell()
