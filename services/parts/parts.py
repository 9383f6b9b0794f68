"""parts.py: an input cut into blocks, the keys of each block, and the parts into which its lines go.

A block is some bytes of one file, from the beginning of a line to the end of one. A worker reads a block twice: once
for the keys of its lines, and once more to cut it, when the ties of all blocks are known. The lines of one part from
all blocks are then put together in a file, which is an input of `sct_sites`. The places of its lines are in a file
beside it, in the same order.

A place is a number: the file, the line, and whether the line has no keys. Files and lines count from 1.
"""
from __future__ import annotations
import array
import collections
import itertools
import os
from typing import Any, Iterable, Iterator, NamedTuple
from parts.files import Stop, copied, numbers, whole
from parts.keys import BLANK, NO_KEYS, is_blank, keys_of, words_of
from parts.ties import pairs_of


class Block(NamedTuple):
    number: int
    file: int
    path: str
    begin: int
    end: int


MOST_BUCKETS = 256
KEYLESS, FILE = 1 << 63, 1 << 40


def place(file: int, line: int, is_keyless: bool) -> int:
    return is_keyless * KEYLESS + file * FILE + line


def file_and_line(place: int) -> tuple[int, int]:
    return place % KEYLESS // FILE, place % FILE


# ---- blocks

def cuts(path: str, size: int) -> list[int]:
    """Where the blocks of a file begin, and where the last one ends: after a line feed, about every `size` bytes."""
    end = os.path.getsize(path)
    places = [0]
    with open(path, "rb") as file:
        while places[-1] + size < end:
            file.seek(places[-1] + size - 1)
            file.readline()
            places.append(file.tell())
    return places + [end] * (places[-1] < end)


def blocks_of(paths: list[str], size: int) -> list[Block]:
    """The blocks of all files, each of about so many bytes."""
    ends = [(file, path, *two) for file, path in enumerate(paths, 1) for places in [cuts(path, size)]
            for two in zip(places, places[1:])]
    return [Block(number, *end) for number, end in enumerate(ends)]


def lines_of(block: Block) -> Iterator[bytes]:
    """The lines of a block, each with its line feed, if it has one."""
    with open(block.path, "rb") as file:
        file.seek(block.begin)
        left = block.end - block.begin
        while left > 0:
            line = file.readline(left)
            if not line:
                raise Stop(f"{block.path} is shorter than it was")
            left -= len(line)
            yield line


# ---- the keys of a block

def read_block(work: str, block: list[Any], many: int) -> dict[str, Any]:
    """Writes two files: a number for each line, which is that of the first transfer that it names, and the identity and
    that transfer for each message, in so many buckets by the identity."""
    its, firsts, buckets = Block(*block), array.array("Q"), [array.array("Q") for _ in range(many)]
    pairs: set[tuple[int, int]] = set()
    for line in lines_of(its):
        identity, transfers = (None, []) if is_blank(line) else keys_of(line)
        if identity is None or not transfers:
            firsts.append(BLANK if is_blank(line) else NO_KEYS)
            continue
        firsts.append(transfers[0])
        buckets[identity % many].extend((identity, transfers[0]))
        if len(transfers) > 1:
            pairs |= pairs_of(transfers)
    with whole(f"{work}/keys/{its.number}.transfers") as file:
        firsts.tofile(file)
    ends = [0]
    with whole(f"{work}/keys/{its.number}.identities") as file:
        for bucket in buckets:
            bucket.tofile(file)
            ends.append(file.tell())
    return {"lines": len(firsts), "blank": firsts.count(BLANK), "ends": ends, "pairs": sorted(pairs)}


# ---- a block that is cut

def part_of(transfer: int, line: int, roots: dict[int, int], parts: int) -> int:
    """The part of a line, by its transfer or, if it has none, by its number."""
    return (line if transfer == NO_KEYS else roots.get(transfer, transfer)) % parts


def read_roots(work: str) -> dict[int, int]:
    """The root of each tied transfer, from the file that has them in turn."""
    pairs = numbers(f"{work}/roots")
    return dict(zip(pairs[::2], pairs[1::2]))


def cut_block(work: str, block: list[Any], before: int, parts: int) -> dict[str, list[int]]:
    """Writes the lines of a block and their places, part after part. `before` is how many lines of the file come before
    it. The result is where each part ends in the two files."""
    its, roots = Block(*block), read_roots(work)
    lines: list[list[bytes]] = [[] for _ in range(parts)]
    places = [array.array("Q") for _ in range(parts)]
    for number, (transfer, line) in enumerate(zip(numbers(f"{work}/keys/{its.number}.transfers"), lines_of(its)),
                                              before + 1):
        if transfer != BLANK:
            part = part_of(transfer, number, roots, parts)
            lines[part].append(line if line.endswith(b"\n") else line + b"\n")
            places[part].append(place(its.file, number, transfer == NO_KEYS))
    ends = {"lines": [0], "places": [0]}
    pieces: dict[str, Iterable[Any]] = {"lines": map(b"".join, lines), "places": places}
    for what, written in pieces.items():
        with whole(f"{work}/cuts/{its.number}.{what}") as file:
            for piece in written:
                file.write(piece)
                ends[what].append(file.tell())
    return ends


# ---- a part that is put together

def put_together(work: str, part: int, cut: list[dict[str, list[int]]], what: str) -> int:
    """Writes the file of a part from what each block has for it."""
    with whole(part_file(work, f"{part}", what)) as target:
        for number, ends in enumerate(cut):
            with open(f"{work}/cuts/{number}.{what}", "rb") as source:
                begin, end = ends[what][part:part + 2]
                copied(source, begin, end, target)
        return target.tell()


def part_file(work: str, name: str, what: str) -> str:
    return f"{work}/parts/{name}.{what}"


def gather_part(work: str, part: int, cut: list[dict[str, list[int]]], most: int) -> list[list[int | str]]:
    """Writes the files of a part, and answers their names, with how many bytes and lines each has. A part of more than
    `most` bytes becomes several. One without a line is left out, unless it is the first."""
    size, places = (put_together(work, part, cut, what) for what in ("lines", "places"))
    if size > most:
        return split_part(work, part, most)
    return [[f"{part}", size, places // 8]] if size or part == 0 else []


def root_of(line: bytes, number: int, roots: dict[int, int]) -> int:
    """What a line is tied to: the root of its transfer, or itself if it names none."""
    transfers = keys_of(line)[1]
    return roots.get(transfers[0], transfers[0]) if transfers else -number


def pieces_of(sizes: collections.Counter[int], most: int) -> tuple[dict[int, int], int]:
    """The piece of each root, so that no piece has more than `most` bytes: the largest first, each into the first with
    room."""
    piece_of: dict[int, int] = {}
    fills: list[int] = []
    for root, size in sizes.most_common():
        piece = next((piece for piece, fill in enumerate(fills) if fill + size <= most), len(fills))
        fills += [0] * (piece == len(fills))
        fills[piece] += size
        piece_of[root] = piece
    return piece_of, len(fills)


def split_part(work: str, part: int, most: int) -> list[list[int | str]]:
    """Writes a part that is too large as several, each of at most `most` bytes. Lines that are tied together stay
    together."""
    path, roots = part_file(work, f"{part}", "lines"), read_roots(work)
    sizes: collections.Counter[int] = collections.Counter()
    with open(path, "rb") as file:
        line_roots = [root_of(line, number, roots) for number, line in enumerate(file)]
    with open(path, "rb") as file:
        for root, line in zip(line_roots, file):
            sizes[root] += len(line)
    [(root, size)] = sizes.most_common(1)
    if size > most:
        raise Stop(too_large(path, [its == root for its in line_roots], size, most))
    piece_of, many = pieces_of(sizes, most)
    return [write_piece(work, part, piece, [piece_of[root] for root in line_roots]) for piece in range(many)]


def write_piece(work: str, part: int, piece: int, pieces: list[int]) -> list[int | str]:
    """Writes one piece of a part, of whose lines each has a piece."""
    name, places = f"{part}-{piece}", numbers(part_file(work, f"{part}", "places"))
    with open(part_file(work, f"{part}", "lines"), "rb") as source, whole(part_file(work, name, "lines")) as target:
        target.writelines(line for line, its in zip(source, pieces) if its == piece)
        size = target.tell()
    with whole(part_file(work, name, "places")) as target:
        chosen = array.array("Q", (place for place, its in zip(places, pieces) if its == piece))
        chosen.tofile(target)
    return [name, size, len(chosen)]


def too_large(path: str, chosen: list[bool], size: int, most: int) -> str:
    """Names the lines of a part that are tied together and have too many bytes."""
    named: dict[str, set[str]] = collections.defaultdict(set)
    with open(path, "rb") as file:
        for line in itertools.compress(file, chosen):
            if keys_of(line)[0] is None:
                return f"a line of {size} bytes is not a message, and a part has at most {most} bytes (--most)"
            words, tied = words_of(line)
            named["|".join(words)].update(map("|".join, tied))
    transfers = sorted({transfer for its in named.values() for transfer in its})
    identity = max(named, key=lambda name: len(named[name]))
    return (f"{sum(chosen)} messages of {size} bytes are tied together, and a part has at most {most} bytes "
            f"(--most). They name {len(transfers)} transfers, the first of them {transfers[0]}. The identity "
            f"{identity} names {len(named[identity])}")
