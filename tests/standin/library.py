"""library.py: answers the calls of library.c, which is the other side, by the definitions of tests/embed/model.py."""
import collections
import os
import pathlib
import struct
import sys
sys.path.insert(0, str(pathlib.Path(__file__).resolve().parents[2]))
from tests.embed.model import Handle, called

FIELDS = ["ok", "code", "place", "length", "is_repeat", "number", "fresh", "repeats", "refused"]
# the arguments of each call, of three numbers and four texts; the texts that a call copies are copied whole
NUMBERS = {"open": 2, "restore": 2, "counts": 1, "entries": 3, "digest": 2, "journal_text": 1, "newest_text": 1,
           "snapshot": 1, "why": 1, "code_name": 2, "code_text": 2}
TEXTS = {"restore": 2, "take": 1, "take_as": 2, "take_lines": 1, "accept": 1, "cut": 1, "cut_above": 1,
         "reading_text": 1, "report": 3, "kept_text": 1, "closed_text": 1, "transfer_text": 2, "messages_text": 2,
         "bank_totals": 1,
         "transfer_text_for": 3, "messages_text_for": 3, "bank_totals_for": 2, "report_for": 4}
COUNTS = "cut_above"


def main():
    handles, read, write = collections.defaultdict(Handle), sys.stdin.buffer, sys.stdout.buffer
    for line in iter(read.readline, b""):
        name, number, *more = line.decode().split()
        site, numbers = int(number), list(map(int, more[:3]))
        texts = [read.read(int(length)) for length in more[3:]]
        if name == COUNTS:
            texts[0] = struct.unpack(f"={len(texts[0]) // 8}Q", texts[0])
        fields, text = called(handles, site, name, *numbers[:NUMBERS.get(name, 0)], *texts[:TEXTS.get(name, 0)])
        if name == "close":
            del handles[site]
        text = text or b""
        write.write(" ".join(str(int(fields.get(field, 0))) for field in FIELDS).encode() + b" %d\n" % len(text) + text)
        write.flush()


if __name__ == "__main__":
    try:
        main()
    except BrokenPipeError:
        os._exit(0)  # who asked was killed
