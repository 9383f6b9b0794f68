"""The site of a hub, in a program."""
import ctypes
import io
import mmap
import operator
import threading
import warnings
from dataclasses import dataclass
from typing import Any, Callable, Generic, Iterable, Iterator, List, NamedTuple, Optional, Tuple, Type, TypeVar, Union

from ._errors import EMPTY, Closed, Refused, Transfer, error_of
from ._library import Handle, library

Text = TypeVar("Text", str, bytes)
Given = Union[str, bytes, bytearray, memoryview, mmap.mmap]
Self = TypeVar("Self", bound="Questions[Any]")
Made = TypeVar("Made", bound="BaseSite[Any]")

BAD_SITE, BAD_VECTOR, BAD_ARGUMENT = 44, 72, 73
BYTES = (bytes, bytearray, memoryview, mmap.mmap)
MOST = (1 << 64) - 1
PART = 1 << 16  # bytes of an answer that are read at once, while its lines are iterated over
REPLACED = "a call made another answer while the lines of this one were read"


class Taken(NamedTuple):
    """What a take came to: the message's number among the site's own, from 1, or None if the site held it already."""
    is_repeat: bool
    number: Optional[int]


@dataclass(frozen=True)
class LinesTaken(Generic[Text]):
    """What taking many lines came to: how many messages are new, how many were held, and how many lines are refused.

    `refused_text` has a line for each refused line, such as `line 8: 36 InstgAgt 1`.
    """
    fresh: int
    repeats: int
    refused: int
    refused_text: Text


class Accepted(NamedTuple):
    """What an accept came to: how many entries of the delta are new."""
    fresh: int


# ---- what goes in

def lent(text: Given) -> Tuple[Any, int]:
    """A text as two arguments of a call: where its bytes are, and how many they are.

    Nothing is copied of bytes and of memory that can be written. Memory that can only be read, or has gaps, is copied.
    A lone surrogate of a str becomes bytes that are not UTF-8, and are refused as such.
    """
    if isinstance(text, str):
        text = text.encode("utf-8", "surrogatepass")
    if isinstance(text, bytes):
        return text, len(text)
    with memoryview(text) as view:
        length = view.nbytes
        if length == 0 or view.readonly or not view.c_contiguous:
            return view.tobytes(), length
    return ctypes.byref(ctypes.c_char.from_buffer(text)), length


def site_number(number: int) -> int:
    """A number that fits into 16 bits. The library refuses those that are no site."""
    number = operator.index(number)
    if not 0 <= number < 1 << 16:
        raise Refused(BAD_SITE)
    return number


def counted(counts: Iterable[int]) -> Tuple[Any, int]:
    """Counts as two arguments of a call."""
    items = [operator.index(count) for count in counts]
    if any(not 0 <= count <= MOST for count in items):
        raise Refused(BAD_VECTOR)
    return (ctypes.c_uint64 * max(1, len(items)))(*items), len(items)


def asked_for(origin: int, *more: int) -> Tuple[int, ...]:
    """The numbers of a question about an origin as arguments of a call. The library refuses others that are not
    valid."""
    numbers = (operator.index(origin), *map(operator.index, more))
    for place, (number, bits) in enumerate(zip(numbers, (16, 64, 64)), 1):
        if not 0 <= number < 1 << bits:
            raise Refused(BAD_ARGUMENT, place)
    return numbers


def how_many(count: int) -> Tuple[int]:
    """A number of messages as an argument of a call. One that has no place in 64 bits is a ValueError."""
    count = operator.index(count)
    if not 0 <= count <= MOST:
        raise ValueError(f"a number of messages is 0 to 2**64 - 1, and not {count}")
    return (count,)


# ---- what comes out

new_bytes = ctypes.pythonapi.PyBytes_FromStringAndSize
new_bytes.restype, new_bytes.argtypes = ctypes.py_object, [ctypes.c_char_p, ctypes.c_ssize_t]


class Parts(io.RawIOBase):
    """The answer of a site as a file, of which parts are read. It fails when the site has another answer."""

    def __init__(self, site: "Questions[Any]", answer: int) -> None:
        super().__init__()
        self._site, self._answer, self._place = site, answer, 0

    def readable(self) -> bool:
        return True

    def readinto(self, room: Any) -> int:
        length = self._site._part(self._answer, self._place, room)
        self._place += length
        return length


class Questions(Generic[Text]):
    """What sites and snapshots share: what they are asked. A text that a call returns is a str or bytes."""

    _text: Callable[[bytes], Text]

    def _prepare(self, number: int, group: int) -> None:
        """Has an empty handle, for a call that puts a site or a snapshot into it."""
        if hasattr(self, "_handle"):
            raise RuntimeError("a site is opened once: another site is another object")
        self._library = library()
        self._number, self._group = number, group
        # for each call on the handle, since the library takes what is in it while it runs
        self._turn = threading.Lock()
        self._answers = 0  # how many answers were made
        self._is_closed = True
        self._handle = Handle()

    @property
    def number(self) -> int:
        """The number of the site in its group."""
        return self._number

    @property
    def group(self) -> int:
        """How many sites the group has."""
        return self._group

    # ---- the end

    def close(self) -> None:
        """Ends the site, and frees its memory. Each later call is refused by 70 Empty, but for another close."""
        with self._turn:
            self._end()

    def _end(self) -> None:
        self._called("close")
        self._is_closed = True

    @property
    def is_closed(self) -> bool:
        """Whether the site is closed. The answer comes at once, also while another thread makes a call."""
        return self._is_closed

    def __enter__(self: Self) -> Self:
        return self

    def __exit__(self, *error: object) -> None:
        self.close()

    def __del__(self, warn: Callable[..., None] = warnings.warn) -> None:
        if getattr(self, "_is_closed", True):
            return
        try:
            warn(f"unclosed {self!r}", ResourceWarning, source=self)
        finally:
            # nobody holds the lock of a site that nobody has, but a child of fork may have been made while a thread
            # held it
            if self._turn.acquire(blocking=False):
                self._end()
                self._turn.release()

    def __reduce_ex__(self, protocol: Any) -> Any:
        raise TypeError("a site or a snapshot cannot be copied or pickled: keep a journal and a cut, and restore them")

    def __repr__(self) -> str:
        state = "closed" if self._is_closed else "open"
        return f"<{type(self).__name__} {self._number} of {self._group}, {state}>"

    # ---- what each call does. But for `_answered` and `_lines`, these need the lock

    def _called(self, call: str, *texts: Given, plain: Tuple[Any, ...] = ()) -> Any:
        """What a call comes to, by plain arguments and by texts. When it returns, the memory of no text is lent any
        more."""
        arguments = [argument for text in texts for argument in lent(text)]
        return getattr(self._library, "sct_raw_" + call)(self._handle, *plain, *arguments)

    def _checked(self, call: str, outcome: Any) -> Any:
        """What a call came to, unless it was refused."""
        if not outcome.ok:
            raise error_of(call, outcome.code, outcome.place, self._why())
        return outcome

    def _why(self) -> str:
        """Why the last call was refused. Nothing if there is no site, or no memory for the text."""
        length = self._called("why", plain=(ctypes.byref(ctypes.c_char()), 0)).length
        room = ctypes.create_string_buffer(length + 1)
        is_copied = self._called("why", plain=(room, length)).ok
        return room.raw[:length].decode(errors="replace") if is_copied else ""

    def _made(self, call: str, *texts: Given, plain: Tuple[Any, ...] = ()) -> Any:
        """What a call comes to that makes an answer."""
        outcome = self._checked(call, self._called(call, *texts, plain=plain))
        self._answers += 1
        return outcome

    def _copied(self, length: int) -> Text:
        """The answer, whose length is known. Its bytes are written in place."""
        room: bytes = new_bytes(None, length)
        self._checked("answer", self._called("answer", plain=(room, length)))
        return self._text(room)

    def _answered(self, call: str, *texts: Given, plain: Tuple[Any, ...] = ()) -> Text:
        """The answer that a call makes."""
        with self._turn:
            return self._copied(self._made(call, *texts, plain=plain).length)

    # ---- lines

    def _lines(self, call: str, *texts: Given, plain: Tuple[Any, ...] = ()) -> Iterator[Text]:
        """The lines of the answer that a call makes, which is made now."""
        with self._turn:
            self._made(call, *texts, plain=plain)
            return self._each_line(self._answers)

    def _each_line(self, answer: int) -> Iterator[Text]:
        for line in io.BufferedReader(Parts(self, answer), PART):
            yield self._text(line)
            self._must_have(answer)

    def _must_have(self, answer: int) -> None:
        """Fails if the site has another answer than this one, which is counted."""
        if self._is_closed:
            raise Closed(EMPTY)
        if self._answers != answer:
            raise RuntimeError(REPLACED)

    def _part(self, answer: int, place: int, room: Any) -> int:
        """Copies what follows a place of an answer to some room. Returns how many bytes these are."""
        with self._turn:
            self._must_have(answer)
            outcome = self._called("answer_part",
                                   plain=(place, ctypes.byref(ctypes.c_char.from_buffer(room)), len(room)))
            return int(self._checked("answer_part", outcome).length)

    # ---- a snapshot, and what a text says

    def snapshot(self) -> "Snapshot[Text]":
        """What is held now, to be asked while the site goes on, also in another thread. It is made at once, of any
        number of messages, and is closed by itself. Its first question goes through everything, and later ones do not.
        Refusals: 65."""
        return Snapshot(self)

    def reading(self, text: Given) -> Text:
        """What the site reads in a text of messages, one JSON object a line. It takes none of them.

        It has a line for each line that is not blank: the message as the archive text has it, which begins with `{`, or
        why it is refused, such as `line 8: 36 InstgAgt 1`. Refusals: 65.
        """
        return self._answered("reading_text", text)

    # ---- what the site holds, and deltas out

    def counts(self) -> List[int]:
        """How many messages of site 1, 2, .. of the group this site holds: its version vector. Refusals: 65, if it is a
        snapshot's first question."""
        counts = (ctypes.c_uint64 * self._group)()
        with self._turn:
            self._checked("counts", self._called("counts", plain=(counts, self._group)))
        return list(counts)

    def vector_text(self) -> Text:
        """The version vector as text, such as `1:20,3:7`, or `-` if nothing is held."""
        return self._answered("vector_text")

    def cut(self, above: Union[Given, Iterable[int]] = b"-") -> Text:
        """The delta of what the site holds above a version vector: a text, or counts of site 1 first. Refusals: 44, 65,
        72."""
        if isinstance(above, (str, *BYTES)):
            return self._answered("cut", above)
        return self._answered("cut_above", plain=counted(above))

    def cut_lines(self, above: Union[Given, Iterable[int]] = b"-") -> Iterator[Text]:
        """The lines of a cut, as those of `archive_lines`."""
        if isinstance(above, (str, *BYTES)):
            return self._lines("cut", above)
        return self._lines("cut_above", plain=counted(above))

    def entries(self, origin: int, above: int, most: int) -> Text:
        """The delta of the messages of one site that are numbered above a count: as many as a text of `most` bytes has
        room for, and at least one if there is one. `origin` is 1 to 1024, and `most` 1 to 67108863.

        A site that asks so again and again, each time above what it holds, has all when a text without a message comes.
        Refusals: 65, 73 (1: the origin, 2: the count, 3: the bytes).
        """
        return self._answered("entries", plain=asked_for(origin, above, most))

    def digest(self, origin: int, count: int) -> Text:
        """The digest of the first `count` messages of one site, as 64 small hexadecimal digits. `origin` is 1 to 1024.

        The digest of no messages is 32 bytes of 0. That of some messages and one more is SHA-256 of the digest before
        it and of the line of that message in the archive text. Two sites with one digest of a count hold the same
        messages up to it. Refusals: 65, 73 (1: the origin, 2: the count is not valid, or above what the site holds).
        """
        return self._answered("digest", plain=asked_for(origin, count))

    def digests_text(self) -> Text:
        """A line such as `3:7:05c1..` for each site of which this one holds messages, ascending: its number, how many
        messages of it are held, and the digest of all of them. Two sites with equal texts hold the same messages.
        Refusals: 65."""
        return self._answered("digests_text")

    def journal(self, above: int = 0) -> Text:
        """The site's own messages that are numbered above a count, each on a line of the archive text: what a journal
        lacks that has so many lines. Refusals: 65."""
        return self._answered("journal_text", plain=how_many(above))

    def journal_lines(self, above: int = 0) -> Iterator[Text]:
        """The lines of `journal`, as those of `archive_lines`."""
        return self._lines("journal_text", plain=how_many(above))

    def newest(self, count: int) -> Text:
        """The messages that came last, at most so many, each on a line of the archive text, in the order in which they
        came. After an accept of `fresh` entries the newest `fresh` messages are those. Refusals: 65."""
        return self._answered("newest_text", plain=how_many(count))

    # ---- answers on everything held

    def evaluate(self) -> None:
        """Evaluates what is new, so that the next question does not have to. Each answer is what it is without this
        call, and the answer that the site keeps stays. Refusals: 65."""
        with self._turn:
            self._checked("evaluate", self._called("evaluate"))

    def archive_text(self) -> Text:
        """The archive text: each message held on a line."""
        return self._answered("archive_text")

    def archive_lines(self) -> Iterator[Text]:
        """The lines of the archive text, each with its line feed. They are read in parts: no second copy of the text is
        made.

        The answer is made by this call, and is the answer of the site then. A take or an accept while the lines are
        read does not change them. After a call that makes another answer the next line is a RuntimeError, and after a
        close it is refused by 70.
        """
        return self._lines("archive_text")

    def status_text(self) -> Text:
        """The status text: T, F and R lines of each transfer."""
        return self._answered("status_text")

    def status_lines(self) -> Iterator[Text]:
        """The lines of the status text, as those of `archive_lines`."""
        return self._lines("status_text")

    def totals_text(self) -> Text:
        """The totals text: a line for each bank."""
        return self._answered("totals_text")

    def contradictions_text(self) -> Text:
        """A line for each identity that two different messages have, such as `BANKDEFFXXX|pacs.008|M1`."""
        return self._answered("contradictions_text")

    def report(self, bank: Given, day: Given, rows: Given) -> Text:
        """The report on a bank's list for a settlement day, YYYY-MM-DD. Refusals: 48, 65, 73 (1: the bank, 2: the
        day)."""
        return self._answered("report", bank, day, rows)

    def kept_text(self, day: Given) -> Text:
        """The lines of the archive text that are kept on a day, YYYY-MM-DD: the messages on transfers that are not done
        before it, and all that have an identity or a transfer in common with one that is kept. Refusals: 65, 73 (1)."""
        return self._answered("kept_text", day)

    def closed_text(self, day: Given) -> Text:
        """The lines of the archive text that are closed on a day: those that are not kept. Refusals: 65, 73 (1)."""
        return self._answered("closed_text", day)

    # ---- answers on one transfer or bank

    def transfer(self, bank: Given, tx: Given) -> Text:
        """The T, F and R lines of one transfer. Refusals: 65, 73 (1: the bank, 2: the identification)."""
        return self._answered("transfer_text", bank, tx)

    def messages(self, bank: Given, tx: Given) -> Text:
        """The lines of the archive text that have the messages on one transfer. Refusals: 65, 73 (1, 2)."""
        return self._answered("messages_text", bank, tx)

    def bank_totals(self, bank: Given) -> Text:
        """The line of one bank in the totals text, also if all its numbers are 0. Refusals: 65, 73 (1)."""
        return self._answered("bank_totals", bank)

    # ---- the same for banks, which see no transfer of others
    #
    # `banks` is a text as in `take_as`. A transfer is theirs if its originator bank is one of them, or the beneficiary
    # bank of an instruction on it; without an instruction if one of them sent a message on it, or was sent one

    def transfer_for(self, banks: Given, bank: Given, tx: Given) -> Text:
        """The T, F and R lines of one transfer. One that is not theirs has the line of a transfer without messages.
        Refusals: 65, 73 (1: the banks, 2: the bank, 3: the identification)."""
        return self._answered("transfer_text_for", banks, bank, tx)

    def messages_for(self, banks: Given, bank: Given, tx: Given) -> Text:
        """The lines of the archive text that have the messages on one transfer, and none if it is not theirs. A recall
        of others has those of its transactions alone that are on transfers of theirs. Refusals: 65, 73 (1, 2, 3)."""
        return self._answered("messages_text_for", banks, bank, tx)

    def bank_totals_for(self, banks: Given, bank: Given) -> Text:
        """The line of one of the banks in the totals text. Refusals: 65, 73 (1, 2), 79."""
        return self._answered("bank_totals_for", banks, bank)

    def report_for(self, banks: Given, bank: Given, day: Given, rows: Given) -> Text:
        """The report on a list of one of the banks for a settlement day. A row on a transfer that is not theirs is as
        one on a transfer without messages. Refusals: 48, 65, 73 (1: the banks, 2: the bank, 3: the day), 79."""
        return self._answered("report_for", banks, bank, day, rows)

    # ---- the answer

    def answer(self) -> Text:
        """The text that was made last, once more."""
        with self._turn:
            nowhere = ctypes.byref(ctypes.c_char()), 0
            return self._copied(self._checked("answer", self._called("answer", plain=nowhere)).length)

    def answer_end(self) -> None:
        """Frees the memory of the text that was made last. `answer` is empty then."""
        with self._turn:
            self._made("answer_end")


class BaseSite(Questions[Text]):
    """What Site and BytesSite share. They differ in what a text is that a call returns: str or bytes."""

    def __init__(self, number: int, group: int) -> None:
        """Opens site `number` of a group of `group` sites, both 1 to 1024. It holds nothing. Refusals: 44, 65."""
        self._begin("open", number, group)

    def _begin(self, call: str, number: int, group: int, *texts: Given) -> int:
        """Opens the site by a call. Returns the length of its answer."""
        self._prepare(site_number(number), site_number(group))
        self._refused: Optional[Text] = None
        length = self._checked(call, self._called(call, *texts, plain=(self._number, self._group))).length
        self._is_closed = False
        return int(length)

    @classmethod
    def restore(cls: Type[Made], number: int, group: int, journal: Given, delta: Given = b"") -> Made:
        """A site that was there before.

        The journal is its own messages, one JSON object a line, in the order of their numbers: what it took, but no
        repeat. The delta is a cut that it kept or that a peer made. What is refused of the two is left out, and
        `refused_text` has it. Refusals: 44, 65.
        """
        site = cls.__new__(cls)
        length = site._begin("restore", number, group, journal, delta)
        site._refused = site._copied(length)
        return site

    @property
    def refused_text(self) -> Optional[Text]:
        """A line for each line of the journal that was refused at the restore, such as `file 1 line 8: 31`, and one for
        the delta, such as `file 2: 41 3 0 7`. It is empty if nothing was refused, and None if the site was opened and
        not restored."""
        return self._refused

    # ---- messages and deltas in

    def _taken(self, call: str, *texts: Given) -> Taken:
        """What a call comes to that takes a message."""
        with self._turn:
            outcome = self._checked(call, self._called(call, *texts))
        return Taken(outcome.is_repeat, None if outcome.is_repeat else outcome.number)

    def take(self, message: Given) -> Taken:
        """Takes the message that one JSON object is. If it is no repeat, it belongs into the journal, on one line,
        before it is acknowledged and before the next cut. Refusals: 31 to 38, 46, 56, 65."""
        return self._taken("take", message)

    def take_as(self, banks: Given, message: Given) -> Taken:
        """As `take`, if the message may be sent in the name of some banks: a text such as `BANKDEFF,BANQFRPP`, of 1 to
        16. They are the banks for which a client stands.

        The error is `Withheld` if the sender is none of them (81); if a pacs.008, camt.056 or pacs.028 is not of their
        own transfers (82, with the place of the transaction); or if a pacs.002, pacs.004 or camt.029 is not on a
        transfer to one of them (83). It is `Waits`, with the transfer, if no instruction on that is held yet (84): the
        message can be sent again. Refusals: 31 to 38, 46, 56, 65, 73 (1: the banks), 81 to 84.
        """
        return self._taken("take_as", banks, message)

    def take_lines(self, text: Given) -> LinesTaken[Text]:
        """Takes the messages of a text, one JSON object a line. `journal` has those that are new.

        Refusals: 65. After it some of the first messages may be taken; the text can be taken again.
        """
        with self._turn:
            outcome = self._made("take_lines", text)
            return LinesTaken(outcome.fresh, outcome.repeats, outcome.refused, self._copied(outcome.length))

    def accept(self, delta: Given) -> Accepted:
        """Accepts a delta text, whole or not at all. `newest` has what was new. Refusals: 41 to 45, 65."""
        with self._turn:
            return Accepted(self._checked("accept", self._called("accept", delta)).fresh)

    # ---- what changed

    def changes(self) -> List[Transfer]:
        """The transfers whose lines may have changed since the call before. The first call begins the watch, and
        returns none.

        It is a list, and no iterator: the site names each change once, and a caller that stopped early would lose the
        rest.
        """
        with self._turn:
            room: bytes = new_bytes(None, self._made("changes").length)
            self._checked("answer", self._called("answer", plain=(room, len(room))))
        return [Transfer(*line.split("|")) for line in room.decode().split("\n")[:-1]]


class Site(BaseSite[str]):
    """A site of a hub. Its texts are str. Texts that go in are str, bytes or other memory, into which nobody writes
    during the call.

        with Site(1, 3) as site:
            site.take(message)
            print(site.status_text(), end="")

    Several threads may use one site: a lock lets one call in at a time. A call gives other threads the interpreter
    while it runs. A long question goes to a `snapshot`, and the site goes on meanwhile. Do not call a site from a
    signal handler, or in a child made by fork of a program with several threads.
    """
    _text = staticmethod(bytes.decode)


class BytesSite(BaseSite[bytes]):
    """A site whose texts are bytes. All else is as in Site."""
    _text = staticmethod(bytes)


class Snapshot(Questions[Text]):
    """What a site held when its `snapshot` was called. It answers what the site would have answered then, and takes
    nothing. Its texts are as those of the site: str of a Site, and bytes of a BytesSite.

        with site.snapshot() as snapshot:
            for line in snapshot.archive_lines():
                print(line, end="")

    It may be asked in another thread, while the site goes on, and each is closed by itself, in any order.
    """

    def __init__(self, of: Questions[Text]) -> None:
        """A snapshot of a site, or of a snapshot. Refusals: 65."""
        with of._turn:
            self._prepare(of._number, of._group)
            self._text = of._text
            of._checked("snapshot", of._called("snapshot", plain=(self._handle,)))
            self._is_closed = False
