"""posts.py: what becomes of lines that somebody posts: in whose names they are handed on, what the record has of it,
and what waits for its instruction.

A bank posts in the names of its client alone: the core decides. Its lines are handed on without blanks, which would
fill the journal. A client posts no more than some messages on one transfer. An answer of a beneficiary bank whose
instruction is not held yet waits on the disk. It is handed on again when something came on its transfer, be it from a
client or from a peer, and after some time without its instruction it is given up. What is handed to the process is in
the record before.
"""
from __future__ import annotations
import asyncio
import collections
import itertools
import logging
import time
from typing import Callable, NamedTuple
from . import chain, limits, senders, waiting
from .access import Who
from .acknowledge import Copies
from .clock import Ends
from .costs import Often
from .faults import Busy, Halted, Refused, Unable
from .changes import Changes
from .keeper import Keeper
from .naming import Named, named_in
from .record import Record
from .work import Outcome

log = logging.getLogger("hub")


# somebody who posts: who it is, from which address, in which request
class Asker(NamedTuple):
    who: Who
    address: str
    request: str


class Posts:
    """The lines that clients post."""
    names: set[tuple[str, str]]
    changed: set[tuple[str, str]]
    fresh: list[waiting.Waiting]
    task: asyncio.Task[None] | None
    banks_of: Callable[[str, str], frozenset[str]]

    def __init__(self, keeper: Keeper, its_record: Record, seconds: float) -> None:
        self.keeper, self.record, self.ends = keeper, its_record, Ends(seconds)
        self.names, self.many, self.some, self.task, self.watches = set(), 0, asyncio.Event(), None, False
        self.copies = Copies(keeper)
        self.banks_of = lambda name, bank: frozenset()  # in whose names somebody sends now who sent for a bank
        self.changed = set()  # transfers with something that waits, and of which a message came
        self.fresh = []  # lines that wait, and were not looked at since
        self.under_way = 0  # posts that have no answer yet
        self.is_open = False  # whether what waits may be taken: not before the site has heard its peers
        self.often = Often()  # messages of banks that were taken, by client and transfer

    async def begin(self) -> None:
        """Looks at all that waited when the site ended, and from now on at what changes."""
        rows = await self.record.waiting()
        self._wait(rows)
        self.names, self.many = {(row.originator, row.tx) for row in rows}, len(rows)
        self.changed = set(self.names)
        self._watch()
        self.some.set()
        self.task = asyncio.ensure_future(self._follow())

    def open(self) -> None:
        """From now on what has its instruction is taken."""
        self.is_open = True
        self._look_at_again(set(self.names))

    async def end(self) -> None:
        if self.task:
            self.task.cancel()
            await asyncio.gather(self.task, return_exceptions=True)

    # ---- what is posted

    async def post(self, asker: Asker, lines: list[bytes]) -> list[Outcome]:
        """The outcome of each line."""
        self.keeper.marks.must_take()
        self.copies.must_be_there()
        self.under_way += 1
        try:
            outcomes = await self._posted(asker, lines)
            await self.copies.hold(outcomes)
            return outcomes
        finally:
            self.under_way -= 1

    async def _posted(self, asker: Asker, lines: list[bytes]) -> list[Outcome]:
        if asker.who.may(("operator",)):
            return await self._handed_on(asker, lines, None, {})
        lines, named = await asyncio.to_thread(lambda: ([senders.without_blanks(line) for line in lines],
                                                        list(map(named_in, lines))))
        outcomes = await self._handed_on(asker, lines, asker.who.banks, self._full(asker.who.name, named))
        for its, outcome in zip(named, outcomes):
            for transfer in its.transfers if outcome.word == "TAKEN" else ():
                self.often.add((asker.who.name, transfer))
        kept = [place for place, outcome in enumerate(outcomes) if outcome.word == "WAITING"]
        rows = await self._kept(asker, [(lines[place], named[place], outcomes[place].why) for place in kept])
        until = dict(zip(kept, (row.until for row in rows)))
        return [Outcome("WAITING", 0, until[place]) if place in until else outcome
                for place, outcome in enumerate(outcomes)]

    def _full(self, name: str, named: list[Named]) -> dict[int, Outcome]:
        """The lines on transfers on which somebody has posted too many messages, by their places: FORBIDDEN."""
        full, more = {}, collections.Counter[tuple[str, str]]()
        for place, its in enumerate(named):
            more.update(its.transfers)
            for transfer in its.transfers:
                if self.often.count((name, transfer)) + more[transfer] > limits.TRANSFER_MOST_MESSAGES:
                    why = f"{' '.join(transfer)} has {limits.TRANSFER_MOST_MESSAGES} messages of this client"
                    full[place] = Outcome("FORBIDDEN", 0, why)
        return full

    def _from(self, asker: Asker) -> tuple[str, str, str]:
        return asker.who.name, asker.address, asker.request

    async def _handed_on(self, asker: Asker, lines: list[bytes], banks: frozenset[str] | None,
                         full: dict[int, Outcome]) -> list[Outcome]:
        """The outcomes of lines that the process is given, in the names of some banks or in any, after the record has
        them. Some have theirs already, by their places, and are not given. Of a bank's lines that cannot be messages
        the record has the number alone, so that nobody fills the disk."""
        if not lines:
            return []
        is_row = [banks is None or senders.may_be_message(line) for line in lines]
        rows, unread = ([line for line, its in zip(lines, is_row) if its == wanted] for wanted in (True, False))
        number = await self.record.add("post", *self._from(asker), chain.post_of(rows)) if rows else None
        if unread:
            self.record.note("unread", *self._from(asker),
                             {"lines": len(unread), "first": chain.digest_of(unread[0])})
        given = [place for place in range(len(lines)) if place not in full]
        try:
            found = await self.keeper.take([lines[place] for place in given], banks) if given else []
        except (Halted, Unable, Busy) as why:
            if number:
                self.record.note("failed", *self._from(asker), chain.failed_of(number, str(why)))
            raise
        its = {**full, **{place: told(one, banks) for place, one in zip(given, found)}}
        outcomes = [its[place] for place in range(len(lines))]
        if number:
            self.record.note("outcome", *self._from(asker),
                             chain.outcomes_of(number, itertools.compress(outcomes, is_row)))
        return outcomes

    async def _kept(self, asker: Asker, lines: list[tuple[bytes, Named, str]]) -> list[waiting.Waiting]:
        """The rows of some lines that wait from now on, each with what it names and the transfer for which it waits."""
        if not lines:
            return []
        until = chain.utc(time.time() + self.ends.most)
        rows = [waiting.to_wait(until, asker.who.name, its.sender, its.kind, bank, tx, asker.request, line)
                for line, its, (bank, _, tx) in ((line, its, transfer.partition(" ")) for line, its, transfer in lines)]
        there = await self.record.put_waiting(rows, asker.address)
        for number in (row.number for row in there if row.number):
            self.ends.begin(number)
        self.fresh += there
        self._look_at({(row.originator, row.tx) for row in there})
        return there

    # ---- what waits

    def round(self, changes: Changes) -> None:
        """After a round of the site: what waits for a transfer that changed is looked at. With None it is not known
        which ones changed."""
        if self.names:
            changed = self.names if changes is None else self.names & {change[:2] for change in changes}
            if changed:
                self._look_at_again(changed)

    def _look_at_again(self, transfers: set[tuple[str, str]]) -> None:
        """Has all that waits for some transfers looked at."""
        self.changed |= transfers
        self._look_at(transfers)

    def _look_at(self, transfers: set[tuple[str, str]]) -> None:
        self.names |= transfers
        self._watch()
        self.some.set()

    def _watch(self) -> None:
        """Has the site say what changes, as long as something waits."""
        if bool(self.names) != self.watches:
            self.watches = bool(self.names)
            self.keeper.watch(1 if self.watches else -1)

    async def _follow(self) -> None:
        """Looks again and again, for ever. No failure ends it, and one that goes on is logged once."""
        said = None
        while True:
            try:
                await asyncio.wait_for(self.some.wait(), limits.POSTS_LOOK_SECONDS)
            except asyncio.TimeoutError:
                pass
            self.some.clear()
            try:
                await self._look()
                said = None
            except Exception as why:
                if repr(why) != said:
                    is_known = isinstance(why, (Busy, Halted, Refused, Unable))
                    log.warning("what waits for its instruction is looked at again later: %s", why,
                                exc_info=not is_known)
                said = repr(why)
                await asyncio.sleep(limits.POSTS_LOOK_SECONDS)
                self.some.set()

    async def _look(self) -> None:
        """Hands on again what may have its instruction now, and gives up what waited too long."""
        if self.names:
            await self.keeper.begin_watching()
        changed, fresh, self.changed, self.fresh = self.changed, self.fresh, set(), []
        try:
            if (changed or fresh) and self.is_open and not self.keeper.marks.refusal():
                again = [row for row in await self.record.waiting()
                         if (row.originator, row.tx) in changed] if changed else []
                await self._handed_on_again(list({row.number: row for row in [*again, *fresh]}.values()))
        except BaseException:
            self.changed, self.fresh = self.changed | changed, fresh + self.fresh
            raise
        late = self.ends.late()
        for number in late:
            await self._ended(number, "EXPIRED", "no instruction came in time")
        if changed or fresh or late:
            rows = await self.record.waiting(lines=False)
            self._wait(rows)
            self.names, self.many = {(row.originator, row.tx) for row in rows} | self.changed | {
                (row.originator, row.tx) for row in self.fresh}, len(rows)
            self._watch()

    def _wait(self, rows: list[waiting.Waiting]) -> None:
        self.ends.are((row.number, row.until) for row in rows if row.number)

    async def _ended(self, number: int | None, state: str, outcome: int | str | None) -> None:
        """Ends the waiting of a line."""
        await self.record.end_waiting(number, state, outcome)
        self.ends.end(number or 0)

    async def _handed_on_again(self, rows: list[waiting.Waiting]) -> None:
        """Hands lines on that wait, some at a time, in the names that their clients have now. What has no instruction
        yet waits on."""
        def sender(row: waiting.Waiting) -> tuple[str, str]:
            return row.who, row.bank

        for (who, bank), its in itertools.groupby(sorted(rows, key=sender), key=sender):
            banks, left = self.banks_of(who, bank), list(its)
            for place in range(0, len(left), limits.ASKED_AT_ONCE):
                some = left[place:place + limits.ASKED_AT_ONCE]
                if banks:
                    outcomes = [told(one, banks) for one in await self.keeper.take([row.line for row in some], banks)]
                else:
                    why = f"{who} does not send in the name of {bank} any more"
                    outcomes = [Outcome("FORBIDDEN", 0, why)] * len(some)
                for row, outcome in zip(some, outcomes):
                    if outcome.word != "WAITING":
                        await self._ended(row.number, outcome.word, outcome.number or outcome.why or None)


def told(outcome: Outcome, banks: frozenset[str] | None) -> Outcome:
    """An outcome as a client is told it, who sends in the names of some banks."""
    return outcome if outcome.word != "FORBIDDEN" else outcome._replace(
        why=senders.why_withheld(outcome.why, banks or ()))
