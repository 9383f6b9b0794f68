"""marks.py: why a site takes no more messages, or accepts nothing of an origin: what is marked on its disk.

An origin is marked if another site holds other entries of it. Nothing of that origin is accepted any more. If it is the
site itself, the site halts. A mark that cannot be written is tried again.
"""
from __future__ import annotations
import asyncio
import logging
import time
from typing import Callable
from . import limits
from .faults import Closed, Halted, OnlyAnswers, Refused
from .files import Files

TAKES_NOT = "this site only accepts what others took: takes = false"
CLOSED = "the group is closed for {}: messages go to the group after it"
FORKED = "42 Fork: site {1} has another entry {0} of site {2}"
log = logging.getLogger("hub")


class Marks:
    """The marks of a site, and whether its configuration lets it take messages."""
    halted: str | None
    closed: str | None  # the day for which it is closed
    # the origins that are marked, each with the first entry that differs, and with what was found
    forks: dict[int, tuple[int, str]]
    on_fork: Callable[[int, int, str], object]  # called when an origin is marked

    def __init__(self, files: Files) -> None:
        self.files, self.forks, self.takes = files, files.forks(), True
        self.halted = files.halted() or (self.forks[files.site][1] if files.site in self.forks else None)
        self.closed, self.is_final = files.closing()[0], False  # is_final: the counts are its last
        self.is_halt_kept = self.is_fork_kept = True
        self.on_fork = lambda origin, first, why: None

    def refusal(self) -> Halted | None:
        """Why the site takes no more messages, or None."""
        if self.halted:
            return Halted(self.halted)
        if self.closed:
            return Closed(CLOSED.format(self.closed))
        return None if self.takes else OnlyAnswers(TAKES_NOT)

    def must_take(self) -> None:
        """Halted if the site takes no more messages."""
        why = self.refusal()
        if why:
            raise why

    def must_accept(self, origin: int) -> None:
        """Refused if an origin is marked."""
        if origin in self.forks:
            raise Refused(b"42 %d %d" % (origin, self.forks[origin][0]))

    # ---- the halt

    def halt(self, why: str) -> None:
        """Takes no message from now on, and never again before somebody removes the mark."""
        if not self.halted:
            self.halted = why
            self.keep_halt()
            log.error("the site takes no more messages: %s", why)

    def must_have(self, given: int, count: int, who: str) -> None:
        """Halts the site if somebody gave or has seen more of its numbers than its journal has."""
        if given > count:
            self.halt(f"43 OwnAhead: {who} has {given} messages of site {self.files.site}, and the journal {count}: it "
                      "lost lines")

    def keep_halt(self) -> bool:
        """Whether the mark of a halt is on the disk, which is tried if it is not. A site that is not halted has room
        for one."""
        try:
            if self.halted:
                self.files.put_halt(self.halted)
            else:
                self.files.reserve_halt()
            is_kept = True
        except OSError as fault:
            is_kept = False
            if self.is_halt_kept:
                log.error("the mark of a halt %s: %s",
                          "is not written, and is tried again" if self.halted else "has no room yet", fault)
        self.is_halt_kept = is_kept
        return is_kept

    async def has_kept_halt(self) -> bool:
        """Whether the mark of a halt is on the disk in some seconds, if the site is halted."""
        until = time.monotonic() + limits.HALT_KEPT_SECONDS
        while self.halted and not self.keep_halt():
            if time.monotonic() > until:
                log.error("the mark of the halt is not on the disk. DO NOT START THIS SITE AGAIN before it has one: %s",
                          self.halted)
                return False
            await asyncio.sleep(0.2)
        return True

    # ---- origins

    def fork(self, origin: int, first: int, site: int) -> None:
        """Marks an origin, of which another site has another entry: nothing of it is accepted any more. If it is this
        site, it halts."""
        if origin in self.forks:
            return
        why = f"{FORKED.format(first, site, origin)} ({time.strftime('%Y-%m-%dT%H:%M:%SZ', time.gmtime())})"
        self.forks[origin] = first, why
        self.keep_forks()
        log.error("nothing of site %d is accepted any more: %s", origin, why)
        if origin == self.files.site:
            self.halt(why)
        self.on_fork(origin, first, why)

    def keep_forks(self) -> None:
        """Puts the marks of origins on the disk. It is tried again if the disk fails."""
        try:
            self.files.put_forks(self.forks)
            self.is_fork_kept = True
        except OSError as fault:
            if self.is_fork_kept:
                log.error("the mark of an origin is not written, and is tried again: %s", fault)
            self.is_fork_kept = False

    def keep(self) -> None:
        """Tries again what is not on the disk."""
        self.keep_halt()
        if not self.is_fork_kept:
            self.keep_forks()
