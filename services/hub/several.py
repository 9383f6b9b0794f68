"""several.py: the sites of one command, each a process of its own, which is started again when it ends.

SIGHUP has it ask anew which sites there shall be. A site that is none of them any more ends in peace, a new one is
started, and one whose words changed is ended and started with the new ones. All others get SIGHUP, too. No site waits
for another one.
"""
from __future__ import annotations
import signal
import subprocess
import sys
import time
from typing import Callable
from . import limits
from .files import Wrong
from .process import ends_with_parent

WRONG, AWAY = 2, 3  # exit statuses of a site that must not start, and of one that cannot


def begins() -> None:
    """What a process does before it is a site: it passes over SIGHUP until it reads its files."""
    signal.signal(signal.SIGHUP, signal.SIG_IGN)
    ends_with_parent()


def say(text: str) -> None:
    print(f"hub: {text}", file=sys.stderr, flush=True)


class Child:
    """A site that is a process of its own, with the words that start it. Without words it is one no more, after its
    process ended."""
    process: subprocess.Popen[bytes] | None
    words: list[str] | None

    def __init__(self, number: int, words: list[str]) -> None:
        self.number, self.words, self.pause = number, words, limits.SITES_FIRST_PAUSE_SECONDS
        self.is_over = False  # it must not start, and stays away
        self.start()

    def start(self) -> None:
        self.began, self.next, self.ends = time.monotonic(), 0.0, False
        try:
            self.process = subprocess.Popen(self.words or [], preexec_fn=begins)
        except OSError as fault:
            self.process = None
            say(f"site {self.number} cannot be started: {fault}")

    def status(self) -> int | None:
        """The exit status of its process. None if it runs."""
        return AWAY if self.process is None else self.process.poll()

    def end(self) -> None:
        """Has its process end in peace."""
        if self.process and self.status() is None and not self.ends:
            self.ends = True
            self.process.terminate()

    def be(self, words: list[str] | None) -> None:
        """From now on it has these words, or none. With the same ones it reads its configuration again. One that does
        not run is tried."""
        is_same, self.words = words == self.words, words
        if self.status() is not None:
            self.is_over, self.pause, self.next = False, limits.SITES_FIRST_PAUSE_SECONDS, time.monotonic()
        elif not is_same:
            self.end()
        elif self.process and not self.ends:
            self.process.send_signal(signal.SIGHUP)

    def look(self) -> bool:
        """Starts it again if its process ended, after a pause. Whether it is still a site."""
        status, now = self.status(), time.monotonic()
        if status is None or self.is_over:
            return True
        if self.words is None:
            say(f"site {self.number} is ended")
            return False
        if self.ends or self.next and now >= self.next:
            self.start()
        elif status == WRONG and not self.next:
            self.is_over = True
            say(f"site {self.number} must not start, and the others go on without it")
        elif not self.next:
            is_long = now - self.began > limits.SITES_LONG_SECONDS
            self.pause = (limits.SITES_FIRST_PAUSE_SECONDS if is_long
                          else min(2 * self.pause, limits.SITES_MOST_PAUSE_SECONDS))
            self.next = now + self.pause
            say(f"site {self.number} ended with {status}, and is started again")
        return True


class Several:
    """The sites. `wanted` gives the words that start each of them, by number. It raises Wrong if it cannot."""
    children: dict[int, Child]

    def __init__(self, wanted: Callable[[], dict[int, list[str]]]) -> None:
        self.wanted, self.children, self.asks, self.ends = wanted, {}, True, False

    def run(self) -> int:
        """Runs the sites until a signal comes, or as long as one of them may run. The exit status."""
        for number in (signal.SIGTERM, signal.SIGINT):
            signal.signal(number, lambda *_: setattr(self, "ends", True))
        signal.signal(signal.SIGHUP, lambda *_: setattr(self, "asks", True))
        try:
            while not self.ends:
                if self.asks:
                    self.ask()
                self.children = {number: child for number, child in self.children.items() if child.look()}
                if all(child.is_over for child in self.children.values()):
                    return WRONG
                time.sleep(limits.SITES_LOOK_SECONDS)
            return 0
        finally:
            self.end()

    def ask(self) -> None:
        """Has the sites that there shall be. What is wrong with them changes nothing."""
        self.asks = False
        try:
            wanted = self.wanted()
        except Wrong as fault:
            say(f"{fault}{'; nothing changes' if self.children else ''}")
            return
        for number, child in self.children.items():
            child.be(wanted.get(number))
        for number in sorted(wanted.keys() - self.children.keys()):
            self.children[number] = Child(number, wanted[number])
        say(f"the sites are {', '.join(map(str, sorted(wanted)))}")

    def end(self) -> None:
        for child in self.children.values():
            child.end()
        for child in self.children.values():
            if child.process:
                child.process.wait()
