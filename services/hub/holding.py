"""holding.py: what a site holds, as its process says it: how many entries of each origin, and their digests."""
from __future__ import annotations
import collections
from . import limits
from .digests import Digest, digests_in, head_of
from .files import Wrong
from .process import Reply
from .vectors import head_in, vector_text


class Holding:
    """The counts of a site with a number, in a group. `unseen` new entries were not evaluated yet."""
    digests: dict[int, Digest]  # of all that the process held after the last round, by origin
    known: collections.OrderedDict[tuple[int, int], str]  # digits of digests that were made, by origin and count
    _vector: str | None  # the text of the counts, once it was asked for

    def __init__(self, number: int, group: int) -> None:
        self.number, self.group, self.counts, self._vector, self.unseen = number, group, [0] * group, None, 0
        self.digests, self.known = {}, collections.OrderedDict()

    @property
    def vector(self) -> str:
        """The counts as a text."""
        if self._vector is None:
            self._vector = vector_text(self.counts)
        return self._vector

    def began(self, counts: list[int]) -> None:
        """A process was started, and holds as many entries of each origin."""
        self.counts, self._vector = counts, None

    def took(self, number: int) -> None:
        """The site took a message under a number. Wrong if it is not the next one."""
        if number != self.counts[self.number - 1] + 1:
            raise Wrong(f"the process gave the number {number} after {self.counts[self.number - 1]}")
        self._more(self.number, 1)

    def accepted(self, delta: bytes, fresh: int) -> None:
        """Counts the new entries of a delta with entries of one site."""
        if fresh:
            origin, first, many = head_in(delta)
            if fresh != first + many - 1 - self.counts[origin - 1]:
                raise Wrong(f"the process accepted {fresh} of {many} entries of site {origin} from {first} on, after "
                            f"{self.counts[origin - 1]}")
            self._more(origin, fresh)

    def _more(self, origin: int, fresh: int) -> None:
        """The process has some entries of an origin more. Who handed them on sees them at once."""
        self.counts[origin - 1] += fresh
        self.unseen += fresh
        self._vector = None

    # ---- digests

    def know(self, its: Digest) -> None:
        """Keeps a digest for who asks for it next."""
        self.known[its[:2]] = its.digits
        self.known.move_to_end(its[:2])
        while len(self.known) > limits.DIGESTS_MOST_KNOWN:
            self.known.popitem(last=False)

    def hold(self, reply: Reply, program: str) -> None:
        """Takes note of the digests of all that is held, as a program says them."""
        if reply.text is None:
            raise Wrong(f"{program} has no digests: it is of another version than the service")
        self.digests = {its.origin: its for its in digests_in(reply.text.decode(), self.group)}
        for its in self.digests.values():
            self.know(its)

    def held(self) -> str | None:
        """The digests of all that is held, or None while those of the last entries are not known yet."""
        is_whole = all(count == (self.digests[origin].number if origin in self.digests else 0)
                       for origin, count in enumerate(self.counts, 1))
        return head_of(self.digests.values()) if is_whole else None
