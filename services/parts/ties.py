"""ties.py: the transfers that have to be in one part: those that one message names, and those whose messages share an
identity.

Messages of one identity that name different transfers contradict each other, and a list of transactions names several
transfers. These are few. All other transfers are by themselves.
"""
from __future__ import annotations
from typing import Iterable
from parts.files import numbers


class Ties:
    """Transfers that are tied together, two by two: a union-find over the tied transfers alone."""
    above: dict[int, int]

    def __init__(self, pairs: Iterable[tuple[int, int]] = ()) -> None:
        self.above = {}
        for transfer, other in pairs:
            self.tie(transfer, other)

    def root(self, transfer: int) -> int:
        """The transfer that stands for all that are tied to this one."""
        root = transfer
        while self.above.get(root, root) != root:
            root = self.above[root]
        while self.above.get(transfer, root) != root:
            self.above[transfer], transfer = root, self.above[transfer]
        return root

    def tie(self, transfer: int, other: int) -> None:
        transfer, other = self.root(transfer), self.root(other)
        self.above.setdefault(transfer, transfer)
        self.above[other] = transfer

    def roots(self) -> dict[int, int]:
        """The root of each tied transfer."""
        return {transfer: self.root(transfer) for transfer in self.above}


def pairs_of(transfers: list[int]) -> set[tuple[int, int]]:
    """The pairs that tie the transfers of one message together."""
    return {(transfers[0], other) for other in transfers[1:] if other != transfers[0]}


def pairs_in(work: str, slices: list[list[int]]) -> list[tuple[int, int]]:
    """The pairs of transfers that the identities of one bucket tie together. Each block has a slice of its file with
    the numbers of identities and of transfers in turn."""
    first: dict[int, int] = {}
    pairs: set[tuple[int, int]] = set()
    for block, begin, end in slices:
        values = numbers(f"{work}/keys/{block}.identities", begin, end)
        for identity, transfer in zip(values[::2], values[1::2]):
            other = first.setdefault(identity, transfer)
            if other != transfer:
                pairs.add((other, transfer))
    return sorted(pairs)
