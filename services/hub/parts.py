"""parts.py: what a site that runs is made of, for those that answer about it."""
from __future__ import annotations
import dataclasses
from .exchange import Peers
from .guard import Guard
from .keeper import Keeper
from .posts import Posts
from .record import Record


@dataclasses.dataclass
class Parts:
    """The parts of a site. `seconds` is the time for a body, and for an answer."""
    keeper: Keeper
    peers: Peers
    guard: Guard
    record: Record
    posts: Posts
    version: str
    seconds: float
    is_open: bool = False  # whether it has heard its peers
