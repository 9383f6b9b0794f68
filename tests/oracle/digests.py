"""The digests of what a site holds, by the definition alone.

The digest of no entries is 32 bytes of 0. The digest of entries and one more is the SHA-256 of the digest before it and
of the line of that entry in the archive text, with its line feed.
"""
import hashlib
from tests.oracle.status import written

NO_DIGEST = bytes(32)


def next_digest(before, line):
    """The digest after an entry with this line, which ends with a line feed."""
    return hashlib.sha256(before + line).digest()


def chain_of(messages):
    """The digests of no messages, of the first, of the first two, and so on."""
    chain = [NO_DIGEST]
    for message in messages:
        chain.append(next_digest(chain[-1], written(message).encode() + b"\n"))
    return chain


class Chains:
    """The chains of a site, which hold entries that only grow."""

    def __init__(self, logs):
        self.logs, self.chains = logs, {}

    def of(self, origin):
        """The digests of an origin, from that of no entries to that of all."""
        chain, log = self.chains.setdefault(origin, [NO_DIGEST]), self.logs.get(origin, [])
        for message in log[len(chain) - 1:]:
            chain.append(next_digest(chain[-1], written(message).encode() + b"\n"))
        return chain

    def text(self):
        """The line of each origin with entries: its number, how many there are, and the digest of all of them."""
        return "".join(f"{origin}:{len(log)}:{self.of(origin)[-1].hex()}\n" for origin, log in sorted(self.logs.items())
                       if log)
