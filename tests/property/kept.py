"""kept.py: `keep` and `closed` print of made-up sets what the definitions say, and no status of a transfer changes.

Of 2,000 sets both texts must be those of tests/oracle/keep.py, with the refused lines and the exit status. The lines of
the status text of what is kept and of what is closed, merged in the order of transfers, must be the status text of the
whole set.

A set has some transfers that are mostly settled, with their recalls and answers. Some recalls are of several of these
transfers. Other messages confirm, recall, return and contradict at random. Most messages are from before the day, and
some are from the day or after it.
"""
import collections
import json
import os
import re
from concurrent.futures import ThreadPoolExecutor
from bench.generate import samples
from tests import harness
from tests.oracle import keep, status
from tests.property import cases, messages
from tests.property.messages import shuffled, written_out

MANY = 2000
DAYS = ["2024-05-02", "2024-05-03", "2024-05-04"]
STAMPS = ["2024-05-01T23:30:00-05:00", "2024-05-01", "2024-05", "2024-05-02T10:00:00Z",
          "2024-05-02T23:59:59", "2024-05-03T00:00:00+02:00",
          "2024-05-03", "2024-05-04T09:00:00.000Z", "2024-12-01T00:00:00Z", "20240501", "tomorrow"]
SETTLED = "2024-05-01T10:00:00Z"
REASON = {"TxSts": "RJCT", "Rsn": "AC04"}
REFUSED_LINES = [b"foo", b"{}", b"", b" \t\r"]

STATUS = "kept by its status alone"
RECALL = "kept by a recall alone"
DATE = "kept by a date alone"
TIE = "done, and kept by a tie"
CHAIN = "done, and kept by a chain of ties"
SAME_DAY = "a message of the day itself"
CONTRADICTED = "a contradicted identity"
SEVERAL_KEPT = "a recall of several transfers that is kept"
SEVERAL_CLOSED = "a recall of several transfers that is closed"
NOTHING_KEPT, NOTHING_CLOSED, BOTH = "nothing is kept", "nothing is closed", "some is kept and some closed"
REFUSED = "a refused line"
FINAL = ["closed " + word for word in sorted(keep.FINAL)]
ANSWERED = ["closed, with a recall that is " + word for word in sorted(keep.ANSWERED)]
TO_MEET = [STATUS, RECALL, DATE, TIE, CHAIN, SAME_DAY, CONTRADICTED, SEVERAL_KEPT, SEVERAL_CLOSED,
           NOTHING_KEPT, NOTHING_CLOSED, BOTH,
           REFUSED, *FINAL, *ANSWERED]

# a set: a name, the day, the lines, and what must be printed of it: that of `keep`, that of `closed`, and the status
# text
Made = collections.namedtuple("Made", "name day data kept closed status")


# ---- made-up sets

class Pool(messages.Pool):
    """What messages are made of. Few of them are from other days than the others."""

    def __init__(self, r):
        super().__init__(r)
        self.transfers = [f"T{number}" for number in range(1, r.randint(2, 9))]
        self.late, self.made = r.choice([0, 0.05, 0.3]), 0

    def stamp(self):
        return self.r.choice(STAMPS) if self.r.random() < self.late else SETTLED

    def head(self, kind, letter):
        return {**super().head(kind, letter), "CreDtTm": self.stamp()}

    def own(self):
        """The elements of the head of a message that no other message contradicts."""
        self.made += 1
        return {"MsgId": f"S{self.made}", "CreDtTm": self.stamp()}


def about(pool, transfer):
    """The elements that name a transfer of the first bank."""
    return {"OrgnlTxId": transfer, "DbtrAgt": pool.banks[0]}


def answered(pool, transfer, recall):
    """The answer to a recall of a transfer: its refusal, or for the first recall a return."""
    if recall == "R1" and pool.r.random() < 0.5:
        return samples.payback(**pool.own(), OrgnlCxlId=recall, **about(pool, transfer))
    return samples.refusal(**pool.own(), OrgnlCxlId=recall, **about(pool, transfer))


def settled(pool, transfer):
    """The messages on a transfer that is settled, mostly."""
    r = pool.r
    yield samples.instruction(**pool.own(), TxId=transfer, InstgAgt=pool.banks[0], DbtrAgt=pool.banks[0])
    if r.random() < 0.95:
        yield samples.confirmation(r.choice([samples.ACCEPTED, samples.ACCEPTED, REASON]), **pool.own(),
                                   **about(pool, transfer))
    if r.random() < 0.3:
        yield samples.recall([samples.transaction(**about(pool, transfer))], **pool.own())
        if r.random() < 0.9:
            yield answered(pool, transfer, "R1")


def of_several(pool, recall):
    """A recall of several transfers, and the answers to it, of which one may be missing."""
    chosen = pool.r.sample(pool.transfers, min(len(pool.transfers), pool.r.randint(2, 3)))
    yield samples.recall([samples.transaction(CxlId=recall, **about(pool, transfer)) for transfer in chosen],
                         **pool.own())
    for transfer in chosen[pool.r.random() < 0.2:]:
        yield answered(pool, transfer, recall)


def elsewhere(pool, message):
    """A message of the same identity on another transfer, or a bank that is written out."""
    key = "TxId" if "TxId" in message else "OrgnlTxId"
    return {**message, key: pool.r.choice(pool.transfers)} if key in message else written_out(message)


def made_up_set(r):
    """The lines of a set."""
    pool = Pool(r)
    found = [message for transfer in pool.transfers for message in settled(pool, transfer)]
    for number in range(r.choice([0, 0, 1, 3])):
        found += of_several(pool, f"B{number}")
    found += [pool.message() for _ in range(r.choice([0, 0, 0, 1, 2, 8]))]
    found += [elsewhere(pool, r.choice(found)) for _ in range(r.choice([0, 0, 0, 1]))]
    lines = [shuffled(r, message) for message in found
             + r.sample(found, len(found) // 5)] + r.sample(REFUSED_LINES, r.choice([0, 0, 2]))
    r.shuffle(lines)
    return b"\n".join(lines)


# ---- what is met

def met_by_transfer(transfer, said, against, day, kept, open_messages):
    """What a transfer meets by why it is kept, or by its status if it is closed."""
    stands, _, recalls = status.standing(said, against)
    is_final, is_early = stands.partition("|")[0] in keep.FINAL, all(keep.date(message) < day for message, _ in said)
    is_answered = keep.is_settled("ACCEPTED", recalls)
    reasons = {(False, True, True): STATUS, (True, False, True): RECALL, (True, True, False): DATE}
    if (is_final, is_answered, is_early) in reasons:
        yield reasons[is_final, is_answered, is_early]
    if not is_final or not is_answered or not is_early:
        return
    on = {message for message, _ in said}
    if on <= kept:
        yield TIE if on & open_messages else CHAIN
        return
    yield "closed " + stands.partition("|")[0]
    yield from ("closed, with a recall that is " + recall.split("|")[1] for recall in recalls)


def met_by(day, held, kept, refused):
    """What a set meets."""
    against, by = status.contradicted(held), status.by_transfer(held)
    not_done = keep.open_transfers(day, held)
    open_messages = {message for message in held if not_done & status.transfers(message)}
    for transfer, said in by.items():
        yield from met_by_transfer(transfer, said, against, day, kept, open_messages)
    yield from [SAME_DAY] * any(keep.date(message) == day for message in held)
    yield from [CONTRADICTED] * bool(against)
    yield from (SEVERAL_KEPT if message in kept else SEVERAL_CLOSED for message in held
                if len(status.transfers(message)) > 1)
    yield BOTH if kept and held - kept else NOTHING_CLOSED if kept else NOTHING_KEPT
    yield from [REFUSED] * bool(refused)


def made_of(number, r):
    """The set of a number, and what it meets."""
    day, data = r.choice(DAYS), made_up_set(r)
    held, refused = status.messages_in(data)
    kept = keep.kept(day, held)
    texts = status.archive_text(kept), status.archive_text(held - kept), status.status_text(held)
    answers = [harness.Answer(text.encode(), refused.encode(), 1 if refused else 0) for text in texts]
    return Made(f"set {number}", day, data, *answers), [*met_by(day, held, kept, refused)]


# ---- what the program prints

def transfers_in(text):
    """The lines of each transfer of a status text, after its key."""
    return [(piece.split(b"|", 3)[1:3], piece) for piece in re.split(rb"^(?=T\|)", text, flags=re.M)[1:]]


def merged(one, other):
    """Two status texts as one, in the order of transfers."""
    return b"".join(piece for _, piece in sorted(transfers_in(one) + transfers_in(other)))


def is_right(program, made):
    """Whether the program prints what it must of a set. If not, all of it is printed."""
    kept, closed = (harness.run([program, word, made.day], made.data) for word in keep.PARTS)
    whole, *parts = (harness.run([program, "status"], data) for data in (made.data, kept.text, closed.text))
    is_merged = merged(*(part.text for part in parts)) == whole.text and all((part.errors, part.status) == (b"", 0)
                                                                             for part in parts)
    right = (kept, closed, whole) == (made.kept, made.closed, made.status) and is_merged
    if not right:
        print(f"{made.name}: DIFFERS\n day {made.day}\n lines {json.dumps(made.data.decode())}\n kept {kept}\n "
              f"closed {closed}\n wanted {made.kept}\n and {made.closed}\n statuses of the whole "
              f"{whole.text!r}\n and of both {parts}", flush=True)
    return right


def main():
    asked, program = cases.asked(__doc__), harness.program()
    r, sets, met = asked.source("kept"), [], dict.fromkeys(TO_MEET, 0)
    for number in asked.numbers(MANY, met):
        made, things = made_of(number, r)
        sets.append(made)
        for thing in things:
            met[thing] += 1
    print(f"{len(sets)} sets: " + ", ".join(f"{thing} {times}" for thing, times in met.items()), flush=True)
    with ThreadPoolExecutor(len(os.sched_getaffinity(0))) as pool:
        right = list(pool.map(lambda made: is_right(program, made), sets))
    harness.end(sum(right), len(right) - sum(right) + asked.missed(MANY, met))


if __name__ == "__main__":
    main()
