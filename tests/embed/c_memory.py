"""c_memory.py: a site that is closed gives all of its memory back, and a call that brings nothing keeps none.

The driver counts the blocks of memory that are held, and their bytes. It has none of its own while it waits for a
request. Each trial makes a site, uses it in one way and closes it. Some block is held before, and none after. A site is
also used and closed by a handle to which it was moved. A site that is not made holds nothing. Of a site and its
snapshots each is the last that is closed in turn. A snapshot that was not asked has few bytes more than its site.

A call that is made again and again, and brings nothing new, keeps no memory: each refusal, each question, a repeat, a
delta that the site holds. `answer_end` gives back what the answer had.
"""
import itertools
from bench.generate import messages, samples
from tests import harness
from tests.embed import driving
from tests.harness import reported
from tests.inputs import confirmation, delta, instruction

BANK, DAY, LIST = b"BANKDEFF", b"2024-05-02", b"DbtrAgt,TxId,Amt,Sts\nBANKDEFF,T1,1.00,ACCEPTED\n"
LINES = "".join(messages.lines(300)).encode() + b"nothing\n{}\n"
NOTHING = {"blocks": 0, "bytes": 0}
FEW, MANY, BLOCK = 3, 100, 64
MANY_LINES, EACH = 40_000, 4  # messages, and the bytes of a snapshot for each of them at most: half an address

TAKES = [("take", 0, instruction(number).encode()) for number in range(1, 9)] + [("take_lines", 0, LINES)]
ACCEPTS = [("accept", 0, delta(2, 1, 11, 12, 13)), ("accept", 0, delta(3, 1, 21)), ("accept", 0, delta(2, 3, 13, 14))]
REFUSED = [("take", 0, b"{"), ("take", 0, b'{"MsgNmId":"pacs.008","MsgId":7}'),
           ("take", 0, samples.line(samples.instruction(Purp="x")).encode()),
           ("take", 0, samples.line(samples.recall([{"CxlId": "R1"}])).encode()), ("take_lines", 0, b"nothing\n{}\n"),
           ("accept", 0, delta(3, 9, 5)), ("accept", 0, delta(2, 1, 12)), ("accept", 0, delta(1, 999, 5)),
           ("accept", 0, delta(4, 1, 5)),
           ("accept", 0, delta(2, 9, 5)[:-2]), ("accept", 0, b"x"), ("open", 0, 1, 3),
           ("restore", 0, 1, 3, LINES, delta(2, 1, 2)),
           ("cut", 0, b"1"), ("cut_above", 0, [0] * 1025), ("report", 0, BANK, DAY, b"x"),
           ("report", 0, BANK, b"today", LIST),
           ("transfer_text", 0, b"", b"T1"), ("messages_text", 0, BANK, b""),
           ("bank_totals", 0, b"X"), ("counts", 0, 1025),
           ("kept_text", 0, b"today"), ("closed_text", 0, b""), ("entries", 0, 0, 0, 1), ("entries", 0, 1, 0, 0),
           ("digest", 0, 0, 0), ("digest", 0, 1, 1 << 60), ("take_as", 0, b"BANKITMM", instruction(1).encode()),
           ("take_as", 0, b"BANQFRPP", confirmation(99).encode()), ("take_as", 0, BANK, b"{"),
           ("take_as", 0, b"BANKDEFF,", b"{"), ("transfer_text_for", 0, b"", BANK, b"T1"),
           ("messages_text_for", 0, BANK, BANK, b""), ("bank_totals_for", 0, b"BANKITMM", BANK),
           ("report_for", 0, b"BANKITMM", BANK, DAY, LIST), ("report_for", 0, BANK, BANK, DAY, b"x")]
REPEATS = [TAKES[0], ACCEPTS[0], ("accept", 0, b"delta 2\nend 0\n"), ("take_lines", 0, LINES),
           ("take_as", 0, b"BANQFRPP,BANKDEFF", instruction(1).encode())]
QUESTIONS = [("vector_text", 0), ("archive_text", 0), ("status_text", 0),
             ("totals_text", 0), ("contradictions_text", 0),
             ("changes", 0), ("evaluate", 0), ("cut", 0, b"1:3"), ("cut_above", 0, [2]), ("entries", 0, 1, 2, 1000),
             ("digest", 0, 1, 1), ("digests_text", 0),
             ("journal_text", 0, 2), ("newest_text", 0, 5), ("reading_text", 0, LINES), ("report", 0, BANK, DAY, LIST),
             ("transfer_text", 0, BANK, b"T1"),
             ("messages_text", 0, BANK, b"T1"), ("bank_totals", 0, BANK), ("kept_text", 0, DAY),
             ("closed_text", 0, b"2025-01-01"), ("transfer_text_for", 0, b"BANQFRPP", BANK, b"T1"),
             ("transfer_text_for", 0, b"BANKITMM", BANK, b"T1"), ("messages_text_for", 0, b"BANQFRPP", BANK, b"T1"),
             ("bank_totals_for", 0, BANK, BANK), ("report_for", 0, b"BANQFRPP,BANKDEFF", BANK, DAY, LIST),
             ("why", 0, 99), ("answer", 0, 1 << 20), ("answer_part", 0, 1, 9), ("counts", 0, 3)]
OPEN, CLOSE, HELD = ("open", 0, 1, 3), ("close", 0), ("held", 0)
RESTORE = ("restore", 0, 1, 3, LINES, delta(2, 1, 11, 12))

# what is done with a site before it is closed
LIVES = {
    "opened": [OPEN],
    "opened, and took messages": [OPEN, *TAKES],
    "opened, and accepted deltas": [OPEN, *ACCEPTS],
    "opened, and was refused": [OPEN, *REFUSED],
    "opened, and answered": [OPEN, *TAKES, *QUESTIONS],
    "opened, and did all that": [OPEN, *TAKES, *REFUSED, *QUESTIONS, *ACCEPTS, *QUESTIONS, *REPEATS],
    "restored": [RESTORE],
    "restored of what is wrong": [("restore", 0, 1, 3, b"nothing\n" + LINES, delta(2, 2, 11)), *QUESTIONS],
    "closed and opened again": [OPEN, *TAKES, CLOSE, OPEN, *ACCEPTS],
}
NONE_MADE = [("open", 0, 0, 3), ("restore", 0, 4, 3, LINES, delta(2, 1, 2)), ("snapshot", 0, 1),
             *(call for call in REFUSED + QUESTIONS if call[0] not in ("open", "restore"))]


def on(handle, calls):
    """Calls on another handle."""
    return [(name, handle, *words) for name, _, *words in calls]


# what is done with a site and two snapshots, of which the second is one of the first
OF_SNAPSHOTS = {
    "snapshots that were not asked": [],
    "snapshots that were asked": [*on(1, QUESTIONS), *on(2, QUESTIONS)],
    "snapshots that refused": [*on(1, TAKES), *on(1, ACCEPTS), *on(2, REFUSED)],
    "snapshots of a site that goes on": [*ACCEPTS, *QUESTIONS, *on(2, QUESTIONS),
                                         ("take", 0, instruction(99).encode())],
    "snapshots that are not made": [("snapshot", 0, 2), ("snapshot", 1, 0), ("snapshot", 4, 5)]}


def held(program, name, requests, *closes):
    """Whether memory is held after some requests, until the last of some calls that close."""
    replies = driving.asked(program, [*requests, HELD, *(one for close in closes or [CLOSE] for one in (close, HELD))])
    *before, after = [reply.fields for reply in replies[len(requests)::2]]
    right = all(one["blocks"] > 0 for one in before) and after == NOTHING
    return reported(f"{name}, then closed", right, f"{before} before, {after} after")


def moved(requests):
    """The requests, each by a handle to which the site was moved just before."""
    for place, (name, _, *words) in enumerate(requests):
        yield "move", place + 1, place
        yield (name, place + 1, *words)


def closed(program):
    """What is held after each life."""
    for name, life in LIVES.items():
        yield held(program, name, life)
    life = [*TAKES, *REFUSED, *QUESTIONS, *ACCEPTS]
    yield held(program, "moved once", [OPEN, *life, ("move", 1, 0)], ("close", 1))
    yield held(program, "moved before each call", [OPEN, *moved(life)], ("close", len(life)))
    found = driving.asked(program, [*NONE_MADE, HELD])[-1].fields
    yield reported("a site that is not made", found == NOTHING, f"{found}")
    for name, calls in OF_SNAPSHOTS.items():
        begin = [OPEN, *TAKES, ("snapshot", 0, 1), ("snapshot", 1, 2), *calls]
        for order in itertools.permutations(range(3)):
            yield held(program, f"{name}, {order}", begin, *(("close", handle) for handle in order))


def few_bytes(program):
    """Whether a snapshot has few bytes of its own until it is asked, and gives back what it has then."""
    lines = "".join(messages.lines(MANY_LINES)).encode()
    requests = [OPEN, ("take_lines", 0, lines), ("status_text", 0), HELD, ("snapshot", 0, 1), HELD,
                ("status_text", 1), HELD, ("close", 1), HELD]
    replies = driving.asked(program, requests)
    before, made, asked, after = [reply.fields["bytes"] for reply in replies[3::2]]
    is_whole = replies[1].fields["fresh"] == MANY_LINES and replies[6].text == replies[2].text
    right = is_whole and 0 < made - before < EACH * MANY_LINES < asked - made and abs(after - before) <= BLOCK
    return reported(f"a snapshot of {MANY_LINES} messages has {made - before} bytes, and {asked - made} more when "
                    "asked",
                    right, f"{after - before} bytes are left")


def steady(program):
    """Whether as much is held after many times of a call as after a few. A block has some bytes more if no smaller one
    is free."""
    begin = [OPEN, *TAKES, *ACCEPTS, *QUESTIONS, ("snapshot", 0, 3), *on(3, QUESTIONS)]
    steps = [[call] for call in [*REFUSED, *REPEATS, *QUESTIONS, *on(3, REPEATS), ("snapshot", 0, 3)]]
    steps += [[("snapshot", 0, 1), ("close", 1)], [("snapshot", 3, 1), *on(1, QUESTIONS), ("close", 1)]]
    for number, calls in enumerate(steps, 1):
        few, many = (driving.asked(program, [*begin, *calls * times, HELD])[-1].fields for times in (FEW, MANY))
        right = few["blocks"] == many["blocks"] and many["bytes"] <= few["bytes"] + BLOCK
        name = " and ".join(sorted({call[0] for call in calls})) if len(calls) < 3 else "questions to a snapshot"
        yield reported(f"step {number}, {name}, {FEW} and {MANY} times", right, f"{few}, then {many}")


def ended(program):
    """Whether `answer_end` gives back what the answer had, but for a few bytes of a block."""
    asked, before, _, after = driving.asked(program,
                                            [OPEN, *TAKES, ("archive_text", 0), HELD, ("answer_end", 0), HELD])[-4:]
    length, back = asked.fields["length"], before.fields["bytes"] - after.fields["bytes"]
    return reported(f"the end of an answer of {length} bytes gives back {back}", back > length - BLOCK > 0)


def main():
    driving.end_if_missing()
    with driving.libraries() as folder:
        program = driving.built_driver(folder)
        found = [*closed(program), *steady(program), ended(program)]
        harness.end_of(found if driving.stands_in() else [*found, few_bytes(program)])


if __name__ == "__main__":
    main()
