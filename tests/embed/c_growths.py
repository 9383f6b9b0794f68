"""c_growths.py: each time that a call asks for memory it is refused in turn; the call answers 65, changes nothing, and
is right again.

The site of each trial has taken and accepted messages that meet one another. Its view lags behind, its changes are
watched, and it has an answer. A snapshot of it was made meanwhile. Some calls are tried on a snapshot of such a site,
which was not asked yet. Of each call it is counted how often it asks for memory. Then that time is refused, once alone
and once with all that follow. The call must answer 65, or what it answers with ample memory. After 65 the counts, the
answer and all texts are as before, those of the snapshot too, and why is 65. After a `why` that was refused, why is
what it was. Only `take_lines` may have taken its first messages. Made again, the call comes to what it comes to with
ample memory, and so do all texts. All is closed then, and holds no memory. A call that has to ask for memory and never
does has failed, and so has one that asks for some and must not.
"""
import collections
import os
from concurrent.futures import ThreadPoolExecutor
from bench.generate import samples
from tests import harness
from tests.embed import driving, model
from tests.harness import reported
from tests.inputs import delta, instruction
from tests.oracle import exchange

MEMORY, FOR_EVER = 65, 1 << 40
WITHOUT_MEMORY = {"counts", "answer", "answer_part", "answer_end", "code_name", "code_text", "close"}
OF_SNAPSHOT = WITHOUT_MEMORY - {"counts"} | {"take"}  # calls on a snapshot that need no memory
# the handle on which calls are tried, one for the snapshot that they make, and one for a snapshot of the site
GROUP, HANDLE, MADE, KEPT, SOURCE = 3, 0, 1, 2, 3
EMPTY, SITE, SNAPSHOT = "an empty handle", "a site", "a snapshot"

# a call that is tried: its name, its arguments, and what it is on
Tried = collections.namedtuple("Tried", "name arguments on")


def line(message):
    return samples.line(message).encode()


RECALLED = [samples.transaction(OrgnlTxId=f"T{place}", CxlId=f"R{place}") for place in range(1, 5)]
EARLIER = [instruction(1).encode(), line(samples.confirmation()), instruction(2).encode(),
           line(samples.recall(RECALLED)),
           line(samples.confirmation({"TxSts": "RJCT", "Rsn": "AC04"}, MsgId="C9")),
           line(samples.confirmation(OrgnlTxId="T2", MsgId="C9"))]
LATER = [line(samples.instruction(MsgId="M3", TxId="T3", IntrBkSttlmAmt="2.00")), line(samples.request()),
         line(samples.payback())]
LINES = b"\n".join([line(samples.refusal()), b"{", line(samples.payback(RtrId="XP2", MsgId="P2")), EARLIER[0],
                    *(instruction(number).encode() for number in range(20, 60))]) + b"\n"
LIST = "DbtrAgt,TxId,Amt,Sts\n" + "".join(f"BANKDEFF,T{place},1.00,PENDING\n" for place in range(1, 40))
FRESH = line(samples.recall([{**one, "CxlId": f"Q{place}"} for place, one in enumerate(RECALLED)], MsgId="K7"))
EXTRA = "x" * 3000
REFUSED = line(samples.instruction(**{EXTRA: ""}))
TEXTS = ["archive_text", "status_text", "totals_text", "contradictions_text", "vector_text"]

# a message that has to wait for its instruction
EARLY = line(samples.confirmation(OrgnlTxId="T77", MsgId="C8"))

CALLS = [
    Tried("open", [1, GROUP], EMPTY),
    Tried("restore", [1, GROUP, b"\n".join(EARLIER + [b"{"]), delta(2, 1, 4, 5)], EMPTY),
    Tried("take", [FRESH], SITE), Tried("take", [EARLIER[3]], SITE),
    Tried("take", [b'{"MsgNmId":"pacs.008","MsgId":7}'], SITE),
    Tried("take_as", [b"BANKDEFF", FRESH], SITE), Tried("take_as", [b"BANKDEFF", EARLIER[3]], SITE),
    Tried("take_as", [b"BANKITMM,BANQFRPP", line(samples.confirmation(OrgnlTxId="T2", MsgId="C7"))], SITE),
    Tried("take_as", [b"BANQFRPP", EARLY], SITE), Tried("take_as", [b"BANQFRPP", b"{"], SITE),
    Tried("take_lines", [LINES], SITE), Tried("accept", [delta(2, 3, 6, 7, 8, 9)], SITE),
    Tried("accept", [delta(2, 3, 6, 7)[:-2]], SITE),
    Tried("counts", [GROUP], SITE), Tried("vector_text", [], SITE), Tried("cut", [b"1:1,2:1"], SITE),
    Tried("cut_above", [[1]], SITE),
    Tried("entries", [2, 1, 900], SITE), Tried("digest", [2, 1], SITE), Tried("digests_text", [], SITE),
    Tried("archive_text", [], SITE), Tried("status_text", [], SITE), Tried("totals_text", [], SITE),
    Tried("contradictions_text", [], SITE), Tried("report", [b"BANKDEFF", b"2024-05-02", LIST.encode()], SITE),
    Tried("kept_text", [b"2024-06-01"], SITE), Tried("closed_text", [b"2024-06-01"], SITE),
    Tried("transfer_text", [b"BANKDEFF", b"T1"], SITE), Tried("messages_text", [b"BANKDEFF", b"T1"], SITE),
    Tried("bank_totals", [b"BANKDEFF"], SITE), Tried("transfer_text_for", [b"BANQFRPP", b"BANKDEFF", b"T1"], SITE),
    Tried("transfer_text_for", [b"BANKITMM", b"BANKDEFF", b"T1"], SITE),
    Tried("messages_text_for", [b"BANQFRPP,BANKITMM", b"BANKDEFF", b"T1"], SITE),
    Tried("messages_text_for", [b"BANKITMM", b"BANKDEFF", b"T1"], SITE),
    Tried("bank_totals_for", [b"BANQFRPP", b"BANQFRPP"], SITE),
    Tried("report_for", [b"BANKITMM,BANQFRPP", b"BANQFRPP", b"2024-05-02", LIST.encode()], SITE),
    Tried("changes", [], SITE), Tried("journal_text", [2], SITE),
    Tried("newest_text", [6], SITE), Tried("reading_text", [LINES], SITE), Tried("evaluate", [], SITE),
    Tried("why", [1 << 12], SITE),
    Tried("answer", [1 << 12], SITE), Tried("answer_part", [9, 1 << 12], SITE), Tried("answer_end", [], SITE),
    Tried("code_name", [35, 99], SITE), Tried("code_text", [35, 99], SITE), Tried("close", [], SITE),
    Tried("snapshot", [MADE], SITE), Tried("snapshot", [MADE], SNAPSHOT), Tried("status_text", [], SNAPSHOT),
    Tried("counts", [GROUP], SNAPSHOT), Tried("archive_text", [], SNAPSHOT), Tried("evaluate", [], SNAPSHOT),
    Tried("take", [FRESH], SNAPSHOT), Tried("answer", [9], SNAPSHOT), Tried("close", [], SNAPSHOT),
    Tried("report_for", [b"BANQFRPP", b"BANQFRPP", b"2024-05-02", LIST.encode()], SNAPSHOT)]


def site_of(tried):
    """Requests that make the site or the snapshot on which a call is tried, and a snapshot of the site."""
    if tried.on == EMPTY:
        return []
    site = HANDLE if tried.on == SITE else SOURCE

    def takes(lines):
        return [("take", site, one) for one in lines]

    begin = [("open", site, 1, GROUP), *takes(EARLIER[:2]), ("changes", site),
             ("status_text", site), *takes(EARLIER[2:]), ("snapshot", site, KEPT),
             ("accept", site, delta(2, 1, 4, 5)), ("transfer_text", site, b"BANKDEFF", b"T2"), *takes(LATER)]
    if tried.on == SNAPSHOT:
        return [*begin, ("snapshot", site, HANDLE), ("close", site)]
    return [*begin, ("cut", site, b"1:3"), *takes([REFUSED] if tried.name == "why" else [])]


def reason_after(tried):
    """Why the last call of the site was refused, after memory was refused to the call."""
    if tried.on == EMPTY:
        return 0, 70, b""
    if tried.name == "counts":
        return 1, 0, b""
    return 1, 0, f'37 "{EXTRA}"'.encode() if tried.name == "why" else b"65"


def seen():
    """Requests for all that can be seen of a site, and of the snapshots that were made of it. The first needs no
    memory."""
    return [("answer", HANDLE, 1 << 16), ("counts", HANDLE, GROUP),
            *((name, HANDLE) for name in TEXTS), ("cut", HANDLE, b"-"),
            ("changes", HANDLE), *((name, other) for other in (MADE, KEPT) for name in ("answer_end", *TEXTS))]


# the calls after which nothing is held
ENDS = [("close", HANDLE), ("close", MADE), ("close", KEPT), ("held", HANDLE)]


def what(replies):
    """The fields and texts of replies, without how often they asked for memory."""
    return [(reply.fields, reply.text) for reply in replies]


class Trial:
    """A call with ample memory: what can be seen before it and after it, what it comes to, and how often it asks for
    memory."""

    def __init__(self, program, tried):
        self.program, self.tried, self.begin = program, tried, site_of(tried)
        self.call = (tried.name, HANDLE, *tried.arguments)
        self.before = what(self.asked(*seen()))
        self.reply, *after = self.asked(self.call, *seen())
        self.after = what(after)

    def asked(self, *requests):
        """The replies to requests on a site of its own."""
        return driving.asked(self.program, [*self.begin, *requests])[len(self.begin):]

    def partly_taken(self, own):
        """What can be seen of the site if its first lines were taken, up to this number of own messages."""
        handles = collections.defaultdict(model.Handle)
        for name, place, *arguments in self.begin:
            model.called(handles, place, name, *arguments)
        handle = handles[HANDLE]
        for one in LINES.splitlines():
            message, why = exchange.message_in(one)
            if why is None and handle.site.have(1) < own:
                handle.site.take(message)
        return [handle.call(name)[1] for name in TEXTS]

    def is_as_before(self, again):
        """Whether all that is seen after a refused call is as it was before it."""
        if self.tried.name != "take_lines":
            return what(again) == self.before
        own = driving.counts_in(again[1].text)[0]
        return again[0].text == self.before[0][1] and [reply.text
                                                       for reply in again[2:2 + len(TEXTS)]] == self.partly_taken(own)

    def is_right_again(self, reply, after):
        """Whether the call made again comes to what it should, and all that is seen after it too."""
        if self.tried.name == "take_lines":
            counts = [reply.fields["fresh"] + reply.fields["repeats"], reply.fields["refused"], reply.text]
            wanted = [self.reply.fields["fresh"] + self.reply.fields["repeats"], self.reply.fields["refused"],
                      self.reply.text]
            return counts == wanted and what(after) == self.after
        return what([reply]) == what([self.reply]) and what(after) == self.after

    def requests(self, first, last):
        """Requests that refuse these times of the call, ask why, and look at the site. On another site, they then make
        the call again."""
        refuse, why = ("refuse", HANDLE, first, last), ("why", HANDLE, 1 << 12)
        return [*self.begin, refuse, self.call, why, *seen(), *ENDS,
                *self.begin, refuse, self.call, self.call, *seen(), *ENDS]

    def judged(self, first, replies):
        """How a call did, by the replies to such requests: 'refused', 'no harm', or what is wrong."""
        many, looks = len(self.begin), len(seen())
        reply, why, again = replies[many], replies[many + 1], replies[many + 2:many + 2 + looks]
        if any(any(replies[place].fields.values()) for place in (many + 1 + looks + len(ENDS), -1)):
            return f"{first}: a closed site holds memory"
        if not reply.refused:
            return f"nothing is refused at {first}"
        if what([reply]) == what([self.reply]):
            return "no harm" if what(again) == self.after else f"{first}: an answer without memory left another state"
        if (reply.fields["ok"], reply.fields["code"], reply.text) != (0, MEMORY, b""):
            return f"{first}: {reply}"
        if (why.fields["ok"], why.fields["code"], why.text) != reason_after(self.tried):
            return f"{first}: the refused call has another why: {why}"
        if not self.is_as_before(again):
            return f"{first}: a refused call changed something"
        reply, *after = replies[-looks - 1 - len(ENDS):-len(ENDS)]
        return "refused" if self.is_right_again(reply, after) else f"{first}: the call made again is wrong: {reply}"

    def ends(self):
        """How the call does with each time refused, alone and with all that follow."""
        times = [(first, last) for first in range(1, self.reply.asked + 1) for last in (first, FOR_EVER)]
        replies = driving.asked(self.program, [one for pair in times for one in self.requests(*pair)])
        each = len(replies) // len(times) if times else 1
        return collections.Counter(self.judged(first, replies[place * each:(place + 1) * each])
                                   for place, (first, _) in enumerate(times))

    def run(self):
        """Whether all trials of the call are right, which is printed."""
        ended = self.ends()
        wrong = sorted(set(ended) - {"refused", "no harm"})
        name = (f"{self.tried.name} on {self.tried.on}, {self.reply.asked} times, {ended['refused']} refused, "
                f"{ended['no harm']} without harm")
        needs_none = self.tried.name in (OF_SNAPSHOT if self.tried.on == SNAPSHOT else WITHOUT_MEMORY)
        is_met = (self.reply.asked == 0) if needs_none else ended["refused"] > 0
        return reported(name, is_met and not wrong,
                        "\n".join(wrong[:5]) or "no memory was asked for" if not is_met or wrong else "")


def tried(program, one):
    """Whether a call is right in all its trials."""
    try:
        return Trial(program, one).run()
    except driving.Failed as failed:
        return reported(one.name, False, str(failed))


def main():
    driving.end_if_missing()
    with driving.libraries() as folder:
        program = driving.built_driver(folder, *driving.CHECKED)
        with ThreadPoolExecutor(min(2, len(os.sched_getaffinity(0)))) as pool:
            harness.end_of(list(pool.map(lambda one: tried(program, one), CALLS)))


if __name__ == "__main__":
    main()
