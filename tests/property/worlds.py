"""worlds.py: made-up scripts of worlds, and what their replays must be by the definitions.

Each of 1,000 worlds has 3 to 5 sites and up to 60 events: takes of a few messages that repeat and contradict each
other, cuts for vectors of all kinds, and hands that come late, again, in any order, to no site and of no delta. Between
them are blank lines and lines that are refused, and some inputs are not a valid script. tests/oracle/replay.py has the
right answers. Each outcome and each reason to refuse an event, a line or an input has to be met. So has each reason to
refuse a list of transactions, also in its second element.
"""
import re
from tests.harness import Answer
from tests.oracle.replay import answer
from tests.property.messages import Pool, parts, shuffled, written_out
from tests.property.tries import Try

MANY = 1000
SEVERAL = "a recall of several transactions"
REASONS = ["64", "31", "32", "33", "34", "35", "36", "37", "38", "46 0", "46 1", "46 2", "56 1",
           "56 2 34", "56 2 35", "56 2 36",
           "56 2 37", '37 "Ccy"', '37 "TxInf"', "38 11", "38 21", "38 22"]
TO_MEET = ["TAKEN", "REPEAT", "CUT", "ACCEPTED", "REFUSED|41", "REFUSED|44", "REFUSED|47",
           "fault 64", "contradicted", SEVERAL,
           *("line " + reason for reason in REASONS)]

# lines that are no event, whatever the world
WRONG = [b"take 1", b"take", b"take  1 {}", b"take 01 {}", b"take +1 {}", b"take 65536 {}", b"Take 1 {}", b" take 1 {}",
         b"cut 1", b"cut 1 ", b"cut 1  -", b"cut 1 - ", b"cut 1 --", b"cut 1 2:1,1:1",
         b"cut 1 1:1,1:2", b"cut 1 1025:1",
         b"cut 1 0:1", b"cut 1 1:01", b"cut 1 1:18446744073709551616", b"cut 1 1:1,",
         b"cut 1 1", b"cut 01 -", b"hand 1",
         b"hand 1 ", b"hand 1 1 ", b"hand 1 01", b"hand -1 1", b"hand 1 65536",
         b"hand 18446744073709551616 1", b"sites 3",
         b"hold 1 1", b"\xef\xbb\xbfcut 1 -", b"cut 1 -\r", b"\x0c", b"hand 1 \xb2"]
# inputs that are no script begin so
NO_SCRIPT = [b"sites 0", b"sites 1025", b"sites 03", b"sites 3 ", b"sites 3\r", b" sites 3",
             b"sites", b"sites x", b"site 3",
             b"\xef\xbb\xbfsites 3", b"take 1 {}", b"cut 1 -", b""]


# ---- made-up scripts

def refused_text(r, message):
    """A text that is no form of a message: one for each reason."""
    without = {key: value for key, value in message.items() if key != "DbtrAgt"}
    rule = {"SvcLvl": "URGP"} if message["MsgNmId"] == "pacs.008" else {"OrgnlMsgNmId": "pacs.009"}
    others = [{"Purp": "SALA"}, rule, {"DbtrAgt": None}, {"DbtrAgt": "bankdeff"}, {"InstgAgt": 1},
              {"MsgNmId": "pain.001"}]
    wrong = [without] + [{**message, **other} for other in others]
    return r.choice([b"", b"{", b"[]", b"{}", b"foo"] + [shuffled(r, one) for one in wrong])


def refused_list(r, messages):
    """One of the recalls with a list that is refused, most often for its second element. Other messages are refused for
    any list."""
    recalls = [message for message in messages if message["MsgNmId"] == "camt.056"]
    if not recalls:
        return {**r.choice(messages), "TxInf": []}
    head, [first, *_] = parts(r.choice(recalls))
    second = {**first, "CxlId": "R9"}
    no_list = [None, {}, "x", [], [first] * 101, [first] * 100 + [7]]
    others = [{"CxlId": None}, {"Rsn": "FRAUD"}, {"Purp": "SALA"}, {"MsgId": "K1"}, {"TxInf": []}, {"Ccy": "USD"},
              {"OrgnlMsgNmId": "camt.056"}, written_out(first)]
    without = {key: value for key, value in second.items() if key != "CxlId"}
    seconds = ["x", [], without] + [{**second, **other} for other in others]
    lists = no_list + [["x", second], [{}, "x"], [without, first]] + [[first, one] for one in seconds]
    outer = r.choice([{}, {}, {}, {"Ccy": "EUR"}, {"MsgId": "K//1"}])
    return {**head, "TxInf": r.choice(lists), **outer}


def any_vector(r, sites):
    if r.random() < 0.4:
        return b"-"
    origins = sorted(r.sample(range(1, sites + 2), r.randint(1, sites)))
    return b",".join(b"%d:%d" % (origin, r.choice([0, 0, 1, 1, 2, 3])) for origin in origins)


def event(r, sites, messages, cuts):
    """A line of an event."""
    site = r.choice([0, sites + 1, 65535]) if r.random() < 0.04 else r.randint(1, sites)
    draw = r.random()
    if draw < 0.4:
        return b"take %d " % site + r.choice([b"", b"", b"\t"]) + shuffled(r, r.choice(messages))
    if draw < 0.6 or not cuts:
        cuts.append(site)
        return b"cut %d " % site + any_vector(r, sites)
    delta = r.choice([0, len(cuts) + 1, 2 ** 64 - 1]) if r.random() < 0.04 else r.randint(1, len(cuts))
    return b"hand %d %d" % (delta, site)


def line(r, sites, messages, cuts):
    draw = r.random()
    if draw < 0.03:
        return r.choice([b"", b" \t\r"])
    if draw < 0.07:
        return r.choice(WRONG)
    if draw < 0.11:
        return b"take %d " % r.randint(0, sites) + refused_text(r, r.choice(messages))
    if draw < 0.14:
        return b"take %d " % r.randint(0, sites) + shuffled(r, refused_list(r, messages))
    return event(r, sites, messages, cuts)


def script(r):
    """The bytes of a script, or of an input that is not a valid script."""
    sites, cuts, pool = r.randint(3, 5), [], Pool(r)
    messages = [pool.message() for _ in range(r.randint(3, 12))]
    messages += [written_out(message) for message in messages[:2]]
    first = r.choice(NO_SCRIPT) if r.random() < 0.03 else b"sites %d" % sites
    lines = [b""] * r.choice([0, 0, 0, 1]) + [first]
    lines += [line(r, sites, messages, cuts) for _ in range(r.randint(1, 60))]
    return b"\n".join(lines) + r.choice([b"\n", b""])


# ---- what is met

def met_in(text, refused):
    """What a right answer shows."""
    yield from re.findall(r"^E\|\d+\|(REFUSED\|\d+|[A-Z]+)", text, re.M)
    for refusal in re.findall(r"^line \d+: (.*)", refused, re.M):
        yield from ("line " + reason for reason in REASONS if (refusal + " ").startswith(reason + " "))
    if refused == "fault 64\n":
        yield "fault 64"
    if "|CONTRADICTED\n" in text:
        yield "contradicted"
    if '"TxInf":[' in text:
        yield SEVERAL


def tries(r, number):
    """The try of the world with this number, with what it meets."""
    data = script(r)
    text, refused, status = answer(data)
    yield Try(f"world {number}", data, Answer(text.encode(), refused.encode(), status)), met_in(text, refused)
