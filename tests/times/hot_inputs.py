"""hot_inputs.py: inputs in which one transfer, or one delta, has very many messages, one in which recalls tie very many
transfers in a chain, and one in which all lines are refused."""
from bench.generate import messages, samples

REFUSED = {"TxSts": "RJCT", "Rsn": "AC01"}
OF_ONE_LIST = 100
CUTS = 50


def accepted():
    """One transfer with its confirmation."""
    return [samples.instruction(), samples.confirmation()]


def recalls(many):
    """Recalls of one transfer, each with an identification of its own."""
    return accepted() + [samples.recall([samples.transaction(CxlId=f"R{i}")], MsgId=f"K{i}") for i in range(many)]


def recalls_in_lists(many):
    """The same recalls, in lists of 100 transactions."""
    listed = [samples.transaction(CxlId=f"R{i}") for i in range(many)]
    parts = [listed[i:i + OF_ONE_LIST] for i in range(0, many, OF_ONE_LIST)]
    return accepted() + [samples.recall(part, MsgId=f"K{i}") for i, part in enumerate(parts)]


def recalls_with_all(many):
    """Recalls of one transfer, and for each of them a refusal and a request. A return for each would contradict
    itself."""
    found = accepted()
    for i in range(many // 3):
        found += [samples.recall([samples.transaction(CxlId=f"R{i}")], MsgId=f"K{i}"),
                  samples.refusal(OrgnlCxlId=f"R{i}", MsgId=f"N{i}", CxlStsId=f"S{i}"),
                  samples.request(OrgnlCxlId=f"R{i}", OrgnlMsgNmId="camt.056", MsgId=f"Q{i}")]
    return found


def contradicted_recalls(many):
    """Recalls of one transfer, and for each of them a return, a refusal and a request."""
    found = accepted()
    for i in range(many // 4):
        found += [samples.recall([samples.transaction(CxlId=f"R{i}")], MsgId=f"K{i}"),
                  samples.payback(OrgnlCxlId=f"R{i}", MsgId=f"P{i}", RtrId=f"X{i}"),
                  samples.refusal(OrgnlCxlId=f"R{i}", MsgId=f"N{i}", CxlStsId=f"S{i}"),
                  samples.request(OrgnlCxlId=f"R{i}", OrgnlMsgNmId="camt.056", MsgId=f"Q{i}")]
    return found


def chained_recalls(many):
    """Accepted transfers, each recalled together with the next one. All recalls are refused, but that of the last
    transfer, which no message instructs. So all are kept by a chain of ties."""
    found = []
    for i in range(many // 5):
        recalled = [samples.transaction(OrgnlTxId=f"T{i + place}", CxlId=f"R{i}") for place in (0, 1)]
        found += [samples.instruction(MsgId=f"M{i}", TxId=f"T{i}"),
                  samples.confirmation(MsgId=f"C{i}", OrgnlTxId=f"T{i}"),
                  samples.recall(recalled, MsgId=f"K{i}"),
                  samples.refusal(OrgnlCxlId=f"R{i}", MsgId=f"N{i}", OrgnlTxId=f"T{i}"),
                  samples.refusal(OrgnlCxlId=f"R{i - 1}", MsgId=f"L{i}", OrgnlTxId=f"T{i}")]
    return found[:4] + found[5:]


def one_recall(many):
    """Messages that make one recall again and again."""
    return accepted() + [samples.recall([samples.transaction()], MsgId=f"K{i}") for i in range(many)]


def equal_confirmations(many):
    """Confirmations of one transfer that differ in their identities alone."""
    return accepted() + [samples.confirmation(MsgId=f"D{i}") for i in range(many)]


def contradicted_identities(many):
    """Pairs of messages of one identity on one transfer."""
    return accepted() + [samples.confirmation(status, MsgId=f"D{i}") for i in range(many // 2)
                         for status in (samples.ACCEPTED, REFUSED)]


def lines(found):
    """The messages as an input."""
    return "".join(map(samples.line, found)).encode()


def repeated_deltas(many):
    """A script: takes at one site of four, cuts of everything there, and each cut handed to the other three."""
    words = ["sites 4\n"]
    words += [f"take 1 {line}" for line in messages.lines(many)]
    words += ["cut 1 -\n"] * CUTS
    words += [f"hand {cut} {site}\n" for cut in range(1, CUTS + 1) for site in (2, 3, 4)]
    return "".join(words).encode()


def refused_lines(many):
    """So many lines of 60 bytes that are refused."""
    return b"".join(b"%-59d\n" % number for number in range(many))
