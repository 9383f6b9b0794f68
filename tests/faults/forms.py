"""forms.py: each growth is refused once while the test driver reads and writes a message of each form.

The messages are one of each kind, with and without a reason or a recall, and a recall in both its forms, with lists of
one and of two transactions. If the message is not read or not written, the driver must answer 30. Any other answer must
be the written form.
"""
import json
from bench.generate import samples
from tests.faults import growths
from tests.property import messages

RECALLED = [samples.transaction(), samples.transaction(OrgnlTxId="T2", CxlId="R2")]
HEAD_OF_RECALL = {key: value for key, value in samples.recall(RECALLED).items() if key != "TxInf"}
# each form of each kind, and what is written if that is another form
FORMS = {
    "instruction": samples.instruction(),
    "confirmation": samples.confirmation(),
    "rejection": samples.confirmation({"TxSts": "RJCT", "Rsn": "AC04"}),
    "request": samples.request(),
    "request about a recall": samples.request(OrgnlMsgNmId="camt.056", OrgnlCxlId="R1"),
    "recall": samples.recall(RECALLED[:1]),
    "recall with a list of one": {**HEAD_OF_RECALL, "TxInf": RECALLED[:1]},
    "recall with a list of two": samples.recall(RECALLED),
    "return": samples.payback(),
    "refusal": samples.refusal(),
}
WRITTEN_FLAT = {"recall with a list of one": FORMS["recall"]}
REFUSED = {"reading": {"30": "unread 30\n"}, "writing": {"30": "unwritten 30\n"}}


def written(name):
    """The written form of a message."""
    whole = messages.written_out(WRITTEN_FLAT.get(name, FORMS[name]))
    return json.dumps(whole, sort_keys=True, separators=(",", ":")) + "\n"


def trial(name):
    """The trial of a form."""
    return growths.Trial(name, ["views"], [f"form {json.dumps(FORMS[name])}"], written(name), REFUSED)


def main():
    growths.end(map(trial, FORMS))


if __name__ == "__main__":
    main()
