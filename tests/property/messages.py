"""messages.py: made-up messages that meet one another.

A few banks, transfers, recalls and identifications are in each pool, so that messages confirm, recall, return and
contradict one another. Half of the recalls have a list of 1 to 5 transactions, which may be on one transfer or on
several.
"""
import json
from bench.generate import samples

BANKS = ["BANKDEFF", "BANQFRPP", "BANKBEBB"]
CREDITOR_ACCOUNTS = ["BE68539007547034", "NL91ABNA0417164300"]
AMOUNTS = ["0.01", "1.00", "100.00", "999999999.99"]
REASONS = ["AC04", "AM04", "ZZ9"]
HEAD = ["MsgNmId", "MsgId", "CreDtTm", "InstgAgt", "InstdAgt"]
MOST_LISTED, MOST_TRANSACTIONS = 5, 100


class Pool:
    """What messages are made of: the fewer there are of each, the more messages meet."""

    def __init__(self, r):
        def few(letter, most):
            return [f"{letter}{n}" for n in range(1, r.randint(1, most) + 1)]

        self.r = r
        self.banks = BANKS[:r.randint(1, 3)]
        self.transfers = few("T", 5)
        self.instructed = []
        self.recalls = few("R", 2)
        self.numbers = r.choice([4, 20, 200, 2000])
        self.amounts = r.sample(AMOUNTS, r.choice([1, 1, 2, 4]))
        self.reasons = REASONS[:r.randint(1, 3)]

    def debtor_bank(self):
        return self.banks[0] if self.r.random() < 0.9 else self.r.choice(self.banks)

    def head(self, kind, letter):
        return {"MsgNmId": kind, "MsgId": f"{letter}{self.r.randint(1, self.numbers)}",
                "CreDtTm": "2024-05-02T10:00:00Z",
                "InstgAgt": self.r.choice(self.banks)}

    def original(self, about="pacs.008"):
        """The elements that name the earlier message and its transfer."""
        return {"OrgnlMsgId": "M1", "OrgnlMsgNmId": about, "OrgnlTxId": self.r.choice(self.transfers),
                "DbtrAgt": self.debtor_bank()}

    def later(self, kind, letter, about="pacs.008"):
        """The elements that each message about an earlier one has."""
        return {**self.head(kind, letter), **self.original(about)}

    def instruction(self):
        waiting = [t for t in self.transfers if t not in self.instructed]
        self.instructed.append(self.r.choice(waiting if waiting and self.r.random() < 0.9 else self.transfers))
        bank = self.debtor_bank()
        return samples.instruction(
            **self.head("pacs.008", "M"), TxId=self.instructed[-1],
            IntrBkSttlmAmt=self.r.choice(self.amounts), DbtrAgt=bank,
            CdtrAgt=self.r.choice(self.banks), CdtrAcct=self.r.choice(CREDITOR_ACCOUNTS))

    def confirmation(self):
        accepts = self.r.random() < 0.85
        status = samples.ACCEPTED if accepts else {"TxSts": "RJCT", "Rsn": self.r.choice(self.reasons)}
        return {**self.later("pacs.002", "C"), **status}

    def request(self):
        if self.r.random() < 0.5:
            return self.later("pacs.028", "Q")
        return {**self.later("pacs.028", "Q", "camt.056"), "OrgnlCxlId": self.r.choice(self.recalls)}

    def transaction(self):
        """One transaction of a recall."""
        more = self.r.choice([{}, {}, {"OrgnlEndToEndId": "E1"}, {"OrgnlIntrBkSttlmDt": "2024-05-02"}])
        return {**self.original(), "CxlId": self.r.choice(self.recalls),
                "OrgnlIntrBkSttlmAmt": self.r.choice(self.amounts),
                "Ccy": "EUR", "Rsn": self.r.choice(["FRAD", "DUPL"]), **more}

    def transactions(self):
        """A list of transactions, no two of which make the same recall."""
        drawn = [self.transaction() for _ in range(self.r.randint(1, MOST_LISTED))]
        return list({(one["DbtrAgt"], one["OrgnlTxId"], one["CxlId"]): one for one in drawn}.values())

    def recall(self):
        head = {**self.head("camt.056", "K"), **self.r.choice([{}, {}, {"InstdAgt": "BANQFRPP"}])}
        return {**head, "TxInf": self.transactions()} if self.r.random() < 0.5 else {**head, **self.transaction()}

    def longest_recalls(self, of_one_transfer):
        """Two recalls with the longest lists and one identification: of one transfer 200 times, or of 200 transfers."""
        head, same = {**self.head("camt.056", "K"), "MsgId": "K0"}, self.original()

        def own(place):
            return {**same, "CxlId": f"R{place}"} if of_one_transfer else {"OrgnlTxId": f"T{place}"}

        every = [{**self.transaction(), **own(place)} for place in range(1, 2 * MOST_TRANSACTIONS + 1)]
        return [{**head, "TxInf": every[:MOST_TRANSACTIONS]}, {**head, "TxInf": every[MOST_TRANSACTIONS:]}]

    def payback(self):
        original = self.r.choice(self.amounts)
        returned = self.r.choice(AMOUNTS[:AMOUNTS.index(original) + 1])
        return {**self.later("pacs.004", "P"), "RtrId": f"X{self.r.randint(1, 3)}",
                "OrgnlCxlId": self.r.choice(self.recalls),
                "OrgnlIntrBkSttlmAmt": original, "RtrdIntrBkSttlmAmt": returned, "Ccy": "EUR",
                "IntrBkSttlmDt": "2024-05-04",
                "Rsn": "FOCR"}

    def refusal(self):
        return {**self.later("camt.029", "N"), "CxlStsId": "S1",
                "OrgnlCxlId": self.r.choice(self.recalls), "Conf": "RJCR",
                "Rsn": self.r.choice(["CUST", "LEGL"])}

    def message(self):
        makers = [self.instruction, self.confirmation, self.request, self.recall, self.payback, self.refusal]
        return self.r.choices(makers, [10, 10, 2, 3, 3, 2])[0]()


def written_out(value):
    """The same message, or part of one, with every BIC of 11 characters."""
    if isinstance(value, dict):
        return {key: written_out(one) for key, one in value.items()}
    if isinstance(value, list):
        return [written_out(one) for one in value]
    return value + "XXX" if value in BANKS else value


def reordered(r, value):
    """The same message, or part of one, with the keys of each object in any order."""
    if isinstance(value, dict):
        return {key: reordered(r, value[key]) for key in r.sample(list(value), len(value))}
    return [reordered(r, one) for one in value] if isinstance(value, list) else value


def shuffled(r, message):
    """A JSON text of the message, with its keys in any order, and on one line."""
    return json.dumps(reordered(r, message)).encode()


def parts(recall):
    """The head of a recall, and its transactions."""
    head = {key: recall[key] for key in HEAD if key in recall}
    return head, recall.get("TxInf", [{key: value for key, value in recall.items() if key not in HEAD}])


def in_other_form(message):
    """A recall of one transaction in its other form, with or without a list; any other message as it is."""
    if message["MsgNmId"] != "camt.056" or len(message.get("TxInf", [()])) > 1:
        return message
    head, transactions = parts(message)
    return {**head, **transactions[0]} if "TxInf" in message else {**head, "TxInf": transactions}
