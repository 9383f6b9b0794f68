"""samples.py: a valid message of each kind. Other elements may be given by their keys."""
import json

ACCEPTED = {"TxSts": "ACCP"}


def instruction(**elements):
    return {
        "MsgNmId": "pacs.008", "MsgId": "M1", "CreDtTm": "2024-05-02T10:00:00Z", "InstgAgt": "BANKDEFF",
        "IntrBkSttlmDt": "2024-05-02", "SvcLvl": "SEPA", "LclInstrm": "INST", "EndToEndId": "E1", "TxId": "T1",
        "IntrBkSttlmAmt": "1.00", "Ccy": "EUR", "ChrgBr": "SLEV", "Dbtr": "Anna Weber",
        "DbtrAcct": "DE89370400440532013000",
        "DbtrAgt": "BANKDEFF", "CdtrAgt": "BANQFRPP", "Cdtr": "Bo Maes", "CdtrAcct": "BE68539007547034", **elements}


def confirmation(status=ACCEPTED, **elements):
    """A confirmation with a status, which may have a reason beside it."""
    return {
        "MsgNmId": "pacs.002", "MsgId": "C1", "CreDtTm": "2024-05-02T10:00:02Z",
        "InstgAgt": "BANQFRPP", "OrgnlMsgId": "M1",
        "OrgnlMsgNmId": "pacs.008", "OrgnlTxId": "T1", **status, "DbtrAgt": "BANKDEFF", **elements}


def request(**elements):
    """A request for the status of the instruction."""
    return {
        "MsgNmId": "pacs.028", "MsgId": "Q1", "CreDtTm": "2024-05-02T10:00:30Z",
        "InstgAgt": "BANKDEFF", "OrgnlMsgId": "M1",
        "OrgnlMsgNmId": "pacs.008", "OrgnlTxId": "T1", "DbtrAgt": "BANKDEFF", **elements}


def payback(**elements):
    """A return after a recall."""
    return {
        "MsgNmId": "pacs.004", "MsgId": "P1", "CreDtTm": "2024-05-04T09:00:00Z", "InstgAgt": "BANQFRPP", "RtrId": "XP1",
        "OrgnlCxlId": "R1", "OrgnlMsgId": "M1", "OrgnlMsgNmId": "pacs.008", "OrgnlTxId": "T1",
        "OrgnlIntrBkSttlmAmt": "1.00",
        "RtrdIntrBkSttlmAmt": "1.00", "Ccy": "EUR", "IntrBkSttlmDt": "2024-05-04", "Rsn": "FOCR", "DbtrAgt": "BANKDEFF",
        **elements}


def refusal(**elements):
    """The refusal of a recall."""
    return {
        "MsgNmId": "camt.029", "MsgId": "N1", "CreDtTm": "2024-05-04T09:00:00Z",
        "InstgAgt": "BANQFRPP", "CxlStsId": "S1",
        "OrgnlCxlId": "R1", "OrgnlMsgId": "M1", "OrgnlMsgNmId": "pacs.008", "OrgnlTxId": "T1",
        "Conf": "RJCR", "Rsn": "CUST",
        "DbtrAgt": "BANKDEFF", **elements}


def transaction(**elements):
    """One transaction of a recall."""
    return {
        "CxlId": "R1", "OrgnlMsgId": "M1", "OrgnlMsgNmId": "pacs.008", "OrgnlTxId": "T1", "OrgnlIntrBkSttlmAmt": "1.00",
        "Ccy": "EUR", "Rsn": "FRAD", "DbtrAgt": "BANKDEFF", **elements}


def recall(transactions, **elements):
    """A recall of these transactions: flat if there is one, else with their list."""
    head = {"MsgNmId": "camt.056", "MsgId": "K1", "CreDtTm": "2024-05-03T09:00:00Z", "InstgAgt": "BANKDEFF", **elements}
    return {**head, **transactions[0]} if len(transactions) == 1 else {**head, "TxInf": transactions}


def line(message):
    """The message as a line, without spaces between its elements."""
    return json.dumps(message, ensure_ascii=False, separators=(",", ":")) + "\n"
