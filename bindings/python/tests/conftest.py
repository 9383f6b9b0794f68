"""What the tests share: the examples of the repository, messages that are made of one, and a look at the calls of the
library."""
import json
import pathlib
from typing import Any

import pytest

from niluppang._library import library

TOP = pathlib.Path(__file__).resolve().parents[3]
EXAMPLES = TOP / "examples"
# the stand-in of tests/standin never runs out of memory
IS_STAND_IN = b"standin/library.py" in pathlib.Path(library()._name).read_bytes()
INSTRUCTION = {
    "MsgNmId": "pacs.008", "MsgId": "M1", "CreDtTm": "2024-05-02T10:00:00Z", "InstgAgt": "BANKDEFF",
    "IntrBkSttlmDt": "2024-05-02",
    "SvcLvl": "SEPA", "LclInstrm": "INST", "EndToEndId": "E1", "TxId": "T1", "IntrBkSttlmAmt": "1.00",
    "Ccy": "EUR", "ChrgBr": "SLEV",
    "Dbtr": "Jürgen Größler", "DbtrAcct": "DE89370400440532013000", "DbtrAgt": "BANKDEFF",
    "CdtrAgt": "BANQFRPP", "Cdtr": "Bo Maes",
    "CdtrAcct": "BE68539007547034"}
RECALLED = {"CxlId": "R1", "OrgnlMsgId": "M1", "OrgnlMsgNmId": "pacs.008", "OrgnlTxId": "T1",
            "OrgnlIntrBkSttlmAmt": "1.00",
            "Ccy": "EUR", "Rsn": "FRAD", "DbtrAgt": "BANKDEFF"}


def instruction(number: int = 1, **elements: Any) -> str:
    """An instruction with this number."""
    return json.dumps({**INSTRUCTION, "MsgId": f"M{number}", "TxId": f"T{number}", **elements}, ensure_ascii=False)


def line_of(message: Any) -> str:
    """The line of the archive text of a message without a list: a bank has 11 characters, and keys ascend."""
    banks = {key: message[key] + "XXX" for key in ("InstgAgt", "DbtrAgt", "CdtrAgt") if key in message}
    return json.dumps({**message, **banks}, ensure_ascii=False, separators=(",", ":"), sort_keys=True) + "\n"


def archived(number: int = 1, **elements: Any) -> str:
    """The line of the archive text of an instruction."""
    return line_of(json.loads(instruction(number, **elements)))


def recall(*transactions: Any) -> str:
    """A recall with a list of transactions."""
    head = {"MsgNmId": "camt.056", "MsgId": "K1", "CreDtTm": "2024-05-03T09:00:00Z", "InstgAgt": "BANKDEFF"}
    return json.dumps({**head, "TxInf": list(transactions)})


def confirmation(number: int = 1, **elements: Any) -> str:
    """The confirmation of the instruction with this number, by its beneficiary bank."""
    return json.dumps({
        "MsgNmId": "pacs.002", "MsgId": f"C{number}", "CreDtTm": "2024-05-02T10:00:02Z", "InstgAgt": "BANQFRPP",
        "OrgnlMsgId": f"M{number}", "OrgnlMsgNmId": "pacs.008", "OrgnlTxId": f"T{number}", "TxSts": "ACCP",
        "DbtrAgt": "BANKDEFF", **elements})


def delta(origin: int, first: int, *numbers: int) -> str:
    """A delta of instructions."""
    lines = "".join(instruction(number) + "\n" for number in numbers)
    return f"delta 2\norigin {origin} {first} {len(numbers)}\n{lines}end {len(numbers)}\n"


def bytes_in(name: str) -> bytes:
    """A file of the examples."""
    return (EXAMPLES / name).read_bytes()


class Hooked:
    """The library of a site. The names of its calls are written down. Before some of them a hook runs, by the arguments
    of the call.

    What a hook returns is what the call comes to, which is then not made. A hook that returns None lets it be made.
    """

    def __init__(self, site: Any, **hooks: Any) -> None:
        self.its, self.hooks, self.calls = site._library, hooks, []
        site._library = self

    def __getattr__(self, name: str) -> Any:
        call = name[len("sct_raw_"):]

        def run(*arguments: Any) -> Any:
            self.calls.append(call)
            found = self.hooks[call](*arguments) if call in self.hooks else None
            return getattr(self.its, name)(*arguments) if found is None else found
        return run


@pytest.fixture(params=["str", "bytes"])
def kind(request: Any) -> str:
    """What texts are: those of Site, and those of BytesSite."""
    return str(request.param)
