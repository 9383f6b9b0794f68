"""inputs.py: inputs that more than one check runs the program on."""
from __future__ import annotations
import json
import pathlib
from typing import Any, Iterator
from bench.generate import messages, samples
from tests.harness import case
from tests.oracle import keep
from tests.oracle.status import TEXT, answer, read_message, written

DAY = "2025-03-11"  # after the days of the made-up messages and of the example of a morning


def instruction(number: int) -> str:
    """The line of an instruction."""
    return samples.line(samples.instruction(MsgId=f"M{number}", TxId=f"T{number}"))


def confirmation(number: int) -> str:
    """The line of the confirmation of the instruction with this number."""
    return samples.line(samples.confirmation(MsgId=f"C{number}", OrgnlMsgId=f"M{number}", OrgnlTxId=f"T{number}"))


def delta(origin: int, first: int, *numbers: int) -> bytes:
    """The text of a delta of instructions with these numbers, which are the entries of an origin from the first on."""
    lines = "".join(written(read_message(instruction(number).encode())) + "\n" for number in numbers)
    return f"delta 2\norigin {origin} {first} {len(numbers)}\n{lines}end {len(numbers)}\n".encode()


def returned() -> Any:
    """An accepted transfer of 100 euro that was recalled, and of which 99 euro were returned."""
    whole = {"OrgnlIntrBkSttlmAmt": "100.00"}
    messages = [samples.instruction(IntrBkSttlmAmt="100.00"), samples.confirmation(),
                samples.recall([samples.transaction(**whole)]),
                samples.payback(RtrdIntrBkSttlmAmt="99.00", **whole)]
    text = b"T|BANKDEFFXXX|T1|RETURNED|99.00\nR|BANKDEFFXXX|T1|R1|RETURNED|99.00\n"
    return case("a return", ["status"], "".join(map(samples.line, messages)).encode(), text, b"")


def recall(number: int, lines: list[str]) -> str:
    """The line of a recall of all transfers that these lines instruct. Every third recall has another amount for the
    first transfer. Every fourth has the identification of the one before."""
    instructed = [message for message in map(json.loads, lines) if message["MsgNmId"] == "pacs.008"]
    amounts = [message["IntrBkSttlmAmt"] for message in instructed]
    if number % 3 == 0:
        amounts[0] = "999999999.99"
    listed = [samples.transaction(OrgnlTxId=message["TxId"], OrgnlIntrBkSttlmAmt=amount, DbtrAgt=message["DbtrAgt"])
              for message, amount in zip(instructed, amounts)]
    return samples.line(samples.recall(listed, MsgId=f"K{number - (number % 4 == 0)}"))


def long_input(many: int) -> bytes:
    """So many made-up messages, with recalls of several transfers, blank lines and refused ones between them."""
    lines = [line[:-1] for line in messages.lines(many)]
    for place in range(0, len(lines), 37):
        lines[place] += ["\nfoo", "\r\n", "\n \t\r\n{}"][place % 3]
    for place in range(37, len(lines), 37):
        lines[place] += "\n" + recall(place // 37, lines[place - 20:place])[:-1]
    return "\n".join(lines).encode()


def commands_on(data: Any) -> Iterator[Any]:
    """The words of each command that reads messages alone, with the text, the refused lines and the exit status that
    are right for an input."""
    for word in TEXT:
        yield [word], answer(word, data)
    for word in keep.PARTS:
        yield [word, DAY], keep.answer(word, DAY, data)


def files_of(folder: Any, name: Any, texts: Any) -> Any:
    """The paths of new files with these texts."""
    paths = [pathlib.Path(folder, f"{name}{place}") for place in range(1, len(texts) + 1)]
    for path, text in zip(paths, texts):
        path.write_bytes(text)
    return [str(path) for path in paths]


def two_files(folder: Any) -> Any:
    """A transfer and its confirmation in one file, another transfer in the other."""
    texts = [(instruction(1) + confirmation(1)).encode(), instruction(2).encode()]
    text = b"T|BANKDEFFXXX|T1|ACCEPTED\nT|BANKDEFFXXX|T2|PENDING\n"
    return case("run of two files", ["run", *files_of(folder, "small", texts)], b"", text, b"")


def lines_in_turn(folder: Any, data: Any, many: Any) -> Any:
    """The lines of an input in turn in so many files of a run."""
    lines = data.splitlines(keepends=True)
    texts = [b"".join(lines[place::many]) for place in range(many)]
    refused = ""
    for file, part in enumerate(texts, start=1):
        reported = answer("status", part)[1]
        refused += "".join(f"file {file} {line}" for line in reported.splitlines(keepends=True))
    words = ["run", *files_of(folder, "part", texts)]
    return case(f"run of {many} files", words, b"", answer("status", data)[0].encode(), refused.encode())


def exchanging(folder: Any) -> Iterator[Any]:
    """The words of `site`, `vector` and `cut` at site 2 of two. Its journal has a message, a refused line and a repeat.
    Of the two deltas of site 1 the later one is given first, so that it is accepted in a second round."""
    texts = [(instruction(1) + "{}\n" + instruction(1)).encode(), delta(1, 2, 3, 4), delta(1, 1, 2)]
    files = files_of(folder, "exchanged", texts)
    commands: list[tuple[str, list[str]]] = [("site", []), ("vector", []), ("cut", ["1:1"])]
    for command, more in commands:
        yield [command, "2", "2", *more, *files]
