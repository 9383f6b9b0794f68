"""schema.py: examples/message.schema.json accepts the lines that the program reads, and refuses those that it refuses.

The lines are those of examples/ and of tests/data/cases/, and the messages of docs/users/formats.md, changed in one
place in each way: a key left out, a key more, and other values. A schema cannot see some refusals (UNSEEN): a line with
one of them is accepted, unless it has another fault too. A line that is no JSON text (31) is not looked at. Python's
`$` also matches before a last line feed, and that of a schema does not: so the patterns are read with `\\Z` in its
place.
"""
import copy
import json
import re
from jsonschema import Draft202012Validator
from tests import harness
from tests.documents import formats
from tests.documents.pages import Page
from tests.golden.titled import before_answers, titled
from tests.harness import DATA, EXAMPLES, reported

SCHEMA = EXAMPLES / "message.schema.json"
NOT_JSON = "31"
UNSEEN = [r"36 \w+ 2", "38 18", "38 22"]  # check digits, more back than was sent, one recall made twice
# values that are put in the place of each text
VALUES = ["", " ", "x", "SEPA", "SEPB", "INST", "EUR", "USD", "SLEV", "ACCP", "RJCT", "RJCR",
          "FOCR", "ZZ9", "AB123", "T1", "T//1",
          "/T1", "T1/", "T_1", "T1\n", "a" * 35, "a" * 36, "a" * 70, "a" * 71, "\u00e9" * 70,
          "\U0001f600" * 71, "a" * 140, "a" * 141,
          "HANSDEHH", "HANSDEHH370", "HANSDEHHX", "hansdehh", "12.50", "12.5", "012", "0", "0.00",
          "1234567890", "1.234", "1,5", "-1",
          ".5", "5.", "2025-03-10", "2025-02-31", "2025-3-10", "20250310",
          "2025-03-10T07:00:00Z", "DE89370400440532013000",
          "de89370400440532013000", "DE89 3704 0044", "pacs.008", "pacs.008.001.08", "pacs.008.1.8",
          "camt.056", "camt.056.001.08",
          "pacs.002", "pacs.003", None, 1, 12.5, True, [], {}, ["T1"]]


def lines_of_examples():
    """The lines of all examples and cases."""
    for path in sorted(EXAMPLES.glob("*.jsonl")):
        yield from path.read_text(encoding="utf-8", errors="replace").split("\n")
    for path in sorted((DATA / "cases").glob("*.txt")):
        for _, rest in titled(path.read_bytes().decode(), "=="):
            yield from before_answers(rest).split("\n")


def places_in(message):
    """Each object of a message, by a function that finds it in a copy."""
    yield lambda one: one
    for number in range(len(message.get("TxInf", []))):
        yield lambda one, number=number: one["TxInf"][number]


def changed(message):
    """A message, changed in one place in each way."""
    for place in places_in(message):
        for key in list(place(message)):
            for value in [*VALUES, ...]:
                one = copy.deepcopy(message)
                if value is ...:
                    del place(one)[key]
                else:
                    place(one)[key] = value
                yield one
        for key in ("Purp", "OrgnlCxlId", "Rsn", "TxInf", "OrgnlEndToEndId", "InstdAgt", "InstrId", "Ustrd",
                    "OrgnlIntrBkSttlmDt"):
            one = copy.deepcopy(message)
            place(one)[key] = "T1"
            yield one


def lists():
    """Recalls with lists of different lengths, and with elements that are no transactions."""
    batch = messages()["the batch"]
    for many in (0, 1, 2, 100, 101):
        yield {**batch, "TxInf": [{**batch["TxInf"][0], "CxlId": f"R{number}"} for number in range(many)]}
    for element in ("R3", None, 7, []):
        yield {**batch, "TxInf": [batch["TxInf"][0], element]}
    yield {**batch, "TxInf": [batch["TxInf"][0]] * 2}


def messages():
    """The messages of docs/users/formats.md by their names."""
    return {name: json.loads(line) for name, line in formats.messages_of(Page("users/formats.md")).items()}


def made_lines():
    """The messages of the page, changed."""
    rejection = {**messages()["the confirmation"], "TxSts": "RJCT", "Rsn": "AC04"}
    chasing = {**messages()["the request"], "OrgnlMsgNmId": "camt.056", "OrgnlCxlId": "R1"}
    more = {**messages()["the return"], "RtrdIntrBkSttlmAmt": "12.51"}
    for message in [*messages().values(), rejection, chasing]:
        yield from changed(message)
    yield from [more, *lists()]


def validator():
    """What judges a message by the schema."""
    text = SCHEMA.read_text(encoding="utf-8")
    schema = json.loads(re.sub(r'\$(?=[)"])', r"\\\\Z", text))
    Draft202012Validator.check_schema(schema)
    return Draft202012Validator(schema)


def refusals(lines):
    """What the program refuses of some lines, by their numbers."""
    done = harness.run([harness.program(), "status"], "".join(line + "\n" for line in lines).encode())
    found = (re.fullmatch(r"line (\d+): (.*)", line).groups() for line in done.errors.decode().split("\n")[:-1])
    return {int(number): refusal for number, refusal in found}


def wrong(lines, refused, schema):
    """The lines of which the schema and the program say different things, each with what they say, and how many were
    asked about."""
    found, asked = [], 0
    for number, line in enumerate(lines, 1):
        refusal = refused.get(number)
        if not line.strip() or refusal == NOT_JSON:
            continue
        asked += 1
        accepts = schema.is_valid(json.loads(line))
        is_unseen = any(re.fullmatch(pattern, refusal or "") for pattern in UNSEEN)
        if accepts != (refusal is None) and not (is_unseen and accepts):
            found.append(
                f"{line[:300]}: the program says {refusal}, and the schema {'accepts' if accepts else 'refuses'} it")
    return found, asked


def main():
    schema, right = validator(), []
    made = [json.dumps(message, ensure_ascii=False) for message in made_lines()]
    for name, lines in (("the examples", list(lines_of_examples())), ("changed messages", made)):
        refused = refusals(lines)
        found, asked = wrong(lines, refused, schema)
        seen = {re.match(r"(?:56 \d+ )?(\d+)", refusal)[1] for refusal in refused.values()}
        kinds = {"32", "33", "34", "35", "36", "37", "38"} - ({"32"} if lines is made else set())
        right.append(reported(f"{name}, {asked} lines", not found, "\n".join(found[:20])))
        right.append(reported(f"{name} have lines of each kind of refusal", kinds <= seen and len(refused) < asked,
                              str(sorted(seen))))
    unseen = {pattern for pattern in UNSEEN for refusal in refused.values() if re.fullmatch(pattern, refusal)}
    right.append(reported("each refusal that a schema cannot see was tried", unseen == set(UNSEEN), str(unseen)))
    harness.end_of(right)


if __name__ == "__main__":
    main()
