"""two_ways.py: objects of texts are read faster than the same objects with a value that is not a text.

An object whose members are all texts is read token by token, and any other by way of a JSON value. Both answer alike,
so no contract shows that the first way is taken. The archive of made-up messages may take at most 0.9 of the processor
time that it takes if a number comes before the members of each line, at a key that comes again later. Of each the least
of five runs counts.
"""
from bench.generate import messages
from tests import harness

MANY, MOST, RUNS = 20_000, 0.9, 5


def archive(program, text):
    return harness.run([program, "archive"], text).text


def main():
    program = harness.program()
    texts = "".join(messages.lines(MANY)).encode()
    others = texts.replace(b'{"', b'{"MsgNmId":0,"')
    fast, slow = harness.least_spent([([program, "archive"], text) for text in (texts, others)], RUNS)
    passed = fast is not None and slow is not None and fast <= MOST * slow
    print(f"archive of {MANY} messages: FAILED" if fast is None or slow is None
          else f"archive of {MANY} messages: {fast:.2f} s, with a number in each {slow:.2f} s", flush=True)
    harness.end_of([passed, archive(program, texts) == archive(program, others)])


if __name__ == "__main__":
    main()
