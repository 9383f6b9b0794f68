"""memory.py: the program is run in less memory than it needs.

What limits a run is how many bytes it may map to write in, the stacks of its threads included. The first thread's own
stack is not counted: the system ends a process whose first stack may not grow. The limit grows by 1 MiB up to 96, and
by 4 MiB for long files. With the small limits no thread has room for its stack, with others some allocation is refused,
and with the largest there is room for all. A run must write the right text, or nothing but `fault 65` and end with 3.
`run` may write `fault 67` too, if there is no thread for a worker, and end with 2. Runs of each command must do the one
and the other.

A `run` of two long files has room for the stacks of all threads before it has room for its messages. So `fault 65` must
come at a limit above one with `fault 67`.
"""
import collections
import tempfile
from tests import harness
from tests.harness import NO_WORKER, OUT_OF_MEMORY, Answer
from tests.inputs import commands_on, lines_in_turn, long_input, two_files

MESSAGES = 8_000
STEP, LONG_STEP = 1 << 20, 4 << 20
MOST = 96 << 20


def runs_of(program, words, data, step=STEP):
    """The answers with each limit, the smallest first."""
    return [harness.run([program, *words], data, memory=memory) for memory in range(step, MOST + step, step)]


def tried(words, answers, right, shortages):
    """How many of these runs ended as they may, and how many failed: the right text must come, and come not always."""
    counts = collections.Counter(answers)
    others = {answer: count for answer, count in counts.items() if answer not in (right, *shortages)}
    for text, errors, status in others:
        print(f"{words[0]}: {text[:80]!r}, {errors[-80:]!r}, status {status}")
    short = sum(counts[answer] for answer in shortages)
    print(f"{words[0]}: {counts[right]} runs with the right text, {short} out of memory or of threads, "
          f"{sum(others.values())} in another way", flush=True)
    return counts[right] + short, sum(others.values()) + (not counts[right]) + (not short)


def is_short_of_both(answers):
    """Whether a run is out of memory with more than it has if it lacks a thread."""
    right = NO_WORKER in answers and OUT_OF_MEMORY in answers[answers.index(NO_WORKER):]
    return harness.reported("run of two long files, out of memory after all threads began", right)


def tries(program):
    """The numbers of each command."""
    data = long_input(MESSAGES)
    for words, (text, refused, status) in commands_on(data):
        yield tried(words, runs_of(program, words, data), Answer(text.encode(), refused.encode(), status),
                    [OUT_OF_MEMORY])
    with tempfile.TemporaryDirectory() as folder:
        for run, step in (two_files(folder), STEP), (lines_in_turn(folder, data, 2), LONG_STEP):
            answers = runs_of(program, run.words, b"", step)
            yield tried(run.words, answers, Answer(run.text, run.refused, run.status), [OUT_OF_MEMORY, NO_WORKER])
        yield (1, 0) if is_short_of_both(answers) else (0, 1)


def main():
    harness.end_with(tries(harness.program()))


if __name__ == "__main__":
    main()
