"""allocations.py: the program is run with each of its allocations refused in turn.

The first run of a round has none refused. Then each number has a run of its own, up to the greatest count that was
seen, whichever thread allocates. What is allocated to start a thread counts too. A run must write the right text and
its refused lines. If an allocation was refused, it may instead write nothing but `fault 65` and end with 3. Some run of
each command must do so. With several threads a number is another allocation from run to run, and may not come. On
made-up transfers and in `run` several threads must have allocated.

If it is a thread that `run` lacks, it writes `fault 67` and ends with 2. That is so if the allocation was refused to
the start of a thread, and if it was the last one before the first start, which is for what the thread runs. Before that
it must be 65. Later ones may be for what another thread runs too, but at most one in ten of them is. Runs of each kind
must come.
"""
import collections
import tempfile
from tests import harness
from tests.harness import EXAMPLES, NO_WORKER, OUT_OF_MEMORY, Answer, case, is_refused
from tests.inputs import commands_on, confirmation, exchanging, instruction, returned, two_files
from tests.oracle import exchange

READ = ["hub-morning.jsonl", "recall-batch.jsonl"]
REPORTED = "settlement-day"
REPLAYED = "hub-night"
TRANSFERS = 256  # fewer are evaluated and written in one part, as fewer bytes than 65,536 are read in one
ROUNDS = 8
RUN, TEXT, MEMORY, THREAD = "run", "the right text", "fault 65", "fault 67"

# what is run, in how many rounds, the right answer, and how many threads must allocate
Command = collections.namedtuple("Command", "words input rounds right threads", defaults=[2])


def small_input():
    """Two examples with messages of all kinds, lists and refused lines, and a message about each of the made-up
    transfers. These are enough for threads to read, evaluate and write."""
    made_up = [instruction(it) if it % 2 else confirmation(it) for it in range(TRANSFERS)]
    return b"".join((EXAMPLES / name).read_bytes() for name in READ) + "".join(made_up).encode()


def small_cases():
    """What is run once, each on an input that is too small for several threads."""

    def read(name, suffix):
        return (EXAMPLES / (name + suffix)).read_bytes()

    yield returned()
    words = ["report", "BANKDEFF", "2024-05-02", str(EXAMPLES / (REPORTED + ".list"))]
    yield case("report", words, read(REPORTED, ".jsonl"), read(REPORTED, ".report"), read(REPORTED, ".refused"))
    yield case("replay", ["replay"], read(REPLAYED, ".script"), read(REPLAYED, ".replay"), read(REPLAYED, ".refused"))


def commands(folder):
    """What is run. The small files of `run`, and of the commands of sites that exchange deltas, go into the folder."""
    data = small_input()
    for words, (text, refused, status) in commands_on(data):
        yield Command(words, data, 1, Answer(text.encode(), refused.encode(), status))
    for one in small_cases():
        yield Command(one.words, one.input, 1, Answer(one.text, one.refused, one.status), 1)
    for words in exchanging(folder):
        text, refused, status = exchange.answer(words)
        yield Command(words, b"", 1, Answer(text.encode(), refused.encode(), status), 1)
    run = two_files(folder)
    yield Command(run.words, b"", ROUNDS, Answer(run.text, run.refused, run.status))


def shortages(command, run, first):
    """What a run may be out of, if an allocation was refused. `first` is how many come before the first thread is to
    start."""
    if command.words[0] != RUN:
        return [OUT_OF_MEMORY]
    if run.of_starts or run.number == first:
        return [NO_WORKER]
    return [OUT_OF_MEMORY] if run.number < first else [OUT_OF_MEMORY, NO_WORKER]


def mark_of(command, run, first):
    """What a run wrote: the right text, or what it may be out of. None if it failed."""
    if run.answer == command.right:
        return TEXT
    is_short = is_refused(run) and run.answer in shortages(command, run, first)
    return run.answer.errors.decode().strip() if is_short else None


def marked(command, runs):
    """The runs of a round, each with its mark."""
    [first] = [run.before_threads for run in runs if run.number == 0]
    return [(run, mark_of(command, run, first)) for run in runs]


def later_marks(marks):
    """What runs of `run` wrote of which an allocation was refused after the first thread began, and not to the start of
    one."""
    first = min(run.before_threads for run, _ in marks if run.number == 0)
    return collections.Counter(mark for run, mark in marks if is_refused(run) and run.number > first
                               and not run.of_starts)


def have_own_numbers(command, marks):
    """Whether a thread that cannot start and other memory that is missing have a number each, in runs of `run`."""
    if command.words[0] != RUN:
        return True
    later = later_marks(marks)
    starts = sum(mark == THREAD for run, mark in marks if run.of_starts)
    print(f"{RUN}: {starts} runs without memory to start a thread, and with a later allocation refused: "
          + ", ".join(f"{mark} {times}" for mark, times in later.items()))
    return starts > 0 and later[MEMORY] > 0 and 10 * later[THREAD] <= later[MEMORY]


def print_failures(command, marks):
    """Prints each answer of runs that failed, how many had it, and which allocation the first of them had refused."""
    numbers = collections.defaultdict(list)
    for run, mark in marks:
        if mark is None:
            numbers[run.answer].append(run.number)
    for (text, errors, status), them in numbers.items():
        print(f"{command.words[0]}, {len(them)} runs, the first with {them[0]}: {text[:80]!r}, {errors[-80:]!r}, "
              f"status {status}")


def tried(program, library, command):
    """How many runs of a command ended as they may, and how many failed. As many threads as the command has must
    allocate, and some run must report what it was out of."""
    words = [program, *command.words]
    marks = [one for _ in range(command.rounds)
             for one in marked(command, harness.each_refused(library, words, command.input))]
    runs, counts = [run for run, _ in marks], collections.Counter(mark for _, mark in marks)
    failed = counts.pop(None, 0)
    short = sum(counts.values()) - counts[TEXT]
    threads = min(run.threads for run in runs if run.number == 0)
    refused = sum(map(is_refused, runs))
    print_failures(command, marks)
    print(f"{command.words[0]}: up to {max(run.allocations for run in runs)} allocations, {threads} threads "
          "with none refused")
    print(f"{command.words[0]}: {refused} runs with one refused, {len(runs) - refused} with none: "
          + ", ".join(f"{mark} {times}" for mark, times in counts.items()) + f", {failed} in another way", flush=True)
    return len(runs) - failed, failed + (threads < command.threads) + (not short) + (not have_own_numbers(command,
                                                                                                          marks))


def main():
    program = harness.program()
    with tempfile.TemporaryDirectory() as folder:
        library = harness.refuser(folder)
        harness.end_with(tried(program, library, command) for command in commands(folder))


if __name__ == "__main__":
    main()
