"""growths.py: what the test driver prints if a growth of a call is refused, with each of its allocations refused in
turn.

Each number of an allocation has a run of its own, up to the greatest count that was seen. If the allocation is a growth
of a call, the driver must print the number of the fault, and then what it should: that nothing has changed, and what
the same call brings if it is made again. If the allocation is one of the driver itself, it prints a beginning of what
it prints with ample memory, and ends with 1. The growths of a call come one after another. Between them may be
allocations that do no harm if they are refused.
"""
import collections
import json
import tempfile
from bench.generate import samples
from tests import harness

# what the driver is asked, and what it prints with ample memory; what it prints if a growth of a call is refused, by
# the call and then by the number of the fault; how many refused allocations between the growths of a call do no harm;
# and the number of an allocation that is refused in each run, before the one in question
Trial = collections.namedtuple("Trial", "name words lines ample refused harmless also", defaults=[0, 0])

# the call whose growth was refused, and the number of the fault
Mark = collections.namedtuple("Mark", "call fault")
HARMLESS, ENDED = Mark(None, "no harm"), Mark(None, "the driver ended")


def instruction(number, transfer, amount):
    return json.dumps(samples.instruction(MsgId=number, TxId=transfer, IntrBkSttlmAmt=amount))


def acceptance(number, transfer):
    return json.dumps(samples.confirmation(MsgId=number, OrgnlTxId=transfer))


def mark_of(trial, run):
    """What a run met, or None if its answer is wrong."""
    text, status = run.answer.text.decode(errors="replace"), run.answer.status
    if (text, status) == (trial.ample, 0):
        return HARMLESS
    if not harness.is_refused(run):
        return None
    if status == 1 and trial.ample.startswith(text):
        return ENDED
    marks = [Mark(call, fault) for call, texts in trial.refused.items() for fault, wanted in texts.items()
             if wanted == text]
    return marks[0] if marks and status == 0 else None


def is_whole(trial, marks, call):
    """Whether the growths of a call were refused one after another, and each of its faults was met."""
    numbers = [number for number, mark in marks.items() if mark and mark.call == call]
    if {marks[number].fault for number in numbers} != set(trial.refused[call]):
        return False
    between = [marks[number] for number in range(numbers[0], numbers[-1]) if number not in numbers]
    return between == [HARMLESS] * trial.harmless


def print_failures(trial, runs, marks):
    """Prints each wrong answer, how many runs had it, and which allocation the first of them had refused."""
    numbers = collections.defaultdict(list)
    for run in runs:
        if marks[run.number] is None:
            numbers[run.answer].append(run.number)
    for answer, them in numbers.items():
        print(f"{trial.name}, {len(them)} runs, the first with {them[0]}: {tuple(answer)}")


def all_runs(driver, library, trial):
    """A run with each allocation refused, and one with none."""
    return harness.each_refused(library, [driver, *trial.words], "".join(f"{line}\n" for line in trial.lines).encode(),
                                trial.also)


def tried(driver, library, trial):
    """How many refused growths were answered as they must be, and how many runs failed or calls were not met."""
    runs = [run for run in all_runs(driver, library, trial) if run.number == 0 or run.number > trial.also]
    marks = {run.number: mark_of(trial, run) for run in runs}
    print_failures(trial, runs, marks)
    counts = collections.Counter(mark for mark in marks.values() if mark and mark.call)
    missed = [call for call in trial.refused if not is_whole(trial, marks, call)]
    print(f"{trial.name}: " + ", ".join(f"{times} of {call} answered by {fault}"
                                        for (call, fault), times in counts.items())
          + "".join(f", {call} is not met one after another" for call in missed), flush=True)
    return sum(counts.values()), list(marks.values()).count(None) + len(missed)


def end(trials):
    """Ends the check that tries these, with how many refused growths were answered as they must be, and how many
    failed."""
    driver = harness.program("sct_test_driver")
    with tempfile.TemporaryDirectory() as folder:
        library = harness.refuser(folder)
        harness.end_with([tried(driver, library, trial) for trial in trials])
