"""desk_pending.py: each growth of a desk's call is refused while an arrival is pending, and while none is.

A call of the test driver brings a message to a new desk, and its publication is refused, or is not. Then comes one of
these calls: a publication, the same message once more, a cut, a delta that is refused for a gap, and a delta with
nothing fresh. If its publication is refused, the answer must be 51 with position 1 while the message is pending, and 50
while it is not. Memory that is refused before that is answered by 50. After each refusal the desk is closed: with an
arrival pending that is 53 with its position.
"""
import collections
import tempfile
from tests import harness
from tests.faults import growths
from tests.faults.growths import Trial, instruction

MESSAGE = instruction("M1", "T1", "1.00")

# the call that brings the message, and what it prints; the call that follows; what that prints while the message is
# pending, while it is not, and at a desk that holds nothing; how many arrivals are then there; and the faults of its
# refused growths while it is pending
Call = collections.namedtuple("Call", "first shown call pending quiet empty arrivals faults")
CALLS = {
    "publish": Call("take", "taken 1 1 1 0", "publish", "1 1 1", "2 0 0", "1 0 0", 0, {"51 1"}),
    "a repeat": Call("take", "taken 1 1 1 0", "take", "repeat 1 1 1", "repeat 2 0 0", "taken 1 1 1 0", 1, {"51 1"}),
    "cut": Call("take", "taken 1 1 1 0", "cut", "cut 1.1 1 1 1", "cut 1.1 2 0 0", "cut 1 0 0", 0, {"50", "51 1"}),
    "a refused delta": Call(
        "take", "taken 1 1 1 0", "accept 3", "refused 41 1 1 1", "refused 41 2 0 0", "refused 41 1 0 0", 0, {"51 1"}),
    "nothing fresh": Call(
        "accept 1", "accepted 1 1 1 0", "accept 1", "accepted 0 1 1 1", "accepted 0 2 0 0",
        "accepted 1 1 1 0", 1, {"51 1"})
}


def pending(name, also):
    """The trial of a call while the message is pending, since an allocation of the call before is refused, too."""
    it = CALLS[name]
    before = "read\n51 1\n"
    refused = {fault: f"{before}{fault}\n53 1\n" for fault in it.faults}
    return Trial(f"{name}, while an arrival is pending", ["group", "2"], [MESSAGE, it.first, it.call],
                 f"{before}{it.pending}\nclosed 1\n",
                 {name: refused}, also=also)


def quiet(name):
    """The trial of a call and of the one before it, while no arrival is pending."""
    it = CALLS[name]
    before = f"read\n{it.shown}\n"
    refused = {"the call before": {"50": f"read\n50\n{it.empty}\nclosed {it.arrivals}\n",
                                   "51 1": f"read\n51 1\n{it.pending}\nclosed 1\n"},
               name: {"50": f"{before}50\nclosed 1\n"}}
    return Trial(f"{name}, while none is", ["group", "2"], [MESSAGE, it.first, it.call],
                 f"{before}{it.quiet}\nclosed 1\n", refused)


def left_pending(driver, library, name):
    """The number of the last allocation whose refusal leaves the message pending."""
    runs = growths.all_runs(driver, library, quiet(name))
    return max(run.number for run in runs if run.answer.text.startswith(b"read\n51 1\n"))


def main():
    driver = harness.program("sct_test_driver")
    with tempfile.TemporaryDirectory() as folder:
        library = harness.refuser(folder)
        trials = [pending(name, left_pending(driver, library, name)) for name in CALLS] + [quiet(name)
                                                                                           for name in CALLS]
        harness.end_with([growths.tried(driver, library, trial) for trial in trials])


if __name__ == "__main__":
    main()
