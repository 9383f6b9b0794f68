"""desk_growths.py: each growth of `Desk::take` is refused, and is answered by 50 or by 51.

The test driver takes a message at a new desk. After a 50 the desk must do all that it does at first. After a 51 with
position 1 a query sees nothing, and the next call reports one arrival, which an earlier call brought. Each growth is
refused before each of four: the next publication, closing (53 with position 1 after a 51), the same message once more
(a repeat, whose receipt reports the arrival), and another message (its receipt reports both). Each growth of these
calls is refused too, after a take that had ample memory. The core has room for the other message, so that take grows
nothing before the message has arrived, and 50 does not come.
"""
from tests.faults import growths
from tests.faults.growths import Trial, acceptance, instruction

TAKE = [instruction("M1", "T1", "1.00"), "take"]
TAKEN = "taken 1 1 1 0\n"

# What follows the take, what is printed then with ample memory, and what is printed if a growth is refused: of the
# take, and of the call that follows it.
NEXT = {
    "publish": (["ask", "publish"], "Pending 1\n2 0 0\nclosed 1\n", {
        "take": {"50": "50\nUnknown 0\n1 0 0\nclosed 0\n", "51": "51 1\nUnknown 0\n1 1 1\nclosed 1\n"},
        "publish": {"50": TAKEN + "Pending 1\n50\nclosed 1\n"}}),
    "close": ([], "closed 1\n", {
        "take": {"50": "50\nclosed 0\n", "51": "51 1\n53 1\n"}}),
    "take again": (["take"], "repeat 2 0 0\nclosed 1\n", {
        "take": {"50": "50\ntaken 1 1 1 0\nclosed 1\n", "51": "51 1\nrepeat 1 1 1\nclosed 1\n"},
        "the repeat": {"50": TAKEN + "50\nclosed 1\n"}}),
    "take another": ([acceptance("C1", "T1"), "take"], "read\ntaken 2 2 1 0\nclosed 2\n", {
        "take": {"50": "50\nread\ntaken 1 1 1 0\nclosed 1\n", "51": "51 1\nread\ntaken 2 1 2 1\nclosed 2\n"},
        "the other take": {"51": TAKEN + "read\n51 2\n53 2\n"}}),
}


def trial(name):
    """The trial of what follows the take."""
    lines, ample, refused = NEXT[name]
    wanted = {call: {fault: "read\n" + text for fault, text in texts.items()} for call, texts in refused.items()}
    return Trial(f"take, {name}", ["group", "1"], TAKE + lines, "read\n" + TAKEN + ample, wanted)


def main():
    growths.end(map(trial, NEXT))


if __name__ == "__main__":
    main()
