"""c_times.py: at a site that holds very many messages, calls about what is new take less time than to take the messages
once.

The calls are takes of which each is followed by questions about one transfer, one bank and what changed; takes in the
name of banks, each with questions of banks, which have few transfers; and questions for the journal above its last
message, for the newest message, and for an entry in the middle of what is held. A call that goes through all that is
held would take many times as long. Of each the least of three runs counts, in processor
time. The times are printed, and no limit is set for them.
"""
from bench.generate import messages
from tests import harness
from tests.embed import driving
from tests.harness import reported
from tests.inputs import confirmation, instruction

BANK, PAID, DAY, HEADER = b"BANKDEFF", b"BANQFRPP", b"2024-05-02", b"DbtrAgt,TxId,Amt,Sts\n"
HELD, TAKES, TIMES, RUNS = 60_000, 20, 40_000, 3

# what is asked of the site, each time that it is
ASKED = {
    f"{TAKES} takes, each with questions": [call for number in range(TAKES) for call in (
        ("take", 0, instruction(number).encode()), ("transfer_text", 0, BANK, b"T1"),
        ("bank_totals", 0, BANK), ("changes", 0))],
    f"{TAKES} takes in the name of banks, each with their questions": [call for number in range(TAKES) for call in (
        ("take_as", 0, BANK, instruction(number).encode()), ("take_as", 0, PAID, confirmation(number).encode()),
        ("transfer_text_for", 0, PAID, BANK, b"T1"), ("messages_text_for", 0, PAID, BANK, b"T1"),
        ("bank_totals_for", 0, PAID, PAID), ("report_for", 0, PAID, PAID, DAY, HEADER))],
    f"{TIMES} questions for the journal above its last message": [("journal_text", 0, HELD)] * TIMES,
    f"{TIMES} questions for the newest message": [("newest_text", 0, 1)] * TIMES,
    f"{TIMES} questions for entries in little room": [("entries", 0, 1, HELD // 2, 1)] * TIMES
}


def main():
    if driving.stands_in():
        driving.skip("the stand-in of the library has no times of its own")
    driving.end_if_missing()
    begin = [("open", 0, 1, 1), ("take_lines", 0, "".join(messages.lines(HELD)).encode()), ("changes", 0),
             ("transfer_text_for", 0, BANK, BANK, b"T1")]
    with driving.libraries() as folder:
        program = driving.built_driver(folder, "-O2")
        inputs = [b"".join(driving.request(*one) for one in begin + asked) for asked in ([], *ASKED.values())]
        (once, *wholes), right = harness.least_spent([([program], data) for data in inputs], RUNS), []
        for name, whole in zip(ASKED, wholes):
            is_done = once is not None and whole is not None
            times = (f"{once:.2f} s to take and file {HELD} messages, and {whole - once:.2f} s more" if is_done
                     else "the driver failed")
            right.append(reported(f"{name}: {times}", is_done and whole <= 2 * once))
    harness.end_of(right)


if __name__ == "__main__":
    main()
