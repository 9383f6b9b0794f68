"""archive_growths.py: each growth of `Archive::add_all` is refused once, is answered by 39, and changes nothing.

The test driver adds a list of one message to an archive, and then a list of six, one of which is held and one of which
contradicts it. After a refused growth the archive must hold the first message alone, or none, and its text must be as
before. The same list added again must then bring what it should. tests/oracle/status.py has the texts.
"""
from tests.faults import growths
from tests.faults.growths import Trial, acceptance
from tests.oracle.status import archive_text, read_message

LIST = [acceptance("C1", "T1"), acceptance("C1", "T2"), acceptance("C2", "T2"),
        acceptance("C3", "T3"), acceptance("C4", "T4"),
        acceptance("C5", "T5")]
LINES = [LIST[0], "add", "tell", *LIST[1:], "add", "tell", "add", "tell"]


def held(many):
    """What is printed of an archive that holds so many of the first messages of the list: their number, how many of the
    list so far they are, and the text."""
    return f"{many} {many}\n" + archive_text({read_message(line.encode()) for line in LIST[:many]})


ONE, SIX = held(1), held(6)
ADDED = f"added 1\n{ONE}added 5\n{SIX}added 0\n{SIX}"
REFUSED = {
    "add_all of one": {"39": f"39\n{held(0)}added 6\n{SIX}added 0\n{SIX}"},
    "add_all of six": {"39": f"added 1\n{ONE}39\n{ONE}added 5\n{SIX}"},
}


def main():
    growths.end([Trial("a list with a contradiction", ["archives"], LINES, ADDED, REFUSED)])


if __name__ == "__main__":
    main()
