"""c_threads.py: threads with a site each take, exchange and answer side by side, and threads ask snapshots of a site
that takes, in 256 KB of stack each.

threads.c runs three and two sites of hub-morning, round after round. Each text is the right one. snapshots.c has one
thread take messages, and others ask snapshots, which are closed before and after their site. It compares each answer
with that of the first messages. Both run under the address sanitizer and under the thread sanitizer, and shorter under
the thread checker of valgrind, which has to find nothing, and under its memory checker.
"""
import shutil
from tests import harness
from tests.embed import driving
from tests.harness import EXAMPLES, reported
from tests.oracle import status

ROUNDS, FEW = 200, 2
ASKERS = 3
MESSAGES, FEW_MESSAGES = 6000, 400  # the first of them are more than a sealed block of the site has
OF_STAND_IN = 60
RACES = ["-O1", "-g", "-fsanitize=thread"]
HELGRIND = ["valgrind", "--quiet", "--tool=helgrind", "--error-exitcode=9"]


def statuses(files):
    """The status text of the messages of some files together."""
    messages = set()
    for path in files:
        for _, line in status.lines_of(path.read_bytes()):
            try:
                messages.add(status.read_message(line))
            except status.Refused:
                continue
    return status.status_text(messages).encode()


def rounds(name, program, many, files, before=()):
    """Whether the threads print the right text."""
    answer = harness.run([*before, program, str(many), *files])
    right = answer == (statuses(files), b"", 0)
    return reported(f"{len(files)} threads, {many} rounds, {name}", right,
                    answer.errors.decode(errors="replace")[:4000])


def snapshots(name, program, many, before=()):
    """Whether threads are right about the snapshots of a site that takes so many messages. Each has some of them twice
    at least, as snapshots.c has it."""
    many = OF_STAND_IN if driving.stands_in() else many
    answer = harness.run([*before, program, str(ASKERS), str(many)])
    right = (answer.errors, answer.status) == (b"", 0) and int(answer.text) >= 2 * ASKERS
    return reported(f"{ASKERS} threads ask snapshots while one takes {many} messages, {name}", right,
                    answer.errors.decode(errors="replace")[:4000] or f"{answer}")


def main():
    driving.end_if_missing()
    three = sorted(EXAMPLES.glob("hub-morning.site*"))
    with driving.libraries() as folder:
        def built(name, words):
            return [driving.built(folder, driving.SOURCES / f"{source}.c", *words, name=f"{source}_{name}", wraps=())
                    for source in ("threads", "snapshots")]

        plain, asking = built("plain", ["-O1", "-g"])
        done = []
        for name, words in ("address", driving.CHECKED), ("thread", RACES):
            exchanging, asking_it = built(name, words)
            done += [rounds(f"under the {name} sanitizer", exchanging, ROUNDS, files) for files in (three, three[:2])]
            done.append(snapshots(f"under the {name} sanitizer", asking_it, MESSAGES))
        if shutil.which("valgrind"):
            for before in (HELGRIND, driving.VALGRIND):
                done.append(rounds(f"under {before[0]} {before[2]}", plain, FEW, three, before))
                done.append(snapshots(f"under {before[0]} {before[2]}", asking, FEW_MESSAGES, before))
        else:
            print("skipped: there is no command valgrind on this machine: apt-get install valgrind", flush=True)
    harness.end_of(done)


if __name__ == "__main__":
    main()
