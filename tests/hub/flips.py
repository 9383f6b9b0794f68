"""flips.py: each byte of a small journal and of a delta is flipped once, and something notices each time: the process
that refuses it, the record at the opening and by --check, or the peer by its digest. What nobody notices changed no
entry."""
import collections
import sys
from concurrent.futures import ThreadPoolExecutor
from tests import inputs
from tests.harness import SERVICES
from tests.hub import sites
from tests.hub.peers import odd_peer
from tests.hub.sites import asked, until
from tests.hub.trial import lines_of
from tests.hub.troubles import tried
from tests.oracle.digests import chain_of
from tests.oracle.status import read_message
sys.path.insert(0, str(SERVICES))
from hub import digests, vectors, words
from hub.faults import BadText
from hub.files import Files, Wrong
from hub.over import Serve

THREADS = 4
NOTICED, HARMLESS, MISSED = "noticed", "harmless", "missed"


def flipped(data, place, bit):
    return data[:place] + bytes([data[place] ^ bit]) + data[place + 1:]


def each_flip(data, what):
    """What becomes of each byte that is flipped, and the places at which nobody notices a change. The bit differs from
    byte to byte: one of those that make another digit, a capital letter, or no character at all."""
    with ThreadPoolExecutor(THREADS) as pool:
        found = list(pool.map(lambda place: what(place, flipped(data, place, (1, 0x20, 0x80, 2)[place % 4])),
                              range(len(data))))
    return collections.Counter(found), [place for place, one in enumerate(found) if one == MISSED]


def made_by_a_site(trial):
    """A folder with the journal and the record of a site that took a message and accepted another one, and was killed
    after that."""
    folder = trial.fresh("flips")
    with odd_peer(lambda it: it.send(inputs.delta(2, 1, 2) if "2%3A" not in it.path else b"delta 2\nend 0\n",
                                     vector="2:1")) as server:
        with trial.site(folder, f"--peer=2=http://127.0.0.1:{server.server_port}") as hub:
            asked(hub.port, "/messages", lines_of(1, 1))
            until(lambda: asked(hub.port, "/vector").body == b"1:1,2:1\n")
            until(lambda: b"digests 1" in trial.ran(folder, "--audit").text)
            hub.kill()
    return folder


def flips_a_journal(trial):
    folder = made_by_a_site(trial)
    data = (folder / "site1.journal").read_bytes()
    right, status = words.check(Files(folder, 1, 64), trial.program)
    one, two = (chain_of([read_message(inputs.instruction(number).encode())])[1].hex() for number in (1, 2))
    yield "a journal that nobody changed is right", (right, status) == (f"1:1,2:1\n1:1:{one}\n2:1:{two}", 0), right

    def checked(place, text):
        files = Files(folder, 1, 64)
        files.journal = trial.folder / f"flip-{place}.journal"
        files.journal.write_bytes(text)
        try:
            said, status = words.check(files, trial.program)
            return NOTICED if status else HARMLESS if said == right else MISSED
        except Wrong:
            return NOTICED
        finally:
            files.journal.unlink()
    counts, missed = each_flip(data, checked)
    yield f"of {len(data)} flipped bytes none is missed: {dict(counts)}", not missed and counts[NOTICED] > len(
        data) // 2, str(missed)
    entries = data.index(b'"T2"'), data.index(b'"T1"')
    for place, kind in zip(entries, ("an accepted message", "an own message")):
        (folder / "site1.journal").write_bytes(flipped(data, place + 2, 1))
        status, text = trial.fails(folder)
        yield (f"a site whose journal has another byte in {kind} does not start",
               status == 2 and "the journal was changed" in text, text)
    (folder / "site1.journal").write_bytes(data)
    with trial.site(folder, "--hear=0") as hub:
        yield "and with the byte put back it starts", asked(hub.port, "/vector").body == b"1:1,2:1\n"


def flips_a_delta(trial):
    """A peer hands on a delta with a flipped byte."""
    data = inputs.delta(2, 1, 2, 3)
    whole = chain_of([read_message(inputs.instruction(number).encode()) for number in (2, 3)])
    shown = [digests.Digest(2, count, whole[count].hex()) for count in (1, 2)]

    def accepted(place, text):
        try:
            request = vectors.request_of(text, 2)
        except BadText:
            return NOTICED
        if request is None or b"\n" in request:
            return NOTICED
        path = trial.folder / f"flip-{place}.journal"
        serve = Serve(trial.program, Files(trial.folder, 1, 64), path)
        try:
            serve.requests.write(request + b"\n")
            serve.requests.flush()
            reply = serve.replies.readline()
            if not reply.startswith(b"ACCEPTED "):
                return NOTICED
            held = [b"".join(serve.text(b"? digest 2 %d" % its.number)).decode() for its in shown
                    if its.number <= int(reply.split()[1])]
            if held == [its.digits for its in shown]:
                return HARMLESS
            return NOTICED if digests.forks_in(zip(shown, held)) else MISSED
        finally:
            serve.child.kill()
            serve.end()
            path.unlink()
    counts, missed = each_flip(data, accepted)
    yield f"of {len(data)} flipped bytes of a delta none is missed: {dict(counts)}", not missed and counts[
        NOTICED] > len(data) // 2, str(missed)


CHECKS = [flips_a_journal, flips_a_delta]


def check(python, program):
    return tried("flips", CHECKS, python, program)


if __name__ == "__main__":
    sites.checked(check)
