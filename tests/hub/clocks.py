"""clocks.py: a clock of the machine that is wrong for seconds, or at a start: nothing that waits ends by it."""
import json
import pathlib
import re
import subprocess
from tests.hub import sites
from tests.hub.attackers import LUX, SCA, Secure, confirmation, instruction
from tests.hub.sites import Hub, outcomes, until
from tests.hub.troubles import tried_with_tls

DAYS = 2 * 86400


class Wrong:
    """A site with roles on a machine whose clock is wrong when that is wanted."""

    def __init__(self, trial):
        self.secure, self.file, self.port = Secure(trial), trial.folder / "clock", sites.free_ports(1)
        made, source = trial.folder / "clock.so", pathlib.Path(__file__).with_name("clock.c")
        subprocess.run(["gcc", "-shared", "-fPIC", "-o", made, source, "-ldl"], check=True)
        self.set(0)
        config = self.secure.made.configured(trial.fresh("clock"), 1, self.port)
        self.hub = Hub(trial.python, trial.program, trial.folder / "clock-hub", config=config, LD_PRELOAD=str(made),
                       CLOCK_FILE=str(self.file))

    def set(self, seconds):
        new = self.file.with_suffix(".new")
        new.write_text(str(seconds))
        new.replace(self.file)

    def asked(self, path, body=None, who="desk"):
        return self.secure.made.asked(self.port, path, body, who=who)

    def posted(self, who, line):
        return [one["outcome"] for one in outcomes(self.asked("/messages", line, who))]

    def states(self):
        return [one["state"] for one in map(json.loads, self.asked("/waiting").body.splitlines())]

    def jumped(self):
        """Seconds by which the clock jumped, as the site has seen it."""
        found = re.search(rb"clock_jump_seconds_total ([0-9.]+)", self.asked("/metrics", who="monitor").body)
        return float(found.group(1)) if found else 0

    def is_seen(self, seconds):
        """Whether the site has seen jumps of so many seconds."""
        return until(lambda: seconds - 60 < self.jumped() < seconds + 60)


def jumps(trial):
    it = Wrong(trial)
    with it.hub:
        until(lambda: it.secure.made.is_well(it.port))
        yield "an answer waits", it.posted("scalbebb", confirmation(SCA, LUX, 1)) == ["WAITING"]
        it.set(DAYS)
        yield "the clock jumps by two days: the site counts it", it.is_seen(DAYS)
        it.set(0)
        yield "and that it jumps back", it.is_seen(2 * DAYS)
        yield "what waits goes on", it.states() == ["WAITING"]
        it.set(DAYS)
        it.hub.end()
        it.hub.start()
        until(lambda: it.secure.made.is_well(it.port))
        yield "also if the clock is wrong at a start", it.states() == ["WAITING"]
        it.set(0)
        yield "and set right afterwards", it.is_seen(DAYS) and it.states() == ["WAITING"]
        yield "the instruction comes", it.posted("lutefrpp", instruction(LUX, SCA, 1)) == ["TAKEN"]
        yield "and the answer is taken", until(
            lambda: it.asked(f"/transfers/{LUX}/T1").body
            == b"T|LUTEFRPPXXX|T1|ACCEPTED\n") and it.states() == ["TAKEN"]


def check(python, program):
    return tried_with_tls("clocks", [jumps], python, program)


if __name__ == "__main__":
    sites.checked(check)
