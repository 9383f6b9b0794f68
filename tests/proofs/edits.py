"""edits.py: has the prover refuse the wrong bodies of crates/edits-in-gate.txt, each by the proof of its function.

`rt ci` tries an edit by proving its crate once more. That is dear for these crates, so tools/edits.py tries theirs, over
the libraries that `rt ci` has just proved. Where those are not there, the check is skipped: it would prove them first,
which takes an hour.
"""
import re
import shutil
import sys
from concurrent.futures import ThreadPoolExecutor
from tests import harness
from tests.harness import CRATES, TOP, reported
from tools import edit_files, kept

LANES = 2  # crates at once, since other checks run beside
SECONDS = 3600  # that one crate may take


def is_refused(said: str, crate: str, name: str) -> bool:
    """Whether tools/edits.py reports that an edit of a crate was refused."""
    return re.search(rf"^{crate}/{name}: refused \((function|caller|crate)\)$", said, re.M) is not None


def tried(crate: str) -> str:
    """What tools/edits.py prints for the edits of a crate."""
    done = harness.run([sys.executable, "-m", "tools.edits", "--gate", crate], seconds=SECONDS, cwd=TOP)
    return (done.text + done.errors).decode(errors="replace")


def main() -> None:
    rt, edits = shutil.which("rt"), edit_files.in_gate(TOP)
    crates = list(dict.fromkeys(crate for crate, _ in edits))
    lacking = [crate for crate in crates
               if rt is None or not kept.is_proved(CRATES / crate) or not kept.prepare(crate, rt)]
    if lacking:
        print(f"skipped: {', '.join(lacking)}, or crates below, are not proved in this clone: `rt ci` proves them")
        harness.end_of([])
        return
    with ThreadPoolExecutor(LANES) as pool:
        said = dict(zip(crates, pool.map(tried, crates)))
    harness.end_of([reported(f"{crate}/{name} is refused", is_refused(said[crate], crate, name), said[crate])
                    for crate, name in edits])


if __name__ == "__main__":
    main()
