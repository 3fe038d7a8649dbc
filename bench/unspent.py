#!/usr/bin/env python3
"""That a state of a job that is not spent does not compile.

usage: python3 bench/unspent.py

In a copy of the repository a function is added to tdl_task that takes one of the states and lets it go, and the
compiler has to refuse it for that: once for each of Idle, Ready, Done and Slot. The gate cannot show it, since an edit
of a crate that does not compile counts for nothing there. It needs `rt` on PATH; the first try builds the crates below.
"""

import pathlib
import shutil
import subprocess
import sys
import tempfile

REPOSITORY = pathlib.Path(__file__).resolve().parent.parent
STATES = ["Idle", "Ready", "Done", "Slot"]
REFUSAL = "error[linear-value-let-go]"


def is_refused(copy, source, state):
    """Whether a function that lets the state go is refused for that."""
    crate = copy / "crates" / "tdl_task"
    file = crate / "src" / "lib.rt"
    lost = f"\n/// Loses a state.\npub fn lose(state: {state}) {{\n    let _kept = state;\n}}\n"
    file.write_text(source + lost, encoding="utf-8")
    run = subprocess.run(["rt", "check", "--only", "lose"], cwd=crate, capture_output=True, text=True, check=False)
    file.write_text(source, encoding="utf-8")
    return run.returncode != 0 and REFUSAL in run.stdout + run.stderr


def main():
    """Tries each state; the status is 0 where all are refused."""
    with tempfile.TemporaryDirectory() as folder:
        copy = pathlib.Path(folder) / "copy"
        shutil.copytree(REPOSITORY, copy, ignore=shutil.ignore_patterns("out", "inc", "rl", ".git"))
        source = (copy / "crates" / "tdl_task" / "src" / "lib.rt").read_text(encoding="utf-8")
        refused = {state: is_refused(copy, source, state) for state in STATES}
    for state, is_so in refused.items():
        print(f"{state}: {'refused' if is_so else 'NOT REFUSED'}")
    return 0 if all(refused.values()) else 1


if __name__ == "__main__":
    sys.exit(main())
