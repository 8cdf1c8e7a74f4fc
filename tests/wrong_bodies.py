#!/usr/bin/env python3
"""Tries the wrong bodies that the gate has no time for: the prover has to refuse each.

    tests/wrong_bodies.py [CRATE ..]

The gate tries the edits of each crate's must-fail/ again in every run. Those of wrong-bodies/, of the same form, are tried
here by `rt must-fail`, on a copy: all of them, or those of the crates named. Run it when you change a contract of such a crate.
It costs a check of each crate and of those below it, and some 30 seconds for each edit.

An edit that is refused only because a proof file names what it takes away counts as failed. The last line has the counts;
the status is 1 if a wrong body is not refused.
"""

import glob
import os
import re
import shutil
import subprocess
import sys
import tempfile

TOP = os.path.dirname(os.path.dirname(os.path.abspath(__file__)))


def edits_by_crate():
    """The names of the edits of each crate that has some."""
    found = {}
    for path in sorted(glob.glob(f"{TOP}/crates/*/wrong-bodies/*.edit")):
        crate = path.split("/")[-3]
        found.setdefault(crate, []).append(os.path.basename(path))
    return found


def lay(room, crates):
    """Copies all crates into the room, with the wrong bodies of these crates where `rt must-fail` looks for edits."""
    shutil.copytree(f"{TOP}/crates", f"{room}/crates", ignore=shutil.ignore_patterns("out"))
    for name in "crates.txt", "HANDLES":
        shutil.copy(f"{TOP}/{name}", room)
    for crate in crates:
        shutil.rmtree(f"{room}/crates/{crate}/must-fail", ignore_errors=True)
        os.rename(f"{room}/crates/{crate}/wrong-bodies", f"{room}/crates/{crate}/must-fail")


def main():
    found = edits_by_crate()
    crates = sys.argv[1:] or [*found]
    if lacking := [it for it in crates if it not in found]:
        sys.exit(f"tests/wrong_bodies.py: no crate {lacking[0]} with wrong-bodies/: expected one of {', '.join(found)}")
    with tempfile.TemporaryDirectory() as room:
        lay(room, crates)
        ran = subprocess.run(["rt", "must-fail", *crates], cwd=room, stdout=subprocess.PIPE, stderr=subprocess.STDOUT, text=True)
    print(ran.stdout, end="")
    refused = set(re.findall(r"must-fail (\S+\.edit): refused, as it must be(?! \(only because)", ran.stdout))
    wanted = [f"{crate}/{edit}" for crate in crates for edit in found[crate]]
    lost = [it for it in wanted if it not in refused]
    for it in lost:
        print(f"not refused: {it}")
    print(f"{len(wanted) - len(lost)} passed, {len(lost)} failed")
    return 1 if lost else 0


if __name__ == "__main__":
    sys.exit(main())
