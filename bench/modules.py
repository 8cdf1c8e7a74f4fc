#!/usr/bin/env python3
"""Tells where a check of one crate spends its time, module by module.

    bench/modules.py CRATE [COUNT]

The crate is checked from nothing by one process, over the libraries that earlier checks built (`rt check` in its folder
builds them). The checker leaves a file for each module as the module ends, so the time between two files is that of the
second one, with what it was the first to load. The COUNT modules that took longest are printed, 30 if it is not given.

The names are the checker's own: those of a function begin with its path, and what comes after it (`Lts`, `Proof`, `Tie`,
..) is a part of its proof. `Lts` was seen to grow with the values that may be dropped at early returns.
"""

import importlib.machinery
import importlib.util
import os
import re
import shutil
import subprocess
import sys
import tempfile

TOP = os.path.dirname(os.path.dirname(os.path.abspath(__file__)))
KIT = os.path.dirname(os.path.realpath(shutil.which("rt") or sys.exit("no rt on the path")))


def kit():
    """The library of the command rt, which knows the arguments of a check."""
    loader = importlib.machinery.SourceFileLoader("rtlib", f"{KIT}/rtlib.py")
    made = importlib.util.module_from_spec(importlib.util.spec_from_loader("rtlib", loader))
    sys.modules["rtlib"] = made
    loader.exec_module(made)
    return made


def check(name, room):
    """Checks the crate into the room, and returns whether it is proved."""
    rtlib, folder = kit(), f"{TOP}/crates/{name}"
    os.chdir(folder)
    crate = rtlib.Crate(folder, TOP, {}, name=name)
    lacking = [it.name for it in crate.below() if not os.path.isdir(it.rlib)]
    if lacking:
        sys.exit(f"{lacking[0]} is not built: run rt check in crates/{name}")
    words = [rtlib.RATTLE, "check", *crate.words(["--jobs", "1"], keeps=False), "--incremental", room]
    ran = subprocess.run(words, stdout=subprocess.PIPE, stderr=subprocess.STDOUT, text=True, errors="replace")
    print(ran.stdout.rstrip("\n").split("\n")[-1])
    return ran.returncode == 0


def modules(room):
    """Each module with the seconds before its file."""
    files = sorted((os.stat(f"{at}/{it}").st_mtime, it) for at, _, names in os.walk(room) for it in names)
    taken = {}
    for (before, _), (now, file) in zip(files, files[1:]):
        module = re.sub(r"(\.decls)?\.oantt$", "", file)
        taken[module] = taken.get(module, 0.0) + now - before
    return sorted(taken.items(), key=lambda it: -it[1])


def main():
    if not 2 <= len(sys.argv) <= 3:
        sys.exit(__doc__)
    count = int(sys.argv[2]) if len(sys.argv) > 2 else 30
    with tempfile.TemporaryDirectory() as room:
        is_proved = check(sys.argv[1], room)
        found = modules(room)
    for module, seconds in found[:count]:
        print(f"{seconds:7.1f} {module}")
    print(f"{sum(it for _, it in found):7.1f} all")
    return 0 if is_proved else 1


if __name__ == "__main__":
    sys.exit(main())
