#!/usr/bin/env python3
"""Events a second of the engine at 10,000, 100,000 and 1,000,000 entries of one history, and the memory of an entry.

Run from the top of the repository after `(cd crates/test_bench && rt run)`, which leaves the program in
crates/test_bench/out/test_bench. It is compared with a plain C program (bench/engine.c, compiled here) that keeps the same
queue, history and rows with the same copies: what somebody who wants an engine and no proof would write. No journal is
written on either side; bench/journal.py times that. All runs are pinned to one core if the machine has taskset, and
take turns; the best of each counts, less a run without transactions. The memory of an entry is the growth of the peak memory
from 100,000 to 1,000,000 entries: below that the runner's own memory hides it.
"""
import os
import shutil
import subprocess
import sys
import tempfile
import time

PROGRAM = "crates/test_bench/out/test_bench"
ROUNDS = 5
COUNTS = (10_000, 100_000, 1_000_000)
# A transaction of two participants: offered, taken, answered twice, told twice.
ENTRIES = 6


def run(program, count):
    """The seconds and the peak memory in bytes of this many transactions."""
    command = [*program, str(count)]
    if shutil.which("taskset"):
        command = ["taskset", "-c", "0", *command]
    start = time.perf_counter()
    child = subprocess.Popen(command)
    _, status, usage = os.wait4(child.pid, 0)
    took = time.perf_counter() - start
    child.returncode = os.waitstatus_to_exitcode(status)
    if child.returncode != 0:
        sys.exit(f"{program[0]} ended with {child.returncode}")
    return took, usage.ru_maxrss * 1024


def measure(programs, transactions):
    """The best time, less a run without transactions, and the least peak memory of each program."""
    nothing, runs = ({name: [] for name in programs} for _ in range(2))
    for _ in range(ROUNDS):
        for name, program in programs.items():
            nothing[name].append(run(program, 0)[0])
            runs[name].append(run(program, transactions))
    return {name: (min(runs[name])[0] - min(nothing[name]), min(size for _, size in runs[name])) for name in programs}


def main():
    if not os.access(PROGRAM, os.X_OK):
        sys.exit(f"there is no program {PROGRAM}: build it by `(cd crates/test_bench && rt run)`")
    with tempfile.TemporaryDirectory() as room:
        plain = os.path.join(room, "engine")
        subprocess.run(["gcc", "-O2", "-o", plain, "bench/engine.c"], check=True)
        programs = {"engine": [PROGRAM, "engine"], "plain C": [plain]}
        found = []
        for count in COUNTS:
            entries = count // ENTRIES * ENTRIES
            found.append((entries, measure(programs, count // ENTRIES)))
            rates = {name: entries / took for name, (took, _) in found[-1][1].items()}
            shown = ", ".join(f"{name} {rate:11,.0f}" for name, rate in rates.items())
            print(f"{entries:9,} entries, events a second: {shown}, ratio {rates['engine'] / rates['plain C']:.2f}")
    (few, small), (many, large) = found[-2:]
    for name in programs:
        print(f"{name}: {(large[name][1] - small[name][1]) / (many - few):.0f} bytes an entry")


if __name__ == "__main__":
    main()
