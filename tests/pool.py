#!/usr/bin/env python3
"""Runs `test_pool`, a plant whose sessions are threads and whose participants reply at random, on
each flow of pool/, and judges what it did with the model.

    tests/pool.py [--seed N] [--offers N] [--sessions N ..] [--program PATH]

What the threads do depends on their schedule, and so does the output of a seed: `--seed` sets the
participants' generators only. The output of a case that fails is kept in a file, which is named.
"""

import argparse
import glob
import os
import random
import subprocess
import sys
import tempfile
import time

sys.dont_write_bytecode = True

from model import flows, pool  # noqa: E402

HERE = os.path.dirname(os.path.abspath(__file__))
BUILT = os.path.join(HERE, "..", "crates", "test_pool", "out", "test_pool")
SECONDS = 600
CAPACITIES = (1, 64)


def run(program, path, sessions, offers, capacity, seed):
    """What the program prints, and what is wrong with it, if anything is."""
    words = [program, path, *map(str, (sessions, offers, capacity, seed))]
    try:
        ran = subprocess.run(words, capture_output=True, timeout=SECONDS)
    except subprocess.TimeoutExpired as late:
        return (late.stdout or b"").decode(), f"it had not ended after {SECONDS} seconds"
    text = ran.stdout.decode()
    if ran.returncode or ran.stderr:
        return text, f"status {ran.returncode}: {ran.stderr.decode().strip()}"
    with open(path, "rb") as file:
        flow = flows.read_flow(file.read())
    return text, pool.wrong_with(flow, sessions, offers, text)


def kept(text):
    """The file that an output is kept in."""
    with tempfile.NamedTemporaryFile("w", prefix="test_pool-", suffix=".txt", delete=False) as file:
        file.write(text)
    return file.name


def cases(given):
    """Each flow, with each number of sessions and each capacity."""
    for path in sorted(glob.glob(os.path.join(HERE, "pool", "*.toml"))):
        for sessions in given.sessions:
            for capacity in CAPACITIES:
                yield path, sessions, given.offers, capacity, given.seed


def main():
    parser = argparse.ArgumentParser(description="Runs sessions as threads.")
    parser.add_argument("--seed", type=int, default=random.SystemRandom().randrange(10**9))
    parser.add_argument("--offers", type=int, default=1000, help="of each case; default 1000")
    parser.add_argument("--sessions", type=int, nargs="+", default=[1, 4, 16])
    parser.add_argument("--program", default=BUILT)
    given = parser.parse_args()
    if not os.access(given.program, os.X_OK):
        sys.exit(f"there is no program {given.program}: ./test builds it, or name one by --program")
    began, count, failed = time.monotonic(), 0, 0
    for case in cases(given):
        text, wrong = run(given.program, *case)
        count += 1
        if wrong:
            failed += 1
            name = "test_pool " + " ".join(map(str, case))
            print(f"FAILED {name}: {wrong}\n(its output: {kept(text)})")
    print(f"{time.monotonic() - began:.1f} seconds; replies of --seed {given.seed}")
    print(f"{count - failed} passed, {failed} failed")
    return 1 if failed else 0


if __name__ == "__main__":
    sys.exit(main())
