#!/usr/bin/env python3
"""Times the multiplexer: a request and a response while many keys wait, and a request and a deadline that comes.

Run from the top of the repository after `(cd crates/test_bench && rt run)`, which leaves the program in
crates/test_bench/out/test_bench. The oldest key is answered each time, as by an issuer that answers in order.
Beside it, in the same run: the program's `map`, which puts the same keys into a hash map of the standard library and
takes them out (what one writes if one needs neither an order nor deadlines), and a dict of Python, which most test tools
of the trade use. The best of some rounds counts; for the programs, less what the same run without requests takes.
"""

import os
import subprocess
import sys
import time
from collections import deque

PROGRAM = "crates/test_bench/out/test_bench"
ROUNDS, COUNT = 5, 1_000_000


def program(what, keys):
    """The seconds of a request and its response."""

    def run(count):
        began = time.perf_counter()
        done = subprocess.run([PROGRAM, "mux", what, str(keys), str(count)], capture_output=True)
        if done.returncode != 0:
            sys.exit(done.stderr.decode())
        return time.perf_counter() - began

    whole = min(run(COUNT) for _ in range(ROUNDS))
    return (whole - min(run(0) for _ in range(ROUNDS))) / COUNT


def key_of(message):
    """The key of a message: its type (for a response that of its request), terminal and STAN."""
    mti = message["mti"]
    digit = {"1": "0", "3": "2", "5": "4"}.get(mti[2], mti[2])
    return mti[:2] + digit + message[41].strip().rjust(16, "0") + message[11]


def python_dict(keys):
    """The same with a dict, on messages that are dicts."""
    requests = deque({"mti": "0100", 41: "TERM0001", 11: f"{number:06}"} for number in range(keys + 1))
    responses = deque({**message, "mti": "0110"} for message in requests)
    waiting = {}
    for number in range(keys):
        waiting[key_of(requests[0])] = number
        requests.rotate(-1)
    count = COUNT // 10
    began = time.perf_counter()
    for number in range(count):
        key = key_of(requests[0])
        assert key not in waiting
        waiting[key] = number
        requests.rotate(-1)
        del waiting[key_of(responses[0])]
        responses.rotate(-1)
    return (time.perf_counter() - began) / count


def main():
    if not os.access(PROGRAM, os.X_OK):
        sys.exit(f"there is no program {PROGRAM}: build it by `(cd crates/test_bench && rt run)`")
    for keys in (100, 10_000, 100_000):
        took = {"mux": program("mux", keys), "its deadlines": program("ticks", keys)}
        took["hash map"] = program("map", keys)
        took["Python's dict"] = min(python_dict(keys) for _ in range(3))
        print(f"{keys:6} keys wait: " + ", ".join(f"{name} {1e6 * it:.2f} µs" for name, it in took.items()))


if __name__ == "__main__":
    main()
