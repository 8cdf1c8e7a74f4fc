#!/usr/bin/env python3
"""Has Graphviz read the pictures of random flows, and counts their nodes and edges.

    tests/graphviz.py [--seed N] [--count N] [--program PATH]

Graphviz's `gc` reads each picture and counts its nodes and edges. There is a node for each group and each entry; edges lead through
the entries of each group, through those that an abort calls, and from each selector to each group. The pictures are not laid out: on some
random flows `dot` fails ("trouble in init_rank"). Without Graphviz the test says that it is skipped.
"""

import argparse
import os
import random
import shutil
import subprocess
import sys
import tempfile

sys.dont_write_bytecode = True

from model import generate, pictures  # noqa: E402

TOP = os.path.dirname(os.path.dirname(os.path.abspath(__file__)))
BUILT = os.path.join(TOP, "crates", "cardswitch", "out", "cardswitch")


def counts(flow):
    """How many nodes and edges the picture of a flow has."""
    entries = [entry for group in flow.groups for entry in group.entries]
    called = sum(map(pictures.is_called, entries))
    selections = sum(entry.kind.selector for entry in entries) * len(flow.groups)
    return len(flow.groups) + len(entries), len(entries) + called + selections


def file_of(chosen, flow):
    """A flow file of the flow."""
    document = generate.document(chosen, flow)
    return "".join(f"{key} = {generate.value_of(chosen, value)}\n" for key, value in document.items()).encode()


def faults(program, path, flow):
    drawn = subprocess.run([program, "graph", "--flow", path, "--dot"], capture_output=True, check=False)
    read = subprocess.run(["gc", "-n", "-e"], input=drawn.stdout, capture_output=True, check=False)
    if drawn.returncode != 0 or read.returncode != 0:
        yield f"{drawn.stderr.decode()}{read.stderr.decode()}"
        return
    came = tuple(map(int, read.stdout.split()[:2]))
    if came != counts(flow):
        yield f"Graphviz counts {came} nodes and edges, wanted {counts(flow)}"


def main():
    parser = argparse.ArgumentParser(description="Has Graphviz read pictures of flows.")
    parser.add_argument("--seed", type=int, default=random.SystemRandom().randrange(10**9))
    parser.add_argument("--count", type=int, default=20)
    parser.add_argument("--program", default=BUILT)
    given = parser.parse_args()
    if not shutil.which("gc"):
        print("skipped: pictures need Graphviz, `gc`")
        print("0 passed, 0 failed")
        return 0
    passed, failed = 0, 0
    with tempfile.TemporaryDirectory() as room:
        for number in range(given.count):
            chosen = random.Random(given.seed + number)
            flow, path = generate.flow(chosen), os.path.join(room, "flow.toml")
            with open(path, "wb") as file:
                file.write(file_of(chosen, flow))
            found = [*faults(given.program, path, flow)]
            passed, failed = passed + (not found), failed + bool(found)
            if found:
                print(f"FAILED graphviz --seed {given.seed + number} --count 1: {'; '.join(found)}")
    print(f"{passed} passed, {failed} failed")
    return 1 if failed else 0


if __name__ == "__main__":
    sys.exit(main())
