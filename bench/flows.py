#!/usr/bin/env python3
"""Times flow files, images and a long transaction.

Run from the top of the repository after `(cd crates/cardswitch && rt run < stdin -- step)`, which leaves the
program in crates/cardswitch/out/cardswitch. The largest flow has 256 groups of 64 entries, 16,384 different
participants in all; a transaction of n selections of its own group has 2 n answers and choices.
"""
import os
import subprocess
import sys
import tempfile
import time

PROGRAM = "crates/cardswitch/out/cardswitch"
ROUNDS = 3


def largest_flow():
    lines = []
    for group in range(256):
        name = "main" if group == 0 else f"group-{group}"
        lines.append(f'[[group]]\nname = "{name}"')
        for entry in range(64):
            lines.append(f'[[group.entry]]\nparticipant = "participant-{group:03}-{entry:02}-of-the-switch"')
    return ("\n".join(lines) + "\n").encode()


def far_flow():
    """A flow with the selector `loop` in `main`, and again, after 32,000 steps, in the last of 256 groups."""
    lines = ['[[group]]\nname = "main"\n[[group.entry]]\nparticipant = "loop"\nselector = true']
    for group in range(254):
        lines.append(f'[[group]]\nname = "group-{group}"')
        for entry in range(64):
            lines.append(f'[[group.entry]]\nparticipant = "participant-{group}-{entry}"\nselector = true')
    lines.append('[[group]]\nname = "again"\n[[group.entry]]\nparticipant = "loop"\nselector = true')
    return "\n".join(lines) + "\n"


def looping(choices):
    return ("flow main loop:s\n" + "choose loop main\n" * choices + "auto\n").encode()


def timed(words, text):
    best, out = None, b""
    for _ in range(ROUNDS):
        start = time.perf_counter()
        done = subprocess.run([PROGRAM, *words], input=text, capture_output=True)
        took = time.perf_counter() - start
        if done.returncode != 0:
            sys.exit(f"{words}: status {done.returncode}: {done.stderr.decode()[:300]}")
        best, out = (took if best is None else min(best, took)), done.stdout
    return best, out


def main():
    flow = largest_flow()
    took, image = timed(["asm"], flow)
    print(f"asm of the largest flow ({len(flow)} bytes): {took:.2f} s")
    took, listed = timed(["list"], image)
    print(f"list of its image ({len(image)} bytes): {took:.2f} s")
    _, again = timed(["asm"], listed)
    if again != image:
        sys.exit("the listed flow has another image")
    for choices in (125, 250, 499):
        took, lines = timed(["step"], looping(choices))
        print(f"a transaction of {lines.count(10)} lines: {took:.3f} s")
    with tempfile.TemporaryDirectory() as folder:
        path = os.path.join(folder, "far.toml")
        with open(path, "w", encoding="ascii") as out:
            out.write(far_flow())
        script = ("choose loop again\n" * 499 + "auto\n").encode()
        took, lines = timed(["step", "--flow", path], script)
        print(f"one of {lines.count(10)} lines after 32,000 steps: {took:.3f} s")


if __name__ == "__main__":
    main()
