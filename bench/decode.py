#!/usr/bin/env python3
"""Times `cardswitch decode` on 200,000 authorization requests, beside a plain C program that does the same
(bench/decode.c, compiled here) and a plain copy of the bytes.

Build the program first: (cd crates/cardswitch && rt run < stdin -- step). Another program may be named as
the only argument. All runs are pinned to one core if the machine has taskset, and take turns. The requests
differ in card, amount, time, STAN and terminal.
"""

import os
import shutil
import subprocess
import sys
import tempfile
import time

COUNT = 200_000
ROUNDS = 9
ROOT = os.path.dirname(os.path.dirname(os.path.abspath(__file__)))
PROGRAM = os.path.join(ROOT, "crates", "cardswitch", "out", "cardswitch")
# Fields 2, 3, 4, 7, 11, 41 and 49.
BITMAP = "7220000000808000"


def request(number):
    """One framed request of type 0100."""
    card = f"4{number * 7919 % 10**15:015d}"
    body = (
        f"0100{BITMAP}16{card}000000{number * 37 % 10**6:012d}"
        f"{number % 1231 + 101:04d}{number % 86400 // 3600:02d}{number % 3600 // 60:02d}{number % 60:02d}"
        f"{number % 10**6:06d}T{number % 4096:07d}978"
    )
    return f"{len(body):04d}{body}".encode()


def pinned(command):
    return ["taskset", "-c", "0", *command] if shutil.which("taskset") else command


def seconds(command, source, target):
    with open(source, "rb") as stdin, open(target, "wb") as stdout:
        begin = time.perf_counter()
        subprocess.run(pinned(command), stdin=stdin, stdout=stdout, check=True)
        return time.perf_counter() - begin


def main():
    command = [sys.argv[1]] if len(sys.argv) > 1 else [PROGRAM, "decode"]
    if not os.path.exists(command[0]):
        sys.exit(f"{command[0]} is missing: build it by (cd crates/cardswitch && rt run < stdin -- step)")
    with tempfile.TemporaryDirectory() as folder:
        source, target = os.path.join(folder, "frames"), os.path.join(folder, "text")
        plain, plain_target = os.path.join(folder, "decode"), os.path.join(folder, "plain text")
        subprocess.run(["gcc", "-O2", "-o", plain, os.path.join(ROOT, "bench", "decode.c")], check=True)
        with open(source, "wb") as out:
            for number in range(1, COUNT + 1):
                out.write(request(number))
        size = os.path.getsize(source)
        times = {"copy": [], "plain C": [], "decode": []}
        for _ in range(ROUNDS):
            times["copy"].append(seconds(["cat"], source, os.path.join(folder, "copy")))
            times["plain C"].append(seconds([plain], source, plain_target))
            times["decode"].append(seconds(command, source, target))
        with open(target, "rb") as text, open(plain_target, "rb") as plain_text:
            lines = text.read()
            if lines != plain_text.read() or lines.count(b"\n") != COUNT * 9:
                sys.exit("decode and the plain C program print different texts")
        print(f"{COUNT} messages, {size} bytes, best and middle of {ROUNDS} runs")
        for name, runs in times.items():
            best, middle = min(runs), sorted(runs)[ROUNDS // 2]
            print(f"{name}: {best:.3f} and {middle:.3f} s, {COUNT / best:,.0f} messages per second")
        ratio = min(times["plain C"]) / min(times["decode"])
        print(f"decode is {ratio:.2f} times as fast as the plain C program")


if __name__ == "__main__":
    main()
