#!/usr/bin/env python3
"""Runs the gate and tells where its time goes: processor minutes of each crate's proof, tests and edits.

    bench/gate.py [--cores 0,1] [COMMAND ..]        the command is ./test if none is given

The prover's processes are looked at four times a second while the gate runs. Ctrl-C, or a SIGTERM, ends it, and what was
seen up to then is printed. The last lines are a table in Markdown, the sum, the minutes by the clock, the share of the cores'
time that the host took for others (none if the machine is not shared), and the longest chain of crates that depend on one
another, whose proofs no number of cores can run side by side.
"""

import os
import re
import resource
import signal
import subprocess
import sys
import threading
import time

ROOT = os.path.dirname(os.path.dirname(os.path.abspath(__file__)))
TICKS = os.sysconf("SC_CLK_TCK")
KINDS = ("proof", "tests", "edits")


def is_below(pid, top):
    """Whether a process is the command, or descends from it."""
    while pid > 1:
        if pid == top:
            return True
        with open(f"/proc/{pid}/stat") as it:
            pid = int(it.read().rsplit(")", 1)[1].split()[1])
    return False


def look(pid, top):
    """A process of the prover: its crate, what it does there, and its processor seconds."""
    with open(f"/proc/{pid}/cmdline", "rb") as it:
        words = it.read().decode(errors="replace").split("\0")
    if not words[0].endswith("/bin/rattle") or "--crate-name" not in words or not is_below(int(pid), top):
        return None
    crate = words[words.index("--crate-name") + 1]
    folder = os.readlink(f"/proc/{pid}/cwd")
    kind = "edits" if "/rt-edit-" in folder else "tests" if "--test" in words else "proof"
    with open(f"/proc/{pid}/stat") as it:
        fields = it.read().rsplit(")", 1)[1].split()
    return crate, kind, sum(int(it) for it in fields[11:15]) / TICKS


def watch(seen, done, top):
    while not done.wait(0.25):
        for pid in filter(str.isdigit, os.listdir("/proc")):
            try:
                found = look(pid, top)
            except (OSError, IndexError, ValueError):
                continue
            if found:
                crate, kind, seconds = found
                key = pid, crate, kind
                seen[key] = max(seen.get(key, 0.0), seconds)


def times(cores):
    """The ticks of these processors, or of all if none are named: the sum, and those that the host took for others."""
    ends = [it.split("-") for it in cores.split(",")] if cores else []
    wanted = {f"cpu{it}" for end in ends for it in range(int(end[0]), int(end[-1]) + 1)} or {"cpu"}
    with open("/proc/stat") as it:
        rows = [line.split() for line in it]
    found = [[int(it) for it in row[1:9]] for row in rows if row[0] in wanted]
    return sum(map(sum, found)), sum(row[7] for row in found)


def crates_below():
    """Each crate of crates.txt with the crates that it depends on."""
    below = {}
    with open(f"{ROOT}/crates.txt") as it:
        for line in it:
            if found := re.match(r"(\w+)[^:#]*:(.*)", line):
                below[found[1]] = found[2].split()
    return {name: [it for it in deps if it in below] for name, deps in below.items()}


def longest(below, minutes):
    """The chain of crates with the most minutes of proof, and those minutes."""
    chains = {}

    def chain(name):
        if name not in chains:
            most, path = max((chain(it) for it in below[name]), default=(0.0, []))
            chains[name] = most + minutes.get((name, "proof"), 0.0), path + [name]
        return chains[name]

    return max(chain(it) for it in below)


def main():
    words = sys.argv[1:]
    cores = None
    if words[:1] == ["--cores"]:
        cores, words = words[1], words[2:]
    command = words or [f"{ROOT}/test"]
    if cores:
        command = ["taskset", "-c", cores, *command]
    for it in signal.SIGINT, signal.SIGTERM:
        signal.signal(it, signal.default_int_handler)
    seen, done, begin, before = {}, threading.Event(), time.monotonic(), times(cores)
    process = subprocess.Popen(command, cwd=ROOT, start_new_session=True)
    watcher = threading.Thread(target=watch, args=(seen, done, process.pid))
    watcher.start()
    try:
        status = process.wait()
    except KeyboardInterrupt:
        os.killpg(process.pid, signal.SIGKILL)
        status = process.wait()
    done.set()
    watcher.join()
    clock = (time.monotonic() - begin) / 60
    used = resource.getrusage(resource.RUSAGE_CHILDREN)
    minutes = {}
    for (_, crate, kind), seconds in seen.items():
        minutes[crate, kind] = minutes.get((crate, kind), 0.0) + seconds / 60
    below = crates_below()
    print("| Crate | Proof | Tests | Edits |\n|---|---|---|---|")
    for name in below:
        print(f"| `{name}` | " + " | ".join(f"{minutes.get((name, it), 0.0):.1f}" for it in KINDS) + " |")
    print("| all | " + " | ".join(f"{sum(v for (_, k), v in minutes.items() if k == it):.1f}" for it in KINDS) + " |")
    print(f"processor minutes in all: {(used.ru_utime + used.ru_stime) / 60:.1f}")
    print(f"minutes by the clock{f' on cores {cores}' if cores else ''}: {clock:.1f}")
    every, taken = (now - then for now, then in zip(times(cores), before))
    print(f"taken by the host for others: {100 * taken / max(every, 1):.0f} in 100")
    most, path = longest(below, minutes)
    print(f"longest chain: {' '.join(path)}: {most:.1f}")
    return status


if __name__ == "__main__":
    sys.exit(main())
