#!/usr/bin/env python3
"""Times `cardswitch run --threads`: authorizations a second by sessions, and how long a request waits for its response.

    bench/threads.py [--program PATH] [--requests N] [--rounds N]

It prints one table: beside 1, 2, 4, 8 and 16 sessions as threads, it has the same program without threads, and SQLite's C library
(through Python's sqlite3), which makes a commit for each entry of the authorizations, as bench/run.py says. Each figure is the
median of the rounds, in which all take turns; the time of a run without requests is not part of the throughput. A file is synced
as the machine does it, and again with syncs that take 2 ms longer, as those of a plain disk do (bench/slow_sync.c replaces the C
library's fsync and fdatasync, and counts them too). Latencies are those of 1 and of 16 requests in flight over a pipe: the median,
and what 99 of 100 stay below. In brackets is the ratio of each figure to the one without threads.
"""

import argparse
import collections
import os
import statistics
import subprocess
import sys
import tempfile
import time

import run

HERE = os.path.dirname(os.path.abspath(__file__))
SESSIONS = (1, 2, 4, 8, 16)
# The sides of a row: C SQLite, no threads, and these numbers of sessions.
SIDES = ("C SQLite", "no threads", *SESSIONS)
FLOWS = (("thirteen commits", run.EXAMPLE, "EXAMPLE_ROWS"), ("five commits", None, "LEAST_ROWS"))
# Where the journal is, and how much longer syncs take, in microseconds.
PLACES = (("memory", None), ("file", 0), ("file, 2 ms more", 2_000))
# The bytes of a request's frame, and how many requests are sent before those that are timed.
FRAME, EARLY = 87, 32


class Timer:
    """A program, and a folder for what it needs."""

    def __init__(self, program, room):
        self.program, self.room, self.number = program, room, 0
        self.least, self.shim = f"{room}/least.toml", f"{room}/slow_sync.so"
        with open(self.least, "w", encoding="utf-8") as it:
            it.write(run.LEAST)
        subprocess.run(["cc", "-O2", "-shared", "-fPIC", "-o", self.shim, f"{HERE}/slow_sync.c"], check=True)

    def new(self, suffix):
        self.number += 1
        return f"{self.room}/{self.number}.{suffix}"

    def syncing(self, wait):
        """The environment in which syncs take this much longer, and the file that counts them; None for both in memory."""
        if wait is None:
            return None, None
        counts = self.new("count")
        return os.environ | {"LD_PRELOAD": self.shim, "SYNC_WAIT": str(wait), "SYNC_COUNT": counts}, counts

    def words(self, flow, side, wait):
        threads = [] if side == "no threads" else ["--threads", "--sessions", str(side)]
        journal = [] if wait is None else ["--journal", self.new("db")]
        return [self.program, "run", "--flow", flow or self.least, *threads, *journal]

    def throughput(self, flow, rows, side, wait, count):
        """The seconds of this many authorizations, and the number of syncs."""
        environment, counts = self.syncing(wait)
        if side == "C SQLite":
            path = ":memory:" if wait is None else self.new("db")
            text = f"import run; print(run.commits(run.{rows}, {count}, {path!r}))"
            made = subprocess.run([sys.executable, "-c", text], cwd=HERE, env=environment, stdout=subprocess.PIPE, check=True)
            took = float(made.stdout)
        else:
            took, _ = run.timed(self.words(flow, side, wait), count, environment)
        return took, synced(counts)

    def latencies(self, flow, side, wait, count, flying):
        """The seconds that each of `count` requests waits for its response, with `flying` of them in flight. (Some are sent
        first, while the program starts.)"""
        environment, _ = self.syncing(wait)
        text = run.requests(count + EARLY)
        frames = collections.deque(text[at : at + FRAME] for at in range(0, len(text), FRAME))
        streams = {"stdin": subprocess.PIPE, "stdout": subprocess.PIPE, "bufsize": 0, "env": environment}
        with subprocess.Popen(self.words(flow, side, wait), **streams) as process:
            took = list(talk(process, frames, flying))
            process.stdin.close()
        return took[EARLY:]


def talk(process, frames, flying):
    """Sends frames, at most `flying` of which wait for their responses at once; yields how long each waits."""
    sent, came = collections.deque(), b""
    while frames or sent:
        while frames and len(sent) < flying:
            sent.append(time.perf_counter())
            process.stdin.write(frames.popleft())
        came += os.read(process.stdout.fileno(), 65_536)
        now = time.perf_counter()
        while len(came) >= 4 and len(came) >= (size := 4 + int(came[:4])):
            came = came[size:]
            yield now - sent.popleft()


def synced(counts):
    if counts is None:
        return 0
    with open(counts, "rb") as it:
        return int.from_bytes(it.read(), sys.byteorder)


def in_turns(rounds, sides, measure):
    """What is measured of each side in each round."""
    found = {side: [] for side in sides}
    for turn in range(rounds):
        for side in sides if turn % 2 else reversed(sides):
            found[side].append(measure(side))
    return found


def throughput_rows(timer, name, flow, rows, given):
    """Authorizations a second, and the syncs of one."""
    for place, wait in PLACES:
        count = given.requests // 5 if wait else given.requests
        nothing = in_turns(given.rounds, SIDES, lambda side: timer.throughput(flow, rows, side, wait, 0))
        found = in_turns(given.rounds, SIDES, lambda side: timer.throughput(flow, rows, side, wait, count))
        aside = {side: [statistics.median(it) for it in zip(*nothing[side])] for side in SIDES}
        rates = {side: statistics.median(count / (took - aside[side][0]) for took, _ in found[side]) for side in SIDES}
        yield f"{name}, {place}: authorizations a second", cells(rates, "{:,.0f}")
        if wait == 0:
            syncs = {side: statistics.median((often - aside[side][1]) / count for _, often in found[side]) for side in SIDES}
            yield f"{name}, {place}: syncs an authorization", cells(syncs, "{:.2f}")


def latency_rows(timer, name, flow, given):
    """How long requests wait, one and sixteen at a time."""
    for place, wait in PLACES:
        count = max(given.requests // (10 if wait else 2), 2)
        for flying in (1, 16):
            found = in_turns(given.rounds, SIDES[1:], lambda side: timer.latencies(flow, side, wait, count, flying))
            for what, pick in (("median", 50), ("99 of 100", 99)):
                middle = {side: 1e3 * statistics.median(percentile(it, pick) for it in found[side]) for side in SIDES[1:]}
                yield f"{name}, {place}, {flying} in flight: {what}, ms", ["", *cells(middle, "{:.2f}")]


def cells(figures, form):
    """Figures, each with its ratio to the one without threads."""
    return [f"{form.format(it)} ({it / figures['no threads']:.2f})" for it in figures.values()]


def percentile(took, part):
    return statistics.quantiles(took, n=100, method="inclusive")[part - 1]


def table(timer, given):
    """The rows of the table."""
    for name, flow, rows in FLOWS:
        yield from throughput_rows(timer, name, flow, rows, given)
    for name, flow, _ in FLOWS[:1]:
        yield from latency_rows(timer, name, flow, given)


def main():
    parser = argparse.ArgumentParser(description="Times cardswitch run --threads.")
    parser.add_argument("--program", default=run.BUILT)
    parser.add_argument("--requests", type=int, default=1000, help="a fifth of them where syncs take longer")
    parser.add_argument("--rounds", type=int, default=5)
    given = parser.parse_args()
    print("| sessions as threads: | " + " | ".join(map(str, SIDES)) + " |")
    print("|---" * (len(SIDES) + 1) + "|")
    with tempfile.TemporaryDirectory(dir=run.TOP) as room:
        for what, figures in table(Timer(os.path.abspath(given.program), room), given):
            print(f"| {what} | " + " | ".join(figures) + " |", flush=True)


if __name__ == "__main__":
    sys.exit(main())
