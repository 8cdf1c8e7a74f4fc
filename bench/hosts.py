#!/usr/bin/env python3
"""Times `cardswitch run --config` with two hosts, one of which is silent: how long the other one's requests wait.

    bench/hosts.py [--program PATH] [--requests N] [--rounds N] [--flying N] [--sessions N] [--timeout MS] [--retry MS] [--echo S]
                   [--dead] [--first] [--unordered] [--rate N]
    bench/hosts.py --latency MS [--program PATH] [--count N] [--in-flight N] [--sessions N] [--rounds N] [--folder PATH]

Both hosts are examples/hosts/host.py at named pipes. Alpha answers at once. Beta gives no answer to a request, so each of its requests
waits for the timeout. With --retry only one of them does, and then beta is not asked for --retry milliseconds. Beta accepts the advices that follow.
With --echo it gets echo tests, and answers them. With --dead it reads all that it is sent, and never answers anything: then its first
request comes before those that are timed. The requests come over a pipe, with --flying of them in flight, and 0, 1, 10 or 50 of a hundred
are for beta's cards, at random places. With threads responses leave in the order of requests, so that a request to alpha waits for earlier
ones to beta; with --unordered each leaves as its transaction ends. With --rate at most N requests a second are sent.

With --first the first request to beta is one of those that are timed, with --dead too. Two more rows say what it costs: how long alpha's
requests wait at most, and how many of them wait for over half the timeout, which should be far longer than they wait without beta.

It prints one table: the requests a second, and for alpha's requests the median time until the response, and what 99 of 100 stay below,
with --sessions sessions as threads and without threads. Each figure is the median of the rounds, in which both take turns. In brackets
is its ratio to the figure without threads. The journal is in memory.

With --latency it asks one host that answers each request by itself MS milliseconds after it came, whatever else is under way (latency.py).
--count requests, each with a STAN of its own, are at the input at once, and --sessions sessions run as threads. The table has the
requests a second (the median of the rounds) and how many were under way at the host at most, with `in_flight = 1` over fewer requests, and
with --in-flight. In brackets is the ratio to the former. A request that the host did not approve ends the benchmark. The journal is
in memory, or a file in a new folder within --folder, such as /dev/shm.
"""

import argparse
import collections
import contextlib
import os
import random
import select
import statistics
import subprocess
import sys
import tempfile
import time

import latency
import run
from threads import EARLY, cells, in_turns, percentile

HOST = os.path.join(run.TOP, "examples", "hosts", "host.py")
# How many of a hundred requests are for beta.
SHARES = (0, 1, 10, 50)
# Where the STAN of a frame of an authorization and of its response is.
STAN = slice(70, 76)
# An amount that a host answers at once, and one that it does not answer (host.py).
ANSWERED, SILENT = 100, 191
CONFIG = """
[[host]]
name = "alpha"
to = "alpha.to"
from = "alpha.from"
timeout_ms = 5000

[[host]]
name = "beta"
to = "beta.to"
from = "beta.from"
timeout_ms = {timeout}
retry_ms = {retry}
echo_s = {echo}

[[route]]
prefix = "4"
group = "alpha"

[[route]]
prefix = "5"
group = "beta"
"""


def frame(number, is_beta):
    """The frame of an authorization, with a card of its own."""
    card = b"%d%015d" % (5 if is_beta else 4, number)
    amount = SILENT if is_beta else ANSWERED
    message = b"0100722000000080800016" + card + b"000000%012d" % amount + b"0102030405%06d" % number + b"TERM0001978"
    return b"%04d" % len(message) + message


def talk(process, frames, given):
    """Sends frames, at most --flying of which wait for their responses at once, and at most --rate a second. Gives how long each waits,
    by its STAN."""
    sent, took, came, due = {}, {}, b"", time.perf_counter()
    while frames or sent:
        while frames and len(sent) < given.flying and time.perf_counter() >= due:
            sent[frames[0][STAN]] = time.perf_counter()
            process.stdin.write(frames.popleft())
            due += 1 / given.rate if given.rate else 0
        wait = max(due - time.perf_counter(), 0) if frames and len(sent) < given.flying else None
        if select.select([process.stdout], [], [], wait)[0]:
            came += os.read(process.stdout.fileno(), 65_536)
        now = time.perf_counter()
        while len(came) >= 4 and len(came) >= (size := 4 + int(came[:4])):
            took[int(came[STAN])] = now - sent.pop(came[STAN])
            came = came[size:]
    return took


def kinds(share, count):
    """Which of this many requests are for beta."""
    betas = set(random.Random(share).sample(range(count), count * share // 100))
    return [number in betas for number in range(count)]


@contextlib.contextmanager
def hosts(room, is_dead):
    """Both hosts at their pipes. (Each pipe is opened for reading and writing, so that no opening waits.)"""
    answers = [sys.executable, HOST]
    with contextlib.ExitStack() as ends:
        for name, command in ("alpha", answers), ("beta", ["sh", "-c", "exec cat > /dev/null"] if is_dead else answers):
            its = []
            for path in f"{room}/{name}.to", f"{room}/{name}.from":
                os.mkfifo(path)
                its.append(os.open(path, os.O_RDWR))
                ends.callback(os.close, its[-1])
            host = subprocess.Popen(command, stdin=its[0], stdout=its[1])
            ends.callback(host.wait)
            ends.callback(host.kill)
        yield


def measured(given, side, share):
    """The requests a second of a run, and the seconds that each of alpha's requests waits for its response."""
    words = [os.path.abspath(given.program), "run", "--flow", run.EXAMPLE, "--config", "config.toml"]
    words += [] if side == "no threads" else ["--threads", "--sessions", str(side), *["--unordered"] * given.unordered]
    are_beta = kinds(share, given.requests)
    is_early = given.dead and not given.first
    early = collections.deque(frame(number, is_early and number == 0) for number in range(EARLY))
    frames = collections.deque(frame(EARLY + number, its) for number, its in enumerate(are_beta))
    streams = {"stdin": subprocess.PIPE, "stdout": subprocess.PIPE, "bufsize": 0}
    with tempfile.TemporaryDirectory() as room, hosts(room, given.dead):
        with open(f"{room}/config.toml", "w", encoding="utf-8") as it:
            it.write(CONFIG.format(timeout=given.timeout, retry=given.retry, echo=given.echo))
        with subprocess.Popen(words, cwd=room, **streams) as process:
            # (some are sent first, while the program starts and opens the pipes)
            talk(process, early, given)
            began = time.perf_counter()
            took = talk(process, frames, given)
            rate = given.requests / (time.perf_counter() - began)
            process.stdin.close()
            assert process.wait() == 0, process.returncode
    return rate, [took[EARLY + number] for number, is_beta in enumerate(are_beta) if not is_beta]


def rows(given, share):
    """The rows of a share."""
    sides = ("no threads", given.sessions)
    found = in_turns(given.rounds, sides, lambda side: measured(given, side, share))
    rates = {side: statistics.median(rate for rate, _ in its) for side, its in found.items()}
    yield f"{share} of 100 to beta: requests a second", cells(rates, "{:,.1f}")
    for what, part in (("median", 50), ("99 of 100", 99)):
        waits = {side: 1e3 * statistics.median(percentile(took, part) for _, took in its) for side, its in found.items()}
        yield f"{share} of 100 to beta: alpha's {what}, ms", cells(waits, "{:,.2f}")
    if given.first and share:
        longest = {side: 1e3 * statistics.median(max(took) for _, took in its) for side, its in found.items()}
        yield f"{share} of 100 to beta: alpha's longest, ms", cells(longest, "{:,.2f}")
        least = given.timeout / 2e3
        held = (statistics.median(sum(it > least for it in took) for _, took in its) for its in found.values())
        yield f"{share} of 100 to beta: alpha's that wait over half the timeout", [f"{count:,.0f}" for count in held]


def main():
    parser = argparse.ArgumentParser(description="Times cardswitch run with a silent host.")
    parser.add_argument("--program", default=run.BUILT)
    parser.add_argument("--requests", type=int, default=400)
    parser.add_argument("--rounds", type=int, default=3)
    parser.add_argument("--flying", type=int, default=32, help="how many requests are in flight")
    parser.add_argument("--sessions", type=int, default=16, help="how many sessions run as threads")
    parser.add_argument("--timeout", type=int, default=200, help="how long a request waits for beta, in milliseconds")
    parser.add_argument("--retry", type=int, default=0, help="how long beta is not asked after that, in milliseconds")
    parser.add_argument("--echo", type=int, default=0, help="after how many seconds without a frame beta gets an echo test")
    parser.add_argument("--dead", action="store_true", help="beta answers nothing at all")
    parser.add_argument("--first", action="store_true", help="beta's first request is one of those that are timed")
    parser.add_argument("--unordered", action="store_true", help="with threads, each response leaves as its transaction ends")
    parser.add_argument("--rate", type=int, default=0, help="how many requests a second are sent at most; 0: as many as may be in flight")
    parser.add_argument("--latency", type=int, help="a host that answers each request by itself this many milliseconds after it came")
    parser.add_argument("--count", type=int, default=2000, help="with --latency: how many requests are at the input at once")
    parser.add_argument("--in-flight", type=int, default=16, help="with --latency: how many of them may be under way at the host")
    parser.add_argument("--folder", help="with --latency: where the journal is, as a file; without it in memory")
    given = parser.parse_args()
    if given.latency is not None:
        head, *others = latency.table(given, frame)
        for what, figures in [head, ("---", ["---"] * len(head[1])), *others]:
            print(f"| {what} | " + " | ".join(figures) + " |", flush=True)
        return
    print(f"| {given.flying} in flight | no threads | {given.sessions} sessions as threads |")
    print("|---" * 3 + "|")
    for share in SHARES:
        for what, figures in rows(given, share):
            print(f"| {what} | " + " | ".join(figures) + " |", flush=True)


if __name__ == "__main__":
    sys.exit(main())
