#!/usr/bin/env python3
"""Measures the gateway: requests a second, median and 99th percentile, and the processor time of a request in the
gateway.

    tests/gateway/measure.py [--program PATH | --fast] [--engines 1,2,4] [--connections N] [--requests N]
        [--alone | --broker] [--kills [--every S]]

With --fast the engines cost nothing, so that the gateway is what is measured. With --broker RabbitMQ is in between: one
node, one front and one worker. Each connection has one request open at a time. The issuer answers at once. With --kills
an engine is killed each S seconds, and each fifth time the gateway, or the front and the worker in turn; then the
accounting has to find no fault. With --alone one engine is measured without a gateway: its input and output are pipes,
in which as many requests are open as there would be connections, and the host of examples/ answers them at once. `./test`
does not run it.
"""

import argparse
import asyncio
import collections
import contextlib
import os
import random
import signal
import subprocess
import sys
import tempfile
import time

sys.dont_write_bytecode = True
HERE = os.path.dirname(os.path.abspath(__file__))
TOP = os.path.dirname(os.path.dirname(HERE))
# (bench/ first: it has a module `threads` of its own)
sys.path[:0] = [os.path.join(TOP, "bench"), os.path.dirname(HERE), os.path.join(TOP, "contrib", "gateway")]

import broker  # noqa: E402
import kills  # noqa: E402
import latency  # noqa: E402
from gateway import load, rabbit  # noqa: E402
from gateway.clients import request  # noqa: E402
from gateway.fronts import warmed  # noqa: E402
from gateway.issuer import Issuer  # noqa: E402
from gateway.served import FLOW, configured, serving  # noqa: E402
from model import messages  # noqa: E402

# How long stored reversals may take after the last kill, in seconds.
SETTLED = 90
FAST = os.path.join(HERE, "fast_engine.py")


def seconds_of(pid):
    """The processor time of a process so far."""
    with open(f"/proc/{pid}/stat", encoding="ascii") as file:
        parts = file.read().rpartition(")")[2].split()
    return (int(parts[11]) + int(parts[12])) / os.sysconf("SC_CLK_TCK")


async def killing(parts, chosen, every):
    """Kills engines of the last of these parts, and each fifth time one of the parts, in turn."""
    turn = 0
    while True:
        await asyncio.sleep(every)
        turn += 1
        if turn % 5 == 0:
            part = parts[turn // 5 % len(parts)]
            part.kill()
            await part.start_again()
        elif engines := parts[-1].engines():
            with contextlib.suppress(ProcessLookupError):
                os.kill(chosen.choice(engines), signal.SIGKILL)


async def worked(work, parts, given):
    task = asyncio.ensure_future(killing(parts, random.Random(3), given.every)) if given.kills else None
    is_over = await work.run(given.seconds)
    if task is not None:
        task.cancel()
        for part in parts:
            if part.process.poll() is not None:
                await part.start_again()
    return is_over


def accounted(work, issuer, begin):
    """Prints what became of the requests, and the faults that are left once stored reversals have had their time."""
    until = time.monotonic() + SETTLED
    while (faults := load.account(work.records, issuer.ledger[begin:])[1]) and time.monotonic() < until:
        time.sleep(1)
    found, _ = load.account(work.records, issuer.ledger[begin:])
    print("  " + "; ".join(f"{number} {what}" for what, number in sorted(found.items())))
    print(f"  {len(faults)} faults {faults[:3]}", flush=True)


@contextlib.contextmanager
def served(given, engines):
    """A gateway, or a front and a worker with the broker in between, and the issuer that they ask."""
    times = ("--wait", "5", "--late", "8") if not given.kills else broker.TIMES
    room = tempfile.mkdtemp()
    if given.broker:
        with rabbit.cluster(f"{room}/rabbit", 1) as nodes:
            os.makedirs(f"{room}/parts")
            bench = broker.Bench(given.program, f"{room}/parts", nodes, "classic", shards=engines, times=times)
            with broker.running(bench, delay=0) as ((front,), (machine,), issuer):
                yield [front, machine], issuer
        return
    issuer = Issuer()
    try:
        with serving(given.program, room, "--engines", str(engines), *times, issuer=issuer) as gateway:
            if not given.fast:
                warmed(gateway)
            yield [gateway], issuer
    finally:
        issuer.close()


def figures(name, count, times, took):
    """The line of a run of this many requests, of which those that were answered took these times."""
    shown = sorted(times) or [0.0]
    share = lambda part: 1000 * shown[min(len(shown) - 1, int(part * len(shown)))]  # noqa: E731
    return f"{name}: {count / took:.0f} requests a second, median {share(0.5):.1f} ms, 99th percentile {share(0.99):.1f} ms"


def alone(given):
    """One engine without a gateway; prints its line."""
    words = [given.program, "run", "--flow", FLOW, "--config", "config.toml", "--journal", "journal.db"]
    words += ["--threads", "--sessions", "16"]
    frames = collections.deque(messages.framed(request(number, number)) for number in range(given.requests))
    streams = {"stdin": subprocess.PIPE, "stdout": subprocess.PIPE, "bufsize": 0}
    with tempfile.TemporaryDirectory() as room, latency.delayed(room, 0.0):
        configured(room)
        with subprocess.Popen(words, cwd=room, **streams) as process:
            # (one is sent first, while the program starts and opens the pipes)
            first = collections.deque([messages.framed(request(999_999, 999_999))])
            collections.deque(latency.talk(process, first, 1), maxlen=0)
            began = time.monotonic()
            times = [*latency.talk(process, frames, given.connections)]
            took = time.monotonic() - began
            process.stdin.close()
            assert process.wait() == 0, process.returncode
    print(figures("one engine alone", given.requests, times, took), flush=True)


def measured(given, engines):
    """One run; prints its line."""
    with served(given, engines) as (parts, issuer):
        begin, before = len(issuer.ledger), seconds_of(parts[0].process.pid)
        work = load.Load([parts[0].port], given.connections, given.requests, 3.0 if given.kills else 10.0)
        began = time.monotonic()
        is_over = asyncio.run(worked(work, parts, given))
        took, used = time.monotonic() - began, seconds_of(parts[0].process.pid) - before
        line = figures(f"{engines} engines", len(work.records), work.times, took)
        if not given.kills:
            line += f", {1e6 * used / len(work.records):.0f} µs of processor time in the gateway for each"
        print(line + ("" if is_over else "; not all were over"), flush=True)
        if given.kills:
            accounted(work, issuer, begin)


def main():
    parser = argparse.ArgumentParser(description="Measures the gateway.")
    parser.add_argument("--program", default=kills.BUILT)
    parser.add_argument("--fast", action="store_true")
    parser.add_argument("--engines", default="1,2,4")
    parser.add_argument("--connections", type=int, default=64)
    parser.add_argument("--requests", type=int, default=10_000)
    parser.add_argument("--seconds", type=float, default=600, help="how long a run may take")
    parser.add_argument("--alone", action="store_true", help="one engine without a gateway")
    parser.add_argument("--broker", action="store_true")
    parser.add_argument("--kills", action="store_true")
    parser.add_argument("--every", type=float, default=4)
    given = parser.parse_args()
    if given.alone and (given.fast or given.broker or given.kills):
        parser.error("--alone goes with none of --fast, --broker and --kills")
    given.program = FAST if given.fast else os.path.abspath(given.program)
    if given.alone:
        alone(given)
        return
    for engines in given.engines.split(","):
        measured(given, int(engines))


if __name__ == "__main__":
    main()
