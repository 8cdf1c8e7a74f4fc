#!/usr/bin/env python3
"""Runs the gateway over RabbitMQ: fronts, workers of two machines, and the broker's nodes, which are killed and
frozen in turn.

    tests/broker.py [WORD] [--program PATH | --fake]

Each request has to be accounted for by its client's log and the issuer's ledger, and without rule G4 the accounting
has to find faults. Where rabbitmq-server or pika is missing, nothing is run, and a line says so.
"""

import argparse
import asyncio
import contextlib
import dataclasses
import os
import random
import shutil
import signal
import subprocess
import sys
import tempfile
import time

sys.dont_write_bytecode = True
HERE = os.path.dirname(os.path.abspath(__file__))
sys.path.insert(0, os.path.join(os.path.dirname(HERE), "contrib", "gateway"))

import kills  # noqa: E402
from gateway import load, rabbit  # noqa: E402
from gateway.clients import NETWORK_TEST, Client, request, reversal  # noqa: E402
from gateway.fronts import shard_of  # noqa: E402
from gateway.issuer import WARMING, Issuer  # noqa: E402
from gateway.served import (
    FLOW,
    GATEWAY,
    WITHOUT,
    Running,
    Wrong,
    awaited,
    configured,
    has_header,
    python,
    wanted,
)  # noqa: E402

FAKE = os.path.join(HERE, "gateway", "fake_engine.py")
# How long a case may take, in seconds.
CASE = 150
SHARDS = 2
TIMES = ("--wait", "1", "--late", "2")


class Front(Running):
    """A gateway over the broker."""

    def __init__(self, bench, name, nodes):
        command = [WITHOUT, bench.without, "front"] if bench.without else [GATEWAY, "front"]
        super().__init__(bench.room, name, command, [*bench.over(nodes), *bench.times, "--web", "off"])
        self.port = 0

    def launch(self):
        return self.begin(["--listen", f"127.0.0.1:{self.port}", *self.words])

    def await_ready(self, begin):
        self.port = awaited("the front is ready", lambda: self.ready_since(begin), 30)[0]["port"]


class Machine(Running):
    """A worker with engines for all shards, in a folder of its own."""

    def __init__(self, bench, name, nodes, issuer):
        command = [WITHOUT, bench.without, "worker"] if bench.without else [GATEWAY, "worker"]
        folder = os.path.join(bench.room, name)
        words = [*bench.over(nodes), *bench.times, "--shards", f"0-{bench.shards - 1}", "--program", bench.program, "--flow", FLOW]
        words += ["--config", configured(bench.room), "--folder", folder, "--issuer", f"alpha=127.0.0.1:{issuer.port}"]
        super().__init__(bench.room, name, command, words)

    def launch(self):
        return self.begin(self.words)

    def await_ready(self, begin):
        awaited(f"{os.path.basename(self.log)} has a ready worker", lambda: self.ready_since(begin), 30)

    def signal_all(self, number):
        """Sends a signal to the worker and its engines, as to a machine."""
        for pid in [self.process.pid, *self.engines()]:
            with contextlib.suppress(ProcessLookupError):
                os.kill(pid, number)


@dataclasses.dataclass
class Bench:
    """What a case works with."""

    program: str
    room: str
    cluster: rabbit.Cluster
    queues: str
    without: str | None = None
    shards: int = SHARDS
    times: tuple = TIMES

    @property
    def patience(self):
        """How long reversals may take, in seconds. Without the rule none come."""
        return 2 if self.without else 8

    def over(self, nodes):
        return ["--amqp", self.cluster.url(*nodes), "--of", str(self.shards), "--queues", self.queues]


@contextlib.contextmanager
def running(bench, fronts=1, machines=1, delay=0.02):
    """Fronts and workers, each with its first node of the broker, and the issuer that all ask."""
    issuer, number, all_parts = Issuer(delay), bench.cluster.number, []
    try:
        for at in range(fronts):
            all_parts.append(Front(bench, f"front{at}", [(at + it) % number for it in range(number)]))
        for at in range(machines):
            nodes = [(at + 1 + it) % number for it in range(number)]
            all_parts.append(Machine(bench, f"machine{at}", nodes, issuer))
        for part in reversed(all_parts):
            part.start()
        warmed(all_parts[0], bench.shards)
        yield all_parts[:fronts], all_parts[fronts:], issuer
    finally:
        for part in all_parts:
            with contextlib.suppress(ProcessLookupError, AttributeError):
                os.kill(part.process.pid, signal.SIGCONT)
            part.end()
        issuer.close()


def warmed(front, shards):
    """Asks each shard until the issuer is asked: engines open their pipes at their first request."""
    client = Client(front.port)
    for shard in range(shards):
        card = next(it for it in range(900_000, 900_100) if shard_of(it, shards) == shard)
        for stan in range(1, 60):
            client.send(request(card, stan, sent=WARMING))
            answer = client.receive(2)
            if answer is not None and answer[1].get(39) == b"00":
                break
            time.sleep(0.1)
    client.close()


def answered(bench):
    """Requests of all kinds over the broker; SIGTERM ends both sides with status 0, and nothing is left."""
    with running(bench) as ((front,), (machine,), issuer):
        client = Client(front.port)
        wanted("a network test", client.ask(NETWORK_TEST)[0], b"0810")
        client.send(*[request(card, card) for card in range(10)], reversal(3, 3))
        types = sorted(client.receive()[0] for _ in range(11))
        wanted("the answers", types, [b"0110"] * 10 + [b"0410"])
        wanted("at the issuer", len(issuer.authorizations()), 10)
        wanted("the statuses", [front.stop(), machine.stop()], [0, 0])


def returned_to_the_worker(bench):
    """G4: a gateway ends while the issuer has its requests; the broker returns the responses, and the worker reverses
    the approvals."""
    with running(bench, delay=1.2) as ((front,), _, issuer):
        client = Client(front.port)
        client.send(request(0, 0), request(1, 1))
        records = [load.Record(card, card, time.monotonic(), load.State.GONE) for card in range(2)]
        awaited("the issuer has both", lambda: len(issuer.authorizations()) == 2)
        front.kill()
        wanted("the faults", settled(records, issuer, 0, bench.patience), [])


def frozen_before_it_asks(bench):
    """G4: a machine is frozen with a request, the client reverses it at the other machine, and then the first one
    asks the issuer: the approval comes late, and after the reversal, so it is reversed once more."""
    with running(bench, machines=2) as ((front,), machines, issuer):
        # (the last machine is started first, so it has the shards)
        owner = machines[-1]
        for engine in owner.engines():
            os.kill(engine, signal.SIGSTOP)
        client = Client(front.port)
        client.send(request(1, 1))
        time.sleep(0.3)
        owner.signal_all(signal.SIGSTOP)
        # (a reversal that is delivered to the frozen machine would come after the approval anyway)
        awaited("the other machine has the shards", lambda: client.send(NETWORK_TEST) or client.receive(0.5))
        client = Client(front.port)
        wanted("the reversal", client.ask(reversal(1, 1))[0], b"0410")
        awaited("the reversal at the issuer", issuer.reversals)
        wanted(
            "at the issuer, by the other machine", [it.mti for it in issuer.ledger if it.key[2] != WARMING], [b"0420"]
        )
        owner.signal_all(signal.SIGCONT)
        awaited("the first machine asks the issuer", issuer.authorizations)
        record = load.Record(1, 1, time.monotonic(), load.State.REVERSED)
        wanted("the faults", settled([record], issuer, 0, bench.patience), [])


def settled(records, issuer, begin, seconds):
    """The faults of the accounting, once there are none, or after so many seconds."""
    until = time.monotonic() + seconds
    while (faults := load.account(records, issuer.ledger[begin:])[1]) and time.monotonic() < until:
        time.sleep(0.1)
    return faults[:5]


def accounted_for(bench):
    """Workers, a frozen machine, gateways and nodes, in turn, under load: each request is answered once or
    reversed."""
    with running(bench, fronts=2, machines=2) as (fronts, machines, issuer):
        begin = len(issuer.ledger)
        work = load.Load([it.port for it in fronts], connections=10, requests=3000, timeout=3.0)
        happened = asyncio.run(under_faults(bench, work, fronts, machines))
        for machine in machines:
            awaited("the machine is there", lambda machine=machine: machine.process.poll() is None)
        faults = settled(work.records, issuer, begin, 15)
        found, _ = load.account(work.records, issuer.ledger[begin:])
        told = "; ".join(f"{number} {what}" for what, number in sorted(found.items()))
        print(f"  {', '.join(happened)}: {len(work.records)} requests: {told}", flush=True)
        wanted("faults", faults, [])
        wanted("strays", load.strays_faults(work)[:3], [])


async def under_faults(bench, work, fronts, machines):
    """What was done to which part."""
    chosen, happened = random.Random(5), []
    load_task = asyncio.ensure_future(work.run(90))
    for turn, what in enumerate(["worker", "freeze", "front", "node"]):
        await asyncio.sleep(2)
        place = chosen.randrange(2)
        happened.append(what)
        if what == "worker":
            machines[turn % 2].signal_all(signal.SIGKILL)
            machines[turn % 2].process.wait()
            await asyncio.sleep(2)
            await machines[turn % 2].start_again()
        elif what == "freeze":
            machines[place].signal_all(signal.SIGSTOP)
            await asyncio.sleep(5)
            machines[place].signal_all(signal.SIGCONT)
        elif what == "front":
            fronts[place].kill()
            await fronts[place].start_again()
        else:
            node = chosen.randrange(bench.cluster.number)
            bench.cluster.kill(node)
            await asyncio.sleep(3)
            bench.cluster.start(node)
    work.left = min(work.left, 20)
    wanted("all requests were over", await load_task, True)
    return happened


# Each case, the kind of the queues, and the rule that is left out.
TRIES = [
    (answered, "classic", None),
    (returned_to_the_worker, "classic", None),
    (returned_to_the_worker, "classic", "G4"),
    (frozen_before_it_asks, "classic", None),
    (frozen_before_it_asks, "classic", "G4"),
    (accounted_for, "classic", None),
    (accounted_for, "quorum", None),
]


def overdue(*_):
    raise Wrong(f"the case had not ended after {CASE} seconds")


def fault_of(case, bench):
    """What is wrong in a case; None if nothing is."""
    os.makedirs(bench.room)
    signal.alarm(CASE)
    try:
        case(bench)
        return None
    except Wrong as fault:
        return str(fault)
    except Exception as fault:  # pylint: disable=broad-except
        return repr(fault)
    finally:
        signal.alarm(0)


def is_missing():
    """What is not there, if anything."""
    asked = subprocess.run([python(), "-c", "import pika"], capture_output=True, check=False)
    if asked.returncode:
        return "pika"
    return None if rabbit.is_there() and shutil.which("epmd") else "rabbitmq-server"


def main():
    parser = argparse.ArgumentParser(description="Runs the gateway over RabbitMQ.")
    parser.add_argument("word", nargs="?", default="")
    parser.add_argument("--program", default=kills.BUILT)
    parser.add_argument("--fake", action="store_true")
    parser.add_argument("--nodes", type=int, default=3)
    given = parser.parse_args()
    program = FAKE if given.fake else os.path.abspath(given.program)
    if missing := is_missing():
        print(f"skipped: no {missing}, so the gateway is not run over RabbitMQ")
        print("0 passed, 0 failed")
        return 0
    if not os.path.isfile(program):
        sys.exit(f"there is no program {program}: ./test builds it, or name one by --program")
    if not has_header(program):
        print(f"FAILED broker: {program}: run --help shows no --header, which the gateway needs")
        print("0 passed, 1 failed")
        return 1
    began, passed, failed = time.monotonic(), 0, 0
    signal.signal(signal.SIGALRM, overdue)
    # (so that the nodes are ended too)
    signal.signal(signal.SIGTERM, lambda *_: sys.exit(1))
    with tempfile.TemporaryDirectory(ignore_cleanup_errors=True) as room, rabbit.cluster(
        f"{room}/rabbit", given.nodes
    ) as nodes:
        print(f"  {time.monotonic() - began:.1f} seconds to start {given.nodes} nodes", flush=True)
        for number, (case, queues, rule) in enumerate(TRIES):
            name = f"{case.__name__} {queues}" + f" without {rule}" * bool(rule)
            if given.word in name:
                fault = fault_of(case, Bench(program, f"{room}/{number}", nodes, queues, rule))
                print(f"  {time.monotonic() - began:.1f} {name}" + f": {fault}"[:150] * bool(rule), flush=True)
                if rule:
                    fault = None if fault else "it passes without the rule"
                passed, failed = passed + (fault is None), failed + (fault is not None)
                if fault is not None:
                    print(f"FAILED broker: {name}: {fault}", flush=True)
    print(f"{time.monotonic() - began:.1f} seconds")
    print(f"{passed} passed, {failed} failed")
    return 1 if failed else 0


if __name__ == "__main__":
    sys.exit(main())
