#!/usr/bin/env python3
"""Runs the gateway (contrib/gateway) with engines, an issuer that keeps a ledger, and clients of all kinds.

    tests/gateway.py [WORD] [--program PATH | --fake]

With a word only the cases whose name has it. --fake takes an engine of tests/gateway/ in place of `cardswitch`. Each
rule of the gateway (G1 to G8, docs/operate/SCALING.md) has a case, which has to fail without the rule
(tests/gateway/without.py). At the end engines and gateways are killed under load, and each request has to be
accounted for by its client's log and the issuer's ledger.
"""

import argparse
import concurrent.futures
import dataclasses
import functools
import os
import shutil
import signal
import subprocess
import sys
import tempfile
import time
from collections.abc import Callable

sys.dont_write_bytecode = True
HERE = os.path.dirname(os.path.abspath(__file__))
sys.path.insert(0, os.path.join(os.path.dirname(HERE), "contrib", "gateway"))

import kills  # noqa: E402
from cardgate.process import ends_with  # noqa: E402
from gateway import examples, fronts, pages, rules, units  # noqa: E402
from gateway.served import Wrong, has_header  # noqa: E402

FAKE = os.path.join(HERE, "gateway", "fake_engine.py")
# How long a case may take, in seconds, and how many are run at once at most: most of their time they wait.
CASE, WORKERS = 90, 4


@dataclasses.dataclass
class Bench:
    """What a case works with: the program, a folder, one for pictures of pages, and the rule that is left out."""

    program: str
    room: str
    shots: str
    without: str | None = None


def overdue(*_):
    raise Wrong(f"the case had not ended after {CASE} seconds")


def fault_of(case, given, without=None):
    """What is wrong in a case; None if nothing is."""
    room = tempfile.mkdtemp()
    signal.alarm(CASE)
    try:
        case(Bench(given.program, room, given.shots, without))
        return None
    except Wrong as fault:
        return str(fault)
    except Exception as fault:  # pylint: disable=broad-except
        return repr(fault)
    finally:
        signal.alarm(0)
        shutil.rmtree(room, ignore_errors=True)


@dataclasses.dataclass(frozen=True)
class Try:
    """A case, and the rule that is left out in it."""

    case: Callable[[Bench], None]
    name: str
    without: str | None = None

    def outcome(self, given):
        """What is wrong, if anything is; and what the case found without the rule."""
        fault = fault_of(self.case, given, self.without)
        if self.without is None:
            return fault, None
        return (None if fault else "it passes without the rule"), fault


def tries():
    for case in units.CASES + fronts.CASES + pages.CASES + examples.CASES + rules.MORE:
        yield Try(case, case.__name__)
    for rule, case in rules.CASES:
        yield Try(case, f"{rule} {case.__name__}")
        yield Try(case, f"{rule} {case.__name__} without the rule", rule)


def heed():
    """A worker ends with the test, and a case that takes too long is ended."""
    ends_with(os.getppid())()
    signal.signal(signal.SIGALRM, overdue)


def main():
    parser = argparse.ArgumentParser(description="Runs the gateway with engines, an issuer and clients.")
    parser.add_argument("word", nargs="?", default="")
    parser.add_argument("--program", default=kills.BUILT)
    parser.add_argument("--fake", action="store_true")
    shots = os.path.join(os.path.dirname(HERE), "out", "shots")
    parser.add_argument("--shots", default=shots, help="where pictures of the page are put")
    parser.add_argument("--times", action="store_true", help="each case, with the seconds so far")
    given = parser.parse_args()
    program = given.program = FAKE if given.fake else os.path.abspath(given.program)
    if not os.path.isfile(program):
        sys.exit(f"there is no program {program}: ./test builds it, or name one by --program")
    if not has_header(program):
        print(f"FAILED gateway: {program}: run --help shows no --header, which the gateway needs")
        print("0 passed, 1 failed")
        return 1
    began, passed, failed = time.monotonic(), 0, 0
    chosen = [it for it in tries() if given.word in it.name]
    with concurrent.futures.ProcessPoolExecutor(min(WORKERS, len(os.sched_getaffinity(0))), initializer=heed) as pool:
        outcomes = pool.map(functools.partial(Try.outcome, given=given), chosen)
        for its, (fault, found) in zip(chosen, outcomes, strict=True):
            if given.times:
                print(f"  {time.monotonic() - began:.1f} {its.name}" + f": {found}"[:150] * bool(found), flush=True)
            passed, failed = passed + (fault is None), failed + (fault is not None)
            if fault is not None:
                print(f"FAILED gateway: {its.name}: {fault}", flush=True)
    print(f"{time.monotonic() - began:.1f} seconds")
    print(f"{passed} passed, {failed} failed")
    return 1 if failed else 0


if __name__ == "__main__":
    sys.exit(main())
