#!/usr/bin/env python3
"""Runs the built program on the cases of this folder, on the examples of README.md and docs/, and on random cases.

    tests/run.py [WORD] [--seed N] [--count N] [--many] [--every] [--program PATH] [--show]

README.md beside this file says how a case is written.
"""

import argparse
import os
import random
import sys
import time
from concurrent.futures import ThreadPoolExecutor

sys.dont_write_bytecode = True

from harness import case_files, pages  # noqa: E402
from harness.case import Program, shown, smallest  # noqa: E402
from model import generate  # noqa: E402

HERE = os.path.dirname(os.path.abspath(__file__))
TOP = os.path.dirname(HERE)
# How many failed cases are shown in full.
SHOWN = 20
BUILT = os.path.join(TOP, "crates", "cardswitch", "out", "cardswitch")


def arguments():
    """The words of the command line."""
    parser = argparse.ArgumentParser(description="Runs the built program on the cases.")
    parser.add_argument("word", nargs="?", default="", help="only cases whose name has this word")
    parser.add_argument("--seed", type=int, help="the seed of the random cases; default a new one")
    parser.add_argument("--count", type=int, default=4000, help="how many random cases; default 4000")
    parser.add_argument("--many", action="store_true", help="a hundred times as many random cases, and the files many.cases, for a night")
    parser.add_argument("--every", action="store_true", help="each byte of both spoilt images is replaced by every other")
    parser.add_argument("--program", default=BUILT, help="the program; default the one that rt ci built")
    parser.add_argument("--show", action="store_true", help="print what came of each case, judge nothing")
    given = parser.parse_args()
    given.count *= 100 if given.many else 1
    return given


def all_cases(seed, given):
    """The cases of the files, of the pages and of the seed, in this order."""
    yield from case_files.cases_below(HERE, given.many or "many" in given.word)
    yield from pages.cases_of(TOP)
    yield from generate.cases(random.Random(seed), given.count, given.every)


def told(program, case, came):
    """What is wrong with what came of a case, for a random one with the fewest lines that show it; None: nothing."""
    wrong = case.wrong(came)
    if wrong and case.remake:
        case = smallest(program, case)
        wrong = case.wrong(program.run(case)) or wrong
    return wrong


def main():
    given = arguments()
    if not os.access(given.program, os.X_OK):
        sys.exit(f"there is no program {given.program}: ./test builds it, or name one by --program")
    seed = given.seed if given.seed is not None else random.SystemRandom().randrange(10**9)
    began = time.monotonic()
    failed = 0
    with Program(given.program) as program, ThreadPoolExecutor(os.cpu_count() or 2) as pool:
        picked = (case for case in all_cases(seed, given) if given.word in case.name)
        # (cases are made while others run)
        cases = [(case, pool.submit(program.run, case)) for case in picked]
        for case, running in cases:
            came = running.result()
            if given.show:
                print(shown(case, came))
                continue
            wrong = told(program, case, came) if failed < SHOWN else case.wrong(came)
            if wrong:
                failed += 1
                print(f"FAILED {case.name}\n{wrong}\n" if failed <= SHOWN else f"FAILED {case.name}")
    if given.show:
        return 0
    if not cases:
        sys.exit(f"no case has {given.word!r} in its name")
    print(f"{time.monotonic() - began:.1f} seconds; random cases of --seed {seed}")
    print(f"{len(cases) - failed} passed, {failed} failed")
    return 1 if failed else 0


if __name__ == "__main__":
    sys.exit(main())
