#!/usr/bin/env python3
"""Makes calls of `cardswitch run` on the files of a journal fail, one after the other, with a shim in C (shims/disk.c).

    tests/disks.py [--all] [--first N] [--seed N] [--count N] [--program PATH]

A run with `--trace` on a new journal's file answers requests, some with a silent issuer, and its calls that open, write, sync, cut,
link or remove that file and those beside it are counted. Then it runs again with the Nth of them failing, once or from then on, a write
torn in half or not, with EIO or ENOSPC. Its responses have to be a beginning of the undisturbed ones, and so do the lines of its trace;
the status has to be 0, 3 (the journal refused) or 1. Then `recover` runs without faults. It has to leave a file without a row, and what it
prints and leaves is what the plain model makes of the rows. No transaction whose response was read is unfinished; a stored reversal is of
a request that got no response, or whose issuer is silent. A run without faults goes on with the file, whatever is in it, and leaves it
sound.

With `--threads` a disk of the journal that is full from one call on ends the run with status 3, though the input is open and nothing
more comes, and an output that is full ends it with status 1.

--all takes every call, --first the first N, and each fails in each way; otherwise --count of them are taken, spread evenly.
"""

import argparse
import errno
import glob
import itertools
import os
import random
import sqlite3
import subprocess
import sys
import tempfile
import time

sys.dont_write_bytecode = True

import kills  # noqa: E402
from harness import shims  # noqa: E402
from model import messages  # noqa: E402

# How calls fail: once or from then on, a write torn or not, with which error.
FAILURES = [*itertools.product((False, True), (False, True), (errno.EIO, errno.ENOSPC))]


def fresh(path):
    for name in glob.glob(glob.escape(path) + "*"):
        os.remove(name)


def ran(shim, program, path, stdin, at=0, failure=(False, False, errno.EIO)):
    """What comes of a run on a new file, one of whose calls fails."""
    fresh(path)
    goes_on, is_torn, error = failure
    more = {"PATH": path, "WITH": str(error)} | ({"TORN": "1"} if is_torn else {})
    return shim.run([program, "run", "--flow", kills.FLOW, "--journal", path, "--trace"], stdin, at, goes_on, **more)


def trace_of(came):
    """What a run wrote to standard error, without the line that says why it ended."""
    return b"".join(line for line in came.stderr.splitlines(True) if not line.startswith(b"cardswitch: "))


def trace_faults(whole, came):
    """What is wrong with the trace of a run."""
    if not trace_of(whole).startswith(trace_of(came)):
        yield f"its lines are no beginning of the undisturbed ones: {trace_of(came)[-200:]}"
    if came.status == 0 and came.stderr != whole.stderr:
        yield "it is done, and its lines are other ones"


def faults_of(program, path, whole, came, silent):
    """What is wrong with what came of a run, and with the journal that it left."""
    if came.status not in (0, 1, 3):
        yield f"status {came.status}: {came.stderr.decode('utf-8', 'replace')}"
    if not whole.stdout.startswith(came.stdout):
        yield "its responses are no beginning of the undisturbed ones"
    if came.status == 0 and came.stdout != whole.stdout:
        yield "it is done, and responses are missing"
    yield from trace_faults(whole, came)
    answered = {number: number for number, _ in enumerate(messages.frames(came.stdout))}
    try:
        tables = kills.tables_of(path) if os.path.exists(path) else None
    except sqlite3.DatabaseError as error:
        yield f"SQLite does not read the file: {error}"
        return
    yield from kills.faults_of(program, tables, path, answered, silent)
    yield from recovered_faults(program, path)


def recovered_faults(program, path):
    """What is wrong with the file once it is recovered and run to its end, so that stored advices are sent too."""
    with kills.copied(path) as copy:
        command = [program, "run", "--flow", kills.FLOW, "--journal", copy]
        came = shims.plain(command, b"")
        if came.returncode != 0:
            yield f"the next run ends with {came.returncode}: {came.stderr.decode('utf-8', 'replace')}"
        else:
            yield from kills.end_faults(copy)


def full_while_silent(shim, program, path, requests):
    """What is wrong with a run by threads whose disk is full, once it has begun, and whose input stays open with nothing more to read."""
    command = [program, "run", "--flow", kills.FLOW, "--journal", path, "--threads", "--sessions", "4"]
    fresh(path)
    # (so many calls are made without a request, those at the end included)
    begun = shim.run(command, b"", PATH=path, WITH=str(errno.ENOSPC)).calls
    fresh(path)
    environment, _ = shim.environment(begun + 2, True, PATH=path, WITH=str(errno.ENOSPC))
    pipes = {"stdin": subprocess.PIPE, "stdout": subprocess.PIPE, "stderr": subprocess.PIPE}
    with subprocess.Popen(command, env=environment, **pipes) as run:
        run.stdin.write(requests)
        run.stdin.flush()
        try:
            status = run.wait(shims.SECONDS)
        except subprocess.TimeoutExpired:
            run.kill()
            yield "it goes on"
        else:
            said = run.stderr.read().decode("utf-8", "replace")
            if status != 3 or not said.startswith(f"cardswitch: {path}: "):
                yield f"wanted status 3 and an error of {path}, came {status}: {said}"


def full_output_while_silent(program, requests):
    """What is wrong with a run by threads whose output is full, and whose input stays open with nothing more to read."""
    command = [program, "run", "--flow", kills.FLOW, "--threads", "--sessions", "4"]
    with open("/dev/full", "wb") as full:
        pipes = {"stdin": subprocess.PIPE, "stdout": full, "stderr": subprocess.PIPE}
        with subprocess.Popen(command, **pipes) as run:
            run.stdin.write(requests)
            run.stdin.flush()
            try:
                status = run.wait(shims.SECONDS)
            except subprocess.TimeoutExpired:
                run.kill()
                yield "it goes on"
                return
            said = run.stderr.read().decode("utf-8", "replace")
            if status != 1 or not said.startswith("cardswitch: standard output: cannot write: "):
                yield f"wanted status 1 and an error of the output, came {status}: {said}"


def arguments():
    """The words of the command line."""
    parser = argparse.ArgumentParser(description="Lets calls on the files of a journal fail.")
    parser.add_argument("--all", action="store_true", help="every call, in each way")
    parser.add_argument("--first", type=int, default=0, help="only the first N calls, in each way")
    parser.add_argument("--seed", type=int, default=random.SystemRandom().randrange(10**9))
    parser.add_argument("--count", type=int, default=150, help="how many calls fail, in all")
    parser.add_argument("--program", default=kills.BUILT)
    return parser.parse_args()


def main():
    shims.skip_without_compiler("failing calls of disks")
    given = arguments()
    chosen, began, passed, failed = random.Random(given.seed), time.monotonic(), 0, 0
    made, silent = kills.frames(random.Random(1))
    requests = b"".join(made[:12])
    with tempfile.TemporaryDirectory() as room:
        path = os.path.join(os.path.realpath(room), "journal.db")
        shim = shims.Shim("disk", "FAIL", room)
        whole = ran(shim, given.program, path, requests)
        if whole.status != 0 or whole.calls == 0:
            sys.exit(f"undisturbed it ends with {whole.status} after {whole.calls} calls: {whole.stderr.decode()}")
        count = whole.calls if given.all else given.count
        for at in range(1, given.first + 1) if given.first else shims.spread(chosen, whole.calls, count):
            for failure in FAILURES if given.all or given.first else [chosen.choice(FAILURES)]:
                came = ran(shim, given.program, path, requests, at, failure)
                found = [*faults_of(given.program, path, whole, came, silent)]
                passed, failed = passed + (not found), failed + bool(found)
                if found:
                    print(f"FAILED disks --seed {given.seed}: call {at} of {whole.calls}, {failure}: {'; '.join(found)}")
        found = [*full_while_silent(shim, given.program, path, requests)]
        passed, failed = passed + (not found), failed + bool(found)
        if found:
            print(f"FAILED disks: a full disk while the input is silent: {'; '.join(found)}")
        found = [*full_output_while_silent(given.program, requests)]
        passed, failed = passed + (not found), failed + bool(found)
        if found:
            print(f"FAILED disks: a full output while the input is silent: {'; '.join(found)}")
    print(f"{time.monotonic() - began:.1f} seconds; calls of --seed {given.seed}, {whole.calls} in a run")
    print(f"{passed} passed, {failed} failed")
    return 1 if failed else 0


if __name__ == "__main__":
    sys.exit(main())
