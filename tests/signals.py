#!/usr/bin/env python3
"""Ends `cardswitch run` by signals and closed streams, in the middle of a run on a journal's file.

    tests/signals.py [--program PATH]

A run answers some requests over a pipe, and then gets SIGTERM or SIGINT, or its output is closed before the next request. It has to
end at once: by that signal, or with status 1 if its output is closed (SIGPIPE is ignored, so that the failed write is reported). The
journal that it leaves has to recover, as after a kill (kills.py): no answered transaction is unfinished, and what is recovered is what
the plain model makes of the rows. A run whose standard error is closed has to answer all requests and end with status 0, also with
--trace. A run under contrib/serve.py that gets SIGTERM or SIGINT has to end as at the end of its input: with all responses, the numbers
of the run, nothing unfinished and status 0. Each case is run with threads and without.
"""

import argparse
import os
import random
import signal
import subprocess
import sys
import tempfile
import time

sys.dont_write_bytecode = True

import kills  # noqa: E402
from model import messages  # noqa: E402

# How many requests are answered before the end, and how many seconds the end may take.
EARLY, SECONDS = 5, 5
SERVE = os.path.join(os.path.dirname(os.path.dirname(os.path.abspath(__file__))), "contrib", "serve.py")
WAYS = {"SIGTERM": signal.SIGTERM, "SIGINT": signal.SIGINT, "closed output": None}


def answered_by(process, count):
    """Reads this many responses."""
    came = b""
    while len(messages.frames(came)) < count and (piece := os.read(process.stdout.fileno(), 65_536)):
        came += piece
    return came


def ended(process):
    """The status of a process that has to end, and what is wrong if it does not."""
    try:
        return process.wait(SECONDS), None
    except subprocess.TimeoutExpired:
        process.kill()
        return process.wait(), f"it had not ended after {SECONDS} seconds"


def heed():
    """Signals end the program, even if this one was started with them ignored, as a job in the background is."""
    for sent in signal.SIGTERM, signal.SIGINT:
        signal.signal(sent, signal.SIG_DFL)


def stopped(command, made, sent):
    """Runs a command until it has answered some requests, and ends it in this way. The responses, the status, and what is wrong."""
    streams = {"stdin": subprocess.PIPE, "stdout": subprocess.PIPE, "stderr": subprocess.DEVNULL, "bufsize": 0}
    with subprocess.Popen(command, preexec_fn=heed, **streams) as process:
        process.stdin.write(b"".join(made[:EARLY]))
        came = answered_by(process, EARLY)
        if sent is None:
            process.stdout.close()
            process.stdin.write(made[EARLY])
        else:
            process.send_signal(sent)
        status, fault = ended(process)
        if sent is not None:
            came += process.stdout.read()
        return came, status, fault


def stop_faults(program, room, words, name, sent):
    """What is wrong with a run that is ended in this way."""
    made, silent = kills.frames(random.Random(7))
    path = os.path.join(room, f"{name}{len(words)}.db")
    came, status, fault = stopped([program, "run", "--flow", kills.FLOW, "--journal", path, *words], made, sent)
    if fault:
        yield fault
    wanted = (1,) if sent is None else (-sent,)
    if status not in wanted:
        yield f"status {status}, wanted {wanted[0]}"
    tables, answered = kills.tables_of(path), {number: number for number, _ in enumerate(messages.frames(came))}
    yield from kills.faults_of(program, tables, path, answered, silent)


def quiet_faults(program, room, words):
    """What is wrong with a run whose standard error is closed."""
    made, _ = kills.frames(random.Random(8))
    path = os.path.join(room, f"quiet{len(words)}.db")
    command = [program, "run", "--flow", kills.FLOW, "--journal", path, *words]
    shell = ["sh", "-c", 'exec "$@" 2>&-', "sh", *command]
    came = subprocess.run(shell, input=b"".join(made), stdout=subprocess.PIPE, timeout=60, check=False)
    if came.returncode != 0:
        yield f"status {came.returncode}, wanted 0"
    if len(messages.frames(came.stdout)) != len(made):
        yield f"{len(messages.frames(came.stdout))} responses, wanted {len(made)}"
    yield from kills.end_faults(path)


def served_faults(program, room, words, sent):
    """What is wrong with a run whose input ends by this signal, in the middle of a frame."""
    made, _ = kills.frames(random.Random(9))
    path = os.path.join(room, f"served{len(words)}{sent}.db")
    command = [sys.executable, SERVE, program, "run", "--flow", kills.FLOW, "--journal", path, "--stats", *words]
    streams = {"stdin": subprocess.PIPE, "stdout": subprocess.PIPE, "stderr": subprocess.PIPE, "bufsize": 0}
    with subprocess.Popen(command, preexec_fn=heed, **streams) as process:
        process.stdin.write(b"".join(made[:EARLY]) + made[EARLY][:-1])
        came = answered_by(process, EARLY)
        process.send_signal(sent)
        status, fault = ended(process)
        came, said = came + process.stdout.read(), process.stderr.read()
    if fault:
        yield fault
    if status != 0:
        yield f"status {status}, wanted 0"
    if len(messages.frames(came)) != EARLY:
        yield f"{len(messages.frames(came))} responses, wanted {EARLY}"
    if not said.startswith(b"cardswitch: stats: requests=%d " % EARLY):
        yield f"on standard error: {said!r}"
    yield from kills.end_faults(path)


def passed_on_faults(program):
    """What is wrong with contrib/serve.py where no signal comes: input, output and status are the command's."""
    made, _ = kills.frames(random.Random(9))
    command = [program, "run", "--flow", kills.FLOW]
    for name, data in ("whole frames", b"".join(made)), ("a bad length", made[0] + b"12x4"), ("an unfinished frame", made[0][:-1]):
        with tempfile.TemporaryFile() as file:
            file.write(data)
            for its in command, [sys.executable, SERVE, *command]:
                file.seek(0)
                ran = subprocess.run(its, stdin=file, capture_output=True, timeout=60, check=False)
                got = ran.returncode, ran.stdout, ran.stderr
                wanted = got if its is command else wanted
            if got != wanted:
                yield f"{name} from a file: {got}, wanted {wanted}"
        ran = subprocess.run([sys.executable, SERVE, *command], input=data, capture_output=True, timeout=60, check=False)
        if (ran.returncode, ran.stdout, ran.stderr) != wanted:
            yield f"{name} from a pipe: {ran}, wanted {wanted}"


def tries(program, room):
    """All cases: a name, and what is wrong."""
    for threads in [], ["--threads", "--sessions", "4"]:
        beside = " with threads" * bool(threads)
        for name, sent in WAYS.items():
            yield f"{name}{beside}", [*stop_faults(program, room, threads, name.replace(" ", "-"), sent)]
        for words in [*threads], [*threads, "--trace"]:
            yield f"closed standard error {' '.join(words)}", [*quiet_faults(program, room, words)]
        for name, sent in (("SIGTERM", signal.SIGTERM), ("SIGINT", signal.SIGINT)):
            yield f"served until {name}{beside}", [*served_faults(program, room, threads, sent)]
    yield "served to the end", [*passed_on_faults(program)]


def main():
    parser = argparse.ArgumentParser(description="Ends the program by signals and closed streams.")
    parser.add_argument("--program", default=kills.BUILT)
    given = parser.parse_args()
    began, passed, failed = time.monotonic(), 0, 0
    with tempfile.TemporaryDirectory() as room:
        for name, faults in tries(given.program, room):
            passed, failed = passed + (not faults), failed + bool(faults)
            if faults:
                print(f"FAILED signals: {name}: {'; '.join(faults)}")
    print(f"{time.monotonic() - began:.1f} seconds")
    print(f"{passed} passed, {failed} failed")
    return 1 if failed else 0


if __name__ == "__main__":
    sys.exit(main())
