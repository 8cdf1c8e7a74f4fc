#!/usr/bin/env python3
"""Looks at the trace and the log of `cardswitch run` while it runs.

    tests/live.py [--seed N] [--count N] [--program PATH]

pipe      Each request is sent once the response and the lines of the one before it have come, and nothing more has.
alone     The same with --threads: a request that comes alone is answered as without threads, and no session's thread is started.
one read  All requests come at once, and both outputs go into one pipe: the lines of each transaction come before the response of the
          next one.

Random requests, with each form of the trace, or with the log on standard error, whose times are left out. What has to come is what the
plain model answers. The last line has the counts; the status is 1 if something is wrong.
"""

import argparse
import os
import random
import re
import select
import subprocess
import sys
import tempfile
import time

sys.dont_write_bytecode = True

from model import messages, records, requests  # noqa: E402
from model.switch import Switch  # noqa: E402

TOP = os.path.dirname(os.path.dirname(os.path.abspath(__file__)))
BUILT = os.path.join(TOP, "crates", "cardswitch", "out", "cardswitch")
# How many seconds an answer may take, and how long nothing more may come after it.
SECONDS, QUIET = 20, 0.002
LOG = "the log"
FORMS = ("", "=text", "=json", LOG)
# What a log says of time, and that the run is ready.
TIMES = re.compile(rb',"time":"\d{4}-\d\d-\d\dT\d\d:\d\d:\d\d\.\d{3}Z"|,"host_ms":\d+(?=,"stand_in")|,"ms":\d+(?=}\n)|^cardswitch: ready: .*\n')
LIMIT = 10_000


def answers(form, made):
    """For each message its frame, and what has to come of it: the response, and the lines of the trace."""
    switch = Switch(requests.whole_flow(), LIMIT)
    for message in made:
        if form is LOG:
            told = records.line(records.record(switch, message)).encode()
        else:
            told = text_of(form, switch.answer(message))
        _, context = max(switch.engine.ended.items())
        response = messages.framed(context["response"]) if "response" in context else b""
        yield messages.framed(message), response, told
    acked = switch.send_advices()
    yield b"", b"", b"" if form is LOG else text_of(form, [(line, None) for line in acked])


def options(form):
    return ["--log", "-"] if form is LOG else [f"--trace{form}"]


def untimed(form, text):
    """A text, in which lines of the log have no times, and without the line of a run that is ready."""
    return TIMES.sub(b"", text) if form is LOG else text


def text_of(form, lines):
    return b"".join(requests.shown_in(form, line) + b"\n" for line in lines)


def came(form, stream, wanted):
    """What came on a stream up to the length of what is wanted, and shortly after that."""
    text, until = b"", time.monotonic() + SECONDS
    while len(untimed(form, text)) < len(wanted) and (piece := read(stream, until - time.monotonic())):
        text += piece
    return untimed(form, text + (read(stream, QUIET) or b""))


def read(stream, seconds):
    """The next bytes of a stream, none at its end or if none come in this many seconds."""
    ready, _, _ = select.select([stream], [], [], max(seconds, 0))
    return os.read(stream.fileno(), 65_536) if ready else b""


def threads_of(process):
    """How many threads a process has."""
    return len(os.listdir(f"/proc/{process.pid}/task"))


def alone_faults(words, form, made):
    """What is wrong with threads if each request comes alone. One thread reads, and the main thread answers."""
    yield from pipe_faults([*words, "--threads", "--sessions", "4"], form, made, most=2)


def pipe_faults(words, form, made, most=1):
    """What is wrong if each request is sent once the one before it is answered and its lines are there."""
    streams = {"stdin": subprocess.PIPE, "stdout": subprocess.PIPE, "stderr": subprocess.PIPE, "bufsize": 0}
    with subprocess.Popen([*words, *options(form)], **streams) as process:
        for number, (frame, response, lines) in enumerate(answers(form, made), 1):
            if frame:
                process.stdin.write(frame)
            else:
                process.stdin.close()
            for name, stream, wanted in ("response", process.stdout, response), ("lines", process.stderr, lines):
                got = came(form, stream, wanted)
                if got != wanted:
                    process.kill()
                    yield f"message {number}: {name}: {got}, wanted {wanted}"
                    return
            if frame and (threads := threads_of(process)) > most:
                process.kill()
                yield f"message {number}: {threads} threads, wanted {most} at most"
                return
        status = process.wait(SECONDS)
        if status:
            yield f"status {status}, wanted 0"


def read_faults(words, form, made):
    """What is wrong if all requests come at once, and both outputs go into one pipe."""
    wanted = list(answers(form, made))
    frames = b"".join(frame for frame, _, _ in wanted)
    text = b"".join(response + lines for _, response, lines in wanted)
    with tempfile.TemporaryFile() as file:
        file.write(frames)
        file.seek(0)
        run = subprocess.run(
            [*words, *options(form)], stdin=file, stdout=subprocess.PIPE, stderr=subprocess.STDOUT, timeout=SECONDS, check=False
        )
    if run.returncode or untimed(form, run.stdout) != text:
        yield f"status {run.returncode}, {run.stdout}, wanted {text}"


def main():
    parser = argparse.ArgumentParser(description="Looks at the trace of a run while it runs.")
    parser.add_argument("--seed", type=int, default=random.SystemRandom().randrange(10**9))
    parser.add_argument("--count", type=int, default=30)
    parser.add_argument("--program", default=BUILT)
    given = parser.parse_args()
    chosen, passed, failed = random.Random(given.seed), 0, 0
    with tempfile.TemporaryDirectory() as room:
        flow = os.path.join(room, "flow.toml")
        with open(flow, "wb") as file:
            file.write(requests.flow_file(requests.whole_flow()))
        words = [os.path.abspath(given.program), "run", "--flow", flow, "--limit", str(LIMIT)]
        for number in range(given.count):
            made, form = [it for it in requests.stream(chosen) if messages.is_message(it)], chosen.choice(FORMS)
            for name, faults in ("pipe", pipe_faults), ("alone", alone_faults), ("one read", read_faults):
                wrong = list(faults(words, form, made))
                passed, failed = passed + (not wrong), failed + bool(wrong)
                for fault in wrong:
                    print(f"FAILED live: {name} {number} of seed {given.seed}, {' '.join(options(form))}: {fault}")
    print(f"{passed} passed, {failed} failed")
    return 1 if failed else 0


if __name__ == "__main__":
    sys.exit(main())
