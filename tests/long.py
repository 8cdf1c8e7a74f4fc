#!/usr/bin/env python3
"""Serves a long stream of requests with `cardswitch run --trace`, and looks at what it writes and how much memory it takes.

    tests/long.py [--requests N] [--kind test|authorization|silent] [--form text|json] [--threads] [--most MEGABYTES] [--program PATH]

Each request has to be answered, in order, and each line of the trace has to come once, in order: the plain model says which lines a
request has, and what its response is. With --threads there are 4 sessions and no trace. However long the stream is, at most 64 MB may
be taken, or 128 MB with --threads, and for authorizations also what the book keeps of each, and the advices of those whose issuer is
silent. The default, 125,000 network tests, makes a history of a million entries; 1,000,000 requests by hand take some minutes. The last
line has the counts; the status is 1 if something is wrong.
"""

import argparse
import os
import subprocess
import sys
import tempfile
import threading
import time
from itertools import islice

sys.dont_write_bytecode = True

from model import messages, requests, traces  # noqa: E402
from model.switch import Switch  # noqa: E402

TOP = os.path.dirname(os.path.dirname(os.path.abspath(__file__)))
BUILT = os.path.join(TOP, "crates", "cardswitch", "out", "cardswitch")
# The memory that a run may take, in MB, and one by threads, whose heap has parts for each of them; and what each request of a kind may
# leave, in bytes: what the book keeps, and advices.
MOST, MOST_BY_THREADS, LEFT = 64, 128, {"test": 0, "authorization": 320, "silent": 4096}


def network_test(stan):
    return messages.encode(b"0800", {11: stan, 70: b"301"})


def authorization(stan, amount=b"000000000100"):
    """One with a card of its own, which is approved."""
    fields = {2: b"4000000000" + stan, 3: b"000000", 4: amount, 7: b"0102030405", 11: stan, 41: b"TERM0001", 49: b"978"}
    return messages.encode(b"0100", fields)


def silent(stan):
    """One whose issuer is silent: it leaves advices until the end of the stream."""
    return authorization(stan, b"000000000091")


KINDS = {"test": network_test, "authorization": authorization, "silent": silent}
# A STAN that occurs in a text only where it was put.
MARK = b"271828"


def stan_of(number):
    return b"%06d" % (number % 1_000_000)


class Worked:
    """The first request of a kind: its response, its lines with `{}` in place of the id, and the places of its advices."""

    def __init__(self, make, form):
        switch = Switch(requests.whole_flow(), 10_000)
        lines = switch.answer(make(MARK))
        if form == "json":
            self.lines = [traces.json_line(*line).replace('"id":1,', '"id":{},') for line in lines]
        else:
            self.lines = [lines[0][0], *(f"{{}} {line.split(' ', 1)[1]}" for line, _ in lines[1:])]
        self.response, self.places = switch.responses(), [place for _, place in sorted(switch.engine.now.advices)]
        self.form = form

    def ack(self, number, place):
        line = f"ack {number} {place}"
        return traces.json_line(line) if self.form == "json" else line


def filled(line, number):
    return line.replace("{}", str(number))


def lines_of(worked, count):
    """The lines of this many requests, one after the other."""
    for number in range(1, count + 1):
        yield from (filled(line, number) for line in worked.lines)
    yield from (worked.ack(number, place) for number in range(1, count + 1) for place in worked.places)


def frames_of(worked, count):
    """The frames of their responses."""
    for number in range(1, count + 1):
        stan = stan_of(number)
        # (the switch's own approval code ends in the last four digits of the STAN)
        yield worked.response.replace(b"SI" + MARK[-4:], b"SI" + stan[-4:]).replace(MARK, stan)


def requests_of(make, count):
    """The frames of the requests themselves."""
    first = messages.framed(make(MARK))
    for number in range(1, count + 1):
        yield first.replace(MARK, stan_of(number))


class Reader(threading.Thread):
    """Compares a stream with what is wanted of it, piece by piece, and keeps the first difference."""

    def __init__(self, stream, wanted):
        super().__init__()
        self.stream, self.wanted, self.wrong = stream, wanted, None
        self.start()

    def run(self):
        while piece := b"".join(islice(self.wanted, 1_000)):
            came = self.stream.read(len(piece))
            if came != piece:
                self.wrong = f"wanted {piece[:200]!r} .., came {came[:200]!r} .."
                break
        rest = self.stream.read()
        if rest and not self.wrong:
            self.wrong = f"after all that is wanted there is {rest[:200]!r}"


def served(program, make, count, form, threads):
    """What is wrong with a run of this many requests; its status, the memory that it took in MB, and its seconds."""
    with tempfile.TemporaryDirectory() as room:
        flow = f"{room}/flow.toml"
        with open(flow, "wb") as file:
            file.write(requests.flow_file(requests.whole_flow()))
        began = time.monotonic()
        worked = Worked(make, form)
        words = [program, "run", "--flow", flow, *(("--threads", "--sessions", "4") if threads else (f"--trace={form}",))]
        with subprocess.Popen(words, stdin=subprocess.PIPE, stdout=subprocess.PIPE, stderr=subprocess.PIPE) as run:
            lines = () if threads else (f"{line}\n".encode() for line in lines_of(worked, count))
            readers = [Reader(run.stdout, frames_of(worked, count)), Reader(run.stderr, iter(lines))]
            texts = requests_of(make, count)
            try:
                while piece := b"".join(islice(texts, 1_000)):
                    run.stdin.write(piece)
                run.stdin.close()
            except BrokenPipeError:
                pass
            for reader in readers:
                reader.join()
            _, status, usage = os.wait4(run.pid, 0)
            run.returncode = os.waitstatus_to_exitcode(status)
        return [reader.wrong for reader in readers], run.returncode, usage.ru_maxrss / 1024, time.monotonic() - began


def main():
    parser = argparse.ArgumentParser(description="Serves a long stream.")
    parser.add_argument("--requests", type=int, default=125_000)
    parser.add_argument("--kind", choices=KINDS, default="test", help="network tests, or authorizations of cards of their own")
    parser.add_argument("--form", choices=("text", "json"), default="text", help="the form of the trace")
    parser.add_argument("--threads", action="store_true", help="runs 4 sessions as threads, without a trace")
    parser.add_argument("--most", type=float, help="the memory that it may take, in MB")
    parser.add_argument("--program", default=BUILT)
    given = parser.parse_args()
    most = given.most or (MOST_BY_THREADS if given.threads else MOST) + given.requests * LEFT[given.kind] / 2**20
    wrong, status, took, seconds = served(
        os.path.abspath(given.program), KINDS[given.kind], given.requests, given.form, given.threads
    )
    faults = [
        ("responses", wrong[0]),
        ("trace", wrong[1]),
        ("status", f"wanted 0, came {status}" if status else None),
        ("memory", f"wanted at most {most:.1f} MB, took {took:.1f}" if took > most else None),
    ]
    for name, fault in faults:
        if fault:
            print(f"FAILED long --kind {given.kind} --requests {given.requests}: {name}: {fault}")
    failed = sum(fault is not None for _, fault in faults)
    print(f"{seconds:.1f} seconds for {given.requests} requests; {took:.1f} MB")
    print(f"{len(faults) - failed} passed, {failed} failed")
    return 1 if failed else 0


if __name__ == "__main__":
    sys.exit(main())
