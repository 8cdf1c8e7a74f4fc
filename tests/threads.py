#!/usr/bin/env python3
"""Runs `cardswitch run --threads` on random requests, and judges the results with the plain model.

    tests/threads.py [WORD] [--seed N] [--count N] [--program PATH]

apart     Transactions that do not see one another. For 1, 2, 4 and 16 sessions, in memory and on a file, however the input
          comes, the run writes the bytes that the model has for the requests one after the other, and so does `run` without threads.
crowd     Transactions of all classes that meet. The model follows the trace line by line (model/threads.py), and then has the
          responses and the journal of the run.
crush     The same with 600 messages. At least two transactions are under way at once: `--threads` is not ignored.
ends      A stream that ends within a frame, or with a bad length, and messages that cannot be read: what came before is
          answered, and text and status are those of `run` without threads.
refusing  A journal's file that may not grow, and an input that stays open: the run ends. Its trace is that of whole legs, whose
          responses come first. By classes, no more responses come than later requests, without those that are unfinished.

WORD picks the runs whose names have these letters. The last line has the counts; the status is 1 if a run failed.
"""

import argparse
import collections
import itertools
import os
import random
import re
import sqlite3
import sys
import tempfile
import time
from concurrent.futures import ThreadPoolExecutor

sys.dont_write_bytecode = True

from harness import inputs, tables  # noqa: E402
from harness.case import Came, Exactly  # noqa: E402
from model import journal, messages, requests, texts, threads  # noqa: E402
from model.switch import Switch  # noqa: E402
from model.threads import Broken, need  # noqa: E402

TOP = os.path.dirname(os.path.dirname(os.path.abspath(__file__)))
BUILT = os.path.join(TOP, "crates", "cardswitch", "out", "cardswitch")
# How long a run may take, in seconds.
SECONDS = 60
SESSIONS = (1, 2, 4, 16)
LIMITS = (10_000, 10_000, 10_000, 700, 999_999_999_999_999)
FLOWS = {"whole": requests.whole_flow(), "short": requests.short_flow()}


# Ways in which the input comes. Each gives what runs a command on it.


def on_file(room, _, made, text):
    path = room.new("frames")
    with open(path, "wb") as file:
        file.write(text)
    return lambda words: inputs.run_on_file(words, path, SECONDS, {})


def in_packets(_, chosen, made, text):
    # (a larger piece is several packets)
    pieces = [piece[at : at + 4096] for piece in inputs.cut(chosen, text) for at in range(0, len(piece), 4096)]
    return lambda words: inputs.run_in_packets(words, pieces, SECONDS, {})


def with_pauses(_, chosen, made, text):
    pieces = [(chosen.uniform(0, 0.01), piece) for piece in inputs.cut(chosen, text)]
    return lambda words: inputs.run_on_pipe(words, pieces, SECONDS, {})


def in_talk(_, chosen, made, text):
    """A client sends some requests, and waits for their responses before it sends more."""
    turns, at, wanted = [], 0, 0
    while at < len(made):
        its = made[at : at + chosen.randint(1, 6)]
        at, wanted = at + len(its), wanted + sum(map(threads.is_answered, its))
        turns.append((b"".join(map(messages.framed, its)), wanted))
    return lambda words: inputs.run_in_talk(words, turns, lambda out: len(messages.frames(out)), SECONDS, {})


def on_open_pipe(_, _chosen, _made, text):
    return lambda words: inputs.run_on_open_pipe(words, text, SECONDS, {})


WAYS = (on_file, in_packets, with_pauses, in_talk)


class Room:
    """The program, and a folder for flows, inputs and journals."""

    def __init__(self, program, path):
        self.program, self.path, self.numbers = os.path.abspath(program), path, itertools.count()
        for name, flow in FLOWS.items():
            with open(f"{path}/{name}.toml", "wb") as file:
                file.write(requests.flow_file(flow))

    def new(self, name):
        """A path that nothing has yet."""
        return f"{self.path}/{next(self.numbers)}.{name}"


class Run:
    """What is chosen for a run, and for one without threads beside it."""

    def __init__(self, room, chosen, sessions, has_file, way):
        self.room, self.chosen, self.sessions, self.has_file, self.way = room, chosen, sessions, has_file, way
        self.threads = ("--threads", "--sessions", str(sessions))
        self.flow_name, self.limit = chosen.choice(("whole", "whole", "whole", "short")), chosen.choice(LIMITS)
        self.flow = FLOWS[self.flow_name]
        self.journal, self.command = None, []

    def input_of(self, made, tail=b""):
        return self.way(self.room, self.chosen, made, b"".join(map(messages.framed, made)) + tail)

    def ran(self, give, *options):
        """What comes of a run with these options, on a new journal."""
        self.journal = self.room.new("db") if self.has_file else None
        options = [*options, *(["--journal", self.journal] if self.has_file else [])]
        flow = f"{self.room.path}/{self.flow_name}.toml"
        self.command = [self.room.program, "run", "--flow", flow, "--limit", str(self.limit), *options]
        came = Came(*give(self.command))
        need(came.status is not None, f"it had not ended after {SECONDS} seconds")
        return came


def compare(came, out, told, status=0):
    """Wants these streams and this status."""
    found = [requests.Frames(out).wrong("standard output", came.stdout), told.wrong("standard error", came.stderr)]
    found += [f"status: wanted {status}, came {came.status}"] * (came.status != status)
    need(not any(found), "\n".join(filter(None, found)))


def unnumbered(lines):
    """Rows without the numbers of participants, which depend on who joined first."""
    return sorted(re.sub(r"^part \d+ ", "part ", line) for line in lines)


# The kinds of runs. Each raises what is wrong, and returns how many transactions were under way at once, as far as it knows.


def apart(run):
    made = requests.apart(run.chosen, 15 if run.has_file else 40)
    switch = Switch(run.flow, run.limit)
    out = switch.run(made)
    give = run.input_of(made)
    for options in ((), run.threads):
        compare(run.ran(give, *options), out, requests.Told(requests.passed(made)))
        if run.has_file:
            need(unnumbered(tables.lines(run.journal)) == unnumbered(requests.tables(switch)), "the journal has other rows")
    return 0


def crowd(run):
    return followed(run, run.chosen.choice([3, 10, 20] if run.has_file else [3, 10, 20, 40]))


def crush(run):
    most = followed(run, 600)
    need(most > 1, "no two transactions were under way at once")
    return most


def followed(run, count):
    """Follows the trace of a run of at least this many messages."""
    made = requests.crowd(run.chosen, run.limit, count)
    give = run.input_of(made)
    came = run.ran(give, *run.threads, "--trace")
    need(came.status == 0, f"status: wanted 0, came {came.status}, and standard error ends with {came.stderr[-300:]!r}")
    switch, most = threads.follow(run.flow, run.limit, run.sessions, made, came.stderr.decode().split("\n")[:-1])
    compare(came, switch.responses(), Exactly(came.stderr))
    if run.has_file:
        wanted, rows = requests.tables(switch), list(tables.lines(run.journal))
        need(rows == wanted, f"wanted the rows {wanted}, came {rows}")
    return most


def tail_of(chosen, count):
    """The end of a stream that is refused after this many frames, and what is reported of it."""
    frame = messages.framed(messages.encode(b"0800", {11: b"000001", 70: b"301"}))
    if chosen.random() < 0.5:
        tail = frame[: chosen.randrange(1, len(frame))]
        return tail, texts.END["Truncated"].format(at=len(tail))
    return b"00%c1" % chosen.choice(b"x :/\n") + frame, texts.END["BadLength"].format(at=count + 1)


def ends(run):
    made = requests.apart(run.chosen, 10)
    made.insert(run.chosen.randrange(11), run.chosen.choice(requests.UNREADABLE))
    tail, text = tail_of(run.chosen, len(made))
    out = Switch(run.flow, run.limit).run(made)
    give = run.input_of(made, tail)
    plain = run.ran(give)
    need(plain.stderr.decode().splitlines()[-1:] == [text], f"wanted that {text!r} is reported, came {plain.stderr!r}")
    compare(plain, out, Exactly(plain.stderr), 1)
    compare(run.ran(give, *run.threads), out, Exactly(plain.stderr), 1)
    return 0


def by_class(texts):
    """How many messages there are by the class of their types."""
    return collections.Counter(text[:2] for text in texts)


def refusing(run):
    made = list(filter(threads.is_answered, requests.crowd(run.chosen, run.limit, 300)))
    give = run.input_of(made)
    # (units of 512 bytes: a new journal has 528 of them, and the log of changes begins anew after some 1,000)
    limited = ["sh", "-c", f"trap '' XFSZ; ulimit -f {run.chosen.randrange(540, 1000)}; exec \"$@\"", "sh"]
    came = run.ran(lambda words: give([*limited, *words]), *run.threads, "--trace")
    *lines, last = came.stderr.decode().split("\n")[:-1]
    wanted = f"cardswitch: {run.journal}: {texts.REFUSED}"
    need(came.status == 3, f"status: wanted 3, came {came.status}")
    need(last == wanted, f"wanted that {wanted!r} is reported, came {last!r}")
    offered = sum(line.startswith("offer ") for line in lines)
    its = threads.Run(Switch(run.flow, run.limit, run.sessions), made[:offered])
    its.follow(lines)
    first = its.switch.responses()
    need(came.stdout.startswith(first), "the responses of whole legs do not come first")
    later = made[offered:]
    others = by_class(frame[4:] for frame in messages.frames(came.stdout[len(first) :]))
    contexts = [row[-1] for row in journal.read(run.journal).tx.values()]
    unfinished = by_class(next((it for it in later if it in context), b"") for context in contexts if context)
    need(not others + unfinished - by_class(later), f"answered {others} and unfinished {unfinished} of {by_class(later)}")
    return its.most


def plans(count):
    """Kinds of runs, each with the sessions, whether the journal is a file, and how the input comes."""
    for number in range(count):
        its = SESSIONS[number % 4], number // 4 % 2 == 1, WAYS[number // 8 % 4]
        yield from ((apart, *its), (crowd, *its))
    for number in range(count // 2):
        yield ends, 4, number // 2 % 2 == 1, WAYS[number % 2]
    yield from [(refusing, 16, True, on_open_pipe)] * 2
    yield crush, 16, False, on_file


def judged(kind, run):
    """What is wrong with a run, if anything, and how many transactions were under way at once."""
    try:
        return None, kind(run)
    except (Broken, ValueError, sqlite3.Error) as wrong:
        return f"$ {' '.join(run.command)}\n{wrong}", 0


def started(room, pool, given):
    """The runs whose names have the word, by their names."""
    for number, (kind, sessions, has_file, way) in enumerate(plans(given.count)):
        name = f"{kind.__name__} {number}: {sessions} sessions, {'a file' if has_file else 'memory'}, {way.__name__}"
        if given.word in name:
            run = Run(room, random.Random(f"{given.seed} {number}"), sessions, has_file, way)
            yield name, pool.submit(judged, kind, run)


def arguments():
    """The words of the command line."""
    parser = argparse.ArgumentParser(description="Runs the built program with threads.")
    parser.add_argument("word", nargs="?", default="", help="only runs whose name has this word")
    parser.add_argument("--seed", type=int, default=random.SystemRandom().randrange(10**9))
    parser.add_argument("--count", type=int, default=32, help="how many of apart and of crowd; default 32")
    parser.add_argument("--program", default=BUILT)
    return parser.parse_args()


def main():
    given = arguments()
    if not os.access(given.program, os.X_OK):
        sys.exit(f"there is no program {given.program}: ./test builds it, or name one by --program")
    began, failed, mosts = time.monotonic(), 0, [0]
    with tempfile.TemporaryDirectory() as path, ThreadPoolExecutor(os.cpu_count() or 2) as pool:
        runs = [*started(Room(given.program, path), pool, given)]
        if not runs:
            sys.exit(f"threads.py: no run has {given.word!r} in its name")
        for name, running in runs:
            wrong, most = running.result()
            mosts.append(most)
            failed += bool(wrong)
            if wrong:
                print(f"FAILED {name}, of --seed {given.seed} --count {given.count}\n{wrong}\n")
    print(f"{time.monotonic() - began:.1f} seconds; runs of --seed {given.seed}; at most {max(mosts)} transactions under way at once")
    print(f"{len(mosts) - 1 - failed} passed, {failed} failed")
    return 1 if failed else 0


if __name__ == "__main__":
    sys.exit(main())
