#!/usr/bin/env python3
"""Kills `cardswitch run` at random moments of a run on a journal's file, and starts it again on the rest of the requests.

    tests/kills.py [--threads [--unordered]] [--seed N] [--count N] [--program PATH]

With --threads the runs have 8 sessions as threads, and the requests come in pieces: a kill may leave
several transactions unfinished. With --unordered their responses leave as they end; without it, in the order of requests. After each kill, and at the end, SQLite's own library reads the journal. After each kill: no
transaction whose response was read is unfinished, so that no later run aborts it; a stored reversal is of a request that got no
response, or whose issuer is silent; no row is at fault, and what `recover` prints and leaves, on a copy, is what the plain model
makes of the rows. No id is given twice, and an advice that a kill leaves stays in the journal until a run has answered all requests. That run
delivers as many advices as were stored before it and in it. At the end every row is gone and the file is sound.
"""

import argparse
import contextlib
import glob
import os
import random
import re
import shutil
import sqlite3
import subprocess
import sys
import tempfile
import time

sys.dont_write_bytecode = True

from harness import inputs  # noqa: E402
from harness.case import difference  # noqa: E402
from model import flows, journal, messages, stops  # noqa: E402
from model.engine import Engine  # noqa: E402
from model.switch import Participants  # noqa: E402

TOP = os.path.dirname(os.path.dirname(os.path.abspath(__file__)))
BUILT = os.path.join(TOP, "crates", "cardswitch", "out", "cardswitch")
FLOW = os.path.join(TOP, "examples", "switch.toml")
REQUESTS, SESSIONS, KILLS = 60, 8, 6
# What a run's last line says of advices: how many were stored in it, and how many were delivered.
ADVICES = re.compile(rb" advices-stored=(\d+) advices-delivered=(\d+) ")


def frames(chosen):
    """The frames of REQUESTS authorizations, some with a silent issuer; and the numbers of these."""
    made, silent = [], set()
    for number in range(REQUESTS):
        last = chosen.choice([0, 0, 0, 5, 91])
        silent |= {number} if last == 91 else set()
        text = b"0100" + b"7220000000808000" + b"164" + b"%015d" % number + b"000000" + b"%012d" % (100 + last)
        made.append(b"0083" + text + b"0102030405" + b"%06d" % number + b"TERM0001978")
    return made, silent


def number_of(response):
    """Which request a response answers: its STAN."""
    return int(messages.decode(response[4:])[1][11])


def pieces(chosen, made):
    """These frames in pieces of 1 to 16."""
    at = 0
    while at < len(made):
        count = chosen.randint(1, 16)
        yield b"".join(made[at : at + count])
        at += count


@contextlib.contextmanager
def copied(path):
    """A copy of the journal; the journal itself stays as it is."""
    with tempfile.TemporaryDirectory() as room:
        for name in glob.glob(glob.escape(path) + "*"):
            shutil.copy(name, room)
        yield os.path.join(room, os.path.basename(path))


def tables_of(path):
    """The journal's tables, or None if it is not made yet. A run that is killed before that may leave a file that is no
    database, if there is a file of an earlier kill beside it (see `journal_file.rt`); the next run accepts it."""
    try:
        with copied(path) as copy:
            return journal.read(copy)
    except sqlite3.DatabaseError as error:
        if "not a database" in str(error) or "no such table: meta" in str(error):
            return None
        raise


def answer_faults(tables, answered, silent):
    """What is wrong with the rows, given what was answered: ids begin with 1, one for each request."""
    for number in tables.tx:
        if number - 1 in answered:
            yield f"transaction {number} was answered and is unfinished"
    for (number, _), body in tables.advice.items():
        if body[:3] == b"042" and number - 1 in answered and answered[number - 1] not in silent:
            yield f"transaction {number} was answered and is reversed"


def recovery_faults(program, tables, path):
    """What is wrong with a recovery of a copy."""
    with open(FLOW, "rb") as file:
        engine = Engine(flows.read_flow(file.read()), 1, Participants(0))
    engine.written = journal.view(journal.turned(tables) if tables.layout == 1 else tables)
    # (without the first and the last line, which show what a recovery finds and leaves)
    wanted = "".join(f"{line}\n" for line in [*stops.recovery_lines(engine)][1:-1]).encode()
    with copied(path) as copy:
        command = [program, "recover", "--flow", FLOW, "--journal", copy]
        ran = subprocess.run(command, stdout=subprocess.PIPE, check=False)
        if ran.returncode != 0 or ran.stdout != wanted:
            yield f"recover ended with {ran.returncode}\n{difference('its lines', wanted, ran.stdout)}"
        after = journal.read(copy)
    if after.tx or after.advice != engine.now.advices:
        yield f"recover left {after}"


def faults_of(program, tables, path, answered, silent):
    """What is wrong with the journal after a kill."""
    if tables is None:
        if answered:
            yield "the journal of what was answered is gone"
    elif bad := journal.fault(tables):
        yield f"a row is at fault: {bad}"
    else:
        yield from answer_faults(tables, answered, silent)
        yield from recovery_faults(program, tables, path)


def lost_faults(before, after, has_answered_all, told):
    """What is wrong with the ids and advices that the journal had before a run."""
    if before is None:
        return
    if after is None or after.meta[2] < before.meta[2]:
        yield f"the next id was {before.meta[2]}, and is {after and after.meta[2]}"
    elif not has_answered_all:
        yield from (f"the advice {its} is gone, and was not sent" for its in before.advice if its not in after.advice)
    elif found := ADVICES.search(told):
        given, sent = int(found[1]), int(found[2])
        if sent != len(before.advice) + given:
            yield f"{sent} advices were delivered of {len(before.advice)} and {given} more"


def soundness_faults(path):
    """What is wrong with the file as a database."""
    with copied(path) as copy, contextlib.closing(sqlite3.connect(copy)) as database:
        if database.execute("PRAGMA integrity_check").fetchall() != [("ok",)]:
            yield "the file is not sound"


def end_faults(path):
    """What is wrong with the journal at the end."""
    tables = tables_of(path)
    if tables.tx or tables.advice:
        yield "at the end a row or an advice is left"
    yield from soundness_faults(path)


def ran(chosen, given, path, made, seconds=None):
    """What comes of a run on these frames, killed after this many seconds, if any."""
    command = [given.program, "run", "--flow", FLOW, "--journal", path, "--stats"]
    command += ["--threads", "--sessions", str(SESSIONS)] * given.threads + ["--unordered"] * given.unordered
    given_in = [*pieces(chosen, made)] if given.threads else [b"".join(made)]
    return inputs.run_in_packets(command, given_in, seconds, {})


def whole(given, room):
    """The seconds of a run that is not killed."""
    chosen, began = random.Random(0), time.monotonic()
    ran(chosen, given, os.path.join(room, "whole.db"), frames(chosen)[0])
    return time.monotonic() - began


def one(chosen, given, room, most, left):
    """One journal, with runs that are killed, each after at most this many seconds, until one ends. How many transactions each
    kill leaves is added to `left`."""
    made, silent = frames(chosen)
    path = os.path.join(room, f"{chosen.random()}.db")
    answered, rest, kills, status, tables = {}, [*range(len(made))], 0, None, None
    while status is None:
        first = tables.meta[2] if tables else 1
        seconds = chosen.uniform(0.001, most) if kills < KILLS else None
        out, told, status = ran(chosen, given, path, [made[number] for number in rest], seconds)
        found = [*map(number_of, messages.frames(out))]
        if not given.unordered and found != rest[: len(found)]:
            yield f"the responses {found} are not in the order of the requests {rest}"
        answered |= {first - 1 + rest.index(number): number for number in found}
        before, kills, tables = tables, kills + 1, tables_of(path)
        rest = [number for number in rest if number not in found]
        yield from faults_of(given.program, tables, path, answered, silent)
        yield from lost_faults(before, tables, not rest, told)
        left += [len(tables.tx)] if tables and status is None else []
    if status != 0:
        yield f"it ended with {status}: {told.decode()}"
    yield from end_faults(path)


def arguments():
    """The words of the command line."""
    parser = argparse.ArgumentParser(description="Kills runs of the program.")
    parser.add_argument("--threads", action="store_true", help="runs with sessions as threads")
    parser.add_argument("--unordered", action="store_true", help="with --threads, responses leave as transactions end")
    parser.add_argument("--seed", type=int, default=random.SystemRandom().randrange(10**9))
    parser.add_argument("--count", type=int, default=20, help=f"how many journals; each has up to {KILLS} kills")
    parser.add_argument("--program", default=BUILT)
    return parser.parse_args()


def main():
    given = arguments()
    began, failed, left = time.monotonic(), 0, []
    with tempfile.TemporaryDirectory() as room:
        most = whole(given, room) / 3
        for number in range(given.count):
            faults = list(one(random.Random(given.seed + number), given, room, most, left))
            for fault in faults:
                words = "--threads " * given.threads + "--unordered " * given.unordered
                print(f"FAILED kills {words}--seed {given.seed + number} --count 1: {fault}")
            failed += bool(faults)
    several = sum(count > 1 for count in left)
    print(f"{time.monotonic() - began:.1f} seconds; kills of --seed {given.seed}")
    print(f"{len(left)} kills of a journal that was made, {sum(map(bool, left))} with something unfinished, {several} with several")
    print(f"{given.count - failed} passed, {failed} failed")
    return 1 if failed else 0


if __name__ == "__main__":
    sys.exit(main())
