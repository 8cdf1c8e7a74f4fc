#!/usr/bin/env python3
"""Times `cardswitch run`: authorizations a second, over a journal in memory and on a file, and what they take.

    bench/run.py [--program PATH] [--requests N]

Two flows are timed: the smallest one (limits, an issuer, the response: five commits an authorization), and that of
examples/ (thirteen). Beside each, in the same run, SQLite's C library (through Python's sqlite3) makes the commits of as
many transactions in a journal of the same tables, WAL and synchronous FULL on the file: the rows of one approved
authorization, a commit for each of its entries, with the same statements; on a file once with pages of its default size
(4,096 bytes), and once with those of a journal (512). Then the time and the memory of 1,000, 10,000 and 100,000 requests,
in memory.
"""

import argparse
import os
import sqlite3
import statistics
import subprocess
import sys
import tempfile
import time

TOP = os.path.dirname(os.path.dirname(os.path.abspath(__file__)))
BUILT = os.path.join(TOP, "crates", "cardswitch", "out", "cardswitch")
EXAMPLE = os.path.join(TOP, "examples", "switch.toml")
LEAST = """
[[group]]
name = "main"
entry = [{ participant = "limits" }, { participant = "query_alpha" }, { participant = "respond", abort_aware = true }]
"""
TABLES = """
CREATE TABLE meta (k INTEGER PRIMARY KEY NOT NULL, v INTEGER NOT NULL) STRICT;
CREATE TABLE tx (id INTEGER PRIMARY KEY NOT NULL, phase INTEGER NOT NULL, told INTEGER NOT NULL, doing TEXT NOT NULL,
    tries INTEGER NOT NULL, context BLOB NOT NULL) STRICT;
CREATE TABLE member (id INTEGER NOT NULL REFERENCES tx ON DELETE CASCADE, place INTEGER NOT NULL, name TEXT NOT NULL,
    PRIMARY KEY (id, place)) STRICT;
CREATE TABLE part (n INTEGER PRIMARY KEY NOT NULL, name TEXT NOT NULL UNIQUE) STRICT;
CREATE TABLE joined (id INTEGER NOT NULL REFERENCES tx ON DELETE CASCADE, place INTEGER NOT NULL,
    part INTEGER NOT NULL REFERENCES part, PRIMARY KEY (id, place)) STRICT;
INSERT INTO meta VALUES (1, 2), (2, 1);
"""
ADD_ROW = "INSERT INTO tx VALUES (?1, ?2, ?3, ?4, 0, ?5)"
CHANGE_ROW = "UPDATE tx SET phase = ?2, told = ?3, doing = ?4, tries = 0, context = ?5 WHERE id = ?1"
ADD_PART = "INSERT INTO part VALUES (?1, ?2)"
ADD_MEMBER = "INSERT INTO joined VALUES (?1, ?2, ?3)"
# The row of an approved authorization after each of its entries but the last, which drops it: phase, members, told, doing,
# and the bytes of its context.
LEAST_ROWS = [
    (0, [], 0, "limits", 94),
    (0, ["limits"], 0, "query_alpha", 94),
    (0, ["limits"], 0, "respond", 122),
    (2, ["limits"], 0, "", 224),
]
EXAMPLE_ROWS = [
    (0, [], 0, "check", 94),
    (0, [], 0, "limits", 94),
    (0, ["limits"], 0, "route", 94),
    (0, ["limits"], 0, "", 94),
    (0, ["limits"], 0, "reverse", 94),
    (0, ["limits", "reverse"], 0, "query_alpha", 94),
    (0, ["limits", "reverse"], 0, "standin", 122),
    (0, ["limits", "reverse"], 0, "forward", 122),
    (0, ["limits", "reverse", "forward"], 0, "respond", 122),
    (2, ["limits", "reverse", "forward"], 0, "", 224),
    (2, ["limits", "reverse", "forward"], 1, "", 224),
    (2, ["limits", "reverse", "forward"], 2, "", 224),
]
# The sides take turns, ours first in every other turn. The time of a sync varies, and so does what a shared machine gives, by
# half within a minute: the best and the median of each side are printed, and the median and quartiles of the turns' ratios.
ROUNDS = 15


def requests(count):
    """This many approved authorizations, each with a card of its own."""
    made = []
    for number in range(count):
        card = b"4%015d" % number
        made.append(b"00830100722000000080800016" + card + b"000000" + b"000000000100" + b"0102030405")
        made.append(b"%06d" % (number % 1_000_000) + b"TERM0001978")
    return b"".join(made)


def timed(command, count, environment=None):
    """The seconds of a command on this many requests, and its peak memory in kilobytes."""
    with tempfile.TemporaryFile() as given, tempfile.TemporaryFile() as made:
        given.write(requests(count))
        given.seek(0)
        began = time.monotonic()
        process = subprocess.Popen(command, stdin=given, stdout=made, env=environment)
        _, status, used = os.wait4(process.pid, 0)
        process.returncode = status
        took = time.monotonic() - began
        made.seek(0)
        out = made.read()
    assert status == 0 and out.count(b"TERM0001") == count, (status, out[:200])
    return took, used.ru_maxrss


def run(program, flow, count, journal=None):
    """The same for a run with this flow."""
    return timed([program, "run", "--flow", flow] + (["--journal", journal] if journal else []), count)


def commits(rows, count, path, page=4096):
    """The seconds of SQLite's C library for the commits of this many authorizations with these rows."""
    journal = sqlite3.connect(path, isolation_level=None)
    journal.execute(f"PRAGMA page_size = {page}")
    journal.execute("PRAGMA journal_mode = WAL")
    journal.execute("PRAGMA synchronous = FULL")
    journal.execute("PRAGMA foreign_keys = ON")
    journal.executescript(TABLES)
    parts = {}
    began = time.monotonic()
    for number in range(1, count + 1):
        joined = 0
        for place, (phase, members, told, doing, context) in enumerate(rows):
            journal.execute("BEGIN")
            if place == 0:
                journal.execute("UPDATE meta SET v = ?2 WHERE k = ?1", (2, number + 1))
            put = CHANGE_ROW if place else ADD_ROW
            journal.execute(put, (number, phase, told, doing, bytes(context)))
            if len(members) > joined:
                name = members[joined]
                if name not in parts:
                    parts[name] = len(parts)
                    journal.execute(ADD_PART, (parts[name], name))
                journal.execute(ADD_MEMBER, (number, joined, parts[name]))
                joined += 1
            journal.execute("COMMIT")
        journal.execute("DELETE FROM tx WHERE id = ?", (number,))
    return time.monotonic() - began


def turn_of(program, flow, rows, count, room, turn):
    """The seconds of both sides in a turn: ours, the C library's, and on files the C library's with pages of 512 bytes."""
    sides = [
        ("ours", lambda: run(program, flow, count, room and f"{room}/ours-{turn}.db")[0]),
        ("theirs", lambda: commits(rows, count, f"{room}/theirs-{turn}.db" if room else ":memory:")),
    ]
    if room:
        sides.append(("small", lambda: commits(rows, count, f"{room}/small-{turn}.db", 512)))
    return {side: seconds() for side, seconds in (sides if turn % 2 else reversed(sides))}


def compare(name, program, flow, rows, count, room):
    """Prints both sides' authorizations a second, over files of the room or in memory."""
    turns = [turn_of(program, flow, rows, count, room, turn) for turn in range(ROUNDS)]
    for of, side in ("", "theirs"), (" on pages of 512 bytes", "small"):
        if side not in turns[0]:
            continue
        for kind, pick in ("best  ", min), ("middle", statistics.median):
            own, other = (count / pick([turn[it] for turn in turns]) for it in ("ours", side))
            print(f"{name}, {kind}: {own:7.0f} authorizations a second, C SQLite's commits{of} {other:7.0f}, ratio {own / other:.2f}")
        ratios = [turn[side] / turn["ours"] for turn in turns]
        low, middle, high = statistics.quantiles(ratios, n=4)
        print(f"{name}, ratio of each turn to C SQLite's commits{of}: middle {middle:.2f}, half of them {low:.2f} to {high:.2f}")


def main():
    parser = argparse.ArgumentParser(description="Times cardswitch run.")
    parser.add_argument("--program", default=BUILT)
    parser.add_argument("--requests", type=int, default=1000)
    given = parser.parse_args()
    with tempfile.TemporaryDirectory(dir=TOP) as room:
        least = os.path.join(room, "least.toml")
        with open(least, "w", encoding="utf-8") as it:
            it.write(LEAST)
        for name, flow, rows in (("five commits", least, LEAST_ROWS), ("thirteen", EXAMPLE, EXAMPLE_ROWS)):
            with tempfile.TemporaryDirectory(dir=TOP) as files:
                compare(f"{name}, file  ", given.program, flow, rows, given.requests, files)
            compare(f"{name}, memory", given.program, flow, rows, given.requests, None)
            for count in (1_000, 10_000, 100_000):
                took, most = run(given.program, flow, count)
                print(f"{count:7} requests in memory: {took:7.2f} s, {count / took:8.0f} a second, at most {most / 1024:6.0f} MB")


if __name__ == "__main__":
    sys.exit(main())
