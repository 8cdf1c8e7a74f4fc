#!/usr/bin/env python3
"""Commits a second of the journal and of SQLite's C library, side by side in one run.

Run from the top of the repository after `(cd crates/test_bench && rt run)`, which leaves the program in
crates/test_bench/out/test_bench. Both sides run the same statements: a transaction is taken (next id and a row with
a context of 64 bytes are put), and the next entry drops its row. Each commit is synced on a file (WAL, synchronous FULL);
in memory nothing is. The sides take turns, and the best of each counts.
"""
import os
import sqlite3
import subprocess
import sys
import tempfile
import time

PROGRAM = "crates/test_bench/out/test_bench"
ROUNDS = 3
SCHEMA = """
CREATE TABLE meta (k INTEGER PRIMARY KEY NOT NULL, v INTEGER NOT NULL) STRICT;
CREATE TABLE tx (id INTEGER PRIMARY KEY NOT NULL, phase INTEGER NOT NULL, told INTEGER NOT NULL, doing TEXT NOT NULL,
  tries INTEGER NOT NULL, context BLOB NOT NULL) STRICT;
CREATE TABLE member (id INTEGER NOT NULL REFERENCES tx (id) ON DELETE CASCADE, place INTEGER NOT NULL, name TEXT NOT NULL,
  PRIMARY KEY (id, place)) STRICT;
CREATE TABLE shelf (id INTEGER PRIMARY KEY NOT NULL, tries INTEGER NOT NULL, context BLOB NOT NULL) STRICT;
CREATE TABLE advice (id INTEGER NOT NULL, place INTEGER NOT NULL, body BLOB NOT NULL, PRIMARY KEY (id, place)) STRICT;
CREATE TABLE part (n INTEGER PRIMARY KEY NOT NULL, name TEXT NOT NULL UNIQUE) STRICT;
CREATE TABLE joined (id INTEGER NOT NULL REFERENCES tx (id) ON DELETE CASCADE, place INTEGER NOT NULL,
  part INTEGER NOT NULL REFERENCES part (n), PRIMARY KEY (id, place)) STRICT;
INSERT INTO meta VALUES (1, 2), (2, 1);
"""

ADD_ROW = "INSERT INTO tx VALUES (?1, ?2, ?3, ?4, ?5, ?6)"


def write_entry(run, n):
    row = n // 2 + 1
    if n % 2 == 0:
        run("UPDATE meta SET v = ?2 WHERE k = ?1", (2, row + 1))
        run(ADD_ROW, (row, 0, 0, "check", 0, bytes(64)))
    else:
        run("DELETE FROM tx WHERE id = ?", (row,))


def c_library(path, commits, entries):
    """The seconds of these commits, each of this many entries, through Python's sqlite3."""
    conn = sqlite3.connect(path, isolation_level=None)
    conn.execute("PRAGMA foreign_keys = ON")
    if path != ":memory:":
        conn.execute("PRAGMA journal_mode = WAL")
        conn.execute("PRAGMA synchronous = FULL")
    conn.executescript(SCHEMA)
    start = time.perf_counter()
    for commit in range(commits):
        conn.execute("BEGIN")
        for n in range(commit * entries, (commit + 1) * entries):
            write_entry(conn.execute, n)
        conn.execute("COMMIT")
    took = time.perf_counter() - start
    conn.close()
    return took


def journal(path, commits, entries):
    """The seconds of the same through the journal, less those of a run without commits."""
    def run(count):
        start = time.perf_counter()
        done = subprocess.run([PROGRAM, "journal", path(), str(count), str(entries)], capture_output=True)
        if done.returncode != 0:
            sys.exit(done.stderr.decode())
        return time.perf_counter() - start
    return run(commits) - run(0)


def measure(name, commits, entries, room):
    ours, theirs = [], []
    for turn in range(ROUNDS):
        if name == "memory":
            ours.append(journal(lambda: "memory", commits, entries))
            theirs.append(c_library(":memory:", commits, entries))
        else:
            count = iter(range(2))
            ours.append(journal(lambda: os.path.join(room, f"ours-{entries}-{turn}-{next(count)}"), commits, entries))
            theirs.append(c_library(os.path.join(room, f"theirs-{entries}-{turn}"), commits, entries))
    own, other = commits / min(ours), commits / min(theirs)
    print(f"{name}, {entries:2} entries a commit: {own:9.0f} commits a second, C library {other:9.0f}, ratio {own / other:.2f}")


def main():
    if not os.access(PROGRAM, os.X_OK):
        sys.exit(f"there is no program {PROGRAM}: build it by `(cd crates/test_bench && rt run)`")
    with tempfile.TemporaryDirectory(dir=".") as room:
        for entries in (1, 16):
            measure("memory", 20_000 // entries, entries, room)
            measure("file", 2_000 // entries, entries, room)


if __name__ == "__main__":
    main()
