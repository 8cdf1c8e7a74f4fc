#!/usr/bin/env python3
"""Prints the rows of all tables of a journal's file, as SQLite's own library reads them.

    tables PATH

A line for each row: the table's name and the values, in the order of the table's key; bytes as hexadecimal digits. In
layout 2 the table `member` of layout 1 is shown too if it has rows, which it never should.
"""

import contextlib
import sqlite3
import sys

KEYS = {
    "meta": "k",
    "part": "n",
    "tx": "id",
    "member": "id, place",
    "joined": "id, place",
    "shelf": "id",
    "advice": "id, place",
}


def shown(value):
    return value.hex() if isinstance(value, bytes) else str(value)


def lines(path):
    """The lines of a journal's file."""
    with contextlib.closing(sqlite3.connect(f"file:{path}?mode=ro", uri=True)) as journal:
        for (fault,) in journal.execute("PRAGMA integrity_check"):
            if fault != "ok":
                yield f"integrity: {fault}"
        there = {name for (name,) in journal.execute("SELECT name FROM sqlite_master WHERE type = 'table'")}
        for table, key in KEYS.items():
            if table in there:
                for row in journal.execute(f"SELECT * FROM {table} ORDER BY {key}"):
                    yield " ".join([table, *map(shown, row)])


if __name__ == "__main__":
    for line in lines(sys.argv[1]):
        print(line)
