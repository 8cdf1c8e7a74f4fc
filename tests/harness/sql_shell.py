#!/usr/bin/env python3
"""SQLite's command-line program as far as the pages use it, over SQLite's own library, for machines without it.

    sqlite3 PATH [SQL]

Runs the statements of SQL, or of standard input, and prints a line for each row, its values separated by `|`.
"""

import contextlib
import sqlite3
import sys


def statements(text):
    """The statements of a text, one after the other."""
    begun = ""
    for piece in text.split(";"):
        begun += f"{piece};"
        if sqlite3.complete_statement(begun):
            yield begun
            begun = ""


def shown(value):
    return "" if value is None else value.decode() if isinstance(value, bytes) else str(value)


def main():
    path, *words = sys.argv[1:]
    text = " ".join(words) or sys.stdin.read()
    with contextlib.closing(sqlite3.connect(path, isolation_level=None)) as journal:
        for statement in statements(text):
            for row in journal.execute(statement):
                print("|".join(map(shown, row)))


if __name__ == "__main__":
    main()
