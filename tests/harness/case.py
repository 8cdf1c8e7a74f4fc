"""A case, how the program is run on it, and what is wrong with what came."""

import difflib
import os
import resource
import shutil
import tempfile
from dataclasses import dataclass, field

from harness import inputs

# Long enough for recoveries that are cut at each of their calls, on a busy machine.
SECONDS = 300
HERE = os.path.dirname(os.path.abspath(__file__))
# What prints the tables of a journal's file; and SQLite's command-line program, for the examples of pages.
TABLES, SQL_SHELL = os.path.join(HERE, "tables.py"), os.path.join(HERE, "sql_shell.py")
CRATES = os.path.join(HERE, "..", "..", "crates")
# The programs for tests that are on PATH beside cardswitch.
BESIDE = ("test_switch",)


class Exactly:
    """The whole text of a stream."""

    def __init__(self, text):
        self.text = text

    def wrong(self, name, came):
        if came == self.text:
            return None
        return difference(name, self.text, came)


class Begins(Exactly):
    """How a stream begins; what follows is free."""

    def wrong(self, name, came):
        if came.startswith(self.text):
            return None
        return difference(f"{name}, of which only the beginning is wanted", self.text, came)


class Lines:
    """Some lines of a stream by their numbers from 1, the greatest being the last line."""

    def __init__(self, lines):
        self.lines = lines

    def wrong(self, name, came):
        lines = came.split(b"\n")
        if lines and not lines[-1]:
            lines.pop()
        wrong = [
            f"{name}, line {number}: wanted {printable(wanted)}\n    came   {printable(at(lines, number))}"
            for number, wanted in sorted(self.lines.items())
            if at(lines, number) != wanted
        ]
        if len(lines) != max(self.lines):
            wrong.append(f"{name}: wanted {max(self.lines)} lines, came {len(lines)}")
        return "\n".join(wrong) or None


def at(lines, number):
    return lines[number - 1] if number <= len(lines) else b"(no line)"


def printable(text):
    """Bytes as text in which each control character and each byte that is not UTF-8 is escaped."""
    text = text.decode("utf-8", "backslashreplace")
    return "".join(c if c >= " " and c != "\x7f" else c.encode("unicode_escape").decode() for c in text)


def difference(name, wanted, came):
    """The lines in which two texts differ, the first forty of them."""
    split = [[printable(line) for line in text.split(b"\n")] for text in (wanted, came)]
    lines = list(difflib.unified_diff(*split, f"{name} wanted", f"{name} came", n=1, lineterm=""))
    more = [f".. and {len(lines) - 40} lines more"] * (len(lines) > 40)
    return "\n".join(lines[:40] + more)


@dataclass
class Came:
    """What came of a case: the two streams (one, if a page shows both), and the status."""

    stdout: bytes
    stderr: bytes
    status: int


@dataclass
class Case:
    """A command line for sh, the program's input and files beside it, and what is wanted."""

    name: str
    command: str
    stdin: bytes = b""
    # The pieces in which the input comes, if it does, one for each read of the program.
    pieces: list = None
    files: dict = field(default_factory=dict)
    stdout: object = None
    stderr: object = None
    status: int = 0
    # Why the case itself is invalid, such as that nothing is expected of it.
    fault: str = None
    # How often it is run at most, until nothing is wrong.
    tries: int = 1
    # For a random case: how to make the case of another input, and the parts that the input may lack, if they are not its lines.
    remake: object = None
    parts: list = None

    def wrong(self, came):
        """What is wrong with what came, or None."""
        if self.fault:
            return self.fault
        if isinstance(came, str):
            return came
        found = []
        if came.status != self.status:
            found.append(f"status: wanted {self.status}, came {came.status}")
        for name, wanted, text in (
            ("standard output", self.stdout, came.stdout),
            ("standard error", self.stderr, came.stderr),
        ):
            wrong = wanted.wrong(name, text) if wanted else None
            if wrong:
                found.append(wrong)
        if not found:
            return None
        return "\n".join([f"$ {self.command}", *self.input_shown(), *found])

    def input_shown(self):
        """The input, or its first 25 lines."""
        given = self.stdin if self.pieces is None else b"|".join(self.pieces)
        lines = [f"< {printable(line[:500])}" for line in given.split(b"\n")] if given else []
        return lines if len(lines) <= 25 else [*lines[:25], f"< .. of {len(given)} bytes"]


def shown(case, came):
    """What came of a case, in the form of a case file."""
    if isinstance(came, str):
        return f"== {case.name}\n{came}"
    parts = [f"== {case.name}", f"$ {case.command}"]
    for name, text in (("stdout", came.stdout), ("stderr", came.stderr)):
        if text:
            parts += [f"-- {name}", "\n".join(printable(line) for line in text.split(b"\n")[:60])]
    parts += [f"-- status {came.status}"] * (came.status != 0)
    return "\n".join(parts) + "\n"


def smallest(program, case):
    """A failing random case, less the parts of its input (as a rule its lines) without which it fails too."""
    parts = case.parts or case.stdin.splitlines(keepends=True)
    remake, at = case.remake, 0
    while at < len(parts) <= 300:
        fewer = parts[:at] + parts[at + 1 :]
        other = remake(b"".join(fewer))
        if other.wrong(program.run(other)):
            case, parts = other, fewer
        else:
            at += 1
    return case


class Program:
    """The built program under the name `cardswitch`, and a folder for the cases to run in."""

    def __init__(self, path):
        self.path = os.path.abspath(path)

    def __enter__(self):
        self.room = tempfile.mkdtemp(prefix="cardswitch-tests-")
        os.makedirs(f"{self.room}/bin")
        os.makedirs(f"{self.room}/empty")
        os.symlink(self.path, f"{self.room}/bin/cardswitch")
        os.symlink(TABLES, f"{self.room}/bin/tables")
        os.symlink(SQL_SHELL, f"{self.room}/bin/sqlite3")
        for name in BESIDE:
            os.symlink(os.path.join(CRATES, name, "out", name), f"{self.room}/bin/{name}")
        path = f"{self.room}/bin:/usr/local/bin:/usr/bin:/bin"
        self.environment = {"PATH": path, "LANG": "C.UTF-8", "TESTS": os.path.dirname(HERE)}
        resource.setrlimit(resource.RLIMIT_CORE, (0, 0))
        return self

    def __exit__(self, *_):
        shutil.rmtree(self.room, ignore_errors=True)

    def run(self, case):
        """What comes of a case, the last time that it is run: a Came, or a text that says why there is none."""
        if case.fault:
            return case.fault
        came = self.run_once(case)
        for _ in range(1, case.tries):
            if case.wrong(came):
                came = self.run_once(case)
        return came

    def run_once(self, case):
        # (a command that only runs the program writes no file)
        is_plain = all(c.isalnum() or c in " _-./=" for c in case.command)
        words = case.command.split(" ") if is_plain else ["sh", "-c", case.command]
        if words[0] == "cardswitch":
            words[0] = f"{self.room}/bin/cardswitch"
        folder = f"{self.room}/empty" if is_plain and not case.files else self.folder_of(case)
        try:
            came = self.run_in(folder, case, words)
            return f"$ {case.command}\nit had not ended after {SECONDS} seconds" if came.status is None else came
        finally:
            if folder != f"{self.room}/empty":
                shutil.rmtree(folder, ignore_errors=True)

    def folder_of(self, case):
        folder = tempfile.mkdtemp(dir=self.room)
        for name, text in case.files.items():
            os.makedirs(os.path.dirname(f"{folder}/{name}"), exist_ok=True)
            with open(f"{folder}/{name}", "wb") as file:
                file.write(text)
        return folder

    def run_in(self, folder, case, words):
        how = {"cwd": folder, "env": self.environment, "start_new_session": True}
        if case.pieces is None:
            return Came(*inputs.run_on_pipe(words, [(0, case.stdin)], SECONDS, how))
        return Came(*inputs.run_in_packets(words, case.pieces, SECONDS, how))
