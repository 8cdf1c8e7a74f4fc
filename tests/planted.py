#!/usr/bin/env python3
"""Plants bugs, one at a time in a copy, and wants the tests to fail.

    tests/planted.py [WORD]        all of planted/, or those whose name has these letters

What a contract cannot say (that threads run at once, that no lock is held during a call, that the source is read as it is needed, what
a file has after a stop, what is written after an error) only tests can see. An edit of planted/ is such a bug: `shows` says which, and
`file`, `old` and `new` are as in must-fail/, from the top of the repository. One of two words says what has to fail:

    runs: CRATE                      the tests of this crate
    program: tests/NAME.py WORD ..   this test of the whole program, with these words and `--program`

A test of the whole program also has to pass on the program without an edit, which is built once for all edits. Tests and programs are
built by `rt try`, without proof (harness/tried.py): some minutes each. The last line has the counts; the status is 1 if a bug is
not seen, or if a test fails without one.
"""

import glob
import os
import re
import shutil
import subprocess
import sys
import tempfile
from dataclasses import dataclass, field

sys.dont_write_bytecode = True

from harness import tried  # noqa: E402

TOP = os.path.dirname(os.path.dirname(os.path.abspath(__file__)))
SECONDS = 1200
# The last line of a test.
COUNTS = re.compile(r"^(\d+) passed, (\d+) failed$")


@dataclass
class Edit:
    """What an edit shows, the crate whose tests run or the words of the test of the program, and the changes as (file, old, new)."""

    shows: str = ""
    crate: str = ""
    test: list = field(default_factory=list)
    changes: list = field(default_factory=list)


def read(path):
    edit, file, old = Edit(), None, None
    with open(path, encoding="utf-8") as lines:
        for line in lines.read().split("\n"):
            word, _, rest = line.partition(":")
            rest = rest[1:]
            if word == "shows":
                edit.shows = rest
            elif word == "runs":
                edit.crate = rest.strip()
            elif word == "program":
                edit.test = rest.split()
            elif word == "file":
                file = rest.strip()
            elif word == "old":
                old = rest
            elif word == "new":
                edit.changes.append((file, old, rest))
    return edit


def plant(room, changes):
    for file, old, new in changes:
        path = os.path.join(room, file)
        with open(path, encoding="utf-8") as it:
            text = it.read()
        lines = text.split("\n")
        if lines.count(old) != 1:
            sys.exit(f"tests/planted.py: {file}: {lines.count(old)} lines are {old.strip()!r}: expected one")
        lines[lines.index(old)] = new
        with open(path, "w", encoding="utf-8") as it:
            it.write("\n".join(lines))


def tests_of(room, crate):
    """Whether the crate's tests were run, whether all passed, and what was said."""
    words = ["rt", "try", "--test", "--seconds", "300"]
    try:
        ran = subprocess.run(words, cwd=os.path.join(room, "crates", crate), capture_output=True, text=True, timeout=SECONDS)
    except subprocess.TimeoutExpired:
        return True, False, f"it had not ended after {SECONDS} seconds"
    text = ran.stdout + ran.stderr
    return ran.returncode not in (1, 2, 3) or "FAILED" in text, ran.returncode == 0, text


def test_of(program, words):
    """Whether a test of the whole program was run, whether it passed, and what it said. Its last line has the counts."""
    words = [sys.executable, os.path.join(TOP, words[0]), *words[1:], "--program", program]
    try:
        ran = subprocess.run(words, cwd=TOP, capture_output=True, text=True, errors="replace", timeout=SECONDS)
    except subprocess.TimeoutExpired:
        return True, False, f"it had not ended after {SECONDS} seconds"
    counts = COUNTS.match(ran.stdout.rstrip("\n").rpartition("\n")[2])
    was_run = counts is not None and (int(counts[1]) + int(counts[2])) > 0
    return was_run, ran.returncode == 0, ran.stdout + ran.stderr


def lay(room):
    shutil.copytree(f"{TOP}/crates", f"{room}/crates", ignore=shutil.ignore_patterns("out"))
    for name in "crates.txt", "HANDLES":
        shutil.copy(f"{TOP}/{name}", room)


class Unedited:
    """The program without an edit, and what the tests say of it. Each is made once, when it is needed."""

    def __init__(self, room):
        self.room, self.program, self.said = room, f"{room}/cardswitch", {}

    def fault(self, words):
        """Why this test tells nothing; None if it passes."""
        if not os.path.exists(self.program):
            lay(self.room)
            tried.build(self.room, "cardswitch", self.program)
        if tuple(words) not in self.said:
            was_run, passed, text = test_of(self.program, words)
            self.said[tuple(words)] = None if was_run and passed else f"it fails without the edit:\n{text[-2000:]}"
        return self.said[tuple(words)]


def judge(edit, unedited):
    """Why the tests have not seen the bug; None if they have."""
    with tempfile.TemporaryDirectory() as room:
        lay(room)
        plant(room, edit.changes)
        if edit.crate:
            name = f"the tests of {edit.crate}"
            was_run, passed, text = tests_of(room, edit.crate)
        else:
            name = " ".join(edit.test)
            fault = unedited.fault(edit.test)
            if fault:
                return f"{edit.shows}: {name}: {fault}"
            tried.build(room, "cardswitch", f"{room}/cardswitch")
            was_run, passed, text = test_of(f"{room}/cardswitch", edit.test)
    if not was_run:
        return f"{edit.shows}: {name}: nothing was run:\n{text[-2000:]}"
    return f"{edit.shows}: {name}: all pass" if passed else None


def judged(path, unedited):
    try:
        return judge(read(path), unedited)
    except tried.NotBuilt as why:
        return str(why)


def main():
    word = sys.argv[1] if len(sys.argv) > 1 else ""
    paths = [it for it in sorted(glob.glob(f"{TOP}/tests/planted/*.edit")) if word in os.path.basename(it)]
    if not paths:
        sys.exit(f"planted.py: no edit has {word!r} in its name")
    failed = 0
    with tempfile.TemporaryDirectory() as room:
        unedited = Unedited(room)
        for path in paths:
            why = judged(path, unedited)
            name = os.path.basename(path)
            print(f"{name}: {'not seen: ' + why if why else 'seen'}", flush=True)
            failed += bool(why)
    print(f"{len(paths) - failed} passed, {failed} failed")
    return 1 if failed else 0


if __name__ == "__main__":
    sys.exit(main())
