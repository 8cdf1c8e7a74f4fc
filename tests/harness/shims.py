"""Libraries in C, loaded before the C library (LD_PRELOAD), that count calls of a program and make one of them fail."""

import os
import shutil
import subprocess
import sys
from dataclasses import dataclass

SHIMS = os.path.join(os.path.dirname(os.path.dirname(os.path.abspath(__file__))), "shims")
SECONDS = 60


@dataclass
class Ran:
    """What came of a run: both streams, the status (None: it had not ended), and how many calls were counted."""

    stdout: bytes
    stderr: bytes
    status: int
    calls: int


class Shim:
    """A library of tests/shims, compiled into a folder. `prefix` begins the names of the variables that it reads."""

    def __init__(self, name, prefix, room):
        self.path, self.prefix, self.room, self.number = f"{room}/{name}.so", prefix, room, 0
        subprocess.run(["cc", "-O2", "-shared", "-fPIC", "-o", self.path, f"{SHIMS}/{name}.c"], check=True)

    def environment(self, at=0, goes_on=False, **more):
        """The variables of such a command, and the file in which it counts its calls."""
        self.number += 1
        counts = f"{self.room}/{self.number}.count"
        its = {"AT": str(at), "COUNT": counts} | ({"ON": "1"} if goes_on else {}) | more
        return os.environ | {"LD_PRELOAD": self.path} | {f"{self.prefix}_{key}": value for key, value in its.items()}, counts

    def run(self, words, stdin, at=0, goes_on=False, **more):
        """Runs a command in which the call of this number fails (0: none), or all from that one on."""
        environment, counts = self.environment(at, goes_on, **more)
        try:
            came = subprocess.run(words, input=stdin, capture_output=True, env=environment, timeout=SECONDS, check=False)
        except subprocess.TimeoutExpired:
            return Ran(b"", b"", None, 0)
        with open(counts, "rb") as it:
            calls = int.from_bytes(it.read(), sys.byteorder)
        os.remove(counts)
        return Ran(came.stdout, came.stderr, came.returncode, calls)


def skip_without_compiler(what):
    """Ends the program, with counts of 0, if there is no C compiler."""
    if not shutil.which("cc"):
        print(f"skipped: {what} need a C compiler, `cc`")
        print("0 passed, 0 failed")
        sys.exit(0)


def spread(chosen, count, most):
    """`most` numbers from 1 to `count`, spread evenly, each drawn at random within its share; all, if there are no more."""
    if count <= most:
        return list(range(1, count + 1))
    return sorted({chosen.randint(share * count // most + 1, (share + 1) * count // most) for share in range(most)})


def plain(words, stdin):
    """What comes of a command without a shim."""
    return subprocess.run(words, input=stdin, capture_output=True, timeout=SECONDS, check=False)
