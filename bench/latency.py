"""What `bench/hosts.py --latency` measures: a host that answers each request by itself some time after it came, and many requests at once."""

import collections
import contextlib
import os
import select
import statistics
import subprocess
import sys
import tempfile
import threading
import time

import run
from threads import in_turns, talk

sys.path.insert(0, os.path.join(run.TOP, "examples", "hosts"))
import host  # noqa: E402

CONFIG = """
[[host]]
name = "alpha"
to = "alpha.to"
from = "alpha.from"
timeout_ms = 60000
in_flight = {in_flight}

[[host]]
name = "beta"
simulated = true
"""


class Delayed(threading.Thread):
    """A host that answers each message this many seconds after it came, whatever else is under way. (Each pipe is opened for reading
    and writing, so that no opening waits.)"""

    def __init__(self, room, seconds):
        super().__init__(daemon=True)
        self.seconds, self.over, self.bytes = seconds, False, b""
        # The answers with the times at which they are due, and how many there were at most.
        self.due, self.most = collections.deque(), 0
        for path in f"{room}/alpha.to", f"{room}/alpha.from":
            os.mkfifo(path)
        self.reads, self.writes = (os.open(f"{room}/alpha.{it}", os.O_RDWR) for it in ("to", "from"))

    def run(self):
        while not self.over:
            wait = max(self.due[0][0] - time.perf_counter(), 0) if self.due else 0.1
            if select.select([self.reads], [], [], wait)[0]:
                self.bytes += os.read(self.reads, 65_536)
            self.take()
            self.answer()

    def take(self):
        """Takes the messages that have come."""
        due = time.perf_counter() + self.seconds
        while len(self.bytes) >= 4 and len(self.bytes) >= (size := 4 + int(self.bytes[:4])):
            frame, self.bytes = self.bytes[:size], self.bytes[size:]
            self.due.append((due, host.answer(*host.read(frame[4:]))))
        self.most = max(self.most, len(self.due))

    def answer(self):
        """Gives the answers that are due."""
        now = time.perf_counter()
        while self.due and self.due[0][0] <= now:
            os.write(self.writes, self.due.popleft()[1])

    def end(self):
        self.over = True
        self.join()
        for end in self.reads, self.writes:
            os.close(end)


@contextlib.contextmanager
def delayed(room, seconds):
    its = Delayed(room, seconds)
    its.start()
    try:
        yield its
    finally:
        its.end()


def answered(stream, count):
    """Reads this many responses. Each has to be the host's own: its approval code is the request's STAN (host.py)."""
    came = b""
    while count:
        piece = os.read(stream.fileno(), 65_536)
        assert piece, "the run has ended early"
        came += piece
        while len(came) >= 4 and len(came) >= (size := 4 + int(came[:4])):
            _, fields = host.read(came[4:size])
            assert fields.get(38) == fields[11], "the switch stood in, or declined"
            came, count = came[size:], count - 1


def measured(given, frame, in_flight, count):
    """The requests a second of a run, and how many were under way at the host at most."""
    words = [os.path.abspath(given.program), "run", "--flow", run.EXAMPLE, "--config", "config.toml"]
    words += ["--threads", "--sessions", str(given.sessions)]
    streams = {"stdin": subprocess.PIPE, "stdout": subprocess.PIPE, "bufsize": 0}
    with tempfile.TemporaryDirectory(dir=given.folder) as room, delayed(room, given.latency / 1e3) as alpha:
        with open(f"{room}/config.toml", "w", encoding="utf-8") as it:
            it.write(CONFIG.format(in_flight=in_flight))
        words += ["--journal", "journal.db"] if given.folder else []
        with subprocess.Popen(words, cwd=room, **streams) as process:
            # (one is sent first, while the program starts and opens the pipes)
            collections.deque(talk(process, collections.deque([frame(0, False)]), 1), maxlen=0)
            text = b"".join(frame(number, False) for number in range(1, count + 1))
            began = time.perf_counter()
            # (what a pipe does not hold is written while responses are read)
            feeder = threading.Thread(target=process.stdin.write, args=(text,), daemon=True)
            feeder.start()
            answered(process.stdout, count)
            rate = count / (time.perf_counter() - began)
            feeder.join()
            process.stdin.close()
            assert process.wait() == 0, process.returncode
        return rate, alpha.most


def table(given, frame):
    """The rows of the table, of which the first is its head."""
    counts = {1: max(given.count // given.in_flight, 1), given.in_flight: given.count}
    found = in_turns(given.rounds, counts, lambda side: measured(given, frame, side, counts[side]))
    yield f"a host of {given.latency} ms", [f"in_flight = {side}, {count:,} requests" for side, count in counts.items()]
    rates = {side: statistics.median(rate for rate, _ in its) for side, its in found.items()}
    yield "requests a second", [f"{rate:,.1f} ({rate / rates[1]:.2f})" for rate in rates.values()]
    yield "most under way at the host at once", [str(max(most for _, most in its)) for its in found.values()]
