"""Hosts at the other end of named pipes, the requests that they get, and the run of the switch that asks them."""

import contextlib
import os
import select
import signal
import subprocess
import sys
import threading
import time

from model import messages

EXAMPLES = os.path.join(os.path.dirname(os.path.dirname(os.path.dirname(os.path.abspath(__file__)))), "examples")
HOST = os.path.join(EXAMPLES, "hosts", "host.py")
# How long anything here may take, in seconds.
SECONDS = 20
NETWORK_TEST = messages.encode(b"0800", {11: b"000000", 70: b"301"})


class Wrong(Exception):
    """What is wrong in a case."""


def wanted(what, got, want):
    if got != want:
        raise Wrong(f"{what}: {got!r}, wanted {want!r}")


class Wire:
    """The host's ends of its two named pipes."""

    def __init__(self, room, name):
        self.to, self.back, self.bytes = os.path.join(room, f"{name}.to"), os.path.join(room, f"{name}.from"), b""
        self.reads = self.writes = None
        for path in self.to, self.back:
            os.mkfifo(path)

    def listen(self):
        """The host is there, and reads."""
        self.reads, self.bytes = os.open(self.to, os.O_RDONLY | os.O_NONBLOCK), b""

    def read(self, seconds):
        ready, _, _ = select.select([self.reads], [], [], seconds)
        # (an end that is closed is ready, and the switch may open it again before the read)
        with contextlib.suppress(BlockingIOError):
            return os.read(self.reads, 65_536) if ready else b""
        return b""

    def come(self, seconds):
        """The next message from the switch, if one comes within this many seconds."""
        until = time.monotonic() + seconds
        while time.monotonic() < until:
            if len(self.bytes) >= 4 and len(self.bytes) >= 4 + int(self.bytes[:4]):
                size = 4 + int(self.bytes[:4])
                frame, self.bytes = self.bytes[:size], self.bytes[size:]
                return frame[4:]
            self.bytes += self.read(0.05)
            time.sleep(0.001)
        return None

    def get(self):
        """The next message from the switch."""
        message = self.come(SECONDS)
        if message is None:
            raise Wrong("no message came to the host")
        return message

    def quiet(self, seconds):
        """Nothing comes to the host for this many seconds."""
        wanted("at the host", self.come(seconds) or self.bytes, b"")

    def hung_up(self):
        """The switch closes its end, and nothing comes before."""
        until = time.monotonic() + SECONDS
        while time.monotonic() < until:
            if select.select([self.reads], [], [], 0.05)[0]:
                wanted("before the switch closed", os.read(self.reads, 65_536), b"")
                return
        raise Wrong("the switch did not close its end")

    def put(self, data):
        """Writes to the switch, which may still be opening its end."""
        until = time.monotonic() + SECONDS
        while self.writes is None:
            try:
                self.writes = os.open(self.back, os.O_WRONLY | os.O_NONBLOCK)
            except OSError:
                if time.monotonic() > until:
                    raise Wrong("the switch does not read from its host") from None
                time.sleep(0.005)
        os.write(self.writes, data)

    def cut_off(self):
        """The switch closes the end that it reads; then the host closes its own."""
        poll = select.poll()
        poll.register(self.writes, 0)
        if not poll.poll(1e3 * SECONDS):
            raise Wrong("the switch did not close the end that it reads")
        os.close(self.writes)
        self.writes = None

    def hang_up(self):
        for end in self.reads, self.writes:
            if end is not None:
                os.close(end)
        self.reads = self.writes = None


def request(stan, amount=2500, card=b"4000000000000002"):
    fields = {2: card, 3: b"000000", 4: b"%012d" % amount, 7: b"0102030405", 11: b"%06d" % stan, 41: b"TERM0001", 49: b"978"}
    return messages.encode(b"0100", fields)


def small(stan):
    """A request that the switch approves when it stands in, with a card of its own, so that many of them stay below the limit."""
    return request(stan, 400, b"4%015d" % stan)


def reply(message, code=b"00", auth=b"HOST42"):
    """The host's answer to a message."""
    mti, fields = messages.decode(message)
    told = {it: fields[it] for it in (2, 3, 4, 7, 11, 41, 49) if it in fields}
    if code == b"00" and mti[:2] == b"01" and mti[2:3] == b"0":
        told |= {38: auth}
    return messages.framed(messages.encode(mti[:2] + bytes([mti[2] + 1]) + b"0", told | {39: code}))


class Run:
    """A run of the switch in a folder, with its input open."""

    def __init__(self, program, room, *words):
        command = [program, "run", "--flow", os.path.join(EXAMPLES, "switch.toml"), "--config", "config.toml", *words]
        streams = {"stdin": subprocess.PIPE, "stdout": subprocess.PIPE, "stderr": subprocess.PIPE, "bufsize": 0}
        self.process, self.bytes, self.room = subprocess.Popen(command, cwd=room, **streams), b"", room

    def send(self, message):
        self.process.stdin.write(messages.framed(message))

    def send_batch(self, batch):
        """Sends messages by one write."""
        self.process.stdin.write(b"".join(map(messages.framed, batch)))

    def receive(self):
        """The next response, as its type and fields, and how many seconds it took."""
        began = time.monotonic()
        while time.monotonic() - began < SECONDS:
            if len(self.bytes) >= 4 and len(self.bytes) >= 4 + int(self.bytes[:4]):
                size = 4 + int(self.bytes[:4])
                frame, self.bytes = self.bytes[:size], self.bytes[size:]
                return *messages.decode(frame[4:]), time.monotonic() - began
            ready, _, _ = select.select([self.process.stdout], [], [], 0.05)
            if ready:
                self.bytes += os.read(self.process.stdout.fileno(), 65_536)
        raise Wrong("no response came")

    def ask(self, message):
        self.send(message)
        return self.receive()

    def told(self, end, count):
        """Waits until standard error has so many lines that end so."""
        err, until = b"", time.monotonic() + SECONDS
        while err.count(end + b"\n") < count:
            ready, _, _ = select.select([self.process.stderr], [], [], max(until - time.monotonic(), 0))
            if not ready:
                raise Wrong(f"standard error: wanted {count} lines that end in {end!r}, came {err!r}")
            err += os.read(self.process.stderr.fileno(), 65_536)

    def end(self, status=0):
        """The input ends, and then the run; returns what was written to standard error."""
        self.process.stdin.close()
        try:
            got = self.process.wait(SECONDS)
        except subprocess.TimeoutExpired:
            raise Wrong("the run had not ended") from None
        err = self.process.stderr.read()
        wanted(f"status ({err.decode(errors='replace')})", got, status)
        return err

    def kill(self):
        self.process.send_signal(signal.SIGKILL)
        self.process.wait()


class Player(threading.Thread):
    """Plays a host while requests are sent: notes the types of the messages that come, and answers those of some types."""

    def __init__(self, wire):
        super().__init__(daemon=True)
        self.wire, self.answered, self.came, self.over, self.fault = wire, (), [], False, None

    def run(self):
        try:
            while not self.over:
                message = self.wire.come(0.05)
                if message is not None:
                    self.came.append(message[:4])
                    if message[:4] in self.answered:
                        # (an answer is lost if the switch has closed its end)
                        with contextlib.suppress(BrokenPipeError):
                            self.wire.put(reply(message))
        except Exception as fault:  # pylint: disable=broad-except
            self.fault = fault


@contextlib.contextmanager
def played(wire):
    """A host that answers nothing yet. What goes wrong at the host is reported only if nothing goes wrong in the case."""
    player = Player(wire)
    player.start()
    try:
        yield player
    finally:
        player.over = True
        player.join()
    if player.fault is not None:
        raise Wrong(f"at the host: {player.fault!r}")


@contextlib.contextmanager
def worked(room, name):
    """`examples/hosts/host.py` at its pipes, once it has answered a network test. (Each pipe is opened both ways: no opening waits.)"""
    ends = [os.open(os.path.join(room, f"{name}.{it}"), os.O_RDWR) for it in ("to", "from")]
    host = subprocess.Popen([sys.executable, HOST], stdin=ends[0], stdout=ends[1])
    try:
        os.write(ends[0], messages.framed(NETWORK_TEST))
        if not select.select(ends[1:], [], [], SECONDS)[0]:
            raise Wrong("the host did not answer a network test")
        wanted("the host's answer to a network test", os.read(ends[1], 65_536)[4:8], b"0810")
        yield
    finally:
        host.kill()
        host.wait()
        for end in ends:
            os.close(end)
