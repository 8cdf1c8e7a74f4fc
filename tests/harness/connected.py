"""A host that listens on the loopback, and `examples/hosts/connect.py` between it and its named pipes."""

import contextlib
import os
import socket
import subprocess
import sys

from harness.hosts import EXAMPLES, NETWORK_TEST, SECONDS, Run, Wrong, wanted

CONNECT = os.path.join(EXAMPLES, "hosts", "connect.py")
TCP = """
[[host]]
name = "alpha"
to = "alpha.to"
from = "alpha.from"
timeout_ms = 1500

[[host]]
name = "beta"
simulated = true
"""


class Listener:
    """A host that listens on the loopback, and `examples/hosts/connect.py` between it and its named pipes."""

    def __init__(self, room, *words):
        self.server, self.peer, self.bytes = socket.create_server(("127.0.0.1", 0)), None, b""
        self.server.settimeout(SECONDS)
        self.size, self.number, self.prefix = 4, int, b"%04d".__mod__
        if "--binary" in words:
            self.size, self.number, self.prefix = 2, lambda it: int.from_bytes(it, "big"), lambda it: it.to_bytes(2, "big")
        address = f"127.0.0.1:{self.server.getsockname()[1]}"
        command = [sys.executable, CONNECT, "--retry", "0.1", *words, address, "alpha.to", "alpha.from"]
        self.carrier = subprocess.Popen(command, cwd=room, stderr=subprocess.DEVNULL)

    def accept(self):
        self.peer, _ = self.server.accept()
        self.peer.settimeout(SECONDS)
        self.bytes = b""

    def some(self, size):
        while len(self.bytes) < size:
            piece = self.peer.recv(65_536)
            if not piece:
                raise Wrong("the connection was closed")
            self.bytes += piece
        its, self.bytes = self.bytes[:size], self.bytes[size:]
        return its

    def get(self):
        """The next message of the switch."""
        return self.some(self.number(self.some(self.size)))

    def put(self, message):
        self.peer.sendall(self.prefix(len(message)) + message)

    def end(self):
        self.carrier.kill()
        self.carrier.wait()
        for its in self.peer, self.server:
            if its is not None:
                its.close()


@contextlib.contextmanager
def listening(program, room, *words):
    """A run of the switch, and the host that it asks over a connection."""
    with open(os.path.join(room, "config.toml"), "w", encoding="utf-8") as file:
        file.write(TCP)
    for path in "alpha.to", "alpha.from":
        os.mkfifo(os.path.join(room, path))
    host = Listener(room, *words)
    run = None
    try:
        host.accept()
        run = Run(program, room)
        wanted("the answer to a network test", run.ask(NETWORK_TEST)[0], b"0810")
        yield run, host
    finally:
        host.end()
        if run is not None:
            run.process.kill()
            run.process.wait()
