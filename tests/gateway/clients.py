"""Acquirers: the requests that they send, and one of them at a socket."""

import socket
import struct
import time

from model import messages

from gateway.served import SECONDS, Wrong

NETWORK_TEST = messages.encode(b"0800", {11: b"000001", 70: b"301"})
SENT = b"1129050000"


def request(card, stan, mti=b"0100", amount=100, sent=SENT):
    fields = {
        2: b"4%015d" % card,
        3: b"000000",
        4: b"%012d" % amount,
        7: sent,
        11: b"%06d" % stan,
        41: b"TERM0001",
        49: b"978",
    }
    return messages.encode(mti, fields)


def reversal(card, stan, mti=b"0400", amount=100, sent=SENT):
    """The reversal of such a request."""
    _, fields = messages.decode(request(card, stan, amount=amount, sent=sent))
    return messages.encode(mti, fields | {90: b"0100%06d" % stan + sent + b"0" * 22})


class Client:
    """A connection to the gateway."""

    def __init__(self, port):
        self.socket, self.bytes = socket.create_connection(("127.0.0.1", port), SECONDS), b""

    def send(self, *sent):
        self.socket.sendall(b"".join(map(messages.framed, sent)))

    def receive(self, seconds=SECONDS):
        """The next response as its type and fields; None at the end of the connection, or if none comes in this
        time."""
        until = time.monotonic() + seconds
        while not messages.frames(self.bytes):
            self.socket.settimeout(max(0.001, until - time.monotonic()))
            try:
                data = self.socket.recv(65_536)
            except (TimeoutError, ConnectionError):
                return None
            if not data:
                return None
            self.bytes += data
        first = messages.frames(self.bytes)[0]
        self.bytes = self.bytes[len(first) :]
        return messages.decode(first[4:])

    def ask(self, message, seconds=SECONDS):
        self.send(message)
        answer = self.receive(seconds)
        if answer is None:
            raise Wrong(f"no answer to {message[:4]!r}")
        return answer

    def is_closed(self, seconds=SECONDS):
        """Whether the gateway closes the connection within this time."""
        until = time.monotonic() + seconds
        self.socket.settimeout(0.05)
        while time.monotonic() < until:
            try:
                if not self.socket.recv(65_536):
                    return True
            except TimeoutError:
                pass
            except ConnectionError:
                return True
        return False

    def go(self):
        """Closes the connection at once, as one whose machine has failed."""
        self.socket.setsockopt(socket.SOL_SOCKET, socket.SO_LINGER, struct.pack("ii", 1, 0))
        self.socket.close()

    def close(self):
        self.socket.close()
