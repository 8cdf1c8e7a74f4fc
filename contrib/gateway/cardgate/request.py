"""A request on its way: its header, what it is, and when it was taken.

The header is 24 bytes that an engine gives back before the response: the name of the gateway's life (4 bytes), the
moment at which it took the request (12 hexadecimal digits, milliseconds by the clock), and the request's number (8
hexadecimal digits).
"""

import dataclasses
import enum
import itertools
import secrets
import time
import zlib

from cardgate import iso8583

HEADER = 24
# The longest message that has room for a header in its frame.
MOST_MESSAGE = 9_999 - HEADER


class Kind(enum.Enum):
    """What a request is, as far as the rules tell requests apart."""

    AUTHORIZATION = "authorization"
    REVERSAL = "reversal"
    NETWORK = "network"
    # A message of a response's type: the switch gives it no response.
    RESPONSE = "response"

    @staticmethod
    def of(mti: str) -> "Kind":
        if mti[2] in "13579":
            return Kind.RESPONSE
        if mti[1] == "4":
            return Kind.REVERSAL
        # (what the switch does not know it declines, so nothing is lost if it is dropped as an authorization is)
        return Kind.NETWORK if mti[1] == "8" else Kind.AUTHORIZATION


@dataclasses.dataclass(slots=True, eq=False)
class Request:
    """A request, from its arrival to its answer."""

    header: bytes
    message: bytes
    kind: Kind
    mti: str
    card: str | None
    stan: str | None
    # When it was taken, by the clock of the event loop.
    taken: float
    # Made by the gateway or the worker itself: a reversal or a network test, whose answer no client waits for.
    is_own: bool = False
    # Its client has gone.
    is_given_up: bool = False

    def shard(self, shards: int) -> int:
        """The shard of its card; a message without a card goes by its own bytes."""
        return shard_of(self.card, self.message, shards)


def shard_of(card: str | None, message: bytes, shards: int) -> int:
    return zlib.crc32(message if card is None else card.encode("ascii")) % shards


def request_of(header: bytes, message: bytes, taken: float, is_own: bool = False) -> Request:
    """The request of a message; `Unreadable` if it cannot be read."""
    if len(message) > MOST_MESSAGE:
        raise iso8583.Unreadable(f"more than {MOST_MESSAGE} bytes")
    mti, fields = iso8583.read(message)
    return Request(header, message, Kind.of(mti), mti, fields.get(2), fields.get(11), taken, is_own)


class Headers:
    """Gives headers. Each life of a gateway or worker has a name of its own, so that no later life takes them for its
    own."""

    def __init__(self) -> None:
        self.name = secrets.token_hex(2).encode()
        self.numbers = itertools.count()

    def next(self) -> bytes:
        return b"%b%012x%08x" % (self.name, int(time.time() * 1000), next(self.numbers) & 0xFFFF_FFFF)


def age_of(header: bytes) -> float:
    """How many seconds ago the gateway took the request, by this machine's clock. It may be another machine than the
    gateway's."""
    return time.time() - int(header[4:16], 16) / 1000
