"""RabbitMQ, by pika: the queues, a connection that is made again when it is lost, and frames that leave together.

A shard has one queue with a single active consumer: the worker that has the shard, while others stand by. A gateway
has a queue of its own for responses, which is gone with its connection. A message of the broker is one or more
frames, each with its header. It is delivered at most once (rule G3): nothing is acknowledged, and what may have been
delivered before is passed over.
"""

import asyncio
from collections.abc import Callable
from typing import Any

import pika  # type: ignore[import]
from pika.adapters.asyncio_connection import AsyncioConnection  # type: ignore[import]

from cardgate.frames import frame
from cardgate.log import Log
from cardgate.settings import Queues

# Frames for one queue wait so long for others, and after so long the broker is connected again, in seconds.
LINGER, AGAIN = 0.001, 0.5
# How many messages wait in the queue of a shard.
MOST_WAITING = 20_000


def shard_queue(queues: Queues, number: int) -> str:
    # (a queue is not declared anew with other arguments, so each kind has names of its own)
    return f"cardswitch.{queues.value}.{number}"


def declaration(queues: Queues) -> dict[str, Any]:
    """How the queue of a shard is declared."""
    told = {"x-single-active-consumer": True, "x-max-length": MOST_WAITING, "x-overflow": "reject-publish"}
    is_quorum = queues is Queues.QUORUM
    return {"durable": is_quorum, "arguments": told | ({"x-queue-type": "quorum"} if is_quorum else {})}


def responses(gateway: bytes) -> str:
    """The queue of a gateway's life."""
    return f"cardswitch.gateway.{gateway.decode()}"


class Link:
    """A connection with one channel. `ready` declares and consumes on a new channel, and then calls what it is
    given."""

    def __init__(self, urls: list[str], ready: Callable[[Any, Callable[[], None]], None], log: Log) -> None:
        self.parameters, self.ready, self.log = [pika.URLParameters(url) for url in urls], ready, log
        self.channel: Any = None
        self.connection: Any = None
        self.is_closing, self.connects = False, 0
        self.came_up = asyncio.Event()

    def connect(self) -> None:
        if not self.is_closing:
            # (each time the next node)
            node = self.parameters[self.connects % len(self.parameters)]
            self.connects += 1
            AsyncioConnection(node, self.opened, self.lost, self.lost)

    def opened(self, connection: Any) -> None:
        self.connection = connection
        connection.channel(on_open_callback=self.channel_opened)

    def channel_opened(self, channel: Any) -> None:
        # (a cancel means that the queue's node is gone: all is declared again)
        channel.add_on_close_callback(lambda *_: self.hang_up())
        channel.add_on_cancel_callback(lambda *_: self.hang_up())
        self.ready(channel, lambda: self.up(channel))

    def up(self, channel: Any) -> None:
        self.channel = channel
        self.came_up.set()
        self.log.info("broker_connected")

    def hang_up(self) -> None:
        if self.connection is not None and self.connection.is_open:
            self.connection.close()

    def lost(self, _: Any, why: object) -> None:
        self.channel = None
        if not self.is_closing:
            self.log.warning("broker_away", why=type(why).__name__, again_after=AGAIN)
            asyncio.get_running_loop().call_later(AGAIN, self.connect)

    def publish(self, queue: str, body: bytes, properties: Any, mandatory: bool = False) -> bool:
        """Whether the broker was there to take it."""
        if self.channel is None or not self.channel.is_open:
            return False
        self.channel.basic_publish("", queue, body, properties, mandatory)
        return True

    async def close(self) -> None:
        self.is_closing = True
        # (what was published last is still to be written)
        await asyncio.sleep(0.1)
        self.hang_up()
        await asyncio.sleep(0.1)


class Lane:
    """What goes to one queue: all contents that come within LINGER leave as one message."""

    def __init__(self, publish: Callable[[list[bytes]], None]) -> None:
        self.publish, self.contents = publish, list[bytes]()

    def add(self, content: bytes) -> None:
        self.contents.append(content)
        if len(self.contents) == 1:
            asyncio.get_running_loop().call_later(LINGER, self.flush)

    def flush(self) -> None:
        contents, self.contents = self.contents, []
        if contents:
            self.publish(contents)


def body_of(contents: list[bytes]) -> bytes:
    return b"".join(map(frame, contents))
