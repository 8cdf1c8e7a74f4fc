"""The gateway over RabbitMQ: clients here, engines at the workers of any machine."""

import asyncio
import contextlib
import functools
from typing import Any

import pika  # type: ignore[import]

from cardgate.broker import Lane, Link, body_of, declaration, responses, shard_queue
from cardgate.clients import Front
from cardgate.frames import BadFrame, all_messages
from cardgate.log import Log
from cardgate.process import guarded
from cardgate.request import HEADER, Request, age_of
from cardgate.reversals import Reversals
from cardgate.settings import BrokerSettings, Place, Settings
from cardgate.stats import Stats
from cardgate.status import Shown

TICK = 1.0
# An approval that is on its way while a worker would still deliver it is not late. And a reversal is repeated after
# so long.
ON_THE_WAY, REPEATED_AFTER = 0.5, 5.0


class BrokerGateway:
    def __init__(self, settings: Settings, listen: Place, broker: BrokerSettings, log: Log) -> None:
        self.listen, self.broker, self.log, self.stats = listen, broker, log, Stats()
        self.limits, self.patience = settings.limits, settings.patience
        self.loop = asyncio.get_running_loop()
        self.front = Front(self.submit, settings.bounds, self.stats, log)
        self.reversals = Reversals(self.front.headers, self.submit, self.loop.time)
        self.front.returned = lambda _, response: self.take_back(response)
        self.lanes = [Lane(functools.partial(self.publish, number)) for number in range(broker.shards)]
        self.link = Link(broker.urls, self.declare, log)
        self.properties = pika.BasicProperties(delivery_mode=1, expiration=str(int(1000 * self.limits.wait)))
        self.refused = self.late = 0
        self.ticking: asyncio.Future[None] | None = None

    def shown(self) -> Shown:
        return Shown(self.stats, len(self.front.clients), len(self.front.asked), [], [])

    def declare(self, channel: Any, up: Any) -> None:
        queues, own = self.broker.queues, responses(self.front.headers.name)
        for number in range(self.broker.shards):
            channel.queue_declare(shard_queue(queues, number), **declaration(queues))

        def declared(_: Any) -> None:
            channel.basic_consume(own, self.came, auto_ack=True, callback=lambda _: up())

        channel.queue_declare(own, exclusive=True, auto_delete=True, callback=declared)

    def submit(self, request: Request) -> None:
        self.lanes[request.shard(self.broker.shards)].add(request.header + request.message)

    def publish(self, shard: int, contents: list[bytes]) -> None:
        if not self.link.publish(shard_queue(self.broker.queues, shard), body_of(contents), self.properties):
            self.refused += len(contents)
            for content in contents:
                self.front.dropped(content[:HEADER])

    def came(self, _channel: Any, _method: Any, _properties: Any, body: bytes) -> None:
        with contextlib.suppress(BadFrame, ValueError):
            for content in all_messages(body):
                self.answered(content[:HEADER], content[HEADER:])

    def answered(self, header: bytes, response: bytes) -> None:
        if header in self.reversals.kept:
            self.reversals.answered(header)
        elif age_of(header) > self.limits.late + ON_THE_WAY:
            self.late += 1
            self.front.dropped(header)
            self.reversals.take_back(response)
        elif not self.front.deliver(header, response, "broker"):
            self.take_back(response)

    def take_back(self, response: bytes) -> None:
        self.reversals.take_back(response)

    async def ticks(self) -> None:
        while True:
            await asyncio.sleep(TICK)
            # (what comes later than that is delivered to nobody)
            self.front.forget(self.limits.late + 2 * ON_THE_WAY)
            self.reversals.repeat_after(REPEATED_AFTER)

    async def start(self) -> None:
        self.link.connect()
        await self.link.came_up.wait()
        self.ticking = guarded(self.ticks(), self.log)
        port = await self.front.listen(self.listen.host, self.listen.port)
        self.log.info("listening", host=self.listen.host, port=port, shards=self.broker.shards)
        self.log.info("ready", port=port)

    async def stop(self) -> None:
        """Takes nothing new, and waits for what may still be answered, and for the reversals (rule G7)."""
        self.log.info("stopping", open_requests=len(self.front.asked))
        self.front.stop()
        until = self.loop.time() + self.patience
        answers = self.loop.time() + self.limits.late + 2 * ON_THE_WAY
        while self.front.asked and self.loop.time() < answers or self.reversals.kept and self.loop.time() < until:
            await asyncio.sleep(0.02)
        await self.front.close()
        if self.ticking is not None:
            self.ticking.cancel()
        await self.link.close()
        told = {"taken": self.stats.taken, "delivered": self.stats.delivered, "refused": self.refused}
        self.log.info("stopped", **told, late=self.late, reversals=self.reversals.made)
