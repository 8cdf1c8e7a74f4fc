"""The worker of a machine: its engines for some shards, over RabbitMQ. Where another worker has a shard, this one
stands by.

Each shard that the machine has, or has had, has an engine and a journal here. What the journal holds from earlier is
sent from the start on, whoever has the shard now.
"""

import asyncio
import contextlib
import functools
import os
from typing import Any

import pika  # type: ignore[import]

from cardgate.broker import Lane, Link, body_of, declaration, responses, shard_queue
from cardgate.engine import Engine
from cardgate.frames import BadFrame, all_messages
from cardgate.issuer import Issuer
from cardgate.iso8583 import Unreadable
from cardgate.log import Log
from cardgate.process import guarded
from cardgate.readiness import ENGINES_END, all_ready
from cardgate.request import HEADER, Request, age_of, request_of, shard_of
from cardgate.settings import BrokerSettings, EngineSettings, Refused, Settings, command_of
from cardgate.stats import Stats
from cardgate.status import Shown


class Worker:
    def __init__(self, settings: Settings, broker: BrokerSettings, engines: EngineSettings, log: Log) -> None:
        self.patience = settings.patience
        self.broker, self.log, self.stats = broker, log, Stats()
        self.loop, command = asyncio.get_running_loop(), command_of(engines)
        self.engines: dict[int, Engine] = {}
        for shard in settings.shards:
            engine = Engine(str(shard), command, os.path.join(engines.folder, f"shard{shard}"), settings.limits, log)
            engine.deliver = self.deliver
            self.engines[shard] = engine
        self.issuers = [
            Issuer(it, lambda card, message: shard_of(card, message, broker.shards), log) for it in settings.issuers
        ]
        for issuer in self.issuers:
            for shard, engine in self.engines.items():
                issuer.attach(shard, engine.name, engine.folder)
        # By gateway: what is on its way to it.
        self.lanes: dict[bytes, Lane] = {}
        self.link = Link(broker.urls, self.declare, log)
        self.properties = pika.BasicProperties(delivery_mode=1)
        self.tags: list[str] = []
        self.passed = self.returned = 0
        self.running: list[asyncio.Future[None]] = []
        self.lives: list[asyncio.Future[int]] = []

    def shown(self) -> Shown:
        return Shown(self.stats, 0, 0, list(self.engines.values()), self.issuers)

    def declare(self, channel: Any, up: Any) -> None:
        queues, self.tags = self.broker.queues, []
        channel.add_on_return_callback(lambda _channel, _method, _properties, body: self.came_back(body))

        def declared(shard: int, _: Any) -> None:
            self.tags.append(
                channel.basic_consume(shard_queue(queues, shard), functools.partial(self.came, shard), auto_ack=True)
            )
            if len(self.tags) == len(self.engines):
                up()

        for shard in self.engines:
            name, callback = shard_queue(queues, shard), functools.partial(declared, shard)
            channel.queue_declare(name, **declaration(queues), callback=callback)

    def came(self, shard: int, _channel: Any, method: Any, _properties: Any, body: bytes) -> None:
        if method.redelivered:
            # It may have been with another engine, and its issuer is never asked a second time (rule G3).
            self.passed += 1
            return
        with contextlib.suppress(BadFrame):
            for content in all_messages(body):
                with contextlib.suppress(Unreadable, ValueError):
                    taken = self.loop.time() - age_of(content[:HEADER])
                    self.engines[shard].submit(request_of(content[:HEADER], content[HEADER:], taken))

    def deliver(self, request: Request, response: bytes) -> bool:
        """Sends a response to the gateway that waits for it. What the broker does not take is reversed later (rule
        G4)."""
        gateway = request.header[:4]
        if gateway not in self.lanes:
            self.lanes[gateway] = Lane(functools.partial(self.publish, gateway))
        self.lanes[gateway].add(request.header + response)
        return True

    def publish(self, gateway: bytes, contents: list[bytes]) -> None:
        del self.lanes[gateway]
        if not self.link.publish(responses(gateway), body_of(contents), self.properties, mandatory=True):
            self.take_back(contents)

    def came_back(self, body: bytes) -> None:
        """The broker returns what no gateway waits for."""
        self.returned += 1
        self.take_back(all_messages(body))

    def take_back(self, contents: list[bytes]) -> None:
        for content in contents:
            with contextlib.suppress(Unreadable, ValueError):
                response = request_of(content[:HEADER], content[HEADER:], 0.0)
                engine = self.engines.get(response.shard(self.broker.shards))
                if engine is not None:
                    engine.take_back(response.message)

    async def start(self) -> None:
        self.running = [guarded(issuer.run(), self.log) for issuer in self.issuers]
        self.lives = [guarded(engine.run(), self.log) for engine in self.engines.values()]
        self.link.connect()
        await self.link.came_up.wait()
        if not await all_ready(list(self.engines.values())):
            raise Refused(ENGINES_END)
        self.log.info("ready", shards=list(self.engines))

    async def stop(self) -> None:
        """Takes no more from the queues, finishes what it took, and ends the engines (rule G7)."""
        self.log.info("stopping")
        if self.link.channel is not None:
            for tag in self.tags:
                self.link.channel.basic_cancel(tag)
        await asyncio.gather(*(engine.drain(self.patience) for engine in self.engines.values()))
        # (the broker may still return what was answered last)
        await asyncio.sleep(0.3)
        await asyncio.gather(*(engine.close(self.patience) for engine in self.engines.values()))
        await asyncio.gather(*self.lives)
        for task in self.running:
            task.cancel()
        await self.link.close()
        counts = [engine.counts for engine in self.engines.values()]
        told = {"answered": sum(it.answered for it in counts), "late": sum(it.late for it in counts)}
        made = sum(engine.reversals.made for engine in self.engines.values())
        self.log.info("stopped", **told, passed_over=self.passed, returned=self.returned, reversals=made)
