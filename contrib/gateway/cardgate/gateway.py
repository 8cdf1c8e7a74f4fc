"""The gateway with the engines of its own machine."""

import asyncio
import os

from cardgate.clients import Front
from cardgate.engine import Engine
from cardgate.issuer import Issuer
from cardgate.log import Log
from cardgate.process import guarded
from cardgate.readiness import ENGINES_END, all_ready
from cardgate.request import Request, shard_of
from cardgate.settings import EngineSettings, Place, Refused, Settings, command_of, hosts_of
from cardgate.stats import Stats
from cardgate.status import Shown


class Gateway:
    def __init__(self, settings: Settings, listen: Place, engines: EngineSettings, log: Log) -> None:
        self.listen, self.config = listen, engines.config
        self.settings, self.log, self.stats = settings, log, Stats()
        self.front = Front(self.submit, settings.bounds, self.stats, log)
        command, folder = command_of(engines), engines.folder
        self.engines = [
            Engine(str(number), command, os.path.join(folder, f"engine{number}"), settings.limits, log)
            for number in range(settings.number)
        ]
        for engine in self.engines:
            self.connect(engine)
        self.front.returned = lambda request, response: self.engine_of(request).take_back(response)
        self.issuers = [Issuer(it, self.shard, log) for it in settings.issuers]
        for issuer in self.issuers:
            for shard, engine in enumerate(self.engines):
                issuer.attach(shard, engine.name, engine.folder)
        self.warn_of_slow_hosts()
        self.running: list[asyncio.Future[None]] = []
        self.lives: list[asyncio.Future[int]] = []
        self.port = 0

    def connect(self, engine: Engine) -> None:
        engine.deliver = lambda request, response: self.front.deliver(request.header, response, engine.name)
        engine.dropped = lambda request, why: self.front.dropped(request.header)

    def shown(self) -> Shown:
        return Shown(self.stats, len(self.front.clients), len(self.front.asked), self.engines, self.issuers)

    def shard(self, card: str, message: bytes) -> int:
        return shard_of(card, message, len(self.engines))

    def engine_of(self, request: Request) -> Engine:
        return self.engines[request.shard(len(self.engines))]

    def submit(self, request: Request) -> None:
        self.engine_of(request).submit(request)

    def warn_of_slow_hosts(self) -> None:
        late = self.settings.limits.late
        for name, timeout in hosts_of(self.config).items():
            if timeout >= 1000 * late:
                self.log.warning(
                    "host_timeout_too_long", host=name, timeout_ms=timeout, expected=f"less than {late} seconds"
                )

    async def start(self) -> None:
        self.port = await self.front.listen(self.listen.host, self.listen.port)
        self.log.info("listening", host=self.listen.host, port=self.port, engines=len(self.engines))
        self.running = [guarded(issuer.run(), self.log) for issuer in self.issuers]
        self.lives = [guarded(engine.run(), self.log) for engine in self.engines]
        if not await all_ready(self.engines):
            raise Refused(ENGINES_END)
        self.log.info("ready", port=self.port)

    async def stop(self) -> None:
        """Takes nothing new, answers what was taken, with the reversals that come of it, and ends the engines (rule
        G7)."""
        self.log.info("stopping", open_requests=len(self.front.asked))
        self.front.stop()
        patience = self.settings.patience
        await asyncio.gather(*(engine.close(patience) for engine in self.engines))
        await asyncio.gather(*self.lives)
        for task in self.running:
            task.cancel()
        await self.front.close()
        counts = [engine.counts for engine in self.engines]
        self.log.info(
            "stopped",
            taken=self.stats.taken,
            delivered=self.stats.delivered,
            dropped=sum(it.dropped.total() for it in counts),
            late=sum(it.late for it in counts),
            reversals=sum(engine.reversals.made for engine in self.engines),
            starts=sum(it.starts for it in counts),
        )
