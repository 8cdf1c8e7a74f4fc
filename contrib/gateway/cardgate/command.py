"""The command: starts a gateway, and ends it at SIGTERM."""

import asyncio
import os
import resource
import signal
import sys
import typing

from cardgate.gateway import Gateway
from cardgate.given import settings_of
from cardgate.log import Log
from cardgate.options import Form, parser_of
from cardgate.process import log_faults
from cardgate.settings import Refused, Settings
from cardgate.status import Shown
from cardgate.web import start_web


FORMS = {"front": Form.FRONT, "worker": Form.WORKER}


def stop_signal() -> asyncio.Event:
    """Is set by SIGTERM or SIGINT. A second one ends the program at once."""
    stop, loop = asyncio.Event(), asyncio.get_running_loop()

    def asked() -> None:
        if stop.is_set():
            os._exit(1)
        stop.set()

    for number in signal.SIGTERM, signal.SIGINT:
        loop.add_signal_handler(number, asked)
    return stop


class Service(typing.Protocol):
    """What is started and ended: a gateway in one of its forms, or a worker."""

    def shown(self) -> Shown:
        ...

    async def start(self) -> None:
        ...

    async def stop(self) -> None:
        ...


def service_of(settings: Settings, log: Log) -> Service:
    if settings.broker is None:
        assert settings.engines is not None and settings.listen is not None
        return Gateway(settings, settings.listen, settings.engines, log)
    try:
        # (pika is asked for only where there is a broker)
        from cardgate.brokered import BrokerGateway
        from cardgate.worker import Worker
    except ImportError:
        raise Refused("found no pika; expected python3-pika, by which RabbitMQ is reached") from None
    if settings.listen is not None:
        return BrokerGateway(settings, settings.listen, settings.broker, log)
    assert settings.engines is not None
    return Worker(settings, settings.broker, settings.engines, log)


async def serve(settings: Settings, log: Log) -> None:
    stop = stop_signal()
    log_faults(log)
    service = service_of(settings, log)
    runner = await start_web(service.shown, settings.engines, settings.web, log)
    starting = asyncio.ensure_future(service.start())
    stopping = asyncio.ensure_future(stop.wait())
    await asyncio.wait([starting, stopping], return_when=asyncio.FIRST_COMPLETED)
    # (a start that failed ends the program; one that goes on is given up by a signal)
    if starting.done():
        starting.result()
        await stopping
    starting.cancel()
    await service.stop()
    if runner is not None:
        await runner.cleanup()


def allow_many_files() -> None:
    """As many connections as the system allows this user."""
    _, hard = resource.getrlimit(resource.RLIMIT_NOFILE)
    resource.setrlimit(resource.RLIMIT_NOFILE, (hard, hard))


def use_uvloop(log: Log) -> None:
    try:
        import uvloop
    except ImportError:
        log.info("no_uvloop", expected="python3-uvloop, for more requests a second")
    else:
        uvloop.install()


def main(words: list[str]) -> int:
    log = Log()
    try:
        form = FORMS.get(words[0] if words else "", Form.HERE)
        settings = settings_of(form, parser_of(form).parse_args(words if form is Form.HERE else words[1:]))
        allow_many_files()
        use_uvloop(log)
        asyncio.run(serve(settings, log))
    except (Refused, OSError) as fault:
        print(f"gateway: {fault}", file=sys.stderr)
        return 2
    return 0
