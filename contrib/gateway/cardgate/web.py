"""The page and /metrics over HTTP, on the loopback, by aiohttp. Without aiohttp they are off, and the log says so."""

from __future__ import annotations

import functools
import typing
from collections.abc import Callable

from cardgate import metrics, page
from cardgate.log import Log
from cardgate.paths import Flow, Paths, flow_of, picture
from cardgate.settings import EngineSettings, Place
from cardgate.stats import Transaction
from cardgate.status import Shown, status_of

if typing.TYPE_CHECKING:
    from aiohttp import web

# Nothing of the page comes from elsewhere, and nobody may frame it.
INLINE = "style-src 'unsafe-inline'; script-src 'unsafe-inline'"
POLICY = f"default-src 'none'; {INLINE}; connect-src 'self'; frame-ancestors 'none'"
OWN_NAMES = ("localhost", "127.0.0.1", "[::1]")


class Pages:
    """What is answered at which path."""

    def __init__(self, shown: Callable[[], Shown], engines: EngineSettings | None) -> None:
        self.shown, self.paths = shown, Paths()
        self.flow: Flow | None = None
        if engines is not None and engines.has_paths:
            self.flow = flow_of(engines.program, engines.flow)
            for engine in shown().engines:
                engine.traced = functools.partial(self.paths.line, engine.name)

    def find(self, transaction: Transaction) -> int | None:
        return self.paths.find(transaction.engine, transaction.mti, transaction.stan, transaction.card)

    def text(self, path: str) -> tuple[str, str] | None:
        """The type and the text of what is at a path; None if nothing is."""
        if path == "/metrics":
            return metrics.TYPE, metrics.exposition(status_of(self.shown()))
        if path in ("/", "/part"):
            make = page.page if path == "/" else page.part
            return "text/html; charset=utf-8", make(status_of(self.shown()), self.find)
        return self.path(path)

    def path(self, path: str) -> tuple[str, str] | None:
        _, name, *rest = path.split("/")
        if name != "path" or len(rest) != 2 or not rest[1].isdigit() or self.flow is None:
            return None
        found = self.paths.ended.get((rest[0], int(rest[1])))
        if found is None:
            return None
        title = f"transaction {found.number} of engine {found.engine}"
        return "text/html; charset=utf-8", page.path_page(title, picture(self.flow, found), found.record)


async def start_web(
    shown: Callable[[], Shown], engines: EngineSettings | None, place: Place | None, log: Log
) -> web.AppRunner | None:
    """Serves the pages; None if they are off."""
    if place is None:
        return None
    try:
        from aiohttp import web
    except ImportError:
        log.warning("no_page", expected="python3-aiohttp, for the page and /metrics")
        return None
    pages = Pages(shown, engines)

    async def answer(request: web.Request) -> web.Response:
        # (a page of another site may not read this one by a name that leads to the loopback)
        if request.host.rpartition(":")[0] not in OWN_NAMES and request.host not in OWN_NAMES:
            return web.Response(status=403, text="expected the loopback as the host\n")
        found = pages.text(request.path)
        if found is None:
            return web.Response(status=404, text="there is nothing here\n")
        return web.Response(
            body=found[1].encode(), headers={"Content-Type": found[0], "Content-Security-Policy": POLICY}
        )

    app = web.Application()
    app.router.add_get("/{path:.*}", answer)
    runner = web.AppRunner(app, access_log=None)
    await runner.setup()
    site = web.TCPSite(runner, place.host, place.port)
    await site.start()
    addresses = runner.addresses
    log.info("page", url=f"http://{addresses[0][0]}:{addresses[0][1]}/" if addresses else "")
    return runner
