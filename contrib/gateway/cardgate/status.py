"""What a gateway or a worker is doing, as the page and /metrics tell it."""

import dataclasses
import time

from cardgate.engine import Engine
from cardgate.issuer import Issuer
from cardgate.stats import State, Stats, Transaction

SHARES = (0.5, 0.9, 0.99)


@dataclasses.dataclass(frozen=True)
class Shown:
    """What a gateway or a worker shows of itself."""

    stats: Stats
    clients: int
    open_requests: int
    engines: list[Engine]
    issuers: list[Issuer]


@dataclasses.dataclass(frozen=True)
class EngineStatus:
    name: str
    state: State
    pid: int | None
    restarts: int
    in_flight: int
    waiting: int
    counts: dict[str, int]
    dropped: dict[str, int]


@dataclasses.dataclass(frozen=True)
class IssuerStatus:
    name: str
    address: str
    is_connected: bool
    connections: int
    sent: int
    received: int
    lost: int


@dataclasses.dataclass(frozen=True)
class Status:
    uptime: float
    clients: int
    open_requests: int
    per_second: float
    # In seconds, one for each of SHARES.
    percentiles: list[float]
    stats: Stats
    engines: list[EngineStatus]
    issuers: list[IssuerStatus]
    last: list[Transaction]


def status_of(shown: Shown) -> Status:
    stats = shown.stats
    return Status(
        uptime=time.time() - stats.began,
        clients=shown.clients,
        open_requests=shown.open_requests,
        per_second=stats.times.per_second(),
        percentiles=stats.times.percentiles(SHARES),
        stats=stats,
        engines=[engine_status(it) for it in shown.engines],
        issuers=[issuer_status(it) for it in shown.issuers],
        last=list(reversed(stats.last)),
    )


def engine_status(engine: Engine) -> EngineStatus:
    counts = engine.counts
    told = {
        "handed_over": counts.handed,
        "answered": counts.answered,
        "late": counts.late,
        "undelivered": counts.undelivered,
        "unasked": counts.unasked,
        "reversals": engine.reversals.made,
        "reversals_repeated": engine.reversals.repeated,
    }
    return EngineStatus(
        name=engine.name,
        state=engine.state,
        pid=engine.pid,
        restarts=max(0, counts.starts - 1),
        in_flight=len(engine.line.handed),
        waiting=engine.line.size,
        counts=told,
        dropped=dict(counts.dropped),
    )


def issuer_status(issuer: Issuer) -> IssuerStatus:
    address = f"{issuer.address.host}:{issuer.address.port}"
    return IssuerStatus(
        issuer.address.name,
        address,
        issuer.is_connected,
        issuer.connections,
        issuer.sent,
        issuer.received,
        issuer.lost,
    )
