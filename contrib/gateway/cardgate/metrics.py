"""/metrics, in Prometheus' text form."""

from collections.abc import Iterator, Sequence

from cardgate.stats import State
from cardgate.status import SHARES, EngineStatus, IssuerStatus, Status

PREFIX = "cardswitch_gateway_"
TYPE = "text/plain; version=0.0.4; charset=utf-8"


def label(**labels: object) -> str:
    """Labels in braces, with what has to be escaped in a value."""
    escaped = (
        (name, str(value).replace("\\", r"\\").replace('"', r"\"").replace("\n", r"\n"))
        for name, value in labels.items()
    )
    inner = ",".join(f'{name}="{value}"' for name, value in escaped)
    return f"{{{inner}}}" if inner else ""


def family(name: str, kind: str, help_text: str, samples: Sequence[tuple[str, float]]) -> Iterator[str]:
    """A metric with its samples, each a text of labels and a value."""
    yield f"# HELP {PREFIX}{name} {help_text}"
    yield f"# TYPE {PREFIX}{name} {kind}"
    for labels, value in samples:
        yield f"{PREFIX}{name}{labels} {value:g}" if isinstance(value, float) else f"{PREFIX}{name}{labels} {value}"


def of_clients(status: Status) -> Iterator[str]:
    stats = status.stats
    yield from family("clients", "gauge", "Connected clients.", [("", status.clients)])
    yield from family("open_requests", "gauge", "Requests without an answer.", [("", status.open_requests)])
    yield from family(
        "requests_per_second", "gauge", "Answers a second, of the last ten seconds.", [("", status.per_second)]
    )
    yield from family("requests_total", "counter", "Messages that clients sent.", [("", stats.taken)])
    yield from family("unreadable_total", "counter", "Messages that cannot be read.", [("", stats.unreadable)])
    codes = [(label(code=code), count) for code, count in sorted(stats.codes.items())]
    yield from family("responses_total", "counter", "Responses to clients, by the code in field 39.", codes)
    refused = [(label(why="too_many"), stats.refused_clients), (label(why="closed"), stats.closed_clients)]
    yield from family("clients_closed_total", "counter", "Connections that the gateway closed.", refused)
    yield from family("response_seconds", "summary", "Time to a response, of the last minute.", [])
    for share, value in zip(SHARES, status.percentiles, strict=True):
        yield f'{PREFIX}response_seconds{{quantile="{share:g}"}} {value:.6f}'
    yield f"{PREFIX}response_seconds_sum {stats.times.sum:.6f}"
    yield f"{PREFIX}response_seconds_count {stats.times.count}"


def of_engines(engines: list[EngineStatus]) -> Iterator[str]:
    up = [(label(engine=it.name), int(it.state is State.READY)) for it in engines]
    yield from family("engine_up", "gauge", "Whether the engine answers.", up)
    flying = [(label(engine=it.name), it.in_flight) for it in engines]
    yield from family("engine_in_flight", "gauge", "Requests that the engine has.", flying)
    waiting = [(label(engine=it.name), it.waiting) for it in engines]
    yield from family("engine_waiting", "gauge", "Requests that wait for the engine.", waiting)
    restarts = [(label(engine=it.name), it.restarts) for it in engines]
    yield from family("engine_restarts_total", "counter", "How often the engine was started again.", restarts)
    counts = [(label(engine=it.name, what=what), count) for it in engines for what, count in it.counts.items()]
    yield from family("engine_requests_total", "counter", "What became of the engine's requests.", counts)
    dropped = [(label(engine=it.name, why=why), count) for it in engines for why, count in sorted(it.dropped.items())]
    yield from family("engine_dropped_total", "counter", "Requests without an answer, by the cause.", dropped)


def of_issuers(issuers: list[IssuerStatus]) -> Iterator[str]:
    up = [(label(issuer=it.name), int(it.is_connected)) for it in issuers]
    yield from family("issuer_up", "gauge", "Whether the issuer is connected.", up)
    counts = [
        (label(issuer=it.name, what=what), getattr(it, what))
        for it in issuers
        for what in ("connections", "sent", "received", "lost")
    ]
    yield from family("issuer_messages_total", "counter", "Connections to the issuer, and messages.", counts)


def exposition(status: Status) -> str:
    lines = [*of_clients(status), *of_engines(status.engines), *of_issuers(status.issuers)]
    return "\n".join(lines) + "\n"
