"""The page for a person: what the gateway is doing, in HTML without anything from elsewhere."""

import html
import time
from collections.abc import Callable

from cardgate.stats import Transaction
from cardgate.status import Status

STYLE = """
body { font: 15px/1.4 system-ui, sans-serif; margin: 1.5rem auto; max-width: 75rem; padding: 0 1rem; color: #1b2733 }
h1 { font-size: 1.3rem } h2 { font-size: 1.05rem; margin: 1.6rem 0 .4rem }
table { border-collapse: collapse; width: 100% } th, td { text-align: left; padding: .25rem .7rem .25rem 0 }
th { font-weight: 600; border-bottom: 1px solid #b8c4cf } td { border-bottom: 1px solid #e6ebf0 }
td.n, th.n { text-align: right; font-variant-numeric: tabular-nums }
td.n + td, th.n + th { padding-left: .7rem }
.numbers { display: flex; flex-wrap: wrap; gap: .8rem }
.numbers div { background: #eef3f7; border-radius: .5rem; padding: .6rem 1rem }
.numbers b { display: block; font-size: 1.5rem; font-variant-numeric: tabular-nums }
.ready, .up { color: #11703c }
.away, .down, .starting { color: #b3261e; font-weight: 600 } .closing, .ended { color: #7a5a00 }
svg { max-width: 100%; height: auto } svg text { font: 13px system-ui, sans-serif; fill: #1b2733 }
svg .group { font-weight: 600 }
svg .mark, svg .code { font-size: 11px; text-anchor: end } svg .code { font-weight: 600; fill: #b3261e }
svg .right { fill: #11703c }
svg rect.passed { fill: #f4f6f8; stroke: #b8c4cf } svg rect.taken { fill: #dcefe3; stroke: #11703c }
svg .way { fill: none; stroke: #11703c; stroke-width: 2; opacity: .35 }
"""
SCRIPT = """
const main = document.querySelector("main"), lost = document.querySelector("#lost");
setInterval(async () => {
  try {
    const answer = await fetch("/part");
    if (answer.ok) main.innerHTML = await answer.text();
    lost.hidden = answer.ok;
  } catch { lost.hidden = false; }
}, 1000);
"""
NOTE = (
    "<p>The numbers are the steps in their order; ! marks those of an abort. Below them is the result code so far.</p>"
)
# The number of a transaction's path, if it is known.
Find = Callable[[Transaction], int | None]


def whole(title: str, main: str, script: str = "") -> str:
    ends = f"<script>{script}</script>" if script else ""
    return (
        f'<!doctype html><html lang="en"><meta charset="utf-8"><title>{html.escape(title)}</title>'
        f'<meta name="viewport" content="width=device-width"><style>{STYLE}</style><h1>{html.escape(title)}</h1>'
        f'<p id="lost" class="down" hidden>The gateway does not answer.</p><main>{main}</main>{ends}</html>'
    )


def table(heads: list[str], rows: list[list[str]], numbers: set[int]) -> str:
    """A table of cells that are HTML already; the columns of numbers are set to the right."""

    def cells(tag: str, row: list[str]) -> str:
        return "".join(f"<{tag}{' class=n' if at in numbers else ''}>{cell}</{tag}>" for at, cell in enumerate(row))

    body = "".join(f"<tr>{cells('td', row)}</tr>" for row in rows)
    return f"<table><thead><tr>{cells('th', heads)}</tr></thead><tbody>{body}</tbody></table>"


def milliseconds(seconds: float) -> str:
    return f"{1000 * seconds:.1f} ms"


def numbers_of(status: Status) -> str:
    shown = [("requests a second", f"{status.per_second:.1f}")]
    shown += [
        (f"{share} % are answered within", milliseconds(value))
        for share, value in zip((50, 90, 99), status.percentiles)
    ]
    shown += [("clients", str(status.clients)), ("open requests", str(status.open_requests))]
    shown.append(("answered so far", str(status.stats.delivered)))
    return '<div class="numbers">' + "".join(f"<div><b>{value}</b>{name}</div>" for name, value in shown) + "</div>"


def engines_of(status: Status) -> str:
    heads = ["engine", "state", "process", "restarts", "in flight", "waiting", "answered", "reversals", "dropped"]
    rows = [
        [
            html.escape(it.name),
            f'<span class="{it.state.value}">{it.state.value}</span>',
            str(it.pid or ""),
            str(it.restarts),
            str(it.in_flight),
            str(it.waiting),
            str(it.counts["answered"]),
            str(it.counts["reversals"]),
            str(sum(it.dropped.values())),
        ]
        for it in status.engines
    ]
    return table(heads, rows, set(range(2, 9)))


def issuers_of(status: Status) -> str:
    if not status.issuers:
        return "<p>The gateway connects no issuer.</p>"
    rows = []
    for it in status.issuers:
        state = "up" if it.is_connected else "down"
        shown = f'<span class="{state}">{"connected" if it.is_connected else "away"}</span>'
        counts = [str(it.connections), str(it.sent), str(it.received), str(it.lost)]
        rows.append([html.escape(it.name), html.escape(it.address), shown, *counts])
    return table(["issuer", "address", "state", "connections", "sent", "received", "for nobody"], rows, {3, 4, 5, 6})


def transactions_of(status: Status, find: Find) -> str:
    rows = []
    for it in status.last:
        number = find(it)
        code = html.escape(it.code)
        path = f'<a href="/path/{html.escape(it.engine)}/{number}">path</a>' if number is not None else ""
        at = time.strftime("%H:%M:%S", time.localtime(it.at))
        told = [html.escape(text) for text in (it.mti, it.stan, it.card)]
        rows.append([at, *told, code, f"{it.milliseconds:.1f}", html.escape(it.engine), path])
    return table(["time", "MTI", "STAN", "card", "result code", "ms", "engine", ""], rows, {5})


def part(status: Status, find: Find) -> str:
    """What is shown anew each second."""
    shown = [numbers_of(status), "<h2>Engines</h2>", engines_of(status), "<h2>Issuers</h2>", issuers_of(status)]
    return "".join([*shown, "<h2>Last transactions</h2>", transactions_of(status, find)])


def page(status: Status, find: Find) -> str:
    return whole("cardswitch gateway", part(status, find), SCRIPT)


def path_page(title: str, picture: str, record: dict[str, object]) -> str:
    rows = [[html.escape(name), html.escape(str(value))] for name, value in record.items()]
    return whole(title, f'{picture}{NOTE}{table(["", ""], rows, set())}<p><a href="/">all</a></p>')
