"""The paths of transactions through the flow: what an engine's trace says of them, and the picture of it."""

import collections
import dataclasses
import html
import json
import re
import subprocess

# How many paths are kept, and how many steps of one.
MOST, STEPS = 200, 200
# Type and STAN of the network tests that idle engines get: nobody looks for their paths.
GATEWAY_TEST = ("0800", "000000")
# Sizes in the picture.
WIDTH, HEIGHT, GAP, MARGIN = 190, 34, 16, 24
GROUP = re.compile(r'subgraph group(\d+) \["(.*)"\]')
ENTRY = re.compile(r'e(\d+)_(\d+)(?:\["(.*)"\]|\{\{"(.*)"\}\})$')


@dataclasses.dataclass(frozen=True)
class Step:
    """A call of a participant, and what it answered."""

    group: str
    index: int
    call: str
    phase: str
    code: str


@dataclasses.dataclass
class Path:
    engine: str
    number: int
    steps: list[Step] = dataclasses.field(default_factory=list)
    record: dict[str, object] = dataclasses.field(default_factory=dict)

    @property
    def name(self) -> tuple[str, str, str, str]:
        """By what a request is found: its engine, its type, its STAN and its masked card."""
        type_, stan, card = (str(self.record.get(it, "")) for it in ("type", "stan", "card"))
        return self.engine, type_, stan, card


class Paths:
    """The last paths of all engines, by the lines of their traces as JSON."""

    def __init__(self) -> None:
        self.open: dict[tuple[str, int], Path] = {}
        self.ended: collections.OrderedDict[tuple[str, int], Path] = collections.OrderedDict()
        # By their names: the last one of each.
        self.known: dict[tuple[str, str, str, str], tuple[str, int]] = {}

    def line(self, engine: str, text: str) -> None:
        try:
            told = json.loads(text)
        except ValueError:
            return
        key = engine, told.get("id", 0)
        if told["event"] == "take":
            self.open[key] = Path(*key)
            if len(self.open) > MOST:
                del self.open[next(iter(self.open))]
        path = self.open.get(key)
        if path is None:
            return
        if "group" in told and len(path.steps) < STEPS:
            phase, code = told.get("phase", ""), told.get("rc", "")
            path.steps.append(Step(told["group"], told["index"], told["call"], phase, code))
        if told.get("next", {}).get("call") in ("done", "shelve"):
            path.record = told.get("record", {})
            self.end(key)

    def end(self, key: tuple[str, int]) -> None:
        path = self.open.pop(key)
        if path.name[1:3] == GATEWAY_TEST:
            return
        self.ended[key], self.known[path.name] = path, key
        if len(self.ended) > MOST:
            old, gone = self.ended.popitem(last=False)
            if self.known.get(gone.name) == old:
                del self.known[gone.name]

    def find(self, engine: str, mti: str, stan: str, card: str) -> int | None:
        """The number of the transaction that had this request."""
        at = self.known.get((engine, mti, stan, card))
        return None if at is None else at[1]


@dataclasses.dataclass(frozen=True)
class Flow:
    """The groups of a flow, each with the names of its entries."""

    groups: dict[str, list[str]]


def flow_of(program: str, flow: str) -> Flow:
    """The flow by `cardswitch graph`; one without groups if that does not answer."""
    try:
        ran = subprocess.run(
            [program, "graph", "--flow", flow], capture_output=True, text=True, timeout=30, check=False
        )
    except (OSError, subprocess.TimeoutExpired):
        return Flow({})
    groups: dict[str, list[str]] = {}
    name = ""
    for line in ran.stdout.splitlines():
        if found := GROUP.fullmatch(line.strip()):
            name = found[2]
            groups[name] = []
        elif name and (entry := ENTRY.fullmatch(line.strip())):
            groups[name].append(entry[3] or entry[4])
    return Flow(groups)


def picture(flow: Flow, path: Path) -> str:
    """The flow as SVG: a column for each group, and the steps of the path as numbers at the entries, joined by a
    line."""
    marks: dict[tuple[str, int], list[str]] = {}
    for number, step in enumerate(path.steps, 1):
        marks.setdefault((step.group, step.index), []).append(
            f"{number}{'!' if step.phase in 'AU' and step.phase else ''}"
        )
    codes = {(step.group, step.index): step.code for step in reversed(path.steps) if step.code}
    places = {name: number for number, name in enumerate(flow.groups)}
    rows = max((len(entries) for entries in flow.groups.values()), default=0)
    width = MARGIN + len(places) * (WIDTH + 2 * MARGIN)
    height = 2 * MARGIN + HEIGHT + rows * (HEIGHT + GAP)
    parts = [
        f'<svg xmlns="http://www.w3.org/2000/svg" viewBox="0 0 {width} {height}" width="{width}" height="{height}">'
    ]
    parts.append(line_of(path, places))
    for name, entries in flow.groups.items():
        parts += column(name, entries, places[name], marks, codes)
    return "".join([*parts, "</svg>"])


def corner(place: int, index: int) -> tuple[int, int]:
    """The upper left corner of an entry's box."""
    return MARGIN + place * (WIDTH + 2 * MARGIN), MARGIN + HEIGHT + index * (HEIGHT + GAP)


def column(
    name: str,
    entries: list[str],
    place: int,
    marks: dict[tuple[str, int], list[str]],
    codes: dict[tuple[str, int], str],
) -> list[str]:
    left, top = corner(place, 0)
    parts = [f'<text class="group" x="{left}" y="{top - 12}">{html.escape(name)}</text>']
    for index, entry in enumerate(entries):
        left, top = corner(place, index)
        kind = "taken" if (name, index) in marks else "passed"
        parts.append(f'<rect class="{kind}" x="{left}" y="{top}" width="{WIDTH}" height="{HEIGHT}" rx="6"/>')
        parts.append(f'<text x="{left + 10}" y="{top + 22}">{html.escape(entry)}</text>')
        told = " ".join(marks.get((name, index), []))
        code = codes.get((name, index), "")
        parts.append(f'<text class="mark" x="{left + WIDTH - 6}" y="{top + 14}">{html.escape(told)}</text>')
        kind = "code right" if code == "00" else "code"
        parts.append(f'<text class="{kind}" x="{left + WIDTH - 6}" y="{top + 29}">{html.escape(code)}</text>')
    return parts


def line_of(path: Path, places: dict[str, int]) -> str:
    """The line that joins the entries in the order of the steps."""
    points = []
    for step in path.steps:
        if step.group in places:
            left, top = corner(places[step.group], step.index)
            points.append(f"{left + WIDTH // 2},{top + HEIGHT // 2}")
    return f'<polyline class="way" points="{" ".join(points)}"/>'
