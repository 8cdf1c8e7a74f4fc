"""Random streams of requests for `run`, each with the responses and the journal that the model answers."""

import json
import re

from harness.case import Case, Exactly, difference
from model import messages, records, traces
from model.flows import Entry, Flow, Group, Kind
from model.switch import Switch

SELECTOR, ABORT_AWARE, PLAIN = Kind(selector=True), Kind(abort_aware=True), Kind()
QUERIES = ("alpha", "beta")
CARDS = [b"4000000000000002", b"5100000000000008", b"5500000000000004", b"6011000000000004", b"40000000000", b"4" * 19]
LAST = [0, 0, 0, 0, 5, 51, 54, 61, 91, 91, 99]
TERMINALS = [b"TERM0001", b"TERM0002", b"T2      "]


def group(name, *entries):
    return Group(name, [Entry(participant, kind) for participant, kind in entries])


def whole_flow():
    """The flow with stand-in, reversal and forwarding."""
    made = [group("main", ("check", PLAIN), ("limits", PLAIN), ("route", SELECTOR), ("forward", PLAIN), ("respond", ABORT_AWARE))]
    made += [group(name, ("reverse", PLAIN), (f"query_{name}", PLAIN), ("standin", PLAIN)) for name in QUERIES]
    return Flow(0, made)


def short_flow():
    """The flow that knows only authorizations."""
    made = [group("main", ("check", PLAIN), ("limits", PLAIN), ("route", SELECTOR), ("respond", ABORT_AWARE))]
    return Flow(0, made + [group(name, (f"query_{name}", PLAIN)) for name in QUERIES])


def flow_file(flow):
    """The flow file of a flow."""
    lines = []
    for it in flow.groups:
        lines += ["[[group]]", f'name = "{it.name}"']
        for entry in it.entries:
            lines += ["[[group.entry]]", f'participant = "{entry.participant}"']
            lines += ["selector = true"] * entry.kind.selector + ["abort_aware = true"] * entry.kind.abort_aware
    return "".join(f"{line}\n" for line in lines).encode()


def authorization(random):
    amount = random.randrange(0, 100_000, 100) if random.random() < 0.3 else random.randrange(0, 1_200, 100)
    fields = {
        2: random.choice(CARDS),
        3: b"000000",
        4: b"%012d" % (amount + random.choice(LAST)),
        7: b"%010d" % random.randrange(10**10),
        11: b"%06d" % random.randrange(10**6),
        41: random.choice(TERMINALS),
        49: b"978",
    }
    for number, value in ((12, b"123456"), (13, b"1122"), (32, b"12345"), (33, b"678"), (37, b"REF000000001"), (42, b"MERCHANT 000001")):
        if random.random() < 0.2:
            fields[number] = value
    return random.choice([b"0100", b"0100", b"0101"]), fields


def reversal(random, original):
    """A reversal of a request that came before."""
    mti, was = original
    fields = {number: was[number] for number in (2, 3, 4, 7, 41, 49) if number in was}
    fields[11] = b"%06d" % random.randrange(10**6)
    fields[90] = mti + was.get(11, b"000000") + was.get(7, b"0" * 10) + b"0" * 22
    return random.choice([b"0400", b"0401", b"0420", b"0421"]), fields


def request(random, before):
    """A request: a new one, one that came before, a reversal, a network test, or another type."""
    chance = random.random()
    if before and chance < 0.1:
        return random.choice(before)
    if before and chance < 0.3:
        return reversal(random, random.choice(before))
    if chance < 0.36:
        return random.choice([b"0800", b"0801"]), {11: b"%06d" % random.randrange(10**6), 70: b"301"}
    made = authorization(random)
    if chance < 0.4:
        return random.choice([b"0110", b"0200", b"0120", b"0810"]), made[1]
    return made


# Values that a field accepts, but that are wrong for a request, or useless.
USELESS = {
    2: [b"", b"4" * 11, b"4" * 12, b"9" * 19],
    4: [b"0" * 12, b"9" * 12],
    7: [b"0" * 10],
    11: [b"0" * 6],
    32: [b""],
    33: [b"9" * 11],
    41: [b" " * 8],
    70: [b"000"],
    90: [b"0" * 42],
}


def foreign(random, number, value):
    """A value with a byte that its field does not accept: the message cannot be read."""
    bad = b"x/:\x00" if messages.FORMS[number][0] is messages.N else b"\x1f\x7f\x80\n"
    at = random.randrange(len(value)) if value else 0
    return value[:at] + bytes([random.choice(bad)]) + value[at + 1 :]


def spoilt(random, fields):
    """The fields without one of them, with one of them spoilt, or as they are."""
    # A message that came before may have lost all its fields.
    if not fields:
        return fields
    chance, number, fields = random.random(), random.choice(list(fields)), dict(fields)
    if chance < 0.12:
        del fields[number]
    elif chance < 0.18:
        fields[number] = random.choice(USELESS.get(number, [fields[number]]))
    elif chance < 0.21:
        fields[number] = foreign(random, number, fields[number])
    return fields


def whole_request(mti):
    """A request with all fields that the switch looks at or copies."""
    fields = {2: CARDS[0], 3: b"000000", 4: b"000000000100", 7: b"0102030405", 11: b"000000", 12: b"123456", 13: b"1122"}
    fields |= {32: b"12345", 33: b"678", 37: b"REF000000001", 41: TERMINALS[0], 42: b"MERCHANT 000001", 49: b"978"}
    if mti[:2] == b"04":
        fields[90] = b"0100" + b"000000" + fields[7] + b"0" * 22
    return fields | {70: b"301"} if mti[:2] == b"08" else fields


def spoilings(random, mti):
    """The whole request, then without each field, and with each field spoilt in turn."""
    fields = whole_request(mti)
    yield fields
    for number, value in fields.items():
        yield {other: fields[other] for other in fields if other != number}
        yield fields | {number: foreign(random, number, value)}
        for bad in USELESS.get(number, []):
            yield fields | {number: bad}


def fields_case(random, name):
    """Each field of each class of request missing and spoilt, each in a request of its own."""
    made = []
    for mti in (b"0100", b"0101", b"0400", b"0421", b"0800", b"0801"):
        for fields in spoilings(random, mti):
            if fields.get(11) == b"000000":
                fields = fields | {11: b"%06d" % (len(made) + 1)}
            made.append(messages.encode(mti, fields))
    return served(name, whole_flow(), 999_999_999_999_999, made, True)


UNREADABLE = [b"", b"0100", b"x" * 30]


def stream(random):
    """The messages of a run."""
    before, made = [], []
    for _ in range(random.choice([1, 2, 5, 10, 20])):
        mti, fields = request(random, before)
        fields = spoilt(random, fields)
        before.append((mti, fields))
        made.append(messages.encode(mti, fields))
    if random.random() < 0.2:
        made.insert(random.randrange(len(made) + 1), random.choice([*UNREADABLE, made[0][:-1]]))
    return made


def apart(random, count):
    """Messages whose transactions do not see one another: no card whose limit is asked for is in two of them."""
    made = []
    for number in range(count):
        mti, fields = request(random, [])
        if random.random() < 0.15:
            # (the reversal of a request that never came)
            mti, fields = reversal(random, (mti, fields))
        fields = spoilt(random, fields)
        if len(fields.get(2, b"")) >= 12:
            fields = fields | {2: fields[2][:2] + b"%010d" % number + fields[2][12:]}
        made.append(messages.encode(mti, fields))
    return made


def meeting(random, limit, before):
    """Requests that meet if they are under way at once."""
    original = mti, fields = authorization(random)
    what = random.randrange(5)
    if what == 0:
        return [original] * random.choice([2, 2, 3, 5])
    if what == 1:
        amount = b"%012d" % min((limit // 200 + 1) * 100, 999_999_999_900)
        return [(mti, fields | {4: amount, 11: b"%06d" % random.randrange(10**6)}) for _ in range(random.choice([2, 3]))]
    if what == 2:
        undone = reversal(random, original)
        return random.choice([[original, undone], [original, undone, undone], [undone, original], [original, undone, original]])
    return [request(random, before)]


def crowd(random, limit, count):
    """Messages of all classes, at least this many; those that meet come one after the other."""
    before, made = [], []
    while len(made) < count:
        for mti, fields in meeting(random, limit, before):
            fields = spoilt(random, fields) if random.random() < 0.3 else fields
            before.append((mti, fields))
            made.append(messages.encode(mti, fields))
        if random.random() < 0.05:
            made.append(random.choice(UNREADABLE))
    return made


def run_case(random, name):
    flow = whole_flow() if random.random() < 0.8 else short_flow()
    limit = random.choice([10_000, 10_000, 0, 700, 999_999_999_999_999])
    made, is_file = stream(random), random.random() < 0.5
    if random.random() < 0.2:
        return recorded(name, flow, limit, made)
    form, every = random.choice([None, None, "", "=text", "=json"]), None
    if form is None:
        every = random.choice([None, None, None, 0, 1, 2, 3, 7])
    return served(name, flow, limit, made, is_file, form, every)


def served(name, flow, limit, made, is_file, form=None, every=None):
    """The case of a run over a journal in memory, or on a file, whose tables are then shown; with the trace if it has a form, otherwise
    with `--stats` if `every` says after how many requests there is a line (0: only at the end)."""
    command = f"cardswitch run --flow flow.toml --limit {limit}" + ("" if form is None else f" --trace{form}")
    if every is not None:
        command += f" --stats {every}" if every else " --stats"
    switch = Switch(flow, limit)
    if every is None:
        told, lines = list(switch.told(made)), None
        frames = switch.responses()
    else:
        told, (frames, lines) = None, switch.counted(made, every)
    if is_file:
        command += " --journal journal.db && tables journal.db"
        frames += "".join(f"{line}\n" for line in tables(switch)).encode()
    case = Case(name, command, b"".join(map(messages.framed, made)))
    case.files = {"flow.toml": flow_file(flow)}
    case.stdout = Exactly(frames)
    case.stderr = Told(told, form) if every is None else Lines(lines)
    return case


# Takes the times out of the lines of a log, where they have their form.
UNTIMED = 's/,"time":"[0-9]{4}-[0-9]{2}-[0-9]{2}T[0-9]{2}:[0-9]{2}:[0-9]{2}[.][0-9]{3}Z"//; s/,"host_ms":[0-9]+,/,/; s/,"ms":[0-9]+}$/}/'


# The records in a trace as JSON: of the transactions that are taken, and of those that end.
TAKEN = r's/^\{"event":"take",.*,"record":(.*)\}$/\1/p'
ENDED = r's/^.*,"next":\{"call":"done"\},"record":(.*)\}$/\1/p'


def recorded(name, flow, limit, made):
    """The case of a run with a log, whose lines are then shown without their times, and then the records in its trace."""
    command = f"cardswitch run --flow flow.toml --limit {limit} --log log --trace=json 2> trace && grep -v '^{{' trace >&2"
    command += f" && sed -E '{UNTIMED}' log && sed -nE '{TAKEN}' trace && sed -nE '{ENDED}' trace | sed -E '{UNTIMED}'"
    switch = Switch(flow, limit)
    wanted, taken = records.lines(switch, made)
    case = Case(name, command, b"".join(map(messages.framed, made)))
    case.files = {"flow.toml": flow_file(flow)}
    case.stdout = Exactly(switch.responses() + wanted + taken + wanted)
    case.stderr = Ready(Told(passed(made)))
    return case


def tables(switch):
    """The rows that the journal has at the end: no transaction is unfinished."""
    now = switch.engine.now
    lines = ["meta 1 2", f"meta 2 {now.next_id}"]
    lines += [f"part {number} {name}" for number, name in enumerate(now.parts)]
    return lines + [f"advice {number} {place} {it.hex()}" for (number, place), it in sorted(now.advices.items())]


class Frames(Exactly):
    """Exactly these frames, each of which is shown as a line if they differ."""

    def wrong(self, name, came):
        return None if came == self.text else difference(name, *map(messages.shown, (self.text, came)))


def passed(made):
    """The numbers of the messages that are passed over."""
    return [number for number, it in enumerate(made, 1) if not messages.is_message(it)]


TIME = re.compile(rb"requests=(\d+) .* seconds=(\d+)\.(\d{3}) per-second=(\d+)")


class Lines:
    """On standard error: lines that begin like these, and no others. In lines of numbers the rate has to be that of the time."""

    def __init__(self, beginnings):
        self.beginnings = beginnings

    def wrong(self, name, came):
        lines = came.splitlines()
        if len(lines) != len(self.beginnings) or not all(line.startswith(it) for line, it in zip(lines, self.beginnings)):
            return f"{name}: wanted lines that begin with {self.beginnings}, came {came!r}"
        for line in lines:
            if line.startswith(b"cardswitch: stats: "):
                time = TIME.search(line)
                requests, whole, part, rate = map(int, time.groups()) if time else (0, 0, 0, -1)
                if rate != requests * 1000 // max(1, whole * 1000 + part):
                    return f"{name}: the rate is not that of the time in {line!r}"
        return None


def shown_in(form, it):
    """A line of the trace in this form, or how the line of a message that is passed over begins."""
    if isinstance(it, int):
        return b"cardswitch: message %d is passed over: " % it
    return (traces.json_line(*it) if form == "=json" else it[0]).encode()


class Told:
    """On standard error: the trace, if it has a form, and a line for each message that cannot be read, each in its place."""

    def __init__(self, told, form=None):
        self.told = [it for it in told if isinstance(it, int) or form is not None]
        self.wanted, self.form = [shown_in(form, it) for it in self.told], form

    def is_right(self, it, wanted, line):
        if isinstance(it, int):
            return line.startswith(wanted)
        return line == wanted and (self.form != "=json" or json.loads(line) == json.loads(wanted))

    def wrong(self, name, came):
        lines = came.splitlines()
        pairs = zip(self.told, self.wanted, lines)
        if len(lines) == len(self.wanted) and all(self.is_right(*pair) for pair in pairs):
            return None
        return difference(name, *(b"\n".join(them) for them in (self.wanted, lines)))


class Ready:
    """On standard error: the line that a run with a log is ready, and then what is told."""

    LINE = b"cardswitch: ready: flow flow.toml, hosts alpha beta, journal in memory, sessions 1\n"

    def __init__(self, told):
        self.told = told

    def wrong(self, name, came):
        if not came.startswith(self.LINE):
            return f"{name}: wanted a first line {self.LINE!r}, came {came!r}"
        return self.told.wrong(name, came[len(self.LINE) :])
