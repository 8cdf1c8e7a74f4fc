"""Several sessions on one queue, their journal, breakpoints, stops and recoveries: what the lines of a script print.

The journal is kept twice: `now`, with all entries, and `written`, with those that were written. A stop leaves `written`.
`replies` is asked what participants reply, given the transaction and its due call.
"""

import copy
from dataclasses import dataclass, field

from model import table
from model.table import READONLY, next_text, reading


class Refused(Exception):
    """The error with which the engine refuses an event."""


@dataclass
class View:
    """What a journal holds."""

    next_id: int = 1
    rows: dict = field(default_factory=dict)
    shelf: dict = field(default_factory=dict)
    advices: dict = field(default_factory=dict)
    # The names of those who joined, in the order in which they first did.
    parts: list = field(default_factory=list)

    def put(self, number, row):
        self.rows[number] = row
        self.parts += [name for name in row.joined if name not in self.parts]


@dataclass
class Row:
    """An unfinished transaction in the journal."""

    phase: str
    joined: list
    told: int
    doing: str
    tries: int
    saved: dict


def size_of(context):
    """The number of bytes of a context."""
    return 1 + sum(3 + len(name) + len(value) for name, value in context.items())


def put_all(context, pairs):
    """Puts entries in their order; one that finds the context full is not put."""
    for name, value in pairs:
        if name in context or len(context) < 64:
            context[name] = value


class Running:
    """A transaction that was taken."""

    recovering = ""

    def __init__(self, flow, number, tries, context):
        self.id, self.tries, self.live, self.saved = number, tries, dict(context), dict(context)
        self.table = table.Transaction(flow, tries)
        self.last = 0
        self.is_let_go = False

    def due(self):
        return self.table.due()

    @property
    def phase(self):
        return self.table.phase

    def row(self):
        """Its row in the journal; None at its end."""
        call, entry = self.due()
        if call in ("shelve", "done"):
            return None
        doing = entry.name if call in ("prepare", "prepare_for_abort") else None
        joined = [member.name for member in self.table.members]
        return Row(self.phase, joined, self.table.told, doing, self.tries, dict(self.saved))

    def place(self):
        """The number of the member that is notified."""
        return self.table.told

    def rest(self):
        return [f"{entry.group}/{entry.index}" for what, entry in reversed(self.table.rest) if what == "enter"]


class Recovered:
    """An unfinished transaction of a journal after a restart: who is still to be notified."""

    recovering = "recovering "

    def __init__(self, number, row, kinds):
        self.id, self.tries, self.live, self.saved = number, row.tries, dict(row.saved), dict(row.saved)
        self.phase = "C" if row.phase == "C" else "U"
        self.told = row.told if row.phase in "CU" else 0
        self.joined = list(row.joined)
        if row.phase in "PA" and row.doing:
            self.joined.append(row.doing)
        self.kinds = kinds
        self.is_restored = False
        self.last = 0
        self.is_let_go = False

    def due(self):
        if self.told == len(self.joined):
            return "done", None
        member = self.kinds[self.joined[self.told]]
        if member.kind.recovers and not self.is_restored:
            return "recover", member
        return ("commit" if self.phase == "C" else "abort"), member

    def row(self):
        if self.told == len(self.joined):
            return None
        return Row(self.phase, self.joined, self.told, None, self.tries, dict(self.saved))

    def place(self):
        return self.told

    def rest(self):
        return []


def steps_of(flow):
    """The step of each entry's call, by its place."""
    steps, at = {}, 0
    for group in flow.groups:
        for index, entry in enumerate(group.entries):
            steps[group.name, index] = at
            at += 1 + entry.kind.selector
        at += 1
    return steps


class Engine:
    """The engine with its journal and its stations."""

    def __init__(self, flow, sessions, replies):
        self.flow, self.replies = flow, replies
        self.sessions = [None] * sessions
        self.first = {
            entry.participant: table.Placed("", 0, entry.participant, entry.kind) for entry in flow.participants()
        }
        self.steps = steps_of(flow)
        self.calls = {}
        self.written = View()
        self.open()

    def open(self):
        """Begins from what is written."""
        self.now = copy.deepcopy(self.written)
        self.history, self.mark, self.queue, self.breaks = [], 0, [], set()
        # The live contexts of the transactions that ended with `done`, by their ids.
        self.ended = {}
        self.sessions = [None] * len(self.sessions)
        self.recovering = []
        for number, row in sorted(self.now.rows.items()):
            its = Recovered(number, row, self.first)
            if its.row():
                self.recovering.append(its)
            else:
                self.enter(lambda view, number=number: view.rows.pop(number))
        self.hold_next()

    def hold_next(self):
        """Session 0 holds the recovered ones first."""
        if self.sessions[0] is None and self.recovering:
            self.sessions[0] = self.recovering.pop(0)

    def unfinished_recovered(self):
        return len(self.recovering) + isinstance(self.sessions[0], Recovered)

    def enter(self, change=lambda view: None):
        """One more entry: its change of the journal is made now, and again when it is written."""
        change(self.now)
        self.history.append(change)
        return len(self.history)

    def session(self, number):
        if number >= len(self.sessions):
            raise Refused("NoSession")
        return self.sessions[number]

    # The events, each with the line that it prints.

    def offer(self, context):
        self.enter()
        self.queue.append((self.flow.retries, context))
        return f"offer {size_of(context)}"

    def take(self, number):
        held = self.session(number)
        if self.unfinished_recovered():
            raise Refused("Recovering")
        if held:
            raise Refused("Busy")
        if not self.queue:
            raise Refused("Empty")
        if self.now.next_id == 2**63 - 1:
            raise Refused("IdsSpent")
        its = Running(self.flow, self.now.next_id, *self.queue.pop(0))

        def change(view, row=its.row()):
            view.next_id += 1
            if row:
                view.put(its.id, row)

        self.sessions[number] = its
        self.record(number, its, change)
        return f"{its.id} take {number} -> {next_text(its.due())}"

    def record(self, number, its, change):
        """An entry of a session's own transaction, which leaves the session idle at its end."""
        its.last = self.enter(change)
        its.is_let_go = False
        if its.row() is None:
            if its.due()[0] == "done":
                self.ended[its.id] = its.live
            self.sessions[number] = None
            self.hold_next()

    def release(self):
        released = sorted(self.now.shelf.items())
        self.enter(lambda view: view.shelf.clear())
        self.queue += [pair for _, pair in released]
        return f"release {len(released)}"

    def ack(self, number, place):
        if (number, place) not in self.now.advices:
            raise Refused("NoAdvice")
        self.enter(lambda view: view.advices.pop((number, place)))
        return f"ack {number} {place}"

    def set_break(self, name):
        if name not in self.first:
            raise Refused("NoParticipant")
        self.enter()
        self.breaks.add(name)
        return f"break {name}"

    def clear(self, name):
        if name not in self.first:
            raise Refused("NoParticipant")
        self.enter()
        self.breaks.discard(name)
        return f"clear {name}"

    def is_held(self, its):
        return its is not None and its.due()[1].name in self.breaks and not its.is_let_go

    def go(self, number):
        its = self.session(number)
        if not self.is_held(its):
            raise Refused("NotHeld")
        self.enter()
        its.is_let_go = True
        return f"go {number}"

    def call(self, number):
        """One step of a session."""
        its = self.session(number)
        if its is None:
            return f"idle {number}"
        if its.last > self.mark:
            return f"unwritten {number}"
        if self.is_held(its):
            return f"held {number} {next_text(its.due())}"
        return self.step(number, its)

    def step(self, number, its):
        due = its.due()
        call, entry = due
        self.calls[entry.name] = self.calls.get(entry.name, 0) + 1
        was_bound = isinstance(its, Running) and its.table.bound
        advice = None
        if call in ("prepare", "prepare_for_abort"):
            line = self.answer(its, due)
        elif call == "select":
            text = self.replies.choice(its, due)
            line = table.choice_text(its.table, due, text)
            its.table.chose(text)
        elif call == "recover":
            put_all(its.live, self.replies.restored(its, due))
            its.is_restored = True
            line = f"{its.phase} recover {entry.name} recovering"
        else:
            line, advice = self.tell(its, due)
        bound = " bound" if isinstance(its, Running) and its.table.bound and not was_bound else ""
        self.record(number, its, self.change_of(its, call, advice))
        return f"{its.id} {line}{bound} -> {next_text(its.due())}"

    def answer(self, its, due):
        byte, pairs = self.replies.answer(its, due)
        line = table.answer_text(its.table, due, byte)
        put_all(its.live, pairs)
        if not reading(byte) & READONLY:
            its.saved = dict(its.live)
        its.table.answered(byte)
        return line

    def tell(self, its, due):
        """The line of an outcome, and its advice with its key."""
        call, entry = due
        body, place, phase = self.replies.advice(its, due), its.place(), its.phase
        if isinstance(its, Running):
            its.table.was_told()
        else:
            its.told += 1
            its.is_restored = False
        told = f"advice {place} " if body is not None else ""
        line = f"{phase} {call} {entry.name} {its.recovering}{told}".rstrip()
        return line, None if body is None else ((its.id, place), body)

    def change_of(self, its, call, advice):
        """What an entry of a transaction changes in the journal."""
        row, end, shelved = its.row(), its.due()[0], (its.tries - 1, dict(its.saved))

        def change(view):
            if call == "recover":
                return
            if row:
                view.put(its.id, row)
            else:
                view.rows.pop(its.id, None)
            if advice:
                view.advices[advice[0]] = advice[1]
            if end == "shelve":
                view.shelf[its.id] = shelved

        return change

    def write(self, count=None):
        unwritten = self.history[self.mark :]
        for change in unwritten if count is None else unwritten[:count]:
            change(self.written)
            self.mark += 1
        return f"written {self.mark}"

    def stop(self):
        self.open()
        return f"restart {self.unfinished_recovered()}"

    def cut(self):
        if any(self.sessions):
            raise Refused("InUse")
        if self.mark < len(self.history):
            raise Refused("NotWritten")
        self.history, self.mark = [], 0
        return f"cut {self.now.next_id}"

    # What is only looked at.

    def where(self, number):
        its = self.sessions[number] if number < len(self.sessions) else None
        if its is None:
            return f"idle {number}"
        call, entry = its.due()
        if its.phase in "CU":
            return f"where {its.id} {its.phase} {call} {entry.name}"
        step = self.steps[entry.group, entry.index] + (call == "select")
        return f"where {its.id} {its.phase} {call} {entry.name} step {step} {entry.group}/{entry.index}"

    def rest(self, number):
        its = self.sessions[number] if number < len(self.sessions) else None
        return " ".join(["rest", *(its.rest() if its else [])])

    def saved(self, number):
        its = self.session(number)
        if its is None:
            return f"idle {number}"
        return " ".join([f"saved {its.id}", *(f"{name}={value.hex()}" for name, value in its.saved.items())])

    def auto(self):
        """One transaction with an empty context, and all that session 0 has to do; the lines of its steps."""
        self.offer({})
        try:
            self.take(0)
        except Refused as refused:
            yield f"refused {refused}"
        while True:
            self.write()
            line = self.call(0)
            if line == "idle 0":
                break
            yield line
            if line.startswith("held 0 "):
                break
        self.write()
