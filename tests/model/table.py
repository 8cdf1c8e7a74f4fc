"""The specified table of a transaction, over a list of what is still to come, and its trace.

crates/tx_machine/specs/Table.antt has the table, docs/use/TRACE.md the lines.
"""

import re
from dataclasses import dataclass

PREPARED, RETRY, NO_JOIN, READONLY = 0x01, 0x02, 0x40, 0x80
BOUND = 1000
NAMES = 16


def is_bad(byte):
    return byte & ~(PREPARED | RETRY | NO_JOIN | READONLY) != 0


def reading(byte):
    """The bits that an answer byte says: none if it is bad, no RETRY beside PREPARED."""
    if is_bad(byte):
        return 0
    return byte & ~RETRY if byte & PREPARED else byte


@dataclass(frozen=True)
class Placed:
    """An entry at its place."""

    group: str
    index: int
    name: str
    kind: object

    @property
    def place(self):
        return f"{self.name} {self.group}/{self.index}"


def placed_of(group):
    return [Placed(group.name, index, entry.participant, entry.kind) for index, entry in enumerate(group.entries)]


def names_of(text):
    """The first sixteen of the longest runs without spaces and commas."""
    return [name for name in re.split("[ ,]+", text) if name][:NAMES]


class Transaction:
    """One transaction: what is to come, and what its replies lead to."""

    def __init__(self, flow, tries):
        self.groups = {group.name: placed_of(group) for group in flow.groups}
        self.phase = "P"
        # What is to come, the first at the end: ("enter", entry) or ("ask", entry).
        self.rest = [("enter", entry) for entry in reversed(self.groups["main"])]
        self.tries = tries
        self.retry = False
        self.bound = False
        self.calls = 0
        self.members = []
        self.told = 0
        self.settle()

    def settle(self):
        """Passes over what is not called, drops what is beyond the bound, and decides the outcome if nothing is to come."""
        while self.phase == "A" and self.rest:
            what, entry = self.rest[-1]
            if what == "ask" or entry.kind.abort_aware:
                break
            self.rest.pop()
            if entry.kind.selector:
                self.rest.append(("ask", entry))
        if self.calls == BOUND and self.rest:
            self.rest, self.phase, self.retry, self.bound = [], "A", False, True
        if not self.rest and self.members:
            self.phase = {"P": "C", "A": "U"}.get(self.phase, self.phase)

    def due(self):
        """The call or end that is due, with the entry of a call."""
        if self.rest:
            what, entry = self.rest[-1]
            if what == "ask":
                return "select", entry
            return ("prepare" if self.phase == "P" else "prepare_for_abort"), entry
        if self.phase in "CU" and self.told < len(self.members):
            return ("commit" if self.phase == "C" else "abort"), self.members[self.told]
        is_shelved = self.phase in "AU" and self.retry and self.tries > 0
        return ("shelve" if is_shelved else "done"), None

    def answered(self, byte):
        entry = self.rest.pop()[1]
        said = reading(byte)
        if self.phase == "P" and not said & PREPARED:
            self.phase, self.retry = "A", bool(said & RETRY)
        if not said & NO_JOIN:
            self.members.append(entry)
        if entry.kind.selector:
            self.rest.append(("ask", entry))
        self.calls += 1
        self.settle()

    def chose(self, text):
        self.rest.pop()
        chosen = [entry for name in names_of(text) for entry in self.groups.get(name, [])]
        self.rest += [("enter", entry) for entry in reversed(chosen)]
        self.calls += 1
        self.settle()

    def was_told(self):
        self.told += 1


def next_text(due):
    call, entry = due
    if call in ("prepare", "prepare_for_abort", "select"):
        return f"{call} {entry.place}"
    return f"{call} {entry.name}" if entry else call


def answer_text(transaction, due, byte):
    """The line of an answer up to `-> NEXT`, before it is given."""
    said = reading(byte)
    bad = "bad " if is_bad(byte) else ""
    join = "nojoin" if said & NO_JOIN else "join"
    context = "noctx" if said & READONLY else "ctx"
    return f"{transaction.phase} {due[0]} {due[1].place} {byte:02x} {bad}{join} {context}"


def choice_text(transaction, due, text):
    known = ",".join(name for name in names_of(text) if name in transaction.groups)
    return f"{transaction.phase} select {due[1].place} [{known}]"
