"""A journal's tables in both layouts, their first row at fault, and the view that they hold. docs/use/FORMATS.md has them."""

import contextlib
import copy
import re
import sqlite3
from dataclasses import dataclass, field

from harness.case import Case, Exactly
from model import texts
from model.engine import Row, View

NAME = re.compile(r"[A-Za-z0-9_.-]{1,32}\Z")
PHASES = "PACU"
LAYOUTS = {
    1: """
CREATE TABLE meta (k INTEGER NOT NULL PRIMARY KEY, v INTEGER NOT NULL) STRICT
CREATE TABLE tx (id INTEGER NOT NULL PRIMARY KEY, phase INTEGER NOT NULL, told INTEGER NOT NULL, doing TEXT NOT NULL, tries INTEGER NOT NULL, context BLOB NOT NULL) STRICT
CREATE TABLE member (id INTEGER NOT NULL REFERENCES tx (id) ON DELETE CASCADE, place INTEGER NOT NULL, name TEXT NOT NULL, PRIMARY KEY (id, place)) STRICT
CREATE TABLE shelf (id INTEGER NOT NULL PRIMARY KEY, tries INTEGER NOT NULL, context BLOB NOT NULL) STRICT
CREATE TABLE advice (id INTEGER NOT NULL, place INTEGER NOT NULL, body BLOB NOT NULL, PRIMARY KEY (id, place)) STRICT
""",
}
LAYOUTS[2] = LAYOUTS[1] + """
CREATE TABLE part (n INTEGER NOT NULL PRIMARY KEY, name TEXT NOT NULL UNIQUE) STRICT
CREATE TABLE joined (id INTEGER NOT NULL REFERENCES tx (id) ON DELETE CASCADE, place INTEGER NOT NULL, part INTEGER NOT NULL REFERENCES part (n), PRIMARY KEY (id, place)) STRICT
"""


@dataclass
class Tables:
    """The rows of a database, each table as a map from its key to the other values."""

    layout: int
    meta: dict = field(default_factory=dict)
    tx: dict = field(default_factory=dict)
    member: dict = field(default_factory=dict)
    part: dict = field(default_factory=dict)
    joined: dict = field(default_factory=dict)
    shelf: dict = field(default_factory=dict)
    advice: dict = field(default_factory=dict)

    def names(self):
        """The names of members by (id, place), in order."""
        if self.layout == 1:
            return dict(sorted(self.member.items()))
        return {key: self.part.get(number, "") for key, number in sorted(self.joined.items())}

    def members(self, number):
        return {place: name for (of, place), name in self.names().items() if of == number}


def context_of(data):
    """The context that these bytes spell, which has only one spelling; None: there is none."""
    if not data:
        return None
    count, at, context = data[0], 1, {}
    for _ in range(count):
        if at >= len(data):
            return None
        name = data[at + 1 : at + 1 + data[at]].decode("latin-1")
        at += 1 + data[at]
        if at + 2 > len(data) or not NAME.match(name) or name in context:
            return None
        size = int.from_bytes(data[at : at + 2], "big")
        context[name] = data[at + 2 : at + 2 + size]
        at += 2 + size
        if at > len(data):
            return None
    return context if at == len(data) and count <= 64 else None


def is_context(data):
    return context_of(data) is not None


def tx_fits(tables, number, row, next_id):
    phase, told, doing, tries, context = row
    count = len(tables.members(number))
    if not (1 <= number < next_id and 0 <= phase <= 3 and 0 <= tries <= 100):
        return False
    if doing and not NAME.match(doing):
        return False
    if phase < 2:
        return told == 0 and count <= 1000 and is_context(context)
    return not doing and 0 <= told < count and is_context(context)


def are_placed(members):
    places = sorted(members)
    return places == list(range(len(places))) and len(places) <= 1001 and all(map(NAME.match, members.values()))


def fault(tables):
    """The table and the id of the first row at fault; None: there is none."""
    low = [k for k in tables.meta if k < 1]
    if low:
        return "Meta", min(low)
    if tables.meta.get(1, 0) != tables.layout:
        return "Meta", 1
    next_id = tables.meta.get(2, 0)
    if next_id < 1:
        return "Meta", 2
    high = [k for k in tables.meta if k > 2]
    if high:
        return "Meta", min(high)
    for place, number in enumerate(sorted(tables.part)):
        if place != number:
            return "Part", number
    for place, number in enumerate(sorted(tables.tx)):
        if place == 16 or not tx_fits(tables, number, tables.tx[number], next_id):
            return "Tx", number
    wrong = [number for number, _ in tables.names() if number not in tables.tx]
    wrong += [number for number in tables.tx if not are_placed(tables.members(number))]
    if wrong:
        return ("Member" if tables.layout == 1 else "Joined"), min(wrong)
    for number in sorted(tables.shelf):
        tries, context = tables.shelf[number]
        given = 1 <= number < next_id and number not in tables.tx
        if not (given and 0 <= tries <= 100 and is_context(context)):
            return "Shelf", number
    for number, place in sorted(tables.advice):
        if not (1 <= number < next_id and 0 <= place <= 1000):
            return "Advice", number
    return None


TABLES = {"Part": "part", "Tx": "tx", "Shelf": "shelf", "Advice": "advice"}


def rest(tables):
    """The rows at fault that are left out, each once those before it are, and the tables without them; None if meta is at fault."""
    left, names, out = copy.deepcopy(tables), tables.names(), []
    # Members have the names that their parts had.
    left.names = lambda: names
    while bad := fault(left):
        table, number = bad
        if table == "Meta":
            return None
        out.append(bad)
        rows = names if table in ("Member", "Joined") else getattr(left, TABLES[table])
        for key in [it for it in rows if (it[0] if isinstance(it, tuple) else it) == number]:
            del rows[key]
    return out, left


def turned(tables):
    """The same journal in layout 2: parts in the order in which their names first come, by id and place."""
    names = list(dict.fromkeys(tables.names().values()))
    return Tables(
        2,
        meta=tables.meta | {1: 2},
        tx=tables.tx,
        part=dict(enumerate(names)),
        joined={key: names.index(name) for key, name in tables.names().items()},
        shelf=tables.shelf,
        advice=tables.advice,
    )


def view(tables):
    """The view of tables without a fault."""
    rows = {}
    for number, (phase, told, doing, tries, context) in tables.tx.items():
        joined = [*tables.members(number).values()]
        rows[number] = Row(PHASES[phase], joined, told, doing or None, tries, context_of(context))
    shelf = {number: (tries, context_of(context)) for number, (tries, context) in tables.shelf.items()}
    return View(tables.meta[2], rows, shelf, dict(tables.advice), [*tables.part.values()])


# How many columns the key of each table has, by layout.
KEYS = {
    1: {"meta": 1, "tx": 1, "member": 2, "shelf": 1, "advice": 2},
    2: {"meta": 1, "tx": 1, "part": 1, "joined": 2, "shelf": 1, "advice": 2},
}


def read(path):
    """The tables of a journal's file, as SQLite's own library reads them."""
    with contextlib.closing(sqlite3.connect(path)) as journal:
        there = {name for (name,) in journal.execute("SELECT name FROM sqlite_master")}
        made = Tables(2 if "part" in there else 1)
        for name, count in KEYS[made.layout].items():
            for row in journal.execute(f"SELECT * FROM {name} ORDER BY 1, 2"):
                key, values = row[:count], row[count:]
                getattr(made, name)[key if count > 1 else key[0]] = values if len(values) > 1 else values[0]
    return made


def view_lines(tables):
    """The view that `test_switch opened` prints of tables without a fault."""
    yield f"next {tables.meta[2]}"
    for number, (phase, told, doing, tries, context) in sorted(tables.tx.items()):
        doing = f" {doing}" if doing else ""
        joined = "".join(f" {name}" for name in tables.members(number).values())
        head = f"row {number} {PHASES[phase]} told {told} tries {tries}"
        yield f"{head} doing{doing} joined{joined} context {context.hex()}"
    for number, (tries, context) in sorted(tables.shelf.items()):
        yield f"shelf {number} tries {tries} context {context.hex()}"
    for (number, place), body in sorted(tables.advice.items()):
        yield f"advice {number} {place} {body.hex()}"


def rows(tables):
    """The rows of all tables, as `tables` prints them."""
    for name in ("meta", "part", "tx", "member", "joined", "shelf", "advice"):
        for key, values in sorted(getattr(tables, name).items()):
            cells = [*(key if isinstance(key, tuple) else (key,)), *(values if isinstance(values, tuple) else (values,))]
            yield " ".join([name, *(it.hex() if isinstance(it, bytes) else str(it) for it in cells)])


def maker(tables):
    """A program that makes the database in the file journal.db through SQLite's own library."""
    lines = ["import sqlite3", 'journal = sqlite3.connect("journal.db", isolation_level=None)']
    lines += [f"journal.execute({it!r})" for it in LAYOUTS[tables.layout].split("\n") if it]
    for name in ("meta", "part", "tx", "member", "joined", "shelf", "advice"):
        for key, values in getattr(tables, name).items():
            row = (*(key if isinstance(key, tuple) else (key,)), *(values if isinstance(values, tuple) else (values,)))
            marks = ", ".join("?" * len(row))
            lines.append(f"journal.execute('INSERT INTO {name} VALUES ({marks})', {row!r})")
    return "\n".join(lines) + "\n"


# Random journals

CONTEXT = bytes([1, 1]) + b"v" + bytes([0, 1]) + b"A"
NAMES = ["check", "limits", "route", "reverse", "forward", "p", "q", "x" * 32]


def random_context(random):
    return random.choice([b"\0", b"\0", CONTEXT])


def random_row(random, names):
    phase = random.randrange(4)
    tries = random.choice([0, 0, 1, 100])
    if phase < 2:
        return phase, 0, random.choice(["", *NAMES]), tries, random_context(random)
    return phase, random.randrange(len(names)), "", tries, random_context(random)


def random_tables(random):
    """A journal of layout 1 in which no row is at fault."""
    made = Tables(1, meta={1: 1, 2: random.choice([1, 2, 5, 20, 20, 2**63 - 1])})
    given = range(1, min(made.meta[2], 40))
    chosen = random.sample(given, min(len(given), random.choice([0, 1, 2, 3, 5, 16])))
    for number in chosen:
        names = random.choices(NAMES, k=random.choice([1, 1, 2, 3, 5]))
        made.tx[number] = random_row(random, names)
        if made.tx[number][0] < 2 and random.random() < 0.3:
            names = []
        made.member |= {(number, place): name for place, name in enumerate(names)}
    for number in random.sample(given, min(len(given), random.choice([0, 0, 1, 2]))):
        if number not in made.tx:
            made.shelf[number] = (random.choice([0, 1, 100]), random_context(random))
        made.advice[number, random.choice([0, 1, 1000])] = random.choice([b"", b"AB", CONTEXT])
    return made


def spoil_key(random, table):
    if table:
        key = random.choice(list(table))
        value = table.pop(key)
        if isinstance(key, tuple):
            key = random.choice([(key[0], key[1] + 1), (key[0] + 1, key[1]), (0, key[1]), (key[0], -1), (key[0], 1001)])
        else:
            key = random.choice([0, -1, key + 1, key + 17, 2**62])
        table[key] = value


def spoil_cell(random, table):
    """Another value in one cell; text stays text, and bytes stay bytes."""
    if not table:
        return
    key = random.choice(list(table))
    cells = table[key] if isinstance(table[key], tuple) else (table[key],)
    place = random.randrange(len(cells))
    other = {
        int: [-1, 0, 1, 2, 3, 4, 7, 100, 101, 2**62],
        str: ["", "p q", "x" * 33, "check", "é"],
        bytes: [b"", b"\0\0", b"\1", CONTEXT[:-1], CONTEXT],
    }[type(cells[place])]
    cells = (*cells[:place], random.choice(other), *cells[place + 1 :])
    table[key] = cells if isinstance(table[key], tuple) else cells[0]


def spoilt(random, tables):
    """Spoils the journal in one place, which may leave it without a fault."""
    its = [tables.meta, tables.tx, tables.tx, tables.shelf, tables.advice]
    its += [tables.member] * 2 if tables.layout == 1 else [tables.part, tables.part, tables.joined, tables.joined]
    table = random.choice(its)
    what = random.randrange(4)
    if what == 0 and table:
        del table[random.choice(list(table))]
    elif what == 1:
        spoil_key(random, table)
    else:
        spoil_cell(random, table)
    return tables


def is_database(tables):
    """Whether the transaction and the part of each member are there: a database in which a reference leads nowhere is
    not opened."""
    members = [*tables.member, *tables.joined]
    return all(number in tables.tx for number, _ in members) and all(n in tables.part for n in tables.joined.values())


def opening_lines(tables):
    """What `test_switch opened` prints, and the rows that are there then."""
    layout = tables.meta.get(1, "none")
    bad = fault(tables)
    if bad:
        return [f"layout {layout}", f"refused {texts.bad_row(*bad)}", *rows(tables)]
    after = turned(tables) if tables.layout == 1 else tables
    return [f"layout {layout}", *view_lines(tables), *rows(after)]


def journal_case(random, name):
    """A journal made by SQLite's own library, in either layout, is opened."""
    tables = random_tables(random)
    if random.random() < 0.3:
        tables = turned(tables)
    if random.random() < 0.6:
        tables = spoilt(random, tables)
    names = list(tables.part.values())
    if len(set(names)) < len(names):
        # (the table takes no name twice)
        tables.part = dict(enumerate(dict.fromkeys(names)))
    case = Case(name, "python3 make.py && test_switch opened journal.db && tables journal.db")
    case.files = {"make.py": maker(tables).encode()}
    if is_database(tables):
        case.stdout = Exactly("".join(f"{line}\n" for line in opening_lines(tables)).encode())
        case.stderr = Exactly(b"")
    else:
        case.stdout = Exactly(b"")
        case.stderr = Exactly(b"test_switch: the journal's file was not opened\n")
        case.status = 1
    return case
