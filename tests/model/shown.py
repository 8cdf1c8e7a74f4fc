"""What `journal` prints of a journal's tables, as text and as lines of JSON. docs/use/FORMATS.md, "The text of a journal", has it."""

import json

from harness.case import Begins, Case, Exactly
from model import journal, messages, texts

PHASES = ["preparing", "aborting", "committing", "undoing"]
MESSAGES = ("request", "response")
NOTES = ("rc", "auth", "sent", "late", "standin")


def is_text(value):
    return all(0x20 <= byte <= 0x7E for byte in value)


def notified(row, members):
    """What a recovery does, and whom it notifies."""
    phase, told, doing, _, _ = row
    return ("commit" if phase == 2 else "abort"), [*members[told:], *([doing] if doing else [])]


def message(number, value, is_clear):
    return messages.paragraph(number, value, not is_clear)[0].decode()


def entry_lines(number, name, value, is_clear):
    if name in MESSAGES:
        return f"entry {name} {len(value)} bytes\n" + message(number, value, is_clear)
    if not is_clear and name not in NOTES:
        return f"entry {name}* {len(value)} bytes\n"
    shown = f'"{value.decode()}"' if is_text(value) else f"x'{value.hex().upper()}'"
    return f"entry {name} {shown}\n"


def context_lines(number, context, is_clear):
    entries = journal.context_of(context)
    return "".join(entry_lines(number, name, value, is_clear) for name, value in entries.items())


def text(tables, out, is_clear):
    """The text of tables without a fault, once these rows were left out."""
    yield f"layout {tables.layout}\nnext id {tables.meta[2]}\n"
    yield from (f"left out {table} {number}\n" for table, number in out)
    for number, row in sorted(tables.tx.items()):
        phase, told, doing, tries, context = row
        members = list(tables.members(number).values())
        verb, names = notified(row, members)
        yield f"transaction {number} {PHASES[phase]}\n"
        yield " ".join(["joined", *members]) + f"\ntold {told}\n"
        yield f"doing {doing}\n" if doing else ""
        yield f"tries {tries}\n" + " ".join(["recovery", verb, *names]) + "\n"
        yield context_lines(number, context, is_clear)
    for number, (tries, context) in sorted(tables.shelf.items()):
        yield f"shelf {number}\ntries {tries}\n" + context_lines(number, context, is_clear)
    for (number, place), body in sorted(tables.advice.items()):
        yield f"advice {number} {place}\nage {tables.meta[2] - number}\n" + message(number, body, is_clear)


def entry_object(owner, number, name, value, is_clear):
    made = {owner: number, "entry": name}
    if name in MESSAGES:
        return made | {"bytes": len(value), "message": message(number, value, is_clear)}
    if not is_clear and name not in NOTES:
        return made | {"bytes": len(value)}
    return made | ({"text": value.decode()} if is_text(value) else {"hex": value.hex().upper()})


def entry_objects(owner, number, context, is_clear):
    for name, value in journal.context_of(context).items():
        yield entry_object(owner, number, name, value, is_clear)


def objects(tables, out, is_clear):
    """The objects of tables without a fault, once these rows were left out, in the order of their lines."""
    yield {"layout": tables.layout, "next_id": tables.meta[2]}
    yield from ({"left_out": table, "id": number} for table, number in out)
    for number, row in sorted(tables.tx.items()):
        phase, told, doing, tries, context = row
        members = list(tables.members(number).values())
        made = {"transaction": number, "phase": PHASES[phase], "joined": members, "told": told, "doing": doing or None}
        yield made | {"tries": tries, "recovery": notified(row, members)[0]}
        yield from entry_objects("transaction", number, context, is_clear)
    for number, (tries, context) in sorted(tables.shelf.items()):
        yield {"shelf": number, "tries": tries}
        yield from entry_objects("shelf", number, context, is_clear)
    for (number, place), body in sorted(tables.advice.items()):
        yield {"advice": number, "place": place, "age": tables.meta[2] - number, "message": message(number, body, is_clear)}


def printed(tables, is_json, is_clear):
    """What is printed of tables: without their rows at fault, and nothing if meta is at fault."""
    left = journal.rest(tables)
    if left is None:
        return b""
    out, tables = left
    if is_json:
        lines = (json.dumps(it, separators=(",", ":")) + "\n" for it in objects(tables, out, is_clear))
        return "".join(lines).encode()
    return "".join(text(tables, out, is_clear)).encode()


# Random journals


def any_value(random, name, any_message):
    if name in MESSAGES:
        return any_message(random)
    return random.choice([b"", b"00", b"1", b'"\\', b"a b", bytes([0, 255]), bytes(range(256))])


def spelled_context(random, any_message):
    """The bytes of a context with messages, notes and other entries."""
    names = random.sample([*MESSAGES, *NOTES, "pin", "x" * 32], random.choice([0, 1, 2, 5]))
    made = bytes([len(names)])
    for name in names:
        value = any_value(random, name, any_message)
        made += bytes([len(name)]) + name.encode() + len(value).to_bytes(2, "big") + value
    return made


def with_contexts(random, tables, any_message):
    """The same journal with other contexts and advices."""
    for number, row in tables.tx.items():
        tables.tx[number] = (*row[:4], spelled_context(random, any_message))
    for number, (tries, _) in tables.shelf.items():
        tables.shelf[number] = (tries, spelled_context(random, any_message))
    for key in tables.advice:
        tables.advice[key] = any_message(random)
    return tables


def shown_case(random, name, any_message):
    """A journal made by SQLite's own library, in either layout, is shown, and its file stays as it was."""
    tables = with_contexts(random, journal.random_tables(random), any_message)
    if random.random() < 0.6:
        tables = journal.turned(tables)
    if random.random() < 0.2:
        tables = journal.spoilt(random, tables)
    tables.part = dict(enumerate(dict.fromkeys(tables.part.values())))
    is_json, is_clear = random.random() < 0.4, random.random() < 0.3
    words = "cardswitch journal" + " --json" * is_json + " --clear" * is_clear + " journal.db"
    case = Case(name, f"python3 make.py && cp journal.db before.db && {words}; told=$?; cmp journal.db before.db && exit $told")
    case.files = {"make.py": journal.maker(tables).encode()}
    bad = journal.is_database(tables) and journal.fault(tables)
    case.stdout, case.stderr = Exactly(b""), Begins(b"cardswitch: journal.db: cannot open: ")
    case.status = 3
    if bad:
        case.stdout = Exactly(printed(tables, is_json, is_clear))
        case.stderr = Exactly(f"cardswitch: journal.db: {texts.bad_row(*bad)}\n".encode())
    elif journal.is_database(tables):
        case.stdout, case.stderr, case.status = Exactly(printed(tables, is_json, is_clear)), Exactly(b""), 0
    return case
