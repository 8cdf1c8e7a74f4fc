"""Flows: what is checked, how they are assembled, and what images and flow files state.

docs/use/FORMATS.md and the heads of crates/flow_model/specs have the rules in words.
"""

import re
import tomllib
from dataclasses import dataclass, field

MAX_GROUPS, MAX_ENTRIES, MAX_IN_ALL, MAX_RETRIES = 256, 256, 16_384, 100
MAX_PARTS, MAX_STEPS, MAX_NUMBER = 16_384, 33_024, 100_000


class Fault(Exception):
    """Why a flow, an image or a flow file is refused: a name, a place or a line, and a key."""

    def __init__(self, name, at=None, key=None):
        super().__init__(name, at, key)
        self.name, self.at, self.key = name, at, key


@dataclass(frozen=True)
class Kind:
    selector: bool = False
    abort_aware: bool = False
    recovers: bool = False

    @property
    def word(self):
        """The marks as an image spells them."""
        words = [("select", self.selector), ("aware", self.abort_aware), ("recover", self.recovers)]
        return "+".join(word for word, is_there in words if is_there) or "plain"

    @property
    def letters(self):
        """The marks as a script spells them."""
        return "s" * self.selector + "a" * self.abort_aware + "r" * self.recovers


KINDS = [Kind(s, a, r) for s in (False, True) for a in (False, True) for r in (False, True)]
BY_WORD = {kind.word: kind for kind in KINDS}
BY_LETTERS = {kind.letters: kind for kind in KINDS if kind.letters}


@dataclass(frozen=True)
class Entry:
    participant: str
    kind: Kind = Kind()


@dataclass
class Group:
    name: str
    entries: list = field(default_factory=list)


@dataclass
class Flow:
    retries: int = 0
    groups: list = field(default_factory=list)

    def places(self):
        """The entries with their places, (group, index), in order."""
        for group, its in enumerate(self.groups):
            for index, entry in enumerate(its.entries):
                yield (group, index), entry

    def participants(self):
        """The first entries of the participants, in the order of their first appearance."""
        first = {}
        for _, entry in self.places():
            first.setdefault(entry.participant, entry)
        return list(first.values())


def is_name(word):
    return re.fullmatch(r"[a-zA-Z0-9_.-]{1,32}", word) is not None


def check(flow):
    """Raises the first fault of a flow."""
    sizes = [len(group.entries) for group in flow.groups]
    if len(sizes) > MAX_GROUPS or any(size > MAX_ENTRIES for size in sizes) or sum(sizes) > MAX_IN_ALL:
        raise Fault("TooLarge")
    if not 0 <= flow.retries <= MAX_RETRIES:
        raise Fault("BadRetries")
    for number, group in enumerate(flow.groups):
        if not is_name(group.name):
            raise Fault("BadName", (number,))
        for index, entry in enumerate(group.entries):
            if not is_name(entry.participant):
                raise Fault("BadName", (number, index))
    names = [group.name for group in flow.groups]
    for number, name in enumerate(names):
        if name in names[:number]:
            raise Fault("DoubleGroup", (number,))
    if "main" not in names:
        raise Fault("NoMain")
    kinds = {}
    for place, entry in flow.places():
        if kinds.setdefault(entry.participant, entry.kind) != entry.kind:
            raise Fault("KindClash", place)


def image(flow):
    """The image of a checked flow."""
    parts = flow.participants()
    numbers = {entry.participant: number for number, entry in enumerate(parts)}
    steps, starts = [], []
    for group in flow.groups:
        starts.append(len(steps))
        for entry in group.entries:
            number = numbers[entry.participant]
            steps += [f"call {number}"] + [f"pick {number}"] * entry.kind.selector
        steps.append("return")
    version = 2 if any(entry.kind.recovers for entry in parts) else 1
    lines = [f"image {version} {flow.retries} {len(parts)} {len(starts)} {len(steps)}"]
    lines += [f"part {number} {entry.participant} {entry.kind.word}" for number, entry in enumerate(parts)]
    lines += [f"group {n} {group.name} {start}" for n, (group, start) in enumerate(zip(flow.groups, starts))]
    lines += [f"{number} {step}" for number, step in enumerate(steps)]
    return "".join(f"{line}\n" for line in lines).encode()


def number_of(word, most=MAX_NUMBER):
    """The number that a word spells in decimal without leading zeros; None if it is not one, or is too large."""
    if not re.fullmatch(r"0|[1-9][0-9]*", word) or len(word) > 6 or int(word) > most:
        return None
    return int(word)


def words_of(line, count):
    """The words of a line, as text; None if they are not this many, with single spaces between them."""
    try:
        words = line.decode("ascii").split(" ")
    except UnicodeDecodeError:
        return None
    return words if len(words) == count and all(words) else None


def header_of(line):
    """Version, retries, and the numbers of participants, groups and steps."""
    words = words_of(line, 6)
    if not words or words[0] != "image" or words[1] not in ("1", "2"):
        raise Fault("BadHeader")
    limits = (MAX_RETRIES, MAX_PARTS, MAX_GROUPS, MAX_STEPS)
    numbers = [number_of(word, most) for word, most in zip(words[2:], limits)]
    if None in numbers:
        raise Fault("BadHeader")
    return int(words[1]), *numbers


def part_of(line):
    words = words_of(line, 4)
    if not words or words[0] != "part" or not is_name(words[2]) or words[3] not in BY_WORD:
        return None
    return number_of(words[1]), Entry(words[2], BY_WORD[words[3]])


def group_of(line):
    words = words_of(line, 4)
    if not words or words[0] != "group" or not is_name(words[2]) or number_of(words[3]) is None:
        return None
    return number_of(words[1]), (words[2], number_of(words[3]))


def step_of(line):
    words = words_of(line, 2)
    if words and words[1] == "return":
        return number_of(words[0]), ("return", None)
    words = words_of(line, 3)
    if not words or words[1] not in ("call", "pick") or number_of(words[2]) is None:
        return None
    return number_of(words[0]), (words[1], number_of(words[2]))


def lines_of(text):
    """The header, and what the lines of each kind say, each line read by itself."""
    lines = text.split(b"\n")
    # What comes after the last line feed is a line without one.
    whole, tail = lines[:-1], lines[-1]
    if not whole:
        raise Fault("BadHeader")
    version, retries, *counts = header_of(whole[0])
    said, at = [], 1
    for count, read in zip(counts, (part_of, group_of, step_of)):
        said.append([])
        for place in range(count):
            found = read(whole[at]) if at < len(whole) else None
            if found is None or found[0] is None:
                raise Fault("BadLine", at + 1)
            if found[0] != place:
                raise Fault("BadNumber", at + 1)
            said[-1].append(found[1])
            at += 1
    if at < len(whole) or tail:
        raise Fault("BadLine", at + 1)
    return version, retries, *said


def load(text):
    """The flow of an image."""
    version, retries, parts, groups, steps = lines_of(text)
    recovering = [number for number, part in enumerate(parts) if part.kind.recovers]
    if version == 1 and recovering:
        raise Fault("BadLine", 2 + recovering[0])
    if version == 2 and not recovering:
        raise Fault("BadHeader")
    names = set()
    for number, part in enumerate(parts):
        if part.participant in names:
            raise Fault("BadTarget", 2 + number)
        names.add(part.participant)
    flow = Flow(retries, laid_out(parts, groups, steps))
    check(flow)
    return flow


def laid_out(parts, groups, steps):
    """The groups that the steps lay out."""
    group_line, step_line = 2 + len(parts), 2 + len(parts) + len(groups)
    made, at, met = [], 0, 0
    for number, (name, start) in enumerate(groups):
        if start != at:
            raise Fault("BadTarget", group_line + number)
        entries = []
        while True:
            if at == len(steps):
                raise Fault("NoReturn", number)
            word, part = steps[at]
            if word == "return":
                break
            if word == "pick" or part >= len(parts) or part > met:
                raise Fault("BadTarget", step_line + at)
            met = max(met, part + 1)
            if parts[part].kind.selector:
                if steps[at + 1 : at + 2] != [("pick", part)]:
                    raise Fault("BadTarget", step_line + at)
                at += 1
            entries.append(parts[part])
            at += 1
        at += 1
        made.append(Group(name, entries))
    if at < len(steps):
        raise Fault("BadTarget", step_line + at)
    if met < len(parts):
        raise Fault("BadTarget", 2 + met)
    return made


def is_tables(value):
    return isinstance(value, list) and all(isinstance(it, dict) for it in value)


def is_integer(value):
    return isinstance(value, int) and not isinstance(value, bool)


def is_text(value):
    return isinstance(value, str)


def is_flag(value):
    return isinstance(value, bool)


TOP = {"group": (is_tables, True), "retries": (is_integer, False)}
GROUP = {"entry": (is_tables, False), "name": (is_text, True)}
ENTRY = {
    "abort_aware": (is_flag, False),
    "participant": (is_text, True),
    "recovers": (is_flag, False),
    "selector": (is_flag, False),
}


def test_table(table, keys, at):
    """Raises the first fault of one table by itself."""
    unknown = sorted(key for key in table if key not in keys)
    if unknown:
        raise Fault("Unknown", at, unknown[0])
    missing = sorted(key for key, (_, is_required) in keys.items() if is_required and key not in table)
    if missing:
        raise Fault("Missing", at, missing[0])
    wrong = sorted(key for key in table if not keys[key][0](table[key]))
    if wrong:
        raise Fault("WrongKind", at, wrong[0])


def integers_of(value):
    if isinstance(value, dict):
        value = list(value.values())
    if isinstance(value, list):
        for it in value:
            yield from integers_of(it)
    elif is_integer(value):
        yield value


def float_of(digits):
    """A float of TOML; one that is out of range is no TOML."""
    value = float(digits)
    if value in (float("inf"), float("-inf")) and "inf" not in digits:
        raise Fault("NotToml")
    return value


def document_of(text):
    """The TOML document of some bytes. An integer of more than 64 bits is no TOML."""
    try:
        document = tomllib.loads(text.decode("utf-8"), parse_float=float_of)
    except UnicodeDecodeError:
        raise Fault("NotText") from None
    except tomllib.TOMLDecodeError:
        raise Fault("NotToml") from None
    if any(not -(2**63) <= number < 2**63 for number in integers_of(document)):
        raise Fault("NotToml")
    return document


def read_flow(text):
    """The flow of a flow file."""
    document = document_of(text)
    test_table(document, TOP, ())
    flow = Flow(document.get("retries", 0))
    for number, table in enumerate(document["group"]):
        test_table(table, GROUP, (number,))
        group = Group(table["name"])
        for index, its in enumerate(table.get("entry", [])):
            test_table(its, ENTRY, (number, index))
            marks = (its.get(key, False) for key in ("selector", "abort_aware", "recovers"))
            group.entries.append(Entry(its["participant"], Kind(*marks)))
        flow.groups.append(group)
    check(flow)
    return flow
