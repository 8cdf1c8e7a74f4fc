"""How the program's messages begin. Cases show the whole texts; here is what names the fault and its place."""

FLOW = {
    "TooLarge": "the flow is too large",
    "BadRetries": "retries is too large",
    "BadName": "{place}: bad name",
    "DoubleGroup": "{place}: an earlier group has the same name",
    "NoMain": "no group is named main",
    "KindClash": "{place}: the participant has other marks at its first place",
}

IMAGE = {
    "BadHeader": "line 1: bad header",
    "BadLine": "line {at}: bad line",
    "BadNumber": "line {at}: bad number",
    "BadTarget": "line {at}: bad target",
    "NoReturn": "group {at}: no return",
}

FILE = {
    "NotText": "invalid utf-8 sequence",
    "NotToml": "TOML parse error at line ",
    "Unknown": "{place}: unknown key",
    "Missing": "{place}: key {key} is missing",
    "WrongKind": "{place}: key {key} has a value of the wrong kind",
}

# Why the stream of `run` is refused, and that a journal is refused.
END = {
    "BadLength": "cardswitch: standard input: frame {at}: bad length; expected four digits; cardswitch decode shows the frames before it",
    "Truncated": "cardswitch: standard input: ends within a frame; found {at} bytes of it",
}
REFUSED = "cannot read or write the journal: its file or its disk refuses it; expected an undamaged file on a disk with room"


# What is expected of the rows of a journal's table, which has a row at fault.
MEMBERS = "the id of a row of tx, places from 0 to 1000 without a gap, and names of participants"
ROWS = {
    "Meta": "only the layout under key 1 and the next id, at least 1, under key 2",
    "Part": "numbers from 0 without a gap",
    "Tx": "at most 16 rows, each with an id below the next one and with values that a transaction can have",
    "Member": MEMBERS,
    "Joined": MEMBERS,
    "Shelf": "an id below the next one that tx does not have, 0 to 100 tries, and a context",
    "Advice": "an id below the next one, and a place from 0 to 1000",
}
KEYS = {"Meta": "key", "Part": "number"}


def bad_row(table, number):
    """What is said of a row at fault."""
    return f"table {table.lower()}, {KEYS.get(table, 'id')} {number}: bad row; expected {ROWS[table]}"


def place_of(at):
    """A table of a flow file, or a place of a flow: (), (group,) or (group, index)."""
    return ["top table", "group {}", "group {}, entry {}"][len(at)].format(*at)


def told(fault):
    """How the message of a fault of a flow, an image or a flow file begins."""
    for texts in (FLOW, IMAGE, FILE):
        if fault.name in texts:
            place = place_of(fault.at) if isinstance(fault.at, tuple) else ""
            return texts[fault.name].format(place=place, at=fault.at, key=fault.key)
    raise KeyError(fault.name)
