"""Random inputs of the program, right ones and slightly spoilt ones, each with what the model answers."""

from harness import inputs
from harness.case import Begins, Case, Exactly
from model import flows, journal, messages, pictures, random_config, random_set_up, requests, script, shown, texts
from model.flows import Entry, Flow, Group, Kind
from model.law import unlawful
from model.stops import Runs

NAMES = ["main", "g", "h", "alpha", "beta", "a.b-c_D9", "x" * 32]
PARTICIPANTS = ["check", "limits", "route", "p", "q", "r", "s", "P", "standin", "y" * 32]
BAD_NAMES = ["", "p!", "x" * 33, "p q", "é", "a/b", "main,g"]
BYTES = [0x01] * 8 + [0x81, 0x41, 0xC1, 0x41, 0x00, 0x02, 0x03, 0x05, 0x42, 0x82, 0xC0, 0xC2, 0xFF]
REFUSED = b"cardswitch: standard input: a message or a frame is refused"


PICKS = Kind(selector=True)

# Flows


def kind(random):
    if random.random() < 0.5:
        return Kind()
    return Kind(random.random() < 0.5, random.random() < 0.4, random.random() < 0.2)


def flow(random):
    """A checked flow, small as a rule."""
    kinds = {name: kind(random) for name in PARTICIPANTS}
    pool = random.sample(PARTICIPANTS, random.randint(1, 6))
    names = ["main"] + random.sample(NAMES[1:], random.randint(0, 4))
    random.shuffle(names)
    made = Flow(random.choice([0, 0, 1, 2, 100]), [])
    for name in names:
        chosen = random.choices(pool, k=random.choice([0, 1, 1, 2, 2, 3, 5]))
        made.groups.append(Group(name, [Entry(it, kinds[it]) for it in chosen]))
    return made


def large_flow(random):
    """A flow at a limit, or one beyond it."""
    groups, entries = random.choice([(256, 64), (1, 256), (64, 256), (256, 1), (256, 0), (3, 255)])
    groups += random.random() < 0.2
    entries += random.random() < 0.2
    many = random.random() < 0.5
    kinds = [kind(random) for _ in range(7)]
    made = Flow(random.choice([0, 100]), [])
    for number in range(groups):
        its = range(number * entries, number * entries + entries) if many else range(entries)
        made.groups.append(Group(f"g{number}", [Entry(f"p{it}", kinds[it % 7]) for it in its]))
    made.groups[random.randrange(groups)].name = "main"
    return made


def spoil_flow(random, made):
    """Spoils a flow in one way that its check has to find, or that changes nothing."""
    group = random.choice(made.groups)
    what = random.randrange(6)
    if what == 0:
        made.retries = random.choice([101, 127, 128, 255, 256, 65_536, 2**63 - 1])
    elif what == 1:
        group.name = random.choice(BAD_NAMES)
    elif what == 2:
        group.name = random.choice(NAMES)
    elif what == 3 and group.entries:
        index = random.randrange(len(group.entries))
        group.entries[index] = Entry(random.choice(BAD_NAMES), group.entries[index].kind)
    elif what == 4 and group.entries:
        index = random.randrange(len(group.entries))
        group.entries[index] = Entry(group.entries[index].participant, kind(random))
    else:
        made.groups = [it for it in made.groups if it.name != "main" or random.random() < 0.5] or [Group("m")]


def any_flow(random):
    made = large_flow(random) if random.random() < 0.003 else flow(random)
    while random.random() < 0.2:
        spoil_flow(random, made)
    return made


# Flow files


def quoted(random, text):
    """A string of TOML."""
    if random.random() < 0.3 and "'" not in text:
        return f"'{text}'"
    return '"' + text.replace("\\", "\\\\").replace('"', '\\"') + '"'


def value_of(random, value):
    if isinstance(value, bool):
        return "true" if value else "false"
    if isinstance(value, int):
        return str(value)
    if isinstance(value, str):
        return quoted(random, value)
    if isinstance(value, list):
        gap = random.choice([", ", ",", " , ", ",\n  "])
        return "[" + gap.join(value_of(random, it) for it in value) + "]"
    if isinstance(value, dict):
        return "{" + ", ".join(f"{key} = {value_of(random, it)}" for key, it in value.items()) + "}"
    return value.text


SPOILT_TOML = b"=[]\"'#\n \xff\t,.a1_-+e:TZ"


class Raw:
    """A value of another kind, as TOML writes it."""

    def __init__(self, text):
        self.text = text


RAW = ["1.5", "1979-05-27", "07:32:00", "inf", "0x65", "1_0", "+3", "-0", "[]", "{}", "''", "true", "[1, 2]", "0"]
RAW += ["[{}]", '"x"', "9223372036854775807", "9223372036854775808", "-9223372036854775809", "[[]]", "{a = 1}"]


def document(random, made):
    """The document of a flow, with some of the defaults left out and the keys in any order."""
    tables = []
    for group in made.groups:
        entries = []
        for entry in group.entries:
            marks = {"selector": entry.kind.selector, "abort_aware": entry.kind.abort_aware}
            marks["recovers"] = entry.kind.recovers
            its = {key: value for key, value in marks.items() if value or random.random() < 0.2}
            entries.append(shuffled(random, {"participant": entry.participant} | its))
        its = {"entry": entries} if entries or random.random() < 0.3 else {}
        tables.append(shuffled(random, {"name": group.name} | its))
    top = {"retries": made.retries} if made.retries or random.random() < 0.3 else {}
    return shuffled(random, {"group": tables} | top)


def shuffled(random, table):
    pairs = list(table.items())
    random.shuffle(pairs)
    return dict(pairs)


def tables_of(document):
    """The document and all tables in it."""
    yield document
    for group in document.get("group", []) if isinstance(document.get("group"), list) else []:
        yield group
        if isinstance(group, dict) and isinstance(group.get("entry"), list):
            yield from group["entry"]


def spoil_document(random, document):
    table = random.choice([it for it in tables_of(document) if isinstance(it, dict)])
    key = random.choice([*table, *table, *flows.TOP, *flows.GROUP, *flows.ENTRY, "color", "Name", "a", "zz"])
    if random.random() < 0.3:
        table.pop(key, None)
    else:
        table[key] = Raw(random.choice(RAW))


def under_headers(random, document):
    """The document as a text whose tables are under headers."""
    lines = [f"{key} = {value_of(random, it)}" for key, it in document.items() if key != "group"]
    for group in document["group"]:
        lines += ["[[group]]"]
        lines += [f"{key} = {value_of(random, it)}" for key, it in group.items() if key != "entry"]
        for entry in group.get("entry", []):
            lines += ["[[group.entry]]", *(f"{key} = {value_of(random, it)}" for key, it in entry.items())]
    return "".join(f"{line}{random.choice(['', '', '', ' # so'])}\n" for line in lines)


def has_tables(document):
    """Whether all that should be arrays of tables are, so that headers can spell them."""
    groups = document.get("group")
    if not isinstance(groups, list) or not groups:
        return False
    return all(isinstance(it.get("entry", []), list) and it.get("entry", [0]) for it in groups)


def flow_file(random, made):
    """A flow file of the flow, in one of many spellings, now and then spoilt."""
    its = document(random, made)
    while random.random() < 0.3:
        spoil_document(random, its)
    if has_tables(its) and random.random() < 0.6:
        text = under_headers(random, its)
    else:
        text = "".join(f"{key} = {value_of(random, value)}\n" for key, value in its.items())
    text = text.encode()
    # (in inline tables the program accepts line ends and trailing commas, as TOML 1.1 does, and the model does not)
    if random.random() < 0.1 and b"{" not in text:
        text = spoil_bytes(random, text, SPOILT_TOML)
    return text


def spoil_bytes(random, text, alphabet):
    """A text with one byte changed, put in or taken out."""
    at = random.randrange(len(text) + 1)
    byte = bytes([random.choice(alphabet)])
    how = random.randrange(3)
    return text[:at] + (byte if how < 2 else b"") + text[at + (how != 1) :]


def asm_case(random, name):
    return assembled(name, flow_file(random, any_flow(random)))


def assembled(name, text):
    """The case of `asm` on these bytes."""
    case = Case(name, "cardswitch asm", text, remake=lambda other: assembled(name, other))
    try:
        case.stdout, case.stderr = Exactly(flows.image(flows.read_flow(text))), Exactly(b"")
    except flows.Fault as fault:
        refuse(case, f"cardswitch: standard input: {texts.told(fault)}")
    return case


def refuse(case, begins):
    case.stdout, case.stderr, case.status = Exactly(b""), Begins(begins.encode()), 1


# Images


class States:
    """A flow file of this flow, in whatever spelling."""

    def __init__(self, wanted):
        self.wanted = wanted

    def wrong(self, name, came):
        try:
            found = flows.read_flow(came)
        except flows.Fault as fault:
            return f"{name} is not a flow file: {texts.told(fault)}"
        return None if found == self.wanted else f"{name} states another flow: {flows.image(found).decode()}"


WORDS = [b"call", b"pick", b"return", b"part", b"group", b"image", b"plain", b"select", b"aware", b"recover"]
WORDS += [b"select+aware", b"main", b"p", b"0", b"1", b"2", b"3", b"00", b"100000", b"100001", b"", b"4294967296"]


def spoil_image(random, text):
    """An image with one byte, word, number or line changed, or cut off."""
    lines = text.split(b"\n")
    at, other = random.randrange(len(lines)), random.randrange(len(lines))
    words = lines[at].split(b" ")
    what = random.randrange(7)
    if what == 0:
        return spoil_bytes(random, text, b"0123456789 \n\r\tacp+\x00\xff")
    if what == 1:
        return text[: random.randrange(len(text) + 1)]
    if what == 2:
        words[random.randrange(len(words))] = random.choice(WORDS)
        lines[at] = b" ".join(words)
    elif what == 3:
        by = random.choice([-1, 1])
        lines[at] = b" ".join(b"%d" % (int(word) + by) if word.isdigit() else word for word in words)
    elif what == 4:
        lines.insert(other, lines[at])
    elif what == 5:
        lines[at], lines[other] = lines[other], lines[at]
    else:
        del lines[at]
    return b"\n".join(lines)


def numbered(version, retries, parts, groups, steps):
    """The text of an image whose counts and own numbers are right, whatever its lines say together."""
    lines = [f"image {version} {retries} {len(parts)} {len(groups)} {len(steps)}"]
    lines += [f"part {number} {name} {word}" for number, (name, word) in enumerate(parts)]
    lines += [f"group {number} {name} {start}" for number, (name, start) in enumerate(groups)]
    lines += [" ".join(map(str, (number, *step))) for number, step in enumerate(steps)]
    return "".join(f"{line}\n" for line in lines).encode()


def spoil_layout(random, text):
    """An image whose lines each have their form and their place, and together say something else."""
    version, retries, parts, groups, steps = flows.lines_of(text)
    parts = [(part.participant, part.kind.word) for part in parts]
    steps = [(word,) if part is None else (word, part) for word, part in steps]
    for _ in range(random.randint(1, 2)):
        its = random.choice([it for it in (parts, groups, steps, steps) if it])
        at, other = random.randrange(len(its)), random.randrange(len(its))
        what = random.randrange(5)
        if what == 0:
            its.insert(other, its[at])
        elif what == 1 and len(its) > 1:
            del its[at]
        elif what == 2:
            its[at], its[other] = its[other], its[at]
        elif its is steps:
            steps[at] = random.choice([("return",), ("call", random.randint(0, len(parts))), ("pick", other)])
        elif its is groups:
            groups[at] = (random.choice([groups[at][0], groups[other][0], "main"]), random.randint(0, len(steps)))
        else:
            parts[at] = (parts[other][0], random.choice(flows.KINDS).word)
    version = random.choice([version, version, 3 - version])
    return numbered(version, retries, parts, groups, steps)


def list_case(random, name):
    made = any_flow(random)
    # There is an image even of a flow that its check refuses.
    made.retries = min(made.retries, 100)
    text = flows.image(made)
    how = random.random()
    try:
        if how < 0.5:
            text = spoil_layout(random, text)
    except flows.Fault:
        pass
    while how > 0.3 and random.random() < 0.4:
        text = spoil_image(random, text)
    return listed(name, text)


def listed(name, text):
    """The case of `list` on these bytes."""
    case = Case(name, "cardswitch list", text, remake=lambda other: listed(name, other))
    try:
        case.stdout, case.stderr = States(flows.load(text)), Exactly(b"")
    except flows.Fault as fault:
        refuse(case, f"cardswitch: standard input: {texts.told(fault)}")
    return case


SENDING = flows.image(Flow(0, [Group("main", [Entry("check"), Entry("send")])]))
PICK = Entry("pick", Kind(selector=True, recovers=True))
TWO_GROUPS = flows.image(Flow(7, [Group("main", [PICK, Entry("b")]), Group("b", [Entry("b")])]))


def spoilt_images(random, is_every):
    """Each proper prefix of two images, and each byte replaced: of the first by every other, of the second by some or by every other."""
    for title, text, whole in (("two entries", SENDING, True), ("two groups", TWO_GROUPS, is_every)):
        for size in range(len(text)):
            yield listed(f"spoilt/list: {title}: the first {size} bytes", text[:size])
            for byte in range(256) if whole else {*b" \n019acp\xff", random.randrange(256)}:
                changed = text[:size] + bytes([byte]) + text[size + 1 :]
                yield listed(f"spoilt/list: {title}: byte {size} as {byte}", changed)


# Pictures


def graph_case(random, name):
    """The picture of a flow file, which is refused as `asm` refuses it."""
    return pictured(name, flow_file(random, any_flow(random)), random.random() < 0.5)


def pictured(name, text, is_dot):
    case = Case(name, f"cardswitch graph --flow flow.toml{' --dot' * is_dot}", files={"flow.toml": text})
    case.remake, case.parts = lambda other: pictured(name, other, is_dot), text.splitlines(keepends=True)
    try:
        made = flows.read_flow(text)
        case.stdout = Exactly(pictures.text(pictures.dot(made) if is_dot else pictures.mermaid(made)))
        case.stderr = Exactly(b"")
    except flows.Fault as fault:
        refuse(case, f"cardswitch: flow.toml: {texts.told(fault)}")
    return case


# Scripts


def choice(random, made):
    """A text of a selector."""
    names = [group.name for group in made.groups] + ["none", "Main"]
    count = random.choice([0, 1, 1, 1, 2, 3, 15, 16, 17, 18]) if random.random() < 0.3 else 1
    gaps = [" ", ",", ", ", "  ", ",,"]
    return "".join(random.choice(names) + random.choice(gaps) for _ in range(count)).rstrip(random.choice([" ,", ""]))


def group_line(group):
    words = [entry.participant + ":" * (entry.kind.letters != "") + entry.kind.letters for entry in group.entries]
    return " ".join(["flow", group.name, *words])


SPOILT = ["", " ", "auto ", "jump", "retries", "retries x", "retries -1", "answer p", "answer p 1", "answer p 0g"]
SPOILT += ["answer p! 01", "choose p", "choose p\tq r", "flow", "flow main p:x", "flow g p:as", "auto\r", "auto now"]
SPOILT += ["answer  p 01", "answer p 01 02", "flow g p:", "choose  g", "retries 18446744073709551616", "AUTO"]


def script_lines(random, made, has_file):
    """The lines of a script over a flow: settings in any order, except for the groups, then some transactions."""
    settings = []
    if made.retries or random.random() < 0.2:
        settings.append(f"retries {random.choice(['', '0', '00'])}{made.retries}")
    names = sorted({entry.participant for _, entry in made.places()} | {"nobody"})
    for _ in range(random.randint(0, 12)):
        byte = random.choice(BYTES) if random.random() < 0.9 else random.randrange(256)
        settings.append(f"answer {random.choice(names)} {random.choice(['%02x', '%02X']) % byte}")
    selectors = [entry.participant for _, entry in made.places() if entry.kind.selector] or names
    for _ in range(random.randint(0, 8)):
        who = random.choice(selectors if random.random() < 0.9 else names)
        settings.append(f"choose {who} {choice(random, made)}")
    random.shuffle(settings)
    if not has_file:
        at = sorted(random.randint(0, len(settings)) for _ in made.groups)
        for place, group in reversed(list(zip(at, made.groups))):
            settings.insert(place, group_line(group))
    return settings + ["auto"] * random.choice([0, *[1] * 10, 2, 2, 3])


def looping(random, made):
    """Lines that make a selector name groups again and again, so that the bound is reached."""
    names = [entry.participant for _, entry in made.places() if entry.kind.selector]
    for name in names[:2]:
        text = ", ".join(random.sample([group.name for group in made.groups], 1) + [choice(random, made)])
        yield from [f"choose {name} {text}"] * random.randint(300, 1000)
        # Members would be written with each of their entries.
        yield from [f"answer {name} 41"] * random.randint(480, 510)


def step_case(random, name):
    made = flow(random)
    while random.random() < 0.1:
        spoil_flow(random, made)
    # Names with spaces would be other lines.
    has_file = random.random() < 0.2
    lines = script_lines(random, made, has_file)
    if random.random() < 0.04:
        lines[:0] = looping(random, made)
    while random.random() < 0.1:
        lines.insert(random.randint(0, len(lines)), random.choice(SPOILT))
    text = "\n".join(lines).encode() + b"\n" * random.choice([0, 1, 1])
    if random.random() < 0.03:
        text = spoil_bytes(random, text, b" \n\t\r\xff\x80:sa01")
    return stepped(name, text, flow_file(random, made) if has_file else None)


def stepped(name, text, file):
    """The case of `step` on a script, and on a flow file if there is one."""
    case = Case(name, "cardswitch step", text, remake=lambda other: stepped(name, other, file))
    if file is not None:
        case.command, case.files = "cardswitch step --flow flow.toml", {"flow.toml": file}
    printed, begins, case.status = script.step(text, file)
    case.stdout = Exactly(printed.encode())
    case.stderr = Begins(begins.encode()) if begins else Exactly(b"")
    return case


# Whole scripts


def context(random):
    """Entries of a context as a line has them."""
    count = random.choice([0, 0, 1, 2])
    return "".join(f" {random.choice('vwx')}={random.choice(['', '41', '0aFF'])}" for _ in range(count))


def queues(random, made):
    """Settings that queue what the participants of a flow reply."""
    names = [entry.participant for entry in made.participants()] or ["nobody"]
    for _ in range(random.randint(0, 10)):
        yield f"answer {random.choice(names)} {random.choice(BYTES):02x}{context(random)}"
    for _ in range(random.randint(0, 3)):
        yield f"choose {random.choice(names)} {choice(random, made)}"
        yield f"advice {random.choice(names)} {random.choice(['41', '4142'])}"
        yield f"restore {random.choice(names)}{context(random)}"


SPOILT_ACTIONS = ["take", "take x", "release 1", "ack 1", "break p!", "clear", "go 0 0", "call", "write x", "stop 1"]
SPOILT_ACTIONS += ["cut now", "where", "rest -1", "saved", "calls", "offer v", "offer v=4", "offer v=4g", "offer =41"]
SPOILT_ACTIONS += ["sessions", "sessions 0", "advice p", "advice p 4", "restore", "restore p v", "answer p 01 v"]


def event(random, names, sessions):
    """A line of the script that is no setting."""
    at, name = random.randrange(sessions), random.choice(names)
    lines = ["offer" + context(random)] * 4 + [f"take {at}"] * 4 + [f"call {at}"] * 12 + ["write"] * 10
    lines += ["write 1", "write 2", "stop", "release", "cut", f"ack {random.randint(1, 4)} {random.randint(0, 2)}"]
    lines += [f"break {name}", f"clear {name}", f"go {at}", f"where {at}", f"rest {at}", f"saved {at}"]
    return random.choice([*lines, f"calls {name}", "auto", f"take {sessions}", "break nobody", "write 0"])


def whole_case(random, name):
    """A script of all lines, now and then a long one."""
    sizes = (1000,) if random.random() < 0.02 else (5, 20, 60, 200)
    case = stepped(name, whole_script(random, sizes), None)
    case.stdout = Lawful(case.stdout.text)
    return case


class Lawful(Exactly):
    """A trace whose calls keep the outcome law too, as far as its lines show it."""

    def wrong(self, name, came):
        return super().wrong(name, came) or unlawful(came.decode().splitlines())


def whole_script(random, sizes):
    """A script of all lines over a checked flow, with one of these numbers of lines after the settings."""
    made, sessions = flow(random), random.choice([1, 2, 2, 3, 16])
    names = [entry.participant for entry in made.participants()] or ["nobody"]
    lines = [f"retries {made.retries}", f"sessions {sessions}", *map(group_line, made.groups)]
    lines += queues(random, made)
    lines += [event(random, names, sessions) for _ in range(random.choice(sizes))]
    if random.random() < 0.05:
        lines.insert(random.randint(0, len(lines)), random.choice(SPOILT + SPOILT_ACTIONS))
    return "".join(f"{line}\n" for line in lines).encode()


STOPPED = "for cut in power kill refusal; do test_switch stopped $cut < script || exit; done"


def stopped_case(random, name):
    """The runs of a script that is right, cut at each call of the journal's disks."""
    text = b"auto"
    while not is_played(text):
        text = whole_script(random, (5, 10, 20))
    return stopped(name, text)


def is_played(text):
    """Whether a script is right and has a line that is no setting."""
    printed, _, status = script.step(text)
    return printed != "" and status == 0


def stopped(name, text):
    if not is_played(text):
        # (fewer lines of a failing script, which show nothing)
        return Case(name, "true")
    case = Case(name, STOPPED, files={"script": text}, stdout=Runs(text), stderr=Exactly(b""))
    case.remake, case.parts = lambda other: stopped(name, other), text.splitlines(keepends=True)
    return case


# Streams


def value(random, number):
    """A valid value of a field, as text."""
    content, digits, size = messages.FORMS[number]
    if digits:
        size = random.choice([0, 1, size // 2, size, random.randint(0, size)])
    alphabet = {messages.N: b"0123456789", messages.BINARY: b"0123456789ABCDEFabcdef"}
    letters = alphabet.get(content, bytes(range(0x20, 0x7F)))
    return bytes(random.choices(letters, k=size))


def message(random):
    """A message of random fields, in one of its spellings."""
    some = random.choice([0, 1, 2, 3, 5, 10, 53]) if random.random() < 0.2 else random.randint(0, 6)
    numbers = random.sample(sorted(messages.FORMS), some)
    text = messages.encode(b"%04d" % random.randrange(10_000), {it: value(random, it) for it in numbers})
    size = 36 if text[4:5] in b"89ABCDEF" else 20
    if size == 20 and random.random() < 0.1:
        # There may be an empty second bitmap.
        text = text[:4] + b"%X" % (int(text[4:5], 16) + 8) + text[5:20] + b"0" * 16 + text[20:]
        size = 36
    return text[:size].lower() + text[size:] if random.random() < 0.2 else text


def spoil_message(random, text):
    what = random.randrange(5)
    if what == 0:
        return text[: random.randrange(len(text) + 1)]
    if what == 1:
        return text + bytes(random.choices(b"0x \xff", k=random.randint(1, 3)))
    if what == 2:
        # A digit of the first bitmap, or of the second.
        at = random.choice([4, 20]) + random.randrange(16)
        return text[:at] + random.choice(b"0123456789ABCDEFabcdefgG").to_bytes() + text[at + 1 :]
    return spoil_bytes(random, text, b"0123456789ABCDEFabcdefG \x00\x1f\x7f\xff")


def any_message(random):
    made = message(random)
    return spoil_message(random, made) if random.random() < 0.2 else made


def stream(random, size):
    """Frames with headers of this size, now and then with the last of them cut off, or with something after it that is not a frame."""
    made = []
    for _ in range(random.choice([0, 1, 2, 10, 30])):
        text = message(random)
        while random.random() < 0.3:
            text = spoil_message(random, text)
        made.append(messages.framed(bytes(random.choices(range(256), k=size)) + text))
    if made and random.random() < 0.3:
        made[-1] = made[-1][: random.randrange(len(made[-1]) + 1)]
    if random.random() < 0.2:
        made.append(bytes(random.choices(b"0123456789x", k=random.randint(1, 6))))
    if made and random.random() < 0.1:
        at = random.randrange(len(made))
        made[at] = spoil_bytes(random, made[at], b"0123456789x \xff")
    return made


def header_size(random):
    """How many bytes each header has: mostly none."""
    return random.choice([0, 0, 0, 1, 4, 24, 64])


def decode_case(random, name):
    size = header_size(random)
    parts = stream(random, size)
    case = decoded(name, b"".join(parts), random.random() < 0.2 and random, size=size)
    case.remake, case.parts = lambda other: decoded(name, other, size=size), parts
    return case


def mask_case(random, name):
    size = header_size(random)
    parts = stream(random, size)
    case = decoded(name, b"".join(parts), is_masked=True, size=size)
    case.remake, case.parts = lambda other: decoded(name, other, is_masked=True, size=size), parts
    return case


def plain_text(random, size=0):
    """The text of some messages with headers of this size, and their frames, each in the spelling that is written."""
    made = []
    for _ in range(random.choice([0, 1, 2, 5, 20])):
        numbers = random.sample(sorted(messages.FORMS), random.randint(0, 8))
        fields = {number: value(random, number) for number in numbers}
        fields = {it: fields[it].upper() if messages.FORMS[it][0] == messages.BINARY else fields[it] for it in fields}
        header = bytes(random.choices(range(256), k=size))
        made.append(messages.framed(header + messages.encode(b"%04d" % random.randrange(10_000), fields)))
    frames = b"".join(made)
    return messages.decoded(frames, size=size)[0], frames


def encode_case(random, name):
    """A text and its frames; or there and back; or a text with a line or a byte spoilt."""
    size = header_size(random)
    option = with_header("", size)
    text, frames = plain_text(random, size)
    what = random.randrange(4)
    if what == 0:
        case = Case(name, f"cardswitch encode{option} | cardswitch decode{option}", text)
        case.stdout, case.stderr = Exactly(text), Exactly(b"")
        return case
    if what == 1:
        case = Case(name, f"cardswitch decode{option} | cardswitch encode{option}", frames)
        case.stdout, case.stderr = Exactly(frames), Exactly(b"")
        return case
    lines = text.splitlines(keepends=True)
    if lines and what == 2:
        at, other = random.randrange(len(lines)), random.randrange(len(lines))
        lines[at] = random.choice([lines[other], b"", lines[at] + lines[other], b"mti 0100\n", b"header 00\n"])
        text = b"".join(lines)
    if lines and what == 3:
        text = spoil_bytes(random, text, b"0123456789 \nmAaFf*\r\xff")
    case = encoded(name, text, size)
    case.remake, case.parts = lambda other: encoded(name, other, size), lines
    return case


def with_header(words, size):
    """The words with the option of headers of this size, if they have bytes."""
    return f"{words} --header {size}" if size else words


def encoded(name, text, size=0):
    """The case of `encode` on a text whose messages have headers of this size."""
    case = Case(name, with_header("cardswitch encode", size), text)
    frames, refused = messages.encoded(text, size)
    case.stdout, case.stderr = Exactly(frames), Exactly(b"")
    if refused:
        case.stderr, case.status = Begins(b"cardswitch: standard input: line %d: " % refused), 1
    return case


def decoded(name, text, random=None, is_masked=False, size=0):
    """The case of `decode` on a stream of messages with headers of this size, in random pieces if there is randomness."""
    case = Case(name, with_header("cardswitch decode --mask" if is_masked else "cardswitch decode", size), text)
    if random:
        case.pieces = inputs.cut(random, text)
    printed, is_refused = messages.decoded(text, is_masked, size)
    case.stdout = Exactly(printed)
    case.stderr, case.status = (Begins(REFUSED), 1) if is_refused else (Exactly(b""), 0)
    return case


NETWORK = b"080080200000000000000400000000000000000001301"


def spoilt_messages():
    """Each proper prefix of a message, and each byte of it replaced by each value: for each byte a stream with a frame for each."""
    for at in range(len(NETWORK)):
        texts = [NETWORK[:at]] + [NETWORK[:at] + bytes([byte]) + NETWORK[at + 1 :] for byte in range(256)]
        stream = b"".join(map(messages.framed, texts))
        yield decoded(f"spoilt/decode: byte {at} of a message as any other", stream)


def plain_file(made):
    """The plainest flow file of a flow of selectors."""
    lines = [f"retries = {made.retries}"]
    for group in made.groups:
        lines += ["[[group]]", f'name = "{group.name}"']
        for entry in group.entries:
            lines += ["[[group.entry]]", f'participant = "{entry.participant}"', "selector = true"]
    return "".join(f"{line}\n" for line in lines).encode()


def limits():
    """The largest flow, of 256 groups of 64 different selectors and so of 33,024 steps, and flows beyond it."""
    groups = [Group(f"g{group}", [Entry(f"p{group}-{index}", PICKS) for index in range(64)]) for group in range(256)]
    groups[7].name = "main"
    largest = Flow(100, groups)
    asm = Case("limits/asm: the largest flow", "cardswitch asm", plain_file(largest))
    asm.stdout, asm.stderr = Exactly(flows.image(largest)), Exactly(b"")
    back = Case("limits/list: the largest flow", "cardswitch list", flows.image(largest))
    back.stdout, back.stderr = States(largest), Exactly(b"")
    yield from (asm, back)
    more = Group("g255", groups[255].entries + [Entry("p")])
    for title, others in (("an entry more", [*groups[:255], more]), ("a group more", [*groups, Group("g")])):
        case = Case(f"limits/asm: {title}", "cardswitch asm", plain_file(Flow(100, others)))
        refuse(case, f"cardswitch: standard input: {texts.FLOW['TooLarge']}")
        yield case


def cases(random, count, is_every=False):
    """This many random cases, some that take longer, and those that are made of worked inputs."""
    yield from limits()
    yield from spoilt_messages()
    yield from spoilt_images(random, is_every)
    yield requests.fields_case(random, "fields/run: each field of a request missing, and spoilt")
    kinds = [("step", step_case)] * 4 + [("whole", whole_case)] * 4
    kinds += [("asm", asm_case)] * 2 + [("list", list_case)] * 2 + [("decode", decode_case), ("graph", graph_case)]
    kinds += [("mask", mask_case)] + [("encode", encode_case)] * 2
    kinds += [("run", requests.run_case)] * 2
    for number in range(count // 200):
        yield stopped_case(random, f"random/stops {number}")
    for number in range(count // 10):
        yield journal.journal_case(random, f"random/journal {number}")
        yield shown.shown_case(random, f"random/shown {number}", any_message)
        yield random_config.config_case(random, f"random/config {number}")
        yield random_set_up.rules_case(random, f"random/rules {number}")
    for number in range(count):
        word, made = kinds[number % len(kinds)]
        yield made(random, f"random/{word} {number}")
