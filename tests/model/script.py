"""The lines of a script of `step`, over the engine. docs/use/FORMATS.md has them."""

import re
from collections import defaultdict, deque

from model import flows, texts
from model.engine import Engine, Refused


class Malformed(Exception):
    """A malformed line."""


def text_of(line):
    """A line as text."""
    try:
        text = line.decode("utf-8")
    except UnicodeDecodeError:
        raise Malformed from None
    if "\t" in text or "\r" in text:
        raise Malformed
    return text


def entry_of(word):
    name, colon, letters = word.partition(":")
    if not colon:
        return flows.Entry(name)
    if letters not in flows.BY_LETTERS:
        raise Malformed
    return flows.Entry(name, flows.BY_LETTERS[letters])


def is_number(word):
    """Decimal digits, leading zeros allowed, below 2^64."""
    return re.fullmatch("[0-9]+", word) is not None and int(word) < 2**64


def lines_of(script):
    lines = script.split(b"\n")
    if not lines[-1]:
        lines.pop()
    return lines


def next_of(queue, otherwise):
    return queue.popleft() if queue else otherwise


class Replies:
    """What the participants reply, each from queues in the order of the lines."""

    def __init__(self):
        self.answers, self.choices = defaultdict(deque), defaultdict(deque)
        self.advices, self.restores = defaultdict(deque), defaultdict(deque)

    def answer(self, _, due):
        return next_of(self.answers[due[1].name], (0x01, []))

    def choice(self, _, due):
        return next_of(self.choices[due[1].name], "")

    def advice(self, _, due):
        return next_of(self.advices[due[1].name], None)

    def restored(self, _, due):
        return next_of(self.restores[due[1].name], [])


def need(is_right):
    if not is_right:
        raise Malformed


def number(word):
    need(is_number(word))
    return int(word)


def name(word):
    need(flows.is_name(word))
    return word


def bytes_of(word):
    need(re.fullmatch("([0-9a-fA-F]{2})*", word))
    return bytes.fromhex(word)


def pairs(words):
    """`N=HEX ..`: entries of a context in their order."""
    made = []
    for word in words:
        key, equals, value = word.partition("=")
        need(equals)
        made.append((name(key), bytes_of(value)))
        need(len(made[-1][1]) < 65_536)
    return made


class Script:
    """A script that is under way."""

    def __init__(self, file=None):
        self.file, self.groups, self.retries, self.sessions = file, [], None, 2
        self.replies, self.engine = Replies(), None

    def line(self, line):
        """The lines that one line prints."""
        text = text_of(line)
        if text.startswith("choose "):
            who, space, choice = text.removeprefix("choose ").partition(" ")
            need(space and self.engine is None)
            self.replies.choices[name(who)].append(choice)
            return []
        word, *words = text.split(" ")
        need(word and all(words))
        if word in SETTINGS:
            need(self.engine is None)
            SETTINGS[word](self, words)
            return []
        need(word in ACTIONS)
        count, act = ACTIONS[word]
        need(count is None or len(words) in count)
        act = act(words)
        self.begin()
        if word == "auto":
            return self.engine.auto()
        try:
            return [act(self.engine)]
        except Refused as refused:
            return [f"refused {refused}"]

    def begin(self):
        """The flow is checked at the first line that is no setting."""
        if self.engine is None:
            flow = self.file or flows.Flow(0, self.groups)
            flow = flows.Flow(flow.retries if self.retries is None else self.retries, flow.groups)
            flows.check(flow)
            if not 1 <= self.sessions <= 16:
                raise flows.Fault("BadSessions")
            self.engine = self.made(flow)

    def made(self, flow):
        return Engine(flow, self.sessions, self.replies)

    def set_retries(self, words):
        need(len(words) == 1)
        self.retries = number(words[0])

    def set_sessions(self, words):
        need(len(words) == 1)
        self.sessions = number(words[0])

    def add_group(self, words):
        need(words and self.file is None)
        self.groups.append(flows.Group(words[0], [entry_of(word) for word in words[1:]]))

    def queue_answer(self, words):
        need(len(words) > 1 and len(words[1]) == 2)
        self.replies.answers[name(words[0])].append((bytes_of(words[1])[0], pairs(words[2:])))

    def queue_advice(self, words):
        need(len(words) == 2)
        self.replies.advices[name(words[0])].append(bytes_of(words[1]))

    def queue_restore(self, words):
        need(words)
        self.replies.restores[name(words[0])].append(pairs(words[1:]))


SETTINGS = {
    "retries": Script.set_retries,
    "sessions": Script.set_sessions,
    "flow": Script.add_group,
    "answer": Script.queue_answer,
    "advice": Script.queue_advice,
    "restore": Script.queue_restore,
}


def offered(words):
    context = dict(pairs(words))

    def offer(engine):
        need(len(context) <= 64)
        return engine.offer(context)

    return offer


def by_number(act):
    def read(words):
        at = number(words[0])
        return lambda engine: act(engine, at)

    return read


def by_name(act):
    def read(words):
        who = name(words[0])
        return lambda engine: act(engine, who)

    return read


def acked(words):
    numbers = [number(word) for word in words]
    return lambda engine: engine.ack(*numbers)


def written(words):
    counts = [number(word) for word in words]
    return lambda engine: engine.write(*counts)


# What `help` shows.
HELP = """\
Settings come first. The first other line, except help, opens the flow.
retries N                  how often a transaction that aborts with RETRY is tried again
sessions N                 the number of sessions, 1 to 16
flow GROUP [ENTRY ..]      adds a group to the flow; an entry is NAME or NAME:MARKS
answer NAME HH [N=HEX ..]  queues the answer of the participant's next preparation
choose NAME TEXT           queues the text of its next selection
advice NAME HEX            queues the advice of its next commit or abort
restore NAME [N=HEX ..]    queues what its next recover puts into the context

offer [N=HEX ..]           puts a context at the end of the queue
take S                     session S takes the first context of the queue
call S                     makes the due call of session S
go S                       lets the held call of session S go
break NAME                 holds the calls of the participant from now on
clear NAME                 holds them no longer
where S                    shows where the transaction of session S is
rest S                     shows its entries that are still to come
saved S                    shows its saved context
calls NAME                 shows how many calls of the participant were made
write [K]                  writes all entries, or the oldest K
release                    puts the shelf at the end of the queue
ack ID PLACE               reports that the advice of this place was forwarded
stop                       discards all but the journal and the participants
cut                        begins the history anew, without a stop
auto                       runs one transaction with an empty context to its end

list                       shows the steps of the flow, and where the sessions are
info                       shows each session, the queue, the shelf and what is written
help                       shows these lines
quit                       ends the session
An empty line repeats the line before, once the flow is open. A line that begins with # is a comment.
""".splitlines()

# How many words follow, and what the line then does.
ACTIONS = {
    "auto": ((0,), lambda words: None),
    "offer": (None, offered),
    "take": ((1,), by_number(Engine.take)),
    "release": ((0,), lambda words: Engine.release),
    "ack": ((2,), acked),
    "break": ((1,), by_name(Engine.set_break)),
    "clear": ((1,), by_name(Engine.clear)),
    "go": ((1,), by_number(Engine.go)),
    "call": ((1,), by_number(Engine.call)),
    "write": ((0, 1), written),
    "stop": ((0,), lambda words: lambda engine: engine.stop()),
    "cut": ((0,), lambda words: Engine.cut),
    "where": ((1,), by_number(Engine.where)),
    "rest": ((1,), by_number(Engine.rest)),
    "saved": ((1,), by_number(Engine.saved)),
    "calls": ((1,), by_name(lambda engine, who: f"calls {who} {engine.calls.get(who, 0)}")),
}


def refused(fault):
    """How the message begins when a flow or the number of sessions is refused."""
    if fault.name == "BadSessions":
        return "the settings before this line: bad number of sessions"
    return f"the settings before this line: {brief(fault)}"


def brief(fault):
    """The same at a prompt."""
    return "the settings before this line: bad number of sessions" if fault.name == "BadSessions" else f"the flow is refused: {texts.told(fault)}"


def readable(text):
    """A line as a prompt shows it: values of a saved context as text where they are printable."""
    if not text.startswith("saved "):
        return text
    word, number, *puts = text.split(" ")
    shown = []
    for put in puts:
        name, _, digits = put.partition("=")
        value = bytes.fromhex(digits)
        is_text = all(0x20 <= byte <= 0x7E and byte != 0x22 for byte in value)
        shown.append(f'{name}="{value.decode()}"' if is_text else put)
    return " ".join([word, number, *shown])


class Prompt(Script):
    """A session at a prompt. docs/use/DEBUGGER.md has its lines."""

    TEXT = "cardswitch> "

    def __init__(self, file=None):
        super().__init__(file)
        # What an empty line repeats, and whether `quit` was typed.
        self.last, self.has_quit = b"", False

    def answer(self, line):
        """What a line prints, and how the message about it begins (None: there is none)."""
        line = b" ".join(word for word in line.split(b" ") if word) or self.last
        if not line or line.startswith(b"#"):
            return "", None
        if line == b"quit":
            self.has_quit = True
            return "", None
        try:
            return "".join(f"{it}\n" for it in self.shown(line)), None
        except Malformed:
            return "", "cardswitch: "
        except flows.Fault as fault:
            return "", f"cardswitch: {brief(fault)}"
        finally:
            self.last = line if self.engine else b""

    def shown(self, line):
        if line == b"help":
            return HELP
        if line not in (b"list", b"info"):
            return [readable(text) for text in self.line(line)]
        self.begin()
        places = [self.engine.where(number) for number in range(len(self.engine.sessions))]
        if line == b"list":
            steps = [re.search(" step ([0-9]+) ", place) for place in places]
            at = [f"session {number} at step {step[1]}" for number, step in enumerate(steps) if step]
            return [*flows.image(self.engine.flow).decode().splitlines(), *at]
        totals = f"queue {len(self.engine.queue)}, shelf {len(self.engine.now.shelf)}"
        totals += f", written {self.engine.mark} of {len(self.engine.history)}"
        return [*(f"session {number}: {place}" for number, place in enumerate(places)), totals]


def step(script, file=None):
    """What `step` prints, how its message begins (None: there is none), and the status."""
    try:
        read = flows.read_flow(file) if file is not None else None
    except flows.Fault as fault:
        return "", f"cardswitch: flow.toml: {texts.told(fault)}", 1
    run, printed = Script(read), []
    for number, line in enumerate(lines_of(script), 1):
        try:
            printed += [f"{it}\n" for it in run.line(line)]
        except Malformed:
            return "".join(printed), f"cardswitch: line {number}: ", 1
        except flows.Fault as fault:
            return "".join(printed), f"cardswitch: line {number}: {refused(fault)}", 1
    return "".join(printed), None, 0
