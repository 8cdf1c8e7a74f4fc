"""What `test_pool` prints of runs with threads, judged by the engine and the law of this folder.

Each line of the trace is played again: it has to be the line that the engine prints for the same
event, if the participant of a call replies as the line shows. So each transaction's lines are
those of the table for its own replies, each offer is taken once, and ids rise in the order of the
offers. Everything else that the program prints has to be what follows from these events.
"""

from collections import Counter, defaultdict
from itertools import zip_longest

from model import law
from model.engine import Engine, Refused
from model.law import calls_of

# The lines that come between two runs.
BETWEEN = ("release", "ack")


class Wrong(Exception):
    """What is wrong with an output."""


def need(is_right, why):
    if not is_right:
        raise Wrong(why)


class Shown:
    """The replies of the participants, as the line that is played shows them."""

    def __init__(self, numbers):
        self.numbers = numbers

    def show(self, words, live):
        self.words, self.live = words, live

    def answer(self, its, due):
        """Each preparation puts the participant's number after the path."""
        byte = int(self.words[5], 16)
        return byte, [("path", self.live.get("path", b"") + bytes([self.numbers[due[1].name]]))]

    def choice(self, its, due):
        return self.words[5].strip("[]")

    def advice(self, its, due):
        return b"" if "advice" in self.words else None


class Played(Engine):
    """An engine that plays the lines of a trace."""

    def __init__(self, flow, sessions):
        names = [entry.participant for entry in flow.participants()]
        self.numbers = {name: number & 0x7F for number, name in enumerate(names)}
        super().__init__(flow, sessions, Shown(self.numbers))
        # The session of each entry that a session made; the context of each transaction that is done.
        self.owners, self.ended = {}, {}
        # How many contexts were offered.
        self.offers = 0

    def enter(self, change=lambda view: None):
        """One more entry. No write is played, so what it would change is not kept."""
        change(self.now)
        self.history.append(None)
        return len(self.history)

    def record(self, number, its, change):
        super().record(number, its, change)
        self.owners[len(self.history)] = number
        if its.due()[0] == "done":
            self.ended[its.id] = its.live

    def tell(self, its, due):
        """An outcome puts the number with the highest bit set after the path."""
        told = super().tell(its, due)
        its.live["path"] = its.live.get("path", b"") + bytes([0x80 | self.numbers[due[1].name]])
        return told

    def play(self, line):
        """The line of the event that this line shows."""
        words = line.split(" ")
        if words[0] == "offer":
            self.offers += 1
            return self.offer({"offer": b"%d" % (self.offers - 1)})
        if words[0] == "release":
            return self.release()
        if words[0] == "ack":
            return self.ack(int(words[1]), int(words[2]))
        if words[1] == "take":
            return self.take(int(words[2]))
        held = [at for at, its in enumerate(self.sessions) if its and its.id == int(words[0])]
        need(held, f"no session holds the transaction of: {line}")
        its = self.sessions[held[0]]
        self.replies.show(words, its.live)
        return self.step(held[0], its)

    def is_idle(self):
        return not self.queue and not any(self.sessions)


class Output:
    """The lines of the program, by their kinds."""

    def __init__(self, text):
        self.trace, self.runs, self.calls, self.called, self.ended = [], [], [], [], {}
        for line in text.splitlines():
            self.add(line)

    def add(self, line):
        word, _, rest = line.partition(" ")
        if word == "run":
            self.runs.append({"from_to": tuple(map(int, rest.split())), "receipts": []})
        elif word == "receipts":
            session, *numbers = map(int, rest.split())
            receipts = self.runs[-1]["receipts"]
            need(session == len(receipts), f"the sessions are not in order: {line}")
            receipts.append(numbers)
        elif word in ("finished", "shelved"):
            self.runs[-1][word] = int(rest)
        elif word == "calls":
            self.calls.append(line)
        elif word == "called":
            self.called.append(rest.split(" "))
        elif word == "ended":
            number, _, context = rest.partition(" ")
            self.ended[int(number)] = context
        else:
            self.trace.append(line)


def play_all(engine, lines, ends):
    """Plays the lines. When a run ends, nothing waits, and no session holds a transaction."""
    for number, line in enumerate(lines, 1):
        try:
            came = engine.play(line)
        except (Refused, ValueError, IndexError) as fault:
            raise Wrong(f"line {number}: {line}\nthe model refuses it: {fault!r}") from None
        need(came == line, f"line {number}: {line}\nof the model:  {came}")
        need(number not in ends or engine.is_idle(), f"a run ends at line {number} too early")


def check_run(engine, run, lines):
    """Checks one run: its events are those of sessions, each session's receipts are the numbers of its
    entries, in order, and as many transactions ended as it says."""
    first, to = run["from_to"]
    need(not any(map(is_between, lines[first:to])), f"the run from {first} releases the shelf")
    owned = by(((engine.owners.get(number), number) for number in range(first + 1, to + 1)), 0)
    wanted = [[number for _, number in owned[session]] for session in range(len(engine.sessions))]
    for came, of_model in zip_longest(run["receipts"], wanted):
        need(came == of_model, f"run from {first}: receipts {came}\nof the model: {of_model}")
    ends = Counter(line.rpartition(" ")[2] for line in lines[first:to])
    for word, end in (("finished", "done"), ("shelved", "shelve")):
        came = run.get(word)
        need(came == ends[end], f"run from {first}: {word} {came}, not {ends[end]}")


def is_between(line):
    return line.partition(" ")[0] in BETWEEN


def check_runs(engine, output, offers):
    """The runs follow one another, with only releases and acknowledgements between."""
    last = 0
    for run in output.runs:
        first, to = run["from_to"]
        between = output.trace[last:first]
        need(all(map(is_between, between)), f"a session acts before the run from {first}")
        check_run(engine, run, output.trace)
        last = to
    need(last == len(output.trace), f"the last run ends at {last} of {len(output.trace)} lines")
    need(engine.offers == offers, f"{engine.offers} contexts were offered of {offers}")


def check_law(engine, output):
    """The outcome law of the lines, and the stations' counts. As there is no stop, each member is
    notified just once, in order."""
    names = [line.split(" ")[1] for line in output.calls]
    need(names == list(engine.numbers), f"the stations that count their calls are {names}")
    transactions = {}
    wrong = law.broken(output.trace, transactions) or law.uncounted(output.trace + output.calls)
    need(not wrong, wrong)
    for number, its in transactions.items():
        told = f"transaction {number} is notified to {its.told}, and {its.joined} joined"
        need(its.told == its.joined, told)


def check_called(engine, output):
    """The calls that were made are those of the lines: those of each station, and those of each
    transaction, in the same order, each by the session that held the transaction."""
    wanted = []
    for number, line in enumerate(output.trace, 1):
        for _, its, _, call, name, _ in calls_of([line]):
            wanted.append((str(engine.owners[number]), its, call, name))
    made = [tuple(words) for words in output.called]
    for what, at in (("session", 0), ("transaction", 1), ("station", 3)):
        need(by(made, at) == by(wanted, at), f"the calls of a {what} are not those of the lines")


def by(calls, at):
    """The calls, grouped by what is at this place in them."""
    groups = defaultdict(list)
    for call in calls:
        groups[call[at]].append(call)
    return groups


def check_ended(engine, output):
    """The contexts of the transactions that are done are those that their calls leave."""
    for number in sorted({*engine.ended, *output.ended}):
        pairs = engine.ended.get(number, {}).items()
        wanted = " ".join(f"{name}={value.hex()}" for name, value in pairs)
        came = output.ended.get(number)
        need(came == wanted, f"transaction {number} ended with {came}\nof the model: {wanted}")


def wrong_with(flow, sessions, offers, text):
    """What is wrong with the output of a run over this many offers; None: nothing."""
    engine = Played(flow, sessions)
    try:
        output = Output(text)
        play_all(engine, output.trace, {run["from_to"][1] for run in output.runs})
        check_runs(engine, output, offers)
        check_law(engine, output)
        check_called(engine, output)
        check_ended(engine, output)
    except Wrong as wrong:
        return str(wrong)
    except (IndexError, KeyError, ValueError) as fault:
        return f"not a line of the program: {fault!r}"
    return None
