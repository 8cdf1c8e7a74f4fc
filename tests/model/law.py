"""The outcome law, as far as the lines of a trace show it."""

CALLS = ("prepare", "prepare_for_abort", "select", "recover", "commit", "abort")


class Told:
    """What the lines tell of one transaction."""

    def __init__(self, stops):
        self.stops = stops
        self.outcome = None
        # Who joined, and who was notified of the outcome: only once, if a stop left it in doubt.
        self.joined, self.told = [], []
        self.told_at = None

    def prepare(self, stops, name, marks):
        """What is wrong with a preparation or a selection."""
        if self.outcome:
            return "is prepared after its outcome"
        if self.stops != stops:
            return "is prepared again after a stop"
        self.joined += [name] * ("join" in marks)
        return None

    def tell(self, stops, call, name):
        """What is wrong with an outcome call."""
        if (self.outcome or call) != call:
            return "is notified to commit and to abort"
        is_again = self.told_at not in (None, stops) and self.told[-1] == name
        self.told += [] if is_again else [name]
        self.outcome, self.told_at = call, stops
        return None

    def end(self):
        """What is wrong with it once it is over: all who joined are notified in order, then possibly the one that was being prepared."""
        if len(set(self.joined)) < len(self.joined):
            # (one that joined twice may be notified again, or for its second joining)
            return None
        if self.told[: len(self.joined)] != self.joined or len(self.told) > len(self.joined) + 1:
            return f"is notified to {' '.join(self.told)}, and {' '.join(self.joined)} joined"
        return None


def calls_of(lines):
    """The calls that lines show: how many stops came before, the id, phase, call, participant and what follows."""
    stops = 0
    for line in lines:
        words = line.partition(" ->")[0].split(" ")
        stops += words[0] in ("restart", "found")
        if len(words) > 3 and words[1] in ("P", "A", "C", "U") and words[2] in CALLS:
            yield (stops, *words[:4], words[4:])


def unlawful(lines):
    """How calls of a trace break the outcome law, or what is wrong with their counts; None: nothing."""
    return broken(lines, {}) or uncounted(lines)


def broken(lines, transactions):
    """How calls break the outcome law; the transactions are kept."""
    for stops, number, _, call, name, marks in calls_of(lines):
        its = transactions.setdefault(number, Told(stops))
        wrong = None
        if call in ("commit", "abort"):
            wrong = its.tell(stops, call, name)
        elif call != "recover":
            wrong = its.prepare(stops, name, marks)
        if wrong:
            return f"transaction {number} {wrong}"
    return None


def undecided(lines):
    """How the calls after a stop contradict the journal that it left: `found`, with its rows and their phases."""
    committing = None
    for line in lines:
        words = line.split(" ")
        if words[0] == "found":
            rows = zip(words, words[1:], words[2:])
            committing = {number for word, number, phase in rows if word == "row" and phase == "C"}
        for _, number, _, call, _, _ in calls_of([line]) if committing is not None else ():
            if call == "abort" and number in committing or call == "commit" and number not in committing:
                return f"transaction {number} is notified to {call}, whatever the journal has"
    return None


def uncounted(lines):
    """What is wrong with the counts of the stations: `calls`, compared with the calls that the lines of their plant show."""
    made = []
    for line in lines:
        made = [] if line.startswith("found ") else made
        made += [name for _, _, _, _, name, _ in calls_of([line])]
        word, *words = line.split(" ")
        if word == "calls" and made.count(words[0]) != int(words[1]):
            return f"{words[0]} is called {words[1]} times, and {made.count(words[0])} calls are shown"
    return None


def unfinished(lines):
    """What is wrong with a run that was recovered to its end: `left` has to be without a row."""
    transactions = {}
    wrong = broken(lines, transactions) or uncounted(lines) or undecided(lines)
    for number, its in transactions.items():
        wrong = wrong or (its.end() and f"transaction {number} {its.end()}")
    if any(line.startswith("left ") and " row " in line for line in lines):
        wrong = wrong or "a transaction is left unfinished"
    return wrong
