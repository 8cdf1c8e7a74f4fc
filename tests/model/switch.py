"""The participants of the switch, and what `run` answers. docs/use/SWITCH.md has them, docs/operate/OPERATING.md has the run."""

import functools

from model import messages
from model.engine import Engine

# Where the issuers of cards are, by the first digits: the longest prefix counts.
ROUTES = {b"4": "alpha", b"5": "beta", b"55": "alpha"}
NEEDED = {"authorization": (2, 3, 4, 7, 11, 41), "reversal": (2, 4, 11, 41, 90), "network": (11, 70)}
CLASSES = {b"0100": "authorization", b"0101": "authorization", b"0800": "network", b"0801": "network"}
CLASSES |= dict.fromkeys((b"0400", b"0401", b"0420", b"0421"), "reversal")
ANSWERED = (2, 3, 4, 7, 11, 12, 13, 32, 37, 41, 42, 49, 70, 90)
REVERSED = (2, 3, 4, 7, 11, 12, 13, 32, 37, 41, 42, 49)
ISSUED = (2, 3, 4, 7, 11, 41, 49)


def copied(numbers, fields):
    return {number: fields[number] for number in numbers if number in fields}


def route_of(card):
    """The group that asks the issuer of a card, or None."""
    prefixes = [prefix for prefix in ROUTES if card.startswith(prefix)]
    return ROUTES[max(prefixes, key=len)] if prefixes else None


def issued(mti, fields):
    """What the simulated issuer answers, or None."""
    if mti in (b"0100", b"0101"):
        last = fields[4][-2:]
        if last == b"91":
            return None
        if last in (b"05", b"51", b"54", b"61"):
            return b"0110", copied(ISSUED, fields) | {39: last}
        return b"0110", copied(ISSUED, fields) | {38: fields[11], 39: b"00"}
    if mti in (b"0120", b"0121", b"0420", b"0421"):
        return mti[:2] + b"30", copied(ISSUED, fields) | {39: b"00"}
    return None


class Book:
    """What the cards have spent, and what is held for them, under one limit for each card."""

    def __init__(self, limit):
        self.limit = limit
        # By id: card, key, amount, and "open", "used" or "reversed".
        self.items = {}

    def reserve(self, number, card, key, amount):
        if any(item[1] == key for item in self.items.values()):
            return b"94"
        held = sum(item[2] for item in self.items.values() if item[0] == card and item[3] != "reversed")
        if held + amount > self.limit:
            return b"61"
        self.items[number] = [card, key, amount, "open"]
        return None

    def settle(self, number):
        if number in self.items and self.items[number][3] == "open":
            self.items[number][3] = "used"

    def release(self, number):
        if number in self.items and self.items[number][3] == "open":
            del self.items[number]

    def reverse(self, key):
        for item in self.items.values():
            if item[1] == key and item[3] == "used":
                item[3] = "reversed"


# A request is read at each call.
read = functools.lru_cache(messages.decode)


class Request:
    """A transaction's context, as participants see it: its request, and what they note."""

    def __init__(self, its):
        self.number, self.notes, self.is_recovered = its.id, its.live, its.recovering != ""
        self.mti, self.fields = read(its.live["request"])
        self.kind = CLASSES.get(self.mti)

    def refuse(self, code):
        self.notes["rc"] = code
        return 0x40


class Participants:
    """What the switch's participants reply to the calls of all transactions, made one after the other."""

    def __init__(self, limit):
        self.book = Book(limit)

    def check(self, request):
        fields, kind = request.fields, request.kind
        if kind is None:
            return request.refuse(b"12")
        if any(number not in fields for number in NEEDED[kind]):
            return request.refuse(b"30")
        if kind == "authorization" and len(fields[2]) < 12:
            return request.refuse(b"14")
        if 4 in fields and int(fields[4]) == 0:
            return request.refuse(b"13")
        return 0xC1

    def limits(self, request):
        if request.kind == "reversal":
            return 0x81
        if request.kind != "authorization":
            return 0xC1
        fields = request.fields
        key = (fields[2], fields[41], fields[11], fields[7])
        code = self.book.reserve(request.number, fields[2], key, int(fields[4]))
        return request.refuse(code) if code else 0x81

    def route(self, request):
        if request.kind == "authorization" and route_of(request.fields[2]) is None:
            return request.refuse(b"91")
        return 0xC1

    def query(self, request):
        if request.kind != "authorization":
            return 0xC1
        request.notes |= {"sent": b"1", "late": b"1"}
        answer = issued(request.mti, request.fields)
        if answer is None:
            return 0x41
        request.notes["rc"] = answer[1][39]
        if 38 in answer[1]:
            request.notes["auth"] = answer[1][38]
        del request.notes["late"]
        return 0x41 if answer[1][39] == b"00" else 0x40

    def standin(self, request):
        if "late" not in request.notes or "rc" in request.notes:
            return 0xC1
        if int(request.fields[4]) > 1000:
            return request.refuse(b"91")
        request.notes |= {"rc": b"00", "auth": b"SI" + request.fields[11][-4:], "standin": b"1"}
        return 0x41

    def reverse(self, request):
        return 0x81 if request.kind == "authorization" else 0xC1

    def forward(self, request):
        return 0x81 if request.kind in ("authorization", "reversal") else 0xC1

    def respond(self, request, default=b"00"):
        if request.mti[2] % 2 == 0:
            mti = request.mti[:2] + bytes([request.mti[2] + 1]) + b"0"
            fields = copied(ANSWERED, request.fields) | {39: request.notes.get("rc", default)}
            if "auth" in request.notes:
                fields[38] = request.notes["auth"]
            request.notes["response"] = messages.encode(mti, fields)
        return 0x41 if default == b"00" else 0x40

    def reversal(self, request):
        fields = request.fields
        padded = [fields.get(number, b"").rjust(11, b"0") for number in (32, 33)]
        original = request.mti + fields[11] + fields[7] + b"".join(padded)
        return messages.encode(b"0420", copied(REVERSED, fields) | {90: original})

    def committed(self, name, request):
        """What a member does on commit, and its advice."""
        fields, notes = request.fields, request.notes
        if name == "limits" and request.kind == "authorization":
            self.book.settle(request.number)
        if name == "limits" and request.kind == "reversal":
            self.book.reverse((fields[2], fields[41], fields[90][4:10], fields[90][10:20]))
        if name == "reverse" and "late" in notes:
            return self.reversal(request)
        if name == "forward" and "standin" in notes:
            return messages.encode(b"0120", fields | {38: notes["auth"], 39: notes["rc"]})
        if name == "forward" and request.kind == "reversal":
            return messages.encode(b"0420", fields)
        return None

    def aborted(self, name, request):
        notes = request.notes
        if name == "limits":
            self.book.release(request.number)
        may_stand = "sent" in notes and ("late" in notes or notes.get("rc") == b"00")
        if name == "reverse" and request.kind == "authorization" and (request.is_recovered or may_stand):
            return self.reversal(request)
        return None

    # What an engine asks of its stations, given a transaction, and its due call with the entry called.

    def answer(self, its, due):
        """The byte, and nothing to put: what was put into the context is there already."""
        call, entry = due
        if call == "prepare_for_abort":
            return self.respond(Request(its), b"96"), []
        return getattr(self, "query" if entry.name.startswith("query_") else entry.name)(Request(its)), []

    def choice(self, its, _):
        request = Request(its)
        if request.kind != "authorization" or "rc" in request.notes:
            return ""
        return route_of(request.fields[2]) or ""

    def advice(self, its, due):
        call, entry = due
        return (self.committed if call == "commit" else self.aborted)(entry.name, Request(its))


def is_accepted(advice):
    """Whether an issuer accepts an advice."""
    _, fields = messages.decode(advice)
    return 2 in fields and route_of(fields[2]) is not None and 11 in fields and 41 in fields


class Switch:
    """The switch over its flow: an engine over its participants."""

    def __init__(self, flow, limit, sessions=1):
        self.engine = Engine(flow, sessions, Participants(limit))

    def offer(self, message):
        return self.engine.offer({"request": message})

    def answer(self, message):
        """Runs the transaction of a request from its offer to its end. Its lines, each with the code that the context of its answer notes."""
        lines = [(self.offer(message), None), (self.engine.take(0), None)]
        while its := self.engine.sessions[0]:
            is_answer = its.due()[0].startswith("prepare")
            self.engine.write()
            line = self.engine.call(0)
            lines.append((line, its.live.get("rc") if is_answer else None))
        return lines

    def send_advices(self):
        """Sends the stored advices; those that an issuer accepts are dropped. The lines of that."""
        stored = sorted(self.engine.now.advices.items())
        return [self.engine.ack(*key) for key, advice in stored if is_accepted(advice)]

    def responses(self):
        """The frames of the responses to the transactions that ended, in the order of ids."""
        contexts = [context for _, context in sorted(self.engine.ended.items())]
        return b"".join(messages.framed(it["response"]) for it in contexts if "response" in it)

    def told(self, requests):
        """Answers these messages one after the other. What it shows: lines with their codes, and numbers of messages passed over."""
        for number, message in enumerate(requests, 1):
            if messages.is_message(message):
                yield from self.answer(message)
            else:
                yield number
        yield from ((line, None) for line in self.send_advices())

    def run(self, requests):
        """The frames of the responses to these messages, answered one after the other."""
        list(self.told(requests))
        return self.responses()

    def counted(self, requests, every):
        """The same frames, and the beginnings of the lines on standard error with `--stats EVERY`; 0 is `--stats` without a number."""
        lines, passed, answered = [], 0, 0
        for number, message in enumerate(requests, 1):
            if not messages.is_message(message):
                passed += 1
                lines.append(b"cardswitch: message %d is passed over: " % number)
                continue
            self.answer(message)
            answered += 1
            if every and answered % every == 0:
                lines.append(self.numbers(passed, 0))
        delivered = len(self.send_advices())
        if every is not None:
            lines.append(self.numbers(passed, delivered))
        return self.responses(), lines

    def numbers(self, passed, delivered):
        """The line of numbers up to its time: what the contexts say of the transactions that ended, by their responses."""
        contexts = self.engine.ended.values()
        codes = [messages.decode(it["response"])[1].get(39) for it in contexts if "response" in it]
        declined = sorted({code for code in codes if code not in (b"00", None)})
        members = [("requests", len(contexts)), ("approved", codes.count(b"00"))]
        members += [(f"declined-{code.decode()}", codes.count(code)) for code in declined]
        members += [("passed-over", passed), ("stand-ins", sum("standin" in it for it in contexts))]
        members += [("reversals", sum(read(it["request"])[0][:2] == b"04" and read(it["request"])[0] in CLASSES for it in contexts))]
        members += [("advices-stored", len(self.engine.now.advices) + delivered), ("advices-delivered", delivered)]
        return ("cardswitch: stats: " + " ".join(f"{name}={count}" for name, count in members) + " seconds=").encode()
