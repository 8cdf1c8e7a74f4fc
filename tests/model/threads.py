"""`run --threads`, whose trace the model follows. docs/operate/OPERATING.md and docs/use/TRACE.md have both.

A line of the trace tells who moves: the next request is offered, a session takes it, the holder of a transaction makes its
due call. The model's switch makes the same move, and says what the line has to be: the call's answer by the model's
participants, who see the calls in the order of the lines, and what is due then by the specified table.
"""

import bisect
import itertools
import re

from model import messages
from model.engine import Refused
from model.law import unfinished
from model.switch import Switch

PASSED = re.compile(r"cardswitch: message (\d+) is passed over: ")
MOVES = re.compile(r"(?P<offer>offer) \d+|\d+ take (?P<session>\d+) .*|(?P<number>\d+) [PACU] .*")


class Broken(Exception):
    """What is wrong with a line, or with what no line tells."""


def need(is_right, wrong):
    if not is_right:
        raise Broken(wrong)


def is_answered(message):
    """Whether there is a response to a message."""
    return messages.is_message(message) and message[2] % 2 == 0


class Run:
    """A run that is followed, with the messages that it got."""

    def __init__(self, switch, made):
        self.switch, self.engine, self.made = switch, switch.engine, made
        self.numbers = [number for number, it in enumerate(made, 1) if messages.is_message(it)]
        self.passed = [number for number, it in enumerate(made, 1) if not messages.is_message(it)]
        self.offered = self.told = 0
        # How many transactions were under way at once, at most.
        self.most = 0

    def is_at_rest(self):
        return not any(self.engine.sessions) and not self.engine.queue

    def pass_over(self, number):
        """A message that cannot be read is reported: the lines of its leg have not begun, and those of the legs before have ended."""
        need(self.passed[self.told : self.told + 1] == [number], "it is not the next one that cannot be read")
        need(self.is_at_rest(), "it is reported within a leg")
        self.told += 1
        need(self.offered <= bisect.bisect_left(self.numbers, number), "a later one is offered before")

    def offer(self):
        need(self.offered < len(self.numbers), "more is offered than came")
        number = self.numbers[self.offered]
        self.offered += 1
        return self.switch.offer(self.made[number - 1])

    def take(self, session):
        line = self.engine.take(session)
        self.most = max(self.most, sum(its is not None for its in self.engine.sessions))
        return line

    def call(self, number):
        """The due call of a transaction. Each entry is written before the next call, which no line shows."""
        held = [session for session, its in enumerate(self.engine.sessions) if its and its.id == number]
        need(held, "no session holds the transaction")
        self.engine.write()
        return self.engine.call(held[0])

    def move(self, line):
        """What the line that tells of this move has to be."""
        found = MOVES.fullmatch(line)
        need(found, "it is no line of a run")
        try:
            if found["offer"]:
                return self.offer()
            return self.take(int(found["session"])) if found["session"] else self.call(int(found["number"]))
        except Refused as refused:
            raise Broken(f"the model refuses this: {refused}") from None

    def follow(self, lines):
        """Follows the lines to the end. Raises what is wrong with them."""
        for at, line in enumerate(lines):
            passed = PASSED.match(line)
            try:
                wanted = self.pass_over(int(passed[1])) if passed else self.move(line)
                need(passed or line == wanted, f"wanted {wanted}")
            except Broken as broken:
                raise Broken("\n".join([*lines[max(at - 20, 0) : at + 1], f"line {at + 1}: {broken}"])) from None
        need(self.offered == len(self.numbers) and self.told == len(self.passed), "not all messages are offered or told")
        need(self.is_at_rest(), "a transaction has not ended")
        law = unfinished(lines)
        need(not law, law)


def follow(flow, limit, sessions, made, lines):
    """Follows the lines of a run. Returns the switch at the end, and how many transactions were under way at once, at most."""
    run = Run(Switch(flow, limit, sessions), made)
    count = len(lines) - sum(1 for _ in itertools.takewhile(lambda line: line.startswith("ack "), reversed(lines)))
    run.follow(lines[:count])
    acks = run.switch.send_advices()
    need(lines[count:] == acks, f"wanted at the end {acks}, came {lines[count:]}")
    return run.switch, run.most
