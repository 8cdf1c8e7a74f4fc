"""The log of `run`: the record of each transaction, as a line of JSON without its times. docs/use/FORMATS.md, "The log", has it."""

import re

from model import messages
from model.table import PREPARED
from model.traces import string

ANSWER = re.compile(r"\d+ [PA] \w+ \S+ \S+ (?P<byte>[0-9a-f]{2}) ")
CHOICE = re.compile(r"\d+ [PA] select \S+ \S+ \[(?P<names>.*?)\] ")


def masked(card):
    """The first six digits and the last four; none of fewer than eleven."""
    return card[:6] + b"*" * (len(card) - 10) + card[-4:] if len(card) >= 11 else b"*" * len(card)


def answered(switch, message):
    """Runs the transaction of a request to its end. Its number and context, and who decided, which group was selected, which host was asked."""
    switch.offer(message)
    switch.engine.take(0)
    decided = group = host = None
    while its := switch.engine.sessions[0]:
        call, entry = its.due()
        switch.engine.write()
        line = switch.engine.call(0)
        if call == "select":
            group = CHOICE.match(line)["names"] or group
        elif call.startswith("prepare"):
            refuses = not int(ANSWER.match(line)["byte"], 16) & PREPARED
            if decided is None and (refuses or "rc" in its.live or "response" in its.live):
                decided = entry.name
            if host is None and "sent" in its.live:
                host = entry.name.removeprefix("query_")
        number, context = its.id, its.live
    return number, context, decided, group, host


def record(switch, message):
    """The record of a request, whose transaction is run to its end."""
    number, context, decided, group, host = answered(switch, message)
    mti, fields = messages.decode(message)
    response = messages.decode(context["response"])[1] if "response" in context else {}
    made = {"id": number, "type": string(mti), "stan": fields.get(11), "terminal": fields.get(41)}
    made |= {"card": masked(fields[2]) if 2 in fields else None, "amount": int(fields[4]) if 4 in fields else None}
    made |= {"currency": fields.get(49), "code": response.get(39), "decided": decided, "group": group, "host": host}
    return made | {"stand_in": "true" if "standin" in context else "false", "retries": 0}


def line(made):
    return "{" + ",".join(f'"{name}":{shown(value)}' for name, value in made.items() if value is not None) + "}\n"


def shown(value):
    """A value as JSON: a number or what is JSON already, a name, or bytes."""
    if isinstance(value, bytes):
        return string(value)
    return str(value) if isinstance(value, int) or value in ("true", "false") or value.startswith('"') else string(value.encode())


# What is known of a transaction when it is taken.
TAKEN = ("id", "type", "stan", "terminal", "card", "amount", "currency", "retries")


def lines(switch, made):
    """The lines of these messages, answered one after the other, and what the trace says of each when it is taken.

    Those that cannot be read have none."""
    found = [record(switch, it) for it in made if messages.is_message(it)]
    taken = ({name: it[name] for name in TAKEN} for it in found)
    return "".join(map(line, found)).encode(), "".join(map(line, taken)).encode()
