"""The lines of the trace as JSON. docs/use/TRACE.md, "The same as JSON", has it.

An object is made from the line of text and the response code that a context notes: all other facts are in the text.
"""

import json
import re

from model.table import NO_JOIN, PREPARED, READONLY, RETRY

BITS = {"PREPARED": PREPARED, "RETRY": RETRY, "NO_JOIN": NO_JOIN, "READONLY": READONLY}
MOVED = re.compile(r"(?P<id>\d+) (?P<phase>[PACU]) (?P<call>\w+) (?P<name>\S+) (?P<rest>.*?) ?-> (?P<next>.*)")
ANSWER = re.compile(r"(?P<byte>[0-9a-f]{2}) (?P<bad>bad )?(?P<join>join|nojoin) (?P<context>ctx|noctx)( (?P<bound>bound))?")
CHOICE = re.compile(r"\[(?P<names>.*?)\]( (?P<bound>bound))?")
OUTCOME = re.compile(r"(?P<recovering>recovering)?( ?advice (?P<advice>\d+))?")
WORDS = {"offer": ("bytes",), "release": ("count",), "go": ("session",), "ack": ("id", "advice")}


def string(value):
    """A string of these bytes."""
    made = json.dumps(value.decode("latin-1")).replace("\\t", "\\u0009").replace("\\r", "\\u000d")
    made = made.replace("\\b", "\\u0008").replace("\\f", "\\u000c").replace("\x7f", "\\u007f")
    return re.sub(r"\\u00[0-9a-f]{2}", lambda found: f"\\u{found[0][2:].upper()}", made)


def called(words):
    """The members of a call, or of an end: `commit NAME`, `prepare NAME GROUP/INDEX`, `done`."""
    call, *its = words.split(" ")
    made = {"call": call}
    if its:
        made["participant"] = its[0]
    if its[1:]:
        group, index = its[1].split("/")
        made |= {"group": group, "index": int(index)}
    return made


def answered(text, code):
    its = ANSWER.fullmatch(text)
    byte = int(its["byte"], 16)
    made = {"byte": its["byte"], "answer": [name for name, bit in BITS.items() if byte & bit], "bad": its["bad"] is not None}
    made |= {"joined": its["join"] == "join", "saved": its["context"] == "ctx"}
    return made | ({} if code is None else {"rc": code}) | {"bound": its["bound"] is not None}


def chosen(text):
    its = CHOICE.fullmatch(text)
    return {"names": its["names"].split(",") if its["names"] else [], "bound": its["bound"] is not None}


def moved(its, code):
    """A line of a transaction under way."""
    call, rest, recovering = its["call"], its["rest"], False
    event = {"select": "choice", "commit": "outcome", "abort": "outcome", "recover": "recover"}.get(call, "answer")
    words = f"{call} {its['name']}"
    if event in ("answer", "choice"):
        place, _, rest = rest.partition(" ")
        words = f"{words} {place}"
    made = {"event": event, "id": int(its["id"]), "phase": its["phase"]} | called(words)
    if event == "answer":
        made |= answered(rest, code)
    elif event == "choice":
        made |= chosen(rest)
    else:
        told = OUTCOME.fullmatch(rest)
        recovering = told["recovering"] is not None
        made |= {} if told["advice"] is None else {"advice": int(told["advice"])}
    return made | {"recovering": recovering, "next": called(its["next"])}


def facts(line, code=None):
    """What a line of text says, by its members' names, with the response code that the context notes."""
    its = MOVED.fullmatch(line)
    if its:
        return moved(its, code)
    words, _, following = line.partition(" -> ")
    word, *its = words.split(" ")
    if word in WORDS:
        return {"event": word} | dict(zip(WORDS[word], map(int, its)))
    if word in ("break", "clear"):
        return {"event": word, "participant": its[0]}
    if its == ["closed"]:
        return {"event": "closed", "id": int(word)}
    assert its[0] == "take", line
    return {"event": "take", "id": int(word), "session": int(its[1]), "next": called(following)}


def value_text(value):
    """A value as JSON, without spaces. Bytes become a string."""
    if isinstance(value, dict):
        return "{" + ",".join(f'"{name}":{value_text(it)}' for name, it in value.items()) + "}"
    if isinstance(value, list):
        return "[" + ",".join(map(value_text, value)) + "]"
    return string(value) if isinstance(value, bytes) else json.dumps(value)


def json_line(line, code=None):
    """The line of JSON that says the same as a line of text."""
    return value_text(facts(line, code))
