#!/usr/bin/python3
"""Starts the gateway without one of its rules, for the tests that have to fail then.

    without.py RULE [OPTION ..]
"""

import os
import sys

sys.dont_write_bytecode = True
GATEWAY = os.path.join(
    os.path.dirname(os.path.dirname(os.path.dirname(os.path.abspath(__file__)))), "contrib", "gateway"
)
sys.path.insert(0, GATEWAY)

from cardgate import clients, command, engine, gateway, given, iso8583, line, options, process  # noqa: E402


def whole_frames():
    """G1: what a client sends in a frame with a bad length goes on to the engines."""

    ended, started = clients.Client.end, gateway.Gateway.start

    def end(client, why, **members):
        if why == "bad_frame":
            for its in client.front.engines:
                its.input.write(client.framer.kept[client.framer.at :])
        ended(client, why, **members)

    async def start(its):
        its.front.engines = its.engines
        await started(its)

    clients.Client.end, gateway.Gateway.start = end, start


def window():
    """G2: an engine is given all that comes, at once."""

    def due(its, _):
        given = list(its.waiting)
        its.waiting.clear()
        its.handed |= {it.header: it for it in given}
        its.size = 0
        return given, []

    line.Line.due = due


def once():
    """G3: what an engine had when it ended is given to the next one."""
    gone = engine.Engine.forget

    def forget(its):
        its.line.waiting.extendleft(it for it in its.line.lost() if not it.is_own)
        gone(its)

    engine.Engine.forget = forget


def taken_back():
    """G4: an approval that reaches nobody stands."""
    iso8583.reversal_of = lambda _: None


def ends_with_the_gateway():
    """G5: an engine goes on when its gateway has ended."""
    process.ends_with = lambda _: lambda: None


def tests_when_idle():
    """G6: an idle engine gets nothing."""
    engine.TICK = 1000


def finishes():
    """G7: SIGTERM ends the gateway at once."""

    async def stop(_):
        os._exit(0)

    gateway.Gateway.stop = stop


def bounded():
    """G8: a client may have any number of requests open, and leave any number of responses unread."""
    given.Bounds = lambda *_: clients.Bounds(10**9, 1 << 30, 10**9)


RULES = {
    "G1": whole_frames,
    "G2": window,
    "G3": once,
    "G4": taken_back,
    "G5": ends_with_the_gateway,
    "G6": tests_when_idle,
    "G7": finishes,
    "G8": bounded,
}

if __name__ == "__main__":
    RULES[sys.argv[1]]()
    sys.exit(command.main(sys.argv[2:]))
