#!/usr/bin/env python3
"""Runs `cardswitch run --config` with hosts at the other end of named pipes, and looks at what the switch makes of them.

    tests/hosts.py [WORD] [--program PATH]

Each case is a row of `docs/operate/HOSTS.md`: what the host does, and what the switch then answers, stores and sends. The hosts are played frame
by frame (`harness/hosts.py`). One case runs `examples/hosts/host.py`, and one `examples/hosts/try.sh`, in which socat carries the frames
over connections on the loopback, if it is installed. Two cases run commands exactly as the pages have them. WORD picks the cases whose
name has these letters. The last line has the counts; the status is 1 if something is wrong.
"""

import argparse
import collections
import contextlib
import datetime
import itertools
import os
import shutil
import signal
import socket
import subprocess
import sys
import tempfile
import time

sys.dont_write_bytecode = True

import kills  # noqa: E402
from harness import pages  # noqa: E402
from harness.connected import listening  # noqa: E402
from harness.hosts import EXAMPLES, NETWORK_TEST, SECONDS, Run, Wire, Wrong, played, reply, request, small, wanted, worked  # noqa: E402
from model import messages  # noqa: E402

# How long a query waits, in seconds, how long a case may take, and what counts as at once on a busy machine. And how long a query may
# wait on a busy machine: less than one without a `timeout_ms`.
TIMEOUT, CASE, AT_ONCE, MOST = 1.5, 120, 1.1, 8
# With threads a leg has ended this long after its last response, and stored advices are sent then.
LEG = 0.3
CONFIG = """
[[host]]
name = "alpha"
to = "alpha.to"
from = "alpha.from"
timeout_ms = {timeout}
{alpha}

[[host]]
name = "beta"
{beta}

[limits]
stand_in = 500
"""
# A silent host is not asked for a second, and then gets echo tests until it answers. And the messages that a host answers.
TESTED, ANSWERED = "retry_ms = 1000\necho_s = 30", (b"0100", b"0120", b"0121", b"0420", b"0421", b"0800")
PIPES = 'to = "beta.to"\nfrom = "beta.from"\ntimeout_ms = 1500'
# A card of beta.
FIVE = b"5000000000000009"
# As many sessions as there may be, as threads.
SIXTEEN = ["--threads", "--sessions", "16"]


@contextlib.contextmanager
def switch(program, room, *words, alpha="", beta="simulated = true", more="", timeout=1500):
    """A run that has begun, and the host of `alpha`, which listens."""
    with open(os.path.join(room, "config.toml"), "w", encoding="utf-8") as file:
        file.write(CONFIG.format(alpha=alpha, beta=beta, timeout=timeout) + more)
    wire = Wire(room, "alpha")
    wire.listen()
    run = Run(program, room, *words)
    try:
        # (the switch answers a network test by itself)
        wanted("the answer to a network test", run.ask(NETWORK_TEST)[0], b"0810")
        yield run, wire
    finally:
        run.process.kill()
        run.process.wait()


def code(response):
    return response[1].get(39)


def waited(began):
    """The switch stood in after the timeout of a request that was sent at this time, or later."""
    took = time.monotonic() - began
    if not TIMEOUT - 0.01 <= took <= MOST:
        raise Wrong(f"the switch stood in after {took:.2f} seconds, wanted {TIMEOUT}")


def advices_in(room):
    """The types of the advices in the journal, in the order of ids and places."""
    left = kills.tables_of(os.path.join(room, "journal.db"))
    return [body[:4] for _, body in sorted(left.advice.items())]


def answers(wire, *codes):
    """The host answers a message with each of these codes, as it comes; returns the types of the messages."""
    came = []
    for its in codes:
        message = wire.get()
        wire.put(reply(message, its))
        came.append(message[:4])
    return came


def approved(program, room):
    """The host approves: its code and approval are the response's."""
    with switch(program, room) as (run, wire):
        run.send(request(1))
        message = wire.get()
        wanted("the query", message, request(1))
        wire.put(reply(message))
        response = run.receive()
        wanted("fields 38 and 39", (response[1].get(38), code(response)), (b"HOST42", b"00"))
        run.end()


def declined(program, room):
    """The host declines with a code."""
    with switch(program, room) as (run, wire):
        run.send(request(1))
        wire.put(reply(wire.get(), b"51"))
        wanted("field 39", code(run.receive()), b"51")
        run.end()


def silent(program, room):
    """No answer comes: the switch stands in after the timeout, up to its own amount, and sends reversal and advice at the end."""
    with switch(program, room) as (run, wire):
        began = time.monotonic()
        run.send(request(1, 400))
        wire.get()
        response = run.receive()
        waited(began)
        wanted("fields 38 and 39", (response[1].get(38), code(response)), (b"SI0001", b"00"))
        run.send(request(2, 600))
        wire.get()
        wanted("field 39 above the stand-in's amount", code(run.receive()), b"91")
        run.process.stdin.close()
        wanted("advices", answers(wire, b"00", b"00", b"00"), [b"0420", b"0120", b"0420"])
        run.process.wait(SECONDS)


def late(program, room):
    """An answer that comes after the timeout is dropped: the next request gets its own."""
    with switch(program, room) as (run, wire):
        run.send(request(1, 400))
        first = wire.get()
        wanted("the first response's code", code(run.receive()), b"00")
        wire.put(reply(first, b"51"))
        run.send(request(2))
        wire.put(reply(wire.get(), b"05"))
        wanted("the second response's code", code(run.receive()), b"05")


def late_of_the_same_key(program, room):
    """A late answer is dropped even if the next request has its key (type, terminal and STAN)."""
    with switch(program, room) as (run, wire):
        run.send(request(1, 400))
        first = wire.get()
        wanted("the first response's code", code(run.receive()), b"00")
        # (the answer was taken from the pipe once the bad length after it was found)
        wire.put(reply(first, b"51") + b"xxxx")
        wire.cut_off()
        run.send(request(1, card=b"4000000000000010"))
        wire.put(reply(wire.get(), b"05"))
        wanted("the second response's code", code(run.receive()), b"05")


def late_of_two_acquirers(program, room):
    """Two acquirers have one terminal and STAN: the late answer for the first one's card is not taken for the other's request."""
    with switch(program, room) as (run, wire):
        run.send(request(1, 400))
        first = wire.get()
        wanted("the first response's code", code(run.receive()), b"00")
        run.send(request(1, 400, card=b"4000000000000010"))
        second = wire.get()
        wire.put(reply(first, b"51") + reply(second, b"05"))
        wanted("the second response's code", code(run.receive()), b"05")
        run.send(request(1, 400, card=b"4000000000000028"))
        wire.get()
        wire.put(reply(second, b"05"))
        response = run.receive()
        wanted("fields 38 and 39 without an answer of its own", (response[1].get(38), code(response)), (b"SI0001", b"00"))


def garbage(program, room):
    """Bytes that are no message are dropped; at a bad length the switch closes its end, and stands in at once."""
    with switch(program, room) as (run, wire):
        run.send(request(1))
        message = wire.get()
        wire.put(b"0004junk" + messages.framed(b"0110") + reply(message, b"61"))
        wanted("field 39 after garbage", code(run.receive()), b"61")
        run.send(request(2, 400))
        wire.get()
        wire.put(b"xxxx")
        response = run.receive()
        wanted("field 39 after a bad length", code(response), b"00")
        at_once([response[2]])
        wire.cut_off()


def closed_in_a_frame(program, room):
    """The host closes in the middle of a frame, or before its first byte: the switch stands in at once."""
    for size in 20, 0:
        with tempfile.TemporaryDirectory(dir=room) as inner, switch(program, inner) as (run, wire):
            run.send(request(1, 400))
            wire.put(reply(wire.get())[:size])
            wire.hang_up()
            response = run.receive()
            wanted("field 38", response[1].get(38), b"SI0001")
            at_once([response[2]])


def killed_and_back(program, room):
    """A dead host is stood in for at once; once it is back it is asked again, within a second or so."""
    with switch(program, room) as (run, wire):
        run.send(request(1))
        wire.put(reply(wire.get()))
        wanted("field 39 before", code(run.receive()), b"00")
        wire.hang_up()
        time.sleep(0.2)
        for stan in 2, 3:
            response = run.ask(request(stan, 400))
            wanted("field 38 of a dead host", response[1].get(38), b"SI%04d" % stan)
            at_once([response[2]])
        wire.listen()
        time.sleep(1.2)
        run.send(request(4))
        wire.put(reply(wire.get(), auth=b"BACK04"))
        wanted("field 38 of the host that is back", run.receive()[1].get(38), b"BACK04")


def nobody_there(program, room):
    """No host has its pipes open: the switch stands in at once."""
    with switch(program, room) as (run, wire):
        wire.hang_up()
        for stan in 1, 2, 3:
            response = run.ask(request(stan, 400))
            wanted("field 38", response[1].get(38), b"SI%04d" % stan)
            at_once([response[2]])


def unread(program, room):
    """The host does not read: the switch stands in after the timeout. A request that was not written in time never is."""
    with switch(program, room, "--stats") as (run, wire):
        full = os.open(wire.to, os.O_WRONLY | os.O_NONBLOCK)
        with contextlib.suppress(BlockingIOError):
            while True:
                os.write(full, b"0004junk" * 512)
        os.close(full)
        for stan in 1, 2:
            began = time.monotonic()
            response = run.ask(request(stan, 400))
            waited(began)
            wanted("field 38", response[1].get(38), b"SI%04d" % stan)
        while (message := wire.get()) == b"junk":
            pass
        wanted("what was being written", message, request(1, 400))
        run.send(request(3))
        message = wire.get()
        wanted("the next message", message, request(3))
        wire.put(reply(message, b"05"))
        wanted("field 39 of a host that reads again", code(run.receive()), b"05")
        run.process.stdin.close()
        wanted("advices", answers(wire, *[b"00"] * 4), [b"0420", b"0120"] * 2)
        ending = run.end().splitlines()[-1].partition(b" late=")[2]
        wanted("what was lost", ending, b"0 unreadable=0 dropped=1")


def ends(program, room):
    """At the end each advice is sent once. The one that the host accepts is dropped; the others stay in the journal for the next run."""
    journal = ["--journal", "journal.db"]
    with switch(program, room, *journal) as (run, wire):
        for stan, amount in (1, 400), (2, 600):
            run.send(request(stan, amount))
            wire.get()
            run.receive()
        run.process.stdin.close()
        wanted("advices", answers(wire, b"05", b"00"), [b"0420", b"0120"])
        wanted("the last advice", wire.get()[:4], b"0420")
        run.end()
        wanted("at the host", wire.read(0), b"")
        wanted("advices in the journal", advices_in(room), [b"0420", b"0420"])
        wire.hang_up()
        wire.listen()
        again = Run(program, room, *journal)
        try:
            again.process.stdin.close()
            wanted("advices of the next run", answers(wire, b"00", b"00"), [b"0421", b"0421"])
            again.end()
        finally:
            again.process.kill()
    wanted("advices that are left", advices_in(room), [])


def switch_killed(program, room):
    """The switch is killed while a query is out: the next run aborts the transaction, and its reversal goes out as a repeat."""
    journal = ["--journal", "journal.db"]
    with switch(program, room, *journal) as (run, wire):
        run.send(request(7))
        wire.get()
        run.kill()
        wire.hang_up()
        wire.listen()
        again = Run(program, room, *journal)
        try:
            again.process.stdin.close()
            message = wire.get()
            wire.put(reply(message))
            again.process.wait(SECONDS)
            mti, fields = messages.decode(message)
            wanted("the reversal", (mti, fields[90][:10]), (b"0421", b"0100000007"))
        finally:
            again.process.kill()
    left = kills.tables_of(os.path.join(room, "journal.db"))
    wanted("rows that are left", (left.tx, left.shelf, left.advice), ({}, {}, {}))


def advices_between_reads(program, room):
    """With `advices = 1` a stored advice goes out before the next request is read, the oldest first. One that the host refused goes again, as a
    repeat, once each of the others was sent."""
    for words in [], ["--threads", "--sessions", "4"]:
        with tempfile.TemporaryDirectory(dir=room) as inner, switch(program, inner, *words, more="\n[run]\nadvices = 1\n") as (run, wire):
            run.send(request(1, 400))
            wire.get()
            wanted("field 38 of the first response", run.receive()[1].get(38), b"SI0001")
            wanted("the first advice", answers(wire, b"05"), [b"0420"])
            for stan, its in (2, b"0120"), (3, b"0421"):
                run.send(request(stan))
                wire.put(reply(wire.get()))
                wanted(f"field 38 of response {stan}", run.receive()[1].get(38), b"HOST42")
                wanted(f"the advice after response {stan}", answers(wire, b"00"), [its])
            run.end()
            wanted("at the host", wire.read(0), b"")


def advices_of_two_hosts(program, room):
    """The advices of a host that is not there do not hold back those of another one, however few are sent between two reads."""
    for words in [], ["--threads", "--sessions", "4"]:
        with tempfile.TemporaryDirectory(dir=room) as inner:
            more = {"beta": PIPES, "more": "\n[run]\nadvices = 1\n"}
            with switch(program, inner, "--journal", "journal.db", *words, **more) as (run, wire):
                wanted("field 38 for the host that is not there", run.ask(request(1, 400, FIVE))[1].get(38), b"SI0001")
                time.sleep(LEG)
                run.send(request(2, 400))
                wire.get()
                wanted("field 38 for the silent host", run.receive()[1].get(38), b"SI0002")
                time.sleep(LEG)
                for stan, its in (3, [b"0420"]), (4, [b"0120"]), (5, []):
                    run.send(request(stan))
                    wire.put(reply(wire.get()))
                    wanted(f"field 38 of response {stan}", run.receive()[1].get(38), b"HOST42")
                    wanted(f"the advices after response {stan}", answers(wire, *[b"00"] * len(its)), its)
                run.end()
                wanted("at the host", wire.read(0), b"")
            wanted("advices in the journal", advices_in(inner), [b"0420", b"0120"])


def echo(message):
    """The STAN of an echo test."""
    mti, fields = messages.decode(message)
    wanted("an echo test's type, fields and code", (mti, sorted(fields), fields.get(70)), (b"0800", [7, 11, 70], b"301"))
    now, said = datetime.datetime.now(datetime.timezone.utc), fields[7].decode()
    stamps = [(now - datetime.timedelta(seconds=it)).strftime("%m%d%H%M%S") for it in range(SECONDS)]
    if said not in stamps:
        raise Wrong(f"field 7 of an echo test: {said}, and it is {now}")
    return fields[11]


def asked(wire):
    """The next message that is not an echo test; echo tests before it are answered."""
    until = time.monotonic() + SECONDS
    while (message := wire.get())[:4] == b"0800":
        wire.put(reply(message))
        if time.monotonic() > until:
            raise Wrong("nothing but echo tests came to the host")
    return message


def echo_answered(program, room):
    """A host that gets nothing for a second is sent an echo test. Its answer is dropped, and requests are sent to it as before."""
    with switch(program, room, "--stats", alpha="echo_s = 1") as (run, wire):
        began = time.monotonic()
        run.send(request(1))
        wire.put(reply(wire.get()))
        wanted("field 39", code(run.receive()), b"00")
        for number in 1, 2:
            message = wire.get()
            if time.monotonic() - began < number:
                raise Wrong(f"echo test {number} came too early")
            wanted("the STAN of an echo test", echo(message), b"%06d" % number)
            wire.put(reply(message))
        time.sleep(0.5)
        began = time.monotonic()
        run.send(request(2))
        wire.put(reply(asked(wire), b"05"))
        wanted("field 39 after the echo tests", code(run.receive()), b"05")
        message = wire.get()
        echo(message)
        if time.monotonic() - began < 1:
            raise Wrong("an echo test came within a second of a request")
        wire.put(reply(message))
        counts = run.end().splitlines()[-1].partition(b" unanswered=")[2]
        wanted("what is counted", counts, b"0 late=0 unreadable=0 dropped=0")


def nothing_opened(program, room):
    """Before the first request nothing is opened: a host that listens gets no echo test."""
    with switch(program, room, alpha="retry_ms = 1000\necho_s = 1") as (run, wire):
        wire.quiet(2.5)
        began = time.monotonic()
        run.send(request(1))
        wire.put(reply(wire.get()))
        wanted("field 39", code(run.receive()), b"00")
        echo(wire.get())
        if time.monotonic() - began < 1:
            raise Wrong("the echo test came too early")


def echo_after_a_close(program, room):
    """A host closes the pipe that it answers over, and nothing else, while it is idle: the echo test has that pipe opened again, so
    the host is not given up, and it is asked as ever."""
    with switch(program, room, "--stats", alpha="echo_s = 1") as (run, wire):
        run.send(request(1))
        wire.put(reply(wire.get()))
        wanted("field 39", code(run.receive()), b"00")
        os.close(wire.writes)
        wire.writes = None
        message = wire.get()
        echo(message)
        wire.put(reply(message))
        time.sleep(0.2)
        run.send(request(2))
        wire.put(reply(asked(wire), b"05"))
        wanted("field 39 after the echo test", code(run.receive()), b"05")
        if b" unanswered=0 " not in (line := run.end().splitlines()[-1]):
            raise Wrong(f"the last line on standard error: {line!r}")


def unheard(program, room):
    """After a bad length nothing is written to the host until the pipe that it answers over is open again."""
    with switch(program, room) as (run, wire):
        began = time.monotonic()
        run.send(request(1, 400))
        wire.get()
        wire.put(b"xxxx")
        wanted("field 38 after a bad length", run.receive()[1].get(38), b"SI0001")
        wire.cut_off()
        response = run.ask(request(2, 400))
        # (a second after the first request it would be opened)
        if time.monotonic() - began < 0.9:
            wanted("field 38", response[1].get(38), b"SI0002")
            at_once([response[2]])
            wanted("at the host", wire.read(0), b"")


def echo_unanswered(program, room):
    """A host that answers no echo test is closed, and stood in for at once; it is asked again from the first request after a second."""
    with switch(program, room, "--stats", alpha="echo_s = 1") as (run, wire):
        began = time.monotonic()
        run.send(request(1))
        wire.put(reply(wire.get()))
        wanted("field 39", code(run.receive()), b"00")
        echo(wire.get())
        wire.hung_up()
        if time.monotonic() - began < 1 + TIMEOUT:
            raise Wrong("the switch did not wait for the answer to its echo test")
        response = run.ask(request(2, 400))
        wanted("field 38 of a host that is closed", response[1].get(38), b"SI0002")
        at_once([response[2]])
        time.sleep(1.2)
        run.send(request(3))
        wire.put(reply(asked(wire), auth=b"BACK03"))
        wanted("field 38 of a host that is asked again", run.receive()[1].get(38), b"BACK03")
        run.process.stdin.close()
        for its in b"0420", b"0120":
            message = asked(wire)
            wire.put(reply(message))
            wanted("an advice", message[:4], its)
        line = run.end().splitlines()[-1]
        if b" unanswered=1 " not in line:
            raise Wrong(f"the last line on standard error: {line!r}")


def retried(program, room):
    """A host that was silent is not asked for two seconds: the next request is stood in for at once, and the one after that is asked."""
    with switch(program, room, alpha="retry_ms = 2000") as (run, wire):
        run.send(request(1, 400))
        wire.get()
        wanted("field 38 of a silent host", run.receive()[1].get(38), b"SI0001")
        response = run.ask(request(2, 400))
        wanted("field 38 of a host that is not asked", response[1].get(38), b"SI0002")
        at_once([response[2]])
        time.sleep(2.2)
        run.send(request(3))
        message = wire.get()
        wanted("the first message after two seconds", message, request(3))
        wire.put(reply(message, auth=b"BACK03"))
        wanted("field 38 of a host that is asked again", run.receive()[1].get(38), b"BACK03")


def asked_for(run, stans, seconds):
    """Sends a request each quarter of a second, for this many seconds; returns how long each response took."""
    until, took = time.monotonic() + seconds, []
    while time.monotonic() < until:
        response = run.ask(small(next(stans)))
        wanted("field 39", code(response), b"00")
        took.append(response[2])
        time.sleep(0.25)
    return took


def at_once(took):
    if not took:
        raise Wrong("the switch stood in for no request at once")
    if max(took) > AT_ONCE:
        raise Wrong(f"the switch stood in after {max(took):.2f} seconds, wanted at once")


def back(run, player, stans, seconds, answered=ANSWERED):
    """The host now answers messages of these types: within this many seconds it is asked again, and until then no request waits."""
    began, player.answered = time.monotonic(), answered
    while time.monotonic() - began < seconds:
        response = run.ask(small(next(stans)))
        at_once([response[2]])
        if response[1].get(38) == b"HOST42":
            return
        time.sleep(0.05)
    raise Wrong(f"the host was not asked again within {seconds:.1f} seconds; it got {player.came[-5:]}, its fault: {player.fault!r}")


def silent_and_tested(program, room):
    """A host falls silent to everything: one request waits, and no other one is sent before it has answered an echo test."""
    for words in [], ["--threads", "--sessions", "4"]:
        with tempfile.TemporaryDirectory(dir=room) as inner, switch(program, inner, *words, alpha=TESTED) as (run, wire), played(wire) as player:
            stans = itertools.count(1)
            if run.ask(small(next(stans)))[2] < TIMEOUT - 0.2:
                raise Wrong("the switch did not wait for the first answer")
            at_once(asked_for(run, stans, 5))
            wanted("requests at the silent host", player.came.count(b"0100"), 1)
            # (a second and a half after the first echo test the direction is closed, for a second)
            tests = player.came.count(b"0800")
            if not 3 <= tests <= 6:
                raise Wrong(f"{tests} echo tests came in five seconds, wanted about one a second")
            back(run, player, stans, 1 + 1 + AT_ONCE)
            run.end()


def silent_and_back(program, room):
    """A silent host dies, and is back: without a request its pipes are opened, and it gets an echo test. Then it is asked again."""
    with switch(program, room, alpha=TESTED) as (run, wire):
        run.send(small(1))
        wire.put(reply(wire.get()))
        wanted("field 38 before", run.receive()[1].get(38), b"HOST42")
        run.send(small(2))
        wire.get()
        wanted("field 38 of a silent host", run.receive()[1].get(38), b"SI0002")
        wire.hang_up()
        # (an echo test that nobody reads closes the other pipe too)
        time.sleep(1.5)
        wire.listen()
        message = wire.get()
        echo(message)
        wire.put(reply(message))
        with played(wire) as player:
            back(run, player, itertools.count(3), SECONDS)


def tested_and_never_answered(program, room):
    """A host that answers only echo tests is asked again each time after `retry_ms`: one request waits then, and the others do not."""
    with switch(program, room, alpha=TESTED) as (run, wire), played(wire) as player:
        player.answered = (b"0800",)
        took = asked_for(run, itertools.count(1), 9)
        waited = [it for it in took if it > TIMEOUT - 0.2]
        at_once([it for it in took if it <= TIMEOUT - 0.2])
        wanted("requests at the host", player.came.count(b"0100"), len(waited))
        # (each of them waits for a second and a half, and a second goes by before the next one)
        if not 2 <= len(waited) <= 4:
            raise Wrong(f"{len(waited)} requests waited in nine seconds, wanted 2 to 4")


def late_ends_silence(program, room):
    """A host that answers late is not silent: it is asked again after `retry_ms`, and need not answer an echo test for that."""
    with switch(program, room, alpha=TESTED) as (run, wire):
        began = time.monotonic()
        run.send(small(1))
        message = wire.get()
        wanted("field 39", code(run.receive()), b"00")
        waited(began)
        wire.put(reply(message))
        with played(wire) as player:
            back(run, player, itertools.count(2), SECONDS, (b"0100",))


def silent_while_idle(program, room):
    """A host that answers no echo test is not asked before it has answered one: no request waits at all."""
    with switch(program, room, alpha="retry_ms = 1000\necho_s = 1") as (run, wire), played(wire) as player:
        stans, player.answered = itertools.count(1), ANSWERED
        wanted("field 38 before", run.ask(request(next(stans)))[1].get(38), b"HOST42")
        player.answered = ()
        time.sleep(1 + TIMEOUT + 0.5)
        at_once(asked_for(run, stans, 3))
        wanted("requests at the host", player.came.count(b"0100"), 1)
        back(run, player, stans, 1 + 1 + AT_ONCE)


def counted(program, room):
    """With `--stats` a line for each host that is reached by pipes follows the numbers of the run: what was not sent, and what was lost."""
    words = ["--stats", "--journal", "journal.db"]
    with switch(program, room, *words, alpha="retry_ms = 60000\necho_s = 30", beta=PIPES) as (run, wire):
        run.send(request(1, 400))
        message = wire.get()
        wanted("field 38 of a silent host", run.receive()[1].get(38), b"SI0001")
        wire.put(reply(message))
        for stan in 2, 3:
            at_once([run.ask(request(stan, 400))[2]])
        # (nobody is at beta's pipes)
        wanted("field 38 for a host that is not there", run.ask(request(4, 400, FIVE))[1].get(38), b"SI0004")
        # (at the end a reversal and an advice of each request are not sent either)
        alpha = b"cardswitch: host alpha: not-asked=8 echo-tests=0 unanswered=0 late=1 unreadable=0 dropped=0"
        beta = b"cardswitch: host beta: not-asked=0 echo-tests=0 unanswered=0 late=0 unreadable=0 dropped=3"
        wanted("the last lines on standard error", run.end().splitlines()[-2:], [alpha, beta])
    wanted("advices in the journal", advices_in(room), [b"0420", b"0120"] * 4)


def reported(what, err, lines, hosts="alpha beta"):
    """After the line that the run is ready these lines are on standard error, and no others."""
    ready = f"ready: flow {os.path.join(EXAMPLES, 'switch.toml')}, hosts {hosts}, journal in memory, sessions "
    first, *others = err.decode().splitlines()
    if not first.startswith(f"cardswitch: {ready}"):
        raise Wrong(f"the first line on standard error: {first!r}")
    wanted(what, others, [f"cardswitch: host {it}" for it in lines])


def reported_lost(program, room):
    """A host that dies is reported as lost, once, and as back when something is read from it again."""
    for words in [], ["--threads", "--sessions", "4"]:
        with tempfile.TemporaryDirectory(dir=room) as inner, switch(program, inner, *words) as (run, wire):
            run.send(request(1))
            wire.put(reply(wire.get()))
            wanted("field 39 before", code(run.receive()), b"00")
            wire.hang_up()
            time.sleep(0.2)
            for stan in 2, 3:
                wanted("field 38 of a dead host", run.ask(request(stan, 400))[1].get(38), b"SI%04d" % stan)
            wire.listen()
            time.sleep(1.2)
            run.send(request(4))
            wire.put(reply(wire.get()))
            wanted("field 38 of the host that is back", run.receive()[1].get(38), b"HOST42")
            run.process.stdin.close()
            answers(wire, *[b"00"] * 4)
            reported("a host that was lost", run.end(), ["alpha: connection lost", "alpha: is back"])


def reported_silent(program, room):
    """A host that does not answer in time is reported as silent, once, with what follows; and as back when its answer comes."""
    paused = "alpha: no answer in time; not asked for 60000 ms"
    tested = "alpha: no answer in time; not asked until it sends something"
    for alpha, line in ("retry_ms = 60000", paused), ("retry_ms = 60000\necho_s = 30", tested):
        with tempfile.TemporaryDirectory(dir=room) as inner, switch(program, inner, alpha=alpha) as (run, wire):
            run.send(request(1, 400))
            message = wire.get()
            wanted("field 38 of a silent host", run.receive()[1].get(38), b"SI0001")
            wanted("field 38 of a host that is not asked", run.ask(request(2, 400))[1].get(38), b"SI0002")
            wire.put(reply(message))
            time.sleep(0.3)
            run.ask(NETWORK_TEST)
            reported("a silent host", run.end(), [line, "alpha: is back"])


def reported_silent_again(program, room):
    """Without `retry_ms` a host that answers nothing is reported as silent once, however many requests it gets."""
    with switch(program, room) as (run, wire):
        for stan in 1, 2:
            run.send(request(stan, 400))
            wire.get()
            wanted("field 38 of a silent host", run.receive()[1].get(38), b"SI%04d" % stan)
        run.process.stdin.close()
        for _ in range(4):
            wire.get()
        reported("a silent host", run.end(), ["alpha: no answer in time"])


def reported_unopened(program, room):
    """A host whose paths are not there is reported, once, with the cause; the other host has paths, and nobody is at them."""
    with switch(program, room, beta=PIPES) as (run, wire):
        for path in wire.to, wire.back:
            os.unlink(path)
        for name in "beta.to", "beta.from":
            os.mkfifo(os.path.join(room, name))
        for stan in 1, 2:
            wanted("field 38", run.ask(request(stan, 400))[1].get(38), b"SI%04d" % stan)
        wanted("field 38", run.ask(request(3, 400, FIVE))[1].get(38), b"SI0003")
        alpha = "alpha: cannot be opened: No such file or directory (os error 2)"
        reported("hosts that are not there", run.end(), [alpha, "beta: is not open yet"])


def reported_at_the_end(program, room):
    """What happens to a host after the last request is reported at the end."""
    with switch(program, room) as (run, wire):
        run.send(request(1))
        wire.put(reply(wire.get()))
        wanted("field 39", code(run.receive()), b"00")
        wire.hang_up()
        time.sleep(0.3)
        reported("a host that was lost at the end", run.end(), ["alpha: connection lost"])


def counted_each_time(program, room):
    """With `--stats 2` the lines of the hosts follow the numbers of the run each time."""
    with switch(program, room, "--stats", "2", beta=PIPES) as (run, wire):
        for stan in 1, 2, 3:
            run.send(request(stan))
            wire.put(reply(wire.get()))
            wanted("field 39", code(run.receive()), b"00")
        lines = [line.split(b" approved=")[0] for line in run.end().splitlines()[1:]]
        hosts = [b"cardswitch: host %s: not-asked=0 echo-tests=0 unanswered=0 late=0 unreadable=0 dropped=0" % it for it in (b"alpha", b"beta")]
        numbers = [b"cardswitch: stats: requests=%d" % it for it in (2, 4, 4)]
        wanted("lines on standard error", lines, [numbers[0], *hosts, numbers[1], *hosts, numbers[2], *hosts])


def asked_at_once(program, room):
    """With threads two hosts are asked at the same time: one of them answers only once both requests of the other are answered."""
    words = ["--threads", "--sessions", "4"]
    with switch(program, room, *words, beta=PIPES.replace("1500", "15000")) as (run, wire):
        other = Wire(room, "beta")
        other.listen()
        batch = [request(1, card=FIVE), request(2), request(3)]
        run.send_batch(batch)
        message = other.get()
        for _ in range(2):
            wire.put(reply(wire.get()))
        other.put(reply(message))
        wanted("field 38 of each response", [run.receive()[1].get(38) for _ in batch], [b"HOST42"] * 3)


def unordered(program, room):
    """With `--unordered` another host's response comes while a silent host's query is out."""
    words = ["--threads", "--sessions", "4", "--unordered"]
    with switch(program, room, *words, beta=PIPES) as (run, wire):
        other = Wire(room, "beta")
        other.listen()
        began = time.monotonic()
        run.send(request(1, 400, FIVE))
        other.get()
        run.send(request(2))
        wire.put(reply(wire.get()))
        wanted("field 38 of the first response", run.receive()[1].get(38), b"HOST42")
        if time.monotonic() - began > TIMEOUT - 0.1:
            raise Wrong("the response waited for the silent host")
        wanted("field 38 of the second response", run.receive()[1].get(38), b"SI0001")
        run.process.stdin.close()
        wanted("advices at the silent host", answers(other, b"00", b"00"), [b"0420", b"0120"])
        run.end()


def answered_before_a_silent_host(program, room):
    """With threads a response does not wait for a later request, whose host is silent."""
    with switch(program, room, "--threads", "--sessions", "4", beta=PIPES) as (run, wire):
        other = Wire(room, "beta")
        other.listen()
        run.send_batch([request(1), request(2, 400, FIVE)])
        other.get()
        began = time.monotonic()
        wire.put(reply(wire.get()))
        wanted("field 38 of the first response", run.receive()[1].get(38), b"HOST42")
        if time.monotonic() - began > TIMEOUT / 2:
            raise Wrong("the response waited for the silent host")
        wanted("field 38 of the second response", run.receive()[1].get(38), b"SI0002")
        run.process.stdin.close()
        wanted("advices at the silent host", answers(other, b"00", b"00"), [b"0420", b"0120"])
        run.end()


def leg_ends_when_idle(program, room):
    """With threads the trace of a request is written once it is answered, though the input stays open and nothing more comes."""
    with switch(program, room, "--threads", "--sessions", "4", "--trace") as (run, wire):
        # (the network test before it has ended too)
        run.told(b"-> done", 1)
        run.send(request(1))
        wire.put(reply(wire.get()))
        run.receive()
        run.told(b"-> done", 1)
        run.end()


def silent_among_others(program, room):
    """With threads responses leave in the order of requests, and so wait for a silent host: for each of its requests, and with `retry_ms` only
    for one of them. Its advices go to that host, one after the other like its requests."""
    words = ["--threads", "--sessions", "4"]
    for more, waits in ("", 2), ("\nretry_ms = 60000", 1), ("\nretry_ms = 60000\necho_s = 30", 1):
        with tempfile.TemporaryDirectory(dir=room) as inner, switch(program, inner, *words, beta=PIPES + more) as (run, wire):
            other = Wire(inner, "beta")
            other.listen()
            batch, began = [request(1, 400, FIVE), request(2, 400, FIVE), request(3)], time.monotonic()
            run.send_batch(batch)
            wire.put(reply(wire.get()))
            other.get()
            if waits == 2:
                other.get()
                if time.monotonic() - began < TIMEOUT - 0.01:
                    raise Wrong("the host got a request before the one before it had ended")
            given = sorted(run.receive()[1].get(38) for _ in batch)
            wanted("field 38 of each response", given, [b"HOST42", b"SI0001", b"SI0002"])
            if time.monotonic() - began < waits * TIMEOUT - 0.01:
                raise Wrong("the responses did not wait for the silent host")
            wanted("at the silent host", other.read(0), b"")
            run.process.stdin.close()
            if waits == 2:
                wanted("advices at the silent host", answers(other, *[b"00"] * 4), [b"0420", b"0120"] * 2)
            run.end()
            wanted("at the other host", wire.read(0), b"")


def stan_of(message):
    return messages.decode(message)[1][11]


def four_under_way(program, room):
    """With `in_flight = 4` a host gets four requests at once, and each further one only after an answer. Without it, one."""
    for alpha, most in ("in_flight = 4", 4), ("", 1):
        with tempfile.TemporaryDirectory(dir=room) as inner, switch(program, inner, *SIXTEEN, alpha=alpha, timeout=60_000) as (run, wire):
            batch, under_way = [small(stan) for stan in range(1, 13)], collections.deque()
            run.send_batch(batch)
            for left in range(len(batch), 0, -1):
                while len(under_way) < min(most, left):
                    under_way.append(wire.get())
                wire.quiet(0.1)
                wire.put(reply(under_way.popleft()))
            wanted("field 38 of each response", [run.receive()[1].get(38) for _ in batch], [b"HOST42"] * len(batch))


def answered_in_reverse(program, room):
    """Two requests are under way at one host, which answers the later one first: each gets its own answer."""
    with switch(program, room, *SIXTEEN, alpha="in_flight = 2", timeout=15_000) as (run, wire):
        run.send_batch([small(1), small(2)])
        for message in reversed([wire.get(), wire.get()]):
            wire.put(reply(message, auth=stan_of(message)))
        for _ in range(2):
            _, fields, _ = run.receive()
            wanted(f"field 38 of the response to {fields[11]}", fields.get(38), fields[11])


def answered_twice(program, room):
    """The second answer to a request is late, also while another request is under way."""
    with switch(program, room, "--stats", *SIXTEEN, alpha="in_flight = 2", timeout=15_000) as (run, wire):
        run.send_batch([small(1), small(2)])
        twice, once = wire.get(), wire.get()
        wire.put(reply(twice, b"05") + reply(twice, b"61") + reply(once, b"51"))
        codes = {stan_of(twice): b"05", stan_of(once): b"51"}
        wanted("field 39 of each response", codes_of(run, 2), codes)
        counts = run.end().splitlines()[-1].partition(b" unanswered=")[2]
        wanted("what is counted", counts, b"0 late=1 unreadable=0 dropped=0")


def codes_of(run, count):
    """The codes of the next responses, by their STANs."""
    came = [run.receive()[1] for _ in range(count)]
    return {fields[11]: fields.get(39) for fields in came}


def equal_keys(program, room):
    """Of two requests with one terminal and STAN, and different cards, the second is sent once the first is answered. Each gets its own answer."""
    cards = {b"4000000000000002": b"05", b"4000000000000010": b"51"}
    with switch(program, room, *SIXTEEN, alpha="in_flight = 4", timeout=15_000) as (run, wire):
        run.send_batch([request(1, card=card) for card in cards])
        for _ in cards:
            message = wire.get()
            wire.quiet(0.5)
            wire.put(reply(message, cards[messages.decode(message)[1][2]]))
        came = [run.receive()[1] for _ in cards]
        wanted("field 39 of each response", {fields[2]: fields.get(39) for fields in came}, cards)


def equal_keys_unanswered(program, room):
    """The second of two requests with one terminal and STAN is not sent before the timeout of the first, which is not answered."""
    with switch(program, room, *SIXTEEN, alpha="in_flight = 4") as (run, wire):
        began = time.monotonic()
        run.send_batch([request(1, 400), request(1, 400, b"4000000000000010")])
        wire.get()
        wanted("the second request before the timeout", wire.come(began + TIMEOUT - 0.1 - time.monotonic()), None)
        # (it waits for its turn 100 ms longer than the first one for its answer: it is sent then, unless the machine is busy)
        wanted("field 38 of each response", [run.receive()[1].get(38) for _ in range(2)], [b"SI0001"] * 2)


def closed_under_two(program, room):
    """The host closes the pipe that it answers over while two requests are under way, and a third has it opened again: both waits end at once."""
    with switch(program, room, *SIXTEEN, alpha="in_flight = 2", timeout=15_000) as (run, wire):
        run.send_batch([small(1), small(2), small(3)])
        lost = [wire.get(), wire.get()]
        wire.put(b"")
        # (the pipes are opened at most once a second)
        wire.quiet(1.2)
        began = time.monotonic()
        os.close(wire.writes)
        wire.writes = None
        third = wire.get()
        wire.put(reply(third))
        came = [run.receive()[1] for _ in range(3)]
        at_once([time.monotonic() - began])
        told = {stan_of(message): b"SI" + stan_of(message)[2:] for message in lost} | {stan_of(third): b"HOST42"}
        wanted("field 38 of each response", {fields[11]: fields.get(38) for fields in came}, told)


def one_answer_lost(program, room):
    """One of two answers is lost: no pause begins, and the next request is sent to the host. Where both are lost one begins."""
    with switch(program, room, *SIXTEEN, alpha="in_flight = 2\nretry_ms = 60000") as (run, wire):
        run.send_batch([small(1), small(2)])
        lost, answered = wire.get(), wire.get()
        wire.put(reply(answered))
        came = [run.receive()[1] for _ in range(2)]
        told = {stan_of(lost): b"SI" + stan_of(lost)[2:], stan_of(answered): b"HOST42"}
        wanted("field 38 of each response", {fields[11]: fields.get(38) for fields in came}, told)
        run.send(small(3))
        wire.put(reply(wire.get()))
        wanted("field 38 after one lost answer", run.receive()[1].get(38), b"HOST42")
        run.send_batch([small(4), small(5)])
        for _ in range(2):
            wire.get()
        wanted("field 38 of each response", [run.receive()[1].get(38) for _ in range(2)], [b"SI0004", b"SI0005"])
        response = run.ask(small(6))
        wanted("field 38 of a host that is not asked", response[1].get(38), b"SI0006")
        at_once([response[2]])
        wanted("at the host", wire.read(0), b"")


def worked_host(program, room):
    """`examples/hosts/host.py` at the pipes gives the responses of the simulated issuers."""
    with switch(program, room, beta=PIPES) as (run, wire):
        wire.hang_up()
        for path in "beta.to", "beta.from":
            os.mkfifo(os.path.join(room, path))
        with worked(room, "alpha"), worked(room, "beta"):
            with open(os.path.join(EXAMPLES, "requests.frames"), "rb") as file:
                frames = file.read()
            run.process.stdin.write(frames)
            with open(os.path.join(EXAMPLES, "responses.frames"), "rb") as file:
                responses = messages.frames(file.read())
            for number, frame in enumerate(responses, 1):
                mti, fields, _ = run.receive()
                wanted(f"response {number}", messages.framed(messages.encode(mti, fields)), frame)
            run.end()


def behind_socat(program, room):
    """`examples/hosts/try.sh`: the same over connections on the loopback."""
    if shutil.which("socat") is None:
        print("skipped: no socat carries frames")
    script = os.path.join(EXAMPLES, "hosts", "try.sh")
    streams = {"stdout": subprocess.PIPE, "stderr": subprocess.PIPE}
    process = subprocess.Popen([script, program], cwd=room, start_new_session=True, **streams)
    try:
        out, err = process.communicate(timeout=SECONDS * 2)
    finally:
        # Its hosts have its streams too, and would keep them open.
        with contextlib.suppress(ProcessLookupError):
            os.killpg(process.pid, signal.SIGKILL)
        process.wait()
    wanted(f"what it prints ({err.decode(errors='replace')})", out, b"the same responses\n")


def asked_over(run, host, stan):
    """A request of this number is answered by the host."""
    run.send(request(stan))
    wanted("the query", message := host.get(), request(stan))
    host.put(reply(message)[4:])
    wanted("field 38", run.receive()[1].get(38), b"HOST42")


def over_a_connection(program, room):
    """`examples/hosts/connect.py` carries frames over a connection, also with lengths of two bytes."""
    for words in [], ["--binary"]:
        with tempfile.TemporaryDirectory(dir=room) as inner, listening(program, inner, *words) as (run, host):
            for stan in 1, 2:
                asked_over(run, host, stan)
            run.end()


def connected_again(program, room):
    """A connection that the host closes: the switch stands in at once, and asks the host again once it is connected again."""
    with listening(program, room) as (run, host):
        asked_over(run, host, 1)
        host.server.close()
        host.peer.close()
        time.sleep(0.5)
        began = time.monotonic()
        wanted("field 38 without a host", run.ask(small(2))[1].get(38), b"SI0002")
        if time.monotonic() - began > AT_ONCE:
            raise Wrong("the switch did not stand in at once")
        address = host.carrier.args[-3].split(":")
        host.server = socket.create_server((address[0], int(address[1])))
        host.server.settimeout(SECONDS)
        host.accept()
        # (the pipes are opened at most once a second)
        time.sleep(1.2)
        asked_over(run, host, 3)
        run.process.stdin.close()
        for wants in b"0420", b"0120":
            message = host.get()
            wanted("an advice", message[:4], wants)
            host.put(reply(message)[4:])
        run.process.wait(SECONDS)


def bad_length_over_a_connection(program, room):
    """A host that sends a bad length: the connection is closed, and made again."""
    with listening(program, room) as (run, host):
        run.send(small(1))
        host.get()
        host.peer.sendall(b"12x4")
        wanted("field 38", run.receive()[1].get(38), b"SI0001")
        host.peer.close()
        host.accept()
        time.sleep(1.2)
        asked_over(run, host, 2)
        run.process.kill()


def block_of(page, begin):
    """The block of a page of docs/ whose first line begins like this, as lines."""
    with open(os.path.join(os.path.dirname(EXAMPLES), "docs", page), encoding="utf-8") as file:
        blocks = [block for _, block in pages.blocks_of(file.read())]
    return next(block for block in blocks if block[0].startswith(begin))


def furnished(program, room):
    """Puts the examples and the program into the folder in which commands of pages are run; returns the environment for them."""
    for folder in EXAMPLES, os.path.join(EXAMPLES, "hosts"):
        for entry in filter(os.DirEntry.is_file, os.scandir(folder)):
            shutil.copy(entry.path, room)
    os.symlink(program, os.path.join(room, "cardswitch"))
    return os.environ | {"PATH": f"{room}:{os.environ['PATH']}"}


def by_hand(program, room):
    """The commands of `docs/operate/HOSTS.md` for one host at its pipes. The other host is not there, and is stood in for."""
    block = "\n".join(block_of("operate/HOSTS.md", "mkfifo "))
    process = subprocess.Popen(["sh", "-c", block], cwd=room, env=furnished(program, room), start_new_session=True)
    try:
        wanted("the status", process.wait(SECONDS), 0)
    finally:
        # (its host waits for a pipe to be opened for ever, if there is no program)
        with contextlib.suppress(ProcessLookupError):
            os.killpg(process.pid, signal.SIGKILL)
        process.wait()
    with open(os.path.join(room, "responses.frames"), "rb") as file:
        came = messages.frames(file.read())
    with open(os.path.join(EXAMPLES, "responses.frames"), "rb") as file:
        simulated = messages.frames(file.read())
    wanted("the first response", came[:1], simulated[:1])
    wanted("the number of responses", len(came), len(simulated))


def behind_a_socket(program, room):
    """The command of `docs/operate/OPERATING.md` that serves connections, on a free port of the loopback."""
    if shutil.which("socat") is None:
        print("skipped: no socat listens")
        return
    with socket.create_server(("127.0.0.1", 0)) as probe:
        port = probe.getsockname()[1]
    (line,) = block_of("operate/OPERATING.md", "socat -t 30 TCP-LISTEN:")
    command = line.replace(":8583,", f":{port},bind=127.0.0.1,")
    serving = subprocess.Popen(["sh", "-c", command], cwd=room, env=furnished(program, room), start_new_session=True)
    try:
        with open(os.path.join(EXAMPLES, "requests.frames"), "rb") as file:
            requests = file.read()
        with open(os.path.join(EXAMPLES, "responses.frames"), "rb") as file:
            responses = file.read()
        for connection in range(2):
            wanted(f"the responses of connection {connection}", served(port, requests), responses)
    finally:
        with contextlib.suppress(ProcessLookupError):
            os.killpg(serving.pid, signal.SIGKILL)
        serving.wait()


def served(port, requests):
    """What a server writes for requests, up to its end."""
    until = time.monotonic() + SECONDS
    while True:
        try:
            peer = socket.create_connection(("127.0.0.1", port), timeout=SECONDS)
            break
        except ConnectionRefusedError:
            if time.monotonic() > until:
                raise
            time.sleep(0.05)
    with peer:
        peer.sendall(requests)
        peer.shutdown(socket.SHUT_WR)
        with peer.makefile("rb") as file:
            return file.read()


CASES = [
    approved,
    declined,
    silent,
    late,
    late_of_the_same_key,
    late_of_two_acquirers,
    garbage,
    unheard,
    closed_in_a_frame,
    killed_and_back,
    nobody_there,
    unread,
    ends,
    switch_killed,
    advices_between_reads,
    advices_of_two_hosts,
    echo_answered,
    echo_after_a_close,
    echo_unanswered,
    nothing_opened,
    retried,
    silent_and_tested,
    silent_and_back,
    tested_and_never_answered,
    late_ends_silence,
    silent_while_idle,
    counted,
    counted_each_time,
    reported_lost,
    reported_silent,
    reported_silent_again,
    reported_unopened,
    reported_at_the_end,
    asked_at_once,
    unordered,
    answered_before_a_silent_host,
    leg_ends_when_idle,
    silent_among_others,
    four_under_way,
    answered_in_reverse,
    answered_twice,
    equal_keys,
    equal_keys_unanswered,
    closed_under_two,
    one_answer_lost,
    worked_host,
    behind_socat,
    over_a_connection,
    connected_again,
    bad_length_over_a_connection,
    by_hand,
    behind_a_socket,
]


def overdue(*_):
    raise Wrong(f"the case had not ended after {CASE} seconds")


def main():
    parser = argparse.ArgumentParser(description="Runs the switch with hosts over named pipes.")
    parser.add_argument("word", nargs="?", default="")
    parser.add_argument("--program", default=kills.BUILT)
    given = parser.parse_args()
    cases = [case for case in CASES if given.word in case.__name__]
    if not cases:
        parser.error(f"no case has {given.word!r} in its name")
    if not os.path.isfile(given.program):
        sys.exit(f"there is no program {given.program}: ./test builds it, or name one by --program")
    began, passed, failed = time.monotonic(), 0, 0
    signal.signal(signal.SIGALRM, overdue)
    for case in cases:
        room = tempfile.mkdtemp()
        signal.alarm(CASE)
        try:
            case(os.path.abspath(given.program), room)
            passed += 1
        except (Wrong, OSError, ValueError, subprocess.TimeoutExpired) as fault:
            print(f"FAILED hosts: {case.__name__}: {fault}", flush=True)
            failed += 1
        finally:
            signal.alarm(0)
            shutil.rmtree(room, ignore_errors=True)
    print(f"{time.monotonic() - began:.1f} seconds")
    print(f"{passed} passed, {failed} failed")
    return 1 if failed else 0


if __name__ == "__main__":
    sys.exit(main())
