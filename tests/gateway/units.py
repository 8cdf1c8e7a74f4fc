"""Cases of the gateway's modules, without a gateway: frames, messages, the line of an engine, percentiles, the
command line."""

import asyncio
import os
import random
import subprocess

from model import messages

from gateway import clients
from gateway.served import GATEWAY, TOP, Wrong, python, wanted


def framing(bench):
    """Frames in all pieces; a bad length is one wherever it is cut."""
    from cardgate.frames import BadFrame, Framer

    stream = b"0003abc" + b"0000" + b"0001x"
    for cut in range(len(stream) + 1):
        framer, found = Framer(), []
        for piece in stream[:cut], stream[cut:]:
            framer.push(piece)
            while (message := framer.pop()) is not None:
                found.append(message)
        wanted(f"messages of a stream that is cut at {cut}", found, [b"abc", b"", b"x"])
    for bad in b"x", b"0x", b"000\xb2", b"-001", b" 12 ":
        framer = Framer()
        framer.push(bad)
        try:
            framer.pop()
        except BadFrame:
            continue
        raise Wrong(f"{bad!r} was taken for a length")


def random_message(chosen):
    """A message of random fields, now and then with a byte or the end spoilt."""
    fields = {}
    for number in chosen.sample(sorted(messages.FORMS), chosen.randint(1, 12)):
        content, digits, size = messages.FORMS[number]
        size = chosen.randint(0, size) if digits else size
        letters = {messages.N: b"0123456789", messages.TEXT: b" aZ~0", messages.BINARY: b"0189afAF"}[content]
        fields[number] = bytes(chosen.choice(letters) for _ in range(size))
    message = bytearray(messages.encode(b"%04d" % chosen.choice([100, 110, 400, 421, 800, 1234]), fields))
    if chosen.random() < 0.7:
        message[chosen.randrange(len(message))] = chosen.choice(b"0 1F\x00\xb2\xffx~8")
    return bytes(message[: chosen.choice([len(message)] * 9 + [chosen.randrange(len(message))])])


def read_as_the_model(bench):
    """The gateway reads just the messages that the model reads, and finds the same fields in them."""
    from cardgate import iso8583

    chosen, readable = random.Random(3), 0
    for _ in range(2000):
        message = random_message(chosen)
        try:
            mti, fields = iso8583.read(message)
            got = mti.encode(), {number: value.encode() for number, value in fields.items()}
        except iso8583.Unreadable:
            got = None
        try:
            want = messages.decode(message)
        except messages.Refused:
            want = None
        if want is not None:
            readable += 1
            hexadecimal = [number for number, form in messages.FORMS.items() if form[0] == messages.BINARY]
            got = got and (got[0], {it: got[1][it].upper() if it in hexadecimal else got[1][it] for it in got[1]})
        wanted(f"the fields of {message!r}", got, want)
    if not 250 < readable < 1750:
        raise Wrong(f"{readable} of 2000 random messages are readable: too many or too few")


def reversal_made(bench):
    """The reversal that is made from a response has the fields of one that a client makes."""
    from cardgate import iso8583

    mti, fields = messages.decode(clients.request(7, 9))
    response = messages.encode(b"0110", fields | {38: b"000009", 39: b"00"})
    wanted("the reversal", iso8583.reversal_of(response), clients.reversal(7, 9, b"0420"))
    for told in {39: b"05"}, {}:
        wanted("of what is not approved", iso8583.reversal_of(messages.encode(b"0110", fields | told)), None)
    wanted("of another type", iso8583.reversal_of(messages.encode(b"0410", fields | {39: b"00"})), None)


def masked_as_decode(bench):
    """Card numbers are masked as `cardswitch decode --mask` masks them."""
    from cardgate.iso8583 import masked

    for card, want in (
        ("4000000000000002", "400000******0002"),
        ("12345678901", "123456*8901"),
        ("1234567890", "*" * 10),
    ):
        wanted(f"masked {card}", masked(card), want)


def line_of_an_engine(bench):
    """What an engine is given: at most the window, one of a card at a time, nothing that waited too long, and nothing
    twice."""
    from cardgate.line import Limits, Line
    from cardgate.request import Headers, request_of

    headers = Headers()

    def made(card, stan, taken=0.0, mti=b"0100"):
        message = clients.request(card, stan) if mti == b"0100" else clients.reversal(card, stan)
        return request_of(headers.next(), message, taken)

    line = Line(Limits(window=2, wait=2.0))
    first, again, other, third = made(1, 1), made(1, 1, mti=b"0400"), made(2, 2), made(3, 3)
    for request in first, again, other, third:
        wanted("it is taken", line.add(request), True)
    wanted("the window, without the second of a card", line.due(0.0), ([first, other], []))
    wanted("no room", line.due(0.0), ([], []))
    wanted("what is done", line.done(first.header), first)
    wanted("then the second of the card", line.due(0.0), ([again], []))
    wanted("what the engine had when it ended", line.lost(), [other, again])
    wanted("one that waited too long", line.due(2.1), ([], [third]))
    wanted("nothing is left", (line.size, line.held), (0, {}))
    wanted("unknown", line.done(first.header), None)
    old, late = made(4, 4), made(4, 5, mti=b"0400")
    line.add(old), line.add(late)
    wanted("what has waited too long", line.over(5.0), [old])
    wanted("a reversal never waits too long", line.due(60.0), ([late], []))
    gone = made(5, 5, taken=60.0)
    gone.is_given_up = True
    line.add(gone)
    wanted("one whose client is gone", line.due(60.0), ([], [gone]))


def header_alone(bench):
    """A frame of a header alone ends its request without a response; a response that nobody asked for is reversed if
    it approves."""
    from cardgate.engine import Engine
    from cardgate.line import Limits
    from cardgate.log import Log
    from cardgate.request import Headers, request_of

    async def tried():
        with open(os.devnull, "w", encoding="ascii") as quiet:
            engine = Engine("0", [], bench.room, Limits(), Log(quiet))
            dropped = []
            engine.dropped = lambda request, why: dropped.append((request, why))
            request = request_of(Headers().next(), clients.request(1, 1), engine.loop.time())
            engine.submit(request)
            engine.line.due(engine.loop.time())
            engine.came(request.header)
            wanted("dropped", dropped, [(request, "no response")])
            _, fields = messages.decode(clients.request(2, 2))
            engine.came(request.header + messages.encode(b"0110", fields | {39: b"00"}))
            wanted("reversed", [it.message for it in engine.reversals.kept.values()], [clients.reversal(2, 2, b"0420")])

    asyncio.run(tried())


def percentiles(bench):
    """The times of a minute are right to a tenth."""
    from cardgate.stats import Times

    times = Times()
    for number in range(1, 1001):
        times.add(number / 1000)
    for share, got in zip((0.5, 0.9, 0.99), times.percentiles((0.5, 0.9, 0.99)), strict=True):
        if not share <= got <= 1.1 * share:
            raise Wrong(f"the percentile {share}: {got}, wanted {share} to {1.1 * share}")
    wanted("of nothing", Times().percentiles((0.5,)), [0.0])


def owner_of_an_answer(bench):
    """An issuer's answer goes to the engine of its card, and one without a card to the engine that asked first."""
    from cardgate.issuer import Address, Issuer
    from cardgate.log import Log
    from cardgate.request import shard_of

    class Writer:
        def write(self, _):
            pass

    issuer = Issuer(Address("alpha", "127.0.0.1", 1), lambda card, message: shard_of(card, message, 3), Log())
    for shard in range(3):
        issuer.attach(shard, str(shard), os.path.join(bench.room, str(shard)))
    issuer.writer = Writer()
    test = messages.encode(b"0800", {11: b"000001", 70: b"301"})
    for shard in 2, 0, 1:
        issuer.send(issuer.pipes[shard], test)
    answer = messages.encode(b"0810", {11: b"000001", 39: b"00", 70: b"301"})
    wanted("who asked", [issuer.owner(answer).engine for _ in range(3)], ["2", "0", "1"])
    wanted("nobody asked", issuer.owner(answer), None)
    for card in range(20):
        _, fields = messages.decode(clients.request(card, 1))
        answer = messages.encode(b"0110", fields | {39: b"00"})
        wanted("by the card", issuer.owner(answer), issuer.pipes[shard_of(fields[2].decode(), b"", 3)])


def silent_issuer(bench):
    """A connection to an issuer that brings nothing after a request is made anew."""
    from cardgate import issuer
    from cardgate.log import Log

    async def tried():
        connections = []
        server = await asyncio.start_server(lambda reader, writer: connections.append(writer), "127.0.0.1", 0)
        address = issuer.Address("alpha", *server.sockets[0].getsockname())
        with open(os.devnull, "w", encoding="ascii") as quiet:
            tested = issuer.Issuer(address, lambda card, message: 0, Log(quiet))
            tested.attach(0, "0", bench.room)
            running = asyncio.ensure_future(tested.run())
            await asyncio.sleep(1)
            wanted("connections, while nothing is asked", len(connections), 1)
            tested.send(tested.pipes[0], clients.NETWORK_TEST)
            await asyncio.sleep(1.6)
            wanted("connections, after a request", len(connections), 2)
            running.cancel()

    issuer.SILENT, before = 0.3, issuer.SILENT
    try:
        asyncio.run(tried())
    finally:
        issuer.SILENT = before


REFUSED = [
    (["--engines", "0"], "argument --engines: found '0'; expected a number from 1 to 256"),
    (["--wait", "x"], "argument --wait: found 'x'; expected seconds, above 0 and up to 3600"),
    (["--late", "1"], "gateway: --late: found 1.0; expected more than --wait, which is 2"),
    (["--listen", "here"], "gateway: --listen: found 'here'; expected HOST:PORT, with a port from 0 to 65535"),
    (["--web", "0.0.0.0:80"], "gateway: --web: found '0.0.0.0:80'; expected an address of the loopback"),
    (["--issuer", "alpha"], "gateway: --issuer: found 'alpha'; expected NAME=HOST:PORT"),
    (["--issuer", "alpha=h:1"], "gateway: --issuer: found alpha; expected a host of the configuration with pipes"),
    (["--flow", "none.toml"], "gateway: --flow: found no file none.toml; expected the path of one"),
    (["--program", "none"], "gateway: --program: found no program 'none'; expected the path of cardswitch"),
    (["--program", "/bin/true"], "gateway: /bin/true: its run has no --header; expected a cardswitch whose run"),
]


def refused(bench):
    """Errors of the command line name what was found and what is expected, and the status is 2."""
    for words, want in REFUSED:
        command = [python(), GATEWAY, *([] if "--program" in words else ["--program", bench.program]), *words]
        ran = subprocess.run(command, capture_output=True, text=True, cwd=bench.room, timeout=20, check=False)
        wanted(f"the status of {words}", ran.returncode, 2)
        if want not in " ".join(ran.stderr.split()):
            raise Wrong(f"{words}: {ran.stderr!r}, wanted {want!r}")


def style(bench):
    """No line of the gateway is over 120 columns, no module over some 250 lines."""
    folder = os.path.join(TOP, "contrib", "gateway", "cardgate")
    for entry in sorted(os.listdir(folder)):
        if entry.endswith(".py"):
            with open(os.path.join(folder, entry), encoding="utf-8") as file:
                lines = file.read().split("\n")
            if len(lines) > 260 or max(map(len, lines)) > 120:
                raise Wrong(f"{entry}: {len(lines)} lines, the longest of {max(map(len, lines))} columns")


CASES = [
    framing,
    read_as_the_model,
    reversal_made,
    masked_as_decode,
    line_of_an_engine,
    header_alone,
    percentiles,
    owner_of_an_answer,
    silent_issuer,
    refused,
    style,
]
