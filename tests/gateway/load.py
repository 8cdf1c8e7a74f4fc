"""Acquirers at work: each request is answered, or reversed until the reversal is answered; and the accounting of what
became of it."""

import asyncio
import collections
import dataclasses
import enum
import time

from model import messages

from gateway import clients
from gateway.issuer import Entry

PAUSE = 0.05


class State(enum.Enum):
    ASKED = "asked"
    ANSWERED = "answered"
    REVERSING = "reversing"
    REVERSED = "reversed"
    # Its client has gone for good, and reverses nothing.
    GONE = "gone"


@dataclasses.dataclass
class Record:
    """A client's own log of a request."""

    card: int
    stan: int
    at: float
    state: State = State.ASKED
    code: bytes = b""
    answers: int = 0
    reversal_at: float = 0.0
    # When it was answered, or its reversal was.
    over_at: float = 0.0

    @property
    def key(self) -> tuple[bytes, bytes, bytes]:
        return b"4%015d" % self.card, b"%06d" % self.stan, clients.SENT


class Acquirer(asyncio.Protocol):
    """One connection, made again when it is lost, with one request open at a time."""

    def __init__(self, load: "Load", number: int) -> None:
        self.load, self.number, self.kept, self.transport = load, number, b"", None
        self.record: Record | None = None
        self.stan = 0

    def connection_made(self, transport) -> None:
        self.transport, self.kept = transport, b""
        if self.record is not None and self.record.state is State.REVERSING:
            self.reverse(b"0401")
        self.next()

    def connection_lost(self, _) -> None:
        self.transport = None

    def next(self) -> None:
        """Sends the next request. Every connection has the same terminal, and counts its STANs from 1: only the card
        tells them apart."""
        if self.record is None and self.transport is not None and self.load.take():
            self.stan += 1
            card = self.number * 10**6 + self.stan
            self.record = Record(card, self.stan, time.monotonic())
            self.load.records.append(self.record)
            self.transport.write(messages.framed(clients.request(card, self.stan)))

    def reverse(self, mti: bytes) -> None:
        record = self.record
        record.state, record.reversal_at = State.REVERSING, time.monotonic()
        if self.transport is not None:
            self.transport.write(messages.framed(clients.reversal(record.card, record.stan, mti)))

    def data_received(self, data: bytes) -> None:
        self.kept += data
        for whole in messages.frames(self.kept):
            self.kept = self.kept[len(whole) :]
            self.came(*messages.decode(whole[4:]))

    def came(self, mti: bytes, fields: dict[int, bytes]) -> None:
        record = self.record
        if record is None or (fields.get(2), fields.get(11)) != record.key[:2]:
            self.load.strays.append((self.number, fields))
        elif mti == b"0110":
            record.answers += 1
            if record.state is State.ASKED:
                record.state, record.code = State.ANSWERED, fields[39]
                self.over()
        elif mti == b"0410" and record.state is State.REVERSING:
            record.state = State.REVERSED
            self.over()

    def over(self) -> None:
        self.record.over_at = time.monotonic()
        self.load.times.append(self.record.over_at - self.record.at)
        self.record = None
        self.next()

    def look(self, timeout: float) -> None:
        """Reverses what has had no answer for too long."""
        now, record = time.monotonic(), self.record
        if record is None:
            self.next()
        elif record.state is State.ASKED and now - record.at > timeout:
            self.reverse(b"0400")
        elif record.state is State.REVERSING and now - record.reversal_at > timeout:
            self.reverse(b"0401")


class Load:
    """So many requests over so many connections."""

    def __init__(self, ports: list[int], connections: int, requests: int, timeout: float = 1.5) -> None:
        self.ports, self.left, self.timeout = ports, requests, timeout
        self.records: list[Record] = []
        self.times: list[float] = []
        # Answers that no request of their connection waits for any more, with the connection's number.
        self.strays: list[tuple[int, dict[int, bytes]]] = []
        self.acquirers = [Acquirer(self, number) for number in range(connections)]

    def take(self) -> bool:
        """Whether there is one more request to be sent; it counts as sent."""
        if self.left <= 0:
            return False
        self.left -= 1
        return True

    @property
    def is_over(self) -> bool:
        return self.left <= 0 and all(it.record is None for it in self.acquirers)

    async def connect(self, acquirer: Acquirer) -> None:
        port = self.ports[acquirer.number % len(self.ports)]
        try:
            await asyncio.get_running_loop().create_connection(lambda: acquirer, "127.0.0.1", port)
        except OSError:
            # (the gateway is down; another one may be there)
            self.ports.append(self.ports.pop(0))

    async def run(self, seconds: float) -> bool:
        """Whether all requests were over within so many seconds."""
        until = time.monotonic() + seconds
        while not self.is_over and time.monotonic() < until:
            for acquirer in self.acquirers:
                if acquirer.transport is None:
                    await self.connect(acquirer)
                acquirer.look(self.timeout)
            await asyncio.sleep(PAUSE)
        for acquirer in self.acquirers:
            if acquirer.transport is not None:
                acquirer.transport.close()
        await asyncio.sleep(PAUSE)
        return self.is_over


def strays_faults(load: Load) -> list[str]:
    """An answer that comes when its request is over has to be of its own connection all the same: the card tells."""
    cards = ((number, int(fields.get(2, b"40")[1:])) for number, fields in load.strays)
    return [f"connection {number} got an answer of card {card}" for number, card in cards if card // 10**6 != number]


def account(records: list[Record], ledger: list[Entry]) -> tuple[collections.Counter, list[str]]:
    """What became of each request, by its client's log and the issuer's ledger; and what is wrong."""
    asked = collections.Counter(it.key for it in ledger if it.mti in (b"0100", b"0101"))
    last = {it.key: it.at for it in ledger if it.mti in (b"0100", b"0101")}
    back = collections.defaultdict(list)
    for it in ledger:
        if it.mti in (b"0420", b"0421"):
            back[it.key].append(it.at)
    found: collections.Counter = collections.Counter()
    faults = []
    for record in records:
        times, is_reversed = asked[record.key], any(at >= last.get(record.key, 0) for at in back[record.key])
        faults += faults_of(record, times, is_reversed)
        what = record.state.value + (f" {record.code.decode()}" if record.code else "")
        found[f"{what}, the issuer had {'approved' if times else 'nothing'}"] += 1
    return found, faults


def faults_of(record: Record, times: int, is_reversed: bool) -> list[str]:
    """What is wrong with a request that the issuer approved so many times, and got reversed after that or not."""
    faults = []
    if record.answers > 1:
        faults.append("answered twice")
    if times > 1:
        faults.append("approved twice by the issuer")
    if record.state is State.ANSWERED and record.code == b"00":
        if not times:
            faults.append("approved without the issuer")
        if is_reversed:
            faults.append("approved, and reversed at the issuer")
    elif record.state in (State.ANSWERED, State.REVERSED, State.GONE):
        if times and not is_reversed:
            faults.append(f"{record.state.value} {record.code.decode()}, approved at the issuer and not reversed there")
    else:
        faults.append("not over")
    return [f"STAN {record.stan} of card {record.card}: {it}" for it in faults]
