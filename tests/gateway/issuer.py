"""An issuer's host that listens on the loopback and writes down what it decides, so that a test can account for each
request."""

import asyncio
import dataclasses
import threading
import time

from model import messages

ECHOED = (2, 3, 4, 7, 11, 41, 49, 70, 90)
# Date and time of requests that only make engines open their pipes: no test looks for them in the ledger.
WARMING = b"0101000000"


@dataclasses.dataclass(frozen=True)
class Entry:
    """A message that the issuer got, and when."""

    at: float
    mti: bytes
    # Card, STAN, and date and time of the authorization that it is about.
    key: tuple[bytes, bytes, bytes]


class Issuer:
    """Approves everything, each after its delay and many at once, in a thread of its own."""

    def __init__(self, delay: float = 0.0) -> None:
        self.delay, self.ledger, self.tests = delay, [], 0
        # Whether its answers have the card.
        self.tells_cards = True
        self.at_once = self.most_at_once = self.connections = 0
        self.writers: set[asyncio.StreamWriter] = set()
        self.loop, self.port, self.server = asyncio.new_event_loop(), 0, None
        threading.Thread(target=self.loop.run_forever, daemon=True).start()
        self.listen()

    def wait_for(self, work):
        return asyncio.run_coroutine_threadsafe(work, self.loop).result(10)

    def listen(self) -> None:
        async def begin():
            self.server = await asyncio.start_server(self.serve, "127.0.0.1", self.port)
            self.port = self.server.sockets[0].getsockname()[1]

        self.wait_for(begin())

    def hang_up(self) -> None:
        """It is away: its connections are closed, and it does not listen."""

        async def end():
            self.server.close()
            for writer in list(self.writers):
                writer.transport.abort()

        self.wait_for(end())

    def close(self) -> None:
        self.hang_up()
        self.loop.call_soon_threadsafe(self.loop.stop)

    async def serve(self, reader, writer) -> None:
        self.connections += 1
        self.writers.add(writer)
        try:
            while length := await reader.readexactly(4):
                self.take(await reader.readexactly(int(length)), writer)
        except (asyncio.IncompleteReadError, ConnectionError):
            pass
        finally:
            self.writers.discard(writer)
            writer.close()

    def take(self, message: bytes, writer) -> None:
        mti, fields = messages.decode(message)
        echoed = ECHOED if self.tells_cards else ECHOED[1:]
        told = {it: fields[it] for it in echoed if it in fields} | {39: b"00"}
        if mti in (b"0100", b"0101"):
            told[38] = fields[11]
            self.at_once += 1
            self.most_at_once = max(self.most_at_once, self.at_once)
        if mti[:2] == b"08":
            self.tests += 1
        else:
            original = fields.get(90, b"")
            key = (fields[11], fields[7]) if mti[:2] == b"01" else (original[4:10], original[10:20])
            self.ledger.append(Entry(time.time(), mti, (fields[2], *key)))
        answer = messages.framed(messages.encode(mti[:2] + b"%c0" % (mti[2] | 1), told))
        self.loop.call_later(self.delay if mti[:2] == b"01" else 0, self.say, mti, answer, writer)

    def say(self, mti: bytes, answer: bytes, writer) -> None:
        self.at_once -= mti in (b"0100", b"0101")
        if not writer.transport.is_closing():
            writer.write(answer)

    def got(self, *types: bytes) -> list[Entry]:
        return [it for it in self.ledger if it.mti in types and it.key[2] != WARMING]

    def authorizations(self) -> list[Entry]:
        return self.got(b"0100", b"0101")

    def reversals(self) -> list[Entry]:
        return self.got(b"0420", b"0421")
