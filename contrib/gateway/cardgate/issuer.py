"""One TCP connection to an issuer's host for all engines of this machine.

Each engine has two named pipes to the host in its folder, which are opened while the host is connected and closed
when it is not: so an engine finds a host that is away as one that is not there. Requests of all engines go out on the
one connection. An answer with a card goes to the engine of its card. One without a card, such as that of an echo
test, goes to the engine that first asked with its type, STAN and terminal, and with what else it has of the request.
"""

import asyncio
import collections
import contextlib
import dataclasses
import os
import time
from collections.abc import Callable

from cardgate import iso8583
from cardgate.frames import BadFrame, Framer, frame
from cardgate.log import Log
from cardgate.process import PIECE

# How often a pipe is tried that its engine has not opened, and after how long the host is connected again, in
# seconds.
TRY, AGAIN = 0.02, 0.5
# A connection that brings nothing for so long after a request is made anew: the host's machine may be gone.
SILENT = 10.0
# For how long it is remembered who asked, in seconds.
REMEMBERED = 60.0
# The fields by which requests with the same key are told apart, where the answer has them.
TOLD_APART = (4, 7, 37)


@dataclasses.dataclass(frozen=True)
class Asked:
    """A request that an engine has sent, until it is answered."""

    at: float
    pipes: "Pipes"
    fields: dict[int, str]

    def fits(self, answer: dict[int, str]) -> bool:
        return all(answer.get(it) in (None, self.fields.get(it)) for it in TOLD_APART)


@dataclasses.dataclass(frozen=True)
class Address:
    name: str
    host: str
    port: int


class Pipes:
    """The two pipes of one engine."""

    def __init__(self, engine: str, folder: str, name: str, send: Callable[["Pipes", bytes], None], log: Log) -> None:
        self.engine, self.send, self.log = engine, send, log
        self.to, self.back = os.path.join(folder, f"{name}.to"), os.path.join(folder, f"{name}.from")
        self.out: int | None = None

    def make(self) -> None:
        """Makes the pipes that are not there. One that is stays: an engine may wait at it."""
        os.makedirs(os.path.dirname(self.to), exist_ok=True)
        for path in self.to, self.back:
            with contextlib.suppress(FileExistsError):
                os.mkfifo(path, 0o600)

    async def run(self) -> None:
        """Carries what the engine sends, for as long as the host is connected. An engine that ends closes its pipes;
        the next opens them."""
        said = None
        while True:
            opening: asyncio.Future[None] | None = None
            try:
                reader, transport = await self.open_to()
                opening = asyncio.ensure_future(self.open_back())
                try:
                    await self.carry(reader)
                finally:
                    transport.close()
                said = None
            except (BadFrame, OSError) as fault:
                if str(fault) != said:
                    self.log.error("pipe_fault", engine=self.engine, pipe=self.to, fault=str(fault))
                said = str(fault)
            finally:
                if opening is not None:
                    opening.cancel()
                self.close_back()
            await asyncio.sleep(TRY if said is None else AGAIN)

    async def open_to(self) -> tuple[asyncio.StreamReader, asyncio.ReadTransport]:
        """The end that is read from. What was written for an earlier connection is dropped."""
        end = os.open(self.to, os.O_RDONLY | os.O_NONBLOCK)
        with contextlib.suppress(BlockingIOError):
            while os.read(end, PIECE):
                pass
        reader = asyncio.StreamReader()
        made = await asyncio.get_running_loop().connect_read_pipe(
            lambda: asyncio.StreamReaderProtocol(reader), os.fdopen(end, "rb", 0)
        )
        return reader, made[0]

    async def open_back(self) -> None:
        while self.out is None:
            # (it is refused until the engine has opened its end)
            with contextlib.suppress(OSError):
                self.out = os.open(self.back, os.O_WRONLY | os.O_NONBLOCK)
                return
            await asyncio.sleep(TRY)

    def close_back(self) -> None:
        if self.out is not None:
            os.close(self.out)
            self.out = None

    async def carry(self, reader: asyncio.StreamReader) -> None:
        framer = Framer()
        while data := await reader.read(PIECE):
            framer.push(data)
            while (message := framer.pop()) is not None:
                self.send(self, message)

    def give(self, message: bytes) -> bool:
        """Writes an answer to the engine, whole or not at all: a frame is shorter than what a pipe takes at once."""
        if self.out is None:
            return False
        try:
            return os.write(self.out, frame(message)) == len(message) + 4
        except OSError:
            return False


class Issuer:
    """The connection to one issuer's host, made again when it is lost."""

    def __init__(self, address: Address, shard: Callable[[str, bytes], int], log: Log) -> None:
        self.address, self.shard, self.log = address, shard, log
        self.pipes: dict[int, Pipes] = {}
        self.asked: dict[tuple[str, ...], collections.deque[Asked]] = {}
        self.writer: asyncio.StreamWriter | None = None
        self.sent = self.received = self.lost = self.connections = 0
        self.since: float | None = None
        # When the first request was sent after which nothing has come.
        self.unanswered: float | None = None

    @property
    def is_connected(self) -> bool:
        return self.writer is not None

    def attach(self, shard: int, engine: str, folder: str) -> None:
        """The engine of a shard has its pipes in this folder."""
        pipes = self.pipes[shard] = Pipes(engine, folder, self.address.name, self.send, self.log)
        pipes.make()

    def send(self, pipes: Pipes, message: bytes) -> None:
        if self.writer is None:
            return
        with contextlib.suppress(iso8583.Unreadable):
            mti, fields = iso8583.read(message)
            told = {it: fields[it] for it in TOLD_APART if it in fields}
            self.asked.setdefault(key_of(mti, fields), collections.deque()).append(Asked(time.monotonic(), pipes, told))
        self.sent += 1
        self.unanswered = self.unanswered or time.monotonic()
        self.writer.write(frame(message))

    def owner(self, message: bytes) -> Pipes | None:
        """The pipes of the engine that waits for this answer."""
        mti, fields = iso8583.read(message)
        owner = self.pipes.get(self.shard(fields[2], message)) if 2 in fields and mti[1] != "8" else None
        key = key_of(mti, fields)
        waiting = self.asked.get(key, ())
        for asked in waiting:
            if asked.pipes is owner or owner is None and asked.fits(fields):
                self.asked[key].remove(asked)
                if not self.asked[key]:
                    del self.asked[key]
                return asked.pipes
        return owner

    def came(self, message: bytes) -> None:
        self.received += 1
        try:
            pipes = self.owner(message)
        except iso8583.Unreadable as fault:
            self.lost += 1
            self.log.warning("issuer_sent_unreadable", issuer=self.address.name, fault=str(fault))
            return
        if pipes is None or not pipes.give(message):
            self.lost += 1

    async def watch(self) -> None:
        """Ends a connection that brings nothing more."""
        while True:
            await asyncio.sleep(SILENT / 10)
            is_silent = self.unanswered is not None and time.monotonic() - self.unanswered > SILENT
            if is_silent and self.writer is not None:
                self.writer.transport.abort()

    def forget(self) -> None:
        """Forgets who asked long ago and got no answer."""
        before = time.monotonic() - REMEMBERED
        for key, waiting in list(self.asked.items()):
            while waiting and waiting[0].at < before:
                waiting.popleft()
            if not waiting:
                del self.asked[key]

    async def run(self) -> None:
        said = None
        while True:
            try:
                why = await self.connection()
            except (OSError, BadFrame) as fault:
                why = str(fault)
            if why != said:
                self.log.warning("issuer_away", issuer=self.address.name, why=why, again_after=AGAIN)
            said = why if self.since is None else None
            self.since = None
            await asyncio.sleep(AGAIN)

    async def connection(self) -> str:
        """One connection, from its beginning to its end; why it ended."""
        reader, writer = await asyncio.open_connection(self.address.host, self.address.port)
        self.writer, self.since = writer, time.time()
        self.connections += 1
        self.log.info("issuer_connected", issuer=self.address.name, host=self.address.host, port=self.address.port)
        self.unanswered = None
        carrying = [asyncio.ensure_future(it) for it in (self.watch(), *(its.run() for its in self.pipes.values()))]
        framer = Framer()
        try:
            while data := await reader.read(PIECE):
                self.unanswered = None
                framer.push(data)
                while (message := framer.pop()) is not None:
                    self.came(message)
                self.forget()
            return "the connection was closed"
        finally:
            self.writer = None
            self.asked.clear()
            for task in carrying:
                task.cancel()
            await asyncio.gather(*carrying, return_exceptions=True)
            writer.close()


def key_of(mti: str, fields: dict[int, str]) -> tuple[str, ...]:
    """What a request and its answer have in common, where they have no card."""
    return mti[:2], fields.get(11, ""), fields.get(41, ""), fields.get(70, "")
