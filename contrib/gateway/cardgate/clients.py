"""The side where clients connect: their frames, their requests, and what they are answered (rules G1, G7 and G8)."""

import asyncio
import contextlib
import dataclasses
import socket
import time
import typing
from collections.abc import Callable

from cardgate import iso8583
from cardgate.frames import BadFrame, Framer, frame
from cardgate.log import Log
from cardgate.request import Headers, Kind, Request, request_of
from cardgate.stats import Stats, Transaction


# What the system keeps of the responses of a connection that are not read, in bytes.
SEND_BUFFER = 16_384


@dataclasses.dataclass(frozen=True)
class Bounds:
    """How much memory clients may take."""

    # Requests of one connection without an answer. With so many it is not read from.
    requests: int = 512
    # Bytes of responses that a client has not read. With more its connection is closed.
    unread: int = 1 << 20
    clients: int = 10_000


class Client(asyncio.Protocol):
    """One connection."""

    transport: asyncio.Transport

    def __init__(self, front: "Front") -> None:
        self.front, self.framer = front, Framer()
        self.is_gone = self.is_paused = self.said_unreadable = False
        # Without an answer, by their headers.
        self.requests: dict[bytes, Request] = {}
        self.out: list[tuple[Request, bytes]] = []

    def connection_made(self, transport: asyncio.BaseTransport) -> None:
        # (uvloop's are no instances of asyncio's class)
        self.transport = typing.cast(asyncio.Transport, transport)
        self.transport.set_write_buffer_limits(high=self.front.bounds.unread)
        peer = transport.get_extra_info("socket")
        if peer is not None:
            # (a client whose machine is gone is found out some time; and the system keeps little of what is not read)
            peer.setsockopt(socket.SOL_SOCKET, socket.SO_KEEPALIVE, 1)
            peer.setsockopt(socket.SOL_SOCKET, socket.SO_SNDBUF, SEND_BUFFER)
        self.front.connected(self)

    def connection_lost(self, _: Exception | None) -> None:
        self.is_gone = True
        self.front.clients.discard(self)
        for request in self.requests.values():
            request.is_given_up = True

    def pause_writing(self) -> None:
        self.end("responses_not_read")

    def end(self, why: str, **members: object) -> None:
        """Closes this connection, and no other."""
        self.is_gone = True
        self.front.stats.closed_clients += 1
        self.front.log.warning("client_closed", why=why, peer=self.peer(), **members)
        self.transport.abort()

    def peer(self) -> str:
        name = self.transport.get_extra_info("peername")
        return f"{name[0]}:{name[1]}" if name else "unknown"

    def data_received(self, data: bytes) -> None:
        self.framer.push(data)
        self.take()

    def take(self) -> None:
        """Takes the whole messages that have come, up to the bound; the rest stays, and nothing more is read until
        there is room."""
        try:
            while not self.is_gone and len(self.requests) < self.front.bounds.requests:
                message = self.framer.pop()
                if message is None:
                    return
                self.front.take(self, message)
        except BadFrame as fault:
            return self.end("bad_frame", fault=str(fault))
        self.pause()

    def pause(self) -> None:
        """Reads nothing more for now."""
        if not self.is_gone and not self.is_paused and not self.transport.is_closing():
            self.is_paused = True
            self.transport.pause_reading()

    def closed(self, header: bytes) -> None:
        """This request is open no longer."""
        self.requests.pop(header, None)
        if self.is_paused and len(self.requests) <= self.front.bounds.requests // 2 and not self.front.is_stopped:
            self.is_paused = False
            # (not from within what the engine told: a request that is taken now could end there too)
            asyncio.get_running_loop().call_soon(self.go_on)

    def go_on(self) -> None:
        if not self.is_gone and not self.front.is_stopped and not self.transport.is_closing():
            self.transport.resume_reading()
            self.take()

    def give(self, request: Request, response: bytes) -> None:
        if not self.out:
            asyncio.get_running_loop().call_soon(self.flush)
        self.out.append((request, response))

    def flush(self) -> None:
        given, self.out = self.out, []
        if not self.is_gone:
            self.transport.write(b"".join(frame(response) for _, response in given))
            return
        for request, response in given:
            self.front.stats.undelivered += 1
            self.front.returned(request, response)


class Front:
    """All clients. Each request gets a header, and its answer goes to the client that it came from."""

    def __init__(self, submit: Callable[[Request], None], bounds: Bounds, stats: Stats, log: Log) -> None:
        self.submit, self.bounds, self.stats, self.log = submit, bounds, stats, log
        self.loop, self.headers = asyncio.get_running_loop(), Headers()
        self.clients: set[Client] = set()
        # By header: whose request it is.
        self.asked: dict[bytes, tuple[Client, Request]] = {}
        # Gets the response of a client that went before it could be written.
        self.returned: Callable[[Request, bytes], None] = lambda request, response: None
        self.servers: list[asyncio.Server] = []
        self.is_stopped = False

    async def listen(self, host: str, port: int) -> int:
        """Serves clients; the port, which is a free one if 0 was asked for."""
        server = await self.loop.create_server(lambda: Client(self), host, port, reuse_address=True, backlog=1024)
        self.servers.append(server)
        return int(server.sockets[0].getsockname()[1])

    def connected(self, client: Client) -> None:
        if len(self.clients) >= self.bounds.clients or self.is_stopped:
            self.stats.refused_clients += 1
            client.end("stopping" if self.is_stopped else "too_many_clients")
        else:
            self.clients.add(client)

    def take(self, client: Client, message: bytes) -> None:
        self.stats.taken += 1
        try:
            request = request_of(self.headers.next(), message, self.loop.time())
        except iso8583.Unreadable as fault:
            self.stats.unreadable += 1
            if not client.said_unreadable:
                client.said_unreadable = True
                self.log.warning("unreadable", peer=client.peer(), fault=str(fault))
            return
        if request.kind is Kind.RESPONSE:
            self.stats.no_response += 1
            return
        self.asked[request.header] = client, request
        client.requests[request.header] = request
        self.submit(request)

    def deliver(self, header: bytes, response: bytes, engine: str) -> bool:
        """Gives a response to the client that waits for it; False if none does."""
        client, request = self.asked.pop(header, (None, None))
        if client is None or request is None:
            return False
        client.closed(header)
        if client.is_gone:
            self.stats.undelivered += 1
            return False
        client.give(request, response)
        self.note(request, response, engine)
        return True

    def note(self, request: Request, response: bytes, engine: str) -> None:
        self.stats.delivered += 1
        took = self.loop.time() - request.taken
        self.stats.times.add(took)
        with contextlib.suppress(iso8583.Unreadable):
            _, fields = iso8583.read(response)
            code, card = fields.get(39, ""), iso8583.masked(request.card or "")
            self.stats.codes[code] += 1
            self.stats.last.append(
                Transaction(time.time(), request.mti, request.stan or "", card, code, engine, round(1000 * took, 2))
            )

    def dropped(self, header: bytes) -> None:
        """This request will get no answer."""
        client, _ = self.asked.pop(header, (None, None))
        if client is not None:
            client.closed(header)

    def forget(self, seconds: float) -> None:
        """Closes the requests that are older than so many seconds."""
        before = self.loop.time() - seconds
        for header in [header for header, (_, request) in self.asked.items() if request.taken < before]:
            self.dropped(header)

    def stop(self) -> None:
        """No new connections and no new requests."""
        self.is_stopped = True
        for server in self.servers:
            server.close()
        for client in self.clients:
            client.pause()

    async def close(self, seconds: float = 2.0) -> None:
        """Closes the connections once their responses are written."""
        await asyncio.sleep(0)
        for client in list(self.clients):
            client.flush()
            client.transport.close()
        until = self.loop.time() + seconds
        while self.clients and self.loop.time() < until:
            await asyncio.sleep(0.01)
