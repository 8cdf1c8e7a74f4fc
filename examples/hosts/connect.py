#!/usr/bin/env python3
"""Carries frames between a host that listens on TCP and the named pipes at which the switch asks it, and connects again when that ends.

    connect.py [--binary] [--retry SECONDS] HOST:PORT TO FROM

TO and FROM are the pipes of the host's table in the configuration file. They are opened once the host is connected, and closed when the
connection ends: so the switch stands in at once for a host that is away. If the switch closes TO, the connection is closed too.
With --binary the host's frames begin with two bytes of length, the high byte first, and not with four digits.
"""

import argparse
import asyncio
import contextlib
import os
import sys

# The longest message of a frame, and how often a pipe is tried that the switch has not opened, in seconds.
MOST, PAUSE = 9_999, 0.02


def decimal(length: bytes) -> int:
    if not length.isdigit():
        raise ValueError(f"bad length of a frame: {length!r}; expected four digits")
    return int(length)


def binary(length: bytes) -> int:
    return int.from_bytes(length, "big")


async def carry(source: asyncio.StreamReader, size: int, number, sink: asyncio.StreamWriter, prefix) -> None:
    """Carries whole frames until the source ends between two of them."""
    with contextlib.suppress(asyncio.IncompleteReadError):
        while True:
            length = number(await source.readexactly(size))
            if length > MOST:
                raise ValueError(f"a frame of {length} bytes; expected at most {MOST}")
            sink.write(prefix(length) + await source.readexactly(length))
            await sink.drain()


async def pipe_to(path: str) -> tuple[asyncio.StreamReader, asyncio.BaseTransport]:
    """The end of the pipe that the switch writes to. What it wrote for an earlier connection is dropped."""
    end = os.open(path, os.O_RDONLY | os.O_NONBLOCK)
    with contextlib.suppress(BlockingIOError):
        while os.read(end, MOST):
            pass
    reader, pipe = asyncio.StreamReader(), os.fdopen(end, "rb", 0)
    transport, _ = await asyncio.get_running_loop().connect_read_pipe(lambda: asyncio.StreamReaderProtocol(reader), pipe)
    return reader, transport


async def pipe_from(path: str, host: asyncio.StreamReader) -> asyncio.StreamWriter | None:
    """The end of the pipe that the switch reads from, once it has opened its own; None if the host closes before."""
    loop, end = asyncio.get_running_loop(), None
    while end is None and not host.at_eof():
        # (without a reader this is refused)
        with contextlib.suppress(OSError):
            end = os.open(path, os.O_WRONLY | os.O_NONBLOCK)
        await asyncio.sleep(PAUSE if end is None else 0)
    if end is None:
        return None
    transport, protocol = await loop.connect_write_pipe(asyncio.streams.FlowControlMixin, os.fdopen(end, "wb", 0))
    return asyncio.StreamWriter(transport, protocol, None, loop)


async def answer(path: str, host: asyncio.StreamReader, size: int, number) -> None:
    """Carries the host's frames to the switch."""
    writer = await pipe_from(path, host)
    if writer is not None:
        with contextlib.closing(writer):
            await carry(host, size, number, writer, b"%04d".__mod__)


async def connection(given: argparse.Namespace) -> None:
    """One connection of the host, from its beginning to the first end of a direction."""
    name, _, port = given.host.rpartition(":")
    host, out = await asyncio.open_connection(name, int(port))
    size, number, prefix = (2, binary, lambda length: length.to_bytes(2, "big")) if given.binary else (4, decimal, b"%04d".__mod__)
    # (the switch sends no request before it has opened the other pipe, which is opened after this)
    requests, pipe = await pipe_to(given.to)
    directions = [asyncio.ensure_future(it) for it in (carry(requests, 4, decimal, out, prefix), answer(given.back, host, size, number))]
    try:
        done, _ = await asyncio.wait(directions, return_when=asyncio.FIRST_COMPLETED)
        for direction in done:
            direction.result()
    finally:
        for direction in directions:
            direction.cancel()
        await asyncio.gather(*directions, return_exceptions=True)
        pipe.close()
        out.close()


async def keep_connected(given: argparse.Namespace) -> None:
    """Connects each time that a connection has ended, at most once in so many seconds."""
    said = None
    while True:
        try:
            await connection(given)
            why = "the connection was closed"
        except (OSError, ValueError) as fault:
            why = str(fault)
        if why != said:
            print(f"connect: {given.host}: {why}", file=sys.stderr, flush=True)
        said = why
        await asyncio.sleep(given.retry)


def main() -> None:
    parser = argparse.ArgumentParser(description="Carries frames between a host on TCP and the named pipes of the switch.")
    parser.add_argument("--binary", action="store_true", help="the host's frames begin with two bytes of length")
    parser.add_argument("--retry", type=float, default=1, metavar="SECONDS", help="the pause before it connects again [default: 1]")
    parser.add_argument("host", metavar="HOST:PORT")
    parser.add_argument("to", metavar="TO", help="the named pipe that the switch writes to")
    parser.add_argument("back", metavar="FROM", help="the named pipe that the switch reads from")
    with contextlib.suppress(KeyboardInterrupt):
        asyncio.run(keep_connected(parser.parse_args()))


if __name__ == "__main__":
    main()
