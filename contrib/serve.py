#!/usr/bin/env python3
"""Runs a command that reads frames from standard input, and ends its input on SIGTERM or SIGINT.

    serve.py COMMAND [WORD ..]

What comes on standard input is passed on in whole frames. On the first of these signals nothing more is passed on: `cardswitch run` then
ends as at the end of its input, with the responses and the numbers of what it has read. A second signal ends the command at once. The
status is the command's (128 and the signal, if a signal ended it).
"""

import asyncio
import contextlib
import os
import signal
import stat
import sys
from collections.abc import Awaitable, Callable

PIECE = 65_536
Read = Callable[[], Awaitable[bytes]]


def whole_frames(data: bytes) -> int:
    """How many of these bytes are whole frames. All of them, if there is a bad length: the command reports it."""
    end = 0
    while end + 4 <= len(data):
        if not data[end : end + 4].isdigit():
            return len(data)
        after = end + 4 + int(data[end : end + 4])
        if after > len(data):
            break
        end = after
    return end


async def input_reader() -> Read:
    """Reads the next bytes of standard input, none at its end."""
    mode = os.fstat(0).st_mode
    if stat.S_ISFIFO(mode) or stat.S_ISSOCK(mode) or os.isatty(0):
        stream = asyncio.StreamReader()
        pipe = os.fdopen(os.dup(0), "rb", 0)
        await asyncio.get_running_loop().connect_read_pipe(lambda: asyncio.StreamReaderProtocol(stream), pipe)
        return lambda: stream.read(PIECE)

    # (a file never has a read wait)
    async def read_file() -> bytes:
        await asyncio.sleep(0)
        return os.read(0, PIECE)

    return read_file


async def feed(read: Read, sink: asyncio.StreamWriter) -> None:
    """Passes the input on, a whole frame at a time, until it ends. What is left at the end is passed on too."""
    kept = b""
    while piece := await read():
        kept += piece
        end = whole_frames(kept)
        sink.write(kept[:end])
        kept = kept[end:]
        await sink.drain()
    sink.write(kept)


async def serve(command: list[str]) -> int:
    loop = asyncio.get_running_loop()
    # (a group of its own: an interrupt at the terminal is sent to this program alone)
    child = await asyncio.create_subprocess_exec(*command, stdin=asyncio.subprocess.PIPE, process_group=0)
    assert child.stdin is not None
    feeding = asyncio.ensure_future(feed(await input_reader(), child.stdin))
    ending = asyncio.ensure_future(child.wait())

    def stop() -> None:
        # (a command that has just ended needs no signal)
        with contextlib.suppress(ProcessLookupError):
            child.terminate() if feeding.done() else feeding.cancel()

    for its in signal.SIGTERM, signal.SIGINT:
        loop.add_signal_handler(its, stop)
    await asyncio.wait([feeding, ending], return_when=asyncio.FIRST_COMPLETED)
    feeding.cancel()
    # (the command may have ended before its input)
    with contextlib.suppress(asyncio.CancelledError, ConnectionError):
        await feeding
    child.stdin.close()
    status = await ending
    return status if status >= 0 else 128 - status


def main() -> int:
    if len(sys.argv) < 2:
        print("usage: serve.py COMMAND [WORD ..]", file=sys.stderr)
        return 2
    try:
        return asyncio.run(serve(sys.argv[1:]))
    except OSError as fault:
        print(f"serve: {sys.argv[1]}: {fault.strerror}", file=sys.stderr)
        return 2


if __name__ == "__main__":
    sys.exit(main())
