"""Child processes that end with the process that started them."""

import asyncio
import ctypes
import os
import signal
import traceback
import typing
from collections.abc import Callable, Coroutine
from typing import Any

from cardgate.log import Log

Result = typing.TypeVar("Result")

PR_SET_PDEATHSIG = 1
# How much is read from a pipe at once.
PIECE = 65_536


def ends_with(parent: int) -> Callable[[], None]:
    """What a child does before it becomes its program: it is killed when its parent ends, however that ends (rule
    G5). An engine without its gateway would go on with what it has read, and approve what nobody waits for."""
    prctl = ctypes.CDLL(None).prctl

    def prepare() -> None:
        prctl(PR_SET_PDEATHSIG, signal.SIGKILL)
        # (the parent may have ended before that)
        if os.getppid() != parent:
            os._exit(1)

    return prepare


async def started(command: list[str], folder: str) -> asyncio.subprocess.Process:
    """A command in a folder, with pipes at all three streams. Its group of its own keeps an interrupt at the terminal
    from it."""
    pipe = asyncio.subprocess.PIPE
    return await asyncio.create_subprocess_exec(
        *command,
        cwd=folder,
        stdin=pipe,
        stdout=pipe,
        stderr=pipe,
        preexec_fn=ends_with(os.getpid()),
        start_new_session=True,
    )


def guarded(work: Coroutine[Any, Any, Result], log: Log) -> asyncio.Future[Result]:
    """A task that the whole cannot do without. If it fails by a fault of this program, the program ends, and its
    engines with it: their clients reverse, and who has started the program starts it again."""

    def ended(task: asyncio.Future[Result]) -> None:
        if not task.cancelled() and (fault := task.exception()) is not None:
            log.error("internal_fault", **told_of(fault))
            os._exit(70)

    task = asyncio.ensure_future(work)
    task.add_done_callback(ended)
    return task


def told_of(fault: BaseException) -> dict[str, str]:
    """What the log has of a fault: its kind and its place, and not its text, in which may be data."""
    place = traceback.extract_tb(fault.__traceback__)[-1:]
    return {
        "fault": type(fault).__name__,
        "at": "".join(f"{os.path.basename(it.filename)}:{it.lineno}" for it in place),
    }


def log_faults(log: Log) -> None:
    """What a callback of the event loop fails with goes to the log in the same way."""

    def failed(_: asyncio.AbstractEventLoop, context: dict[str, Any]) -> None:
        fault = context.get("exception")
        log.error("internal_fault", **(told_of(fault) if fault is not None else {"fault": str(context.get("message"))}))

    asyncio.get_running_loop().set_exception_handler(failed)


async def each_line(stream: asyncio.StreamReader, say: Callable[[str], None], most: int = 100_000) -> None:
    """Calls `say` for each line of a stream. A longer line is cut."""
    kept = b""
    while piece := await stream.read(PIECE):
        *lines, kept = (kept + piece).split(b"\n")
        for line in lines:
            say(line[:most].decode("utf-8", "replace"))
        kept = kept[:most]
    if kept:
        say(kept.decode("utf-8", "replace"))
