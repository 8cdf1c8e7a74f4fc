"""One engine: a `cardswitch run --header 24` at the end of pipes, in a folder of its own, started again whenever it
ends."""

import asyncio
import contextlib
import os
from collections.abc import Callable

from cardgate.frames import BadFrame, Framer, frame
from cardgate.iso8583 import is_approved
from cardgate.line import Limits, Line
from cardgate.log import Log
from cardgate.process import PIECE, each_line, guarded, started
from cardgate.request import HEADER, Headers, Kind, Request, request_of
from cardgate.reversals import Reversals
from cardgate.stats import EngineCounts, State

TICK = 1.0
# The pauses before an engine is started again: the first, and the longest. (Its journal may still be in use: status
# 3.)
PAUSE, LONGEST_PAUSE = 0.2, 5.0
# The statuses of an engine that is refused what it was started with: it would be refused again.
REFUSED = (1, 2)
NETWORK_TEST = b"0800" + b"8020000000000000" + b"0400000000000000" + b"000000" + b"301"

# What an engine tells about a request: its response, and whether that could be delivered; or that none will come, and
# why.
Deliver = Callable[[Request, bytes], bool]
Dropped = Callable[[Request, str], None]


class Engine:
    def __init__(self, name: str, command: list[str], folder: str, limits: Limits, log: Log) -> None:
        self.name, self.command, self.folder, self.limits, self.log = name, command, folder, limits, log
        self.loop = asyncio.get_running_loop()
        self.line, self.headers, self.counts = Line(limits), Headers(), EngineCounts()
        self.reversals = Reversals(self.headers, self.submit, self.loop.time)
        self.deliver: Deliver = lambda request, response: False
        self.dropped: Dropped = lambda request, why: None
        # Gets the lines of the trace, where the engine writes one.
        self.traced: Callable[[str], None] | None = None
        self.process: asyncio.subprocess.Process | None = None
        self.state, self.status, self.responses = State.STARTING, 0, 0
        self.is_due = self.is_closing = False
        self.ready, self.refused = asyncio.Event(), asyncio.Event()

    @property
    def input(self) -> asyncio.StreamWriter | None:
        """The input of the process, while it can be written to."""
        stdin = None if self.process is None else self.process.stdin
        return None if stdin is None or stdin.is_closing() else stdin

    def submit(self, request: Request) -> None:
        if not self.line.add(request):
            self.drop(request, "too many wait")
        elif not self.is_due:
            # (requests that come together are written together)
            self.is_due = True
            self.loop.call_soon(self.flush)

    def drop(self, request: Request, why: str) -> None:
        self.counts.dropped[why] += 1
        self.dropped(request, why)

    def drop_over(self, request: Request) -> None:
        self.drop(request, "its client is gone" if request.is_given_up else "waited too long")

    def flush(self) -> None:
        """Hands over what is due."""
        self.is_due = False
        out = self.input
        if out is None:
            return
        given, over = self.line.due(self.loop.time())
        for request in over:
            self.drop_over(request)
        if given:
            self.counts.handed += len(given)
            out.write(b"".join(frame(request.header + request.message) for request in given))

    def came(self, content: bytes) -> None:
        """A frame of the engine: a header, and a response. A header alone says that there is none."""
        header, response = content[:HEADER], content[HEADER:]
        request = self.line.done(header)
        self.responses += 1
        if request is None:
            self.unasked(response)
        elif request.is_own:
            self.own(request, response)
        elif not response:
            self.drop(request, "no response")
        elif self.loop.time() - request.taken > self.limits.late:
            # The client has reversed it by now, or is about to. Its reversal may have come before this approval.
            self.counts.late += 1
            self.reversals.take_back(response)
            self.dropped(request, "answered too late")
        else:
            self.counts.answered += 1
            if not self.deliver(request, response):
                self.take_back(response)

    def take_back(self, response: bytes) -> None:
        """Reverses what could not be delivered."""
        self.counts.undelivered += 1
        self.reversals.take_back(response)

    def unasked(self, response: bytes) -> None:
        """The response to a request that this life did not hand over, such as one of the shelf, or that was given
        up."""
        self.counts.unasked += 1
        is_reversed = self.reversals.take_back(response)
        self.log.warning("response_of_no_request", engine=self.name, reversed=is_reversed)

    def own(self, request: Request, response: bytes) -> None:
        if request.kind is Kind.REVERSAL:
            if not is_approved(response):
                self.log.error("reversal_refused", engine=self.name, stan=request.stan)
            self.reversals.answered(request.header)
        elif self.state is State.STARTING:
            self.state = State.READY
            self.ready.set()
            self.log.info("engine_ready", engine=self.name, pid=self.pid)

    @property
    def pid(self) -> int | None:
        return None if self.process is None else self.process.pid

    async def run(self) -> int:
        """Keeps a process running until close() ends it. Its status."""
        os.makedirs(self.folder, exist_ok=True)
        pause = PAUSE
        while not self.is_closing:
            self.state = State.STARTING
            began, responses = self.loop.time(), self.responses
            self.status = await self.live()
            if self.is_closing:
                break
            self.state = State.AWAY
            if self.status in REFUSED and self.counts.starts == 1 and not self.responses:
                self.refused.set()
            # (one that answered something is worth an early start)
            pause = PAUSE if self.responses > responses else min(2 * pause, LONGEST_PAUSE)
            seconds = round(self.loop.time() - began, 3)
            self.log.warning("engine_ended", engine=self.name, status=self.status, seconds=seconds, again_after=pause)
            await asyncio.sleep(pause)
        self.state = State.ENDED
        return self.status

    async def live(self) -> int:
        """One process, from its start to its end. Its status."""
        try:
            process = self.process = await started(self.command, self.folder)
        except OSError as fault:
            self.log.error("engine_cannot_start", engine=self.name, fault=str(fault))
            return 127
        self.counts.starts += 1
        assert process.stdin is not None and process.stdout is not None and process.stderr is not None
        if self.is_closing:
            # (it was started while the end was asked for)
            process.stdin.close()
        self.log.info("engine_started", engine=self.name, pid=process.pid)
        beside = [guarded(it, self.log) for it in (self.ticks(), each_line(process.stderr, self.said))]
        try:
            await self.read(process.stdout)
            status = await process.wait()
        finally:
            beside[0].cancel()
            self.process = None
        # (what it said last is read too, unless something else has its stream open)
        await asyncio.wait(beside, timeout=1)
        beside[1].cancel()
        self.forget()
        return status

    async def read(self, stdout: asyncio.StreamReader) -> None:
        framer = Framer()
        self.test()
        try:
            while data := await stdout.read(PIECE):
                framer.push(data)
                while (content := framer.pop()) is not None:
                    self.came(content)
                self.flush()
        except BadFrame as fault:
            self.log.error("engine_wrote_no_frame", engine=self.name, fault=str(fault))
            self.kill()

    def said(self, line: str) -> None:
        if self.traced is not None and line.startswith('{"event":'):
            self.traced(line)
        else:
            self.log.info("engine_said", engine=self.name, line=line[:500])

    def forget(self) -> None:
        """The process has ended: what it had gets no answer, and nothing of it is handed over again, but for the
        reversals (rule G3)."""
        for request in self.line.lost():
            if request.is_own:
                self.reversals.repeat(request.header)
            else:
                self.drop(request, "the engine ended")

    def test(self) -> None:
        self.submit(request_of(self.headers.next(), NETWORK_TEST, self.loop.time(), is_own=True))

    async def ticks(self) -> None:
        """An idle engine gets a network test each second: stored advices leave after something was read (rule G6)."""
        while True:
            before = self.responses
            await asyncio.sleep(TICK)
            now = self.loop.time()
            for request in self.line.unanswered(now):
                self.unanswered(request)
            for request in self.line.over(now):
                self.drop_over(request)
            if self.responses == before and not self.line.handed:
                self.test()
            self.flush()

    def unanswered(self, request: Request) -> None:
        """The engine has had a request for too long. One that does not answer a network test does nothing any
        more."""
        self.log.warning("no_response", engine=self.name, mti=request.mti, stan=request.stan)
        if request.is_own and request.kind is Kind.REVERSAL:
            self.reversals.repeat(request.header)
        elif not request.is_own:
            self.drop(request, "no response")
        elif self.state is State.READY:
            self.log.error("engine_killed", engine=self.name, why="it does not answer a network test")
            self.kill()

    async def drain(self, seconds: float) -> None:
        """Waits until all that was taken is answered, with the reversals that come of it (rule G7)."""
        until = self.loop.time() + seconds
        while (self.line.handed or self.line.size or self.reversals.kept) and self.loop.time() < until:
            await asyncio.sleep(0.02)

    async def close(self, seconds: float) -> None:
        """Ends the input of the process, which then sends its advices and ends. It is killed only after so many
        seconds."""
        await self.drain(seconds)
        self.state, self.is_closing = State.CLOSING, True
        out = self.input
        if out is not None:
            out.close()
        process = self.process
        if process is not None:
            with contextlib.suppress(asyncio.TimeoutError):
                await asyncio.wait_for(process.wait(), seconds)
        if self.process is not None:
            self.log.error("engine_killed", engine=self.name, why=f"it had not ended after {seconds:g} seconds")
            self.kill()

    def kill(self) -> None:
        if self.process is not None:
            with contextlib.suppress(ProcessLookupError):
                self.process.kill()
