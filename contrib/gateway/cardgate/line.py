"""What waits for an engine, and what the engine has (rules G2 and G3)."""

import collections
import dataclasses

from cardgate.request import Kind, Request


@dataclasses.dataclass(frozen=True)
class Limits:
    """The bounds of an engine and of the time that a request may take, in seconds."""

    # How many requests the engine has at most: as many as it has sessions.
    window: int = 16
    # How long an authorization may wait for the engine.
    wait: float = 2.0
    # After how long an approval is reversed instead of delivered. Clients have to wait longer than that.
    late: float = 4.0
    # After how long a request that the engine has is taken for one without a response.
    silent: float = 30.0
    # How many requests may wait.
    waiting: int = 20_000


class Line:
    """The requests of an engine: those that wait, and those that it has. Of a card it has one at a time: two that are
    read together may run in either order, and a reversal that runs before its original reverses nothing."""

    def __init__(self, limits: Limits) -> None:
        self.limits = limits
        self.waiting: collections.deque[Request] = collections.deque()
        self.handed: dict[bytes, Request] = {}
        # By card: what waits until the request of this card that the engine has is answered.
        self.held: dict[str, collections.deque[Request]] = {}
        self.size = 0

    def add(self, request: Request) -> bool:
        """Puts a request at the end; False if too many wait. The gateway's own go before all others, and are never
        refused."""
        if request.is_own:
            self.waiting.appendleft(request)
        elif self.size >= self.limits.waiting:
            return False
        else:
            self.waiting.append(request)
        self.size += 1
        return True

    def is_over(self, request: Request, now: float) -> bool:
        """Whether its client is gone, or is about to give it up: it has waited too long, and the issuer could be asked
        after the reversal."""
        is_late = request.is_given_up or now - request.taken > self.limits.wait
        return is_late and request.kind is Kind.AUTHORIZATION

    def due(self, now: float) -> tuple[list[Request], list[Request]]:
        """The requests that the engine gets now, and those that are dropped because they waited too long."""
        given: list[Request] = []
        dropped: list[Request] = []
        while self.waiting and len(self.handed) < self.limits.window:
            request = self.waiting.popleft()
            if self.is_over(request, now):
                dropped.append(request)
            elif request.card is not None and request.card in self.held:
                self.held[request.card].append(request)
            else:
                if request.card is not None:
                    self.held[request.card] = collections.deque()
                self.handed[request.header] = request
                given.append(request)
        self.size -= len(given) + len(dropped)
        return given, dropped

    def done(self, header: bytes) -> Request | None:
        """The request that the engine has answered; None if it does not have it."""
        request = self.handed.pop(header, None)
        if request is not None:
            self.release(request)
        return request

    def release(self, request: Request) -> None:
        """The next request of this card may go."""
        if request.card is not None and request.card in self.held:
            self.waiting.extendleft(reversed(self.held.pop(request.card)))

    def lost(self) -> list[Request]:
        """What the engine had when it ended. None of it is handed over again."""
        gone = list(self.handed.values())
        self.handed.clear()
        for request in gone:
            self.release(request)
        return gone

    def unanswered(self, now: float) -> list[Request]:
        """What the engine has had for too long. It keeps its place no longer."""
        gone = [it for it in self.handed.values() if now - it.taken > self.limits.silent]
        for request in gone:
            self.done(request.header)
        return gone

    def over(self, now: float) -> list[Request]:
        """Takes out what has waited too long, also where the engine takes nothing."""
        gone: list[Request] = []
        for place in self.waiting, *self.held.values():
            if any(self.is_over(it, now) for it in place):
                gone += [it for it in place if self.is_over(it, now)]
                kept = [it for it in place if not self.is_over(it, now)]
                place.clear()
                place.extend(kept)
        self.size -= len(gone)
        return gone
