"""What is counted, and how long answers took."""

import bisect
import collections
import dataclasses
import enum
import time

# The upper ends of the classes of times, in seconds: each is a tenth longer than the one before, from 0.1 ms to more
# than a minute.
CLASSES = tuple(0.0001 * 1.1**place for place in range(142))
# How many seconds the percentiles and the requests a second are of.
WINDOW = 60


class State(enum.Enum):
    """What an engine is doing."""

    STARTING = "starting"
    READY = "ready"
    AWAY = "away"
    CLOSING = "closing"
    ENDED = "ended"


@dataclasses.dataclass
class EngineCounts:
    """What became of the requests of an engine."""

    handed: int = 0
    answered: int = 0
    late: int = 0
    undelivered: int = 0
    unasked: int = 0
    starts: int = 0
    dropped: collections.Counter[str] = dataclasses.field(default_factory=collections.Counter)


@dataclasses.dataclass(frozen=True)
class Transaction:
    """A request that was answered, as it is shown: the card is masked."""

    at: float
    mti: str
    stan: str
    card: str
    code: str
    engine: str
    milliseconds: float


class Times:
    """The times of the last minute, by classes, second by second."""

    def __init__(self) -> None:
        self.seconds: collections.deque[tuple[int, collections.Counter[int]]] = collections.deque()
        self.count, self.sum = 0, 0.0

    def add(self, seconds: float) -> None:
        now = int(time.monotonic())
        self.count += 1
        self.sum += seconds
        if not self.seconds or self.seconds[-1][0] != now:
            self.seconds.append((now, collections.Counter()))
            self.forget(now)
        self.seconds[-1][1][class_of(seconds)] += 1

    def forget(self, now: int) -> None:
        while self.seconds and self.seconds[0][0] <= now - WINDOW:
            self.seconds.popleft()

    def percentiles(self, wanted: tuple[float, ...]) -> list[float]:
        """For each share, such as 0.99, a time that so many of the last minute were no longer than, in seconds; 0 if
        there were none."""
        self.forget(int(time.monotonic()))
        all_classes: collections.Counter[int] = collections.Counter()
        for _, counter in self.seconds:
            all_classes.update(counter)
        total = all_classes.total()
        return [time_of(all_classes, share * total) if total else 0.0 for share in wanted]

    def per_second(self) -> float:
        """Answers a second: of the last ten whole seconds."""
        now = int(time.monotonic())
        return sum(counter.total() for second, counter in self.seconds if now - 10 <= second < now) / 10


def class_of(seconds: float) -> int:
    """The first class whose end is not below."""
    return min(bisect.bisect_left(CLASSES, seconds), len(CLASSES) - 1)


def time_of(classes: collections.Counter[int], place: float) -> float:
    passed = 0
    for number in sorted(classes):
        passed += classes[number]
        if passed >= place:
            return CLASSES[number]
    return CLASSES[-1]


class Stats:
    """The numbers of a gateway."""

    def __init__(self) -> None:
        self.began = time.time()
        self.taken = self.delivered = self.refused_clients = self.closed_clients = 0
        self.unreadable = self.no_response = self.undelivered = 0
        self.codes: collections.Counter[str] = collections.Counter()
        self.times = Times()
        self.last: collections.deque[Transaction] = collections.deque(maxlen=50)
