"""The log: a line of JSON for each event, to standard error. No line has card data; STANs may be there."""

import datetime
import enum
import json
import sys
from typing import TextIO


class Level(enum.Enum):
    INFO = "info"
    WARNING = "warning"
    ERROR = "error"


class Log:
    def __init__(self, out: TextIO | None = None) -> None:
        self.out = sys.stderr if out is None else out

    def line(self, level: Level, event: str, members: dict[str, object]) -> None:
        now = datetime.datetime.now(datetime.timezone.utc).isoformat(timespec="milliseconds").replace("+00:00", "Z")
        try:
            print(json.dumps({"time": now, "level": level.value, "event": event} | members), file=self.out, flush=True)
        except (OSError, ValueError):
            # (whoever read the log is gone; requests are answered all the same)
            pass

    def info(self, event: str, **members: object) -> None:
        self.line(Level.INFO, event, members)

    def warning(self, event: str, **members: object) -> None:
        self.line(Level.WARNING, event, members)

    def error(self, event: str, **members: object) -> None:
        self.line(Level.ERROR, event, members)
