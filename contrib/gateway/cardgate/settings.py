"""What a gateway or worker is started with, and how its engines are."""

import dataclasses
import enum
import ipaddress
import os
import re
import shutil
import subprocess
import tomllib

from cardgate.clients import Bounds
from cardgate.issuer import Address
from cardgate.line import Limits
from cardgate.request import HEADER

REPOSITORY = os.path.dirname(os.path.dirname(os.path.dirname(os.path.dirname(os.path.abspath(__file__)))))


class Refused(Exception):
    """What is wrong with the command line, and what is expected."""


class Queues(enum.Enum):
    """How the queues of shards are kept: in the memory of one node, or by a majority of nodes, on their disks."""

    CLASSIC = "classic"
    QUORUM = "quorum"


@dataclasses.dataclass(frozen=True)
class BrokerSettings:
    # Of the nodes, which are tried in turn.
    urls: list[str]
    shards: int
    queues: Queues


@dataclasses.dataclass(frozen=True)
class Place:
    """Where to listen."""

    host: str
    port: int


@dataclasses.dataclass(frozen=True)
class EngineSettings:
    """How each engine of this machine is started."""

    program: str
    flow: str
    config: str | None
    folder: str
    words: list[str]
    window: int
    has_paths: bool = False


@dataclasses.dataclass(frozen=True)
class Settings:
    """Of a gateway with engines of its own, of one over RabbitMQ (`engines` is None), or of a worker (`listen` is
    None)."""

    listen: Place | None
    web: Place | None
    engines: EngineSettings | None
    number: int
    issuers: list[Address]
    limits: Limits
    bounds: Bounds
    patience: float
    broker: BrokerSettings | None = None
    # The shards of a worker.
    shards: list[int] = dataclasses.field(default_factory=list)


def place_of(text: str) -> Place:
    """HOST:PORT, or PORT alone for the loopback."""
    host, _, port = text.rpartition(":")
    if not port.isdigit() or int(port) > 65535:
        raise Refused(f"found {text!r}; expected HOST:PORT, with a port from 0 to 65535")
    return Place(host.strip("[]") or "127.0.0.1", int(port))


def loopback_of(text: str) -> Place | None:
    """A place on the loopback: the page asks nobody for a password."""
    if text == "off":
        return None
    place = place_of(text)
    try:
        is_loopback = place.host == "localhost" or ipaddress.ip_address(place.host).is_loopback
    except ValueError:
        is_loopback = False
    if not is_loopback:
        raise Refused(f"found {text!r}; expected an address of the loopback, such as 127.0.0.1:9583, or off")
    return place


def issuer_of(text: str) -> Address:
    name, _, address = text.partition("=")
    if not re.fullmatch(r"[a-zA-Z0-9_.-]{1,26}", name) or not re.fullmatch(r".+:\d{1,5}", address):
        raise Refused(f"found {text!r}; expected NAME=HOST:PORT, NAME being that of a host of the configuration")
    place = place_of(address)
    return Address(name, place.host, place.port)


def program_of(named: str | None) -> str:
    """The program that is named, or the one that was built here, or the one on the path."""
    if named is not None:
        found = shutil.which(named)
        if found is None:
            raise Refused(f"--program: found no program {named!r}; expected the path of cardswitch")
        return os.path.abspath(found)
    for built in "out/cardswitch", "crates/cardswitch/out/cardswitch":
        path = os.path.join(REPOSITORY, built)
        if os.access(path, os.X_OK):
            return path
    found = shutil.which("cardswitch")
    if found is None:
        raise Refused("found no cardswitch; expected out/cardswitch, which ./build makes, or --program PATH")
    return os.path.abspath(found)


def help_of(program: str) -> str:
    try:
        ran = subprocess.run([program, "run", "--help"], capture_output=True, text=True, timeout=30, check=False)
    except (OSError, subprocess.TimeoutExpired) as fault:
        raise Refused(f"{program}: cannot be run: {fault}") from None
    return ran.stdout


def command_of(settings: EngineSettings) -> list[str]:
    """The command of an engine, which runs in a folder of its own."""
    shown = help_of(settings.program)
    for option in "--header", "--unordered":
        if option not in shown:
            raise Refused(
                f"{settings.program}: its run has no {option}; expected a cardswitch whose run --help shows it"
            )
    command = [settings.program, "run", "--flow", settings.flow]
    if settings.config is not None:
        command += ["--config", settings.config]
    command += ["--journal", "journal.db", "--header", str(HEADER), "--unordered"]
    takes_number = re.search(r"--threads[ =\[]*<", shown)
    command += (
        ["--threads", str(settings.window)] if takes_number else ["--threads", "--sessions", str(settings.window)]
    )
    if settings.has_paths:
        command += ["--trace=json", "--log", "log.jsonl"]
    return command + settings.words


def hosts_of(config: str | None) -> dict[str, int]:
    """The hosts of a configuration file that are asked over pipes, each with its time-out in milliseconds."""
    if config is None:
        return {}
    try:
        with open(config, "rb") as file:
            tables = tomllib.load(file).get("host", [])
    except (OSError, tomllib.TOMLDecodeError) as fault:
        raise Refused(f"--config: {config}: {fault}") from None
    found: dict[str, int] = {}
    for table in tables:
        if not isinstance(table, dict) or "to" not in table:
            continue
        name = str(table.get("name"))
        for key, end in ("to", "to"), ("from", "from"):
            if table.get(key) != f"{name}.{end}":
                expected = f'{key} = "{name}.{end}", so that each engine has pipes in a folder of its own'
                raise Refused(f"--config: {config}: host {name}: found {key} = {table.get(key)!r}; expected {expected}")
        found[name] = int(table.get("timeout_ms", 10_000))
    return found
