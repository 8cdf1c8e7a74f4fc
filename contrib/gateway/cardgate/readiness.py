"""Whether engines start."""

import asyncio

from cardgate.engine import Engine

ENGINES_END = "an engine ended before it was ready; expected one that starts: a line engine_said tells why it did not"


async def all_ready(engines: list[Engine]) -> bool:
    """Waits until all engines answer; False as soon as one is refused what it was started with."""
    refusals = [asyncio.ensure_future(engine.refused.wait()) for engine in engines]
    all_answer = asyncio.ensure_future(asyncio.wait([asyncio.ensure_future(engine.ready.wait()) for engine in engines]))
    await asyncio.wait([*refusals, all_answer], return_when=asyncio.FIRST_COMPLETED)
    is_refused = any(engine.refused.is_set() for engine in engines)
    for task in [*refusals, all_answer]:
        task.cancel()
    return not is_refused
