"""Another co-process takes the place of the one that has the log. Lines wait meanwhile."""

from __future__ import annotations

import asyncio
from collections.abc import Awaitable, Callable

from job_host.service.history.coprocess import CoProcess, CoProcessEnded
from job_host.service.history.engine import Engine

# A batchctl that is to end has so long.
END_SECONDS = 60.0


async def exchange(engine: Engine, open_next: Callable[[], Awaitable[CoProcess]]) -> None:
    """Lets the engine's co-process end, and another one go on over its log. Whoever calls it holds `turn`.

    Raises what keeps the other one from it. Then the lines that wait have no reply.
    """
    before = engine.process
    before.hold()
    try:
        async with asyncio.timeout(END_SECONDS):
            status = await before.finish()
        if status != 0:
            raise CoProcessEnded(f"batchctl ended with status {status}: {before.errors}", status)
        after = await open_next()
    except BaseException:
        try:
            await before.close()
        finally:
            before.give_up()
        raise
    engine.process = after
    before.go_on_in(after)
