"""A connection to PostgreSQL's primary, and what becomes of one that is lost or doesn't answer."""

from __future__ import annotations

import asyncio
from collections.abc import Coroutine, Iterator, Mapping, Sequence
from contextlib import contextmanager
from typing import Any

import asyncpg

# What a lost or refused connection raises.
LOST = (OSError, asyncio.TimeoutError, asyncpg.PostgresError, asyncpg.InterfaceError, asyncpg.InternalClientError)

CONNECT_SECONDS = 3.0
# Without a just-in-time compiler: it takes seconds for statements that take milliseconds.
SESSION = {"application_name": "jobhost", "jit": "off"}
# The statement of a round is planned once: to plan it for each round takes as long as to run it.
COMMITTING = {**SESSION, "plan_cache_mode": "force_generic_plan"}


class NoPrimary(Exception):
    """None of the servers takes writes. The text says what each answered."""


class NotDurable(Exception):
    """The server acknowledges a commit before it is on its disk."""


async def connect_primary(
    dsns: Sequence[str], timeout: float | None, session: Mapping[str, str] = SESSION
) -> asyncpg.Connection:
    """A connection to the first server that takes writes. One that doesn't answer is left after some seconds."""
    told = []
    for place, dsn in enumerate(dsns):
        try:
            given = {"timeout": CONNECT_SECONDS, "command_timeout": timeout, "server_settings": dict(session)}
            connection = await asyncpg.connect(dsn, **given)
            if await _takes_writes(connection):
                return connection
            told.append(f"server {place} is a standby")
        except LOST as fault:
            told.append(f"server {place}: {type(fault).__name__} {fault}")
    raise NoPrimary("; ".join(told))


async def _takes_writes(connection: asyncpg.Connection) -> bool:
    """Whether a server is no standby. If it is one, or doesn't answer, the connection is dropped."""
    takes_writes = False
    try:
        takes_writes = not await connection.fetchval("select pg_is_in_recovery()", timeout=CONNECT_SECONDS)
    finally:
        if not takes_writes:
            connection.terminate()
    return takes_writes


@contextmanager
def closed_is_lost(connection: asyncpg.Connection) -> Iterator[None]:
    """asyncpg looks for what a connection has no longer, if it is closed within a statement: it is lost then."""
    try:
        yield
    except AttributeError as fault:
        if not connection.is_closed():
            raise
        raise asyncpg.InterfaceError("the connection was closed within a statement") from fault


async def or_drop(connection: asyncpg.Connection, seconds: float, asked: Coroutine[Any, Any, Any]) -> Any:
    """Awaits what a connection was asked. If it takes too long, or isn't waited for any more, the connection is dropped.

    It isn't cancelled: a server that waits for its standby would show what the standby hasn't.
    """
    task = asyncio.ensure_future(asked)
    try:
        done, _ = await asyncio.wait([task], timeout=seconds)
        if not done:
            raise asyncio.TimeoutError(f"no answer in {seconds:g} seconds")
        with closed_is_lost(connection):
            return task.result()
    finally:
        if not task.done():
            task.add_done_callback(lambda ended: ended.cancelled() or ended.exception())
            connection.terminate()
