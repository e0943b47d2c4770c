"""The numbers of the queues of a service over PostgreSQL, in a table of the default queue's schema.

The tables of another queue are in a schema of its own, which a connection finds by its search path. So each queue has rows, an
epoch and a base of its own, and what keeps them knows of no queue.
"""

from __future__ import annotations

import asyncio
import logging
import time
from collections.abc import Sequence
from urllib.parse import parse_qsl, urlencode, urlsplit, urlunsplit

from job_host.service.keepers.keeper import Fatal
from job_host.service.stores.postgres_connection import LOST, NoPrimary, connect_primary
from job_host.service.stores.postgres_schema import SCHEMA_LOCK

log = logging.getLogger(__name__)

# A server that starts at the same time is waited for.
SERVER_SECONDS, RETRY_SECONDS = 60.0, 1.0
STATEMENT_SECONDS = 30.0

HAS_TABLE = "select to_regclass('job_host_queue') is not null"
MAKE_TABLE = """
create table if not exists job_host_queue (number integer primary key check (number > 0), name text not null unique)
"""
ADD = """
insert into job_host_queue (number, name)
select coalesce(max(number), 0) + 1, $1::text from job_host_queue
having not exists (select from job_host_queue where name = $1::text)
"""
NUMBERS = "select name, number from job_host_queue order by number"


def schema_of(number: int) -> str:
    return f"job_host_queue_{number}"


def dsn_of(dsn: str, number: int) -> str:
    """A DSN whose connections have the tables of a queue. That of the default queue stays as it is."""
    if number == 0:
        return dsn
    parts = urlsplit(dsn)
    words = [(name, value) for name, value in parse_qsl(parts.query, keep_blank_values=True) if name != "search_path"]
    return urlunsplit(parts._replace(query=urlencode([*words, ("search_path", schema_of(number))])))


async def numbers_with(dsns: Sequence[str], names: Sequence[str]) -> dict[str, int]:
    """The numbers of these queues, and of those that were there before, and the schema of each. Raises LOST and NoPrimary."""
    connection = await connect_primary(dsns, STATEMENT_SECONDS)
    try:
        if not names and not await connection.fetchval(HAS_TABLE):
            return {}
        async with connection.transaction():
            await connection.execute("select pg_advisory_xact_lock($1)", SCHEMA_LOCK)
            await connection.execute(MAKE_TABLE)
            for name in names:
                await connection.execute(ADD, name)
            numbers = {row["name"]: int(row["number"]) for row in await connection.fetch(NUMBERS)}
            for number in numbers.values():
                await connection.execute(f"create schema if not exists {schema_of(number)}")
        return numbers
    finally:
        connection.terminate()


async def known_numbers(dsns: Sequence[str], names: Sequence[str], seconds: float = SERVER_SECONDS) -> dict[str, int]:
    """The same, after a server has come. Raises Fatal if none does in time."""
    deadline = time.monotonic() + seconds
    while True:
        try:
            return await numbers_with(dsns, names)
        except (NoPrimary, *LOST) as fault:
            if time.monotonic() > deadline:
                raise Fatal(f"the numbers of the queues can't be read: {type(fault).__name__} {fault}") from fault
            log.warning("the numbers of the queues are read later: %s %s", type(fault).__name__, fault)
        await asyncio.sleep(RETRY_SECONDS)
