"""Brings the tables in PostgreSQL to this version."""

from __future__ import annotations

from collections.abc import Awaitable, Callable

import asyncpg

from job_host.service.stores.postgres_audit import ADD_AUDIT
from job_host.service.stores.postgres_notifications import ADD_NOTIFICATIONS
from job_host.service.stores.postgres_schema import (
    ADD_BASES,
    ADD_HISTORY,
    ADD_JOB_CHANGES,
    HAS_HISTORY,
    HAS_VERSION,
    KEEP_VERSION,
    MAKE_VERSION_TABLE,
    NEWEST_TABLE,
    SCHEMA,
    SCHEMA_LOCK,
    VERSION,
)
from job_host.service.stores.versions import LaterVersion

Migration = Callable[[asyncpg.Connection], Awaitable[None]]


async def make_tables(connection: asyncpg.Connection) -> None:
    """Makes the tables. Some without a version may be there. If all are, none is locked: a leader may commit to them."""
    if not (await connection.fetchval(HAS_HISTORY) and await connection.fetchval("select to_regclass($1)", NEWEST_TABLE)):
        await connection.execute(SCHEMA)
        await connection.execute(ADD_HISTORY)


async def add_job_changes(connection: asyncpg.Connection) -> None:
    await connection.execute(ADD_JOB_CHANGES)


async def add_bases(connection: asyncpg.Connection) -> None:
    await connection.execute(ADD_BASES)


async def add_notifications(connection: asyncpg.Connection) -> None:
    await connection.execute(ADD_NOTIFICATIONS)


async def add_audit(connection: asyncpg.Connection) -> None:
    await connection.execute(ADD_AUDIT)


# What brings each version to the next one. They are never changed: a later version has one of its own.
MIGRATIONS: list[Migration] = [make_tables, add_job_changes, add_bases, add_notifications, add_audit]


async def version_of(connection: asyncpg.Connection) -> int:
    """The version of the tables. Raises LaterVersion if this program doesn't know it."""
    if not await connection.fetchval(HAS_VERSION):
        return 0
    version = int(await connection.fetchval(VERSION))
    if version > len(MIGRATIONS):
        raise LaterVersion("PostgreSQL", version, len(MIGRATIONS))
    return version


async def are_current(connection: asyncpg.Connection) -> bool:
    """Whether the tables are of this version. No commit under way is waited for."""
    return await version_of(connection) == len(MIGRATIONS)


async def migrate(connection: asyncpg.Connection) -> None:
    """Brings the tables to this version in one transaction, which one instance at a time has."""
    async with connection.transaction():
        await connection.execute("select pg_advisory_xact_lock($1)", SCHEMA_LOCK)
        for migration in MIGRATIONS[await version_of(connection) :]:
            await migration(connection)
        await connection.execute(MAKE_VERSION_TABLE)
        await connection.execute(KEEP_VERSION, len(MIGRATIONS))
