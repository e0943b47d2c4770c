"""Versions of a store's tables: earlier ones are brought to this version in one transaction, and later ones are refused."""

from __future__ import annotations

import asyncio
import os
import signal
import sqlite3
import subprocess
import sys
from collections.abc import Callable
from contextlib import closing
from pathlib import Path
from typing import Any

import asyncpg
import pytest
from instances import COMMAND, Caller, Instance, Process, running
from unversioned import make_unversioned, make_unversioned_tables

from job_host.service.keepers.embedded import LOG_NAME
from job_host.service.keepers.keeper import Fatal
from job_host.service.settings import ServeSettings
from job_host.service.stores import postgres_migrations, sqlite_schema
from job_host.service.stores.beside_files import STORE_NAME
from job_host.service.stores.postgres import PostgresStore
from job_host.service.stores.postgres_migrations import MIGRATIONS
from job_host.service.stores.sqlite import SqliteStore
from job_host.service.stores.sqlite_schema import FIRST

Make = Callable[..., ServeSettings]
THIS_VERSION = len(MIGRATIONS)


async def fill(instance: Instance) -> str:
    """Starts a job by a key, and fails its step. Returns the identity of the history."""
    caller = Caller(instance.url)
    assert (await caller.start("short", key="a")).operations == 1
    await caller.claim(key="b")
    await caller.finish(1, "FAILED", log="no space left")
    return str((await caller.ask("GET", "/batch/history")).told["history"])


async def check_filled(instance: Instance, history: str) -> None:
    caller = Caller(instance.url)
    assert (await caller.ask("GET", "/batch/history")).told["history"] == history
    assert ((await caller.start("short", key="a")).operations, (await caller.claim(key="b")).told["work"]["work"]) == (1, 1)
    assert [one["log"] for one in (await caller.ask("GET", "/batch/jobexecutions/1/joblogs")).told] == ["no space left"]
    assert (await caller.start("short", key="c")).operations == 4


async def refusal(settings: ServeSettings) -> str:
    """The reason why the service ends."""
    instance = Instance(settings)
    await instance.start()
    try:
        with pytest.raises(Fatal) as raised:
            await asyncio.wait_for(instance.ended(), 10.0)
        return str(raised.value)
    finally:
        await instance.stop()


def version_in(path: Path) -> int:
    with closing(sqlite3.connect(path)) as beside:
        return sqlite_schema.version_of(beside)


def set_version(path: Path, version: int) -> None:
    with closing(sqlite3.connect(path, isolation_level=None)) as beside:
        beside.execute(f"pragma user_version = {version}")


async def test_a_file_without_a_version_is_brought_to_this_one(embedded: Make) -> None:
    made = embedded()
    path = made.data / STORE_NAME
    async with running(made) as instance:
        history = await fill(instance)
    make_unversioned(path)
    assert version_in(path) == 0
    async with running(made) as instance:
        await check_filled(instance, history)
    assert version_in(path) == 5


def contents(folder: Path) -> dict[str, bytes]:
    return {path.name: path.read_bytes() for path in folder.iterdir()}


async def test_a_file_of_a_later_version_is_refused_and_nothing_is_changed(embedded: Make, tmp_path: Path) -> None:
    made = embedded()
    async with running(made) as instance:
        await fill(instance)
    set_version(made.data / STORE_NAME, 7)
    before = contents(made.data)
    words = ["--catalogue", str(made.catalogue), "--batchctl", made.batchctl[0], "--data", str(made.data)]
    process = Process(tmp_path / "service", *words)
    process.start()
    assert await asyncio.to_thread(process.wait) == 1
    assert f"LaterVersion: the tables of {STORE_NAME} have version 7, and this jobhost knows up to version 5" in process.log
    assert contents(made.data) == before


async def test_a_file_that_was_set_aside_is_refused_too(embedded: Make) -> None:
    """If the old log comes back, its file would take the place of the newer one."""
    made = embedded()
    log, old, new = (made.data / name for name in (LOG_NAME, "old.log", "new.log"))
    async with running(made) as instance:
        await fill(instance)
    log.rename(old)
    async with running(made) as instance:
        await Caller(instance.url).start("wide")
    log.rename(new)
    old.rename(log)
    (aside,) = made.data.glob("beside-*.sqlite")
    set_version(aside, 7)
    before = contents(made.data)
    assert f"{aside.name} have version 7" in await refusal(made)
    assert contents(made.data) == before


# Opens a store, in whose second migration a part is missing.
CUT_OFF = "from test_store_version import cut_off_{}; cut_off_{}({!r})"


def die() -> None:
    os.kill(os.getpid(), signal.SIGKILL)


def cut_off_sqlite(path: str) -> None:
    def statements() -> Any:
        yield "create table added (number integer)"
        yield "alter table request add column added integer"
        die()

    sqlite_schema.MIGRATIONS.append(statements())
    SqliteStore(Path(path))


def cut_off_postgres(dsn: str) -> None:
    async def add(connection: asyncpg.Connection) -> None:
        await connection.execute("create table added (number integer); alter table job_host_request add column added integer")
        die()

    postgres_migrations.MIGRATIONS.append(add)
    asyncio.run(PostgresStore.open([dsn], 5.0))


def run_cut_off(store: str, place: str) -> None:
    """Kills a process of its own in the middle of a migration."""
    around = os.environ | {"PYTHONPATH": f"{COMMAND.parent}:{Path(__file__).parent}"}
    done = subprocess.run([sys.executable, "-c", CUT_OFF.format(store, store, place)], env=around, check=False)
    assert done.returncode == -signal.SIGKILL


def shape(path: Path) -> list[tuple[Any, ...]]:
    with closing(sqlite3.connect(path)) as beside:
        rows = beside.execute("select name, sql from sqlite_master order by name").fetchall()
        return [*rows, *beside.execute("select * from client"), ("version", sqlite_schema.version_of(beside))]


@pytest.mark.parametrize("version", [0, 1])
def test_a_migration_of_a_file_that_is_cut_off_leaves_it_as_it_was(
    tmp_path: Path, monkeypatch: pytest.MonkeyPatch, version: int
) -> None:
    path = tmp_path / STORE_NAME
    SqliteStore(path).close()
    with closing(sqlite3.connect(path, isolation_level=None)) as beside:
        beside.execute("insert into client values ('one', 2)")
    set_version(path, version)
    before = shape(path)
    run_cut_off("sqlite", str(path))
    assert shape(path) == before
    monkeypatch.setattr(sqlite_schema, "MIGRATIONS", [FIRST, ["create table added (number integer)", "drop table none"]])
    with pytest.raises(sqlite3.OperationalError, match="no such table: none"):
        SqliteStore(path)
    assert shape(path) == before
    monkeypatch.setattr(sqlite_schema, "MIGRATIONS", [FIRST, ["create table added (number integer)"]])
    SqliteStore(path).close()
    assert version_in(path) == 2 and ("one", 2) in shape(path)


async def test_tables_without_a_version_are_brought_to_this_one(settings: Make) -> None:
    made = settings()
    async with running(made) as instance:
        history = await fill(instance)
    await make_unversioned_tables(made.postgres[0])
    async with running(made) as instance:
        await check_filled(instance, history)
    assert await version_of(made.postgres[0]) == THIS_VERSION


async def version_of(dsn: str) -> int:
    table = await asyncpg.connect(dsn)
    try:
        return await postgres_migrations.version_of(table)
    finally:
        await table.close()


async def rows_of(dsn: str) -> list[Any]:
    """The columns of all tables, and the rows that a leader changes."""
    table = await asyncpg.connect(dsn)
    try:
        columns = "select table_name, column_name from information_schema.columns where table_schema = 'public' order by 1, 2"
        return [await table.fetch(columns), await table.fetch("select * from job_host_leader")]
    finally:
        await table.close()


async def test_tables_of_a_later_version_are_refused_and_nothing_is_changed(settings: Make) -> None:
    made = settings()
    async with running(made) as instance:
        await fill(instance)
    table = await asyncpg.connect(made.postgres[0])
    await table.execute("update job_host_version set version = 7")
    await table.close()
    before = await rows_of(made.postgres[0])
    told = await refusal(made)
    assert told.startswith("LaterVersion: the tables of PostgreSQL have version 7, and this jobhost knows up to version 5")
    assert await rows_of(made.postgres[0]) == before


@pytest.mark.parametrize("version", [0, THIS_VERSION])
async def test_a_migration_of_tables_that_is_cut_off_leaves_them_as_they_were(
    dsn: str, monkeypatch: pytest.MonkeyPatch, version: int
) -> None:
    (await PostgresStore.open([dsn], 5.0)).close()
    if version == 0:
        await make_unversioned_tables(dsn)
    before = await rows_of(dsn)
    await asyncio.to_thread(run_cut_off, "postgres", dsn)
    assert (await rows_of(dsn), await version_of(dsn)) == (before, version)

    async def add(connection: asyncpg.Connection) -> None:
        await connection.execute("create table added (number integer)")
        await connection.execute("drop table none")

    monkeypatch.setattr(postgres_migrations, "MIGRATIONS", [*MIGRATIONS, add])
    with pytest.raises(asyncpg.UndefinedTableError):
        await PostgresStore.open([dsn], 5.0)
    assert (await rows_of(dsn), await version_of(dsn)) == (before, version)


@pytest.mark.parametrize("version", [None, 0, THIS_VERSION])
async def test_instances_that_begin_at_once_migrate_once(
    dsn: str, monkeypatch: pytest.MonkeyPatch, version: int | None
) -> None:
    if version is not None:
        (await PostgresStore.open([dsn], 5.0)).close()
    if version == 0:
        await make_unversioned_tables(dsn)

    async def add(connection: asyncpg.Connection) -> None:
        await connection.execute("create table added (number integer)")
        await asyncio.sleep(0.2)

    monkeypatch.setattr(postgres_migrations, "MIGRATIONS", [*MIGRATIONS, add])
    stores = await asyncio.gather(*(PostgresStore.open([dsn], 5.0) for _ in range(4)))
    assert await version_of(dsn) == THIS_VERSION + 1
    for store in stores:
        store.close()


async def test_tables_that_have_this_version_wait_for_no_commit_under_way(dsn: str) -> None:
    """So does the first version, whose tables are there: the leader of a rolling upgrade commits to them."""
    (await PostgresStore.open([dsn], 5.0)).close()
    for is_unversioned in (False, True):
        if is_unversioned:
            await make_unversioned_tables(dsn)
        table = await asyncpg.connect(dsn)
        async with table.transaction():
            await table.execute("update job_host_leader set beats = beats + 1")
            await table.execute("insert into job_host_client values ('one', 2) on conflict do nothing")
            (await asyncio.wait_for(PostgresStore.open([dsn], 5.0), 5.0)).close()
        await table.close()
    assert await version_of(dsn) == THIS_VERSION
