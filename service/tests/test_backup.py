"""Backups as docs/SERVICE.md has them, made while the service runs: a restored history goes on where the backup ended."""

from __future__ import annotations

import shutil
import sqlite3
import subprocess
from collections.abc import Callable, Iterator
from contextlib import closing
from pathlib import Path

import pytest
from instances import Caller, Instance, running
from postgres_server import PostgresServer, programs

from job_host.service.settings import ServeSettings

Make = Callable[..., ServeSettings]


async def fill(instance: Instance) -> str:
    """Starts a job by a key, and fails its step. Returns the identity of the history."""
    caller = Caller(instance.url)
    assert (await caller.start("short", key="a")).operations == 1
    await caller.claim(key="b")
    await caller.finish(1, "FAILED", log="no space left")
    return str((await caller.ask("GET", "/batch/history")).told["history"])


async def check_restored(instance: Instance, history: str) -> None:
    """Keys and logs are those of the backup. What came later isn't known, and its numbers are given again."""
    caller = Caller(instance.url)
    assert (await caller.ask("GET", "/batch/history")).told["history"] == history
    assert (await caller.start("short", key="a")).told["executionId"] == 1
    assert [one["log"] for one in (await caller.ask("GET", "/batch/jobexecutions/1/joblogs")).told] == ["no space left"]
    later = await caller.start("nightly", key="c")
    assert (later.told["executionId"], later.told["jobName"], later.operations) == (2, "nightly", 4)
    assert (await caller.change(1, "restart")).told["executionId"] == 3


async def test_copies_of_a_log_and_its_file_are_a_backup(embedded: Make, tmp_path: Path) -> None:
    made, backup = embedded(), tmp_path / "backup"
    async with running(made) as instance:
        history = await fill(instance)
        backup.mkdir()
        shutil.copy(made.data / "history.log", backup)
        with closing(sqlite3.connect(made.data / "beside.sqlite")) as beside:
            beside.execute(f"vacuum into '{backup}/beside.sqlite'")
        assert (await Caller(instance.url).start("wide", key="c")).told["executionId"] == 2
    async with running(embedded(data=backup)) as instance:
        await check_restored(instance, history)


@pytest.fixture
def other(postgres: PostgresServer) -> Iterator[str]:
    """An empty database."""
    postgres.sql("create database other")
    yield postgres.dsn.rsplit("/", 1)[0] + "/other"
    postgres.sql("drop database other with (force)")


async def test_a_dump_is_a_backup(settings: Make, dsn: str, other: str) -> None:
    async with running(settings()) as instance:
        history = await fill(instance)
        dump = subprocess.run([programs() / "pg_dump", dsn], stdout=subprocess.PIPE, check=True).stdout
        assert (await Caller(instance.url).start("wide", key="c")).told["executionId"] == 2
    subprocess.run([programs() / "psql", "-X", "-q", "-d", other], input=dump, stdout=subprocess.PIPE, check=True)
    async with running(settings(postgres=(other,))) as instance:
        await check_restored(instance, history)
