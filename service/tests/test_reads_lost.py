"""The leader's connection for reads is lost, or its server hangs, while commits go on: calls are answered, by a new term."""

from __future__ import annotations

import asyncio
import os
import signal
from collections.abc import AsyncIterator, Callable
from contextlib import asynccontextmanager, suppress
from typing import Any

import asyncpg
import pytest
from instances import Answer, Caller, Instance, running, until

from job_host.service.settings import ServeSettings
from job_host.service.stores.postgres_connection import LOST

Make = Callable[..., ServeSettings]


@asynccontextmanager
async def harmed(instance: Instance, number: int) -> AsyncIterator[None]:
    """Sends a signal to the server's process of the connection for reads. One that was stopped goes on at the end.

    It reads nothing then. Within a statement it could hold a lock, and commits would wait for it.
    """
    store: Any = instance.service.keeper._store  # type: ignore[attr-defined]
    backend = store._reads.get_server_pid()
    async with store._turn:
        await asyncio.sleep(0.1)
        os.kill(backend, number)
    try:
        yield
    finally:
        with suppress(ProcessLookupError):
            os.kill(backend, signal.SIGCONT)


@pytest.mark.parametrize("number", [signal.SIGTERM, signal.SIGSTOP])
async def test_calls_are_answered_without_the_connection_for_reads(settings: Make, number: int) -> None:
    """The first call finds out. None waits for longer than a read may take, and each is made once."""
    async with running(settings(commit_timeout=1.0)) as instance:
        caller = Caller(instance.url)
        assert (await caller.start("short", key="k0")).operations == 1
        async with harmed(instance, number):
            calls = [asyncio.create_task(caller.start("short", key=f"k{place}")) for place in range(5)]
            first = await asyncio.wait_for(asyncio.gather(*calls), 5.0)
            assert {answer.status for answer in first} <= {201, 503}
            again = [await started(caller, f"k{place}") for place in range(5)]
        assert sorted(answer.told["executionId"] for answer in again) == [1, 2, 3, 4, 5]
        assert (instance.service.keeper.epoch, instance.service.keeper.operations) == (2, 5)


async def test_a_connection_that_is_closed_within_a_statement_is_lost(settings: Make, monkeypatch: pytest.MonkeyPatch) -> None:
    """As when another instance has taken over, and the term ends while it looks for a request key."""
    async with running(settings()) as instance:
        store: Any = instance.service.keeper._store  # type: ignore[attr-defined]
        prepared = asyncpg.Connection._get_statement

        async def closing(connection: Any, *given: Any, **named: Any) -> Any:
            statement = await prepared(connection, *given, **named)
            if connection is store._reads:
                connection.terminate()
            return statement

        monkeypatch.setattr(asyncpg.Connection, "_get_statement", closing)
        with pytest.raises(LOST):
            await store.request(1, "a")


async def started(caller: Caller, key: str) -> Answer:
    answers: list[Answer] = []

    async def is_answered() -> bool:
        answers.append(await caller.start("short", key=key))
        return answers[-1].status == 201

    await until(is_answered, 5.0)
    return answers[-1]
