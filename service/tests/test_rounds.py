"""The rounds of a term end with its other parts, in whichever turn of the event loop that comes."""

from __future__ import annotations

import asyncio
from collections.abc import Sequence
from contextlib import suppress
from types import SimpleNamespace
from typing import Any, cast

import pytest

from job_host.service.history.engine import Engine
from job_host.service.keepers import keeper, postgres_compacting
from job_host.service.keepers.due import Due
from job_host.service.keepers.keeper import first_of
from job_host.service.keepers.postgres_compacting import PostgresCompacting
from job_host.service.problems import unavailable
from job_host.service.terms.calls import Item, Kept, KeptRequest
from job_host.service.terms.known_keys import KeptKey
from job_host.service.terms.sessions import Sessions
from job_host.service.terms.term import Observers, Term, TermSettings


class Rounds(Term):
    """A term of which nothing is kept."""

    async def find(self, session: int, key: str) -> KeptRequest | None:
        return None

    async def keys_behind(self, last: KeptKey | None, most: int) -> Sequence[KeptKey]:
        return []

    async def session_of(self, name: str) -> int | None:
        return None

    async def forget(self, key: str, kept: Kept) -> None:
        pass

    async def keep(self, items: Sequence[Item]) -> None:
        pass


@pytest.mark.parametrize("turns", range(8))
async def test_rounds_end_though_an_item_becomes_ready_meanwhile(turns: int) -> None:
    """Another part ends, as batchctl does, and so many turns later a heartbeat comes. The term ends, and begins anew."""
    term = Rounds(Engine(cast(Any, None)), Sessions({}, 10), TermSettings(10, beat=0.2), Observers())
    ended = asyncio.Event()
    leading = asyncio.create_task(first_of([term.commit_rounds(), ended.wait()]))
    await asyncio.sleep(0.05)
    ended.set()
    for _ in range(turns):
        await asyncio.sleep(0)
    confirming = asyncio.create_task(term.confirm())
    done, _ = await asyncio.wait([leading], timeout=1.0)
    term.fail(unavailable("Starting", "this instance begins again"))
    await asyncio.wait([leading, confirming])
    assert done


async def losing_one() -> None:
    """Goes on for ever, and loses its first cancellation, as a connection may that fails just then."""
    with suppress(asyncio.CancelledError):
        await asyncio.sleep(3_600)
    while True:
        await asyncio.sleep(0.01)


async def test_a_part_that_loses_its_cancellation_is_cancelled_again(monkeypatch: pytest.MonkeyPatch) -> None:
    monkeypatch.setattr(keeper, "CANCEL_SECONDS", 0.05)
    leading = asyncio.create_task(first_of([asyncio.sleep(0.01), losing_one()]))
    done, _ = await asyncio.wait([leading], timeout=1.0)
    leading.cancel()
    assert done


class Compactor(PostgresCompacting):
    """It can, and a base is always due. `failing` lets one fail, as the server is gone."""

    def __init__(self, monkeypatch: pytest.MonkeyPatch) -> None:
        super().__init__(["none"], Due(None), lambda one: None)
        self.begun, self.failing = asyncio.Event(), asyncio.Event()
        monkeypatch.setattr(postgres_compacting, "LOOK_SECONDS", 0.01)
        monkeypatch.setattr(Due, "is_now", lambda due, engine: not self.failing.is_set())

    async def can(self) -> bool:
        return True

    async def make(self, engine: Engine, until: int, catalogue: bytes) -> None:
        self.begun.set()
        await self.failing.wait()
        raise ConnectionError("the server is gone")


@pytest.mark.parametrize("turns", range(8))
async def test_compactions_end_with_a_term_though_a_base_fails_meanwhile(turns: int, monkeypatch: pytest.MonkeyPatch) -> None:
    """The server is gone: a base fails, and so many turns of the loop later its term ends."""
    compactor = Compactor(monkeypatch)
    process = SimpleNamespace(catalogue=b"")
    term = Rounds(Engine(cast(Any, process)), Sessions({}, 10), TermSettings(10), Observers())
    running = asyncio.create_task(compactor.run(cast(Any, compactor), term, cast(Any, None)))
    await asyncio.wait_for(compactor.begun.wait(), 10)
    compactor.failing.set()
    for _ in range(turns):
        await asyncio.sleep(0)
    running.cancel()
    done, _ = await asyncio.wait([running], timeout=0.5)
    running.cancel()
    assert done
