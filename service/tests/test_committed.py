"""What is told of the history is kept, whatever the co-process has more."""

from __future__ import annotations

import asyncio
from collections.abc import Callable
from pathlib import Path
from types import SimpleNamespace
from typing import Any, cast

import pytest
from instances import Caller, listening, running

from job_host.service.keepers.embedded_term import EmbeddedTerm
from job_host.service.problems import unavailable
from job_host.service.server import Service
from job_host.service.settings import HistoryBounds, ServeSettings
from job_host.service.terms.calls import SERVICE_SESSION


async def fail(*given: Any) -> Any:
    raise unavailable("Starting", "no answer")


def lead(service: Service, entered: int, committed: int) -> None:
    """Lets a service lead that has so many operations, of which so many are kept."""
    keeper = service.keeper
    desk, actions = SimpleNamespace(waiting=0), SimpleNamespace(purges_by={SERVICE_SESSION: 1})
    log = {"base": None, "based": 0}
    keeper.role, keeper.engine = "leader", cast(
        Any, SimpleNamespace(entered=entered, held={1: None}, process=SimpleNamespace(silence=0.0), actions=actions, **log)
    )
    keeper.term = cast(Any, SimpleNamespace(committed=committed, desk=desk, ask=fail))


async def told_first(service: Service) -> str:
    """The first event."""
    reader, writer = await asyncio.open_connection("127.0.0.1", service.port)
    writer.write(b"GET /batch/events HTTP/1.1\r\nHost: localhost\r\n\r\n")
    told = await asyncio.wait_for(reader.readuntil(b"data: "), 5)
    told = await asyncio.wait_for(reader.readline(), 5)
    writer.close()
    return told.decode()


async def test_operations_that_are_not_kept_are_not_told(idle: Callable[..., Service]) -> None:
    async with listening(idle(other_history=HistoryBounds(1_000_000, 6, 7))) as service:
        lead(service, 7, 5)
        caller = Caller(f"http://127.0.0.1:{service.port}")
        paths = ("/batch/history", "/health/live", "/health/ready", "/health/leader")
        answers = [(await caller.ask("GET", path)).told for path in paths]
        assert [one["operations"] for one in answers] == [5] * 4 and all("warning" not in one for one in answers)
        assert '"operations": 5,' in await told_first(service)
        metrics = (await caller.ask("GET", "/metrics")).told
        assert "jobhost_operations 5.0\n" in metrics and "jobhost_history_full_ratio 5e-06\n" in metrics
        assert "jobhost_work_items_held 0.0\n" in metrics and "jobhost_purged_job_instances 0.0\n" in metrics
        assert (await caller.ask("GET", "/batch/jobs?atLeast=8")).told["operations"] == 5


async def test_a_follower_tells_what_it_has_replayed(idle: Callable[..., Service]) -> None:
    async with listening(idle()) as service:
        lead(service, 7, 5)
        service.keeper.role, service.keeper.term = "follower", None
        assert (await Caller(f"http://127.0.0.1:{service.port}").ask("GET", "/batch/history")).told["operations"] == 7


async def test_an_operation_is_told_after_it_is_kept(
    embedded: Callable[..., ServeSettings], monkeypatch: pytest.MonkeyPatch, tmp_path: Path
) -> None:
    """The disk is slow: meanwhile the start is told nowhere."""
    go_on = asyncio.Event()
    keep = EmbeddedTerm.keep

    async def wait_to_keep(term: EmbeddedTerm, items: Any) -> None:
        if items:
            await go_on.wait()
        await keep(term, items)

    monkeypatch.setattr(EmbeddedTerm, "keep", wait_to_keep)
    async with running(embedded()) as instance:
        caller = Caller(instance.url)
        starting = asyncio.create_task(caller.start("short"))
        for _ in range(200):
            if instance.service.keeper.operations:
                break
            await asyncio.sleep(0.01)
        assert (await caller.ask("GET", "/batch/history")).told["operations"] == 0
        paths = ("open", "jobexecutions/1/operations", "jobexecutions/1/causes")
        reading = [asyncio.create_task(caller.ask("GET", f"/batch/{path}")) for path in paths]
        assert not (await asyncio.wait(reading, timeout=0.3))[0]
        go_on.set()
        assert [(await one).operations for one in reading] == [1, 1, 1]
        assert (await starting).operations == 1
        assert (await caller.ask("GET", "/batch/history")).told["operations"] == 1
