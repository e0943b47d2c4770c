"""Calls wait as a log is compacted, leases rest, and a compaction that fails does no harm."""

from __future__ import annotations

import asyncio
import sqlite3
import time
from collections.abc import Callable
from dataclasses import replace
from datetime import time as time_of_day
from pathlib import Path
from typing import Any

import pytest
from based import behind, compact, fail, lists, make_history, until_compacting
from instances import Caller, running, until
from kept import engine_of, until_epoch

from job_host.service.history import log_file
from job_host.service.history.coprocess import CoProcessEnded
from job_host.service.keepers import compacting as module
from job_host.service.keepers import due, embedded_term
from job_host.service.keepers.embedded import LOG_NAME, EmbeddedKeeper
from job_host.service.keepers.keeper import Fatal
from job_host.service.problems import Problem
from job_host.service.settings import ServeSettings
from job_host.service.stores.sqlite import Notes, SqliteStore
from job_host.service.terms.leases import Leases

Make = Callable[..., ServeSettings]


@pytest.fixture
def stand_in(compacting: Make) -> Make:
    """Settings of a service over the stand-in, whose compactions can be made to fail."""
    return compacting


async def test_calls_wait_for_a_compaction_and_leases_rest(stand_in: Make) -> None:
    """It lasts longer than the lease: a worker can't renew it meanwhile, and isn't to blame."""
    made = stand_in(lease=1.5)
    async with running(made) as instance:
        worker, other = Caller(instance.url, "worker"), Caller(instance.url, "other")
        await other.start("wide")
        for _ in range(2):
            await worker.claim()
        fail(made, "wait", "3")
        one = asyncio.create_task(compact(instance))
        await until_compacting(instance)
        begun = time.monotonic()
        told = (await other.ask("GET", "/batch/history")).told["compaction"]
        assert (told["isOver"], told["failure"], time.monotonic() - begun < 1) == (False, None, True)
        calls = [worker.finish(1), other.start("short"), other.ask("GET", "/batch/jobexecutions/1")]
        calls.append(worker.ask("PUT", "/batch/work/2?action=heartbeat"))
        answers = await asyncio.gather(*calls)
        assert time.monotonic() - begun > 2 and (await one).failure == ""
        assert [answer.status for answer in answers] == [200, 201, 200, 200]
        held = (await other.ask("GET", "/batch/work")).told
        assert [row["work"] for row in held] == [2] and 0 < held[0]["leaseRemaining"] <= 1.5
        assert [one.outcome for one in engine_of(instance).ended_work.of(1)] == ["COMPLETED"]

        async def is_lost() -> bool:
            return not engine_of(instance).held

        await until(is_lost, 10.0)


def test_a_lease_is_as_long_after_a_pause_as_before(monkeypatch: pytest.MonkeyPatch) -> None:
    now = 100.0
    monkeypatch.setattr("job_host.service.terms.leases.time.monotonic", lambda: now)
    leases = Leases(2.0)
    leases.renew(1)
    now = 100.5
    with leases.pausing():
        now = 150.0
        assert (leases.remaining(1), leases.over([1], leases.now()), leases.late([1])) == (1.5, [], [])
        leases.renew(2)
        now = 160.0
    assert (leases.remaining(1), leases.remaining(2)) == (1.5, 2.0)
    now = 161.0
    assert leases.over([1, 2], leases.now()) == [] and leases.late([1, 2]) == [1]
    now = 161.5
    assert leases.over([1, 2], leases.now()) == [1]


async def test_a_log_that_is_not_compacted_goes_on_as_it_was(stand_in: Make, caplog: pytest.LogCaptureFixture) -> None:
    made = stand_in()
    path = made.data / LOG_NAME
    async with running(made) as instance:
        caller = Caller(instance.url)
        await caller.start("short", key="a")
        epoch = instance.service.keeper.epoch
        fail(made, "refuse")
        reason = "batchctl: the log is not compacted: memory is refused"
        assert (await compact(instance)).failure == reason and instance.service.keeper.compaction is not None
        assert f"{path} isn't compacted" in caplog.text and reason in caplog.text
        assert "jobhost_compaction_failed 1.0" in (await caller.ask("GET", "/metrics")).told
        assert (await caller.ask("GET", "/batch/history")).told["compaction"]["failure"] == reason
        assert (await caller.ask("GET", "/health/live")).told["warning"] == "NotCompacted"
        assert log_file.known_base(path) is None
        assert ((await caller.start("short", key="a")).operations, (await caller.claim()).operations) == (1, 2)
        assert instance.service.keeper.epoch == epoch
        fail(made, "")
        assert (await compact(instance)).failure == "" and behind(path) == []
        assert "jobhost_compaction_failed 0.0" in (await caller.ask("GET", "/metrics")).told
        await caller.start("short")
        fail(made, "refuse")
        assert (await compact(instance)).failure == reason and len(behind(path)) == 1


async def nothing(*given: Any) -> None:
    pass


@pytest.mark.parametrize("with_service", [False, True])
@pytest.mark.parametrize("word", ["die-before", "die-after"])
async def test_a_batchctl_that_dies_as_it_compacts(
    stand_in: Make, word: str, with_service: bool, monkeypatch: pytest.MonkeyPatch
) -> None:
    """It is the same as any death of it: the service begins again, over the log from before or the compacted one.

    If the service dies with it, nothing is noted beside the log any more.
    """
    made = stand_in()
    if with_service:
        monkeypatch.setattr(EmbeddedKeeper, "_note_rest", nothing)
    async with running(made) as instance:
        caller = Caller(instance.url, "one")
        await make_history(instance.url)
        count, before = engine_of(instance).entered, await lists(instance.url)
        monkeypatch.setattr(due, "MANY", 1)
        monkeypatch.setattr(module, "LOOK_SECONDS", 0.05)
        fail(made, word)
        await until_epoch(instance, 2)
        assert (log_file.known_base(made.data / LOG_NAME) is not None) == (word == "die-after")
        assert engine_of(instance).entered == count and await lists(instance.url) == before
        assert (await caller.start("wide", key="wide")).told["executionId"] == 3
        assert engine_of(instance).entered == count
        told = instance.service.keeper.compaction
        assert told is not None and told.failure.startswith("CoProcessEnded: batchctl ended with status 9")


async def test_a_compacted_log_of_another_state_ends_the_service(stand_in: Make, monkeypatch: pytest.MonkeyPatch) -> None:
    """A person has to look: the log from before is gone."""
    monkeypatch.setattr(due, "MANY", 2)
    monkeypatch.setattr(module, "LOOK_SECONDS", 0.05)
    made = stand_in()
    fail(made, "forget")
    with pytest.raises(Fatal, match="the compacted log comes to .*, and it came to .* before"):
        async with running(made) as instance:
            for _ in range(2):
                await Caller(instance.url).start("short")
            await instance.ended()


async def test_a_log_whose_keys_could_not_be_noted_is_not_compacted(stand_in: Make, monkeypatch: pytest.MonkeyPatch) -> None:
    """What is noted behind the replies fails just as the log is to be compacted: it would forget the keys."""
    made = stand_in()
    monkeypatch.setattr(embedded_term, "NOTE_SECONDS", 3_600.0)
    note, has_failed = SqliteStore.note, False

    def fail_once(store: SqliteStore, notes: Notes) -> None:
        nonlocal has_failed
        if not has_failed and notes.requests:
            has_failed = True
            raise sqlite3.OperationalError("disk I/O error")
        note(store, notes)

    async with running(made) as instance:
        caller = Caller(instance.url, "one")
        monkeypatch.setattr(SqliteStore, "note", fail_once)
        assert (await caller.start("short", key="a")).told["executionId"] == 1
        with pytest.raises(Problem, match="disk I/O error"):
            await compact(instance)
        assert has_failed and log_file.known_base(made.data / LOG_NAME) is None
        await until_epoch(instance, 2)
        assert (await caller.start("short", key="a")).told["executionId"] == 1
        assert (await compact(instance)).failure == ""
        assert (await caller.start("short", key="a")).told["executionId"] == 1


@pytest.mark.parametrize("word", ["die-before", "die-after"])
async def test_calls_that_wait_for_a_batchctl_that_dies(stand_in: Make, word: str) -> None:
    """They are answered that it has ended, and a call that is made again by its key is made once."""
    made = stand_in()
    async with running(made) as instance:
        caller = Caller(instance.url, "one", seconds=10.0)
        await caller.start("short")
        fail(made, word, "1")
        one = asyncio.create_task(compact(instance))
        await until_compacting(instance)
        answers = await asyncio.gather(caller.start("short", key="a"), caller.ask("GET", "/batch/jobexecutions/1"))
        assert [answer.status for answer in answers] == [503, 503]
        with pytest.raises(CoProcessEnded):
            await one
        fail(made, "")
        await until_epoch(instance, 2)
        assert [(await caller.start("short", key="a")).operations for _ in range(2)] == [2, 2]
        assert (await compact(instance)).failure == ""


async def test_a_compaction_that_is_cut_off_by_the_end(stand_in: Make) -> None:
    made = stand_in()
    async with running(made) as instance:
        await Caller(instance.url, "one").start("short", key="a")
        fail(made, "wait", "30")
        one = asyncio.create_task(compact(instance))
        await until_compacting(instance)
        one.cancel()
        await asyncio.wait([one])
    fail(made, "")
    async with running(made) as instance:
        assert (await Caller(instance.url, "one").start("short", key="a")).operations == 1


async def test_a_batchctl_that_can_not_compact(compacting: Make, tmp_path: Path, caplog: pytest.LogCaptureFixture) -> None:
    made = compacting()
    old = tmp_path / "old_batchctl"
    helpless = 'case " $* " in *" --help "*) echo "script --log --tags"; exit;; esac'
    old.write_text(f'#!/bin/sh\n{helpless}\nexec {made.batchctl[0]} "$@"\n')
    old.chmod(0o755)
    with pytest.MonkeyPatch.context() as patch:
        patch.setattr(due, "MANY", 1)
        patch.setattr(module, "LOOK_SECONDS", 0.05)
        async with running(replace(made, batchctl=(str(old),))) as instance:
            await Caller(instance.url).start("short")
            await until(lambda: is_logged(caplog, "has no `script --compact`"))
            assert (await Caller(instance.url).start("short")).operations == 2
    at = time_of_day(3, 30)
    with pytest.raises(Fatal, match="which --compact-at needs"):
        async with running(replace(made, batchctl=(str(old),), compact_at=at)):
            pass


async def is_logged(caplog: pytest.LogCaptureFixture, text: str) -> bool:
    return text in caplog.text
