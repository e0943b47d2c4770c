"""A service that compacts its log: all goes on as before, and a later start knows what was known."""

from __future__ import annotations

import asyncio
import sqlite3
from collections.abc import Callable
from contextlib import closing
from datetime import datetime, timedelta
from datetime import time as time_of_day
from typing import Any, cast

import pytest
from based import behind, compact, compacting_of, lists, make_history
from instances import Caller, running, until
from kept import engine_of, executions, until_epoch

from job_host.service.history import log_file
from job_host.service.history.coprocess import CoProcess
from job_host.service.keepers import compacting as module
from job_host.service.keepers import due
from job_host.service.keepers.embedded import LOG_NAME
from job_host.service.settings import ServeSettings
from job_host.service.stores.beside_files import STORE_NAME

Make = Callable[..., ServeSettings]

# The word of a tag that tells the remote address.
FROM_HERE = b"=127.0.0.1"


@pytest.fixture
def words(monkeypatch: pytest.MonkeyPatch) -> list[list[str]]:
    """The words behind `batchctl` of each co-process that was started."""
    told: list[list[str]] = []
    start = CoProcess.start

    async def note(given: Any, catalogue: bytes) -> CoProcess:
        told.append(list(given[1:]))
        return await start(given, catalogue)

    monkeypatch.setattr(CoProcess, "start", note)
    return told


async def test_the_history_goes_on_over_a_compacted_log(compacting: Make, words: list[list[str]]) -> None:
    made = compacting()
    path = made.data / LOG_NAME
    async with running(made) as instance:
        await make_history(instance.url)
        count, before = engine_of(instance).entered, await lists(instance.url)
        words.clear()
        done = await compact(instance)
        assert (done.failure, done.is_over) == ("", True) and done.seconds > 0
        assert words == [["script", "--log", str(path), "--tags", "--compact"]]
        base = log_file.known_base(path)
        assert base is not None and base.head[:4] == (count, 5, 4, 5) and behind(path) == []
        assert await lists(instance.url) == before
        assert (await Caller(instance.url, "stranger").finish(4)).name == "NotClaimer"
        assert (await Caller(instance.url, "two").finish(4)).operations == count + 1
        assert len(behind(path)) == 1


async def test_a_service_begins_with_a_compacted_log(compacting: Make, words: list[list[str]]) -> None:
    """Only what is behind the base is replayed, by a batchctl over a copy of the front, which is gone afterwards.

    One that a crash has left is replaced.
    """
    made = compacting()
    path = made.data / LOG_NAME
    async with running(made) as instance:
        await make_history(instance.url)
        await compact(instance)
        await Caller(instance.url, "three").start("nightly", key="behind")
        count, before = engine_of(instance).entered, await lists(instance.url)
        words.clear()
    copy = made.data / "replay" / LOG_NAME
    copy.parent.mkdir()
    copy.write_bytes(path.read_bytes())
    handed: list[list[bytes]] = []
    ask_all = CoProcess.ask_all

    def note(process: CoProcess, lines: Any) -> Any:
        handed.append(list(lines))
        return ask_all(process, lines)

    with pytest.MonkeyPatch.context() as patch:
        patch.setattr(CoProcess, "ask_all", note)
        async with running(made) as instance:
            assert words[1:] == [["script", "--log", str(at), "--tags"] for at in (path, copy)]
            assert [line for lines in handed for line in lines if b'"do"' in line] == behind(path)
            assert not copy.parent.exists()
            assert engine_of(instance).entered == count and await lists(instance.url) == before
            two, stranger = Caller(instance.url, "two"), Caller(instance.url, "stranger")
            assert (await stranger.ask("PUT", "/batch/work/5?action=heartbeat")).name == "NoLease"
            assert (await stranger.finish(5)).name == "NotClaimer"
            assert (await two.finish(5)).operations == count + 1


async def test_what_is_busy_is_not_handed_out_twice(compacting: Make) -> None:
    made = compacting()
    async with running(made) as instance:
        caller = Caller(instance.url, "one")
        await caller.start("short")
        assert (await caller.claim()).told["work"]["work"] == 1
        await compact(instance)
    async with running(made) as instance:
        caller = Caller(instance.url, "one")
        held = (await caller.ask("GET", "/batch/work")).told
        assert [(one["work"], one["client"]) for one in held] == [(1, "one")]
        assert (await Caller(instance.url, "other").claim()).told == {"nothing": True}
        assert (await caller.ask("PUT", "/batch/work/1?action=heartbeat")).status == 200
        assert (await Caller(instance.url, "other").ask("PUT", "/batch/work/1?action=heartbeat")).name == "NoLease"
        assert (await caller.finish(1)).status == 200 and await caller.status(1) == "COMPLETED"


async def test_a_number_that_was_purged_before_the_base_is_gone(compacting: Make) -> None:
    made = compacting()
    async with running(made) as instance:
        await make_history(instance.url)
        await compact(instance)
    async with running(made) as instance:
        caller = Caller(instance.url, "one")
        for path in (
            "jobexecutions/1",
            "jobexecutions/1/operations",
            "jobinstances/1/jobexecutions",
            "jobexecutions/1/workitems",
        ):
            answer = await caller.ask("GET", f"/batch/{path}")
            assert answer.status == 404, path
        assert (await caller.ask("DELETE", "/batch/jobinstances/1")).status == 404
        assert 1 not in await executions(caller)
        assert (await caller.start("short")).told["executionId"] == 6


async def test_request_keys_give_their_first_replies(compacting: Make) -> None:
    """Those from before the base stand in the SQLite file alone."""
    made = compacting()
    async with running(made) as instance:
        caller = Caller(instance.url, "one")
        await make_history(instance.url)
        first = await caller.start_once("2026-11-30")
        await compact(instance)
        again = await caller.start("wide", key="wide", date="none")
        assert again.name == "RequestKeyReused"
        assert (await caller.start("wide", key="wide")).told["executionId"] == 3
        count = engine_of(instance).entered
    async with running(made) as instance:
        caller = Caller(instance.url, "one")
        assert (await caller.start("wide", key="wide")).told["executionId"] == 3
        assert (await Caller(instance.url, "other").start_once("2026-11-30")).told == first.told
        assert (await caller.change(2, "restart", key="again")).told["executionId"] == 5
        assert engine_of(instance).entered == count


async def test_who_did_what_is_known_from_before_the_base(compacting: Make) -> None:
    """The log doesn't tell it any more. What was done to a purged job execution is forgotten."""
    made = compacting()

    async def done(url: str) -> list[Any]:
        caller, told = Caller(url, "one"), list[Any]()
        for number in (2, 3, 4, 5):
            rows = (await caller.ask("GET", f"/batch/jobexecutions/{number}/operations")).told
            told.append([(row["action"], row["client"], row["operation"], row["time"]) for row in rows])
        return told

    async with running(made) as instance:
        await make_history(instance.url)
        await Caller(instance.url, "two").change(3, "stop")
        before = await done(instance.url)
        await compact(instance)
        assert await done(instance.url) == before
        await Caller(instance.url, "three").change(4, "stop")
    for _ in range(2):
        async with running(made) as instance:
            after = await done(instance.url)
            assert [row[0] for row in after[2]] == ["stop", "start"]
            assert [after[0], after[1], after[2][1:], after[3]] == before
            assert [row[:2] for row in before[0]] == [("restart", "one"), ("start", "one")]
            await compact(instance)
    with closing(sqlite3.connect(made.data / STORE_NAME)) as store:
        assert store.execute("select count(*) from action where execution = 1").fetchone() == (0,)
        store.execute("insert into action values (1, 1, 'start', 77, 3, 1)")
        store.commit()
    async with running(made) as instance:
        assert await done(instance.url) == after and 77 not in engine_of(instance).actions.sessions


async def test_what_is_purged_behind_the_base_leaves_nothing(compacting: Make) -> None:
    made = compacting()
    async with running(made) as instance:
        caller = Caller(instance.url)
        for number in (1, 2):
            await caller.start("short")
            await caller.change(number, "stop")
        await compact(instance)
        await caller.ask("DELETE", "/batch/jobinstances/1")
        await compact(instance)
    with closing(sqlite3.connect(made.data / STORE_NAME)) as store:
        found = store.execute("select execution, operation, name from action order by 1, 2").fetchall()
    assert found == [(2, 3, "start"), (2, 4, "stop")]


async def test_the_log_names_its_history_and_clients_again(compacting: Make) -> None:
    made = compacting()
    async with running(made) as instance:
        one, two = Caller(instance.url, "one"), Caller(instance.url, "two")
        await one.start("short")
        await two.claim()
        identity = (await one.ask("GET", "/batch/history")).told["history"]
        await compact(instance)
        await one.change(1, "stop")
        await two.finish(1, "STOPPED")
        await one.change(1, "abandon")
        found = [record.tag for record in log_file.records(made.data / LOG_NAME) if record.is_operation]
        assert [tag.split(b" ") for tag in found] == [
            [b"one", FROM_HERE, b"@" + identity.encode()],
            [b"two", FROM_HERE],
            [b"one", FROM_HERE],
        ]


async def test_a_compaction_waits_for_open_request_keys(compacting: Make) -> None:
    """Else a key would be lost with its tag, before the SQLite file has it."""
    made = compacting()
    async with running(made) as instance:
        caller = Caller(instance.url, "one")
        await caller.start("short")
        term: Any = compacting_of(instance)[1]
        keep, is_held, is_over = term.keep, asyncio.Event(), asyncio.Event()

        async def held(items: Any) -> None:
            if items:
                is_held.set()
                await is_over.wait()
            await keep(items)

        term.keep = held
        starting = asyncio.create_task(caller.start("wide", key="open"))
        await is_held.wait()
        one = asyncio.create_task(compact(instance))
        await asyncio.sleep(0.5)
        assert not one.done() and not engine_of(instance).process.has_ended
        assert log_file.known_base(made.data / LOG_NAME) is None
        is_over.set()
        assert (await one).failure == "" and (await starting).told["executionId"] == 2
    async with running(made) as instance:
        assert (await Caller(instance.url, "one").start("wide", key="open")).told["executionId"] == 2
        assert engine_of(instance).entered == 2


async def test_two_compactions_at_once_are_one(compacting: Make, words: list[list[str]]) -> None:
    made = compacting()
    async with running(made) as instance:
        await Caller(instance.url).start("short")
        words.clear()
        done = await asyncio.gather(compact(instance), compact(instance))
        assert [one.failure for one in done] == ["", ""]
        assert [word[-1] for word in words] == ["--compact"]
        assert (await Caller(instance.url).start("short")).operations == 2


async def test_jobs_may_grow_beside_a_compaction(compacting: Make, words: list[list[str]]) -> None:
    """One waits for the other, and the catalogue that has grown stays."""
    made = compacting()
    async with running(made) as instance:
        await Caller(instance.url).start("short")
        keeper, (_, term, _) = cast(Any, instance.service.keeper), compacting_of(instance)
        more = b'{"id":"more","elements":[{"kind":"step","id":"s","batchlet":{"ref":"ok"}}]}'
        grown = engine_of(instance).process.catalogue[:-2] + b"," + more + b"]}"
        await asyncio.gather(compact(instance), keeper._grow(term, grown), compact(instance))
        assert engine_of(instance).process.catalogue == grown
        assert log_file.catalogue_of(made.data / LOG_NAME) == grown
        assert (await Caller(instance.url).start("short")).operations == 2


async def test_a_log_that_has_grown_is_compacted_by_itself(
    compacting: Make, monkeypatch: pytest.MonkeyPatch, words: list[list[str]]
) -> None:
    monkeypatch.setattr(due, "MANY", 14)
    monkeypatch.setattr(module, "LOOK_SECONDS", 0.05)
    made = compacting()
    async with running(made) as instance:
        await make_history(instance.url)
        keeper = instance.service.keeper

        async def is_compact() -> bool:
            return keeper.compaction is not None and keeper.compaction.is_over

        await until(is_compact)
        for _ in range(20):
            await Caller(instance.url).start("short")
        await asyncio.sleep(0.5)
        assert [word[-1] for word in words].count("--compact") == 1


async def test_a_log_is_compacted_each_day(compacting: Make, monkeypatch: pytest.MonkeyPatch) -> None:
    monkeypatch.setattr(module, "LOOK_SECONDS", 0.05)
    now = datetime(2026, 11, 30, 2, 0)
    made = compacting(compact_at=time_of_day(2, 30))
    async with running(made) as instance:
        keeper = cast(Any, instance.service.keeper)
        keeper._compacting._due = due.Due(made.compact_at, lambda: now)
        for day in (30, 31):
            await Caller(instance.url).start("short")
            await asyncio.sleep(0.2)
            assert len(behind(made.data / LOG_NAME)) == 1
            now = datetime(2026, 11, 30, 2, 30) + timedelta(days=day - 30)

            async def is_compact() -> bool:
                return engine_of(instance).is_compact

            await until(is_compact)


async def test_after_a_kill_a_compacted_log_is_known(
    compacting: Make, monkeypatch: pytest.MonkeyPatch, entered: list[Any]
) -> None:
    """The engine outlives its batchctl, and knows more than the log tells."""
    monkeypatch.setattr("job_host.service.keepers.keeper.ASK_SECONDS", 0.05)
    made = compacting()
    async with running(made) as instance:
        await make_history(instance.url)
        await compact(instance)
        assert (await Caller(instance.url, "one").start("short")).operations == 15
        engine, before = engine_of(instance), await lists(instance.url)

        async def is_known() -> bool:
            return engine.state is not None

        await until(is_known)
        entered.clear()
        engine.process.kill()
        await until_epoch(instance, 2)
        assert (entered, engine_of(instance)) == ([], engine) and await lists(instance.url) == before
        assert (await Caller(instance.url, "two").finish(4)).operations == 16


async def test_what_is_told_of_a_base(compacting: Make) -> None:
    made = compacting()
    async with running(made) as instance:
        caller = Caller(instance.url)
        told = (await caller.ask("GET", "/batch/history")).told
        assert (told["base"], told["compaction"]) == (None, None)
        await caller.start("short")
        await compact(instance)
        await caller.start("short")
        told = (await caller.ask("GET", "/batch/history")).told
        assert told["base"] == {"operations": 1, "rows": 1, "behind": 1}
        assert (told["compaction"]["failure"], told["compaction"]["isOver"]) == (None, True)
        metrics = (await caller.ask("GET", "/metrics")).told
        for line in ("jobhost_log_base_rows 1.0", "jobhost_log_operations_behind_base 1.0", "jobhost_compaction_failed 0.0"):
            assert line in metrics
        assert "warning" not in (await caller.ask("GET", "/health/live")).told
