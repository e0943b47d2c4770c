"""Bases over PostgreSQL: all goes on as before, a takeover begins with one, and a follower with a gap begins again."""

from __future__ import annotations

import asyncio
from collections.abc import Callable
from datetime import datetime, timedelta
from datetime import time as time_of_day
from pathlib import Path
from typing import Any

import pytest
from based import lists, make_history
from instances import Caller, running, until
from kept import engine_of, executions, until_epoch
from postgres_bases import bases_in, compact, done_in, handed, keeper_of, operations_in, settle, table_of, tables_in
from test_kept_engine import cut_off

from job_host.service.history import log_file
from job_host.service.history.coprocess import CoProcessEnded
from job_host.service.keepers import due, postgres_compacting
from job_host.service.keepers.base_making import BaseMaking
from job_host.service.settings import ServeSettings
from job_host.service.stores import local_files
from job_host.service.stores import postgres_bases as bases_module
from job_host.service.stores.local_files import PREFIX
from job_host.service.stores.postgres_bases import PostgresBases

Make = Callable[..., ServeSettings]


async def test_the_history_goes_on_behind_a_base(basing: Make) -> None:
    """The first operation stays in the table: by it the next leader knows the history."""
    made = basing()
    async with running(made) as instance:
        await make_history(instance.url)
        count, before, done = engine_of(instance).entered, await lists(instance.url), await done_in(instance.url)
        identity = (await Caller(instance.url).ask("GET", "/batch/history")).told["history"]
        one = await compact(instance)
        assert (one.failure, one.is_over, one.calls_wait) == ("", True, False) and one.seconds > 0
        assert (await operations_in(made), await bases_in(made)) == ([1], [(count, 1)])
        assert (await lists(instance.url), await done_in(instance.url)) == (before, done)
        assert (await Caller(instance.url, "two").finish(4)).operations == count + 1
        before = await lists(instance.url)
    with pytest.MonkeyPatch.context() as patch:
        lines = handed(patch)
        async with running(made) as instance:
            assert [line.count(b'"finish"') for line in lines] == [1]
            assert (await lists(instance.url), await done_in(instance.url)) == (before, done)
            assert (await Caller(instance.url).ask("GET", "/batch/history")).told["history"] == identity
            assert (await Caller(instance.url, "stranger").finish(5)).name == "NotClaimer"
            assert (await Caller(instance.url, "two").finish(5)).operations == count + 2
            started = await Caller(instance.url, "one").start("short")
            assert (started.told["executionId"], started.told["instanceId"]) == (6, 5)


async def test_request_keys_from_before_a_base_are_answered_alike(basing: Make) -> None:
    made = basing()
    async with running(made) as instance:
        caller = Caller(instance.url, "one")
        await make_history(instance.url)
        first, wide = await caller.start_once("2026-11-30"), await caller.start("wide", key="wide")
        claimed = await caller.claim(key="mine")
        refused = await caller.change(3, "abandon", key="refused")
        count = engine_of(instance).entered
        await compact(instance)

        async def ask_again(url: str) -> None:
            one = Caller(url, "one")
            assert (await one.start("wide", key="wide", date="none")).name == "RequestKeyReused"
            assert (await one.start("wide", key="wide")).told == wide.told
            assert (await Caller(url, "other").start_once("2026-11-30")).told == first.told
            assert (await one.change(2, "restart", key="again")).told["executionId"] == 5
            assert (await one.claim(key="mine")).told == claimed.told
            assert (await one.change(3, "abandon", key="refused")).name == refused.name

        await ask_again(instance.url)
    async with running(made) as instance:
        await ask_again(instance.url)
        assert engine_of(instance).entered == count


async def test_who_did_what_goes_with_a_purge(basing: Make) -> None:
    """What was done before the base before it, and behind that. What wasn't purged stays."""
    made = basing()
    async with running(made) as instance:
        caller = Caller(instance.url, "one")
        for number in (1, 2, 3):
            await caller.start("short")
            await caller.change(number, "stop")
        await compact(instance)
        await caller.change(1, "abandon")
        for number in (1, 2):
            assert (await caller.ask("DELETE", f"/batch/jobinstances/{number}")).status == 200
        await compact(instance)
    async with table_of(made) as table:
        found = await table.fetch("select execution, operation, name from job_host_action order by 1, 2")
    assert [tuple(row) for row in found] == [(3, 5, "start"), (3, 6, "stop")]
    async with running(made) as instance:
        assert [[row[0] for row in rows] for rows in await done_in(instance.url, (3,))] == [["stop", "start"]]


async def test_a_base_of_fewer_operations_than_are_known(basing: Make) -> None:
    """Behind it stand others, as if they had come while it was made: a purge of what it has, too."""
    made, every = basing(), (1, 2, 3, 4, 5)
    async with running(made) as instance:
        await make_history(instance.url)
        before, done, keeper = await lists(instance.url), await done_in(instance.url, every), keeper_of(instance)
        base = await keeper._making.make(engine_of(instance), 6, engine_of(instance).process.catalogue)
        assert base is not None and await operations_in(made) == [1, *range(7, 15)]
        assert [row[0] for row in done[0]] == ["purge", "start"]
        async with running(made, "follower") as two:
            assert await done_in(two.url, every) == done
    async with running(made) as instance:
        assert (engine_of(instance).based, engine_of(instance).entered) == (6, 14)
        assert (await lists(instance.url), await done_in(instance.url, every)) == (before, done)


async def test_a_takeover_begins_with_a_base_and_restarts_what_failed_before_it(basing: Make) -> None:
    """A group of a chunk step was checkpointed before the base: the restart goes on behind it."""
    made = basing()
    async with running(made) as one:
        first = Caller(one.url, "one")
        await first.start("chunky", date="x")
        await first.claim()
        await first.ask("PUT", "/batch/work/1?action=checkpoint", {"data": "row 7"})
        await first.finish(1, "FAILED", log="no space")
        await compact(one)
        async with running(made, "follower") as two:
            assert engine_of(two).based == 4 and not engine_of(two).recent
            await one.stop()
            await two.until_role("leader")
            second = Caller(two.url, "one")
            assert (await second.change(1, "restart")).told["executionId"] == 2
            claimed = (await second.claim()).told
            assert (claimed["work"]["work"], claimed["work"]["checkpoint"], claimed["jobParameters"]) == (
                2,
                "row 7",
                {"date": "x"},
            )
            assert (await second.ask("GET", "/batch/jobexecutions/1/joblogs")).told[0]["log"] == "no space"
            assert (await second.finish(2)).operations == 7 and await second.status(2) == "COMPLETED"
            assert (await compact(two)).failure == "" and await bases_in(made) == [(7, 1)]


@pytest.mark.parametrize(("known", "behind"), [(0, 0), (1, 1), (3, 0), (3, 2)])
async def test_a_follower_that_finds_a_gap_begins_again_with_the_base(basing: Make, known: int, behind: int) -> None:
    """Of the operations that it lacks none may be in the table, or some behind the base."""
    made = basing()
    async with running(made) as one, running(made, "follower") as two:
        first, second, keeper = Caller(one.url), Caller(two.url), keeper_of(two)
        for _ in range(known):
            await first.start("short")
        await settle(one, two)
        store: Any = keeper._store
        ask, wake, sleeps = store.leader, asyncio.Event(), asyncio.Event()

        async def sleep_and_ask() -> Any:
            sleeps.set()
            await wake.wait()
            return await ask()

        store.leader = sleep_and_ask
        await sleeps.wait()
        for _ in range(3):
            await first.start("wide")
        assert (await compact(one)).failure == ""
        for _ in range(behind):
            await first.start("nightly")
        engine, count = engine_of(two), known + 3 + behind
        wake.set()

        async def has_begun_again() -> bool:
            return keeper.role == "follower" and keeper.operations == count

        await until(has_begun_again)
        assert engine_of(two) is not engine and (engine_of(two).based, engine.process.has_ended) == (known + 3, True)
        assert await executions(second, f"?atLeast={count}") == list(range(count, 0, -1))


async def test_a_follower_that_has_all_notes_the_base_and_goes_on(basing: Make) -> None:
    made = basing()
    async with running(made) as one, running(made, "follower") as two:
        await make_history(one.url)
        await settle(one, two)
        engine = engine_of(two)
        await compact(one)

        async def has_noted() -> bool:
            return engine.based == 14

        await until(has_noted)
        told = (await Caller(two.url).ask("GET", "/batch/history")).told
        assert (told["base"], told["compaction"]) == ({"operations": 14, "rows": 8, "behind": 0}, None)
        assert engine_of(two) is engine and (await lists(two.url))[:4] == (await lists(one.url))[:4]


async def test_who_loses_its_connection_just_behind_a_base_goes_on(basing: Make, started: list[str]) -> None:
    """The last operation that it knows isn't in the table any more."""
    made = basing()
    async with running(made) as one:
        await make_history(one.url)
        await compact(one)
        engine = engine_of(one)
        started.clear()
        await cut_off(one)
        await until_epoch(one, 2)
        assert (engine_of(one), started) == (engine, [])
        assert (await Caller(one.url, "two").finish(4)).operations == 15
        await cut_off(one)
        await until_epoch(one, 3)
        assert (engine_of(one), started) == (engine, [])


async def test_an_operation_that_is_not_kept_yet_stands_behind_the_base(basing: Make) -> None:
    """The leader's row is locked from outside, so that its commit waits. A base is made meanwhile, and the key isn't lost."""
    made = basing(takeover_after=60.0)
    async with running(made) as instance:
        caller = Caller(instance.url, "one")
        await caller.start("short")
        async with table_of(made) as table:
            lock = table.transaction()
            await lock.start()
            await table.fetch("select epoch from job_host_leader for update")
            starting = asyncio.create_task(caller.start("wide", key="open"))

            async def is_entered() -> bool:
                return engine_of(instance).entered == 2

            await until(is_entered)
            assert (await compact(instance)).failure == "" and not starting.done()
            assert (await bases_in(made), engine_of(instance).based) == ([(1, 1)], 1)
            await lock.rollback()
        assert (await starting).told["executionId"] == 2
        assert await operations_in(made) == [1, 2]
        await compact(instance)
    async with running(made) as instance:
        assert (await Caller(instance.url, "one").start("wide", key="open")).told["executionId"] == 2
        assert engine_of(instance).entered == 2


async def test_two_instances_make_one_base_under_load(basing: Make, monkeypatch: pytest.MonkeyPatch) -> None:
    """Each time one of them finds that the other's has taken the place of the one that it began with, or has nothing to do."""
    put, answers = PostgresBases.put, list[bool]()

    async def note(bases: PostgresBases, made: Any) -> bool:
        answers.append(await put(bases, made))
        return answers[-1]

    monkeypatch.setattr(PostgresBases, "put", note)
    made = basing()
    async with running(made) as one, running(made, "follower") as two:
        numbers, is_over = list[int](), False

        async def load(name: str) -> None:
            caller = Caller(one.url, name)
            while not is_over:
                told = await caller.start("short")
                assert told.status == 201
                numbers.append(told.told["executionId"])

        loads = [asyncio.create_task(load(f"client-{place}")) for place in range(3)]
        for _ in range(3):
            await asyncio.sleep(0.2)
            done = await asyncio.gather(compact(one), compact(two))
            assert [compaction.failure for compaction in done] == ["", ""]
        is_over = True
        await asyncio.gather(*loads)
        count = engine_of(one).entered
        assert sorted(numbers) == list(range(1, count + 1)) and one.service.keeper.epoch == 1
        ((number, parts),) = await bases_in(made)
        assert (await operations_in(made), parts) == ([1, *range(number + 1, count + 1)], 1)
        assert answers.count(True) >= 3
        await settle(one, two)
        assert (await lists(two.url))[:4] == (await lists(one.url))[:4]
    async with running(made) as one:
        assert engine_of(one).entered == count and len(await executions(Caller(one.url), "?pageSize=1000")) == count


async def test_a_base_that_another_instance_has_made_meanwhile_is_no_failure(
    basing: Make, monkeypatch: pytest.MonkeyPatch
) -> None:
    """It stands for operations that this instance was about to read."""
    operations, made = PostgresBases.operations, basing()
    async with running(made) as one, running(made, "follower") as two:
        await make_history(one.url)
        await settle(one, two)

        async def after_the_other(bases: PostgresBases, before: int, most: int) -> Any:
            monkeypatch.setattr(PostgresBases, "operations", operations)
            assert (await compact(two)).failure == ""
            return await operations(bases, before, most)

        monkeypatch.setattr(PostgresBases, "operations", after_the_other)
        assert (await compact(one)).failure == ""
        assert await bases_in(made) == [(14, 1)] and engine_of(one).based == engine_of(two).based == 14


async def test_two_bases_of_as_many_operations_have_the_same_bytes(basing: Make, monkeypatch: pytest.MonkeyPatch) -> None:
    """Of two that began with the same one, the second changes nothing. In small parts they are the same, too."""
    monkeypatch.setattr(bases_module, "PART_BYTES", 700)
    files, both, turn = list[bytes](), asyncio.Barrier(2), asyncio.Lock()
    made = basing()

    async def wait_and_put(making: Any, bases: PostgresBases, found: Any) -> bool:
        files.append(Path(found.path).read_bytes())
        await both.wait()
        async with turn:
            before = await tables_in(made)
            told = await bases.put(found)
            assert told or await tables_in(made) == before
        return told

    async with running(made) as one, running(made, "follower") as two:
        await make_history(one.url)
        await settle(one, two)
        for instance in (one, two):
            keeper = keeper_of(instance)
            monkeypatch.setattr(keeper._making, "_put", lambda bases, found, of=keeper: wait_and_put(of, bases, found))
        done = await asyncio.gather(compact(one), compact(two))
        assert [compaction.failure for compaction in done] == ["", ""]
        assert len(files) == 2 and files[0] == files[1]
        ((number, parts),) = await bases_in(made)
        assert (number, parts) == (14, -(-len(files[0]) // 700))
        async with table_of(made) as table:
            rows = await table.fetch("select bytes from job_host_base_part order by part")
        assert b"".join(row[0] for row in rows) == files[0]
        before = await lists(one.url)
    async with running(made) as one:
        assert await lists(one.url) == before


async def test_no_call_waits_for_a_base_and_no_term_ends(basing: Make, monkeypatch: pytest.MonkeyPatch) -> None:
    """The transaction lasts longer than a commit may take, and than a leader may be silent."""
    drop = PostgresBases._drop_operations

    async def drop_slowly(bases: PostgresBases, *given: int) -> None:
        await drop(bases, *given)
        await asyncio.sleep(3.0)

    monkeypatch.setattr(PostgresBases, "_drop_operations", drop_slowly)
    made = basing(commit_timeout=1.0, takeover_after=1.0)
    async with running(made) as one, running(made, "follower") as two:
        caller = Caller(one.url)
        await caller.start("short")
        task, seconds = asyncio.create_task(compact(one)), list[float]()
        while not task.done():
            begun = asyncio.get_running_loop().time()
            assert (await caller.start("short")).status == 201
            seconds.append(asyncio.get_running_loop().time() - begun)
            await asyncio.sleep(0.1)
        assert task.result().failure == "" and max(seconds) < 1.0 and len(seconds) > 5
        assert (one.service.keeper.epoch, two.service.keeper.role) == (1, "follower")


async def test_what_is_told_of_a_base_in_postgres(basing: Make) -> None:
    async with running(basing()) as instance:
        caller = Caller(instance.url)
        told = (await caller.ask("GET", "/batch/history")).told
        assert (told["base"], told["compaction"], told["mostOperations"]) == (None, None, 4_294_967_296)
        await caller.start("short")
        await compact(instance)
        await caller.start("short")
        told = (await caller.ask("GET", "/batch/history")).told
        assert told["base"] == {"operations": 1, "rows": 1, "behind": 1}
        ended = {name: told["compaction"][name] for name in ("failure", "isOver", "callsWait")}
        assert ended == {"failure": None, "isOver": True, "callsWait": False}
        metrics = (await caller.ask("GET", "/metrics")).told
        for line in ("jobhost_log_base_rows 1.0", "jobhost_log_operations_behind_base 1.0", "jobhost_compaction_failed 0.0"):
            assert line in metrics
        assert "warning" not in (await caller.ask("GET", "/health/live")).told


async def test_a_leader_makes_a_base_by_itself_and_once(basing: Make, monkeypatch: pytest.MonkeyPatch) -> None:
    tried: list[int] = []
    make = BaseMaking.make

    async def note(making: BaseMaking, engine: Any, most: int, catalogue: bytes) -> Any:
        tried.append(most)
        return await make(making, engine, most, catalogue)

    monkeypatch.setattr(BaseMaking, "make", note)
    monkeypatch.setattr(due, "MANY", 14)
    monkeypatch.setattr(postgres_compacting, "LOOK_SECONDS", 0.05)
    made = basing()
    async with running(made) as one, running(made, "follower"):
        await make_history(one.url)

        async def is_made() -> bool:
            return engine_of(one).based == 14

        await until(is_made)
        for _ in range(20):
            await Caller(one.url).start("short")
        await asyncio.sleep(0.3)
        assert tried == [14]


async def test_behind_its_base_a_leader_goes_on_with_another_batchctl(
    basing: Make, monkeypatch: pytest.MonkeyPatch, tmp_path: Path
) -> None:
    """Its log has the base, and no longer all since the start. Calls go on, and each is made once."""
    monkeypatch.delenv("TMPDIR", raising=False)
    monkeypatch.setattr(local_files, "MEMORY", tmp_path)
    monkeypatch.setattr(due, "MANY", 14)
    monkeypatch.setattr(postgres_compacting, "LOOK_SECONDS", 0.05)
    made = basing()
    async with running(made) as instance:
        process, is_over, numbers = engine_of(instance).process, False, list[int]()

        async def load() -> None:
            while not is_over:
                numbers.append((await Caller(instance.url, "one").start("wide")).told["executionId"])

        await make_history(instance.url)
        loads = [asyncio.create_task(load()) for _ in range(2)]

        async def has_ended() -> bool:
            return process.has_ended and engine_of(instance).process is not process

        await until(has_ended)
        is_over = True
        await asyncio.gather(*loads)
        assert sorted(numbers) == list(range(6, 6 + len(numbers))) and instance.service.keeper.epoch == 1
        assert (await Caller(instance.url, "two").finish(4)).operations == 15 + len(numbers)
        (path,) = tmp_path.glob(f"{PREFIX}*/*/history.log")
        base = log_file.known_base(path)
        assert base is not None and base == engine_of(instance).base and base.head.operations >= 14
        before = await lists(instance.url)
    async with running(made) as instance:
        assert await lists(instance.url) == before


async def test_a_leader_goes_on_with_its_batchctl_if_no_other_one_begins(
    basing: Make, monkeypatch: pytest.MonkeyPatch, caplog: pytest.LogCaptureFixture
) -> None:
    monkeypatch.setattr(due, "MANY", 14)
    monkeypatch.setattr(postgres_compacting, "LOOK_SECONDS", 0.05)
    async with running(basing()) as instance:
        process = engine_of(instance).process

        async def refused(*given: Any) -> None:
            raise CoProcessEnded("no memory")

        monkeypatch.setattr(keeper_of(instance)._logs, "open", refused)
        await make_history(instance.url)

        async def is_told() -> bool:
            return "batchctl goes on with all since its start: CoProcessEnded no memory" in caplog.text

        await until(is_told)
        assert engine_of(instance).process is process and instance.service.keeper.epoch == 1
        assert (await Caller(instance.url, "two").finish(4)).operations == 15


async def test_a_leader_makes_a_base_each_day(basing: Make, monkeypatch: pytest.MonkeyPatch) -> None:
    monkeypatch.setattr(postgres_compacting, "LOOK_SECONDS", 0.05)
    now = datetime(2026, 11, 30, 2, 0)
    made = basing(compact_at=time_of_day(2, 30))
    async with running(made) as instance:
        keeper_of(instance)._compacting._due = due.Due(made.compact_at, lambda: now)
        for day in (0, 1):
            await Caller(instance.url).start("short")
            await asyncio.sleep(0.2)
            assert not engine_of(instance).is_compact
            now = datetime(2026, 11, 30, 2, 30) + timedelta(days=day)

            async def is_compact() -> bool:
                return engine_of(instance).is_compact

            await until(is_compact)
        assert await bases_in(made) == [(2, 1)]
