"""Bases over PostgreSQL under faults: a leader that is gone in the middle of one, and bases that can't be used."""

from __future__ import annotations

import asyncio
import os
import signal
import sys
from collections.abc import Callable
from contextlib import suppress
from dataclasses import replace
from datetime import time as time_of_day
from pathlib import Path
from typing import Any

import asyncpg
import pytest
from based import lists, make_history
from instances import COMMAND, Caller, Instance, running, until
from kept import engine_of, until_epoch
from postgres_bases import Halt, bases_in, compact, done_in, keeper_of, operations_in, settle, table_of, tables_in
from test_new_history import check_nothing_is_known, fail_first
from test_store_version import THIS_VERSION, check_filled, fill, refusal, version_of

from job_host.service.keepers import base_making, due, postgres_compacting
from job_host.service.keepers import keeper as keeper_module
from job_host.service.keepers.local_logs import LocalLogs
from job_host.service.keepers.postgres_jobs import PostgresJobs
from job_host.service.problems import unavailable
from job_host.service.settings import ServeSettings
from job_host.service.stores import local_files
from job_host.service.stores import postgres_bases as bases_module
from job_host.service.stores.local_files import PREFIX, LocalFiles
from job_host.service.stores.postgres_bases import PostgresBases
from job_host.service.stores.postgres_connection import NoPrimary

Make = Callable[..., ServeSettings]

# The steps of a base, in their order, each before it or behind it. batchctl is started for the operations, and then to compact.
STEPS: dict[str, tuple[Any, str, bool, int]] = {
    "begun": (LocalLogs, "start", True, 0),
    "handed over": (base_making, "hand_over", False, 0),
    "to compact": (LocalLogs, "start", True, 1),
    "compacted": (base_making, "done_between", True, 0),
    "to put": (PostgresBases, "put", True, 0),
    "one part": (PostgresBases, "_execute", False, 3),
    "all parts": (PostgresBases, "_keep", False, 0),
    "actions": (PostgresBases, "_keep_actions", False, 0),
    "not committed": (PostgresBases, "_drop_operations", False, 0),
    "committed": (PostgresBases, "put", False, 0),
}


@pytest.fixture
def stand_in(basing: Make) -> Make:
    """Settings of a service over the stand-in, which fails when it is told to. Some tests are of the tables alone."""
    return basing


async def cut(made: ServeSettings, instance: Instance) -> None:
    """Ends an instance as if its machine were gone: its connections end, and it says no word to the server."""
    keeper: Any = keeper_of(instance)
    keeper._resign = lost
    async with table_of(made) as table:
        others = "datname = current_database() and application_name = 'jobhost'"
        await table.execute(f"select pg_terminate_backend(pid) from pg_stat_activity where {others}")
    await instance.stop()


async def lost(*given: Any) -> None:
    return None


@pytest.mark.parametrize("step", STEPS)
async def test_a_leader_that_is_gone_between_two_steps(stand_in: Make, monkeypatch: pytest.MonkeyPatch, step: str) -> None:
    """A base stood before. The table has that or the new one, whole, and the next leader answers the same."""
    monkeypatch.setattr(bases_module, "PART_BYTES", 700)
    made = stand_in(takeover_after=0.3)
    one = Instance(made)
    await one.start()
    await one.until_role("leader")
    await make_history(one.url)
    assert (await compact(one)).failure == ""
    ((_, parts),) = await bases_in(made)
    await Caller(one.url, "one").start("wide", key="first")
    await Caller(one.url, "two").finish(4, exit="DONE")
    await Caller(one.url, "one").change(4, "stop")
    before, lines, done = await tables_in(made), await lists(one.url), await done_in(one.url)
    with pytest.MonkeyPatch.context() as patch:
        owner, name, is_before, passed = STEPS[step]
        halt = Halt(patch, owner, name, is_before, passed)
        making = asyncio.create_task(compact(one))
        await asyncio.wait_for(halt.reached.wait(), 20.0)
        await cut(made, one)
        making.cancel()
        await asyncio.wait([making])
        halt.go_on.set()
    is_kept = step == "committed"
    assert (await tables_in(made) == before) != is_kept
    if is_kept:
        assert await operations_in(made) == [1] and [number for number, _ in await bases_in(made)] == [17]
    async with running(made) as two:
        assert (engine_of(two).based, engine_of(two).entered) == (17 if is_kept else 14, 17)
        assert (await lists(two.url), await done_in(two.url)) == (lines, done)
        assert (await Caller(two.url, "one").start("wide", key="first")).told["executionId"] == 6
        assert (await compact(two)).failure == "" and await operations_in(made) == [1]
    assert parts > 1


# A leader that is killed within the transaction of a base.
KILLED = "from test_postgres_bases_fail import die_in_a_base; die_in_a_base({!r}, {!r}, {!r})"


def die_in_a_base(dsn: str, catalogue: str, batchctl: str) -> None:
    async def serve() -> None:
        made = ServeSettings(Path(catalogue), (batchctl,), port=0, takeover_after=0.3, postgres=(dsn,))
        async with running(made) as instance:
            await make_history(instance.url)
            await compact(instance)

    async def die(*given: Any) -> None:
        os.kill(os.getpid(), signal.SIGKILL)

    with pytest.MonkeyPatch.context() as patch:
        patch.setattr(PostgresBases, "_drop_operations", die)
        asyncio.run(serve())


async def test_a_leader_that_is_killed_within_a_base(stand_in: Make, tmp_path: Path, monkeypatch: pytest.MonkeyPatch) -> None:
    """What it leaves on its machine is removed by the next instance there."""
    monkeypatch.setenv("TMPDIR", str(tmp_path))
    monkeypatch.setattr("tempfile.tempdir", None)
    made = stand_in(takeover_after=0.3)
    around = os.environ | {"PYTHONPATH": f"{COMMAND.parent}:{Path(__file__).parent}"}
    code = KILLED.format(made.postgres[0], str(made.catalogue), made.batchctl[0])
    done = await asyncio.create_subprocess_exec(sys.executable, "-c", code, env=around)
    assert await done.wait() == -signal.SIGKILL
    (left,) = tmp_path.glob(f"{PREFIX}*")
    async with running(made) as instance:
        assert (engine_of(instance).based, engine_of(instance).entered, await bases_in(made)) == (0, 14, [])
        (own,) = tmp_path.glob(f"{PREFIX}*")
        assert own != left and (await compact(instance)).failure == "" and await operations_in(made) == [1]
    assert list(tmp_path.glob(f"{PREFIX}*")) == []


async def damage(made: ServeSettings, statement: str) -> None:
    async with table_of(made) as table:
        assert (await table.execute(statement)).endswith(" 1")


DAMAGES = {
    "delete from job_host_base_part where part = 1": r"has no part 1 of \d+ in job_host_base_part",
    "delete from job_host_base_part where part = (select max(part) from job_host_base_part)": "has no part",
    "update job_host_base_part set bytes = substr(bytes, 1, 600) where part = 1": "is refused by batchctl: .*Log",
    "update job_host_base set rows = rows + 1": "has the rows of another one",
    "update job_host_base set digest = 'x'": "has the rows of another one",
}


@pytest.mark.parametrize("statement", DAMAGES)
async def test_a_base_that_is_damaged_is_named_and_nothing_is_deleted(
    basing: Make, monkeypatch: pytest.MonkeyPatch, statement: str
) -> None:
    """An instance that begins then ends, and doesn't lead. One that leads goes on, and makes no other base."""
    monkeypatch.setattr(bases_module, "PART_BYTES", 700)
    made = basing()
    async with running(made) as instance:
        await make_history(instance.url)
        await compact(instance)
        await damage(made, statement)
        await Caller(instance.url).start("short")
        before = await tables_in(made)
        if "digest" not in statement and "rows" not in statement:
            failed = await compact(instance)
            assert "BaseDamaged: the base of 14 operations in job_host_base" in failed.failure and failed.is_over
            assert (await Caller(instance.url).ask("GET", "/health/live")).told["warning"] == "NotCompacted"
            assert await tables_in(made) == before
        assert (await Caller(instance.url).start("short")).operations == 16
        before = await tables_in(made)
    told = await refusal(made)
    assert told.startswith("BaseDamaged: the base of 14 operations in job_host_base ")
    with pytest.raises(AssertionError, match=DAMAGES[statement]):
        raise AssertionError(told)
    assert await tables_in(made) == before


async def test_a_table_that_lacks_its_base_is_named(basing: Make) -> None:
    made = basing()
    async with running(made) as instance:
        await make_history(instance.url)
        await compact(instance)
        await Caller(instance.url).start("short")
    async with table_of(made) as table:
        await table.execute("truncate job_host_base")
    before = await tables_in(made)
    assert "OperationsMissing: job_host_operation lacks operation 1 up to 14" in (await refusal(made)).replace("2 up", "1 up")
    assert await tables_in(made) == before


async def test_a_base_of_operations_that_are_not_all_there_is_not_made(basing: Make) -> None:
    made = basing()
    async with running(made) as instance:
        await make_history(instance.url)
        async with table_of(made) as table:
            await table.execute("delete from job_host_operation where number = 9")
        before = await tables_in(made)
        assert "OperationsMissing: job_host_operation lacks operation 9 up to 9" in (await compact(instance)).failure
        assert await tables_in(made) == before and instance.service.keeper.role == "leader"


async def test_operations_that_go_while_a_base_is_kept_take_it_with_them(basing: Make, monkeypatch: pytest.MonkeyPatch) -> None:
    """A person deletes one after batchctl was handed it."""
    keep = PostgresBases._keep

    async def delete_and_keep(bases: PostgresBases, made: Any) -> None:
        await bases._connection.execute("delete from job_host_operation where number = 9")
        await keep(bases, made)

    monkeypatch.setattr(PostgresBases, "_keep", delete_and_keep)
    made = basing()
    async with running(made) as instance:
        await make_history(instance.url)
        before = await tables_in(made)
        assert "OperationsMissing" in (await compact(instance)).failure
        assert await tables_in(made) == before


async def test_a_reply_that_differs_keeps_a_base_from_being_made(basing: Make) -> None:
    made = basing()
    async with running(made) as instance:
        await make_history(instance.url)
        await damage(made, """update job_host_operation set reply = '{"execution":7}' where number = 1""")
        before = await tables_in(made)
        told = (await compact(instance)).failure
        assert told.startswith("ReplayDiffers: operation 1, ") and '{"execution":1}' in told
        assert await tables_in(made) == before
        assert (await Caller(instance.url).start("short")).status == 201


@pytest.mark.parametrize(
    ("word", "told"),
    [
        ("refuse", "NotCompacted: batchctl: the log is not compacted: memory is refused"),
        ("forget", "NotCompacted: the base comes to"),
        ("die-before", "CoProcessEnded: batchctl ended with status 9"),
        ("die-after", "CoProcessEnded: batchctl ended with status 9"),
    ],
)
async def test_a_batchctl_that_makes_no_base(stand_in: Make, monkeypatch: pytest.MonkeyPatch, word: str, told: str) -> None:
    made, new = stand_in(), LocalFiles.new

    def new_with_fault(files: LocalFiles) -> Path:
        path = new(files)
        path.with_name(f"{path.name}.fault").write_text(word)
        return path

    monkeypatch.setattr(LocalFiles, "new", new_with_fault)
    async with running(made) as instance:
        await make_history(instance.url)
        before = await tables_in(made)
        assert told in (await compact(instance)).failure
        assert await tables_in(made) == before
        assert (await Caller(instance.url, "two").finish(4)).operations == 15


async def test_a_batchctl_that_can_not_compact_makes_no_base(
    stand_in: Make, monkeypatch: pytest.MonkeyPatch, caplog: pytest.LogCaptureFixture, tmp_path: Path
) -> None:
    """With --compact-at the service doesn't start."""
    made, old = stand_in(), tmp_path / "old_batchctl"
    helpless = 'case " $* " in *" --help "*) echo "script --log --tags"; exit;; esac'
    old.write_text(f'#!/bin/sh\n{helpless}\nexec {made.batchctl[0]} "$@"\n')
    old.chmod(0o755)
    monkeypatch.setattr(due, "MANY", 1)
    monkeypatch.setattr(postgres_compacting, "LOOK_SECONDS", 0.05)
    async with running(replace(made, batchctl=(str(old),))) as instance:
        await Caller(instance.url).start("short")

        async def is_logged() -> bool:
            return "has no `script --compact`, so operations in PostgreSQL aren't compacted" in caplog.text

        await until(is_logged)
        assert (await Caller(instance.url).start("short")).operations == 2 and await bases_in(made) == []
    at = time_of_day(3, 30)
    assert "which --compact-at needs" in await refusal(replace(made, batchctl=(str(old),), compact_at=at))


async def test_a_server_that_is_gone_keeps_a_base_from_being_made(basing: Make, monkeypatch: pytest.MonkeyPatch) -> None:
    """The term has connections of its own, and goes on."""
    made = basing()
    async with running(made) as instance:
        await make_history(instance.url)
        before = await tables_in(made)
        halt = Halt(monkeypatch, PostgresBases, "_keep", False)
        making = asyncio.create_task(compact(instance))
        await halt.reached.wait()
        async with table_of(made) as table:
            ended = "state = 'idle in transaction' and datname = current_database()"
            await table.execute(f"select pg_terminate_backend(pid) from pg_stat_activity where {ended}")
        halt.go_on.set()
        await asyncio.wait([making])
        assert await tables_in(made) == before and instance.service.keeper.epoch == 1
        assert instance.service.keeper.compaction is not None and instance.service.keeper.compaction.failure
        assert (await Caller(instance.url).start("short")).operations == 15


async def test_a_leader_that_loses_its_server_as_a_base_is_begun_leads_again(
    stand_in: Make, monkeypatch: pytest.MonkeyPatch
) -> None:
    """The connection for the base fails just as its term ends, and loses the cancellation, as asyncpg's connect does."""
    monkeypatch.setattr(due, "MANY", 14)
    monkeypatch.setattr(postgres_compacting, "LOOK_SECONDS", 0.05)
    monkeypatch.setattr(keeper_module, "CANCEL_SECONDS", 0.1)
    begun = asyncio.Event()

    async def fail_late(dsns: Any) -> Any:
        begun.set()
        with suppress(asyncio.CancelledError):
            await asyncio.sleep(3_600)
        raise NoPrimary("the server is gone")

    async with running(stand_in()) as instance:
        keeper = keeper_of(instance)
        with pytest.MonkeyPatch.context() as patch:
            patch.setattr(PostgresBases, "open", fail_late)
            await make_history(instance.url)
            await begun.wait()
            assert keeper.term is not None
            keeper.term.fail(unavailable("CommitFailed", "the server is gone"))
            await until_epoch(instance, 2)
        assert (await Caller(instance.url).start("short")).operations == 15


async def test_tables_that_are_emptied_have_no_base_any_more(basing: Make) -> None:
    """Another history begins. What is left of the base of the one before isn't used."""
    made = basing()
    async with running(made) as instance:
        before = await fail_first(instance)
        assert (await compact(instance)).failure == ""
    async with table_of(made) as table:
        await table.execute("truncate job_host_operation, job_host_catalogue")
    async with running(made) as instance:
        await check_nothing_is_known(instance, before)
        assert (engine_of(instance).based, await bases_in(made)) == (0, [])
        assert (await compact(instance)).failure == "" and await bases_in(made) == [(3, 1)]


@pytest.mark.parametrize("version", [2, 3])
async def test_a_store_of_a_version_before_is_brought_to_this_one_and_compacted(basing: Make, version: int) -> None:
    made = basing()
    async with running(made) as instance:
        history = await fill(instance)
    async with table_of(made) as table:
        await table.execute("drop table job_host_mark, job_host_notification")
        if version == 2:
            await table.execute("drop table job_host_base, job_host_base_part, job_host_action")
        await table.execute("update job_host_version set version = $1", version)
    async with running(made) as instance:
        assert await version_of(made.postgres[0]) == THIS_VERSION == 5
        assert await instance.service.keeper.notes().marks() == {}
        await check_filled(instance, history)
        assert (await compact(instance)).failure == "" and await bases_in(made) == [(4, 1)]
    async with running(made) as instance:
        assert (await Caller(instance.url).start("short", key="a")).operations == 1
        assert (await Caller(instance.url).change(1, "restart")).operations == 5


async def test_a_process_that_takes_over_a_catalogue_begins_with_the_base(basing: Make) -> None:
    """As when jobs change while they are served: the operations before the base aren't in the table any more."""
    made = basing()
    async with running(made) as one, running(made, "follower") as two:
        await make_history(one.url)
        await compact(one)
        await Caller(one.url).start("short")
        await settle(one, two)
        for instance in (one, two):
            keeper, engine = keeper_of(instance), engine_of(instance)
            store: Any = keeper._store
            jobs = PostgresJobs(made, keeper._logs, keeper._compacting.turn)
            more = b',{"id":"more","elements":[{"kind":"step","id":"s","batchlet":{"ref":"ok"}}]}]}'
            process, line = engine.process, engine.process.catalogue[:-2] + more
            await jobs.follow(store, engine, line, keeper.epoch)
            assert engine.process is not process and (engine.process.catalogue, process.has_ended) == (line, True)
        assert (await lists(one.url))[:4] == (await lists(two.url))[:4]
        assert (await Caller(one.url, "two").finish(4)).operations == 16


async def test_no_base_is_kept_while_another_process_is_brought_on(basing: Make) -> None:
    made = basing()
    async with running(made) as instance:
        await make_history(instance.url)
        turn = keeper_of(instance)._compacting.turn
        async with turn:
            making = asyncio.create_task(compact(instance))
            await asyncio.sleep(1.0)
            assert not making.done() and await bases_in(made) == []
        assert (await making).failure == "" and await bases_in(made) == [(14, 1)]


async def test_the_connection_of_a_base_is_no_leader(basing: Make, monkeypatch: pytest.MonkeyPatch) -> None:
    """A leader that was cut off makes a base of what it has kept. The next one has it."""
    made = basing(takeover_after=0.5)
    async with running(made) as one, running(made, "follower") as two:
        await make_history(one.url)
        engine, making = engine_of(one), keeper_of(one)._making
        monkeypatch.setattr(keeper_of(one)._store, "commit", never)
        await two.until_role("leader")
        assert (await Caller(two.url).start("short")).operations == 15
        base = await making.make(engine, 14, engine.process.catalogue)
        assert base is not None and base.number == 14
        assert (await operations_in(made), await bases_in(made)) == ([1, 15], [(14, 1)])
        assert (await Caller(two.url, "two").finish(4)).operations == 16


async def never(*given: Any) -> bool:
    await asyncio.sleep(60.0)
    raise asyncpg.InterfaceError("it was cut off")


async def test_the_file_of_a_process_goes_with_it(basing: Make, tmp_path: Path, monkeypatch: pytest.MonkeyPatch) -> None:
    monkeypatch.delenv("TMPDIR", raising=False)
    monkeypatch.setattr(local_files, "MEMORY", tmp_path / "own")
    (tmp_path / "own").mkdir()
    made = basing()
    async with running(made) as instance:
        await make_history(instance.url)
        await compact(instance)
        assert len(list((tmp_path / "own").glob("*/*/history.log"))) == 1
        engine_of(instance).process.kill()
        await until_epoch(instance, 2)
        assert len(list((tmp_path / "own").glob("*/*/history.log"))) == 1
    assert list((tmp_path / "own").iterdir()) == []
