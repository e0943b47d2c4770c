"""Versions of jobs that leave the catalogue as the history is compacted, and come back if somebody wants them again."""

from __future__ import annotations

import asyncio
import json
import subprocess
from collections.abc import Callable
from contextlib import suppress
from pathlib import Path
from typing import Any, cast

import pytest
from based import compact as compact_log
from based import fail
from instances import Caller, Instance, running, until
from job_versions import brief, claimed, fail_one, job_file, versions_of, withdrawn, write_jobs
from kept import engine_of
from postgres_bases import Halt, bases_in, keeper_of, settle, table_of

from job_host.catalogue.jobs import ForWorkers
from job_host.service.history import log_file
from job_host.service.keepers import leaving as module
from job_host.service.keepers.base_making import BaseMaking
from job_host.service.keepers.compacting import Compacting
from job_host.service.keepers.embedded import LOG_NAME
from job_host.service.keepers.grown_process import GrownProcess
from job_host.service.keepers.batchctl_compact import can_compact
from job_host.service.keepers.keeper import Compaction, Fatal
from job_host.service.keepers.postgres import PostgresKeeper
from job_host.service.settings import ServeSettings
from job_host.service.stores.postgres_bases import PostgresBases
from job_host.service.versions import book
from job_host.service.versions.changes import APPLY, RETURN, WITHDRAW, Change

Make = Callable[..., ServeSettings]


@pytest.fixture
def folder(tmp_path: Path) -> Path:
    return write_jobs(tmp_path / "jobs", nightly="first", short="first")


@pytest.fixture
def served(based: Make, folder: Path) -> ServeSettings:
    """Settings of a service whose jobs are a folder's, over PostgreSQL, and over a log of its own."""
    return based(catalogue=folder, is_folder=True)


@pytest.fixture
def kept(compacting: Make, folder: Path) -> ServeSettings:
    return compacting(catalogue=folder, is_folder=True)


@pytest.fixture
def shared(basing: Make, folder: Path) -> ServeSettings:
    return basing(catalogue=folder, is_folder=True)


async def compact(instance: Instance) -> Compaction:
    """Compacts the history of a service that leads, and lets its batchctl begin with the base."""
    if not isinstance(instance.service.keeper, PostgresKeeper):
        return await compact_log(instance)
    keeper = keeper_of(instance)
    term = cast(Any, keeper.term)
    done = await keeper._compacting.compact(keeper._making, term.engine, keeper.committed, keeper._leaving(term))
    async with keeper._compacting.turn:
        await keeper._renew(cast(Any, keeper._store), term)
    return done


async def jobs_of(made: ServeSettings) -> list[str]:
    """The jobs of the catalogue that the history has."""
    if not made.postgres:
        line = log_file.catalogue_of(made.data / LOG_NAME) or b""
    else:
        async with table_of(made) as table:
            line = await table.fetchval("select line from job_host_catalogue order by epoch desc limit 1")
    return [job["id"] for job in json.loads(line)["jobs"]]


def ids(instance: Instance) -> list[str]:
    """The jobs of the catalogue that batchctl has."""
    return [job["id"] for job in json.loads(engine_of(instance).process.catalogue)["jobs"]]


async def purge(caller: Caller, *instances: int) -> None:
    for number in instances:
        assert (await caller.ask("DELETE", f"/batch/jobinstances/{number}")).status == 200


async def make_versions(caller: Caller) -> None:
    """Job instance 1 is of the first version of `nightly`, 2 and 3 of the second and the third. The fourth is the newest."""
    for number in range(1, 4):
        await fail_one(caller, day=f"day-{number}")
        assert brief(await caller.apply("nightly", job_file(f"version {number + 1}"))) == (200, number + 1, True)


async def test_a_version_leaves_after_its_last_job_instance(served: ServeSettings) -> None:
    async with running(served) as instance:
        caller = Caller(instance.url)
        await make_versions(caller)
        await purge(caller, 2)
        assert (await compact(instance)).failure == ""
        assert await jobs_of(served) == ids(instance) == ["nightly", "short", "nightly@3", "nightly@4"]
        assert await versions_of(caller) == [("apply", 1), ("apply", 2), ("apply", 3), ("apply", 4)]
        assert (await caller.start(day="later")).told["version"] == 4
        await purge(caller, 1)
        assert (await compact(instance)).failure == ""
        assert await jobs_of(served) == ids(instance) == ["short", "nightly@3", "nightly@4"]
        assert await claimed(caller) == (4, "version 4 of later")
        await caller.change(3, "restart")
        assert await claimed(caller) == (5, "version 3 of day-3")


async def test_what_has_left_stays_away_after_a_start(served: ServeSettings) -> None:
    """Also if it was last in the catalogue, where a longer one would go on. Numbers of versions go on."""
    async with running(served) as instance:
        caller = Caller(instance.url)
        await make_versions(caller)
        assert brief(await caller.apply("short", job_file("second", "short"))) == (200, 2, True)
        assert brief(await withdrawn(caller, "short")) == (200, 2, True)
        await purge(caller, 1, 2)
        assert (await compact(instance)).failure == ""
        assert await jobs_of(served) == ["nightly@3", "nightly@4"]
    for _ in range(2):
        async with running(served) as instance:
            caller = Caller(instance.url)
            assert await jobs_of(served) == ids(instance) == ["nightly@3", "nightly@4"]
            assert (await caller.start("short")).name == "JobWithdrawn"
    async with running(served) as instance:
        caller = Caller(instance.url)
        assert brief(await caller.apply("nightly", job_file("version 5"))) == (200, 5, True)
        assert (await caller.start(day="later")).told["version"] == 5
        assert await jobs_of(served) == ids(instance) == ["nightly@3", "nightly@4", "nightly@5"]


async def test_a_job_that_was_withdrawn_leaves_and_comes_back_as_it_was(served: ServeSettings) -> None:
    async with running(served) as instance:
        caller = Caller(instance.url)
        assert brief(await caller.apply("short", job_file("second", "short"))) == (200, 2, True)
        execution = await fail_one(caller, "short")
        assert brief(await withdrawn(caller, "short")) == (200, 2, True)
        assert (await compact(instance)).failure == ""
        assert await jobs_of(served) == ["nightly", "short@2"]
        await purge(caller, 1)
        assert (await compact(instance)).failure == ""
        assert await jobs_of(served) == ids(instance) == ["nightly"]
        assert [one["jobName"] for one in (await caller.ask("GET", "/batch/catalogue")).told["jobs"]] == ["nightly"]
        assert (await caller.start("short")).name == "JobWithdrawn"
        assert (await caller.change(execution, "restart")).status == 404
    async with running(served) as instance:
        caller = Caller(instance.url)
        assert brief(await caller.apply("short", job_file("second", "short"))) == (200, 2, True)
        assert await jobs_of(served) == ids(instance) == ["nightly", "short@2"]
        assert (await caller.start("short", day="later")).told["version"] == 2
        assert await claimed(caller) == (2, "second of later")
        assert await versions_of(caller, "short") == [("apply", 1), ("apply", 2), ("withdraw", 2), ("return", 2)]
    async with running(served) as instance:
        assert ids(instance) == ["nightly", "short@2"] and (await Caller(instance.url).start("short")).told["version"] == 2


async def test_a_job_that_was_withdrawn_comes_back_changed(served: ServeSettings) -> None:
    async with running(served) as instance:
        caller = Caller(instance.url)
        await caller.start()
        assert brief(await withdrawn(caller, "short")) == (200, 1, True)
        assert (await compact(instance)).failure == ""
        assert brief(await caller.apply("short", job_file("second", "short"))) == (200, 2, True)
        assert ids(instance) == ["nightly", "short@2"] and (await caller.start("short")).told["version"] == 2


async def test_a_full_catalogue_has_room_again(served: ServeSettings, monkeypatch: pytest.MonkeyPatch) -> None:
    monkeypatch.setattr(book, "MOST_JOBS", 5)
    async with running(served) as instance:
        caller = Caller(instance.url)
        await make_versions(caller)
        refused = await caller.apply("nightly", job_file("version 5"))
        assert (refused.status, refused.name) == (409, "CatalogueFull")
        assert "versions without job instances leave it as the history is compacted" in refused.told["detail"]
        await compact(instance)
        assert (await caller.apply("nightly", job_file("version 5"))).name == "CatalogueFull"
        await purge(caller, 1, 2)
        await compact(instance)
        for number in (5, 6):
            assert brief(await caller.apply("nightly", job_file(f"version {number}"))) == (200, number, True)
        assert ids(instance) == ["short", "nightly@3", "nightly@4", "nightly@5", "nightly@6"]


def test_what_may_leave() -> None:
    """A version without a kept file, which comes from the catalogue alone, leaves if there is a newer one."""
    known = book.JobBook(lambda change: None, lambda file: ForWorkers())
    known.take_over(b'{"jobs":[{"id":"a"},{"id":"a@2"},{"id":"b"},{"id":"c"},{"id":"c@2"}]}')
    for name, version in (("b", 1), ("c", 2)):
        known.enter([Change(WITHDRAW, name, version, "", 0)])
    assert known.unneeded(()) == {"a", "c"} and known.unneeded({"a", "b"}) == {"c"}
    known.enter([Change(APPLY, "b", 1, "", 0, {"id": "b"}), Change(WITHDRAW, "b", 1, "", 0)])
    assert known.unneeded(()) == {"a", "b", "c"}
    assert known.without({"a", "b"}) == b'{"jobs":[{"id":"a@2"},{"id":"c"},{"id":"c@2"}]}'
    known.leave({"a", "b"})
    assert known.line == b'{"jobs":[{"id":"a@2"},{"id":"c"},{"id":"c@2"}]}' and known.newest("b") == 1
    known.enter([Change(RETURN, "b", 1, "", 0)])
    assert known.line == b'{"jobs":[{"id":"a@2"},{"id":"c"},{"id":"c@2"},{"id":"b"}]}'
    assert known.unneeded(()) == {"c"}


async def test_a_compaction_without_an_operation_lets_versions_leave(kept: ServeSettings) -> None:
    async with running(kept) as instance:
        caller = Caller(instance.url)
        await caller.start()
        assert (await compact(instance)).failure == "" and ids(instance) == ["nightly", "short"]
        await withdrawn(caller, "short")
        assert (await compact(instance)).failure == "" and ids(instance) == ["nightly"] == await jobs_of(kept)
        assert (await caller.start()).operations == 2


async def test_batchctl_has_the_last_word(served: ServeSettings, monkeypatch: pytest.MonkeyPatch, caplog: Any) -> None:
    """If the service were wrong, and a version has a job instance, the history is compacted over the catalogue as it was."""
    monkeypatch.setattr(module, "used_in", lambda state: frozenset())
    async with running(served) as instance:
        caller = Caller(instance.url)
        await make_versions(caller)
        assert (await compact(instance)).failure == ""
        assert await jobs_of(served) == ids(instance) == ["nightly", "short", "nightly@2", "nightly@3", "nightly@4"]
        assert "no job leaves the catalogue" in caplog.text and "LogOtherCatalogue" in caplog.text
        assert (await caller.start(day="later")).told["version"] == 4
        await caller.change(2, "restart")
        assert [await claimed(caller) for _ in range(2)] == [(4, "version 4 of later"), (5, "version 2 of day-2")]


async def test_a_refused_compaction_lets_nothing_leave(kept: ServeSettings, stand_in: None) -> None:
    async with running(kept) as instance:
        caller = Caller(instance.url)
        await make_versions(caller)
        await purge(caller, 1, 2)
        fail(kept, "refuse")
        assert "memory is refused" in (await compact(instance)).failure
        assert await jobs_of(kept) == ids(instance) == ["nightly", "short", "nightly@2", "nightly@3", "nightly@4"]
        fail(kept)
        assert (await compact(instance)).failure == "" and ids(instance) == ["short", "nightly@3", "nightly@4"]


async def until_waiting(turn: asyncio.Lock, count: int) -> None:
    """Returns as soon as so many wait for the turn."""

    async def are_waiting() -> bool:
        return len(cast(Any, turn)._waiters or ()) == count

    await until(are_waiting)


async def test_a_start_on_its_way_keeps_its_version(served: ServeSettings) -> None:
    """It was the newest as the call came. Then its job is withdrawn, and the history is compacted."""
    async with running(served) as instance:
        caller = Caller(instance.url)
        await caller.start("short")
        turn = engine_of(instance).turn
        async with turn:
            starting = asyncio.create_task(caller.start(day="later"))
            await until_waiting(turn, 1)
            assert brief(await withdrawn(caller)) == (200, 1, True)
            making = asyncio.create_task(compact(instance))
            await until_waiting(turn, 2)
        assert (await starting).status == 201 and (await making).failure == ""
        assert ids(instance) == ["nightly", "short"] == await jobs_of(served)
    async with running(served) as instance:
        caller = Caller(instance.url)
        assert await caller.status(2) == "STARTING" and (await caller.start()).name == "JobWithdrawn"


async def test_no_job_is_changed_while_a_compaction_looks_what_may_leave(served: ServeSettings) -> None:
    """A job that is withdrawn meanwhile is withdrawn after the compaction has begun, and leaves by the next one."""
    async with running(served) as instance:
        caller = Caller(instance.url)
        await caller.start("short")
        turn = engine_of(instance).turn
        async with turn:
            making = asyncio.create_task(compact(instance))
            await until_waiting(turn, 1)
            withdrawing = asyncio.create_task(withdrawn(caller))
            await asyncio.wait([withdrawing], timeout=0.5)
            assert not withdrawing.done()
        assert (await making).failure == "" and brief(await withdrawing) == (200, 1, True)
        assert ids(instance) == ["nightly", "short"]
        await caller.start("short", day="later")
        assert (await compact(instance)).failure == "" and ids(instance) == ["short"]


async def test_starts_and_changes_beside_a_compaction(served: ServeSettings) -> None:
    """Nobody is refused: a start has the version that was the newest as it came, whatever is applied and leaves meanwhile."""
    async with running(served) as instance:
        caller, is_over = Caller(instance.url), asyncio.Event()
        await caller.start()

        async def start(name: str) -> list[int]:
            own, statuses = Caller(instance.url, name), list[int]()
            while not is_over.is_set():
                statuses.append((await own.start(day=name)).status)
            return statuses

        starting = [asyncio.create_task(start(f"client-{number}")) for number in range(4)]
        for number in range(2, 7):
            assert brief(await caller.apply("nightly", job_file(f"version {number}"))) == (200, number, True)
            await asyncio.gather(compact(instance), withdrawn(caller, "short"))
            assert brief(await caller.apply("short", job_file("first", "short"))) == (200, 1, True)
        is_over.set()
        told = await asyncio.gather(*starting)
        assert {status for statuses in told for status in statuses} == {201} and min(map(len, told)) > 0
        assert "nightly@6" in ids(instance) and "short" in ids(instance)
    async with running(served) as instance:
        assert (await Caller(instance.url).start()).told["version"] == 6


async def test_a_job_of_a_catalogue_s_file_leaves_by_hand(embedded: Make, tmp_path: Path) -> None:
    """Between two services, batchctl compacts the log over a file without a job that has no job instance."""
    made = embedded()
    if not can_compact(made.batchctl):
        pytest.skip("this batchctl has no `script --compact`")
    jobs = {job["id"]: job for job in json.loads(made.catalogue.read_bytes())["jobs"]}
    async with running(made) as instance:
        await fail_one(Caller(instance.url), "short")
        await Caller(instance.url).start("wide", key="wide")
    jobs["nightly"]["elements"].pop()
    jobs["nightly"]["elements"][0].pop("next")
    less = json.dumps({"jobs": [jobs[name] for name in ("wide", "short", "nightly")]})
    made.catalogue.write_text(less)
    with pytest.raises(Fatal, match="CatalogueChanged: the job 'nightly' is changed"):
        async with running(made):
            pass
    words = [*made.batchctl, "script", "--log", str(made.data / LOG_NAME), "--tags", "--compact"]
    subprocess.run(words, input=less.encode() + b"\n", check=True, capture_output=True)
    async with running(made) as instance:
        caller = Caller(instance.url)
        assert ids(instance) == ["wide", "short", "nightly"] == await jobs_of(made)
        assert (await caller.start("wide", key="wide")).told["executionId"] == 2
        assert (await caller.change(1, "restart")).told["executionId"] == 3
        assert (await caller.start("chunky")).name == "JobStartException"


async def test_a_kill_behind_the_new_file(kept: ServeSettings, monkeypatch: pytest.MonkeyPatch) -> None:
    """The log lacks the versions, and nobody has noted that: they stay away."""
    async with running(kept) as instance:
        caller = Caller(instance.url)
        await make_versions(caller)
        await purge(caller, 1, 2)

        async def die(*given: Any) -> None:
            raise asyncio.CancelledError()

        with pytest.MonkeyPatch.context() as patch, suppress(asyncio.CancelledError):
            patch.setattr(Compacting, "_note_base", die)
            patch.setattr(book.JobBook, "leave", lambda book, versions: None)
            await compact(instance)
    async with running(kept) as instance:
        caller = Caller(instance.url)
        assert await jobs_of(kept) == ids(instance) == ["short", "nightly@3", "nightly@4"]
        await caller.change(3, "restart")
        assert await claimed(caller) == (4, "version 3 of day-3")


async def test_followers_go_on_without_what_has_left(shared: ServeSettings) -> None:
    async with running(shared) as one, running(shared, "follower") as two:
        caller, reader = Caller(one.url), Caller(two.url)
        await make_versions(caller)
        await purge(caller, 1, 2)
        await settle(one, two)
        epoch = keeper_of(one).epoch
        assert (await compact(one)).failure == ""
        assert ids(one) == ["short", "nightly@3", "nightly@4"]

        async def has_left() -> bool:
            return ids(two) == ids(one)

        await until(has_left)
        await until(lambda: is_epoch(one, epoch + 1))
        started = await caller.start(day="later")
        read = await reader.ask("GET", f"/batch/jobexecutions/{started.told['executionId']}?atLeast={started.operations}")
        assert (read.status, read.told["version"]) == (200, 4)
        assert brief(await caller.apply("nightly", job_file("version 5"))) == (200, 5, True)
        await one.stop()
        await two.until_role("leader")
        assert ids(two) == ["short", "nightly@3", "nightly@4", "nightly@5"]
        assert (await reader.start(day="last")).told["version"] == 5
        await reader.change(3, "restart")
        assert await jobs_of(shared) == ids(two)


async def is_epoch(instance: Instance, least: int) -> bool:
    return instance.service.keeper.epoch >= least


@pytest.mark.parametrize("again", [False, True])
async def test_a_job_that_is_brought_back_meanwhile_stays(
    shared: ServeSettings, again: bool, monkeypatch: pytest.MonkeyPatch
) -> None:
    """Its base isn't kept, also if it is withdrawn again: it was started between. The next base is kept."""
    async with running(shared) as instance:
        caller = Caller(instance.url)
        await caller.start()
        await withdrawn(caller, "short")
        halt = Halt(monkeypatch, BaseMaking, "_made", False)
        making = asyncio.create_task(compact(instance))
        await halt.reached.wait()
        assert brief(await caller.apply("short", job_file("first", "short"))) == (200, 1, True)
        started = await caller.start("short")
        if again:
            assert brief(await withdrawn(caller, "short")) == (200, 1, True)
        halt.go_on.set()
        assert "was brought back meanwhile" in (await making).failure
        assert await bases_in(shared) == [] and await jobs_of(shared) == ["nightly", "short"]
        assert (await compact(instance)).failure == ""
        assert ids(instance) == ["nightly", "short"] and await caller.status(started.told["executionId"]) == "STARTING"


async def test_a_base_has_all_that_was_looked_at(shared: ServeSettings) -> None:
    """What was made of a version, and purged since an earlier operation, stands before the base that the version leaves by."""
    async with running(shared) as instance:
        caller = Caller(instance.url)
        await fail_one(caller, "short")
        keeper, earlier = keeper_of(instance), keeper_of(instance).committed
        await make_versions(caller)
        await purge(caller, 2, 3, 4)
        term = cast(Any, keeper.term)
        done = await keeper._compacting.compact(keeper._making, term.engine, earlier, keeper._leaving(term))
        assert done.failure == "" and await bases_in(shared) == [(engine_of(instance).entered, 1)]
        assert await jobs_of(shared) == ["short", "nightly@4"]
    async with running(shared) as instance:
        assert (await Caller(instance.url).start()).told["version"] == 4


async def test_versions_may_come_while_others_leave(shared: ServeSettings, monkeypatch: pytest.MonkeyPatch) -> None:
    async with running(shared) as instance:
        caller = Caller(instance.url)
        await make_versions(caller)
        await purge(caller, 1, 2)
        halt = Halt(monkeypatch, BaseMaking, "_made", False)
        making = asyncio.create_task(compact(instance))
        await halt.reached.wait()
        assert brief(await caller.apply("nightly", job_file("version 5"))) == (200, 5, True)
        assert (await caller.start(day="later")).told["version"] == 5
        halt.go_on.set()
        assert (await making).failure == ""
        assert await jobs_of(shared) == ids(instance) == ["short", "nightly@3", "nightly@4", "nightly@5"]
        assert await claimed(caller) == (4, "version 5 of later")
    async with running(shared) as instance:
        assert ids(instance) == ["short", "nightly@3", "nightly@4", "nightly@5"]


async def test_who_leads_no_more_lets_nothing_leave(shared: ServeSettings, monkeypatch: pytest.MonkeyPatch) -> None:
    """Another instance takes over just before the base is kept: then neither that nor its catalogue is."""
    lean = PostgresBases._lean

    async def take_over(bases: PostgresBases, epoch: int, line: bytes) -> int:
        async with table_of(shared) as table:
            await table.execute("update job_host_leader set epoch = epoch + 1, holder = ''")
        return await lean(bases, epoch, line)

    async with running(shared) as instance:
        caller = Caller(instance.url)
        await make_versions(caller)
        await purge(caller, 1, 2)
        monkeypatch.setattr(PostgresBases, "_lean", take_over)
        keeper, term = keeper_of(instance), cast(Any, keeper_of(instance).term)
        done = await keeper._compacting.compact(keeper._making, term.engine, keeper.committed, keeper._leaving(term))
        assert "NotLeader" in done.failure
        assert await bases_in(shared) == []
        assert await jobs_of(shared) == ["nightly", "short", "nightly@2", "nightly@3", "nightly@4"]
        monkeypatch.setattr(PostgresBases, "_lean", lean)
        await until(lambda: leads_behind(instance, term.epoch))
        assert (await compact(instance)).failure == "" and ids(instance) == ["short", "nightly@3", "nightly@4"]


async def leads_behind(instance: Instance, epoch: int) -> bool:
    return instance.service.keeper.role == "leader" and instance.service.keeper.epoch > epoch


async def test_a_batchctl_that_goes_on_with_all_makes_no_difference(
    shared: ServeSettings, monkeypatch: pytest.MonkeyPatch
) -> None:
    """The leader's own one may still have the versions that have left. No start has one, and a later version comes behind."""
    async with running(shared) as instance:
        caller = Caller(instance.url)
        await make_versions(caller)
        await purge(caller, 1, 2)
        keeper, term = keeper_of(instance), cast(Any, keeper_of(instance).term)
        done = await keeper._compacting.compact(keeper._making, term.engine, keeper.committed, keeper._leaving(term))
        assert done.failure == "" and len(ids(instance)) == 5 and await jobs_of(shared) == ["short", "nightly@3", "nightly@4"]
        assert (await caller.start(day="later")).told["version"] == 4
        done = await keeper._compacting.compact(keeper._making, term.engine, keeper.committed, keeper._leaving(term))
        assert done.failure == "" and len(ids(instance)) == 5 and await bases_in(shared) == [(engine_of(instance).entered, 1)]
        assert brief(await caller.apply("nightly", job_file("version 5"))) == (200, 5, True)
        assert await jobs_of(shared) == ids(instance) == ["short", "nightly@3", "nightly@4", "nightly@5"]
    async with running(shared) as instance:
        assert (await Caller(instance.url).start()).told["version"] == 5


async def test_a_job_is_withdrawn_as_a_new_batchctl_takes_the_place(
    shared: ServeSettings, monkeypatch: pytest.MonkeyPatch
) -> None:
    """That begins an epoch, under which the next operations are kept: they are replayed all the same."""
    take_place = GrownProcess.take_place

    async def take_place_later(grown: GrownProcess) -> None:
        caller = Caller(instance.url)
        assert brief(await withdrawn(caller, "short")) == (200, 1, True)
        assert [(await caller.start()).status for _ in range(3)] == [201, 201, 201]
        await take_place(grown)

    async with running(shared) as instance:
        await Caller(instance.url).start()
        term = cast(Any, keeper_of(instance).term)
        with pytest.MonkeyPatch.context() as patch:
            patch.setattr(GrownProcess, "take_place", take_place_later)
            assert (await compact(instance)).failure == ""
        assert term is keeper_of(instance).term and term.failure is None
        assert (await Caller(instance.url).start()).told["executionId"] == 5
