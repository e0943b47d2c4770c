"""A log and an SQLite file of different moments: the log is what holds. What is damaged ends the service, which names it."""

from __future__ import annotations

import json
import shutil
from collections.abc import Callable
from dataclasses import replace
from pathlib import Path

import pytest
from instances import Caller, Instance, running

from job_host.service.keepers.embedded import LOG_NAME
from job_host.service.keepers.keeper import Fatal
from job_host.service.settings import Bounds, ServeSettings
from job_host.service.stores.beside_files import STORE_NAME

Make = Callable[..., ServeSettings]


async def refusal(settings: ServeSettings) -> str:
    """The reason why the service ends."""
    instance = Instance(settings)
    await instance.start()
    try:
        with pytest.raises(Fatal) as raised:
            await instance.ended()
        return str(raised.value)
    finally:
        await instance.stop()


def forget_store(folder: Path) -> None:
    for path in folder.glob(f"{STORE_NAME}*"):
        path.unlink()


async def test_a_lost_store_is_read_out_of_the_log(embedded: Make) -> None:
    """Else a stranger would have the session of the worker that holds a work item, and a key would start its job again."""
    made = embedded()
    async with running(made) as instance:
        first = Caller(instance.url, "first")
        started = [await first.start("short", key="a"), await first.start_once("b"), await first.start("wide", key="c")]
        claimed = await Caller(instance.url, "worker").claim(key="d")
        assert claimed.operations == 4
        assert (await first.change(9, "stop", key="e")).name == "NoSuchJobExecutionException"
        history = (await first.ask("GET", "/batch/history")).told["history"]
    forget_store(made.data)
    async with running(made) as instance:
        stranger, first, worker = (Caller(instance.url, name) for name in ("stranger", "first", "worker"))
        assert (await stranger.finish(1)).name == "NotClaimer"
        again = [await first.start("short", key="a"), await stranger.start_once("b"), await first.start("wide", key="c")]
        assert [(one.told, one.operations) for one in again] == [(one.told, one.operations) for one in started]
        assert (await first.start("wide", key="a")).name == "RequestKeyReused"
        assert (await worker.claim(key="d")).told == claimed.told
        assert (await worker.finish(1)).operations == 5
        assert (await stranger.start("short", key="a")).operations == 6
        held = (await first.ask("GET", "/batch/jobexecutions/1/workitems")).told
        assert [one["client"] for one in held] == ["worker"]
        assert (await first.ask("GET", "/batch/history")).told["history"] == history


async def test_keys_are_read_out_of_a_log_that_ended_by_a_power_cut(embedded: Make, tmp_path: Path) -> None:
    """The file beside it is as it was some commits before: none of them had waited for the disk."""
    made = embedded()
    earlier = tmp_path / "earlier"
    async with running(made) as instance:
        assert (await Caller(instance.url).start("short", key="a")).operations == 1
    shutil.copy(made.data / STORE_NAME, earlier)
    async with running(made) as instance:
        assert (await Caller(instance.url, "other").start("wide", key="b")).operations == 2
        assert (await Caller(instance.url, "worker").claim()).operations == 3
    forget_store(made.data)
    earlier.rename(made.data / STORE_NAME)
    async with running(made) as instance:
        assert (await Caller(instance.url).start("short", key="a")).operations == 1
        assert (await Caller(instance.url, "other").start("wide", key="b")).operations == 2
        assert (await Caller(instance.url, "new").finish(1)).name == "NotClaimer"
        assert (await Caller(instance.url, "worker").finish(1)).operations == 4


async def test_old_keys_are_not_read_out_of_the_log(embedded: Make) -> None:
    """One that says once is, however old, as long as its job instance is there. Others are also if theirs was purged."""
    made = embedded()
    async with running(made) as instance:
        caller = Caller(instance.url)
        assert [(await caller.start("short", key=key)).operations for key in "ab"] == [1, 2]
        assert [(await caller.start_once(key)).operations for key in "cd"] == [3, 4]
        for execution in (1, 4):
            await caller.change(execution, "stop")
            assert (await caller.ask("DELETE", f"/batch/jobinstances/{execution}")).status == 200
    forget_store(made.data)
    async with running(made) as instance:
        caller = Caller(instance.url)
        assert [(await caller.start("short", key=key)).told["executionId"] for key in "ab"] == [1, 2]
        assert [(await caller.start_once(key)).told["executionId"] for key in "cd"] == [3, 5]
    forget_store(made.data)
    async with running(replace(made, bounds=Bounds(days_of_keys=0))) as instance:
        caller = Caller(instance.url)
        assert [(await caller.start_once(key)).told["executionId"] for key in "cd"] == [3, 5]
        assert [(await caller.start("short", key=key)).told["executionId"] for key in "ab"] == [6, 7]


async def test_an_older_copy_of_the_log_knows_what_it_has(embedded: Make, caplog: pytest.LogCaptureFixture) -> None:
    """The file beside it would answer a key by a job execution that isn't there."""
    made = embedded()
    log, copy = made.data / LOG_NAME, made.data / "copy.log"
    async with running(made) as instance:
        assert (await Caller(instance.url).start("short", key="a")).operations == 1
        assert (await Caller(instance.url).claim()).operations == 2
        await Caller(instance.url).finish(1, log="the first")
    shutil.copy(log, copy)
    async with running(made) as instance:
        assert (await Caller(instance.url).start("short", key="b")).operations == 4
        assert (await Caller(instance.url, "other").claim()).operations == 5
        await Caller(instance.url, "other").finish(2, log="the second")
    shutil.copy(copy, log)
    async with running(made) as instance:
        assert "knows operations that aren't so" in caplog.text
        caller = Caller(instance.url)
        assert (await caller.start("short", key="a")).operations == 1
        assert (await caller.start("wide", key="b")).operations == 4
        assert (await Caller(instance.url, "third").claim()).told["work"]["work"] == 2
        assert [one["log"] for one in (await caller.ask("GET", "/batch/jobexecutions/1/joblogs")).told] == ["the first"]
        assert (await caller.ask("GET", "/batch/jobexecutions/2/joblogs")).told == []


async def test_another_end_of_the_same_log_knows_what_it_has(embedded: Make, tmp_path: Path) -> None:
    """It went on elsewhere from the same operation, and has as many or more."""
    made, backup = embedded(), tmp_path / "backup"
    async with running(made) as instance:
        assert (await Caller(instance.url).start("short", key="a")).operations == 1
    shutil.copytree(made.data, backup)
    async with running(made) as instance:
        assert (await Caller(instance.url).start("short", key="b")).operations == 2
    async with running(replace(made, data=backup)) as instance:
        assert (await Caller(instance.url).start("wide", key="b")).operations == 2
        assert (await Caller(instance.url, "other").start("wide", key="c")).operations == 3
    shutil.copy(backup / LOG_NAME, made.data / LOG_NAME)
    async with running(made) as instance:
        assert (await Caller(instance.url).start("wide", key="b")).operations == 2
        assert (await Caller(instance.url, "other").start("wide", key="c")).operations == 3
        assert (await Caller(instance.url).start("short", key="a")).operations == 1


async def test_both_of_one_copy_go_on(embedded: Make) -> None:
    made = embedded()
    async with running(made) as instance:
        assert (await Caller(instance.url).start("short", key="a")).operations == 1
    backup = made.data.with_name("backup")
    shutil.copytree(made.data, backup)
    async with running(made) as instance:
        assert (await Caller(instance.url).start("short", key="b")).operations == 2
    async with running(replace(made, data=backup)) as instance:
        assert (await Caller(instance.url).start("short", key="a")).operations == 1
        assert (await Caller(instance.url).start("wide", key="b")).operations == 2


@pytest.mark.parametrize("place", [0, 100, 4_096])
async def test_a_damaged_store_ends_the_service(embedded: Make, place: int) -> None:
    made = embedded()
    async with running(made) as instance:
        for number in range(50):
            await Caller(instance.url, f"client-{number}").start("short", key="a")
    for path in made.data.glob(f"{STORE_NAME}-*"):
        path.unlink()
    store = made.data / STORE_NAME
    content = bytearray(store.read_bytes())
    content[place : place + 400] = b"?" * 400
    store.write_bytes(content)
    assert f"{store} is damaged" in await refusal(made)


@pytest.mark.parametrize("old,new", [(b'"nightly"', b'"nightlx"'), (b'{"jobs":[', b'{"jobs":(')])
async def test_a_damaged_catalogue_of_a_log_is_damage(embedded: Make, old: bytes, new: bytes) -> None:
    """It is no changed catalogue, and it is told once."""
    made = embedded()
    async with running(made) as instance:
        await Caller(instance.url).start("short")
    log = made.data / LOG_NAME
    content = log.read_bytes()
    assert old in content
    log.write_bytes(content.replace(old, new, 1))
    told = await refusal(made)
    assert str(log) in told and "LogDamaged" in told


async def test_jobs_in_another_order_are_the_same_jobs(embedded: Make, tmp_path: Path) -> None:
    made = embedded()
    async with running(made) as instance:
        await Caller(instance.url).start("short")
    other = tmp_path / "other.json"
    jobs = json.loads(made.catalogue.read_bytes())["jobs"]
    other.write_text(json.dumps({"jobs": list(reversed(jobs))}))
    async with running(replace(made, catalogue=other)) as instance:
        assert (await Caller(instance.url).start("short")).operations == 2
