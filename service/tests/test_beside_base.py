"""A log with a base, and an SQLite file that is lost, older, newer, or of another history: nothing is guessed."""

from __future__ import annotations

import shutil
import sqlite3
import subprocess
from collections.abc import Callable
from contextlib import closing
from dataclasses import replace
from pathlib import Path
from typing import Any

import pytest
from based import behind, compact
from instances import Caller, Instance, running
from kept import engine_of, until_noted

from job_host.service.history import log_file
from job_host.service.keepers.embedded import LOG_NAME
from job_host.service.keepers.keeper import Fatal
from job_host.service.settings import ServeSettings
from job_host.service.stores.beside_files import STORE_NAME

Make = Callable[..., ServeSettings]


async def refusal(settings: ServeSettings) -> str:
    """The reason why the service ends."""
    instance = Instance(settings)
    await instance.start()
    try:
        with pytest.raises(Fatal) as raised:
            await instance.ended()
        return str(raised.value)
    finally:
        await instance.stop()


def forget_store(folder: Path) -> None:
    for path in folder.glob(f"{STORE_NAME}*"):
        path.unlink()


def copy_store(made: ServeSettings, copy: Path) -> None:
    with closing(sqlite3.connect(made.data / STORE_NAME)) as store:
        store.execute("vacuum into ?", (str(copy),))


def put_back(copy: Path, made: ServeSettings) -> None:
    forget_store(made.data)
    shutil.copy(copy, made.data / STORE_NAME)


async def fill(made: ServeSettings) -> None:
    """A log with a base of three operations. Its client holds a work item."""
    async with running(made) as instance:
        await fill_in(instance)


async def fill_in(instance: Instance) -> None:
    caller = Caller(instance.url, "one")
    await caller.start("short", key="first")
    await caller.start("wide", key="a")
    await caller.claim(key="b")
    await compact(instance)


@pytest.mark.parametrize("more", [0, 1])
async def test_a_lost_file_is_refused_with_both_names(compacting: Make, more: int, caplog: pytest.LogCaptureFixture) -> None:
    """Else a call that is made again by its key would be made twice."""
    made = compacting()
    store, path = made.data / STORE_NAME, made.data / LOG_NAME
    await fill(made)
    async with running(made) as instance:
        for number in range(more):
            assert (await Caller(instance.url, "two").start("short", key=f"behind-{number}")).operations == 4
    forget_store(made.data)
    for _ in range(2):
        told = await refusal(made)
        assert str(store) in told and str(path) in told and "--forget-keys" in told
    assert len(behind(path)) == more
    forgetful = replace(made, forget_keys=True)
    for settings in (forgetful, made):
        async with running(settings) as instance:
            assert engine_of(instance).entered == 3 + more
    async with running(made) as instance:
        one, two = Caller(instance.url, "one"), Caller(instance.url, "two")
        assert "it is forgotten" in caplog.text
        assert (await two.start("short", key="behind-0")).operations == 4
        assert (await one.start("short", key="first")).operations == 5
        assert (await one.finish(1)).name == "NotClaimer" and list(engine_of(instance).held) == [1]
        assert [row["client"] for row in (await one.ask("GET", "/batch/work")).told] == ["?2"]
    async with running(made) as instance:
        assert (await Caller(instance.url, "one").start("short", key="first")).operations == 5


async def test_a_file_from_before_the_base_is_refused(compacting: Make, tmp_path: Path) -> None:
    """Keys of operations between are lost: the file alone can't tell that."""
    made, copy = compacting(), tmp_path / "copy"
    async with running(made) as instance:
        caller = Caller(instance.url, "one")
        await caller.start("short", key="first")
        await caller.claim()
        await until_noted(instance)
        copy_store(made, copy)
        await caller.start("short", key="lost")
        await compact(instance)
        await caller.start("short", key="behind")
    put_back(copy, made)
    told = await refusal(made)
    assert f"{made.data / STORE_NAME} doesn't know the request keys of the first 3 operations" in told
    async with running(replace(made, forget_keys=True)) as instance:
        caller = Caller(instance.url, "one")
        assert [(await caller.start("short", key=key)).operations for key in ("first", "behind", "lost")] == [1, 4, 5]
    async with running(made) as instance:
        assert (await Caller(instance.url, "one").start("short", key="lost")).operations == 5


async def test_a_file_that_went_on_elsewhere_is_refused(compacting: Make) -> None:
    """It has as many operations of the same history, and doesn't know this base."""
    made = compacting()
    await fill(made)
    async with running(made) as instance:
        await Caller(instance.url, "two").start("short")
    with closing(sqlite3.connect(made.data / STORE_NAME)) as store:
        store.execute("delete from base")
        store.execute("update rest set operations = 3, work = 2")
        store.execute("update noted set operations = 3, line = ''")
        store.commit()
    assert "doesn't know the request keys" in await refusal(made)
    with closing(sqlite3.connect(made.data / STORE_NAME)) as store:
        base = log_file.known_base(made.data / LOG_NAME)
        assert base is not None
        store.execute("update rest set work = 1, execution = 2, instance = 2")
        store.commit()
    assert "doesn't know the request keys" in await refusal(made)
    with closing(sqlite3.connect(made.data / STORE_NAME)) as store:
        store.execute("update rest set made = ?", (base.made,))
        store.commit()
    async with running(made) as instance:
        assert (await Caller(instance.url, "two").start("short")).operations == 5


async def test_a_file_of_the_very_moment_knows_all(compacting: Make, tmp_path: Path) -> None:
    """It is as it was when the compaction began: the base itself isn't noted there. Or it lacks what is behind the base."""
    made, copies = compacting(), [tmp_path / "before", tmp_path / "after"]
    await fill(made)
    copy_store(made, copies[1])
    copy_store(made, copies[0])
    with closing(sqlite3.connect(copies[0])) as store:
        store.execute("delete from base")
        store.commit()
    for number, copy in enumerate(copies):
        put_back(copy, made)
        async with running(made) as instance:
            caller = Caller(instance.url, "one")
            assert (await caller.start("wide", key="a")).operations == 2
            assert [(await caller.start("short", key=f"behind-{one}")).operations for one in range(number + 1)] == [
                *range(4, 5 + number)
            ]


async def test_a_name_that_the_base_needs_is_not_there(compacting: Make) -> None:
    made = compacting()
    await fill(made)
    with closing(sqlite3.connect(made.data / STORE_NAME)) as store:
        store.execute("update client set name = 'other', session = 77 where name = 'one'")
        store.commit()
    told = await refusal(made)
    assert f"{made.data / STORE_NAME} doesn't name the clients of the work items 1" in told
    assert str(made.data / LOG_NAME) in told
    async with running(replace(made, forget_keys=True)) as instance:
        assert (await Caller(instance.url, "one").finish(1)).name == "NotClaimer"


@pytest.mark.parametrize("more", [0, 1])
async def test_an_older_copy_of_a_log_with_a_base(compacting: Make, tmp_path: Path, more: int) -> None:
    """What the file knows from before the base stays. What it knows of operations behind it is read again."""
    made, copy = compacting(), tmp_path / "copy"
    await fill(made)
    async with running(made) as instance:
        for _ in range(more):
            await Caller(instance.url, "two").start("short", key="behind")
    shutil.copy(made.data / LOG_NAME, copy)
    async with running(made) as instance:
        await Caller(instance.url, "three").start("short", key="lost")
        await Caller(instance.url, "four").claim(key="lost")
        assert engine_of(instance).entered == 5 + more
    shutil.copy(copy, made.data / LOG_NAME)
    async with running(made) as instance:
        one, two, three = (Caller(instance.url, name) for name in ("one", "two", "three"))
        assert ((await one.start("wide", key="a")).operations, (await two.start("short", key="behind")).operations) == (2, 4)
        assert (await one.claim(key="b")).told["work"]["work"] == 1
        assert (await three.start("short", key="lost")).operations == 5
        assert (await one.finish(1)).operations == 6


async def test_another_end_of_the_same_base(compacting: Make) -> None:
    """The log went on elsewhere: keys, refusals and names that were noted behind the base belong to nobody now."""
    made = compacting()
    await fill(made)
    other = replace(made, data=made.data.with_name("other"))
    shutil.copytree(made.data, other.data)
    async with running(made) as instance:
        assert (await Caller(instance.url, "five").change(9, "stop", key="refused")).status == 404
        assert (await Caller(instance.url, "five").start("short", key="lost")).operations == 4
        assert (await Caller(instance.url, "one").start("short", key="lost")).operations == 5
    async with running(other) as instance:
        for number in range(3):
            assert (await Caller(instance.url, "one").start("wide", key=f"other-{number}")).operations == 4 + number
        assert (await Caller(instance.url, "seven").start("wide", key="seven")).operations == 7
    shutil.copy(other.data / LOG_NAME, made.data / LOG_NAME)
    async with running(made) as instance:
        one, seven = Caller(instance.url, "one"), Caller(instance.url, "seven")
        assert [(await one.start("wide", key=key)).operations for key in ("a", "other-0", "other-2")] == [2, 4, 6]
        assert (await seven.start("wide", key="seven")).operations == 7
        assert (await seven.change(8, "stop", key="refused")).name == "NoSuchJobExecutionException"
        assert (await one.start("short", key="lost")).operations == 8
        assert (await Caller(instance.url, "five").start("short", key="lost")).operations == 9
        assert (await one.finish(1)).operations == 10


@pytest.mark.parametrize("begins_anew", [False, True])
async def test_a_copy_from_before_another_compaction(compacting: Make, tmp_path: Path, begins_anew: bool) -> None:
    """As a backup has it, if the log was compacted between the copies of both files."""
    made, older, newer = compacting(), tmp_path / "older", tmp_path / "newer"
    path = made.data / LOG_NAME
    if begins_anew:
        await fill(made)
    async with running(made) as instance:
        if not begins_anew:
            await fill_in(instance)
        await Caller(instance.url, "two").start("short", key="behind")
        shutil.copy(path, older)
        await Caller(instance.url, "two").start("short", key="lost")
        await compact(instance)
    shutil.copy(path, newer)
    shutil.copy(older, path)
    async with running(made) as instance:
        one, two = Caller(instance.url, "one"), Caller(instance.url, "two")
        assert ((await one.start("wide", key="a")).operations, (await two.start("short", key="behind")).operations) == (2, 4)
        assert (await one.start("short", key="lost")).operations == 5
        assert (await one.finish(1)).operations == 6
        done = (await one.ask("GET", "/batch/jobexecutions/4/operations")).told
        await compact(instance)
    async with running(made) as instance:
        assert (await Caller(instance.url).ask("GET", "/batch/jobexecutions/4/operations")).told == done
        assert [row["client"] for row in done] == ["one"]
    shutil.copy(newer, path)
    assert "isn't known to be of the log's history" in await refusal(made)


async def test_the_log_from_before_its_first_base(compacting: Make, tmp_path: Path) -> None:
    """It has all operations with their tags, so all is read out of it again."""
    made, copy, newer = compacting(), tmp_path / "copy", tmp_path / "newer"
    async with running(made) as instance:
        await Caller(instance.url, "one").start("short", key="a")
        shutil.copy(made.data / LOG_NAME, copy)
        await Caller(instance.url, "one").start("short", key="lost")
        await compact(instance)
    shutil.copy(made.data / LOG_NAME, newer)
    shutil.copy(copy, made.data / LOG_NAME)
    async with running(made) as instance:
        caller = Caller(instance.url, "one")
        assert (await caller.start("short", key="a")).operations == 1
        assert (await caller.start("short", key="lost")).operations == 2
        assert len(list(made.data.glob("beside-*"))) == 0
    shutil.copy(newer, made.data / LOG_NAME)
    assert "isn't known to be of the log's history" in await refusal(made)


@pytest.mark.parametrize("more", [0, 1])
async def test_a_log_of_another_history(compacting: Make, more: int) -> None:
    """Nothing is set aside before a person says so, and the file is back with its log."""
    made = compacting()
    other = replace(made, data=made.data.with_name("other"))
    await fill(made)
    async with running(other) as instance:
        for _ in range(4):
            await Caller(instance.url, "none").start("short")
        await compact(instance)
        for _ in range(more):
            await Caller(instance.url, "none").start("short")
    own, path = made.data.with_name("own.log"), made.data / LOG_NAME
    shutil.move(path, own)
    shutil.copy(other.data / LOG_NAME, path)
    assert "isn't known to be of the log's history" in await refusal(made)
    assert list(made.data.glob("beside-*")) == []
    async with running(replace(made, forget_keys=True)) as instance:
        assert (await Caller(instance.url, "one").start("wide", key="a")).operations == 5 + more
    assert len(list(made.data.glob("beside-*"))) == 1
    shutil.copy(own, path)
    async with running(made) as instance:
        assert (await Caller(instance.url, "one").start("wide", key="a")).operations == 2
        assert (await Caller(instance.url, "one").finish(1)).operations == 4


async def test_a_log_without_a_base_of_another_history(compacting: Make) -> None:
    """The file was begun beside a base, so it doesn't know how its own history began."""
    made = compacting()
    other = replace(made, data=made.data.with_name("other"))
    await fill(made)
    forget_store(made.data)
    async with running(replace(made, forget_keys=True)) as instance:
        assert (await Caller(instance.url, "one").start("short", key="own")).operations == 4
    async with running(other) as instance:
        for number in range(5):
            await Caller(instance.url, "one").start("short", key=f"other-{number}")
    shutil.copy(other.data / LOG_NAME, made.data / LOG_NAME)
    async with running(made) as instance:
        assert (await Caller(instance.url, "one").start("short", key="other-0")).operations == 1
        assert (await Caller(instance.url, "one").start("short", key="own")).operations == 6
    assert len(list(made.data.glob("beside-*"))) == 1


async def test_a_log_that_a_person_has_compacted(compacting: Make) -> None:
    """After a clean end the file knows all that the log had."""
    made = compacting()
    path = made.data / LOG_NAME
    async with running(made) as instance:
        caller = Caller(instance.url, "one")
        await caller.start("short", key="a")
        await caller.start("short")
        await caller.claim()
        identity = (await caller.ask("GET", "/batch/history")).told["history"]
    line = log_file.catalogue_of(path)
    assert line is not None
    words = [*made.batchctl, "script", "--log", str(path), "--tags", "--compact"]
    subprocess.run(words, input=line + b"\n", check=True, capture_output=True)
    assert log_file.known_base(path) is not None
    async with running(made) as instance:
        caller = Caller(instance.url, "one")
        assert (await caller.start("short", key="a")).operations == 1
        assert (await caller.finish(1)).operations == 4
        assert (await caller.ask("GET", "/batch/history")).told["history"] == identity


async def test_an_open_key_may_be_of_an_operation_before_the_base(compacting: Make) -> None:
    """The file of an earlier version has keys without replies. Such a call isn't made a second time."""
    made = compacting()
    await fill(made)
    row: Any = None
    with closing(sqlite3.connect(made.data / STORE_NAME)) as store:
        row = store.execute("select count(*) from request").fetchone()
        store.execute("update request set reply = null, answers = null, seen = null where key = 'first'")
        store.commit()
    assert row == (3,)
    for _ in range(2):
        async with running(made) as instance:
            again = await Caller(instance.url, "one").start("short", key="first")
            assert (again.status, again.name, engine_of(instance).entered) == (409, "ReplyNotKept", 3)
            assert "may stand before the base of the log" in again.told["detail"]
