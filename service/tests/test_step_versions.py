"""What a worker does for a step belongs to a version of its job, and so do the job's settings."""

from __future__ import annotations

from collections.abc import Callable
from pathlib import Path
from typing import Any

import pytest
from instances import Caller, running
from job_versions import (
    FORM,
    JSL,
    applied,
    brief,
    fail_one,
    form,
    limited,
    read_again,
    step_claimed,
    step_of,
    timeout,
    versions_of,
    withdrawn,
)
from workers import end_of, working

from job_host.service.keepers.embedded import LOG_NAME
from job_host.service.settings import ServeSettings
from job_host.service.stores.beside_files import STORE_NAME
from job_host.service.versions.files import JobFiles

Make = Callable[..., ServeSettings]
ONE, TWO = step_of(1, 60), step_of(2, 60)


@pytest.fixture
def folder(tmp_path: Path) -> Path:
    """A folder with a job whose step skips one fault, and has a minute."""
    path = tmp_path / "jobs"
    path.mkdir()
    (path / "nightly.xml").write_text(limited(1))
    (path / "nightly.settings.json").write_text(timeout(60))
    return path


@pytest.fixture
def served(either: Make, folder: Path) -> ServeSettings:
    """Settings of a service whose jobs are a folder's, over PostgreSQL, and over a log of its own."""
    return either(catalogue=folder, is_folder=True)


@pytest.fixture
def kept(embedded: Make, folder: Path) -> ServeSettings:
    return embedded(catalogue=folder, is_folder=True)


async def restarted(caller: Caller, execution: int) -> Any:
    """What the claim of a restarted job execution tells of its step."""
    begun = (await caller.change(execution, "restart")).told["executionId"]
    found, step = await step_claimed(caller)
    assert found == begun
    return step


async def test_a_restart_has_the_limit_and_the_timeout_of_its_version(served: ServeSettings) -> None:
    """Also after another instance has read the versions."""
    async with running(served) as instance:
        caller = Caller(instance.url)
        first = await fail_one(caller)
        assert brief(await applied(caller, limited(2), timeout(60))) == (200, 2, True)
        second = await fail_one(caller, day="tuesday")
        assert brief(await applied(caller, limited(2), timeout(90))) == (200, 3, True)
        third = await fail_one(caller, day="friday")
        assert brief(await caller.apply("nightly", limited(2))) == (200, 4, True)
        fourth = await fail_one(caller, day="sunday")
        assert await restarted(caller, first) == ONE
        assert await restarted(caller, second) == TWO
    async with running(served) as instance:
        caller = Caller(instance.url)
        assert await restarted(caller, third) == step_of(2, 90)
        assert await restarted(caller, fourth) == step_of(2, None)
        assert await versions_of(caller) == [("apply", version) for version in (1, 2, 3, 4)]


async def test_listeners_and_policies_belong_to_a_version(kept: ServeSettings) -> None:
    one = '<step id="only"><listeners><listener ref="audit"/></listeners><batchlet ref="b"/></step>'
    two = one.replace("audit", "other")
    algorithm = '<step id="only"><chunk%s><reader ref="r"/><writer ref="w"/>%s</chunk></step>'
    custom = algorithm % (' checkpoint-policy="custom"', '<checkpoint-algorithm ref="hourly"/>')
    timed = algorithm % (' time-limit="5"', "")
    steps = [
        {"listeners": [{"ref": "audit", "use": "listener-1"}]},
        {"listeners": [{"ref": "other", "use": "listener-1"}]},
        {"chunk": {"checkpoint-algorithm": {"ref": "hourly"}}},
        {"chunk": {"time-limit": 5}},
    ]
    async with running(kept) as instance:
        caller, begun = Caller(instance.url), list[int]()
        for version, text in enumerate((one, two, custom, timed), 2):
            assert brief(await caller.apply("nightly", JSL % ("nightly", text))) == (200, version, True)
            assert brief(await caller.apply("nightly", JSL % ("nightly", text + "\n"))) == (200, version, False)
            begun.append(await fail_one(caller, day=str(version)))
        assert [await restarted(caller, execution) for execution in begun] == steps


async def test_changed_settings_alone_make_a_version_by_sighup(served: ServeSettings, folder: Path) -> None:
    settings = folder / "nightly.settings.json"
    async with running(served) as instance:
        caller = Caller(instance.url)
        first = await fail_one(caller)
        for version, text in ((2, timeout(90)), (2, timeout(90).replace(":", " :\n")), (3, timeout(60))):
            settings.write_text(text)
            await read_again(instance)
            assert len(await versions_of(caller)) == version
        settings.write_text(timeout(0))
        await read_again(instance)
        settings.unlink()
        assert len(await versions_of(caller)) == 3
        await read_again(instance)
        last = await fail_one(caller, day="sunday")
        assert len(await versions_of(caller)) == 4
        assert [await restarted(caller, one) for one in (first, last)] == [ONE, step_of(1, None)]


async def test_wrong_settings_change_nothing_by_sighup(
    kept: ServeSettings, folder: Path, caplog: pytest.LogCaptureFixture
) -> None:
    async with running(kept) as instance:
        (folder / "nightly.xml").write_text(limited(2))
        (folder / "nightly.settings.json").write_text(timeout(0))
        await read_again(instance)
        assert 'nightly.settings.json:1:32: settings in job "nightly", step "only"' in caplog.text
        assert await versions_of(Caller(instance.url)) == [("apply", 1)]


async def test_changed_settings_alone_make_a_version_at_a_start(served: ServeSettings, folder: Path) -> None:
    async with running(served) as instance:
        first = await fail_one(Caller(instance.url))
    (folder / "nightly.settings.json").write_text(timeout(90))
    for _ in range(2):
        async with running(served) as instance:
            caller = Caller(instance.url)
            assert await versions_of(caller) == [("apply", 1), ("apply", 2)]
    async with running(served) as instance:
        caller = Caller(instance.url)
        assert await restarted(caller, first) == ONE
        await caller.start(day="friday")
        assert (await step_claimed(caller))[1] == step_of(1, 90)


async def test_settings_that_were_applied_stay_beside_a_folder_that_is_as_it_was(served: ServeSettings) -> None:
    async with running(served) as instance:
        assert brief(await applied(Caller(instance.url), limited(1), timeout(90))) == (200, 2, True)
        await read_again(instance)
    async with running(served) as instance:
        caller = Caller(instance.url)
        await caller.start(day="friday")
        assert (await step_claimed(caller))[1] == step_of(1, 90)


async def test_a_lost_sqlite_file_loses_no_settings(kept: ServeSettings) -> None:
    async with running(kept) as instance:
        caller = Caller(instance.url)
        first = await fail_one(caller)
        await applied(caller, limited(2), timeout(90))
        second = await fail_one(caller, day="tuesday")
        await applied(caller, limited(2), timeout(60))
    for path in kept.data.glob(f"{STORE_NAME}*"):
        path.unlink()
    async with running(kept) as instance:
        caller = Caller(instance.url)
        assert [await restarted(caller, one) for one in (first, second)] == [ONE, step_of(2, 90)]
        await caller.start(day="friday")
        assert (await step_claimed(caller))[1] == TWO
        assert len(await versions_of(caller)) == 3


async def test_settings_are_files_of_their_version(kept: ServeSettings) -> None:
    async with running(kept) as instance:
        caller = Caller(instance.url)
        first = await fail_one(caller)
        await applied(caller, limited(1), timeout(90))
        await caller.apply("nightly", limited(1))
    files = kept.data / "jobs"
    told = {path.name: path.read_text() for path in files.glob("*.settings.json")}
    assert told == {"nightly@1.settings.json": timeout(60), "nightly@2.settings.json": timeout(90)}
    assert (files / "nightly@1.settings.json").stat().st_mode & 0o777 == 0o600
    (files / "nightly@1.settings.json").write_text(timeout(61))
    async with running(kept) as instance:
        caller = Caller(instance.url)
        await caller.change(first, "restart")
        claim = (await caller.claim()).told
        assert claim["propertiesFault"] == "the file of 'nightly' isn't kept, so its properties aren't known"
        assert "step" not in claim


async def test_a_crash_before_a_change_counts_leaves_no_settings(kept: ServeSettings, monkeypatch: pytest.MonkeyPatch) -> None:
    """The files of a change that never was are another one's then."""
    async with running(kept) as instance:
        first = await fail_one(Caller(instance.url))

        def fail(*given: Any) -> None:
            raise OSError(28, "No space left on device")

        monkeypatch.setattr(JobFiles, "_append", fail)
        assert (await applied(Caller(instance.url), limited(2), timeout(90))).name == "StoreLost"
        monkeypatch.undo()
    assert (kept.data / "jobs" / "nightly@2.settings.json").exists()
    async with running(kept) as instance:
        caller = Caller(instance.url)
        assert await versions_of(caller) == [("apply", 1)]
        assert brief(await caller.apply("nightly", limited(2))) == (200, 2, True)
        assert not (kept.data / "jobs" / "nightly@2.settings.json").exists()
        await caller.start(day="friday")
        assert (await step_claimed(caller))[1] == step_of(2, None)
        assert await restarted(caller, first) == ONE


async def test_a_crash_after_a_change_counts_loses_no_settings(kept: ServeSettings) -> None:
    """The service dies between the line of the change and the growth of the catalogue."""
    async with running(kept) as instance:
        keeper: Any = instance.service.keeper
        keeper._grow = None
        assert (await applied(Caller(instance.url), limited(2), timeout(90), "key")).status in (500, 503)
    async with running(kept) as instance:
        caller = Caller(instance.url)
        assert brief(await applied(caller, limited(2), timeout(90), "key")) == (200, 2, True)
        await caller.start(day="friday")
        assert (await step_claimed(caller))[1] == step_of(2, 90)


IN_STEP = 'settings in job "nightly", step "only" (number 0)'
# Parts of a form, and the fault of the files.
REFUSED = [
    (limited(1), "{", "nightly.settings.json:1:2: NotJson: "),
    (limited(1), timeout(0), f"nightly.settings.json:1:32: {IN_STEP}: expected a whole number of seconds from 1 to 4294967295"),
    (limited(1), '{"steps":{"onyl":{}}}', 'nightly.settings.json:1:11: settings in job "nightly": expected the id of a step'),
    ("<job", timeout(60), "nightly.xml:1:1: JSL: unclosed token"),
    (limited(1).replace("nightly", "other"), timeout(60), 'nightly.xml:1:9: OtherJob in job "other"'),
]


async def test_wrong_settings_are_refused_with_their_place_and_nothing_changes(kept: ServeSettings) -> None:
    async with running(kept) as instance:
        caller = Caller(instance.url)
        before = (kept.data / LOG_NAME).read_bytes(), sorted((kept.data / "jobs").iterdir())
        for file, settings, told in REFUSED:
            for words in ("", "?check=true"):
                refused = await applied(caller, file, settings, words=words)
                assert (refused.status, refused.name) == (400, "JobRefused"), told
                assert refused.told["faults"][0].startswith(told), refused.told["faults"]
        both = await applied(caller, limited(-1), timeout(0), words="?file=new/nightly.xml")
        assert [fault.split(" ")[0] for fault in both.told["faults"]] == [
            "new/nightly.xml:2:35:",
            "new/nightly.settings.json:1:32:",
        ]
        assert ((kept.data / LOG_NAME).read_bytes(), sorted((kept.data / "jobs").iterdir())) == before
        assert brief(await applied(caller, limited(2), timeout(60), words="?check=true")) == (200, 2, True)
        assert brief(await applied(caller, limited(1), timeout(60), words="?check=true")) == (200, 1, False)
        assert await versions_of(caller) == [("apply", 1)]


async def test_a_form_has_a_job_and_settings(kept: ServeSettings) -> None:
    job, settings = ("job", limited(2)), ("settings", timeout(60))
    wrong: list[list[tuple[str, str]]] = [[job], [settings], [job, settings, ("more", "")], [job, job, settings], []]
    json_job = ("job", '{"id":"nightly","elements":[]}')
    async with running(kept) as instance:
        caller = Caller(instance.url)
        for parts in wrong:
            refused = await caller.ask("PUT", "/batch/jobs/nightly", form(*parts), **{"Content-Type": FORM})
            assert (refused.status, refused.name) == (400, "BadRequest")
        refused = await caller.ask("PUT", "/batch/jobs/nightly", form(json_job, settings), **{"Content-Type": FORM})
        assert (refused.name, refused.told["faults"][0][:16]) == ("JobRefused", "nightly.xml:1:1:")
        assert await versions_of(caller) == [("apply", 1)]
        answer = await caller.ask("PUT", "/batch/jobs/nightly", form(settings, job), **{"Content-Type": FORM})
        assert brief(answer) == (200, 2, True)


async def test_a_key_is_of_a_file_with_its_settings(served: ServeSettings) -> None:
    async with running(served) as instance:
        caller = Caller(instance.url)
        assert brief(await applied(caller, limited(2), timeout(90), "key")) == (200, 2, True)
        assert brief(await applied(caller, limited(3), timeout(90))) == (200, 3, True)
        assert brief(await applied(caller, limited(2), timeout(90), "key")) == (200, 2, True)
        assert (await applied(caller, limited(2), timeout(91), "key")).name == "RequestKeyReused"
        assert (await caller.apply("nightly", limited(2), "key")).name == "RequestKeyReused"
        assert len(await versions_of(caller)) == 3


async def test_a_job_that_was_withdrawn_comes_back_with_its_settings(kept: ServeSettings) -> None:
    async with running(kept) as instance:
        caller = Caller(instance.url)
        await withdrawn(caller)
        assert brief(await applied(caller, limited(1), timeout(60))) == (200, 1, True)
        await withdrawn(caller)
        assert brief(await applied(caller, limited(1), timeout(90))) == (200, 2, True)
        await caller.start(day="friday")
        assert (await step_claimed(caller))[1] == step_of(1, 90)


async def test_a_follower_knows_the_settings_of_each_version(settings: Make, folder: Path) -> None:
    shared = settings(catalogue=folder, is_folder=True)
    async with running(shared) as one, running(shared, "follower") as two:
        caller, reader = Caller(one.url), Caller(two.url)
        first = await fail_one(caller)
        await applied(caller, limited(2), timeout(90))
        await one.stop()
        await two.until_role("leader")
        assert await restarted(reader, first) == ONE
        await reader.start(day="friday")
        assert (await step_claimed(reader))[1] == step_of(2, 90)


async def test_a_worker_ends_a_step_in_the_time_of_its_version(kept: ServeSettings, folder: Path, tmp_path: Path) -> None:
    artifacts = tmp_path / "artifacts"
    artifacts.mkdir()
    (artifacts / "sleeper").write_text("#!/bin/sh\nsleep 2\n")
    (artifacts / "sleeper").chmod(0o755)
    (folder / "nightly.xml").write_text(JSL % ("nightly", '<step id="only"><batchlet ref="sleeper"/></step>'))
    (folder / "nightly.settings.json").write_text(timeout(1))
    async with running(kept) as instance, working(instance.url, artifacts):
        caller = Caller(instance.url)
        first = (await caller.start(day="monday")).told["executionId"]
        assert (await end_of(caller, first))["stepExecutions"][0]["exitStatus"] == "timeout"
        (folder / "nightly.settings.json").write_text(timeout(60))
        await read_again(instance)
        again = (await caller.change(first, "restart")).told["executionId"]
        begun = await caller.start(day="friday")
        assert (begun.status, begun.told["version"]) == (201, 2)
        assert (await end_of(caller, again))["stepExecutions"][0]["exitStatus"] == "timeout"
        assert (await end_of(caller, begun.told["executionId"]))["batchStatus"] == "COMPLETED"
