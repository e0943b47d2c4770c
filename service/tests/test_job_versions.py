"""Jobs that change while they are served: starts have the newest version, and restarts that with which they began."""

from __future__ import annotations

import asyncio
import json
import shutil
import signal
import sqlite3
from collections.abc import Callable
from contextlib import closing
from dataclasses import replace
from pathlib import Path
from typing import Any, cast

import pytest
from instances import Caller, Instance, running, until
from job_versions import JSL, brief, claimed, fail_one, job_file, read_again, versions_of, withdrawn, write_jobs
from kept import engine_of

from job_host.service.history import log_file
from job_host.service.keepers.embedded import LOG_NAME
from job_host.service.keepers.grown_process import GrownProcess
from job_host.service.keepers.keeper import Fatal
from job_host.service.settings import ServeSettings
from job_host.service.stores.beside_files import STORE_NAME
from job_host.service.versions import book

Make = Callable[..., ServeSettings]
Jobs = Callable[..., ServeSettings]


@pytest.fixture
def folder(tmp_path: Path) -> Path:
    return write_jobs(tmp_path / "jobs", nightly="first", short="first")


@pytest.fixture
def served(either: Make, folder: Path) -> ServeSettings:
    """Settings of a service whose jobs are a folder's, over PostgreSQL, and over a log of its own."""
    return either(catalogue=folder, is_folder=True)


@pytest.fixture
def kept(embedded: Make, folder: Path) -> ServeSettings:
    return embedded(catalogue=folder, is_folder=True)


@pytest.fixture
def shared(settings: Make, folder: Path) -> ServeSettings:
    return settings(catalogue=folder, is_folder=True)


async def test_a_restart_has_the_version_with_which_its_job_instance_began(served: ServeSettings) -> None:
    async with running(served) as instance:
        caller = Caller(instance.url)
        first = await fail_one(caller)
        assert brief(await caller.apply("nightly", job_file("second"))) == (200, 2, True)
        second = await fail_one(caller, day="tuesday")
        assert brief(await caller.apply("nightly", job_file("third"))) == (200, 3, True)
        for execution, which in ((first, "first of monday"), (second, "second of tuesday")):
            begun = await caller.change(execution, "restart")
            assert await claimed(caller) == (begun.told["executionId"], which)
        started = await caller.start(day="friday")
        assert (started.told["jobName"], started.told["version"]) == ("nightly", 3)
        assert await claimed(caller) == (started.told["executionId"], "third of friday")
        told = [(await caller.ask("GET", f"/batch/jobexecutions/{one}")).told for one in range(1, 6)]
        assert [(one["jobName"], one.get("version")) for one in told] == [
            ("nightly", version) for version in (None, 2, None, 2, 3)
        ]
        assert await versions_of(caller) == [("apply", 1), ("apply", 2), ("apply", 3)]


async def test_lists_have_the_name_with_the_version_beside_it(served: ServeSettings) -> None:
    async with running(served) as instance:
        caller = Caller(instance.url)
        for which in ("second", "third"):
            await fail_one(caller)
            await caller.apply("nightly", job_file(which))
        await fail_one(caller)
        await caller.start("short")
        assert (await caller.ask("GET", "/batch/jobs")).told["jobNames"] == ["nightly", "short"]

        async def rows(path: str, member: str = "", number: str = "instanceId") -> list[tuple[int, str, int | None]]:
            told = (await caller.ask("GET", path)).told
            return [(one[number], one["jobName"], one.get("version")) for one in (told[member] if member else told)]

        newest = [(3, "nightly", 3), (2, "nightly", 2), (1, "nightly", None)]
        assert await rows("/batch/jobinstances?jobName=nightly") == newest
        assert await rows("/batch/jobinstances?jobName=nightly&page=1&pageSize=2") == newest[2:]
        assert await rows("/batch/jobinstances?jobName=nightly&instanceState=FAILED") == newest
        assert await rows("/batch/jobinstances") == [(4, "short", None), *newest]
        assert await rows("/batch/jobexecutions?jobName=nightly&details=true", "jobExecutions") == newest
        assert await rows("/batch/jobexecutions?search=nightl", "jobExecutions") == newest
        assert await rows("/batch/jobexecutions?search=%402", "jobExecutions") == []
        assert await rows("/batch/open?jobName=nightly", "jobInstances") == newest
        jobs = (await caller.ask("GET", "/batch/catalogue")).told["jobs"]
        assert [(one["jobName"], one.get("version"), one["instances"]) for one in jobs] == [
            ("nightly", 3, 3),
            ("short", None, 1),
        ]
        assert jobs[0]["newest"]["instanceId"] == 3
        for path in (
            "jobinstances?jobName=nightly%402",
            "jobinstances?jobName=none",
            "jobinstances?jobName=none&instanceState=FAILED",
        ):
            assert (await caller.ask("GET", f"/batch/{path}")).name == "NoSuchJobException"
        assert (await caller.start("nightly@2")).name == (await caller.start("none")).name == "JobStartException"
        await caller.claim()
        work = (await caller.ask("GET", "/batch/work?withJobs=true")).told
        assert [(one["jobName"], one.get("version")) for one in work] == [("short", None)]


async def test_each_version_has_its_picture(served: ServeSettings) -> None:
    two = JSL % ("nightly", '<step id="only" next="more"><batchlet ref="b"/></step><step id="more"><batchlet ref="b"/></step>')
    async with running(served) as instance:
        caller = Caller(instance.url)
        assert "version" not in (await caller.ask("GET", "/batch/catalogue?jobName=nightly")).told
        await caller.apply("nightly", two)
        for version, words, count in ((2, "", 2), (1, "&version=1", 1), (2, "&version=2", 2)):
            job = (await caller.ask("GET", f"/batch/catalogue?jobName=nightly{words}")).told
            assert (job["id"], job["version"], len(job["elements"])) == ("nightly", version, count)
            picture = await caller.ask("GET", f"/batch/catalogue/picture?jobName=nightly{words}")
            assert (picture.status, picture.told["ways"]) == (200, count - 1)
        assert (await caller.ask("GET", "/batch/catalogue?jobName=nightly&version=3")).name == "JobStartException"
        assert (await caller.ask("GET", "/batch/catalogue?jobName=nightly%402")).name == "JobStartException"


async def test_what_changes_nothing_is_no_version(served: ServeSettings) -> None:
    async with running(served) as instance:
        caller = Caller(instance.url)
        spaces = job_file("first").replace("<step", "\n  <step").replace("/>", " />")
        assert brief(await caller.apply("nightly", spaces, "key")) == (200, 1, False)
        json_kind = "application/json"
        job = {"id": "plain", "elements": [{"kind": "step", "id": "s", "batchlet": {"ref": "b"}}]}
        assert brief(await caller.apply("plain", json.dumps(job), kind=json_kind)) == (200, 1, True)
        written_out = {"restartable": True, **job, "elements": [{**cast(Any, job["elements"])[0], "start-limit": 0}]}
        assert brief(await caller.apply("plain", json.dumps(written_out, indent=1), kind=json_kind)) == (200, 1, False)
        assert brief(await caller.apply("plain", json.dumps({"jobs": [{**job, "restartable": False}]}), kind=json_kind)) == (
            200,
            2,
            True,
        )
        # A property alone is a change, too.
        assert brief(await caller.apply("nightly", job_file("first!"))) == (200, 2, True)
        assert brief(await caller.apply("nightly", job_file("first"), "again")) == (200, 3, True)
        assert brief(await caller.apply("nightly", spaces, "key")) == (200, 1, False)
        assert len(await versions_of(caller)) == 3


async def test_a_job_that_is_withdrawn_is_restarted_and_not_started(served: ServeSettings) -> None:
    async with running(served) as instance:
        caller = Caller(instance.url)
        execution = await fail_one(caller)
        await caller.start(key="before", day="sunday")
        assert brief(await withdrawn(caller, key="gone")) == (200, 1, True)
        assert brief(await withdrawn(caller, key="gone")) == (200, 1, True)
        assert brief(await withdrawn(caller)) == (200, 1, False)
        refused = await caller.start(key="after")
        assert (refused.status, refused.name) == (409, "JobWithdrawn")
        assert (await caller.start(key="before", day="sunday")).told["executionId"] == 2
        assert (await caller.change(execution, "restart")).told["executionId"] == 3
        assert [one["jobName"] for one in (await caller.ask("GET", "/batch/catalogue")).told["jobs"]] == ["short"]
        assert len((await caller.ask("GET", "/batch/jobinstances?jobName=nightly")).told) == 2
        assert (await caller.ask("GET", "/batch/jobs/nightly/versions")).told["withdrawn"] is True
        # Neither a restart of the service nor its folder brings it back. To apply it does.
    async with running(served) as instance:
        caller = Caller(instance.url)
        assert (await caller.start()).name == "JobWithdrawn"
        assert brief(await caller.apply("nightly", job_file("first"))) == (200, 1, True)
        assert (await caller.start()).status == 201
        await withdrawn(caller)
        assert brief(await caller.apply("nightly", job_file("second"))) == (200, 2, True)
        assert (await caller.start()).told["version"] == 2
        actions = ["apply", "withdraw", "return", "withdraw", "apply"]
        assert [action for action, _ in await versions_of(caller)] == actions
        none = [await withdrawn(caller, "none"), await caller.ask("GET", "/batch/jobs/none/versions")]
        assert [(one.status, one.name) for one in none] == [(404, "NoSuchJobException")] * 2


async def test_who_applied_what_is_told(served: ServeSettings) -> None:
    async with running(served) as instance:
        await Caller(instance.url, "ann").apply("nightly", job_file("second"))
        await withdrawn(Caller(instance.url, "bob"))
        told = (await Caller(instance.url).ask("GET", "/batch/jobs/nightly/versions")).told
    assert (told["jobName"], told["version"], told["withdrawn"]) == ("nightly", 2, True)
    rows = [(one["action"], one["version"], one["client"]) for one in told["changes"]]
    assert rows == [("withdraw", 2, "bob"), ("apply", 2, "ann"), ("apply", 1, "")]
    assert all(one["time"].endswith(" +0000") for one in told["changes"])


JSON_KIND = "application/json"
# Bodies, and how their fault is told.
WRONG: dict[str, tuple[str, str, str]] = {
    "no XML": ("<job", "application/xml", "nightly.xml:1:1: JSL: unclosed token"),
    "a document type": ('<!DOCTYPE job><job id="nightly"/>', "text/xml", "nightly.xml:1:14: JSL: a document type"),
    "no UTF-8": ("<job id='\udcff'/>", "application/xml", "nightly.xml:1:10: JSL: the byte 0xff is not utf-8"),
    "no job": ("<jobs/>", "application/xml", "nightly.xml:1:1: "),
    "a form of JSL": (
        JSL % ("nightly", '<listeners><listener ref="audit"/></listeners><step id="s"><batchlet ref="b"/></step>'),
        "application/xml",
        'nightly.xml:2:1: JSL in job "nightly": <listeners> of "audit" has no place in a catalogue',
    ),
    "another job": (
        job_file("x", "other"),
        "application/xml",
        'nightly.xml:1:9: OtherJob in job "other": expected the id "nightly"',
    ),
    "a version": (
        job_file("x", "nightly@7"),
        "application/xml",
        'nightly.xml:1:9: ReservedId in job "nightly@7": expected an id without',
    ),
    "a target that isn't there": (
        JSL % ("nightly", '<step id="s" next="nowhere"><batchlet ref="b"/></step>'),
        "application/xml",
        'nightly.xml:2:19: NoSuchTarget in job "nightly", step "s" (number 0): expected the id of an element',
    ),
    "no JSON": ('{"id"', JSON_KIND, "nightly.json:1:6: NotJson: "),
    "several jobs": ('{"jobs":[]}', JSON_KIND, 'nightly.json:1:1: OtherJobs: expected the job "nightly" alone, found 0 jobs'),
    "no job of JSON": ("[]", JSON_KIND, "nightly.json:1:1: NotACatalogue: "),
    "a member that is misspelt": (
        '{"id":"nightly","elements":[{"kind":"step","id":"s","batchlt":{"ref":"b"}}]}',
        JSON_KIND,
        "nightly.json:1:",
    ),
    "an empty job": ('{"id":"nightly",\n"elements":[]}', JSON_KIND, 'nightly.json:2:12: Empty in job "nightly"'),
}


async def test_a_wrong_file_is_refused_with_its_place_and_nothing_changes(kept: ServeSettings) -> None:
    async with running(kept) as instance:
        caller = Caller(instance.url)
        before = (kept.data / LOG_NAME).read_bytes(), sorted((kept.data / "jobs").iterdir())
        for what, (text, kind, told) in WRONG.items():
            data = text.encode("utf-8", "surrogateescape")
            for words in ("", "?check=true"):
                refused = await caller.ask("PUT", f"/batch/jobs/nightly{words}", data, "k" + words, **{"Content-Type": kind})
                assert (refused.status, refused.name) == (400, "JobRefused"), what
                assert refused.told["faults"][0].startswith(told), (what, refused.told["faults"])
        named = await caller.apply("nightly", "<job", words="?file=jobs/nightly.xml")
        assert named.told["faults"][0].startswith("jobs/nightly.xml:1:1: JSL")
        others = [
            await caller.apply("nightly", job_file("x"), kind="text/plain"),
            await caller.apply("nightly", "x" * 1_048_577),
            await caller.apply("nightly", job_file("x"), words="?checked=true"),
            await caller.ask("DELETE", "/batch/jobs/nightly", {"really": True}),
        ]
        assert [(one.status, one.name) for one in others] == [
            (415, "UnsupportedMediaType"),
            (413, "RequestEntityTooLarge"),
            (400, "BadRequest"),
            (400, "BadRequest"),
        ]
        assert ((kept.data / LOG_NAME).read_bytes(), sorted((kept.data / "jobs").iterdir())) == before
        assert await versions_of(caller) == [("apply", 1)]
        assert (await caller.start()).status == 201


async def test_a_name_may_have_any_characters(kept: ServeSettings, folder: Path) -> None:
    names = ["../../etc/passwd", ".hidden", "ä b%2F@x", "@", "a@b", "n" * 240, "x" * 251, "y" * 252]
    async with running(kept) as instance:
        caller = Caller(instance.url)
        answers = [await caller.apply(name, job_file("one", name)) for name in names]
        assert [answer.status for answer in answers] == [200] * 7 + [200]
        await caller.apply(names[0], job_file("two", names[0]))
        assert all(path.parent == kept.data / "jobs" for path in (kept.data / "jobs").rglob("*"))
        too_long = await caller.apply("z" * 253, job_file("one", "z" * 253))
        assert too_long.told["faults"][0].endswith('expected at most 256 bytes as "id", with the version, found more')
    async with running(kept) as instance:
        caller = Caller(instance.url)
        for name in names:
            assert (await caller.start(name, day="d")).status == 201
            assert (await claimed(caller))[1] == ("two of d" if name == names[0] else "one of d")


async def test_keys_of_changes_give_their_first_replies(served: ServeSettings) -> None:
    async with running(served) as instance:
        caller = Caller(instance.url)
        first = [await caller.apply("nightly", job_file("second"), "a"), await withdrawn(caller, "short", "b")]
        assert (await caller.apply("nightly", job_file("third"), "a")).name == "RequestKeyReused"
        assert (await caller.start(key="a")).name == (await withdrawn(caller, "short", "a")).name == "RequestKeyReused"
        assert (await Caller(instance.url, "other").apply("nightly", job_file("third"), "a")).told["version"] == 3
        both = await asyncio.gather(*(caller.apply("nightly", job_file("fourth"), "c") for _ in range(5)))
        assert {json.dumps(one.told) for one in both} == {json.dumps(both[0].told)}
    for _ in range(2):
        async with running(served) as instance:
            caller = Caller(instance.url)
            again = [await caller.apply("nightly", job_file("second"), "a"), await withdrawn(caller, "short", "b")]
            assert [one.told for one in again] == [one.told for one in first]
            assert (await caller.start(key="a")).name == "RequestKeyReused"
            assert len(await versions_of(caller)) == 4
        if not served.postgres:
            (served.data / STORE_NAME).unlink()


async def test_a_lost_sqlite_file_loses_no_version(kept: ServeSettings) -> None:
    async with running(kept) as instance:
        caller = Caller(instance.url)
        execution = await fail_one(caller)
        await caller.apply("nightly", job_file("second"))
        await withdrawn(caller, "short")
    for path in kept.data.glob(f"{STORE_NAME}*"):
        path.unlink()
    async with running(kept) as instance:
        caller = Caller(instance.url)
        assert await versions_of(caller) == [("apply", 1), ("apply", 2)]
        assert (await caller.start("short")).name == "JobWithdrawn"
        await caller.change(execution, "restart")
        assert await claimed(caller) == (2, "first of monday")
        await caller.start(day="friday")
        assert await claimed(caller) == (3, "second of friday")


async def test_the_folder_makes_versions_at_a_restart(served: ServeSettings, folder: Path) -> None:
    async with running(served) as instance:
        caller = Caller(instance.url)
        execution = await fail_one(caller)
        await caller.start("short")
    write_jobs(folder, nightly="second", added="first")
    (folder / "short.xml").unlink()
    for _ in range(2):
        async with running(served) as instance:
            caller = Caller(instance.url)
            assert [await versions_of(caller, job) for job in ("nightly", "short", "added")] == [
                [("apply", 1), ("apply", 2)],
                [("apply", 1)],
                [("apply", 1)],
            ]
            # A file that is dropped withdraws nothing.
            assert (await caller.start("short")).status == (await caller.start("added")).status == 201
            started = (await caller.start(day="friday")).told
            assert started["version"] == 2
    async with running(served) as instance:
        assert (await Caller(instance.url).change(execution, "restart")).status == 200


async def test_an_old_file_of_the_folder_takes_nothing_back(served: ServeSettings, folder: Path) -> None:
    async with running(served) as instance:
        await Caller(instance.url).apply("nightly", job_file("second"))
    async with running(served) as instance:
        caller = Caller(instance.url)
        assert await versions_of(caller) == [("apply", 1), ("apply", 2)]
        await read_again(instance)
        assert len(await versions_of(caller)) == 2
        write_jobs(folder, nightly="second")
        await read_again(instance)
        assert len(await versions_of(caller)) == 2
        # The file is another one than before: a person has put it back.
        write_jobs(folder, nightly="first")
        await read_again(instance)
        assert len(await versions_of(caller)) == 3 and (await caller.start(day="d")).told["version"] == 3
        assert (await claimed(caller))[1] == "first of d"


async def test_sighup_reads_the_folder_again(served: ServeSettings, folder: Path, caplog: pytest.LogCaptureFixture) -> None:
    async with running(served) as instance:
        caller = Caller(instance.url)
        write_jobs(folder, nightly="second", short="second", added="first")
        await read_again(instance)
        assert [(await caller.start(job)).told.get("version") for job in ("nightly", "short", "added")] == [2, 2, None]
        (folder / "nightly.xml").write_text(job_file("third"))
        (folder / "short.xml").write_text("<job")
        await read_again(instance)
        assert "the jobs stay as they are: " in caplog.text and "short.xml:1:1: JSL: unclosed token" in caplog.text
        wrong = JSL % ("short", '<step id="s" next="nowhere"><batchlet ref="b"/></step>')
        (folder / "short.xml").write_text(wrong)
        await read_again(instance)
        assert "short.xml:2:19: NoSuchTarget" in caplog.text and len(await versions_of(caller)) == 2
        await withdrawn(caller, "short")
        (folder / "short.xml").write_text(job_file("third", "short"))
        await read_again(instance)
        assert "the job 'short' is withdrawn" in caplog.text
        assert ((await caller.start("short")).name, (await caller.start()).told["version"]) == ("JobWithdrawn", 3)


async def test_sighup_as_a_signal(kept: ServeSettings, folder: Path, tmp_path: Path) -> None:
    from instances import Process

    words = ["--jobs", str(folder), "--batchctl", kept.batchctl[0], "--data", str(kept.data)]
    process = Process(tmp_path / "service", *words)
    try:
        process.start()
        await process.until_role("leader")
        caller = Caller(process.url)
        write_jobs(folder, nightly="second")
        process.signal(signal.SIGHUP)

        async def has_version() -> bool:
            return len(await versions_of(caller)) == 2

        await until(has_version)
        assert (await caller.start()).told["version"] == 2
    finally:
        process.kill()


async def test_calls_wait_while_the_catalogue_grows(served: ServeSettings) -> None:
    """None is refused: starts, reads, claims that wait, and what is asked of one state in several steps."""
    async with running(served) as instance:
        caller = Caller(instance.url)
        claim = asyncio.create_task(Caller(instance.url, "waiting").claim(wait=60))
        await instance.until_claims_wait(1)
        is_over = asyncio.Event()

        async def go_on(name: str) -> list[int]:
            one, statuses = Caller(instance.url, name), []
            while not is_over.is_set():
                answers = [await one.start("short"), await one.ask("GET", "/batch/jobinstances?jobName=short")]
                statuses += [answer.status for answer in answers]
            return statuses

        clients = [asyncio.create_task(go_on(f"client-{number}")) for number in range(4)]
        for number in range(5):
            answer = await caller.apply("nightly", job_file(str(number)))
            assert brief(answer) == (200, 2 + number, True), answer.told
        is_over.set()
        statuses = [status for client in clients for status in await client]
        assert set(statuses) == {200, 201} and len(statuses) > 20
        assert (await claim).status == 200
        assert engine_of(instance).entered == statuses.count(201) + 1


async def test_operations_between_growth_and_new_process(shared: ServeSettings, monkeypatch: pytest.MonkeyPatch) -> None:
    """They are kept under the epoch that began with the catalogue, and are known afterwards."""
    take_place = GrownProcess.take_place

    async def take_place_later(grown: GrownProcess) -> None:
        assert [(await Caller(instance.url).start("short")).status for _ in range(3)] == [201, 201, 201]
        await take_place(grown)

    monkeypatch.setattr(GrownProcess, "take_place", take_place_later)
    async with running(shared) as instance:
        caller = Caller(instance.url)
        assert brief(await caller.apply("nightly", job_file("second"))) == (200, 2, True)
        assert (await caller.start("short")).told["executionId"] == 4
        assert (await caller.start()).told["version"] == 2


async def test_two_changes_at_once_are_two_versions(served: ServeSettings) -> None:
    async with running(served) as instance:
        callers = [Caller(instance.url, f"client-{number}") for number in range(8)]
        answers = await asyncio.gather(*(one.apply("nightly", job_file(str(n % 4))) for n, one in enumerate(callers)))
        versions = sorted(answer.told["version"] for answer in answers if answer.told["changed"])
        assert versions == list(range(2, 2 + len(versions))) and len(versions) >= 4
        assert len(await versions_of(callers[0])) == 1 + len(versions)


async def test_a_kill_between_the_file_and_the_growth(kept: ServeSettings) -> None:
    """The change is kept, so the next co-process has it. Its key gives the reply that nobody was told."""
    async with running(kept) as instance:
        caller, keeper = Caller(instance.url), cast(Any, instance.service.keeper)
        grow = keeper._grow

        async def kill_and_grow(term: Any, line: bytes) -> None:
            keeper._grow = grow
            keeper.engine.process.kill()
            await grow(term, line)

        keeper._grow = kill_and_grow
        assert (await caller.apply("nightly", job_file("second"), "key")).status == 503
        await until(lambda: has_led(instance, 2))
        assert brief(await caller.apply("nightly", job_file("second"), "key")) == (200, 2, True)
        assert (await caller.start()).told["version"] == 2


async def has_led(instance: Instance, epoch: int) -> bool:
    keeper = instance.service.keeper
    return (keeper.role, keeper.epoch >= epoch) == ("leader", True)


async def test_a_crash_between_the_file_and_the_growth(kept: ServeSettings) -> None:
    """The whole service dies: what is kept is taken over when it begins again, and what is cut off isn't."""
    async with running(kept) as instance:
        await fail_one(Caller(instance.url))
        cast(Any, instance.service.keeper)._grow = None
        assert (await Caller(instance.url).apply("nightly", job_file("second"), "key")).status in (500, 503)
    changes = kept.data / "jobs" / "changes"
    with changes.open("ab") as file:
        file.write(changes.read_bytes().splitlines()[-1][:50])
    async with running(kept) as instance:
        caller = Caller(instance.url)
        assert await versions_of(caller) == [("apply", 1), ("apply", 2)]
        assert brief(await caller.apply("nightly", job_file("second"), "key")) == (200, 2, True)
        assert brief(await caller.apply("nightly", job_file("third"))) == (200, 3, True)
        await caller.change(1, "restart")
        assert await claimed(caller) == (2, "first of monday")
    assert changes.read_bytes().count(b"\n") == 4


async def test_a_full_disk_refuses_a_change(kept: ServeSettings, monkeypatch: pytest.MonkeyPatch) -> None:
    from job_host.service.versions import files

    async with running(kept) as instance:
        caller = Caller(instance.url)

        def fail(*given: Any) -> None:
            raise OSError(28, "No space left on device")

        monkeypatch.setattr(files, "write_whole", fail)
        refused = await caller.apply("nightly", job_file("second"), "key")
        assert (refused.status, refused.name) == (503, "StoreLost")
        monkeypatch.undo()
        await until(lambda: has_led(instance, 2))
        assert brief(await caller.apply("nightly", job_file("second"), "key")) == (200, 2, True)


async def test_a_catalogue_that_is_full_says_so(kept: ServeSettings, folder: Path, monkeypatch: pytest.MonkeyPatch) -> None:
    monkeypatch.setattr(book, "MOST_JOBS", 3)
    async with running(kept) as instance:
        caller = Caller(instance.url)
        assert brief(await caller.apply("nightly", job_file("second"))) == (200, 2, True)
        for words in ("", "?check=true"):
            refused = await caller.apply("nightly", job_file("third"), words=words)
            assert (refused.status, refused.name) == (409, "CatalogueFull")
            assert "at most 3 jobs" in refused.told["detail"]
        assert brief(await caller.apply("nightly", job_file("second"))) == (200, 2, False)
        assert brief(await withdrawn(caller, "short")) == (200, 1, True)
    write_jobs(folder, nightly="third")
    with pytest.raises(Fatal, match="CatalogueFull"):
        async with running(kept):
            pass


async def test_256_versions_are_the_most(kept: ServeSettings, tmp_path: Path) -> None:
    many = tmp_path / "many"
    many.mkdir()
    for number in range(255):
        (many / f"{number}.xml").write_text(job_file("first", f"job-{number}"))
    async with running(replace(kept, catalogue=many)) as instance:
        caller = Caller(instance.url)
        assert brief(await caller.apply("job-3", job_file("second", "job-3"))) == (200, 2, True)
        assert (await caller.apply("job-3", job_file("third", "job-3"))).name == "CatalogueFull"
        assert (await caller.start("job-3")).told["version"] == 2


async def test_jobs_of_a_catalogue_s_file_are_fixed(either: Make) -> None:
    async with running(either()) as instance:
        caller = Caller(instance.url)
        answers = [
            await caller.apply("nightly", job_file("second")),
            await withdrawn(caller),
            await caller.ask("GET", "/batch/jobs/nightly/versions"),
        ]
        assert [(answer.status, answer.name) for answer in answers] == [(409, "JobsFixed")] * 3


async def test_who_may_change_jobs(kept: ServeSettings, tmp_path: Path) -> None:
    tokens = {role: role[0] * 20 for role in ("reader", "operator", "worker")}
    (tmp_path / "tokens").write_text("".join(f"{role} {role}s {token}\n" for role, token in tokens.items()))
    async with running(replace(kept, tokens=tmp_path / "tokens")) as instance:
        for role, token in tokens.items():
            caller = Caller(instance.url, "ann", token)
            answers = [await caller.apply("nightly", job_file("second")), await withdrawn(caller, "short")]
            assert [one.status for one in answers] == [200 if role == "operator" else 403] * 2
            assert (await caller.ask("GET", "/batch/jobs/nightly/versions")).status == 200
        assert (await caller.ask("GET", "/batch/jobs/nightly/versions")).told["changes"][0]["client"] == "operators/ann"


async def test_a_version_as_a_user_s_job_is_refused_at_load(kept: ServeSettings, folder: Path) -> None:
    from job_host.catalogue.jobs import JobsRefused

    (folder / "z.xml").write_text(job_file("x", "nightly@2"))
    with pytest.raises(JobsRefused, match='z.xml:1:9: ReservedId in job "nightly@2": expected an id without `@` and digits'):
        Instance(kept)


async def test_a_log_from_before_versions_goes_on(kept: ServeSettings, folder: Path) -> None:
    """Files that are as before are taken over with their properties. Those of a job that is changed at once aren't known."""
    async with running(kept) as instance:
        await fail_one(Caller(instance.url))
        await fail_one(Caller(instance.url), "short")
    shutil.rmtree(kept.data / "jobs")
    two = JSL % ("short", '<step id="only" next="more"><batchlet ref="b"/></step><step id="more"><batchlet ref="b"/></step>')
    (folder / "short.xml").write_text(two)
    async with running(kept) as instance:
        caller = Caller(instance.url)
        assert [await versions_of(caller, job) for job in ("nightly", "short")] == [[("apply", 1)], [("apply", 2)]]
        await caller.change(1, "restart")
        assert await claimed(caller) == (3, "first of monday")
        await caller.change(2, "restart")
        told = (await caller.claim()).told
        assert told["propertiesFault"] == "the file of 'short' isn't kept, so its properties aren't known"
        assert (told["jobName"], "version" in told, "properties" in told) == ("short", False, False)


async def test_a_file_of_a_version_that_was_changed_on_the_disk_is_none(kept: ServeSettings) -> None:
    async with running(kept) as instance:
        await fail_one(Caller(instance.url))
    (kept.data / "jobs" / "nightly@1.xml").write_text(job_file("other"))
    async with running(kept) as instance:
        caller = Caller(instance.url)
        await caller.change(1, "restart")
        assert "isn't kept" in (await caller.claim()).told["propertiesFault"]


async def test_another_log_has_its_own_versions(kept: ServeSettings) -> None:
    """A new log begins with all versions. The old one, whose jobs stand in another order, goes on with what it lacks."""
    log = kept.data / LOG_NAME
    async with running(kept) as instance:
        await fail_one(Caller(instance.url))
    shutil.copy(log, kept.data / "old.log")
    async with running(kept) as instance:
        await Caller(instance.url).apply("short", job_file("second", "short"))
        await Caller(instance.url).apply("nightly", job_file("second"))
    log.unlink()
    async with running(kept) as instance:
        assert (await Caller(instance.url).start()).told["version"] == 2
    (kept.data / "old.log").rename(log)
    async with running(kept) as instance:
        caller = Caller(instance.url)
        assert [(await caller.start(job)).told["version"] for job in ("nightly", "short")] == [2, 2]
        await caller.change(1, "restart")
        jobs = json.loads(log_file.catalogue_of(log) or b"")["jobs"]
    assert [job["id"] for job in jobs] == ["nightly", "short", "short@2", "nightly@2"]


async def test_damaged_changes_are_named(kept: ServeSettings) -> None:
    async with running(kept):
        pass
    changes = kept.data / "jobs" / "changes"
    changes.write_bytes(changes.read_bytes().replace(b'"action"', b'"motion"', 1))
    with pytest.raises(Fatal, match="DamagedChanges: .*jobs/changes, line 1: KeyError"):
        async with running(kept):
            pass


async def test_the_files_are_their_owner_s_alone(kept: ServeSettings) -> None:
    async with running(kept) as instance:
        await Caller(instance.url).apply("nightly", job_file("second"))
    modes = {path.name: path.stat().st_mode & 0o777 for path in (kept.data / "jobs").iterdir()}
    assert modes == dict.fromkeys(("changes", "seen", "nightly@1.xml", "nightly@2.xml", "short@1.xml"), 0o600)
    assert (kept.data / "jobs").stat().st_mode & 0o777 == 0o700
    assert (kept.data / "jobs" / "nightly@2.xml").read_text() == job_file("second")


async def test_keys_of_what_changes_nothing_are_in_the_sqlite_file(kept: ServeSettings) -> None:
    async with running(kept) as instance:
        await Caller(instance.url).apply("nightly", job_file("first"), "key")
    with closing(sqlite3.connect(kept.data / STORE_NAME)) as store:
        assert store.execute("select key, reply from request").fetchall() == [
            ("key", b'{"jobName":"nightly","version":1,"changed":false}')
        ]


async def test_a_follower_follows_the_versions(shared: ServeSettings) -> None:
    async with running(shared) as one, running(shared, "follower") as two:
        caller, reader = Caller(one.url), Caller(two.url)
        execution = await fail_one(caller)
        refused = [await reader.apply("nightly", job_file("second")), await withdrawn(reader)]
        assert [(answer.status, answer.name) for answer in refused] == [(503, "NotLeader")] * 2
        await caller.apply("nightly", job_file("second"))
        started = await caller.start(day="tuesday")
        path = f"/batch/jobexecutions/{started.told['executionId']}?atLeast={started.operations}"
        read = await reader.ask("GET", path)
        assert (read.status, read.told["jobName"], read.told["version"]) == (200, "nightly", 2)
        await withdrawn(caller, "short")

        async def is_known() -> bool:
            return (await reader.ask("GET", "/batch/jobs/short/versions")).told["withdrawn"] is True

        await until(is_known)
        assert await versions_of(reader) == [("apply", 1), ("apply", 2)]
        await one.stop()
        await two.until_role("leader")
        assert (await reader.start("short")).name == "JobWithdrawn"
        assert await claimed(reader) == (started.told["executionId"], "second of tuesday")
        await reader.change(execution, "restart")
        assert await claimed(reader) == (3, "first of monday")
        assert brief(await reader.apply("nightly", job_file("third"), "key")) == (200, 3, True)
        assert brief(await reader.apply("nightly", job_file("third"), "key")) == (200, 3, True)


async def test_reads_of_a_follower_go_on_while_the_catalogue_grows(shared: ServeSettings) -> None:
    async with running(shared) as one, running(shared, "follower") as two:
        caller, reader, is_over = Caller(one.url), Caller(two.url), asyncio.Event()
        begun = await caller.start("short")
        assert (await reader.ask("GET", f"/batch/jobexecutions/1?atLeast={begun.operations}")).status == 200

        async def read() -> set[int]:
            statuses = set[int]()
            while not is_over.is_set():
                statuses.add((await reader.ask("GET", "/batch/jobexecutions/1")).status)
            return statuses

        reading = asyncio.create_task(read())
        for number in range(4):
            await caller.apply("nightly", job_file(str(number)))
            seen = (await caller.start(day="d")).operations
            assert (await reader.ask("GET", f"/batch/jobexecutions?atLeast={seen}")).told["jobExecutions"][0][
                "version"
            ] == number + 2
        is_over.set()
        assert await reading == {200}


async def test_a_new_leader_with_an_older_folder_takes_nothing_back(settings: Make, folder: Path, tmp_path: Path) -> None:
    older = write_jobs(tmp_path / "older", nightly="first", short="first")
    async with running(settings(catalogue=folder, is_folder=True)) as one:
        write_jobs(folder, nightly="second")
        await read_again(one)
        async with running(settings(catalogue=older, is_folder=True), "follower") as two:
            await one.stop()
            await two.until_role("leader")
            caller = Caller(two.url)
            assert await versions_of(caller) == [("apply", 1), ("apply", 2)]
            write_jobs(older, nightly="third")
            await read_again(two)
            assert (await caller.start()).told["version"] == 3


async def test_a_leader_that_is_cut_off_changes_nothing(shared: ServeSettings) -> None:
    async with running(shared) as one:
        keeper = cast(Any, one.service.keeper)
        grow = keeper._store.grow

        async def take_over_and_grow(epoch: int, growth: Any) -> Any:
            await keeper._store._commits.execute("update job_host_leader set epoch = epoch + 1, holder = ''")
            return await grow(epoch, growth)

        keeper._store.grow = take_over_and_grow
        caller = Caller(one.url)
        refused = await caller.apply("nightly", job_file("second"), "key")
        assert (refused.status, refused.name) == (503, "NotLeader")
        await one.until_role("leader")
        assert await versions_of(caller) == [("apply", 1)]
        assert brief(await caller.apply("nightly", job_file("second"), "key")) == (200, 2, True)


@pytest.mark.parametrize("moment", ["before", "after"])
async def test_a_kill_of_batchctl_beside_the_commit_of_a_change(shared: ServeSettings, moment: str) -> None:
    async with running(shared) as one:
        keeper = cast(Any, one.service.keeper)
        await Caller(one.url).start("short")
        grow = keeper._store.grow

        async def kill_and_grow(*given: Any) -> Any:
            if moment == "before":
                keeper.engine.process.kill()
            grown = await grow(*given)
            if moment == "after":
                keeper.engine.process.kill()
            return grown

        keeper._store.grow = kill_and_grow
        caller = Caller(one.url)
        told = await caller.apply("nightly", job_file("second"), "key")
        assert told.status in (200, 503)
        await until(lambda: has_led(one, 2))

        async def is_answered() -> bool:
            return brief(await caller.apply("nightly", job_file("second"), "key")) == (200, 2, True)

        await until(is_answered)
        assert (await caller.start()).told["version"] == 2 and len(await versions_of(caller)) == 2
