"""`jobhost jobs`: a folder of files is applied, a job is withdrawn, its versions are shown; and versions in other commands."""

from __future__ import annotations

import asyncio
import json
from collections.abc import Awaitable, Callable
from pathlib import Path

import pytest
from instances import Caller, running
from job_versions import JSL, job_file, limited, step_claimed, step_of, timeout, versions_of, write_jobs

from job_host.commands.command_line import main
from job_host.service.settings import ServeSettings

Make = Callable[..., ServeSettings]
Call = Callable[..., Awaitable[tuple[int, str, str]]]


@pytest.fixture
def jobs(capsys: pytest.CaptureFixture[str]) -> Call:
    """Calls `jobhost jobs ACTION` of a service. Returns its status, and what it wrote on both outputs."""

    async def call(url: str, action: str, *words: str) -> tuple[int, str, str]:
        capsys.readouterr()
        status = await asyncio.to_thread(main, ["jobs", action, "--url", url, "--client", "ann", *words])
        told = capsys.readouterr()
        return status, told.out, told.err

    return call


@pytest.fixture
def served(embedded: Make, tmp_path: Path) -> ServeSettings:
    folder = write_jobs(tmp_path / "served", nightly="first", short="first")
    return embedded(catalogue=folder, is_folder=True)


def several(*names: str) -> str:
    """A catalogue of such jobs, in several lines."""
    return json.dumps(
        {"jobs": [{"id": n, "elements": [{"kind": "step", "id": "s", "batchlet": {"ref": "b"}}]} for n in names]}, indent=1
    )


async def test_a_folder_is_applied(served: ServeSettings, tmp_path: Path, jobs: Call) -> None:
    new = write_jobs(tmp_path / "new", nightly="second", short="first", added="first")
    (new / "more.json").write_text(several("one", "two"))
    async with running(served) as instance:
        lines = ["added: {} version 1", "one: {} version 1", "two: {} version 1", "nightly: {} version 2"]
        states: list[tuple[list[str], str]] = [(["--check"], "would be"), ([], "is")]
        for words, state in states:
            status, out, err = await jobs(instance.url, "apply", *words, str(new))
            assert (status, err) == (0, "")
            assert sorted(out.splitlines()) == sorted([*(line.format(state) for line in lines), "short: stays version 1"])
        assert (await jobs(instance.url, "apply", str(new)))[1].count("stays version") == 5
        (new / "nightly.xml").write_text(job_file("third"))
        assert await jobs(instance.url, "apply", str(new / "nightly.xml")) == (0, "nightly: is version 3\n", "")
        told = (await Caller(instance.url).ask("GET", "/batch/jobs/nightly/versions")).told["changes"]
        assert [(one["version"], one["client"]) for one in told] == [(3, "ann"), (2, "ann"), (1, "")]
        assert (await Caller(instance.url).start("two")).status == 201


async def test_a_folder_with_a_fault_changes_nothing(served: ServeSettings, tmp_path: Path, jobs: Call) -> None:
    new = write_jobs(tmp_path / "new", nightly="second")
    listeners = '<listeners><listener ref="audit"/></listeners><step id="s"><batchlet ref="b"/></step>'
    (new / "b.xml").write_text(JSL % ("b", listeners))
    (new / "c.xml").write_text("<job")
    (new / "d.xml").write_text("<job/>")
    (new / "e.json").write_text(
        several("one", "two").replace('"batchlet"', '"batchlt"', 2).replace('"batchlt"', '"batchlet"', 1)
    )
    (new / "f.xml").mkdir()
    async with running(served) as instance:
        status, out, err = await jobs(instance.url, "apply", str(new))
        assert (status, out) == (1, "")
        told = err.replace(f"{new}/", "").splitlines()
        beginnings = [
            "c.xml:1:1: JSL: unclosed token",
            "d.xml:",
            "f.xml: Is a directory",
            'b.xml:2:1: JSL in job "b": <listeners> of "audit" has no place in a catalogue',
            "e.json:21:",
        ]
        missing = [one for one in beginnings if not any(line.startswith(one) for line in told)]
        assert missing == [], told
        assert told[-1] == f"jobhost jobs apply: {new} is refused, and nothing is changed"
        assert await versions_of(Caller(instance.url)) == [("apply", 1)]
        for path, reason in ((tmp_path / "none.xml", "No such file"), (tmp_path / "empty", "there is no file *.xml or *.json")):
            (tmp_path / "empty").mkdir(exist_ok=True)
            assert reason in (await jobs(instance.url, "apply", str(path)))[2]
        assert "a job's file is *.xml or *.json" in (await jobs(instance.url, "apply", str(tmp_path / "notes.txt")))[2]


async def test_settings_are_applied_with_their_job(served: ServeSettings, tmp_path: Path, jobs: Call) -> None:
    new = tmp_path / "new"
    new.mkdir()
    (new / "nightly.xml").write_text(limited(1))
    settings = new / "nightly.settings.json"
    async with running(served) as instance:
        assert await jobs(instance.url, "apply", str(new)) == (0, "nightly: is version 2\n", "")
        settings.write_text(timeout(60))
        assert await jobs(instance.url, "apply", "--check", str(new)) == (0, "nightly: would be version 3\n", "")
        assert await jobs(instance.url, "apply", str(new)) == (0, "nightly: is version 3\n", "")
        settings.write_text(timeout(90))
        assert await jobs(instance.url, "apply", str(new / "nightly.xml")) == (0, "nightly: is version 4\n", "")
        assert await jobs(instance.url, "apply", str(new)) == (0, "nightly: stays version 4\n", "")
        await Caller(instance.url).start()
        assert (await step_claimed(Caller(instance.url)))[1] == step_of(1, 90)
        settings.unlink()
        assert await jobs(instance.url, "apply", str(new)) == (0, "nightly: is version 5\n", "")


async def test_wrong_settings_change_nothing(served: ServeSettings, tmp_path: Path, jobs: Call) -> None:
    new = write_jobs(tmp_path / "new", added="first")
    (new / "nightly.xml").write_text(limited(1))
    settings, without = new / "nightly.settings.json", new / "gone.settings.json"
    settings.write_text(timeout(0))
    without.write_text("{}")
    refused = f"jobhost jobs apply: {new} is refused, and nothing is changed"
    async with running(served) as instance:
        status, out, err = await jobs(instance.url, "apply", str(new))
        told = err.replace(f"{new}/", "").splitlines()
        assert (status, out) == (1, "") and told[
            0
        ] == "gone.settings.json: there is no job file gone.xml, whose settings these are"
        assert told[1].startswith('nightly.settings.json:1:32: settings in job "nightly", step "only"') and told[2:] == [
            refused
        ]
        without.unlink()
        settings.unlink()
        settings.mkdir()
        assert (await jobs(instance.url, "apply", str(new)))[2] == f"{settings}: Is a directory\n{refused}\n"
        settings.rmdir()
        settings.write_text(timeout(1))
        reason = "these are settings, which are applied with their job's file nightly.xml"
        assert reason in (await jobs(instance.url, "apply", str(settings)))[2]
        assert await versions_of(Caller(instance.url)) == [("apply", 1)]


async def test_what_is_left_out_is_told(embedded: Make, tmp_path: Path, jobs: Call) -> None:
    folder = write_jobs(tmp_path / "served", nightly="first")
    made = embedded(catalogue=folder, is_folder=True, allow=("listeners",))
    listeners = '<listeners><listener ref="audit"/></listeners><step id="s"><batchlet ref="b"/></step>'
    (tmp_path / "nightly.xml").write_text(JSL % ("nightly", listeners))
    async with running(made) as instance:
        status, out, err = await jobs(instance.url, "apply", str(tmp_path / "nightly.xml"))
        assert (status, out) == (0, "nightly: is version 2\n")
        assert 'nightly.xml:2:1: left out in job "nightly": <listeners> of "audit": no listener of a job is called' in err


async def test_a_job_is_withdrawn_and_its_versions_are_shown(served: ServeSettings, jobs: Call) -> None:
    async with running(served) as instance:
        await Caller(instance.url, "bob").apply("nightly", job_file("second"))
        assert await jobs(instance.url, "withdraw", "nightly") == (0, "nightly: is withdrawn, at version 2\n", "")
        assert await jobs(instance.url, "withdraw", "nightly") == (0, "nightly: is withdrawn already, at version 2\n", "")
        status, out, err = await jobs(instance.url, "versions", "nightly", "--utc")
        assert (status, err) == (0, "") and "nightly: version 2, withdrawn" in out
        rows = [[cell.strip() for cell in line.strip("│").split("│")][:3] for line in out.splitlines() if line.startswith("│")]
        assert rows == [["2", "withdraw", "ann"], ["2", "apply", "bob"], ["1", "apply", "the service"]]
        for action in ("withdraw", "versions"):
            status, out, err = await jobs(instance.url, action, "none")
            assert (status, out) == (1, "") and err.startswith("jobhost: NoSuchJobException")


async def test_other_commands_show_a_version_above_1(
    served: ServeSettings, say: Callable[..., Awaitable[tuple[int, str]]], monkeypatch: pytest.MonkeyPatch
) -> None:
    monkeypatch.setenv("COLUMNS", "200")
    async with running(served) as instance:
        caller = Caller(instance.url)
        for number in (1, 2):
            await caller.start(day="d")
            await caller.claim()
            assert "nightly (version 2)" in (await say(instance.url, "work"))[1] or number == 1
            await caller.finish(number, "FAILED")
            await caller.apply("nightly", job_file("second"))
        for command, *words in (["status", "2"], ["list"], ["failed"], ["open"]):
            assert "nightly (version 2)" in (await say(instance.url, command, *words))[1], command
        assert "version" not in (await say(instance.url, "status", "1"))[1]
        told = (await say(instance.url, "failed"))[1]
        assert "nightly: job execution 1 is FAILED" in told and "nightly (version 2): job execution 2 is FAILED" in told
