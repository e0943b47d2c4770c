"""Workers and commands: real worker processes, and executables as artifacts."""

from __future__ import annotations

import asyncio
import signal
import sys
from collections.abc import Callable
from pathlib import Path

from instances import COMMAND, Caller, Process, running, until
from workers import WorkerProcess, end_of, run_job, working

from job_host.service.settings import ServeSettings

Make = Callable[..., ServeSettings]


async def jobctl(url: str, *words: str) -> tuple[int, str]:
    """A command of the client, with its exit status and what it wrote."""
    given = [str(COMMAND), words[0], "--url", url, *words[1:]]
    pipe = asyncio.subprocess.PIPE
    process = await asyncio.create_subprocess_exec(sys.executable, *given, stdout=pipe, stderr=asyncio.subprocess.STDOUT)
    text, _ = await process.communicate()
    assert process.returncode is not None
    return process.returncode, text.decode()


async def test_how_a_process_ends_is_how_its_work_item_ends(settings: Make, night: Path, artifacts: Path) -> None:
    async with running(settings(catalogue=night)) as instance, working(instance.url, artifacts):
        caller = Caller(instance.url)
        names = ("says", "silent", "empty", "no-feed", "most", "three", "signal", "flood")
        told = dict(zip(names, await asyncio.gather(*(run_job(caller, name) for name in names))))
        lost = [await run_job(caller, name) for name in ("missing", "not-executable", "../outside")]
    assert told["says"] == ("COMPLETED", "SENT", "SENT\nmore\n")
    assert told["silent"][:2] == ("COMPLETED", "COMPLETED")
    assert told["empty"][:2] == ("COMPLETED", "")
    assert told["no-feed"][:2] == ("COMPLETED", "GOOD")
    assert told["most"][:2] == ("COMPLETED", "0" * 256)
    assert told["three"] == ("FAILED", "3", "oops\n")
    assert told["signal"][:2] == ("FAILED", "signal 9")
    assert told["flood"][:2] == ("COMPLETED", "y")
    assert len(told["flood"][2]) == 65_536 and set(told["flood"][2].splitlines()[1:]) <= {"y", "end"}
    assert {one[:2] for one in lost} == {("FAILED", "FAILED")} and all("no executable" in one[2] for one in lost)


async def test_what_an_artifact_finds_in_its_environment(settings: Make, night: Path, artifacts: Path) -> None:
    async with running(settings(catalogue=night)) as instance, working(instance.url, artifacts):
        status, _, log = await run_job(Caller(instance.url), "environment", date="2026-11-27")
    assert (status, log) == ("COMPLETED", 'environment 1 1 only  {"date": "2026-11-27"}\n')


async def test_a_decision_is_an_executable_too(settings: Make, night: Path, artifacts: Path) -> None:
    async with running(settings(catalogue=night)) as instance, working(instance.url, artifacts):
        caller = Caller(instance.url)
        await caller.start("day")
        assert (await end_of(caller, 1))["batchStatus"] == "COMPLETED"


async def test_a_chunk_fails_and_goes_on_from_its_checkpoint(settings: Make, night: Path, artifacts: Path) -> None:
    async with running(settings(catalogue=night)) as instance, working(instance.url, artifacts):
        caller = Caller(instance.url)
        (artifacts / "fail-at").write_text("2")
        await caller.start("copy", items="5")
        failed = (await end_of(caller, 1))["stepExecutions"][0]
        log = (await caller.ask("GET", "/batch/jobexecutions/1/joblogs")).told[0]["log"]
        (artifacts / "fail-at").unlink()
        body = {"jobParameters": {"items": "5"}}
        await caller.ask("PUT", "/batch/jobexecutions/1?action=restart", body)
        ended = (await end_of(caller, 2))["stepExecutions"][0]
    counts = {"READ_COUNT": 2, "FILTER_COUNT": 1, "WRITE_COUNT": 1, "COMMIT_COUNT": 1, "ROLLBACK_COUNT": 1}
    assert (failed["batchStatus"], failed["metrics"]) == ("FAILED", counts)
    assert "table: write: disk full" in log and "rows opened at 0 in copy" in log
    counts = {"READ_COUNT": 3, "FILTER_COUNT": 1, "WRITE_COUNT": 2, "COMMIT_COUNT": 2}
    assert (ended["batchStatus"], ended["exitStatus"], ended["metrics"]) == ("COMPLETED", "COMPLETED", counts)
    assert (artifacts / "written").read_text() == "[1]\n[3]\n[5]\n"


async def test_a_chunk_stops_at_its_next_group(settings: Make, night: Path, artifacts: Path) -> None:
    (artifacts / "slow").touch()
    async with running(settings(catalogue=night)) as instance, working(instance.url, artifacts):
        caller = Caller(instance.url)
        await caller.start("copy", items="100000")

        async def has_written() -> bool:
            return (artifacts / "written").exists()

        await until(has_written)
        await caller.change(1, "stop")
        told = await end_of(caller, 1)
    groups = len((artifacts / "written").read_text().splitlines())
    assert (told["batchStatus"], told["stepExecutions"][0]["metrics"]["COMMIT_COUNT"]) == ("STOPPED", groups)


async def test_a_stop_reaches_a_batchlet_that_allows_it(settings: Make, night: Path, artifacts: Path) -> None:
    async def is_running() -> bool:
        return (artifacts / "is-running").exists()

    async with running(settings(catalogue=night, lease=1.5)) as instance, working(instance.url, artifacts):
        caller = Caller(instance.url)
        await caller.start("patient")
        await until(is_running)
        await caller.change(1, "stop")
        stopped = await end_of(caller, 1)
        (artifacts / "is-running").unlink()
        await caller.start("stubborn")
        await until(is_running)
        await caller.change(2, "stop")
        await asyncio.sleep(1.5)
        assert await caller.status(2) == "STOPPING"
        (artifacts / "go-on").touch()
        whole = await end_of(caller, 2)
    assert (stopped["batchStatus"], stopped["stepExecutions"][0]["exitStatus"]) == ("STOPPED", "BROKEN-OFF")
    assert (whole["batchStatus"], whole["stepExecutions"][0]["exitStatus"]) == ("COMPLETED", "WHOLE")


def words_of(made: ServeSettings) -> list[str]:
    given = ["--catalogue", str(made.catalogue), "--batchctl", made.batchctl[0], "--takeover-after", "1.5", "--lease", "10"]
    return [*given, "--postgres", made.postgres[0]]


async def test_a_worker_survives_the_service(settings: Make, night: Path, artifacts: Path, tmp_path: Path) -> None:
    """The service is killed while an artifact runs: the worker goes on with its work item, and reports it to the next one."""
    service = Process(tmp_path / "service", *words_of(settings(catalogue=night)))
    try:
        service.start()
        await service.until_role("leader")
        caller = Caller(service.url)
        async with working(service.url, artifacts):
            await caller.start("counted", seconds="2")

            async def has_begun() -> bool:
                return (artifacts / "begun").exists()

            await until(has_begun)
            service.kill()
            await asyncio.sleep(0.5)
            service.start()
            await service.until_role("leader")
            told = await end_of(caller, 1)
    finally:
        service.kill()
    assert (told["batchStatus"], told["stepExecutions"][0]["exitStatus"]) == ("COMPLETED", "DONE")
    assert (artifacts / "begun").read_text() == (artifacts / "ended").read_text() == "1\n"


async def test_a_killed_worker_takes_its_artifact_along(settings: Make, night: Path, artifacts: Path) -> None:
    """Its lease runs out, so that the job execution is FAILED, and another worker runs the restart."""
    async with running(settings(catalogue=night, lease=1.0)) as instance:
        caller = Caller(instance.url)
        async with working(instance.url, artifacts) as worker:
            await caller.start("counted", seconds="3")

            async def has_begun() -> bool:
                return (artifacts / "begun").exists()

            await until(has_begun)
            worker.process.send_signal(signal.SIGKILL)
            assert (await end_of(caller, 1))["batchStatus"] == "FAILED"
        async with working(instance.url, artifacts):
            await caller.change(1, "restart")
            assert (await end_of(caller, 2))["batchStatus"] == "COMPLETED"
            await asyncio.sleep(1.5)
    assert (artifacts / "begun").read_text() == "1\n2\n"
    assert (artifacts / "ended").read_text() == "2\n"


async def test_a_killed_worker_takes_along_what_its_artifact_started(settings: Make, night: Path, artifacts: Path) -> None:
    """The restart runs alone: of the first attempt no process is left, not even one in a session of its own."""

    async def has_begun() -> bool:
        return (artifacts / "begun").exists()

    async with running(settings(catalogue=night, lease=1.0)) as instance:
        caller = Caller(instance.url)
        async with working(instance.url, artifacts) as worker:
            await caller.start("nested")
            await until(has_begun)
            worker.process.send_signal(signal.SIGKILL)
            assert (await end_of(caller, 1))["batchStatus"] == "FAILED"
        async with working(instance.url, artifacts):
            await caller.change(1, "restart")
            assert (await end_of(caller, 2))["batchStatus"] == "COMPLETED"
    assert (artifacts / "begun").read_text() == "begun\n" * 2
    assert (artifacts / "late").read_text() == "late\n" and (artifacts / "ended").read_text() == "ended\n"


async def test_a_worker_that_is_told_to_end_ends_its_work_first(settings: Make, night: Path, artifacts: Path) -> None:
    async with running(settings(catalogue=night)) as instance, working(instance.url, artifacts, 1) as worker:
        caller = Caller(instance.url)
        await caller.start("stubborn")

        async def is_running() -> bool:
            return (artifacts / "is-running").exists()

        await until(is_running)
        worker.process.send_signal(signal.SIGTERM)
        await asyncio.sleep(0.3)
        assert worker.process.poll() is None
        (artifacts / "go-on").touch()
        assert await asyncio.to_thread(worker.process.wait, 30) == 0
        assert await caller.status(1) == "COMPLETED"


async def test_a_worker_that_is_told_to_end_claims_nothing_more(settings: Make, night: Path, artifacts: Path) -> None:
    """One slot is busy, and the claim of the other one waits: it is withdrawn at once."""

    async def is_running() -> bool:
        return (artifacts / "is-running").exists()

    async with running(settings(catalogue=night)) as instance, working(instance.url, artifacts, 2) as worker:
        caller = Caller(instance.url)
        await caller.start("stubborn")
        await until(is_running)
        await instance.until_claims_wait(1)
        worker.process.send_signal(signal.SIGTERM)
        await instance.until_claims_wait(0, 5)
        await caller.start("says")
        (artifacts / "go-on").touch()
        assert await asyncio.to_thread(worker.process.wait, 30) == 0
        assert [await caller.status(execution) for execution in (1, 2)] == ["COMPLETED", "STARTING"]


async def test_a_worker_ends_though_the_service_is_gone(settings: Make, night: Path, artifacts: Path) -> None:
    """It can't know whether its claim was made, which waited."""
    async with running(settings(catalogue=night)) as instance:
        worker = WorkerProcess(instance.url, artifacts)
        await Caller(instance.url).start("says")
        await end_of(Caller(instance.url), 1)
    try:
        worker.process.send_signal(signal.SIGTERM)
        assert await asyncio.to_thread(worker.process.wait, 40) == 3
    finally:
        worker.stop()


async def test_commands(settings: Make, night: Path, artifacts: Path) -> None:
    async with running(settings(catalogue=night)) as instance, working(instance.url, artifacts):
        url = instance.url
        assert await jobctl(url, "start", "says", "--wait") == (
            0,
            "job execution 1 of job instance 1 was made\njob execution 1 is COMPLETED, exit status COMPLETED\n",
        )
        status, text = await jobctl(url, "start", "three", "--wait")
        assert (status, text.splitlines()[-1]) == (3, "job execution 2 is FAILED, exit status FAILED")
        status, text = await jobctl(url, "failed")
        assert (status, text.splitlines()) == (
            0,
            [
                "three: job execution 2 is FAILED, exit status FAILED",
                "  step only: exit status 3",
                "    oops",
                "  jobhost restart 2",
            ],
        )
        (artifacts / "three").write_text("#!/bin/sh\necho MENDED\n")
        assert (await jobctl(url, "restart", "2", "--wait"))[0] == 0
        assert (await jobctl(url, "failed"))[1] == "no job instance is FAILED\n"
        assert "MENDED" in (await jobctl(url, "status", "3"))[1]
        assert (await jobctl(url, "log", "2"))[1] == "# work item 2, only\noops\n\n"
        assert (await jobctl(url, "watch", "3"))[0] == 0
        assert "three" in (await jobctl(url, "list"))[1]
        assert await jobctl(url, "restart", "3") == (1, "jobhost: JobExecutionAlreadyCompleteException\n")
        assert (await jobctl(url, "abandon", "3"))[0] == 0
        assert await jobctl(url, "purge", "2") == (0, "job instance 2 is purged\n")
        assert (await jobctl(url, "status", "3"))[1].splitlines()[-1] == "jobhost: NoSuchJobExecutionException"
        assert (await jobctl(url, "start", "says", "-p", "wrong"))[0] == 1


async def test_a_command_says_that_nobody_answers() -> None:
    status, text = await jobctl("http://127.0.0.1:9", "list", "--patience", "0.5")
    assert status == 1 and text.startswith("jobhost: GET /batch/jobinstances")
