"""Several queues behind one service: each job in its own, numbers that are unique, claims in a worker's order, joined lists."""

from __future__ import annotations

import asyncio
import uuid
from collections.abc import AsyncIterator
from dataclasses import replace
from datetime import datetime
from pathlib import Path
from typing import Any

import pytest
from instances import Instance, running, until
from queued import NIGHT, URGENT, QueueCaller, jsl, queued_settings, write_jobs
from workers import end_of, working

from job_host.catalogue.jobs import JobsRefused
from job_host.protocol.client import Address, Client
from job_host.protocol.seen import Seen, written
from job_host.service.keepers.keeper import Compaction
from job_host.service.keepers.keeper import Fatal
from job_host.service.problems import unavailable
from job_host.service.server import Service


@pytest.fixture
def jobs(tmp_path: Path, has_log: None) -> Path:
    return write_jobs(tmp_path / "jobs")


@pytest.fixture
async def service(tmp_path: Path, jobs: Path) -> AsyncIterator[Instance]:
    async with running(queued_settings(tmp_path, jobs)) as instance:
        yield instance


async def until_waiting(service: Instance) -> None:
    """Returns after a claim waits."""

    async def waits() -> bool:
        return service.service.queues.waiting == 1

    await until(waits)


async def test_each_queue_numbers_its_own(service: Instance) -> None:
    caller = QueueCaller(service.url)
    made = [(await caller.start(job)).told for job in ("day", "alarm", "dump", "alarm")]
    assert [one["executionId"] for one in made] == [1, URGENT + 1, NIGHT + 1, URGENT + 2]
    assert [one["instanceId"] for one in made] == [1, URGENT + 1, NIGHT + 1, URGENT + 2]
    assert made[1]["_links"][0] == {"rel": "self", "href": f"/batch/jobexecutions/{URGENT + 1}"}
    shown = (await caller.ask("GET", f"/batch/jobexecutions/{URGENT + 2}")).told
    assert (shown["jobName"], shown["executionId"], shown["batchStatus"]) == ("alarm", URGENT + 2, "STARTING")
    for path in (f"/batch/jobexecutions/{URGENT + 3}", f"/batch/jobexecutions/{5 * URGENT + 1}"):
        assert (await caller.ask("GET", path)).name == "NoSuchJobExecutionException"


async def test_a_claim_goes_to_the_first_queue_that_has_something(service: Instance) -> None:
    caller = QueueCaller(service.url)
    for job in ("day", "alarm", "dump"):
        await caller.start(job)
    found = [(await caller.claim_of("night", "default")).told for _ in range(3)]
    assert [one.get("jobName") for one in found] == ["dump", "day", None] and found[2] == {"nothing": True}
    work = found[0]["work"]
    assert (work["work"], work["execution"], found[0]["instanceId"]) == (NIGHT + 1, NIGHT + 1, NIGHT + 1)
    # Without queues a worker asks for the default one alone.
    assert (await caller.claim()).told == {"nothing": True}
    assert (await caller.claim_of("urgent")).told["jobName"] == "alarm"
    assert (await caller.finish(NIGHT + 1)).status == 200
    assert await caller.status(NIGHT + 1) == "COMPLETED"
    assert [one["work"] for one in (await caller.ask("GET", "/batch/work")).told] == [1, URGENT + 1]
    assert (await caller.claim_of("urgnet")).name == "NoSuchQueue"
    assert (await caller.ask("POST", "/batch/work", {"queues": ["a b"]})).name == "BadRequest"


async def test_a_claim_waits_for_each_of_its_queues(service: Instance) -> None:
    caller, key = QueueCaller(service.url), uuid.uuid4().hex
    for job, queue in (("alarm", "urgent"), ("dump", "night"), ("alarm", "urgent")):
        waiting = asyncio.ensure_future(caller.claim_of("urgent", "night", wait=20))
        await until_waiting(service)
        assert not waiting.done()
        await caller.start(job)
        told = (await asyncio.wait_for(waiting, 10)).told
        assert told["jobName"] == job
    assert (await caller.claim_of("urgent", wait=0.2)).told == {"nothing": True}
    # A claim is made once by its key, in whichever queue that was.
    await caller.start("dump")
    first = (await caller.claim_of("urgent", "night", key=key)).told
    await caller.start("alarm")
    assert first["jobName"] == "dump" and (await caller.claim_of("urgent", "night", key=key)).told == first
    assert (await caller.withdraw(key)).told == first
    # One that is withdrawn before is never made.
    assert (await caller.withdraw("never")).told == {"withdrawn": True}
    assert (await caller.claim_of("urgent", key="never")).name == "ClaimWithdrawn"
    assert (await caller.claim_of("urgent")).told["jobName"] == "alarm"


async def test_what_was_seen_has_a_number_for_each_queue(service: Instance) -> None:
    caller = QueueCaller(service.url)
    assert (await caller.start("dump")).seen == "0,0,1"
    assert (await caller.start("day")).seen == "1"
    # Whoever hands back what it was given is told no less.
    assert (await caller.seen(f"/batch/jobexecutions/{NIGHT + 1}", "1")).seen == "1,0,1"
    assert (await caller.seen("/batch/jobs", "0")).seen == "1,0,1"
    late = await caller.seen("/batch/jobs", "1,1")
    assert (late.status, late.name) == (503, "NotYetSeen")
    assert (await caller.seen("/batch/jobs", "1,0,1,0")).status == 200
    for wrong in ("1,0,1,1", "1,", "x", "-1", str(2**64)):
        assert (await caller.seen("/batch/jobs", wrong)).name == "BadRequest"


async def test_lists_join_the_queues_newest_first(service: Instance) -> None:
    caller = QueueCaller(service.url)
    order = ["day", "alarm", "dump", "day", "dump", "alarm", "archive"]
    for job in order:
        await caller.start(job)
    for path in ("jobexecutions", "jobinstances"):
        whole = await rows_of(caller, f"{path}?pageSize=50")
        assert [one["jobName"] for one in whole] == order[::-1]
        pages = [await rows_of(caller, f"{path}?pageSize=2&page={page}") for page in range(4)]
        assert [one for page in pages for one in page] == whole
        assert [len(page) for page in pages] == [2, 2, 2, 1]
    told = (await caller.ask("GET", "/batch/jobexecutions?pageSize=4&page=1")).told
    assert (told["more"], told["total"], told["statusCounts"]) == (False, 7, {"STARTING": 7} | zeros(told["statusCounts"]))
    assert (await caller.ask("GET", "/batch/jobexecutions?pageSize=4")).told["more"] is True
    found = (await caller.ask("GET", f"/batch/jobexecutions?search={NIGHT + 2}")).told["jobExecutions"]
    assert [one["executionId"] for one in found] == [NIGHT + 2]
    named = (await caller.ask("GET", "/batch/jobinstances?jobName=alarm")).told
    assert [one["instanceId"] for one in named] == [URGENT + 2, URGENT + 1]
    assert (await caller.ask("GET", "/batch/jobinstances?jobName=none")).name == "NoSuchJobException"
    states = (await caller.ask("GET", "/batch/jobinstances?instanceState=STARTING&pageSize=3")).told
    assert [one["jobName"] for one in states] == order[:-4:-1]
    jobs = (await caller.ask("GET", "/batch/jobs")).told
    assert sorted(jobs["jobNames"]) == ["alarm", "archive", "day", "dump"]
    shown = (await caller.ask("GET", "/batch/catalogue")).told["jobs"]
    assert {one["jobName"]: one["instances"] for one in shown} == {"day": 2, "wide": 0, "alarm": 2, "archive": 1, "dump": 2}
    audit = (await caller.ask("GET", "/batch/audit?pageSize=3")).told
    assert [(one["queue"], one["made"]) for one in audit] == [
        ("night", NIGHT + 3),
        ("urgent", URGENT + 2),
        ("night", NIGHT + 2),
    ]


async def rows_of(caller: QueueCaller, path: str) -> list[dict[str, Any]]:
    """The rows of a page."""
    told = (await caller.ask("GET", f"/batch/{path}")).told
    return list(told["jobExecutions"] if isinstance(told, dict) else told)


def zeros(counts: dict[str, int]) -> dict[str, int]:
    return {name: count for name, count in counts.items() if not count}


async def test_what_is_open_joins_the_queues(service: Instance) -> None:
    caller = QueueCaller(service.url)
    for job in ("day", "alarm", "dump"):
        await caller.start(job)
        claimed = (await caller.claim_of("default", "urgent", "night")).told
        await caller.finish(claimed["work"]["work"], "FAILED", log=f"{job} fails")
    told = (await caller.ask("GET", "/batch/open?pageSize=2")).told
    assert [one["executionId"] for one in told["jobInstances"]] == [NIGHT + 1, URGENT + 1]
    assert told["jobInstances"][0]["causes"][0]["work"] == NIGHT + 1 and told["counts"]["FAILED"] == 3 and told["more"]
    rest = (await caller.ask("GET", "/batch/open?pageSize=2&page=1")).told
    assert [one["executionId"] for one in rest["jobInstances"]] == [1] and not rest["more"]
    assert "alarm fails" in (await caller.ask("GET", f"/batch/jobexecutions/{URGENT + 1}/joblogs?type=text")).told
    again = await caller.change(URGENT + 1, "restart", uuid.uuid4().hex)
    assert again.told["executionId"] == URGENT + 2 and again.told["instanceId"] == URGENT + 1
    done = (await caller.ask("GET", f"/batch/jobexecutions/{URGENT + 1}/operations")).told
    assert (done[0]["action"], done[0]["made"]) == ("restart", URGENT + 2)
    workers = (await caller.ask("GET", "/batch/workers")).told
    assert [one["client"] for one in workers["workers"]] == ["tester"] and workers["unasked"] == []


async def test_a_history_goes_on_with_its_queues(tmp_path: Path, jobs: Path) -> None:
    made = queued_settings(tmp_path, jobs)
    async with running(made) as service:
        assert (await QueueCaller(service.url).start("dump")).told["executionId"] == NIGHT + 1
    # A queue that isn't declared any more keeps its number and its job instances; nothing begins in it.
    for name in ("dump", "archive"):
        (jobs / f"{name}.xml").unlink()
        (jobs / f"{name}.settings.json").unlink()
    fewer = replace(made, queues={name: bounds for name, bounds in made.queues.items() if name != "night"})
    async with running(fewer) as service:
        caller = QueueCaller(service.url)
        assert await caller.status(NIGHT + 1) == "STARTING"
        assert (await caller.claim_of("night")).told["work"]["execution"] == NIGHT + 1
        told = (await caller.ask("GET", "/batch/history")).told["queues"]
        assert [(one["queue"], one["number"], one["operations"]) for one in told] == [
            ("default", 0, 0),
            ("urgent", 1, 0),
            ("night", 2, 2),
        ]


async def test_a_job_begins_in_one_queue_at_a_time(service: Instance) -> None:
    caller = QueueCaller(service.url)
    await caller.start("dump", key="a")
    moved = Form(jsl("dump"), '{"queue": "urgent"}')
    refused = await caller.ask("PUT", "/batch/jobs/dump", moved.body, **moved.headers)
    assert refused.name == "JobInOtherQueue" and "'night'" in refused.told["detail"]
    unknown = Form(jsl("dump"), '{"queue": "none"}')
    told = await caller.ask("PUT", "/batch/jobs/dump", unknown.body, **unknown.headers)
    assert told.name == "JobRefused" and 'default, urgent, night (--queues), found "none"' in told.told["detail"]
    assert (await caller.ask("DELETE", "/batch/jobs/dump")).told["changed"] is True
    assert (await caller.start("dump")).name == "JobWithdrawn"
    applied = await caller.ask("PUT", "/batch/jobs/dump", moved.body, **moved.headers)
    assert applied.told == {"jobName": "dump", "version": 1, "changed": True}
    assert (await caller.start("dump")).told["executionId"] == URGENT + 1
    assert (await caller.ask("GET", "/batch/jobs/dump/versions")).told["queue"] == "urgent"
    # What was started before stays where it was, also by its key.
    assert (await caller.start("dump", key="a")).told["executionId"] == NIGHT + 1
    assert (await caller.claim_of("night")).told["work"]["execution"] == NIGHT + 1


class Form:
    """A body of a job's file with its settings, and its headers."""

    def __init__(self, job: str, settings: str) -> None:
        parts = [("job", job), ("settings", settings)]
        told = "".join(f'--x\r\nContent-Disposition: form-data; name="{name}"\r\n\r\n{text}\r\n' for name, text in parts)
        self.body = f"{told}--x--\r\n".encode()
        self.headers = {"Content-Type": "multipart/form-data; boundary=x"}


BOUNDED: dict[str, Any] = {"urgent": {"mostBusy": 1}, "night": {"mostRunning": 2, "labels": ["tape"]}}


async def test_a_queue_keeps_its_bounds(tmp_path: Path, has_log: None) -> None:
    jobs = write_jobs(tmp_path / "jobs", archive={"oneAtATime": True})
    async with running(queued_settings(tmp_path, jobs, BOUNDED)) as service:
        caller = QueueCaller(service.url)
        for job in ("alarm", "alarm", "archive"):
            await caller.start(job)
        # One work item of the queue is busy at a time.
        work = (await caller.claim_of("urgent")).told["work"]["work"]
        assert (await caller.claim_of("urgent")).told == {"nothing": True}
        waiting = asyncio.ensure_future(caller.claim_of("urgent", wait=20))
        await until_waiting(service)
        assert not waiting.done()
        await caller.finish(work)
        assert (await asyncio.wait_for(waiting, 10)).told["jobName"] == "alarm"
        # One job execution of the job isn't finished at a time, and two of the queue.
        refused = await caller.start("archive", key="again")
        assert (refused.status, refused.name, refused.told["executionId"]) == (409, "JobIsRunning", NIGHT + 1)
        assert (await caller.start("dump")).status == 201
        full = await caller.start("dump")
        assert (full.status, full.name) == (409, "QueueFull")
        # A worker needs the labels of a queue.
        lacks = await caller.claim_of("night")
        assert (lacks.status, lacks.name) == (409, "LacksLabels") and "night: tape" in lacks.told["detail"]
        assert (await caller.claim_of("night", "default")).told == {"nothing": True}
        first = (await caller.claim_of("night", labels=("tape",))).told["work"]
        assert first["execution"] == NIGHT + 1
        await caller.finish(first["work"])
        # What was refused isn't kept by its key.
        assert (await caller.start("archive", key="again")).status == 201


async def test_a_job_names_a_queue_of_the_service(tmp_path: Path, has_log: None) -> None:
    jobs = write_jobs(tmp_path / "jobs", {"day": ("default", 0), "alarm": ("urgnet", 0)})
    with pytest.raises(JobsRefused) as refused:
        Service(queued_settings(tmp_path, jobs))
    told = 'expected a queue of this service, which are default, urgent, night (--queues), found "urgnet"'
    assert refused.value.lines == [f"{jobs}/alarm.settings.json: {told}"]


async def test_a_queue_whose_calls_wait_holds_up_no_claim_of_another(service: Instance) -> None:
    """As it is compacted, also by a claim on it alone."""
    caller, night = QueueCaller(service.url), service.service.queues.named("night").keeper
    await caller.start("dump")
    assert night.engine is not None
    async with night.engine.turn:
        night.compaction = Compaction(0)
        alone = asyncio.ensure_future(caller.claim_of("night"))
        waiting = asyncio.ensure_future(caller.claim_of("night", "urgent", wait=20))
        await asyncio.sleep(0.3)
        assert not alone.done() and not waiting.done()
        await caller.start("alarm")
        assert (await asyncio.wait_for(waiting, 10)).told["jobName"] == "alarm"
        await caller.start("alarm")
        assert (await asyncio.wait_for(caller.claim_of("night", "urgent"), 10)).told["jobName"] == "alarm"
        waiting = asyncio.ensure_future(caller.claim_of("night", "urgent", wait=20))
        await asyncio.sleep(0.3)
        assert not alone.done() and not waiting.done()
        night.compaction = Compaction(0, is_over=True)
    assert (await asyncio.wait_for(alone, 10)).told["jobName"] == "dump"
    await caller.start("dump")
    assert (await asyncio.wait_for(waiting, 10)).told["jobName"] == "dump"


SLEEPS, ENDS = "#!/bin/sh\nsleep 1\n", "#!/bin/sh\n:\n"


async def test_an_urgent_job_starts_beside_64_partitions(tmp_path: Path, has_log: None) -> None:
    """Four slots run partitions of a second each: the next slot that is free takes up the urgent job."""
    jobs = write_jobs(tmp_path / "jobs", {"wide": ("default", 64), "alarm": ("urgent", 0)})
    artifacts = tmp_path / "artifacts"
    artifacts.mkdir()
    for name, text in (("wide", SLEEPS), ("alarm", ENDS)):
        (artifacts / name).write_text(text)
        (artifacts / name).chmod(0o755)
    async with running(queued_settings(tmp_path, jobs)) as service:
        caller = QueueCaller(service.url)
        async with working(service.url, artifacts, 4, ["--queues", "urgent,default"]):
            await caller.start("wide")

            async def is_busy() -> bool:
                return len((await caller.ask("GET", "/batch/work")).told) == 4

            await until(is_busy, 60)
            execution = (await caller.start("alarm")).told["executionId"]
            told = await end_of(caller, execution)
            assert told["batchStatus"] == "COMPLETED" and await caller.status(1) == "STARTED"
            made, started = (datetime.strptime(told[name], "%Y/%m/%d %H:%M:%S.%f %z") for name in ("createTime", "startTime"))
            assert (started - made).total_seconds() < 2


async def test_a_worker_says_its_queues_and_labels(tmp_path: Path, has_log: None) -> None:
    jobs = write_jobs(tmp_path / "jobs", {"dump": ("night", 0), "alarm": ("urgent", 0)})
    artifacts = tmp_path / "artifacts"
    artifacts.mkdir()
    for name in ("dump", "alarm"):
        (artifacts / name).write_text(ENDS)
        (artifacts / name).chmod(0o755)
    async with running(queued_settings(tmp_path, jobs, {"night": {"labels": ["tape"]}})) as service:
        caller = QueueCaller(service.url)
        made = [(await caller.start(job)).told["executionId"] for job in ("dump", "alarm")]
        async with working(service.url, artifacts, 1, ["--queues", "night,urgent"]):
            assert (await end_of(caller, made[1]))["batchStatus"] == "COMPLETED"
            assert await caller.status(made[0]) == "STARTING"
            shown = (await caller.ask("GET", "/batch/workers")).told
            assert shown["noneAsks"] is False
        async with working(service.url, artifacts, 1, ["--queues", "night", "--labels", "disk,tape"]):
            assert (await end_of(caller, made[0]))["batchStatus"] == "COMPLETED"
        told = (await caller.ask("GET", "/metrics")).told
        assert 'jobhost_queue_busy{queue="night"} 0.0' in told and 'jobhost_queue_claims_waiting{queue="urgent"} 0.0' in told
        assert 'jobhost_job_executions{status="COMPLETED"} 2.0' in told and "jobhost_operations 6.0" in told


async def test_a_client_reads_no_less_than_it_has_seen(service: Instance, monkeypatch: pytest.MonkeyPatch) -> None:
    asked: list[str] = []
    caller, queues = QueueCaller(service.url), service.service.queues
    check = queues.check_known

    def note(seen: Seen) -> None:
        asked.append(written(seen))
        check(seen)

    monkeypatch.setattr(queues, "check_known", note)
    async with Client(Address((service.url,), "reader")) as client:
        for job in ("dump", "day"):
            await client.operate("POST", "/batch/jobinstances", {"jobName": job})
        asked.clear()
        await client.read("/batch/jobs")
        assert set(asked) == {"1,0,1"}
        await caller.start("alarm")
        assert (await client.read(f"/batch/jobexecutions/{URGENT + 1}"))["jobName"] == "alarm"
        asked.clear()
        await client.read(f"/batch/jobexecutions/{NIGHT + 1}")
        assert set(asked) == {"1,1,1"}


async def test_a_job_is_started_once_by_its_parameters(tmp_path: Path, has_log: None) -> None:
    jobs = write_jobs(tmp_path / "jobs", {"dump": ("night", 0), "day": ("default", 0)}, dump={"onceByParameters": True})
    async with running(queued_settings(tmp_path, jobs)) as service:
        first, other = QueueCaller(service.url, "first"), QueueCaller(service.url, "other")
        made = (await first.start("dump", key="a", date="1")).told["executionId"]
        assert (await other.start("dump", key="b", date="1")).told["executionId"] == made == NIGHT + 1
        assert (await other.start("dump", date="2")).told["executionId"] == NIGHT + 2
        # Not so other jobs, and not after a purge.
        assert [(await first.start("day", date="1")).told["executionId"] for _ in range(2)] == [1, 2]
        await other.run_all("night")
        assert (await other.ask("DELETE", f"/batch/jobinstances/{NIGHT + 1}")).told == {"instance": NIGHT + 1, "purged": True}
        assert (await first.start("dump", date="1")).told["executionId"] == NIGHT + 3
        # It goes with the job to another queue.
        assert (await other.ask("DELETE", "/batch/jobs/dump")).status == 200
        moved = Form(jsl("dump"), '{"queue": "urgent", "onceByParameters": true}')
        assert (await other.ask("PUT", "/batch/jobs/dump", moved.body, **moved.headers)).status == 200
        assert (await other.start("dump", date="2")).told["executionId"] == NIGHT + 2
        assert (await other.start("dump", date="3")).told["executionId"] == URGENT + 1


async def test_a_claim_that_waits_is_told_that_a_queue_fails(service: Instance) -> None:
    """It is made again by its key: what it was given, if anything, is found then."""
    caller = QueueCaller(service.url)
    waiting = asyncio.ensure_future(caller.claim_of("urgent", "night", wait=20))
    await until_waiting(service)
    term = service.service.queues.named("night").keeper.leading()
    term.fail(unavailable("CoProcessEnded", "batchctl has ended"))
    answer = await asyncio.wait_for(waiting, 10)
    assert answer.status == 503 and answer.name in ("CoProcessEnded", "Starting")
    # The others go on meanwhile, and so does this one soon.
    await caller.start("alarm")
    assert (await caller.claim_of("urgent")).told["jobName"] == "alarm"

    async def leads() -> bool:
        return service.service.queues.role == "leader"

    await until(leads)
    await caller.start("dump")
    assert (await caller.claim_of("urgent", "night", wait=10)).told["jobName"] == "dump"


async def test_claims_end_with_the_service(tmp_path: Path, jobs: Path) -> None:
    async with running(queued_settings(tmp_path, jobs)) as service:
        waiting = asyncio.ensure_future(QueueCaller(service.url).claim_of("urgent", wait=30))
        await until_waiting(service)
        assert not waiting.done()
    answer = await asyncio.wait_for(waiting, 5)
    assert (answer.status, answer.name) == (503, "Starting")


BROKEN = '<next on="X" to="nowhere"/>'


async def test_a_fault_in_one_queue_changes_no_other(tmp_path: Path, jobs: Path, caplog: pytest.LogCaptureFixture) -> None:
    """Only batchctl knows this fault: it is asked of all queues before anything changes."""
    made = queued_settings(tmp_path, jobs)
    async with running(made) as service:
        caller = QueueCaller(service.url)
        right = (jobs / "dump.xml").read_text()
        (jobs / "day.xml").write_text(jsl("day", 3))
        (jobs / "dump.xml").write_text(right.replace("</step>", f"{BROKEN}</step>"))
        await service.service._read_jobs_again()
        assert "the jobs aren't read again" in caplog.text and "dump.xml" in caplog.text
        assert (await caller.ask("GET", "/batch/jobs/day/versions")).told["version"] == 1
    with pytest.raises(Fatal, match="dump.xml"):
        async with running(made):
            raise AssertionError
    (jobs / "dump.xml").write_text(right)
    async with running(made) as service:
        told = (await QueueCaller(service.url).ask("GET", "/batch/jobs/day/versions")).told
        assert [one["version"] for one in told["changes"]] == [2, 1]
