"""Jobs of tests that change: files in JSL whose property and whose steps say which version it is."""

from __future__ import annotations

import asyncio
import json
from pathlib import Path
from typing import Any

from instances import Answer, Caller, Instance

JSL = '<job id="%s" xmlns="https://jakarta.ee/xml/ns/jakartaee" version="2.0">\n%s</job>\n'
STEP = """<step id="only"><batchlet ref="only"><properties>
<property name="which" value="%s of #{jobParameters['day']}"/></properties></batchlet></step>
"""


CHUNK = """<step id="only"><chunk skip-limit="%s"><reader ref="reader"/><writer ref="writer"/>
<skippable-exception-classes><include class="a.B"/></skippable-exception-classes></chunk></step>
"""
FORM = "multipart/form-data; boundary=between"


def limited(limit: int) -> str:
    """The job `nightly`, whose step skips so many faults at most."""
    return JSL % ("nightly", CHUNK % limit)


def timeout(seconds: int) -> str:
    """Settings with the time of its step."""
    return json.dumps({"steps": {"only": {"timeout": seconds}}})


def step_of(limit: int, seconds: int | None) -> dict[str, Any]:
    """What a claim tells of such a step."""
    chunk = {"skip-limit": limit, "skippable-exception-classes": {"include": ["a.B"]}}
    return {"chunk": chunk} if seconds is None else {"chunk": chunk, "timeout": seconds}


def form(*parts: tuple[str, str]) -> bytes:
    """The body of a form with such parts, by their names."""
    head = '--between\r\nContent-Disposition: form-data; name="%s"\r\n\r\n%s\r\n'
    return ("".join(head % part for part in parts) + "--between--\r\n").encode()


async def applied(caller: Caller, file: str, settings: str, key: str | None = None, words: str = "") -> Answer:
    """Applies the file of the job `nightly` with its settings."""
    body = form(("job", file), ("settings", settings))
    return await caller.ask("PUT", f"/batch/jobs/nightly{words}", body, key, **{"Content-Type": FORM})


async def step_claimed(caller: Caller) -> tuple[int, Any]:
    """The job execution of the next work item, and what its claim tells of the step."""
    told = (await caller.claim()).told
    return told["work"]["execution"], told.get("step")


async def fail_one(caller: Caller, job: str = "nightly", day: str = "monday") -> int:
    """Starts a job, whose step fails."""
    execution = int((await caller.start(job, day=day)).told["executionId"])
    work = (await caller.claim()).told["work"]["work"]
    assert (await caller.finish(work, "FAILED")).status == 200
    return execution


async def read_again(instance: Instance) -> None:
    """Returns after the files were read again, as by SIGHUP."""
    instance.service.read_again()
    await asyncio.gather(*instance.service.readings)


def job_file(which: str, job: str = "nightly") -> str:
    """A job of one step, whose artifact has the property `which`."""
    return JSL % (job, STEP % which)


def write_jobs(folder: Path, **jobs: str) -> Path:
    """A folder with a file of each of these jobs."""
    folder.mkdir(exist_ok=True)
    for job, which in jobs.items():
        (folder / f"{job}.xml").write_text(job_file(which, job))
    return folder


async def claimed(caller: Caller) -> tuple[int, Any]:
    """The job execution of the next work item, and the property of its artifact."""
    told = (await caller.claim()).told
    return told["work"]["execution"], told.get("properties", {}).get("batchlet", {}).get("which")


async def versions_of(caller: Caller, job: str = "nightly") -> list[tuple[str, int]]:
    """The changes of a job, the oldest first."""
    told = (await caller.ask("GET", f"/batch/jobs/{job}/versions")).told
    return [(one["action"], one["version"]) for one in reversed(told["changes"])]


async def withdrawn(caller: Caller, job: str = "nightly", key: str | None = None) -> Answer:
    return await caller.ask("DELETE", f"/batch/jobs/{job}", key=key)


def brief(answer: Answer) -> tuple[int, Any, Any]:
    """The status, the version, and whether something was changed."""
    return answer.status, answer.told.get("version"), answer.told.get("changed")
