"""A running service and a catalogue that isn't written as the kept one: batchctl decides whether a job is changed."""

from __future__ import annotations

import json
from collections.abc import Callable
from pathlib import Path
from typing import Any

import pytest
from conftest import NIGHTLY, SHORT, batchlet
from instances import Caller, running

from job_host.service.keepers.keeper import Fatal
from job_host.service.settings import ServeSettings

Make = Callable[..., ServeSettings]
Write = Callable[..., Path]

# The job NIGHTLY, with defaults and in another order of members.
STEPS = [batchlet("load", "load", next="report", transitions=[]), batchlet("report", "report", **{"start-limit": 0})]
WRITTEN_OUT = {"restartable": True, "elements": STEPS, "id": "nightly"}


@pytest.fixture
def write(tmp_path: Path) -> Write:
    """Writes a catalogue of these jobs into one file."""

    def write_jobs(*jobs: Any) -> Path:
        path = tmp_path / "next.json"
        path.write_text(json.dumps({"jobs": jobs}))
        return path

    return write_jobs


async def test_defaults_that_are_written_out_change_no_job(either: Make, write: Write) -> None:
    catalogues: list[list[Any]] = [[NIGHTLY], [WRITTEN_OUT], [SHORT, WRITTEN_OUT], [NIGHTLY, SHORT]]
    for jobs in catalogues:
        async with running(either(catalogue=write(*jobs))) as instance:
            caller = Caller(instance.url)
            assert (await caller.start(key="a")).operations == 1
            assert (await caller.start("short")).status == (201 if SHORT in jobs else 404)
    changed: dict[str, Any] = {**WRITTEN_OUT, "restartable": False}
    with pytest.raises(Fatal, match="^CatalogueChanged: the job 'nightly' is changed: restartable: was true, is false$"):
        async with running(either(catalogue=write(SHORT, changed))):
            pass
    with pytest.raises(Fatal, match="the job 'nightly' is changed: .*; the job 'short' is dropped$"):
        async with running(either(catalogue=write(changed))):
            pass


async def test_a_follower_with_defaults_that_are_written_out(settings: Make, write: Write) -> None:
    async with running(settings(catalogue=write(NIGHTLY))) as one:
        async with running(settings(catalogue=write(WRITTEN_OUT)), "follower") as two:
            assert (await Caller(one.url).start()).status == 201
            await one.stop()
            await two.until_role("leader")
            assert (await Caller(two.url).start()).told["executionId"] == 2
