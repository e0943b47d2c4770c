"""The route of the picture of a job: which words it takes."""

from __future__ import annotations

import json
from collections.abc import Callable
from types import SimpleNamespace
from typing import Any

import pytest
from instances import Caller, listening
from test_catalogue_picture import DEEP, NESTED, dense, seen

from job_host.catalogue.picture import Wanted, drawn_job
from job_host.service.server import Service

PATH = "/batch/catalogue/picture"
JOBS = {"nested": NESTED, "deep": DEEP, "dense": dense(1000, 39)}


@pytest.fixture
def pictured(idle: Callable[..., Service], monkeypatch: pytest.MonkeyPatch) -> Service:
    """A service that has these jobs, and no history."""

    async def reach(at_least: int) -> None:
        return None

    catalogue = json.dumps({"jobs": [{**job, "id": name} for name, job in JOBS.items()]}).encode()
    service = idle()
    monkeypatch.setattr(service.keeper, "reach", reach)
    monkeypatch.setattr(service.keeper, "reading", lambda: SimpleNamespace(process=SimpleNamespace(catalogue=catalogue)))
    return service


def caller_of(service: Service) -> Caller:
    return Caller(f"http://127.0.0.1:{service.port}")


async def told(caller: Caller, words: str) -> Any:
    return (await caller.ask("GET", f"{PATH}?{words}")).told


async def test_a_picture_is_told_as_it_is_wanted(pictured: Service) -> None:
    async with listening(pictured):
        caller = caller_of(pictured)
        assert await told(caller, "jobName=nested") == json.loads(json.dumps(drawn_job(NESTED, Wanted())))
        assert (await told(caller, "jobName=nested&folded=4,5"))["folded"] == [4, 5]
        assert (await told(caller, "jobName=deep"))["folded"] == [1, 14, 27]
        assert (await told(caller, "jobName=deep&folded="))["folded"] == []
        assert set(range(13, 26)) <= set(seen(await told(caller, "jobName=deep&unfolded=13,14")))
        right, down = [(await told(caller, f"jobName=nested&downwards={flag}"))["picture"] for flag in ("false", "true")]
        assert right["width"] > right["height"] and down["height"] > right["height"]
        assert (await told(caller, "jobName=dense"))["picture"] is None


@pytest.mark.parametrize(
    "words, name",
    [
        ("", "BadRequest"),
        ("jobName=none", "JobStartException"),
        ("jobName=nested&folded=1,", "BadRequest"),
        ("jobName=nested&folded=-1", "BadRequest"),
        ("jobName=nested&unfolded=12345", "BadRequest"),
        ("jobName=nested&downwards=yes", "BadRequest"),
    ],
)
async def test_other_words_are_refused(pictured: Service, words: str, name: str) -> None:
    async with listening(pictured):
        assert (await told(caller_of(pictured), words))["title"] == name
