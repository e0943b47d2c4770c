"""A worker's reports that come at the same time go in one request, and none waits for another one."""

from __future__ import annotations

import asyncio
from collections.abc import Callable
from typing import Any

import pytest
from instances import Caller, running

from job_host.protocol.bounds import MOST_REPORTS
from job_host.protocol.client import Address, Client, Refused, Unreachable
from job_host.service.settings import ServeSettings
from job_host.worker.reports import MOST_BYTES, PATH, Reports, lists_of

Make = Callable[..., ServeSettings]
DONE: dict[str, Any] = {"done": True}


class Service:
    """Notes what is asked. A list is answered by `answers`, and a report alone by its work item."""

    def __init__(self, *answers: Any) -> None:
        self.asked: list[tuple[str, str, Any, str | None]] = []
        self.answers = list(answers)
        self.held = asyncio.Event()
        self.held.set()

    async def operate(self, method: str, path: str, body: Any, patience: float = 0.0, key: str | None = None) -> Any:
        assert patience > 10**6
        self.asked.append((method, path, body, key))
        await self.held.wait()
        if path != PATH:
            return {"alone": path}
        answer = self.answers.pop(0) if self.answers else {"reports": [{"status": 200, "body": DONE} for _ in body["reports"]]}
        if isinstance(answer, Exception):
            raise answer
        return answer

    @property
    def paths(self) -> list[str]:
        return [path for _, path, _, _ in self.asked]


async def finish(reports: Reports, *works: int, log: str = "") -> list[Any]:
    """Reports work items at the same time. Returns what each was told, or refused by."""
    told = (reports.send(work, "finish", {"outcome": "COMPLETED", "log": log}) for work in works)
    return list(await asyncio.gather(*told, return_exceptions=True))


async def test_a_lone_report_is_a_request_of_its_own() -> None:
    service = Service()
    reports = Reports(service.operate)
    assert await reports.send(7, "checkpoint", {"data": "10"}) == {"alone": "/batch/work/7?action=checkpoint"}
    ((method, _, body, key),) = service.asked
    assert (method, body) == ("PUT", {"data": "10"}) and key


async def test_reports_of_one_turn_go_together_each_by_its_key() -> None:
    service = Service()
    assert await finish(Reports(service.operate), 1, 2, 3) == [DONE] * 3
    ((method, path, body, _),) = service.asked
    assert (method, path) == ("POST", PATH)
    assert [(one["work"], one["action"], one["outcome"], one["log"]) for one in body["reports"]] == [
        (work, "finish", "COMPLETED", "") for work in (1, 2, 3)
    ]
    assert len({one["key"] for one in body["reports"]}) == 3


async def test_no_report_waits_for_one_that_is_under_way() -> None:
    service = Service()
    service.held.clear()
    reports = Reports(service.operate)
    first = asyncio.ensure_future(finish(reports, 1, 2))
    await asyncio.sleep(0.01)
    second = asyncio.ensure_future(finish(reports, 3))
    await asyncio.sleep(0.01)
    assert service.paths == [PATH, "/batch/work/3?action=finish"]
    service.held.set()
    assert (await first, await second) == ([DONE, DONE], [{"alone": "/batch/work/3?action=finish"}])


async def test_a_refused_report_is_refused_alone() -> None:
    problem = {"title": "NotClaimer", "status": 409}
    service = Service({"reports": [{"status": 409, "body": problem}, {"status": 200, "body": DONE}]})
    refused, told = await finish(Reports(service.operate), 1, 2)
    assert isinstance(refused, Refused) and (refused.status, refused.name) == (409, "NotClaimer") and told == DONE
    assert service.paths == [PATH]


async def test_what_passes_is_asked_again_alone_by_its_key() -> None:
    passing = {"title": "CommitFailed", "status": 503}
    lasting = {"title": "RepositoryFull", "status": 503}
    answers = [{"status": 503, "body": passing}, {"status": 503, "body": lasting}, {"status": 200, "body": DONE}]
    service = Service({"reports": answers})
    told, refused, done = await finish(Reports(service.operate), 1, 2, 3)
    assert (told, done) == ({"alone": "/batch/work/1?action=finish"}, DONE)
    assert isinstance(refused, Refused) and refused.name == "RepositoryFull"
    (_, _, listed, _), (_, path, body, key) = service.asked
    assert (path, key) == ("/batch/work/1?action=finish", listed["reports"][0]["key"])
    assert body == {"outcome": "COMPLETED", "log": ""}


@pytest.mark.parametrize(("name", "is_old"), [("MethodNotAllowed", True), ("NotFound", True), ("BadRequest", False)])
async def test_a_service_that_takes_no_lists_is_told_each_report(name: str, is_old: bool) -> None:
    service = Service(Refused(405, {"title": name}))
    reports = Reports(service.operate)
    alone: list[dict[str, Any]] = [{"alone": f"/batch/work/{work}?action=finish"} for work in (1, 2)]
    assert await finish(reports, 1, 2) == alone
    assert await finish(reports, 1, 2) == (alone if is_old else [DONE, DONE])
    assert service.paths.count(PATH) == (1 if is_old else 2)


async def test_what_a_list_fails_by_is_told_to_all() -> None:
    service = Service(Unreachable("nobody is there"))
    assert [type(one) for one in await finish(Reports(service.operate), 1, 2)] == [Unreachable, Unreachable]


async def test_a_report_that_is_given_up_holds_up_no_other() -> None:
    service = Service()
    reports = Reports(service.operate)
    given_up = asyncio.ensure_future(finish(reports, 1))
    other = asyncio.ensure_future(finish(reports, 2))
    await asyncio.sleep(0)
    given_up.cancel()
    assert await other == [{"alone": "/batch/work/2?action=finish"}] or await other == [DONE]
    with pytest.raises(asyncio.CancelledError):
        await given_up


async def test_lists_are_within_the_bounds_of_the_service() -> None:
    service = Service()
    count = 2 * MOST_REPORTS + 1
    assert len(await finish(Reports(service.operate), *range(count))) == count
    sizes = sorted(len(body["reports"]) for _, path, body, _ in service.asked if path == PATH)
    assert sizes == [MOST_REPORTS, MOST_REPORTS] and len(service.asked) == 3
    long = "a" * (MOST_BYTES // 3)
    service.asked.clear()
    await finish(Reports(service.operate), 1, 2, 3, 4, log=long)
    assert sorted(len(body["reports"]) for _, _, body, _ in service.asked) == [2, 2]


async def test_a_report_that_is_too_long_for_a_list_goes_alone() -> None:
    assert list(lists_of([])) == []
    service = Service()
    reports = Reports(service.operate)
    long = "\u20ac" * (MOST_BYTES // 2)
    sends = [reports.send(work, "finish", {"log": text}) for work, text in ((1, "a"), (2, long), (3, "b"))]
    await asyncio.gather(*sends)
    assert sorted(service.paths) == [f"/batch/work/{work}?action=finish" for work in (1, 2, 3)]


async def test_a_service_takes_the_reports_of_a_worker(either: Make) -> None:
    async with running(either()) as instance:
        caller = Caller(instance.url, "w")
        for _ in range(3):
            await caller.start("short")
            await caller.claim()
        async with Client(Address((instance.url,), "w")) as client:
            told = await finish(Reports(client.operate), 1, 2, 7, 3, log="all of it")
        assert told[:2] + told[3:] == [DONE] * 3
        assert isinstance(told[2], Refused) and told[2].name == "NoSuchWork"
        assert [one["log"] for one in (await caller.ask("GET", "/batch/jobexecutions/3/joblogs")).told] == ["all of it"]
