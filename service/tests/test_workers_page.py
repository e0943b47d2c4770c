"""Which workers there are: their last claims and signs, what they hold, and whether any asks for work."""

from __future__ import annotations

import asyncio
from collections.abc import Callable
from pathlib import Path
from typing import Any, cast

import pytest
from instances import Caller, running

from job_host.protocol.client import Client, Refused
from job_host.service.keepers import workers as keepers_workers
from job_host.service.settings import ServeSettings
from job_host.service.terms.workers import Heard, Workers
from job_host.worker.worker import Worker

Make = Callable[..., ServeSettings]


def test_the_workers_that_were_heard_last_are_known(monkeypatch: pytest.MonkeyPatch) -> None:
    now = iter(range(1, 9))
    monkeypatch.setattr("job_host.service.terms.workers.clock", lambda: next(now))
    workers = Workers(2)
    workers.note_claim("a")
    workers.note_claim("b")
    workers.note_sign("a")
    workers.note_claim("c")
    assert workers.clients() == {"a", "c"}
    assert [workers.heard(name) for name in ("a", "b", "c")] == [Heard(1, 3), Heard(), Heard(4)]


async def told(caller: Caller, words: str = "") -> Any:
    answer = await caller.ask("GET", "/batch/workers" + words)
    return answer.told if answer.status == 200 else answer.name


def clock(monkeypatch: pytest.MonkeyPatch) -> list[int]:
    """The service's clock in seconds, which a test sets: its only number."""
    now = [60]
    monkeypatch.setattr("job_host.service.terms.workers.clock", lambda: now[0] * 1_000)
    return now


async def test_workers_with_what_they_hold(either: Make, monkeypatch: pytest.MonkeyPatch) -> None:
    monkeypatch.setattr(keepers_workers, "MOST_HELD", 2)
    async with running(either()) as instance:
        now = clock(monkeypatch)
        reader, farm, barn = [Caller(instance.url, name) for name in ("reader", "farm", "barn")]
        assert (await told(reader))["workers"] == []
        await reader.start("chunky")
        await reader.start("wide")
        for _ in range(3):
            await farm.claim()
        held = [
            {"work": 1, "executionId": 1, "stepName": "copy", "partition": None},
            {"work": 2, "executionId": 2, "stepName": "print", "partition": 0},
        ]
        seen = {
            "client": "farm",
            "waits": False,
            "lastClaim": "1970/01/01 00:01:00.000 +0000",
            "lastSign": None,
            "artifacts": None,
            "draining": False,
        }
        assert (await told(reader))["workers"] == [{**seen, "work": held, "moreWork": 1}]
        calls: list[tuple[int, str, Any]] = [
            (2, "heartbeat", {}),
            (1, "checkpoint", {"data": "1"}),
            (3, "finish", {"outcome": "COMPLETED"}),
        ]
        for work, action, body in calls:
            now[0] += 1
            await farm.ask("PUT", f"/batch/work/{work}?action={action}", body)
            one = (await told(reader))["workers"][0]
            assert (one["lastClaim"], one["lastSign"]) == (seen["lastClaim"], f"1970/01/01 00:01:0{now[0] - 60}.000 +0000")
        assert (one["work"], one["moreWork"]) == (held, 0)
        await barn.finish(1)
        for action in ("heartbeat", "lose"):
            await barn.ask("PUT", f"/batch/work/1?action={action}")
        assert [one["client"] for one in (await told(reader))["workers"]] == ["farm"]
        assert (await told(reader, "?page=1&pageSize=1"))["workers"] == []
        assert await told(reader, "?pageSize=1001") == await told(reader, "?name=farm") == "BadRequest"


async def test_whether_a_worker_asks(settings: Make, monkeypatch: pytest.MonkeyPatch) -> None:
    async with running(settings()) as instance:
        reader, farm = Caller(instance.url), Caller(instance.url, "farm")
        told_first = await told(reader)
        assert told_first["noneAsks"] is False and 0 <= told_first["silence"] < 10
        waiting = asyncio.create_task(farm.claim(wait=20))
        await instance.until_claims_wait(1)
        one = (await told(reader))["workers"][0]
        assert (one["client"], one["waits"], one["work"]) == ("farm", True, [])
        assert (await told(reader))["silence"] == 0.0
        await reader.start("short")
        await waiting
        one = (await told(reader))["workers"][0]
        assert (one["waits"], [held["work"] for held in one["work"]]) == (False, [1])
        monkeypatch.setattr(keepers_workers, "UNASKED_SECONDS", 0.0)
        assert (await told(reader))["noneAsks"] is True


async def test_a_follower_knows_who_holds_what(settings: Make) -> None:
    async with running(settings()) as leader, running(settings(), "follower") as follower:
        await Caller(leader.url).start("short")
        seen = (await Caller(leader.url, "farm").claim()).operations
        answer = await told(Caller(follower.url), f"?atLeast={seen}")
        assert (answer["silence"], answer["noneAsks"]) == (None, None)
        (one,) = answer["workers"]
        assert (one["client"], one["waits"], one["lastClaim"], one["work"][0]["work"]) == ("farm", None, None, 1)
        (held,) = (await Caller(follower.url).ask("GET", "/batch/work")).told
        assert one["draining"] is held["draining"] is None


async def test_artifacts_that_a_worker_tells_with_its_claim(settings: Make) -> None:
    """They are kept until it tells others. A claim without them is as it was."""
    async with running(settings()) as instance:
        reader, farm = Caller(instance.url), Caller(instance.url, "farm")

        async def claim(**more: Any) -> int:
            return (await farm.ask("POST", "/batch/work", more)).status

        wrongs: list[Any] = [None, "load", [1], ["x" * 256], ["x"] * 1_001, {"load": 1}]
        assert [await claim(artifacts=wrong) for wrong in wrongs] == [400] * len(wrongs)
        assert await claim() == 200
        assert (await told(reader))["workers"][0]["artifacts"] is None
        for names in (["load", "x" * 255], []):
            assert await claim(artifacts=names) == await claim() == 200
            assert (await told(reader))["workers"][0]["artifacts"] == names


class EarlierService:
    """A client of a service that knows no artifacts."""

    def __init__(self) -> None:
        self.bodies: list[dict[str, Any]] = []

    async def operate(self, method: str, path: str, body: dict[str, Any], *more: Any) -> dict[str, Any]:
        self.bodies.append(body)
        if "artifacts" in body:
            raise Refused(400, {"title": "BadRequest"})
        return {"nothing": True}


async def test_a_worker_of_an_earlier_service_tells_no_artifacts(tmp_path: Path) -> None:
    (tmp_path / "load").touch(0o755)
    service = EarlierService()
    worker = Worker(cast(Client, service), tmp_path, 1)
    for _ in range(3):
        await worker._next()
    assert [body.get("artifacts") for body in service.bodies] == [["load"], None, None]
