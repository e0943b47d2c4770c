"""What belongs to the reply of a start or a claim comes in one round through the pipe, and is batchctl's own answer."""

from __future__ import annotations

import asyncio
from collections.abc import Callable
from typing import Any

import pytest
from instances import Caller, running

from job_host.service.history.coprocess import CoProcess
from job_host.service.settings import ServeSettings
from job_host.service.terms.follow_ups import Unchanging, follow_ups

Make = Callable[..., ServeSettings]


def test_which_queries_belong_to_a_reply() -> None:
    instance, parameters = b'{"ask":"job_instance","execution":7}', b'{"ask":"parameters","execution":7}'
    assert follow_ups("start", {"execution": 7}) == follow_ups("restart", {"execution": 7}) == [instance]
    assert follow_ups("claim", {"work": {"execution": 7, "work": 9}}) == [instance, parameters]
    assert follow_ups("claim", {"closed": 7}) == follow_ups("finish", {"done": True}) == []
    assert follow_ups("start", {"refused": "JobStartException"}) == []


def test_what_was_told_is_remembered_within_bounds() -> None:
    told = Unchanging(most=2, most_bytes=10)
    told.note(1, [b"a", b"b"])
    told.note(2, [b"c", b"d"])
    assert (told.of(1), told.of(2), told.of(3)) == ((b"a", b"b"), (b"c", b"d"), None)
    told.note(3, [b"e", b"f"])
    assert (told.of(1), told.of(3)) == (None, (b"e", b"f"))
    # Noted again it takes the room of one.
    told.note(3, [b"e" * 4, b"f" * 4])
    assert (told.of(2), told.of(3)) == ((b"c", b"d"), (b"eeee", b"ffff"))
    told.note(4, [b"g" * 11])
    assert told.of(3) is None and told.of(4) is None


@pytest.fixture
def written(monkeypatch: pytest.MonkeyPatch) -> list[bytes]:
    """What was written to batchctl, by the writes."""
    writes: list[bytes] = []
    flush = CoProcess._flush

    def note(process: CoProcess) -> None:
        writes.append(b"".join(process._unwritten))
        flush(process)

    monkeypatch.setattr(CoProcess, "_flush", note)
    return writes


def of_calls(written: list[bytes]) -> list[bytes]:
    """The writes that have a command or ask for what belongs to one."""
    return [data for data in written if b'"do":' in data or b"job_instance" in data or b"parameters" in data]


async def test_a_start_and_its_claim_are_a_round_each(either: Make, written: list[bytes]) -> None:
    async with running(either()) as instance:
        caller = Caller(instance.url)
        written.clear()
        begun = await caller.start("short", date="1")
        claimed = await caller.claim()
        assert (begun.told["executionId"], begun.told["instanceId"], begun.told["jobName"]) == (1, 1, "short")
        assert (claimed.told["jobName"], claimed.told["instanceId"]) == ("short", 1)
        assert claimed.told["jobParameters"] == {"date": "1"}
        start, claim = of_calls(written)
        assert (start.count(b"\n"), claim.count(b"\n")) == (3, 1) and b'"do":"claim"' in claim


async def test_starts_behind_a_refused_one_are_told_their_own_job_instances(either: Make) -> None:
    """Each asks ahead for a number that it doesn't come to."""
    async with running(either()) as instance:
        callers = [Caller(instance.url, f"c{number}") for number in range(6)]
        jobs = ["none", "short", "none", "nightly", "wide", "short"]
        answers = await asyncio.gather(*(one.start(job) for one, job in zip(callers, jobs)))
        assert [one.status for one in answers] == [404, 201, 404, 201, 201, 201]
        made = [(one.told["executionId"], one.told["instanceId"], one.told["jobName"]) for one in answers if one.status == 201]
        assert sorted(made) == [(number, number, job) for number, _, job in sorted(made)]
        assert [job for _, _, job in made] == ["short", "nightly", "wide", "short"]
        again = await Caller(instance.url).start("nightly")
        assert (again.told["executionId"], again.told["instanceId"]) == (5, 5)


async def test_a_restart_is_told_its_job_instance_and_its_claim_its_parameters(either: Make) -> None:
    async with running(either()) as instance:
        caller = Caller(instance.url)
        await caller.start("short", date="1")
        await caller.start("short", date="2")
        work = (await caller.claim()).told["work"]["work"]
        await caller.finish(work, "FAILED")
        body: dict[str, Any] = {"jobParameters": {"date": "3"}}
        again = await caller.ask("PUT", "/batch/jobexecutions/1?action=restart", body, "k")
        assert (again.told["executionId"], again.told["instanceId"]) == (3, 1)
        claims = [(await caller.claim()).told for _ in range(2)]
        assert [(one["work"]["execution"], one["jobParameters"]["date"]) for one in claims] == [(2, "2"), (3, "3")]


async def test_a_claim_behind_a_new_start_of_the_service_asks_what_it_does_not_know(either: Make) -> None:
    async with running(either()) as instance:
        await Caller(instance.url).start("short", date="1")
    async with running(either()) as instance:
        claimed = await Caller(instance.url).claim()
        assert (claimed.told["jobParameters"], claimed.told["instanceId"]) == ({"date": "1"}, 1)
