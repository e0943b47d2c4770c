"""Notifications: what is told, that all of it is told at least once and in order, and that nobody waits for its receiver."""

from __future__ import annotations

import asyncio
from collections.abc import Callable
from pathlib import Path
from typing import Any, cast

import pytest
from instances import SHORT_PAUSE, Caller, Instance, until
from policed import Ahead, end_next, failed, hasten, policing, until_round, with_policies
from receivers import receiving, words

from job_host.service.keepers import late
from job_host.service.keepers.keeper import Keeper
from job_host.service.policies import delivery, notifications
from job_host.service.policies.delivery import Counts, Delivery
from job_host.service.policies.receiver import NotTaken
from job_host.service.problems import Problem
from job_host.service.settings import HistoryBounds, ServeSettings
from job_host.service.stores.notifications import NewNotification, Notification
from job_host.service.stores.postgres_notifications import PostgresNotes

Make = Callable[..., ServeSettings]


@pytest.fixture(autouse=True)
def soon(monkeypatch: pytest.MonkeyPatch) -> None:
    hasten(monkeypatch)
    monkeypatch.setattr(delivery, "FIRST_WAIT", 20)
    monkeypatch.setattr(delivery, "FIRST_REST", 20)
    monkeypatch.setattr(delivery, "LONGEST_WAIT", 100)
    monkeypatch.setattr(delivery, "LONGEST_REST", 100)


async def until_found(instance: Instance) -> None:
    await until_round(instance.service.policies.finding)


async def until_waiting(instance: Instance, count: int) -> None:
    async def do_wait() -> bool:
        return await instance.service.keeper.notes().count() == count

    await until(do_wait, longest=SHORT_PAUSE)


async def test_what_failed_and_who_was_lost_is_told(either: Make, tmp_path: Path, monkeypatch: pytest.MonkeyPatch) -> None:
    """Each once, and in the order of a job execution. What ends well isn't told."""
    async with receiving() as receiver:
        made = either(catalogue=with_policies(tmp_path / "jobs", {}), is_folder=True, lease=0.4, **words(tmp_path, receiver))
        async with policing(made, Ahead()) as instance:
            monkeypatch.setattr(instance.service.keeper.leases, "late", lambda held: [])
            caller = Caller(instance.url, "worker-1")
            await failed(caller, "BAD ROWS")
            await receiver.until_taken(1)
            await failed(caller, outcome="COMPLETED")
            assert (await caller.start("nightly")).status == 201
            work = (await caller.claim()).told["work"]["work"]
            await receiver.until_taken(3)
            await until_found(instance)
        assert receiver.kinds == [("FAILED", 1), ("LOST_WORKER", 3), ("FAILED", 3)]
        first, lost, last = receiver.taken
        causes = [{"stepName": "only", "partition": None, "outcome": "FAILED", "exitStatus": "BAD ROWS"}]
        shown = {name: first[name] for name in ("jobName", "instanceId", "causes", "moreCauses")}
        assert shown == {"jobName": "nightly", "instanceId": 1, "causes": causes, "moreCauses": 0}
        assert (lost["work"], lost["stepName"], lost["by"]) == (work, "only", "")
        assert last["causes"][0]["outcome"] == "LOST" and first["id"] == f"{first['history']}/FAILED/1"
        assert lost["moment"] <= last["moment"] and first["moment"] < lost["moment"]


@pytest.mark.parametrize("status", [500, 307, 404])
async def test_what_isnt_taken_is_kept_and_sent_again(either: Make, tmp_path: Path, status: int) -> None:
    """Also by the next leader, with the same id and body. A redirect isn't followed."""
    async with receiving() as receiver:
        receiver.status = status
        made = either(catalogue=with_policies(tmp_path / "jobs", {}), is_folder=True, **words(tmp_path, receiver))
        async with policing(made, Ahead()) as instance:
            await failed(Caller(instance.url))
            await receiver.until_attempts(3)
            await until_round(instance.service.policies.sending)
            told = (await Caller(instance.url).ask("GET", "/metrics")).told
            assert "jobhost_notifications_waiting 1.0\n" in told and "jobhost_notifications_taken_total 0.0\n" in told
        receiver.status = 200
        async with policing(made, Ahead()) as instance:
            await receiver.until_taken(1)
            await until_waiting(instance, 0)
            await until_found(instance)
            told = (await Caller(instance.url).ask("GET", "/metrics")).told
            assert "jobhost_notifications_waiting 0.0\n" in told and "jobhost_notifications_taken_total 1.0\n" in told
        assert receiver.redirected == 0 and receiver.kinds == [("FAILED", 1)]
        assert all(one == receiver.taken[0] for one in receiver.attempts)


async def test_what_came_while_nobody_looked_is_told(either: Make, tmp_path: Path) -> None:
    """A service without --notify notes nothing, and the next one with it goes on behind its mark. Before the first none is."""
    async with receiving() as receiver:
        plain = either(catalogue=with_policies(tmp_path / "jobs", {}), is_folder=True)
        telling = either(catalogue=tmp_path / "jobs", is_folder=True, **words(tmp_path, receiver))
        async with policing(plain, Ahead()) as instance:
            await failed(Caller(instance.url))
        async with policing(telling, Ahead()) as instance:
            await until_found(instance)
            assert await instance.service.keeper.notes().count() == 0
        async with policing(plain, Ahead()) as instance:
            await failed(Caller(instance.url))
            await failed(Caller(instance.url))
        for _ in range(2):
            async with policing(telling, Ahead()) as instance:
                await receiver.until_taken(2)
                await until_found(instance)
                await until_round(instance.service.policies.sending)
        assert receiver.kinds == [("FAILED", 2), ("FAILED", 3)]


async def test_one_that_is_refused_holds_up_its_job_execution_alone(embedded: Make, tmp_path: Path) -> None:
    async with receiving() as receiver:
        receiver.refused = "LOST_WORKER/"
        made = embedded(catalogue=with_policies(tmp_path / "jobs", {}), is_folder=True, **words(tmp_path, receiver))
        async with policing(made, Ahead()) as instance:
            caller = Caller(instance.url)
            assert (await caller.start("nightly")).status == 201
            work = (await caller.claim()).told["work"]["work"]
            assert (await caller.ask("PUT", f"/batch/work/{work}?action=lose")).status == 200
            await failed(caller)
            await receiver.until_taken(1)
            assert receiver.kinds == [("FAILED", 2)]
            receiver.refused = None
            await receiver.until_taken(3)
        assert receiver.kinds == [("FAILED", 2), ("LOST_WORKER", 1), ("FAILED", 1)]
        assert receiver.taken[1]["by"] == "tester"


async def test_what_finds_no_room_stays_in_the_history(embedded: Make, tmp_path: Path, monkeypatch: pytest.MonkeyPatch) -> None:
    monkeypatch.setattr(notifications, "MOST_WAITING", 1)
    async with receiving() as receiver:
        receiver.status = 503
        made = embedded(catalogue=with_policies(tmp_path / "jobs", {}), is_folder=True, **words(tmp_path, receiver))
        async with policing(made, Ahead()) as instance:
            for _ in range(3):
                await failed(Caller(instance.url))
                await until_found(instance)
            assert await instance.service.keeper.notes().count() == 1
        receiver.status = 200
        async with policing(made, Ahead()) as instance:
            await receiver.until_taken(3)
        assert receiver.kinds == [("FAILED", 1), ("FAILED", 2), ("FAILED", 3)]


async def test_no_more_wait_than_a_bound(embedded: Make, tmp_path: Path, monkeypatch: pytest.MonkeyPatch) -> None:
    """Also if much has come before anybody looked: it comes in the order of the history, each once."""
    monkeypatch.setattr(notifications, "MOST_WAITING", 2)
    monkeypatch.setattr(notifications, "BLOCK", 2)
    async with receiving() as receiver:
        receiver.status = 503
        plain = embedded(catalogue=with_policies(tmp_path / "jobs", {}), is_folder=True)
        telling = embedded(catalogue=tmp_path / "jobs", is_folder=True, **words(tmp_path, receiver))
        async with policing(telling, Ahead()) as instance:
            await until_found(instance)
        async with policing(plain, Ahead()) as instance:
            caller = Caller(instance.url)
            for _ in range(5):
                assert (await caller.start("nightly")).status == 201
            works = [(await caller.claim()).told["work"]["work"] for _ in range(5)]
            for work in reversed(works):
                assert (await caller.finish(work, "FAILED")).status == 200
        async with policing(telling, Ahead()) as instance:
            await until_found(instance)
            await until_found(instance)
            assert await instance.service.keeper.notes().count() == 2
            receiver.status = 200
            await receiver.until_taken(5)
            await until_found(instance)
            await until_waiting(instance, 0)
        assert receiver.kinds == [("FAILED", number) for number in (5, 4, 3, 2, 1)]


async def test_a_receiver_that_hangs_holds_up_nobody(embedded: Make, tmp_path: Path) -> None:
    class Hanging:
        begun = 0

        async def send(self, number: str, text: str) -> None:
            Hanging.begun += 1
            await asyncio.Event().wait()

    settings = embedded(catalogue=with_policies(tmp_path / "jobs", {}), is_folder=True)
    instance = Instance(settings)
    service = instance.service
    service.policies = type(service.policies)(service.keeper, settings, Hanging(), Ahead())
    await instance.start()
    try:
        await instance.until_role("leader")
        caller = Caller(instance.url)
        await failed(caller)
        await until_waiting(instance, 1)
        await failed(caller)
        await until_waiting(instance, 2)
        assert Hanging.begun == 1 and (await caller.start("nightly")).status == 201
    finally:
        await asyncio.wait_for(instance.stop(), 10.0)


async def test_what_is_late_is_told_once(embedded: Make, tmp_path: Path, monkeypatch: pytest.MonkeyPatch) -> None:
    """A job execution after its time, and a work item whose lease is late."""
    clock = Ahead()
    monkeypatch.setattr(late, "clock", clock)
    async with receiving() as receiver:
        folder = with_policies(tmp_path / "jobs", {"timeout": 60, "grace": 5})
        made = embedded(catalogue=folder, is_folder=True, **words(tmp_path, receiver))
        async with policing(made, clock) as instance:
            caller = Caller(instance.url)
            assert (await caller.start("nightly")).status == 201
            work = (await caller.claim()).told["work"]["work"]
            leases = instance.service.keeper.leases
            monkeypatch.setattr(leases, "late", lambda held: [work])
            await receiver.until_taken(1)
            clock.seconds = 66
            await receiver.until_taken(2)
            await until_found(instance)
            monkeypatch.setattr(leases, "late", lambda held: [])
            await until_found(instance)
        assert receiver.kinds == [("LATE", 1), ("LATE", 1)]
        of_lease, of_job = receiver.taken
        assert (of_lease["work"], of_lease["client"], of_lease["timeout"]) == (work, "tester", None)
        assert of_job["timeout"] == 60 and "work" not in of_job and of_job["id"] != of_lease["id"]


async def test_a_history_that_is_almost_full_is_told_once(either: Make, tmp_path: Path) -> None:
    async with receiving() as receiver:
        folder, bounds = with_policies(tmp_path / "jobs", {}), HistoryBounds(100, 1, 90)
        made = either(catalogue=folder, is_folder=True, other_history=bounds, **words(tmp_path, receiver))
        async with policing(made, Ahead()) as instance:
            assert (await Caller(instance.url).start("nightly")).status == 201
            await receiver.until_taken(1)
        async with policing(made, Ahead()) as instance:
            assert (await Caller(instance.url).start("nightly")).status == 201
            await until_found(instance)
            await until_round(instance.service.policies.sending)
        assert [(one["kind"], one["operations"], one["most"]) for one in receiver.taken] == [("ALMOST_FULL", 1, 100)]


async def test_jobs_of_a_catalogue_are_told_of_too(embedded: Make, tmp_path: Path) -> None:
    async with receiving() as receiver:
        async with policing(embedded(**words(tmp_path, receiver)), Ahead()) as instance:
            caller = Caller(instance.url)
            assert (await caller.start("short")).status == 201
            await end_next(caller)
            await receiver.until_taken(1)
        assert receiver.kinds == [("FAILED", 1)]


async def test_a_leader_that_was_cut_off_keeps_nothing(settings: Make, tmp_path: Path) -> None:
    async with policing(settings(catalogue=with_policies(tmp_path / "jobs", {}), is_folder=True), Ahead()) as instance:
        notes = instance.service.keeper.notes()
        assert isinstance(notes, PostgresNotes)
        await notes.add([NewNotification("a", 1, "{}"), NewNotification("b", 1, "{}"), NewNotification("a", 2, "{}")], {"m": 1})
        earlier = PostgresNotes(notes._using, notes._epoch - 1)
        (first,) = await notes.due(0, 10)
        calls = [earlier.add([NewNotification("c", 1, "{}")], {"m": 2}), earlier.drop(1), earlier.postpone(1, 5)]
        assert first.number == 1
        for call in calls:
            with pytest.raises(Problem, match="NotLeader"):
                await call
        assert (await notes.marks())["m"] == 1 and await notes.count() == 2
        assert await notes.due(0, 10) == [first] and (first.id, first.attempts) == ("a", 0)
        await notes.postpone(first.number, 7)
        assert await notes.due(6, 10) == [] and (await notes.due(7, 10))[0].attempts == 1
        await notes.drop(first.number)
        assert [one.id for one in await notes.due(0, 10)] == ["b"]


class OneNote:
    """A store with one notification, and a receiver that doesn't take it until it may."""

    def __init__(self, is_here: bool) -> None:
        self.is_here, self.due_at, self.attempts, self.sent = is_here, 0, 0, list[int]()
        self.now = 0

    def notes(self) -> Any:
        return self

    async def count(self) -> int:
        return 1

    async def due(self, now: int, most: int) -> list[Notification]:
        return [Notification(1, "a", "{}", self.attempts)] if self.due_at <= now else []

    async def postpone(self, number: int, due: int) -> None:
        self.attempts, self.due_at = self.attempts + 1, due

    async def send(self, number: str, text: str) -> None:
        self.sent.append(self.now)
        raise NotTaken("status 500", self.is_here)


@pytest.mark.parametrize("is_here", [True, False])
async def test_waits_double_up_to_a_bound(monkeypatch: pytest.MonkeyPatch, is_here: bool) -> None:
    """Of one that is refused, and of a receiver that isn't there."""
    monkeypatch.setattr(delivery, "FIRST_WAIT", 5_000 if is_here else 1)
    monkeypatch.setattr(delivery, "LONGEST_WAIT", 30_000 if is_here else 1)
    monkeypatch.setattr(delivery, "FIRST_REST", 5_000)
    monkeypatch.setattr(delivery, "LONGEST_REST", 30_000)
    one = OneNote(is_here)
    sending = Delivery(cast(Keeper, one), one, Counts(), lambda: one.now)
    for one.now in range(0, 110_000, 1_000):
        await sending.round()
    assert one.sent == [0, 5_000, 15_000, 35_000, 65_000, 95_000]
