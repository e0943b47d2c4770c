"""Events that somebody is told of, as bodies of notifications: their ids follow from the history, so repeats have one id."""

from __future__ import annotations

from collections.abc import Sequence
from typing import Any, NamedTuple

from job_host.protocol.lines import compact
from job_host.protocol.moments import moment
from job_host.service.history.causes import Cause
from job_host.service.history.work_items import Held
from job_host.service.keepers.late import LateBy
from job_host.service.stores.notifications import NewNotification

FAILED, LATE, LOST_WORKER, ALMOST_FULL = "FAILED", "LATE", "LOST_WORKER", "ALMOST_FULL"
# Of what failed, so much is told.
MOST_CAUSES = 8

Told = dict[str, Any]


class Event(NamedTuple):
    """An event of a job execution, or of the service if that is 0, and when it was, in milliseconds since 1970."""

    moment: int
    kind: str
    execution: int
    about: str
    told: Told

    def notification(self, history: str) -> NewNotification:
        number = f"{history}/{self.kind}/{self.about}"
        head = {"id": number, "kind": self.kind, "time": moment(self.moment), "moment": self.moment, "history": history}
        return NewNotification(number, self.execution, compact({**head, **self.told}).decode("ascii"))


def failed(row: Told, causes: Sequence[Cause]) -> Event:
    """A job execution that is FAILED, with the first work items that failed. `row` names its job without a version."""
    end = row["updated"] if row["end"] is None else row["end"]
    shown = [
        {"stepName": one.element, "partition": one.partition, "outcome": one.outcome, "exitStatus": one.exit}
        for one in causes[:MOST_CAUSES]
    ]
    told = {"exitStatus": row["exit"], "causes": shown, "moreCauses": len(causes) - len(shown)}
    return Event(end, FAILED, row["execution"], f"{row['execution']}", {**of_execution(row), **told})


def of_execution(row: Told) -> Told:
    version = {"version": row["version"]} if row.get("version", 1) > 1 else {}
    return {"jobName": row["job"], **version, "executionId": row["execution"], "instanceId": row["instance"]}


def lost(row: Told, at: int, work: int, client: str | None, held: Held | None) -> Event:
    """A work item whose worker was lost: who gave it up (the service has the name ""), and where it was, as far as is known."""
    place = {} if held is None else {"stepName": held.element, "partition": held.partition}
    return Event(at, LOST_WORKER, row["execution"], f"{work}", {**of_execution(row), "work": work, **place, "by": client})


def late(at: int, instance: int, one: LateBy) -> Event:
    """A work item whose lease is late, or what is left of a job execution that should have ended."""
    of, held = one.late.running, one.late.held
    execution = held.execution if held is not None else of.execution if of is not None else 0
    about = f"work/{held.work}" if one.late.timeout is None and held is not None else f"{execution}"
    told: Told = {"jobName": None if of is None else of.job, "executionId": execution, "instanceId": instance}
    if one.late.timeout is None and held is not None:
        told |= {"work": held.work, "stepName": held.element, "partition": held.partition}
        told |= {"client": None if one.by is None else one.by.client}
    return Event(at, LATE, execution, about, {**told, "timeout": one.late.timeout})


def almost_full(at: int, operations: int, most: int) -> Event:
    return Event(at, ALMOST_FULL, 0, f"{most}", {"operations": operations, "most": most})
