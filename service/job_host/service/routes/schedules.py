"""What comes next by the schedules of jobs."""

from __future__ import annotations

from collections.abc import Sequence
from typing import Any

from aiohttp import web

from job_host.catalogue.names import id_of
from job_host.catalogue.schedules import Schedule
from job_host.protocol.moments import moment
from job_host.service.http.requests import Asked, Route
from job_host.service.problems import bad_request
from job_host.service.terms.moments import clock

MOST_NEXT, USUAL_NEXT = 100, 5


async def list_schedules(asked: Asked) -> web.StreamResponse:
    """The jobs that have a schedule in their newest version, each with its next moments: of all jobs, or of one."""
    await asked.keeper.reach(asked.at_least)
    count, wanted = asked.query_number("count", USUAL_NEXT), asked.request.query.get("jobName")
    if not 1 <= count <= MOST_NEXT:
        raise bad_request(f"count is a number from 1 to {MOST_NEXT}")
    told = [shown(name, version, schedule, count) for name, version, schedule in scheduled(asked, wanted)]
    return asked.answer({"jobs": told}, asked.keeper.committed)


def scheduled(asked: Asked, wanted: str | None) -> list[tuple[str, int, Schedule]]:
    """Jobs with their newest versions and schedules. Those of a catalogue have none, and neither have withdrawn ones."""
    book = asked.keeper.book if asked.keeper.is_versioned else None
    names = [] if book is None else [one for one in book.names() if wanted in (None, one) and not book.is_withdrawn(one)]
    versions = [(name, book.newest(name)) for name in names] if book is not None else []
    found = [(name, version, asked.keeper.policies(id_of(name, version)).schedule) for name, version in versions]
    return [(name, version, schedule) for name, version, schedule in found if schedule is not None]


def shown(name: str, version: int, schedule: Schedule, count: int) -> dict[str, Any]:
    return {
        "jobName": name,
        **({"version": version} if version > 1 else {}),
        "cron": schedule.cron.text,
        "zone": schedule.zone,
        "missed": schedule.missed,
        "next": [
            {"time": moment(one), "local": schedule.local(one).isoformat(), "jobParameters": schedule.parameters_at(one)}
            for one in schedule.after(clock(), count)
        ],
    }


ROUTES: Sequence[Route] = [
    Route("GET", "/batch/schedules", "read", list_schedules, ("jobName", "count", "atLeast")),
]
