"""What is open, why job executions are FAILED or STOPPED, and who did what to them."""

from __future__ import annotations

from collections.abc import Mapping, Sequence
from typing import Any

from aiohttp import web

from job_host.protocol.moments import moment
from job_host.service.history.actions import Action
from job_host.service.history.audited import Origin
from job_host.service.history.open_index import RESTARTABLE, Long, Running
from job_host.service.http.requests import PAGE_WORDS, Asked, Route
from job_host.service.keepers.late import LateBy
from job_host.service.keepers.open_items import Caused, Open, OpenWanted, ToRestart, causes_for, open_items
from job_host.service.routes import views
from job_host.service.routes.lists import statuses_of


async def list_open(asked: Asked) -> web.StreamResponse:
    """What somebody has to look at, page by page: each list has the same page."""
    given = statuses_of("status", asked.request.query.getall("status", RESTARTABLE), RESTARTABLE)
    statuses = tuple(one for one in RESTARTABLE if one in given)
    wanted = OpenWanted(asked.page_of_large_rows(), statuses, asked.request.query.get("jobName"))
    found = await open_items(asked.keeper, wanted, asked.at_least)
    restart_times = asked.keeper.restart_times if asked.keeper.term is not None else {}
    return asked.answer(shown(found, wanted, restart_times), found.seen)


def shown(found: Open, wanted: OpenWanted, restart_times: Mapping[int, int]) -> dict[str, Any]:
    return {
        "jobInstances": [to_restart(one, restart_times) for one in found.to_restart],
        "long": [long(one) for one in found.long],
        "late": None if found.late is None else [late(one) for one in found.late],
        "waiting": None if found.waiting is None else [views.job_execution_row(one) for one in found.waiting],
        "counts": found.counts,
        "more": found.has_more(wanted),
    }


def to_restart(one: ToRestart, restart_times: Mapping[int, int]) -> dict[str, Any]:
    """A job instance, and when its policy restarts it, if it does."""
    due = restart_times.get(one.execution["execution"])
    told = {**views.job_execution_row(one.execution), **causes(one)}
    return told if due is None else {**told, "restartTime": moment(due)}


def causes(one: ToRestart) -> dict[str, Any]:
    return {"causes": [cause(each) for each in one.causes], "moreCauses": one.count - len(one.causes)}


def cause(caused: Caused) -> dict[str, Any]:
    of = caused.cause
    return {
        "work": of.work or None,
        "stepName": of.element,
        "partition": of.partition,
        "outcome": of.outcome,
        "exitStatus": of.exit,
        "logEnd": caused.log,
    }


def long(one: Long) -> dict[str, Any]:
    return {**running(one.running), "seconds": one.lasts / 1000, "longestBefore": one.longest / 1000}


def running(one: Running) -> dict[str, Any]:
    return {
        "jobName": one.job,
        **version(one),
        "executionId": one.execution,
        "instanceId": one.instance,
        "batchStatus": one.status,
        "startTime": moment(one.start),
    }


def version(one: Running) -> dict[str, int]:
    return {"version": one.version} if one.version > 1 else {}


def late(one: LateBy) -> dict[str, Any]:
    of, by = one.late.running, one.by
    left = None if by is None or by.remaining is None else round(by.remaining, 1)
    return {
        "jobName": None if of is None else of.job,
        **({} if of is None else version(of)),
        "executionId": by.held.execution if by is not None else of.execution if of is not None else None,
        "work": None if by is None else by.held.work,
        "stepName": None if by is None else by.held.element,
        "partition": None if by is None else by.held.partition,
        "client": None if by is None else by.client,
        "since": moment(by.held.since if by is not None else of.start if of is not None else None),
        "leaseRemaining": left,
        "timeout": one.late.timeout,
    }


async def show_causes(asked: Asked) -> web.StreamResponse:
    """The work items by which a job execution is FAILED or STOPPED, each with the end of its own log."""
    one, seen = await causes_for(asked.keeper, asked.path_number(), asked.at_least)
    return asked.answer(causes(one), seen)


async def list_operations(asked: Asked) -> web.StreamResponse:
    """Who did what to a job execution, the newest first, page by page. A purge is told, too."""
    page = asked.page(asked.host.settings.bounds.page_size)
    found, seen = await asked.keeper.actions(asked.path_number(), page, asked.at_least)
    return asked.answer([operation(action, origin) for action, origin in found], seen)


def operation(action: Action, origin: Origin) -> dict[str, Any]:
    return {
        "operation": action.operation,
        "action": action.name,
        **origin._asdict(),
        "time": moment(action.moment),
        "made": action.of if action.name in ("start", "restart") else None,
        "work": action.of if action.name == "lose" else None,
    }


ROUTES: Sequence[Route] = [
    Route("GET", "/batch/open", "read", list_open, ("status", "jobName", *PAGE_WORDS, "atLeast")),
    Route("GET", "/batch/jobexecutions/{id}/causes", "read", show_causes, ("atLeast",)),
    Route("GET", "/batch/jobexecutions/{id}/operations", "read", list_operations, (*PAGE_WORDS, "atLeast")),
]
