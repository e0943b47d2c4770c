"""The archive of job instances that were purged: its job executions, and where one is that isn't in the history any more."""

from __future__ import annotations

import asyncio
import sqlite3
from collections.abc import Callable, Mapping
from concurrent.futures import ThreadPoolExecutor
from contextlib import suppress
from typing import Any, TypeVar

from aiohttp import web

from job_host.archive.folder import ArchiveFolder, Place
from job_host.archive.index import ORIGIN, Wanted, listed, located, shown
from job_host.archive.moments import DAY
from job_host.protocol.batch_statuses import STATUSES
from job_host.protocol.parameters import shortened
from job_host.service.http.requests import PAGE_WORDS, Asked, Route
from job_host.service.ids import told_outside
from job_host.service.pages import Page
from job_host.service.problems import Problem, bad_request, unavailable
from job_host.service.queues.queue import Queue
from job_host.service.routes.lists import PARAMETER_CHARACTERS, day_of, search_of

T = TypeVar("T")
Told = Mapping[str, Any]

# A thread of its own: while an index is made, nobody else waits.
READER = ThreadPoolExecutor(1, "archive")
# What isn't there is told without the archive if this takes longer.
MOST_SECONDS = 2.0
GONE = "NoSuchJobExecutionException"
# Paths of a job execution, whose number is theirs.
PATH = "/batch/jobexecutions/{id}"
WORDS = ("jobName", "status", "from", "to", "search", *PAGE_WORDS)
# Lists of a job execution that may be long, or have long texts.
LISTS = ("operations", "workItems", "logs")


def archive_of(asked: Asked) -> ArchiveFolder:
    if asked.host.archive is None:
        raise Problem("NoArchive", 404, "this instance has no archive: `jobhost serve --archive FOLDER` keeps one")
    return asked.host.archive


async def read_archive(read: Callable[[], T]) -> T:
    """Reads beside other requests, one reader at a time. Raises ArchiveFailed."""
    try:
        return await asyncio.get_running_loop().run_in_executor(READER, read)
    except (OSError, sqlite3.Error) as fault:
        raise unavailable("ArchiveFailed", f"the archive can't be read: {fault}") from fault


async def make_ready(archive: ArchiveFolder) -> None:
    """Lets the index know the archive before somebody asks: for an archive of years that takes a minute."""
    with suppress(Problem):
        await read_archive(lambda: listed(archive, Wanted(), 0, 0))


def wanted_of(asked: Asked) -> Wanted:
    given, until = asked.request.query, day_of(asked, "to")
    statuses: list[str] = given.getall("status", [])
    if len(statuses) > 1 or not set(statuses) <= set(STATUSES):
        raise bad_request(f"status is one of {', '.join(STATUSES)}")
    status = statuses[0] if statuses else None
    days = day_of(asked, "from"), None if until is None else until + DAY
    return Wanted(given.get("jobName"), status, *days, search_of(asked).lower())


async def list_archived(asked: Asked) -> web.StreamResponse:
    """Archived job executions, the newest first, page by page."""
    archive, wanted, page = archive_of(asked), wanted_of(asked), asked.page(asked.host.settings.bounds.page_size)
    rows, damaged = await read_archive(lambda: listed(archive, wanted, page.start, page.size + 1))
    shown_rows = [brief(asked.of(queue_of(asked, row)), row) for row in rows[: page.size]]
    told = {"jobExecutions": shown_rows, "more": len(rows) > page.size}
    return web.json_response({**told, "damagedLines": {one.file: one.lines for one in damaged}})


def queue_of(asked: Asked, row: Told) -> Queue:
    """The queue whose history a row is of. One of another history is told by the default one."""
    queues = asked.host.queues
    return next((one for one in queues if one.keeper.history == row["history"]), queues.default)


def brief(asked: Asked, row: Told) -> dict[str, Any]:
    """A row of the list. What was archived for a purge that failed is in this history still."""
    engine = asked.keeper.engine if row["history"] == asked.keeper.history else None
    is_there = engine is not None and engine.executions.has_instance(row["instanceId"])
    told = {**row, "parameterText": shortened(row["parameterText"], PARAMETER_CHARACTERS), "purged": not is_there}
    return dict(told_outside(told, asked.queue.number))


async def show_archived(asked: Asked) -> web.StreamResponse:
    """An archived job execution: of the history that is named, else of this one, else as it was archived last.

    Its lists have a page each, by the same words.
    """
    archive, execution, page = archive_of(asked), asked.path_number(), asked.page_of_large_rows()
    given = asked.request.query.get("history")
    histories: list[str | None] = [given] if given is not None else [asked.keeper.history, None]
    for history in histories:
        found = await read_archive(lambda: shown(archive, execution, history))
        if found is not None and queue_of(asked, found.record) is asked.queue:
            told = {**in_pages(found.execution, page), **origin(found.record, found.place)}
            return web.json_response(told_outside(told, asked.queue.number))
    raise Problem(GONE, 404, "the archive has no such job execution")


def in_pages(execution: Told, page: Page) -> dict[str, Any]:
    """A job execution with a page of each of its lists, and which of these have more."""
    lists = {name: page.of(execution[name]) for name in LISTS}
    more = {name: len(execution[name]) > page.start + page.size for name in LISTS}
    return {**execution, **lists, "more": more}


def origin(of: Told, place: Place) -> dict[str, Any]:
    return {**{name: of[name] for name in ORIGIN}, "file": place.file, "offset": place.offset}


async def with_archive(asked: Asked, problem: Problem) -> Problem:
    """The problem of a job execution that isn't there, which says so if the archive has it."""
    resource = asked.request.match_info.route.resource
    is_of_execution = resource is not None and PATH in resource.canonical and "/archive/" not in resource.canonical
    if problem.name != GONE or asked.host.archive is None or not is_of_execution:
        return problem
    archive, execution, history = asked.host.archive, asked.path_number(), asked.keeper.history
    try:
        found = await asyncio.wait_for(read_archive(lambda: located(archive, execution, history)), MOST_SECONDS)
    except (Problem, asyncio.TimeoutError):
        return problem
    if found is None:
        return problem
    number = asked.outside(execution)
    href = f"/batch/archive/jobexecutions/{number}?history={history}"
    detail = f"job execution {number} was purged, and the archive has it: {href}"
    archived = {"href": href, **origin(found.row, found.place)}
    told = Problem(problem.name, problem.status, detail, **problem.members, archived=archived)
    told.operations = problem.operations
    return told


ROUTES = [
    Route("GET", "/batch/archive/jobexecutions", "read", list_archived, WORDS),
    Route("GET", "/batch/archive/jobexecutions/{id}", "read", show_archived, ("history", *PAGE_WORDS)),
]
