"""Reads for people: the catalogue, job instances and job executions by status, work items, and how full the history is."""

from __future__ import annotations

import json
from collections.abc import Iterable, Sequence
from functools import lru_cache
from typing import Any

from aiohttp import web

from job_host.archive.moments import DAY, begin_of_day
from job_host.catalogue.jobs import jobs_of
from job_host.protocol.batch_statuses import STATUSES
from job_host.protocol.lines import query, read
from job_host.protocol.moments import moment
from job_host.protocol.parameters import parameter_text
from job_host.service.history.execution_index import Wanted
from job_host.service.history.work_items import Ended
from job_host.service.http.requests import PAGE_WORDS, Asked, Route
from job_host.service.keepers.details import Details, details_of
from job_host.service.keepers.keeper import Compaction, HeldBy, Keeper, Steps
from job_host.service.pages import USUAL_SIZE
from job_host.service.problems import Problem, bad_request, of_refusal
from job_host.service.routes import views
from job_host.service.routes.jobs import answer_of, instances_of

WORDS_OF_EXECUTIONS = ("status", "jobName", "search", "mostRecent", "details", "createdFrom", "createdUntil", *PAGE_WORDS)
SEARCH_CHARACTERS = 256
PARAMETER_CHARACTERS = 160


# A catalogue may have 16 MiB: it is read once.
catalogue_jobs = lru_cache(maxsize=2)(jobs_of)


async def catalogue_job(asked: Asked, name: str) -> tuple[bytes, str]:
    """The catalogue, and the id that a job has there: in the version that is wanted, else in the newest one."""
    await asked.keeper.reach(asked.at_least)
    catalogue, version = asked.keeper.reading().process.catalogue, asked.query_number("version", 0)
    found = asked.keeper.names.versions_in(catalogue).get(name, [])
    wanted = [job for job in found if version in (0, asked.keeper.names.of(job).version)]
    if not wanted:
        raise Problem("JobStartException", 404, "the catalogue has no such job")
    return catalogue, wanted[-1]


async def show_job(asked: Asked, name: str) -> web.StreamResponse:
    """A job as the catalogue has it, with its version if it has several."""
    catalogue, job = await catalogue_job(asked, name)
    told, names = catalogue_jobs(catalogue)[job], asked.keeper.names
    if len(names.versions_in(catalogue)[name]) > 1:
        told = {**told, "id": name, "version": names.of(job).version}
    return web.json_response(told)


async def show_catalogue(asked: Asked) -> web.StreamResponse:
    """The jobs that can be started, each with its newest job instance; or with `jobName` one job, as the catalogue has it."""
    if "jobName" in asked.request.query:
        return await show_job(asked, asked.request.query["jobName"])
    await asked.keeper.reach(asked.at_least)
    names, book = asked.keeper.names.versions_in(asked.keeper.reading().process.catalogue), asked.keeper.book
    names = {name: jobs for name, jobs in names.items() if book is None or not book.is_withdrawn(name)}
    async with asked.keeper.steps(asked.at_least) as steps:
        counted = await instance_counts(steps, [job for jobs in names.values() for job in jobs])
        lists = [await newest_instances(steps, jobs, 0, 1) for jobs in names.values()]
        instances = await instances_of(steps, [instance for some in lists for instance in some])
    by_job = {one["jobName"]: one for one in instances}
    shown = [
        {"jobName": name, **version_in(asked, jobs), "instances": sum(counted[job] for job in jobs), "newest": by_job.get(name)}
        for name, jobs in names.items()
    ]
    return asked.answer({"jobs": shown}, steps.seen)


def version_in(asked: Asked, jobs: Sequence[str]) -> dict[str, int]:
    """The newest of a job's versions, if it is above 1."""
    version = asked.keeper.names.of(jobs[-1]).version
    return {"version": version} if version > 1 else {}


async def instance_counts(steps: Steps, jobs: Sequence[str]) -> dict[str, int]:
    """How many job instances each of these jobs of the catalogue has."""
    replies = await steps.ask([query("job_instance_count", job=job) for job in jobs])
    return {job: read(reply).get("count", 0) for job, reply in zip(jobs, replies, strict=True)}


async def newest_instances(steps: Steps, jobs: Sequence[str], start: int, count: int) -> list[int]:
    """The newest job instances of these jobs of the catalogue, without the first ones. Raises the refusal if none has any."""
    words = {"start": start, "count": count} if len(jobs) == 1 else {"start": 0, "count": start + count}
    told = [read(reply) for reply in await steps.ask([query("job_instances", job=job, **words) for job in jobs])]
    numbers = [one["instance"] for some in told for one in some.get("instances", ())]
    return numbers if len(jobs) == 1 else sorted(numbers, reverse=True)[start : start + count]


def versions_of(asked: Asked, name: str) -> list[str]:
    """What the catalogue has of a job, by its name. Another name is the repository's to refuse."""
    names = asked.keeper.names
    found = names.versions_in(asked.keeper.reading().process.catalogue).get(name)
    if found is None and names.of(name).version > 1:
        raise Problem("NoSuchJobException", 404, "a job has a name without its version")
    return found or [name]


async def refuse_unknown(steps: Steps, jobs: Sequence[str]) -> None:
    """Raises the repository's refusal of a job without job instances."""
    replies = await steps.ask([query("job_instance_count", job=job) for job in jobs])
    problems = [of_refusal(read(reply), steps.seen) for reply in replies]
    if problems[0] is not None and None not in problems:
        raise problems[0]


async def list_instances(asked: Asked) -> web.StreamResponse:
    """The newest job instances of one job, or of all, page by page."""
    bounds = asked.host.settings.bounds
    page, size = asked.query_number("page", 0), asked.query_number("pageSize", USUAL_SIZE)
    if size > bounds.page_size or (page + 1) * size > bounds.listed:
        raise bad_request(f"a page has at most {bounds.page_size} job instances, and the first {bounds.listed} can be listed")
    job = asked.request.query.get("jobName")
    given: list[str] = asked.request.query.getall("instanceState", [])
    states = statuses_of("instanceState", [state for text in given for state in text.split(",")])
    if states:
        return await list_with_state(asked, Wanted(states, job, most_recent=True), page * size, size)
    jobs = [] if job is None else versions_of(asked, job)
    async with asked.keeper.steps(asked.at_least) as steps:
        if job is None:
            jobs = read((await steps.ask([query("job_names")]))[0])["names"]
        else:
            await refuse_unknown(steps, jobs)
        numbers = await newest_instances(steps, jobs, page * size, size)
        instances = await instances_of(steps, numbers)
    return asked.answer(instances, steps.seen)


async def list_with_state(asked: Asked, wanted: Wanted, start: int, count: int) -> web.StreamResponse:
    """The newest job instances whose state is wanted: that of their most recent job execution. See `list_all_executions`."""
    counted = await asked.keeper.ask([query("status_counts")], asked.at_least)
    most = with_status(wanted, answer_of(counted.replies[0])["counts"])
    numbers, _ = await asked.keeper.reading().executions.find(wanted, start, count, most)
    async with asked.keeper.steps(counted.seen) as steps:
        if wanted.job is not None:
            await refuse_unknown(steps, versions_of(asked, wanted.job))
        told = [read(reply) for reply in await steps.ask([query("job_instance", execution=one) for one in numbers])]
        instances = await instances_of(steps, [one["instance"] for one in told if "instance" in one])
    return asked.answer([one for one in instances if one["instanceState"] in wanted.statuses], steps.seen)


def statuses_of(word: str, given: Iterable[str], known: Sequence[str] = STATUSES) -> frozenset[str]:
    """The batch statuses that a word of the query has."""
    statuses = frozenset(given)
    unknown = sorted(statuses - set(known))
    if unknown:
        raise bad_request(f"{word} is one of {', '.join(known)}, and not {json.dumps(unknown[0])[:100]}")
    return statuses


def wanted_of(asked: Asked) -> Wanted:
    given = asked.request.query
    statuses = statuses_of("status", given.getall("status", []))
    search = search_of(asked).lower()
    since, until = day_of(asked, "createdFrom"), day_of(asked, "createdUntil")
    numbers = asked.keeper.reading().made_between(since, None if until is None else until + DAY)
    return Wanted(statuses, given.get("jobName"), search, asked.query_flag("mostRecent"), numbers, asked.outside(0))


def search_of(asked: Asked) -> str:
    search = asked.request.query.get("search", "").strip()
    if len(search.lower()) > SEARCH_CHARACTERS:
        raise bad_request(f"search has at most {SEARCH_CHARACTERS} characters")
    return search


def day_of(asked: Asked, word: str) -> int | None:
    """The moment at which a day of the query begins, in UTC."""
    given = asked.request.query.get(word)
    if given is None:
        return None
    try:
        return begin_of_day(given)
    except ValueError as fault:
        raise bad_request(f"{word} is a day, as 2026-11-27") from fault


async def list_all_executions(asked: Asked) -> web.StreamResponse:
    """The newest job executions that a filter takes, page by page. One that changes meanwhile may be left out.

    With `details` each has the names of its failed steps, and how long its job took before.
    """
    with_details = asked.query_flag("details")
    wanted, page = wanted_of(asked), asked.page(asked.host.settings.bounds.page_size)
    counted = await asked.keeper.ask([query("status_counts")], asked.at_least)
    executions = asked.keeper.reading().executions
    most_with_status = with_status(wanted, answer_of(counted.replies[0])["counts"])
    numbers, more = await executions.find(wanted, *page, most_with_status)
    asks = ("job_execution", "parameters")
    lines = [query("status_counts"), *(query(ask, execution=one) for one in numbers for ask in asks)]
    answers = await asked.keeper.ask(lines, counted.seen)
    counts, *replies = [read(reply) for reply in answers.replies]
    pairs = zip(replies[::2], replies[1::2])
    names = asked.keeper.names
    there = [
        (names.told(told["job_execution"]), parameters["parameters"]) for told, parameters in pairs if "job_execution" in told
    ]
    rows = [brief(told, parameters) for told, parameters in there]
    if with_details:
        details = await details_of(asked.keeper, [told for told, _ in there], answers.seen)
        rows = [{**row, **detailed(one)} for row, one in zip(rows, details, strict=True)]
    rows = [{**row, "mostRecent": executions.is_most_recent(row["executionId"], answers.seen)} for row in rows]
    shown = [row for row in rows if not wanted.statuses or row["batchStatus"] in wanted.statuses]
    if wanted.most_recent:
        shown = [row for row in shown if row["mostRecent"]]
    told = {"jobExecutions": shown, "more": more, "statusCounts": counts["counts"], "total": total_of(wanted, counts["counts"])}
    return asked.answer(told, answers.seen)


def total_of(wanted: Wanted, counts: dict[str, int]) -> int | None:
    """How many job executions there are, if the counts by batch status say so."""
    return with_status(wanted, counts) if wanted.is_by_status_alone else None


def with_status(wanted: Wanted, counts: dict[str, int]) -> int:
    return sum(count for status, count in counts.items() if not wanted.statuses or status in wanted.statuses)


def brief(told: dict[str, Any], parameters: dict[str, str]) -> dict[str, Any]:
    return {**views.job_execution_row(told), "parameterText": parameter_text(parameters, PARAMETER_CHARACTERS)}


def detailed(details: Details) -> dict[str, Any]:
    past = None if details.past is None else {"median": details.past.median, "longest": details.past.longest}
    return {"failedSteps": details.failed, "past": past}


async def list_work_items(asked: Asked) -> web.StreamResponse:
    """The work items of a job execution, page by page: each partition, each decision, and who ran it."""
    execution, page = asked.path_number(), asked.page(asked.host.settings.bounds.page_size)
    answers = await asked.keeper.ask([query("job_instance", execution=execution)], asked.at_least)
    answer_of(answers.replies[0], answers.seen)
    items, seen = await asked.keeper.work_items(execution, page, answers.seen)
    return asked.answer([work_item(ended, by) for ended, by in items], seen)


def work_item(ended: Ended | None, by: HeldBy) -> dict[str, Any]:
    return {
        "work": by.held.work,
        "stepName": by.held.element,
        "partition": by.held.partition,
        "client": by.client,
        "since": moment(by.held.since),
        "leaseRemaining": None if by.remaining is None else round(by.remaining, 1),
        "until": None if ended is None else moment(ended.until),
        "outcome": None if ended is None else ended.outcome,
        "exitStatus": None if ended is None else ended.exit,
    }


async def show_history(asked: Asked) -> web.StreamResponse:
    """How full the history is, and which instance this is."""
    keeper, history = asked.keeper, asked.host.settings.history
    told = {
        "history": keeper.history,
        "operations": keeper.committed,
        "mostOperations": history.most,
        "warnFrom": history.warn_from,
        "refuseFrom": history.refuse_from,
        "role": keeper.role,
        "epoch": keeper.epoch,
        "leader": keeper.leader_url,
        "base": base_of(keeper),
        "compaction": None if keeper.compaction is None else compaction(keeper.compaction),
    }
    return web.json_response(told)


def base_of(keeper: Keeper) -> dict[str, int] | None:
    """The base of the log: the operations before it, its rows, and the operations behind it."""
    base = keeper.engine.base if keeper.engine is not None else None
    return None if base is None else {"operations": base.head.operations, "rows": base.head.rows, "behind": keeper.behind}


def compaction(one: Compaction) -> dict[str, Any]:
    return {
        "begun": moment(one.begun),
        "seconds": round(one.seconds, 3),
        "isOver": one.is_over,
        "callsWait": one.calls_wait,
        "failure": one.failure or None,
    }


async def show_caller(asked: Asked) -> web.StreamResponse:
    """Whose token this is, and what it allows."""
    told = {"name": asked.caller.prefix.rstrip("/"), "rights": sorted(asked.caller.rights)}
    return web.json_response(told)


ROUTES = [
    Route("GET", "/batch/catalogue", "read", show_catalogue, ("jobName", "version", "atLeast")),
    Route("GET", "/batch/jobinstances", "read", list_instances, (*PAGE_WORDS, "jobName", "instanceState", "atLeast")),
    Route("GET", "/batch/jobexecutions", "read", list_all_executions, (*WORDS_OF_EXECUTIONS, "atLeast")),
    Route("GET", "/batch/jobexecutions/{id}/workitems", "read", list_work_items, (*PAGE_WORDS, "atLeast")),
    Route("GET", "/batch/history", "read", show_history),
    Route("GET", "/batch/caller", "read", show_caller),
]
