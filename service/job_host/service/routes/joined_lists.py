"""Lists over several queues: each has the rows of all, in one order, page by page."""

from __future__ import annotations

from collections.abc import Sequence
from typing import Any

from aiohttp import web

from job_host.protocol.lines import query, read
from job_host.service.history.execution_index import Wanted
from job_host.service.history.open_index import RESTARTABLE, WAITING
from job_host.service.http.requests import Asked
from job_host.service.ids import told_outside
from job_host.service.keepers.open_items import OpenWanted, open_items
from job_host.service.pages import USUAL_SIZE, Page
from job_host.service.problems import bad_request, of_refusal
from job_host.service.queues.queue import Queue
from job_host.service.routes import jobs, lists, open_list
from job_host.service.routes.jobs import answer_of, instances_of
from job_host.service.routes.several import (
    Answers,
    in_order,
    made_at,
    newest_first,
    one_behind_another,
    outside_of,
    summed,
)

NO_ROWS = Page(0, 0)
# The lists of what is open that stand one behind another, queue by queue.
BEHIND = ("long", "late", WAITING)


async def list_jobs(asked: Asked) -> web.StreamResponse:
    answers = Answers(asked)
    told = await answers.of_each(jobs.list_jobs)
    names = list(dict.fromkeys(name for one in told for name in one["jobNames"]))
    return answers.answer({"jobNames": names, "statusCounts": summed(one["statusCounts"] for one in told)})


async def show_catalogue(asked: Asked) -> web.StreamResponse:
    """The jobs that can be started, each of the queue in which it can; or one job."""
    name = asked.request.query.get("jobName")
    if name is not None:
        return await lists.show_catalogue(of_version(asked, name))
    answers, shown = Answers(asked), []
    for queue in asked.host.queues:
        told = await answers.of(lists.show_catalogue, queue)
        shown += [one for one in told["jobs"] if asked.host.queues.home(one["jobName"]) is queue]
    return answers.answer({"jobs": shown})


def of_version(asked: Asked, name: str) -> Asked:
    """The request, about the queue in which a job can be started, if that has the wanted version, else one that has it."""
    queues, version = asked.host.queues, asked.query_number("version", 0)
    home = queues.home(name)
    for queue in [home, *queues.once_home(name)]:
        book = queue.keeper.book
        if book is None or version <= book.newest(name):
            return asked.of(queue)
    return asked.of(home)


# ---- Job instances


async def list_instances(asked: Asked) -> web.StreamResponse:
    """The newest job instances of one job, or of all, page by page."""
    bounds, job = asked.host.settings.bounds, asked.request.query.get("jobName")
    page, size = asked.query_number("page", 0), asked.query_number("pageSize", USUAL_SIZE)
    if size > bounds.page_size or (page + 1) * size > bounds.listed:
        raise bad_request(f"a page has at most {bounds.page_size} job instances, and the first {bounds.listed} can be listed")
    given: list[str] = asked.request.query.getall("instanceState", [])
    states = lists.statuses_of("instanceState", [state for text in given for state in text.split(",")])
    answers, most = Answers(asked), (page + 1) * size
    if job is not None:
        await refuse_unknown(answers, job)
    found = [await newest_in(answers, queue, job, states, most) for queue in asked.host.queues]
    joined = newest_first([[moment for _, moment in some] for some in found], Page(page * size, size))
    rows = []
    for queue, some, part in zip(asked.host.queues, found, joined.pages):
        rows.append(await instance_rows(answers, queue, [number for number, _ in part.of(some)], states))
    return answers.answer(in_order(joined.order, rows))


async def refuse_unknown(answers: Answers, job: str) -> None:
    """Raises the refusal of a job without job instances in any queue."""
    problems = []
    for queue in answers.asked.host.queues:
        about = answers.about(queue)
        async with about.keeper.steps(about.at_least) as steps:
            names = lists.versions_of(about, job)
            told = [read(reply) for reply in await steps.ask([query("job_instance_count", job=one) for one in names])]
            refusals = [of_refusal(one) for one in told]
        problems.append(refusals[0] if None not in refusals else None)
    if problems[0] is not None and None not in problems:
        raise problems[0]


async def newest_in(
    answers: Answers, queue: Queue, job: str | None, states: frozenset[str], most: int
) -> list[tuple[int, int]]:
    """The newest job instances of a queue, each with the moment at which it was made."""
    about = answers.about(queue)
    if states:
        counted = await about.keeper.ask([query("status_counts")], about.at_least)
        wanted = Wanted(states, job, most_recent=True)
        count = lists.with_status(wanted, answer_of(counted.replies[0])["counts"])
        executions, _ = await about.keeper.reading().executions.find(wanted, 0, most, count)
        engine = about.keeper.reading()
        numbers = [instance for one in executions if (instance := engine.executions.instance_of(one)) is not None]
        return with_moments(engine, numbers)
    async with about.keeper.steps(about.at_least) as steps:
        names = lists.versions_of(about, job) if job is not None else read((await steps.ask([query("job_names")]))[0])["names"]
        numbers = await lists.newest_instances(steps, names, 0, most) if names else []
        return with_moments(steps.engine, numbers)


def with_moments(engine: Any, instances: list[int]) -> list[tuple[int, int]]:
    """Job instances with the moments at which their first job executions were made."""
    there = [one for one in instances if engine.executions.has_instance(one)]
    return list(zip(there, made_at(engine, [engine.executions.every_of(one)[-1] for one in there])))


async def instance_rows(answers: Answers, queue: Queue, numbers: list[int], states: frozenset[str]) -> list[dict[str, Any]]:
    about = answers.about(queue)
    async with about.keeper.steps(about.at_least) as steps:
        rows = await instances_of(steps, [one for one in numbers if steps.engine.executions.has_instance(one)])
    answers.saw(queue, steps.seen)
    return [told_outside(one, queue.number) for one in rows if not states or one["instanceState"] in states]


# ---- Job executions


async def list_all_executions(asked: Asked) -> web.StreamResponse:
    """The newest job executions that a filter takes, page by page."""
    page, answers = asked.page(asked.host.settings.bounds.page_size), Answers(asked)
    queues, found = list(asked.host.queues), []
    for queue in queues:
        about = answers.about(queue)
        wanted = lists.wanted_of(about)
        counted = await about.keeper.ask([query("status_counts")], about.at_least)
        engine, count = about.keeper.reading(), lists.with_status(wanted, answer_of(counted.replies[0])["counts"])
        numbers, more = await engine.executions.find(wanted, 0, page.start + page.size, count)
        found.append((made_at(engine, numbers), more))
    joined = newest_first([moments for moments, _ in found], page)
    told = [await answers.of(lists.list_all_executions, queue, part) for queue, part in zip(queues, joined.pages)]
    totals = [one["total"] for one in told]
    is_more = any(more for _, more in found) or sum(len(moments) for moments, _ in found) > page.start + page.size
    return answers.answer(
        {
            "jobExecutions": in_order(joined.order, [one["jobExecutions"] for one in told]),
            "more": is_more,
            "statusCounts": summed(one["statusCounts"] for one in told),
            "total": None if None in totals else sum(totals),
        }
    )


# ---- What is open


async def list_open(asked: Asked) -> web.StreamResponse:
    """What somebody has to look at: job instances to restart, the newest first; other lists queue by queue."""
    given = lists.statuses_of("status", asked.request.query.getall("status", RESTARTABLE), RESTARTABLE)
    statuses = tuple(one for one in RESTARTABLE if one in given)
    wanted = OpenWanted(asked.page_of_large_rows(), statuses, asked.request.query.get("jobName"))
    queues, answers = list(asked.host.queues), Answers(asked)
    counts, moments = [], []
    for queue in queues:
        found = await open_items(queue.keeper, OpenWanted(NO_ROWS, statuses, wanted.job), answers.about(queue).at_least)
        counts.append(found.counts)
        engine, most = queue.keeper.reading(), Page(0, wanted.page.start + wanted.page.size)
        moments.append(made_at(engine, engine.open.restartable(statuses, wanted.job, most)))
    joined = newest_first(moments, wanted.page)
    to_restart = await open_rows(answers, "jobInstances", joined.pages, wanted)
    told: dict[str, Any] = {"jobInstances": in_order(joined.order, to_restart)}
    for name in BEHIND:
        of_queues = [one[name] for one in counts]
        parts = one_behind_another([count or 0 for count in of_queues], wanted.page)
        rows = await open_rows(answers, name, parts, wanted)
        told[name] = None if None in of_queues else [row for some in rows for row in some]
    return answers.answer({**told, "counts": (all_counts := summed(counts)), "more": has_more(all_counts, wanted)})


def has_more(counts: dict[str, int | None], wanted: OpenWanted) -> bool:
    to_restart = sum(counts[status] or 0 for status in wanted.statuses)
    return max(to_restart, *(counts[name] or 0 for name in BEHIND)) > wanted.page.start + wanted.page.size


async def open_rows(answers: Answers, name: str, parts: Sequence[Page], wanted: OpenWanted) -> list[list[dict[str, Any]]]:
    """The rows of one of the lists, for each queue."""
    rows: list[list[dict[str, Any]]] = []
    for queue, part in zip(answers.asked.host.queues, parts):
        if not part.size:
            rows.append([])
            continue
        keeper, at_least = queue.keeper, answers.about(queue).at_least
        found = await open_items(keeper, OpenWanted(part, wanted.statuses, wanted.job), at_least)
        answers.saw(queue, found.seen)
        times = keeper.restart_times if keeper.term is not None else {}
        shown = open_list.shown(found, wanted, times)[name]
        rows.append(list(map(outside_of(queue), shown or ())))
    return rows
