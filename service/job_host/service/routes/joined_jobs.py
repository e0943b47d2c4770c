"""Starts, and changes of jobs, in the queue that a job belongs to; and what is told of all queues."""

from __future__ import annotations

import asyncio
import json
from dataclasses import replace
from typing import Any

from aiohttp import web

from job_host.catalogue.queues import DEFAULT_QUEUE
from job_host.service.http.requests import Asked
from job_host.service.ids import told_outside
from job_host.service.pages import Page
from job_host.service.queues.queue import Queue
from job_host.service.routes import audit, jobs, lists, pictures, schedules, versions
from job_host.service.routes.joined_lists import of_version
from job_host.service.routes.several import Answers, in_order, newest_first


async def start_instance(asked: Asked) -> web.StreamResponse:
    """Starts a job in its queue. A start that was made by its key before the job changed its queue is told again."""
    body = await asked.body()
    job, queues = body.get("jobName", body.get("jobXMLName")), asked.host.queues
    if not isinstance(job, str):
        return await jobs.start_instance(asked)
    for queue in queues.once_home(job):
        about = asked.of(queue)
        kept = await queue.keeper.leading().kept_before(jobs.start_call(about, body))
        if kept is not None:
            return jobs.begun(about, kept, 201)
    return await jobs.start_instance(asked.of(queues.home(job)))


async def apply_job(asked: Asked) -> web.StreamResponse:
    """Applies the file of a job in the queue that its settings name. A job begins in one queue at a time."""
    from job_host.catalogue.folder import read_job_file

    file = await versions.file_of(asked)
    read = await asyncio.to_thread(read_job_file, file, asked.host.settings.allow)
    name, queues = read.for_workers.policies.queue, asked.host.queues
    known = [one for one in queues if one.name == name and one.is_declared]
    async with queues.turn:
        return await versions.apply_job(asked.of(known[0] if known else queues.default))


async def withdraw_job(asked: Asked) -> web.StreamResponse:
    async with asked.host.queues.turn:
        return await versions.withdraw_job(of_job(asked, asked.request.match_info["name"]))


async def show_versions(asked: Asked) -> web.StreamResponse:
    """The changes of a job in its queue, and which one that is."""
    name, answers = asked.request.match_info["name"], Answers(asked)
    queue = asked.host.queues.home(name)
    told = await answers.of(versions.show_versions, queue)
    return answers.answer({**told, "queue": queue.name})


def of_job(asked: Asked, name: str) -> Asked:
    """The request, about the queue of a job."""
    return asked.of(asked.host.queues.home(name))


async def show_picture(asked: Asked) -> web.StreamResponse:
    name = asked.request.query.get("jobName")
    return await pictures.show_picture(asked if name is None else of_version(asked, name))


async def list_schedules(asked: Asked) -> web.StreamResponse:
    """What comes next by the schedules of jobs, queue by queue."""
    answers = Answers(asked)
    told = [await answers.of(schedules.list_schedules, queue) for queue in asked.host.queues]
    return answers.answer({"jobs": [job for one in told for job in one["jobs"]]})


async def show_history(asked: Asked) -> web.StreamResponse:
    """That of the default queue, and those of all."""
    told: list[dict[str, Any]] = []
    for queue in asked.host.queues:
        response = await lists.show_history(asked.of(queue))
        assert isinstance(response, web.Response)
        told.append({"queue": queue.name, "number": queue.number, **json.loads(response.text or ""), **bounds_of(queue)})
    default = {name: value for name, value in told[0].items() if name not in ("queue", "number", *bounds_of(asked.queue))}
    return web.json_response({**default, "role": asked.host.queues.role, "queues": told})


def bounds_of(queue: Queue) -> dict[str, Any]:
    bounds = queue.bounds
    return {"mostRunning": bounds.most_running, "mostBusy": bounds.most_busy, "labels": list(bounds.labels)}


async def list_audit(asked: Asked) -> web.StreamResponse:
    """The kept operations of all queues, the newest first. An operation's number is one of its queue."""
    wanted, answers, found = audit.wanted_of(asked), Answers(asked), []
    queues, most = list(asked.host.queues), wanted.page.start + wanted.page.size
    for queue in queues:
        await queue.keeper.reach(answers.about(queue).at_least)
        queue.keeper.reading()
        rows = await queue.keeper.audit(replace(wanted, page=Page(0, most)))
        answers.saw(queue, queue.keeper.committed)
        found.append(rows)
    joined = newest_first([[one.did.moment for one in rows] for rows in found], wanted.page)
    told = [[audited(queue, one) for one in part.of(rows)] for queue, rows, part in zip(queues, found, joined.pages)]
    return answers.answer(in_order(joined.order, told))


def audited(queue: Queue, one: Any) -> dict[str, Any]:
    return {"queue": queue.name, **told_outside(audit.audited(one), queue.number)}


async def show_head(asked: Asked) -> web.StreamResponse:
    """The last operation of each queue's chain."""
    answers, told = Answers(asked), []
    for queue in asked.host.queues:
        told.append({"queue": queue.name, **await answers.of(audit.show_head, queue)})
    heads = {one["queue"]: one["head"] for one in told}
    return answers.answer({**told[0], "head": heads[DEFAULT_QUEUE], "queues": told})
