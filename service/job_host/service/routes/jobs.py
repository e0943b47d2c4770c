"""Routes for operators: job instances, job executions, step executions and their logs."""

from __future__ import annotations

from collections.abc import Sequence
from dataclasses import replace
from typing import Any

from aiohttp import web

from job_host.protocol.headers import REQUEST_KEY
from job_host.protocol.lines import Members, fingerprint, query, read
from job_host.service.http.requests import PAGE_WORDS, Asked, Route, expect_members
from job_host.service.keepers.keeper import Steps
from job_host.service.pages import USUAL_SIZE, Page
from job_host.service.problems import bad_request, of_refusal
from job_host.service.routes import views
from job_host.service.terms.calls import Call, Kept, once_by_parameters


def answer_of(reply: bytes, seen: int | None = None) -> dict[str, Any]:
    """A reply that isn't refused. Raises the refusal's problem."""
    told = read(reply)
    problem = of_refusal(told, seen)
    if problem is not None:
        raise problem
    return told


def told_by(kept: Kept) -> dict[str, Any]:
    """What a kept reply says. Raises the refusal's problem."""
    told = kept.told()
    problem = of_refusal(told, kept.seen)
    if problem is not None:
        raise problem
    return told


async def start_instance(asked: Asked) -> web.StreamResponse:
    call = start_call(asked, await asked.body())
    return begun(asked, await asked.keeper.submit(call), 201)


def start_call(asked: Asked, body: dict[str, Any]) -> Call:
    """The call of a start."""
    expect_members(body, "jobName", "jobXMLName", "jobParameters")
    job = body.get("jobName", body.get("jobXMLName"))
    if job is None:
        raise bad_request("jobName or jobXMLName is missing")
    is_once = asked.query_flag("once")
    if is_once and asked.key is None:
        raise bad_request(f"a start that says once needs the header {REQUEST_KEY}")
    members = {"job": job, "parameters": body.get("jobParameters", {})}
    call = asked.call("start", members, fingerprint("start", members), is_once=is_once)
    if asked.keeper.is_versioned and isinstance(job, str):
        call = replace(call, resolve=lambda: to_start(asked, members))
        if asked.keeper.newest_policies(job).once_by_parameters:
            return once_by_parameters(call, job, members["parameters"])
    return call


async def to_start(asked: Asked, members: Members) -> Members:
    """The members of a start, with the newest version of its job."""
    return {**members, "job": asked.keeper.known_jobs().id_to_start(members["job"])}


def begun(asked: Asked, kept: Kept, status: int) -> web.StreamResponse:
    told = told_by(kept)
    return asked.answer(views.begun(told["execution"], asked.keeper.names.told(read(kept.answers[0]))), kept.seen, status)


async def instances_of(steps: Steps, numbers: Sequence[int]) -> list[dict[str, Any]]:
    """Job instances, each with links to the first page of its job executions."""
    linked = [await steps.executions_of(number, Page(0, USUAL_SIZE)) for number in numbers]
    replies = await steps.ask([query("job_execution", execution=executions[0]) for executions in linked])
    told = [steps.engine.names.told(answer_of(reply, steps.seen)["job_execution"]) for reply in replies]
    return [views.job_instance(newest, executions) for newest, executions in zip(told, linked)]


async def show_instance(asked: Asked) -> web.StreamResponse:
    async with asked.keeper.steps(asked.at_least) as steps:
        (told,) = await instances_of(steps, [asked.path_number()])
    return asked.answer(told, steps.seen)


async def show_instance_of(asked: Asked) -> web.StreamResponse:
    """The job instance of a job execution."""
    async with asked.keeper.steps(asked.at_least) as steps:
        of = answer_of((await steps.ask([query("job_instance", execution=asked.path_number())]))[0], steps.seen)
        (told,) = await instances_of(steps, [of["instance"]])
    return asked.answer(told, steps.seen)


async def purge_instance(asked: Asked) -> web.StreamResponse:
    members = {"instance": asked.path_number()}
    kept = await asked.purge(asked.call("purge", members, fingerprint("purge", members)))
    told_by(kept)
    return asked.answer({**members, "purged": True}, kept.seen)


async def change_instance(asked: Asked) -> web.StreamResponse:
    """Restarts the most recent job execution of a job instance."""
    if asked.request.query.get("action") != "restart":
        raise bad_request("action is restart")
    instance, body = asked.path_number(), await restart_body(asked)

    async def resolve() -> Members:
        async with asked.keeper.steps(0) as steps:
            (newest,) = await steps.executions_of(instance, Page(0, 1))
        return await to_restart(asked, newest, body)

    print_of = fingerprint("restart instance", instance, body.get("jobParameters", {}))
    call = asked.call("restart", {}, print_of, resolve=resolve)
    return begun(asked, await asked.keeper.submit(call), 200)


async def restart_body(asked: Asked) -> dict[str, Any]:
    body = await asked.body()
    expect_members(body, "jobParameters")
    return body


async def to_restart(asked: Asked, execution: int, body: dict[str, Any]) -> Members:
    """The members of a restart. If its body has no parameters, those of the earlier job execution are taken over."""
    if "jobParameters" in body:
        return {"execution": execution, "parameters": body["jobParameters"]}
    answers = await asked.keeper.ask([query("parameters", execution=execution)])
    return {"execution": execution, "parameters": read(answers.replies[0]).get("parameters", {})}


async def list_executions(asked: Asked) -> web.StreamResponse:
    """The newest job executions of a job instance, page by page."""
    page = asked.page_of_large_rows()
    async with asked.keeper.steps(asked.at_least) as steps:
        executions = await steps.executions_of(asked.path_number(), page)
        replies = await steps.ask([line for execution in executions for line in execution_queries(execution)])
    shown = [show(asked, replies[place : place + 3], steps.seen) for place in range(0, len(replies), 3)]
    return asked.answer(shown, steps.seen)


def execution_queries(execution: int) -> list[bytes]:
    asks = ("job_execution", "parameters", "step_executions")
    return [query(ask, execution=execution) for ask in asks]


def show(asked: Asked, replies: list[bytes], seen: int) -> dict[str, Any]:
    execution, parameters, steps = [answer_of(reply, seen) for reply in replies]
    return views.job_execution(
        asked.keeper.names.told(execution["job_execution"]), parameters["parameters"], steps["step_executions"]
    )


async def show_execution(asked: Asked) -> web.StreamResponse:
    answers = await asked.keeper.ask(execution_queries(asked.path_number()), asked.at_least)
    return asked.answer(show(asked, answers.replies, answers.seen), answers.seen)


async def change_execution(asked: Asked) -> web.StreamResponse:
    action, execution = asked.request.query.get("action"), asked.path_number()
    if action not in ("stop", "restart", "abandon"):
        raise bad_request("action is stop, restart or abandon")
    members: dict[str, Any] = {"execution": execution}
    if action == "restart":
        body = await restart_body(asked)
        print_of = fingerprint(action, {**members, "parameters": body.get("jobParameters", {})})
        call = asked.call(action, {}, print_of, resolve=lambda: to_restart(asked, execution, body))
        return begun(asked, await asked.keeper.submit(call), 200)
    expect_members(await asked.body())
    kept = await asked.keeper.submit(asked.call(action, members, fingerprint(action, members)))
    told_by(kept)
    return asked.answer({"executionId": execution, "action": action}, kept.seen)


async def list_steps(asked: Asked) -> web.StreamResponse:
    execution, page = asked.path_number(), asked.page(asked.host.settings.bounds.page_size)
    queries = [query("job_instance", execution=execution), query("step_executions", execution=execution)]
    answers = await asked.keeper.ask(queries, asked.at_least)
    instance, steps = [answer_of(reply) for reply in answers.replies]
    told = [views.step_execution(step, instance["instance"]) for step in page.of(steps["step_executions"])]
    return asked.answer(told, answers.seen)


async def list_jobs(asked: Asked) -> web.StreamResponse:
    """The jobs that have job instances, and how many job executions have each batch status."""
    answers = await asked.keeper.ask([query("job_names"), query("status_counts")], asked.at_least)
    names, counts = [answer_of(reply) for reply in answers.replies]
    told = list(dict.fromkeys(asked.keeper.names.name_of(name) for name in names["names"]))
    return asked.answer({"jobNames": told, "statusCounts": counts["counts"]}, answers.seen)


ROUTES = [
    Route("GET", "/batch/jobs", "read", list_jobs, ("atLeast",)),
    Route("POST", "/batch/jobinstances", "operate", start_instance, ("once",)),
    Route("GET", "/batch/jobinstances/{id}", "read", show_instance, ("atLeast",)),
    Route("DELETE", "/batch/jobinstances/{id}", "operate", purge_instance),
    Route("PUT", "/batch/jobinstances/{id}", "operate", change_instance, ("action",)),
    Route("GET", "/batch/jobinstances/{id}/jobexecutions", "read", list_executions, (*PAGE_WORDS, "atLeast")),
    Route("GET", "/batch/jobexecutions/{id}", "read", show_execution, ("atLeast",)),
    Route("PUT", "/batch/jobexecutions/{id}", "operate", change_execution, ("action",)),
    Route("GET", "/batch/jobexecutions/{id}/jobinstance", "read", show_instance_of, ("atLeast",)),
    Route("GET", "/batch/jobexecutions/{id}/stepexecutions", "read", list_steps, (*PAGE_WORDS, "atLeast")),
]
