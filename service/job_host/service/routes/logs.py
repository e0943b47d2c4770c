"""Logs that workers handed in: those of a job execution by work item, and one by itself, whole or from an offset on."""

from __future__ import annotations

from typing import Any

from aiohttp import web

from job_host.protocol.headers import OPERATIONS
from job_host.protocol.lines import digest, query
from job_host.service.http.requests import PAGE_WORDS, Asked, Route
from job_host.service.problems import Problem, bad_request
from job_host.service.routes.jobs import answer_of
from job_host.service.routes.lists import search_of
from job_host.service.terms.calls import LogPage, WorkLog

WORDS_OF_LOGS = ("type", "stepName", "search", "sizes", *PAGE_WORDS, "atLeast")


def wants_text(asked: Asked) -> bool:
    kind = asked.request.query.get("type")
    if kind not in (None, "text"):
        raise bad_request("type is text, or left out")
    return kind == "text"


async def show_logs(asked: Asked) -> web.StreamResponse:
    """What the workers of a job execution handed in as logs, by work item; with `type=text`, one behind the other.

    With `sizes=true` each has its size in place of its text. A search finds those that have its text, in small letters or
    in capitals.
    """
    execution, is_text, page = asked.path_number(), wants_text(asked), asked.page_of_large_rows()
    wanted = LogPage(execution, asked.request.query.get("stepName"), page, search_of(asked))
    with_sizes = asked.query_flag("sizes")
    if with_sizes and is_text:
        raise bad_request("sizes are no text")
    answers = await asked.keeper.ask([query("job_instance", execution=execution)], asked.at_least)
    answer_of(answers.replies[0], answers.seen)
    if with_sizes:
        sizes = await asked.keeper.log_sizes(wanted)
        rows = [{"work": one.work, "stepName": one.element, "partition": one.partition, "size": one.size} for one in sizes]
        return asked.answer(rows, answers.seen)
    logs = await asked.keeper.logs(wanted)
    if is_text:
        text = "".join(f"# work item {asked.outside(log.work)}, {log.element}\n{log.text}\n" for log in logs)
        return web.Response(text=text, headers={OPERATIONS: asked.seen_text(answers.seen)})
    return asked.answer([{**place(log), "log": log.text} for log in logs], answers.seen)


def place(log: WorkLog) -> dict[str, Any]:
    return {"work": log.work, "stepName": log.element, "partition": log.partition}


async def show_log(asked: Asked) -> web.StreamResponse:
    """The log of one work item, from an offset on; with `type=text`, the text alone.

    A log that has grown too large loses its begin. So a caller gives the digest of what it has, and is told all of it if
    that isn't how the log begins.
    """
    work, is_text = asked.path_number(), wants_text(asked)
    offset, known = asked.query_number("offset", 0), asked.request.query.get("digest")
    await asked.keeper.reach(asked.at_least)
    log = await asked.keeper.log_of(work) if work <= asked.host.settings.history.most else None
    if log is None:
        raise Problem("NoSuchWork", 404, "no log of this work item is kept")
    answers = await asked.keeper.ask([query("job_instance", execution=log.execution)], asked.at_least)
    answer_of(answers.replies[0], answers.seen)
    start = told_from(log.text, offset, known)
    if is_text:
        return web.Response(text=log.text[start:], headers={OPERATIONS: asked.seen_text(answers.seen)})
    told = {**place(log), "executionId": log.execution, "offset": start, "end": len(log.text), "digest": digest_of(log.text)}
    return asked.answer({**told, "log": log.text[start:]}, answers.seen)


def told_from(text: str, offset: int, known: str | None) -> int:
    """The character from which a log is told. `known` is the digest of what the caller has of it, up to the offset."""
    start = min(offset, len(text))
    return start if known in (None, digest_of(text[:start])) else 0


def digest_of(text: str) -> str:
    return digest(text.encode())


ROUTES = [
    Route("GET", "/batch/jobexecutions/{id}/joblogs", "read", show_logs, WORDS_OF_LOGS),
    Route("GET", "/batch/work/{id}/log", "read", show_log, ("offset", "digest", "type", "atLeast")),
]
