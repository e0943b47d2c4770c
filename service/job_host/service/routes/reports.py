"""Many reports of a worker in one request: each is answered what a request of its own would have been answered."""

from __future__ import annotations

import asyncio
import logging
from collections.abc import Sequence
from contextlib import nullcontext
from typing import Any, NamedTuple, TypeGuard

from aiohttp import web

from job_host.protocol.bounds import MOST_NUMBER, MOST_REPORTS
from job_host.service.history.coprocess import CoProcessEnded
from job_host.service.http.requests import Asked, Route, expect_members, process_ended, request_key
from job_host.service.ids import told_outside
from job_host.service.problems import Problem, bad_request
from job_host.service.routes.work import REPORTS, Report, reported

log = logging.getLogger(__name__)

# What a report of a list has beside the members of its body.
PLACE_MEMBERS = ("action", "work", "key")


class Answer(NamedTuple):
    """What a request of its own would have been answered, `about` the queue of its work item: the status, the body, and how
    many operations of that queue it saw.
    """

    about: Asked
    status: int
    body: Any
    seen: int | None

    def told(self) -> dict[str, Any]:
        seen = {} if self.seen is None else {"operations": self.about.operations(self.seen)}
        return {"status": self.status, **seen, "body": self.body}


async def take_reports(asked: Asked) -> web.StreamResponse:
    """Takes the reports of a list. Those of one work item are made in turn, and others together: one commit keeps them."""
    given = await reports_of(asked)
    asked.named_client()
    term = asked.keeper.leading()
    answers = await answers_to(asked, given)
    seen = max((one.seen for one in answers if one.seen is not None), default=term.committed)
    return asked.answer({"reports": [one.told() for one in answers]}, seen)


async def reports_of(asked: Asked) -> list[Any]:
    """The list of a request."""
    body = await asked.body()
    expect_members(body, "reports")
    given = body.get("reports")
    if not isinstance(given, list) or len(given) > MOST_REPORTS:
        raise bad_request(f"reports is a list of at most {MOST_REPORTS} reports")
    return given


async def answers_to(asked: Asked, given: Sequence[Any]) -> list[Answer]:
    """The answers to reports, in their order."""
    answers: dict[int, Answer] = {}
    await asyncio.gather(*(take_in_turn(asked, given, places, answers) for places in by_work(given)))
    return [answers[place] for place in range(len(given))]


def by_work(given: Sequence[Any]) -> list[list[int]]:
    """The places of the reports of each work item, in their order. One that names none stands alone."""
    places: dict[tuple[str, int], list[int]] = {}
    for place, one in enumerate(given):
        work = one.get("work") if isinstance(one, dict) else None
        key = ("work", work) if isinstance(work, int) else ("place", place)
        places.setdefault(key, []).append(place)
    return list(places.values())


async def take_in_turn(asked: Asked, given: Sequence[Any], places: Sequence[int], answers: dict[int, Answer]) -> None:
    """Takes reports one after the other. The first of the list has the place of the request among those in hand."""
    for place in places:
        answers[place] = await answered(asked, given[place], has_place=places[0] == 0)


async def answered(asked: Asked, given: Any, has_place: bool) -> Answer:
    """The answer to a report, whatever it raises."""
    about = about_work(asked, given)
    try:
        with nullcontext() if has_place else asked.host.gate.enter(asked.client):
            told, seen = await take(about, given)
        return Answer(about, 200, told_outside(told, about.queue.number), seen)
    except Problem as problem:
        return refused(about, problem)
    except CoProcessEnded:
        return refused(about, process_ended())
    except Exception:
        log.exception("a report failed")
        return refused(about, Problem("InternalError", 500, "the service's log says more"))


def refused(about: Asked, problem: Problem) -> Answer:
    return Answer(about, problem.status, problem.document(), problem.operations)


def about_work(asked: Asked, given: Any) -> Asked:
    """The request, about the queue of a report's work item. One that names none is refused by the default queue."""
    queues, work = asked.host.queues, given.get("work") if isinstance(given, dict) else None
    return asked if queues.are_plain or not is_number(work) else asked.of(*queues.of_number(work))


async def take(about: Asked, given: Any) -> tuple[Any, int]:
    """Makes a report. Raises the problem of one that isn't as it should be, or is refused."""
    if not isinstance(given, dict):
        raise bad_request("a report is an object")
    action = given.get("action")
    if action not in REPORTS:
        raise bad_request("the action of a report is checkpoint, finish or heartbeat")
    report = Report(action, lambda: number_in_queue(about, given), lambda: key_of(about, given))
    body = {name: value for name, value in given.items() if name not in PLACE_MEMBERS}
    return await reported(about, report, body)


def is_number(work: Any) -> TypeGuard[int]:
    return isinstance(work, int) and not isinstance(work, bool) and 0 <= work <= MOST_NUMBER


def number_in_queue(about: Asked, given: dict[str, Any]) -> int:
    """The number of a report's work item, as its queue has it."""
    work = given.get("work")
    if not is_number(work):
        raise bad_request(f"the work of a report is a whole number from 0 to {MOST_NUMBER}")
    return work if about.host.queues.are_plain else about.path_number()


def key_of(asked: Asked, given: dict[str, Any]) -> str | None:
    key = given.get("key")
    if key is None:
        return None
    if not isinstance(key, str):
        raise bad_request("the key of a report is a text")
    return request_key(key, "the key of a report", asked.host.settings.bounds)


ROUTES = [Route("POST", "/batch/work/reports", "work", take_reports)]
