"""Claims on several queues, reports of what was claimed, and who holds what in any of them."""

from __future__ import annotations

from collections.abc import Sequence
from contextlib import nullcontext
from typing import Any

from aiohttp import web

from job_host.catalogue.queues import DEFAULT_QUEUE, MOST_LABELS, MOST_QUEUES, NAME, NAMED
from job_host.protocol.headers import REQUEST_KEY
from job_host.service.http.requests import Asked, expect_members
from job_host.service.ids import inside, told_outside
from job_host.service.keepers.keeper import HeldPage
from job_host.service.keepers.open_items import UNASKED_SECONDS
from job_host.service.keepers.workers import workers_page
from job_host.service.pages import Page
from job_host.service.problems import Problem, bad_request
from job_host.service.queues.desk import Claimed
from job_host.service.routes import reports, work
from job_host.service.routes.several import Answers, one_behind_another

MEMBERS = ("wait", "artifacts", "queues", "labels")
ALL = Page(0, 1_000_000)
# Of what a worker holds, the first ones are told.
MOST_HELD = 20


async def claim(asked: Asked) -> web.StreamResponse:
    """Claims a work item of the first queue that has one, of those that the worker names."""
    body = await asked.body()
    expect_members(body, *MEMBERS)
    wait, labels = work.wait_of(asked, body), names_in(body, "labels", MOST_LABELS)
    named = [asked.host.queues.named(name) for name in names_in(body, "queues", MOST_QUEUES) or [DEFAULT_QUEUE]]
    queues = [one for one in named if one.is_for(frozenset(labels))]
    if not queues:
        needed = "; ".join(f"{one.name}: {', '.join(one.bounds.labels)}" for one in named)
        raise Problem("LacksLabels", 409, f"the worker lacks labels that its queues want: {needed}")
    if "artifacts" in body:
        artifacts = work.artifacts_of(body["artifacts"])
        for one in queues:
            one.keeper.leading().workers.note_artifacts(asked.named_client(), artifacts)
    asked.named_client()
    call = work.claim_call(asked, wait)
    with asked.waiting() if wait > 0 else nullcontext():
        return claimed(asked, await asked.host.queues.desk.submit(call, queues))


def names_in(body: dict[str, Any], word: str, most: int) -> list[str]:
    """The names that a member of a claim has, each once."""
    names = body.get(word, [])
    is_list = isinstance(names, list) and len(names) <= most
    if not is_list or not all(isinstance(name, str) and NAME.fullmatch(name) for name in names):
        raise bad_request(f"{word} are at most {most} names, each with {NAMED}")
    return list(dict.fromkeys(names))


def claimed(asked: Asked, one: Claimed) -> web.StreamResponse:
    return work.claimed(asked.of(one.queue), one.kept)


async def withdraw(asked: Asked) -> web.StreamResponse:
    if asked.key is None:
        raise bad_request(f"the header {REQUEST_KEY} is needed: it says which claim is withdrawn")
    expect_members(await asked.body())
    queues = list(asked.host.queues)
    for one in queues:
        one.keeper.leading()
    asked.named_client()
    made = await asked.host.queues.desk.withdraw(work.claim_call(asked), queues)
    if made is not None:
        return claimed(asked, made)
    return asked.answer({"withdrawn": True}, asked.keeper.committed)


async def take_reports(asked: Asked) -> web.StreamResponse:
    """Takes the reports of a list, each in the queue of its work item."""
    given = await reports.reports_of(asked)
    asked.named_client()
    expect_leading([reports.about_work(asked, one) for one in given] or [asked])
    answers, joined = await reports.answers_to(asked, given), Answers(asked)
    for one in answers:
        joined.saw(one.about.queue, one.seen or 0)
    return joined.answer({"reports": [one.told() for one in answers]})


def expect_leading(about: Sequence[Asked]) -> None:
    """Raises a problem if no queue of these is led here: another instance leads, or nobody does yet."""
    problems = []
    for one in about:
        try:
            one.keeper.leading()
            return
        except Problem as problem:
            problems.append(problem)
    raise problems[0]


async def list_held(asked: Asked) -> web.StreamResponse:
    """Which client holds which work item since when, by rising number."""
    given = {word: asked.query_number(word, 0) for word in work.HELD_WORDS if word in asked.request.query}
    page, answers = asked.page(asked.host.settings.bounds.page_size), Answers(asked)
    if given:
        places = {word: inside(number) for word, number in given.items()}
        queue, _ = asked.host.queues.of_number(next(iter(given.values())))
        is_one = all(place.queue == queue.number for place in places.values())
        wanted = HeldPage(
            page if is_one else Page(0, 0), *(places[word].number if word in places else None for word in work.HELD_WORDS)
        )
        return await work.show_held(asked.of(queue), wanted)
    queues = list(asked.host.queues)
    parts = one_behind_another([len(one.keeper.reading().held) for one in queues], page)
    rows: list[Any] = []
    for queue, part in zip(queues, parts):
        rows += await answers.of(held_on(part), queue)
    return answers.answer(rows)


def held_on(part: Page) -> Any:
    async def show(asked: Asked) -> web.StreamResponse:
        return await work.show_held(asked, HeldPage(part))

    return show


async def list_workers(asked: Asked) -> web.StreamResponse:
    """Who asks for work or holds work items in any queue, by name. `unasked` names the queues for whose work nobody asks."""
    answers, page = Answers(asked), asked.page(asked.host.settings.bounds.page_size)
    by_client: dict[str, dict[str, Any]] = {}
    silences: dict[str, float | None] = {}
    for queue in asked.host.queues:
        found = await workers_page(queue.keeper, ALL, answers.about(queue).at_least)
        answers.saw(queue, found.seen)
        silences[queue.name] = found.silence
        waiting = set(asked.host.queues.desk.waiting_for(queue))
        for one in found.workers:
            row = told_outside(work.worker(one), queue.number)
            row["waits"] = None if one.waits is None else one.client in waiting
            by_client[one.client] = joined_worker(by_client.get(one.client), row)
    known = [one for one in silences.values() if one is not None]
    told = {
        "workers": list(page.of([by_client[name] for name in sorted(by_client)])),
        "silence": round(min(known), 1) if known else None,
        "noneAsks": min(known) >= UNASKED_SECONDS if known else None,
        "unasked": [name for name, silence in silences.items() if silence is not None and silence >= UNASKED_SECONDS],
    }
    return answers.answer(told)


def joined_worker(one: dict[str, Any] | None, other: dict[str, Any]) -> dict[str, Any]:
    """What two queues know of a worker."""
    if one is None:
        return other
    held = [*one["work"], *other["work"]]
    return {
        "client": one["client"],
        **{name: either(one[name], other[name]) for name in ("waits", "draining")},
        **{name: max(one[name] or "", other[name] or "") or None for name in ("lastClaim", "lastSign")},
        "artifacts": one["artifacts"] if other["artifacts"] is None else other["artifacts"],
        "work": held[:MOST_HELD],
        "moreWork": one["moreWork"] + other["moreWork"] + len(held[MOST_HELD:]),
    }


def either(one: bool | None, other: bool | None) -> bool | None:
    return None if one is None and other is None else bool(one) or bool(other)


async def change_worker(asked: Asked) -> web.StreamResponse:
    """The client drains, in all queues."""
    answers = Answers(asked)
    told = await answers.of_each(work.change_worker)
    return answers.answer(told[0])
