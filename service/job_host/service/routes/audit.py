"""Who did what: each kept operation with its client, the token's name, the remote address and its moment."""

from __future__ import annotations

from collections.abc import Sequence
from datetime import datetime, timedelta, timezone
from typing import Any

from aiohttp import web

from job_host.archive.moments import DAY, begin_of_day
from job_host.protocol.moments import moment
from job_host.service.history.actions import MAKING
from job_host.service.history.audited import Audited, AuditWanted
from job_host.service.http.requests import PAGE_WORDS, Asked, Route
from job_host.service.problems import Problem, bad_request

NAME_WORDS = ("jobName", "client", "token")
TIME_WORDS = ("from", "until")
MILLISECOND = timedelta(milliseconds=1)


async def list_audit(asked: Asked) -> web.StreamResponse:
    """The kept operations, the newest first, page by page."""
    wanted = wanted_of(asked)
    await asked.keeper.reach(asked.at_least)
    asked.keeper.reading()
    found = await asked.keeper.audit(wanted)
    return asked.answer([audited(one) for one in found], asked.keeper.committed)


def wanted_of(asked: Asked) -> AuditWanted:
    page = asked.page(asked.host.settings.bounds.page_size)
    job, client, token = [text_of(asked, word) for word in NAME_WORDS]
    return AuditWanted(page, job, client, token, time_of(asked, "from", 0), time_of(asked, "until", DAY))


def text_of(asked: Asked, word: str) -> str | None:
    """A name of the query. No name has a NUL, which no store could look for."""
    text = asked.request.query.get(word)
    if text is not None and "\0" in text:
        raise bad_request(f"{word} is a name, and has no NUL")
    return text


def not_a_time(word: str) -> Exception:
    return bad_request(f"{word} is a day, as 2026-11-27, or a time with its zone, as 2026-11-27T10:00:00Z")


def time_of(asked: Asked, word: str, day_is: int) -> int | None:
    """A moment of the query: a day, at its begin or so many milliseconds later, or a time with its zone."""
    given = asked.request.query.get(word)
    if given is None:
        return None
    try:
        return begin_of_day(given) + day_is
    except ValueError:
        pass
    try:
        when = datetime.fromisoformat(given)
    except ValueError as fault:
        raise not_a_time(word) from fault
    if when.tzinfo is None:
        raise not_a_time(word)
    return (when - datetime(1970, 1, 1, tzinfo=timezone.utc)) // MILLISECOND


def audited(one: Audited) -> dict[str, Any]:
    did = one.did
    return {
        "operation": one.number,
        "action": did.name,
        **one.origin._asdict(),
        "time": moment(did.moment),
        "executionId": did.execution or None,
        "jobName": did.job or None,
        "made": did.of if did.name in MAKING else None,
        "instanceId": did.of if did.name == "purge" else None,
        "work": (did.of or None) if did.name not in (*MAKING, "purge") else None,
    }


async def show_head(asked: Asked) -> web.StreamResponse:
    """The last operation of the chain, and its hash. Whoever keeps it elsewhere can tell later if one before was changed."""
    await asked.keeper.reach(asked.at_least)
    asked.keeper.reading()
    head = asked.keeper.chain_head
    if head is None:
        raise Problem("NoChain", 404, "the operations aren't chained here: --chain of `jobhost serve` does that over a log")
    return asked.answer({"operation": head.number, "hash": head.hash, "begins": head.begins, "head": str(head)}, head.number)


ROUTES: Sequence[Route] = [
    Route("GET", "/batch/audit", "read", list_audit, (*NAME_WORDS, *TIME_WORDS, *PAGE_WORDS, "atLeast")),
    Route("GET", "/batch/audit/head", "read", show_head, ("atLeast",)),
]
