"""Routes for workers: claim, withdraw, checkpoint, finish, heartbeat, lose; and who holds what."""

from __future__ import annotations

from collections.abc import Callable
from contextlib import nullcontext
from typing import Any, NamedTuple

from aiohttp import web

from job_host.catalogue.properties import JobProperties, TooLarge
from job_host.protocol.bounds import ARTIFACT_CHARACTERS, MOST_ARTIFACTS
from job_host.protocol.headers import REQUEST_KEY
from job_host.protocol.lines import Members, fingerprint, query, read
from job_host.protocol.moments import moment
from job_host.service.http.requests import PAGE_WORDS, Asked, Route, expect_members
from job_host.service.keepers.keeper import HeldPage
from job_host.service.keepers.workers import Worker, is_draining, workers_page
from job_host.service.problems import Problem, bad_request
from job_host.service.routes import views
from job_host.service.routes.jobs import told_by
from job_host.service.terms.calls import Call, Kept
from job_host.service.versions.book import FileNotKept

# Words of a query that narrow the list of busy work items.
HELD_WORDS = ("executionId", "work")
ACTIONS = {
    "checkpoint": ("data", "metrics"),
    "finish": ("outcome", "exit", "metrics"),
    "lose": (),
}
# What a worker reports of a work item.
REPORTS = ("checkpoint", "finish", "heartbeat")


async def claim(asked: Asked) -> web.StreamResponse:
    """Claims a work item. With `wait` it takes up to so many seconds until there is one."""
    body = await asked.body()
    expect_members(body, "wait", "artifacts")
    wait = wait_of(asked, body)
    if "artifacts" in body:
        asked.keeper.leading().workers.note_artifacts(asked.named_client(), artifacts_of(body["artifacts"]))
    asked.named_client()
    call = claim_call(asked, wait)
    with asked.waiting() if wait > 0 else nullcontext():
        return claimed(asked, await asked.keeper.submit(call))


def wait_of(asked: Asked, body: dict[str, Any]) -> float:
    """For how many seconds a claim waits."""
    wait = body.get("wait", 0)
    longest = asked.host.settings.bounds.longest_poll
    if isinstance(wait, bool) or not isinstance(wait, (int, float)) or not 0 <= wait <= longest:
        raise bad_request(f"wait is a number of seconds from 0 to {longest:g}")
    return float(wait)


def claim_call(asked: Asked, wait: float = 0.0) -> Call:
    """The call of a claim, which waits for so many seconds."""
    waiting: dict[str, Any] = {"wait": wait, "is_gone": asked.is_gone, "is_unheard": asked.is_unheard} if wait else {}
    return asked.call("claim", {}, fingerprint("claim"), **waiting)


def artifacts_of(names: Any) -> list[str]:
    """The names of the artifacts that a worker has."""
    is_list = isinstance(names, list) and len(names) <= MOST_ARTIFACTS
    if not is_list or not all(isinstance(name, str) and len(name) <= ARTIFACT_CHARACTERS for name in names):
        raise bad_request(f"artifacts are at most {MOST_ARTIFACTS} names of at most {ARTIFACT_CHARACTERS} characters")
    return list(names)


def claimed(asked: Asked, kept: Kept) -> web.StreamResponse:
    told = told_by(kept)
    if "work" in told:
        instance = read(kept.answers[0])
        told = views.work_item(told["work"], asked.keeper.names.told(instance), read(kept.answers[1]))
        told |= for_worker(asked, told, instance.get("job", ""))
        told["lease"] = asked.host.settings.lease
    return asked.answer(told, kept.seen)


def for_worker(asked: Asked, told: Members, job: str) -> Members:
    """What a claim is told in its version of the job, if there is some: properties, and what the worker does for the step."""
    if not job:
        return {}
    try:
        known = asked.keeper.for_workers(job)
    except FileNotKept as fault:
        return {"propertiesFault": str(fault)}
    step = known.steps.get(told["work"]["element"])
    return {**properties_for(known.properties, told), **({"step": step} if step else {})}


def properties_for(known: JobProperties, told: Members) -> Members:
    try:
        properties = known.at_claim(told["work"], told["jobParameters"])
    except TooLarge as fault:
        return {"propertiesFault": str(fault)}
    return {"properties": properties} if properties else {}


async def withdraw(asked: Asked) -> web.StreamResponse:
    """Withdraws the claim of a key, so that it is never made. If it was made before, it is answered as it was then."""
    if asked.key is None:
        raise bad_request(f"the header {REQUEST_KEY} is needed: it says which claim is withdrawn")
    expect_members(await asked.body())
    term = asked.keeper.leading()
    asked.named_client()
    kept = await term.withdraw(asked.call("claim", {}, fingerprint("claim")))
    return asked.answer({"withdrawn": True}, term.committed) if kept is None else claimed(asked, kept)


async def list_held(asked: Asked) -> web.StreamResponse:
    """Which client holds which work item since when, page by page. With `withJobs` each has the job's name."""
    return await show_held(asked, held_page(asked))


async def show_held(asked: Asked, wanted: HeldPage) -> web.StreamResponse:
    with_jobs = asked.query_flag("withJobs")
    held, seen = await asked.keeper.held_work(wanted, asked.at_least)
    told: list[dict[str, Any]] = [
        {
            "work": one.held.work,
            "executionId": one.held.execution,
            "stepName": one.held.element,
            "partition": one.held.partition,
            "client": one.client,
            "since": moment(one.held.since),
            "leaseRemaining": None if one.remaining is None else round(one.remaining, 1),
            "draining": is_draining(asked.keeper, one.client),
        }
        for one in held
    ]
    if told and with_jobs:
        answers = await asked.keeper.ask([query("job_instance", execution=one["executionId"]) for one in told], seen)
        jobs = [asked.keeper.names.told(read(reply)) for reply in answers.replies]
        told = [{**one, "jobName": of.get("job"), **views.version_of(of)} for one, of in zip(told, jobs)]
        seen = answers.seen
    return asked.answer(told, seen)


async def list_workers(asked: Asked) -> web.StreamResponse:
    """Who asks for work or holds work items, by name, page by page; and whether any worker asks."""
    found = await workers_page(asked.keeper, asked.page(asked.host.settings.bounds.page_size), asked.at_least)
    silence = None if found.silence is None else round(found.silence, 1)
    told = {"workers": [worker(one) for one in found.workers], "silence": silence, "noneAsks": found.none_asks}
    return asked.answer(told, found.seen)


def worker(one: Worker) -> dict[str, Any]:
    return {
        "client": one.client,
        "waits": one.waits,
        "draining": one.is_draining,
        "lastClaim": moment(one.heard.claim),
        "lastSign": moment(one.heard.sign),
        "artifacts": one.heard.artifacts,
        "work": [
            {"work": held.work, "executionId": held.execution, "stepName": held.element, "partition": held.partition}
            for held in one.held
        ],
        "moreWork": one.count - len(one.held),
    }


async def change_worker(asked: Asked) -> web.StreamResponse:
    """The client drains: it ends what it has, and claims nothing more. If it claims again, it drains no more."""
    if asked.request.query.get("action") != "drain":
        raise bad_request("action is drain")
    expect_members(await asked.body())
    term = asked.keeper.leading()
    term.workers.note_draining(asked.named_client())
    return asked.answer({"draining": True}, term.committed)


def held_page(asked: Asked) -> HeldPage:
    execution, work = [asked.query_number(name, 0) if name in asked.request.query else None for name in HELD_WORDS]
    return HeldPage(asked.page(asked.host.settings.bounds.page_size), execution, work)


async def change_work(asked: Asked) -> web.StreamResponse:
    action = asked.request.query.get("action", "")
    if action not in (*REPORTS, "lose"):
        raise bad_request("action is checkpoint, finish, heartbeat or lose")
    right = "operate" if action == "lose" else "work"
    if right not in asked.caller.rights and not (action == "lose" and "work" in asked.caller.rights):
        raise Problem("RoleLacksRight", 403, f"{action} isn't for this token's role")
    report = Report(action, asked.path_number, lambda: asked.key)
    return asked.answer(*await reported(asked, report, await asked.body()))


class Report(NamedTuple):
    """A report of a work item. Its number and its key are looked at after its body, and may raise a problem."""

    action: str
    work: Callable[[], int]
    key: Callable[[], str | None]


async def reported(asked: Asked, report: Report, body: dict[str, Any]) -> tuple[Any, int]:
    """Makes a report of a work item, or loses it. Returns what is answered, and how many operations that saw."""
    action = report.action
    if action == "heartbeat":
        return await heartbeat(asked, report.work, body)
    expect_members(body, "log", *ACTIONS[action])
    log, work = log_of(asked, body), report.work()
    members: Members = {"work": work, **{name: body[name] for name in ACTIONS[action] if name in body}}
    if action != "lose":
        asked.named_client()
    call = asked.keyed_call(report.key(), action, members, fingerprint(action, members), log=log)
    kept = await asked.keeper.submit(call)
    told = told_by(kept)
    if action == "checkpoint":
        asked.keeper.leases.renew(work)
    return told, kept.seen


def log_of(asked: Asked, body: dict[str, Any]) -> str | None:
    """The last 64 KiB of the log that a worker hands in."""
    log = body.get("log")
    if log is None:
        return None
    if not isinstance(log, str):
        raise bad_request("log is a text")
    most = asked.host.settings.bounds.log_bytes
    return log.encode("utf-8", "replace")[-most:].decode("utf-8", "ignore")


async def heartbeat(asked: Asked, work: Callable[[], int], body: dict[str, Any]) -> tuple[Any, int]:
    """Renews the lease of a work item, and says whether its job execution is asked to stop."""
    expect_members(body, "log")
    stop, seen = await asked.keeper.heartbeat(asked.named_client(), work(), log_of(asked, body))
    return {"stop": stop, "lease": asked.host.settings.lease}, seen


ROUTES = [
    Route("GET", "/batch/work", "read", list_held, ("withJobs", *HELD_WORDS, *PAGE_WORDS, "atLeast")),
    Route("GET", "/batch/workers", "read", list_workers, (*PAGE_WORDS, "atLeast")),
    Route("PUT", "/batch/workers", "work", change_worker, ("action",)),
    Route("POST", "/batch/work", "work", claim),
    Route("DELETE", "/batch/work", "work", withdraw),
    Route("PUT", "/batch/work/{id}", "read", change_work, ("action",)),
]
