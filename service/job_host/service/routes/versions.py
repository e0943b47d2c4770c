"""Routes that change jobs: a version of a job is applied, a job is withdrawn, and its versions are shown."""

from __future__ import annotations

from dataclasses import replace
from typing import Any

from aiohttp import web

from job_host.catalogue.jobs import JobFile, SettingsFile
from job_host.catalogue.settings import SETTINGS, SUFFIX
from job_host.protocol.lines import fingerprint, read
from job_host.protocol.moments import moment
from job_host.service.http.parts import FORM, parts_of
from job_host.service.http.requests import Asked, Route, expect_members
from job_host.service.problems import Problem, bad_request
from job_host.service.versions.changes import Change, digest_of_file

JSL_SUFFIX, JSON_SUFFIX = ".xml", ".json"
SUFFIXES = {"application/xml": JSL_SUFFIX, "text/xml": JSL_SUFFIX, "application/json": JSON_SUFFIX}
# A form's part that is the job's file. The other one has its settings.
JOB = "job"
FILE_CHARACTERS = 1_024


async def apply_job(asked: Asked) -> web.StreamResponse:
    """Applies the file of a job: its newest version is this one from now on. If the job is so already, nothing changes.

    With `check=true` the file is looked at, and nothing is applied.
    """
    name, file = asked.request.match_info["name"], await file_of(asked)
    changes = asked.keeper.changing()
    if asked.query_flag("check"):
        told = await changes.check(name, file)
        return asked.answer(read(told), asked.keeper.committed)
    print_of = fingerprint("apply", name, file.suffix, digest_of_file(file))
    call = asked.call("apply", {}, print_of, make=lambda call: changes.apply(call, name, file))
    kept = await asked.keeper.submit(call)
    return asked.answer(read(kept.reply), kept.seen)


async def file_of(asked: Asked) -> JobFile:
    """The file that the body is, with the settings that come along. Faults of it name `file`, which need not be there."""
    kind = asked.request.content_type
    if kind not in (*SUFFIXES, FORM):
        raise Problem("UnsupportedMediaType", 415, f"the body is {', '.join(SUFFIXES)} or {FORM}")
    suffix = SUFFIXES.get(kind, JSL_SUFFIX)
    told = asked.request.query.get("file", "")
    if len(told) > FILE_CHARACTERS:
        raise bad_request(f"file has at most {FILE_CHARACTERS} characters")
    file = JobFile(told or f"{asked.request.match_info['name']}{suffix}", suffix, await asked.data())
    return file if kind != FORM else file_in(asked.request.headers["Content-Type"], file)


def file_in(media_type: str, form: JobFile) -> JobFile:
    """The file of JSL that a form has, with the settings beside it. Their faults name a file beside the job's."""
    parts = parts_of(media_type, form.data)
    if parts.keys() != {JOB, SETTINGS}:
        raise bad_request(f"the body has a part {JOB}, a file of JSL, and a part {SETTINGS}, and no other")
    settings = SettingsFile(f"{form.name.removesuffix(JSL_SUFFIX)}{SUFFIX}", parts[SETTINGS])
    return replace(form, data=parts[JOB], settings=settings)


async def withdraw_job(asked: Asked) -> web.StreamResponse:
    """Withdraws a job: its job executions can be restarted, and nothing is started."""
    name = asked.request.match_info["name"]
    expect_members(await asked.body())
    changes = asked.keeper.changing()
    print_of = fingerprint("withdraw", name)
    call = asked.call("withdraw", {}, print_of, make=lambda call: changes.withdraw(call, name))
    kept = await asked.keeper.submit(call)
    return asked.answer(read(kept.reply), kept.seen)


async def show_versions(asked: Asked) -> web.StreamResponse:
    """The changes of a job, the newest first: who applied which version, and when, or withdrew the job."""
    await asked.keeper.reach(asked.at_least)
    name, book = asked.request.match_info["name"], asked.keeper.known_jobs()
    version = book.newest(name)
    if version == 0:
        raise Problem("NoSuchJobException", 404, "there is no such job")
    shown = [change(one) for one in book.changes_of(name)]
    told = {"jobName": name, "version": version, "withdrawn": book.is_withdrawn(name), "changes": shown}
    return asked.answer(told, asked.keeper.committed)


def change(one: Change) -> dict[str, Any]:
    return {"action": one.action, "version": one.version, "client": one.client, "time": moment(one.moment)}


ROUTES = [
    Route("PUT", "/batch/jobs/{name}", "operate", apply_job, ("file", "check")),
    Route("DELETE", "/batch/jobs/{name}", "operate", withdraw_job),
    Route("GET", "/batch/jobs/{name}/versions", "read", show_versions, ("atLeast",)),
]
