"""What is written to a terminal: texts, moments and tables."""

from __future__ import annotations

from collections.abc import Mapping, Sequence
from datetime import datetime, timezone
from typing import Any

from rich.table import Column, Table
from rich.text import Text

from job_host.protocol.moments import MOMENT
from job_host.protocol.printable import printable, printable_lines

COLOURS = {"COMPLETED": "green", "FAILED": "red", "STOPPED": "yellow", "ABANDONED": "magenta"}

# Columns of who made an operation; and what it was on.
ORIGIN = ("by", "token", "from")
ON = {"executionId": "job execution", "work": "work item", "instanceId": "job instance"}

Told = Mapping[str, Any]


def plain(text: Any) -> Text:
    """A text of the service in one line, as it is, whatever brackets it has. Control characters are written out."""
    return Text("" if text is None else printable(str(text)))


def plain_lines(text: str) -> Text:
    """A text of several lines, as a log."""
    return Text(printable_lines(text))


def job_text(told: Told) -> str:
    """The job of a row, with its version if that is above 1."""
    return f"{told['jobName']} (version {told['version']})" if "version" in told else str(told["jobName"])


def status_text(status: str) -> Text:
    return Text(printable(status), style=COLOURS.get(status, "cyan"))


def clock(moment: str | None, in_utc: bool) -> Text:
    """A moment to the second, in this machine's zone or in UTC, with the offset. One that no calendar has is a number."""
    try:
        when = datetime.strptime(moment or "", MOMENT).astimezone(timezone.utc if in_utc else None)
    except (ValueError, OverflowError):
        return plain(moment)
    return plain(f"{when:%Y/%m/%d %H:%M:%S %z}")


def span(seconds: float | None) -> str:
    """How long something lasts, for people."""
    whole = int(seconds or 0)
    if whole < 60:
        return f"{whole} s"
    return f"{whole // 60} min {whole % 60} s" if whole < 3600 else f"{whole // 3600} h {whole // 60 % 60} min"


def metrics_text(metrics: Mapping[str, int]) -> str:
    return " ".join(f"{name.removesuffix('_COUNT').lower()}={count}" for name, count in metrics.items())


def folded(*names: str, title: Text | None = None) -> Table:
    """A table whose long words go on in the next line: none is cut."""
    return Table(*(Column(name, overflow="fold") for name in names), title=title)


def execution_table(told: Told, in_utc: bool) -> Table:
    """A job execution with its step executions."""
    title = f"{job_text(told)}: job execution {told['executionId']} of job instance {told['instanceId']}"
    table = folded("step", "status", "exit status", "start", "end", "counts", title=plain(title))
    for step in told["stepExecutions"]:
        shown = [plain(step["stepName"]), status_text(step["batchStatus"]), plain(step["exitStatus"])]
        times = [clock(step[name], in_utc) for name in ("startTime", "endTime")]
        table.add_row(*shown, *times, plain(metrics_text(step["metrics"])))
    whole = [Text("(job)"), status_text(told["batchStatus"]), plain(told["exitStatus"])]
    table.add_row(*whole, clock(told["startTime"], in_utc), clock(told["endTime"], in_utc), "")
    return table


def operation_table(told: Sequence[Told], execution: int, in_utc: bool) -> Table:
    """Who did what to a job execution."""
    table = folded("operation", "action", *ORIGIN, "at")
    for one in told:
        made = f", job execution {one['made']}" if one["made"] not in (None, execution) else ""
        of = f", work item {one['work']}" if one["work"] else made
        table.add_row(plain(one["operation"]), plain(one["action"] + of), *origin_texts(one), clock(one["time"], in_utc))
    return table


def origin_texts(one: Told) -> list[Text]:
    """Who made an operation, by which token, and from where. An archive has older ones without the last two."""
    by = {None: "unknown", "": "the service"}.get(one["client"], one["client"])
    return [plain(by), plain(one.get("token")), plain(one.get("address"))]


def audit_table(told: Sequence[Told], in_utc: bool) -> Table:
    """Who did what, on which job execution of which job."""
    table = folded("operation", "action", *ORIGIN, "job", "on", "at")
    for one in told:
        on = ", ".join(f"{what} {one[name]}" for name, what in ON.items() if one[name])
        shown = [plain(one["jobName"]), plain(on), clock(one["time"], in_utc)]
        table.add_row(plain(one["operation"]), plain(one["action"]), *origin_texts(one), *shown)
    return table


def change_table(told: Told, in_utc: bool) -> Table:
    """Who applied which version of a job, or withdrew the job, and when."""
    state = f"{told['jobName']}: version {told['version']}{', withdrawn' if told['withdrawn'] else ''}"
    table = folded("version", "action", "by", "at", title=plain(state))
    for one in told["changes"]:
        by = one["client"] or "the service"
        table.add_row(plain(one["version"]), plain(one["action"]), plain(by), clock(one["time"], in_utc))
    return table


def schedule_table(told: Sequence[tuple[Told, Told]], in_utc: bool) -> Table:
    """What comes next: jobs with their next moments."""
    table = folded("at", "job", "in the zone", "schedule", "parameters")
    for job, one in told:
        parameters = " ".join(f"{name}={value}" for name, value in one["jobParameters"].items())
        shown = [job_text(job), f"{one['local']} {job['zone']}", job["cron"], parameters]
        table.add_row(clock(one["time"], in_utc), *map(plain, shown))
    return table


def instance_table(told: Sequence[Told], in_utc: bool) -> Table:
    """Job instances, each with its most recent job execution."""
    table = folded("job instance", "job", "job execution", "status", "exit status", "last updated")
    for one in told:
        shown = [plain(one["instanceId"]), plain(job_text(one)), plain(one["executionId"]), status_text(one["batchStatus"])]
        table.add_row(*shown, plain(one["exitStatus"]), clock(one["lastUpdatedTime"], in_utc))
    return table


def worker_text(one: Told) -> str | None:
    """The worker that holds a work item, and whether it drains."""
    return f"{one['client']} (draining)" if one.get("draining") else one["client"]


def work_table(told: Sequence[Told], in_utc: bool) -> Table:
    """Work items that are under way, and which worker holds each."""
    table = folded("work item", "job", "job execution", "step", "partition", "worker", "since")
    for one in told:
        shown = [
            one["work"],
            job_text(one),
            *(one[name] for name in ("executionId", "stepName", "partition")),
            worker_text(one),
        ]
        table.add_row(*map(plain, shown), clock(one["since"], in_utc))
    return table
