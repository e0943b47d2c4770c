"""The commands that say what is open: `failed`, and `open`, which has all of it."""

from __future__ import annotations

import argparse
from collections.abc import AsyncIterator, Callable, Iterator, Mapping, Sequence
from typing import Any
from urllib.parse import urlencode

from rich.console import Console

from job_host.commands.terminal import clock, job_text, plain, plain_lines, span
from job_host.protocol.bounds import PAGE_OF_LARGE_ROWS
from job_host.protocol.client import Client

LISTS = ("jobInstances", "long", "late", "waiting")

Told = Mapping[str, Any]


async def pages(client: Client, given: argparse.Namespace, statuses: Sequence[str]) -> AsyncIterator[dict[str, Any]]:
    """Pages of what is open, until there are as many rows as are wanted."""
    size = min(given.count, PAGE_OF_LARGE_ROWS)
    words = [*(("status", one) for one in statuses), *([("jobName", given.job)] if given.job else []), ("pageSize", size)]
    page, more = 0, True
    while more and page * size < given.count:
        told = await client.read(f"/batch/open?{urlencode([*words, ('page', page)])}")
        yield told
        page, more = page + 1, told["more"]


async def found(client: Client, given: argparse.Namespace, statuses: Sequence[str]) -> tuple[dict[str, list[Told]], Told]:
    """The rows of each list, so many at most, and how many there are in each."""
    if given.job is not None:
        await client.read(f"/batch/jobinstances?{urlencode({'jobName': given.job, 'pageSize': 1})}")  # refused if there is none
    rows: dict[str, list[Told]] = {name: [] for name in LISTS}
    counts: Told = {}
    async for told in pages(client, given, statuses):
        counts = told["counts"]
        for name in LISTS:
            rows[name] += told[name] or ()
    return {name: some[: given.count] for name, some in rows.items()}, counts


async def failed(client: Client, given: argparse.Namespace) -> int:
    """Says of each job instance that is FAILED which work item it was, what its log ends with, and how it is restarted."""
    console = Console(highlight=False, soft_wrap=True)
    rows, counts = await found(client, given, ["FAILED"])
    shown = rows["jobInstances"]
    for one in shown:
        show_to_restart(console, one, given.utc)
    if not shown:
        console.print("no job instance is FAILED")
    if counts["FAILED"] > len(shown):
        console.print(f"more job instances are FAILED: these are the newest {len(shown)} (--count)")
    return 0


async def open_items(client: Client, given: argparse.Namespace) -> int:
    """Says what somebody has to look at."""
    console = Console(highlight=False, soft_wrap=True)
    rows, counts = await found(client, given, ["FAILED", "STOPPED"])
    for one in rows["jobInstances"]:
        show_to_restart(console, one, given.utc)
    for line in lines(rows, given.utc):
        console.print(plain(line))
    count = sum(map(len, rows.values()))
    if not count:
        console.print("nothing is open")
    if counts["late"] is None:
        console.print("the leader alone knows of late leases, and of jobs that wait though no worker asks")
    if sum(one or 0 for one in counts.values()) > count:
        console.print(f"more is open: these are the first {given.count} of each kind (--count)")
    return 0


def lines(rows: Mapping[str, Sequence[Told]], in_utc: bool) -> Iterator[str]:
    """A line for each that isn't to be restarted."""
    said: dict[str, Callable[[Told], str]] = {"long": long, "late": late, "waiting": lambda one: waiting(one, in_utc)}
    for name, say in said.items():
        yield from (f"{job_text(one)}: {say(one)}" for one in rows[name])


def long(one: Told) -> str:
    before = f"the longest before took {span(one['longestBefore'])}"
    return f"job execution {one['executionId']} has run for {span(one['seconds'])}; {before}"


def late(one: Told) -> str:
    if one.get("timeout") is not None:
        return overdue(one)
    of = f"work item {one['work']} of job execution {one['executionId']}, {place(one)}"
    return f"{of}: no sign of its worker {one['client']}, {span(one['leaseRemaining'])} of its lease are left"


def overdue(one: Told) -> str:
    of = f"job execution {one['executionId']} was asked to stop after {span(one['timeout'])}, and hasn't ended"
    return of if one["work"] is None else f"{of}: worker {one['client']} has work item {one['work']}, {place(one)}"


def waiting(one: Told, in_utc: bool) -> str:
    return f"job execution {one['executionId']} waits since {clock(one['lastUpdatedTime'], in_utc)}: no worker asks for work"


def place(one: Told) -> str:
    return f"step {one['stepName']}" + ("" if one["partition"] is None else f", partition {one['partition']}")


def show_to_restart(console: Console, one: Told, in_utc: bool) -> None:
    number = one["executionId"]
    console.print(plain(f"{job_text(one)}: job execution {number} is {one['batchStatus']}, exit status {one['exitStatus']}"))
    for cause in one["causes"]:
        lost = "LOST, " if cause["outcome"] == "LOST" else ""
        console.print(plain(f"  {place(cause)}: {lost}exit status {cause['exitStatus']}"))
        text = "".join(f"    {line}\n" for line in (cause["logEnd"] or "").splitlines())
        console.print(plain_lines(text), end="")
    if one["moreCauses"]:
        console.print(f"  and {one['moreCauses']} more work items")
    if "restartTime" in one:
        console.print(plain(f"  its policy restarts it at {clock(one['restartTime'], in_utc)}"))
    console.print(plain(f"  jobhost restart {number}"))
