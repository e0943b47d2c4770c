"""The client's commands: start, restart, stop, abandon, purge, lose; and log, which shows as they do, without tables."""

from __future__ import annotations

import argparse
import asyncio
import shlex
import sys
from collections.abc import AsyncIterator, Awaitable, Callable, Mapping
from typing import Any
from urllib.parse import urlencode

from job_host.commands.address import address_of
from job_host.protocol.batch_statuses import UNFINISHED
from job_host.protocol.bounds import PAGE_OF_LARGE_ROWS
from job_host.protocol.client import Client, Refused, Unreachable
from job_host.protocol.lines import fingerprint
from job_host.protocol.printable import printable, printable_lines

# Exit statuses of `--wait`.
STATUS = {"COMPLETED": 0, "FAILED": 3, "STOPPED": 4, "ABANDONED": 5}
POLL = 0.5

Command = Callable[[Client, argparse.Namespace], Awaitable[int]]


def parameters_of(words: list[str]) -> dict[str, str]:
    """Parameters that are written NAME=VALUE."""
    for word in words:
        if "=" not in word:
            raise ValueError(f"{word}: a parameter is written NAME=VALUE")
    return dict(word.split("=", 1) for word in words)


def parameter_words(parameters: Mapping[str, str]) -> str:
    """Parameters as a shell would read them, NAME=VALUE each."""
    return printable(shlex.join(f"{name}={value}" for name, value in parameters.items())) or "none"


async def rows_of(client: Client, path: str, size: int, **words: str) -> AsyncIterator[dict[str, Any]]:
    """The rows of a list, page by page: one that isn't full is the last."""
    page, is_full = 0, True
    while is_full:
        told = await client.read(f"{path}?{urlencode({**words, 'page': page, 'pageSize': size})}")
        page, is_full = page + 1, len(told) == size
        for row in told:
            yield row


def logs_of(client: Client, execution: int, **words: str) -> AsyncIterator[dict[str, Any]]:
    return rows_of(client, f"/batch/jobexecutions/{execution}/joblogs", PAGE_OF_LARGE_ROWS, **words)


async def execution_of(client: Client, execution: int) -> dict[str, Any]:
    return dict(await client.read(f"/batch/jobexecutions/{execution}"))


async def wait_for_end(client: Client, execution: int) -> int:
    """Waits until a job execution is finished, and returns the exit status that stands for its batch status."""
    while (told := await execution_of(client, execution))["batchStatus"] in UNFINISHED:
        await asyncio.sleep(POLL)
    print(printable(f"job execution {execution} is {told['batchStatus']}, exit status {told['exitStatus']}"))
    return STATUS[told["batchStatus"]]


def tell_begun(begun: dict[str, Any]) -> None:
    print(f"job execution {begun['executionId']} of job instance {begun.get('instanceId', '?')} was made")


async def start(client: Client, given: argparse.Namespace) -> int:
    """Starts a job. If it was started by this key before, nothing is started, and that job execution is told."""
    parameters = parameters_of(given.parameter)
    key = f"once:{fingerprint(given.job, parameters).hex()}" if given.once else given.key
    path = "/batch/jobinstances" if key is None else "/batch/jobinstances?once=true"
    begun = await client.operate("POST", path, {"jobName": given.job, "jobParameters": parameters}, key=key)
    tell_begun(begun)
    return await wait_for_end(client, begun["executionId"]) if given.wait else 0


async def restart(client: Client, given: argparse.Namespace) -> int:
    """Restarts with the parameters of the earlier job execution and those that are given, and shows them."""
    added = parameters_of(given.parameter)
    earlier = {} if given.no_parameters else (await execution_of(client, given.execution))["jobParameters"]
    parameters = {**earlier, **added}
    path = f"/batch/jobexecutions/{given.execution}?action=restart"
    begun = await client.operate("PUT", path, {"jobParameters": parameters})
    tell_begun(begun)
    print(f"parameters: {parameter_words(parameters)}")
    return await wait_for_end(client, begun["executionId"]) if given.wait else 0


async def stop(client: Client, given: argparse.Namespace) -> int:
    await client.operate("PUT", f"/batch/jobexecutions/{given.execution}?action=stop")
    print(f"job execution {given.execution} is asked to stop")
    return await wait_for_end(client, given.execution) and 0 if given.wait else 0


async def abandon(client: Client, given: argparse.Namespace) -> int:
    await client.operate("PUT", f"/batch/jobexecutions/{given.execution}?action=abandon")
    print(f"job execution {given.execution} is abandoned")
    return 0


async def purge(client: Client, given: argparse.Namespace) -> int:
    await client.operate("DELETE", f"/batch/jobinstances/{given.instance}")
    print(f"job instance {given.instance} is purged")
    return 0


async def lose(client: Client, given: argparse.Namespace) -> int:
    await client.operate("PUT", f"/batch/work/{given.work}?action=lose")
    print(f"work item {given.work} is lost: it is FAILED")
    return 0


async def show_log(client: Client, given: argparse.Namespace) -> int:
    async for log in logs_of(client, given.execution):
        sys.stdout.write(printable_lines(f"# work item {log['work']}, {log['stepName']}\n{log['log']}\n"))
    return 0


def run(command: Command, given: argparse.Namespace) -> int:
    """Runs a command, and says in one line why it failed."""

    async def call() -> int:
        async with Client(address_of(given)) as client:
            return await command(client, given)

    try:
        return asyncio.run(call())
    except (Refused, Unreachable, ValueError, OSError) as fault:
        print(printable(f"jobhost: {fault}"), file=sys.stderr)
        return 1
    except KeyboardInterrupt:
        return 130
