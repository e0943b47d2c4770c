"""What there is to see while a call isn't answered: the instances, the ways to them, and the faults."""

from __future__ import annotations

import asyncio
import signal
import subprocess
import sys
import time
from collections.abc import Iterator
from contextlib import suppress
from itertools import islice
from typing import TYPE_CHECKING

import aiohttp
from instances import Caller, Process

if TYPE_CHECKING:
    from soak import Parts

# No fault holds a call for so long: what there is to see is written then, before the caller gives up.
SLOW_SECONDS = 40.0
ANSWER_SECONDS = 5.0
LAST_FAULTS, LAST_LINES, MOST_SOCKETS = 20, 12, 100


async def write_scene(parts: Parts, what: str) -> None:
    """Writes it on standard error."""
    told = [f"soak: {time.strftime('%X')}: {what}", f"faults: {', '.join(parts.faults[-LAST_FAULTS:])}"]
    for service in parts.living:
        told += [f"instance on port {service.port}: {await health_of(service)}", *await last_of_log(service)]
    for way in parts.ways:
        told += [f"way from port {way.port}: {line}" for line in way.older_than(SLOW_SECONDS / 2)]
    told += await asyncio.to_thread(lambda: list(islice(sockets_of(parts), MOST_SOCKETS)))
    print("\n".join(told), file=sys.stderr, flush=True)


async def health_of(service: Process) -> str:
    """What an instance says of itself, by a connection without a proxy."""
    try:
        answers = [
            await asyncio.wait_for(Caller(service.url).ask("GET", path), ANSWER_SECONDS) for path in ("/health/live", "/readyz")
        ]
        return ", ".join(f"{answer.status} {answer.told}" for answer in answers)
    except (aiohttp.ClientError, asyncio.TimeoutError, OSError) as fault:
        return repr(fault)


async def last_of_log(service: Process) -> list[str]:
    """The last lines of an instance's log, with where its tasks wait."""
    before = service.log.splitlines()
    with suppress(ProcessLookupError):
        service.signal(signal.SIGUSR1)
    await asyncio.sleep(1.0)
    return [*before[-LAST_LINES:], *service.log.splitlines()[len(before) :]]


def sockets_of(parts: Parts) -> Iterator[str]:
    """The system's sockets with the ports of instances and ways, but those that are closed and only wait.

    Without the program ss there are none.
    """
    ports = {str(service.port) for service in parts.services} | {str(way.port) for way in parts.ways}
    try:
        told = subprocess.run(["ss", "-tnoH"], capture_output=True, text=True, check=False).stdout
    except FileNotFoundError:
        return
    for line in told.splitlines():
        words = line.split()
        if not line.startswith("TIME-WAIT") and not ports.isdisjoint(word.rpartition(":")[2] for word in words[3:5]):
            yield " ".join(words)
