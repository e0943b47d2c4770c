#!/usr/bin/python3
"""Measures how fast waiting slots take jobs: so many claims wait at the service when jobs of one step are started.

    benches/waiting_slots.py [--jobs 4000] [--slots 100,1000] [--starters 8]

Each slot is a client with a connection of its own, whose claim waits. It finishes what it gets, and claims again. A claim that
is refused, since too many wait, comes again after a second. The seconds run from the first start to the last finish.
"""

from __future__ import annotations

import argparse
import asyncio
import json
import os
import sys
import tempfile
import time
import uuid
from pathlib import Path
from typing import Any

import aiohttp

SERVICE = Path(__file__).resolve().parents[1] / "service"
sys.path.insert(0, str(SERVICE))
sys.path.insert(0, str(SERVICE / "tests"))

from instances import Caller, Process, until  # noqa: E402
from postgres_server import PostgresServer  # noqa: E402

from job_host.commands.program import find_batchctl  # noqa: E402
from job_host.service.settings import Bounds  # noqa: E402

CATALOGUE = {
    "jobs": [
        {
            "id": "one",
            "elements": [{"kind": "step", "id": "a", "batchlet": {"ref": "ok"}}],
        }
    ]
}
POLL_SECONDS, REFUSED_SECONDS = 30.0, 1.0


class Slots:
    """Slots that take jobs, and clients that start these."""

    def __init__(self, url: str, jobs: int) -> None:
        self.url = url
        self.jobs = jobs
        self.finished = 0
        self.refused = 0
        self.done = asyncio.Event()

    async def _ask(
        self,
        session: aiohttp.ClientSession,
        client: str,
        method: str,
        path: str,
        body: Any,
    ) -> tuple[int, Any]:
        headers = {"Batch-Client": client, "Idempotency-Key": uuid.uuid4().hex}
        async with session.request(method, self.url + path, json=body, headers=headers) as response:
            return response.status, await response.json()

    async def slot(self, session: aiohttp.ClientSession, client: str) -> None:
        while not self.done.is_set():
            status, told = await self._ask(session, client, "POST", "/batch/work", {"wait": POLL_SECONDS})
            if status in (429, 503):
                self.refused += 1
                await asyncio.sleep(REFUSED_SECONDS)
            elif status != 200:
                raise RuntimeError(told)
            elif told.get("work"):
                await self._finish(session, client, told["work"]["work"])

    async def _finish(self, session: aiohttp.ClientSession, client: str, work: int) -> None:
        path = f"/batch/work/{work}?action=finish"
        status, told = await self._ask(session, client, "PUT", path, {"outcome": "COMPLETED"})
        if status != 200:
            raise RuntimeError(told)
        self.finished += 1
        if self.finished == self.jobs:
            self.done.set()

    async def starter(self, session: aiohttp.ClientSession, client: str, numbers: range) -> None:
        for number in numbers:
            body = {"jobName": "one", "jobParameters": {"number": str(number)}}
            status, told = await self._ask(session, client, "POST", "/batch/jobinstances", body)
            if status != 201:
                raise RuntimeError(told)


async def are_waiting(url: str, count: int) -> bool:
    told = str((await Caller(url).ask("GET", "/metrics")).told)
    waiting = [line for line in told.splitlines() if line.startswith("jobhost_claims_waiting ")]
    return bool(waiting) and float(waiting[0].split()[1]) >= count


async def measure(url: str, jobs: int, slots: int, starters: int) -> str:
    taking = Slots(url, jobs)
    async with aiohttp.ClientSession(connector=aiohttp.TCPConnector(limit=0)) as session, asyncio.TaskGroup() as group:
        polls = [group.create_task(taking.slot(session, f"slot-{slots}-{number}")) for number in range(slots)]
        await until(lambda: are_waiting(url, min(slots, Bounds().waits)))
        begun = time.perf_counter()
        for number in range(starters):
            group.create_task(taking.starter(session, f"starter-{number}", range(number, jobs, starters)))
        await taking.done.wait()
        seconds = time.perf_counter() - begun
        for poll in polls:
            poll.cancel()
    rate = f"{jobs / seconds:8.0f} jobs a second"
    return f"{slots:6} slots {jobs:6} jobs {seconds:8.2f} s {rate}, {taking.refused} claims refused"


async def run(given: argparse.Namespace, folder: Path, server: PostgresServer) -> None:
    catalogue = folder / "catalogue.json"
    catalogue.write_text(json.dumps(CATALOGUE))
    words = ["--catalogue", str(catalogue), "--batchctl", find_batchctl(None)[0]]
    for count in (int(word) for word in given.slots.split(",")):
        database = f"slots_{count}"
        server.sql(f"create database {database}")
        places = {
            "embedded": ["--data", str(folder / f"data-{count}")],
            "PostgreSQL": ["--postgres", server.dsn.rsplit("/", 1)[0] + "/" + database],
        }
        for name, place in places.items():
            service = Process(folder / f"{name}-{count}.log", *words, *place)
            service.start()
            try:
                await service.until_role("leader")
                print(f"{name:12}", await measure(service.url, given.jobs, count, given.starters), flush=True)
            finally:
                service.kill()


def main() -> int:
    parser = argparse.ArgumentParser(description=(__doc__ or "").splitlines()[0])
    parser.add_argument("--jobs", type=int, default=4_000)
    parser.add_argument("--slots", default="100,1000")
    parser.add_argument("--starters", type=int, default=8)
    given = parser.parse_args()
    print(f"load before: {os.getloadavg()[0]:.2f} on {os.cpu_count()} cores")
    server = PostgresServer.make(max_connections="100")
    server.start()
    try:
        with tempfile.TemporaryDirectory(prefix="jobhost-slots-") as folder:
            asyncio.run(run(given, Path(folder), server))
    finally:
        server.remove()
    print(f"load after: {os.getloadavg()[0]:.2f}")
    return 0


if __name__ == "__main__":
    sys.exit(main())
