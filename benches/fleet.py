#!/usr/bin/python3
"""Measures what a fleet of waiting workers costs one service, and how long it takes from a start of a job to its claim.

    benches/fleet.py [--workers 500] [--slots 10] [--seconds 60] [--jobs 500] [--pause 0.1] [--places embedded,PostgreSQL]

Each worker is a client with so many slots and a connection of its own. As `jobhost worker` does, it keeps one claim waiting
while a slot is free, asks again when that has waited for 10 seconds, and tells its artifacts once a minute. The processor
seconds are those of the service and of its batchctl, without PostgreSQL's and the workers' own. First nobody asks, then all
workers wait. Then jobs of one step are started one after the other, with a pause between them, and each is timed from before
its start's request to the answer of the claim that got it.
"""

from __future__ import annotations

import argparse
import asyncio
import json
import os
import statistics
import sys
import tempfile
import time
import uuid
from pathlib import Path
from typing import Any, NamedTuple

import aiohttp
import psutil

SERVICE = Path(__file__).resolve().parents[1] / "service"
sys.path.insert(0, str(SERVICE))
sys.path.insert(0, str(SERVICE / "tests"))

from instances import Caller, Process, until  # noqa: E402
from postgres_server import PostgresServer, children_of  # noqa: E402

from job_host.commands.program import find_batchctl  # noqa: E402
from job_host.service.http.descriptors import raise_limit  # noqa: E402
from job_host.service.settings import Bounds  # noqa: E402
from job_host.worker.worker import CLAIM_SECONDS  # noqa: E402

CATALOGUE = {"jobs": [{"id": "one", "elements": [{"kind": "step", "id": "a", "batchlet": {"ref": "ok"}}]}]}
ARTIFACTS = [f"artifact-{number}" for number in range(20)]
TELL_SECONDS = 60.0
PLACES = ("embedded", "PostgreSQL")


class Usage(NamedTuple):
    """Processor seconds since the start of a process and its children, and their resident memory now, in MiB."""

    seconds: float
    memory: float


def usage_of(processes: list[int]) -> Usage:
    ours = [psutil.Process(one) for one in processes]
    times = [one.cpu_times() for one in ours]
    return Usage(sum(one.user + one.system for one in times), sum(one.memory_info().rss for one in ours) / 2**20)


class Fleet:
    """Workers that wait, and the moments at which jobs are started and claimed, by their numbers."""

    def __init__(self, url: str, session: aiohttp.ClientSession, slots: int) -> None:
        self.url = url
        self.session = session
        self.slots = slots
        self.started: dict[int, float] = {}
        self.claimed: dict[int, float] = {}
        self.finishing: set[asyncio.Future[None]] = set()

    async def ask(self, client: str, method: str, path: str, body: Any) -> Any:
        headers = {"Batch-Client": client, "Idempotency-Key": uuid.uuid4().hex}
        async with self.session.request(method, self.url + path, json=body, headers=headers) as response:
            told = await response.json()
            if response.status >= 400:
                raise RuntimeError(told)
            return told

    async def work(self, client: str) -> None:
        """One worker, until it is cancelled."""
        free, tell_from = asyncio.Semaphore(self.slots), 0.0
        while True:
            async with free:
                body: dict[str, Any] = {"wait": CLAIM_SECONDS}
                if time.monotonic() >= tell_from:
                    body["artifacts"], tell_from = ARTIFACTS, time.monotonic() + TELL_SECONDS
                told = await self.ask(client, "POST", "/batch/work", body)
            if "work" in told:
                self.claimed[int(told["jobParameters"]["number"])] = time.perf_counter()
                await free.acquire()
                finishing = asyncio.ensure_future(self.finish(client, told["work"]["work"], free))
                self.finishing.add(finishing)
                finishing.add_done_callback(self.finishing.discard)

    async def finish(self, client: str, work: int, free: asyncio.Semaphore) -> None:
        await self.ask(client, "PUT", f"/batch/work/{work}?action=finish", {"outcome": "COMPLETED"})
        free.release()

    async def start(self, number: int) -> None:
        self.started[number] = time.perf_counter()
        body = {"jobName": "one", "jobParameters": {"number": str(number)}}
        await self.ask("starter", "POST", "/batch/jobinstances", body)

    async def start_all(self, jobs: int, pause: float) -> list[float]:
        """The milliseconds from each start to its claim, the shortest first."""
        for number in range(jobs):
            await self.start(number)
            await asyncio.sleep(pause)

        async def all_are_claimed() -> bool:
            return len(self.claimed) == jobs

        await until(all_are_claimed)
        return sorted(1_000 * (self.claimed[number] - self.started[number]) for number in range(jobs))


async def idle(processes: list[int], seconds: float) -> str:
    """What the service takes while nothing is started."""
    before, begun = usage_of(processes), time.monotonic()
    await asyncio.sleep(seconds)
    after, took = usage_of(processes), time.monotonic() - begun
    a_minute = 60 * (after.seconds - before.seconds) / took
    return f"{a_minute:6.2f} processor seconds a minute, {after.memory:6.1f} MiB"


async def measure(name: str, service: Process, given: argparse.Namespace) -> None:
    processes = [service.number, *children_of(service.number)]
    print(f"{name}, nobody asks: {await idle(processes, given.seconds)}", flush=True)
    waiting = f"{given.workers} workers with {given.workers * given.slots} slots"
    async with aiohttp.ClientSession(connector=aiohttp.TCPConnector(limit=0)) as session:
        fleet = Fleet(service.url, session, given.slots)
        working = [asyncio.ensure_future(fleet.work(f"worker-{number}")) for number in range(given.workers)]
        try:
            await until(lambda: are_waiting(service.url, given.workers))
            print(f"{name}, {waiting} wait: {await idle(processes, given.seconds)}", flush=True)
            before = usage_of(processes).seconds
            took = await fleet.start_all(given.jobs, given.pause)
            a_job = 1_000 * (usage_of(processes).seconds - before) / given.jobs
            most = f"99th percentile {took[len(took) * 99 // 100]:.1f}, most {took[-1]:.1f}"
            told = f"median {statistics.median(took):.1f} ms, {most}"
            print(f"{name}, {waiting} wait, from a start to its claim, {given.jobs} jobs: {told}", flush=True)
            print(f"{name}, {waiting} wait, a job takes {a_job:.1f} processor milliseconds", flush=True)
        finally:
            for one in working:
                one.cancel()
            ended = await asyncio.gather(*working, *fleet.finishing, return_exceptions=True)
    failures = [one for one in ended if isinstance(one, Exception)]
    if failures:
        raise failures[0]


async def are_waiting(url: str, count: int) -> bool:
    told = str((await Caller(url).ask("GET", "/metrics")).told)
    return f"jobhost_claims_waiting {count}.0" in told.splitlines()


async def run(given: argparse.Namespace, folder: Path) -> None:
    catalogue = folder / "catalogue.json"
    catalogue.write_text(json.dumps(CATALOGUE))
    words = ["--catalogue", str(catalogue), "--batchctl", find_batchctl(None)[0]]
    for name in given.places:
        server = PostgresServer.make(max_connections="100") if name == "PostgreSQL" else None
        service = Process(folder / f"{name}.log", *words, *place_of(server, folder))
        try:
            service.start()
            await service.until_role("leader")
            await measure(name, service, given)
        finally:
            service.kill()
            if server is not None:
                server.remove()


def place_of(server: PostgresServer | None, folder: Path) -> list[str]:
    if server is None:
        return ["--data", str(folder / "data")]
    server.start()
    server.sql("create database fleet")
    return ["--postgres", server.dsn_of("fleet")]


def main() -> int:
    parser = argparse.ArgumentParser(description=(__doc__ or "").splitlines()[0])
    parser.add_argument("--workers", type=int, default=500)
    parser.add_argument("--slots", type=int, default=10)
    parser.add_argument("--seconds", type=float, default=60.0)
    parser.add_argument("--jobs", type=int, default=500)
    parser.add_argument("--pause", type=float, default=0.1)
    parser.add_argument("--places", type=lambda text: text.split(","), default=list(PLACES), metavar=",".join(PLACES))
    given = parser.parse_args()
    if not 1 <= given.workers <= Bounds().waits or given.jobs < 1 or not set(given.places) <= set(PLACES):
        parser.error(f"--workers is 1 to {Bounds().waits}, --jobs at least 1, and --places some of {', '.join(PLACES)}")
    raise_limit()
    print(f"load before: {os.getloadavg()[0]:.2f} on {os.cpu_count()} cores")
    with tempfile.TemporaryDirectory(prefix="jobhost-fleet-") as folder:
        asyncio.run(run(given, Path(folder)))
    print(f"load after: {os.getloadavg()[0]:.2f}")
    return 0


if __name__ == "__main__":
    sys.exit(main())
