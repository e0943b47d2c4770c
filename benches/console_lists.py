#!/usr/bin/python3
"""Measures how long the service takes for a page of the console's lists, over many job executions.

    benches/console_lists.py [--executions 10000] [--rounds 20]

It starts a service over PostgreSQL, makes the job executions, each with parameters, and ends every fourth of them. Then it
reads pages over HTTP, one at a time. The first read of all of them is the one by which the service comes to know them.
"""

from __future__ import annotations

import argparse
import asyncio
import json
import statistics
import sys
import tempfile
import time
from pathlib import Path
from typing import Any

import aiohttp

SERVICE = Path(__file__).resolve().parents[1] / "service"
sys.path.insert(0, str(SERVICE))
sys.path.insert(0, str(SERVICE / "tests"))

from instances import Process  # noqa: E402
from postgres_server import PostgresServer  # noqa: E402

CLIENTS = 32
JOBS = [{"id": name, "elements": [{"kind": "step", "id": "only", "batchlet": {"ref": "only"}}]} for name in ("night", "day")]
READS = [
    ("the newest page", ""),
    ("the last page", "&page=LAST"),
    ("STOPPED, the newest page", "&status=STOPPED"),
    ("a search that finds one", "&search=night%3D2001-0"),
    ("a search that finds nothing", "&search=nowhere"),
    ("one job, the last page", "&jobName=day&page=HALF"),
]


async def make(session: aiohttp.ClientSession, url: str, place: int, count: int) -> None:
    """The job executions of one client. Every fourth of all is stopped."""
    for number in range(place, count, CLIENTS):
        body = {"jobName": JOBS[number % 2]["id"], "jobParameters": {"night": f"{2000 + number}-0", "place": "somewhere"}}
        headers = {"Batch-Client": f"maker-{place}"}
        async with session.post(url + "/batch/jobinstances", json=body, headers=headers) as answer:
            begun = await answer.json()
        if number % 4 == 0:
            path = f"{url}/batch/jobexecutions/{begun['executionId']}?action=stop"
            async with session.put(path, headers=headers) as answer:
                assert answer.status == 200


async def read(session: aiohttp.ClientSession, url: str) -> tuple[float, int]:
    """The seconds of a read, and how many job executions it told."""
    begun = time.perf_counter()
    async with session.get(url) as answer:
        told = await answer.json()
    return time.perf_counter() - begun, len(told["jobExecutions"])


async def measure(url: str, count: int, rounds: int) -> None:
    async with aiohttp.ClientSession() as session:
        await asyncio.gather(*(make(session, url, place, count) for place in range(CLIENTS)))
        first, told = await read(session, f"{url}/batch/jobexecutions?pageSize=50&search=nowhere")
        print(f"{count} job executions; milliseconds over HTTP, a page of 50")
        print(f"{'read':32} {'rows':>5} {'median':>8} {'longest':>8}")
        print(f"{'the first read of all of them':32} {told:5} {first * 1000:8.1f} {first * 1000:8.1f}")
        for name, words in READS:
            path = words.replace("LAST", str(count // 50 - 1)).replace("HALF", str(count // 100 - 1))
            times = [await read(session, f"{url}/batch/jobexecutions?pageSize=50{path}") for _ in range(rounds)]
            seconds = [one for one, _ in times]
            print(f"{name:32} {times[0][1]:5} {statistics.median(seconds) * 1000:8.1f} {max(seconds) * 1000:8.1f}")


def main() -> int:
    parser = argparse.ArgumentParser(description=__doc__, formatter_class=argparse.RawDescriptionHelpFormatter)
    parser.add_argument("--executions", type=int, default=10_000)
    parser.add_argument("--rounds", type=int, default=20)
    given = parser.parse_args()
    server = PostgresServer.make()
    with tempfile.TemporaryDirectory() as folder:
        catalogue = Path(folder) / "catalogue.json"
        catalogue.write_text(json.dumps({"jobs": JOBS}))
        words: list[Any] = ["--catalogue", str(catalogue), "--postgres", server.dsn]
        service = Process(Path(folder) / "serve.log", *words)
        try:
            server.start()
            service.start()
            asyncio.run(service.until_role("leader"))
            asyncio.run(measure(service.url, given.executions, given.rounds))
        finally:
            service.kill()
            server.remove()
    return 0


if __name__ == "__main__":
    sys.exit(main())
