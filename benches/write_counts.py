#!/usr/bin/python3
"""Counts what an operation of the service costs: parses, thread hops, writes, commits, syncs, and seconds of its process.

    benches/write_counts.py [--clients 1,8,64] [--jobs 400] [--starts] [--batchctl PROGRAM] [--service DIR]

One job execution is a start, a claim, a checkpoint and a finish, each with a request key; with `--starts` it is four starts.
Counts hardly depend on what else the machine does, and seconds do. `--service` is the folder `service` of another checkout, to
compare with.
"""

from __future__ import annotations

import argparse
import asyncio
import json
import os
import signal
import subprocess
import sys
import tempfile
import time
import uuid
from collections.abc import Awaitable, Callable, Iterator
from contextlib import contextmanager
from pathlib import Path

SERVICE = Path(__file__).resolve().parents[1] / "service"
sys.path.insert(0, str(SERVICE))
sys.path.insert(0, str(SERVICE / "tests"))

from lean_client import LeanClient  # noqa: E402
from postgres_server import PostgresServer, children_of, free_port  # noqa: E402

from job_host.commands.program import find_batchctl  # noqa: E402

CHUNK = {"item-count": 100, "reader": {"ref": "rows"}, "writer": {"ref": "table"}}
CATALOGUE = {"jobs": [{"id": "copy", "elements": [{"kind": "step", "id": "copy", "chunk": CHUNK}]}]}
METRICS = {"READ_COUNT": 100, "WRITE_COUNT": 100, "COMMIT_COUNT": 1}
COUNTED = Path(__file__).resolve().with_name("counted_service.py")
# Lets a client run so many job executions.
RunSome = Callable[[LeanClient, int], Awaitable[None]]


class Counted:
    """A service that counts, and whose syncs strace counts if there is one."""

    def __init__(self, folder: Path, port: int, words: list[str], code: str) -> None:
        self._counts = folder / f"counts-{port}.json"
        self._syncs = folder / f"syncs-{port}"
        self._port = port
        serve = ["serve", "--port", str(port), *words]
        traced = ["strace", "-f", "-qq", "-o", str(self._syncs), "-e", "trace=fsync,fdatasync"]
        log = open(folder / f"log-{port}", "wb")
        command = [*traced, sys.executable, "-c", code, str(self._counts), *serve]
        self._process = subprocess.Popen(command, stdout=log, stderr=log)

    @property
    def number(self) -> int:
        return children_of(self._process.pid)[0]

    def counts(self) -> dict[str, float]:
        """What was counted until now."""
        self._counts.unlink(missing_ok=True)
        os.kill(self.number, signal.SIGUSR2)
        while not self._counts.exists():
            time.sleep(0.01)
        return {**json.loads(self._counts.read_text()), "syncs": self._syncs.read_text().count("sync(")}

    def end(self) -> None:
        os.kill(self.number, signal.SIGTERM)
        self._process.wait(30)


async def run_starts(client: LeanClient, count: int) -> None:
    for _ in range(4 * count):
        await client.ask("POST", "/batch/jobinstances", {"jobName": "copy", "jobParameters": {"night": uuid.uuid4().hex}})


async def run_jobs(client: LeanClient, count: int) -> None:
    for _ in range(count):
        body = {"jobName": "copy", "jobParameters": {"night": uuid.uuid4().hex}}
        await client.ask("POST", "/batch/jobinstances", body)
        work = (await client.ask("POST", "/batch/work", {}))["work"]["work"]
        await client.ask("PUT", f"/batch/work/{work}?action=checkpoint", {"data": "100", "metrics": METRICS})
        await client.ask("PUT", f"/batch/work/{work}?action=finish", {"outcome": "COMPLETED"})


async def measure(port: int, service: Counted, clients: int, jobs: int, run_some: RunSome) -> dict[str, float]:
    """The counts an operation, of so many clients that run so many job executions in all."""
    lean = [LeanClient(port, f"client-{clients}-{number}") for number in range(clients)]
    for one in lean:
        await one.open()
    await asyncio.gather(*(run_some(one, 2) for one in lean))
    await asyncio.sleep(0.5)
    each = max(1, jobs // clients)
    before = service.counts()
    await asyncio.gather(*(run_some(one, each) for one in lean))
    await asyncio.sleep(0.5)
    after = service.counts()
    for one in lean:
        one.close()
    return {name: (after[name] - before.get(name, 0)) / (4 * each * clients) for name in after}


@contextmanager
def counted(folder: Path, words: list[str], batchctl: str, code: str) -> Iterator[tuple[int, Counted]]:
    catalogue = folder / "catalogue.json"
    catalogue.write_text(json.dumps(CATALOGUE))
    port = free_port()
    service = Counted(folder, port, ["--catalogue", str(catalogue), "--batchctl", batchctl, *words], code)
    try:
        yield port, service
    finally:
        service.end()


async def until_ready(port: int) -> None:
    while True:
        try:
            reader, writer = await asyncio.open_connection("127.0.0.1", port)
            writer.write(b"GET /health/leader HTTP/1.1\r\nHost: localhost\r\nConnection: close\r\n\r\n")
            told = await reader.read()
            writer.close()
            if b" 200 " in told[:20]:
                return
        except OSError:
            pass
        await asyncio.sleep(0.05)


def code_of(service: Path) -> str:
    """Runs the counted service with the modules of another checkout."""
    return COUNTED.read_text().replace('Path(__file__).resolve().parents[1] / "service"', f"Path({str(service)!r})")


async def run(given: argparse.Namespace, folder: Path, server: PostgresServer) -> None:
    server.sql("create database counted")
    kinds = {
        "embedded": ["--data", str(folder / "data")],
        "PostgreSQL": ["--postgres", server.dsn.rsplit("/", 1)[0] + "/counted"],
    }
    for kind, words in kinds.items():
        with counted(folder, words, given.batchctl, code_of(given.service)) as (port, service):
            await until_ready(port)
            for clients in map(int, given.clients.split(",")):
                told = await measure(port, service, clients, given.jobs, run_starts if given.starts else run_jobs)
                shown = ", ".join(f"{name} {value:.3g}" for name, value in sorted(told.items()))
                print(f"{kind}, {clients} clients, an operation: {shown}", flush=True)


def main() -> int:
    parser = argparse.ArgumentParser(description=(__doc__ or "").splitlines()[0])
    parser.add_argument("--clients", default="1,8,64")
    parser.add_argument("--jobs", type=int, default=400)
    parser.add_argument("--starts", action="store_true")
    parser.add_argument("--batchctl", default=None)
    parser.add_argument("--service", type=Path, default=SERVICE)
    given = parser.parse_args()
    given.batchctl = given.batchctl or find_batchctl(None)[0]
    server = PostgresServer.make(max_connections="100")
    server.start()
    try:
        with tempfile.TemporaryDirectory(prefix="jobhost-counts-") as folder:
            asyncio.run(run(given, Path(folder), server))
    finally:
        server.remove()
    return 0


if __name__ == "__main__":
    sys.exit(main())
