#!/usr/bin/python3
"""Measures the service: operations a second and their 99th percentile, beside a repository in SQL on the same PostgreSQL.

    benches/service_calls.py [--seconds 5] [--clients 1,8,64] [--rounds 1] [--before DIR] [--replay 100000] [--takeovers 5]

One job execution is a start, a claim, a checkpoint and a finish. Clients of the service call over HTTP with a request key each;
the repository in SQL is called without HTTP, on a connection for each client. All is measured in one run, in turn, in so many
rounds. `--before` is another checkout, whose service is measured beside this one's.
This measures only how long it takes until a history is served again:

    benches/service_calls.py --clients '' --takeovers 0 --replay 900000
"""

from __future__ import annotations

import argparse
import asyncio
import json
import os
import signal
import statistics
import subprocess
import sys
import tempfile
import time
import uuid
from collections.abc import Awaitable, Callable
from dataclasses import dataclass, field
from functools import partial
from pathlib import Path
from typing import Any

import aiohttp
import asyncpg
import psutil

SERVICE = Path(__file__).resolve().parents[1] / "service"
sys.path.insert(0, str(SERVICE))
sys.path.insert(0, str(SERVICE / "tests"))

from instances import Caller, Process, until  # noqa: E402
from postgres_server import PostgresServer, children_of  # noqa: E402
from lean_client import LeanClient  # noqa: E402
from sql_repository import SCHEMA, SqlRepository  # noqa: E402

from job_host.commands.program import find_batchctl  # noqa: E402
from job_host.protocol.lines import command  # noqa: E402

CHUNK = {"item-count": 100, "reader": {"ref": "rows"}, "writer": {"ref": "table"}}
CATALOGUE = {"jobs": [{"id": "copy", "elements": [{"kind": "step", "id": "copy", "chunk": CHUNK}]}]}
METRICS = {"READ_COUNT": 100, "WRITE_COUNT": 100, "COMMIT_COUNT": 1}
# What a row of the table has of an operation whose audit is not told.
COLUMNS = ["number", "epoch", "line", "reply", "request_key"]
TAKEOVER_AFTER = 1.0
REPLAY_SECONDS = 120.0


@dataclass
class Measured:
    """The seconds of each operation, and of the whole, and those of the processor that the service's own process had."""

    name: str
    clients: int
    seconds: float
    times: list[float] = field(default_factory=list)
    processor: float = 0.0

    def line(self) -> str:
        percentile = statistics.quantiles(self.times, n=100)[98] if len(self.times) > 1 else float("nan")
        rate, processor = len(self.times) / self.seconds, 1_000 * self.processor / max(1, len(self.times))
        return f"{self.name:24} {self.clients:8} {rate:12.0f} {percentile * 1000:12.1f} {processor:14.2f}"


# Runs one job execution, and adds the seconds of each of its four operations.
Run = Callable[[list[float]], Awaitable[None]]


async def timed(times: list[float], call: Awaitable[Any]) -> Any:
    begun = time.perf_counter()
    told = await call
    times.append(time.perf_counter() - begun)
    return told


async def measure(name: str, runs: list[Run], seconds: float) -> Measured:
    """All clients at once, for some seconds."""
    measured = Measured(name, len(runs), 0.0)
    begun = time.perf_counter()

    async def client(run: Run) -> None:
        while time.perf_counter() - begun < seconds:
            await run(measured.times)

    await asyncio.gather(*(client(run) for run in runs))
    measured.seconds = time.perf_counter() - begun
    return measured


async def run_http(client: LeanClient, times: list[float]) -> None:
    body = {"jobName": "copy", "jobParameters": {"night": uuid.uuid4().hex}}
    await timed(times, client.ask("POST", "/batch/jobinstances", body))
    work = (await timed(times, client.ask("POST", "/batch/work", {})))["work"]["work"]
    group = {"data": "100", "metrics": METRICS}
    await timed(times, client.ask("PUT", f"/batch/work/{work}?action=checkpoint", group))
    await timed(times, client.ask("PUT", f"/batch/work/{work}?action=finish", {"outcome": "COMPLETED"}))


async def measure_service(name: str, service: Process, count: int, seconds: float) -> Measured:
    clients = [LeanClient(service.port, f"client-{count}-{number}") for number in range(count)]
    for client in clients:
        await client.open()
    before = processor_seconds(service.number)
    measured = await measure(name, [partial(run_http, client) for client in clients], seconds)
    measured.processor = processor_seconds(service.number) - before
    for client in clients:
        client.close()
    return measured


def processor_seconds(number: int) -> float:
    """The seconds of the processor that a process has had."""
    times = psutil.Process(number).cpu_times()
    return float(times.user + times.system)


async def run_sql(repository: SqlRepository, times: list[float]) -> None:
    await timed(times, repository.start("copy", {"night": uuid.uuid4().hex}))
    await timed(times, repository.claim("copy"))
    await timed(times, repository.checkpoint("100"))
    await timed(times, repository.finish())


async def measure_sql(dsn: str, count: int, seconds: float) -> Measured:
    connections = [await asyncpg.connect(dsn, server_settings={"jit": "off"}) for _ in range(count)]
    await connections[0].execute(SCHEMA)
    measured = await measure("statements of SQL", [partial(run_sql, SqlRepository(one)) for one in connections], seconds)
    for connection in connections:
        await connection.close()
    return measured


class Bench:
    def __init__(self, folder: Path, server: PostgresServer) -> None:
        self.folder = folder
        self.server = server
        self.batchctl = find_batchctl(None)
        self.catalogue = folder / "catalogue.json"
        self.catalogue.write_text(json.dumps(CATALOGUE))

    def service(self, name: str, *words: str) -> Process:
        given = ["--catalogue", str(self.catalogue), "--batchctl", self.batchctl[0], "--takeover-after", str(TAKEOVER_AFTER)]
        return Process(self.folder / f"{name}.log", *given, *words)

    def database(self, name: str) -> str:
        self.server.sql(f"create database {name}")
        return self.server.dsn.rsplit("/", 1)[0] + "/" + name

    def has_log(self) -> bool:
        words = [*self.batchctl, "script", "--log", str(self.folder / "probe.log")]
        return subprocess.run(words, input=b'{"jobs":[]}\n', capture_output=True, check=False).returncode != 2

    async def throughput(self, given: argparse.Namespace, counts: list[int]) -> None:
        print(f"{'':24} {'clients':>8} {'operations/s':>12} {'99th, ms':>12} {'processor, ms':>14}")
        services = self._services("", None) + ([] if given.before is None else self._services("before, ", given.before))
        statements = self.database("statements")
        for count in counts * given.rounds:
            for name, service in services:
                print((await self._by(service, name, count, given.seconds)).line(), flush=True)
            print((await measure_sql(statements, count, given.seconds)).line(), flush=True)

    def _services(self, prefix: str, checkout: Path | None) -> list[tuple[str, Process]]:
        """The services of this checkout, or of another one, each by its name."""
        name = f"kept{len(prefix)}"
        found = [("PostgreSQL", self.service(name, "--postgres", self.database(name)))]
        if self.has_log():
            found.insert(0, ("embedded", self.service(f"embedded{len(prefix)}", "--data", str(self.folder / name))))
        for _, service in found:
            if checkout is not None:
                service.words[1] = str(checkout / "service" / "jobhost")
        return [(prefix + kind, service) for kind, service in found]

    async def _by(self, service: Process, name: str, count: int, seconds: float) -> Measured:
        """Starts a service anew for each measurement: so none runs beside what is measured."""
        service.start()
        try:
            await service.until_role("leader")
            return await measure_service(name, service, count, seconds)
        finally:
            service.signal(signal.SIGTERM)
            service.wait()

    async def takeover(self, times: int) -> None:
        """Kills the leader, and takes the time until the other instance has kept an operation."""
        dsn = self.database("takeover")
        services = [self.service(f"takeover-{number}", "--postgres", dsn) for number in range(2)]
        seconds = []
        try:
            services[0].start()
            await services[0].until_role("leader")
            for _ in range(times):
                services[1].start()
                await services[1].until_role("follower")
                services[0].kill()
                begun = time.perf_counter()
                await until(lambda: self._starts(services[1].url))
                seconds.append(time.perf_counter() - begun)
                services.reverse()
        finally:
            for service in services:
                service.kill()
        told = ", ".join(f"{one:.2f}" for one in sorted(seconds))
        print(f"take over, the leader counted as gone after {TAKEOVER_AFTER:g} s without a beat: {told} s")

    @staticmethod
    async def _starts(url: str) -> bool:
        try:
            return (await Caller(url).start("copy")).status == 201
        except aiohttp.ClientError:
            return False

    async def replay(self, count: int) -> None:
        """The seconds over so many operations until a service is there: after a start, a kill of batchctl, lost connections."""
        lines = operations(count)
        if self.has_log():
            await self._replay_log(lines)
        await self._replay_table(lines)

    def _hand(self, lines: list[bytes], *words: str) -> list[bytes]:
        """Hands lines to batchctl. Returns its replies."""
        script = b"\n".join([json.dumps(CATALOGUE).encode(), *lines]) + b"\n"
        done = subprocess.run([*self.batchctl, "script", *words], input=script, capture_output=True, check=True)
        return done.stdout.splitlines()

    async def _replay_log(self, lines: list[bytes]) -> None:
        data = self.folder / "replayed"
        data.mkdir(mode=0o700)
        self._hand(lines, "--log", str(data / "history.log"))
        service = self.service("replayed", "--data", str(data))
        begun = time.perf_counter()
        service.start()
        try:
            await tell(service, f"embedded, a start over {len(lines)} operations", begun, lambda: self._starts(service.url))
            for quiet in (0.0, 3.0):
                await asyncio.sleep(quiet)
                begun = time.perf_counter()
                os.kill(children_of(service.number)[0], signal.SIGKILL)
                what = f"embedded, a kill of batchctl {quiet:g} s after an operation"
                await tell(service, what, begun, lambda: self._starts(service.url))
        finally:
            service.kill()

    async def _replay_table(self, lines: list[bytes]) -> None:
        dsn = self.database("replay")
        services = [self.service(f"replay-{number}", "--postgres", dsn) for number in range(2)]
        try:
            services[0].start()
            await services[0].until_role("leader")
            services[0].kill()
            await self._fill(dsn, lines)
            for service, role in zip(services, ("leader", "follower")):
                begun = time.perf_counter()
                service.start()
                what = f"PostgreSQL, a start over {len(lines)} operations, {role}"
                await tell(service, what, begun, lambda one=service, role=role: has_role(one, role, 2))  # type: ignore[misc]
            begun = time.perf_counter()
            self.server.sql("select pg_terminate_backend(pid) from pg_stat_activity where datname = 'replay'")
            told = [
                ("leader", lambda: has_role(services[0], "leader", 3)),
                ("follower", lambda: has_role(services[1], "follower", 3)),
            ]
            for service, (role, condition) in zip(services, told):
                await tell(service, f"PostgreSQL, connections that are lost, {role}", begun, condition)
            if not await self._starts(services[0].url):
                raise RuntimeError("the leader takes no calls")
        finally:
            for service in services:
                service.kill()

    async def _fill(self, dsn: str, lines: list[bytes]) -> None:
        pairs = enumerate(zip(lines, self._hand(lines), strict=True), 1)
        table = await asyncpg.connect(dsn)
        rows = [(number, 1, line.decode(), reply.decode(), None) for number, (line, reply) in pairs]
        await table.copy_records_to_table("job_host_operation", records=rows, columns=COLUMNS)
        await table.close()


def operations(count: int) -> list[bytes]:
    """The lines of whole job executions."""
    lines = []
    for place in range(0, count, 4):
        work = place // 4 + 1
        lines.append(command("start", 2, place + 1, {"job": "copy", "parameters": {"night": str(place)}}))
        lines.append(command("claim", 2, place + 2, {}))
        lines.append(command("checkpoint", 2, place + 3, {"work": work, "data": "100", "metrics": METRICS}))
        lines.append(command("finish", 2, place + 4, {"work": work, "outcome": "COMPLETED"}))
    return lines


async def has_role(service: Process, role: str, epoch: int) -> bool:
    try:
        told = (await Caller(service.url).ask("GET", "/health/ready")).told
    except aiohttp.ClientError:
        return False
    return bool(told["role"] == role and told["epoch"] >= epoch)


async def tell(service: Process, what: str, begun: float, condition: Callable[[], Awaitable[bool]]) -> None:
    """Prints the seconds until the condition holds, and the memory of the service and of its batchctl."""
    await until(condition, REPLAY_SECONDS)
    seconds = time.perf_counter() - begun
    numbers = [str(number) for number in (service.number, *children_of(service.number))]
    told = subprocess.run(["ps", "-o", "rss=", "-p", ",".join(numbers)], capture_output=True, text=True, check=True)
    sizes = " and ".join(f"{int(size) // 1024}" for size in told.stdout.split())
    print(f"{what}: {seconds:.2f} s, {sizes} MiB of memory")


async def run(given: argparse.Namespace, bench: Bench) -> None:
    counts = [int(word) for word in given.clients.split(",") if word]
    if counts:
        await bench.throughput(given, counts)
    if given.takeovers:
        await bench.takeover(given.takeovers)
    if given.replay:
        await bench.replay(given.replay)


def main() -> int:
    parser = argparse.ArgumentParser(description=(__doc__ or "").splitlines()[0])
    parser.add_argument("--seconds", type=float, default=5.0)
    parser.add_argument("--clients", default="1,8,64")
    parser.add_argument("--rounds", type=int, default=1)
    parser.add_argument("--before", type=Path)
    parser.add_argument("--replay", type=int, default=100_000)
    parser.add_argument("--takeovers", type=int, default=5)
    given = parser.parse_args()
    print(f"load before: {os.getloadavg()[0]:.2f} on {os.cpu_count()} cores")
    server = PostgresServer.make(max_connections="100")
    server.start()
    try:
        with tempfile.TemporaryDirectory(prefix="jobhost-bench-") as folder:
            asyncio.run(run(given, Bench(Path(folder), server)))
    finally:
        server.remove()
    print(f"load after: {os.getloadavg()[0]:.2f}")
    return 0


if __name__ == "__main__":
    sys.exit(main())
