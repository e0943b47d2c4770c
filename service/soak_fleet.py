#!/usr/bin/python3
"""A fleet of workers, of which a tenth is killed again and again. Nobody is called: the policy alone restarts jobs.

    service/soak_fleet.py                              200 workers over batchctl's log: 20 are killed each minute, ten times
    service/soak_fleet.py --postgres                   the same over PostgreSQL
    service/soak_fleet.py --workers 6 --rounds 2 --pause 4 --killed 2

Each worker is a process with one slot. So many job instances run at once that nearly all slots are busy. Each has a step of 64
partitions, of 2 to 8 seconds, and a step behind them. Workers that are killed are replaced at once, under other names.

At the end each job instance is COMPLETED, and nobody but the restart policy has restarted one. No work item was run twice,
and each partition was run to its end. The status is 1 if anything is otherwise. The program is JOBHOST_BATCHCTL, or the one
that this clone has built.
"""

from __future__ import annotations

import argparse
import asyncio
import random
import shutil
import subprocess
import sys
import tempfile
from collections import Counter
from contextlib import suppress
from dataclasses import dataclass
from pathlib import Path
from typing import NamedTuple

sys.path.insert(0, str(Path(__file__).resolve().parent))
sys.path.insert(0, str(Path(__file__).resolve().parent / "tests"))

from instances import COMMAND, Caller, Process  # noqa: E402
from postgres_server import PostgresServer  # noqa: E402
from soak_check import Wrong  # noqa: E402

from job_host.commands.program import find_batchctl  # noqa: E402
from job_host.service.policies.known import RESTARTER  # noqa: E402

PARTITIONS, WIDE, LEASE, LEAST_SECONDS, MOST_SECONDS = 64, 3, 20, 2, 8
# What is FAILED is restarted by the policy, after a second and more.
UNFINISHED = ("STARTING", "STARTED", "STOPPING", "FAILED", "STOPPED")
SETTLING_SECONDS = 300.0
LOOK_SECONDS = 0.5

JSL = """<job id="wide" xmlns="https://jakarta.ee/xml/ns/jakartaee" version="2.0">
<step id="load" next="report"><batchlet ref="part"/><partition><plan partitions="%d"/></partition></step>
<step id="report"><batchlet ref="part"/></step></job>
"""
SETTINGS = '{"restart": {"afterLostWorker": true, "most": 100, "wait": "PT1S", "longestWait": "PT5S"}}'
PART = """#!/bin/sh
told="$BATCH_WORK $BATCH_INSTANCE $BATCH_STEP-$BATCH_PARTITION"
echo "$told" >> %(folder)s/begun
sleep $((%(least)d + BATCH_WORK %% %(spread)d))
echo "$told" >> %(folder)s/ended
"""


class Ran(NamedTuple):
    """One run of an artifact: by its work item, of this partition of a step."""

    work: int
    instance: int
    part: str


@dataclass(frozen=True)
class Plan:
    """So many workers, of which so many are killed after each pause."""

    workers: int
    rounds: int
    pause: float
    killed: int
    wide: int = WIDE
    partitions: int = PARTITIONS


class Site:
    """The service, over a log or over PostgreSQL, the artifacts, and what they note."""

    def __init__(self, folder: Path, over_postgres: bool, partitions: int) -> None:
        self.folder = folder
        self.artifacts, jobs = folder / "artifacts", folder / "jobs"
        for one in (self.artifacts, jobs):
            one.mkdir()
        (jobs / "wide.xml").write_text(JSL % partitions)
        (jobs / "wide.settings.json").write_text(SETTINGS)
        part = self.artifacts / "part"
        part.write_text(PART % {"folder": folder, "least": LEAST_SECONDS, "spread": MOST_SECONDS - LEAST_SECONDS + 1})
        part.chmod(0o755)
        self.server = PostgresServer.make() if over_postgres else None
        words = ["--jobs", str(jobs), "--batchctl", find_batchctl(None)[0], "--lease", str(LEASE)]
        if self.server is not None:
            self.server.start()
            words += ["--postgres", self.server.dsn]
        else:
            words += ["--data", str(folder / "data")]
        self.service = Process(folder / "service.log", *words)

    def runs(self, name: str) -> list[Ran]:
        """What the artifacts noted as they began, or as they ended."""
        file = self.folder / name
        lines = [line.split() for line in file.read_text().splitlines()] if file.exists() else []
        return [Ran(int(work), int(instance), part) for work, instance, part in lines]

    def remove(self) -> None:
        self.service.kill()
        if self.server is not None:
            self.server.remove()


class Workers:
    """Processes of `jobhost worker`, each under a name of its own."""

    def __init__(self, site: Site, chance: random.Random) -> None:
        self.site = site
        self.chance = chance
        self.living: list[subprocess.Popen[bytes]] = []
        self.begun = 0

    def start(self, count: int) -> None:
        words = [sys.executable, str(COMMAND), "worker", "--url", self.site.service.url]
        words += ["--artifacts", str(self.site.artifacts), "--slots", "1", "--client"]
        with open(self.site.folder / "workers.log", "ab") as log:
            for _ in range(count):
                self.begun += 1
                self.living.append(subprocess.Popen([*words, f"worker-{self.begun}"], stdout=log, stderr=log))

    def kill(self, count: int) -> None:
        """Kills so many of them at once, whatever they do."""
        killed = self.chance.sample(self.living, count)
        for one in killed:
            one.kill()
        for one in killed:
            one.wait()
            self.living.remove(one)

    def have_all_lived(self) -> bool:
        return all(one.poll() is None for one in self.living)


class Clerk:
    """Starts job instances, so that so many are unfinished until it is over, and restarts none."""

    def __init__(self, site: Site) -> None:
        self.caller = Caller(site.service.url, "clerk")
        self.started: list[int] = []

    async def unfinished(self) -> int:
        words = "&".join(f"status={status}" for status in UNFINISHED)
        answer = await self.caller.ask("GET", f"/batch/jobexecutions?mostRecent=true&pageSize=1000&{words}")
        if answer.status != 200:
            raise Wrong(f"the job executions can't be listed: {answer}")
        return len(answer.told["jobExecutions"])

    async def run(self, wide: int, is_over: asyncio.Event) -> None:
        while not is_over.is_set():
            if await self.unfinished() < wide:
                self.started.append(int((await self.caller.start("wide")).told["instanceId"]))
            with suppress(asyncio.TimeoutError):
                async with asyncio.timeout(LOOK_SECONDS):
                    await is_over.wait()

    async def settle(self) -> None:
        """Returns after all job instances are COMPLETED."""
        try:
            async with asyncio.timeout(SETTLING_SECONDS):
                while await self.unfinished():
                    await asyncio.sleep(LOOK_SECONDS)
        except asyncio.TimeoutError as late:
            raise Wrong(f"{await self.unfinished()} job instances aren't COMPLETED after {SETTLING_SECONDS:.0f} s") from late


async def soak(site: Site, workers: Workers, plan: Plan) -> Counter[str]:
    """Kills workers in rounds, lets all end that was started, and counts what came of it."""
    site.service.start()
    await site.service.until_role("leader")
    clerk, is_over = Clerk(site), asyncio.Event()
    workers.start(plan.workers)
    starting = asyncio.create_task(clerk.run(plan.wide, is_over))
    try:
        for _ in range(plan.rounds):
            await asyncio.sleep(plan.pause)
            workers.kill(plan.killed)
            workers.start(plan.killed)
    finally:
        is_over.set()
        await starting
    await clerk.settle()
    if not workers.have_all_lived():
        raise Wrong("a worker ended that wasn't killed")
    return await check(site, clerk, plan)


async def check(site: Site, clerk: Clerk, plan: Plan) -> Counter[str]:
    """Compares what the service tells with what the artifacts have noted."""
    begun, ended = site.runs("begun"), site.runs("ended")
    check_runs(begun, ended, clerk.started, plan.partitions)
    counts = Counter({"job instances": len(clerk.started), "work items that were run": len(begun)})
    counts["artifacts that a kill ended"] = len(begun) - len(ended)
    counts["workers that were killed"] = plan.rounds * plan.killed
    for instance in clerk.started:
        counts["restarts by the policy"] += await restarts_of(clerk.caller, instance)
    return counts


def check_runs(begun: list[Ran], ended: list[Ran], instances: list[int], partitions: int) -> None:
    """No work item was run twice, and each part of each job instance to its end."""
    twice = [work for work, count in Counter(one.work for one in begun).items() if count > 1]
    if twice:
        raise Wrong(f"the work items {twice} were run more than once")
    parts = {"report-", *(f"load-{number}" for number in range(partitions))}
    for instance in instances:
        lacks = parts.difference(one.part for one in ended if one.instance == instance)
        if lacks:
            raise Wrong(f"job instance {instance} is COMPLETED without {sorted(lacks)}")


async def restarts_of(caller: Caller, instance: int) -> int:
    """How often a COMPLETED job instance was restarted, each time by the policy."""
    executions = (await caller.ask("GET", f"/batch/jobinstances/{instance}/jobexecutions")).told
    if executions[0]["batchStatus"] != "COMPLETED":
        raise Wrong(f"job instance {instance} is {executions[0]['batchStatus']}")
    for one in executions[:-1]:
        told = (await caller.ask("GET", f"/batch/jobexecutions/{one['executionId']}/operations")).told
        by = [row["client"] for row in told if row["action"] == "restart"]
        if by != [RESTARTER]:
            raise Wrong(f"job execution {one['executionId']} was restarted by {by}")
    return len(executions) - 1


def main() -> int:
    parser = argparse.ArgumentParser(description=__doc__, formatter_class=argparse.RawDescriptionHelpFormatter)
    parser.add_argument("--postgres", action="store_true", help="over PostgreSQL (default: over batchctl's log)")
    for name, count in (
        ("workers", 200),
        ("rounds", 10),
        ("killed", 20),
        ("wide", WIDE),
        ("partitions", PARTITIONS),
        ("seed", 1),
    ):
        parser.add_argument(f"--{name}", type=int, default=count, metavar="N", help="(default: %(default)s)")
    parser.add_argument("--pause", type=float, default=60.0, metavar="SECONDS", help="between kills (default: %(default)s)")
    given = parser.parse_args()
    folder = Path(tempfile.mkdtemp(prefix="soak-fleet-"))
    site = Site(folder, given.postgres, given.partitions)
    workers = Workers(site, random.Random(given.seed))
    plan = Plan(given.workers, given.rounds, given.pause, given.killed, given.wide, given.partitions)
    try:
        counts = asyncio.run(soak(site, workers, plan))
    except Wrong as wrong:
        print(f"wrong: {wrong}; see {folder}", file=sys.stderr)
        return 1
    finally:
        workers.kill(len(workers.living))
        site.remove()
    shutil.rmtree(folder)
    for what, count in sorted(counts.items()):
        print(f"{count:6} {what}")
    return 0


if __name__ == "__main__":
    sys.exit(main())
