#!/usr/bin/python3
"""Changes jobs while clients start, stop and restart them, and kills batchctl and the service meanwhile.

    service/soak_changes.py                               one instance over batchctl's log: 200 changes, 8 clients, 20 kills
    service/soak_changes.py --postgres                    the same over PostgreSQL
    service/soak_changes.py --changes 10 --clients 3 --kills 2

The history is compacted each half a second, and clients purge what has ended. So versions leave the catalogue all the time, and
those that are withdrawn come back.

At the end it compares what clients were answered with the service and with the log: no request is refused for a change, each
restart has the version with which its job instance began, no change that was acknowledged is lost, and each version that
nobody needs has left. It ends with status 1 if anything is otherwise. The program is JOBHOST_BATCHCTL, or the one that this
clone has built.
"""

from __future__ import annotations

import argparse
import asyncio
import os
import random
import shutil
import signal
import sys
import tempfile
import uuid
from collections import Counter
from collections.abc import Awaitable, Callable, Collection
from contextlib import suppress
from dataclasses import dataclass, field
from pathlib import Path
from typing import Any

import aiohttp

sys.path.insert(0, str(Path(__file__).resolve().parent))
sys.path.insert(0, str(Path(__file__).resolve().parent / "tests"))

from instances import Answer, Caller, Process  # noqa: E402
from job_versions import job_file, write_jobs  # noqa: E402
from postgres_server import PostgresServer, children_of  # noqa: E402
from soak_check import Wrong  # noqa: E402

from job_host.commands.program import find_batchctl  # noqa: E402

CHANGES, CLIENTS, KILLS = 200, 8, 20
NAMES = ("nightly", "weekly", "short")
PASSING = (408, 429, 503)
# A stop or a purge may come too late, or too early, and a claim may find nothing.
MAY_BE_LATE = ("JobExecutionNotRunningException", "JobExecutionIsRunningException", "NotClaimer")
SERVICE = Path(__file__).resolve().with_name("soak_changes_service.py")
LONGEST = 120.0
LEAVING_SECONDS = 20.0


@dataclass(frozen=True)
class Started:
    """An acknowledged start or restart: the version that it was told, and those that it may have."""

    execution: int
    instance: int
    job: str
    version: int
    least: int
    most: int


@dataclass
class Seen:
    """What clients were answered. `applied` has the newest version of each job that was acknowledged, and its file."""

    starts: list[Started] = field(default_factory=list)
    restarts: list[Started] = field(default_factory=list)
    claims: list[tuple[int, str, int, str]] = field(default_factory=list)
    files: dict[tuple[str, int], str] = field(default_factory=dict)
    applied: Counter[str] = field(default_factory=lambda: Counter(dict.fromkeys(NAMES, 1)))
    asked: Counter[str] = field(default_factory=lambda: Counter(dict.fromkeys(NAMES, 1)))
    answers: Counter[str] = field(default_factory=Counter)
    withdrawn: set[str] = field(default_factory=set)
    # The job instances that were purged, or may have been.
    purged: set[int] = field(default_factory=set)


class Part:
    """The service, over a log or over PostgreSQL, in a process of its own."""

    def __init__(self, folder: Path, over_postgres: bool) -> None:
        self.folder = folder
        self.jobs = write_jobs(folder / "jobs", **dict.fromkeys(NAMES, "1"))
        self.data = folder / "data"
        self.server = PostgresServer.make() if over_postgres else None
        words = ["--jobs", str(self.jobs), "--batchctl", find_batchctl(None)[0], "--lease", "60"]
        if self.server is not None:
            self.server.start()
            words += ["--postgres", self.server.dsn, "--takeover-after", "1"]
        else:
            words += ["--data", str(self.data)]
        self.service = Process(folder / "service.log", *words)
        self.service.words[1] = str(SERVICE)

    async def begin(self) -> None:
        self.service.start()
        await self.service.until_role("leader")

    def batchctl(self) -> int | None:
        """The batchctl that the service has started last."""
        children = children_of(self.service.number)
        return children[-1] if children else None

    async def kill(self, chance: random.Random) -> str:
        """Kills batchctl, or the service, which is started again."""
        if chance.random() < 0.5:
            number = self.batchctl()
            with suppress(ProcessLookupError):
                if number is not None:
                    os.kill(number, signal.SIGKILL)
            return "batchctl"
        self.service.kill()
        await self.begin()
        return "service"

    def remove(self) -> None:
        self.service.kill()
        if self.server is not None:
            self.server.remove()


class Client:
    """One client: it asks by a key until it is answered."""

    def __init__(self, name: str, part: Part, seen: Seen, chance: random.Random) -> None:
        self.caller = Caller(part.service.url, name)
        self.part = part
        self.seen = seen
        self.chance = chance

    async def answered(self, what: str, ask: Callable[[str], Awaitable[Answer]]) -> Answer:
        key = uuid.uuid4().hex
        async with asyncio.timeout(LONGEST):
            while True:
                try:
                    answer = await ask(key)
                    if answer.status not in PASSING:
                        break
                    self.seen.answers[f"{answer.name}, and asked again"] += 1
                except (aiohttp.ClientError, OSError):
                    self.seen.answers["no answer, and asked again"] += 1
                await asyncio.sleep(0.1)
        self.seen.answers[what] += 1
        if answer.status >= 400 and answer.name not in (*MAY_BE_LATE, "JobWithdrawn"):
            raise Wrong(f"{what} is refused: {answer}")
        return answer


class Starter(Client):
    """Starts jobs, runs what it claims, stops some, and restarts or purges what is FAILED or STOPPED of its own."""

    def __init__(self, *given: Any) -> None:
        super().__init__(*given)
        self._own: dict[int, Started] = {}

    async def run(self, is_over: asyncio.Event) -> None:
        while not is_over.is_set():
            await self.chance.choice([self._start, self._work, self._work, self._stop, self._restart, self._purge])()

    async def _start(self) -> None:
        job, least = self.chance.choice(NAMES), dict(self.seen.applied)
        was_withdrawn = job in self.seen.withdrawn
        answer = await self.answered("start", lambda key: self.caller.start(job, key, day="d"))
        if answer.status == 201:
            self._note(self.seen.starts, answer, job, least[job], self.seen.asked[job])
        elif not was_withdrawn and job not in self.seen.withdrawn:
            raise Wrong(f"a start of {job} is refused, which nobody withdrew: {answer}")

    def _note(self, made: list[Started], answer: Answer, job: str, least: int, most: int) -> None:
        told = answer.told
        one = Started(told["executionId"], told["instanceId"], job, told.get("version", 1), least, most)
        made.append(one)
        self._own[one.execution] = one

    async def _work(self) -> None:
        answer = await self.answered("claim", lambda key: self.caller.claim(key=key))
        if "work" not in answer.told:
            return
        which = answer.told["properties"]["batchlet"]["which"]
        self.seen.claims.append((answer.told["instanceId"], answer.told["jobName"], answer.told.get("version", 1), which))
        path = f"/batch/work/{answer.told['work']['work']}?action=finish"
        body = {"outcome": "FAILED" if self.chance.random() < 0.7 else "COMPLETED"}
        await self.answered("finish", lambda key: self.caller.ask("PUT", path, body, key))

    async def _stop(self) -> None:
        if self._own:
            execution = self.chance.choice(list(self._own))
            await self.answered("stop", lambda key: self.caller.change(execution, "stop", key))

    async def _restart(self) -> None:
        if not self._own:
            return
        execution, one = self.chance.choice(list(self._own.items()))
        told = await self.answered("read", lambda key: self.caller.ask("GET", f"/batch/jobexecutions/{execution}"))
        if told.told["batchStatus"] in ("FAILED", "STOPPED"):
            del self._own[execution]
            answer = await self.answered("restart", lambda key: self.caller.change(execution, "restart", key))
            self._note(self.seen.restarts, answer, one.job, one.version, one.version)

    async def _purge(self) -> None:
        """Purges a job instance of its own, if its newest job execution has ended."""
        if not self._own:
            return
        execution, one = self.chance.choice(list(self._own.items()))
        told = await self.answered("read", lambda key: self.caller.ask("GET", f"/batch/jobexecutions/{execution}"))
        if told.told["batchStatus"] in ("COMPLETED", "FAILED", "STOPPED"):
            del self._own[execution]
            self.seen.purged.add(one.instance)
            path = f"/batch/jobinstances/{one.instance}"
            await self.answered("purge", lambda key: self.caller.ask("DELETE", path, key=key))


class Changer(Client):
    """Changes jobs, by calls and by the folder, and withdraws some for a while."""

    async def change(self) -> None:
        job = self.chance.choice(NAMES)
        self.seen.asked[job] += 1
        version = self.seen.asked[job]
        text = job_file(str(version), job)
        if self.chance.random() < 0.3:
            await self._by_folder(job, version, text)
        else:
            answer = await self.answered("apply", lambda key: self.caller.apply(job, text, key))
            if answer.told != {"jobName": job, "version": version, "changed": True}:
                raise Wrong(f"version {version} of {job} was applied, and is answered {answer}")
        self.seen.files[job, version] = text
        self.seen.applied[job] = version
        self.seen.withdrawn.discard(job)
        if self.chance.random() < 0.2:
            await self._withdraw(self.chance.choice(NAMES))

    async def _by_folder(self, job: str, version: int, text: str) -> None:
        """A file is another one, and the service reads its folder again. A service that was killed does that as it begins."""
        if job in self.seen.withdrawn:
            await self._bring_back(job)
        (self.part.jobs / f"{job}.xml").write_text(text)
        async with asyncio.timeout(LONGEST):
            while await self._newest(job) < version:
                self.part.service.signal(signal.SIGHUP)
                await asyncio.sleep(0.2)
        self.seen.answers["SIGHUP"] += 1

    async def _newest(self, job: str) -> int:
        answer = await self.answered("versions", lambda key: self.caller.ask("GET", f"/batch/jobs/{job}/versions"))
        return int(answer.told["version"])

    async def _withdraw(self, job: str) -> None:
        self.seen.withdrawn.add(job)
        await self.answered("withdraw", lambda key: self.caller.ask("DELETE", f"/batch/jobs/{job}", key=key))
        if self.chance.random() < 0.5:
            await self._bring_back(job)

    async def _bring_back(self, job: str) -> None:
        text = self.seen.files.get((job, self.seen.applied[job]), job_file("1", job))
        answer = await self.answered("apply again", lambda key: self.caller.apply(job, text, key))
        if answer.told["version"] != self.seen.applied[job]:
            raise Wrong(f"{job} was brought back as version {self.seen.applied[job]}, and is answered {answer}")
        self.seen.withdrawn.discard(job)


async def soak(part: Part, changes: int, clients: int, kills: int, seed: int) -> Seen:
    """Changes so many times, while so many clients go on, and kills so often."""
    chance, seen, is_over = random.Random(seed), Seen(), asyncio.Event()
    await part.begin()
    starters = [Starter(f"client-{number}", part, seen, random.Random(seed + number)) for number in range(clients)]
    running = [asyncio.create_task(one.run(is_over)) for one in starters]
    changer = Changer("changer", part, seen, chance)
    when = sorted(chance.sample(range(changes), kills))
    try:
        for number in range(changes):
            killing = asyncio.create_task(part.kill(chance)) if number in when else None
            await changer.change()
            if killing is not None:
                seen.answers[f"killed {await killing}"] += 1
            if any(one.done() for one in running):
                break
    finally:
        is_over.set()
        await asyncio.gather(*running)
    await check(part, seen)
    return seen


async def check(part: Part, seen: Seen) -> None:
    """Compares what clients were answered with what the service tells, also after it has begun again."""
    part.service.kill()
    await part.begin()
    caller = Caller(part.service.url, "checker")
    began: dict[int, int] = {}
    for one in (*seen.starts, *seen.restarts):
        await check_begun(one, began, seen.purged, caller)
    executions = [one.execution for one in (*seen.starts, *seen.restarts)]
    if len(set(executions)) < len(executions):
        raise Wrong("two calls were told of one job execution")
    check_claims(seen, began)
    await check_versions(part, seen, caller)
    check_files(part, seen)
    await check_left(seen, caller)


async def check_begun(one: Started, began: dict[int, int], purged: Collection[int], caller: Caller) -> None:
    """A job execution is there as it was told unless it was purged, and has the version with which its job instance began."""
    if not one.least <= one.version <= one.most:
        raise Wrong(f"{one} has another version")
    if began.setdefault(one.instance, one.version) != one.version:
        raise Wrong(f"{one} has another version than its job instance, which began with {began[one.instance]}")
    answer = await caller.ask("GET", f"/batch/jobexecutions/{one.execution}")
    if one.instance in purged:
        if answer.status != 404:
            raise Wrong(f"{one} was purged, and the service tells {answer}")
        return
    told = answer.told
    if (told.get("jobName"), told.get("version", 1), told.get("instanceId")) != (one.job, one.version, one.instance):
        raise Wrong(f"{one} was acknowledged, and the service tells {told}")


def check_claims(seen: Seen, began: dict[int, int]) -> None:
    """Each work item was handed the properties of its own version."""
    for instance, job, version, which in seen.claims:
        if which != f"{version} of d" or began.get(instance, version) != version:
            raise Wrong(f"a work item of job instance {instance}, {job} {version}, was handed the properties of {which}")


async def check_versions(part: Part, seen: Seen, caller: Caller) -> None:
    """Each version is there once, and what was withdrawn is."""
    for job in NAMES:
        told = (await caller.ask("GET", f"/batch/jobs/{job}/versions")).told
        versions = sorted(one["version"] for one in told["changes"] if one["action"] == "apply")
        if versions != list(range(1, seen.applied[job] + 1)):
            raise Wrong(f"{job} has the versions {versions}, and {seen.applied[job]} were acknowledged")
        if told["withdrawn"] != (job in seen.withdrawn):
            raise Wrong(f"{job}: {told['withdrawn']=}")


async def check_left(seen: Seen, caller: Caller) -> None:
    """Behind a compaction the catalogue has the versions of job instances that are there, and those that can be started."""
    can_start = [job for job in NAMES if job not in seen.withdrawn]
    if not can_start:
        return
    if (await caller.start(can_start[0])).status != 201:
        raise Wrong(f"{can_start[0]} can't be started")
    there = {(one.job, one.version) for one in (*seen.starts, *seen.restarts) if one.instance not in seen.purged}
    needed, found = there | {(job, seen.applied[job]) for job in can_start}, await versions_in(seen, caller)
    with suppress(asyncio.TimeoutError):
        async with asyncio.timeout(LEAVING_SECONDS):
            while found != needed:
                await asyncio.sleep(0.2)
                found = await versions_in(seen, caller)
    if found != needed:
        raise Wrong(f"the catalogue has {sorted(found - needed)}, which nobody needs, and lacks {sorted(needed - found)}")
    seen.answers["versions that left the catalogue"] = sum(seen.applied.values()) - len(found)


async def versions_in(seen: Seen, caller: Caller) -> set[tuple[str, int]]:
    """The versions of the catalogue."""
    every = [(job, version) for job in NAMES for version in range(1, seen.applied[job] + 1)]
    asked = [await caller.ask("GET", f"/batch/catalogue?jobName={job}&version={version}") for job, version in every]
    return {one for one, answer in zip(every, asked, strict=True) if answer.status == 200}


def check_files(part: Part, seen: Seen) -> None:
    """On one machine each version's file is there as it was applied."""
    for (job, version), text in seen.files.items() if part.server is None else ():
        if (part.data / "jobs" / f"{job}@{version}.xml").read_text() != text:
            raise Wrong(f"the file of {job} {version} isn't the one that was applied")


def main() -> int:
    parser = argparse.ArgumentParser(description=__doc__, formatter_class=argparse.RawDescriptionHelpFormatter)
    parser.add_argument("--postgres", action="store_true", help="over PostgreSQL (default: over batchctl's log)")
    for name, count in (("changes", CHANGES), ("clients", CLIENTS), ("kills", KILLS), ("seed", 1)):
        parser.add_argument(f"--{name}", type=int, default=count, metavar="N", help="(default: %(default)s)")
    given = parser.parse_args()
    folder = Path(tempfile.mkdtemp(prefix="soak-changes-"))
    part = Part(folder, given.postgres)
    try:
        seen = asyncio.run(soak(part, given.changes, given.clients, given.kills, given.seed))
    except Wrong as wrong:
        print(f"wrong: {wrong}; see {folder}", file=sys.stderr)
        return 1
    finally:
        part.remove()
    shutil.rmtree(folder)
    print(f"{len(seen.starts)} starts, {len(seen.restarts)} restarts, {len(seen.claims)} claims, {len(seen.files)} versions")
    for what, count in sorted(seen.answers.items()):
        print(f"{count:6} {what}")
    return 0


if __name__ == "__main__":
    sys.exit(main())
