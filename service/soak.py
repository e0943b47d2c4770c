#!/usr/bin/python3
"""Harms parts of the service at random while clients and workers work, and compares everything with a replay of the log.

    service/soak.py postgres --kills 200      two instances over one PostgreSQL server
    service/soak.py standby --kills 20        the same over a primary and a standby, which is promoted if the primary is killed
    service/soak.py embedded --kills 200      one instance over batchctl's log
    service/soak.py embedded --only store     a kind of fault alone (soak_faults.py has them)
    service/soak.py embedded --queues         each of these with three queues, and a job in each

It prints what it harmed and what it compared, and ends with status 1 if anything is otherwise than it has to be. The program is
JOBHOST_BATCHCTL, or the one that this clone has built.
"""

from __future__ import annotations

import argparse
import asyncio
import json
import random
import shutil
import sys
import tempfile
import time
import uuid
from collections import Counter
from collections.abc import Awaitable, Callable, Iterable, Sequence
from dataclasses import dataclass
from itertools import islice
from pathlib import Path
from typing import Any

import aiohttp

sys.path.insert(0, str(Path(__file__).resolve().parent))
sys.path.insert(0, str(Path(__file__).resolve().parent / "tests"))

from instances import ANSWER_SECONDS, READY_SECONDS, Answer, Caller, Process  # noqa: E402
from postgres_server import PostgresServer  # noqa: E402
from soak_check import Acknowledged, Lost, Operation, Read, Seen, Wrong, check  # noqa: E402
from soak_faults import KINDS, Faults  # noqa: E402
from soak_proxy import Proxy  # noqa: E402
from soak_queues import QUEUES, data_of, queue_of_job, queues_file, tables_of, with_queues, write_jobs  # noqa: E402
from soak_scene import SLOW_SECONDS, write_scene  # noqa: E402
from workers import WorkerProcess  # noqa: E402

from job_host.catalogue.jobs import read_file  # noqa: E402
from job_host.commands.program import find_batchctl  # noqa: E402
from job_host.protocol.seen import NOTHING, both, in_queue, read_seen, written  # noqa: E402
from job_host.protocol.seen import Seen as Operations  # noqa: E402
from job_host.service.history import log_file  # noqa: E402
from job_host.service.history.tags import read_tag  # noqa: E402
from job_host.service.ids import inside  # noqa: E402

CLIENTS, WORKERS, SLOTS = 8, 4, 2
TAKEOVER, LEASE = 1.0, 3.0
# So many of its job executions a client leaves unfinished: else they would only grow in number, and few could be restarted.
MOST_OPEN = 8
# So long nothing may end before job executions count as hanging.
QUIET_SECONDS = 120.0
UNFINISHED = {"STARTING", "STARTED", "STOPPING"}
SERVICE = Path(__file__).resolve().with_name("soak_service.py")
COUNTED = """#!/bin/sh
cd FOLDER || exit 9
echo "$BATCH_WORK" >> begun
if [ -e leaves ]; then
    echo "$BATCH_WORK" >> left
    (sleep 8; echo "$BATCH_WORK" >> late) &
    setsid sh -c 'sleep 8; echo "$BATCH_WORK" >> late' &
fi
sleep "0.$((BATCH_WORK % 4))"
[ $((BATCH_WORK % 7)) = 0 ] && exit 1
echo "$BATCH_WORK" >> ended
echo DONE
"""


def step(name: str, **more: Any) -> dict[str, Any]:
    return {"kind": "step", "id": name, "batchlet": {"ref": "counted"}, **more}


JOBS = [
    {"id": "one", "elements": [step("a")]},
    {"id": "three", "elements": [step("a", next="b"), step("b", next="c"), step("c")]},
    {"id": "wide", "elements": [step("a", partitions=3)]},
]


class Parts:
    """All processes of a soak. Each worker has a folder of its own, and what artifacts note is in one folder.

    With a slowness of 2 everything may take twice as long. With `has_queues` each of the jobs has a queue of its own.
    """

    jobs = JOBS
    executables = {"counted": COUNTED}

    has_queues = False

    def __init__(self, mode: str, folder: Path, slowness: float = 1.0, worker_count: int = WORKERS) -> None:
        self.mode = mode
        self.folder = folder
        self.slowness = slowness
        self.worker_count = worker_count
        self.takeover = TAKEOVER
        self.artifacts = folder / "artifacts"
        self.batchctl = find_batchctl(None)
        self.catalogue = folder / "catalogue.json"
        self.servers: list[PostgresServer] = []
        self.services: list[Process] = []
        self.dead: list[Process] = []
        # The ways to the instances, and all ways: also those from each instance to each server.
        self.proxies: list[Proxy] = []
        self.ways: list[Proxy] = []
        self.workers: list[WorkerProcess] = []
        # How many operations each queue had at each loss of the SQLite files, and how often a folder of artifacts was lost.
        self.stores_lost: list[list[int]] = []
        self.folders_lost = 0
        # When which faults began and ended.
        self.faults: list[str] = []

    @property
    def living(self) -> list[Process]:
        return [service for service in self.services if service not in self.dead]

    def prepare(self) -> None:
        self.prepare_artifacts()
        self.catalogue.write_text(json.dumps({"jobs": self.jobs}))
        if self.has_queues:
            write_jobs(self.folder / "jobs", self.jobs)
        if self.mode != "embedded":
            self.servers.append(PostgresServer.make())
            self.servers[0].start()
        if self.mode == "standby":
            self.servers.append(self.servers[0].make_standby())
            self.servers[0].replicate_by_one()
        count = 1 if self.mode == "embedded" else 2
        self.services = [Process(self.folder / f"service-{number}.log", *self.words()) for number in range(count)]
        for service in self.services:
            service.words[1:2] = self.program()
            service.words += ["--advertise", self.way_to(service)]
            service.start()
        self.workers = [self.new_worker(place) for place in range(self.worker_count)]

    def prepare_artifacts(self) -> None:
        self.artifacts.mkdir()
        for name in ("begun", "ended", "left", "late"):
            (self.artifacts / name).touch()
        for place in range(self.worker_count):
            self.folder_of(place).mkdir()
            for name, text in self.executables.items():
                artifact = self.folder_of(place) / name
                artifact.write_text(text.replace("FOLDER", str(self.artifacts)))
                artifact.chmod(0o755)

    def program(self) -> list[str]:
        """The program of an instance, with the words ahead of those of `jobhost`."""
        return [str(SERVICE)]

    def words(self) -> list[str]:
        """The words of an instance, but for its own addresses."""
        words = ["--catalogue", str(self.catalogue)]
        if self.has_queues:
            words = ["--jobs", str(self.folder / "jobs"), "--queues", str(queues_file(self.folder))]
        words += ["--batchctl", self.batchctl[0], "--takeover-after", str(TAKEOVER), "--lease", str(LEASE)]
        if self.mode == "embedded":
            return [*words, "--data", str(self.folder / "data")]
        for server in self.servers:
            words += ["--postgres", self.dsn_to(server)]
        return words

    def way_to(self, service: Process) -> str:
        """The URL at which everybody calls an instance."""
        self.proxies.append(Proxy(service.port))
        self.ways.append(self.proxies[-1])
        return self.proxies[-1].url

    def dsn_to(self, server: PostgresServer) -> str:
        """By what an instance calls a server."""
        self.ways.append(Proxy(server.port))
        return server.dsn.replace(f":{server.port}/", f":{self.ways[-1].port}/")

    @property
    def urls(self) -> list[str]:
        """The URLs of all instances."""
        return [proxy.url for proxy in self.proxies]

    def folder_of(self, place: int) -> Path:
        """The folder of a worker's artifacts."""
        return self.folder / f"worker-{place}"

    @property
    def queues(self) -> range:
        """The numbers of the queues."""
        return range(len(QUEUES) if self.has_queues else 1)

    def new_worker(self, place: int) -> WorkerProcess:
        more = ["--queues", with_queues(place)] if self.has_queues else []
        return WorkerProcess(",".join(self.urls), self.folder_of(place), SLOTS, more)

    def lose_store(self) -> None:
        """Takes the SQLite files from a service that is dead. Notes how many operations the closed logs have."""
        for path in (self.folder / "data").rglob("beside.sqlite*"):
            path.unlink()
        self.stores_lost.append([len(records_of_log(self, queue)) for queue in self.queues])

    async def until_ready(self) -> None:
        try:
            await asyncio.gather(*(self.until_role(service, "leader", "follower") for service in self.services))
        except TimeoutError as fault:
            raise Wrong("an instance neither leads nor follows") from fault

    @property
    def answer_seconds(self) -> float:
        return ANSWER_SECONDS * self.slowness

    @property
    def unanswered(self) -> str:
        return f"was neither answered nor ended for {self.answer_seconds:g} seconds"

    async def until_role(self, service: Process, *roles: str) -> None:
        await service.until_role(*roles, seconds=READY_SECONDS * self.slowness)

    def stop(self) -> None:
        for worker in self.workers:
            worker.stop()
        for service in self.services:
            service.kill()

    def remove(self) -> None:
        self.stop()
        for server in self.servers:
            server.remove()
        shutil.rmtree(self.folder, ignore_errors=True)


class SoakClient:
    """One client: one call at a time, each asked again by its key until it is answered."""

    def __init__(self, name: str, parts: Parts, seen: Seen, chance: random.Random, ending: asyncio.Event) -> None:
        self._name = name
        self._parts = parts
        self._seen = seen
        self._chance = chance
        self._ending = ending
        self._least: Operations = NOTHING
        self._known: list[int] = []
        self._open: list[int] = []
        self._calls: list[tuple[str, str, Any, str, Answer, int]] = []

    async def run(self) -> None:
        while not self._ending.is_set():
            await self._choose()()
            await asyncio.sleep(self._chance.random() * 0.05)

    def _choose(self) -> Callable[[], Awaitable[None]]:
        acts = [self._start, self._read, self._restart, self._stop, self._ask_again]
        return self._chance.choices(acts, [4, 4, 2, 1, 1])[0]

    async def _start(self) -> None:
        if await self._has_room():
            await self.start()

    async def start(self) -> None:
        job = self._chance.choice(["one", "three", "wide"])
        body = {"jobName": job, "jobParameters": {"night": str(self._chance.randrange(9))}}
        answer = await self._call(
            "start", "POST", "/batch/jobinstances", body, {"job": job, "parameters": body["jobParameters"]}
        )
        if answer.status == 201:
            self._begun(answer.told["executionId"])

    async def _restart(self) -> None:
        if self._known and await self._has_room():
            execution = self._chance.choice(self._known)
            path = f"/batch/jobexecutions/{execution}?action=restart"
            answer = await self._call("restart", "PUT", path, None, {"execution": execution})
            if answer.status == 200:
                self._begun(answer.told["executionId"])

    def _begun(self, execution: int) -> None:
        self._known.append(execution)
        self._open.append(execution)

    async def _has_room(self) -> bool:
        """Whether the client may have one more unfinished job execution. If it has too many, it looks at the oldest."""
        if len(self._open) < MOST_OPEN:
            return True
        answer = await self._read_execution(self._open[0])
        if answer.told.get("batchStatus") in UNFINISHED:
            return False
        self._open.pop(0)
        return True

    async def _stop(self) -> None:
        if self._known:
            execution = self._chance.choice(self._known)
            await self._call("stop", "PUT", f"/batch/jobexecutions/{execution}?action=stop", None, {"execution": execution})

    async def _call(self, do: str, method: str, path: str, body: Any, members: dict[str, Any]) -> Answer:
        key, stores_lost = uuid.uuid4().hex, len(self._parts.stores_lost)
        answer = await self._until_answered(method, path, body, key)
        queue = self._queue_of(members)
        seen = in_queue(seen_by(answer), queue)
        self._seen.calls.append(Acknowledged(self._name, key, do, members, answer.status, answer.told, seen, queue))
        self._calls.append((method, path, body, key, answer, stores_lost))
        self._least = both(self._least, seen_by(answer))
        return answer

    def _queue_of(self, members: dict[str, Any]) -> int:
        """The queue of a call: that of its job, or of its job execution."""
        if "execution" in members:
            return inside(members["execution"]).queue
        return queue_of_job(members["job"]) if self._parts.has_queues else 0

    async def _ask_again(self) -> None:
        """Asks once more by a key that was answered: it has to be the first reply.

        After a loss of the SQLite file the keys of refused calls are unknown, so that this may be a new operation.
        """
        if self._calls:
            method, path, body, key, before, stores_lost = self._chance.choice(self._calls)
            answer = await self._until_answered(method, path, body, key)
            if before.status >= 400 and len(self._parts.stores_lost) > stores_lost:
                return
            if (answer.status, answer.told, answer.seen) != (before.status, before.told, before.seen):
                raise Wrong(f"{self._name}, {key}: first {before}, then {answer}")

    async def _read(self) -> None:
        await self._read_execution(self._chance.choice(self._known) if self._known else 1)

    async def _read_execution(self, execution: int) -> Answer:
        least = self._least
        path, queue = f"/batch/jobexecutions/{execution}?atLeast={written(least)}", inside(execution).queue
        answer = await self._until_answered("GET", path, None, None)
        seen = in_queue(seen_by(answer), queue), in_queue(least, queue)
        self._seen.reads.append(Read(self._name, execution, answer.status, answer.told, *seen, queue))
        self._least = both(self._least, seen_by(answer))
        return answer

    async def _until_answered(self, method: str, path: str, body: Any, key: str | None) -> Answer:
        while True:
            try:
                answer = await self._ask(method, path, body, key)
                if answer.status not in (408, 429, 503):
                    if answer.status in (400, 401, 403, 500):
                        raise Wrong(f"{method} {path} is answered {answer}")
                    return answer
            except (aiohttp.ClientError, OSError) as fault:
                # The caller gave up. No fault holds a call that long.
                if type(fault) is TimeoutError and fault.errno is None:
                    raise Wrong(f"{method} {path} with the key {key} {self._parts.unanswered}") from fault
            await asyncio.sleep(0.1)

    async def _ask(self, method: str, path: str, body: Any, key: str | None) -> Answer:
        """Asks once. Long before the caller gives up, what there is to see is written."""
        caller = self._caller()
        watching = asyncio.create_task(self._watch(f"{self._name}: {method} {caller.url}{path} with the key {key}"))
        try:
            return await caller.ask(method, path, body, key)
        finally:
            watching.cancel()

    def _caller(self) -> Caller:
        """Whoever asks once."""
        return Caller(self._chance.choice(self._parts.urls), self._name, seconds=self._parts.answer_seconds)

    async def _watch(self, called: str) -> None:
        seconds = SLOW_SECONDS * self._parts.slowness
        await asyncio.sleep(seconds)
        await write_scene(self._parts, f"{called} isn't answered for {seconds:g} seconds")


def seen_by(answer: Answer) -> Operations:
    """How many operations of each queue an answer saw."""
    return read_seen(answer.seen) if answer.seen else NOTHING


async def operations_of(parts: Parts, queue: int = 0) -> list[Operation]:
    """The whole history of a queue, as it was kept."""
    if parts.mode != "embedded":
        import asyncpg

        table = await asyncpg.connect(tables_of(parts.servers[0].dsn, queue))
        rows = await table.fetch("select number, line, reply, request_key from job_host_operation order by number")
        await table.close()
        return [Operation(row["number"], row["line"].encode(), row["reply"].encode(), row["request_key"]) for row in rows]
    return operations_of_log(parts, queue)


def records_of_log(parts: Parts, queue: int = 0) -> list[log_file.LogRecord]:
    records = log_file.records(data_of(parts.folder / "data", queue) / "history.log")
    return [record for record in records if record.is_operation]


def operations_of_log(parts: Parts, queue: int = 0) -> list[Operation]:
    """The log's lines with the replies of a replay, and with their keys."""
    import subprocess

    records = records_of_log(parts, queue)
    script = b"\n".join([read_file(parts.catalogue), *(record.line for record in records)]) + b"\n"
    replies = subprocess.run([*parts.batchctl, "script"], input=script, capture_output=True, check=True).stdout.splitlines()
    tags = [read_tag(record.tag) for record in records]
    told = enumerate(zip(records, replies, tags, strict=True), 1)
    return [Operation(number, record.line, reply, tag.key if tag else None) for number, (record, reply, tag) in told]


async def until_quiet(parts: Parts, least: int | Operations) -> int:
    """Waits until no job execution is unfinished, as long as their number changes. Returns how many operations that saw.

    So many it sees at least. One that lags may know neither what was started last nor what was restarted.
    """
    before: dict[str, int] = {}
    changed, at_least = time.monotonic(), written(least) if isinstance(least, tuple) else str(least)
    while time.monotonic() < changed + QUIET_SECONDS * parts.slowness:
        for service in parts.services:
            try:
                answer = await Caller(service.url).ask("GET", f"/batch/jobs?atLeast={at_least}")
                counts = answer.told["statusCounts"]
            except (aiohttp.ClientError, KeyError, OSError):
                continue
            if not counts.keys() & UNFINISHED:
                return answer.operations or 0
            if counts != before:
                before, changed = counts, time.monotonic()
        await asyncio.sleep(0.5)
    told = f"no job execution ended for {QUIET_SECONDS * parts.slowness:g} seconds"
    raise Wrong(f"{told}, and some are unfinished: {before}")


@dataclass(frozen=True)
class Plan:
    """How many faults there are, of which kinds, and for how long at most. By one seed the same ones are chosen."""

    kills: int
    seed: int
    only: Sequence[str] = ()
    most_seconds: float = 3_600.0
    clients: int = CLIENTS


async def soak(parts: Parts, plan: Plan, names: Iterable[str] | None = None) -> tuple[Seen, Counter[str]]:
    """Lets clients and workers work under faults. Returns all that clients were answered, and the number of faults by kind."""
    try:
        return await work_under_faults(parts, plan, names)
    except Wrong as wrong:
        await write_scene(parts, str(wrong))
        raise


async def work_under_faults(parts: Parts, plan: Plan, names: Iterable[str] | None) -> tuple[Seen, Counter[str]]:
    chance, seen, ending = random.Random(plan.seed), Seen(), asyncio.Event()
    passing = [asyncio.create_task(proxy.run()) for proxy in parts.ways]
    await parts.until_ready()
    clients = [
        SoakClient(f"client-{number}", parts, seen, random.Random(chance.random()), ending) for number in range(plan.clients)
    ]
    desk = SoakClient("desk", parts, seen, random.Random(chance.random()), ending)
    await desk.start()
    running = [asyncio.create_task(client.run()) for client in clients]
    faults, deadline = Faults(parts, chance, desk.start), time.monotonic() + plan.most_seconds
    for name in islice(names or faults.names(plan.only), plan.kills):
        await asyncio.sleep(0.2 + chance.random() * 0.8)
        await faults.make(name)
        for task in [*running, *passing]:
            if task.done():
                task.result()
        if time.monotonic() > deadline:
            break
    await faults.end()
    await parts.until_ready()
    await asyncio.sleep(1.0)
    ending.set()
    await until_answered(parts, running)
    most = [max((call.operations for call in seen.calls if call.queue == one), default=0) for one in parts.queues]
    await until_quiet(parts, tuple(most))
    parts.stop()
    return seen, faults.made


async def until_answered(parts: Parts, running: Sequence[asyncio.Task[None]]) -> None:
    """Waits until each client has the answer to its last call."""
    _, waiting = await asyncio.wait(running, timeout=QUIET_SECONDS * parts.slowness)
    for task in running:
        if task.done():
            task.result()
    if waiting:
        raise Wrong(f"{len(waiting)} clients weren't answered for {QUIET_SECONDS * parts.slowness:g} seconds")


def compare(parts: Parts, operations: Sequence[Operation], seen: Seen, queue: int = 0) -> dict[str, int]:
    """Raises Wrong if something of a queue is otherwise than it has to be. Returns how much was compared."""
    # A worker whose folder is gone may have claimed for each of its slots before it looked.
    lost = Lost([each[queue] for each in parts.stores_lost], parts.folders_lost * SLOTS)
    return check(parts.batchctl, read_file(parts.catalogue), operations, seen, parts.artifacts, lost, queue)


def compare_all(parts: Parts, seen: Seen) -> dict[str, int]:
    """The same of all queues."""
    told = Counter[str]()
    for queue in parts.queues:
        told.update(compare(parts, asyncio.run(operations_of(parts, queue)), seen, queue))
    return dict(told)


def run(parts: Parts, plan: Plan) -> None:
    parts.prepare()
    seen, made = asyncio.run(soak(parts, plan))
    told = compare_all(parts, seen)
    print(f"killed: {dict(made)}; seed {plan.seed}")
    print("compared: " + ", ".join(f"{count} {what}" for what, count in told.items()))
    if made.total() < plan.kills:
        print(f"the time was over after {made.total()} of {plan.kills} kills")


def main() -> int:
    parser = argparse.ArgumentParser(description=(__doc__ or "").splitlines()[0])
    parser.add_argument("mode", choices=["postgres", "standby", "embedded"])
    parser.add_argument("--kills", type=int, default=20)
    parser.add_argument("--seed", type=int, default=int(time.time()))
    kinds = f"a kind of fault; the option may come several times (default: all of the mode): {', '.join(KINDS)}"
    parser.add_argument("--only", action="append", default=[], choices=KINDS, metavar="KIND", help=kinds)
    parser.add_argument("--most-seconds", type=float, default=3_600.0)
    parser.add_argument("--clients", type=int, default=CLIENTS)
    parser.add_argument("--workers", type=int, default=WORKERS)
    slowness = "how many times as long everything may take, on a machine with other work (default: %(default)g)"
    parser.add_argument("--slowness", type=float, default=1.0, metavar="FACTOR", help=slowness)
    parser.add_argument("--queues", action="store_true", help="three queues, with a job in each (default: one queue)")
    parser.add_argument("--keep", action="store_true", help="leaves the folder with all logs")
    given = parser.parse_args()
    for name in given.only:
        if given.mode not in KINDS[name].modes:
            parser.error(f"{name} is no kind of fault for {given.mode}")
    plan = Plan(given.kills, given.seed, given.only, given.most_seconds, given.clients)
    parts = Parts(given.mode, Path(tempfile.mkdtemp(prefix="jobhost-soak-")), given.slowness, given.workers)
    parts.has_queues = given.queues
    try:
        run(parts, plan)
    except Wrong as wrong:
        print(f"soak: seed {given.seed}: {wrong}", file=sys.stderr)
        return 1
    finally:
        if given.keep:
            parts.stop()
            for server in parts.servers:
                server.remove()
            print(f"kept in {parts.folder}")
        else:
            parts.remove()
    return 0


if __name__ == "__main__":
    sys.exit(main())
