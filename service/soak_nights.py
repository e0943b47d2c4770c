#!/usr/bin/python3
"""Nights of a bank, pressed into minutes, with purges, compactions and kills; at the end nothing may be lost or done twice.

    service/soak_nights.py embedded --nights 30 --kills 200     one instance over batchctl's log
    service/soak_nights.py postgres --nights 30 --kills 200     two instances over one PostgreSQL server

A night has so many job executions: of 5 batchlets, 11 operations each, and each fourth one of a chunk that fails behind one of
its checkpoints. Clients that are simulated claim and report beside worker processes. By the services' clock each night lies on
a day of its own. In its small hours `--keep-days` purges the nights that aren't kept, while some of its job executions still
run, and at noon `--compact-at` compacts the history. What failed is restarted, but for the chunks of the first night: these are
restarted behind the last one. Meanwhile each kind of process is killed as often as any other kind: while a compaction runs,
which is asked for then; while a base is written; while nights are purged; and at any other time of a night.

What is compared:

- The whole history. A base takes the place of the operations before it, so these are gathered before: each file that was the
  log has a hard link, and a trigger keeps the rows that a base deletes from the tables. Together they have each number once.
- Each call that was acknowledged stands there once, with its reply, in its client's order. No request key made two operations.
- A batchctl that is handed all of it, and never has a base, gives each reply that clients were told, and over PostgreSQL each
  that was kept. It gives each read, at its place, and each refusal.
- Job executions, job instances and work items are numbered without a gap. A claim of a chunk has the last checkpoint that was
  reported before. Nothing is purged early, or twice. By the notes of artifacts none ran twice for one work item.
- Behind each night the service tells the job instances that are kept, and none that was purged. At the end, over the last base
  and behind a new start, it tells each job execution that there ever was, and the counts, as the replay does. It tells each
  work item of those that are left, its client and its outcome.
- A request key of the last nights gives its first reply again, and so does that of a start that says once.
- The base and the seconds of a start behind the last night are as behind the first night with as many kept nights.

What isn't compared: logs of work items, who did what (`operations` of a job execution), metrics, events and the archive; keys
that are older than 5 nights; what a power cut leaves. Over PostgreSQL request keys go by the server's clock, which isn't
pressed, so none becomes too old. An operation that nobody was told is compared with the replay, but nobody says that it had to
be there. That a process was killed while a base was written is what was seen just before.

It prints what it harmed and what it compared, and ends with status 1 if anything is otherwise than it has to be. The program
is JOBHOST_BATCHCTL, or the one that this clone has built.
"""

from __future__ import annotations

import argparse
import asyncio
import random
import shutil
import signal
import sys
import tempfile
import time
from collections import Counter
from collections.abc import Sequence
from pathlib import Path
from typing import Any

import aiohttp

sys.path.insert(0, str(Path(__file__).resolve().parent))
sys.path.insert(0, str(Path(__file__).resolve().parent / "tests"))

from instances import READY_SECONDS  # noqa: E402
from soak import until_quiet  # noqa: E402
from soak_check import Operation, Seen, Wrong  # noqa: E402
from soak_faults import Faults  # noqa: E402
from soak_nights_check import (  # noqa: E402
    HEADER,
    KEEP_OPERATIONS,
    History,
    LogPieces,
    State,
    Told,
    check_growth,
    check_history,
    check_resumed,
    check_told,
    compared_night,
    operations_of_tables,
)
from soak_nights_clients import PAGE, Hand, Mender, OnceStarter, Reader, Starter  # noqa: E402
from soak_nights_harm import Harm, Kill, Plan  # noqa: E402
from soak_nights_parts import Calendar, NightParts  # noqa: E402
from soak_scene import write_scene  # noqa: E402

from job_host.catalogue.jobs import read_file  # noqa: E402

STARTERS, WORKERS = 3, 2
# So much of a night is started before its small hours.
BEFORE_SMALL_HOURS = 0.6
# So long a night's purges may take.
PURGE_SECONDS = 120.0
# So long a compaction may take to begin, or it is asked for again.
SOON_SECONDS = 2.0
ATTEMPTS = 20


class Nights:
    """All nights of a soak."""

    def __init__(self, parts: NightParts, plan: Plan) -> None:
        self.parts = parts
        self.plan = plan
        self.seen = Seen()
        self.states: list[State] = []
        self.compared: Counter[str] = Counter()
        # How many operations were before the base behind each night.
        self.bases: list[int] = []
        # The job instances of the first night that go on behind the last one.
        self.waiting: list[int] = []
        self.told = Told([], {}, {})
        self._chance = random.Random(plan.seed)
        self._calendar = Calendar(plan.nights)
        parts.orders.set_clock(self._calendar.evening(1))
        self._ending = asyncio.Event()
        self._by_night = plan.kills_by_night(parts.mode, self._chance)
        self._starters = [self._client(Starter, f"starter-{place}") for place in range(STARTERS)]
        self._desk, self._once = self._client(Starter, "desk"), self._client(OnceStarter, "once")
        self._mender, self._reader = self._client(Mender, "mender"), self._client(Reader, "reader")
        self._hands = [self._client(Hand, f"hand-{place}") for place in range(plan.hands)]
        self.harm = Harm(parts, self._chance, Faults(parts, self._chance, self._desk.start))
        self.pieces = LogPieces(parts.folder / "data" / "history.log", parts.folder / "pieces")
        parts.orders.before = self.pieces.take

    def _client(self, kind: Any, name: str) -> Any:
        return kind(name, self.parts, self.seen, random.Random(self._chance.random()), self._ending)

    async def run(self) -> None:
        try:
            await self._run()
        except BaseExceptionGroup as group:
            wrong = next((one for one in group.exceptions if isinstance(one, Wrong)), None)
            if wrong is None:
                raise
            await write_scene(self.parts, str(wrong))
            raise wrong from group

    async def _run(self) -> None:
        async with aiohttp.ClientSession(connector=aiohttp.TCPConnector(limit=0)) as self.parts.session:
            await self.parts.until_ready()
            if self.parts.mode == "postgres":
                self.parts.servers[0].sql(KEEP_OPERATIONS)
            print(HEADER, flush=True)
            async with asyncio.TaskGroup() as group:
                gathering = group.create_task(self.pieces.watch())
                for one in (*self._hands, self._mender):
                    group.create_task(one.run())
                for night in range(1, self.plan.nights + 1):
                    await self._night(night)
                await self._end()
                self._ending.set()
                gathering.cancel()
        self.parts.stop()
        self.pieces.take()

    async def _night(self, night: int) -> None:
        """A night: its load, purges and kills, and at noon the compaction."""
        kills = self._by_night[night - 1]
        for client in (*self._starters, *self._hands, self._mender, self._desk):
            client.begin_night()
        self.parts.orders.set_clock(self._calendar.evening(night))
        self.compared["starts that say once, asked again"] += await self._once.ask()
        last = next((one for one in kills if one.moment in ("compaction", "base")), None)
        harming = asyncio.create_task(self._harm([one for one in kills if one.moment != "purge" and one is not last]))
        early = round(self.plan.job_executions * BEFORE_SMALL_HOURS)
        await self._load(early)
        self.parts.orders.set_clock(self._calendar.small_hours(night))
        late = asyncio.create_task(self._load(self.plan.job_executions - early))
        for one in (one for one in kills if one.moment == "purge"):
            await self.harm.while_purging(one)
        await asyncio.gather(harming, late)
        await self._until_over()
        if night == 1:
            # One whose worker was lost at the last moment has gone on, and was COMPLETED.
            self.parts.kept_back &= await self._each_failed()
        await self._until_purged(night)
        self.compared["starts that say once, asked again"] += await self._once.ask()
        await self._noon(night, last)

    async def _harm(self, kills: Sequence[Kill]) -> None:
        for one in kills:
            await self.harm.at_any_time(one)

    async def _load(self, count: int) -> None:
        """Starts so many job executions, whose work items are claimed meanwhile."""
        parts = [count // STARTERS + (place < count % STARTERS) for place in range(STARTERS)]
        await asyncio.gather(*(one.night(part) for one, part in zip(self._starters, parts)))

    async def _until_over(self) -> None:
        """Returns after all has ended, and nothing is FAILED that is restarted now.

        Nobody else restarts meanwhile: what is restarted between the two looks is neither unfinished at the first nor FAILED at
        the second, and would end on another day.
        """
        async with self._mender.turn:
            while True:
                self.parts.note_told(await until_quiet(self.parts, self.parts.told))
                if await self._mender.mend() == 0:
                    return

    async def _each_failed(self) -> set[int]:
        """The job instances whose newest job execution is FAILED."""
        told = await self._reader.get_all(f"/batch/jobexecutions?status=FAILED&mostRecent=true&pageSize={PAGE}")
        return {one["instanceId"] for one in told["jobExecutions"]}

    async def _each_newest(self) -> dict[int, str]:
        """The job instances that the service tells, and since when each is in its batch status."""
        found: dict[int, str] = {}
        for page in range(1_000):
            told = await self._reader.get_all(f"/batch/jobexecutions?mostRecent=true&page={page}&pageSize={PAGE}")
            found |= {one["instanceId"]: f"{one['batchStatus']} at {one['lastUpdatedTime']}" for one in told["jobExecutions"]}
            if not told["more"]:
                break
        return found

    async def _until_purged(self, night: int) -> None:
        """Returns after no job instance of an earlier night is there. Those of kept nights have to be."""
        old, kept = set[int](), set[int](self.parts.kept_back)
        for one, instances in self.parts.instances.items():
            (kept if one > night - self.plan.kept else old).update(instances)
        until = time.monotonic() + PURGE_SECONDS * self.parts.slowness
        while True:
            found = await self._each_newest()
            if not kept <= found.keys():
                raise Wrong(f"night {night}: the job instances {sorted(kept - found.keys())} are gone")
            left = {one: found[one] for one in sorted(found.keys() & old - kept)}
            if not left:
                break
            if time.monotonic() > until:
                raise Wrong(f"night {night}: the job instances {left} aren't purged")
            await asyncio.sleep(0.2)
        self.compared["job instances behind a night"] += len(found)

    async def _noon(self, night: int, last: Kill | None) -> None:
        """The compaction of the day, and how long a start takes behind it. What is started from now on is of the next night."""
        self.parts.night = night + 1
        self.parts.orders.set_clock(self._calendar.noon(night))
        if last is not None:
            await self.harm.at_compaction(last)
        base = await self._until_compact(is_due=last is None)
        self.bases.append(base["operations"])
        is_compared = night in (compared_night(self.plan.kept), self.plan.nights)
        turns = self.plan.turns if is_compared else int(self.plan.turns > 1)
        self.states.append(await self._measured(night, turns, base))
        print(self.states[-1], flush=True)

    async def _until_compact(self, is_due: bool) -> Any:
        """Returns what the leader tells of the base, after a compaction was done that has all that there is.

        If none is due, or the one that is due fails, one is asked for.
        """
        for attempt in range(ATTEMPTS):
            await self._until_over()
            if attempt or not is_due:
                self.parts.orders.compact()
            told = await self._compacted()
            if told is not None:
                return told["base"]
        raise Wrong(f"after {ATTEMPTS} attempts the history isn't compacted: {await self._reader.get('/batch/history')}")

    async def _compacted(self) -> Any:
        """What the leader tells of the history after a compaction, if one comes soon, and nothing stands behind it."""
        until = time.monotonic() + SOON_SECONDS * self.parts.slowness
        is_under_way = True
        while is_under_way or time.monotonic() < until:
            told = await self._reader.get("/batch/history")
            is_under_way = told["compaction"] is not None and not told["compaction"]["isOver"]
            if told["role"] == "leader" and not is_under_way and told["base"] is not None and told["base"]["behind"] == 0:
                return told
            await asyncio.sleep(0.05)
        return None

    async def _measured(self, night: int, turns: int, base: Any) -> State:
        """The quickest of some starts over the base. Without one there are no seconds."""
        seconds = [await self._restarted() for _ in range(turns)] or [0.0]
        size, all_size = self._sizes()
        return State(night, base["operations"], base["rows"], size, all_size, min(seconds))

    async def _restarted(self) -> float:
        """Ends all instances, and starts them. Returns how long the first one needs until it leads."""
        for service in self.parts.services:
            service.signal(signal.SIGTERM)
        for service in self.parts.services:
            if await asyncio.to_thread(service.wait, READY_SECONDS * self.parts.slowness) != 0:
                raise Wrong(f"an instance ended by SIGTERM, and has the status of a failure: {service.log[-2_000:]}")
        begun = time.monotonic()
        first, *others = self.parts.services
        first.start()
        while await self.parts.leader() is not first:
            if time.monotonic() > begun + READY_SECONDS * self.parts.slowness:
                raise Wrong(f"an instance that was started doesn't lead: {first.log[-2_000:]}")
            await asyncio.sleep(0.01)
        seconds = time.monotonic() - begun
        for service in others:
            service.start()
        await self.parts.until_ready()
        return seconds

    def _sizes(self) -> tuple[int, int]:
        """The bytes of the base, and of all that is kept."""
        if self.parts.mode == "embedded":
            data = self.parts.folder / "data"
            return (data / "history.log").stat().st_size, sum(path.stat().st_size for path in data.rglob("*") if path.is_file())
        (server,) = self.parts.servers
        base = server.sql("select coalesce(sum(octet_length(bytes)), 0) from job_host_base_part")
        return int(base), int(
            server.sql("select pg_database_size(current_database()) - pg_total_relation_size('soak_operation')")
        )

    async def _end(self) -> None:
        """What failed in the first night goes on. Then the service begins again, and tells all that there is."""
        self.waiting, self.parts.kept_back = sorted(self.parts.kept_back), set()
        await self._until_over()
        await self._restarted()
        newest = (await self._reader.get_all("/batch/jobexecutions?pageSize=1"))["jobExecutions"][0]["executionId"]
        reads = [await self._reader.read(execution) for execution in range(1, newest + 1)]
        items = {read.execution: await self._reader.items(read.execution) for read in reads if read.status == 200}
        self.told = Told(reads, items, (await self._reader.get_all("/batch/jobs"))["statusCounts"])


async def operations_of(parts: NightParts, done: Nights) -> list[Operation]:
    """The whole history, as it was kept before bases took its place."""
    return done.pieces.operations() if parts.mode == "embedded" else await operations_of_tables(parts.servers[0].dsn)


def gathered(parts: NightParts, done: Nights, operations: Sequence[Operation]) -> History:
    return History(operations, done.seen, parts.artifacts, has_replies=parts.mode != "embedded")


async def compare(parts: NightParts, done: Nights) -> dict[str, int]:
    """Raises Wrong if something is otherwise than it has to be. Returns how much was compared."""
    history = gathered(parts, done, await operations_of(parts, done))
    walk, compared = check_history(history, parts.batchctl, read_file(parts.catalogue), parts.kept)
    resumed = check_resumed(walk, done.waiting, done.bases[0], done.bases[-1])
    compared["chunks of the first night that went on behind the last one"] = resumed
    return {**compared, **check_told(done.told, walk, done.seen), **done.compared}


def run(parts: NightParts, plan: Plan) -> None:
    done = Nights(parts, plan)
    parts.prepare()
    asyncio.run(done.run())
    compared = asyncio.run(compare(parts, done))
    growth = check_growth(done.states, plan.kept, parts.slowness)
    print(f"killed: {dict(done.harm.faults.made)}: {dict(done.harm.moments)}; seed {plan.seed}")
    print("compared: " + ", ".join(f"{count} {what}" for what, count in compared.items()))
    print(growth)


def main() -> int:
    parser = argparse.ArgumentParser(description=(__doc__ or "").splitlines()[0])
    parser.add_argument("mode", choices=["embedded", "postgres"])
    for name, count in (("nights", 30), ("job-executions", 100), ("kills", 200), ("kept", 2), ("workers", WORKERS)):
        parser.add_argument(f"--{name}", type=int, default=count, metavar="N", help="(default: %(default)s)")
    parser.add_argument("--seed", type=int, default=int(time.time()))
    slowness = "how many times as long everything may take, on a machine with other work (default: %(default)g)"
    parser.add_argument("--slowness", type=float, default=1.0, metavar="FACTOR", help=slowness)
    parser.add_argument("--keep", action="store_true", help="leaves the folder with all logs")
    given = parser.parse_args()
    plan = Plan(given.nights, given.job_executions, given.kills, given.kept, given.seed)
    folder = Path(tempfile.mkdtemp(prefix="jobhost-nights-"))
    parts = NightParts(given.mode, folder, given.slowness, given.workers, given.kept)
    begun = time.monotonic()
    try:
        run(parts, plan)
    except Wrong as wrong:
        print(f"soak_nights: seed {given.seed}: {wrong}", file=sys.stderr)
        return 1
    finally:
        parts.stop()
        for server in parts.servers:
            server.remove()
        if given.keep:
            print(f"kept in {folder}")
        else:
            shutil.rmtree(folder, ignore_errors=True)
    print(f"{time.monotonic() - begun:.0f} seconds")
    return 0


if __name__ == "__main__":
    sys.exit(main())
