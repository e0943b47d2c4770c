"""The kills of nights that are pressed: which process is killed, and at which moment of a night."""

from __future__ import annotations

import asyncio
import random
import signal
import sys
import time
from collections import Counter
from collections.abc import AsyncIterator
from contextlib import suppress
from dataclasses import dataclass
from pathlib import Path
from typing import Any

import aiohttp

sys.path.insert(0, str(Path(__file__).resolve().parent))
sys.path.insert(0, str(Path(__file__).resolve().parent / "tests"))

from instances import Process  # noqa: E402
from postgres_server import children_of  # noqa: E402
from soak import Parts  # noqa: E402
from soak_faults import Faults, kind, signal_all  # noqa: E402
from soak_nights_parts import BEGIN_SECONDS, WATCH_SECONDS, NightParts  # noqa: E402

# Which kinds are killed in each mode, and when: so many of so many.
KINDS = {"embedded": ("service", "batchctl", "worker"), "postgres": ("service", "batchctl", "making", "postgres", "worker")}
MOMENTS = {"load": 3, "compaction": 3, "base": 2, "purge": 2}
# A base is written in some milliseconds. So often it is looked for that before the service is asked again.
LOOK_SECONDS, LOOKS = 0.001, 20
# What the transaction of a base does to the tables.
PUTS = """
select count(*) from pg_stat_activity where state in ('active', 'idle in transaction') and pid <> pg_backend_pid()
and query ~ '^\\s*(insert into job_host_(base|action)|with part as|delete from job_host_(operation|action))'
"""


@kind("making", modes=())
async def kill_newest_batchctl(parts: Parts, chance: random.Random) -> AsyncIterator[None]:
    """Kills the batchctl that an instance has started last, as the one that makes a base."""
    signal_all(children_of(chance.choice(parts.living).number)[-1:], signal.SIGKILL)
    yield


@dataclass(frozen=True)
class Kill:
    """A process of a kind is killed at some moment of a night."""

    name: str
    moment: str


@dataclass(frozen=True)
class Plan:
    """How many nights there are, of how many job executions, how many of them are kept, and how often something is killed."""

    nights: int
    job_executions: int
    kills: int
    kept: int
    seed: int
    hands: int = 6
    # Of so many starts behind the nights that are compared the quickest one counts. With 2 or more each night has one.
    turns: int = 3

    def kills_by_night(self, mode: str, chance: random.Random) -> list[list[Kill]]:
        """Each kind as often as the others. Their moments and nights are chosen at random."""
        kinds = KINDS[mode]
        names = [kinds[place % len(kinds)] for place in range(self.kills)]
        chance.shuffle(names)
        moments = chance.choices(list(MOMENTS), list(MOMENTS.values()), k=self.kills)
        by_night: list[list[Kill]] = [[] for _ in range(self.nights)]
        for place, one in enumerate(map(Kill, names, moments)):
            by_night[place * self.nights // self.kills].append(one)
        return by_night


class Harm:
    """Kills processes at moments of a night, and notes what was under way."""

    def __init__(self, parts: NightParts, chance: random.Random, faults: Faults) -> None:
        self._parts = parts
        self._chance = chance
        self.faults = faults
        self.moments: Counter[str] = Counter()
        # How long a compaction takes.
        self._usual = 0.3
        self._connection: Any = None
        # Faults come one after the other, also if a purge and the load want one at once.
        self._turn = asyncio.Lock()

    async def at_any_time(self, one: Kill) -> None:
        """A kill of the load: now, or while a compaction runs that is asked for."""
        await asyncio.sleep(self._chance.random())
        if one.moment == "load":
            await self._kill(one.name, None)
        else:
            self._parts.orders.compact()
            await self.at_compaction(one)

    async def at_compaction(self, one: Kill) -> None:
        """A kill while a compaction runs that is due, or while its base is written."""
        leader = await self._until_compacting()
        if leader is not None and one.moment == "base":
            await self._until_written(leader)
        elif leader is not None:
            await asyncio.sleep(self._chance.random() * self._usual)
        await self._kill(one.name, leader)

    async def while_purging(self, one: Kill) -> None:
        """A kill while old nights are purged, if they are soon."""
        until = time.monotonic() + BEGIN_SECONDS * self._parts.slowness
        leader = await self._parts.leader()
        while time.monotonic() < until and not await self._purges_left(leader):
            await asyncio.sleep(0.01)
            leader = await self._parts.leader()
        await asyncio.sleep(self._chance.random() * 0.5)
        await self._kill(one.name, leader)

    async def _purges_left(self, service: Process | None) -> bool:
        """Whether retention is about to purge job instances."""
        if service is not None:
            with suppress(aiohttp.ClientError, asyncio.TimeoutError, OSError):
                told = (await self._parts.caller(service.url, "watch", WATCH_SECONDS).ask("GET", "/metrics")).told
                return any(
                    line.startswith("jobhost_retention_left ") and not line.endswith(" 0.0") for line in told.splitlines()
                )
        return False

    async def _kill(self, name: str, aimed: Process | None) -> None:
        async with self._turn:
            self.moments[await self._under_way(aimed)] += 1
            self._parts.aimed = aimed
            try:
                await self.faults.make(name)
            finally:
                self._parts.aimed = None

    async def _until_compacting(self) -> Process | None:
        """The leader, after it has begun to compact. None if it doesn't soon, as nothing is to be compacted."""
        until = time.monotonic() + BEGIN_SECONDS * self._parts.slowness
        while time.monotonic() < until:
            leader = await self._parts.leader()
            while leader is not None and time.monotonic() < until:
                told = await self.compaction(leader)
                if told is None:
                    break
                if not told["isOver"]:
                    return leader
                if told["failure"] is None:
                    self._usual = max(0.05, told["seconds"])
                await asyncio.sleep(0.005)
            await asyncio.sleep(0.02)
        return None

    async def compaction(self, service: Process) -> Any:
        """The last compaction of an instance, if it tells one."""
        with suppress(aiohttp.ClientError, asyncio.TimeoutError, OSError):
            answer = await self._parts.caller(service.url, "watch", WATCH_SECONDS).ask("GET", "/batch/history")
            return answer.told["compaction"] if answer.status == 200 else None
        return None

    async def _until_written(self, leader: Process) -> None:
        """Returns as a base is written, or after the compaction is over."""
        until = time.monotonic() + BEGIN_SECONDS * self._parts.slowness
        while time.monotonic() < until:
            for _ in range(LOOKS):
                if await self.is_written():
                    return
                await asyncio.sleep(LOOK_SECONDS)
            told = await self.compaction(leader)
            if told is None or told["isOver"]:
                return

    async def is_written(self) -> bool:
        """Whether the log is made anew, or a transaction puts a base into the tables."""
        if self._parts.mode == "embedded":
            return (self._parts.folder / "data" / "history.log.new").exists()
        import asyncpg

        try:
            if self._connection is None or self._connection.is_closed():
                self._connection = await asyncpg.connect(self._parts.servers[0].dsn)
            return bool(await self._connection.fetchval(PUTS))
        except (asyncpg.PostgresError, asyncpg.InterfaceError, OSError):
            return False

    async def _under_way(self, leader: Process | None) -> str:
        told = None if leader is None else await self.compaction(leader)
        if told is not None and not told["isOver"]:
            return "while a base was written" if await self.is_written() else "while a compaction ran"
        return "while nights were purged" if await self._purges_left(leader) else "between"
