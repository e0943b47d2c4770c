"""The processes of nights that are pressed: services by a clock that is set ahead, and workers with trivial artifacts."""

from __future__ import annotations

import asyncio
import sys
import time
from collections.abc import Callable
from contextlib import suppress
from dataclasses import dataclass, field
from datetime import date, datetime, timedelta
from itertools import count
from pathlib import Path

import aiohttp

sys.path.insert(0, str(Path(__file__).resolve().parent))
sys.path.insert(0, str(Path(__file__).resolve().parent / "tests"))

from instances import Caller, KeptCaller, Process  # noqa: E402
from postgres_server import PostgresServer  # noqa: E402
from soak import Parts, step  # noqa: E402

SERVICE = Path(__file__).resolve().with_name("soak_nights_service.py")
NOON = "12:00"
STEPS = 5
WATCH_SECONDS = 2.0
# So long a compaction may take to begin.
BEGIN_SECONDS = 5.0
COUNTED = """#!/bin/sh
cd FOLDER || exit 9
echo "$BATCH_WORK" >> begun
echo "$BATCH_WORK" >> ended
echo DONE
"""
ROWS = """#!/usr/bin/python3 -SE
import json, os, sys
groups, fails, place, bad = int(os.environ["BATCH_PARAMETER_groups"]), int(os.environ["BATCH_PARAMETER_fails"]), 0, -1
for line in sys.stdin:
    told, answer = json.loads(line), {}
    if told["do"] == "open":
        place = 2 * int(told["checkpoint"] or 0)
        bad = 2 * fails if place < 2 * fails else -1
        with open("FOLDER/begun", "a") as begun:
            begun.write(os.environ["BATCH_WORK"] + "\\n")
    elif told["do"] == "read" and place == bad:
        answer = {"fault": "a bad row"}
    elif told["do"] == "read":
        answer = {"item": place + 1} if place < 2 * groups else {"end": True}
        place += "item" in answer
    elif told["do"] == "checkpoint":
        answer = {"checkpoint": str(place // 2)}
    print(json.dumps(answer), flush=True)
"""
TABLE = "#!/bin/sh\nwhile read -r line; do echo '{}'; done\n"
FIVE = [step(f"s{number}", next=f"s{number + 1}") for number in range(1, STEPS)] + [step(f"s{STEPS}")]
CHUNK = {"item-count": 2, "reader": {"ref": "rows"}, "writer": {"ref": "table"}}


class Orders:
    """The file that tells the services how far their clock is ahead, and how many compactions were asked for.

    `before` is called before each change: a compaction may follow.
    """

    def __init__(self, path: Path) -> None:
        self.path = path
        self.before: Callable[[], None] = lambda: None
        self._ahead = 0.0
        self._compactions = 0

    def set_clock(self, at: datetime) -> None:
        """Sets the clock, which never goes back."""
        self._ahead = max(self._ahead, at.timestamp() - time.time())
        self._write()

    def compact(self) -> None:
        self._compactions += 1
        self._write()

    def _write(self) -> None:
        self.before()
        new = self.path.with_suffix(".new")
        new.write_text(f"{self._ahead} {self._compactions}")
        new.replace(self.path)


@dataclass(frozen=True)
class Calendar:
    """When the nights are, by the services' clock. Small hours come a bit later each day, so that all is a day old by then."""

    nights: int
    today: date = field(default_factory=date.today)

    def _at(self, night: int, hour: int) -> datetime:
        return datetime.combine(self.today + timedelta(days=night), datetime.min.time()) + timedelta(hours=hour)

    def evening(self, night: int) -> datetime:
        return self._at(night, 20)

    def small_hours(self, night: int) -> datetime:
        return self._at(night + 1, 2) + night * min(timedelta(minutes=5), timedelta(hours=8) / self.nights)

    def noon(self, night: int) -> datetime:
        return self._at(night + 1, 12) + timedelta(minutes=1)


class NightParts(Parts):
    """The processes. Everybody calls the instances without a way between."""

    jobs = [{"id": "five", "elements": FIVE}, {"id": "rows", "elements": [{"kind": "step", "id": "copy", "chunk": CHUNK}]}]
    executables = {"counted": COUNTED, "rows": ROWS, "table": TABLE}

    def __init__(self, mode: str, folder: Path, slowness: float, worker_count: int, kept: int) -> None:
        super().__init__(mode, folder, slowness, worker_count)
        self.kept = kept
        self.orders = Orders(folder / "orders")
        self.night = 1
        # How many operations there were by what clients were told.
        self.told = 0
        # Job executions that clients start, one after the other.
        self.places = count()
        # The job instances of each night that clients were told of, and those that are restarted behind the last night.
        self.instances: dict[int, set[int]] = {}
        self.kept_back: set[int] = set()
        # The instance that a fault is for, if it is for one.
        self.aimed: Process | None = None
        self.session: aiohttp.ClientSession | None = None

    def note_told(self, operations: int) -> None:
        """Somebody was told that there are so many operations."""
        self.told = max(self.told, operations)

    def program(self) -> list[str]:
        return [str(SERVICE), str(self.orders.path)]

    def words(self) -> list[str]:
        return [*super().words(), "--keep-days", str(self.kept), "--compact-at", NOON]

    def way_to(self, service: Process) -> str:
        return service.url

    def dsn_to(self, server: PostgresServer) -> str:
        return server.dsn

    @property
    def urls(self) -> list[str]:
        return [service.url for service in self.services]

    @property
    def living(self) -> list[Process]:
        return super().living if self.aimed is None else [self.aimed]

    def caller(self, url: str, name: str, seconds: float) -> Caller:
        assert self.session is not None
        return KeptCaller(self.session, url, name, seconds=seconds)

    async def leader(self) -> Process | None:
        """The instance that leads."""
        for service in self.services:
            with suppress(aiohttp.ClientError, asyncio.TimeoutError, OSError):
                if (await self.caller(service.url, "watch", WATCH_SECONDS).ask("GET", "/health/leader")).status == 200:
                    return service
        return None
