"""When a group of a chunk ends: after some items or seconds, or if the step's checkpoint algorithm says so."""

from __future__ import annotations

import time
from collections.abc import Callable
from typing import Protocol

from job_host.worker.parts import Asked, Fault


class CheckpointPolicy(Protocol):
    async def begin(self) -> float | None:
        """Begins a group. Returns the seconds within which it has to be written; none if it has all time."""

    async def is_ready(self, items: int) -> bool:
        """Whether the group ends. It is asked after each item, also after one that was skipped: so many were read."""

    async def end(self) -> None:
        """The group's checkpoint is kept."""


class ItemPolicy:
    """`item`: a group ends after so many items, or so many seconds if these aren't 0."""

    def __init__(self, item_count: int, time_limit: int = 0, clock: Callable[[], float] = time.monotonic) -> None:
        self._item_count, self._time_limit, self._clock = item_count, time_limit, clock
        self._begun = 0.0

    async def begin(self) -> float | None:
        self._begun = self._clock()
        return None

    async def is_ready(self, items: int) -> bool:
        return items >= self._item_count or 0 < self._time_limit <= self._clock() - self._begun

    async def end(self) -> None:
        pass


class ItemByItem:
    """How a group is run again: each of its items is a group, also one that is skipped."""

    async def begin(self) -> float | None:
        return None

    async def is_ready(self, items: int) -> bool:
        return True

    async def end(self) -> None:
        pass


class CustomPolicy:
    """`custom`: an executable is asked."""

    def __init__(self, name: str, part: Asked) -> None:
        self._name, self._part = name, part

    async def begin(self) -> float | None:
        seconds = (await self._part.ask("begin")).get("timeout", 0)
        if isinstance(seconds, bool) or not isinstance(seconds, (int, float)) or not 0 <= seconds < 2**32:
            raise Fault(f"{self._name}: the timeout of a group is a number of seconds")
        return seconds or None

    async def is_ready(self, items: int) -> bool:
        ready = (await self._part.ask("ready")).get("ready")
        if not isinstance(ready, bool):
            raise Fault(f"{self._name}: ready is answered true or false")
        return ready

    async def end(self) -> None:
        await self._part.ask("end")
