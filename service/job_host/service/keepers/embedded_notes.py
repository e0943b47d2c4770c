"""Marks and notifications of an embedded service, in its SQLite file."""

from __future__ import annotations

from collections.abc import Awaitable, Callable, Mapping, Sequence
from typing import Any

from job_host.service.stores.notifications import NewNotification, Notification, PolicyNotes
from job_host.service.stores.sqlite import SqliteStore

Do = Callable[[Callable[[SqliteStore], Any]], Awaitable[Any]]


class EmbeddedNotes(PolicyNotes):
    """The tables, by the thread of the file."""

    def __init__(self, do: Do) -> None:
        self._do = do

    async def marks(self) -> dict[str, int]:
        return dict(await self._do(lambda store: store.notifications.marks()))

    async def add(self, notifications: Sequence[NewNotification], marks: Mapping[str, int]) -> None:
        await self._do(lambda store: store.notifications.add(notifications, marks))

    async def count(self) -> int:
        return int(await self._do(lambda store: store.notifications.count()))

    async def due(self, now: int, most: int) -> list[Notification]:
        return list(await self._do(lambda store: store.notifications.due(now, most)))

    async def drop(self, number: int) -> None:
        await self._do(lambda store: store.notifications.drop(number))

    async def postpone(self, number: int, due: int) -> None:
        await self._do(lambda store: store.notifications.postpone(number, due))
