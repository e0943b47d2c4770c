"""Makes the queues of a service: a keeper for each, over a folder or tables of its own."""

from __future__ import annotations

import asyncio
from collections.abc import Mapping
from concurrent.futures import ThreadPoolExecutor
from dataclasses import replace
from functools import partial

from job_host.catalogue.jobs import ServedJobs
from job_host.catalogue.queues import DEFAULT_QUEUE, QueueBounds
from job_host.protocol.lines import compact
from job_host.service.history.engine import Engine
from job_host.service.http.access import SettingsRefused
from job_host.service.keepers.embedded import EmbeddedKeeper
from job_host.service.keepers.keeper import Keeper
from job_host.service.queues import numbers as in_folder
from job_host.service.queues.queue import Queue
from job_host.service.queues.queues import Queues
from job_host.service.settings import ServeSettings
from job_host.service.terms.calls import Call
from job_host.service.terms.leases import Leases
from job_host.service.terms.term import Observers

NO_JOBS = ServedJobs(compact({"jobs": []}), for_workers={}, files={})
NEEDS_POSTGRES = "--postgres needs {}: Debian's package python3-asyncpg"


class Making:
    """The queues while they are made: their keepers are told of them before they are there."""

    def __init__(self, settings: ServeSettings, observers: Observers) -> None:
        self._settings = settings
        self._observers = observers
        self._queues: Queues | None = None

    def make(self, numbers: Mapping[str, int], served: Mapping[str, ServedJobs]) -> Queues:
        queues = [self._queue(name, number, served.get(name, NO_JOBS)) for name, number in numbers.items()]
        self._queues = Queues(queues)
        return self._queues

    def _queue(self, name: str, number: int, served: ServedJobs) -> Queue:
        told = replace(self._observers, work=partial(self._wake, number), admit=partial(self._admit, number))
        keeper = keeper_of(settings_of(self._settings, number), served, told)
        bounds = self._settings.queues.get(name, QueueBounds())
        return Queue(number, name, keeper, bounds, name in self._settings.queue_names)

    def _wake(self, number: int) -> None:
        if self._queues is not None:
            self._queues.desk.wake(number)

    async def _admit(self, number: int, engine: Engine, call: Call) -> None:
        if self._queues is not None:
            await self._queues.numbered(number).admit(engine, call)


def made_queues(settings: ServeSettings, served: Mapping[str, ServedJobs], observers: Observers) -> Queues:
    """The queues that are declared, and those that were there before. Raises SettingsRefused, and Fatal."""
    if settings.queues and not settings.is_folder:
        raise SettingsRefused("--queues needs --jobs FOLDER: the settings of a job say its queue")
    numbers = numbers_of(settings)
    if numbers and not settings.is_folder:
        raise SettingsRefused(f"{settings.data} has the queues {', '.join(numbers)}: --jobs FOLDER serves them")
    if not settings.queues and not numbers:
        return Queues([Queue(0, DEFAULT_QUEUE, keeper_of(settings, served[DEFAULT_QUEUE], observers))], are_plain=True)
    return Making(settings, observers).make({DEFAULT_QUEUE: 0, **numbers}, served)


def numbers_of(settings: ServeSettings) -> dict[str, int]:
    """The numbers of all queues but the default one. Raises Fatal."""
    names = [name for name in settings.queue_names if name != DEFAULT_QUEUE]
    if not settings.postgres:
        return in_folder.numbers_with(settings.data, names)
    if not settings.queues:
        return {}
    try:
        from job_host.service.queues.postgres_numbers import known_numbers
    except ModuleNotFoundError as fault:
        raise SettingsRefused(NEEDS_POSTGRES.format(fault.name)) from fault

    def read() -> dict[str, int]:
        return asyncio.run(known_numbers(settings.postgres, names))

    # By a thread: whoever makes a service may have a loop of its own.
    with ThreadPoolExecutor(1, "queues") as thread:
        return thread.submit(read).result()


def settings_of(settings: ServeSettings, number: int) -> ServeSettings:
    """The settings of one queue's keeper: where its history is."""
    if number == 0:
        return settings
    if not settings.postgres:
        return replace(settings, data=in_folder.folder_of(settings.data, number))
    from job_host.service.queues.postgres_numbers import dsn_of

    return replace(settings, postgres=tuple(dsn_of(dsn, number) for dsn in settings.postgres))


def keeper_of(settings: ServeSettings, served: ServedJobs, observers: Observers) -> Keeper:
    """The keeper of a history. Only one over PostgreSQL needs the package asyncpg."""
    if not settings.postgres:
        return EmbeddedKeeper(settings, served, Leases(settings.lease), observers)
    try:
        from job_host.service.keepers.postgres import PostgresKeeper
    except ModuleNotFoundError as fault:
        raise SettingsRefused(NEEDS_POSTGRES.format(fault.name)) from fault
    return PostgresKeeper(settings, served, Leases(settings.lease), observers)
