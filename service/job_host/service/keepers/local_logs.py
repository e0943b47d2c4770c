"""batchctl over PostgreSQL: it begins with the newest base, in a log of its own on this machine, which may be lost."""

from __future__ import annotations

import asyncio
from collections.abc import Sequence
from pathlib import Path
from typing import NamedTuple

from job_host.catalogue.names import JobNames
from job_host.service.history.base import read_base
from job_host.service.history.coprocess import CatalogueRefused, CoProcess
from job_host.service.history.engine import Engine
from job_host.service.stores.local_files import LocalFiles
from job_host.service.stores.postgres_bases import BaseDamaged, BaseGone, Done, KeptBase, PostgresBases

# The log's catalogue has jobs that the given one hasn't: another instance has brought them.
OTHER_CATALOGUE = "LogOtherCatalogue"


class CatalogueGrew(Exception):
    """Another instance brought a catalogue that this one hasn't."""


class Opened(NamedTuple):
    """A co-process that has answered, the file of its log, the base that it began with, and the identity of the history."""

    process: CoProcess
    path: Path
    base: KeptBase | None
    history: str
    done: Sequence[Done]

    @property
    def number(self) -> int:
        """How many operations it knows."""
        return 0 if self.base is None else self.base.number


class LocalLogs:
    """Each co-process has a file of its own, which goes with it."""

    def __init__(self, batchctl: Sequence[str], dsns: Sequence[str], files: LocalFiles) -> None:
        self._batchctl = batchctl
        self._dsns = dsns
        self._files = files

    async def open(self, catalogue: bytes) -> Opened:
        """A co-process that knows the newest base.

        Raises BaseDamaged; BaseGone or CatalogueGrew if another one is to be begun; and what starts of batchctl and LOST have.
        """
        path = self._files.new()
        try:
            bases = await PostgresBases.open(self._dsns)
            try:
                return await self._opened(bases, path, catalogue)
            finally:
                bases.close()
        except BaseException:
            self._files.drop(path)
            raise

    async def _opened(self, bases: PostgresBases, path: Path, catalogue: bytes) -> Opened:
        history, base = await bases.history(), await bases.newest()
        if base is not None:
            await bases.write_to(base, path)
        process = await self.start(path, catalogue, base)
        try:
            done = [] if base is None else await bases.actions()
            if base is not None and await bases.newest() != base:
                raise BaseGone(f"a newer base than that of {base.number} operations was made")
        except BaseException:
            await process.close()
            raise
        return Opened(process, path, base, history, done)

    async def start(self, path: Path, catalogue: bytes, base: KeptBase | None, *more: str) -> CoProcess:
        """A co-process over a file that has this base, or none. Raises BaseDamaged if batchctl refuses the file."""
        try:
            process = await CoProcess.start([*self._batchctl, "script", "--log", str(path), "--tags", *more], catalogue)
        except CatalogueRefused as refused:
            if base is None:
                raise
            if OTHER_CATALOGUE in str(refused):
                raise CatalogueGrew(f"by the base of {base.number} operations: {refused}") from refused
            raise BaseDamaged(base, f"is refused by batchctl: {refused}") from refused
        return process

    async def engine(self, catalogue: bytes, names: JobNames) -> tuple[Engine, str]:
        """An engine that knows the newest base and nothing behind it, and its history's identity. Raises what `open` does."""
        opened = await self.open(catalogue)
        self.keep(opened)
        engine = Engine(opened.process, names)
        try:
            if opened.base is not None:
                await asyncio.to_thread(begin, engine, opened.path, opened.base, opened.done)
        except BaseException:
            await opened.process.close()
            raise
        return engine, opened.history

    def keep(self, opened: Opened) -> None:
        """Drops the file of a co-process after its end."""
        opened.process.ended.add_done_callback(lambda ended: self._files.drop(opened.path))


def begin(engine: Engine, path: Path, kept: KeptBase, done: Sequence[Done]) -> None:
    """Lets an engine know a base, whose file batchctl has opened. Raises BaseDamaged if it isn't the one that was kept."""
    base = read_base(path)
    if base is None or base.known != kept.known:
        raise BaseDamaged(kept, f"has the rows of another one in its parts: {None if base is None else base.known}")
    engine.begin(base)
    engine.restore_actions(done)
