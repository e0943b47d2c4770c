"""The log of an embedded service, and the engine that knows what its operations are on.

batchctl doesn't keep its replies: another batchctl, which is handed the log's lines, gives them again. If the log has a base,
that begins with a copy of it, and is handed the lines behind it. The engine outlives its batchctl. So after a new start only
those operations are looked at that it hadn't heard of.
"""

from __future__ import annotations

import asyncio
import logging
import shutil
from collections.abc import AsyncIterator, Awaitable, Callable, Iterable, Sequence
from contextlib import asynccontextmanager
from pathlib import Path
from typing import NamedTuple

from job_host.catalogue.names import PLAIN_NAMES, JobNames
from job_host.service.history import log_file
from job_host.service.history.answers import Answers
from job_host.service.history.audited import Did
from job_host.service.history.base import read_base
from job_host.service.history.coprocess import CoProcess
from job_host.service.history.engine import STATE, Engine
from job_host.service.history.log_file import Found, Search
from job_host.service.history.tags import lines_of
from job_host.service.keepers.keeper import Fatal
from job_host.service.stores.private_folder import make_private

log = logging.getLogger(__name__)

# The folder beside a log in which another batchctl begins with a copy of its base.
COPY_FOLDER = "replay"


class Told(NamedTuple):
    """An operation that was looked for, with its reply, and what it did, if it isn't noted yet."""

    found: Found
    reply: bytes
    did: Did | None


# What is done with operations that were looked for, some hundreds at a time, by rising number.
Note = Callable[[list[Told]], Awaitable[None]]
# What is done with an engine that knows the base of the log, and nothing behind it.
Begun = Callable[[Engine], Awaitable[None]]


# What was kept, and the lines of that.
Part = tuple[list[bytes], list[bytes]]


async def answered(process: CoProcess, parts: Iterable[list[bytes]]) -> AsyncIterator[tuple[Part, list[bytes]]]:
    """Hands over the lines of what was kept, and gives each part, with its lines, and its replies.

    The next one is under way before that.
    """
    last: tuple[Part, asyncio.Future[list[bytes]]] | None = None
    for kept in parts:
        lines = lines_of(kept)
        coming = ((kept, lines), process.ask_all(lines))
        coming[1].add_done_callback(lambda done: done.cancelled() or done.exception())
        if last is not None:
            yield last[0], await last[1]
        last = coming
    if last is not None:
        yield last[0], await last[1]


def knows_behind(engine: Engine, noted: int) -> bool:
    """Whether an engine knows what each operation did behind so many that are noted. Of what is kept it forgets that."""
    recent = engine.recent
    return noted + 1 >= (recent[0].number if recent else engine.entered + 1)


def entered_of(engine: Engine, number: int, lines: Sequence[bytes], replies: Sequence[bytes]) -> dict[int, Did | None]:
    """Enters those of some operations that an engine hasn't entered, with so many before them.

    Returns what these did, and those that it remembers, by their numbers.
    """
    known = max(0, engine.entered - number)
    did = {record.number: record.did for record in engine.recent}
    if known < len(lines):
        engine.enter(lines[known:], replies[known:])
        did |= dict(enumerate(engine.did, number + known + 1))
    return did


class ReplayedLog:
    def __init__(self, batchctl: Sequence[str], path: Path, names: JobNames = PLAIN_NAMES) -> None:
        self._words = [*batchctl, "script"]
        self._path = path
        self._names = names
        self._kept: Engine | None = None

    def keep(self, engine: Engine) -> None:
        """Keeps an engine. From now on `recent` has what isn't noted yet."""
        engine.note_kept(engine.entered)
        self._kept = engine

    async def bring_on(self, process: CoProcess, search: Search, note: Note, begun: Begun) -> Engine:
        """An engine that goes on with a batchctl that has opened the log. What is looked for is handed to `note`.

        Raises OtherLog if the log lacks what is noted.
        """
        engine, told = await self._known(process, search)
        if engine is not self._kept and engine.base is not None:
            await begun(engine)
        if told is None:
            await self._replay(engine, process, search, note)
        elif told:
            await note(told)
        engine.process = process
        return engine

    async def _known(self, process: CoProcess, search: Search) -> tuple[Engine, list[Told] | None]:
        """The engine from before, if the log begins with all that it has entered, else a new one. And what is looked for, if it
        knows all of the log, and the replies to that."""
        engine = self._kept
        if engine is not None and engine.is_whole:
            seen = await asyncio.to_thread(log_file.compare, self._path, engine.known, search)
            recent = {record.number: record for record in engine.recent}
            told = [Told(one, *recent[one.number][2:]) for one in seen.found if one.number in recent]
            knows_all = seen.behind == 0 and len(told) == len(seen.found) and engine.state is not None
            is_so = seen.is_begun_so and (not knows_all or await process.ask_all(STATE) == engine.state)
            if is_so and knows_behind(engine, search.noted):
                return engine, told if knows_all else None
            if not is_so:
                log.warning("%s isn't what was entered before: all of it is replayed", self._path)
        self._kept = None
        return await self._begun(process), None

    async def _begun(self, process: CoProcess) -> Engine:
        """A new engine, which knows the base of the log if there is one."""
        engine, base = Engine(process, self._names), await asyncio.to_thread(read_base, self._path)
        if base is not None:
            engine.begin(base)
        return engine

    async def _replay(self, engine: Engine, process: CoProcess, search: Search, note: Note) -> None:
        """Hands the lines behind the base to another batchctl, and enters those behind the engine's."""
        number = engine.based
        async with self._replaying(engine, process) as replayer:
            async for (kept, lines), replies in answered(replayer, log_file.operations(self._path)):
                found = search.found(number, kept)
                did = entered_of(engine, number, lines, replies)
                if found:
                    await note([Told(one, replies[one.number - number - 1], did.get(one.number)) for one in found])
                number += len(lines)
            search.check(number)
            theirs = await process.ask_all(STATE)
            _compare(theirs, await replayer.ask_all(STATE))
            engine.looked = Answers(theirs, engine.entered)

    @asynccontextmanager
    async def _replaying(self, engine: Engine, process: CoProcess) -> AsyncIterator[CoProcess]:
        """Another batchctl, which begins as the log does."""
        folder = self._path.parent / COPY_FOLDER
        words = self._words
        try:
            if engine.base is not None:
                words = [*words, "--log", str(await asyncio.to_thread(self._copied, folder)), "--tags"]
            replayer = await CoProcess.start(words, process.catalogue)
            try:
                yield replayer
            finally:
                await replayer.close()
        finally:
            await asyncio.to_thread(shutil.rmtree, folder, ignore_errors=True)

    def _copied(self, folder: Path) -> Path:
        """A copy of the log up to the end of its base. One that a crash has left is replaced."""
        shutil.rmtree(folder, ignore_errors=True)
        make_private(folder)
        copy = folder / self._path.name
        log_file.copy_front(self._path, copy)
        return copy


def _compare(theirs: Sequence[bytes], ours: Sequence[bytes]) -> None:
    """Both have to tell the same of the history: else the file wasn't read as batchctl reads it."""
    if list(theirs) != list(ours):
        raise Fatal(f"a replay of the log comes to {ours!r}, and batchctl to {theirs!r}")
