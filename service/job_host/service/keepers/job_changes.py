"""Changes of the jobs of a running service, one after the other: each is decided by what the one before it has left."""

from __future__ import annotations

import asyncio
import json
from collections.abc import AsyncIterator, Awaitable, Callable, Sequence
from contextlib import asynccontextmanager

from job_host.catalogue.faults import NoVerdict
from job_host.catalogue.folder import unknown_queue
from job_host.catalogue.jobs import JobFile, JobsRefused, ServedJobs
from job_host.catalogue.verdicts import ask
from job_host.catalogue.versions import ReadJob, read_job
from job_host.protocol.lines import compact
from job_host.service.keepers.folder_changes import FolderChanges, folder_changes, is_newest, told_elsewhere, version_of
from job_host.service.problems import Problem, unavailable
from job_host.service.settings import ServeSettings
from job_host.service.terms.calls import Call, Kept, KeptRequest
from job_host.service.terms.moments import clock
from job_host.service.terms.term import Term
from job_host.service.versions.book import JobBook
from job_host.service.versions.changes import RETURN, WITHDRAW, Change, KeyedBy, reply_of

# A change that is under way, as its term ends, has so long.
STOP_SECONDS = 5.0
# Of a file with many faults, the first ones are told.
MOST_FAULTS = 100

# Keeps changes, and lets the catalogue grow by them, in a term. The reply to the call that made them is kept, too.
Keep = Callable[[Sequence[Change]], Awaitable[None]]


class JobChanges:
    """Changes within one term."""

    def __init__(self, book: JobBook, settings: ServeSettings, keep: Keep) -> None:
        self._book = book
        self._settings = settings
        self._keep = keep
        self._turn = asyncio.Lock()
        self._asked: set[asyncio.Task[bytes]] = set()

    async def _in_turn(self, change: Callable[[], Awaitable[bytes]]) -> bytes:
        """One change is under way at a time. It isn't cancelled with the request that asked for it."""

        async def make() -> bytes:
            async with self._turn:
                return await change()

        task = asyncio.create_task(make())
        self._asked.add(task)
        task.add_done_callback(self._asked.discard)
        return await asyncio.shield(task)

    @asynccontextmanager
    async def resting(self) -> AsyncIterator[None]:
        """No change is under way meanwhile."""
        async with self._turn:
            yield

    async def stop(self) -> None:
        """Waits for what is under way, and ends it if it takes long: it is kept, or it isn't."""
        if not self._asked:
            return
        _, late = await asyncio.wait(self._asked, timeout=STOP_SECONDS)
        for task in late:
            task.cancel()
        if late:
            await asyncio.wait(late)

    async def _read(self, name: str, file: JobFile) -> ReadJob:
        """The job of a file. Raises JobRefused, by the file's faults."""
        try:
            given = await asyncio.to_thread(read_job, file, name, self._settings.allow, self._settings.batchctl)
        except JobsRefused as refused:
            raise job_refused(refused.lines) from refused
        except NoVerdict as fault:
            raise unavailable("CoProcessEnded", str(fault)) from fault
        queue, settings = given.for_workers.policies.queue, file.settings
        if settings is not None and queue not in self._settings.queue_names:
            raise job_refused([unknown_queue(settings.name, queue, self._settings.queue_names)])
        return given

    def _check_elsewhere(self, name: str) -> None:
        """Raises JobInOtherQueue if the job may be started in another queue."""
        other = self._book.elsewhere(name)
        if other is not None:
            raise Problem("JobInOtherQueue", 409, told_elsewhere(name, other))

    async def check(self, name: str, file: JobFile) -> bytes:
        """What would be answered to the file of a job, which isn't applied. Raises JobRefused, by the file's faults."""
        given = await self._read(name, file)
        self._check_elsewhere(name)
        version, told = self._book.newest(name), tuple(given.told)
        if await asyncio.to_thread(is_newest, self._book, self._settings.batchctl, given):
            return reply_of(name, version, self._book.is_withdrawn(name), told)
        self._book.with_changes([version_of(self._book, given, "")])
        return reply_of(name, version + 1, True, told)

    async def apply(self, call: Call, name: str, file: JobFile) -> bytes:
        """Applies the file of a job. Raises JobRefused, by the file's faults."""
        given = await self._read(name, file)
        return await self._in_turn(lambda: self._apply(call, given))

    async def _apply(self, call: Call, given: ReadJob) -> bytes:
        name, told = given.job["id"], tuple(given.told)
        self._check_elsewhere(name)
        version = self._book.newest(name)
        if not await asyncio.to_thread(is_newest, self._book, self._settings.batchctl, given):
            change = version_of(self._book, given, call.client, keyed_by(call))
        elif self._book.is_withdrawn(name):
            reply = reply_of(name, version, True, told)
            change = Change(RETURN, name, version, call.client, clock(), by=keyed_by(call), reply=reply)
        else:
            return reply_of(name, version, False, told)
        await self._keep([change])
        return change.reply

    async def withdraw(self, call: Call, name: str) -> bytes:
        """Withdraws a job: nothing of it is started any more."""
        return await self._in_turn(lambda: self._withdraw(call, name))

    async def _withdraw(self, call: Call, name: str) -> bytes:
        version = self._book.newest(name)
        if version == 0:
            raise Problem("NoSuchJobException", 404, f"there is no job {json.dumps(name)}")
        if self._book.is_withdrawn(name):
            return reply_of(name, version, False)
        reply = reply_of(name, version, True)
        await self._keep([Change(WITHDRAW, name, version, call.client, clock(), by=keyed_by(call), reply=reply)])
        return reply

    async def read_folder(self, served: ServedJobs, seen: dict[str, str]) -> FolderChanges:
        """Makes versions of what a folder changes, all at once."""
        found = FolderChanges()

        async def change() -> bytes:
            nonlocal found
            found = await asyncio.to_thread(folder_changes, self._book, self._settings.batchctl, served, seen)
            if found.changes:
                await self._keep(found.changes)
            return b""

        await self._in_turn(change)
        return found


async def to_its_end(call: Callable[[], None]) -> None:
    """Calls it in a thread, and waits for its end also if nobody wants it any more."""
    task = asyncio.ensure_future(asyncio.to_thread(call))
    try:
        await asyncio.shield(task)
    except asyncio.CancelledError:
        await asyncio.wait([task])
        raise


def job_refused(lines: Sequence[str]) -> Problem:
    """The first faults of a job's file."""
    first = list(lines[:MOST_FAULTS])
    return Problem("JobRefused", 400, "; ".join(first), faults=first)


def keyed_by(call: Call) -> KeyedBy | None:
    return None if call.key is None else KeyedBy(call.key, call.fingerprint)


def check_folder(batchctl: Sequence[str], served: ServedJobs) -> None:
    """Raises JobsRefused if batchctl refuses the jobs of a folder, and NoVerdict."""
    answer = ask(batchctl, served.line).answer
    if answer is not None:
        raise JobsRefused([served.told_fault(compact(answer), batchctl)])


def kept_change(book: JobBook, client: str, key: str, term: Term) -> KeptRequest | None:
    """The change that was made by a request key, also if the replies of keys were lost."""
    change = book.by_key(client, key)
    if change is None or change.by is None:
        return None
    return KeptRequest(change.by.fingerprint, Kept(change.reply, (), term.engine.entered))
