"""`jobhost worker`: claims work items, runs the executables that they name, and reports."""

from __future__ import annotations

import asyncio
import logging
import os
import time
import uuid
from collections.abc import Awaitable, Sequence
from contextlib import ExitStack, suppress
from dataclasses import dataclass, replace
from functools import partial
from pathlib import Path
from typing import Any, TypeVar

from job_host.protocol import executables
from job_host.protocol.client import Address, Client, Refused, Unreachable
from job_host.protocol.late_texts import completed
from job_host.protocol.seldom import seldom
from job_host.worker import artifacts
from job_host.worker.artifacts import Artifact, Ended, Program
from job_host.worker.chunks import Chunk
from job_host.worker.draining import CUT_OFF, CUT_OFF_EXIT, DRAINED, NO_WORK, REFUSED, Ending, tell_drain
from job_host.worker.environment import WorkFiles, environment, use_of
from job_host.worker.folder import ArtifactFolder
from job_host.worker.listeners import Listeners
from job_host.worker.output import ExitFile, FirstLine, Tail, drain
from job_host.worker.reports import Reports
from job_host.worker.steps import StepRun, Task

log = logging.getLogger(__name__)

CLAIM_SECONDS = 10.0
# So much longer an answer to a claim may take than the claim waits, if the worker doesn't wait for ever.
ANSWER_SECONDS = 5.0
FOREVER = 10.0**9
DRAIN_SECONDS = 5.0
HURRY_SECONDS = 5.0
LOOK_SECONDS = 1.0

T = TypeVar("T")


class Lost(Exception):
    """The work item isn't this worker's any more."""


async def until_told(call: Awaitable[T], event: asyncio.Event, seconds: float) -> T:
    """Makes a call. After the event it has some seconds more. Raises Lost if they don't suffice."""
    calling, telling = asyncio.ensure_future(call), asyncio.ensure_future(event.wait())
    try:
        await asyncio.wait([calling, telling], return_when=asyncio.FIRST_COMPLETED)
        await asyncio.wait([calling], timeout=seconds)
        if not calling.done():
            raise Lost("the service doesn't answer, and the worker was told to end")
        return calling.result()
    finally:
        await cancel(calling, telling)


async def cancel(*tasks: asyncio.Future[Any]) -> None:
    """Cancels tasks, and returns after they have ended."""
    for task in tasks:
        task.cancel()
    await asyncio.gather(*tasks, return_exceptions=True)


def still_running(tasks: set[asyncio.Future[Any]]) -> set[asyncio.Future[Any]]:
    """Those that haven't ended. Raises what one of the others has raised."""
    for task in tasks:
        if task.done():
            task.result()
    return {task for task in tasks if not task.done()}


class Told:
    """What a worker is told of a work item while it runs it."""

    def __init__(self) -> None:
        self.stop = asyncio.Event()
        self.lost = asyncio.Event()


@dataclass
class Batchlet:
    """One work item of a batchlet or a decision: one process."""

    folder: Path
    claimed: dict[str, Any]
    tail: Tail
    told: Told

    async def run(self) -> Ended:
        files = ExitStack()
        try:
            path = executables.find(self.folder, self.claimed["work"]["ref"])
            file = ExitFile()
            files.callback(file.remove)
            texts = WorkFiles(self.claimed, [use_of(self.claimed["work"])])
            files.callback(texts.remove)
            return await self._run(path, file, texts)
        except (executables.NoArtifact, OSError) as fault:
            self.tail.say(str(fault))
            return Ended("FAILED")
        finally:
            files.close()

    async def close(self, at_once: bool = False) -> None:
        """Its process ends with its run."""

    def broken_off(self) -> None:
        """It has no metrics."""

    async def _run(self, path: Path, file: ExitFile, texts: WorkFiles) -> Ended:
        """Runs the process. Both of its outputs are the log."""
        use = use_of(self.claimed["work"])
        variables = environment(self.claimed, use, {**file.variables(), **texts.variables(use)}, self.tail.say)
        artifact = await artifacts.spawn(Program(path, self.folder, variables, [file.path, *texts.paths]))
        first = FirstLine()
        outputs = (drain(artifact.stdout, self.tail.stream(), first), drain(artifact.stderr, self.tail.stream()))
        heard = asyncio.gather(*outputs)
        try:
            was_stopped = await self._wait(artifact)
        finally:
            await artifact.kill()
            with suppress(asyncio.TimeoutError):
                await asyncio.wait_for(heard, DRAIN_SECONDS)
        return artifacts.ended_by(await artifact.wait(), file, first, self.tail, was_stopped)

    async def _wait(self, artifact: Artifact) -> bool:
        """Waits for its end. Returns whether it was told to stop before."""
        work = self.claimed["work"]
        may_stop = work["kind"] == "batchlet" and executables.is_stoppable(self.folder, work["ref"])
        ending = asyncio.ensure_future(artifact.wait())
        stopping = asyncio.ensure_future(self.told.stop.wait() if may_stop else asyncio.Event().wait())
        try:
            await asyncio.wait([ending, stopping], return_when=asyncio.FIRST_COMPLETED)
            if ending.done():
                return False
            artifact.terminate()
            await ending
            return True
        finally:
            stopping.cancel()
            ending.cancel()


@dataclass(frozen=True)
class WorkOf:
    """The queues whose work a worker runs, in its order, and what it has that they may want. None is the default one."""

    queues: Sequence[str] = ()
    labels: Sequence[str] = ()

    def members(self) -> dict[str, list[str]]:
        """What a claim says of it. A service with one queue knows no such members, and a worker of that one names none."""
        told = {"queues": [*self.queues], "labels": [*self.labels]}
        return {name: names for name, names in told.items() if names}


class Worker:
    """Slots that run one work item each at a time. While a slot is free, one claim waits for all of them.

    `is_cut_off` says that a work item which it had as it was told to end wasn't run to its end and reported, or may not be.
    """

    def __init__(
        self,
        client: Client,
        folder: Path,
        slots: int,
        system_properties: Sequence[str] = (),
        ending: Ending | None = None,
        of: WorkOf = WorkOf(),
    ) -> None:
        self._client = client
        self._reports = Reports(client.operate)
        self._of = of
        self._system_properties = {name: os.environ[name] for name in system_properties if name in os.environ}
        self._folder = ArtifactFolder(folder)
        self._slots = slots
        self._tells_artifacts = True
        self.is_cut_off = self._is_refused = False
        self._ending = ending or Ending()
        self.ending, self.hurry = self._ending.told, self._ending.hurry

    async def run(self) -> int:
        """Works until it is told to end, and what it runs has ended. Returns the exit status."""
        telling = asyncio.ensure_future(tell_drain(self._ending, self._client.operate))
        try:
            await self._work()
        finally:
            await cancel(telling)
        return CUT_OFF if self.is_cut_off else DRAINED

    async def run_once(self, seconds: float) -> int:
        """Runs one work item, if one comes in so many seconds. Returns the exit status."""
        telling = asyncio.ensure_future(tell_drain(self._ending, self._client.operate))
        try:
            claimed = await self._first(seconds)
            is_whole = claimed is None or await self._take(claimed)
        finally:
            await cancel(telling)
        if self.is_cut_off or not is_whole:
            return CUT_OFF
        if claimed is None:
            return REFUSED if self._is_refused else NO_WORK
        return DRAINED

    async def _work(self) -> None:
        running: set[asyncio.Future[Any]] = set()
        while not self.ending.is_set():
            # By a thread: a file system that hangs mustn't hold up heartbeats.
            if len(running) < self._slots and not await asyncio.to_thread(self._folder.may_claim):
                await self._look_later()
            elif len(running) < self._slots:
                claimed = await self._next()
                if "work" in claimed:
                    running.add(asyncio.ensure_future(self._take(claimed)))
            else:
                await self._until_free(running)
            running = still_running(running)
        await asyncio.gather(*running)

    async def _first(self, seconds: float) -> dict[str, Any] | None:
        """Claims until there is a work item. Returns none if none came in time, or before the worker was told to end."""
        deadline = time.monotonic() + seconds
        while not self.ending.is_set():
            left = max(0.0, deadline - time.monotonic())
            claimed: dict[str, Any] = {}
            if await asyncio.to_thread(self._folder.may_claim):
                wait = min(CLAIM_SECONDS, left)
                claimed = await self._next(wait, wait + ANSWER_SECONDS)
            else:
                await self._look_later()
            if "work" in claimed:
                return claimed
            # A job execution that was only closed is no work, and there may be more behind it.
            if not left and not {"closed", "again"} & claimed.keys():
                return None
        return None

    def _take(self, claimed: dict[str, Any]) -> Awaitable[bool]:
        """Runs what was claimed."""
        self._complete(claimed)
        self._folder.note(claimed["work"], claimed.get("step", {}))
        return self._run(claimed)

    def _complete(self, claimed: dict[str, Any]) -> None:
        """Puts the system properties that may be told into the properties of a work item."""
        for texts in claimed.get("properties", {}).values():
            for name, text in texts.items():
                texts[name] = completed(text, self._system_properties)

    async def _look_later(self) -> None:
        """Returns after a second, or after the worker was told to end."""
        with suppress(asyncio.TimeoutError):
            await asyncio.wait_for(self.ending.wait(), LOOK_SECONDS)

    async def _until_free(self, running: set[asyncio.Future[Any]]) -> None:
        """Returns after a slot is free, or the worker was told to end."""
        telling = asyncio.ensure_future(self.ending.wait())
        try:
            await asyncio.wait([telling, *running], return_when=asyncio.FIRST_COMPLETED)
        finally:
            await cancel(telling)

    async def _next(self, wait: float = CLAIM_SECONDS, longest: float | None = None) -> dict[str, Any]:
        """Claims a work item. Returns no member `work` if there is none. After the longest time the claim is withdrawn."""
        key = uuid.uuid4().hex
        try:
            claimed = await self._claim(key, wait, longest) or await self._withdraw(key)
            self._is_refused = False
            return claimed
        except Refused as refused:
            log.warning("a claim was refused: %s", refused)
            self._is_refused = True
            # A service of an earlier version knows no such member.
            is_again = self._tells_artifacts and refused.name == "BadRequest"
            self._tells_artifacts = self._tells_artifacts and not is_again
            await asyncio.sleep(1.0)
            return {"again": True} if is_again else {}
        except (Lost, Unreachable) as fault:
            log.warning("a claim couldn't be withdrawn, and may have been given a work item: %s", fault)
            self.is_cut_off = True
        return {}

    async def _claim(self, key: str, wait: float, longest: float | None) -> dict[str, Any] | None:
        """Claims, until the worker is told to end: then the connection is closed, and there is no answer."""
        news = await asyncio.to_thread(self._folder.news) if self._tells_artifacts else None
        body: dict[str, Any] = {"wait": wait, **self._of.members(), **({} if news is None else {"artifacts": news})}
        call = self._client.operate("POST", "/batch/work", body, wait, FOREVER, key)
        claiming, telling = asyncio.ensure_future(call), asyncio.ensure_future(self.ending.wait())
        try:
            await asyncio.wait([claiming, telling], timeout=longest, return_when=asyncio.FIRST_COMPLETED)
            return dict(claiming.result()) if claiming.done() else None
        finally:
            await cancel(claiming, telling)

    async def _withdraw(self, key: str) -> dict[str, Any]:
        """Withdraws a claim. If it was made before, its work item is this worker's, which runs it."""
        call = self._client.operate("DELETE", "/batch/work", patience=CLAIM_SECONDS, key=key)
        return dict(await until_told(call, self.ending, CLAIM_SECONDS))

    async def _run(self, claimed: dict[str, Any]) -> bool:
        """Runs a work item under its lease, and reports how it ended, if it is still this worker's.

        Returns whether it was run to its end, and the report was taken.
        """
        tail, told, is_whole = Tail(), Told(), False
        beating = asyncio.ensure_future(self._beat(claimed, tail, told))
        running = asyncio.ensure_future(self._run_artifact(claimed, tail, told))
        giving_up = [asyncio.ensure_future(told.lost.wait()), asyncio.ensure_future(self.hurry.wait())]
        try:
            await asyncio.wait([running, *giving_up], return_when=asyncio.FIRST_COMPLETED)
            if not running.done():
                running.cancel()
                with suppress(asyncio.CancelledError):
                    await running
                tail.say("the worker was told to end")
            if not told.lost.is_set():
                await self._finish(claimed, await self._ended(running), tail)
                is_whole = not running.cancelled()
        except Lost as lost:
            log.warning("work item %d: %s", claimed["work"]["work"], lost)
        finally:
            for task in (beating, *giving_up):
                task.cancel()
            await asyncio.gather(beating, *giving_up, return_exceptions=True)
        self.is_cut_off = self.is_cut_off or (self.ending.is_set() and not is_whole)
        return is_whole

    @staticmethod
    async def _ended(running: asyncio.Future[Ended]) -> Ended:
        return Ended("FAILED", CUT_OFF_EXIT) if running.cancelled() else await running

    async def _run_artifact(self, claimed: dict[str, Any], tail: Tail, told: Told) -> Ended:
        if "propertiesFault" in claimed:
            tail.say(f"the properties can't be handed over: {claimed['propertiesFault']}")
            return Ended("FAILED")
        return await StepRun(self._folder.path, claimed, tail, partial(self._task, claimed, tail, told)).run()

    def _task(self, claimed: dict[str, Any], tail: Tail, told: Told, listeners: Listeners) -> Task:
        if claimed["work"]["kind"] != "chunk":
            return Batchlet(self._folder.path, claimed, tail, told)
        report = partial(self._checkpoint, claimed)
        return Chunk(self._folder.path, claimed, tail, report, listeners, told.stop.is_set)

    async def _checkpoint(self, claimed: dict[str, Any], mark: str, metrics: dict[str, int]) -> bool:
        """Reports a group. Returns whether a stop was asked for."""
        body: dict[str, Any] = {"data": mark}
        if metrics:
            body["metrics"] = metrics
        return "stop" in await self._report(claimed, "checkpoint", body)

    async def _finish(self, claimed: dict[str, Any], ended: Ended, tail: Tail) -> None:
        body = {**ended.members(), "log": tail.text()}
        await self._report(claimed, "finish", body)

    async def _report(self, claimed: dict[str, Any], action: str, body: dict[str, Any]) -> dict[str, Any]:
        try:
            reporting = self._reports.send(claimed["work"]["work"], action, body)
            told = await until_told(reporting, self.hurry, HURRY_SECONDS)
        except Refused as refused:
            raise Lost(f"{action} was refused: {refused}") from refused
        return dict(told)

    async def _beat(self, claimed: dict[str, Any], tail: Tail, told: Told) -> None:
        """Renews the lease, hands in the log as it is, and hears of a stop."""
        lease = float(claimed["lease"])
        pause = lease / 3
        path = f"/batch/work/{claimed['work']['work']}?action=heartbeat"
        handed_in = ""
        while True:
            await asyncio.sleep(pause)
            text = tail.text()
            body = {"log": text} if text != handed_in else {}
            try:
                answer = await self._client.operate("PUT", path, body, patience=pause, attempt=lease / 6)
            except Unreachable as fault:
                log.warning("no heartbeat: %s", fault)
                continue
            except Refused as refused:
                log.warning("work item %d is lost: %s", claimed["work"]["work"], refused)
                told.lost.set()
                return
            handed_in = text
            if answer["stop"]:
                told.stop.set()


def worker_address(address: Address, given: str | None) -> Address:
    """An address under a name of this worker's life. A worker that is started again has another session."""
    return replace(address, client=given or f"{address.client}-{uuid.uuid4().hex[:12]}")


@dataclass(frozen=True)
class WorkerSettings:
    """What a worker has, and how it ends. With `once` it runs one work item, if that comes within so many seconds."""

    folder: Path
    slots: int = 1
    system_properties: Sequence[str] = ()
    grace: float | None = None
    once: float | None = None
    of: WorkOf = WorkOf()


async def work(address: Address, settings: WorkerSettings) -> int:
    """Works until a signal. What runs then has its grace to end, or until a second signal. Returns the exit status."""
    async with Client(address, seldom(log.warning)) as client:
        ending = Ending(settings.grace)
        ending.listen()
        worker = Worker(client, settings.folder, settings.slots, settings.system_properties, ending, settings.of)
        return await (worker.run() if settings.once is None else worker.run_once(settings.once))
