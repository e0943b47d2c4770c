"""Services under test: one in this process, whose parts can be reached, or one in a process of its own, which can be killed."""

from __future__ import annotations

import asyncio
import json
import os
import signal
import subprocess
import sys
import time
import uuid
from collections.abc import AsyncIterator
from contextlib import asynccontextmanager
from dataclasses import dataclass
from pathlib import Path
from typing import Any
from urllib.parse import quote

import aiohttp
from postgres_server import free_port

from job_host.service.server import Service
from job_host.service.settings import ServeSettings

READY_SECONDS = 30.0
ANSWER_SECONDS = 60.0
# Between looks that cost next to nothing, at what may soon be another one.
SHORT_PAUSE = 0.02
COMMAND = Path(__file__).resolve().parents[1] / "jobhost"


@dataclass(frozen=True)
class Answer:
    status: int
    told: Any
    operations: int | None
    # The same as it came: with several queues it may have a number for each.
    seen: str = ""

    @property
    def name(self) -> str:
        """The name of a problem."""
        return str(self.told["title"])


class Caller:
    """Calls a service as one client, and keeps no connection between its calls."""

    def __init__(self, url: str, client: str = "tester", token: str | None = None, seconds: float = ANSWER_SECONDS) -> None:
        self.url = url
        self.seconds = seconds
        self.headers = {"Batch-Client": client}
        if token is not None:
            self.headers["Authorization"] = f"Bearer {token}"

    async def ask(self, method: str, path: str, body: Any = None, key: str | None = None, **headers: str) -> Answer:
        """Asks with a body of JSON, or with one that is bytes."""
        given = {**self.headers, **({"Idempotency-Key": key} if key else {}), **headers}
        sent: dict[str, Any] = {"data": body} if isinstance(body, bytes) else {"json": body}
        sent["timeout"] = aiohttp.ClientTimeout(total=self.seconds)
        async with self._session() as session:
            async with session.request(method, self.url + path, headers=given, **sent) as response:
                text = await response.text()
                operations = response.headers.get("Batch-Operations", "")
                told = json.loads(text) if "json" in response.content_type else text
                return Answer(response.status, told, int(operations) if operations.isdecimal() else None, operations)

    @asynccontextmanager
    async def _session(self) -> AsyncIterator[aiohttp.ClientSession]:
        async with aiohttp.ClientSession() as session:
            yield session

    async def start(self, job: str = "nightly", key: str | None = None, **parameters: str) -> Answer:
        body = {"jobName": job, "jobParameters": parameters}
        return await self.ask("POST", "/batch/jobinstances", body, key or uuid.uuid4().hex)

    async def start_once(self, key: str, job: str = "short", **parameters: str) -> Answer:
        """Starts a job by a key that says once."""
        body = {"jobName": job, "jobParameters": parameters}
        return await self.ask("POST", "/batch/jobinstances?once=true", body, key)

    async def claim(self, wait: float = 0, key: str | None = None) -> Answer:
        return await self.ask("POST", "/batch/work", {"wait": wait}, key)

    async def withdraw(self, key: str) -> Answer:
        """Withdraws the claim of a key."""
        return await self.ask("DELETE", "/batch/work", key=key)

    async def finish(self, work: int, outcome: str = "COMPLETED", **more: Any) -> Answer:
        return await self.ask("PUT", f"/batch/work/{work}?action=finish", {"outcome": outcome, **more})

    async def change(self, execution: int, action: str, key: str | None = None) -> Answer:
        return await self.ask("PUT", f"/batch/jobexecutions/{execution}?action={action}", key=key)

    async def apply(
        self, job: str, file: str, key: str | None = None, kind: str = "application/xml", words: str = ""
    ) -> Answer:
        """Applies the file of a job."""
        path = f"/batch/jobs/{quote(job, safe='')}{words}"
        return await self.ask("PUT", path, file.encode(), key, **{"Content-Type": kind})

    async def status(self, execution: int) -> str:
        return str((await self.ask("GET", f"/batch/jobexecutions/{execution}")).told["batchStatus"])


class KeptCaller(Caller):
    """Calls a service by connections that many callers share, and that are kept between their calls."""

    def __init__(self, session: aiohttp.ClientSession, *given: Any, **more: Any) -> None:
        super().__init__(*given, **more)
        self._shared = session

    @asynccontextmanager
    async def _session(self) -> AsyncIterator[aiohttp.ClientSession]:
        yield self._shared


async def until(condition: Any, seconds: float = READY_SECONDS, longest: float = 0.1) -> None:
    """Returns after the condition holds. It looks less and less often, at pauses up to the longest: a look may be a request."""
    deadline, pause = time.monotonic() + seconds, 0.02
    while not await condition():
        if time.monotonic() > deadline:
            raise TimeoutError
        await asyncio.sleep(pause)
        pause = min(longest, 1.2 * pause)


class Instance:
    """A service in this process."""

    def __init__(self, settings: ServeSettings) -> None:
        self.service = Service(settings)
        self.url = ""
        self._keeping: asyncio.Task[None] | None = None

    async def start(self) -> None:
        await self.service.listen()
        self.url = f"http://127.0.0.1:{self.service.port}"
        self._keeping = asyncio.get_running_loop().create_task(self.service.keep())

    async def until_role(self, *roles: str) -> None:
        async def has_role() -> bool:
            if self._keeping is not None and self._keeping.done():
                self._keeping.result()
            return self.service.queues.role in roles

        await until(has_role, longest=SHORT_PAUSE)

    async def until_claims_wait(self, count: int, seconds: float = READY_SECONDS) -> None:
        """Returns after so many claims wait for work."""

        async def do_wait() -> bool:
            term = self.service.keeper.term
            return term is not None and term.desk.waiting == count

        await until(do_wait, seconds, SHORT_PAUSE)

    async def ended(self) -> None:
        """Returns, or raises, after the keeper has ended."""
        assert self._keeping is not None
        await asyncio.wait_for(asyncio.shield(self._keeping), READY_SECONDS)

    async def stop(self) -> None:
        assert self._keeping is not None
        await self.service.end_serving()
        await self.service.queues.close()
        await asyncio.wait([self._keeping], timeout=READY_SECONDS)
        if self._keeping.done() and not self._keeping.cancelled():
            self._keeping.exception()


@asynccontextmanager
async def running(settings: ServeSettings, role: str = "leader") -> AsyncIterator[Instance]:
    instance = Instance(settings)
    await instance.start()
    try:
        await instance.until_role(role)
        yield instance
    finally:
        await instance.stop()


@asynccontextmanager
async def listening(service: Service) -> AsyncIterator[Service]:
    """A service that listens, and keeps no history."""
    await service.listen()
    try:
        yield service
    finally:
        assert service._runner is not None
        await service._runner.cleanup()


class Process:
    """`jobhost serve` in a process of its own. It keeps its port over restarts."""

    def __init__(self, log: Path, *words: str, port: int | None = None) -> None:
        self.port = port or free_port()
        self.url = f"http://127.0.0.1:{self.port}"
        self.words = [sys.executable, str(COMMAND), "serve", "--port", str(self.port), *words]
        self._log = log
        self._process: subprocess.Popen[bytes] | None = None

    def start(self) -> None:
        with open(self._log, "ab") as log:
            self._process = subprocess.Popen(self.words, stdout=log, stderr=log, env=os.environ)

    @property
    def number(self) -> int:
        assert self._process is not None
        return self._process.pid

    async def until_role(self, *roles: str, seconds: float = READY_SECONDS) -> None:
        async def has_role() -> bool:
            try:
                return (await Caller(self.url).ask("GET", "/health/live")).told["role"] in roles
            except (aiohttp.ClientError, asyncio.TimeoutError, OSError):
                return False

        await until(has_role, seconds)

    def signal(self, number: int) -> None:
        os.kill(self.number, number)

    def kill(self) -> None:
        if self._process is not None and self._process.poll() is None:
            self.signal(signal.SIGKILL)
            self._process.wait()

    def wait(self, seconds: float = READY_SECONDS) -> int:
        assert self._process is not None
        return self._process.wait(seconds)

    @property
    def log(self) -> str:
        return self._log.read_text()
