"""Probes without a token; and SIGHUP, after which a service has the tokens and the certificate that the files have then."""

from __future__ import annotations

import asyncio
import os
import signal
import ssl
import subprocess
from collections.abc import AsyncIterator, Callable, Iterator
from contextlib import asynccontextmanager
from pathlib import Path
from typing import Any

import aiohttp
import pytest
from instances import Caller, Process, running, until

from job_host.service.settings import ServeSettings

Make = Callable[..., ServeSettings]
OLD, NEW = "o" * 20, "n" * 20


def make_certificate(folder: Path) -> str:
    """A new certificate and its key, as files. Returns the certificate."""
    words = ["openssl", "req", "-x509", "-newkey", "ec", "-pkeyopt", "ec_paramgen_curve:prime256v1", "-nodes", "-days", "2"]
    words += ["-subj", "/CN=localhost", "-keyout", str(folder / "key"), "-out", str(folder / "certificate")]
    subprocess.run(words, check=True, capture_output=True)
    return (folder / "certificate").read_text()


def write_tokens(folder: Path, token: str) -> Path:
    path = folder / "tokens"
    path.write_text(f"operator desk {token}\nworker farm {token}-worker\n")
    return path


async def test_probes_need_no_token_and_tell_no_data(settings: Make, tmp_path: Path) -> None:
    async with running(settings(tokens=write_tokens(tmp_path, OLD))) as instance:
        nobody = Caller(instance.url)
        probes = [await nobody.ask("GET", path) for path in ("/livez", "/readyz")]
        assert [(answer.status, answer.told, answer.operations) for answer in probes] == [
            (200, "live\n", None),
            (200, "ready\n", None),
        ]
        instance.service.keeper.role = "starting"
        assert [(await nobody.ask("GET", path)).status for path in ("/livez", "/readyz")] == [200, 503]
        instance.service.keeper.role = "leader"
        for path in ("/health/live", "/health/ready", "/health/leader", "/metrics", "/livez/", "/batch/events"):
            assert (await nobody.ask("GET", path)).status == 401


class Secured:
    """A service with tokens and TLS, in a process of its own. Each request has a new connection."""

    def __init__(self, process: Process, session: aiohttp.ClientSession) -> None:
        self.process = process
        self.session = session
        self.url = f"https://127.0.0.1:{process.port}"

    def headers(self, token: str) -> dict[str, str]:
        return {"Authorization": f"Bearer {token}", "Batch-Client": "tester", "Connection": "close"}

    async def ask(self, method: str, path: str, token: str = "", body: Any = None) -> tuple[int, str]:
        """The status and the text; the status is 0 if nobody answers."""
        given: dict[str, Any] = {"json": body, "ssl": False, "headers": self.headers(token)}
        try:
            async with self.session.request(method, self.url + path, **given) as response:
                return response.status, await response.text()
        except aiohttp.ClientConnectionError:
            return 0, ""

    async def status(self, path: str, token: str = "") -> int:
        return (await self.ask("GET", path, token))[0]

    async def has_claims_waiting(self, count: int) -> bool:
        return f"jobhost_claims_waiting {count}.0" in (await self.ask("GET", "/metrics", OLD))[1]

    async def certificate(self) -> str:
        return await asyncio.to_thread(ssl.get_server_certificate, ("127.0.0.1", self.process.port))

    async def hang_up(self, count: int) -> None:
        """Sends SIGHUP, and waits until the files were read for so many times."""
        self.process.signal(signal.SIGHUP)

        async def has_read() -> bool:
            return self.process.log.count("has read the files of its tokens and its certificate again") == count

        await until(has_read)


@pytest.fixture
def process(embedded: Make, tmp_path: Path) -> Iterator[Process]:
    made = embedded()
    words = ["--catalogue", str(made.catalogue), "--batchctl", made.batchctl[0], "--data", str(made.data)]
    words += ["--tokens", str(write_tokens(tmp_path, OLD))]
    words += ["--certificate", str(tmp_path / "certificate"), "--certificate-key", str(tmp_path / "key")]
    process = Process(tmp_path / "service", *words)
    yield process
    process.kill()


@asynccontextmanager
async def secured(process: Process) -> AsyncIterator[Secured]:
    process.start()
    async with aiohttp.ClientSession() as session:
        service = Secured(process, session)

        async def is_ready() -> bool:
            return await service.status("/readyz") == 200

        await until(is_ready)
        yield service


async def test_sighup_reads_tokens_and_the_certificate_again(process: Process, tmp_path: Path) -> None:
    first = make_certificate(tmp_path)
    async with secured(process) as service:
        assert await service.certificate() == first
        claim = asyncio.create_task(service.ask("POST", "/batch/work", f"{OLD}-worker", {"wait": 30}))
        events = await service.session.get(service.url + "/batch/events", ssl=False, headers=service.headers(OLD))
        assert (await events.content.readline()).startswith(b"data: ")
        await until(lambda: service.has_claims_waiting(1))
        second = make_certificate(tmp_path)
        write_tokens(tmp_path, NEW)
        await service.hang_up(1)
        assert [await service.status("/batch/jobs", token) for token in (OLD, NEW)] == [401, 200]
        assert await service.certificate() == second != first
        await asyncio.wait_for(events.content.read(), 10)
        assert (await service.ask("POST", "/batch/jobinstances", NEW, {"jobName": "short"}))[0] == 201
        assert (await claim)[0] == 408
        assert await service.ask("GET", "/batch/work", NEW) == (200, "[]")


async def test_files_at_fault_leave_the_earlier_ones_in_use(process: Process, tmp_path: Path) -> None:
    first = make_certificate(tmp_path)
    async with secured(process) as service:
        key = (tmp_path / "key").read_text()
        make_certificate(tmp_path)
        (tmp_path / "key").write_text(key)
        write_tokens(tmp_path, "short")
        await service.hang_up(1)
        assert (await service.status("/batch/jobs", OLD), await service.certificate()) == (200, first)
        assert process.log.count("what was read before stays in use") == 2
        (tmp_path / "tokens").unlink()
        await service.hang_up(2)
        assert await service.status("/batch/jobs", OLD) == 200


async def test_a_batchctl_that_hangs_is_not_ready_and_then_killed(either: Make, monkeypatch: pytest.MonkeyPatch) -> None:
    for name, seconds in [("ASK_SECONDS", 0.1), ("SILENT_SECONDS", 0.5), ("KILL_SECONDS", 2.0)]:
        monkeypatch.setattr(f"job_host.service.keepers.keeper.{name}", seconds)
    async with running(either()) as instance:
        caller, engine = Caller(instance.url), instance.service.keeper.engine
        assert (await caller.start("short", key="a")).operations == 1 and engine is not None
        os.kill(engine.process.process_id, signal.SIGSTOP)

        async def is_unready() -> bool:
            return (await caller.ask("GET", "/readyz")).status == 503

        await until(is_unready, 5.0)
        assert not engine.process.has_ended
        await asyncio.wait_for(engine.process.wait(), 10.0)

        async def is_told_again() -> bool:
            return (await caller.start("short", key="a")).operations == 1

        await until(is_told_again, 10.0)
        assert (await caller.ask("GET", "/readyz")).status == 200


async def test_a_follower_whose_batchctl_ends_begins_again(settings: Make) -> None:
    made = settings(takeover_after=60.0)
    async with running(made) as one, running(made, "follower") as two:
        assert two.service.keeper.engine is not None
        two.service.keeper.engine.process.kill()

        async def reads() -> bool:
            return (await Caller(two.url).ask("GET", "/batch/jobs?atLeast=1")).status == 200

        assert (await Caller(one.url).start("short")).operations == 1
        await until(reads, 10.0)
