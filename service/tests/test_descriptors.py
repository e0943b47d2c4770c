"""File descriptors: the service takes what it may have, and serves no more connections than they suffice for."""

from __future__ import annotations

import resource
import socket
import time
from collections.abc import Callable, Iterator
from pathlib import Path

import pytest
from instances import Caller, Process, until

from job_host.service.http.descriptors import OTHERS, fitted
from job_host.service.settings import Bounds, ServeSettings

Start = Callable[[int, int], Process]


@pytest.fixture
def limited(tmp_path: Path) -> Iterator[Start]:
    """A service that begins with these limits, the soft one and the hard one. Its batchctl never answers."""
    catalogue, silent = tmp_path / "none.json", tmp_path / "batchctl"
    catalogue.write_text('{"jobs":[]}')
    silent.write_text("#!/bin/sh\nexec cat > /dev/null\n")
    silent.chmod(0o755)
    process = Process(tmp_path / "service", "--catalogue", str(catalogue), "--batchctl", str(silent), "--data", str(tmp_path))

    def start(soft: int, hard: int) -> Process:
        process.words = ["prlimit", f"--nofile={soft}:{hard}", "--", *process.words]
        process.start()
        return process

    yield start
    process.kill()


async def until_live(process: Process, seconds: float = 10.0) -> None:
    async def is_live() -> bool:
        try:
            return (await Caller(process.url).ask("GET", "/livez")).status == 200
        except OSError:
            return False

    await until(is_live, seconds)


async def test_a_service_has_as_many_descriptors_as_it_may(limited: Start) -> None:
    process = limited(100, 1_500)
    await until_live(process)
    assert resource.prlimit(process.number, resource.RLIMIT_NOFILE) == (1_500, 1_500)
    assert "descriptors" not in process.log


async def test_few_descriptors_serve_fewer_connections(limited: Start) -> None:
    """More connections come than there are descriptors. A caller is answered at once, and the log stays short."""
    process = limited(200, 200)
    await until_live(process)
    assert f"200 file descriptors suffice for {200 - OTHERS} connections, and not for 1024" in process.log
    held = [socket.create_connection(("127.0.0.1", process.port)) for _ in range(400)]
    begun = time.monotonic()
    for _ in range(20):
        await until_live(process, 1.0)
    assert time.monotonic() - begun < 5.0
    assert len(process.log.splitlines()) < 10
    for one in held:
        one.close()


def test_the_bound_of_connections_fits_the_limit(idle_settings: ServeSettings) -> None:
    def connections(limit: int) -> int:
        return fitted(idle_settings, limit).bounds.connections

    assert [connections(limit) for limit in (resource.RLIM_INFINITY, 20_000, 1_152)] == [1_024] * 3
    assert [connections(limit) for limit in (1_151, 1_024, 256, 64)] == [1_023, 896, 128, 1]
    assert fitted(idle_settings, 1_024).bounds == Bounds(connections=896)


@pytest.fixture
def idle_settings(tmp_path: Path) -> ServeSettings:
    return ServeSettings(catalogue=tmp_path / "none.json", batchctl=("/nowhere",))
