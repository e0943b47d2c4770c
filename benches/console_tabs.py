#!/usr/bin/python3
"""Measures what the console's tabs read beside a night.

    benches/console_tabs.py [--tabs 64] [--seconds 60] [--rate 20]

It starts a service over PostgreSQL, and windows of Chromium that show four of the console's pages by turns. Each window reaches
the service by a port of its own, where its bytes are counted. Meanwhile clients make so many operations a second: they start
jobs and run them. One job execution has 64 partitions, each with a log of 64 KiB; half of them run, and hand in longer logs.
"""

from __future__ import annotations

import argparse
import asyncio
import json
import statistics
import sys
import tempfile
import time
from collections.abc import AsyncIterator
from contextlib import AsyncExitStack, asynccontextmanager, suppress
from pathlib import Path
from typing import Any

SERVICE = Path(__file__).resolve().parents[1] / "service"
sys.path.insert(0, str(SERVICE))
sys.path.insert(0, str(SERVICE / "tests"))

from browser import WORDS, Browser, browsing  # noqa: E402
from instances import Caller, Process  # noqa: E402
from postgres_server import PostgresServer  # noqa: E402

PARTITIONS = 64
LOG_LINE = "the artifact says what it does, line by line, as long as it runs\n"
LOG_BYTES = 65_536
READ_BYTES = 65_536
SETTLE_SECONDS = 5.0
HEARTBEAT_SECONDS = 5.0
CLIENTS = 4
PAGES = {"Jobs": "", "Executions": "#/executions", "Work": "#/work", "a job execution": "#/execution/1"}
JOBS = [
    {"id": "wide", "elements": [{"kind": "step", "id": "print", "batchlet": {"ref": "print"}, "partitions": PARTITIONS}]},
    {"id": "short", "elements": [{"kind": "step", "id": "only", "batchlet": {"ref": "only"}}]},
]


class Counted:
    """A port by which one tab reaches the service."""

    def __init__(self, port: int) -> None:
        self._service = port
        self.bytes = 0
        self.port = 0

    @asynccontextmanager
    async def serving(self) -> AsyncIterator[Counted]:
        server = await asyncio.start_server(self._serve, "127.0.0.1", 0)
        self.port = server.sockets[0].getsockname()[1]
        try:
            yield self
        finally:
            server.close()

    async def _serve(self, reader: asyncio.StreamReader, writer: asyncio.StreamWriter) -> None:
        with suppress(OSError):
            from_service, to_service = await asyncio.open_connection("127.0.0.1", self._service)
            await asyncio.gather(self._pass(reader, to_service, False), self._pass(from_service, writer, True))

    async def _pass(self, reader: asyncio.StreamReader, writer: asyncio.StreamWriter, is_counted: bool) -> None:
        with suppress(OSError):
            while data := await reader.read(READ_BYTES):
                self.bytes += len(data) if is_counted else 0
                writer.write(data)
                await writer.drain()
        with suppress(OSError):
            writer.close()


class Night:
    """Operations at a steady pace, and how long each of them took."""

    def __init__(self, url: str, rate: float) -> None:
        self.url = url
        self.pause = CLIENTS / rate
        self.seconds: list[float] = []

    async def timed(self, call: Any) -> Any:
        begun = time.perf_counter()
        answer = await call
        self.seconds.append(time.perf_counter() - begun)
        await asyncio.sleep(max(0.0, self.pause - (time.perf_counter() - begun)))
        return answer

    async def run(self, place: int) -> None:
        """Starts and runs jobs of one step, for ever. Every tenth fails."""
        caller = Caller(self.url, f"night-{place}")
        for number in range(1_000_000):
            await self.timed(caller.start("short", night=f"{place}-{number}"))
            told = (await self.timed(caller.claim())).told
            if "work" not in told:
                continue
            outcome = {"outcome": "FAILED", "exit": "DISK FULL"} if number % 10 == 0 else {}
            await self.timed(caller.finish(told["work"]["work"], log=LOG_LINE * 100, **outcome))

    async def beat(self) -> None:
        """Heartbeats of the partitions that run, with longer logs each time, for ever."""
        caller, log = Caller(self.url, "wide"), LOG_LINE * (LOG_BYTES // len(LOG_LINE) - 100)
        while True:
            log += LOG_LINE
            for work in range(PARTITIONS // 2 + 1, PARTITIONS + 1):
                await caller.ask("PUT", f"/batch/work/{work}?action=heartbeat", {"log": log})
            await asyncio.sleep(HEARTBEAT_SECONDS)


async def begin_wide(url: str) -> None:
    """Job execution 1: half of its partitions are over, each with a log."""
    caller = Caller(url, "wide")
    await caller.start("wide")
    for _ in range(PARTITIONS):
        await caller.claim()
    for work in range(1, PARTITIONS // 2 + 1):
        await caller.finish(work, log=(LOG_LINE * 2_000)[-LOG_BYTES:])


def open_windows(browser: Browser, ports: list[int]) -> None:
    """A window for each port, on one of the pages."""
    pages = list(PAGES.values())
    for place, port in enumerate(ports):
        if place:
            browser.driver.switch_to.new_window("window")
        browser.open(f"http://127.0.0.1:{port}/{pages[place % len(pages)]}")


async def measure(url: str, port: int, given: argparse.Namespace) -> None:
    await begin_wide(url)
    night = Night(url, given.rate)
    working = [asyncio.create_task(one) for one in (*(night.run(place) for place in range(CLIENTS)), night.beat())]
    async with AsyncExitStack() as stack:
        tabs = [await stack.enter_async_context(Counted(port).serving()) for _ in range(given.tabs)]
        await asyncio.sleep(given.seconds)
        alone, night.seconds = night.seconds, []
        with browsing() as browser:
            await asyncio.to_thread(open_windows, browser, [tab.port for tab in tabs])
            await asyncio.sleep(SETTLE_SECONDS)
            before, night.seconds = [tab.bytes for tab in tabs], []
            await asyncio.sleep(given.seconds)
            taken = [tab.bytes - old for tab, old in zip(tabs, before)]
            beside = night.seconds
        for task in working:
            task.cancel()
        await asyncio.gather(*working, return_exceptions=True)
    show(taken, alone, beside, given)


def show(taken: list[int], alone: list[float], beside: list[float], given: argparse.Namespace) -> None:
    print(f"{given.tabs} tabs for {given.seconds:g} s; kilobytes a minute and tab")
    print(f"{'page':20} {'tabs':>5} {'median':>8} {'most':>8}")
    for place, name in enumerate(PAGES):
        rates = [one * 60 / given.seconds / 1_000 for one in taken[place :: len(PAGES)]]
        if rates:
            print(f"{name:20} {len(rates):5} {statistics.median(rates):8.0f} {max(rates):8.0f}")
    print(f"{'operations':20} {'a second':>9} {'median ms':>10} {'99 % ms':>8}")
    for name, seconds in (("without tabs", alone), ("beside the tabs", beside)):
        last = statistics.quantiles(seconds, n=100)[98]
        rate, middle = len(seconds) / given.seconds, statistics.median(seconds)
        print(f"{name:20} {rate:9.1f} {middle * 1000:10.1f} {last * 1000:8.1f}")


def main() -> int:
    parser = argparse.ArgumentParser(description=__doc__, formatter_class=argparse.RawDescriptionHelpFormatter)
    parser.add_argument("--tabs", type=int, default=64)
    parser.add_argument("--seconds", type=float, default=60.0)
    parser.add_argument("--rate", type=float, default=20.0)
    given = parser.parse_args()
    # Windows that stand behind others are shown, too.
    WORDS.extend(["--disable-backgrounding-occluded-windows", "--disable-renderer-backgrounding"])
    server = PostgresServer.make()
    with tempfile.TemporaryDirectory() as folder:
        catalogue = Path(folder) / "catalogue.json"
        catalogue.write_text(json.dumps({"jobs": JOBS}))
        service = Process(Path(folder) / "serve.log", "--catalogue", str(catalogue), "--postgres", server.dsn, "--lease", "600")
        try:
            server.start()
            service.start()
            asyncio.run(service.until_role("leader"))
            asyncio.run(measure(service.url, service.port, given))
        finally:
            service.kill()
            server.remove()
    return 0


if __name__ == "__main__":
    sys.exit(main())
