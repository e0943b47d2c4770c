#!/usr/bin/python3
"""Makes the screenshots of the console: a night over PostgreSQL, with a worker, in Chromium.

    service/screenshots.py [FOLDER]      FOLDER is docs/console if it is left out

If pngquant is on the path (Debian's package of that name), the files are made small.
"""

from __future__ import annotations

import asyncio
import json
import os
import shutil
import subprocess
import sys
import tempfile
from collections.abc import Iterator
from contextlib import contextmanager
from pathlib import Path
from typing import Any

sys.path.insert(0, str(Path(__file__).resolve().parent))
sys.path.insert(0, str(Path(__file__).resolve().parent / "tests"))

from artifact_files import CHUNK_PART  # noqa: E402
from browser import Browser, browsing  # noqa: E402
from instances import COMMAND, Caller, Process  # noqa: E402
from postgres_server import PostgresServer  # noqa: E402

ARTIFACTS = {
    "extract": "echo '120 ROWS'",
    "load": "echo 'opens ledger.db' >&2\necho 'ledger.db: no space left on device' >&2\nexit 3",
    "report": "echo SENT",
    "day": "echo WEEKDAY",
    "render": 'echo "renders part $BATCH_PARTITION" >&2\necho OK',
    "send": 'echo "sends part $BATCH_PARTITION" >&2\nwhile :; do sleep 0.2; done',
}


def step(name: str, ref: str, **more: Any) -> dict[str, Any]:
    return {"kind": "step", "id": name, "batchlet": {"ref": ref}, **more}


CHUNK = {"item-count": 20, "reader": {"ref": "rows"}, "processor": {"ref": "odd"}, "writer": {"ref": "table"}}
DAY = [{"kind": "next", "on": "WEEKDAY", "to": "deliver"}, {"kind": "end", "on": "HOLIDAY", "exit-status": "NO WORK"}]
LETTERS = [step("render", "render", partitions=4, next="post"), step("post", "report")]
FLOWS = [
    {"kind": "flow", "id": "letters", "elements": LETTERS},
    {"kind": "flow", "id": "mails", "elements": [step("send", "send", partitions=3)]},
]
STATEMENTS = [
    step("collect", "extract", next="day"),
    {"kind": "decision", "id": "day", "ref": "day", "transitions": DAY},
    {"kind": "split", "id": "deliver", "next": "archive", "flows": FLOWS},
    step("archive", "report"),
]
JOBS = [
    {
        "id": "nightly",
        "elements": [
            {"kind": "step", "id": "extract", "next": "load", "chunk": CHUNK},
            step("load", "load", next="report"),
            step("report", "report"),
        ],
    },
    {"id": "statements", "elements": STATEMENTS},
    {"id": "rates", "elements": [step("fetch", "report")]},
]


def write_artifacts(folder: Path) -> None:
    """Shell scripts, and the parts of a chunk."""
    folder.mkdir()
    scripts = {name: f"#!/bin/sh\n{text}\n" for name, text in ARTIFACTS.items()}
    for name, text in {**scripts, **dict.fromkeys(("rows", "odd", "table"), CHUNK_PART)}.items():
        (folder / name).write_text(text)
        (folder / name).chmod(0o755)


async def begin(url: str) -> None:
    """What is shown: past nights, one that fails, and one that runs."""
    caller = Caller(url)
    for day in range(20, 27):
        await caller.start("rates", date=f"2026-11-{day}")
    await caller.start("nightly", date="2026-11-27", items="120")
    await caller.start("statements", month="2026-11", printer="hall")
    await caller.change((await caller.start("rates", date="2026-11-27")).told["executionId"], "stop")


@contextmanager
def night(folder: Path) -> Iterator[Process]:
    """A service and a worker, with PostgreSQL."""
    write_artifacts(folder / "artifacts")
    (folder / "catalogue.json").write_text(json.dumps({"jobs": JOBS}))
    server = PostgresServer.make()
    words = ["--catalogue", str(folder / "catalogue.json"), "--postgres", server.dsn, "--lease", "12"]
    service = Process(folder / "serve.log", *words)
    words = [sys.executable, str(COMMAND), "worker", "--url", service.url, "--client", "farm-1", "--slots", "8"]
    worker: subprocess.Popen[bytes] | None = None
    try:
        server.start()
        service.start()
        asyncio.run(service.until_role("leader"))
        asyncio.run(begin(service.url))
        worker = subprocess.Popen([*words, "--artifacts", str(folder / "artifacts")], env=os.environ)
        yield service
    finally:
        if worker is not None:
            worker.kill()
            worker.wait()
        service.kill()
        server.remove()


class Camera:
    def __init__(self, browser: Browser, url: str, folder: Path) -> None:
        self._browser = browser
        self._url = url
        self._folder = folder

    def open(self, page: str, *texts: str) -> None:
        self._browser.open(f"{self._url}/{page}")
        for text in texts:
            self._browser.see(text)
        self._browser.see("live", "#connection")

    def take(self, name: str, width: int = 1200, most: int = 1500, least: int = 0) -> None:
        """Takes the whole page, up to so many lines of points."""
        self._browser.size(width, least or 300)
        height = int(self._browser.run("return document.documentElement.scrollHeight"))
        self._browser.size(width, max(least, min(most, height)))
        self._browser.run("document.activeElement.blur(); document.getElementById('said').textContent = ''")
        self._browser.until(lambda: self._browser.run("return document.querySelector('main section') !== null"))
        self._browser.driver.save_screenshot(str(self._folder / f"{name}.png"))


def take_all(browser: Browser, url: str, folder: Path) -> None:
    camera = Camera(browser, url, folder)
    browser.driver.execute_cdp_cmd("Emulation.setScrollbarsHidden", {"hidden": True})
    browser.size(1200, 900)
    camera.open("#/execution/9", "2026-11", "send, partition 2, work item")
    camera.open("#/", "statements", "Jobs of the catalogue", "History")
    camera.take("jobs")
    camera.open("#/executions", "1 to 10 of 10")
    camera.take("executions")
    camera.open("#/execution/8", "Why it failed")
    camera.take("execution", most=1280)
    camera.open("#/work", "3 work items are held")
    camera.take("work", least=420)
    browser.scheme("dark")
    browser.size(1200, 900)
    camera.open("#/execution/9", "statements", "WEEKDAY")
    camera.take("running", most=1180)
    browser.size(390, 844)
    camera.open("#/execution/8", "Why it failed")
    browser.click("[data-action=restart]")
    browser.see("COMPLETED here: extract.", "dialog")
    camera.take("question", width=390, most=844)


def main() -> int:
    given = sys.argv[1:] or [str(Path(__file__).resolve().parents[1] / "docs" / "console")]
    folder = Path(given[0])
    folder.mkdir(parents=True, exist_ok=True)
    with tempfile.TemporaryDirectory() as made, night(Path(made)) as service, browsing() as browser:
        take_all(browser, service.url, folder)
        complaints = browser.complaints()
    pictures = sorted(folder.glob("*.png"))
    if shutil.which("pngquant"):
        subprocess.run(["pngquant", "--ext", ".png", "--force", "--strip", "64", *map(str, pictures)], check=True)
    print(f"{len(pictures)} screenshots in {folder}; the browser complained {len(complaints)} times")
    return 1 if complaints else 0


if __name__ == "__main__":
    sys.exit(main())
