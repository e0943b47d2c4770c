"""The console says where the archive has a job execution that was purged, and shows it."""

from __future__ import annotations

import asyncio
from collections.abc import Callable
from pathlib import Path
from urllib.parse import quote

from browser import Browser
from consoles import browser_made, no_complaints
from instances import Caller, Process
from retained import ended, execution, record

from job_host.archive.folder import ArchiveFolder
from job_host.service.settings import ServeSettings
from job_host.service.terms import moments

__all__ = ["browser_made", "no_complaints"]

# 2026-11-01 at 00:00 UTC.
NOVEMBER = 1_793_491_200_000
ARCHIVE = "section[data-key='In the archive']"


def test_what_was_purged_is_found_and_shown(browser: Browser, embedded: Callable[..., ServeSettings], tmp_path: Path) -> None:
    made = embedded()
    words = ["--catalogue", str(made.catalogue), "--batchctl", made.batchctl[0], "--data", str(made.data)]
    service = Process(tmp_path / "serve.log", *words, "--archive", str(tmp_path / "archive"))
    service.start()
    try:
        asyncio.run(service.until_role("leader"))
        caller = Caller(service.url)
        for date in ("<b>first</b>", "second"):
            asyncio.run(ended(caller, "short", "FAILED", date=date))
        asyncio.run(caller.ask("DELETE", "/batch/jobinstances/1"))
        archive = ArchiveFolder(tmp_path / "archive")
        old = execution(1, 1, "wide", "COMPLETED", NOVEMBER, text="of old")
        logs = [{"work": number, "stepName": "load", "partition": None, "log": "a log"} for number in range(1, 61)]
        archive.append(record(NOVEMBER, {**old, "logs": logs}, history="old"), moments.clock())
        (file,) = [path.name for path in (tmp_path / "archive").glob("*.jsonl")]
        for search in ("1", "DATE=<b>first", "sho"):
            browser.open(f"{service.url}/#/executions?search={quote(search)}")
            browser.see("<b>first</b>", ARCHIVE)
            browser.see(file, ARCHIVE)
            assert "second" not in browser.all(ARCHIVE)[0].text
        browser.see("second", "main")
        browser.all(f"{ARCHIVE} a[href^='#/execution/1?history=']")[0].click()
        browser.see("Job execution 1 of short \u2715 FAILED")
        browser.open(f"{service.url}/#/execution/1")
        browser.see("Job execution 1 of short \u2715 FAILED")
        browser.see(f"It was purged. The archive has it, in {file}, since")
        browser.see("<b>first</b>", "section[data-key=Parameters]")
        browser.see("only", "section[data-key=Steps]")
        browser.see("start", "section[data-key='Who did what']")
        browser.run("document.querySelector('section[data-key=Logs] details').open = true")
        browser.see("the log of 1", "section[data-key=Logs]")
        assert not browser.all("main button[data-action]")
        # One of another history, with many logs.
        browser.open(f"{service.url}/#/executions?search=of%20old")
        browser.see("wide", ARCHIVE)
        browser.all(f"{ARCHIVE} a[href='#/execution/1?history=old']")[0].click()
        browser.see("page 1 of each list")
        browser.see("work item 50", "section[data-key=Logs]")
        browser.all("nav[aria-label='Pages of the lists'] a")[0].click()
        browser.see("page 2 of each list")
        browser.see("work item 51", "section[data-key=Logs]")
        # One that is there, and one that never was.
        browser.open(f"{service.url}/#/executions?search=2nd")
        browser.see("The archive has none.", ARCHIVE)
        browser.open(f"{service.url}/#/executions")
        browser.see("second")
        assert not browser.all(ARCHIVE)
        browser.open(f"{service.url}/#/execution/9")
        browser.see("NoSuchJobExecutionException")
    finally:
        service.kill()
