"""The console shows the versions of jobs, and each job execution with the picture of its own version."""

from __future__ import annotations

import asyncio
import json
from collections.abc import Callable, Iterator
from pathlib import Path

import pytest
from browser import Browser
from consoles import ask, browser_made, no_complaints, states
from instances import Caller, Process
from job_versions import JSL, applied, job_file, write_jobs

from job_host.commands.program import find_batchctl

__all__ = ["browser_made", "no_complaints"]

TWO = JSL % ("nightly", '<step id="first" next="second"><batchlet ref="b"/></step><step id="second"><batchlet ref="b"/></step>')


@pytest.fixture
def service(tmp_path: Path, has_log: None) -> Iterator[Process]:
    """A service over a log, whose jobs are a folder's."""
    folder = write_jobs(tmp_path / "jobs", nightly="first", other="first")
    words = ["--jobs", str(folder), "--batchctl", find_batchctl(None)[0], "--data", str(tmp_path / "data")]
    process = Process(tmp_path / "serve.log", *words)
    process.start()
    try:
        asyncio.run(process.until_role("leader"))
        yield process
    finally:
        process.kill()


async def fail_one(caller: Caller) -> None:
    await caller.start()
    work = (await caller.claim()).told["work"]["work"]
    await caller.finish(work, "FAILED")


def test_versions_are_shown_beside_names(browser: Browser, service: Process) -> None:
    caller = Caller(service.url)
    asyncio.run(fail_one(caller))
    browser.open(service.url)
    browser.see("1 nightly \u2715 FAILED", "section[data-key=Open]")

    def jobs() -> list[str]:
        return browser.texts("section[data-key='Jobs of the catalogue'] tbody th")

    assert sorted(jobs()) == ["nightly", "other"]
    # A change is no operation, and an open page shows it all the same.
    asyncio.run(caller.apply("nightly", TWO))
    browser.until(lambda: sorted(jobs()) == ["nightly (version 2)", "other"])
    asyncio.run(fail_one(caller))
    browser.see("2 nightly (version 2) \u2715 FAILED", "section[data-key=Open]")
    for number, heading, boxes in ((2, "nightly (version 2)", {"first", "second"}), (1, "nightly", {"only"})):
        browser.open(f"{service.url}/#/execution/{number}")
        browser.see(f"Job execution {number} of {heading} \u2715 FAILED")
        browser.until(same_boxes(browser, boxes))
    browser.open(f"{service.url}/#/job/nightly")
    browser.until(lambda: len(browser.all(".picture [data-element]")) == 2)
    asyncio.run(caller.apply("nightly", job_file("third")))
    browser.until(lambda: len(browser.all(".picture [data-element]")) == 1)


def test_the_page_of_a_job_shows_its_next_starts(browser: Browser, service: Process) -> None:
    """And that of a job without a schedule shows none."""
    settings = {"schedule": {"cron": "30 12 * * *", "zone": "Asia/Tokyo", "parameters": {"region": "<b>north"}}}
    asyncio.run(applied(Caller(service.url), TWO, json.dumps(settings)))
    browser.open(f"{service.url}/#/job/nightly")
    browser.see("By 30 12 * * * in Asia/Tokyo.", "section[data-key=Schedule]")
    rows = browser.texts("section[data-key=Schedule] tbody tr")
    assert len(rows) == 5 and all("T12:30:00+09:00" in row and "region=<b>north" in row for row in rows)
    browser.open(f"{service.url}/#/job/other")
    browser.see("Job other", "h1")
    assert not browser.all("section[data-key=Schedule]")


def same_boxes(browser: Browser, boxes: set[str]) -> Callable[[], bool]:
    return lambda: set(states(browser)) == boxes


def test_a_withdrawn_job_is_not_to_be_started(browser: Browser, service: Process) -> None:
    caller = Caller(service.url)
    browser.open(service.url)
    browser.click("[data-action=start][data-job=nightly]")
    browser.see("A new job instance of nightly is made", "dialog")
    asyncio.run(caller.ask("DELETE", "/batch/jobs/nightly"))
    browser.click("dialog [data-confirm=Start]")
    browser.see("It is withdrawn: what it has can be restarted, and nothing is started.", "dialog")
    browser.click("dialog [data-cancel]")
    browser.until(lambda: browser.texts("section[data-key='Jobs of the catalogue'] tbody th") == ["other"])
    assert ask(service.url, "GET", "/batch/jobinstances").told == []
