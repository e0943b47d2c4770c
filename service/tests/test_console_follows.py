"""The console as it follows: a page that rests, a log that grows, many job executions at once, and the workers."""

from __future__ import annotations

import asyncio
import re
import time

from browser import Browser
from consoles import ask, reads, reads_at_rest, start
from consoles import browser_made, no_complaints, service_made, words_made  # noqa: F401
from instances import Caller, Process


def test_a_page_of_what_is_over_rests_and_a_log_is_read_from_where_it_ended(browser: Browser, service: Process) -> None:
    """It is read again after an operation on it or on another attempt."""
    caller, others = Caller(service.url), "section[data-key='Earlier and later job executions'] tbody"

    async def fail() -> None:
        await caller.start("nightly")
        await caller.claim()
        await caller.finish(1, "FAILED", log="no paper")

    asyncio.run(fail())
    browser.open(service.url + "/#/execution/1")
    browser.see("no paper", "section[data-key=Logs]")
    browser.see("live", "#connection")
    before = reads_at_rest(browser, "/joblogs")
    start(service, "nightly")
    asyncio.run(caller.change(2, "stop"))
    time.sleep(1.5)
    assert reads(browser, "/joblogs") == before
    asyncio.run(caller.change(1, "restart"))
    browser.see("3 \u25cc STARTING", others)
    asyncio.run(caller.claim())
    browser.see("3 \u25b6 STARTED", others)
    asyncio.run(caller.ask("PUT", "/batch/work/2?action=heartbeat", {"log": "one page\n"}))
    browser.open(service.url + "/#/execution/3")
    browser.see("one page", "section[data-key=Logs] pre")
    asyncio.run(caller.finish(2, log="one page\nand another\n"))
    browser.see("one page and another", "section[data-key=Logs] pre")
    assert reads(browser, "/batch/work/2/log?offset=9") >= 1


def test_many_are_restarted_and_stopped_by_clicks(browser: Browser, service: Process) -> None:
    """What came of each is told, and how long each took beside its job's past."""
    caller = Caller(service.url)

    async def make() -> None:
        for work, outcome in enumerate(("COMPLETED", "FAILED", "FAILED"), 1):
            await caller.start("branching" if work == 1 else "nightly")
            await caller.claim()
            await caller.finish(work, outcome, exit="HOLIDAY" if work == 1 else "3")
        await caller.start("nightly")

    def choose(count: int) -> None:
        browser.until(lambda: len(browser.all("[data-choose]")) == count)
        browser.click("[data-action=choose-all]")

    def outcomes() -> list[str]:
        return browser.texts("dialog .many li")

    asyncio.run(make())
    browser.open(service.url + "/#/executions")
    browser.see("in extract", "tbody")
    assert browser.run("return document.querySelector('tbody svg.bar').getAttribute('aria-label')").startswith("usually ")
    choose(3)
    browser.click("[data-action=restart-many]")
    browser.see("Restart 2 job executions? Each goes on where it ended", "dialog")
    browser.see("1 of the chosen can't be asked for that.", "dialog")
    asyncio.run(caller.change(2, "restart"))
    browser.click("dialog [data-confirm=Restart]")
    browser.see("Restart: 1 of 2 job executions done.", "#said")
    told = sorted(outcomes())
    assert told[0].startswith("2 of nightly: JobExecutionNotMostRecentException.")
    assert told[1] == "3 of nightly: job execution 6 goes on for it."
    browser.click("dialog [data-cancel]")
    choose(3)
    browser.click("[data-action=stop-many]")
    browser.click("dialog [data-confirm=Stop]")
    browser.until(lambda: outcomes() == [f"{number} of nightly: it is asked to stop." for number in (6, 5, 4)])
    browser.click("dialog [data-cancel]")
    assert ask(service.url, "GET", "/batch/jobs").told["statusCounts"]["STOPPED"] == 3


def test_workers_are_shown_and_that_none_asks(browser: Browser, service: Process) -> None:
    start(service, "nightly")
    browser.open(service.url + "/#/execution/1")
    words = str(browser.until(lambda: browser.text(".waits")))
    assert re.fullmatch("It waits. No worker has asked for work for ([0-9]+ s|[0-9]+ min [0-9]+ s)[.]", words)
    asyncio.run(Caller(service.url, "farm").claim())
    browser.until(lambda: not browser.all(".waits"))
    browser.click_text("Workers", "header")
    browser.see("1 worker is known.")
    assert browser.find("tbody th").text == "farm"
    browser.see("1: extract of 1", "tbody")
