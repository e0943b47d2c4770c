"""The console: what a person sees and does in a browser."""

from __future__ import annotations

import asyncio
import re
import time
from collections.abc import Callable, Iterator
from pathlib import Path
from typing import Any

import pytest
from browser import Browser
from consoles import HARD_JOB, HARD_LOG, HARD_VALUE, MARKS, ask, bars, reads, start, states
from consoles import artifacts_made, browser_made, no_complaints, service_made, words_made, worker_made  # noqa: F401
from instances import Caller, Instance, Process, running
from selenium.webdriver.common.action_chains import ActionChains
from selenium.webdriver.common.keys import Keys
from selenium.webdriver.support.select import Select
from workers import WorkerProcess

from job_host.service.settings import HistoryBounds, ServeSettings

Make = Callable[..., ServeSettings]
READER, OPERATOR = "r" * 20, "o" * 20


def colours(browser: Browser) -> dict[str, str]:
    script = """return [...document.querySelectorAll('.picture [data-element]')].map(
        g => [g.dataset.element, getComputedStyle(g.querySelector('rect')).fill])"""
    return dict(browser.run(script))


def type_parameter(browser: Browser, name: str, value: str) -> None:
    browser.find("dialog .editor-row:last-child input").send_keys(name)
    browser.find("dialog .editor-row:last-child textarea").send_keys(value)


def test_a_night_is_started_fails_is_read_mended_restarted_and_completed_by_clicks(
    browser: Browser, service: Process, worker: WorkerProcess, artifacts: Path
) -> None:
    browser.open(service.url)
    browser.click("[data-action=start][data-job=nightly]")
    browser.see("A new job instance of nightly is made", "dialog")
    type_parameter(browser, "date", "2026-11-27")
    browser.click("dialog [data-confirm=Start]")
    browser.see("Job execution 1 of nightly")
    browser.see("Why it failed")
    browser.see("load is FAILED, exit status 3", ".reason")
    browser.see("no space left on the ledger", ".reason pre")
    assert states(browser) == {"extract": "\u2713 COMPLETED: 120 ROWS", "load": "\u2715 FAILED: 3", "report": "\u00b7 not run"}
    assert len(set(colours(browser).values())) == 3
    browser.click_text("Jobs", "header")
    browser.see("load: 3 no space left on the ledger", "section[data-key=Open]")
    browser.see("1 FAILED, open", ".tiles")
    browser.click("section[data-key=Open] tbody th a")
    browser.see("Why it failed")
    (artifacts / "mended").touch()
    browser.click("[data-action=restart]")
    browser.see("COMPLETED here: extract.", "dialog")
    assert browser.find("dialog textarea").get_property("value") == "2026-11-27"
    browser.click("dialog [data-confirm=Restart]")
    browser.see("Job execution 2 of nightly \u2713 COMPLETED")
    browser.until(lambda: "COMPLETED: LOADED" in states(browser)["load"])
    assert states(browser)["extract"] == "\u2713 COMPLETED in 1"
    others = browser.text("section[data-key='Earlier and later job executions']")
    assert "2 (this one)" in others and "extract COMPLETED" in others
    told = ask(service.url, "GET", "/batch/jobexecutions/2").told
    assert (told["batchStatus"], told["jobParameters"]) == ("COMPLETED", {"date": "2026-11-27"})
    browser.click_text("Executions", "header")
    browser.see("1 nightly \u2715 FAILED restarted", "tbody")
    browser.click_text("Jobs", "header")
    browser.see("No job instance is FAILED or STOPPED.", "section[data-key=Open]")
    browser.see("0 FAILED, open", ".tiles")
    browser.click("[data-action=start][data-job=nightly]")
    browser.see("those of its last job execution, 2, which is COMPLETED.", "dialog")
    assert browser.find("dialog textarea").get_property("value") == "2026-11-27"
    browser.click("dialog [data-cancel]")


def test_what_is_open_was_not_restarted_since(browser: Browser, service: Process) -> None:
    """Its jobs come first, and a filter finds the others."""

    async def fail_both() -> None:
        caller = Caller(service.url)
        for work in (1, 2):
            await caller.start("branching")
            await caller.claim()
            await caller.finish(work, "FAILED")

    def rows(section: str) -> list[str]:
        return browser.texts(f"section[data-key='{section}'] tbody th")

    asyncio.run(fail_both())
    browser.open(service.url)
    browser.until(lambda: rows("Open") == ["2", "1"])
    assert rows("Jobs of the catalogue")[:2] == ["branching", "nightly"]
    browser.click(".tile.status-STOPPED")
    browser.until(lambda: rows("Open") == [])
    browser.click(".tile.status-STOPPED")
    for number, rest in ((2, ["1"]), (1, [])):
        asyncio.run(Caller(service.url).change(number, "restart"))
        browser.until(lambda rest=rest: rows("Open") == rest, 10)  # type: ignore[misc]
    browser.see("No job instance is FAILED or STOPPED.")
    browser.until(lambda: rows("Running") == ["4", "3"])
    browser.find("#filter").send_keys("PAT")
    browser.until(lambda: rows("Jobs of the catalogue") == ["patient"])
    asyncio.run(Caller(service.url).start("nightly"))
    browser.until(lambda: rows("Running") == ["5", "4", "3"])
    assert rows("Jobs of the catalogue") == ["patient"]
    browser.find("#filter").send_keys(Keys.BACKSPACE * 3)
    check_orders(browser, lambda: " ".join(row for row in rows("Jobs of the catalogue") if row.isalnum()))


def check_orders(browser: Browser, told: Callable[[], str]) -> None:
    orders = {
        "by name": "branching deep dense long many nightly patient",
        "changed last first": "nightly branching",
        "most job instances first": "branching nightly",
    }
    select: Any = Select
    for order, names in orders.items():
        select(browser.find("#sort")).select_by_visible_text(order)
        browser.until(lambda names=names: told().startswith(names))  # type: ignore[misc]


# Whether the page's own words behind a text of the service still run from left to right.
LEFT_TO_RIGHT = """
const left = (node, place) => {
    const range = document.createRange();
    range.setStart(node, place);
    range.setEnd(node, place + 1);
    return range.getBoundingClientRect().left;
};
const walker = document.createTreeWalker(document.querySelector(arguments[0]), NodeFilter.SHOW_TEXT);
const own = [];
while (walker.nextNode()) if (!walker.currentNode.parentNode.closest("bdi")) own.push(walker.currentNode);
const words = own.pop();
const first = words.data.search(/[A-Za-z]/);
return words.data.length > first + 3 && left(words, first) < left(words, first + 3);
"""


def test_texts_are_shown_as_texts(browser: Browser, service: Process, worker: WorkerProcess) -> None:
    assert (len(HARD_JOB.encode()), len(HARD_VALUE.encode())) == (256, 4096) and len(HARD_LOG.encode()) > 3900
    start(service, HARD_JOB, **{MARKS: HARD_VALUE})
    browser.open(service.url + "/#/execution/1")
    browser.see("Why it failed")

    def texts(selector: str) -> list[str]:
        return list(browser.run("return [...document.querySelectorAll(arguments[0])].map(n => n.textContent)", selector))

    assert texts("h1 bdi") == [HARD_JOB]
    assert texts(".parameters dt") == [MARKS] and texts(".parameters dd") == [HARD_VALUE]
    assert texts("details pre") == [HARD_LOG]
    assert texts("section[data-key=Steps] tbody th bdi") == [MARKS]
    assert texts(".picture [data-element] title")[0].split("\n")[0] == MARKS
    assert all(browser.run(LEFT_TO_RIGHT, one) for one in (".reason p", "details summary", "h1"))
    browser.click("h1 a")
    browser.see("Newest job executions")
    assert texts("h1 bdi") == [HARD_JOB] and "line" not in texts("tbody td bdi")
    browser.click_text("Jobs", "header")
    browser.until(lambda: HARD_JOB in texts("tbody th bdi"))
    browser.click_text("Executions", "header")
    browser.until(lambda: HARD_JOB in texts("tbody td bdi"))
    assert browser.run("return [window.bad, document.querySelectorAll('main script, main img').length]") == [None, 0]


def test_parameters_go_into_a_restart_as_they_are(browser: Browser, service: Process, worker: WorkerProcess) -> None:
    start(service, HARD_JOB, **{MARKS: HARD_VALUE, "__proto__": "kept"})
    browser.open(service.url + "/#/execution/1")
    browser.click("[data-action=restart]")
    browser.click_text("Add a parameter", "dialog")
    type_parameter(browser, "more", "<b>")
    browser.click("dialog [data-confirm=Restart]")
    browser.see("Job execution 2 of")
    told = ask(service.url, "GET", "/batch/jobexecutions/2").told["jobParameters"]
    assert told == {MARKS: HARD_VALUE, "__proto__": "kept", "more": "<b>"}


def test_stop_lose_abandon_and_purge_by_clicks(
    browser: Browser, service: Process, worker: WorkerProcess, artifacts: Path
) -> None:
    start(service, "patient")
    browser.open(service.url + "/#/work")
    browser.see("2 work items are held")
    browser.see("wait")
    browser.click("tbody tr:nth-child(1) [data-action=lose]")
    browser.see("If its worker still lives, what it reports of this work item is refused", "dialog")
    browser.see("wait, partition 0, held by", "dialog")
    browser.click("dialog [data-cancel]")
    browser.click("tbody tr:nth-child(1) [data-action=lose]")
    browser.click("dialog [data-confirm=Lose]")
    browser.see("1 work item is held")
    browser.click("tbody td a[href='#/execution/1']")
    browser.see("LOST", "section[data-key='Work items']")
    browser.until(lambda: bars(browser, "Steps") == ["2 partitions: 1 LOST, 1 STARTED"])
    browser.click("[data-action=stop]")
    browser.see("Running now: wait, partition 1", "dialog")
    browser.click("dialog [data-confirm=Stop]")
    browser.see("Job execution 1 of patient \u25d0 STOPPING")
    assert browser.all("[data-action=restart], [data-action=purge]") == []
    (artifacts / "go-on").touch()
    browser.see("Job execution 1 of patient \u2715 FAILED")
    browser.click("[data-action=abandon]")
    browser.see("It is FAILED now, and ABANDONED then.", "dialog")
    browser.click("dialog [data-confirm=Abandon]")
    browser.see("Job execution 1 of patient \u2298 ABANDONED")
    done = [" ".join(row.text.split()[1:-2]) for row in browser.all("section[data-key='Who did what'] tbody tr")]
    what = ["abandon console", "stop console", "lose, work item 1 console", "start tester"]
    assert done == [f"{each} 127.0.0.1" for each in what]
    browser.click("[data-action=purge]")
    browser.see("Purge job instance 1 of patient?", "dialog")
    browser.see("Its job execution 1, with all its steps, checkpoints and logs, is removed for good.", "dialog")
    browser.click("dialog [data-confirm=Purge]")
    browser.see("No job execution is found.")
    assert ask(service.url, "GET", "/batch/jobexecutions/1").name == "NoSuchJobExecutionException"


def test_a_refusal_is_told_in_the_question(browser: Browser, service: Process) -> None:
    start(service, "nightly")
    browser.open(service.url + "/#/execution/1")
    browser.click("[data-action=stop]")
    browser.see("Nothing of it runs now, so it is STOPPED at once.", "dialog")
    ask(service.url, "PUT", "/batch/jobexecutions/1?action=stop")
    browser.click("dialog [data-confirm=Stop]")
    browser.see("JobExecutionNotRunningException. It has ended meanwhile", "dialog [role=alert]")
    browser.run("location.hash = '#/work'")
    browser.see("No worker holds a work item.")
    assert not browser.run("return document.getElementById('question').open")


def test_what_was_refused_is_corrected_and_made(browser: Browser, service: Process) -> None:
    browser.open(service.url)
    browser.click("[data-action=start][data-job=nightly]")
    browser.find("dialog input").send_keys("date")
    browser.run("document.querySelector('dialog textarea').value = 'x'.repeat(4097)")
    browser.click("dialog [data-confirm=Start]")
    browser.see("TextTooLong. A name has more than 256 bytes", "dialog [role=alert]")
    browser.run("document.querySelector('dialog textarea').value = 'today'")
    browser.click_text("Add a parameter", "dialog")
    type_parameter(browser, "date", "twice")
    browser.click("dialog [data-confirm=Start]")
    browser.see("BadRequest: the name date comes twice", "dialog [role=alert]")
    browser.click("dialog .editor-row:last-child button")
    browser.click("dialog [data-confirm=Start]")
    browser.see("Job execution 1 of nightly")
    assert ask(service.url, "GET", "/batch/jobexecutions/1").told["jobParameters"] == {"date": "today"}


def test_an_operation_is_made_once_whatever_happens_to_the_connection(browser: Browser, service: Process) -> None:
    """The answer is lost on its way, twice: the console asks again by its key."""
    browser.open(service.url)
    browser.click("[data-action=start][data-job=nightly]")
    browser.run(
        """const real = window.fetch;
        window.lost = [];
        window.fetch = async (path, given) => {
            const answer = await real(path, given);
            if (given.method === "POST" && window.lost.length < 2) {
                window.lost.push(answer.status);
                throw new TypeError("lost");
            }
            return answer;
        };"""
    )
    browser.click("dialog [data-confirm=Start]")
    browser.see("Job execution 1 of nightly")
    assert browser.run("return window.lost") == [201, 201]
    assert ask(service.url, "GET", "/batch/jobs").told["statusCounts"] == {"STARTING": 1}


def test_a_follower_shows_everything_and_names_the_leader(
    browser: Browser, service: Process, words: list[str], tmp_path: Path
) -> None:
    follower = Process(tmp_path / "follower.log", *words)
    follower.start()
    try:
        asyncio.run(follower.until_role("follower"))
        start(service, "nightly")
        browser.open(follower.url)
        browser.see("follower", "#connection")
        browser.see("1 STARTING", ".tiles")
        browser.click("[data-action=start][data-job=nightly]")
        browser.click("dialog [data-confirm=Start]")
        browser.see(f"Another instance leads. Open its console: {service.url}", "dialog [role=alert]")
    finally:
        follower.kill()


async def test_a_history_that_fills_is_told_on_every_page(browser: Browser, settings: Make) -> None:
    def look(url: str) -> None:
        browser.open(url + "/#/work")
        browser.see("The history is almost full: 2 of 1,000,000 operations", "#warning")
        browser.see("Nothing can be started or restarted any more.", "#warning")
        browser.open(url + "/#/job/short")
        browser.click("[data-action=start]")
        browser.click("dialog [data-confirm=Start]")
        browser.see("HistoryAlmostFull", "dialog [role=alert]")
        browser.click("dialog [data-cancel]")
        browser.click_text("Jobs", "header")
        browser.see("2 of 1,000,000 operations (less than 0.01 %)", "section[data-key=History]")

    async with running(settings(other_history=HistoryBounds(1_000_000, 1, 2))) as instance:
        caller = Caller(instance.url)
        await caller.start("short")
        await caller.start("short")
        await asyncio.to_thread(look, instance.url)


def test_lists_are_searched_narrowed_and_paged_by_clicks(browser: Browser, service: Process) -> None:
    async def start_many() -> None:
        caller = Caller(service.url)
        await asyncio.gather(*(caller.start("nightly", night=f"n{number}") for number in range(60)))
        await caller.change(7, "stop")

    asyncio.run(start_many())
    browser.open(service.url + "/#/executions")
    browser.see("1 to 50 of 60")
    assert len(browser.all("tbody tr")) == 50 and browser.find("tbody th a").text == "60"
    browser.click_text("Older")
    browser.see("51 to 60 of 60")
    browser.click_text("Newer")
    browser.see("1 to 50 of 60")
    browser.click(".tile.status-STOPPED")
    browser.until(lambda: browser.texts("tbody th a") == ["7"])
    browser.click(".tile:not([class*=status])")
    browser.see("1 to 50 of 60")
    browser.find("#search").send_keys("night=n1")
    browser.click(".search button")
    browser.until(lambda: len(browser.all("tbody tr")) == 11)
    assert browser.run("return document.activeElement.closest('form.search') !== null")
    for day, count in (("2000-01-01", 1), ("2999-12-31", 11)):
        browser.run("document.getElementById('createdUntil').value = arguments[0]", day)
        browser.click(".search button")
        browser.until(lambda count=count: len(browser.all("tbody tr, section .empty")) == count)  # type: ignore[misc]
    assert "search=night%3Dn1&createdUntil=2999-12-31" in browser.run("return location.hash")


def test_attempts_of_a_job_instance_are_paged_by_clicks(browser: Browser, service: Process) -> None:
    """Also what is said of all of them is true: which is the newest, and whether a step was run."""

    def attempts() -> list[str]:
        rows = browser.texts("section[data-key='Earlier and later job executions'] tbody th")
        return [row.removesuffix(" (this one)") for row in rows]

    async def restart_often() -> None:
        caller = Caller(service.url)
        await caller.start("nightly")
        await caller.claim()
        await caller.finish(1)
        for number in range(1, 61):
            await caller.claim()
            await caller.finish(number + 1, "FAILED")
            await caller.change(number, "restart")
        await caller.change(61, "stop")

    asyncio.run(restart_often())
    browser.open(service.url + "/#/execution/61")
    browser.until(lambda: attempts() == [str(number) for number in range(61, 11, -1)])
    assert states(browser) == {name: "\u00b7 not run here" for name in ("extract", "load", "report")}
    browser.click_text("Older", "section[data-key='Earlier and later job executions']")
    browser.until(lambda: attempts() == [str(number) for number in range(11, 0, -1)])
    assert states(browser)["extract"] == "\u2713 COMPLETED in 1"
    assert browser.all("[data-action=restart]") and not browser.all("[data-action=stop]")
    browser.click("[data-action=purge]")
    browser.see("14, 13, 12 and those before them), with all their steps", "dialog")
    browser.click("dialog [data-cancel]")
    browser.click_text("Newer", "section[data-key='Earlier and later job executions']")
    browser.until(lambda: attempts()[0] == "61")
    browser.open(service.url + "/#/execution/1")
    browser.see("Why it failed")
    assert not browser.all("[data-action=restart]") and states(browser)["extract"] == "\u2713 COMPLETED"


def find_and_save_log(browser: Browser, logs: Callable[[], int], folder: Path) -> None:
    browser.find("#log-search").send_keys("LOG 64.")
    browser.click("section[data-key=Logs] .search button")
    browser.until(lambda: logs() == 1)
    browser.click("section[data-key=Logs] summary")
    browser.see("log 64.", "section[data-key=Logs] pre")
    browser.driver.execute_cdp_cmd("Browser.setDownloadBehavior", {"behavior": "allow", "downloadPath": str(folder)})
    browser.click("[data-action=save-log]")
    browser.until(lambda: (folder / "work-64.log").exists())
    assert (folder / "work-64.log").read_text() == "log 64."


def test_logs_of_many_partitions_are_paged_and_what_failed_is_told(browser: Browser, service: Process, tmp_path: Path) -> None:
    async def finish_many() -> None:
        caller = Caller(service.url)
        await caller.start("many")
        for number in range(1, 65):
            await caller.claim()
        for number in range(1, 65):
            await caller.finish(number, "FAILED" if number == 64 else "COMPLETED", log=f"log {number}.")

    def logs() -> int:
        return len(browser.all("section[data-key=Logs] details"))

    async def restart() -> None:
        caller = Caller(service.url)
        await caller.change(1, "restart")
        await caller.claim()

    asyncio.run(finish_many())
    browser.open(service.url)
    browser.see("print, partition 63: FAILED log 64.", "section[data-key=Open]")
    assert "log 1." not in browser.text("section[data-key=Open]")
    asyncio.run(restart())
    browser.open(service.url + "/#/execution/1")
    browser.see("print, partition 63 is FAILED", ".reason")
    assert [one.text for one in browser.all(".reason pre")] == ["log 64."]
    browser.until(lambda: bars(browser, "Steps") == ["64 partitions: 63 COMPLETED, 1 FAILED"])
    browser.until(lambda: logs() == 50)
    browser.click_text("Later", "section[data-key=Logs]")
    browser.until(lambda: logs() == 14)
    browser.see("work item 64", "section[data-key=Logs]")
    find_and_save_log(browser, logs, tmp_path)
    browser.open(service.url + "/#/execution/2")
    browser.click("[data-action=stop]")
    browser.see("Running now: print, partition 63, held by", "dialog")


def test_it_follows_by_itself_over_a_new_start_of_the_service(browser: Browser, service: Process) -> None:
    browser.open(service.url + "/#/executions")
    browser.see("No job execution is found.")
    start(service, "nightly")
    browser.see("nightly", "tbody")
    browser.see("live", "#connection")
    service.kill()
    browser.see("not connected", "#connection")
    browser.until(lambda: re.fullmatch(r"as of [0-9]{2}:[0-9]{2}:[0-9]{2}", browser.text("#as-of")))
    assert browser.run("return getComputedStyle(document.querySelector('main')).filter") == "grayscale(1)"
    browser.run("document.querySelector('main').style.minHeight = '3000px'; window.scrollTo(0, 9999)")
    assert browser.run("return document.querySelector('header').getBoundingClientRect().top") == 0
    service.start()
    browser.see("live", "#connection")
    browser.until(lambda: browser.text("#as-of") == "")
    assert browser.run("return getComputedStyle(document.querySelector('main')).filter") == "none"
    start(service, "patient")
    browser.see("patient", "tbody")
    browser.click("tbody tr:nth-child(1) th a")
    browser.click("[data-action=stop]")
    browser.click("dialog [data-confirm=Stop]")
    browser.see("Job execution 2 of patient \u25a0 STOPPED")


def open_tabs(browser: Browser, url: str, count: int) -> list[str]:
    """Opens tabs one after the other, each beside those before, and returns their handles."""
    handles = [browser.driver.current_window_handle]
    for _ in range(count):
        browser.driver.switch_to.new_window("tab")
        handles.append(browser.driver.current_window_handle)
        browser.open(url + "/#/executions")
        browser.see("live", "#connection")
        browser.see("No job execution is found.")
    return handles


def close_tabs(browser: Browser, handles: list[str]) -> None:
    for handle in handles[1:]:
        browser.driver.switch_to.window(handle)
        browser.driver.close()
    browser.driver.switch_to.window(handles[0])


async def test_many_tabs_leave_one_another_connections(browser: Browser, settings: Make) -> None:
    """A browser has six connections for all its tabs. A tab that is hidden follows nothing, and catches up after that."""

    def look(url: str) -> None:
        handles = open_tabs(browser, url, 8)
        try:
            asyncio.run(Caller(url).start("short"))
            browser.see("1 to 1 of 1")
            browser.driver.switch_to.window(handles[1])
            browser.see("1 to 1 of 1")
        finally:
            close_tabs(browser, handles)

    browser.open("about:blank")
    async with running(settings()) as instance:
        await asyncio.to_thread(look, instance.url)
        await until_count(instance, 0)


async def until_count(instance: Instance, count: int) -> None:
    async with asyncio.timeout(20):
        while instance.service.watchers.count != count:
            await asyncio.sleep(0.05)


def test_a_page_that_follows_keeps_what_a_person_does(browser: Browser, service: Process, worker: WorkerProcess) -> None:
    """The focus, a closed log and a half-typed search stay while the page is drawn anew."""
    start(service, HARD_JOB)
    browser.open(service.url + "/#/execution/1")
    browser.see("Why it failed")
    browser.click("details summary")
    browser.run("window.kept = [document.querySelector('details'), document.querySelector('h1 a')]; window.kept[1].focus()")
    before = reads(browser, "/joblogs")
    asyncio.run(Caller(service.url).change(1, "restart"))
    browser.until(lambda: reads(browser, "/joblogs") > before)
    time.sleep(0.5)
    kept = "return [kept[0].isConnected, kept[0].open, document.activeElement === kept[1]]"
    assert browser.run(kept) == [True, False, True]
    browser.click_text("Executions", "header")
    browser.find("#search").send_keys("half")
    start(service, "patient")
    browser.see("3 patient", "tbody")
    assert browser.find("#search").get_property("value") == "half"
    assert browser.run("return document.activeElement.id") == "search"


def test_a_picture_has_each_element_and_where_it_leads(browser: Browser, service: Process) -> None:
    browser.open(service.url + "/#/job/branching")
    browser.see("Newest job executions")
    words = browser.run("return document.querySelector('.picture svg').getAttribute('aria-label')")
    assert words == "The job branching: day; one; two; three; last"
    assert browser.run("return [...document.querySelectorAll('.picture .frame > .name')].map(n => n.lastChild.data)") == [
        "split both",
        "flow left",
        "flow right",
    ]
    drawn = browser.text(".picture")
    for word in ("MONDAY", "HOLIDAY", "end: NO WORK", "decision"):
        assert word in drawn
    boxes = browser.run(
        """return [...document.querySelectorAll('.picture .box rect, .picture .ending rect')].map(
        r => { const b = r.getBoundingClientRect(); return [b.left, b.top, b.right, b.bottom] })"""
    )
    apart = [(one, other) for place, one in enumerate(boxes) for other in boxes[:place]]
    assert len(boxes) == 6
    assert all(a[2] <= b[0] or b[2] <= a[0] or a[3] <= b[1] or b[3] <= a[1] for a, b in apart)
    assert len(browser.all(".picture .edge")) == 4


def test_the_largest_picture_is_drawn(browser: Browser, service: Process) -> None:
    browser.open(service.url + "/#/job/long")
    browser.until(lambda: len(browser.all(".picture .box")) == 1000)
    lefts = browser.run("return [...document.querySelectorAll('.picture .box rect')].map(r => r.getBoundingClientRect().left)")
    assert lefts == sorted(lefts) and len(set(lefts)) == 1000


# Whether the middle of the second element is inside the first one.
IS_SEEN = """const [outer, inner] = [...arguments].map(selector => document.querySelector(selector)?.getBoundingClientRect());
    if (!outer || !inner) return false;
    const [x, y] = [inner.left + inner.width / 2, inner.top + inner.height / 2];
    return x > outer.left && x < outer.right && y > outer.top && y < outer.bottom"""
FAILED_BOX = ".picture [data-element=f1-g6]"


def test_what_failed_in_a_large_job_is_seen_at_once_and_found_by_a_key(browser: Browser, service: Process) -> None:
    def see_what_failed() -> None:
        browser.until(lambda: focused(browser).endswith("\u2715 FAILED"))
        browser.until(lambda: browser.run(IS_SEEN, ".picture", FAILED_BOX))

    async def fail() -> None:
        caller = Caller(service.url)
        await caller.start("deep")
        for work in range(1, 9):
            await caller.claim()
            await caller.finish(work, "FAILED" if work == 8 else "COMPLETED")

    asyncio.run(fail())
    browser.open(service.url + "/#/execution/1")
    browser.until(lambda: browser.run(IS_SEEN, ".picture", FAILED_BOX))
    assert len(browser.all(".picture .folded")) == 2 and len(browser.all(".overview .status-FAILED")) == 1
    assert browser.run(IS_SEEN, ".overview .seen", ".overview .status-FAILED")
    browser.click_text("Fold all")
    browser.see("1 of 11 FAILED", ".picture")
    before = reads(browser, "/joblogs")
    asyncio.run(Caller(service.url).change(1, "restart"))
    browser.until(lambda: reads(browser, "/joblogs") > before)
    time.sleep(0.5)
    assert len(browser.all(".picture .folded")) == 3 and not browser.all(".overview")
    press(browser, "f")
    see_what_failed()
    browser.run("document.querySelector('.picture').scrollTo(0, 0)")
    browser.click_text("To what failed (F)")
    see_what_failed()
    tab_to_fold(browser, "f2, flow, 11 steps")
    press(browser, Keys.ENTER)
    browser.until(lambda: browser.run("return document.activeElement.getAttribute('aria-expanded')") == "true")
    chains: Any = ActionChains
    scrolled = "return document.querySelector('.picture').scrollLeft"
    assert browser.run(scrolled) > 1000
    chains(browser.driver).move_to_element_with_offset(browser.find(".overview"), -500, 0).click().perform()
    browser.until(lambda: browser.run(scrolled) < 100)
    browser.click_text("As a list")
    press(browser, "f")
    browser.until(lambda: focused(browser) == "f1-g6 batchlet \u2715 FAILED")


def tab_to_fold(browser: Browser, name: str) -> None:
    for _ in range(20):
        press(browser, Keys.TAB)
        if browser.run("return document.activeElement.getAttribute('aria-label')") == name:
            return
    raise AssertionError(f"no key leads to {name}")


def test_a_job_without_a_picture_is_a_list(browser: Browser, service: Process) -> None:
    browser.open(service.url + "/#/job/dense")
    browser.see("ways lead from its elements. A picture has 4,000 at most, so this is a list.")
    assert len(browser.all(".tree li")) == 150 and not browser.all(".picture")
    browser.see("s0 batchlet, on P2: s2, on P3: s3, on P4: s4, on P5: s5, and 35 more transition elements", ".tree")
    browser.run(
        """const real = window.fetch;
        window.fetch = (path, given) => (path.startsWith("/batch/catalogue/picture")
            ? Promise.resolve(new Response('{"title": "InternalError"}', {status: 500})) : real(path, given));
        location.hash = '#/job/nightly'"""
    )
    browser.see("The service draws no picture of it (InternalError), so this is a list.")
    assert len(browser.all(".tree li")) == 3


@pytest.fixture
def guarded(words: list[str], tmp_path: Path) -> Iterator[Process]:
    """A service with tokens."""
    path = tmp_path / "tokens"
    path.write_text(f"reader desk {READER}\noperator ops {OPERATOR}\n")
    process = Process(tmp_path / "guarded.log", *words, "--tokens", str(path))
    process.start()
    try:

        async def has_begun() -> None:
            async with asyncio.timeout(30):
                while not (tmp_path / "guarded.log").read_text().count("leads by epoch"):
                    await asyncio.sleep(0.05)

        asyncio.run(has_begun())
        yield process
    finally:
        process.kill()


def give_token(browser: Browser, token: str) -> None:
    browser.find("#token").send_keys(token)
    browser.click_text("Go on")


def test_a_reader_sees_no_button_and_is_refused(browser: Browser, guarded: Process) -> None:
    begun = ask(guarded.url, "POST", "/batch/jobinstances", {"jobName": "nightly"}, OPERATOR)
    assert begun.status == 201
    browser.open(guarded.url)
    browser.see("This service is called with a token.")
    give_token(browser, "x" * 20)
    browser.see("The service doesn't know this token.")
    give_token(browser, READER)
    browser.see("desk, reader", ".caller")
    for page in ("#/", "#/job/nightly", "#/execution/1", "#/work"):
        browser.open(guarded.url + "/" + page)
        browser.until(lambda: browser.all("main section"))
        assert browser.all("main [data-action]") == []
    stored = "return [sessionStorage.getItem('jobhost-token'), localStorage.length, document.cookie]"
    assert browser.run(stored) == [READER, 0, ""]
    script = """const done = arguments[arguments.length - 1];
        fetch('/batch/jobexecutions/1?action=stop', {method: 'PUT', headers: {
            'Authorization': 'Bearer ' + sessionStorage.getItem('jobhost-token'),
            'Batch-Forgery-Token': document.querySelector('meta[name=forgery-token]').content}})
        .then(async answer => done([answer.status, (await answer.json()).title]))"""
    assert browser.driver.execute_async_script(script) == [403, "RoleLacksRight"]
    browser.click("#forget")
    browser.see("This service is called with a token.")
    give_token(browser, OPERATOR)
    browser.see("ops, operator", ".caller")
    browser.click_text("Jobs", "header")
    browser.click("[data-action=start][data-job=nightly]")
    browser.see("It runs already: job execution 1 is STARTING.", "dialog")
    browser.click("dialog [data-confirm=Start]")
    browser.see("Job execution 2 of nightly")


def test_a_token_that_is_withdrawn_is_asked_for(browser: Browser, guarded: Process, tmp_path: Path) -> None:
    browser.open(guarded.url)
    give_token(browser, OPERATOR)
    browser.see("live", "#connection")
    guarded.kill()
    (tmp_path / "tokens").write_text(f"reader desk {READER}\n")
    guarded.start()
    browser.see("The service doesn't know this token.")
    give_token(browser, READER)
    browser.see("desk, reader", ".caller")
    browser.see("Jobs of the catalogue")


PAGES = ["#/", "#/executions", "#/execution/1", "#/job/branching", "#/work", "#/workers"]
NEEDS_NAME = {
    "button",
    "link",
    "textbox",
    "searchbox",
    "table",
    "meter",
    "dialog",
    "image",
    "navigation",
    "region",
    "search",
    "group",
}


def nameless(browser: Browser) -> list[str]:
    """The roles of those parts of the page that a screen reader has no name for."""
    nodes = browser.driver.execute_cdp_cmd("Accessibility.getFullAXTree", {})["nodes"]
    shown = [node for node in nodes if not node["ignored"] and node["role"]["value"] in NEEDS_NAME]
    assert shown
    return [node["role"]["value"] for node in shown if not node.get("name", {}).get("value")]


def test_a_screen_reader_has_names_landmarks_and_headings(browser: Browser, service: Process, worker: WorkerProcess) -> None:
    start(service, "branching", date="2026-11-27")
    start(service, "patient")
    for page in PAGES:
        browser.open(service.url + "/" + page)
        browser.until(lambda: browser.all("main section"))
        assert nameless(browser) == [], page
        marks = [len(browser.all(name)) for name in ("header", "main", "header nav", "footer", "h1", "[role=status]")]
        assert marks[:5] == [1] * 5 and marks[5] >= 2
        levels = browser.run("return [...document.querySelectorAll('h1,h2,h3')].map(h => h.tagName)")
        assert levels[0] == "H1" and "H3" not in levels
        assert len(browser.all("header nav [aria-current=page]")) == 1
    browser.open(service.url)
    browser.click("[data-action=start][data-job=nightly]")
    assert nameless(browser) == []
    browser.click("dialog [data-cancel]")


def press(browser: Browser, *keys: str) -> None:
    for key in keys:
        chains: Any = ActionChains
        chains(browser.driver).send_keys(key).perform()


def focused(browser: Browser) -> str:
    return str(browser.run("const e = document.activeElement; return e.dataset.action || e.textContent || e.name"))


def tab_to(browser: Browser, name: str) -> None:
    for _ in range(60):
        press(browser, Keys.TAB)
        if focused(browser) == name:
            return
    raise AssertionError(f"no key leads to {name}")


def test_by_keys_alone(browser: Browser, service: Process) -> None:
    browser.open(service.url)
    browser.see("nightly")
    press(browser, Keys.TAB)
    assert focused(browser) == "Skip to the content"
    press(browser, Keys.ENTER)
    assert browser.run("return document.activeElement.id") == "content"
    tab_to(browser, "start")
    press(browser, Keys.ENTER)
    browser.see("Start nightly?", "dialog")
    press(browser, Keys.ESCAPE)
    browser.until(lambda: not browser.run("return document.getElementById('question').childElementCount"))
    assert focused(browser) == "start"
    press(browser, Keys.ENTER)
    browser.see("Start nightly?", "dialog")
    press(browser, "d", "a", "y", Keys.ENTER, "7", Keys.TAB, Keys.TAB, Keys.TAB)
    assert focused(browser) == "Cancel"
    press(browser, Keys.TAB, Keys.ENTER)
    browser.see("Job execution 1 of nightly")
    browser.until(lambda: browser.run("return document.activeElement.tagName") == "H1")
    assert ask(service.url, "GET", "/batch/jobexecutions/1").told["jobParameters"] == {"day": "7"}


def test_on_a_phone_and_in_the_dark(browser: Browser, service: Process, worker: WorkerProcess) -> None:
    start(service, HARD_JOB, **{MARKS: HARD_VALUE})
    start(service, "branching")
    try:
        browser.size(360, 740)
        browser.scheme("dark")
        for page in ["#/execution/2", *PAGES]:
            browser.open(service.url + "/" + page)
            browser.until(lambda: browser.all("main section"))
            assert browser.run("return document.documentElement.scrollWidth") <= 360, page
        back = browser.run("return getComputedStyle(document.documentElement).backgroundColor")
        assert all(int(part) < 40 for part in re.findall(r"\d+", back))
    finally:
        browser.size(1280, 900)
        browser.scheme("light")
