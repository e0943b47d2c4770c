"""A night with 50 jobs of which three are open: a person finds each by clicks, and by commands."""

from __future__ import annotations

import asyncio
import json
import re
import time
from collections.abc import Iterator, Mapping
from dataclasses import dataclass
from pathlib import Path
from typing import Any

import pytest
from browser import Browser
from conftest import Say, batchlet
from consoles import bars, browser_made, no_complaints  # noqa: F401
from instances import Caller, Process

# Each open job is found by so many clicks at most, within so many seconds.
MOST_CLICKS, SECONDS = 2, 20.0
# Logs have more lines than the end of a log that is shown.
LINES, SHOWN_LINES = 20, 12
PARTITIONS, JAMMED = 64, 57
FARMS = ("farm-1", "farm-2", "farm-3", "farm-4")
SIGNS = {"COMPLETED": "\u2713 COMPLETED", "FAILED": "\u2715 FAILED", "STOPPED": "\u25a0 STOPPED"}
TITLES = {"FAILED": "Why it failed", "STOPPED": "Where it stopped"}
OPEN_SECTION = "section[data-key=Open]"
# Whether the last line of each of these logs is in sight.
ENDS_ARE_SEEN = """return [...document.querySelectorAll(arguments[0])].every((log) => {
    const text = document.createRange();
    text.selectNodeContents(log);
    return text.getBoundingClientRect().bottom <= log.getBoundingClientRect().bottom;
})"""


@dataclass(frozen=True)
class End:
    """How a worker ends a work item, and the lines of its log."""

    outcome: str
    exit: str
    log: list[str]


@dataclass(frozen=True)
class OpenJob:
    """What a person has to find: the step, and the partition if it has any, by which a job is open, and how that ended."""

    job: str
    step: str
    partition: int | None
    end: End
    # The step before it, which is COMPLETED. A job execution that was restarted carries it.
    before: str
    is_restarted: bool = False

    @property
    def place(self) -> str:
        return self.step if self.partition is None else f"{self.step}, partition {self.partition}"

    @property
    def log_end(self) -> list[str]:
        return self.end.log[-SHOWN_LINES:]

    @property
    def steps(self) -> list[tuple[str, str, str]]:
        """The steps that its newest job execution ran: the status and the exit status of each."""
        exit_status = self.end.exit if self.partition is None else self.end.outcome
        before = [] if self.is_restarted else [(self.before, "COMPLETED", "DONE")]
        return [*before, (self.step, self.end.outcome, exit_status)]


def printed(partition: int) -> list[str]:
    """The log of a partition. None of its lines is in the log of another one."""
    return [f"letter {number:02} of partition {partition:02} is printed" for number in range(1, LINES + 1)]


def counted(what: str) -> list[str]:
    return [f"{what} {number:02}" for number in range(1, LINES + 1)]


NO_PAPER = End("FAILED", "NO PAPER", [*printed(JAMMED), "tray 3 has no paper"])
DISK_FULL = End("FAILED", "3", [*counted("loads account"), "ledger.db: disk full"])
HALF_DONE = End("STOPPED", "20 OF 90", counted("copies folder"))
STATEMENTS = OpenJob("statements", "render", JAMMED, NO_PAPER, "collect")
LEDGER = OpenJob("ledger", "load", None, DISK_FULL, "extract", is_restarted=True)
ARCHIVE = OpenJob("archive", "copy", None, HALF_DONE, "list")
FAILED, OPEN = [STATEMENTS, LEDGER], [STATEMENTS, LEDGER, ARCHIVE]
SETTLED = [f"rates-{number:02}" for number in range(1, 48)]
# Of these, some failed and two were stopped before they were restarted, and completed then.
FAILED_FIRST, STOPPED_FIRST = SETTLED[2:42:4], SETTLED[43:45]


def one_step(name: str) -> dict[str, Any]:
    return {"id": name, "elements": [batchlet("fetch", "fetch")]}


JOBS: list[dict[str, Any]] = [
    *map(one_step, SETTLED[:11]),
    {"id": "archive", "elements": [batchlet("list", "list", next="copy"), batchlet("copy", "copy")]},
    *map(one_step, SETTLED[11:30]),
    {
        "id": "statements",
        "elements": [
            batchlet("collect", "collect", next="render"),
            batchlet("render", "render", next="post", partitions=PARTITIONS),
            batchlet("post", "post"),
        ],
    },
    {"id": "ledger", "elements": [batchlet("extract", "extract", next="load"), batchlet("load", "load")]},
    *map(one_step, SETTLED[30:]),
]
NAMES = [str(job["id"]) for job in JOBS]

# Of a work item: its job, its step, and its partition.
Ends = Mapping[tuple[str, str, int | None], End]
# How work items end that aren't COMPLETED, before the restarts and after them.
AT_FIRST: Ends = {
    **{(one.job, one.step, one.partition): one.end for one in (STATEMENTS, ARCHIVE)},
    ("ledger", "load", None): End("FAILED", "2", ["ledger.db: is locked"]),
    **{(name, "fetch", None): End("FAILED", "7", [f"no answer to {name}"]) for name in FAILED_FIRST},
    **{(name, "fetch", None): End("STOPPED", "HALF", [f"half of {name}"]) for name in STOPPED_FIRST},
}
AT_LAST: Ends = {("ledger", "load", None): LEDGER.end}


async def claim_all(farm: Caller) -> list[Any]:
    claimed = []
    while "work" in (told := (await farm.claim()).told):
        claimed.append(told)
    return claimed


async def end_one(farm: Caller, claimed: Any, ends: Ends) -> None:
    """Ends a work item as a worker does, with its log. One that is STOPPED was asked to stop."""
    work = claimed["work"]
    job, step, partition = claimed["jobName"], work["element"], work.get("partition")
    usual = [f"{step} of {job} is done"] if partition is None else printed(partition)
    end = ends.get((job, step, partition), End("COMPLETED", "DONE", usual))
    if end.outcome == "STOPPED":
        assert (await farm.change(work["execution"], "stop")).status == 200
    answer = await farm.finish(work["work"], end.outcome, exit=end.exit, log="\n".join(end.log))
    assert answer.status == 200, answer.told


async def work_off(farm: Caller, ends: Ends) -> None:
    """Claims all that there is before it ends any of it, until there is nothing. So all partitions run when one fails."""
    while claimed := await claim_all(farm):
        for one in claimed:
            await end_one(farm, one, ends)


async def make_night(url: str) -> dict[str, int]:
    """The newest job execution of each job, after all are over. What failed is open until it is restarted."""
    desk, farms = Caller(url, "desk"), [Caller(url, name) for name in FARMS]
    begun = await asyncio.gather(*(desk.start(name) for name in NAMES))
    newest = {name: int(answer.told["executionId"]) for name, answer in zip(NAMES, begun)}
    await asyncio.gather(*(work_off(farm, AT_FIRST) for farm in farms))
    told = (await desk.ask("GET", "/batch/open")).told["jobInstances"]
    assert {one["jobName"] for one in told} == {job for job, _, _ in AT_FIRST}
    again = [*FAILED_FIRST, *STOPPED_FIRST, LEDGER.job]
    begun = await asyncio.gather(*(desk.change(newest[name], "restart") for name in again))
    newest |= {name: int(answer.told["executionId"]) for name, answer in zip(again, begun)}
    await asyncio.gather(*(work_off(farm, AT_LAST) for farm in farms))
    return newest


@dataclass(frozen=True)
class Morning:
    """After the night: the service's URL, and the newest job execution of each job."""

    url: str
    newest: Mapping[str, int]

    @property
    def open(self) -> list[tuple[int, OpenJob]]:
        """What is open, the newest first."""
        return sorted(((self.newest[one.job], one) for one in OPEN), key=lambda found: -found[0])


@pytest.fixture(scope="module", name="morning")
def morning_made(tmp_path_factory: pytest.TempPathFactory, has_log: None) -> Iterator[Morning]:
    folder: Path = tmp_path_factory.mktemp("fifty")
    (folder / "jobs.json").write_text(json.dumps({"jobs": JOBS}))
    words = ["--catalogue", str(folder / "jobs.json"), "--data", str(folder / "data"), "--lease", "100"]
    service = Process(folder / "serve.log", *words)
    service.start()
    try:
        asyncio.run(service.until_role("leader"))
        yield Morning(service.url, asyncio.run(make_night(service.url)))
    finally:
        service.kill()


def words_of(text: str) -> str:
    """A text in one line."""
    return " ".join(text.split())


def cells(browser: Browser, part: str) -> list[list[str]]:
    """The texts of the rows of a table, after it is shown."""
    script = "return [...document.querySelectorAll(arguments[0])].map(row => [...row.cells].map(cell => cell.innerText))"
    rows = browser.until(lambda: browser.run(script, f"{part} tbody tr"), SECONDS)
    return [[words_of(cell) for cell in row] for row in rows]


class Person:
    """Loads the first page, reads, and clicks what is shown. Counts the clicks, and the seconds since then."""

    def __init__(self, browser: Browser, url: str) -> None:
        self.browser = browser
        self.clicks = 0
        self._begun = time.monotonic()
        browser.open(url)

    def click(self, text: str, within: str) -> None:
        self.clicks += 1
        self.browser.click_text(text, within)

    def has_found(self) -> bool:
        return self.clicks <= MOST_CLICKS and time.monotonic() - self._begun < SECONDS


def open_rows(morning: Morning) -> list[list[str]]:
    """What the first page says of what is open: the job execution, the job, its status, and what ended so, with its log."""
    return [
        [str(number), one.job, SIGNS[one.end.outcome], " ".join([f"{one.place}: {one.end.exit}", *one.log_end])]
        for number, one in morning.open
    ]


def lines_of_others(one: OpenJob) -> set[str]:
    """Lines that other partitions, other jobs and earlier job executions have logged."""
    ends = [*AT_FIRST.values(), *AT_LAST.values()]
    of_partitions = {line for partition in range(PARTITIONS) for line in printed(partition)}
    return (of_partitions | {line for end in ends for line in end.log}) - set(one.end.log)


def check_page(browser: Browser, number: str, one: OpenJob) -> None:
    """The page of a job execution names the job, and what ended how, with the last lines of that log and of no other one."""
    status = one.end.outcome
    browser.see(f"Job execution {number} of {one.job} {SIGNS[status]}", "h1", SECONDS)
    why = [TITLES[status], f"{one.place} is {status}, exit status {one.end.exit}", *one.log_end]
    assert [line for line in browser.text(".reason").split("\n") if line] == why
    assert browser.run(ENDS_ARE_SEEN, ".reason pre")
    steps = [row[:2] for row in cells(browser, "section[data-key=Steps]")]
    assert steps == [[name, SIGNS[of]] for name, of, _ in one.steps]
    text = browser.text()
    assert [line for line in lines_of_others(one) if line in text] == []


@pytest.mark.parametrize("one", OPEN, ids=[one.job for one in OPEN])
def test_an_open_job_is_found_within_two_clicks(browser: Browser, morning: Morning, one: OpenJob) -> None:
    person = Person(browser, morning.url)
    rows = [row[:4] for row in cells(browser, OPEN_SECTION)]
    assert rows == open_rows(morning)
    assert browser.run(ENDS_ARE_SEEN, f"{OPEN_SECTION} pre")
    (number,) = [row[0] for row in rows if row[1] == one.job]
    person.click(number, OPEN_SECTION)
    check_page(browser, number, one)
    assert person.has_found()
    if one.partition is not None:
        assert bars(browser, "Steps") == [f"{PARTITIONS} partitions: {PARTITIONS - 1} COMPLETED, 1 FAILED"]


def test_no_other_job_is_shown_as_open(browser: Browser, morning: Morning) -> None:
    """Neither on the first page, nor among the job executions that are FAILED."""
    person = Person(browser, morning.url)
    known = {row[0]: (row[2], row[3]) for row in cells(browser, "section[data-key='Jobs of the catalogue']")}
    statuses = {name: SIGNS["COMPLETED"] for name in NAMES} | {one.job: SIGNS[one.end.outcome] for one in OPEN}
    assert known == {name: (str(morning.newest[name]), status) for name, status in statuses.items()}
    assert [*known][:3] == ["statements", "ledger", "archive"]
    assert words_of(browser.text(".tiles")) == "2 FAILED, open 1 STOPPED, open 0 STARTING 0 STARTED 0 STOPPING"
    assert "Nothing runs." in browser.text("section[data-key=Running]")
    assert not browser.all("section[data-key='Long, late or waiting']")
    person.click("Executions", "header")
    person.click(f"{len(FAILED_FIRST) + 3} FAILED", ".tiles")
    browser.until(lambda: len(browser.all("tbody tr")) == len(FAILED_FIRST) + 3, SECONDS)
    left = {tuple(row[:4]) for row in cells(browser, "main") if row[2] != f"{SIGNS['FAILED']} restarted"}
    assert left == {(str(morning.newest[one.job]), one.job, SIGNS["FAILED"], f"in {one.step}") for one in FAILED}
    assert person.has_found()


def told_of(number: int, one: OpenJob) -> str:
    """What `jobhost open` and `jobhost failed` say of an open job."""
    head = f"{one.job}: job execution {number} is {one.end.outcome}, exit status {one.end.outcome}"
    log_end = [f"    {line}" for line in one.log_end]
    lines = [head, f"  step {one.place}: exit status {one.end.exit}", *log_end, f"  jobhost restart {number}"]
    return "".join(f"{line}\n" for line in lines)


def rows_of(text: str) -> list[tuple[str, ...]]:
    """The first three cells of the rows of tables that a command shows."""
    lines = [line.split("\u2502") for line in text.splitlines() if line.startswith("\u2502")]
    return [tuple(cell.strip() for cell in cells[1:4]) for cells in lines]


@pytest.mark.parametrize(("command", "meant"), [("open", OPEN), ("failed", FAILED)], ids=["open", "failed"])
async def test_each_open_job_is_found_by_two_commands(
    morning: Morning, say: Say, monkeypatch: pytest.MonkeyPatch, command: str, meant: list[OpenJob]
) -> None:
    """The first one tells of no other job, and the second one, `jobhost status`, has the steps."""
    monkeypatch.setenv("COLUMNS", "200")
    due = "".join(told_of(number, one) for number, one in morning.open if one in meant)
    for one in meant:
        begun, ended = time.monotonic(), one.end.outcome
        status, told = await say(morning.url, command)
        assert (status, told) == (0, due)
        (number,) = re.findall(f"^{one.job}: job execution ([0-9]+) is", told, re.M)
        status, told = await say(morning.url, "status", number)
        steps = [*one.steps, ("(job)", ended, ended)]
        assert (status, rows_of(told)[: len(steps)]) == (0, steps)
        assert told.strip().startswith(f"{one.job}: job execution {number} of job instance ")
        assert time.monotonic() - begun < SECONDS
