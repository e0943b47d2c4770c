"""Commands for people, called in this process."""

from __future__ import annotations

import argparse
import asyncio
import os
import pwd
import re
import socket
import time
import tomllib
from collections.abc import Callable, Iterator
from pathlib import Path
from typing import Any

import pytest
from conftest import Say
from instances import Caller, running

from job_host.commands import open_items
from job_host.commands.address import address_of
from job_host.commands.command_line import main, make_parser
from job_host.commands.terminal import clock
from job_host.service.settings import ServeSettings

Make = Callable[..., ServeSettings]
NOBODY = ["list", "--url", "http://127.0.0.1:9", "--patience", "0"]


async def fail(caller: Caller, **parameters: str) -> None:
    """Starts a job, and says that its step failed."""
    await caller.start("short", **parameters)
    await fail_next(caller)


async def fail_next(caller: Caller) -> None:
    work = (await caller.claim()).told["work"]["work"]
    await caller.finish(work, "FAILED", exit="DISK FULL", log="no space left")


@pytest.fixture
def nameless(monkeypatch: pytest.MonkeyPatch) -> list[int]:
    """A user id that has no name, as a container may be given. Returns for which ids the name was asked."""
    asked: list[int] = []

    def know_nobody(number: int) -> Any:
        asked.append(number)
        raise KeyError(f"getpwuid(): uid not found: {number}")

    for name in ("LOGNAME", "USER", "LNAME", "USERNAME"):
        monkeypatch.delenv(name, raising=False)
    monkeypatch.setattr(pwd, "getpwuid", know_nobody)
    return asked


def test_a_user_id_without_a_name_stands_for_itself(nameless: list[int], capsys: pytest.CaptureFixture[str]) -> None:
    given = argparse.Namespace(url="http://one", client=None, token=None, authority=None, patience=1.0)
    assert address_of(given).client == f"{os.getuid()}-{socket.gethostname()}"
    assert main(NOBODY) == 1
    assert capsys.readouterr().err.startswith("jobhost: GET /batch/jobinstances")


def test_a_client_that_is_named_needs_no_user(nameless: list[int], capsys: pytest.CaptureFixture[str]) -> None:
    assert main([*NOBODY, "--client", "desk"]) == 1
    assert capsys.readouterr().err.startswith("jobhost: GET /batch/jobinstances")
    assert nameless == []


def actions_of(parser: argparse.ArgumentParser) -> Iterator[tuple[str, argparse.Action]]:
    """The options and words of a command and of those below it."""
    for action in parser._actions:
        if isinstance(action, argparse._SubParsersAction):
            for below in action.choices.values():
                yield from actions_of(below)
        else:
            yield parser.prog, action


def test_each_option_has_its_help_and_its_default() -> None:
    told = list(actions_of(make_parser()))
    assert {"jobhost serve", "jobhost lose", "jobhost catalogue diff"} <= {command for command, _ in told}
    bare = [(command, action.dest) for command, action in told if not action.help]
    takes_value = [(command, action) for command, action in told if action.option_strings and action.nargs != 0]
    hidden = [
        (command, action.dest) for command, action in takes_value if not action.required and "default" not in str(action.help)
    ]
    assert (bare, hidden) == ([], [])


def test_the_help_of_serve_shows_values(capsys: pytest.CaptureFixture[str]) -> None:
    with pytest.raises(SystemExit):
        main(["serve", "--help"])
    text = " ".join(capsys.readouterr().out.split())
    for default in ("jobhost-data", "127.0.0.1", "8570", "30", "5"):
        assert f"(default: {default})" in text


def test_the_versions_are_shown(tmp_path: Path, monkeypatch: pytest.MonkeyPatch, capsys: pytest.CaptureFixture[str]) -> None:
    program = tmp_path / "batchctl"
    program.write_text('#!/bin/sh\n[ "$*" = --version ] && echo batchctl 7\n')
    program.chmod(0o755)
    told = []
    for path in (program, tmp_path / "none"):
        monkeypatch.setenv("JOBHOST_BATCHCTL", str(path))
        with pytest.raises(SystemExit) as ended:
            main(["--version"])
        assert ended.value.code == 0
        told.append(capsys.readouterr().out.splitlines())
    project = Path(__file__).resolve().parents[1] / "pyproject.toml"
    version = tomllib.loads(project.read_text())["project"]["version"]
    assert told[0] == [f"jobhost {version}", f"batchctl 7 ({program})"]
    assert told[1][0] == f"jobhost {version}" and told[1][1].startswith("batchctl: [Errno 2] No such file or directory")


@pytest.fixture
def far_east(monkeypatch: pytest.MonkeyPatch) -> Iterator[None]:
    """A zone of this machine that is 5 hours and 30 minutes ahead of UTC. Tables are wide."""
    monkeypatch.setenv("COLUMNS", "200")
    monkeypatch.setenv("TZ", "FAR-5:30")
    time.tzset()
    yield
    monkeypatch.undo()
    time.tzset()


def test_a_moment_has_the_offset_of_its_zone(far_east: None) -> None:
    late = "2026/11/27 23:59:59.999 +0000"
    assert [str(clock(late, in_utc)) for in_utc in (False, True)] == ["2026/11/28 05:29:59 +0530", "2026/11/27 23:59:59 +0000"]
    assert [str(clock(moment, False)) for moment in (None, "9999999999999999")] == ["", "9999999999999999"]
    assert str(clock("9999/12/31 23:59:59.000 +0000", False)) == "9999/12/31 23:59:59.000 +0000"


def offsets(text: str) -> set[str]:
    return set(re.findall(r"\d\d:\d\d:\d\d ([+-]\d{4})", text))


async def test_times_are_of_this_machine_or_of_utc(settings: Make, say: Say, far_east: None) -> None:
    async with running(settings()) as instance:
        caller = Caller(instance.url)
        await fail(caller)
        await caller.start("wide")
        await caller.claim()
        for words in ("status 1", "list", "work"):
            texts = [(await say(instance.url, *f"{words} {more}".split()))[1] for more in ("", "--utc")]
            assert [offsets(text) for text in texts] == [{"+0530"}, {"+0000"}]
        assert offsets((await say(instance.url, "watch", "1", "--utc"))[1]) == {"+0000"}


async def test_work_items_under_way_are_shown_and_lost(
    settings: Make, say: Say, far_east: None, monkeypatch: pytest.MonkeyPatch
) -> None:
    async with running(settings()) as instance:
        caller, url = Caller(instance.url, "farm-1"), instance.url
        assert await say(url, "work") == (0, "no work item is under way\n")
        await caller.start("wide")
        await caller.start("nightly")
        await caller.claim()
        await caller.claim()
        status, text = await say(url, "work")
        rows = [[cell.strip() for cell in line.split("│")[1:-2]] for line in text.splitlines() if "farm-1" in line]
        assert (status, rows) == (0, [[str(part + 1), "wide", "1", "print", str(part), "farm-1"] for part in range(2)])
        monkeypatch.setenv("COLUMNS", "50")
        assert "…" not in (await say(url, "work"))[1]
        assert await say(url, "lose", "2") == (0, "work item 2 is lost: it is FAILED\n")
        assert await say(url, "lose", "2") == (1, "jobhost: WorkNotRunning\n")
        assert [(one["work"], "jobName" in one) for one in (await caller.ask("GET", "/batch/work")).told] == [(1, False)]
        assert (await caller.ask("GET", "/batch/work?withJobs=1")).name == "BadRequest"


async def test_what_failed_is_told_whatever_its_age(settings: Make, say: Say) -> None:
    async with running(settings()) as instance:
        caller = Caller(instance.url)
        assert await say(instance.url, "failed") == (0, "no job instance is FAILED\n")
        await fail(caller)
        await asyncio.gather(*(caller.start("nightly") for _ in range(55)))
        of_first = [
            "short: job execution 1 is FAILED, exit status FAILED",
            "  step only: exit status DISK FULL",
            "    no space left",
            "  jobhost restart 1",
        ]
        status, text = await say(instance.url, "failed")
        assert (status, text.splitlines()) == (0, of_first)
        assert await say(instance.url, "failed", "--job", "nightly") == (0, "no job instance is FAILED\n")
        assert await say(instance.url, "failed", "--job", "none") == (1, "jobhost: NoSuchJobException\n")


async def test_of_what_failed_the_newest_are_told_and_that_there_are_more(
    settings: Make, say: Say, monkeypatch: pytest.MonkeyPatch
) -> None:
    async with running(settings()) as instance:
        caller = Caller(instance.url)
        for _ in range(3):
            await fail(caller)
        await caller.change(2, "restart")

        async def heads(*words: str) -> list[str]:
            """The lines that aren't of a step."""
            return [line for line in (await say(instance.url, "failed", *words))[1].splitlines() if line[0] != " "]

        third, first = [f"short: job execution {number} is FAILED, exit status FAILED" for number in (3, 1)]
        assert await heads() == await heads("--count", "2") == [third, first]
        more = "more job instances are FAILED: these are the newest 1 (--count)"
        assert await heads("--count", "1") == [third, more]
        monkeypatch.setattr(open_items, "PAGE_OF_LARGE_ROWS", 1)
        assert await heads() == [third, first]
        for count in ("0", "-1", "x"):
            with pytest.raises(SystemExit):
                await heads("--count", count)


async def test_a_restart_has_the_parameters_of_the_earlier_job_execution(settings: Make, say: Say) -> None:
    async with running(settings()) as instance:
        caller = Caller(instance.url)
        await fail(caller, date="2026-11-27", place="New York", bell="\a")

        async def restart(execution: int, *words: str) -> tuple[str, dict[str, str]]:
            """What the command shows of its parameters, and which ones the new job execution has."""
            status, text = await say(instance.url, "restart", str(execution), *words)
            made, shown = text.splitlines()
            assert (status, made) == (0, f"job execution {execution + 1} of job instance 1 was made")
            told = await caller.ask("GET", f"/batch/jobexecutions/{execution + 1}")
            await fail_next(caller)
            return shown, told.told["jobParameters"]

        whole = {"bell": "\a", "date": "2026-11-27", "place": "New York"}
        assert await restart(1) == ("parameters: 'bell=\\u0007' date=2026-11-27 'place=New York'", whole)
        shown, parameters = await restart(2, "-p", "date=2026-11-28", "--parameter", "more=a=b")
        assert shown == "parameters: 'bell=\\u0007' date=2026-11-28 'place=New York' more=a=b"
        assert parameters == {**whole, "date": "2026-11-28", "more": "a=b"}
        assert await restart(3, "--no-parameters", "-p", "date=") == ("parameters: date=", {"date": ""})
        assert await restart(4, "--no-parameters") == ("parameters: none", {})
        assert await restart(5) == ("parameters: none", {})
        assert await say(instance.url, "restart", "1") == (1, "jobhost: JobExecutionNotMostRecentException\n")
        assert await say(instance.url, "restart", "9") == (1, "jobhost: NoSuchJobExecutionException\n")
