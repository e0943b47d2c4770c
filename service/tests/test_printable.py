"""What workers and clients have written doesn't act on the terminal of who reads it."""

from __future__ import annotations

import argparse
import logging
from collections.abc import Callable
from typing import Any, cast

import pytest

from job_host.commands import jobs, open_items, shown
from job_host.commands.command_line import main
from job_host.protocol.client import Client, Refused
from job_host.protocol.printable import PrintableFormatter, printable, printable_lines

EVIL = "a\x1b[31m\x1b]0;title\x07\x9b2J\x08\u202e[bold]b"
SHOWN = r"a\u001b[31m\u001b]0;title\u0007\u009b2J\u0008\u202e[bold]b"
LOG = f"one\r\ntwo\tthree\xa0{EVIL}\rover\n"
STEP: dict[str, Any] = {
    "stepName": EVIL,
    "batchStatus": "FAILED",
    "exitStatus": EVIL,
    "startTime": EVIL,
    "endTime": None,
    "metrics": {EVIL: 1},
}
INSTANCE: dict[str, Any] = {"jobName": EVIL, "instanceId": 1, "executionId": 1, "batchStatus": "FAILED", "exitStatus": EVIL}
EXECUTION: dict[str, Any] = {
    **INSTANCE,
    "startTime": None,
    "endTime": None,
    "stepExecutions": [STEP],
    "jobParameters": {EVIL: EVIL},
}
CAUSE = {"work": 1, "stepName": EVIL, "partition": 0, "outcome": "FAILED", "exitStatus": EVIL, "logEnd": LOG}
OPEN: dict[str, Any] = {
    "jobInstances": [{**INSTANCE, "causes": [CAUSE], "moreCauses": 3}],
    "long": [{**INSTANCE, "seconds": 7, "longestBefore": 2}],
    "late": [{**INSTANCE, "work": 1, "stepName": EVIL, "partition": 0, "client": EVIL, "leaseRemaining": 1.5}],
    "waiting": [{**INSTANCE, "lastUpdatedTime": EVIL}],
    "counts": {"FAILED": 9, "STOPPED": 0, "long": 1, "late": 1, "waiting": 1},
    "more": False,
}
HELD = {"work": 1, "jobName": EVIL, "executionId": 1, "stepName": EVIL, "partition": 0, "client": EVIL, "since": EVIL}


class Answers:
    """A client, and what the service answers it."""

    async def read(self, path: str) -> Any:
        if path.startswith("/batch/jobinstances"):
            return [{**INSTANCE, "lastUpdatedTime": EVIL}]
        if path.startswith("/batch/work"):
            return [HELD]
        if path.startswith("/batch/open"):
            return OPEN
        if "/operations" in path:
            return [{"operation": 1, "action": EVIL, "client": EVIL, "time": EVIL, "made": None, "work": 7}]
        if "/joblogs" in path:
            return [{"work": 1, "stepName": EVIL, "log": LOG}]
        return EXECUTION

    async def operate(self, *given: Any, **more: Any) -> Any:
        return {"executionId": 1, "instanceId": 1}


@pytest.mark.parametrize(
    ("command", "words"),
    [
        (jobs.show_log, {}),
        (open_items.failed, {"job": None, "count": 5}),
        (open_items.open_items, {"job": None, "count": 5}),
        (shown.status, {}),
        (shown.watch, {}),
        (shown.list_instances, {"job": None, "count": 5}),
        (shown.show_work, {}),
        (jobs.restart, {"parameter": [], "no_parameters": False, "wait": True}),
    ],
)
async def test_no_command_lets_a_text_act_on_the_terminal(
    command: Callable[..., Any],
    words: dict[str, Any],
    capsys: pytest.CaptureFixture[str],
    monkeypatch: pytest.MonkeyPatch,
) -> None:
    monkeypatch.setenv("COLUMNS", "1000")
    await command(cast(Client, Answers()), argparse.Namespace(execution=1, utc=True, **words))
    told = capsys.readouterr().out
    assert all(mark.isprintable() or mark in "\n\t\xa0" for mark in told)
    assert SHOWN in told


async def test_a_log_keeps_its_lines(capsys: pytest.CaptureFixture[str]) -> None:
    await jobs.show_log(cast(Client, Answers()), argparse.Namespace(execution=1))
    told = capsys.readouterr().out
    assert told == f"# work item 1, {SHOWN}\none\ntwo\tthree\xa0{SHOWN}\\u000dover\n\n"


def test_a_refusal_is_shown_in_one_line(monkeypatch: pytest.MonkeyPatch, capsys: pytest.CaptureFixture[str]) -> None:
    async def refuse(client: Client, given: argparse.Namespace) -> int:
        raise Refused(409, {"title": EVIL, "detail": "one\ntwo"})

    monkeypatch.setattr(jobs, "abandon", refuse)
    assert main(["abandon", "1"]) == 1
    assert capsys.readouterr().err == f"jobhost: {SHOWN}: one\\u000atwo\n"


def test_what_is_shown_as_it_is() -> None:
    assert printable("Grüße 日本 é") == printable_lines("Grüße 日本 é") == "Grüße 日本 é"
    assert (printable("a\n\t\ud800"), printable_lines("a\n\t\ud800")) == ("a\\u000a\\u0009\\ud800", "a\n\t\\ud800")


def test_a_log_of_the_service_is_as_harmless() -> None:
    record = logging.LogRecord("x", logging.WARNING, "", 1, "asked for %s", (EVIL,), None)
    assert PrintableFormatter("%(message)s").format(record) == f"asked for {SHOWN}"
