"""What batchlets write: a log of both outputs, and an exit status in a file of its own or in the first line."""

from __future__ import annotations

import asyncio
from collections.abc import Callable
from pathlib import Path

import pytest
from instances import Caller, running
from workers import run_job, working

from job_host.service.settings import ServeSettings
from job_host.worker.output import LINE_BYTES, Tail

Make = Callable[..., ServeSettings]

# The status and exit status of a step, and its log.
TOLD = {
    "tells": ("COMPLETED", "LOADED 120", "PRINTED\n"),
    "tells-empty": ("COMPLETED", "", "PRINTED\n"),
    "tells-failure": ("FAILED", "DISK FULL", "jobhost: the process ended with exit 4\n"),
    "tells-long": (
        "COMPLETED",
        "COMPLETED",
        "PRINTED\njobhost: the exit status in BATCH_EXIT_STATUS_FILE has more than 256 bytes, and is no exit status\n",
    ),
    "tells-other": (
        "COMPLETED",
        "COMPLETED",
        "PRINTED\njobhost: BATCH_EXIT_STATUS_FILE has no line `exit-status: TEXT`\n",
    ),
    "tells-signal": ("FAILED", "signal 9", ""),
    "removes": ("COMPLETED", "SENT", "SENT\n"),
    "long": (
        "COMPLETED",
        "COMPLETED",
        "0" * 257 + "\njobhost: the first line of standard output has more than 256 bytes, and is no exit status\n",
    ),
    "bytes": (
        "COMPLETED",
        "COMPLETED",
        "\ufffd\njobhost: the first line of standard output isn't UTF-8, and is no exit status\n",
    ),
    "prints": ("COMPLETED", "READ", "READ\n" + "".join(f"{number}\n" for number in range(1_000))),
}


async def test_an_exit_status_has_a_file_of_its_own_and_output_is_the_log(
    settings: Make, night: Path, artifacts: Path, tmp_path: Path, monkeypatch: pytest.MonkeyPatch
) -> None:
    temporary = tmp_path / "temporary"
    temporary.mkdir()
    monkeypatch.setenv("TMPDIR", str(temporary))
    async with running(settings(catalogue=night)) as instance, working(instance.url, artifacts):
        caller = Caller(instance.url)
        told = dict(zip(TOLD, await asyncio.gather(*(run_job(caller, name) for name in TOLD))))
        status, exit_status, log = await run_job(caller, "both")
    assert told == TOLD
    assert (status, exit_status) == ("COMPLETED", "one, first")
    assert sorted(log.splitlines()) == ["fourth", "one, first", "third", "two, second"]
    assert list(temporary.iterdir()) == []


def test_a_line_that_has_no_end_yet_stands_last() -> None:
    tail = Tail()
    out, err = tail.stream(), tail.stream()
    out.hear(b"half ")
    err.hear(b"whole\nrest")
    assert tail.text() == "whole\nhalf rest"
    out.hear(b"done\n")
    assert tail.text() == "whole\nhalf done\nrest"
    err.end()
    out.end()
    tail.say("ended")
    assert tail.text() == "whole\nhalf done\nrest\njobhost: ended\n"


def test_a_line_without_end_is_not_kept_back() -> None:
    tail = Tail(10)
    out = tail.stream()
    for _ in range(4):
        out.hear(b"x" * (LINE_BYTES // 2 + 1))
    assert (out.begun, tail.text()) == (b"", "x" * 10)
