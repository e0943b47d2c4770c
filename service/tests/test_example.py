"""examples/night: the job that README starts is COMPLETED, and has each row once."""

from __future__ import annotations

import shutil
from pathlib import Path

from catalogue_samples import BATCHCTL, ROOT
from conftest import Say
from instances import Process
from workers import working

NIGHT = ROOT / "examples" / "night"


async def test_the_night_is_completed(tmp_path: Path, say: Say, has_log: None) -> None:
    night = tmp_path / "night"
    shutil.copytree(NIGHT, night, ignore=shutil.ignore_patterns("out"))
    amounts = [int(row.split()[1]) for row in (night / "amounts").read_text().splitlines()]
    words = ["--catalogue", str(night / "catalogue.json"), "--batchctl", BATCHCTL[0], "--data", str(tmp_path / "data")]
    process = Process(tmp_path / "service", *words)
    try:
        process.start()
        async with working(process.url, night / "artifacts", slots=2):
            status, told = await say(process.url, "start", "nightly", "-p", "date=2026-11-27", "--once", "--wait")
            assert (status, told.splitlines()[-1]) == (0, "job execution 1 is COMPLETED, exit status COMPLETED")
            status, told = await say(process.url, "log", "1")
            assert f"{len(amounts)} ROWS, {sum(amounts)} IN ALL" in told.splitlines()
            status, told = await say(process.url, "start", "nightly", "-p", "date=today", "--wait")
            assert (status, told.splitlines()[-1]) == (3, "job execution 2 is FAILED, exit status FAILED")
    finally:
        process.kill()
