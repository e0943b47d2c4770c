"""Parameters of any size reach an artifact: by a file, and by its environment as far as that can hold them."""

from __future__ import annotations

import json
import os
import resource
import stat
import tempfile
from collections.abc import Iterator
from pathlib import Path
from typing import Any

import pytest

from job_host.worker.artifacts import Ended
from job_host.worker.chunks import Chunk
from job_host.worker.output import Tail
from job_host.worker.worker import Batchlet, Told

# It tells its file's parameters and mode, and the lengths of its variables.
SHOWS = """#!/usr/bin/python3
import json, os, sys
told = {name: len(value) for name, value in os.environ.items() if name.startswith("BATCH_PARAMETER")}
path = os.environ["BATCH_PARAMETERS_FILE"]
with open(path) as file, open("shown", "w") as shown:
    json.dump({"told": told, "file": json.load(file), "mode": os.stat(path).st_mode & 0o777, "path": path}, shown)
for line in sys.stdin:
    do = json.loads(line)["do"]
    print(json.dumps({"read": {"end": True}, "checkpoint": {"checkpoint": "0"}}.get(do, {})), flush=True)
"""
BATCHLET = {"work": 1, "execution": 1, "element": "only", "ref": "shows", "kind": "batchlet"}
CHUNK = {
    "work": 1,
    "execution": 1,
    "element": "only",
    "item-count": 2,
    "checkpoint": None,
    "reader": "shows",
    "writer": "shows",
}


@pytest.fixture(autouse=True)
def temporary(tmp_path: Path, monkeypatch: pytest.MonkeyPatch) -> Path:
    """The folder of temporary files."""
    folder = tmp_path / "temporary"
    folder.mkdir()
    monkeypatch.setattr(tempfile, "tempdir", str(folder))
    return folder


@pytest.fixture
def small_stack() -> Iterator[None]:
    """A stack of 1 MiB, so that an environment has 256 KiB."""
    before = resource.getrlimit(resource.RLIMIT_STACK)
    resource.setrlimit(resource.RLIMIT_STACK, (1_048_576, before[1]))
    yield
    resource.setrlimit(resource.RLIMIT_STACK, before)


async def run(folder: Path, work: dict[str, Any], parameters: dict[str, str]) -> tuple[Ended, dict[str, Any], str]:
    """How it ended, what it has shown, and its log."""
    (folder / "shows").write_text(SHOWS)
    (folder / "shows").chmod(0o755)
    claimed, tail = {"work": work, "jobParameters": parameters}, Tail()
    if "reader" not in work:
        ended = await Batchlet(folder, claimed, tail, Told()).run()
    else:

        async def report(mark: str, metrics: dict[str, int]) -> bool:
            return False

        chunk = Chunk(folder, {**claimed, "work": {**work, "processor": None}}, tail, report)
        ended = await chunk.run()
        await chunk.close()
    shown = folder / "shown"
    return ended, json.loads(shown.read_text()) if shown.exists() else {}, tail.text()


@pytest.mark.parametrize("work", [BATCHLET, CHUNK], ids=["batchlet", "chunk"])
async def test_parameters_are_in_a_file_that_is_removed(tmp_path: Path, temporary: Path, work: dict[str, Any]) -> None:
    parameters = {"date": "2026-11-27", "no word": "é\0"}
    ended, shown, log = await run(tmp_path, work, parameters)
    assert (ended.outcome, log) == ("COMPLETED", "")
    assert shown["file"] == parameters and shown["mode"] == stat.S_IRUSR | stat.S_IWUSR
    length = len(json.dumps(parameters))
    assert shown["told"] == {
        "BATCH_PARAMETERS": length,
        "BATCH_PARAMETERS_FILE": len(shown["path"]),
        "BATCH_PARAMETER_date": 10,
    }
    assert Path(shown["path"]).parent == temporary and list(temporary.iterdir()) == []


@pytest.mark.parametrize("work", [BATCHLET, CHUNK], ids=["batchlet", "chunk"])
async def test_a_large_parameter_is_in_the_file_alone(tmp_path: Path, work: dict[str, Any]) -> None:
    most = 131_072 - len("BATCH_PARAMETER_most=\0")
    parameters = {"small": "s", "most": "m" * most, "large": "l" * (most + 1), "zero": "\0"}
    ended, shown, log = await run(tmp_path, work, parameters)
    assert ended.outcome == "COMPLETED" and shown["file"] == parameters
    assert shown["told"].keys() == {"BATCH_PARAMETER_small", "BATCH_PARAMETER_most", "BATCH_PARAMETERS_FILE"}
    left_out = "BATCH_PARAMETERS, BATCH_PARAMETER_large, BATCH_PARAMETER_zero"
    assert log == f"jobhost: the environment can't hold {left_out}: the file BATCH_PARAMETERS_FILE has all parameters\n"


async def test_no_parameter_of_another_work_item_is_found(tmp_path: Path, monkeypatch: pytest.MonkeyPatch) -> None:
    """A worker may itself be an artifact."""
    monkeypatch.setenv("BATCH_PARAMETERS", "{}")
    monkeypatch.setenv("BATCH_PARAMETER_large", "small")
    _, shown, _ = await run(tmp_path, BATCHLET, {"large": "l" * 200_000})
    assert shown["told"].keys() == {"BATCH_PARAMETERS_FILE"}


async def test_all_parameters_together_may_be_too_large(tmp_path: Path, small_stack: None) -> None:
    parameters = {f"p{number:02}": "x" * (10_000 + number) for number in range(64)}
    ended, shown, log = await run(tmp_path, BATCHLET, parameters)
    assert ended.outcome == "COMPLETED" and shown["file"] == parameters
    held = [name for name in parameters if f"BATCH_PARAMETER_{name}" in shown["told"]]
    assert held == list(parameters)[: len(held)] and 15 < len(held) < 26
    assert "can't hold BATCH_PARAMETERS, " in log


async def test_a_text_that_no_environment_can_hold_fails_nothing(tmp_path: Path) -> None:
    parameters = {"odd": "\ud800"}
    ended, shown, log = await run(tmp_path, BATCHLET, parameters)
    assert (ended.outcome, shown["file"]) == ("COMPLETED", parameters) and "can't hold BATCH_PARAMETER_odd:" in log


async def test_without_room_for_the_file_the_work_item_fails(tmp_path: Path, temporary: Path) -> None:
    os.rmdir(temporary)
    ended, _, log = await run(tmp_path, BATCHLET, {})
    assert ended == Ended("FAILED") and "No such file or directory" in log
