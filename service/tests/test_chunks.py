"""Chunks by executables: what each part is told, and where a chunk goes on."""

from __future__ import annotations

import json
from pathlib import Path
from typing import Any

import pytest

from job_host.worker.artifacts import Ended
from job_host.worker.chunks import Chunk
from job_host.worker.output import Tail

# A part that notes what it is told. It reads the numbers up to 5 and drops 3 and 4. The writer answers the mark of a file.
PART = """#!/usr/bin/python3
import json, sys
from pathlib import Path
here = Path(__file__).resolve().parent
use = Path(sys.argv[0]).name
for line in sys.stdin:
    with open(here / "told", "a") as told:
        told.write(f"{use} {line}")
    asked, answer = json.loads(line), {}
    if asked["do"] == "open":
        place = int(asked["checkpoint"] or 0)
        kept = here / "kept"
        if use == "writer" and kept.exists():
            answer = {"checkpoint": json.loads(kept.read_text())}
    elif asked["do"] == "read":
        answer = {"item": place + 1} if place < 5 else {"end": True}
        place += 1 if "item" in answer else 0
    elif asked["do"] == "checkpoint":
        answer = {"checkpoint": str(place)}
    elif asked["do"] == "process":
        answer = {"item": asked["item"]} if asked["item"] not in (3, 4) else {}
    print(json.dumps(answer), flush=True)
"""


class Parts:
    """A folder with a reader, a processor and a writer, and what they were told."""

    def __init__(self, folder: Path) -> None:
        self.folder = folder
        self.reported: list[tuple[str, dict[str, int]]] = []
        self.tail = Tail()
        for name in ("reader", "processor", "writer"):
            (folder / name).write_text(PART)
            (folder / name).chmod(0o755)

    async def run(self, checkpoint: str | None, kept: Any = "nothing", stop: bool = False) -> Ended:
        """Runs a chunk of pairs from a checkpoint. The writer has kept a mark, or null, or keeps none."""
        if kept != "nothing":
            (self.folder / "kept").write_text(json.dumps(kept))
        parts = {name: name for name in ("reader", "processor", "writer")}
        work: dict[str, Any] = {
            "work": 7,
            "execution": 1,
            "element": "copy",
            "item-count": 2,
            "checkpoint": checkpoint,
            **parts,
        }

        async def report(mark: str, metrics: dict[str, int]) -> bool:
            self.reported.append((mark, metrics))
            return stop

        chunk = Chunk(self.folder, {"work": work}, self.tail, report)
        try:
            return await chunk.run()
        finally:
            await chunk.close()

    def told(self, use: str, *words: str) -> list[dict[str, Any]]:
        """The lines with these words that a part was told."""
        lines = [line.split(" ", 1) for line in (self.folder / "told").read_text().splitlines()]
        return [asked for one, line in lines if one == use and (asked := json.loads(line))["do"] in words]

    def opened(self) -> list[tuple[str, str | None]]:
        """The parts in the order in which they were opened, and the checkpoints that they were told."""
        lines = [line.split(" ", 1) for line in (self.folder / "told").read_text().splitlines()]
        return [(use, asked["checkpoint"]) for use, line in lines if (asked := json.loads(line))["do"] == "open"]


def counts(read: int, filtered: int) -> dict[str, int]:
    return {"READ_COUNT": read, "FILTER_COUNT": filtered, "WRITE_COUNT": read - filtered, "COMMIT_COUNT": 1}


async def test_a_writer_is_told_its_checkpoint_and_its_group(tmp_path: Path) -> None:
    parts = Parts(tmp_path)
    assert (await parts.run("0")).outcome == "COMPLETED"
    opened: dict[str, Any] = {"do": "open", "checkpoint": "0", "partition": None, "work": 7}
    assert parts.told("reader", "open") == [opened]
    assert parts.told("processor", "open") == [{**opened, "checkpoint": None}]
    assert parts.told("writer", "open", "write") == [
        opened,
        {"do": "write", "items": [1, 2], "work": 7, "group": 1, "checkpoint": "2"},
        {"do": "write", "items": [5], "work": 7, "group": 3, "checkpoint": "5"},
    ]
    assert parts.reported == [("2", counts(2, 0)), ("4", counts(2, 2)), ("5", counts(1, 0))]


async def test_a_writer_that_keeps_no_checkpoints_changes_no_report(tmp_path: Path) -> None:
    parts = Parts(tmp_path)
    assert (await parts.run(None)).outcome == "COMPLETED"
    assert parts.opened() == [("writer", None), ("reader", None), ("processor", None)]
    assert [mark for mark, _ in parts.reported] == ["2", "4", "5"]


@pytest.mark.parametrize(("checkpoint", "kept", "begin"), [("2", "4", "4"), ("4", "2", "2"), ("2", None, "2"), ("2", "5", "5")])
async def test_a_reader_goes_on_where_its_writer_was(tmp_path: Path, checkpoint: str, kept: str | None, begin: str) -> None:
    parts = Parts(tmp_path)
    assert (await parts.run(checkpoint, kept)).outcome == "COMPLETED"
    assert parts.opened() == [("writer", checkpoint), ("reader", begin), ("processor", None)]
    assert [mark for mark, _ in parts.reported] == [mark for mark in ("4", "5") if mark > begin]


async def test_a_chunk_says_where_it_begins_if_its_writer_keeps_checkpoints(tmp_path: Path) -> None:
    parts = Parts(tmp_path)
    assert (await parts.run(None, None)).outcome == "COMPLETED"
    assert parts.reported[0] == ("0", {}) and [mark for mark, _ in parts.reported] == ["0", "2", "4", "5"]
    parts.reported.clear()
    assert (await parts.run(None, None, stop=True), parts.reported) == (Ended("STOPPED"), [("0", {})])


@pytest.mark.parametrize(
    ("kept", "told"),
    [("2", "an earlier run"), (7, "is a text"), ("x" * 65_537, "more than 65536 bytes")],
    ids=["old", "no text", "long"],
)
async def test_a_wrong_checkpoint_of_a_writer_fails_the_chunk(tmp_path: Path, kept: Any, told: str) -> None:
    parts = Parts(tmp_path)
    assert await parts.run(None, kept) == Ended("FAILED")
    assert parts.reported == [] and told in parts.tail.text()
    assert parts.opened() == [("writer", None)]
