"""The sample scripts of the repository, and those that the tests write by themselves."""

from __future__ import annotations

from collections.abc import Iterator
from itertools import chain
from pathlib import Path

from log_trial.script import lines_of
from page_blocks import blocks_in
from pages import PAGES, catalogues_in, scripts_in
from repository import ROOT


DATA = ROOT / "cases" / "scripts"
NIGHT = DATA / "restart_of_a_night.script"
SCRIPTS = [ROOT / "crates" / "batchctl" / "stdin", Path(__file__).parents[1] / "memory_trial" / "growth.script"]
MAX_LINE = 16_777_216

STEP = {"kind": "step", "id": "s", "batchlet": {"ref": "ok"}}
CHUNK = {"kind": "step", "id": "s", "chunk": {"reader": {"ref": "count:5"}, "writer": {"ref": "sink"}}}
JOB: dict[str, object] = {"id": "a", "elements": [STEP]}
OTHER_JOB: dict[str, object] = {"id": "b", "elements": [STEP]}
NIGHTLY = {"id": "nightly", "elements": [CHUNK]}


def scripts_of_pages() -> Iterator[tuple[str, bytes]]:
    """The scripts of docs/TUTORIAL.md and docs/LINES.md, each with its name."""
    for path in PAGES:
        blocks = list(blocks_in(path.name, path.read_text()))
        catalogues = catalogues_in(blocks)
        for number, script in enumerate(scripts_in(blocks)):
            lines = [catalogues[script.catalogue], *(sent.text for sent in script.sent)]
            yield f"{path.name}, script {number}", "".join(f"{line}\n" for line in lines).encode()


def scripts_of_cases() -> Iterator[tuple[str, bytes]]:
    """The scripts of `cases/scripts`. A file `.scripts` has an empty line between two of them."""
    for path in sorted(DATA.glob("*.script*")):
        text = path.read_bytes()
        parts = text.split(b"\n\n") if path.suffix == ".scripts" else [text]
        for number, part in enumerate(parts):
            yield f"{path.name}, script {number}", part


def sample_scripts() -> Iterator[tuple[str, bytes]]:
    """All sample scripts of the repository, each with its name."""
    single = ((path.name, path.read_bytes()) for path in SCRIPTS)
    return chain(single, scripts_of_pages(), scripts_of_cases())


def catalogue_of(*jobs: object) -> bytes:
    return lines_of([{"jobs": jobs}]).removesuffix(b"\n")


def lines_of_one(number: int) -> list[object]:
    """The lines of one job execution: calls that are accepted, refused and answered Nothing, and queries."""
    at = 10 * number
    return [
        {"do": "start", "by": 1, "at": at, "job": "nightly"},
        {"do": "start", "by": 1, "at": at, "job": "unknown"},
        {"do": "claim", "by": 2, "at": at + 1},
        {"do": "claim", "by": 3, "at": at + 1},
        {"do": "checkpoint", "by": 2, "at": at + 2, "work": number, "data": "5", "metrics": {"READ_COUNT": number}},
        {"ask": "job_execution", "execution": number},
        {"do": "finish", "by": 2, "at": at + 3, "work": number, "outcome": "COMPLETED"},
        {"ask": "job_execution", "execution": number},
        {"ask": "step_executions", "execution": number},
    ]


def night_of(count: int) -> bytes:
    """A night of so many job executions, with queries whose replies are longer than the buffer of replies in the end."""
    lines = chain.from_iterable(lines_of_one(number) for number in range(1, count + 1))
    pages = [{"ask": "job_instances", "job": "nightly", "start": start, "count": 1000000} for start in range(3)]
    return catalogue_of(NIGHTLY) + b"\n" + lines_of([*lines, *pages])


def padded_starts() -> bytes:
    """A script whose lines are as long as a line may be, and by one byte too long."""
    start = lines_of([{"do": "start", "by": 1, "at": 1, "job": "a"}]).removesuffix(b"\n")
    lines = [start.ljust(MAX_LINE), start.ljust(MAX_LINE + 1), start, start.rjust(MAX_LINE)]
    return b"\n".join([catalogue_of(JOB), *lines, b""])


def path_of(folder: Path, name: str = "log") -> Path:
    """A file in an empty folder of its own."""
    folder.mkdir(parents=True)
    return folder / name
