"""The lines that callers send to the program whose power is cut, and the questions by which its history is known."""

from __future__ import annotations

import json

SMALL, LARGE = (700, 600), (30_000, 40_000)
# So many lines are sent by the run that makes a log, and so many by a run over it.
BEFORE, FIRST = 6, 12


def line_of(value: object) -> bytes:
    return json.dumps(value, separators=(",", ":")).encode() + b"\n"


JOB = {
    "id": "a",
    "elements": [
        {"kind": "step", "id": "load", "next": "mail", "chunk": {"reader": {"ref": "r"}, "writer": {"ref": "w"}}},
        {"kind": "step", "id": "mail", "batchlet": {"ref": "m"}},
    ],
}
OTHER_JOB = {"id": "b", "elements": [{"kind": "step", "id": "s", "batchlet": {"ref": "m"}}]}
CATALOGUE, GROWN = line_of({"jobs": [JOB]}), line_of({"jobs": [JOB, OTHER_JOB]})


def data_of(size: int) -> str:
    """A text of this size. No two sectors of it are alike."""
    return "".join(f"{number:07}." for number in range(size // 8 + 1))[:size]


def night_of(day: int, sizes: tuple[int, int] = SMALL) -> list[bytes]:
    """A night of a day from 1 to 9, with data of these sizes. The nights of other days differ in their moments alone."""
    lines: list[dict[str, object]] = [
        {"do": "start", "by": 1, "job": "a", "parameters": {"date": "2026-11-27"}},
        {"do": "claim", "by": 2},
        {"ask": "job_execution", "execution": 1},
        {"do": "checkpoint", "by": 2, "work": 1, "data": data_of(sizes[0]), "metrics": {"READ_COUNT": 7}},
        {"do": "start", "by": 1, "job": "unknown"},
        {"do": "claim", "by": 3},
        {"do": "checkpoint", "by": 2, "work": 1, "data": data_of(sizes[1]), "metrics": {"READ_COUNT": 6}},
        {"do": "finish", "by": 2, "work": 1, "outcome": "FAILED", "exit": "NO SPACE"},
        {"do": "restart", "by": 1, "execution": 1},
        {"do": "start", "by": 1, "job": "b"},
        {"do": "claim", "by": 2},
        {"ask": "status_counts"},
        {"do": "finish", "by": 2, "work": 2, "outcome": "COMPLETED"},
        {"do": "claim", "by": 3},
        {"do": "finish", "by": 3, "work": 3, "outcome": "COMPLETED"},
        {"do": "start", "by": 1, "job": "a"},
        {"do": "claim", "by": 2},
    ]
    moments = ({"at": 100 * day + number} if "do" in line else {} for number, line in enumerate(lines))
    return [line_of(line | moment) for line, moment in zip(lines, moments)]


def questions() -> list[bytes]:
    """All that can be asked of the executions of a night."""
    asked: list[dict[str, object]] = [{"ask": "status_counts"}, {"ask": "job_names"}]
    asked += [{"ask": "job_instances", "job": "a", "start": 0, "count": 9}]
    for number in range(1, 5):
        asked += [{"ask": name, "execution": number} for name in ("job_execution", "step_executions", "parameters")]
        asked += [{"ask": "job_executions", "instance": number}]
    return [line_of(line) for line in asked]


def sequel() -> list[bytes]:
    """Lines that any night may go on with: work is given up, and its data comes back by a restart."""
    lines: list[dict[str, object]] = [
        {"do": "lose", "by": 8, "at": 991, "work": 1},
        {"do": "restart", "by": 8, "at": 992, "execution": 1},
        {"do": "claim", "by": 9, "at": 993},
        {"do": "start", "by": 8, "at": 994, "job": "a"},
        {"do": "claim", "by": 9, "at": 995},
    ]
    return [line_of(line) for line in lines]
