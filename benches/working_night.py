"""Measures what users of `batchctl script` do: a night of starts, claims, checkpoints and finishes over a growing history.

    python3 benches/working_night.py [--program PATH] [NIGHTS..]

A night of N has N job executions of a job with one chunk: each is started, claimed, reports a checkpoint and is
finished, 4 N operations in the log and a query of the job execution for each. Printed for each night: seconds, lines a
second, and the cost of a line over that of the first night. Nights of 1,000, 4,000 and 16,000 are run, if none is given.
"""

from __future__ import annotations

import argparse
import json
import subprocess
import sys
import time
from pathlib import Path

ROOT = Path(__file__).resolve().parent.parent
PROGRAM = ROOT / "crates" / "batchctl" / "out" / "batchctl"
CHUNK = {"reader": {"ref": "count:5"}, "writer": {"ref": "sink"}}
CATALOGUE = {"jobs": [{"id": "nightly", "elements": [{"kind": "step", "id": "s", "chunk": CHUNK}]}]}
LINES_OF_ONE = 5


def lines_of(number: int) -> list[dict[str, object]]:
    """The lines of one job execution, which is the one of this number."""
    at = 10 * number
    return [
        {"do": "start", "by": 1, "at": at, "job": "nightly"},
        {"do": "claim", "by": 2, "at": at + 1},
        {"do": "checkpoint", "by": 2, "at": at + 2, "work": number, "data": "5", "metrics": {"READ_COUNT": 5}},
        {"do": "finish", "by": 2, "at": at + 3, "work": number, "outcome": "COMPLETED"},
        {"ask": "job_execution", "execution": number},
    ]


def script_of(night: int) -> bytes:
    lines = [CATALOGUE] + [line for number in range(1, night + 1) for line in lines_of(number)]
    return "".join(json.dumps(line, separators=(",", ":")) + "\n" for line in lines).encode()


def seconds_of(program: Path, night: int) -> float:
    script = script_of(night)
    begin = time.monotonic()
    ended = subprocess.run([program, "script"], input=script, capture_output=True, check=True)
    seconds = time.monotonic() - begin
    completed = ended.stdout.count(b'"status":"COMPLETED"')
    if completed != night:
        sys.exit(f"{completed} of {night} job executions were COMPLETED")
    return seconds


def main() -> None:
    parser = argparse.ArgumentParser(description=__doc__.splitlines()[0])
    parser.add_argument("--program", type=Path, default=PROGRAM)
    parser.add_argument("nights", nargs="*", type=int, default=[1000, 4000, 16000])
    words = parser.parse_args()
    first = 0.0
    for night in words.nights:
        seconds = seconds_of(words.program, night)
        of_a_line = seconds / (night * LINES_OF_ONE)
        first = first or of_a_line
        print(
            f"{night:6} job executions: {seconds:7.3f} s, {1 / of_a_line:8.0f} lines a second,"
            f" a line costs {of_a_line / first:.1f} times that of the first night"
        )


if __name__ == "__main__":
    main()
