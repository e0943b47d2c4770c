#!/usr/bin/env python3
"""Measures a log over years of nights: the log is compacted each night, and what is older than some nights is purged.

    python3 benches/kept_nights.py [--program PATH] [--nights N] [--kept N] [--jobs N] [--folder DIR] [--replies]

A night has so many job executions (3,260) of one chunk, 28 operations each: a start, a claim, 25 checkpoints and a finish. Then
the job instances of the night that is as many nights back as nights are kept (30) are purged. Each night is one run of
`batchctl script --log FILE --compact`: the log is compacted, then the night's lines are answered. By default there are 1,095
nights, which is three years and 100,000,000 operations.

Each reply is compared with what is due: numbers go on without a gap from the first night to the last. Behind each night a query
counts the job instances, and the last job execution is asked for. The first job execution of all failed, and isn't purged:
behind the last night it is restarted from its last checkpoint.

Printed for some nights, and compared at the end with the first night from which on nights were purged: the bytes of the
compacted log but for the digits in its lines, of which numbers have more as years go by, and seconds of processor time and peak
memory of an opening with a compaction and of one without. Neither has a line, and the quickest of some counts. With `--replies`
neither seconds nor memory are compared, as in the gate.

With `--instructions` the two nights that are compared have the instructions of both openings, too, which callgrind counts
(`apt-get install valgrind`). They are compared in place of seconds: other work on the machine doesn't change them.

The log stands in DIR, else in the folder of temporary files. One log is kept at a time, with room for its compacted copy.
"""

from __future__ import annotations

import argparse
import json
import os
import re
import subprocess
import sys
import tempfile
from dataclasses import dataclass
from pathlib import Path

ROOT = Path(__file__).resolve().parent.parent
PROGRAM = ROOT / "crates" / "batchctl" / "out" / "batchctl"
CHUNK = {"reader": {"ref": "count:5"}, "writer": {"ref": "sink"}}
CATALOGUE = {"jobs": [{"id": "nightly", "elements": [{"kind": "step", "id": "s", "chunk": CHUNK}]}]}
CHECKPOINTS = 25
OPERATIONS = CHECKPOINTS + 3
# Each hundredth night is told, and those after which nothing should grow any more.
TOLD = 100
TURNS = 5
CALLGRIND = ("valgrind", "--tool=callgrind", "--callgrind-out-file=/dev/null")
COLLECTED = re.compile(rb"Collected : (\d+)")
# What stands before the line of a record.
FRAME_BYTES = 51
DIGITS = b"0123456789"
# What may differ, by the first night from which on nights are purged.
MOST_BYTES, MOST_COST, MOST_MEMORY, MOST_OPENINGS = 0.02, 0.05, 0.05, 2.5


def line_of(value: object) -> bytes:
    return json.dumps(value, separators=(",", ":")).encode() + b"\n"


@dataclass(frozen=True)
class Measured:
    """A run: its seconds of processor time and its peak memory in KiB."""

    seconds: float
    memory: int


@dataclass(frozen=True)
class Counted:
    """Instructions of an opening with a compaction, and of one without."""

    compaction: int
    opening: int

    def __str__(self) -> str:
        return f"{self.opening:,} instructions open it, and {self.compaction:,} compact it"


@dataclass(frozen=True)
class State:
    """A log behind a night: its bytes when it is compacted, all and but for digits, and openings with and without one."""

    night: int
    size: int
    undigited: int
    compaction: Measured
    opening: Measured
    counted: Counted | None = None

    @property
    def openings(self) -> float:
        """How many openings one with a compaction takes."""
        if self.counted is not None:
            return self.counted.compaction / self.counted.opening
        return self.compaction.seconds / self.opening.seconds

    def __str__(self) -> str:
        mib = self.size / 2**20
        return (
            f"{self.night:6} {mib:9.1f} {self.undigited / 2**20:9.1f}"
            f" {self.compaction.seconds:9.2f} {self.compaction.memory / 1024:9.0f}"
            f" {self.opening.seconds:9.2f} {self.opening.memory / 1024:9.0f}"
        )


HEADER = " night       MiB no digits  compacts       MiB     opens       MiB"


def undigited(path: Path) -> int:
    """The bytes of a log but for the digits in its records' lines."""
    with path.open("rb") as file:
        return sum(min(FRAME_BYTES, len(record)) + len(record[FRAME_BYTES:].translate(None, DIGITS)) for record in file)


class Log:
    """A log that is run night by night."""

    def __init__(self, program: Path, path: Path) -> None:
        self.program, self.path = program, path

    def run(self, lines: bytes, *words: str) -> tuple[bytes, Measured]:
        """Runs lines over the log. What the program writes is returned."""
        with tempfile.TemporaryFile() as given, tempfile.TemporaryFile() as told:
            given.write(line_of(CATALOGUE) + lines)
            given.seek(0)
            running = subprocess.Popen([self.program, "script", "--log", str(self.path), *words], stdin=given, stdout=told)
            _, status, usage = os.wait4(running.pid, 0)
            told.seek(0)
            output = told.read()
        if status:
            sys.exit(f"the program ended with status {os.waitstatus_to_exitcode(status)}: {output[-200:]!r}")
        return output, Measured(usage.ru_utime + usage.ru_stime, usage.ru_maxrss)

    def quickest(self, *words: str) -> Measured:
        """Runs no line over the log, some times."""
        return min((self.run(b"", *words)[1] for _ in range(TURNS)), key=lambda measured: measured.seconds)

    def counted(self, *words: str) -> int:
        """The instructions of a run without a line."""
        command: list[str | Path] = [*CALLGRIND, self.program, "script", "--log", str(self.path), *words]
        done = subprocess.run(command, input=line_of(CATALOGUE), capture_output=True, check=False)
        found = COLLECTED.search(done.stderr)
        if done.returncode or found is None:
            sys.exit(f"callgrind ended with status {done.returncode}: {done.stderr[-400:]!r}")
        return int(found[1])

    def state(self, night: int, instructions: bool) -> State:
        compaction = self.quickest("--compact")
        size, bare, opening = self.path.stat().st_size, undigited(self.path), self.quickest()
        counted = Counted(self.counted("--compact"), self.counted()) if instructions else None
        return State(night, size, bare, compaction, opening, counted)


# The lines of a job execution and the replies to them, in which its number stands in place of %(n)d, and moments of %(at)d.
AT = 1_000_000_007
LINES = b"".join(
    [
        line_of({"do": "start", "by": 1, "at": AT, "job": "nightly"}),
        line_of({"do": "claim", "by": 2, "at": AT}),
        *(
            line_of({"do": "checkpoint", "by": 2, "at": AT, "work": -1, "data": str(group), "metrics": {"READ_COUNT": 10}})
            for group in range(CHECKPOINTS)
        ),
        line_of({"do": "finish", "by": 2, "at": AT, "work": -1, "outcome": "COMPLETED"}),
    ]
)
CLAIMED: dict[str, object] = {
    "checkpoint": None,
    "element": "s",
    "execution": -1,
    "item-count": 10,
    "kind": "chunk",
    "processor": None,
}
REPLIES = b"".join(
    [
        line_of({"execution": -1}),
        line_of({"work": {**CLAIMED, "reader": "count:5", "work": -1, "writer": "sink"}}),
        line_of({"go": True}) * CHECKPOINTS,
        line_of({"done": True}),
    ]
)


def with_numbers(text: bytes, number: int) -> bytes:
    return text.replace(b"-1", b"%d" % number).replace(b"%d" % AT, b"%d" % (1000 * number))


def lines_of(number: int) -> bytes:
    """The lines of a job execution, of which the first one fails."""
    lines = with_numbers(LINES, number)
    return lines.replace(b"COMPLETED", b"FAILED") if number == 1 else lines


def purge_of(number: int) -> bytes:
    return line_of({"do": "purge", "by": 1, "at": 10**12 + number, "instance": number})


def questions_of(last: int) -> bytes:
    asked = [{"ask": "job_instance_count", "job": "nightly"}, {"ask": "job_instance", "execution": last}]
    return b"".join(map(line_of, asked))


def answers_of(last: int, count: int) -> bytes:
    told = [{"count": count}, {"instance": last, "job": "nightly"}]
    return b"".join(map(line_of, told))


def night_of(log: Log, night: int, jobs: int, kept: int) -> Measured:
    """A night: its job executions, the purge of those of an earlier night, and two questions."""
    first, last = night * jobs + 1, (night + 1) * jobs
    begun = max(2, (night - kept) * jobs + 1)
    gone = range(begun, (night - kept + 1) * jobs + 1) if night >= kept else range(0)
    numbers = range(first, last + 1)
    lines = b"".join([*map(lines_of, numbers), *map(purge_of, gone), questions_of(last)])
    there = min(night + 1, kept) * jobs + (night >= kept)
    due = b"".join(
        [
            *(with_numbers(REPLIES, number) for number in numbers),
            line_of({"done": True}) * len(gone),
            answers_of(last, there),
        ]
    )
    told, measured = log.run(lines, "--compact")
    if told != due:
        pairs = zip(told.splitlines(), due.splitlines(), strict=False)
        other = next((pair for pair in pairs if pair[0] != pair[1]), (told[-200:], due[-200:]))
        sys.exit(f"night {night + 1}: {other[0]!r} was written, and {other[1]!r} is due")
    return measured


def restart(log: Log, last: int) -> None:
    """Restarts the first job execution of all, which goes on from its last checkpoint."""
    number = last + 1
    who: dict[str, object] = {"by": 1, "at": 10**13}
    told, _ = log.run(line_of({"do": "restart", "execution": 1} | who) + line_of({"do": "claim"} | who))
    work: dict[str, object] = {"checkpoint": str(CHECKPOINTS - 1), "execution": number, "reader": "count:5", "work": number}
    due = line_of({"execution": number}) + line_of({"work": CLAIMED | work | {"writer": "sink"}})
    if told != due:
        sys.exit(f"the restart: {told!r} was written, and {due!r} is due")


def growth(what: str, before: float, now: float, most: float) -> list[str]:
    return [f"{what}: {now} after {before}"] if now > before * (1 + most) else []


def compare(first: State, last: State, replies: bool) -> list[str]:
    """What has grown from one night to another by more than it may."""
    grown = growth("bytes but for digits", first.undigited, last.undigited, MOST_BYTES)
    if replies:
        return grown
    if first.counted is not None and last.counted is not None:
        grown += growth("instructions of an opening", first.counted.opening, last.counted.opening, MOST_COST)
    else:
        grown += growth("seconds of an opening", first.opening.seconds, last.opening.seconds, MOST_COST)
    grown += growth("memory of an opening", first.opening.memory, last.opening.memory, MOST_MEMORY)
    return [*grown, *([f"a compaction takes {last.openings:.2f} openings"] if last.openings > MOST_OPENINGS else [])]


def measure(log: Log, nights: int, kept: int, jobs: int, instructions: bool) -> tuple[State, State] | None:
    """Runs all nights. Returns the states to compare, if nights were purged."""
    print(HEADER)
    first: State | None = None
    for night in range(nights):
        night_of(log, night, jobs, kept)
        is_compared = night + 1 in (kept + 1, nights)
        if is_compared or (night + 1) % TOLD == 0:
            state = log.state(night + 1, instructions and is_compared)
            print(state, *([] if state.counted is None else [state.counted]), sep="\n", flush=True)
            first = first or (state if night >= kept else None)
    restart(log, nights * jobs)
    operations = nights * jobs * OPERATIONS
    gone = max(0, nights - kept) * jobs - (nights > kept)
    print(f"{operations} operations and {gone} purges; the last job execution is {nights * jobs}")
    return (first, state) if first else None


def main() -> None:
    parser = argparse.ArgumentParser(description=__doc__.splitlines()[0] if __doc__ else "")
    parser.add_argument("--program", type=Path, default=PROGRAM)
    parser.add_argument("--nights", type=int, default=1095)
    parser.add_argument("--kept", type=int, default=30)
    parser.add_argument("--jobs", type=int, default=3260)
    parser.add_argument("--folder", type=Path)
    parser.add_argument("--instructions", action="store_true")
    parser.add_argument("--replies", action="store_true")
    given = parser.parse_args()
    with tempfile.TemporaryDirectory(dir=given.folder) as folder:
        log = Log(given.program, Path(folder) / "log")
        states = measure(log, given.nights, given.kept, given.jobs, given.instructions)
    grown = compare(*states, given.replies) if states else []
    if grown:
        sys.exit("\n".join(grown))


if __name__ == "__main__":
    main()
