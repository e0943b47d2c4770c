#!/usr/bin/env python3
"""Measures what a log on the disk costs: `batchctl script --log` beside `batchctl script`.

    python3 benches/log_speed.py [--program PATH] [--turns N] [--nights N] [--lines N] [--operations N] [--folder DIR]

Three tables are printed:

- A night of so many job executions (20,000), five lines each, at full speed: with a log and without one by turns, five turns
  if --turns says no other number. The median, lines a second, and the syncs of one run, if there is `strace`.
- So many lines (2,000) one at a time, each after the reply before: the median and the 99th percentile of a line that
  is accepted and of one that is not. Beside it a write of 100 bytes and a sync of the same disk, by this script.
- So many operations (1,000,000), of one job execution that is stopped again and again: without a log, into a new log, and two
  openings of that log with no line, by turns: sealed, as its run left it, and not sealed, as a crash may leave it. The median of
  the seconds, and peak memory. Beside it the bytes of that log, written at once and synced by this script: an opening of a log
  that isn't sealed writes them too, and no program over that disk takes less.

The log stands in DIR, else in the folder of temporary files: its disk decides. Each run is compared with what it has to write.
"""

from __future__ import annotations

import argparse
import json
import os
import re
import shutil
import statistics
import subprocess
import sys
import tempfile
import time
from collections.abc import Callable, Sequence
from dataclasses import dataclass
from pathlib import Path

ROOT = Path(__file__).resolve().parent.parent
PROGRAM = ROOT / "crates" / "batchctl" / "out" / "batchctl"
CHUNK = {"reader": {"ref": "count:5"}, "writer": {"ref": "sink"}}
NIGHTLY = {"jobs": [{"id": "nightly", "elements": [{"kind": "step", "id": "s", "chunk": CHUNK}]}]}
STOPPED = {"jobs": [{"id": "a", "elements": [{"kind": "step", "id": "s", "batchlet": {"ref": "ok"}}]}]}
SYNCS, COPIES = 1000, 5
SEAL, SHUT = b"sss", b"000"
MIB = 1024


@dataclass(frozen=True)
class Words:
    """What is measured."""

    program: Path
    folder: Path
    turns: int

    def over(self, log: Path | None) -> list[str]:
        return [str(self.program), "script", *([] if log is None else ["--log", str(log)])]


@dataclass(frozen=True)
class Run:
    """How long a run took, its peak memory in MiB, and what it wrote."""

    seconds: float
    memory: float
    told: bytes


def text_of(values: Sequence[object]) -> bytes:
    return "".join(json.dumps(value, separators=(",", ":")) + "\n" for value in values).encode()


def lines_of(number: int) -> list[object]:
    """The lines of one job execution: four calls that are accepted, and a query."""
    at = 10 * number
    return [
        {"do": "start", "by": 1, "at": at, "job": "nightly"},
        {"do": "claim", "by": 2, "at": at + 1},
        {"do": "checkpoint", "by": 2, "at": at + 2, "work": number, "data": "5", "metrics": {"READ_COUNT": 5}},
        {"do": "finish", "by": 2, "at": at + 3, "work": number, "outcome": "COMPLETED"},
        {"ask": "job_execution", "execution": number},
    ]


def night_of(count: int) -> list[object]:
    return [line for number in range(1, count + 1) for line in lines_of(number)]


def run(words: Words, given: bytes, log: Path | None) -> Run:
    """Runs a script from a file into a file."""
    source, sink = words.folder / "given", words.folder / "told"
    source.write_bytes(given)
    with source.open("rb") as stdin, sink.open("wb") as stdout:
        begin = time.monotonic()
        running = subprocess.Popen(words.over(log), stdin=stdin, stdout=stdout)
        _, status, usage = os.wait4(running.pid, 0)
        seconds = time.monotonic() - begin
    running.returncode = os.waitstatus_to_exitcode(status)
    if running.returncode != 0:
        sys.exit(f"{' '.join(words.over(log))}: status {running.returncode}")
    return Run(seconds, usage.ru_maxrss / MIB, sink.read_bytes())


def want_operations(log: Path, count: int) -> None:
    found = len(re.findall(rb"^111 o ", log.read_bytes(), re.MULTILINE))
    if found != count:
        sys.exit(f"the log has {found} operations in place of {count}")


def syncs_of(words: Words, given: bytes, log: Path | None) -> str:
    """How many syncs a run makes, if there is `strace`."""
    if not shutil.which("strace"):
        return "not counted"
    counted = words.folder / "counted"
    traced = ["strace", "-f", "-c", "-o", str(counted), "-e", "trace=fsync,fdatasync", *words.over(log)]
    subprocess.run(traced, input=given, stdout=subprocess.DEVNULL, check=True)
    rows = [line.split() for line in counted.read_text().splitlines()]
    return f"{sum(int(row[3]) for row in rows if row and row[-1] in ('fsync', 'fdatasync')):,}"


def print_table(head: Sequence[str], rows: Sequence[Sequence[str]]) -> None:
    for row in (head, ["---"] * len(head), *rows):
        print("| " + " | ".join(row) + " |")
    print()


def measure_nights(words: Words, count: int) -> None:
    """A night at full speed, with a log and without one by turns."""
    given, log = text_of([NIGHTLY, *night_of(count)]), words.folder / "night.log"
    plain, logged = list[Run](), list[Run]()
    for _ in range(words.turns):
        log.unlink(missing_ok=True)
        plain.append(run(words, given, None))
        logged.append(run(words, given, log))
        if plain[-1].told != logged[-1].told:
            sys.exit("the replies with a log differ from those without one")
    want_operations(log, 4 * count)
    log.unlink()
    rows = [
        (what, statistics.median(one.seconds for one in runs), syncs_of(words, given, kept))
        for what, runs, kept in (("without a log", plain, None), ("with a log", logged, log))
    ]
    head = [f"{5 * count:,} lines at full speed", "seconds", "lines a second", "syncs"]
    print_table(head, [[what, f"{seconds:.3f}", f"{5 * count / seconds:,.0f}", syncs] for what, seconds, syncs in rows])


def times_of_lines(words: Words, lines: Sequence[object], log: Path | None) -> list[float]:
    """How long the reply to each line takes, one line after the other."""
    running = subprocess.Popen(words.over(log), stdin=subprocess.PIPE, stdout=subprocess.PIPE)
    assert running.stdin and running.stdout
    running.stdin.write(text_of([NIGHTLY]))
    seconds = list[float]()
    for line in lines:
        text = text_of([line])
        begin = time.perf_counter()
        running.stdin.write(text)
        running.stdin.flush()
        running.stdout.readline()
        seconds.append(time.perf_counter() - begin)
    running.communicate()
    if running.returncode != 0:
        sys.exit(f"{' '.join(words.over(log))}: status {running.returncode}")
    return seconds


def times_of(action: Callable[[], None]) -> list[float]:
    seconds = list[float]()
    for _ in range(SYNCS):
        begin = time.perf_counter()
        action()
        seconds.append(time.perf_counter() - begin)
    return seconds


def times_of_syncs(folder: Path) -> list[float]:
    """How long a write of 100 bytes behind a file takes, with its sync."""
    with (folder / "synced").open("wb", buffering=0) as file:

        def write_and_sync() -> None:
            file.write(b"x" * 100)
            os.fdatasync(file.fileno())

        return times_of(write_and_sync)


def seconds_of_copy(log: Path) -> float:
    """How long the bytes of a log take to be written at once into a new file, and synced."""
    held, copy = log.read_bytes(), log.with_suffix(".copy")

    def write_and_sync() -> float:
        begin = time.perf_counter()
        with copy.open("wb", buffering=0) as file:
            file.write(held)
            os.fdatasync(file.fileno())
        return time.perf_counter() - begin

    seconds = statistics.median(write_and_sync() for _ in range(COPIES))
    copy.unlink()
    return seconds


def measure_lines(words: Words, count: int) -> None:
    """Lines one at a time."""
    lines, log = night_of(count // 5), words.folder / "lines.log"
    rows = list[list[str]]()
    for what, kept in (("without a log", None), ("with a log", log)):
        seconds = times_of_lines(words, lines, kept)
        queries = seconds[4::5]
        calls = [one for number, one in enumerate(seconds) if number % 5 != 4]
        rows += [[f"an accepted call {what}", *shown(calls)], [f"a query {what}", *shown(queries)]]
    want_operations(log, 4 * (count // 5))
    rows.append(["a write and a sync by this script", *shown(times_of_syncs(words.folder))])
    print_table([f"{len(lines):,} lines one at a time", "median, microseconds", "99th percentile"], rows)


def shown(seconds: list[float]) -> list[str]:
    return [f"{1e6 * statistics.median(seconds):,.0f}", f"{1e6 * statistics.quantiles(seconds, n=100)[98]:,.0f}"]


def median_of(runs: Sequence[Run]) -> Run:
    """The median of the seconds, and the largest memory, of runs that wrote the same."""
    return Run(statistics.median(one.seconds for one in runs), max(one.memory for one in runs), runs[0].told)


def unseal(log: Path) -> None:
    """Leaves a log as a crash may: with a shut gate at its end."""
    with log.open("r+b") as file:
        file.seek(-len(SEAL), os.SEEK_END)
        if file.read() != SEAL:
            sys.exit("the log is not sealed")
        file.seek(-len(SEAL), os.SEEK_END)
        file.write(SHUT)
        file.flush()
        os.fdatasync(file.fileno())


def measure_openings(words: Words, count: int) -> None:
    """A full history without a log, into a new log, and openings of that log, by turns."""
    stop = text_of([{"do": "stop", "by": 1, "at": 0, "execution": 1}])
    ahead = text_of([STOPPED, {"do": "start", "by": 1, "at": 0, "job": "a"}, {"do": "claim", "by": 1, "at": 0}])
    whole, log = ahead + stop * (count - 2), words.folder / "full.log"
    plain, logged, opened, made_anew = list[Run](), list[Run](), list[Run](), list[Run]()
    for _ in range(words.turns):
        log.unlink(missing_ok=True)
        plain.append(run(words, whole, None))
        logged.append(run(words, whole, log))
        opened.append(run(words, text_of([STOPPED]), log))
        unseal(log)
        made_anew.append(run(words, text_of([STOPPED]), log))
        if plain[-1].told != logged[-1].told or opened[-1].told or made_anew[-1].told:
            sys.exit("the replies with a log differ from those without one")
    want_operations(log, count)
    named = {
        "a script without a log": plain,
        "a script into a new log": logged,
        "an opening of that log": opened,
        "an opening of that log, not sealed": made_anew,
    }
    table = [(what, median_of(runs)) for what, runs in named.items()]
    least = table[0][1].seconds
    rows = [[what, f"{one.seconds:.2f}", f"{one.seconds / least:.2f}", f"{one.memory:,.0f}"] for what, one in table]
    rows.append(["the bytes of that log, written and synced by this script", f"{seconds_of_copy(log):.2f}", "", ""])
    print_table([f"{count:,} operations", "seconds, the median", "of the first", "peak memory, MiB"], rows)
    print(f"The log has {log.stat().st_size:,} bytes.")


def main() -> None:
    parser = argparse.ArgumentParser(description=(__doc__ or "").splitlines()[0])
    parser.add_argument("--program", type=Path, default=PROGRAM)
    parser.add_argument("--turns", type=int, default=5)
    parser.add_argument("--nights", type=int, default=20_000)
    parser.add_argument("--lines", type=int, default=2_000)
    parser.add_argument("--operations", type=int, default=1_000_000)
    parser.add_argument("--folder", type=Path)
    given = parser.parse_args()
    with tempfile.TemporaryDirectory(prefix="log-speed-", dir=given.folder) as folder:
        words = Words(given.program.resolve(), Path(folder), given.turns)
        measure_nights(words, given.nights)
        measure_lines(words, given.lines)
        measure_openings(words, given.operations)


if __name__ == "__main__":
    main()
