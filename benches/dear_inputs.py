#!/usr/bin/env python3
"""Compares the `batchctl` of two built checkouts on inputs that were made to be dear.

    benches/dear_inputs.py OLD NEW [--turns N] [--only WORD..]

Common work is measured by bench/run. These inputs look for what a change made dearer elsewhere: lines that are refused early
or late, parameters in any order, ids that are long or have one hash, wide splits, many open job executions, and pools of
workers on few cores.

OLD and NEW are checkouts with a proved crates/batchctl/out/batchctl. Each input runs by turns in both, five turns if --turns
says no other number. Both must end with status 0 and write the same: what they write is compared. Printed are the medians of
processor seconds, of the clock's seconds and of peak memory in MiB, each with NEW over OLD. A row with a ratio above 1.1 is
marked, and the exit status is 1 then. --only takes the rows whose name begins with one of these words.

Nothing else should run beside it. Peak memory is counted from that of the process that starts the program, some 22 MiB: what
takes less shows no difference.
"""

from __future__ import annotations

import argparse
import hashlib
import json
import os
import statistics
import subprocess
import sys
import tempfile
import time
from collections.abc import Callable, Iterator
from dataclasses import dataclass
from functools import partial
from multiprocessing import Process
from pathlib import Path
from random import Random
from typing import TypeVar

MOST_DEARER = 1.1
SHORT_LINE = 65_536
LONG_LINE = 16_777_216
MEASURES = ("processor", "clock", "memory")
# What is in no order is in the same one each time.
SEED = 1

T = TypeVar("T")
Lines = Iterator[str]
Elements = list[dict[str, object]]
Inputs = dict[str, Callable[[], Lines]]


def json_text(value: object) -> str:
    return json.dumps(value, separators=(",", ":"))


def step(name: str, ref: str = "r") -> dict[str, object]:
    return {"kind": "step", "id": name, "batchlet": {"ref": ref}}


def steps(names: list[str], ref: str = "r") -> Elements:
    """Steps one after the other."""
    made = [step(name, ref) for name in names]
    for one, after in zip(made, names[1:]):
        one["next"] = after
    return made


def in_order(rising: list[T], order: str) -> list[T]:
    """These, which rise, in the order `rising`, `falling` or `mixed`."""
    if order == "mixed":
        return Random(SEED).sample(rising, len(rising))
    return rising[::-1] if order == "falling" else rising


def catalogue(jobs: dict[str, Elements]) -> str:
    return json_text({"jobs": [{"id": name, "elements": elements} for name, elements in jobs.items()]})


class Script:
    """Writes the lines of a script, each a moment after the one before."""

    def __init__(self) -> None:
        self.at = 0

    def call(self, what: str, **members: object) -> str:
        self.at += 1
        return json_text({"do": what, "by": 1, "at": self.at, **members})

    def finish(self, work: int) -> str:
        return self.call("finish", work=work, outcome="COMPLETED")


def no_commands(parts: tuple[str, str, str], longest: int, times: int) -> Lines:
    """A line that is no command, often: a begin, a part again and again with commas between, an end, within so many bytes."""
    begin, part, end = parts
    count = (longest - len(begin) - len(end)) // (len(part) + 1)
    line = begin + ",".join([part] * count) + end
    yield catalogue({"j": [step("s")]})
    for _ in range(times):
        yield line


def one_after_another(elements: Elements, executions: int) -> Lines:
    """Job executions of the same steps, each run to its end before the next is started."""
    script = Script()
    yield catalogue({"j": elements})
    for number in range(executions):
        yield script.call("start", job="j")
        for place in range(1, len(elements) + 1):
            yield script.call("claim")
            yield script.finish(number * len(elements) + place)


def with_parameters(count: int, order: str, starts: int, length: int = 3) -> Lines:
    """Starts with so many parameters, whose names have so many bytes and stand in this order."""
    script = Script()
    names = in_order([f"{number:0{length}}" for number in range(count)], order)
    yield catalogue({"j": [step("s")]})
    for _ in range(starts):
        yield script.call("start", job="j", parameters=dict.fromkeys(names, "v"))


def large_catalogue(jobs: int) -> Lines:
    """Jobs of 1,000 steps, whose ids rise in no order."""
    dice = Random(SEED)
    ids = [[f"{dice.randrange(10**6)}-{place}" for place in range(1000)] for _ in range(jobs)]
    yield catalogue({f"job{number}": steps(names) for number, names in enumerate(ids)})


def folded(one: int, other: int) -> int:
    product = one * other
    return product % 2**64 ^ product >> 64


def ids_of_one_hash(count: int) -> list[str]:
    """Ids of 48 bytes to which the hasher of a job's index of elements gives one hash.

    It takes 16 bytes at a time: the first 8 of them, joined with its state, times the other 8. If the first 8 equal the state,
    the other 8 count for nothing. So we look for 16 bytes that lead to a state of letters, and vary what follows these letters.
    """
    dice = Random(SEED)
    while True:
        front = f"{dice.randrange(10**16):016}"
        halves = [int.from_bytes(half.encode(), "little") for half in (front[:8], front[8:])]
        begin = (0x243F6A8885A308D3 + 48) % 2**64
        state = folded(halves[0] ^ begin, halves[1] ^ 0x9E3779B97F4A7C15).to_bytes(8, "little")
        if all(33 <= byte < 127 and byte not in b'"\\' for byte in state):
            return [f"{front}{state.decode()}{number:08}{'.' * 16}" for number in range(count)]


def wide_split(flows: int, executions: int) -> Lines:
    """Job executions of a split of flows, all claimed, then finished in no order."""
    script = Script()
    lists = [{"kind": "flow", "id": f"f{flow}", "elements": [step(f"s{flow}")]} for flow in range(flows)]
    yield catalogue({"j": [{"kind": "split", "id": "p", "flows": lists}]})
    for number in range(executions):
        yield script.call("start", job="j")
        for _ in range(flows):
            yield script.call("claim")
        for place in in_order(list(range(1, flows + 1)), "mixed"):
            yield script.finish(number * flows + place)


def many_open(count: int, order: str) -> Lines:
    """Job executions that are all started, then all claimed, then ended in an order."""
    script = Script()
    yield catalogue({"j": [step("s")]})
    for _ in range(count):
        yield script.call("start", job="j")
    for _ in range(count):
        yield script.call("claim")
    for work in in_order(list(range(1, count + 1)), order):
        yield script.finish(work)


def many_jobs(jobs: int, executions: int) -> Lines:
    """Job executions of many jobs by turns, with a query by the job's name behind each."""
    script = Script()
    names = [f"job{number:03}" for number in range(jobs)]
    yield catalogue({name: [step("s")] for name in names})
    for number in range(executions):
        name = names[number % jobs]
        yield script.call("start", job=name)
        yield script.call("claim")
        yield script.finish(number + 1)
        yield json_text({"ask": "running_executions", "job": name})


def jobs_to_run(steps_of_each: int, starts: int) -> Lines:
    """The input of `batchctl run`: a job of quick steps, started often."""
    yield catalogue({"j": steps([f"s{place}" for place in range(steps_of_each)], "ok")})
    for _ in range(starts):
        yield json_text({"job": "j"})


def inputs_of_lines() -> Inputs:
    """Lines that are no commands."""
    kinds = {
        "refused early, list": ('{"a":1e999,"b":[', "0", "]}"),
        "refused early, members": ('{"a":1e999,', '"b":0', "}"),
        "one name often": ("{", '"a":0', "}"),
        "lists in a list": ('{"a":[', "[0]", "]}"),
    }
    sizes = {"64 KiB": (SHORT_LINE, 300), "16 MiB": (LONG_LINE, 1)}
    return {
        f"{kind}, {size}": partial(no_commands, parts, longest, times)
        for kind, parts in kinds.items()
        for size, (longest, times) in sizes.items()
    }


def inputs_of_parameters() -> Inputs:
    """Starts with parameters. Up to 16 are looked into where they stand, in any order; more only if their names rise."""
    return {
        f"parameters, {count} {order}": partial(with_parameters, count, order, 20_000)
        for count in (3, 16, 17, 40, 64)
        for order in ("rising", "falling", "mixed")
    } | {"parameters, 64 mixed, long": partial(with_parameters, 64, "mixed", 3_000, 256)}


def inputs_of_jobs() -> Inputs:
    """Jobs whose elements or job executions are many, or have long ids."""
    alike = [f"{'x' * 252}{number:04}" for number in range(100)]
    splits = {2: 15_000, 8: 4_000, 9: 3_500, 16: 2_000, 100: 300, 480: 60}
    return {
        "catalogue of 120,000 elements": partial(large_catalogue, 120),
        "ids of one hash": partial(one_after_another, steps(ids_of_one_hash(1000)), 20),
        "ids of 256 bytes, alike": partial(one_after_another, steps(alike), 300),
        "id of 256 bytes": partial(one_after_another, [step("x" * 256)], 30_000),
        "one at a time": partial(one_after_another, [step("s")], 40_000),
        "256 jobs, with queries": partial(many_jobs, 256, 20_000),
        **{f"split of {flows} flows": partial(wide_split, flows, count) for flows, count in splits.items()},
        **{f"40,000 open, ended {order}": partial(many_open, 40_000, order) for order in ("rising", "falling", "mixed")},
    }


SCRIPTS = inputs_of_lines() | inputs_of_parameters() | inputs_of_jobs()
RUNS = "jobs to run"
INPUTS = SCRIPTS | {RUNS: partial(jobs_to_run, 5, 20_000)}


def write_input(name: str, path: Path) -> None:
    """Writes an input, which is the same each time."""
    with path.open("w") as file:
        for line in INPUTS[name]():
            file.write(line + "\n")


def make_input(name: str, path: Path) -> None:
    """Writes an input in a process of its own: a program's peak memory is at least that of the process that starts it."""
    writer = Process(target=write_input, args=(name, path))
    writer.start()
    writer.join()
    if writer.exitcode != 0:
        sys.exit(f"{name}: the input could not be written")


@dataclass(frozen=True)
class Row:
    """Words for the program, the input that it is given, and on how many cores it runs."""

    name: str
    input: str
    words: tuple[str, ...]
    cores: int


def rows() -> list[Row]:
    cores = len(os.sched_getaffinity(0))
    made = [Row(name, name, ("script",), cores) for name in SCRIPTS]
    for count in (1, 2, 4):
        for workers in (1, 2, 3, 4, 5, 8, 16):
            if count <= cores:
                name = f"run, {workers} workers, {count} cores"
                made.append(Row(name, RUNS, ("run", "--workers", str(workers)), count))
    return made


def run(program: Path, words: tuple[str, ...], given: Path) -> tuple[list[float], tuple[int, str]]:
    """Processor seconds, the clock's seconds and peak MiB of a run; its exit status, and a digest of what it wrote."""
    with given.open("rb") as source, tempfile.TemporaryFile() as written:
        begun = time.perf_counter()
        running = subprocess.Popen(
            [program, *words], stdin=source, stdout=written, stderr=subprocess.STDOUT, env=dict[str, str]()
        )
        _, status, used = os.wait4(running.pid, 0)
        seconds = time.perf_counter() - begun
        running.returncode = os.waitstatus_to_exitcode(status)
        written.seek(0)
        digest = hashlib.sha256(written.read()).hexdigest()
    return [used.ru_utime + used.ru_stime, seconds, used.ru_maxrss / 1024], (running.returncode, digest)


def medians(row: Row, programs: list[Path], given: Path, turns: int) -> list[list[float]]:
    """The medians of both programs, which run by turns; ends if they write otherwise."""
    figures: list[list[list[float]]] = [[], []]
    for turn in range(turns):
        written = [(0, ""), (0, "")]
        for which in (0, 1) if turn % 2 == 0 else (1, 0):
            figure, written[which] = run(programs[which], row.words, given)
            figures[which].append(figure)
        if written[0] != written[1] or written[0][0] != 0:
            sys.exit(f"{row.name}: exit status and digest of the output: {written[0]}, then {written[1]}")
    return [[statistics.median(column) for column in zip(*ours)] for ours in figures]


def compare(row: Row, programs: list[Path], given: Path, turns: int) -> bool:
    """Prints a row, and says whether something of it became dearer."""
    old, new = medians(row, programs, given, turns)
    ratios = [after / max(before, 1e-6) for before, after in zip(old, new)]
    cells = [f"{before:8.3f} {after:8.3f} {ratio:5.2f}" for before, after, ratio in zip(old, new, ratios)]
    dearer = [measure for measure, ratio in zip(MEASURES, ratios) if ratio > MOST_DEARER]
    print(f"{row.name:32} {' | '.join(cells)}{'  dearer: ' + ', '.join(dearer) if dearer else ''}", flush=True)
    return bool(dearer)


def compare_all(wanted: list[Row], programs: list[Path], turns: int) -> bool:
    """Prints all rows, and says whether something became dearer."""
    print(f"{'':32} {'processor seconds':^23} | {'by the clock':^23} | {'peak MiB':^23}")
    cores = sorted(os.sched_getaffinity(0))
    dearer, made = False, ""
    with tempfile.TemporaryDirectory(prefix="dear-inputs-") as folder:
        given = Path(folder) / "input"
        for row in wanted:
            if made != row.input:
                make_input(made := row.input, given)
            os.sched_setaffinity(0, cores[: row.cores])
            dearer |= compare(row, programs, given, turns)
            os.sched_setaffinity(0, cores)
    return dearer


def main() -> int:
    parser = argparse.ArgumentParser(description=__doc__, formatter_class=argparse.RawDescriptionHelpFormatter)
    parser.add_argument("old", type=Path)
    parser.add_argument("new", type=Path)
    parser.add_argument("--turns", type=int, default=5)
    parser.add_argument("--only", nargs="+", default=[""])
    words = parser.parse_args()
    programs = [checkout.resolve() / "crates" / "batchctl" / "out" / "batchctl" for checkout in (words.old, words.new)]
    for program in programs:
        if not os.access(program, os.X_OK):
            sys.exit(f"there is no program {program}: `rt ci`, or `rt run` in crates/batchctl, makes it")
    wanted = [row for row in rows() if row.name.startswith(tuple(words.only))]
    return 1 if compare_all(wanted, programs, words.turns) else 0


if __name__ == "__main__":
    sys.exit(main())
