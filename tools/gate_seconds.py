"""Runs the gate, and prints what it took: seconds by the clock and processor minutes, of the whole or by crate.

    python3 tools/gate_seconds.py [--log LOG]                        the gate, `.ci/run`, as a whole
    python3 tools/gate_seconds.py --by-crate [--log LOG] [CRATE..]   `rt ci CRATE` of each crate, the lowest first

The figures tell of a first run: with kit 13f `rt ci` keeps on this machine what it has passed, in whichever checkout, and a
later run proves and tries only what changed. So begin with a machine that has kept nothing of these crates. By crate, a row has
the proof of one crate, its tests and its must-fail edits: what lies below was kept by the rows before. Beside it stand the
tests and programs of the crates below, which `rt ci` runs again each time. A row says so if its crate was not proved in this
run. With kit 13b `rt ci` keeps nothing and takes no crate, so that only the whole can be timed.

Processor time is what the system counts for the command and all that it waited for. What the commands write goes to the file
LOG (`gate.log` in the system's temporary folder, if none is given). The exit status is the gate's, or that of the first `rt ci`
that fails, behind which no other crate is timed.
"""

from __future__ import annotations

import argparse
import resource
import subprocess
import sys
import tempfile
import time
from dataclasses import dataclass
from pathlib import Path

from repository import ROOT, uses_by_crate, with_those_above


@dataclass(frozen=True)
class Timed:
    """What a command took, what it wrote, and how it ended."""

    seconds: float
    processors: float
    said: list[str]
    status: int


def processor_seconds() -> float:
    """What the commands that have ended took of the processors, and all that they waited for."""
    used = resource.getrusage(resource.RUSAGE_CHILDREN)
    return used.ru_utime + used.ru_stime


def timed(command: list[str], log: Path) -> Timed:
    """Runs a command at the top of the repository, with its output behind what the log holds."""
    before = log.stat().st_size
    began, taken = time.monotonic(), processor_seconds()
    with log.open("ab") as out:
        status = subprocess.run(command, cwd=ROOT, stdout=out, stderr=subprocess.STDOUT, check=False).returncode
    seconds, processors = time.monotonic() - began, processor_seconds() - taken
    said = log.read_bytes()[before:].decode(errors="replace").splitlines()
    return Timed(seconds, processors, said, status)


def what_was_done(crate: str, run: Timed) -> str:
    """What the end of `rt ci` says of this run, and whether the crate was proved in it."""
    told = [line.removeprefix("rt: ok").strip(" :,;") for line in run.said if line.startswith("rt: ok")]
    if run.status != 0:
        return f"failed, with status {run.status}"
    kept = "" if f"rt: {crate} proved" in run.said else "kept by an earlier run, in whole or in part: "
    return kept + (told[-1] if told else "")


def time_gate(log: Path) -> int:
    """Times the gate as a whole, and gives its exit status."""
    gate = timed([str(ROOT / ".ci" / "run")], log)
    print(f"{gate.seconds:.0f} s by the clock, {gate.processors / 60:.0f} processor minutes")
    for line in gate.said:
        if line.startswith("rt: ok"):
            print(line)
    if gate.status != 0:
        print(f"the gate failed, with status {gate.status}: {log}")
    return gate.status


def time_crates(crates: list[str], log: Path) -> int:
    """Times `rt ci` of each of these crates, and gives the exit status of the last."""
    print("| crate | by the clock (s) | processors (s) | |\n|---|---|---|---|")
    seconds = processors = 0.0
    for crate in crates:
        run = timed(["rt", "ci", crate], log)
        seconds, processors = seconds + run.seconds, processors + run.processors
        print(f"| {crate} | {run.seconds:.0f} | {run.processors:.0f} | {what_was_done(crate, run)} |", flush=True)
        if run.status != 0:
            return run.status
    print(f"| all | {seconds:.0f} | {processors:.0f} | |")
    return 0


def main() -> int:
    parser = argparse.ArgumentParser(description=__doc__.splitlines()[0])
    parser.add_argument("--log", type=Path, default=Path(tempfile.gettempdir()) / "gate.log")
    parser.add_argument("--by-crate", action="store_true", help="time `rt ci` of each crate")
    parser.add_argument("crates", nargs="*", help="the crates to time, with --by-crate; all, if none is given")
    words = parser.parse_args()
    if words.crates and not words.by_crate:
        parser.error("crates are timed with --by-crate")
    if unknown := set(words.crates) - set(uses_by_crate()):
        parser.error(f"crates.txt does not name {', '.join(sorted(unknown))}")
    words.log.write_bytes(b"")
    if not words.by_crate:
        return time_gate(words.log)
    wanted = words.crates or uses_by_crate()
    return time_crates([crate for crate in with_those_above(set(uses_by_crate())) if crate in wanted], words.log)


if __name__ == "__main__":
    sys.exit(main())
