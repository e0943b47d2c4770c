"""Prints what a crate's first check on this machine spent its time on: the slowest functions first.

    python3 tools/slow_functions.py CRATE [COUNT]

It runs `rt check --jobs 1` in a copy of the repository's sources, with nothing of `out/`, and notes when each line comes: the
check prints one as the proof of a function, a type or an impl ends. So the time between two lines is what the second one took.
Lines of the crates below come first, and are not counted.

The figures are of a first check alone. A check begins with what checks in other copies on this machine kept, so a function
that was checked here before, as it stands, has a line at once, which tells nothing. It says how many lines came so.
CONTRIBUTING.md says what makes a function slow.
"""

from __future__ import annotations

import re
import subprocess
import sys
import tempfile
import time
from collections.abc import Iterator
from pathlib import Path

from repository import copy_of, uses_by_crate

# So many seconds pass between two looks at what the check has written.
LOOK = 0.05
# A line that comes so many seconds behind the one before, or fewer, came at once.
AT_ONCE = 2 * LOOK


def lines_of(check: subprocess.Popen[bytes], written: Path) -> Iterator[tuple[float, str]]:
    """The lines that a check writes into a file, with the seconds from its begin at which each was seen."""
    began, seen = time.monotonic(), 0
    running = True
    while running:
        running = check.poll() is None
        whole = written.read_bytes().rpartition(b"\n")[0].decode(errors="replace").splitlines()
        for line in whole[seen:]:
            yield time.monotonic() - began, line
        seen = len(whole)
        time.sleep(LOOK if running else 0)


def seconds_by_name(crate: str, lines: list[tuple[float, str]]) -> list[tuple[float, str]]:
    """What each function, type and impl of the crate took, in the order of the lines. The first is left out: nothing says when
    the check of this crate began."""
    ours = [(came, found[1]) for came, line in lines if (found := re.match(rf"(\w+ {crate}::\S+): ", line))]
    return [(came - before, name) for (before, _), (came, name) in zip(ours, ours[1:])]


def print_table(crate: str, lines: list[tuple[float, str]], count: int) -> None:
    took = seconds_by_name(crate, lines)
    print("| function | seconds |\n|---|---|")
    for seconds, name in sorted(took, reverse=True)[:count]:
        print(f"| {name} | {seconds:.1f} |")
    at_once = sum(seconds <= AT_ONCE for seconds, _ in took)
    print(f"\n{len(took)} lines, {sum(seconds for seconds, _ in took):.0f} seconds, of a first check on this machine.")
    print(f"{at_once} lines came at once and tell nothing: kept by an earlier check on this machine, or quick.")


def main(crate: str, count: int = 20) -> int:
    if crate not in uses_by_crate():
        print(f"slow_functions: crates.txt does not name {crate}", file=sys.stderr)
        return 2
    with tempfile.TemporaryDirectory(prefix="slow-functions-") as folder:
        written = Path(folder) / "check.log"
        place = copy_of({crate}, Path(folder)) / crate
        with written.open("wb") as out:
            check = subprocess.Popen(["rt", "check", "--jobs", "1"], cwd=place, stdout=out, stderr=subprocess.STDOUT)
            try:
                lines = list(lines_of(check, written))
            finally:
                check.terminate()
                check.wait()
        print_table(crate, lines, count)
        if check.returncode != 0:
            print(f"slow_functions: `rt check` ended with status {check.returncode}", file=sys.stderr)
    return check.returncode


if __name__ == "__main__":
    if len(sys.argv) not in (2, 3):
        sys.exit(__doc__)
    sys.exit(main(sys.argv[1], *map(int, sys.argv[2:])))
