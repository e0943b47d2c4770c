#!/usr/bin/env python3
"""Measures `jobhost verify`, and tries it: operations of a long chained log are changed, dropped, moved, doubled and added.

    python3 benches/verify_chain.py [--operations N] [--folder DIR]

A log has so many operations (100,000): a start, a claim and checkpoints, whose replies are all the same. It is chained as a
service does that at its start. Then one operation is planted otherwise, in the log's first, middle and last part, and all that
batchctl checks is mended. `jobhost verify` has to name just that one. The program is JOBHOST_BATCHCTL, else this clone's.

Printed: the bytes of the log and of its chain, and seconds of the clock for the chain, and for verifying the log as it is and
with each plant. The status is 1 if a plant isn't named.

The log stands in DIR, else in the folder of temporary files, with room for three.
"""

from __future__ import annotations

import argparse
import sys
import tempfile
import time
from collections.abc import Iterator
from pathlib import Path

SERVICE = Path(__file__).resolve().parent.parent / "service"
sys.path[:0] = [str(SERVICE), str(SERVICE / "tests")]

from chained import Operations, Plant, forge, make_chained  # noqa: E402

from job_host.commands.program import find_batchctl  # noqa: E402
from job_host.service.history.chain import CHAIN_NAME  # noqa: E402
from job_host.service.history.verified import verify  # noqa: E402
from job_host.service.keepers.chaining import Chaining  # noqa: E402

# The place of the last operation that is planted otherwise, counted from the end: it is moved, and doubled, behind that.
FROM_END = 10


def changed(number: int) -> Plant:
    def plant(operations: Operations) -> None:
        operations[number - 1] = operations[number - 1].replace(b"farm/one", b"farm/two")

    return plant


def dropped(number: int) -> Plant:
    def plant(operations: Operations) -> None:
        del operations[number - 1]

    return plant


def moved(number: int, place: int) -> Plant:
    return lambda operations: operations.insert(place - 1, operations.pop(number - 1))


def doubled(number: int, place: int) -> Plant:
    return lambda operations: operations.insert(place - 1, operations[number - 1])


def added(place: int) -> Plant:
    return lambda operations: operations.insert(place - 1, operations[place - 1].replace(b'"data":"', b'"data":"9'))


def plants(count: int) -> Iterator[tuple[Plant, str]]:
    """What is planted in a log of so many operations, and what has to be told of it."""
    for number in (3, count // 2, count - FROM_END):
        place = number + FROM_END // 2
        yield changed(number), f"operation {number} was changed"
        yield dropped(number), f"operation {number} was dropped"
        yield moved(number, place), f"operation {number} was moved: it stands at place {place}"
        yield moved(place, number), f"operation {place} was moved: it stands at place {number}"
        yield doubled(number, place), f"operation {number} was doubled: it stands at place {place}, too"
        yield added(number), f"an operation was added at place {number}, before operation {number}"


def verified(folder: Path) -> tuple[list[str], float]:
    """What differs, and how long it took to find it."""
    begun = time.monotonic()
    with tempfile.TemporaryDirectory(dir=folder.parent) as scratch:
        found = verify(folder, "history.log", find_batchctl(None), None, Path(scratch))
    return found.differences, time.monotonic() - begun


def is_named(path: Path, data: bytes, plant: Plant, wanted: str) -> bool:
    """Whether a plant is named, and nothing else."""
    path.write_bytes(data)
    forge(path, plant)
    found, seconds = verified(path.parent)
    print(f"{seconds:6.2f} s  {'; '.join(found)}", flush=True)
    return found == [wanted]


def run(folder: Path, count: int) -> int:
    path = make_chained(folder, count)
    data, chain = path.read_bytes(), path.with_name(CHAIN_NAME)
    begun = time.monotonic()
    chain.unlink()
    Chaining(path).begin()
    print(f"{count:,} operations: a log of {len(data):,} bytes, and a chain of {chain.stat().st_size:,} bytes")
    print(f"{time.monotonic() - begun:6.2f} s  to chain all of them at once")
    found, seconds = verified(folder)
    print(f"{seconds:6.2f} s  to verify the log as it is")
    named = [is_named(path, data, plant, wanted) for plant, wanted in plants(count)]
    print(f"{sum(named)} of {len(named)} plants are named")
    return 0 if not found and all(named) else 1


def main() -> int:
    parser = argparse.ArgumentParser(description="Measures and tries `jobhost verify` over a long log.")
    parser.add_argument("--operations", type=int, default=100_000, metavar="N", help="how many (default: %(default)s)")
    parser.add_argument("--folder", type=Path, metavar="DIR", help="where the log stands (default: the temporary folder)")
    given = parser.parse_args()
    with tempfile.TemporaryDirectory(dir=given.folder, prefix="chain-") as folder:
        return run(Path(folder) / "data", given.operations)


if __name__ == "__main__":
    sys.exit(main())
