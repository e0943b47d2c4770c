"""The numbers of the queues of an embedded service: a file of its data folder names each queue that was ever there.

A number is given once, in turn, and never again. The default queue has the number 0, and doesn't stand in the file.
"""

from __future__ import annotations

import json
from collections.abc import Iterable
from pathlib import Path

from job_host.protocol.lines import compact
from job_host.service.keepers.keeper import Fatal
from job_host.service.stores.private_folder import make_private
from job_host.service.versions.files import sync_folder, write_whole

FILE = "queues"


def folder_of(data: Path, number: int) -> Path:
    """The folder of a queue's history. That of the default queue is the data folder itself."""
    return data if number == 0 else data / f"queue-{number}"


def kept_numbers(data: Path) -> dict[str, int]:
    """The numbers of the queues that were ever there, by their names. Raises Fatal if the file is damaged."""
    path = data / FILE
    if not path.exists():
        return {}
    try:
        rows = [json.loads(line) for line in path.read_text("ascii").splitlines()]
        numbers = {str(row["name"]): int(row["number"]) for row in rows}
    except (ValueError, KeyError, TypeError) as fault:
        raise Fatal(f"DamagedQueues: {path} has a line that names no queue: {fault}") from fault
    if sorted(numbers.values()) != list(range(1, len(rows) + 1)):
        raise Fatal(f"DamagedQueues: {path} doesn't have each number from 1 on once")
    return numbers


def numbers_with(data: Path, names: Iterable[str]) -> dict[str, int]:
    """The numbers of these queues, and of those that were there before. New ones are on the disk when this returns."""
    kept = kept_numbers(data)
    new = [name for name in names if name not in kept]
    numbers = {**kept, **{name: len(kept) + place for place, name in enumerate(new, 1)}}
    if new:
        make_private(data)
        write_whole(data / FILE, b"".join(compact({"number": n, "name": name}) + b"\n" for name, n in numbers.items()))
        sync_folder(data)
    return numbers
