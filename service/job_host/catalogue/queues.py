"""The queues of a service, as the file of `--queues` names them, each with its bounds."""

from __future__ import annotations

import re
from collections.abc import Callable
from dataclasses import dataclass
from pathlib import Path

from job_host.catalogue.forms import MOST_COUNT, likely, quoted
from job_host.catalogue.text import Members, NotJson, Reader, Source, Value, decoded
from job_host.catalogue.tree import shown

DEFAULT_QUEUE = "default"
MOST_RUNNING, MOST_BUSY, LABELS = "mostRunning", "mostBusy", "labels"
NAME = re.compile(r"[A-Za-z0-9][A-Za-z0-9._-]{0,63}")
NAMED = "1 to 64 letters, digits, points, dashes and underscores, with a letter or a digit in front"
MOST_QUEUES, MOST_LABELS = 64, 64


@dataclass(frozen=True)
class QueueBounds:
    """How many job executions of a queue may be unfinished, and how many of its work items busy, at a time.

    A worker without one of the labels gets nothing of the queue.
    """

    most_running: int | None = None
    most_busy: int | None = None
    labels: tuple[str, ...] = ()


class QueuesRefused(Exception):
    """The file of the queues is at fault. `lines` has a line for each fault."""

    def __init__(self, lines: list[str]) -> None:
        super().__init__("; ".join(lines))
        self.lines = lines


class QueuesReader:
    """Reads one file. `faults` has a line for each fault, with its place."""

    def __init__(self, name: str, data: bytes) -> None:
        text, broken = decoded(data)
        self._source = Source(name, text)
        self.faults: list[str] = []
        self.queues: dict[str, QueueBounds] = {}
        try:
            if broken is not None:
                raise broken
            self._read(Reader(text).read())
        except NotJson as fault:
            self._fault(fault.at, fault.expected, fault.found)

    def _fault(self, at: int, expected: str, found: str, near: str = "") -> None:
        meant = f"; did you mean `{near}`?" if near else ""
        self.faults.append(f"{self._source.name}:{self._source.place(at)}: expected {expected}, found {found}{meant}")

    def _wrong(self, value: Value, expected: str) -> None:
        self._fault(value.at, expected, f"`{self._source.quote(value)}`")

    def _read(self, root: Value) -> None:
        if not isinstance(root.held, Members):
            self._wrong(root, "an object, with a member for each queue")
            return
        for name, at in root.held.repeated:
            self._fault(at, "each queue once", shown(name))
        for name, member in root.held.named.items():
            if not NAME.fullmatch(name):
                self._fault(member.at, f"the name of a queue, {NAMED}", shown(name))
            self.queues[name] = self._bounds(member.value)
        if len(self.queues.keys() | {DEFAULT_QUEUE}) > MOST_QUEUES:
            self._fault(root.at, f"at most {MOST_QUEUES} queues, with the default one", f"{len(self.queues)}")

    def _bounds(self, value: Value) -> QueueBounds:
        read: dict[str, Callable[[Value, str], object]] = {
            MOST_RUNNING: self._count,
            MOST_BUSY: self._count,
            LABELS: self._labels,
        }
        if not isinstance(value.held, Members):
            self._wrong(value, "an object, the bounds of the queue")
        for name, member in value.members.items():
            if name not in read:
                near = likely(name, read)
                self._fault(member.at, f"{quoted(tuple(read))} in the bounds of a queue", shown(name), near)
        found = {name: read[name](member.value, name) for name, member in value.members.items() if name in read}
        labels = found.get(LABELS)
        running, busy = [one if isinstance(one := found.get(name), int) else None for name in (MOST_RUNNING, MOST_BUSY)]
        return QueueBounds(running, busy, labels if isinstance(labels, tuple) else ())

    def _count(self, value: Value, name: str) -> int | None:
        held = value.held
        if isinstance(held, bool) or not isinstance(held, int) or not 1 <= held <= MOST_COUNT:
            self._wrong(value, f'a whole number from 1 to {MOST_COUNT} as "{name}"')
            return None
        return held

    def _labels(self, value: Value, name: str) -> tuple[str, ...]:
        if not isinstance(value.held, list) or not 1 <= len(value.held) <= MOST_LABELS:
            self._wrong(value, f'a list of 1 to {MOST_LABELS} labels as "{name}"')
            return ()
        for one in value.items:
            if not isinstance(one.held, str) or not NAME.fullmatch(one.held):
                self._wrong(one, f"a label, {NAMED}")
        return tuple(dict.fromkeys(one.held for one in value.items if isinstance(one.held, str)))


def read_queues(path: Path) -> dict[str, QueueBounds]:
    """The queues of a file, by their names and in its order, the default one first. Raises OSError, and QueuesRefused."""
    reader = QueuesReader(str(path), path.read_bytes())
    if reader.faults:
        raise QueuesRefused(reader.faults)
    default = reader.queues.pop(DEFAULT_QUEUE, QueueBounds())
    return {DEFAULT_QUEUE: default, **reader.queues}
