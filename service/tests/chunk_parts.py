"""Parts of a chunk within a test: they answer as processes do, and note each line that they are told."""

from __future__ import annotations

import json
from collections.abc import Callable, Iterable, Iterator, Mapping
from pathlib import Path
from typing import Any

from job_host.worker.artifacts import Ended
from job_host.worker.chunks import Chunk
from job_host.worker.listeners import Listeners
from job_host.worker.output import Tail
from job_host.worker.parts import read_answer
from job_host.worker.steps import StepRun

Answer = dict[str, Any]
# What a part says at an item: a class, several classes, or none. It may be said again and again.
Said = str | list[str] | None
Faults = Mapping[str, Iterable[Said]]


class FakePart:
    """A part that answers by a function."""

    def __init__(self, name: str, answer: Callable[[Answer], Answer], lines: list[tuple[str, Answer]]) -> None:
        self.name, self._answer, self._lines = name, answer, lines

    async def ask(self, do: str, **members: Any) -> Answer:
        asked = {"do": do, **members}
        self._lines.append((self.name, json.loads(json.dumps(asked))))
        return read_answer(self.name, do, json.dumps(self._answer(asked)).encode())

    async def close(self, at_once: bool = False) -> None:
        self._lines.append((self.name, {"do": "closed"}))


class Bench:
    """A chunk that reads numbers from 1, and what came of it.

    `faults` has what is said in turn at `read N`, `process N` and `write N` (of a group with N). A reader that is at fault at
    `read N` has lost the number; at `busy N` it still has it. The processor makes texts of the numbers.
    """

    def __init__(self, count: int, faults: Faults = {}, dropped: Iterable[int] = ()) -> None:
        self.count, self.dropped = count, set(dropped)
        self._faults: dict[str, Iterator[Said]] = {key: iter(said) for key, said in faults.items()}
        self.lines: list[tuple[str, Answer]] = []
        self.written: list[list[str]] = []
        self.reported: list[tuple[str, dict[str, int]]] = []
        self.tail = Tail()
        self.place = 0
        # A stop that the worker hears of by a heartbeat, or by the reply to a report.
        self.stop_at: Callable[[], bool] = lambda: False
        self.says_stop = False
        # The answers of other parts, by their uses.
        self.others: dict[str, Callable[[Answer], Answer]] = {}

    async def start(self, use: str) -> FakePart:
        answer = {"reader": self._reader, "processor": self._processor, "writer": self._writer, **self.others}[use]
        return FakePart(use, answer, self.lines)

    def remove(self) -> None:
        self.lines.append(("files", {"do": "removed"}))

    def _fault(self, key: str) -> Answer | None:
        said = next(self._faults.get(key, iter(())), False)
        if said is False:
            return None
        return {"fault": key} if said is None else {"fault": key, "class": said}

    def _reader(self, asked: Answer) -> Answer:
        if asked["do"] == "open":
            self.place = int(asked["checkpoint"] or 0)
        elif asked["do"] == "checkpoint":
            return {"checkpoint": str(self.place)}
        elif asked["do"] == "read":
            return self._read()
        return {}

    def _read(self) -> Answer:
        number = self.place + 1
        if number > self.count:
            return self._fault("read end") or {"end": True}
        busy = self._fault(f"busy {number}")
        if busy is not None:
            return busy
        self.place = number
        return self._fault(f"read {number}") or {"item": number}

    def _processor(self, asked: Answer) -> Answer:
        if asked["do"] != "process":
            return {}
        number = asked["item"]
        return self._fault(f"process {number}") or ({} if number in self.dropped else {"item": str(number)})

    def _writer(self, asked: Answer) -> Answer:
        for item in asked.get("items", []):
            fault = self._fault(f"write {item}")
            if fault is not None:
                return fault
        if asked["do"] == "write":
            self.written.append(asked["items"])
        return {}

    async def run(
        self, chunk: Mapping[str, Any] = {}, item_count: int = 3, listeners: Listeners | None = None, **work: Any
    ) -> Ended:
        """Runs the chunk to its end, by what a claim tells of it."""
        claimed = {"work": self.work(item_count, **work), "step": {"chunk": chunk}}
        made = Chunk(Path(), claimed, self.tail, self.report, listeners, lambda: self.stop_at(), self)
        try:
            return await made.run()
        finally:
            await made.close()

    async def run_step(self, step: Mapping[str, Any], item_count: int = 3, **work: Any) -> Ended:
        """Runs the chunk as a worker does, with the listeners of its step and its time."""
        claimed = {"work": {"kind": "chunk", **self.work(item_count, **work)}, "step": step}

        def chunk(listeners: Listeners) -> Chunk:
            return Chunk(Path(), claimed, self.tail, self.report, listeners, lambda: self.stop_at(), self)

        return await StepRun(Path(), claimed, self.tail, chunk, self).run()

    def listens(self, *events: str, use: str = "listener-1", faults: Mapping[str, Said] = {}) -> dict[str, str]:
        """A listener that wants these events. At some of them it is at fault."""

        def answer(asked: Answer) -> Answer:
            if asked["do"] == "open":
                return {"events": list(events)}
            if asked["do"] in faults:
                return {"fault": asked["do"], "class": faults[asked["do"]]}
            return {}

        self.others[use] = answer
        return {"ref": use, "use": use}

    @staticmethod
    def work(item_count: int = 3, **more: Any) -> dict[str, Any]:
        parts = {"reader": "rows", "processor": "texts", "writer": "table"}
        return {"work": 7, "execution": 1, "element": "copy", "item-count": item_count, "checkpoint": None, **parts, **more}

    async def report(self, mark: str, metrics: dict[str, int]) -> bool:
        self.reported.append((mark, metrics))
        return self.says_stop

    @property
    def marks(self) -> list[str]:
        return [mark for mark, _ in self.reported]

    def sums(self, ended: Ended) -> dict[str, int]:
        """The sums of all metrics, without those that are 0."""
        sums: dict[str, int] = {}
        for metrics in [*(metrics for _, metrics in self.reported), ended.metrics or {}]:
            for name, count in metrics.items():
                sums[name] = sums.get(name, 0) + count
        return {name: count for name, count in sums.items() if count}

    def told(self, *uses: str) -> list[str]:
        """What these parts were told, in short: of an item, or of items, and of a checkpoint."""
        return [short(use, asked) for use, asked in self.lines if use in uses]


def short(use: str, asked: Answer) -> str:
    """A line in few words."""
    names = ("item", "result", "items", "group", "end", "outcome", "exit")
    words = [use, asked["do"], *(str(asked[name]) for name in names if name in asked)]
    if asked["do"] == "open" and "checkpoint" in asked:
        words.append(str(asked["checkpoint"]))
    return " ".join(words)
