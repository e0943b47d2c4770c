"""A group of a chunk: its items are read and processed one by one, and written together; what a fault comes to meanwhile."""

from __future__ import annotations

from collections import Counter
from collections.abc import Awaitable, Callable, Mapping
from dataclasses import dataclass
from typing import Any

from job_host.worker.checkpoint_policy import CheckpointPolicy
from job_host.worker.fault_rules import FaultRules, Remedy
from job_host.worker.listeners import Listeners, told_of
from job_host.worker.parts import Asked, Fault

Answer = dict[str, Any]


@dataclass(frozen=True)
class Operation:
    """A call of a part, by the name that it has in events and metrics."""

    name: str

    @property
    def skip_count(self) -> str:
        return f"{self.name.upper()}_SKIP_COUNT"


READ, PROCESS, WRITE = Operation("Read"), Operation("Process"), Operation("Write")


class RollBack(Exception):
    """The group isn't written. It is run again, item by item, unless a stop was asked for."""

    def __init__(self, fault: Fault) -> None:
        super().__init__(str(fault))
        self.fault = fault


class Attempts:
    """Calls of reader, processor and writer: listeners hear of them, and their faults are judged.

    `counts` has the faults that were skipped. `is_rerun` says that a group is run again.
    """

    def __init__(
        self, rules: FaultRules, listeners: Listeners, say: Callable[[str], None], is_stop_asked: Callable[[], bool]
    ) -> None:
        self._rules, self._listeners, self._say, self.is_stop_asked = rules, listeners, say, is_stop_asked
        self.counts = Counter[str]()
        self.is_rerun = False

    async def make(
        self, operation: Operation, call: Callable[[], Awaitable[Answer]], members: Answer, after: Callable[[Answer], Answer]
    ) -> Answer | None:
        """Makes a call until it is answered. Returns none if it is skipped. Raises Fault and RollBack."""
        while True:
            await self._listeners.tell(f"before{operation.name}", **members)
            try:
                answer = await call()
            except Fault as fault:
                if await self._is_skipped(operation, fault, {**members, **told_of(fault)}):
                    return None
            else:
                await self._listeners.tell(f"after{operation.name}", **{**members, **after(answer)})
                return answer

    async def _is_skipped(self, operation: Operation, fault: Fault, told: Answer) -> bool:
        """Whether a fault is skipped; if not, the call is made again. Raises the fault, or RollBack."""
        await self._listeners.tell(f"on{operation.name}Error", **told)
        remedy = self._rules.remedy(fault.classes, self.is_rerun)
        if remedy is Remedy.FAIL:
            raise fault
        if remedy is Remedy.SKIP:
            self._say(f"skipped: {fault}")
            self.counts[operation.skip_count] += 1
            await self._listeners.tell(f"onSkip{operation.name}Item", **told)
            return True
        self._say(f"tried again: {fault}")
        await self._listeners.tell(f"onRetry{operation.name}Exception", **told)
        if remedy is Remedy.ROLL_BACK or self.is_stop_asked():
            raise RollBack(fault)
        return False


class Group:
    """One group. `touched` counts the items that were read or skipped, and one whose read was at fault."""

    def __init__(self, parts: Mapping[str, Asked], names: Mapping[str, str], attempts: Attempts) -> None:
        self._parts, self._names, self._attempts = parts, names, attempts
        self._kept: list[Any] = []
        self._filtered = self._written = self._read = 0
        self.touched = 0
        self.is_at_end = self._is_cut_short = False

    @property
    def metrics(self) -> dict[str, int]:
        counts = {"READ_COUNT": self._read, "FILTER_COUNT": self._filtered, "WRITE_COUNT": self._written}
        return {**counts, "COMMIT_COUNT": 1}

    async def gather(self, policy: CheckpointPolicy) -> None:
        """Reads and processes, until the policy or the end of the reader ends the group."""
        while True:
            await self._next()
            if self.is_at_end or await policy.is_ready(self._read) or self._is_cut_short:
                return

    async def _next(self) -> None:
        self.touched += 1
        told = await self._attempts.make(READ, self._ask_read, {}, lambda answer: answer)
        # A reader may say one fault after another that is skipped, and no item.
        self._is_cut_short = told is None and self._attempts.is_stop_asked()
        if told is not None and "item" not in told:
            self.touched -= 1
            self.is_at_end = True
        elif told is not None:
            self._read += 1
            await self._process(told["item"])

    async def _ask_read(self) -> Answer:
        told = await self._parts["reader"].ask("read")
        if "item" in told:
            return {"item": told["item"]}
        if told.get("end") is not True:
            raise Fault(f"{self._names['reader']}: read is answered an item, or that it is the end")
        return {"end": True}

    async def _process(self, item: Any) -> None:
        """Keeps what is written of an item. A processor that answers no item filters it out."""
        if "processor" not in self._parts:
            self._kept.append(item)
            return
        ask = self._parts["processor"].ask
        told = await self._attempts.make(
            PROCESS, lambda: ask("process", item=item), {"item": item}, lambda answer: {"result": answer.get("item")}
        )
        if told is not None and told.get("item") is not None:
            self._kept.append(told["item"])
        elif told is not None:
            self._filtered += 1

    async def write(self, place: Mapping[str, Any]) -> None:
        """Writes what is kept, with its place. Nothing is written if nothing is kept."""
        if not self._kept:
            return
        ask, items = self._parts["writer"].ask, self._kept
        told = await self._attempts.make(WRITE, lambda: ask("write", items=items, **place), {"items": items}, lambda _: {})
        self._written = len(items) if told is not None else 0
