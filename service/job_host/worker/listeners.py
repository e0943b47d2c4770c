"""Listeners of a step: executables that are told events, and answer each (Jakarta Batch 2.1, "Step-level Listeners")."""

from __future__ import annotations

import asyncio
from collections.abc import Mapping, Sequence
from typing import Any

from job_host.worker.parts import Asked, Fault, Starts

OPERATIONS = ("Read", "Process", "Write")
EVENTS = (
    *("beforeStep", "afterStep", "beforeChunk", "afterChunk", "onError"),
    *(form.format(name) for name in OPERATIONS for form in ("before{}", "after{}", "on{}Error")),
    *(form.format(name) for name in OPERATIONS for form in ("onSkip{}Item", "onRetry{}Exception")),
)


def told_of(fault: Fault) -> dict[str, Any]:
    """What an event tells of a fault."""
    return {"fault": fault.text, "class": list(fault.classes)}


class Listener:
    """One listener, and the events that it wants. One at fault isn't told any more."""

    def __init__(self, name: str, part: Asked) -> None:
        self.name, self.part = name, part
        self.events: frozenset[str] = frozenset()

    async def open(self, work: Mapping[str, Any]) -> None:
        told = await self.part.ask("open", partition=work.get("partition"), work=work["work"])
        events = told.get("events")
        if not isinstance(events, list) or not all(isinstance(event, str) for event in events):
            raise Fault(f'{self.name}: open is answered the list "events"')
        unknown = [event for event in events if event not in EVENTS]
        if unknown:
            raise Fault(f"{self.name}: a listener of a step has no event {unknown[0]!r}: it has {', '.join(EVENTS)}")
        self.events = frozenset(events)

    async def tell(self, event: str, members: Mapping[str, Any]) -> None:
        try:
            await self.part.ask(event, **members)
        except Fault:
            self.events = frozenset()
            raise


class Listeners:
    """All listeners of a work item, in written order."""

    def __init__(self) -> None:
        self._listeners: list[Listener] = []
        self._wanted: frozenset[str] = frozenset()

    async def open(self, starter: Starts, given: Sequence[Mapping[str, str]], work: Mapping[str, Any]) -> None:
        """Starts them all, and hears what they want. Raises Fault and OSError."""
        for one in given:
            listener = Listener(one["ref"], await starter.start(one["use"]))
            self._listeners.append(listener)
            await listener.open(work)
            self._wanted |= listener.events

    async def tell(self, event: str, **members: Any) -> None:
        """Tells each one that wants it. Raises the first fault after all were told."""
        if event not in self._wanted:
            return
        faults = list[Fault]()
        for listener in self._listeners:
            if event in listener.events:
                try:
                    await listener.tell(event, members)
                except Fault as fault:
                    faults.append(fault)
        if faults:
            raise faults[0]

    async def close(self, at_once: bool = False) -> None:
        await asyncio.gather(*(listener.part.close(at_once) for listener in self._listeners))
