"""What a fault of a chunk's reader, processor or writer comes to (Jakarta Batch 2.1, "Chunk Exception Handling")."""

from __future__ import annotations

import math
from collections.abc import Mapping, Sequence
from dataclasses import dataclass
from enum import Enum
from typing import Any


class Remedy(Enum):
    """What is done about a fault. To roll back is to run the whole group again, item by item."""

    FAIL = "fail"
    SKIP = "skip"
    RETRY = "retry"
    ROLL_BACK = "roll back"


@dataclass(frozen=True)
class ExceptionClasses:
    """Classes of faults, by the names that are included and those that are excluded."""

    include: frozenset[str]
    exclude: frozenset[str]

    def has(self, classes: Sequence[str]) -> bool:
        """Whether a fault of these classes, the nearest first, is one of them: the nearest that is named at all says so."""
        nearest = next((name for name in classes if name in self.include or name in self.exclude), None)
        return nearest is not None and nearest not in self.exclude


def classes_of(given: Mapping[str, Sequence[str]]) -> ExceptionClasses:
    return ExceptionClasses(frozenset(given.get("include", ())), frozenset(given.get("exclude", ())))


class FaultRules:
    """Decides by the classes of faults, and counts what it has allowed against the limits of a step."""

    def __init__(self, chunk: Mapping[str, Any]) -> None:
        self._skippable = classes_of(chunk.get("skippable-exception-classes", {}))
        self._retryable = classes_of(chunk.get("retryable-exception-classes", {}))
        self._without_rollback = classes_of(chunk.get("no-rollback-exception-classes", {}))
        self._skips_left: float = chunk.get("skip-limit", math.inf)
        self._retries_left: float = chunk.get("retry-limit", math.inf)

    def remedy(self, classes: Sequence[str], is_rerun: bool) -> Remedy:
        """What is done about one more fault. While a group is run again, to skip comes first, else to try again does."""
        may_skip = self._skips_left > 0 and self._skippable.has(classes)
        may_retry = self._retries_left > 0 and self._retryable.has(classes)
        if may_skip and (is_rerun or not may_retry):
            self._skips_left -= 1
            return Remedy.SKIP
        if may_retry:
            self._retries_left -= 1
            return Remedy.RETRY if self._without_rollback.has(classes) else Remedy.ROLL_BACK
        return Remedy.FAIL
