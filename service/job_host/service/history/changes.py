"""Which job executions the last operations are on, so that a page that shows others needn't be read again."""

from __future__ import annotations

from collections import deque
from collections.abc import Iterable

# So many changes are known: streams of events look several times a second.
MOST_KNOWN = 4_096
# So many are named at once.
MOST_NAMED = 1_000


class Changes:
    """Operations by rising number, each with a job execution that it is on."""

    def __init__(self, most: int = MOST_KNOWN) -> None:
        self._rows: deque[tuple[int, int]] = deque(maxlen=most)
        self._since = 0

    def begin(self, operation: int) -> None:
        """Begins behind an operation: what those before it are on isn't known."""
        self._since = operation

    def note(self, operation: int, executions: Iterable[int]) -> None:
        self._rows.extend((operation, execution) for execution in executions)

    def between(self, before: int, until: int) -> list[int] | None:
        """The job executions of the operations behind `before`, up to `until`. None if they are too many, or forgotten."""
        if before < self._since:
            return None
        found: set[int] = set()
        for operation, execution in reversed(self._rows):
            if operation <= before or len(found) > MOST_NAMED:
                return sorted(found) if len(found) <= MOST_NAMED else None
            if operation <= until:
                found.add(execution)
        return None if len(self._rows) == self._rows.maxlen or len(found) > MOST_NAMED else sorted(found)
