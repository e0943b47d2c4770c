"""What the leader remembers of its policies beside the history: marks, and notifications that wait for their receiver."""

from __future__ import annotations

from abc import ABC, abstractmethod
from collections.abc import Mapping, Sequence
from typing import NamedTuple

# The names of the marks up to which moments jobs were started by their schedules begin so.
SCHEDULE_MARKS = "schedule:"


class NewNotification(NamedTuple):
    """One to keep: its id, the job execution that it is of or 0, and its body, which is JSON in ASCII."""

    id: str
    execution: int
    body: str


class Notification(NamedTuple):
    """One that waits: its number in the order in which they were kept, its body, and how often it wasn't taken."""

    number: int
    id: str
    body: str
    attempts: int


class PolicyNotes(ABC):
    """A store of marks and notifications. Its calls raise a problem if the store fails, or another instance leads."""

    @abstractmethod
    async def marks(self) -> dict[str, int]:
        """All marks by their names."""

    @abstractmethod
    async def add(self, notifications: Sequence[NewNotification], marks: Mapping[str, int]) -> None:
        """Keeps notifications and marks, all or nothing. One whose id waits already isn't kept again."""

    @abstractmethod
    async def count(self) -> int:
        """How many notifications wait."""

    @abstractmethod
    async def due(self, now: int, most: int) -> list[Notification]:
        """The oldest of each job execution, as far as these are due at a moment; the oldest first, so many at most."""

    @abstractmethod
    async def drop(self, number: int) -> None:
        """Drops a notification that was taken."""

    @abstractmethod
    async def postpone(self, number: int, due: int) -> None:
        """Notes that a notification wasn't taken, and when it is due again, in milliseconds since 1970."""
