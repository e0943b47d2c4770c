"""Moments of an archive's lines, as numbers."""

from __future__ import annotations

from datetime import datetime, timezone

# In milliseconds.
DAY = 86_400_000


def milliseconds(moment: str | None) -> int:
    """A moment as it is written, in milliseconds since 1970. One that no calendar has is written as its number."""
    if moment is None:
        return 0
    if moment.isdigit():
        return int(moment)
    # A hundred thousand at once: the general form takes ten times as long.
    when = datetime.fromisoformat(moment.replace("/", "-", 2).replace(" +0000", "+00:00"))
    return round(when.timestamp() * 1000)


def begin_of_day(day: str) -> int:
    """The moment at which a day begins in UTC, as 2026-11-27. Raises ValueError."""
    return int(datetime.strptime(day, "%Y-%m-%d").replace(tzinfo=timezone.utc).timestamp()) * 1_000
