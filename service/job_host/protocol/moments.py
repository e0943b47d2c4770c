"""How moments are written for people and in answers: as Open Liberty writes them."""

from __future__ import annotations

from datetime import datetime, timezone

# By this form a moment is read again.
MOMENT = "%Y/%m/%d %H:%M:%S.%f %z"


def moment(milliseconds: int | None) -> str | None:
    """A moment as Open Liberty writes it, in UTC. One that no calendar has is written as its number."""
    if milliseconds is None:
        return None
    try:
        when = datetime.fromtimestamp(milliseconds // 1000, timezone.utc)
    except (ValueError, OverflowError, OSError):
        return str(milliseconds)
    return f"{when:%Y/%m/%d %H:%M:%S}.{milliseconds % 1000:03d} +0000"
