"""What may happen very often is said seldom."""

from __future__ import annotations

import time
from collections.abc import Callable

SELDOM_SECONDS = 60.0


def seldom(say: Callable[[str], None], seconds: float = SELDOM_SECONDS) -> Callable[[str], None]:
    """Says the first of many texts, and then no more than one in so many seconds, with how many were left out."""
    last = time.monotonic() - seconds
    left_out = 0

    def note(text: str) -> None:
        nonlocal last, left_out
        if time.monotonic() - last < seconds:
            left_out += 1
            return
        say(f"{text} ({left_out} more were left out before)" if left_out else text)
        last, left_out = time.monotonic(), 0

    return note
