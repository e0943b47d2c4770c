"""The moments of operations, and a warning if the clock that they are read from has jumped."""

from __future__ import annotations

import logging
import time

from job_host.protocol.moments import moment

log = logging.getLogger(__name__)

# In milliseconds. A clock that is set now and then jumps less far.
JUMP = 60_000
# A history may rest for so long before its last moment counts as far away.
REST = 31 * 86_400_000

STAYS = "moments never go back, so later operations have moments from there on: docs/SERVICE.md"


def clock() -> int:
    """The machine's clock, in milliseconds since 1970."""
    return time.time_ns() // 1_000_000


def uptime() -> int:
    """Milliseconds since the machine began, asleep or not: nobody sets them."""
    return time.clock_gettime_ns(time.CLOCK_BOOTTIME) // 1_000_000


class Moments:
    """Moments from the clock in milliseconds. Each is greater than the one before it, so no two operations have one.

    `last` is the last moment of the history, and 0 if it is new.
    """

    def __init__(self, last: int = 0) -> None:
        self.last = last
        self._is_behind = False
        self._begun = clock() - uptime()
        if last and clock() >= last + REST:
            log.warning(
                "%s, far ahead of the last operation's moment %s: if it is wrong, %s", told(clock()), moment(last), STAYS
            )
        self.look()

    def next(self) -> int:
        self.last = max(self.last + 1, clock())
        return self.last

    def look(self) -> None:
        """Warns of a clock that has jumped, once for each jump. It is called now and then."""
        now, begun = clock(), clock() - uptime()
        if begun >= self._begun + JUMP:
            before = moment(now - (begun - self._begun))
            log.warning("%s, has jumped ahead from %s: if it is wrong, %s", told(now), before, STAYS)
        is_behind = now <= self.last - JUMP
        if is_behind and not self._is_behind:
            log.warning("%s, is far behind the last operation's moment %s: %s", told(now), moment(self.last), STAYS)
        self._begun, self._is_behind = begun, is_behind


def told(now: int) -> str:
    return f"this machine's clock, {moment(now)}"
