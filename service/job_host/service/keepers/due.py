"""When the log is compacted: at a time of each day, and by itself if much stands behind its base."""

from __future__ import annotations

import time
from collections.abc import Callable
from datetime import date, datetime, timedelta
from datetime import time as time_of_day

from job_host.service.history.engine import Engine

# So many operations behind the base are many, if they are more than the base's lines.
MANY = 100_000
# By itself the log is compacted no sooner after another attempt.
LEAST_SECONDS = 3_600.0
DAY = timedelta(days=1)


class Daily:
    """A time of day by the machine's clock. It comes once a day, also if the clock changes for the summer."""

    def __init__(self, at: time_of_day | None, now: datetime) -> None:
        self._at = at
        # The last day on which it has come, or before which the service wasn't there.
        self._day = self._day_of(now)

    def _day_of(self, now: datetime) -> date:
        """The last day on which the time has come by now."""
        return now.date() if self._at is None or now.time() >= self._at else now.date() - DAY

    def has_come(self, now: datetime) -> bool:
        """Whether the time has come since the last call. A clock that was far ahead begins anew."""
        day = self._day_of(now)
        has_come = self._at is not None and day > self._day
        if has_come or day < self._day - DAY:
            self._day = day
        return has_come


class Due:
    """Whether the log is to be compacted now. `note_tried` is told of each attempt."""

    def __init__(self, at: time_of_day | None, clock: Callable[[], datetime] = datetime.now) -> None:
        self._clock = clock
        self._daily = Daily(at, clock())
        self._tried_at: float | None = None

    def note_tried(self) -> None:
        self._tried_at = time.monotonic()

    def is_now(self, engine: Engine) -> bool:
        """Nothing is gained if no operation stands behind the base."""
        has_come = self._daily.has_come(self._clock())
        return not engine.is_compact and (has_come or self._is_by_itself(engine))

    def _is_by_itself(self, engine: Engine) -> bool:
        lines = 0 if engine.base is None else engine.base.head.rows + 1
        behind = engine.entered - engine.based
        rests = self._tried_at is not None and time.monotonic() < self._tried_at + LEAST_SECONDS
        return behind >= MANY and behind > lines and not rests
