#!/usr/bin/python3
"""`jobhost serve` for nights that are pressed: by its clock a day passes in seconds, and it compacts when it is asked to.

The first word is a file with two numbers: how many seconds its clock is ahead of the machine's, and how many compactions were
asked for. Moments, days of retention, the time of `--compact-at` and the age of request keys go by that clock. Leases and
takeovers go by none. Rounds of retention follow each other soon, and old request keys are dropped soon.
"""

from __future__ import annotations

import sys
import time
from datetime import datetime
from datetime import time as time_of_day
from pathlib import Path

import soak_service

from job_host.service.history.engine import Engine
from job_host.service.keepers import compacting, embedded, postgres, postgres_compacting
from job_host.service.keepers.due import Due
from job_host.service.retention import rounds

# In place of a second, of an hour and of a minute.
LOOK_SECONDS = 0.05
ROUND_SECONDS = 0.5
# In place of an hour.
PRUNE_SECONDS = 5.0
# In place of 20.
PURGES_A_SECOND = 50
# So old what was read of the file may be.
KNOWN_SECONDS = 0.02


class Orders:
    """The file, which is replaced whole."""

    def __init__(self, path: Path) -> None:
        self._path = path
        self._read_at = 0.0
        self._ahead = 0.0
        self._compactions = 0

    def _read(self) -> None:
        now = time.monotonic()
        if not self._read_at or now > self._read_at + KNOWN_SECONDS:
            ahead, compactions = self._path.read_text().split()
            self._read_at, self._ahead, self._compactions = now, float(ahead), int(compactions)

    @property
    def ahead(self) -> float:
        self._read()
        return self._ahead

    @property
    def compactions(self) -> int:
        self._read()
        return self._compactions


def press(orders: Orders) -> None:
    """Sets the clock of this process ahead."""
    seconds, nanoseconds = time.time, time.time_ns
    setattr(time, "time", lambda: seconds() + orders.ahead)
    setattr(time, "time_ns", lambda: nanoseconds() + int(orders.ahead * 1e9))


class OrderedDue(Due):
    """When the log is compacted: also if the file asks for one more compaction than it did."""

    orders: Orders

    def __init__(self, at: time_of_day | None) -> None:
        super().__init__(at, lambda: datetime.fromtimestamp(time.time()))
        self._seen = self.orders.compactions

    def is_now(self, engine: Engine) -> bool:
        is_asked, self._seen = self.orders.compactions > self._seen, self.orders.compactions
        return super().is_now(engine) or (is_asked and not engine.is_compact)


def main() -> int:
    OrderedDue.orders = Orders(Path(sys.argv.pop(1)))
    press(OrderedDue.orders)
    for module in (embedded, postgres):
        setattr(module, "Due", OrderedDue)
    for compacts in (compacting, postgres_compacting):
        setattr(compacts, "LOOK_SECONDS", LOOK_SECONDS)
    for keeper in (embedded, postgres):
        setattr(keeper, "PRUNE_SECONDS", PRUNE_SECONDS)
    for name, value in {
        "PERIOD_SECONDS": ROUND_SECONDS,
        "RETRY_SECONDS": ROUND_SECONDS,
        "PURGES_A_SECOND": PURGES_A_SECOND,
    }.items():
        getattr(rounds, name)
        setattr(rounds, name, value)
    return soak_service.main()


if __name__ == "__main__":
    sys.exit(main())
