"""When a job is started by itself: the moments of its cron in a time zone.

A local time that a day skips counts as the next one that there is. One that a day has twice counts the first time alone.
Several that come to one moment are one.
"""

from __future__ import annotations

from collections.abc import Iterator
from dataclasses import dataclass
from datetime import date, datetime, timedelta, timezone
from zoneinfo import ZoneInfo

from job_host.catalogue.cron import ALL_DAYS, Cron

CATCH_UP, SKIP = "catchUp", "skip"
DAY = timedelta(days=1)
SECOND = timedelta(seconds=1)
# No calendar goes on behind it, and no schedule before it.
LAST_YEAR, FIRST_YEAR = 9_998, 2


@dataclass(frozen=True)
class Schedule:
    """A cron in a time zone, what becomes of moments that were missed, and the parameters of each start."""

    cron: Cron
    zone: str = "UTC"
    missed: str = SKIP
    parameters: tuple[tuple[str, str], ...] = ()
    date_parameter: str = ""
    moment_parameter: str = ""

    def local(self, moment: int) -> datetime:
        """A moment, in milliseconds since 1970, by the clocks of the zone."""
        return datetime.fromtimestamp(moment // 1000, timezone.utc).astimezone(ZoneInfo(self.zone))

    def parameters_at(self, moment: int) -> dict[str, str]:
        """The parameters of the start at a moment: those that are fixed, its local date, and its local time with the offset."""
        local = self.local(moment)
        told = {self.date_parameter: f"{local:%Y-%m-%d}", self.moment_parameter: local.isoformat(timespec="minutes")}
        return {**dict(self.parameters), **{name: value for name, value in told.items() if name}}

    def after(self, moment: int, most: int) -> list[int]:
        """The next moments behind one, so many at most, in milliseconds since 1970."""
        found = list[int]()
        for day in days_from(self.local(moment).date() - DAY, DAY):
            found += [one for one in self.of_day(day) if one > (found[-1] if found else moment)]
            if len(found) >= most:
                break
        return found[:most]

    def between(self, since: int, until: int, most: int) -> list[int]:
        """The last moments behind one and up to another one, so many at most, rising."""
        found = set[int]()
        for day in days_from(self.local(until).date() + DAY, -DAY):
            found.update(one for one in self.of_day(day) if since < one <= until)
            if len(found) > most or day < self.local(since).date() - DAY:
                break
        return sorted(found)[-most:]

    def of_day(self, day: date) -> list[int]:
        """The moments of a local day, rising, in milliseconds since 1970. Of a time that is skipped it is the next one."""
        if not self.cron.has_day(day):
            return []
        zone = ZoneInfo(self.zone)
        return sorted({moment_of(datetime.combine(day, one, zone)) for one in self.cron.times()})


def days_from(day: date, step: timedelta) -> Iterator[date]:
    """The days from one on, as far as a schedule has to look."""
    for number in range(ALL_DAYS):
        if not FIRST_YEAR <= day.year <= LAST_YEAR:
            return
        yield day
        day += step


def moment_of(local: datetime) -> int:
    """The moment of a local time, the first one of two. If it is skipped, the one at which the clocks go on."""
    early, late = (local.replace(fold=fold).astimezone(timezone.utc) for fold in (1, 0))
    is_skipped = early < late
    return 1000 * int((gap_end(early, late, local) if is_skipped else late).timestamp())


def gap_end(before: datetime, behind: datetime, local: datetime) -> datetime:
    """The first moment at which the clocks of a zone have gone on, between one before that and one behind it."""
    zone = local.tzinfo
    offset = behind.astimezone(zone).utcoffset()
    while behind - before > SECOND:
        middle = before + (behind - before) // 2
        middle = middle.replace(microsecond=0)
        if middle <= before:
            middle = before + SECOND
        if middle.astimezone(zone).utcoffset() == offset:
            behind = middle
        else:
            before = middle
    return behind
