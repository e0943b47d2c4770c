"""The five fields of cron: minute, hour, day of the month, month and weekday, and the days and times that they name."""

from __future__ import annotations

import re
from collections.abc import Sequence
from dataclasses import dataclass
from datetime import date, time, timedelta

MONTHS = tuple("JAN FEB MAR APR MAY JUN JUL AUG SEP OCT NOV DEC".split())
WEEKDAYS = tuple("SUN MON TUE WED THU FRI SAT".split())
PART = re.compile(r"(?:(\*)|([0-9]{1,2}|[A-Za-z]{3})(?:-([0-9]{1,2}|[A-Za-z]{3}))?)(?:/([0-9]{1,2}))?")
# Each day of the calendar comes within so many days: the 29 February on each weekday, too.
ALL_DAYS = 14_610
FIRST_DAY = date(2000, 1, 1)
SUNDAY = 7


class NotCron(ValueError):
    """A text isn't five fields of cron. The text of the fault says what was expected."""


@dataclass(frozen=True)
class Field:
    """One of the fields: how it is told, its bounds, and names that may stand for its numbers, from `first_name` on."""

    told: str
    least: int
    most: int
    names: Sequence[str] = ()
    first_name: int = 0

    def number(self, word: str) -> int:
        """A number within the bounds, or a name. Raises NotCron."""
        upper = word.upper()
        found = int(word) if word.isdigit() else self.names.index(upper) + self.first_name if upper in self.names else -1
        if not self.least <= found <= self.most:
            names = f", or {self.names[0]} to {self.names[-1]}" if self.names else ""
            raise NotCron(f"{self.told} from {self.least} to {self.most}{names}")
        return found

    def numbers(self, text: str) -> frozenset[int]:
        """What a field names. Raises NotCron."""
        return frozenset(number for part in text.split(",") for number in self._part(part))

    def _part(self, text: str) -> range:
        found = PART.fullmatch(text)
        if found is None:
            raise NotCron(f"{self.told} as `*`, `5`, `1-5`, `*/10` or `1-31/2`, with commas between them")
        every, first, last, step = found.groups()
        if step is not None and (int(step) == 0 or (every is None and last is None)):
            raise NotCron(f"{self.told} with a step from 1 on, behind `*` or a range")
        least = self.least if every else self.number(first)
        most = self.most if every else self.number(last or first)
        if least > most:
            raise NotCron(f"{self.told} as a range that rises")
        return range(least, most + 1, int(step or 1))


FIELDS = (
    Field("a minute", 0, 59),
    Field("an hour", 0, 23),
    Field("a day of the month", 1, 31),
    Field("a month", 1, 12, MONTHS, 1),
    Field("a weekday", 0, SUNDAY, WEEKDAYS),
)


@dataclass(frozen=True)
class Cron:
    """Fields that were read. With `is_either` a day is named by its number or by its weekday, else by both."""

    text: str
    minutes: tuple[int, ...]
    hours: tuple[int, ...]
    days: frozenset[int]
    months: frozenset[int]
    weekdays: frozenset[int]
    is_either: bool

    def has_day(self, day: date) -> bool:
        if day.month not in self.months:
            return False
        by_number, by_weekday = day.day in self.days, day.isoweekday() % SUNDAY in self.weekdays
        return by_number or by_weekday if self.is_either else by_number and by_weekday

    def times(self) -> list[time]:
        """The times of a day, rising."""
        return [time(hour, minute) for hour in self.hours for minute in self.minutes]


def read_cron(text: str) -> Cron:
    """Five fields with white space between them. Raises NotCron, also if no day is ever named."""
    words = text.split()
    if len(words) != len(FIELDS):
        raise NotCron("five fields: minute, hour, day of the month, month and weekday")
    minutes, hours, days, months, weekdays = (field.numbers(word) for field, word in zip(FIELDS, words))
    is_either = not words[2].startswith("*") and not words[4].startswith("*")
    times = tuple(sorted(minutes)), tuple(sorted(hours))
    cron = Cron(" ".join(words), *times, days, months, frozenset(one % SUNDAY for one in weekdays), is_either)
    if not any(cron.has_day(FIRST_DAY + timedelta(number)) for number in range(ALL_DAYS)):
        raise NotCron("a day that comes")
    return cron
