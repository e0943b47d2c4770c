"""The moments of a schedule: five fields of cron in a time zone, with the days on which clocks change."""

from __future__ import annotations

from datetime import date, datetime

import pytest

from job_host.catalogue.cron import NotCron, read_cron
from job_host.catalogue.schedules import Schedule


def milliseconds(text: str) -> int:
    return int(datetime.fromisoformat(text).timestamp() * 1_000)


def next_of(cron: str, zone: str, since: str, count: int) -> list[str]:
    """The next moments behind one, by the clocks of the zone."""
    schedule = Schedule(read_cron(cron), zone)
    return [schedule.local(one).isoformat()[:16] for one in schedule.after(milliseconds(since), count)]


@pytest.mark.parametrize(
    ("cron", "expected"),
    [
        ("0 1 * * *", ["2026-12-02T01:00", "2026-12-03T01:00", "2026-12-04T01:00"]),
        ("*/20 0 * * *", ["2026-12-01T00:20", "2026-12-01T00:40", "2026-12-02T00:00"]),
        ("0 12 * * 1-5", ["2026-12-02T12:00", "2026-12-03T12:00", "2026-12-04T12:00"]),
        ("0 12 * * MON,sat", ["2026-12-05T12:00", "2026-12-07T12:00", "2026-12-12T12:00"]),
        ("0 0 * * 0", ["2026-12-06T00:00", "2026-12-13T00:00", "2026-12-20T00:00"]),
        ("0 0 * * 7", ["2026-12-06T00:00", "2026-12-13T00:00", "2026-12-20T00:00"]),
        ("5 4 31 * *", ["2026-12-31T04:05", "2027-01-31T04:05", "2027-03-31T04:05"]),
        ("0 0 29 FEB *", ["2028-02-29T00:00", "2032-02-29T00:00", "2036-02-29T00:00"]),
        # A day of the month or a weekday, if both are named; and both, if one of them is `*/2`.
        ("0 9 3 * FRI", ["2026-12-03T09:00", "2026-12-04T09:00", "2026-12-11T09:00"]),
        ("0 9 */2 * FRI", ["2026-12-11T09:00", "2026-12-25T09:00", "2027-01-01T09:00"]),
        ("1-5/2 8-9 4 12 *", ["2026-12-04T08:01", "2026-12-04T08:03", "2026-12-04T08:05"]),
    ],
)
def test_what_comes_next(cron: str, expected: list[str]) -> None:
    """The 1 December 2026 is a Tuesday. By hand, with a calendar."""
    since = "2026-12-01T12:00+00:00" if "*/20" not in cron else "2026-12-01T00:00+00:00"
    assert next_of(cron, "UTC", since, 3) == expected


def test_a_time_that_is_skipped_is_the_next_one() -> None:
    """In Berlin the clocks go from 2:00 to 3:00 on 2026-03-29. Several times that come to one moment are one."""
    since = "2026-03-28T12:00+00:00"
    assert next_of("30 2 * * *", "Europe/Berlin", since, 2) == ["2026-03-29T03:00", "2026-03-30T02:30"]
    night = ["2026-03-29T01:30", "2026-03-29T03:00", "2026-03-29T03:30"]
    assert next_of("*/30 1-3 29 3 *", "Europe/Berlin", "2026-03-29T00:15+00:00", 3) == night
    # By half an hour, and by a whole day: 2011-12-30 wasn't in Samoa.
    assert next_of("15 2 * * *", "Australia/Lord_Howe", "2026-10-03T00:00+00:00", 1) == ["2026-10-04T02:30"]
    assert next_of("0 12 30 * *", "Pacific/Apia", "2011-12-28T00:00+00:00", 1) == ["2011-12-31T00:00"]


def test_a_time_that_comes_twice_counts_once() -> None:
    """In Berlin the clocks go from 3:00 to 2:00 on 2026-10-25. The first time counts."""
    schedule = Schedule(read_cron("30 2 * * *"), "Europe/Berlin")
    found = schedule.after(milliseconds("2026-10-24T12:00+00:00"), 2)
    assert [schedule.local(one).isoformat() for one in found] == ["2026-10-25T02:30:00+02:00", "2026-10-26T02:30:00+01:00"]


def test_moments_between_two_are_the_last_ones() -> None:
    schedule = Schedule(read_cron("0 1 * * *"), "Europe/Berlin")
    since, until = milliseconds("2026-03-19T12:00+00:00"), milliseconds("2026-03-23T00:00+00:00")
    all_of = schedule.between(since, until, 100)
    assert [schedule.local(one).day for one in all_of] == [20, 21, 22, 23] and schedule.between(since, until, 2) == all_of[-2:]
    # The first is behind `since`, and the last may be `until`.
    assert schedule.between(all_of[0], all_of[2], 100) == all_of[1:3]
    assert schedule.between(until, until, 100) == []


def test_parameters_carry_the_date_of_the_zone() -> None:
    """Shortly before midnight in UTC it is the next day in Berlin."""
    schedule = Schedule(read_cron("30 0 * * *"), "Europe/Berlin", parameters=(("a", "b"),), date_parameter="date")
    (at,) = schedule.after(milliseconds("2026-11-26T12:00+00:00"), 1)
    assert schedule.parameters_at(at) == {"a": "b", "date": "2026-11-27"}
    more = Schedule(schedule.cron, "Europe/Berlin", moment_parameter="at")
    assert more.parameters_at(at) == {"at": "2026-11-27T00:30+01:00"}


@pytest.mark.parametrize(
    ("cron", "told"),
    [
        ("", "five fields"),
        ("* * * *", "five fields"),
        ("* * * * * *", "five fields"),
        ("@daily", "five fields"),
        ("60 * * * *", "a minute from 0 to 59"),
        ("* 24 * * *", "an hour from 0 to 23"),
        ("* * 0 * *", "a day of the month from 1 to 31"),
        ("* * * 13 *", "a month from 1 to 12, or JAN to DEC"),
        ("* * * MAI *", "a month from 1 to 12, or JAN to DEC"),
        ("* * * * 8", "a weekday from 0 to 7, or SUN to SAT"),
        ("5/2 * * * *", "a minute with a step from 1 on"),
        ("*/0 * * * *", "a minute with a step from 1 on"),
        ("9-5 * * * *", "a minute as a range that rises"),
        ("1,,2 * * * *", "a minute as `\\*`"),
        ("-1 * * * *", "a minute as `\\*`"),
        ("0 0 30 2 *", "a day that comes"),
    ],
)
def test_what_isnt_cron_is_refused(cron: str, told: str) -> None:
    with pytest.raises(NotCron, match=f"^{told}"):
        read_cron(cron)


def test_a_day_has_each_time_once() -> None:
    assert len(Schedule(read_cron("* * * * *")).of_day(date(2026, 12, 1))) == 1_440
    assert len(Schedule(read_cron("* * * * *"), "Europe/Berlin").of_day(date(2026, 3, 29))) == 1_440 - 60
    assert len(Schedule(read_cron("* * * * *"), "Europe/Berlin").of_day(date(2026, 10, 25))) == 1_440
