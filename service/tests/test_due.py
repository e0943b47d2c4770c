"""When a log is compacted: each day, also if the clock changes, and by itself no sooner than an hour after another attempt."""

from __future__ import annotations

from collections.abc import Callable
from datetime import datetime, time
from typing import Any, cast

import pytest

from job_host.commands.command_line import main, make_parser, serve_settings
from job_host.service.history.engine import Engine
from job_host.service.history.log_file import Head, KnownBase
from job_host.service.keepers.due import Daily, Due

AT = time(2, 30)


def moment(text: str) -> datetime:
    return datetime.strptime(text, "%m-%d %H:%M").replace(year=2026)


def came(begin: str, *moments: str) -> list[bool]:
    daily = Daily(AT, moment(begin))
    return [daily.has_come(moment(one)) for one in moments]


def test_it_comes_once_a_day() -> None:
    assert came("11-30 02:00", "11-30 02:29", "11-30 02:30", "11-30 02:30", "11-30 23:59", "12-01 02:31") == [
        *(False, True, False, False, True)
    ]


def test_what_was_before_the_start_is_not_made_up_for() -> None:
    assert came("11-30 03:00", "11-30 03:01", "12-01 02:29", "12-01 02:30") == [False, False, True]


def test_a_day_without_the_time_has_it_later() -> None:
    """The clock goes from 2:00 to 3:00 for the summer."""
    assert came("03-29 01:00", "03-29 01:59", "03-29 03:00", "03-29 03:01", "03-30 02:30") == [False, True, False, True]


def test_a_day_that_has_the_time_twice_has_it_once() -> None:
    """The clock goes back from 3:00 to 2:00."""
    assert came("10-25 02:00", "10-25 02:30", "10-25 02:59", "10-25 02:00", "10-25 02:30", "10-26 02:30") == [
        *(True, False, False, False, True)
    ]


def test_a_clock_that_goes_back_over_the_time() -> None:
    assert came("11-30 02:00", "11-30 02:30", "11-29 23:50", "11-30 02:30", "12-01 02:30") == [True, False, False, True]


def test_a_clock_that_was_far_ahead() -> None:
    """Else it would never come again."""
    assert came("11-30 02:00", "12-28 10:00", "11-30 10:00", "11-30 11:00", "12-01 02:30") == [True, False, False, True]


def test_days_that_were_slept_through_count_once() -> None:
    assert came("11-20 02:00", "11-30 10:00", "11-30 10:01") == [True, False]


class Still:
    """How many operations there are, and where the base is."""

    def __init__(self, entered: int, based: int = 0, rows: int = 0) -> None:
        self.entered, self.based, self.is_compact = entered, based, entered == based
        self.base = KnownBase(Head(based, 1, 1, 1, rows), "", 0) if based else None


def is_now(one: Due, *given: int) -> bool:
    return one.is_now(cast(Engine, Still(*given)))


def test_many_operations_behind_the_base_are_enough() -> None:
    one = Due(None)
    assert [is_now(one, 99_999), is_now(one, 100_000)] == [False, True]
    assert [is_now(one, 300_000, 200_001), is_now(one, 300_000, 200_000)] == [False, True]
    assert [is_now(one, 400_000, 200_000, 199_999), is_now(one, 400_000, 200_000, 199_998)] == [False, True]


def test_by_itself_never_twice_within_an_hour(monkeypatch: pytest.MonkeyPatch) -> None:
    now = 1_000.0
    clock: Callable[[], float] = lambda: now
    monkeypatch.setattr("job_host.service.keepers.due.time.monotonic", clock)
    one = Due(None)
    one.note_tried()
    found = []
    for now in (1_000.0, 4_599.0, 4_600.0):
        found.append(is_now(one, 200_000))
    assert found == [False, False, True]


def test_each_day_also_if_it_was_tried_just_now() -> None:
    now = moment("11-30 02:00")
    one = Due(AT, lambda: now)
    one.note_tried()
    now = moment("11-30 02:30")
    assert [is_now(one, 5), is_now(one, 5)] == [True, False]
    now = moment("12-01 02:30")
    assert [is_now(one, 5, 5), is_now(one, 6, 5)] == [False, False]


@pytest.mark.parametrize("text", ["24:00", "2", "02:60", "noon", ""])
def test_what_is_no_time_of_the_day(text: str, capsys: pytest.CaptureFixture[str]) -> None:
    with pytest.raises(SystemExit):
        main(["serve", "--catalogue", "none.json", "--compact-at", text])
    assert "is no time of the day, as 03:30" in capsys.readouterr().err


def test_a_history_in_postgres_has_no_log(capsys: pytest.CaptureFixture[str]) -> None:
    given: Any = ["serve", "--catalogue", "none.json", "--postgres", "postgresql://nowhere", "--compact-at", "03:30"]
    assert main([*given, "--forget-keys"]) == 2
    assert "--forget-keys is for a log" in capsys.readouterr().err
    assert serve_settings(make_parser("serve").parse_args(given)).compact_at == time(3, 30)
