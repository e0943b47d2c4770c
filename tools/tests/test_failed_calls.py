"""Each call of a file fails in turn (log_trial/failed_calls.py); and a program that takes a failed sync for a made one."""

from __future__ import annotations

from collections.abc import Callable
from pathlib import Path

import pytest

from log_trial.failed_calls import Failer, check
from program import Program, Wrong

Library = Callable[[str], Path]


def test_no_failed_call_loses_a_line(program: Program, library: Library, folder: Path, tell: Callable[[str], None]) -> None:
    for told in check(Failer(program.under(library("fail_a_call")), folder)):
        tell(told)


def test_a_failed_sync_is_not_swallowed(program: Program, library: Library, folder: Path) -> None:
    wrong = program.under(library("wrong_syncs"), library("fail_a_call"), WRONG_SYNCS="swallowed")
    with pytest.raises(Wrong, match="a sync failed, status 0"):
        list(check(Failer(wrong, folder)))
