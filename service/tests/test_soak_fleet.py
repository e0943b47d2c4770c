"""Workers are killed, and nobody is called: a few of them here, and 200 by service/soak_fleet.py."""

from __future__ import annotations

import asyncio
import random
from pathlib import Path

import pytest
import soak_fleet
from soak_check import Wrong
from soak_fleet import Plan, Ran, Site, Workers, check_runs, soak

PLAN = Plan(workers=4, rounds=1, pause=2.5, killed=3, wide=1, partitions=4)
LEASE = 3


def test_jobs_end_though_workers_are_killed(tmp_path: Path, monkeypatch: pytest.MonkeyPatch) -> None:
    for name, seconds in (("LEASE", LEASE), ("LEAST_SECONDS", 2), ("MOST_SECONDS", 2)):
        monkeypatch.setattr(soak_fleet, name, seconds)
    site = Site(tmp_path, False, PLAN.partitions)
    workers = Workers(site, random.Random(1))
    try:
        counts = asyncio.run(soak(site, workers, PLAN))
    finally:
        workers.kill(len(workers.living))
        site.remove()
    assert counts["workers that were killed"] == 3 and counts["job instances"] >= 1
    assert counts["restarts by the policy"] >= 1 and counts["artifacts that a kill ended"] >= 1


ENDED = [Ran(1, 1, "load-0"), Ran(2, 1, "load-1"), Ran(3, 1, "report-")]


def test_a_killed_run_and_its_repetition_are_right() -> None:
    check_runs([*ENDED, Ran(4, 1, "load-1")], ENDED, [1], 2)


@pytest.mark.parametrize("begun, ended", [([*ENDED, ENDED[1]], ENDED), (ENDED, ENDED[1:]), (ENDED, ENDED[:2])])
def test_what_is_wrong_is_noticed(begun: list[Ran], ended: list[Ran]) -> None:
    """A work item that was run twice, a partition that wasn't run to its end, and a step that wasn't."""
    with pytest.raises(Wrong):
        check_runs(begun, ended, [1], 2)
