"""Jobs change while clients go on and parts are killed: some changes here, and many by service/soak_changes.py."""

from __future__ import annotations

import asyncio
from dataclasses import replace
from pathlib import Path

import pytest
from soak_changes import NAMES, Part, Seen, Started, check, soak
from soak_check import Wrong

CHANGES, CLIENTS, KILLS = 10, 3, 2


def soaked(folder: Path, over_postgres: bool) -> Seen:
    folder.mkdir()
    part = Part(folder, over_postgres)
    try:
        return asyncio.run(soak(part, CHANGES, CLIENTS, KILLS, 3))
    finally:
        part.remove()


def test_changes_under_load_lose_nothing(tmp_path: Path, has_log: None) -> None:
    seen = soaked(tmp_path / "soak", False)
    assert len(seen.files) == CHANGES and sum(seen.applied.values()) == CHANGES + len(NAMES)
    assert seen.starts and seen.restarts and seen.claims
    assert sum(count for what, count in seen.answers.items() if what.startswith("killed")) == KILLS


@pytest.mark.postgres
def test_changes_under_load_over_postgres_lose_nothing(tmp_path: Path) -> None:
    seen = soaked(tmp_path / "soak", True)
    assert len(seen.files) == CHANGES and seen.starts and seen.claims


def test_what_is_wrong_is_noticed(tmp_path: Path, has_log: None) -> None:
    """A restart under another version, a version that is lost, and another version's properties."""
    folder = tmp_path / "soak"
    folder.mkdir()
    part = Part(folder, False)
    try:
        seen = asyncio.run(soak(part, 2, 1, 0, 5))
        one = Started(1, 1, "nightly", 1, 1, 1)
        falsified = [
            replace(seen, starts=[replace(one, version=2, most=2)]),
            replace(seen, starts=[replace(one, version=2)]),
            replace(seen, starts=[one, one]),
            replace(seen, claims=[(1, "nightly", 1, "2 of d")]),
            replace(seen, applied=seen.applied + type(seen.applied)(nightly=1)),
            replace(seen, withdrawn={*NAMES} - seen.withdrawn),
        ]
        for wrong in falsified:
            with pytest.raises(Wrong):
                asyncio.run(check(part, wrong))
    finally:
        part.remove()
