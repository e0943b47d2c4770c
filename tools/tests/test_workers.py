"""`batchctl run --workers N` has N workers: with each more a run makes one thread more."""

from __future__ import annotations

from collections.abc import Callable
from pathlib import Path

import pytest

from memory_trial.growth import STARTS
from program import DONE, Program, want

MOST_WORKERS = 16
DEFAULT_WORKERS = 2


def threads_of(program: Program, counted: Path, *words: str) -> int:
    """How many threads a run makes. The library writes a byte for each."""
    counted.unlink(missing_ok=True)
    ended = program.run(["run", *words], STARTS)
    want(f"run {' '.join(words)}", (ended.status, ended.faults), (DONE, b""))
    return counted.stat().st_size if counted.exists() else 0


@pytest.fixture
def counts(program: Program, library: Callable[[str], Path], folder: Path) -> Callable[..., int]:
    """Counts the threads of a run."""
    counted = folder / "threads"
    under = program.under(library("count_threads"), THREAD_COUNT=str(counted))
    return lambda *words: threads_of(under, counted, *words)


def test_each_worker_is_a_thread_and_two_are_usual(counts: Callable[..., int]) -> None:
    found = [counts("--workers", str(workers)) for workers in range(1, MOST_WORKERS + 1)]
    want(f"the threads of 1 to {MOST_WORKERS} workers", found, [found[0] + others for others in range(MOST_WORKERS)])
    want("the threads with no number", counts(), found[DEFAULT_WORKERS - 1])
